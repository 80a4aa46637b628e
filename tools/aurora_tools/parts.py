"""The folder of a run in parts: its plan, its lock, what stands in each part, and the words that run one."""
import fcntl
import json
import os
import re
import shlex

# What stands in the folder of a part beside its streams, and what a run of it is still writing.
OWN = ("network.toml", "capacities.csv", "run", "out", "message", "status", "slurm")
WRITING = "writing."
RESULTS = ("out", "message", "status")
MOST_PARTS, MOST_SLICES = 1000, 10_000
# Of these statuses the machine is to blame, and not the part: it can't read, its disk, output or memory fails, or the program isn't there.
RUN = """#!/bin/sh
# Runs this part. What it wrote is called `out` once it has ended well, and not before. The status is 0 where it has one beside it
# that the part is to blame for; another is the machine's, and the part may be run again on another one.
cd "${0%%/*}" || exit 126
umask %04o
rm -f out message status
writing=$(mktemp writing.XXXXXX) || exit 10
%s >"$writing" 2>message
ended=$?
[ $ended != 0 ] || mv "$writing" out || ended=10
rm -f "$writing"
echo $ended >status || exit 10
case $ended in [7-9] | 1[0-2] | 12[6-9] | 1[3-9][0-9] | 2[0-9][0-9]) exit $ended ;; esac
"""


class Stop(Exception):
    """What ends the tool: a line, and a status."""

    def __init__(self, why, status=2):
        super().__init__(why)
        self.status = status


def is_own(file):
    """Says whether a part has something else by the name of this file."""
    first = os.path.normpath(file).split(os.sep)[0]
    return first in OWN or first.startswith(WRITING)


def run_text(program, capacities, mask):
    """Returns the text that runs a part, for sh."""
    words = [program, "run", "network.toml", *(["--capacities", "capacities.csv"] if capacities else [])]
    return RUN % (mask, shlex.join(words))


def status_of(folder):
    try:
        with open(f"{folder}/status", encoding="utf-8") as text:
            return int(text.read())
    except (FileNotFoundError, ValueError):
        return None


def message_of(folder):
    try:
        with open(f"{folder}/message", encoding="utf-8", errors="replace") as text:
            return text.read(1 << 16).strip()
    except FileNotFoundError:
        return ""


def is_done(folder):
    return status_of(folder) == 0 and os.path.exists(f"{folder}/out")


def drop_remains(folder):
    """Takes away what runs of a part that were broken off have left."""
    for name in os.listdir(folder):
        if name.startswith(WRITING):
            os.unlink(f"{folder}/{name}")


def private_mask(files):
    """Returns a mask for what is written: whoever may not read one of these files can't read that either, and so with writing."""
    mask = os.umask(0)
    os.umask(mask)
    for file in files:
        mode = os.stat(file).st_mode
        for shift in (0, 3):
            mask |= (0 if mode >> shift & 4 else 7) << shift | (~mode >> shift & 2) << shift
    return mask & 0o777


def locked(work):
    """Takes the lock on a folder and returns it: it is held as long as this or a part that runs here has it open."""
    lock = os.open(f"{work}/lock", os.O_RDWR | os.O_CREAT | os.O_NOFOLLOW, 0o600)
    try:
        fcntl.flock(lock, fcntl.LOCK_EX | fcntl.LOCK_NB)
    except OSError:
        owner = re.sub(rb"[^0-9]", b"", os.read(lock, 20)).decode() or "another"
        os.close(lock)
        raise Stop(f"{work} is in use by process {owner}") from None
    os.ftruncate(lock, 0)
    os.write(lock, b"%d\n" % os.getpid())
    return lock


def write_aside(path, text):
    """Writes a file whole or not at all."""
    with open(f"{path}.new", "w", encoding="utf-8") as file:
        file.write(text)
    os.replace(f"{path}.new", path)


def is_plan(plan):
    """Says whether this has what a plan is asked for, whoever wrote it."""
    def named(it):
        return isinstance(it, dict) and all(isinstance(value, bool) for value in it.values())
    return (isinstance(plan, dict) and type(plan.get("parts")) is int and 1 <= plan["parts"] <= MOST_SLICES and isinstance(plan.get("on_time"), bool)
            and named(plan.get("outputs")) and named(plan.get("totals")) and isinstance(plan.get("made"), bool)
            and bool(re.fullmatch(r"[0-9a-f]{16}", str(plan.get("token"))))
            and ("slices" not in plan or is_time(plan.get("time")) and are_slices(plan["slices"], plan["parts"])))


def are_numbers(it, size=None):
    return isinstance(it, list) and size in (None, len(it)) and all(type(number) is int and number >= 0 for number in it)


def is_time(time):
    """Says whether this has what is asked of slices of a network."""
    return (isinstance(time, dict) and are_numbers([time.get("epoch"), 0 if time.get("delay") is None else time["delay"]]) and are_numbers(time.get("reach"), 4)
            and are_numbers(time.get("lengths")) and isinstance(time.get("checks"), dict) and all(isinstance(it, list) and len(it) == 2 for it in time["checks"].values())
            and isinstance(time.get("sources"), dict) and are_numbers(list(time["sources"].values())))


def are_slices(slices, count):
    """Says whether this has what is asked of so many slices."""
    if not isinstance(slices, dict) or not all(isinstance(slices.get(name), list) for name in ("begins", "ranges", "digests", "files")):
        return False
    begins, ranges, digests, files = (slices[name] for name in ("begins", "ranges", "digests", "files"))
    return (are_numbers(begins, count) and begins[0] == 0 and all(a < b for a, b in zip(begins, begins[1:])) and are_numbers([slices.get("bytes")])
            and len(ranges) == len(digests) == count and all(isinstance(it, list) and len(it) == len(files) and all(are_numbers(two, 2) for two in it) for it in ranges)
            and all(it is None or isinstance(it, list) and len(it) == len(files) for it in digests)
            and all(isinstance(it, list) and len(it) == 3 and isinstance(it[0], str) and are_numbers(it[1:]) for it in files))


def read_plan(work):
    path = f"{work}/plan.json"
    if not os.path.isfile(path):
        raise Stop(f"{work} has no parts")
    try:
        with open(path, encoding="utf-8") as text:
            plan = json.load(text)
    except (ValueError, RecursionError):
        plan = None
    if not is_plan(plan):
        raise Stop(f"{path} isn't whole: take the folder away and begin anew")
    return plan


def write_plan(work, plan):
    write_aside(f"{work}/plan.json", json.dumps(plan))


def hosts_of(work):
    """Returns the machines to which copies of parts have been brought, and from which they haven't been taken away."""
    try:
        with open(f"{work}/hosts", encoding="utf-8") as text:
            return text.read().splitlines()
    except FileNotFoundError:
        return []


def note_hosts(work, names):
    if names:
        write_aside(f"{work}/hosts", "".join(f"{name}\n" for name in names))
    elif os.path.exists(f"{work}/hosts"):
        os.unlink(f"{work}/hosts")
