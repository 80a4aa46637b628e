"""Puts together what parts wrote, and says why it can't be where it can't."""
import bisect
import csv
import io
import os
import re
import subprocess
import tempfile
import tomllib

from . import records
from .parts import Stop, is_done, message_of, read_plan, status_of
from .seeking import Stream

BAD_LINE = re.compile(r"aurora: stream (.*): line ([0-9]+): (\w+)")


def blocks_of(folder):
    """Yields what a part wrote as lists of records."""
    with open(f"{folder}/out", "rb") as file:
        yield from records.blocks(file)


# ---- what parts ended with

def marks_of(part, folder, on_time, told, what="part"):
    """Returns the records of a part that begin with @; stops where it isn't whole, or a BSort left out tuples of which it was said that none does."""
    marks = [record for block in blocks_of(folder) for record in block if record[0] == 64]
    if marks[-1:] != [b"@end\n"]:
        raise Stop(f"{what} {part} isn't whole")
    late = [line for line in marks if line.startswith(b"@late,") and line.rsplit(b",", 1)[1] != b"0\n"]
    if on_time and late:
        raise Stop(f"{what} {part} has tuples that a BSort leaves out ({late[0].decode().strip()}), so its outputs aren't those of the whole: "
                   + told(folder, late[0].split(b",")[1].decode()))
    return marks


def look_at_ends(folders, faults, what="part"):
    """Stops where a part didn't end well. Of each part that a machine failed stand in `faults` the machine and why."""
    for part, folder in enumerate(folders):
        status, said = status_of(folder), faults.get(part, [])
        if is_done(folder):
            continue
        more = "".join(f"; {name}: {why}" for name, why in (said[:-1] if status else said))
        if status:
            where = f" on {said[-1][0]}" if said else ""
            raise Stop(f"{what} {part} ended with status {status}{where}: {message_of(folder)}{more}", status)
        raise Stop(f"{what} {part} has not ended{more}")


def never_in_time(program, folder, box):
    """Returns how many tuples that a BSort of a part is fed have no time in its field that it could ever give, whatever its slack: Null, a
    negative one, one in the future. None where that can't be told."""
    with open(f"{folder}/network.toml", "rb") as text:
        text = text.read()
    net = tomllib.loads(text.decode())
    sorter = next(it for it in net["box"] if it["name"] == box)
    taken = {it["name"] for kind in ("source", "box", "output") for it in net.get(kind, [])}
    name = next(it for it in (f"never{number}" for number in range(len(taken) + 1)) if it not in taken)
    field = sorter["by"]
    more = (f'\n[[box]]\nname = "{name}"\nkind = "filter"\nin = ["{sorter["in"][0]}"]\nwhere = ["{field} >= 0 and {field} <= time"]\n'
            f'[[output]]\nname = "{name}"\nfrom = "{name}.2"\n')
    with tempfile.NamedTemporaryFile(dir=folder, prefix="writing.", suffix=".toml") as file:
        file.write(text + more.encode())
        file.flush()
        said = subprocess.run([program, "run", os.path.basename(file.name)], cwd=folder, stdout=subprocess.PIPE, stderr=subprocess.DEVNULL)
    if said.returncode:
        return None
    return sum(it.startswith(name.encode() + b",") for it in records.records(io.BytesIO(said.stdout)))


def late_words(program):
    """Returns what says of a part and a BSort in it what helps where it leaves out tuples."""
    def told(folder, box):
        try:
            never = never_in_time(program, folder, box)
        except (OSError, ValueError, KeyError, IndexError, StopIteration):
            never = None
        if not never:
            return "give it more slack"
        return f"{never:,} of what it is fed {'has' if never == 1 else 'have'} no time that it can give, but Null, a negative one or one in the future, where no slack helps: put a Filter before it"
    return told


# ---- the answer

class Front:
    """The records of an output that one part has yet to give: some of them, with their times."""

    def __init__(self, folder, output):
        self.blocks, self.start = blocks_of(folder), output + b","
        self.rows, self.times, self.ended = [], [], False
        self.fill()

    def fill(self):
        """Reads on up to the next records of the output."""
        for block in self.blocks:
            if rows := [row for row in block if row.startswith(self.start)]:
                self.rows += rows
                self.times += [int(row.split(b",", 2)[1]) for row in rows]
                return
        self.ended = True

    def taken(self, bound):
        """Takes the records of times before the bound, all where it is None."""
        end = len(self.rows) if bound is None else bisect.bisect_left(self.times, bound)
        rows, times = self.rows[:end], self.times[:end]
        del self.rows[:end], self.times[:end]
        return rows, times


def merged(fronts):
    """Yields the records of an output in the order of time, those of one time part by part, block by block. What comes before the last time of
    each part that has more is there."""
    while fronts:
        bound = min((front.times[-1] for front in fronts if not front.ended), default=None)
        rows, times = [], []
        for front in fronts:
            for whole, some in zip((rows, times), front.taken(bound)):
                whole += some
        yield [rows[at] for at in sorted(range(len(rows)), key=times.__getitem__)]
        for front in fronts:
            if not front.ended and front.times[-1] == bound:
                front.fill()
        fronts = [front for front in fronts if front.rows or not front.ended]


def box_line(marks, box, adds_up):
    """Returns the line of a box for all parts."""
    counts = [int(line.rsplit(b",", 1)[1]) for part in marks for line in part if line.startswith(b"@box,%s," % box.encode())]
    return b"@box,%s,%d\n" % (box.encode(), sum(counts) if adds_up else counts[0]) if counts else b""


def merge(work, answer, program, faults):
    """Writes what the parts make."""
    plan = read_plan(work)
    try:
        merge_parts(work, plan, answer, program, faults)
    except (ValueError, IndexError):
        raise Stop(f"{work} has a part whose `out` no run wrote: take the folder away and begin anew") from None


def merge_parts(work, plan, answer, program, faults):
    folders = [f"{work}/part-{part}" for part in range(plan["parts"])]
    if "slices" in plan:
        return merge_slices(plan, folders, answer, program, faults)
    look_at_ends(folders, faults)
    marks = [marks_of(part, folder, plan["on_time"], late_words(program)) for part, folder in enumerate(folders)]
    for name, whole in plan["outputs"].items():
        for rows in merged([Front(folder, name.encode()) for folder in (folders[:1] if whole else folders)]):
            answer.writelines(rows)
    answer.writelines(box_line(marks, box, adds_up) for box, adds_up in plan["totals"].items())
    told = tuple(b"@box,%s," % box.encode() for box in plan["totals"]) + (b"@end\n",)
    for part, lines in enumerate(marks):
        answer.writelines(b"@part,%d,%s" % (part, line) for line in lines if not line.startswith(told))
    answer.write(b"@end\n")
    answer.flush()


# ---- slices of time

def look_at_slices(plan, folders, faults):
    """Stops where a slice didn't end well: where lines are bad, with the first of the first source, as a run of the whole does."""
    bad = [line for number, folder in enumerate(folders) if status_of(folder) == 6 for line in bad_line(plan, number, message_of(folder))]
    if bad:
        _, line, name, why = min(bad)
        raise Stop(f"stream {name}: line {line}: {why}", 6)
    if None in plan["slices"]["digests"]:
        raise Stop(f"slice {plan['slices']['digests'].index(None)} has not been made: --resume goes on")
    look_at_ends(folders, faults, "slice")


def bad_line(plan, number, message):
    """Yields the line that a slice's message tells, by its number in the whole file, with the source's place."""
    found, places = BAD_LINE.fullmatch(message), plan["time"]["sources"]
    if found and found[1] in places and places[found[1]] < len(plan["slices"]["files"]):
        place = places[found[1]]
        path, size, _ = plan["slices"]["files"][place]
        if os.path.isfile(path) and os.stat(path).st_size == size:
            stream = Stream(found[1], path)
            before = stream.lines_before(plan["slices"]["ranges"][number][place][0])
            stream.close()
            yield list(places).index(found[1]), before + int(found[2]), found[1], found[3]


def look_at_delays(plan, folders):
    """Stops where a tuple came to a BSort later than it was said that any does."""
    most = {}
    for name, (box, place) in plan["time"]["checks"].items():
        for number, folder in enumerate(folders):
            for row in rows_of(folder, name.encode(), 0, None):
                cells = next(csv.reader([row.decode(errors="replace")]))
                most[box] = max(most.get(box, (0, 0)), (int(cells[1]) - int(cells[place]), -number))
    if most:
        box, (delay, number) = max(most.items(), key=lambda it: it[1])
        raise Stop(f"a tuple comes to the BSort {box} {delay} ticks after its time (slice {-number}), and --delay says at most {plan['time']['delay']}: say {delay}")


def rows_of(folder, output, begin, end):
    """Yields the records of an output from a tick on and before another one: they stand in the order of time."""
    def time_of(row):
        return int(row.split(b",", 2)[1])
    start = output + b","
    for block in blocks_of(folder):
        if rows := [row for row in block if row.startswith(start)]:
            first = bisect.bisect_left(rows, begin, key=time_of)
            yield from rows[first:None if end is None else bisect.bisect_left(rows, end, key=time_of)]


def is_within(line, plan, begin, end):
    """Says whether a line of a plan or of a dropped batch is of an epoch or a batch that begins in a slice."""
    cells, time = line.split(b","), plan["time"]
    length, number = (time["epoch"], cells[1]) if cells[0] == b"@plan" else (time["lengths"][int(cells[1])], cells[2])
    return begin <= int(number) * length and (end is None or int(number) * length < end)


def merge_slices(plan, folders, answer, program, faults):
    """Writes what slices make: of each output the records of each slice's own ticks, one slice behind the other; the plans and the batches that were dropped."""
    look_at_slices(plan, folders, faults)
    begins, delay, checks = plan["slices"]["begins"], plan["time"]["delay"], plan["time"]["checks"]
    marks = [marks_of(number, folder, delay is not None, late_words(program), "slice") for number, folder in enumerate(folders)]
    look_at_delays(plan, folders)
    ends = list(zip(begins, [*begins[1:], None]))
    for name in plan["outputs"]:
        for folder, (begin, end) in zip(folders, ends):
            answer.writelines(rows_of(folder, name.encode(), begin, end))
    for word in (b"@plan,", b"@drop,"):
        for lines, (begin, end) in zip(marks, ends):
            answer.writelines(line for line in lines if line.startswith(word) and is_within(line, plan, begin, end))
    late = (b"@late,",) if delay is not None else ()
    answer.writelines(line for line in marks[0] if line.startswith(late))
    told = (b"@plan,", b"@drop,", b"@end\n", *late, *(b"@box,%s," % name.encode() for name in checks))
    for number, lines in enumerate(marks):
        answer.writelines(b"@part,%d,%s" % (number, line) for line in lines if not line.startswith(told))
    answer.write(b"@end\n")
    answer.flush()
