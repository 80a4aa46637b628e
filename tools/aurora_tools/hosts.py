"""Runs parts, here and on other machines: each machine takes the next part when it has room, and a part that a machine failed goes to another.

To another machine goes one connection of ssh for each part. It brings the part, runs it in a folder of its own, and brings back what the
run wrote; its other end takes that folder away however it ends. As long as it is open the part may run: where this tool ends, or the
connection, what runs at its other end ends too."""
import contextlib
import os
import re
import select
import shutil
import subprocess
import sys
import tarfile
import tempfile
import threading
import time

from .front import clean
from .parts import OWN, RESULTS, WRITING, Stop, drop_remains, is_done, message_of

# A machine that doesn't answer for so long is given up; ssh asks it each 15 seconds.
SSH = ("ssh", "-T", "-o", "BatchMode=yes", "-o", "ConnectTimeout=10", "-o", "ServerAliveInterval=15", "-o", "ServerAliveCountMax=2", "--")
PATIENCE = 60
# So long what runs has to end by itself where the tool is ended.
GRACE = 5
# A part is tried so often, and a machine given up when so many connections in a row didn't come about. So many are made to one at a time.
TRIES, LOST, OPENING = 2, 2, 4
ROOM = ".aurora-parts"
# What tar says last, behind the reason.
NO_REASON = ("Exiting with failure status due to previous errors", "Error is not recoverable: exiting now")
# The words have no quote of this kind in them, no backslash and no line's end, so that each shell that is logged in to hands them on as they are.
# What reads the open end ends all of them when it is closed.
WATCH = '{ read -r end; kill -s TERM 0; } <&3 >/dev/null 2>&1 & watch=$!; exec 3<&-; wait $job; ended=$?; '
HERE = 'exec 3<&0; sh "$1" </dev/null 3<&- & job=$!; ' + WATCH + "kill $watch; exit $ended"
THERE = ('umask 077; room=$HOME/%(room)s; watch=; job=; end() { [ -z "$watch" ] || kill $watch; [ -z "$job" ] || wait $job; cd; rm -rf "$room"; '
         'rmdir "${room%%/*}" "${room%%/*/*}"; } 2>/dev/null; trap end EXIT; trap "trap : TERM; kill -s TERM 0; exit 143" HUP INT TERM PIPE; '
         'mkdir -p "$room" || mkdir -p "$room" && cd "$room" && echo %(token)s && head -c %(size)d | tar -xf - || exit 125; '
         "exec 3<&0; sh %(part)s/run </dev/null 3<&- >/dev/null & job=$!; " + WATCH +
         "cd %(part)s && tar -cf - $(ls message out status 2>/dev/null); exit $ended")


class Fault(Exception):
    """A machine failed a part. `reached` says whether the machine was there at all."""

    def __init__(self, why, reached):
        super().__init__(why)
        self.reached = reached


# What takes a terminal's line away.
CLEARED = "\r\x1b[K"


def say(why):
    print((CLEARED if sys.stderr.isatty() else "") + clean(f"shard: {why}"), file=sys.stderr, flush=True)


def show_progress(ended, parts):
    """Shows on a terminal how many parts have ended, in a line that goes again."""
    if sys.stderr.isatty():
        print(f"{CLEARED}shard: {ended} of {parts} parts have ended" if ended < parts else CLEARED, end="", file=sys.stderr, flush=True)


class Machine:
    """One that parts run on: its name as ssh takes it, `:` for this one, and how many parts it runs at once."""

    def __init__(self, name, room):
        self.name, self.room, self.lost, self.is_up = name, room, 0, True
        self.opening = threading.Semaphore(OPENING)

    def __str__(self):
        return "this machine" if self.name == ":" else f"host {self.name}"

    def asks(self, words):
        """Begins to run words of sh on the machine."""
        return subprocess.Popen([*SSH, self.name, f"sh -c '{words}'"], stdin=subprocess.DEVNULL, stdout=subprocess.PIPE, stderr=subprocess.PIPE)


def machines_of(words):
    """Returns the machines of a list as 8/one,8/two,2/:"""
    machines = []
    for word in (words or ":").split(","):
        room, name = re.fullmatch(r"(?:([0-9]{1,4})/)?(.*)", word, re.DOTALL).groups()
        if not name or name.startswith("-") or not name.isprintable() or " " in name or room and not int(room):
            raise Stop(f"`{word}` is no machine: they are told as 8/one,8/two, and this one is 2/:")
        machines.append(Machine(name, int(room) if room else os.cpu_count() if name == ":" else 0))
    return machines


def answer_of(asked):
    """Returns whether a machine did what it was asked, and what it said."""
    try:
        said, faults = asked.communicate(timeout=PATIENCE)
    except subprocess.TimeoutExpired:
        asked.kill()
        asked.communicate()
        return False, "no answer"
    lines = (faults if asked.returncode else said).decode(errors="replace").strip().splitlines()
    return asked.returncode == 0, lines[-1] if lines else f"ssh ended with {asked.returncode}"


def greet(machines, token):
    """Asks all other machines how many processors they have, and takes away what an earlier run has left there. One that can't be reached
    is told and gets no part."""
    asked = [(it, it.asks(f"rm -rf $HOME/{ROOM}/{token}; nproc")) for it in machines if it.name != ":"]
    for machine, question in asked:
        machine.is_up, said = answer_of(question)
        if not machine.is_up:
            say(f"{machine} can't be reached: {said}")
        elif not machine.room:
            machine.room = int(said) if re.fullmatch("[0-9]{1,4}", said) else 1
    if not any(it.is_up for it in machines):
        raise Stop("no machine can be reached")


def swept(names, token):
    """Takes the copies of parts away from machines, and returns the names of those where it couldn't be done."""
    asked = [(name, Machine(name, 0).asks(f"rm -rf $HOME/{ROOM}/{token} && {{ rmdir $HOME/{ROOM} 2>/dev/null || true; }}")) for name in names]
    left = []
    for name, question in asked:
        done, said = answer_of(question)
        if not done:
            say(f"host {name} can't be reached: {said}. Copies of parts may lie there in ~/{ROOM}/{token}; --resume takes them away")
            left.append(name)
    return left


# ---- one part on one machine

def brought_files(work, part):
    """Returns the files of a part that go to another machine, by their names below the folder of all parts."""
    for folder, _, names in os.walk(f"{work}/{part}"):
        for name in names:
            file = os.path.relpath(f"{folder}/{name}", work)
            inside = file.split(os.sep, 1)[1]
            if inside not in RESULTS and not inside.startswith(WRITING) and inside != OWN[-1]:
                yield file


def packed(work, part):
    """Returns how many bytes a part takes when it is packed, and its pieces: each the head of a file and the file."""
    pieces, size = [], 1024
    for file in brought_files(work, part):
        info = tarfile.TarInfo(file)
        info.size, info.mode = os.stat(f"{work}/{file}").st_size, 0o600
        head = info.tobuf(tarfile.GNU_FORMAT, "utf-8", "surrogateescape")
        size += len(head) + info.size + -info.size % 512
        pieces.append((head, f"{work}/{file}", info.size))
    return size, pieces


def send(pieces, target):
    for head, path, whole in pieces:
        size = whole
        target.write(head)
        with open(path, "rb") as file:
            while block := file.read(min(size, 1 << 20)):
                target.write(block)
                size -= len(block)
        if size:
            raise Stop(f"{path} was changed while it was read")
        target.write(bytes(-whole % 512))
    target.write(bytes(1024))
    target.flush()


def receive(source, folder):
    """Puts what a run wrote into the folder of its part, its status last."""
    got = []
    with tarfile.open(fileobj=source, mode="r|") as files:
        for info in files:
            if info.name in RESULTS and info.isreg():
                with open(f"{folder}/{WRITING}{info.name}", "wb") as file:
                    shutil.copyfileobj(files.extractfile(info), file, 1 << 20)
                got.append(info.name)
    for name in sorted(got, key=RESULTS.index):
        os.replace(f"{folder}/{WRITING}{name}", f"{folder}/{name}")
    return "status" in got


class Runs:
    """What is running: it can be ended from another thread."""

    def __init__(self, work, lock, token):
        self.work, self.lock, self.token = work, lock, token
        self.open, self.count, self.ended, self.one = set(), 0, False, threading.Lock()

    def begun(self, words, **more):
        with self.one:
            if self.ended:
                raise Fault("it was ended", True)
            process = subprocess.Popen(words, stdin=subprocess.PIPE, cwd=self.work, **more)
            self.open.add(process)
            self.count += 1
            return process

    def closed(self, process):
        """Lets a process go, whose status is returned."""
        with self.one, contextlib.suppress(OSError):
            process.stdin.close()
        try:
            process.wait(PATIENCE)
        except subprocess.TimeoutExpired:
            process.kill()
            process.wait()
        with self.one:
            self.open.discard(process)
        return process.returncode

    def end(self):
        """Begins nothing more, and closes the open end of all that runs, which ends it and takes copies away."""
        nothing = os.open(os.devnull, os.O_WRONLY)
        with self.one:
            self.ended = True
            for process in self.open:
                if not process.stdin.closed:
                    # Another thread may be writing to it, which then goes to nothing.
                    os.dup2(nothing, process.stdin.fileno(), inheritable=False)
        os.close(nothing)

    def stop(self):
        """Ends what hasn't ended by itself."""
        with self.one:
            for process in self.open:
                process.terminate()

    def here(self, part):
        process = self.begun(["sh", "-c", HERE, "sh", f"part-{part}/run"], stdout=subprocess.DEVNULL, pass_fds=(self.lock,), start_new_session=True)
        try:
            process.wait()
        finally:
            status = self.closed(process)
        if status:
            raise Fault(f"it ended with status {status}", True)

    def there(self, machine, part):
        """Runs a part on another machine."""
        name = f"part-{part}"
        size, pieces = packed(self.work, name)
        words = THERE % {"room": f"{ROOM}/{self.token}/{name}-{self.count}", "token": self.token, "size": size, "part": name}
        with tempfile.TemporaryFile() as said:
            with machine.opening:
                process = self.begun([*SSH, machine.name, f"sh -c '{words}'"], stdout=subprocess.PIPE, stderr=said)
                reached = self.is_there(process)
            came = False
            try:
                if reached:
                    send(pieces, process.stdin)
                    came = receive(process.stdout, f"{self.work}/{name}")
                    # Its other end is still taking the copy away; were it closed now, that would be ended too.
                    while process.stdout.read(1 << 16):
                        pass
            except (BrokenPipeError, tarfile.TarError, EOFError):
                pass
            finally:
                if not reached:
                    process.kill()
                status = self.closed(process)
                process.stdout.close()
            if status or not came:
                said.seek(0)
                lines = [it for it in said.read().decode(errors="replace").strip().splitlines() if not it.endswith(NO_REASON)]
                drop_remains(f"{self.work}/{name}")
                said_there = message_of(f"{self.work}/{name}").splitlines() if came else lines
                ended = "the connection ended" if status == 255 else f"it ended with status {status}" if status else "it brought nothing back"
                raise Fault(said_there[-1] if said_there else ended, reached)

    def is_there(self, process):
        """Waits until the other end says that it is there, behind whatever a shell that is logged in to writes."""
        line, source = b"", process.stdout.fileno()
        while select.select([source], [], [], PATIENCE)[0] and (byte := os.read(source, 1)):
            if byte == b"\n" and line.strip() == self.token.encode():
                return True
            line = b"" if byte == b"\n" else (line + byte)[-80:]
        return False


# ---- all parts on all machines

class Queue:
    """The parts that are still to be run. Of each are noted the machines that failed it, and why."""

    def __init__(self, parts, machines):
        self.left, self.machines, self.parts, self.ended = list(parts), machines, len(parts), 0
        self.faults, self.busy, self.broken = {}, 0, None
        self.changed = threading.Condition()
        # On this machine alone what it failed once it fails again.
        self.tries = TRIES if any(it.name != ":" for it in machines) else 1

    def may_take(self, part, machine):
        """Says whether a machine may take a part: one that it failed is for another, where there is one."""
        failed = [name for name, _ in self.faults.get(part, [])]
        return str(machine) not in failed or all(not it.is_up or str(it) in failed for it in self.machines)

    def take(self, machine):
        """Returns the next part for a machine, or None where there will be none for it."""
        with self.changed:
            while machine.is_up and not self.broken and (self.left or self.busy):
                part = next((it for it in self.left if self.may_take(it, machine)), None)
                if part is not None:
                    self.left.remove(part)
                    self.busy += 1
                    return part
                self.changed.wait()
            return None

    def note(self, machine, part, fault):
        """Notes how a part went. Where the machine wasn't reached that isn't counted as a try of the part."""
        with self.changed:
            self.busy -= 1
            machine.lost = 0 if fault is None or fault.reached else machine.lost + 1
            if machine.lost == LOST and machine.is_up:
                machine.is_up = False
                say(f"{machine} can't be reached: {fault}. It gets no more parts")
            if fault and fault.reached:
                self.faults.setdefault(part, []).append((str(machine), str(fault)))
            if fault and (not fault.reached or len(self.faults[part]) < self.tries):
                self.left.insert(0, part)
            else:
                self.ended += 1
                show_progress(self.ended, self.parts)
            self.changed.notify_all()


def serve(machine, queue, runs):
    """Runs parts on a machine, one after another, as long as there are any for it."""
    while (part := queue.take(machine)) is not None:
        fault = None
        try:
            if machine.name == ":":
                runs.here(part)
            else:
                runs.there(machine, part)
        except Fault as why:
            fault = why
        except Exception as why:
            queue.broken = queue.broken or why
        queue.note(machine, part, fault)


def run_parts(runs, machines, parts):
    """Runs parts, and returns of each that a machine failed which ones and why."""
    queue = Queue(parts, machines)
    threads = [threading.Thread(target=serve, args=(it, queue, runs), daemon=True) for it in machines if it.is_up for _ in range(min(it.room, len(parts)))]
    try:
        for thread in threads:
            thread.start()
        for thread in threads:
            thread.join()
    except BaseException:
        queue.broken = queue.broken or Stop("it was ended")
        runs.end()
        until = time.monotonic() + GRACE
        for thread in threads:
            thread.join(max(0, until - time.monotonic()))
        runs.stop()
        for thread in threads:
            thread.join(GRACE)
        raise
    if queue.broken:
        raise queue.broken
    tell(queue.faults, runs.work)
    return queue.faults


def tell(faults, work):
    """Says which machines failed parts that others have run since."""
    failed = {}
    for part, tried in faults.items():
        for name, why in tried if is_done(f"{work}/part-{part}") else ():
            failed.setdefault(name, []).append(why)
    for name, whys in failed.items():
        say(f"{name} failed {len(whys)} part{'s' * (len(whys) > 1)} that ended well then: {whys[-1]}")
