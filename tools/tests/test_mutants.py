#!/usr/bin/env python3
"""Files that are changed byte by byte make no tool fail otherwise than by a line of its own, hang, or write where it wasn't told to.

    tools/tests/test_mutants.py                     some of each kind, as the gate has it
    tools/tests/test_mutants.py --full [SEED [COUNT]]   2,000 of each kind, or so many, and tells how many ended how

Networks, texts of runs, capacities, tables and streams are changed, and the tools run on them in this process.
"""
import collections
import contextlib
import glob
import importlib.machinery
import importlib.util
import io
import os
import random
import re
import shutil
import signal
import subprocess
import sys
import tempfile
import traceback
import unittest
import warnings
import xml.etree.ElementTree

TOP = os.path.dirname(os.path.dirname(os.path.dirname(os.path.abspath(__file__))))
sys.path.insert(0, f"{TOP}/tools")
sys.dont_write_bytecode = True
from aurora_tools import front, graph, messages, network  # noqa: E402

PROGRAM = os.environ.get("AURORA", "aurora")
# A tool hangs that takes so many seconds of a processor, or so many by the clock, however busy the machine is.
SEED, MOST_SECONDS, MOST_BY_THE_CLOCK = 20261201, 6, 300
KINDS = ("network", "text", "capacities", "table", "stream")
SPICE = [
    b'"', b"'", b"\n", b"\r", b"\0", b",", b"@", b"-", b"[", b"]", b"{", b"=", b".", b"\\", b"\xff", b"\xe2\x80\xae", b"\x1b[2J", b"99999999999999999999", b"1e9", b"-1", b"0", b"1_0", b"+7",
    b" ", b'"""', b"true", b"nan", b"@end\n", b"@drop,0,1,50\n", b"@drop,-1,1,50\n", b"@plan,1,2,3,4,fits\n", b"@box,a,1\n", b"9" * 30, b"\xd9\xa3", b"9" * 400, b"inf",
    b"version = 2\n", b"phase = 1\n", b"[[box]]\n", b'weight = "a"\n', b"epoch = 0\n", b"batch = -1\n", b"1.5", b"1979-05-27", b"../../x", b"</svg><script>", b"1099511627776", b"null", b"\xed\xa0\x80", b"9" * 5000,
]
PLACE = re.compile(rb'\d+|"[^"\n]*"')


class Hang(BaseException):
    """A tool that didn't end in its time."""


def changed(rng, text):
    """Returns bytes with one to three changes."""
    text = bytearray(text)
    for _ in range(rng.choice([1, 1, 1, 2, 3])):
        way, at = rng.randrange(7), rng.randrange(len(text) + 1)
        lines = bytes(text).split(b"\n")
        line = rng.randrange(len(lines))
        if way == 0 and text:
            text[at % len(text)] = rng.randrange(256)
        elif way == 1:
            text[at:at] = rng.choice(SPICE)
        elif way == 2:
            del text[at:at + rng.choice([1, 1, 2, 5, 20])]
        elif way == 3:
            text[at:at + rng.choice([1, 3, 6])] = rng.choice(SPICE)
        elif way == 4:
            lines[line:line] = [rng.choice(lines)]
            text = bytearray(b"\n".join(lines))
        elif way == 5:
            del lines[line]
            text = bytearray(b"\n".join(lines))
        elif places := list(PLACE.finditer(text)):
            place = rng.choice(places)
            text[place.start():place.end()] = rng.choice(SPICE)
    return bytes(text)


def tool_of(name):
    """Loads a tool, and returns its main function and the faults that its front tells in a line."""
    found = []
    loader = importlib.machinery.SourceFileLoader(f"mutant_{name}", f"{TOP}/tools/{name}")
    module = importlib.util.module_from_spec(importlib.util.spec_from_loader(loader.name, loader))
    module.__name__ = "__main__"
    run, front.run = front.run, lambda name, main, *faults: found.append((main, faults))
    try:
        exec(compile(loader.get_data(loader.path), loader.path, "exec"), module.__dict__)  # noqa: S102
    finally:
        front.run = run
    return found[0]


def read(path):
    with open(path, "rb") as file:
        return file.read()


@contextlib.contextmanager
def in_time():
    """Raises Hang in a block that doesn't end in its time."""
    signal.setitimer(signal.ITIMER_PROF, MOST_SECONDS)
    signal.setitimer(signal.ITIMER_REAL, MOST_BY_THE_CLOCK)
    try:
        yield
    finally:
        signal.setitimer(signal.ITIMER_PROF, 0)
        signal.setitimer(signal.ITIMER_REAL, 0)


class Mutants:
    """Networks of examples/ with what their runs write, and a room in which changed files lie."""

    def __init__(self, room, seed):
        self.room, self.rng, self.ends, self.faults, self.files = room, random.Random(seed), collections.Counter(), [], {}
        self.tools = {name: tool_of(name) for name in ("output", "report", "draw", "plan", "stream", "explain")}
        self.runs = []
        for path in sorted(glob.glob(f"{TOP}/examples/*/*.toml")):
            folder, name = os.path.split(path)
            words = read(path.replace(".toml", ".words")).decode().split() if os.path.exists(path.replace(".toml", ".words")) else []
            ran = subprocess.run([PROGRAM, "run", name, *words], cwd=folder, capture_output=True, stdin=subprocess.DEVNULL)
            self.runs.append((folder, name, words, ran.stdout if ran.returncode == 0 else None))
        self.whole = [it for it in self.runs if it[3]]
        self.planned = [it for it in self.whole if any(word.endswith(".csv") for word in it[2])]

    def put(self, name, text):
        self.files[name] = text
        with open(f"{self.room}/{name}", "wb") as file:
            file.write(text)
        return f"{self.room}/{name}"

    def call(self, name, words, folder):
        """Runs a tool on words in a folder, and returns its status; what it is not to do is kept."""
        main, faults = self.tools[name]
        out, err = io.TextIOWrapper(io.BytesIO(), encoding="utf-8"), io.StringIO()
        before, sys.argv = os.getcwd(), [name, *words]
        os.chdir(folder)
        try:
            with in_time(), contextlib.redirect_stdout(out), contextlib.redirect_stderr(err):
                status = main() or 0
        except SystemExit as end:
            status = 0 if end.code is None else end.code if isinstance(end.code, int) else 1
        except (OSError, UnicodeDecodeError, *faults):
            status = 1
        except Hang:
            status = self.fault(name, words, "it hangs")
        except BaseException:  # noqa: B902
            status = self.fault(name, words, traceback.format_exc())
        finally:
            os.chdir(before)
        if status not in (0, 1, 2, None):
            self.fault(name, words, f"it ended with {status}")
        self.ends[name, status] += 1
        return status

    def fault(self, name, words, why):
        self.faults.append((name, words, why, dict(self.files)))

    def look_at(self, name, words, path):
        """Looks at a picture or a page that was made: its pictures are XML, and have no script."""
        text = read(path)
        for picture in re.findall(rb"<svg.*?</svg>", text, re.DOTALL) or [b"<svg/>"]:
            try:
                xml.etree.ElementTree.fromstring(picture)
            except xml.etree.ElementTree.ParseError as why:
                self.fault(name, words, f"no XML: {why}")
        if b"<script" in text or b"javascript:" in text:
            self.fault(name, words, "a script")

    def one(self, kind):
        """Changes a file of a kind and runs a tool on it."""
        self.files = {}
        folder, name, words, text = self.rng.choice(self.planned if kind == "capacities" else self.whole)
        net, text = read(f"{folder}/{name}"), text
        if kind == "network":
            net = changed(self.rng, net)
        elif kind == "text":
            text = changed(self.rng, text)
        if kind in ("network", "text"):
            self.of_a_run(self.put("n.toml", net), self.put("t", text), folder)
        elif kind == "capacities":
            capacities = changed(self.rng, read(f"{folder}/{next(it for it in words if it.endswith('.csv'))}"))
            self.call("plan", [self.put("n.toml", net), self.put("c", capacities), self.put("t", text)], folder)
        elif kind == "table":
            self.of_a_table()
        else:
            self.of_a_stream(folder, name, net, text)
        if others := set(os.listdir(self.room)) - {"n.toml", "t", "c", "x.csv", "out", "page", "p.svg", "x.out"}:
            self.fault(kind, sorted(others), "it left files")

    def of_a_run(self, net, text, folder):
        tool, out = self.rng.choice(("output", "report", "draw", "plan", "explain", "messages")), f"{self.room}/out"
        if tool == "output":
            shutil.rmtree(out, ignore_errors=True)
            with contextlib.suppress(FileNotFoundError):
                os.unlink(out)
            more = self.rng.choice([[], ["--field", "time:time"], ["--field", "price:int.2"]])
            self.call(tool, [self.rng.choice(("--csv", "--jsonl", "--sqlite")), out, *more, net, text], folder)
        elif tool == "report" and self.call(tool, [*self.rng.choice([[], ["--seconds"]]), net, text, f"{self.room}/page"], folder) == 0:
            self.look_at(tool, [], f"{self.room}/page")
        elif tool == "draw" and self.call(tool, ["--network", net, text, f"{self.room}/p.svg"], folder) == 0:
            self.look_at(tool, [], f"{self.room}/p.svg")
        elif tool == "plan":
            self.call(tool, self.rng.choice([["--load", net], ["--full", net, self.put("c", b"1,10\n"), text]]), folder)
        elif tool == "explain":
            self.call(tool, ["--hints", net, text], folder)
        elif tool == "messages":
            self.explained(net, [], folder)

    def explained(self, net, words, folder):
        """Has a run's message explained, of a network that may be refused."""
        ran = subprocess.run([PROGRAM, "run", net, *words], cwd=folder, capture_output=True, stdin=subprocess.DEVNULL)
        before = os.getcwd()
        os.chdir(folder)
        try:
            with in_time():
                for message in messages.messages_in([net, *words], ran.stderr.decode(errors="replace"), True):
                    said = messages.explained([net, *words], message)
                    if not all(it.isprintable() or it == "\n" for it in said):
                        self.fault("explain", words, f"it sends {said!r}")
        except (Hang, Exception):  # noqa: B902
            self.fault("explain", words, traceback.format_exc())
        finally:
            os.chdir(before)
        self.ends["messages", ran.returncode] += 1

    def of_a_table(self):
        name, time, unit = self.rng.choice((("raw_log.csv", "time", "%Y-%m-%dT%H:%M:%SZ"), ("raw_weather.csv", "when", "%Y-%m-%d %H:%M")))
        table = self.put("x.csv", changed(self.rng, read(f"{TOP}/examples/recipes/{name}")))
        more = self.rng.choice([[], ["--sort"], ["--running", "at"], ["--origin", "2026-03-01 00:00"], ["--missing", "NA"], ["--form", "jsonl"], ["--form", "clf"], ["--comma"]])
        form = [] if "--form" in more or self.rng.randrange(3) == 0 else ["--unit", unit]
        self.call("stream", ["--time", time, *form, *more, table, f"{self.room}/x.out"], self.room)

    def of_a_stream(self, folder, name, net, text):
        """Changes one of the streams that a network names, and has its refusal explained, its loads counted, or its run hinted at."""
        files = {it for it in re.findall(r'^file = "([^"/]*)"', net.decode(), re.MULTILINE) if os.path.exists(f"{folder}/{it}")}
        if not files:
            return
        copies = {it: read(f"{folder}/{it}") for it in sorted(files)}
        file = self.rng.choice(sorted(copies))
        copies[file] = changed(self.rng, copies[file])
        for it in copies:
            self.put(it, copies[it])
        path = self.put("n.toml", net)
        if self.rng.randrange(2):
            self.explained(path, [], self.room)
        else:
            self.call(*self.rng.choice((("plan", ["--load", path]), ("explain", ["--hints", path, self.put("t", text)]))), self.room)
        for it in copies:
            os.unlink(f"{self.room}/{it}")
            del self.files[it]


def run(count, seed):
    """Runs so many mutants of each kind, and returns them all."""
    def hang(*_):
        raise Hang

    signs = {sign: signal.getsignal(sign) for sign in (signal.SIGALRM, signal.SIGPROF, signal.SIGTERM, signal.SIGHUP, signal.SIGINT)}
    for sign in (signal.SIGALRM, signal.SIGPROF):
        signal.signal(sign, hang)
    which = shutil.which
    graph.shutil.which = lambda name, *more: None if name == "dot" else which(name, *more)
    try:
        with tempfile.TemporaryDirectory() as room, warnings.catch_warnings():
            warnings.simplefilter("ignore")
            os.mkdir(f"{room}/deep")
            mutants = Mutants(f"{room}/deep", seed)
            for _ in range(count):
                for kind in KINDS:
                    mutants.one(kind)
            if os.listdir(room) != ["deep"]:
                mutants.fault("all", os.listdir(room), "files were written outside")
            return mutants
    finally:
        graph.shutil.which = which
        for sign, handler in signs.items():
            signal.signal(sign, handler)


class Changed(unittest.TestCase):
    def test_changed_files_end_in_a_line(self):
        mutants = run(60, SEED)
        self.assertEqual([it[:3] for it in mutants.faults], [])
        self.assertGreater(sum(count for (_, status), count in mutants.ends.items() if status == 0), 30)
        self.assertGreater(sum(count for (_, status), count in mutants.ends.items() if status == 1), 100)

    def test_tools_accept_the_networks_that_the_program_accepts(self):
        rng, paths = random.Random(SEED), sorted(glob.glob(f"{TOP}/examples/*/*.toml"))
        with tempfile.TemporaryDirectory() as room, warnings.catch_warnings():
            warnings.simplefilter("ignore")
            for _ in range(150):
                path = rng.choice(paths)
                with open(f"{room}/n.toml", "wb") as file:
                    file.write(changed(rng, read(path)))
                said = subprocess.run([PROGRAM, "run", f"{room}/n.toml"], cwd=os.path.dirname(path), capture_output=True, stdin=subprocess.DEVNULL).stderr.decode(errors="replace")
                try:
                    network.read(f"{room}/n.toml")
                    self.assertNotIn("aurora: network: ", said)
                except network.Unreadable as why:
                    rule = re.search(r"refuses this network: ([A-Za-z]+(?: [a-z]+ [0-9]+)?)", str(why))
                    self.assertIn(f"aurora: network: {rule[1] if rule else why}", said)


def main():
    seed = int(sys.argv[2]) if len(sys.argv) > 2 else random.randrange(1 << 32)
    mutants = run(int(sys.argv[3]) if len(sys.argv) > 3 else 2000, seed)
    print(f"seed {seed}: {sum(mutants.ends.values())} ends: {', '.join(f'{name} {status}: {count}' for (name, status), count in sorted(mutants.ends.items(), key=str))}")
    for name, words, why, files in mutants.faults:
        print(name, words, why, files)
    return 1 if mutants.faults else 0


if __name__ == "__main__":
    if sys.argv[1:2] == ["--full"]:
        sys.exit(main())
    unittest.main()
