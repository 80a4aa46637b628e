#!/usr/bin/env python3
"""Whatever a file says: nothing that it names runs, nothing that stood there is lost, nothing hangs, and what goes to a terminal can be shown."""
import io
import os
import re
import resource
import signal
import sqlite3
import stat
import subprocess
import tempfile
import threading
import time
import unittest
import unittest.mock
import xml.etree.ElementTree

import forked
from aurora_tools import records

TOP = os.path.dirname(os.path.dirname(os.path.dirname(os.path.abspath(__file__))))
PROGRAM = os.environ.get("AURORA", "aurora")
FIRST = f"{TOP}/examples/first"
SOURCE = 'version = 1\n[[source]]\nname = "s"\nfile = "s.csv"\nfields = ["k:text", "v:int"]\n'
OUTPUT = '[[output]]\nname = "o"\nfrom = "s"\n'
PAIRS = SOURCE + OUTPUT
ESCAPE = "\x1b]0;TITLE\x07\u202e"


def interrupted(tool):
    """Interrupts a tool that waits, and returns what it tells. Python hears a signal only when its call into the system is over, so one that comes right
    before that call is heard with the next."""
    while True:
        tool.send_signal(signal.SIGINT)
        try:
            return tool.communicate(timeout=10)[1].decode()
        except subprocess.TimeoutExpired:
            pass


class Safe(unittest.TestCase):
    def setUp(self):
        room = tempfile.TemporaryDirectory()
        self.addCleanup(room.cleanup)
        self.room = room.name
        self.put("n.toml", PAIRS)
        self.put("t", "o,1,a,1\n@end\n")

    def put(self, name, text):
        with open(f"{self.room}/{name}", "wb") as file:
            file.write(text if isinstance(text, bytes) else text.encode())
        return name

    def get(self, name):
        with open(f"{self.room}/{name}", "rb") as file:
            return file.read()

    def ran(self, tool, *words, **more):
        """Runs a tool in the room, as a program where more is asked than its words; it must tell a line where it fails, and no traceback."""
        if more:
            done = subprocess.run([f"{TOP}/tools/{tool}", *words], cwd=self.room, capture_output=True, timeout=300, **{"stdin": subprocess.DEVNULL, **more})
            done.told = done.stderr.decode(errors="backslashreplace")
        else:
            done = forked.run([f"{TOP}/tools/{tool}", *words], cwd=self.room)
            done.told, done.stdout = done.stderr, done.stdout.encode()
        self.assertNotIn("Traceback", done.told)
        return done

    def refused(self, why, tool, *words, **more):
        done = self.ran(tool, *words, **more)
        self.assertEqual(done.returncode, 1, done.told)
        self.assertRegex(done.told, why)
        self.assertEqual(done.told.count("\n"), 1, done.told)
        return done


class Nothing_runs(Safe):
    def test_a_text_is_no_command_of_a_picture(self):
        rows = ["o,1,x\0,1"] + [f"o,{at},{' ' * (160 + at)}!touch RUN #,{at}" for at in range(2, 8)]
        self.put("t", "\n".join([*rows, f"o,9,{ESCAPE}</svg><script>&,9", "@end\n"]))
        for picture in ("p.svg", "|touch RUN; cat >x #.svg"):
            self.assertEqual(self.ran("draw", "--network", "n.toml", "t", picture).returncode, 0)
            xml.etree.ElementTree.fromstring(self.get(picture))
        self.assertEqual(sorted(os.listdir(self.room)), ["n.toml", "p.svg", "t", "|touch RUN; cat >x #.svg"])

    def test_a_page_has_no_scripts_and_its_pictures_are_xml(self):
        self.put("n.toml", PAIRS.replace('"s.csv"', '"x\\u0001\\\\\\"]; s0 [URL=\\"javascript:alert(1)\\"<script>\\n"'))
        self.put("t", f"o,1,{ESCAPE}</svg><script>,1\n@end\n")
        self.assertEqual(self.ran("report", "--title", f"<script>{ESCAPE}", "n.toml", "t", "page").returncode, 0)
        page = self.get("page").decode()
        self.assertNotRegex(page, "<script|xlink:href|<a ")
        self.assertEqual([it for it in page if not it.isprintable() and it != "\n"], [])
        for picture in re.findall("<svg.*?</svg>", page, re.DOTALL):
            xml.etree.ElementTree.fromstring(picture)

    def test_names_that_aurora_refuses_make_no_page_and_no_file(self):
        name = 'x."]; s0 [URL="javascript:alert(1)" label="click me'
        self.put("n.toml", PAIRS.replace('"s"', f"'{name}'"))
        self.refused("NoName source 0", "report", "n.toml", "t", "page")
        self.put("n.toml", PAIRS.replace('"o"', '"../../escaped"'))
        self.put("t", "../../escaped,1,a,1\n@end\n")
        os.makedirs(f"{self.room}/a/b")
        self.refused("NoName output 0", "output", "--csv", "a/b/out", "n.toml", "t")
        self.assertEqual([*os.walk(f"{self.room}/a")][1][1:], ([], []))


class Nothing_is_lost(Safe):
    def test_what_is_read_is_never_written_over(self):
        self.put("own.csv", "when,v\n1,2.5\n")
        self.put("d.svg", PAIRS)
        self.put("s.csv", "1,a,1\n")
        before = {it: self.get(it) for it in os.listdir(self.room)}
        why = "it isn't written over$"
        self.refused(why, "stream", "--time", "when", "own.csv", "own.csv")
        self.refused(why, "draw", "--network", "d.svg", "t", "d.svg")
        for target in ("n.toml", "t", "s.csv"):
            self.refused(why, "report", "n.toml", "t", target)
            self.refused(why, "output", "--sqlite", target, "n.toml", "t")
        with open(f"{self.room}/t", "rb") as text:
            self.refused("is standard input", "report", "n.toml", "-", "t", stdin=text)
        self.assertEqual({it: self.get(it) for it in os.listdir(self.room)}, before)

    def test_where_not_all_can_be_written_all_is_as_it_was(self):
        def small():
            signal.signal(signal.SIGXFSZ, signal.SIG_IGN)
            resource.setrlimit(resource.RLIMIT_FSIZE, (1 << 14, 1 << 14))

        self.put("n.toml", PAIRS + OUTPUT.replace('"o"', '"p"'))
        self.put("t", "p,1,a,1\n" + "".join(f"o,{at},{'x' * 200},1\n" for at in range(200)) + "@end\n")
        self.put("page", "mine")
        self.assertEqual(self.ran("output", "--sqlite", "there", f"{FIRST}/alarm.toml", f"{FIRST}/expected.txt").returncode, 0)
        before = {it: self.get(it) for it in os.listdir(self.room)}
        for words, why in ((("report", "n.toml", "t", "page"), "page: File too large"), (("output", "--csv", "out", "n.toml", "t"), "out/o.csv: File too large"),
                           (("output", "--sqlite", "new", "n.toml", "t"), "new: .*nothing was written"), (("output", "--sqlite", "there", "n.toml", "t"), "there: .*nothing was written")):
            self.refused(why, *words, preexec_fn=small)
        self.assertEqual({it: self.get(it) for it in os.listdir(self.room)}, before)
        with sqlite3.connect(f"{self.room}/there") as database:
            self.assertEqual(database.execute("SELECT name FROM sqlite_master").fetchall(), [("alarm",)])

    def test_a_database_is_made_at_the_place_that_is_named(self):
        self.assertEqual(self.ran("output", "--sqlite", ":memory:", "n.toml", "t").returncode, 0)
        with sqlite3.connect(f"{self.room}/:memory:") as database:
            self.assertEqual(database.execute("SELECT * FROM o").fetchall(), [(1, "a", 1)])
        os.mkdir(f"{self.room}/folder")
        self.refused("folder is there, and no file", "output", "--sqlite", "folder", "n.toml", "t")

    def test_a_file_that_is_written_anew_keeps_its_rights(self):
        self.put("page", "old")
        os.chmod(f"{self.room}/page", 0o600)
        self.assertEqual(self.ran("report", "n.toml", "t", "page").returncode, 0)
        self.assertEqual(stat.S_IMODE(os.stat(f"{self.room}/page").st_mode), 0o600)


class Records(Safe):
    def test_a_text_with_line_feeds_is_one_value(self):
        self.put("t", 'o,1,"one\no,9,forged,7\n@end\ntwo",1\no,2,b,2\n@end\n')
        self.assertEqual(self.ran("output", "--jsonl", "-", "n.toml", "t").stdout, b'{"time": 1, "k": "one\\no,9,forged,7\\n@end\\ntwo", "v": 1}\n{"time": 2, "k": "b", "v": 2}\n')
        self.put("t", 'o,1,b,2\no,2,"one\n@end\n')
        self.refused("has no @end", "output", "--jsonl", "-", "n.toml", "t")

    def test_records_are_the_same_however_many_lines_are_looked_at_together(self):
        due = ['o,1,a\n', 'o,2,"b\nc"\n', '\n', 'o,3,"""\n""\n\n"\n', 'o,4,"d""e"\n', 'o,5,"f\n@end\n']
        for many in (1, 2, 3, 2048):
            with unittest.mock.patch.object(records, "MANY", many):
                self.assertEqual(list(records.records(io.StringIO("".join(due), newline="\n"))), due)
                self.assertEqual([it for block in records.blocks(io.BytesIO("".join(due).encode())) for it in block], [it.encode() for it in due])
        before, long = time.process_time(), b'o,1,"' + b"\n" * 300_000 + b'"\n'
        self.assertEqual(list(records.records(io.BytesIO(long))), [long])
        self.assertLess(time.process_time() - before, 6)

    def test_numbers_are_those_that_a_run_writes(self):
        for row in ("o,1_0,a,1", "o,+1,a,1", "o,١,a,1", "o,1,a,+7", "o,1,a,1_0", "o,1,a,٣", "o,1,a,9223372036854775808", "o,1099511627776,a,1", "o,1,a,1\ro,2,b,1", 'o,1,"a"b,1',
                    "@drop,-1,1,50", "@drop,0,1,50", "@plan,1,2,3,4,neither", "@plan,9", "@box,s,x", "@late,s,1,1", "@end,1", "@end",
                    "@plan,2,9,8,1,fits\n@plan,2,9,8,1,fits", "@late,s,1", "o,1," + "x" * 200_000 + ",1"):
            self.put("t", f"{row}\no,5,a,1\n@end\n")
            with self.subTest(row=row[:40]):
                self.refused("a line|none that a run writes|drop|has no|no BSort", "output", "--csv", "out", "n.toml", "t")
        self.assertFalse(os.path.exists(f"{self.room}/out"))


class Nothing_hangs(Safe):
    def test_what_is_no_file_is_not_opened_again(self):
        os.mkfifo(f"{self.room}/ff")

        def feed(text):
            with open(f"{self.room}/ff", "w", encoding="utf-8") as pipe:
                pipe.write(text)

        self.put("f.toml", PAIRS.replace("s.csv", "ff"))
        for words, text, why in ((("f.toml",), "x,a,1\n", "the stream of source `s` came from ff"), (("ff",), "version = 3\n", "the network came from ff")):
            writer = threading.Thread(target=feed, args=(text,), daemon=True)
            writer.start()
            self.assertIn(why, self.ran("explain", "--program", PROGRAM, *words, stdin=None).told)
            writer.join(5)
        self.put("p.toml", PAIRS.replace("s.csv", "/dev/stdin"))
        self.assertIn("came from /dev/stdin", self.ran("explain", "--program", PROGRAM, "p.toml", input=b"1,a,NA\n", stdin=None).told)
        self.put("f.toml", PAIRS.replace("s.csv", "ff"))
        self.refused("ff is no file", "plan", "--load", "f.toml", stdin=None)
        self.assertEqual(self.ran("explain", "--hints", "f.toml", "t", stdin=None).returncode, 0)

    def test_devices_and_folders_are_told(self):
        self.refused("more than 1,048,576 bytes", "output", "--csv", "out", "/dev/zero", "t")
        self.refused("is a device", "output", "--csv", "out", "n.toml", "/dev/zero")
        self.refused("Is a directory", "report", "n.toml", ".", "page")
        self.refused("is a device", "stream", "--time", "t", "--form", "csv", "/dev/zero", "x.csv")
        self.refused("is a device", "explain", "--hints", "n.toml", "/dev/zero")
        self.refused("Is a directory", "explain", "--hints", ".")

    def test_what_the_program_refuses_at_once_is_explained_in_seconds(self):
        before = os.times().children_user
        for text in ("version = 1\n[" + " " * 20_000 + "\n", '\\"""\n' * 4000, "x = " + "[" * 100_000, 'x = """\n' * 20_000):
            self.put("q.toml", text)
            self.assertIn("network: Toml", self.ran("explain", "--program", PROGRAM, "q.toml").told)
        self.put("n.toml", SOURCE.replace('"k:text", ', "") + OUTPUT)
        self.put("s.csv", '1,"' + "x" * 300_000 + "\n")
        self.assertIn("s.csv:1", self.ran("explain", "--program", PROGRAM, "n.toml").told)
        self.assertLess(os.times().children_user - before, 12)

    def test_drop_points_of_128_boxes_take_no_time(self):
        boxes, taken = [], ["s"] * 8
        for layer in range(15):
            boxes += [f'[[box]]\nname = "u{layer}_{at}"\nkind = "union"\nin = {taken}\n'.replace("'", '"') for at in range(8)]
            taken = [f"u{layer}_{at}" for at in range(8)]
        boxes += [f'[[box]]\nname = "a{at}"\nkind = "aggregate"\nin = ["{it}"]\nsize = 2\nadvance = 1\ngive = [["n", "count"]]\n' for at, it in enumerate(taken)]
        self.put("n.toml", SOURCE + "".join(boxes) + "".join(f'[[output]]\nname = "o{at}"\nfrom = "a{at % 8}"\n' for at in range(32)))
        self.put("t", "@end\n")
        before = os.times().children_user
        self.assertEqual(self.ran("output", "--csv", "out", "n.toml", "t").returncode, 0)
        self.assertLess(os.times().children_user - before, 3)


    def test_ways_that_part_and_meet_again_are_gone_once(self):
        boxes, taken = "", "s"
        for at in range(60):
            boxes += f'[[box]]\nname = "f{at}"\nkind = "filter"\nin = ["{taken}"]\nwhere = ["v > {at}"]\n[[box]]\nname = "u{at}"\nkind = "union"\nin = ["f{at}.1", "f{at}.2"]\n'
            taken = f"u{at}"
        boxes += f'[[box]]\nname = "j"\nkind = "join"\nin = ["{taken}", "s"]\nsize = 0\non = "l_v < r_v"\n'
        self.put("n.toml", SOURCE + boxes + OUTPUT.replace('"s"', '"j"'))
        self.put("s.csv", "1,a,1\n")
        self.put("t", "".join(f"@box,{kind}{at},1\n" for at in range(60) for kind in "fu") + "@box,j,2\n@end\n")
        for words in (("explain", "--hints", "n.toml", "t"), ("report", "n.toml", "t", "page"), ("plan", "--load", "n.toml")):
            self.assertEqual(self.ran(*words, stdin=None).returncode, 0)


class Terminals(Safe):
    def test_what_is_shown_of_data_is_printable(self):
        self.put("n.toml", SOURCE.replace('"k:text", ', "") + OUTPUT)
        self.put("s.csv", f"1,{ESCAPE}9\n")
        told = [self.ran("explain", "--program", PROGRAM, "n.toml").told]
        self.put("n.toml", PAIRS.replace("s.csv", "x\\u001b[31m\\naurora: stream s: line 1: Tick"))
        told.append(self.ran("explain", "--program", PROGRAM, "n.toml").told)
        self.assertEqual(re.findall("(?m)^aurora: .*", told[-1]), [r"aurora: cannot read x\x1b[31m\x0aaurora: stream s: line 1: Tick"])
        self.put("t", f"o,1,{ESCAPE}\no,x{ESCAPE},a,1\n@end\n")
        told += [self.ran(*words).told for words in (("output", "--csv", "-", "n.toml", "t"), ("report", "n.toml", "t", "page"), ("report", f"{ESCAPE}\n.toml", "t", "page"),
                                                     ("output", "--output", ESCAPE, "--csv", "-", "n.toml", "t"), ("draw", "--network", "n.toml", "t", f"{ESCAPE}\n"))]
        for said in told:
            self.assertEqual([it for it in said if not it.isprintable() and it != "\n"], [])
            self.assertNotEqual(said, "")

    def test_ctrl_c_is_one_line(self):
        os.mkfifo(f"{self.room}/ff")
        for words in (("output", "--csv", "-", "n.toml", "ff"), ("report", "n.toml", "ff", "page"), ("stream", "--time", "t", "--form", "csv", "ff", "x"), ("plan", "--load", "ff"), ("explain", "--hints", "ff")):
            with self.subTest(tool=words[0]):
                tool = subprocess.Popen([f"{TOP}/tools/{words[0]}", *words[1:]], cwd=self.room, stderr=subprocess.PIPE, stdout=subprocess.DEVNULL)
                pipe = os.open(f"{self.room}/ff", os.O_WRONLY)
                told = interrupted(tool)
                os.close(pipe)
                self.assertEqual((told, tool.returncode), (f"{words[0]}: interrupted\n", -signal.SIGINT))


class Lines(Safe):
    def test_what_was_a_traceback_is_a_line(self):
        self.put("y.toml", PAIRS.replace('"k:text", "v:int"', '"v:int", "k:text"'))
        self.refused("isn't of the kind int", "report", "y.toml", "t", "page")
        self.refused("isn't of the kind int", "draw", "--network", "y.toml", "t", "p.svg")
        self.put("set.toml", SOURCE + '[[box]]\nname = "m"\nkind = "map"\nin = ["s"]\nset = 3\n' + OUTPUT)
        self.refused("Shape box 0", "report", "set.toml", "t", "page")
        self.put("i.toml", PAIRS.replace('"k:text", ', ""))
        self.put("i.txt", f"o,1,{'9' * 400}\n@end\n")
        self.refused("isn't of the kind int", "output", "--csv", "out", "--field", "v:int.2", "i.toml", "i.txt")
        self.refused("isn't of the kind int", "output", "--sqlite", "db", "i.toml", "i.txt")
        self.put("tab.csv", "when\tx\n1\t2\n")
        self.assertEqual(self.ran("stream", "--time", "when", "--separator", "\\t", "tab.csv", "-").stdout, b"1,2\n")
        for text in (b'{"t": 1, "x": "\\ud800"}\n', b"[" * 100_000, b'{"t": 1, "x": ' + b"[" * 100_000):
            self.put("x.jsonl", text)
            self.refused("half of a character|nested too deeply|Expecting", "stream", "--time", "t", "x.jsonl", "x.csv")
        self.put("long.csv", "t,x\n1," + "y" * 200_000 + "\n")
        self.refused("255|field", "stream", "--time", "t", "long.csv", "x.csv")
        self.refused("/nonexist: No such file", "explain", "--program", "/nonexist", "n.toml")
        self.put("scale.toml", f"# v: x times 1{'0' * 5000}\n{PAIRS}")
        self.assertEqual(self.ran("explain", "--hints", "scale.toml").returncode, 0)
        for name, text in (("s.csv", "9" * 5000 + ",a,1\n"), ("c", "0,5\n"), ("wide.toml", PAIRS.replace("version = 1", "version = 1\nepoch = " + "9" * 5000))):
            self.put(name, text)
        self.refused("has no tick: aurora refuses the stream", "explain", "--hints", "n.toml", "--capacities", "c")
        self.refused("aurora refuses this network: Toml: a number has more than 64 bits", "explain", "--hints", "wide.toml")
        self.assertIn("wide.toml:2:9: a number has more than 64 bits", self.ran("explain", "--program", PROGRAM, "wide.toml").told)
        self.put("t", "o,1,ä,1\n@end\n")
        self.assertIn(b"\xc3\xa4", self.ran("report", "n.toml", "t", "-", env={**os.environ, "LC_ALL": "C", "PYTHONIOENCODING": "latin-1"}).stdout)


if __name__ == "__main__":
    unittest.main()
