#!/usr/bin/env python3
"""Slices of time make the text of the whole run, output by output, with its plans and drops; what can't be sliced is refused by name."""
import json
import os
import pty
import shutil
import subprocess
import sys
import tempfile
import unittest
import unittest.mock

from test_shard import LOGIN

TOP = os.path.dirname(os.path.dirname(os.path.dirname(os.path.abspath(__file__))))
sys.path.insert(0, f"{TOP}/tools")
from aurora_tools import parts, seeking, slicing  # noqa: E402
from aurora_tools.reaching import Reach  # noqa: E402

PROGRAM = os.environ["AURORA"]
SLICES = os.environ.get("AURORA_SLICES", "")

NETWORK = """
version = 2
[[source]]
name = "trades"
file = "trades.csv"
fields = ["symbol:text", "price:int"]
[[source]]
name = "rates"
file = "rates.csv"
fields = ["at:int", "rate:int"]
[[box]]
name = "dear"
kind = "filter"
in = ["trades"]
where = ["price > 30"]
[[box]]
name = "means"
kind = "aggregate"
in = ["trades"]
group = ["symbol"]
size = 50
advance = 20
phase = 3
give = [["trades", "count"], ["mean", "avg", "price"]]
[[box]]
name = "named"
kind = "map"
in = ["means"]
set = [["symbol", "symbol"], ["price", "mean"], ["note", "'two\\nlines\\n@end'"]]
[[box]]
name = "pairs"
kind = "join"
in = ["trades", "dear.1"]
size = 6
on = "l_symbol = r_symbol and l_price < r_price"
[[box]]
name = "near"
kind = "resample"
in = ["dear.2", "rates"]
size = 7
give = [["rates", "count"], ["most", "max", "rate"]]
[[output]]
name = "named"
from = "named"
[[output]]
name = "pairs"
from = "pairs"
[[output]]
name = "near"
from = "near"
"""
SORTED = """
version = 1
source = [{name = "rates", file = "rates.csv", fields = ["at:int", "rate:int"]}]
box = [{name = "sorted", kind = "bsort", in = ["rates"], by = "at", slack = 8}, {name = "sums", kind = "aggregate", in = ["sorted"], size = 8, advance = 4, give = [["sum", "sum", "rate"]]}]
output = [{name = "sums", from = "sums"}]
"""
SYMBOLS = ['"a, b"', '"open', "", '"say ""so"""', "ü", "cc", 'in"side']
# Ten ticks a window, and no more than the tuples of a window are needed.
TENS = ('version = 1\n[[source]]\nname = "s"\nfile = "s.csv"\nfields = ["v:int"]\n[[box]]\nname = "tens"\nkind = "aggregate"\nin = ["s"]\nsize = 10\nadvance = 10\n'
        'give = [["sum", "sum", "v"]]\n[[output]]\nname = "o"\nfrom = "tens"\n')


def of_output(name, records):
    return [record for record in records if record.startswith(f"{name},")]


def records_of(text):
    """Returns the records of a text: one goes on over the end of a line in quotes."""
    found, begun = [], ""
    for line in text.splitlines(True):
        begun += line
        if begun.count('"') % 2 == 0:
            found.append(begun)
            begun = ""
    return found


@unittest.skipUnless(SLICES, "there is no program aurora_slices")
class Slices(unittest.TestCase):
    def setUp(self):
        room = tempfile.TemporaryDirectory()
        self.addCleanup(room.cleanup)
        self.room = room.name

    def write(self, name, text):
        with open(f"{self.room}/{name}", "w", encoding="utf-8", newline="") as file:
            file.write(text)

    def write_streams(self):
        """All that a stream may have: a mark of byte order, blank lines, ends of two kinds, zeros before ticks and ticks in quotes, a quote that isn't closed."""
        self.write("net.toml", NETWORK)
        ends = ["\n", "\r\n", "\n\n", "\n\r\n"]
        self.write("trades.csv", "\ufeff" + "".join(f"{'0' * (at % 5 == 1)}{at * 2 // 3},{SYMBOLS[at * at % 11 % 7]}{',' * (at * at % 11 % 7 != 1)}{at * 7 % 61}{ends[at % 4]}"
                                                    for at in range(600) if at * at % 11 % 7 != 1) + "\r")
        self.write("rates.csv", "".join(f'"{at * 6}",{at * 6 - at % 2 * 2},{at % 23}\n' for at in range(66)).rstrip("\n"))

    def shard(self, *words, **more):
        words = [f"{TOP}/tools/shard", "--time", "--program", PROGRAM, "--slicer", SLICES, *words]
        return subprocess.run(words, cwd=self.room, capture_output=True, text=True, env={**os.environ, "HOME": self.room, **more})

    def answer(self, *words, **more):
        said = self.shard(*words, **more)
        self.assertEqual((said.stderr, said.returncode), ("", 0))
        return records_of(said.stdout)

    def refused(self, why, status, *words):
        said = self.shard(*words)
        self.assertEqual((said.stdout, said.stderr, said.returncode), ("", f"shard: {why}\n", status))
        self.assertFalse(os.path.exists(f"{self.room}/parts"))

    def whole(self, *words):
        return records_of(subprocess.run([PROGRAM, "run", *words], cwd=self.room, capture_output=True, text=True, check=True).stdout)

    def compare(self, made, *words, outputs=("named", "pairs", "near")):
        whole = self.whole(*words)
        for output in outputs:
            self.assertGreater(len(of_output(output, whole)), 4)
            self.assertEqual(of_output(output, made), of_output(output, whole))
        self.assertEqual(made[-1], "@end\n")

    def count(self):
        return len([name for name in os.listdir(f"{self.room}/parts") if name.startswith("part-")])

    def text(self, name):
        with open(f"{self.room}/{name}", encoding="utf-8", newline="") as file:
            return file.read()

    def times(self):
        return [os.stat(f"{self.room}/parts/part-{part}/out").st_mtime_ns for part in range(self.count())]

    # ---- what slices make

    def test_slices_make_the_text_of_the_whole(self):
        self.write_streams()
        for count in (1, 2, 7):
            self.compare(self.answer("--slices", str(count), "--work", f"w{count}", "net.toml"), "net.toml")
            self.assertEqual(len([name for name in os.listdir(f"{self.room}/w{count}") if name.startswith("part-")]), count)

    def test_each_slice_has_what_it_reaches_and_shows_its_own(self):
        self.write("net.toml", TENS.replace("size = 10", "size = 15"))
        self.write("s.csv", "".join(f"{at},{at}\n" for at in range(10, 100, 3)))
        made = self.answer("--slices", "3", "net.toml")
        # 30 tuples of 6 bytes: cuts up to 60 and 120 bytes, at whole tens. Behind a cut the windows of 15 ticks that begin before it need five more.
        for part, (begin, end) in enumerate(((10, 45), (40, 75), (70, 100))):
            self.assertEqual(self.text(f"parts/part-{part}/s.csv"), "".join(f"{at},{at}\n" for at in range(10, 100, 3) if begin <= at < end))
        sums = {begin: sum(at for at in range(10, 100, 3) if begin <= at < begin + 15) for begin in range(0, 100, 10)}
        self.assertEqual(of_output("o", made), [f"o,{begin},{total}\n" for begin, total in sums.items()])
        self.assertEqual(made[-4:], ["@part,0,@box,tens,12\n", "@part,1,@box,tens,12\n", "@part,2,@box,tens,10\n", "@end\n"])

    def test_bytes_say_how_great_slices_are_and_empty_streams_have_one(self):
        self.write("net.toml", TENS)
        self.write("s.csv", "".join(f"{at},1\n" for at in range(10, 99)))
        self.answer("--bytes", "100", "net.toml")
        self.assertEqual([len(self.text(f"parts/part-{part}/s.csv")) for part in range(self.count())], [100, 100, 100, 100, 45])
        for text in ("", "\ufeff", "\n\n", "\r", "7,1"):
            self.write("s.csv", text)
            self.assertEqual(of_output("o", self.answer("--work", f"of{len(text)}{text.strip()[:1]}", "net.toml")), of_output("o", self.whole("net.toml")))
        self.write("s.csv", "7,1\n" * 50)
        self.assertEqual(of_output("o", self.answer("--work", "one", "--slices", "5", "net.toml")), ["o,0,50\n"])

    def test_plans_and_drops_are_those_of_the_whole(self):
        for name in ("front.toml", "requests.csv", "checks.csv", "capacity.csv"):
            shutil.copy(f"{TOP}/examples/overload/{name}", self.room)
        made = self.answer("--bytes", "9", "--capacities", "capacity.csv", "front.toml")
        whole = self.whole("front.toml", "--capacities", "capacity.csv")
        # Epochs of 20 ticks, batches of 10 and 30: a slice ends at each minute.
        self.assertEqual(json.loads(self.text("parts/plan.json"))["slices"]["begins"], [0, 60, 120])
        self.assertEqual(of_output("@plan", made), ["@plan,4,172000000,90000000,83000000,fits\n", "@plan,5,172000000,90000000,83000000,fits\n", "@plan,6,172000000,90000000,83000000,fits\n"])
        self.assertEqual(sorted(of_output("@drop", made)), sorted(["@drop,0,8,450\n", "@drop,0,9,450\n", "@drop,1,3,800\n", "@drop,0,10,450\n", "@drop,0,11,450\n", "@drop,0,12,450\n", "@drop,1,4,800\n"]))
        for output in ("asked", "slowing", "up"):
            self.assertGreater(len(of_output(output, whole)), 1)
            self.assertEqual(of_output(output, made), of_output(output, whole))

    def test_a_plan_that_nothing_in_its_slice_follows_is_that_of_the_whole(self):
        self.write("net.toml", TENS.replace("[[source]]", "epoch = 10\n[[source]]"))
        self.write("capacity.csv", "0,0\n")
        self.write("s.csv", "".join(f"{at},1\n" for at in (*range(20), *range(50, 70))))
        words = ("--capacities", "capacity.csv", "net.toml")
        made, whole = self.answer("--slices", "2", *words), self.whole(*words[2:], *words[:2])
        self.assertEqual(json.loads(self.text("parts/plan.json"))["slices"]["begins"], [0, 50])
        # The slice up to 50 has no tuple of its own in epoch 2 or behind it.
        self.assertEqual([plan.split(",")[1] for plan in of_output("@plan", made)], ["1", "2", "6"])
        for name in ("@plan", "@drop", "o"):
            self.assertEqual(sorted(of_output(name, made)), sorted(of_output(name, whole)))

    def test_a_batch_that_is_touched_from_far_behind_alone_is_told_as_dropped(self):
        tens = TENS.replace("size = 10", "size = 15").replace('"s"]', '"some.1"]').replace("[[source]]", "epoch = 10\n[[source]]").replace('from = "tens"', 'from = "sums"')
        self.write("net.toml", tens + '[[output]]\nname = "rest"\nfrom = "some.2"\n[[box]]\nname = "some"\nkind = "filter"\nin = ["s"]\nwhere = ["v > 0"]\n'
                   '[[box]]\nname = "sums"\nkind = "aggregate"\nin = ["tens"]\nsize = 15\nadvance = 10\ngive = [["sum", "sum", "sum"]]\n')
        self.write("capacity.csv", "0,0\n")
        ones = [[f"{at},1\n" for at in ticks] for ticks in (range(40), range(68, 99))]
        self.write("s.csv", "".join([*ones[0], "50,0\n", "68,0\n", *ones[1]]))
        words = ("--capacities", "capacity.csv", "net.toml")
        made, whole = self.answer("--bytes", "190", *words), self.whole(*words[2:], *words[:2])
        self.assertEqual(json.loads(self.text("parts/plan.json"))["slices"]["begins"][1], 50)
        # What is kept for batch 4, of ticks 40 to 49, goes on up to 68, where the first tuple is that comes to the drop.
        self.assertIn("@drop,0,4,1000\n", made)
        for name in ("@plan", "@drop", "o", "rest"):
            self.assertEqual(sorted(of_output(name, made)), sorted(of_output(name, whole)))

    def test_a_terminal_is_shown_how_many_have_ended(self):
        self.write_streams()
        terminal, end = pty.openpty()
        words = [f"{TOP}/tools/shard", "--time", "--program", PROGRAM, "--slicer", SLICES, "--slices", "3", "net.toml"]
        subprocess.run(words, cwd=self.room, stdout=subprocess.DEVNULL, stderr=end, check=True)
        os.close(end)
        self.assertEqual(os.read(terminal, 4096).decode(), "".join(f"\r\x1b[Kshard: {count} of 3 parts have ended" for count in (1, 2)) + "\r\x1b[K")
        os.close(terminal)

    # ---- what can't be sliced

    def write_rates(self, late):
        self.write("net.toml", SORTED)
        self.write("rates.csv", "".join(f"{at},{at - late if at == 150 else at - at % 3},{at % 23}\n" for at in range(300)))

    def test_a_bsort_is_sliced_where_each_slice_shows_the_delay(self):
        self.write_rates(5)
        self.refused("no slices of time make sums: the bsort sorted can't be sliced: tell by --delay how many ticks after its time a tuple comes to it at most", 1, "net.toml")
        made = self.answer("--delay", "5", "--slices", "4", "net.toml")
        self.assertEqual(self.count(), 4)
        self.compare(made, "net.toml", outputs=["sums"])
        self.assertEqual([line for line in made if line.startswith("@late") or "delayed" in line], ["@late,sorted,0\n"])

    def test_a_delay_that_is_too_short_is_told_with_the_one_to_say(self):
        self.write_rates(5)
        said = self.shard("--delay", "4", "--slices", "4", "net.toml")
        self.assertRegex(said.stderr, r"^shard: a tuple comes to the BSort sorted 5 ticks after its time \(slice \d\), and --delay says at most 4: say 5\n$")
        self.assertEqual((said.stdout, said.returncode), ("", 2))

    def test_a_tuple_that_a_bsort_leaves_out_ends_all(self):
        self.write_rates(90)
        said = self.shard("--delay", "90", "--slices", "4", "net.toml")
        self.assertRegex(said.stderr, r"^shard: slice \d has tuples that a BSort leaves out \(@late,sorted,1\), .*: give it more slack\n$")
        self.assertEqual((said.stdout, said.returncode), ("", 2))

    def test_words_that_do_not_stand_together_are_told(self):
        for words in (["net.toml", "s=v", "4"], ["--on-time", "net.toml"], ["--slices", "0", "net.toml"], ["--slices", "2", "--bytes", "5", "net.toml"], ["--delay", "1099511627776", "net.toml"],
                      ["--delay", "-1", "net.toml"], []):
            said = self.shard(*words)
            self.assertEqual((said.stdout, said.returncode, said.stderr.count("\n")), ("", 2, 1))
            self.assertIn("aurora-shard --help tells more", said.stderr)

    # ---- limits

    def cutter(self, text, reach, with_next=False):
        self.write("s.csv", text)
        with unittest.mock.patch("os.getcwd", return_value=self.room):
            return slicing.Cutter(slicing.Sources([{"name": "s", "file": f"{self.room}/s.csv", "fields": ["v:int"]}]), reach, with_next)

    def test_slices_are_cut_more_often_where_a_run_would_not_take_them(self):
        text = "".join(f"{at},1\n" for at in range(10, 70))
        with unittest.mock.patch.object(slicing, "MOST_TUPLES", 25):
            # 20 own tuples and 2 before, 3 behind: 25. At the begin there are none before.
            self.assertEqual(self.cutter(text, Reach(2, 3, 10, 0)).cuts(0, 1 << 20), [30, 50])
            self.assertEqual(self.cutter(text, Reach(2, 4, 10, 0)).cuts(0, 1 << 20), [30, 40, 50])
        with unittest.mock.patch.object(slicing, "MOST_BYTES", 130), unittest.mock.patch.object(slicing, "LINE", 5):
            self.assertEqual(self.cutter(text, Reach(2, 3, 10, 0)).cuts(0, 1 << 20), [30, 50])

    def test_a_slice_that_no_run_takes_is_named(self):
        text = "".join(f"{at},1\n" for at in range(10, 20)) + "25,1\n" * 21
        with unittest.mock.patch.object(slicing, "MOST_TUPLES", 20), self.assertRaisesRegex(
                parts.Stop, r"^the slice of ticks 20 to 29 would have 22 lines of source s, with 1 ticks before it and 0 behind it, and a run takes 20: no slice of this network is shorter than 10 ticks, "
                            r"so cut it by a key$") as why:
            self.cutter(text, Reach(1, 0, 10, 0)).cuts(0, 1 << 20)
        self.assertEqual(why.exception.status, 6)
        with unittest.mock.patch.object(slicing, "MOST_BYTES", 100), unittest.mock.patch.object(slicing, "LINE", 5), self.assertRaisesRegex(parts.Stop, "would have 105 bytes of source s") as why:
            self.cutter(text, Reach(0, 0, 10, 0)).cuts(0, 1 << 20)
        self.assertEqual(why.exception.status, 11)

    def test_ticks_are_found_wherever_lines_begin(self):
        text = "\ufeff" + "\n\n" + "3,1\n\r\n\n03,2\r\n" + '"5",3\n' + "\n" * 5000 + "9,4\n" + "10,5"
        stream = self.cutter(text, Reach(0, 0, 1, 0)).streams[0]
        found = [text.encode()[stream.from_tick(tick):].lstrip(b"\r\n").split(b",")[0] for tick in (0, 3, 4, 5, 6, 9, 10)]
        self.assertEqual(found[1:], [b"3", b'"5"', b'"5"', b"9", b"9", b"10"])
        self.assertEqual(stream.from_tick(11), len(text.encode()))
        for at in range(3, len(text.encode())):
            self.assertEqual(stream.line_of(at), text.encode().rfind(b"\n", 3, at) + 1 or 3)
        self.assertEqual(self.cutter("5," + "1" * 20_000 + "\n6,1\n", Reach(0, 0, 1, 0)).streams[0].from_tick(6), 20_003)

    # ---- what the whole refuses

    def test_what_the_whole_run_refuses_is_refused_by_the_same_words(self):
        self.write("net.toml", TENS)
        lines = [f"{at},1\n" for at in range(10, 90)]
        for number, line in ((41, "12,1\n"), (40, "\ufeff50,1\n"), (33, "x,1\n"), (60, "69,none\n"), (80, "89,1,2\n"), (1, "10,\n99,1\n")):
            self.write("s.csv", "".join([*lines[:number - 1], line, *lines[number:]]))
            whole = subprocess.run([PROGRAM, "run", "net.toml"], cwd=self.room, capture_output=True, text=True)
            self.assertEqual(whole.returncode, 6)
            said = self.shard("--work", f"at{number}", "--slices", "4", "net.toml")
            self.assertEqual((said.stdout, said.stderr, said.returncode), ("", whole.stderr.replace("aurora: ", "shard: "), 6))

    def test_what_is_not_there_is_told_before_anything_is_cut(self):
        self.write("net.toml", TENS)
        self.refused("cannot read s.csv", 7, "net.toml")
        self.write("s.csv", "1,1\n")
        self.refused("there is no program nowhere", 2, "--slicer", "nowhere", "net.toml")
        self.write("net.toml", TENS.replace("tens", "TENS", 1))
        self.refused("aurora_slices: network: NoName box 0 0", 3, "net.toml")

    # ---- going on

    def test_a_slice_that_fails_is_run_again_alone(self):
        self.write_streams()
        trades = self.text("trades.csv")
        self.write("trades.csv", trades.replace("\n200,", "\n200,,none\n200,", 1))
        said = self.shard("--slices", "4", "net.toml")
        line = self.text("trades.csv")[:self.text("trades.csv").index("none")].count("\n") + 1
        self.assertEqual((said.stdout, said.stderr, said.returncode), ("", f"shard: stream trades: line {line}: NotInt\n", 6))
        there = {part: self.times_of(part) for part in range(4) if os.path.exists(f"{self.room}/parts/part-{part}/out")}
        self.assertIn(len(there), (2, 3))
        self.write("trades.csv", trades.replace("\n200,", "\n200,,1111\n200,", 1))
        said = self.shard("--resume", "net.toml")
        self.assertRegex(said.stderr, r"^shard: the streams were changed in slices? [\d, ]+, which (is|are) run again\n$")
        self.compare(records_of(said.stdout), "net.toml")
        self.assertEqual({part: self.times_of(part) for part in there}, there)

    def times_of(self, part):
        return os.stat(f"{self.room}/parts/part-{part}/out").st_mtime_ns

    def test_new_data_at_the_end_makes_new_slices_alone(self):
        self.write("net.toml", TENS)
        self.write("s.csv", "".join(f"{at},1\n" for at in range(10, 70)))
        before = self.answer("--slices", "3", "net.toml")
        there = self.times()
        self.write("s.csv", "".join(f"{at},1\n" for at in range(10, 99)))
        made = self.answer("--resume", "net.toml")
        self.compare(made, "net.toml", outputs=["o"])
        self.assertEqual(of_output("o", made)[:6], of_output("o", before))
        self.assertEqual(json.loads(self.text("parts/plan.json"))["slices"]["begins"], [0, 30, 50, 70, 90])
        self.assertEqual(self.times()[:3], there)
        # A tuple more in the last window alone: that slice is run again.
        there = self.times()
        self.write("s.csv", self.text("s.csv") + "99,1\n")
        self.compare(self.answer("--resume", "net.toml"), "net.toml", outputs=["o"])
        self.assertEqual([a == b for a, b in zip(there, self.times())], [True, True, True, True, False])

    def test_a_file_that_was_changed_in_the_middle_is_found(self):
        self.write("net.toml", TENS)
        self.write("s.csv", "".join(f"{at},1\n" for at in range(10, 90)))
        self.answer("--slices", "4", "net.toml")
        there = self.times()
        self.write("s.csv", self.text("s.csv").replace("55,1", "55,7"))
        said = self.shard("--resume", "net.toml")
        self.assertEqual((said.stderr, said.returncode), ("shard: the streams were changed in slice 2, which is run again\n", 0))
        self.compare(records_of(said.stdout), "net.toml", outputs=["o"])
        self.assertEqual([a == b for a, b in zip(there, self.times())], [True, True, False, True])
        self.assertIn("something else", self.shard("--resume", "--capacities", "net.toml", "net.toml").stderr)

    def test_slices_that_were_not_all_made_are_made_anew(self):
        self.write_streams()
        self.shard("--slurm", "--slices", "3", "net.toml")
        plan = json.loads(self.text("parts/plan.json"))
        plan["slices"]["digests"][1] = None
        self.write("parts/plan.json", json.dumps(plan))
        self.write("parts/part-1/trades.csv", "1,h,1\n")
        self.assertEqual(subprocess.run([f"{TOP}/tools/shard", "--merge", "parts"], cwd=self.room, capture_output=True, text=True).stderr,
                         "shard: slice 1 has not been made: --resume goes on\n")
        self.compare(self.answer("--resume", "net.toml"), "net.toml")

    def test_a_folder_of_others_is_left_alone(self):
        self.write_streams()
        self.shard("--slurm", "--slices", "3", "net.toml")
        whole = self.text("parts/plan.json")
        for old, new in (('"begins": [0', '"begins": [1'), ('"begins": [0,', '"begins": ['), ('"reach": [', '"reach": [-'), ('"digests": [', '"digests": [7, '), ('"files": [', '"files": [[], ')):
            self.assertIn(old, whole)
            self.write("parts/plan.json", whole.replace(old, new, 1))
            with self.assertRaisesRegex(parts.Stop, "isn't whole"):
                parts.read_plan(f"{self.room}/parts")
        self.write("parts/plan.json", whole)
        os.mkdir(f"{self.room}/parts/part-3")
        self.write("trades.csv", self.text("trades.csv") + "\n5000,a,1\n9000,a,1\n")
        self.assertEqual(self.shard("--resume", "--bytes", "10", "net.toml").stderr, "shard: parts/part-3 is there, and is no slice of this run\n")

    # ---- machines

    def test_an_array_job_does_the_same(self):
        self.write_streams()
        said = self.shard("--slurm", "--slices", "3", "net.toml")
        self.assertEqual(said.stdout, f"sbatch --quiet --wait parts/job; {TOP}/tools/shard --merge parts\n")
        for part in range(3):
            subprocess.run(["bash", "parts/job"], cwd=self.room, env={**os.environ, "SLURM_ARRAY_TASK_ID": str(part)}, check=True)
        merged = subprocess.run([f"{TOP}/tools/shard", "--merge", "parts"], cwd=self.room, capture_output=True, text=True)
        self.assertEqual((merged.stderr, merged.returncode), ("", 0))
        self.compare(records_of(merged.stdout), "net.toml")

    def test_a_machine_that_goes_down_in_the_middle_changes_nothing(self):
        self.write_streams()
        for name in ("bin", "one", "two"):
            os.makedirs(f"{self.room}/{name}")
        self.write("bin/ssh", LOGIN)
        os.chmod(f"{self.room}/bin/ssh", 0o755)
        # What runs on the second machine ends it in the middle of its run.
        self.write("program", f'#!/bin/sh\ncase $PWD in */two/*) touch "{self.room}/two/down"; kill -s KILL $PPID $$;; esac\nexec {PROGRAM} "$@"\n')
        os.chmod(f"{self.room}/program", 0o755)
        path = f"{self.room}/bin:{os.environ['PATH']}"
        said = self.shard("--slices", "6", "--program", f"{self.room}/program", "--sshlogin", "1/two,1/one", "net.toml", PATH=path)
        self.assertIn("host two", said.stderr)
        os.remove(f"{self.room}/two/down")
        self.write("program", f'#!/bin/sh\nexec {PROGRAM} "$@"\n')
        self.compare(self.answer("--resume", "--program", f"{self.room}/program", "--sshlogin", "1/one,1/two", "net.toml", PATH=path), "net.toml")


if __name__ == "__main__":
    unittest.main()
