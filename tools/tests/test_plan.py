#!/usr/bin/env python3
"""The plans that are worked out anew are those of the program, and where a file is another one this is told."""
import os
import shutil
import subprocess
import tempfile
import unittest

import forked
from aurora_tools import network, planning

TOP = os.path.dirname(os.path.dirname(os.path.dirname(os.path.abspath(__file__))))
PROGRAM = os.environ["AURORA"]

# The load of an hour of 3600 trades is 3600 + 4 * 3600 + 1198.8, in millions; below the drop lie 15598.8, so a step saves 779.94.
HOURS = """
version = 1
epoch = 3600
[[source]]
name = "trades"
file = "trades.csv"
fields = ["at:int", "price:int"]
[[box]]
name = "bs"
kind = "bsort"
in = ["trades"]
by = "at"
slack = 8
[[box]]
name = "av"
kind = "aggregate"
in = ["bs"]
size = 600
advance = 60
give = [["avg", "avg", "price"]]
cost = 4
selectivity = [333]
[[box]]
name = "mx"
kind = "aggregate"
in = ["av"]
size = 3600
advance = 3600
give = [["top", "max", "avg"]]
[[output]]
name = "avgs"
from = "av"
[[output]]
name = "tops"
from = "mx"
graph = [[0, 0], [500, 800000], [1000, 1000000]]
"""


class Plans(unittest.TestCase):
    def setUp(self):
        room = tempfile.TemporaryDirectory()
        self.addCleanup(room.cleanup)
        self.room = room.name

    def write(self, name, text):
        with open(f"{self.room}/{name}", "w", encoding="utf-8") as file:
            file.write(text)

    def run_of(self, *words):
        ran = subprocess.run([PROGRAM, "run", *words], cwd=self.room, capture_output=True, text=True, check=True)
        self.write("text", ran.stdout)
        return ran.stdout

    def planned(self, *words):
        return forked.run([f"{TOP}/tools/plan", *words], cwd=self.room)

    def test_a_plan_worked_by_hand(self):
        self.write("net.toml", HOURS)
        self.write("trades.csv", "".join(f"{tick},{tick},100\n" for tick in range(7200)))
        # Nine steps leave 12,179.34 and ten 11,399.4, which is just the second capacity.
        for capacity in ("12000000000", "11399400000"):
            with self.subTest(capacity):
                self.write("capacity.csv", f"1,{capacity}\n")
                self.assertIn(f"@plan,1,19198800000,{capacity},7799400000,fits\n", self.run_of("net.toml", "--capacities", "capacity.csv"))
                said = self.planned("net.toml", "capacity.csv", "text").stdout
                self.assertIn("10 steps save 7,799,400,000: fits. Drop 0 has level 500", said)
                self.assertIn("779,940,000", said)
                self.assertIn("the plans are those of the run", said)

    def overload(self):
        for name in os.listdir(f"{TOP}/examples/overload"):
            shutil.copy(f"{TOP}/examples/overload/{name}", self.room)

    def test_the_steps_of_two_drops(self):
        self.overload()
        self.run_of("front.toml", "--capacities", "capacity.csv")
        ran = self.planned("--epoch", "4", "front.toml", "capacity.csv", "text")
        self.assertEqual(ran.returncode, 0)
        # 82,000,000 is too much; 16 steps of 800,000 lose nothing; of 7,800,000 each 9 more are needed, at a loss of 20,000 + 50,000.
        rows = [line.split() for line in ran.stdout.splitlines()]
        self.assertIn("1 at checks 1-16 800 up 0 800,000 0 159,200,000".split(), rows)
        self.assertIn("0 at requests 1-9 450 asked slowing 70,000 7,800,000 8,974.4 89,000,000".split(), rows)
        self.assertIn("1 at checks 17 850 up 250,000 800,000 312,500 not taken".split(), rows)
        self.assertEqual(ran.stdout.splitlines()[-4:-1], [f"{it} is without the windows that start from {spans}" for it, spans in (
            ("asked", "80 to 129"), ("slowing", "80 to 129"), ("up", "90 to 149"))])

    def test_other_files_than_those_of_the_run_are_told(self):
        self.overload()
        self.run_of("front.toml", "--capacities", "capacity.csv")
        self.write("less.csv", "0,80000000\n")
        ran = self.planned("front.toml", "less.csv", "text")
        self.assertEqual((ran.returncode, ran.stdout), (1, ""))
        self.assertIn("epoch 4: the run has @plan,4,172000000,90000000,83000000,fits, and by these files it is @plan,4,172000000,80000000,", ran.stderr)
        self.write("none.csv", "0,-\n")
        self.assertIn("by these files it is no plan", self.planned("front.toml", "none.csv", "text").stderr)

    def test_selectivities_of_a_full_run(self):
        self.overload()
        self.run_of("front.toml")
        said = self.planned("--full", "front.toml", "capacity.csv", "text").stdout
        self.assertIn("  slow: selectivity = [444, 556]    # fed 18, gave slow.1 8, slow.2 10; the network has [1000, 1000]", said)
        self.assertIn("25 steps save 83,000,000", said)
        self.run_of("front.toml", "--capacities", "capacity.csv")
        self.assertIn("it isn't that of a full run", self.planned("--full", "front.toml", "capacity.csv", "text").stderr)

    def test_the_fate_of_a_tuple_worked_by_hand(self):
        # Windows of 10 and above them of 30 start each 10 ticks, so a batch of 10 needs tuples for 9 + 29 + 1 - 10 = 29 ticks more.
        self.overload()
        self.run_of("front.toml", "--capacities", "capacity.csv")
        words = ("front.toml", "capacity.csv", "text")
        said = self.planned("--tuple", "requests", "108", *words).stdout
        self.assertIn("tuples of requests at tick 108, in epoch 5:\n  drop 0 at requests, before asked slowing:\n", said)
        rows = [line.split() for line in said.splitlines()]
        self.assertEqual([it[0] for it in rows if it[1:2] and it[0].isdigit()], ["7", "8", "9", "10"])
        self.assertEqual([it[-1] for it in rows if it[0] == "7"], ["108"])
        self.assertIn("it goes on: batch 7 is kept, and may need it", said)
        self.assertIn("it is dropped here: all 3 batches are dropped that may need it", self.planned("--tuple", "requests", "109", *words).stdout)
        self.assertIn("no drop is below", self.planned("--tuple", "tens", "100", *words).stdout)
        self.assertIn("the streams are requests, checks", self.planned("--tuple", "request", "100", *words).stderr)
        self.assertIn("isn't drawn with the seed 3: say its --seed", self.planned("--seed", "3", "--tuple", "requests", "100", *words).stderr)
        self.run_of("front.toml", "--capacities", "capacity.csv", "--seed", "3")
        self.assertIn("batch 10 is kept", self.planned("--seed", "3", "--tuple", "requests", "100", *words).stdout)

    def test_a_drop_behind_a_sort_is_asked_of_at_its_stream(self):
        self.write("net.toml", HOURS)
        self.write("trades.csv", "".join(f"{tick},{tick},100\n" for tick in range(7200)))
        self.write("capacity.csv", "1,12000000000\n")
        self.run_of("net.toml", "--capacities", "capacity.csv")
        said = self.planned("--tuple", "trades", "100", "net.toml", "capacity.csv", "text").stdout
        self.assertIn("no drop is below, as far as their ticks say", said)
        self.assertIn("below stands a drop at bs; the bsort bs gives tuples of ticks of their own: --tuple bs TICK asks of those", said)
        self.assertIn("drop 0 at bs, before avgs tops:", self.planned("--tuple", "bs", "100", "net.toml", "capacity.csv", "text").stdout)

    def test_what_a_batch_needs_with_a_phase(self):
        # The last window of a batch of 60 starts at its second 50, since windows start each 20 seconds from second 10 on: 39 + 1 - (20 - 10) ticks.
        phased = HOURS.replace("version = 1", "version = 2").replace("size = 600\nadvance = 60", "size = 40\nadvance = 20\nphase = 10").replace('[[box]]\nname = "mx"', '[[output]]\nname = "x"\nfrom = "av"\n#').split("\n#")[0]
        self.write("net.toml", phased)
        net = network.read(f"{self.room}/net.toml")
        self.assertEqual([(it.stream, it.length, planning.keep_of(net, it)) for it in net.drops], [("bs", 20, 30)])

    def test_draws_are_those_of_the_generator(self):
        # A step by step generator, for what is put together of steps.
        for seed, drop in ((0, 0), (2**64 - 1, 3)):
            increment = 2 * drop + 1
            state = ((seed + increment) * 6364136223846793005 + increment) % 2**64
            for batch in range(50):
                word, turn = (state >> 18 ^ state) >> 27 & 0xFFFFFFFF, state >> 59
                self.assertEqual(planning.draw(seed, drop, batch), ((word >> turn | word << (32 - turn)) & 0xFFFFFFFF) % 1000)
                state = (state * 6364136223846793005 + increment) % 2**64

    def test_a_text_without_its_end_is_refused(self):
        self.overload()
        self.write("text", "up,0,a,5\n")
        self.assertIn("no @end", self.planned("front.toml", "capacity.csv", "text").stderr)
