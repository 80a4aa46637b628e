#!/usr/bin/env python3
"""What a run that ended well may hide is told with its line, and of the networks of examples/ nothing is."""
import glob
import os
import re
import subprocess
import tempfile
import unittest

import forked
from aurora_tools import hints, network

TOP = os.path.dirname(os.path.dirname(os.path.dirname(os.path.abspath(__file__))))
PROGRAM = os.environ["AURORA"]
NETWORK = """version = 1
epoch = 10
[[source]]
name = "s"
file = "s.csv"
fields = ["at:int", "v:int", "k:text"]
[[source]]
name = "t"
file = "t.csv"
fields = ["v:int"]
[[box]]
name = "f"
kind = "filter"
in = ["s"]
where = ["v > 10"]
[[box]]
name = "w"
kind = "aggregate"
in = ["f.1"]
size = 1
advance = 1
give = [["n", "count"]]
[[box]]
name = "j"
kind = "join"
in = ["s", "t"]
size = 5
on = "l_v = r_v"
[[output]]
name = "o"
from = "w"
[[output]]
name = "p"
from = "j"
"""
BSORT = '[[box]]\nname = "b"\nkind = "bsort"\nin = ["s"]\nby = "at"\nslack = 0\n[[output]]\nname = "o"\nfrom = "b"'
JOIN = 'kind = "join"\nin = ["s", "t"]\nsize = 5\non = "l_v = r_v"'
RESAMPLE = 'kind = "resample"\nin = ["s", "t"]\nsize = 5\ngive = [["near", "count"]]'
SORTED = '\n[[box]]\nname = "b"\nkind = "bsort"\nin = ["s"]\nby = "at"\nslack = 1'
S, T = "100,99,20,x\n101,90,500,y\n115,112,30,x\n125,125,5,x\n", "100,20\n101,30\n"

# What is put in place of what in the network; the streams, the capacities; the line that is told, what is said, where it is of the text of a run.
CASES = [
    ("", "", S, T, None, None, None),
    ('where = ["v > 10"]', 'where = ["v > 10", "k = \'x\'"]', S, T, None, "where", 'one predicate: where = ["(v > 10) and (k = \'x\')"]'),
    ('where = ["v > 10"]', 'where = ["v > 10 and k <> null"]', S, T, None, "where", "`k <> null` is Null of every tuple"),
    ('where = ["v > 10"]', 'where = ["1 = 2", "v > 10"]', S, T, None, "where", "names no field"),
    ('where = ["v > 10"]', "where = [\"k > '10'\"]", S, T, None, "where", "byte by byte"),
    ('where = ["v > 10"]', 'where = ["v > 1000"]', S, T, None, "where", "`v > 1000` took none of the 4 tuples"),
    ('in = ["f.1"]', 'in = ["s"]', S, T, None, "[[box]]", "box 0, `f`, a filter: no output has anything of it"),
    ('[[source]]\nname = "t"', '# v: Volume times 100\n[[source]]\nname = "t"', S, T, None, "fields", "source 1, `t`: `v` is times 100, and in `s` it has no scale"),
    ('version = 1\nepoch = 10\n', 'version = 1\nepoch = 10\n# v: price times 10000\n', S, T, None, "fields", "`v` has no scale, and in `s` it is times 10,000"),
    ('in = ["s", "t"]', 'in = ["s", "s"]', S, T, None, "[[source]]", "source 1, `t`: no output has anything of it"),
    ("", "", S, T.replace("10", "100010"), None, "[[box]]", "none is within 5 of another. Have they one unit, and one origin?"),
    ("", "", S, T.replace("10", "100010"), "0,0\n", "[[box]]", "box 2, `j`, a join: it was fed 6 tuples and gave none"),
    (JOIN, RESAMPLE, S, T, None, None, None),
    (JOIN, RESAMPLE, S, T.replace("10", "100010"), None, "[[box]]", "nothing of `t` is near any tuple of `s`"),
    (JOIN, RESAMPLE.replace('"s"', '"b"') + SORTED, S, T.replace("10", "100010"), None, None, None),
    ('[[output]]\nname = "o"\nfrom = "w"', BSORT, S, T, None, "slack", "left out 1 of 4 tuples"),
    ("epoch = 10", "epoch = 1000", S, T, "0,5\n", "", "all tuples lie in epoch 0"),
    ('[[output]]\nname = "o"\nfrom = "w"', BSORT, S, T, "0,5\n", "", "there is no drop point"),
    ("", "", S, T, "0,5\n", "", "more load than capacity, and nothing left to drop"),
    ("", "", S, T, "0,99000000\n", "", "no epoch is over its capacity: the busiest has a load of"),
    ('from = "w"\n[[output]]', 'from = "w"\nweight = 5\n[[output]]\nname = "q"\nfrom = "w"\n[[output]]', S, T, "0,99000000\n", "", "o and q are below drop 0: they lose the same windows"),
]


class Hints(unittest.TestCase):
    def hints(self, room, network, text=True, capacities=None):
        words = ["--capacities", "c.csv"] if capacities else []
        ran = subprocess.run([PROGRAM, "run", network, *words], cwd=room, capture_output=True, text=True)
        self.assertEqual(ran.returncode, 0, ran.stderr)
        asked = [f"{TOP}/tools/explain", "--hints", network, *(["-"] if text else []), *words]
        return forked.run(asked, cwd=room, input=ran.stdout)

    def test_each_is_told_with_its_line(self):
        for old, new, s, t, capacities, line, said in CASES:
            with self.subTest(new=new, said=said), tempfile.TemporaryDirectory() as room:
                for name, text in (("n.toml", NETWORK.replace(old, new)), ("s.csv", s), ("t.csv", t), ("c.csv", capacities or "")):
                    with open(f"{room}/{name}", "w", encoding="utf-8") as file:
                        file.write(text)
                ran = self.hints(room, "n.toml", capacities=capacities)
                self.assertEqual((ran.returncode, ran.stderr), (0, ""))
                if said is None:
                    self.assertEqual(ran.stdout, "nothing strange is seen\n")
                    continue
                self.assertIn(said, ran.stdout)
                if line:
                    self.assertRegex(ran.stdout, rf"(?m)^    [0-9]+ \| {re.escape(line)}")

    def test_of_the_examples_nothing_is_told(self):
        networks = {*glob.glob(f"{TOP}/examples/*/*.toml")} - {*glob.glob(f"{TOP}/examples/refused/*"), f"{TOP}/examples/recipes/hints.toml"}
        self.assertGreater(len(networks), 20)
        for path in networks:
            with self.subTest(network=path):
                self.assertEqual(list(hints.hints(network.read(path), None, None)), [])

    def test_a_network_that_is_refused_has_no_hints(self):
        ran = forked.run([f"{TOP}/tools/explain", "--hints", f"{TOP}/examples/refused/typing.toml"])
        self.assertNotIn("Traceback", ran.stderr)


if __name__ == "__main__":
    unittest.main()
