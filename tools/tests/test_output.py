#!/usr/bin/env python3
"""What a run wrote becomes tables with the values of its lines; what isn't whole or isn't of the network becomes nothing."""
import csv
import json
import os
import sqlite3
import subprocess
import tempfile
import unittest
import unittest.mock

import forked

TOP = os.path.dirname(os.path.dirname(os.path.dirname(os.path.abspath(__file__))))
BOXES = f"{TOP}/examples/boxes"


class Outputs(unittest.TestCase):
    def setUp(self):
        room = tempfile.TemporaryDirectory()
        self.addCleanup(room.cleanup)
        self.room = room.name

    def made(self, form, where, network, text, *words):
        return forked.run([f"{TOP}/tools/output", f"--{form}", where, *words, network, text])

    def test_a_table_an_output_with_headings(self):
        self.assertEqual(self.made("csv", f"{self.room}/a", f"{TOP}/examples/desk/desk.toml", f"{TOP}/examples/desk/expected.txt").returncode, 0)
        with open(f"{self.room}/a/lost.csv", encoding="utf-8") as table:
            self.assertEqual(table.read(), "time,symbol,price,loss\n34201,ABC,1049,1\n34207,XYZ,24990,5\n34230,ABC,1046,2\n34263,ABC,1052,2\n")
        self.assertEqual(sorted(os.listdir(f"{self.room}/a")), ["averages.csv", "lost.csv"])

    def test_what_another_wrote_meanwhile_stays(self):
        # The looks for what is there already have been passed.
        for form, there, mine in (("csv", "a/lost.csv", "a"), ("sqlite", "db", "db")):
            with self.subTest(form=form), unittest.mock.patch("os.path.lexists", side_effect=lambda path: False):
                os.makedirs(f"{self.room}/a", exist_ok=True)
                with open(f"{self.room}/{there}", "w", encoding="utf-8") as table:
                    table.write("theirs")
                said = self.made(form, f"{self.room}/{mine}", f"{TOP}/examples/desk/desk.toml", f"{TOP}/examples/desk/expected.txt")
                self.assertEqual((said.returncode, said.stderr), (1, f"output: {self.room}/{there} is there already\n"))
                with open(f"{self.room}/{there}", encoding="utf-8") as table:
                    self.assertEqual(table.read(), "theirs")
        self.assertEqual((os.listdir(f"{self.room}/a"), sorted(os.listdir(self.room))), (["lost.csv"], ["a", "db"]))

    def test_values_have_their_kinds_in_json(self):
        ran = self.made("jsonl", "-", f"{BOXES}/values.toml", f"{BOXES}/values.txt", "--output", "values")
        self.assertEqual(json.loads(ran.stdout.splitlines()[3]), {"time": 4, "sum": None, "quotient": 9223372036854775807, "rest": 0, "less": False,
                                                                  "both": None, "either": None, "none": False})
        ran = self.made("jsonl", "-", f"{BOXES}/text.toml", f"{BOXES}/text.txt", "--output", "named")
        self.assertEqual([json.loads(line) for line in ran.stdout.splitlines()],
                         [{"time": 2, "words": "one, two", "number": 2}, {"time": 3, "words": 'he said "no"', "number": None}])

    def test_quotes_are_those_of_csv(self):
        ran = self.made("csv", "-", f"{BOXES}/text.toml", f"{BOXES}/text.txt", "--output", "named")
        self.assertEqual(list(csv.reader(ran.stdout.splitlines())), [["time", "words", "number"], ["2", "one, two", "2"], ["3", 'he said "no"', ""]])

    def test_tables_of_a_database(self):
        self.assertEqual(self.made("sqlite", f"{self.room}/db", f"{BOXES}/aggregate.toml", f"{BOXES}/aggregate.txt").returncode, 0)
        with sqlite3.connect(f"{self.room}/db") as database:
            found = database.execute("SELECT time, unit, total, ended FROM windows WHERE ended").fetchall()
        self.assertEqual(found, [(0, "a", 25, 1)])
        again = self.made("sqlite", f"{self.room}/db", f"{BOXES}/aggregate.toml", f"{BOXES}/aggregate.txt")
        self.assertEqual(again.returncode, 1)
        self.assertIn("already exists", again.stderr)

    def lost(self, form, *words):
        return self.made(form, "-", f"{TOP}/examples/desk/desk.toml", f"{TOP}/examples/desk/expected.txt", "--output", "lost", *words)

    def test_ticks_become_times_and_small_units_decimals(self):
        said = self.lost("csv", "--field", "price:int.2", "--field", "time:time", "--origin", "2026-03-02T00:00:00Z").stdout
        self.assertEqual(said.splitlines()[:2], ["time,symbol,price,loss", "2026-03-02T09:30:01Z,ABC,10.49,1"])
        said = self.lost("jsonl", "--field", "loss:int.3", "--field", "time:time", "--tick", "ms").stdout
        self.assertEqual(said.splitlines()[0], '{"time": "1970-01-01T00:00:34.201Z", "symbol": "ABC", "price": 1049, "loss": 0.001}')
        said = self.lost("csv", "--field", "price:time", "--tick", "d").stdout
        self.assertEqual(said.splitlines()[1], "34201,ABC,1972-11-15T00:00:00Z,1")
        self.made("sqlite", f"{self.room}/db", f"{BOXES}/values.toml", f"{BOXES}/values.txt", "--field", "sum:int.1")
        with sqlite3.connect(f"{self.room}/db") as database:
            self.assertEqual(database.execute('SELECT sum FROM "values" WHERE time < 5').fetchall(), [(0.9,), (-0.5,), (0.7,), (None,)])
        said = self.made("csv", "-", f"{BOXES}/values.toml", f"{BOXES}/values.txt", "--field", "quotient:int.19").stdout
        self.assertEqual(said.splitlines()[4], "4,,0.9223372036854775807,0,false,,,false")

    def test_a_kind_that_no_column_can_have_is_told(self):
        self.assertIn("pric:int.2: it is FIELD:int.N", self.lost("csv", "--field", "pric:int.2").stderr)
        self.assertIn("price:int: it is FIELD:int.N", self.lost("csv", "--field", "price:int").stderr)
        self.assertIn("symbol is no number", self.lost("csv", "--field", "symbol:time").stderr)
        self.assertIn("is no time of ISO 8601, as 2026", self.lost("csv", "--field", "time:time", "--origin", "soon").stderr)
        self.assertIn("no time of the years", self.lost("csv", "--field", "time:time", "--tick", "d", "--origin", "9990-01-01").stderr)

    def refused(self, why, network, text):
        with open(f"{self.room}/text", "w", encoding="utf-8") as file:
            file.write(text)
        ran = self.made("csv", f"{self.room}/b", network, f"{self.room}/text")
        self.assertEqual((ran.returncode, ran.stdout), (1, ""))
        self.assertIn(why, ran.stderr)
        self.assertFalse(os.path.exists(f"{self.room}/b"))

    def test_a_text_without_its_end_becomes_nothing(self):
        self.refused("no @end", f"{TOP}/examples/first/alarm.toml", "alarm,120,80\nalarm,240,93\n@box,hot,6\n")
        self.refused("no @end", f"{TOP}/examples/first/alarm.toml", "")

    def test_lines_of_another_network_become_nothing(self):
        self.refused("has no other, of which the text tells", f"{TOP}/examples/first/alarm.toml", "other,120,80\n@end\n")
        self.refused("a line with 2 fields, and 1 in", f"{TOP}/examples/first/alarm.toml", "alarm,1,2\nalarm,120,80,1\n@end\n")

    def test_a_file_that_is_there_stays(self):
        os.mkdir(f"{self.room}/c")
        with open(f"{self.room}/c/alarm.csv", "w", encoding="utf-8") as file:
            file.write("mine")
        ran = self.made("csv", f"{self.room}/c", f"{TOP}/examples/first/alarm.toml", f"{TOP}/examples/first/expected.txt")
        self.assertIn("is there already", ran.stderr)
        with open(f"{self.room}/c/alarm.csv", encoding="utf-8") as file:
            self.assertEqual(file.read(), "mine")

    def test_dropped_batches_are_counted(self):
        ran = self.made("csv", f"{self.room}/d", f"{TOP}/examples/overload/front.toml", f"{TOP}/examples/overload/expected.txt")
        self.assertIn("7 batches of windows were left out", ran.stderr)
