"""Mistakes in the files of a run: the program refuses each, and the tool names the line of the mistake and says what is wrong there."""
import gzip
import os
import re
import shutil
import subprocess
import sys
import tempfile
import time
import unittest

import forked
from aurora_tools.messages import explained

PROGRAM = os.environ["AURORA"]
HERE = os.path.dirname(os.path.abspath(__file__))
STREAM = "1,a,12,true\n2,b,7,\n3,a,,false\n"

OUTPUT = '[[output]]\nname = "averages"'


def resample(give, into='"readings", "others"', size=3):
    """Returns a Resample before the first output."""
    return f'[[box]]\nname = "round"\nkind = "resample"\nin = [{into}]\nsize = {size}\ngive = [{give}]\n\n{OUTPUT}'


# What is put in place of what in plant.toml; the program's message; a word of the line that is told, empty where none is; what is said.
NETWORKS = [
    ('"count"],', '"count"]]', "Toml", "mean", "bracket too many"),
    ('name = "sort"', 'name = sort', "Toml", "name = sort", "no value begins here"),
    ('name = "sort"', 'name = "sort', "Toml", 'name = "sort', "isn't closed"),
    ('slack = 4', 'slack = 4\nslack = 5', "Toml", "slack = 5", "stands twice"),
    ('slack = 4', 'slack = 99999999999999999999', "Toml", "slack", "64 bits"),
    ("version = 2", "version = 4", "Version", "version", "is 4"),
    ("version = 2", 'version = "1"', "Version", "version", "without quotes"),
    ("version = 2\n", "", "Version", "", "no `version`"),
    ("version = 2", "version = 1", "Shape box 2 0", "phase", "version 1"),
    ("epoch = 20", "epcoh = 20", "Shape top 0 0", "epcoh", "`epoch` meant"),
    ("epoch = 20", "epoch = 2.5", "Shape top 0 0", "epoch", "whole number"),
    ("[[source]]\nname = \"readings\"", "[source]\nname = \"readings\"", "Toml", "[[source]]", "single brackets"),
    ('file = "readings.csv"\n', "", "Shape source 0 0", "[[source]]", "`file` is missing"),
    ('fields = ["unit:text", "value:int", "good:bool"]', 'fields = "unit:text"', "Shape source 0 0", "fields", "square brackets"),
    ('kind = "filter"', 'kind = "filtre"', "Shape box 0 0", "kind", "`filter` meant"),
    ('kind = "filter"', 'kind = 3', "Shape box 0 0", "kind", "in double quotes"),
    ('kind = "filter"\n', "", "Shape box 0 0", "[[box]]", "`kind` is missing: its other keys are those of a filter"),
    ('kind = "aggregate"\n', "", "Shape box 2 0", "[[box]]", "`kind` is missing: its other keys are those of an aggregate"),
    ('kind = "filter"', 'knd = "filter"', "Shape box 0 0", "knd", "`kind` meant"),
    ('kind = "filter"', 'kind = ["filter"]', "Shape box 0 0", "kind", "in double quotes"),
    ("where = [", "were = [", "Shape box 0 0", "were", "`where` meant"),
    ("cost = 2", 'cost = "2"', "Shape box 0 0", "cost", "whole number"),
    ("cost = 2", "costs = 2", "Shape box 0 0", "costs", "`cost` meant"),
    ("selectivity = [300, 300, 400]", "selectivity = [300, 400]", "Shape box 0 0", "selectivity", "3 streams"),
    ("selectivity = [300, 300, 400]", "selectivity = [300, 300, 0.4]", "Shape box 0 0", "selectivity", "entry 2"),
    ('["unit", "unit"],', '["unit"],', "Shape box 1 0", '["unit"]', "expression"),
    ('["tuples", "count"]', '["tuples", "count", "tenths"]', "Shape box 2 0", "tuples", "takes no field"),
    ('["mean", "avg", "tenths"]', '["mean", "mean", "tenths"]', "Shape box 2 0", "mean", "no function `mean`"),
    ('["mean", "avg", "tenths"]', '["mean", "avg"]', "Shape box 2 0", "mean", "one field"),
    ("slack = 4\n", "", "Shape box 4 0", "[[box]]", "`slack` is missing"),
    ("[500, 900000]", "[500]", "Shape output 0 0", "graph", "two whole numbers"),
    ("weight = 2", "wait = 2", "Shape output 0 0", "wait", "`weight` meant"),
    ("epoch = 20", "epoch = 0", "Limit top 0 0", "epoch", "must be 1 to"),
    ("batch = 2", "batch = 1000001", "Limit top 0 0", "batch", "1,000,001"),
    ('in = ["scaled"]', 'in = ["scaled", "scaled"]', "Limit box 2 0", "in =", "2 streams"),
    ('in = ["sort.2", "others"]', 'in = ["others"]', "Limit box 5 0", "in =", "must have 2"),
    ("cost = 2", "cost = 1001", "Limit box 0 0", "cost", "1,001"),
    ("slack = 4", "slack = 10001", "Limit box 4 0", "slack", "10,001"),
    ("size = 3", "size = -1", "Limit box 5 0", "size", "-1"),
    ("weight = 2", "weight = 1001", "Limit output 0 0", "weight", "1,001"),
    ('"value >= 10", "unit = \'a\' and good"', '', "Shape box 0 0", "selectivity", "1 stream"),
    ("400]", "4000000]", "Limit box 0 0", "selectivity", "4,000,000"),
    ('name = "sort"', 'name = "Sort"', "NoName box 0 0", "Sort", "capital"),
    ('name = "sort"', 'name = "time"', "NoName box 0 0", "time", "word of the language"),
    ('name = "pairs"', 'name = "the pairs"', "NoName output 1 0", "the pairs", "blank"),
    ('name = "pairs"', 'name = "2pairs"', "NoName output 1 0", "2pairs", "begin with"),
    ('name = "near"', 'name = "both"', "Twice box 5 0", "both", "box 3"),
    ('name = "others"', 'name = "readings"', "Twice source 1 0", "readings", "source 0"),
    ('name = "pairs"', 'name = "averages"', "Twice output 1 0", "averages", "output 0"),
    ('in = ["sort.1"]', 'in = ["sort"]', "Unknown box 1 0", "in =", "sort.1"),
    ('in = ["sort.1"]', 'in = ["sort.4"]', "Unknown box 1 0", "in =", "sort.3"),
    ('from = "means"', 'from = "mean"', "Unknown output 0 0", "from", "`means` meant"),
    ('from = "means"', 'from = "means.1"', "Unknown output 0 0", "from", "only Filters"),
    ('in = ["sort.2", "others"]', 'in = ["sort.2", "near"]', "Cycle box 5 0", "in =", "own stream"),
    ('in = ["readings"]\nwhere', 'in = ["scaled"]\nwhere', "Cycle box 0 0", "in =", "sort <- scaled <- sort"),
    ("advance = 10", "advance = 0", "Window box 2 0", "advance", "1 or more"),
    ("advance = 10", "advance = 30", "Window box 2 0", "advance", "greater than `size`"),
    ("size = 20", "size = 40961", "Window box 2 0", "size", "4,096 times"),
    ("phase = 5", "phase = 10", "Window box 2 0", "phase", "below `advance`"),
    ("[500, 900000]", "[510, 900000]", "Graph output 0 0 Grid", "graph", "510"),
    ("[500, 900000]", "[0, 900000]", "Graph output 0 0 Grid", "graph", "isn't greater"),
    ("[500, 900000]", "[500, 1900000]", "Graph output 0 0 Grid", "graph", "out of 0 to"),
    (", [1000, 1000000]", "", "Graph output 0 0 Ends", "graph", "ends at [500, 900000]"),
    ("[1000, 1000000]", "[1000, 1000]", "Graph output 0 0 Falls", "graph", "falls"),
    ("[500, 900000]", "[500, 1000]", "Graph output 0 0 NotConcave", "graph", "steeply"),
    ('"value:int", "good:bool"]\n\n[[box]]', '"value:integer", "good:bool"]\n\n[[box]]', "Schema source 1 1", "integer", "`int` meant"),
    ('"value:int", "good:bool"]\n\n[[box]]', '"value", "good:bool"]\n\n[[box]]', "Schema source 1 1", '"value"', "no kind"),
    ('"value:int", "good:bool"]\n\n[[box]]', '"value: int", "good:bool"]\n\n[[box]]', "Schema source 1 1", "value: int", "blank"),
    ('"value:int", "good:bool"]\n\n[[box]]', '"unit:int", "good:bool"]\n\n[[box]]', "Schema source 1 1", "unit:int", "stood before"),
    ('"value:int", "good:bool"]\n\n[[box]]', '"good:bool"]\n\n[[box]]', "Schema box 3 1", "in =", "`others` has unit:text, good:bool"),
    ('["unit", "unit"],', '["Unit", "unit"],', "Schema box 1 0", "Unit", "capital"),
    ('["tenths", "value * 10"]', '["unit", "value * 10"]', "Schema box 1 1", "value * 10", "stood before"),
    ('["tuples", "count"]', '["unit", "count"]', "Schema box 2 0", "count", "`group`"),
    ("value >= 10", "value => 10", "Expr box 0 0 7 Expected", "=>", "value must stand"),
    ("value >= 10", "value == 10", "Expr box 0 0 7 Expected", "==", "stands twice"),
    ("value >= 10", "value != 10", "Expr box 0 0 6 BadToken", "!=", "`<>`"),
    ("value >= 10", "Value >= 10", "Expr box 0 0 0 BadToken", "Value", "capital"),
    ("value >= 10", "value >= 1.5", "Expr box 0 0 10 BadToken", "1.5", "fractions"),
    ("value >= 10", "value >= 10 or unit = 'a", "Expr box 0 0 22 BadToken", "where", "isn't closed"),
    ("value >= 10", "unit = ''", "Expr box 0 0 7 EmptyText", "where", "is null"),
    ("value >= 10", "value > 9223372036854775808", "Expr box 0 0 8 Wide", "where", "9223372036854775807"),
    ("value >= 10", "(value >= 10", "Expr box 0 0 12 Expected", "where", "1 parenthesis is open"),
    ("value >= 10", "1 < value < 3", "Expr box 0 0 10 Expected", "where", "don't chain"),
    ("value >= 10", "value is 3", "Expr box 0 0 9 Expected", "where", "is null"),
    ("value >= 10", "value > 10 is null", "Expr box 0 0 11 Expected", "where", "`(a = b) is null`"),
    ("value >= 10", "good = not good", "Expr box 0 0 7 Expected", "where", "(not a)"),
    ("value >= 10", "abs(value) > 3", "Expr box 0 0 3 Expected", "where", "a Map with `0 - a`"),
    ("value >= 10", "least(value) > 3", "Expr box 0 0 5 Expected", "where", "no functions"),
    ("value >= 10", "unit in ('a')", "Expr box 0 0 5 Expected", "where", "`a = 1 or a = 2`"),
    ("value >= 10", "unit like 'a'", "Expr box 0 0 5 Expected", "where", "no patterns"),
    ("value >= 10", "value between 1 and 3", "Expr box 0 0 6 Expected", "where", "`a >= 1 and a <= 5`"),
    ("value >= 10", "case when good then 1 end", "Expr box 0 0 5 Expected", "where", "a Filter parts the tuples"),
    ("value >= 10", "value > 1_000", "Expr box 0 0 9 BadToken", "where", "between thousands"),
    ("value >= 10", "unit not in ('a')", "Expr box 0 0 5 Expected", "where", "`a <> 1 and a <> 2`"),
    ("value >= 10", "unit not like 'a'", "Expr box 0 0 5 Expected", "where", "no patterns"),
    ("value >= 10", "value not between 1 and 3", "Expr box 0 0 6 Expected", "where", "`a < 1 or a > 5`"),
    ("value >= 10", "value not null", "Expr box 0 0 6 Expected", "where", "`a is not null`"),
    ("value >= 10", "unit =~ 'a'", "Expr box 0 0 6 BadToken", "where", "no patterns"),
    ("value >= 10", "unit !~ 'a'", "Expr box 0 0 5 BadToken", "where", "no patterns"),
    ("value >= 10", "good ? good : good", "Expr box 0 0 5 BadToken", "where", "a Filter parts the tuples"),
    ('"value >= 10"', "'unit = \"b\"'", "Expr box 0 0 7 BadToken", "where", "Write 'b'."),
    ("value >= 10", "concat(unit, 'a') = 'b'", "Expr box 0 0 6 Expected", "where", "can't be put together"),
    ("value >= 10", "substr(unit, 1) = 'b'", "Expr box 0 0 6 Expected", "where", "can't be cut"),
    ("value >= 10", "unit + 'a' = 'b'", "Typing box 0 0", "where", "can't be put together"),
    ("value >= 10", "unit || 'a'", "Expr box 0 0 5 BadToken", "where", "can't be put together"),
    ("value >= 10", "good || good", "Expr box 0 0 5 BadToken", "where", "Write `or`"),
    ("value >= 10", "unit = b", "Typing box 0 0", "where", "'b'"),
    ('["tenths", "value * 10"]', '["tenths", "value * 10"], ["more", "tenths * 10"]', "Typing box 1 2", "more", "a second Map behind it"),
    ('"l_unit = r_unit"', '"readings.unit = others.unit"', "Expr box 5 0 8 BadToken", "on", "l_unit, r_unit"),
    ("value >= 10", "(" * 65 + "value" + ")" * 65, "Expr box 0 0 64 Depth", "where", "64 may be"),
    ("value >= 10", "vlaue >= 10", "Typing box 0 0", "vlaue", "`value` meant"),
    ("value >= 10", "value", "Typing box 0 0", "where", "kind int"),
    ("value >= 10", "value >= 'a'", "Typing box 0 0", "where", "of the kind text"),
    ("value >= 10", "value and good", "Typing box 0 0", "where", "for booleans"),
    ("value >= 10", "unit + 1 > 2", "Typing box 0 0", "where", "for numbers"),
    ('"value * 10"', '"null"', "Typing box 1 1", "null", "bare `null`"),
    ('["mean", "avg", "tenths"]', '["mean", "avg", "value"]', "Typing box 2 1", "mean", "no field `value`"),
    ('["mean", "avg", "tenths"]', '["mean", "sum", "unit"]', "Typing box 2 1", "mean", "kind text"),
    ('by = "value"', 'by = "unit"', "Typing box 4 0", "by", "kind text"),
    ('on = "l_unit = r_unit"', 'on = "unit = r_unit"', "Typing box 5 0", "on =", "`l_unit` or `r_unit` meant"),
    ('group = ["unit"]', 'group = ["units"]', "Group box 2 0", "group", "`unit` meant"),
    ('group = ["unit"]', 'group = ["unit", "unit"]', "Group box 2 1", "group", "stood before"),
    ("batch = 2", "batch = 1000000", None, "", ""),
    (OUTPUT, resample('["most", "max", "value"]'), None, "", ""),
    (OUTPUT, resample('["l_value", "count"]'), "Schema box 6 0", "l_value", "left stream"),
    (OUTPUT, resample('["most", "max", "vlaue"]'), "Typing box 6 0", "vlaue", "`value` meant"),
    (OUTPUT, resample('["most", "sum", "unit"]'), "Typing box 6 0", "unit", "kind text"),
    (OUTPUT, resample('["most", "count"]', '"readings"'), "Limit box 6 0", "in =", "must have 2"),
    (OUTPUT, resample('["most", "count"]', size=4294967297), "Limit box 6 0", "size", "4,294,967,296"),
    (OUTPUT, resample('["most", "count"]').replace("size = 3\n", ""), "Shape box 6 0", "[[box]]", "`size` is missing"),
]

# Lines that follow the stream of `readings`; the program's reason; what is said.
LINES = [
    ("4,a,1", "Fields", "3 fields"),
    ("4;a;1;true", "Fields", "semicolons"),
    ("# 4", "Fields", "no remarks"),
    ("  ", "Fields", "line of blanks"),
    ('4,"a,1,true', "Fields", "A quote opens here"),
    ('4,a,1,"true\nb"', "Fields", "In the line before a quote opens"),
    ("4,a,1_000,true", "NotInt", "thousands"),
    ("4,a,1,true,x", "Fields", "5 fields"),
    ("4,a,1,000,true", "Fields", "A number has none, neither between thousands"),
    ("x,a,1,true", "Tick", "`x`"),
    ("1700000000000,a,1,true", "Tick", "Milliseconds"),
    ("2024-05-01,a,1,true", "Tick", "date"),
    ("4.5,a,1,true", "Tick", "whole"),
    (" 4,a,1,true", "Tick", "Blanks"),
    ("2,a,1,true", "Falls", "line 3, `3`"),
    ("4,a,1.5,true", "NotInt", "`value:int`"),
    ("4,a,NA,true", "NotInt", "left empty"),
    ('4,a,"1,000",true', "NotInt", "thousands"),
    ("4,a,9223372036854775808,true", "NotInt", "64 bits"),
    ("4,a,1,True", "NotBool", "small letters"),
    ("4,a,1,1", "NotBool", "1 and 0"),
    ("4," + "a" * 256 + ",1,true", "TextLong", "256 bytes"),
    ("4,a\rb,1,true", "Cut", "carriage return"),
]

# Capacity files, and the line and words that are told.
CAPACITIES = [("1,5\n2\n", 2, "no comma"), ("1,5\n1,6\n", 2, "isn't greater"), ("x,5\n", 1, "the epoch is `x`"), ("1,5\n\n2,none\n", 3, "`none`")]
PICKS = [("1\n-2\n", 2), ("4294967296\n", 1)]

# Words behind `run`, and what is told of them.
WORDS = [
    ([], "none is named"), (["a.toml", "b.toml"], "2 words"), (["a.toml", "--capacity", "c.csv"], "`--capacities` meant"), (["a.toml", "--train", "0"], "1 to 4,096"),
    (["a.toml", "--seed"], "no value"), (["a.toml", "--seed=1", "--seed=1"], "twice"), (["a.toml", "--picks=p", "--policy=rr"], "exclude"), (["-a"], "two dashes"),
    (["a.toml", "--policy", "fast"], "rr, long and seeded"), (["a.toml", "--version"], "`aurora-explain --version` tells the version"), (["--help"], "`man aurora` is its help"),
    (["rnu", "a.toml"], "`run` meant"), (["run", "a.toml"], "stands before NET already"), (["audit", "a.toml"], "NET and OUT, and here is 1"), (["gen", "7", "0"], "ROWS is `0`"),
]


class Mistakes(unittest.TestCase):
    def setUp(self):
        self.room = tempfile.TemporaryDirectory()
        self.before = os.getcwd()
        os.chdir(self.room.name)
        with open(f"{HERE}/plant.toml", encoding="utf-8") as file:
            self.network = file.read()
        self.write("plant.toml", self.network)
        self.write("readings.csv", STREAM)
        self.write("others.csv", STREAM)

    def tearDown(self):
        os.chdir(self.before)
        self.room.cleanup()

    def write(self, name, text):
        with open(name, "w", encoding="utf-8", newline="") as file:
            file.write(text)

    def refused(self, *words):
        """Returns the program's message and what is said below it."""
        run = subprocess.run([PROGRAM, "run", *words], capture_output=True, encoding="utf-8")
        return run.stderr.rstrip("\n"), explained(words, run.stderr).partition("\n")[2]

    def test_the_network_without_a_mistake_runs(self):
        self.assertEqual(self.refused("plant.toml"), ("", ""))

    def test_networks(self):
        for old, new, message, place, words in NETWORKS:
            with self.subTest(new):
                at = self.network.index(old)
                changed = self.network[:at] + new + self.network[at + len(old):]
                self.write("plant.toml", changed)
                told, below = self.refused("plant.toml")
                self.assertEqual(told, f"aurora: network: {message}" if message else "")
                self.assertIn(words, below)
                self.assertNotIn("nothing more", below)
                line = re.match(r"  plant\.toml:(\d+)(?::\d+)?: ", below)
                self.assertEqual(bool(line), bool(place), below)
                if place:
                    shown = changed.split("\n")[int(line[1]) - 1]
                    self.assertIn(place, shown)
                    table = changed.rfind("\n[[", 0, at) + 1
                    self.assertGreater(int(line[1]), changed.count("\n", 0, table), "a line of another table")

    def test_lines_of_streams(self):
        for text, why, words in LINES:
            with self.subTest(text):
                self.write("readings.csv", STREAM + text + "\n")
                line = 4 + text.count("\n")
                told, below = self.refused("plant.toml")
                self.assertEqual(told, f"aurora: stream readings: line {line}: {why}")
                self.assertRegex(below, rf"^  readings\.csv:{line}(:\d+)?: ")
                self.assertIn(words, below)

    def test_a_line_of_headings(self):
        self.write("readings.csv", "tick,unit,value,good\n" + STREAM)
        self.assertIn("sed 1d", self.refused("plant.toml")[1])
        for heads in ("tick,unit", "tick,unit,value,good,more"):
            self.write("readings.csv", f"{heads}\n{STREAM}")
            told, below = self.refused("plant.toml")
            self.assertEqual(told, "aurora: stream readings: line 1: Fields")
            self.assertIn("sed 1d", below)

    def test_a_byte_that_is_no_text(self):
        with open("readings.csv", "wb") as file:
            file.write(b"1,M\xfcller,5,true\n")
        told, below = self.refused("plant.toml")
        self.assertEqual(told, "aurora: stream readings: line 1: Utf8")
        self.assertIn("FC in field 1", below)

    def test_files_that_are_no_text_at_all(self):
        for made, words in ((gzip.compress(STREAM.encode()), "packed by gzip"), (STREAM.encode("utf-16"), "iconv -f UTF-16 "), (b"PAR1....", "Parquet"),
                            (STREAM.encode("utf-16-le"), "iconv -f UTF-16LE "), (STREAM.encode("utf-16-be"), "iconv -f UTF-16BE ")):
            with open("readings.csv", "wb") as file:
                file.write(made)
            told, below = self.refused("plant.toml")
            self.assertIn("aurora: stream readings: line 1: ", told)
            self.assertIn(words, below)

    def test_a_stream_of_a_pipe_is_not_read_again(self):
        os.unlink("readings.csv")
        os.mkfifo("readings.csv")
        run = subprocess.run([f"{os.path.dirname(HERE)}/explain", "--messages", "-", "plant.toml"], input="aurora: stream readings: line 1: Fields\n",
                             capture_output=True, encoding="utf-8", timeout=300)
        self.assertIn("is no file and can't be read again", run.stdout)

    def test_nothing_reaches_a_terminal_that_is_not_printable(self):
        self.write("readings.csv", "1,a,\x1b]0;TITLE\x07\u202e,true\n")
        told, below = self.refused("plant.toml")
        self.assertEqual(told, "aurora: stream readings: line 1: NotInt")
        self.assertTrue(all(it.isprintable() or it == "\n" for it in below), below)
        self.assertIn("\\x1b]0;TITLE", below)

    def test_long_open_quotes_and_blanks_take_no_time(self):
        self.write("readings.csv", '1,"' + "x" * 300_000 + "\n")
        begun = time.process_time()
        self.refused("plant.toml")
        for text in ("[" + " " * 20_000, '\\"""\n' * 4000, "a = '''\n" * 4001):
            self.write("plant.toml", text)
            self.assertEqual(self.refused("plant.toml")[0], "aurora: network: Toml")
        self.assertLess(time.process_time() - begun, 5)

    def test_capacities_and_picks(self):
        for text, line, words in CAPACITIES:
            with self.subTest(text):
                self.write("capacities.csv", text)
                told, below = self.refused("plant.toml", "--capacities", "capacities.csv")
                self.assertEqual(told, f"aurora: capacities: line {line}")
                self.assertIn(words, below)
        for text, line in PICKS:
            with self.subTest(text):
                self.write("picks.txt", text)
                told, below = self.refused("plant.toml", "--picks=picks.txt")
                self.assertEqual(told, f"aurora: picks: line {line}")
                self.assertRegex(below, rf"^  picks\.txt:{line}:1: ")

    def test_words(self):
        for words, said in WORDS:
            with self.subTest(words):
                told, below = self.refused(*words)
                self.assertEqual(told, "aurora: usage: aurora run NET [options]")
                self.assertIn(said, below)

    def test_taps(self):
        query = 'version = 1\n[[source]]\nname = "part"\nfile = "none.csv"\nfields = ["a:text", "b:int", "c:bool"]\n[[output]]\nname = "all"\nfrom = "part"\n'
        twice = query.replace("[[output]]", '[[source]]\nname = "more"\nfile = "none.csv"\nfields = ["a:int"]\n[[output]]')
        for stream, tick, text, told, words in (
                ("sort.1", "0", query, "", ""),
                ("sort", "0", query, "aurora: tap: NoStream\n", "sort.1 or sort.2"),
                ("raedings", "0", query, "aurora: tap: NoStream\n", "`readings` meant"),
                ("readings", "0", twice, "aurora: tap: Sources\n", "query.toml:6: a query has one source"),
                ("readings", "0", query.replace("b:int", "b:bool"), "aurora: tap: Schema\n", "query.toml:5:1: the stream `readings` has unit:text, value:int"),
                ("readings", "0", query.replace('from = "part"', 'from = "prt"'), "aurora: query: Unknown output 0 0\n", "query.toml:8: output 0, `all`: there is no stream `prt`"),
                ("readings", "x", query, "aurora: usage: aurora run NET [options]\n", "TICK is `x`"),
                ("readings", "0", None, "aurora: cannot read query.toml\n", "the query's file query.toml isn't there")):
            with self.subTest(words):
                self.write("query.toml", text or "")
                if text is None:
                    os.remove("query.toml")
                asked = ["tap", "plant.toml", stream, tick, "0", "query.toml"]
                run = forked.run([f"{os.path.dirname(HERE)}/explain", "--program", PROGRAM, *asked])
                self.assertEqual(run.stderr[:len(told)], told)
                self.assertEqual(bool(run.stderr), bool(told))
                self.assertIn(words, run.stderr)

    def test_the_files_of_an_audit(self):
        self.write("none.toml", "version = 3\n")
        for net, text, words in (("plnt.toml", "text", "the network file plnt.toml isn't there (is `plant.toml` meant?)"), ("plant.toml", "text", "the text text isn't there"),
                                 ("none.toml", "text", "`version` is 3")):
            with self.subTest(words):
                run = forked.run([f"{os.path.dirname(HERE)}/explain", "--program", PROGRAM, "audit", net, text])
                self.assertIn(words, run.stderr)

    def test_files_that_are_not_there(self):
        os.remove("others.csv")
        self.assertIn("plant.toml:12: source 1, `others`: its file others.csv isn't there", self.refused("plant.toml")[1])
        self.assertIn("is `plant.toml` meant", self.refused("plnt.toml")[1])
        os.mkdir("below")
        os.chdir("below")
        self.assertIn("cd ..", self.refused("../plant.toml")[1])
        self.assertIn("is a folder", self.refused("..")[1])

    def test_a_file_that_is_too_long(self):
        self.write("plant.toml", self.network + "#" * 1_048_577)
        told, below = self.refused("plant.toml")
        self.assertEqual(told, "aurora: file too long: plant.toml")
        self.assertIn("may have 1,048,576 bytes", below)

    def test_the_command_runs_as_the_program_does(self):
        self.write("capacities.csv", "x\n")
        command = [f"{os.path.dirname(HERE)}/explain", "--program", PROGRAM, "plant.toml"]
        run = forked.run(command)
        self.assertEqual((run.returncode, run.stderr), (0, ""))
        self.assertTrue(run.stdout.endswith("@end\n"))
        run = forked.run([*command, "--capacities", "capacities.csv"])
        self.assertEqual((run.returncode, run.stdout), (4, ""))
        self.assertIn("no comma", run.stderr)
        with open("/dev/full", "w", encoding="utf-8") as full:
            run = subprocess.run(command, stdout=full, stderr=subprocess.PIPE, encoding="utf-8")
        self.assertEqual(run.returncode, 10)
        self.assertIn("Standard output took no more", run.stderr)

    def test_the_program_that_was_built_last_is_run_where_none_is_installed(self):
        shutil.copytree(os.path.dirname(HERE), "tools")
        for place, says in (("crates/aurora/out", "proved"), ("out", "quick")):
            os.makedirs(place)
            self.write(f"{place}/aurora", f"#!/bin/sh\necho {says}\n")
            os.chmod(f"{place}/aurora", 0o755)
        for older, newer, says in (("out", "crates/aurora/out", "proved"), ("crates/aurora/out", "out", "quick")):
            os.utime(f"{older}/aurora", (1, 1))
            os.utime(f"{newer}/aurora", (2, 2))
            run = subprocess.run([sys.executable, "tools/explain", "plant.toml"], capture_output=True, encoding="utf-8", env={"PATH": "/nowhere"})
            self.assertEqual(run.stdout, f"{says}\n")

    def test_messages_of_an_earlier_run(self):
        self.write("query.toml", self.network)
        tap = [f"{os.path.dirname(HERE)}/explain", "--messages", "-", "tap", "plant.toml", "readings", "0", "0", "query.toml"]
        said = forked.run(tap, input="aurora: tap: Limit\n", check=True).stdout
        self.assertIn("the query's 6 boxes are more than 128", said)
        self.write("messages", "aurora: network: Limit box 4 0\naurora: page 3 changed: aa bb\naurora: out of memory\nsomething else\n")
        self.write("plant.toml", self.network.replace("slack = 4", "slack = 40000"))
        command = [f"{os.path.dirname(HERE)}/explain", "--messages", "messages", "plant.toml"]
        said = forked.run(command, check=True).stdout
        for words in ("`slack` is 40,000", "Test the disk", "whole streams in memory", "\nsomething else\n"):
            self.assertIn(words, said)

    def test_a_drop_that_reaches_too_far(self):
        more = '[[box]]\nname = "far"\nkind = "aggregate"\nin = ["means"]\nsize = 90000\nadvance = 30\ngive = [["n", "count"]]\n[[output]]\nname = "far"\nfrom = "far"\n'
        self.write("plant.toml", self.network.replace("batch = 2\n", "") + more.replace("90000", "122880"))
        told, below = self.refused("plant.toml")
        self.assertEqual(told, "aurora: network: Limit drop 0 0")
        self.assertIn("batches of 30 ticks", below)
        self.assertIn("`batch = 2` or more", below)


if __name__ == "__main__":
    unittest.main()
