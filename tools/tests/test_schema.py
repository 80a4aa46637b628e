"""docs/network.schema.json and the program agree: what is accepted fits it, and what is refused by its form doesn't."""
import glob
import json
import os
import pathlib
import re
import subprocess
import tempfile
import tomllib
import unittest

import test_explain
from aurora_tools import network
from aurora_tools.json_schema import Schema, Unknown

TOP = os.path.dirname(os.path.dirname(test_explain.HERE))
FORM = ("Shape", "Version", "Limit", "NoName")

# Refusals by form that no schema can see: they compare one place with another, or count bytes.
UNSEEN = ("selectivity = [300, 400]",)

# Numbers and lengths at the ends of their limits, in place of what in plant.toml.
ENDS = [
    ("epoch = 20", "epoch = 1"), ("epoch = 20", "epoch = 17179869184"), ("batch = 2", "batch = 1"), ("batch = 2", "batch = 1000000"), ("batch = 2\n", ""),
    ("cost = 2", "cost = 0"), ("cost = 2", "cost = 1000"), ("300, 300, 400", "0, 0, 1000000"), ("slack = 4", "slack = 0"), ("slack = 4", "slack = 10000"),
    ("size = 3", "size = 0"), ("size = 3", "size = 4294967296"), ("size = 20\nadvance = 10", "size = 4294967296\nadvance = 4294967296"),
    ("phase = 5", "phase = 0"), ("phase = 5", "phase = 9"), ('group = ["unit"]\n', ""), ('group = ["unit"]', "group = []"), ("weight = 2", "weight = 0"), ("weight = 2", "weight = 1000"),
    ("[0, 0], [500, 900000], [1000, 1000000]", ", ".join(f"[{50 * at}, {50000 * at}]" for at in range(21))), ("[0, 0], [500, 900000], [1000, 1000000]", "[0, 0], [1000, 0]"),
    ('name = "pairs"', f'name = "{"p" * 32}"'), ("value >= 10", "value >= 10" + " " * 4085), ('["readings", "others"]', '["others"]'),
    ('["readings", "others"]', '["others", "others", "others", "others", "others", "others", "others", "others"]'), ("version = 2", "version = 2\n#"),
    (test_explain.OUTPUT, test_explain.resample('["most", "count"]', size=0)), (test_explain.OUTPUT, test_explain.resample('["most", "count"]', size=4294967296)),
]


class Networks(unittest.TestCase):
    def setUp(self):
        with open(f"{TOP}/docs/network.schema.json", encoding="utf-8") as file:
            self.schema = Schema(json.load(file))
        with open(f"{test_explain.HERE}/plant.toml", encoding="utf-8") as file:
            self.plant = file.read()

    def fits(self, text):
        return self.schema.fits(tomllib.loads(text))

    def agrees(self, text, rule, place=""):
        """Asserts that the schema accepts a network that is accepted, and none that is refused by its form."""
        if rule is None:
            self.assertTrue(self.fits(text))
        elif rule in FORM and place != "drop":
            self.assertFalse(self.fits(text))

    def test_the_gallery(self):
        found = glob.glob(f"{TOP}/examples/*/*.toml")
        self.assertGreater(len(found), 40)
        for path in found:
            with self.subTest(path), open(path, encoding="utf-8") as file:
                expected = path.removesuffix(".toml") + ".txt"
                with open(expected if os.path.exists(expected) else os.path.dirname(path) + "/expected.txt", encoding="utf-8") as said:
                    refused = re.match(r"aurora: network: (\w+) ?(\w*)", said.read())
                if refused is None or refused[1] != "Toml":
                    self.agrees(file.read(), *(refused.groups() if refused else (None,)))

    def test_mistakes(self):
        for old, new, message, *_ in test_explain.NETWORKS:
            if message != "Toml" and new not in UNSEEN:
                with self.subTest(new):
                    rule, place, *_ = (message or "").split() + ["", ""]
                    self.agrees(self.plant.replace(old, new, 1), rule or None, place)

    def test_the_ends_of_limits(self):
        for old, new in ENDS:
            with self.subTest(new), tempfile.TemporaryDirectory() as room:
                text = self.plant.replace(old, new, 1)
                self.assertIn(old, self.plant)
                for name, content in (("plant.toml", text), ("readings.csv", test_explain.STREAM), ("others.csv", test_explain.STREAM)):
                    with open(f"{room}/{name}", "w", encoding="utf-8") as file:
                        file.write(content)
                run = subprocess.run([test_explain.PROGRAM, "run", "plant.toml"], cwd=room, capture_output=True, encoding="utf-8")
                self.assertEqual(run.stderr, "")
                self.assertTrue(self.fits(text))

    def test_a_resample(self):
        box = '[[box]]\nname = "r"\nkind = "resample"\nin = ["readings", "others"]\nsize = 3\ngive = [["most", "max", "value"]]\n'
        self.assertTrue(self.fits(self.plant + box))
        self.assertTrue(self.fits((self.plant + box).replace("version = 2", "version = 1").replace("phase = 5\n", "")))
        self.assertFalse(self.fits(self.plant + box.replace('["readings", "others"]', '["readings"]')))
        self.assertFalse(self.fits(self.plant + box.replace("size = 3\n", "")))

    def test_the_tools_know_the_functions_of_the_schema(self):
        text = pathlib.Path(TOP, "docs/network.schema.json").read_text(encoding="utf-8")
        listed = {name for names in re.findall(r'"enum": \[([^\]]*"sum"[^\]]*)\]', text) for name in re.findall(r'"(\w+)"', names)}
        self.assertEqual(listed | {"count"}, set(network.FUNCTIONS))

    def test_the_tools_know_what_the_functions_of_the_reference_answer(self):
        rows = pathlib.Path(TOP, "docs/REFERENCE.md").read_text(encoding="utf-8").partition("| Function | Answer")[2].partition("\n\n")[0].splitlines()[2:]
        kinds = {word: row.split("|")[3].strip() for row in rows for word in re.findall(r"`(\w+)`", row.split("|")[1])}
        self.assertEqual(set(kinds), set(network.FUNCTIONS))
        for word, kind in kinds.items():
            with self.subTest(word):
                told = network.answers([["it", word, "note"]], {"note": "text"})["it"]
                self.assertEqual(told, "text" if kind == "that of the field" else "int")
                self.assertEqual("of a field of the kind `int`" in kind, word in network.NUMBERS_OF)

    def test_a_word_that_is_not_known_is_no_schema(self):
        with self.assertRaises(Unknown):
            Schema({"maxProperties": 3}).fits({})


if __name__ == "__main__":
    unittest.main()
