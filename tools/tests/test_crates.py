"""What is made of a small list of crates, and where its order is broken."""
import pathlib
import tempfile
import unittest
import unittest.mock

import loaded

crates_tool = loaded.tool("crates")

LIST = """# three in two groups

## base: what is low

# the lowest
low:
# it calls the kit
mid: csv low

## top: what is high

# the program
aurora: mid low
"""


class Made(unittest.TestCase):
    def setUp(self):
        room = tempfile.TemporaryDirectory()
        self.addCleanup(room.cleanup)
        for name in ("low", "mid", "aurora"):
            (pathlib.Path(room.name) / "crates" / name / "src").mkdir(parents=True)
        patched = unittest.mock.patch.object(crates_tool, "TOP", pathlib.Path(room.name))
        patched.start()
        self.addCleanup(patched.stop)
        self.top = pathlib.Path(room.name)

    def test_groups_and_words(self):
        groups, crates = crates_tool.read(LIST)
        self.assertEqual(groups, [("base", "what is low", ["low", "mid"]), ("top", "what is high", ["aurora"])])
        self.assertEqual(crates["mid"], ("it calls the kit", ["csv", "low"]))

    def test_a_row_names_what_stands_below_nothing_else_of_it(self):
        table = crates_tool.table(*crates_tool.read(LIST))
        self.assertIn("| `mid` | it calls the kit | low and the kit's `csv` |", table)
        self.assertIn("| `aurora` | the program | mid |", table)

    def test_a_crate_stands_on_none_of_its_row(self):
        rows = [it.split() for it in crates_tool.drawing(*crates_tool.read(LIST)).splitlines()]
        self.assertEqual(rows[1:-1], [["TOP", "what", "is", "high"], ["aurora*"], ["BASE", "what", "is", "low"], ["mid*"], ["low*"]])

    def test_what_breaks_the_order(self):
        self.assertEqual(list(crates_tool.out_of_order(*crates_tool.read(LIST))), [])
        turned = LIST.replace("low:\n", "low: mid\n")
        self.assertEqual(list(crates_tool.out_of_order(*crates_tool.read(turned))), ["crates.txt: low stands on mid, which comes later"])
        (self.top / "crates/new/src").mkdir(parents=True)
        self.assertEqual(list(crates_tool.out_of_order(*crates_tool.read(LIST))), ["crates/new has no line in crates.txt"])


if __name__ == "__main__":
    unittest.main()
