"""Which edits apply, what is laid into the room where they are tried, and what is told of the verdicts."""
import pathlib
import tempfile
import unittest
import unittest.mock

import loaded

edits = loaded.tool("edits")

FILES = {
    "HANDLES": "Handles allowed: none.\n",
    "crates.txt": "## all: three\n# the low one\nlow:\nhigh: low # and no other\nother:\n",
    "crates/low/src/lib.rt": "fn f() -> u32 {\n    1 + 2\n}\n",
    "crates/high/src/lib.rt": "fn g() -> u32 {\n    2\n}\n",
    "crates/other/src/lib.rt": "",
    "crates/low/edits/a_sum.edit": "file: src/lib.rt\nold: 1 + 2\nnew: 1 + 3\n",
}


class Tried(unittest.TestCase):
    def setUp(self):
        room = tempfile.TemporaryDirectory()
        self.addCleanup(room.cleanup)
        self.top = pathlib.Path(room.name)
        for name, text in FILES.items():
            self.write(name, text)
        patched = unittest.mock.patch.object(edits, "TOP", self.top)
        patched.start()
        self.addCleanup(patched.stop)

    def write(self, name, text):
        path = self.top / name
        path.parent.mkdir(parents=True, exist_ok=True)
        path.write_text(text, encoding="utf-8")
        return path

    def test_an_edit_that_applies(self):
        self.assertIsNone(edits.misfit(self.top / "crates/low/edits/a_sum.edit"))

    def test_what_applies_no_longer(self):
        for text, why in (
            ("file: src/lib.rt\nold: 1 + 4\nnew: 1\n", "0 times"), ("file: src/none.rt\nold: 1\nnew: 2\n", "no file"), ("file: src/lib.rt\nold: 1 + 2\nnew: 1 + 2\n", "changes nothing"),
            ("file: out/lib.rt\nold: 1\nnew: 2\n", "below src/"), ("file: src/lib.rt\nold: 1\n", "half"), ("old: 1\nnew: 2\n", "before any"),
        ):
            with self.subTest(why):
                self.assertIn(why, edits.misfit(self.write("crates/low/edits/another.edit", text)))

    def test_the_second_pair_applies_to_what_the_first_made(self):
        self.assertIsNone(edits.misfit(self.write("crates/low/edits/two.edit", "file: src/lib.rt\nold: 1 + 2\nnew: 7\nold: 7\nnew: 8\n")))

    def test_an_edit_of_one_name_in_both_folders(self):
        self.write("crates/low/must-fail/a_sum.edit", FILES["crates/low/edits/a_sum.edit"])
        with unittest.mock.patch("builtins.print") as said:
            self.assertEqual(edits.fit(), 1)
        self.assertIn("another edit of the crate has its name", said.call_args_list[0].args[0])

    def test_the_room_has_what_is_below_and_no_other_crate(self):
        self.write("crates/high/edits/less.edit", "file: src/lib.rt\nold: 2\nnew: 1\n")
        self.write("crates/low/must-fail/of_the_gate.edit", FILES["crates/low/edits/a_sum.edit"])
        with tempfile.TemporaryDirectory() as place:
            room = pathlib.Path(place)
            self.assertEqual(edits.lay(room, ["high"], edits.kept.dependencies(self.top)), {"high", "low"})
            self.assertEqual((room / "crates.txt").read_text(), "low:\nhigh: low # and no other\n")
            self.assertEqual([it.name for it in (room / "crates/high/must-fail").iterdir()], ["less.edit"])
            self.assertFalse((room / "crates/low/must-fail").exists())

    def test_a_library_is_laid_for_what_another_crate_stands_on(self):
        known = edits.kept.dependencies(self.top)
        self.assertEqual(edits.top_of(["low", "high"], known), {"high"})
        self.assertEqual(edits.top_of(["high", "other"], known), {"high", "other"})

    def test_what_the_prover_said_of_each_crate(self):
        """The words are those of rt's own page on must-fail."""
        said = {
            "low": ("rt: must-fail low/a.edit: refused, as it must be: src/lib.rt:3:1: error\nrt: must-fail low/b.edit: NOT REFUSED: the crate is still proved with this edit\n", 1),
            "high": ("rt: must-fail high/c.edit: refused, as it must be (only because a proof file names what the edit took away, so this says little of the contract: change a value"
                     " and keep the names): it\nrt: must-fail high/d.edit: BAD EDIT: the prover cannot read the edited text\n", 1),
            "other": ("rt: no room on the disk\n", 1),
        }
        with unittest.mock.patch.object(edits, "said_of", lambda name, room: said[name]), unittest.mock.patch("builtins.print"):
            tried, failed, weak = edits.judged(list(said), self.top, 2)
        self.assertEqual((tried, sorted(failed), weak), (4, ["high/d", "low/b", "other (rt must-fail came to no verdict)"], ["high/c"]))

    def test_the_last_line_tells_what_was_tried_and_what_came_of_it(self):
        for judged, last, status in (((2, [], []), "edits: 2 tried, of 1 crates, over commit c: all refused", 0), ((2, ["low/b"], []), "edits: 2 tried, of 1 crates, over commit c: 1 not refused: low/b", 1)):
            with unittest.mock.patch.object(edits, "judged", lambda *_: judged), unittest.mock.patch("builtins.print") as said:
                self.assertEqual(edits.try_all(["low"], "commit c", self.top, 1), status)
            self.assertEqual(said.call_args.args[0], last)


if __name__ == "__main__":
    unittest.main()
