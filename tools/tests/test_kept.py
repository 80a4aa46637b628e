"""Which libraries are taken from another checkout, and which lack there."""
import os
import pathlib
import tempfile
import unittest
import unittest.mock

import loaded

kept = loaded.tool("kept")

CRATES = ("low", "mid", "high")
LONG_AGO, LATER = 1000, 2**33


class Taken(unittest.TestCase):
    """Three crates, one on the other; the sum of each is its name."""

    def setUp(self):
        room = tempfile.TemporaryDirectory()
        self.addCleanup(room.cleanup)
        self.ours, self.theirs = pathlib.Path(room.name, "ours"), pathlib.Path(room.name, "theirs")
        for top in (self.ours, self.theirs):
            for crate in CRATES:
                self.write(top / "crates" / crate / "src/lib.rt", "")
            self.write(top / "crates.txt", "low:\nmid: low\nhigh: mid csv # and the kit's\n")
        self.sums = {crate: crate for crate in CRATES}
        for name, made in (("toolchain", lambda: None), ("crates_in", lambda kit, top: {it: (top / "crates" / it, self.sums[it] if top == self.theirs else it) for it in CRATES})):
            patched = unittest.mock.patch.object(kept, name, made)
            patched.start()
            self.addCleanup(patched.stop)

    def write(self, path, text):
        path.parent.mkdir(parents=True, exist_ok=True)
        path.write_text(text, encoding="utf-8")

    def library(self, crate, stamp=None, made=LATER):
        path = self.theirs / "crates" / crate / f"out/rlib/{crate}.rlib"
        self.write(path, f"library of {crate}")
        os.utime(path, (made, made))
        if stamp:
            self.write(self.theirs / "crates" / crate / "out/rlib/stamp", stamp)

    def lacking(self):
        return kept.give(self.ours, self.theirs, set(CRATES))

    def test_libraries_with_the_stamp_of_their_text(self):
        for crate in CRATES:
            self.library(crate, crate)
        self.assertEqual(self.lacking(), [])
        self.assertEqual((self.ours / "crates/mid/out/rlib/mid.rlib").read_text(), "library of mid")
        self.assertEqual((self.ours / "crates/mid/out/rlib/stamp").read_text(), "mid")

    def test_what_stands_on_one_that_lacks_lacks_too(self):
        self.library("low", "low")
        self.library("mid", "another text")
        self.library("high", "high")
        self.assertEqual(self.lacking(), ["mid", "high"])
        self.assertFalse((self.ours / "crates/high/out").exists())

    def test_another_text_there(self):
        for crate in CRATES:
            self.library(crate, crate)
        self.sums["mid"] = "changed"
        self.assertEqual(self.lacking(), ["mid", "high"])

    def test_those_of_the_gate_have_no_stamp_and_get_one(self):
        for crate in CRATES:
            self.library(crate)
        self.assertEqual(self.lacking(), [])
        self.assertEqual((self.ours / "crates/high/out/rlib/stamp").read_text(), "high")

    def test_a_text_that_was_written_since_the_gate(self):
        for crate, made in zip(CRATES, (LATER, LONG_AGO, LATER)):
            self.library(crate, made=made)
        self.assertEqual(self.lacking(), ["mid", "high"])

    def test_a_text_that_was_put_there_with_an_older_time(self):
        """The time of its last line lies before the library's, and that at which it was put there behind it."""
        self.library("low", made=2 * LONG_AGO)
        for name in ("crates.txt", "crates/low/src", "crates/low/src/lib.rt"):
            os.utime(self.theirs / name, (LONG_AGO, LONG_AGO))
        self.assertIn("low", self.lacking())

    def test_those_of_the_gate_do_not_go_with_those_of_a_check(self):
        self.library("low", "low")
        self.library("mid")
        self.library("high")
        self.assertEqual(self.lacking(), ["mid", "high"])


if __name__ == "__main__":
    unittest.main()
