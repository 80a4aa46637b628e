"""What the quick check says of steps that are well and of those that aren't, and that it never speaks of proofs that it doesn't have."""
import contextlib
import io
import sys
import unittest
import unittest.mock

import loaded

quick = loaded.tool("quick")


class Said(unittest.TestCase):
    def ran(self, *steps):
        """What a call says in which these steps alone are run, and its status."""
        def texts(done):
            for name, words, judge in steps:
                done.run(name, words, judge=judge)

        said = io.StringIO()
        with unittest.mock.patch.object(quick, "texts", texts), unittest.mock.patch.object(quick, "by_program", lambda done, program: None), \
                unittest.mock.patch.object(sys, "argv", ["quick", "--program", "aurora"]), contextlib.redirect_stdout(said):
            status = quick.main()
        return said.getvalue().splitlines(), status

    def test_first_and_last_it_proves_nothing(self):
        lines, status = self.ran(("all", ["true"], None))
        self.assertEqual((len(lines), status), (3, 0))
        self.assertIn("this proves nothing", lines[0])
        self.assertIn("This proves nothing", lines[-1])
        self.assertRegex(lines[1], r"^quick: all +ok +[0-9.]+ s, +[0-9.]+ of a processor$")

    def test_what_failed_is_shown_and_named(self):
        lines, status = self.ran(("first", ["sh", "-c", "echo why; exit 3"], None), ("second", ["echo", "one"], lambda said: "" if said == "two\n" else "it isn't two"), ("third", ["true"], None))
        self.assertEqual(status, 1)
        self.assertEqual(lines[1], "why")
        self.assertEqual(lines[3:5], ["one", "it isn't two"])
        self.assertIn("2 failed: first, second", lines[-1])

    def test_what_the_cases_write_is_compared_with_what_is_stored(self):
        stored = (quick.TOP / "crates/sq_cases/stdout").read_text(encoding="utf-8")
        self.assertEqual(quick.differs_from_stored(stored), "")
        self.assertIn("+another", quick.differs_from_stored(stored + "another\n"))


if __name__ == "__main__":
    unittest.main()
