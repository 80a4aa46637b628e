"""What hostile inputs are made of, and how their runs are judged."""
import itertools
import pathlib
import tempfile
import unittest

import loaded

hostile = loaded.tool("hostile_inputs")


class Inputs(unittest.TestCase):
    def test_files_are_as_long_as_they_may_be(self):
        made = dict(itertools.islice(hostile.cases(), 6))
        self.assertEqual(len(made["the longest network file"].net), 1_048_576)
        self.assertEqual(len(made["a picks file of 524,288 lines"].files["p"]), 1_048_576)
        self.assertEqual(len(made["the longest capacity file"].files["c"]), 1_048_576)
        self.assertEqual(len(made["a stream of empty lines"].files["s.csv"]), 67_108_864)
        self.assertIn("where = [\"" + "not " * 64 + "v >= 10", made["an expression of 4096 bytes"].net)

    def test_a_run_has_the_lines_that_are_worked_out(self):
        case = hostile.Case([], "", {}, {"o": 2, "@drop": 1}, ["a,3", "b,1"])
        good = hostile.Ran(0, 0.1, 9, "")
        for text, ran, is_right in (("o,1,2\n@drop,0,1,50\no,2,3\n@box,a,3\n@box,b,1\n@late,b,0\n@end\n", good, True),
                                    ("o,1,2\n@drop,0,1,50\no,2,3\n@box,a,3\n@box,b,1\n@late,b,0\n@end\n", good._replace(status=12), False),
                                    ("o,1,2\n@drop,0,1,50\n@box,a,3\n@box,b,1\n@end\n", good, False),
                                    ("o,1,2\n@drop,0,1,50\no,2,3\np,1\n@box,a,3\n@box,b,1\n@end\n", good, False),
                                    ("o,1,2\n@drop,0,1,50\no,2,3\n@box,a,2\n@box,b,1\n@end\n", good, False),
                                    ("o,1,2\n@drop,0,1,50\no,2,3\n@box,a,3\n@box,b,1\n", good, False), ("", good, False)):
            with tempfile.TemporaryDirectory() as room:
                path = pathlib.Path(room, "text")
                path.write_text(text, encoding="utf-8")
                self.assertEqual(hostile.fault_of(case, ran, path) is None, is_right, text)

    def test_a_run_past_a_limit_is_refused_and_writes_nothing(self):
        case = hostile.Case([], "", {}, {}, [], (11, "aurora: file too long: s.csv\n"))
        good = hostile.Ran(11, 0.1, 9, "aurora: file too long: s.csv\n")
        for text, ran, is_right in (("", good, True), ("@end\n", good, False), ("", good._replace(status=6), False), ("", good._replace(told=""), False)):
            with tempfile.TemporaryDirectory() as room:
                path = pathlib.Path(room, "text")
                path.write_text(text, encoding="utf-8")
                self.assertEqual(hostile.fault_of(case, ran, path) is None, is_right, ran)


    def test_memory_and_time_have_bounds(self):
        case, streams = hostile.Case([], "", {}, {}, [], boxes=4, seconds=2), 1000
        good = hostile.Ran(0, 2.0, 1500 + 4096, "")
        self.assertIsNone(hostile.cost_of(case, good, streams))
        self.assertIn("its peak is 5,597 KB, and may be 5,596", hostile.cost_of(case, good._replace(peak=5597), streams))
        self.assertIn("it took 2.01 seconds, and may take 2", hostile.cost_of(case, good._replace(seconds=2.01), streams))

    def test_lines_are_counted_record_by_record(self):
        case, ran = hostile.Case([], "", {}, {"o": 2}, ["a,1"]), hostile.Ran(0, 0.1, 9, "")
        with tempfile.TemporaryDirectory() as room:
            path = pathlib.Path(room, "text")
            path.write_text('o,1,"x\no,2,y\n@end\n"\no,3,z\n@box,a,1\n@end\n', encoding="utf-8")
            self.assertIsNone(hostile.fault_of(case, ran, path))


if __name__ == "__main__":
    unittest.main()
