"""How runs are judged of which a request for memory was refused, and that each request is."""
import contextlib
import io
import pathlib
import shutil
import subprocess
import tempfile
import unittest

import loaded

refuse = loaded.tool("refuse_memory")

WHOLE = "@plan,1,8,0,8,fits\no,0,14\n@drop,0,1,1000\n@drop,1,1,50\no,12,54\n@box,a,11\n@end\n"
NETWORK, MADE = refuse.CASES["drops"], refuse.CASES["gen"]
MEMORY = "aurora: out of memory\n"

# It makes three requests, of which the second may be refused, and leaves a file where the third is.
PROGRAM = r"""
#include <stdio.h>
#include <stdlib.h>
#include <unistd.h>
int main(void) {
    static char room[64];
    setvbuf(stdout, room, _IOFBF, sizeof room);
    if (!malloc(8)) { write(2, "aurora: out of memory\n", 22); return 12; }
    void *tried = realloc(NULL, 8);
    if (!calloc(1, 8)) { close(creat("left", 0600)); return 12; }
    write(1, "done\n", 5);
    return tried == room;
}
"""


def ran(status=12, text="", told=MEMORY, left=()):
    return refuse.Ran(status, text, told, 1, list(left))


class Beginnings(unittest.TestCase):
    def test_each_class_begins_the_lines_of_its_own(self):
        for text in ("", "o,0,14\n", "@drop,1,1,50\n@drop,0,1,1000\n", "o,0,14\n@pla", "@plan,1,8,0,8,fits\no,0,14\no,12,54",
                     WHOLE[:-1], WHOLE[:WHOLE.index("@box")] + "@bo"):
            self.assertTrue(refuse.begins(text, WHOLE), text)

    def test_other_texts_are_no_beginnings(self):
        for text in ("o,12,54\n", "p,1\n", "o,0,14\no,2", "@box,a,11\n", "o,0,14\n@bo", WHOLE + "o,13,1\n", "\n", "@drop,0,1,1000\n@drop,0,2\n"):
            self.assertFalse(refuse.begins(text, WHOLE), text)

    def test_classes_may_stand_in_another_order_but_for_the_end(self):
        lines = WHOLE.splitlines(keepends=True)
        self.assertTrue(refuse.is_same("".join(lines[3:5][::-1] + lines[1:3] + lines[:1] + lines[5:]).replace("o,12,54\n@drop,1,1,50\no,0,14\n", "o,0,14\n@drop,1,1,50\no,12,54\n"), WHOLE))
        self.assertFalse(refuse.is_same("".join(lines[:4] + lines[5:6] + lines[4:5] + lines[6:]), "".join(lines[:4] + lines[5:])))
        self.assertFalse(refuse.is_same("".join(lines[:5] + lines[:4:-1]), WHOLE))


class Faults(unittest.TestCase):
    def test_a_run_ends_as_with_ample_memory_or_in_want_of_it(self):
        ample = ran(0, WHOLE, "")
        for good in (ample, ran(), ran(text="o,0,14\n@d"), ran(8, "o,0,14\n", "aurora: spill disk failed\n")):
            self.assertIsNone(refuse.fault_of(NETWORK, good, ample), good)
        for bad in (ran(0, WHOLE[:-5], ""), ran(0, WHOLE, MEMORY), ran(10, "", "aurora: output failed\n"), ran(-11, "", ""), ran(told=""),
                    ran(text="o,12,54\n"), ran(left=["aurora.spill"])):
            self.assertIsNotNone(refuse.fault_of(NETWORK, bad, ample), bad)

    def test_a_summary_is_whole_or_not_begun(self):
        ample = ran(0, "gen,1,1\nend\n", "")
        self.assertIsNone(refuse.fault_of(MADE, ran(), ample))
        self.assertIsNotNone(refuse.fault_of(MADE, ran(text="gen,1,1\n"), ample))


@unittest.skipUnless(shutil.which("gcc"), "gcc isn't installed")
class Requests(unittest.TestCase):
    def refused(self, from_on):
        """Returns how many runs of the program were wrong, and what is told of them."""
        with tempfile.TemporaryDirectory() as room:
            source, program = pathlib.Path(room, "program.c"), pathlib.Path(room, "program")
            source.write_text("#include <fcntl.h>\n" + PROGRAM, encoding="utf-8")
            subprocess.run(["gcc", "-O0", "-w", "-o", program, source], check=True)
            said = io.StringIO()
            with contextlib.redirect_stdout(said):
                return refuse.refuse(refuse.Runner(program, room, MADE, from_on), "gen", MADE, 1, None), said.getvalue().splitlines()

    def test_each_request_is_refused_in_its_turn(self):
        self.assertEqual(self.refused(False), (1, [
            "gen: request 3 refused: it left left",
            "gen: 3 requests, 3 refused in turn: 1 with 0, 2 with 12 ended; 1 not as they are to be"]))

    def test_all_requests_from_one_on_are_refused(self):
        # Where the second is refused the third is too, which ended well before.
        self.assertEqual(self.refused(True), (2, [
            "gen: request 2 refused: it left left", "gen: request 3 refused: it left left",
            "gen: 3 requests, 3 refused in turn and all behind it: 3 with 12 ended; 2 not as they are to be"]))


if __name__ == "__main__":
    unittest.main()
