"""That files may be as long as their limits say, and not a byte longer."""
import os
import pathlib
import subprocess
import tempfile
import unittest

NETWORK = """version = 1
[[source]]
name = "s"
file = "s.csv"
fields = ["v:int"]
[[box]]
name = "f"
kind = "filter"
in = ["s"]
where = ["v > 0"]
[[output]]
name = "o"
from = "f.1"
"""
WHOLE = "o,3,7\n@box,f,1\n@end\n"
STREAM, TEXT, SMALL = 67_108_864, 268_435_456, 1_048_576


class Limits(unittest.TestCase):
    def setUp(self):
        room = tempfile.TemporaryDirectory()
        self.addCleanup(room.cleanup)
        self.room = pathlib.Path(room.name)
        self.write("n.toml", NETWORK)
        self.write("s.csv", "3,7\n")

    def write(self, name, text, size=None):
        """Writes a file, padded with empty lines up to a size."""
        (self.room / name).write_text(text + "\n" * ((size or len(text)) - len(text)), encoding="ascii")

    def aurora(self, *words):
        ran = subprocess.run([os.environ["AURORA"], *words], cwd=self.room, stdin=subprocess.DEVNULL, capture_output=True, text=True)
        return ran.returncode, ran.stdout, ran.stderr

    def longest(self, name, text, size, words):
        """That the words take the file at its limit, and with a byte more end with 11 and its name."""
        self.write(name, text, size)
        self.assertEqual((0, WHOLE, ""), self.aurora(*words))
        self.write(name, text, size + 1)
        self.assertEqual((11, "", f"aurora: file too long: {name}\n"), self.aurora(*words))

    def test_a_stream(self):
        self.longest("s.csv", "3,7\n", STREAM, ("run", "n.toml"))

    def test_a_network(self):
        self.longest("n.toml", NETWORK, SMALL, ("run", "n.toml"))

    def test_capacities(self):
        self.longest("c.csv", "0,1000000\n", SMALL, ("run", "n.toml", "--capacities", "c.csv"))

    def test_picks(self):
        self.longest("p.csv", "0\n", SMALL, ("run", "n.toml", "--picks", "p.csv"))

    def test_the_network_of_a_tap(self):
        self.write("q.toml", NETWORK)
        self.longest("n.toml", NETWORK, SMALL, ("tap", "n.toml", "s", "0", "0", "q.toml"))

    def test_the_query_of_a_tap(self):
        self.longest("q.toml", NETWORK, SMALL, ("tap", "n.toml", "s", "0", "0", "q.toml"))

    def test_a_text_that_is_audited(self):
        (self.room / "text").write_bytes(b"")
        os.truncate(self.room / "text", TEXT)
        self.assertEqual((0, "no,1,short\n", ""), self.aurora("audit", "n.toml", "text"))
        os.truncate(self.room / "text", TEXT + 1)
        self.assertEqual((11, "", "aurora: file too long: text\n"), self.aurora("audit", "n.toml", "text"))
