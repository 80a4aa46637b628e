"""A stream file by its ticks: where the tuples from a tick on begin is found by bisection. A line is a tuple, whatever quotes are in it."""
import os
import re

from .line_rules import MOST_TICK, fields_of
from .parts import Stop

MARK = b"\xef\xbb\xbf"
BLOCK = 1 << 12
BLANKS = re.compile(rb"(?:\r?\n)*")
TICK = re.compile(rb"[0-9]{1,13}")


class Stream:
    """The file of a source. Offsets are of lines' begins: a mark of byte order at the start is passed over."""

    def __init__(self, name, path, earlier=()):
        self.name, self.path, self.earlier = name, path, earlier
        self.file = os.open(path, os.O_RDONLY)
        self.state = self.state_now()
        self.size = self.state[0]
        self.begin = 3 if self.read(0, 3) == MARK else 0

    def state_now(self):
        at = os.fstat(self.file)
        return [at.st_size, at.st_mtime_ns]

    def close(self):
        os.close(self.file)

    def read(self, begin, end):
        return os.pread(self.file, max(0, min(end, self.size) - begin), begin)

    def blocks(self, begin, end):
        """Yields the bytes between two offsets; stops where they aren't there any more."""
        while begin < end:
            block = self.read(begin, min(end, begin + (1 << 20)))
            if not block:
                raise Stop(f"{self.path} was changed while it was cut")
            yield block
            begin += len(block)

    def line_of(self, at):
        """Returns the offset of the line that holds a byte."""
        while at > self.begin:
            begin = max(self.begin, at - BLOCK)
            found = self.read(begin, at).rfind(b"\n")
            if found >= 0:
                return begin + found + 1
            at = begin
        return self.begin

    def tuple_from(self, at):
        """Returns the tick of the first tuple from an offset on and where its line ends, or None where there is none."""
        while block := self.read(at, at + BLOCK):
            blanks = BLANKS.match(block).end()
            at += blanks
            if not blanks or blanks < len(block) - 1:
                break
        size = BLOCK
        while block := self.read(at, at + size):
            end = block.find(b"\n")
            if end >= 0 or at + len(block) >= self.size:
                line = block if end < 0 else block[:end]
                return None if end < 0 and line == b"\r" else (self.tick_in(line), at + (len(block) if end < 0 else end + 1))
            size *= 8
        return None

    def tick_in(self, line):
        """Returns the tick of a line; stops where it has none, as a run of the whole does."""
        tick = tick_of(line)
        if tick is None:
            self.refuse()
        return tick

    def from_tick(self, tick, low=None, high=None):
        """Returns the offset from which on ticks aren't below one. Before it stands one below, and behind it one that isn't, where there are any:
        of this offset that is known, even where ticks fall elsewhere. The bounds are offsets of other ticks."""
        low, high = self.begin if low is None else low, self.size if high is None else high
        while low < high:
            at = max(low, self.line_of((low + high) // 2))
            found = self.tuple_from(at)
            if found and found[0] < tick:
                low = found[1]
            else:
                high = at
        return low

    def tick_behind(self, at):
        """Returns the tick of the tuple whose line holds a byte, or of the next one behind it; None where there is none."""
        found = self.tuple_from(self.line_of(at)) if at < self.size else None
        return found and found[0]

    def lines_before(self, at):
        """Returns how many lines end before an offset."""
        return sum(block.count(b"\n") for block in self.blocks(0, at))

    def refuse(self):
        """Stops where the lines of a file aren't as a bisection has seen them: the first source with such a line is told."""
        for stream in (*self.earlier, self):
            stream.look_at_lines()
        raise Stop(f"{self.path} was changed while it was cut")

    def look_at_lines(self):
        """Stops with the first line whose place is one that a run refuses: a tick that is none, one that falls, a mark of byte order."""
        before = 0
        with open(self.path, "rb") as lines:
            for number, line in enumerate(lines, 1):
                line = line.removesuffix(b"\n").removesuffix(b"\r")
                line = line.removeprefix(MARK) if number == 1 else line
                if not line:
                    continue
                tick = tick_of(line)
                why = "Cut" if line.startswith(MARK) else "Tick" if tick is None else "Falls" if tick < before else None
                if why:
                    raise Stop(f"stream {self.name}: line {number}: {why}", 6)
                before = tick


def tick_of(line):
    """Returns the tick that a line begins with, or None."""
    line = line.removesuffix(b"\r")
    text = fields_of(line)[0][0] if line[:1] == b'"' else line.split(b",", 1)[0]
    tick = int(text) if TICK.fullmatch(text) else MOST_TICK
    return tick if tick < MOST_TICK else None
