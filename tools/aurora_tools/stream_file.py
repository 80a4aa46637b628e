"""A stream file as it is written: its lines in the order of their ticks, within what a run takes, and how late its other times are."""
import bisect
import heapq
import itertools
import operator
import os
import sys

from .tables import Refused

MOST_TUPLES, MOST_BYTES, MOST_SLACK = 1_000_000, 67_108_864, 10_000


class Lateness:
    """The least slack of a BSort under which no tuple comes too late: the most earlier tuples of a greater time."""

    def __init__(self, name):
        self.name, self.greatest, self.slack, self.early, self.last = name, [], 0, 0, -1

    def add(self, cells, ticks):
        times = [(int(it), tick) for it, tick in zip(cells, ticks) if it]
        times, ticks = [it for it, _ in times], [it for _, it in times]
        self.early += sum(map(operator.gt, times, ticks))
        if times and times[0] >= self.last and times == sorted(times):
            self.greatest = (self.greatest + times)[-2 * MOST_SLACK:]
            self.last = times[-1]
            return
        for time in times:
            self.slack = max(self.slack, len(self.greatest) - bisect.bisect_right(self.greatest, time))
            bisect.insort(self.greatest, time)
            if len(self.greatest) > 4 * MOST_SLACK:
                del self.greatest[:2 * MOST_SLACK]
        self.last = self.greatest[-1] if self.greatest else -1

    def tell(self):
        slack = f"with slack = {self.slack} loses nothing of this table"
        if self.slack > MOST_SLACK:
            slack = f"loses some of this table with any slack, since that is {MOST_SLACK:,} at most"
        if self.early:
            slack += f", but for {self.early:,} whose {self.name} is behind their tick"
        print(f"stream: a BSort by {self.name} {slack}", file=sys.stderr)


class Stream:
    """The stream file as it is written: its ascending runs, where --sort is to put them into one, its tuples and bytes."""

    def __init__(self, given, file):
        self.given, self.file = given, file
        self.begin()

    def begin(self):
        self.file.seek(0)
        self.file.truncate()
        self.count, self.bytes, self.last, self.runs = 0, 0, -1, [0]

    def in_order(self, ticks, lines):
        """Returns the lines of a block by their ticks, and begins another run where they are before what was written."""
        if ticks[0] >= self.last and ticks == sorted(ticks):
            return lines
        order = sorted(range(len(ticks)), key=ticks.__getitem__)
        if ticks[order[0]] < self.last:
            self.runs.append(self.bytes)
        return [lines[at] for at in order]

    def put(self, ticks, lines):
        if self.given.sort:
            lines = self.in_order(ticks, list(lines))
        text = ("\n".join(lines) + "\n").encode()
        self.file.write(text)
        self.last = max(ticks)
        self.count += len(ticks)
        self.bytes += len(text)
        if not self.given.long and self.count > MOST_TUPLES:
            raise Refused(f"it has more than {MOST_TUPLES:,} tuples, which is the most that a run takes of a source: say --long, and run it with aurora-shard")
        if not self.given.long and self.bytes > MOST_BYTES:
            raise Refused(f"it has more than {MOST_BYTES:,} bytes, which is the most that a run takes of a source: take fewer columns, "
                          "or say --long, and run it with aurora-shard")

    def merge_into(self, file):
        """Writes one run made of all, those of one time in the order of their runs."""
        self.file.flush()
        size = max(1 << 12, (1 << 20) // len(self.runs))
        runs = [lines_between(self.file.fileno(), low, high, size) for low, high in zip(self.runs, [*self.runs[1:], self.bytes])]
        merged = heapq.merge(*runs, key=tick_of) if len(runs) > 1 else runs[0]
        while lines := list(itertools.islice(merged, 10_000)):
            file.write(b"\n".join(lines) + b"\n")


def tick_of(line):
    return int(line[:line.find(b",")])


def lines_between(number, low, high, size):
    """Yields the lines of a file from one place up to another, which other readers of it don't move."""
    rest = b""
    while low < high:
        piece = os.pread(number, min(size, high - low), low)
        low += len(piece)
        *lines, rest = (rest + piece).split(b"\n")
        yield from lines
