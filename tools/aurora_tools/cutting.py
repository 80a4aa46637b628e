"""Cuts streams by a key. Two tuples go to one part where their values are equal, however these are written."""
import array
import heapq
import os
import zlib

from .line_rules import fields_of
from .parts import Stop

MARK = b"\xef\xbb\xbf"
# What a run takes of a source.
MOST_TUPLES, MOST_BYTES = 1_000_000, 67_108_864
# So many values have a number of their own, the others one of so many, by a sum of their bytes.
MOST_VALUES, CLASSES = 1 << 16, 1 << 14
BLANK = (b"\n", b"\r\n", b"\r")


class Values:
    """The numbers of the values that were met: equal values of a kind have one number."""

    def __init__(self):
        self.known, self.names = {"int": {}, "bool": {}, "text": {}}, []

    def number(self, kind, text):
        """Returns the number of a value that wasn't met as it is written here, maybe with the end of its line."""
        known = self.known[kind]
        value = plain(text.removesuffix(b"\n").removesuffix(b"\r"), kind)
        if value not in known:
            if len(self.names) == MOST_VALUES:
                return zlib.crc32(value) % CLASSES
            known[value] = CLASSES + len(self.names)
            self.names.append(value)
        if len(known) < 2 * MOST_VALUES:
            known[text] = known[value]
        return known[value]


def plain(text, kind):
    """Returns an integer without the zeros before it, and any other value as it is."""
    if kind != "int" or not text or len(text) > 40:
        return text
    try:
        return b"%d" % int(text)
    except ValueError:
        return text


def place_of(source, field):
    """Returns the place of a field in a source's lines, and its kind."""
    names, kinds = zip(*(text.split(":") for text in source["fields"]))
    return names.index(field) + 1, kinds[names.index(field)]


def looked_at(source, at, time, before):
    """Returns the greatest time so far, as it is written. It stops where the place of a line is one that a run refuses in the whole, and maybe
    not in a part: a time below that of the line before, a mark of byte order."""
    if time.startswith(MARK):
        raise Stop(f"stream {source['name']}: line {at}: Cut", 6)
    # What is no number is refused by its part.
    if not time.isdigit() or not before.isdigit() or len(time) > 40:
        return before
    if int(time) < int(before):
        raise Stop(f"stream {source['name']}: line {at}: Falls", 6)
    return time


def numbered(source, field, values):
    """Yields each line of a source and the number of its key."""
    (place, kind), before = place_of(source, field), b"0"
    known, width = values.known[kind], 1
    with open(source["file"], "rb") as lines:
        for at, line in enumerate(lines, 1):
            if at == 1:
                line = line.removeprefix(MARK)
            if line in BLANK or not line:
                continue
            cells = line.split(b",", place + 1)
            if b'"' in line:
                cells = [cell for cell, _ in fields_of(line.removesuffix(b"\n").removesuffix(b"\r"))]
            # Of as many digits the greater number is the greater text.
            if len(time := cells[0]) != width or not before <= time < b":":
                before = looked_at(source, at, time, before)
                width = len(before)
            else:
                before = time
            key = cells[place] if len(cells) > place else b""
            number = known.get(key)
            yield values.number(kind, key) if number is None else number, line if line[-1] == 10 else line + b"\n"


class Tally:
    """How many lines and bytes each number has in a source."""

    def __init__(self, source, field, values):
        self.name = source["name"]
        self.lines, self.bytes = (array.array("q", bytes(8 * (CLASSES + MOST_VALUES))) for _ in range(2))
        lines, sizes = self.lines, self.bytes
        for number, line in numbered(source, field, values):
            lines[number] += 1
            sizes[number] += len(line)

    def look(self, split, parts, values):
        """Stops where a part would have more of the source than a run takes."""
        lines, sizes = [0] * parts, [0] * parts
        for number, part in split.items():
            lines[part] += self.lines[number]
            sizes[part] += self.bytes[number]
        for counts, of, limit, what, status in ((lines, self.lines, MOST_TUPLES, "lines", 6), (sizes, self.bytes, MOST_BYTES, "bytes", 11)):
            if max(counts) > limit:
                most = max(split, key=of.__getitem__)
                remedy = "take more parts, or a key of more values"
                if of[most] > limit and most >= CLASSES:
                    key = values.names[most - CLASSES].decode(errors="replace")
                    remedy = f"those of the key `{key}` alone are {of[most]:,}, so take another key: no number of parts helps"
                raise Stop(f"part {counts.index(max(counts))} would have {max(counts):,} {what} of source {self.name}, and a run takes {limit:,}: {remedy}", status)


def split_of(tallies, parts):
    """Returns the part of each number: those with the most lines first, each to the part with the fewest so far."""
    weights = [sum(it) for it in zip(*(tally.lines for tally in tallies))]
    emptiest, split = [(0, part) for part in range(parts)], {}
    for number in sorted((it for it, weight in enumerate(weights) if weight), key=lambda it: -weights[it]):
        weight, part = heapq.heappop(emptiest)
        split[number] = part
        heapq.heappush(emptiest, (weight + weights[number], part))
    return split


def look_at_whole(source):
    """Stops where a source that is given whole to each part has more than a run takes."""
    size = os.stat(source["file"]).st_size
    if size > MOST_BYTES:
        raise Stop(f"source {source['name']} is given whole to each part and has {size:,} bytes, and a run takes {MOST_BYTES:,}: cut it by a key", 11)
    with open(source["file"], "rb") as lines:
        count = sum(line not in BLANK for line in lines)
    if count > MOST_TUPLES:
        raise Stop(f"source {source['name']} is given whole to each part and has {count:,} lines, and a run takes {MOST_TUPLES:,}: cut it by a key", 6)


class Cut:
    """How sources are cut into parts: what a run would refuse of a part is seen before anything is written."""

    def __init__(self, sources, cut, parts):
        self.cut, self.values = cut, Values()
        for source in sources:
            if source["name"] not in cut:
                look_at_whole(source)
        tallies = [Tally(source, cut[source["name"]], self.values) for source in sources if source["name"] in cut]
        self.split = split_of(tallies, parts)
        for tally in tallies:
            tally.look(self.split, parts, self.values)

    def write(self, source, folders):
        """Writes each line of a source to the part of its key."""
        files = [open(f"{folder}/{source['file']}", "wb") for folder in folders]
        try:
            writers = {number: files[part].write for number, part in self.split.items()}
            for number, line in numbered(source, self.cut[source["name"]], self.values):
                if number not in writers:
                    raise Stop(f"{source['file']} was changed while it was cut")
                writers[number](line)
        finally:
            for file in files:
                file.close()
