"""Slices of a run by time: where they are cut, which bytes of its sources each has, and that they are still those that it was run with."""
import hashlib
import os
import shutil

from .cutting import MOST_BYTES, MOST_TUPLES
from .line_rules import MOST_TICK
from .parts import MOST_SLICES, Stop
from .seeking import MARK, Stream

# More than a line takes.
LINE = 1 << 14
# So many bytes of all sources has a slice where nothing is said.
BYTES = 1 << 24


class Grid:
    """The ticks at which slices may end."""

    def __init__(self, reach):
        self.step, self.phase = reach.step, reach.phase

    def at_or_before(self, tick):
        """Returns the last cut up to a tick; one below 0 where there is none."""
        return (tick - self.phase) // self.step * self.step + self.phase

    def behind(self, tick):
        return self.at_or_before(tick) + self.step


class Sources:
    """The sources of a run: each file once, with the least number of bytes of a tuple of it beside its tick."""

    def __init__(self, sources):
        files = {}
        for source in sources:
            files.setdefault(os.path.normpath(source["file"]), source)
        self.paths = [source["file"] for source in files.values()]
        self.streams = []
        for source in files.values():
            self.streams.append(Stream(source["name"], source["file"], tuple(self.streams)))
        self.least = [1 + len(source["fields"]) for source in files.values()]

    def close(self):
        for stream in self.streams:
            stream.close()

    def state(self):
        return [[path, *stream.state_now()] for path, stream in zip(self.paths, self.streams)]

    def look(self):
        """Stops where a file isn't what it was when it was opened."""
        for stream in self.streams:
            if stream.state_now() != stream.state:
                raise Stop(f"{stream.path} was changed while it was cut")


class Cutter:
    """Where slices are cut: at multiples of so many bytes of all sources together, as far as the grid and the limits of a run let it."""

    def __init__(self, sources, reach, with_next):
        self.sources, self.streams, self.reach, self.grid, self.with_next = sources, sources.streams, reach, Grid(reach), with_next

    def before(self, tick, bounds=None):
        """Returns of each file the offset of a tick."""
        return [stream.from_tick(tick, *bound) for stream, bound in zip(self.streams, bounds or [()] * len(self.streams))]

    def bytes_before(self, tick):
        return sum(self.before(tick))

    def all_bytes(self):
        return sum(stream.size for stream in self.streams)

    def last_cut(self, begin, target):
        """Returns the last cut before which stand at most so many bytes; `begin` is one, or a cut before it."""
        own = self.before(begin)
        rest = target - sum(own)
        ticks = [stream.tick_behind(at + rest) for stream, at in zip(self.streams, own)]
        low, high = begin, max(begin, min(self.grid.at_or_before(MOST_TICK - 1 if tick is None else tick) for tick in ticks))
        lows, highs = own, self.before(high)
        if sum(highs) <= target:
            return high
        while high - low > self.grid.step:
            middle = max(self.grid.at_or_before((low + high) // 2), self.grid.behind(low))
            if middle >= high:
                break
            some = self.before(middle, list(zip(lows, highs)))
            if sum(some) <= target:
                low, lows = middle, some
            else:
                high, highs = middle, some
        return low

    def wished(self, begin, size):
        """Yields where slices shall end from a tick on, the last at no tick."""
        base, count, end = self.bytes_before(begin), 1, begin
        while base + count * size < self.all_bytes():
            cut = self.last_cut(end, base + count * size)
            if cut > end:
                yield cut
                end, count = cut, count + 1
            else:
                # The next cut, behind more bytes than that, unless ticks fall.
                count = max(count + 1, -(-(self.bytes_before(self.grid.behind(end)) - base) // size))
        yield None

    def cuts(self, begin, size):
        """Returns where slices begin behind one that begins at a tick: as wished, and more often where that is over a run's limits."""
        found = []
        for end in self.wished(begin, size):
            while (fits := self.fitting(begin, end)) != end:
                begin = fits
                found.append(begin)
                self.look_at_count(found)
            if end is not None:
                begin = end
                found.append(begin)
                self.look_at_count(found)
        return found

    def look_at_count(self, found):
        """Stops where there are too many slices, which there may be since ticks fall."""
        if len(found) >= MOST_SLICES:
            for stream in self.streams:
                stream.look_at_lines()
            raise Stop(f"there would be over {MOST_SLICES:,} slices: give them more bytes by --bytes")

    def fitting(self, begin, end):
        """Returns the end of a slice that begins at a tick, or a cut before it where with all that it reaches a source would be over a run's limits;
        stops where there is none."""
        for stream, low_high, beside in zip(self.streams, self.range_of(begin, end), self.sources.least):
            least = len(str(max(0, begin - self.reach.back))) + beside
            over = over_limits(stream, *low_high, least, self.with_next)
            if over is None:
                continue
            cut, next_cut = self.grid.at_or_before(stream.tick_behind(over[0]) - self.reach.ahead), self.grid.behind(begin)
            if cut <= begin:
                cut = next_cut
                self.look_at_step(stream, begin, cut, least)
            end = cut if end is None else min(end, cut)
        return end

    def look_at_step(self, stream, begin, end, least):
        """Stops where the shortest slice that begins at a tick is over a run's limits."""
        over = over_limits(stream, *self.range_of(begin, end)[self.streams.index(stream)], least, self.with_next)
        if over:
            _, count, what, limit, status = over
            back, ahead, step, _ = self.reach
            raise Stop(f"the slice of ticks {begin} to {end - 1} would have {count:,} {what} of source {stream.name}, with {back} ticks before it and {ahead} behind it, and a run "
                       f"takes {limit:,}: no slice of this network is shorter than {step} tick{'s' * (step > 1)}, so cut it by a key", status)

    def range_of(self, begin, end):
        """Returns of each file the bytes that a slice has: as far as it reaches, or up to the end where there is none, and with plans one tuple more, which
        tells that its last epochs aren't behind all tuples."""
        found = []
        for stream in self.streams:
            low = stream.begin if begin == 0 else stream.from_tick(max(0, begin - self.reach.back))
            high = stream.size if end is None else stream.from_tick(end + self.reach.ahead, low)
            if self.with_next and (more := stream.tuple_from(high)):
                high = more[1]
            found.append([low, high])
        return found


def over_limits(stream, low, high, least, with_next):
    """Returns of bytes of a file that a run doesn't take the first offset that is too much, how much there is, of what, the limit and the status of a
    run; else None. A tuple has at least so many bytes, and there may have to be room for one more."""
    if high - low > MOST_BYTES:
        return low + MOST_BYTES - with_next * LINE, high - low, "bytes", MOST_BYTES, 11
    if (high - low + 1) // least <= MOST_TUPLES:
        return None
    count, at, taken = 0, None, MOST_TUPLES - with_next
    for block in stream.blocks(low, high):
        lines = block.count(b"\n")
        if at is None and count + lines >= taken:
            at = low + nth_line_end(block, taken - count)
        count += lines
        low += len(block)
    count += block[-1:] != b"\n"
    return (at, count, "lines", MOST_TUPLES, 6) if count > MOST_TUPLES else None


def nth_line_end(block, number):
    """Returns behind which byte of a block so many lines have ended."""
    at = 0
    for _ in range(number):
        at = block.find(b"\n", at) + 1
    return at


def look_at_ranges(streams, ranges):
    """Stops where slices leave out bytes, which is so where ticks fall alone, or begin with a mark of byte order, which the whole refuses."""
    for place, stream in enumerate(streams):
        done = stream.begin
        for low, high in (ranges_of[place] for ranges_of in ranges):
            if low > done or stream.read(low, low + 3) == MARK:
                stream.refuse()
            done = max(done, high)


def begun_digest():
    """Returns BLAKE2b as OpenSSL has it, which takes half as long as that of Python itself, or else the latter."""
    try:
        return hashlib.new("blake2b512", usedforsecurity=False)
    except ValueError:
        return hashlib.blake2b()


def digest_of(stream, low, high, file=None):
    """Returns a digest of a file's bytes, which are written to another file where there is one."""
    digest = begun_digest()
    for block in stream.blocks(low, high):
        digest.update(block)
        if file:
            file.write(block)
    return digest.hexdigest()[:32]


# ---- the plan of slices

def begun(cutter, size):
    """Returns the slices of a new run."""
    cuts = [0, *cutter.cuts(0, size)]
    return with_ranges(cutter, {"bytes": size, "begins": cuts, "digests": [None] * len(cuts)})


def with_ranges(cutter, slices):
    begins = slices["begins"]
    ranges = [cutter.range_of(begin, end) for begin, end in zip(begins, [*begins[1:], None])]
    look_at_ranges(cutter.streams, ranges)
    return {**slices, "ranges": ranges, "files": [[path, *stream.state] for path, stream in zip(cutter.sources.paths, cutter.streams)]}


def gone_on(cutter, old, size):
    """Returns the slices of a run whose files aren't what they were: cut where they were, and behind the last cut anew. It keeps its run of each whose
    bytes are the same. And those, by number, that were changed before what was their end."""
    begins = list(old["begins"])
    for begin, end in zip(begins, begins[1:]):
        if cutter.fitting(begin, end) != end:
            raise Stop(f"the slice of ticks {begin} to {end - 1} has become greater than a run takes: take the folder away and begin anew")
    if end := end_of_old(cutter, old):
        begins.append(end)
    has_grown = any(stream.size > size for stream, (_, size, _) in zip(cutter.streams, old["files"]))
    begins += cutter.cuts(begins[-1], size if has_grown else cutter.all_bytes())
    new = with_ranges(cutter, {"bytes": size, "begins": begins, "digests": []})
    changed = []
    for number, ranges in enumerate(new["ranges"]):
        there = old["digests"][number] if number < len(old["digests"]) else None
        same = there and [digest_of(stream, *bytes_of) for stream, bytes_of in zip(cutter.streams, ranges)] == there
        new["digests"].append(there if same else None)
        if there and not same and not is_there(cutter.streams, old["ranges"][number], there):
            changed.append(number)
    return new, changed


def end_of_old(cutter, old):
    """Returns a cut at which the old last slice can end with its old bytes alone, or None."""
    sizes = [size for _, size, _ in old["files"]]
    new = [stream.tick_behind(size) for stream, size in zip(cutter.streams, sizes) if size < stream.size]
    if not new or None in new:
        return None
    cut = cutter.grid.at_or_before(min(new) - cutter.reach.ahead)
    return cut if cut > old["begins"][-1] and cutter.before(cut + cutter.reach.ahead) == sizes else None


def is_there(streams, ranges, digests):
    """Says whether the bytes that a slice was made of stand where they stood."""
    return all(high <= stream.size and digest_of(stream, low, high) == digest for stream, (low, high), digest in zip(streams, ranges, digests))


def make(folder, paths, streams, ranges, texts):
    """Fills the folder of a slice, and returns the digests of its bytes."""
    if os.path.lexists(folder):
        shutil.rmtree(folder)
    for path in paths:
        os.makedirs(os.path.dirname(f"{folder}/{path}"), exist_ok=True)
    for name, text in texts.items():
        with open(f"{folder}/{name}", "wb") as file:
            file.write(text)
    found = []
    for path, stream, (low, high) in zip(paths, streams, ranges):
        with open(f"{folder}/{path}", "wb") as file:
            found.append(digest_of(stream, low, high, file))
    return found


def texts_of(options, text, run):
    """Returns the files of a slice beside its streams, by their names; its network is the text, where there is one."""
    texts = {"run": run.encode("utf-8", "surrogateescape")}
    for name, path in (("network.toml", options.net), ("capacities.csv", options.capacities)):
        if path:
            with open(path, "rb") as file:
                texts[name] = file.read()
    return {**texts, **({"network.toml": text.encode()} if text else {})}
