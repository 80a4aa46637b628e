"""What a run wrote, class by class, and whether it can be the run of a network."""
import collections
import csv
import functools
import io
import re
import sys

from . import front, records

NUMBER = re.compile(r"[0-9]{1,40}")
LEAST_OF_64_BITS, MOST_OF_64_BITS = -(1 << 63), (1 << 63) - 1
MOST_TICK = 1 << 40
LENGTHS = {"@plan": 6, "@drop": 4, "@box": 3, "@late": 3, "@end": 1}
LINES = {"int": re.compile(r"(?>(?>-?+[0-9]{1,19}+)?+\n)*+"), "bool": re.compile(r"(?>(?>true|false)?+\n)*+")}
Plan = collections.namedtuple("Plan", "epoch load capacity saved verdict")
Batch = collections.namedtuple("Batch", "drop number level")


class Strange(Exception):
    """A text that no run writes, or not the run of this network."""


def number(text):
    """Returns a number as a run writes it, which has digits alone."""
    if not NUMBER.fullmatch(text):
        raise ValueError(text)
    return int(text)


class Run:
    """The records of a run. A last one that isn't ended is left out: the run broke off in it."""

    def __init__(self, path):
        self.rows, self.plans, self.batches, self.fed, self.late = {}, [], [], {}, {}
        with open(sys.stdin.fileno() if path == "-" else path, encoding="utf-8", newline="", closefd=path != "-") as file:
            front.look_at_input(file, path)
            text = file.read()
        ended = records.whole(text)
        last, reader = [], csv.reader(io.StringIO(ended, newline="\n"), strict=True)
        try:
            for row in reader:
                if last == ["@end"]:
                    raise ValueError("behind the end")
                last = row
                self.take(row)
        except (ValueError, IndexError, TypeError, csv.Error) as fault:
            raise Strange(f"line {reader.line_num} of the text is none that a run writes: {','.join(last)[:80]}") from fault
        self.whole = last == ["@end"] and ended == text

    def take(self, row):
        kind = row[0]
        if kind.startswith("@") and len(row) != LENGTHS.get(kind):
            raise ValueError(kind)
        if kind == "@plan":
            if row[5] not in ("fits", "short"):
                raise ValueError(row[5])
            plan = Plan(*(number(it) for it in row[1:5]), row[5])
            if self.plans and plan.epoch <= self.plans[-1].epoch:
                raise ValueError(row[1])
            self.plans.append(plan)
        elif kind == "@drop":
            self.batches.append(Batch(*(number(it) for it in row[1:4])))
        elif kind == "@box":
            self.fed[row[1]] = number(row[2])
        elif kind == "@late":
            self.late[row[1]] = number(row[2])
        elif kind != "@end":
            if (tick := number(row[1])) >= MOST_TICK:
                raise ValueError(row[1])
            self.rows.setdefault(kind, []).append((tick, row[2:]))

    def shown(self, output):
        return self.rows.get(output["name"], [])

    @functools.cached_property
    def gone(self):
        """The numbers of the batches that each drop left out, ascending, with their levels, by the drop's number."""
        found = collections.defaultdict(list)
        for drop, number, level in sorted(self.batches):
            found[drop].append((number, level))
        return found


def agree(network, run):
    """Raises Strange where the text isn't that of a run of the network."""
    kinds = {box["name"]: box["kind"] for box in network.boxes}
    unknown = sorted(run.fed.keys() - kinds.keys() | run.rows.keys() - {output["name"] for output in network.outputs})
    if unknown:
        raise Strange(f"{network.path} has no {', '.join(unknown)}, of which the text tells: it is the run of another network")
    if strange := sorted(name for name in run.late if kinds.get(name) != "bsort" or run.late[name] > run.fed.get(name, 0)):
        raise Strange(f"the text tells of tuples of {strange[0]} that came too late, and of no BSort of this name in {network.path} that was fed so many")
    if any(batch.drop < len(network.drops) and batch.number * network.drops[batch.drop].length >= MOST_TICK for batch in run.batches):
        raise Strange("the text tells of a batch behind all ticks")
    if any(batch.drop >= len(network.drops) for batch in run.batches):
        raise Strange(f"the text tells of drop {max(it.drop for it in run.batches)}, and {network.path} has {len(network.drops)} drop points")
    gone = {(batch.drop, batch.number) for batch in run.batches}
    for number, output in enumerate(network.outputs):
        drop, width = drop_above(network, number), len(network.fields(output["from"]))
        for time, fields in run.shown(output):
            if drop is not None and (drop, time // network.drops[drop].length) in gone:
                batch = time // network.drops[drop].length
                raise Strange(f"{output['name']} has a line of tick {time}, and drop {drop} left out batch {batch}, in which it lies: "
                              f"{network.path} isn't the network of this run")
            if len(fields) != width:
                raise Strange(f"{output['name']} has a line with {len(fields)} fields, and {width} in {network.path}, "
                              "which isn't the network of this run")
        look_at_kinds(network, output, run.shown(output))


def look_at_kinds(network, output, rows):
    """Raises Strange where a field of an output isn't of its kind."""
    fields = network.fields(output["from"])
    for at, (name, kind) in enumerate(fields.items()):
        if kind not in LINES:
            continue
        cells = [row[at] for _, row in rows]
        lines = "\n".join(cells) + "\n" if cells else ""
        is_one = lines.count("\n") == len(cells) and LINES[kind].fullmatch(lines) is not None
        wide = [it for it in cells if len(it) > 18] if kind == "int" and is_one else []
        if cells and not is_one or any(not LEAST_OF_64_BITS <= int(it) <= MOST_OF_64_BITS for it in wide):
            raise Strange(f"{output['name']} has a line whose `{name}` isn't of the kind {kind}, which it is in {network.path}: that isn't the network of this run")


def drop_above(network, output):
    """Returns the number of the drop above an output, or None."""
    return next((number for number, drop in enumerate(network.drops) if output in drop.outputs), None)


def missing(network, run, output):
    """Returns the spans of ticks that the run left out of an output, ascending, those that meet as one."""
    number, spans = drop_above(network, output), []
    for batch, _ in run.gone[number] if number is not None else []:
        low, high = batch * network.drops[number].length, (batch + 1) * network.drops[number].length
        if spans and spans[-1][1] == low:
            low = spans.pop()[0]
        spans.append((low, high))
    return spans
