"""A network file as the tools see it: its tables, its streams with their fields, its arcs and its drop points."""
import dataclasses
import functools
import math
import re
import tomllib

from . import expression
from .places import Places

WORDS = ("and", "or", "not", "is", "null", "true", "false", "time")
NAME = re.compile(r"[a-z][a-z0-9_]{0,31}")
FUNCTIONS = ("count", "sum", "avg", "min", "max", "first", "last")
# Those that answer a number whatever their field is, and those that take numbers alone.
NUMBER_ANSWERS, NUMBERS_OF = ("count", "sum", "avg"), ("sum", "avg")
FIELD_KINDS = ("int", "bool", "text")
KINDS = {
    "filter": ("where",),
    "map": ("set",),
    "union": (),
    "bsort": ("by", "slack"),
    "aggregate": ("size", "advance", "give"),
    "join": ("size", "on"),
    "resample": ("size", "give"),
}
MAY = {"aggregate": ("group", "phase")}
REQUIRED = {"top": ("version", "source", "output"), "source": ("name", "file", "fields"), "box": ("name", "kind", "in"), "output": ("name", "from")}
OPTIONAL = {"top": ("epoch", "batch", "box"), "source": (), "box": ("cost", "selectivity"), "output": ("weight", "graph")}
MOST_TICKS_OF_A_BATCH = 1 << 34
MOST_BATCHES_OF_A_REACH = 4096
MOST_BYTES = 1_048_576
# What is said of numbers that TOML has and that the program doesn't take.
TOO_WIDE = "a number has more than 64 bits"
BELOW_A_DROP = ("filter", "map", "union", "aggregate")


class Unreadable(Exception):
    """A network file that can't be read at all, or is no network that the program accepts."""


@dataclasses.dataclass
class Drop:
    """A drop point: its stream, its own arcs, what is below it, the ticks of a batch, and how far back its Aggregates reach."""
    stream: str
    arcs: frozenset
    boxes: list
    outputs: list
    length: int
    reach: int


def is_name(text):
    return bool(NAME.fullmatch(text)) and text not in WORDS


def keys_of(kind):
    """Returns the keys that a box of a kind must have, and those that it may have."""
    return REQUIRED["box"] + KINDS[kind], OPTIONAL["box"] + MAY.get(kind, ())


def ports(box):
    """Returns the names of a box's streams."""
    if box["kind"] == "filter":
        return [f"{box['name']}.{port + 1}" for port in range(len(box["where"]) + 1)]
    return [box["name"]]


class Network:
    """A network file. What goes beyond its tables holds for a file that the program accepts, or has accepted as far as it is asked."""

    def __init__(self, path):
        self.path = path
        with open(path, "rb") as file:
            self.bytes = file.read(MOST_BYTES + 1)
        if len(self.bytes) > MOST_BYTES:
            raise Unreadable(f"{path} has more than {MOST_BYTES:,} bytes, and no network has")
        self.text = self.bytes.decode("utf-8-sig", errors="replace").replace("\r\n", "\n")
        self.places = Places(self.text)
        self.table, self.fault, self.known_fields = {}, None, {}
        try:
            self.table = tomllib.loads(self.text)
        except (tomllib.TOMLDecodeError, RecursionError) as fault:
            self.fault = str(fault)
        except ValueError:
            self.fault = TOO_WIDE

    def tables(self, part):
        """Returns the tables of a part, where it is an array of tables."""
        found = self.table.get(part, [])
        return found if isinstance(found, list) and all(isinstance(it, dict) for it in found) else []

    def part(self, part, number):
        tables = [self.table] if part == "top" else self.tables(part)
        return tables[number] if number < len(tables) else {}

    @property
    def sources(self):
        return self.tables("source")

    @property
    def boxes(self):
        return self.tables("box")

    @property
    def outputs(self):
        return self.tables("output")

    @property
    def epoch(self):
        return self.table.get("epoch", 1000)

    @functools.cached_property
    def givers(self):
        """The number of the box that gives a stream, None for a source, by the stream's name and in the order of streams."""
        found = {source["name"]: None for source in self.sources}
        for number, box in enumerate(self.boxes):
            found.update(dict.fromkeys(ports(box), number))
        return found

    @functools.cached_property
    def arcs(self):
        """Each arc in its order: its stream, and ("box", number) or ("output", number) that takes it."""
        into_boxes = [(stream, ("box", number)) for number, box in enumerate(self.boxes) for stream in box["in"]]
        return into_boxes + [(output["from"], ("output", number)) for number, output in enumerate(self.outputs)]

    def fields(self, stream):
        """Returns the fields of a stream with their kinds; a kind that isn't known is None."""
        if stream not in self.known_fields:
            giver = self.givers[stream]
            if giver is None:
                source = next(it for it in self.sources if it["name"] == stream)
                self.known_fields[stream] = dict(field.split(":") for field in source["fields"])
            else:
                box = self.boxes[giver]
                self.known_fields[stream] = given_fields(box, [self.fields(name) for name in box["in"]])
        return self.known_fields[stream]

    def taken_fields(self, box):
        """Returns the fields that the expressions of a box may name, with their kinds."""
        taken = [self.fields(stream) for stream in box["in"]]
        return paired(*taken) if box["kind"] == "join" else taken[1 if box["kind"] == "resample" else 0]

    @functools.cached_property
    def arcs_of(self):
        """The arcs that each box gives, and those that it takes, by the box's number."""
        gives, takes = {number: [] for number in range(len(self.boxes))}, {number: [] for number in range(len(self.boxes))}
        for arc, (stream, (kind, taker)) in enumerate(self.arcs):
            if self.givers[stream] is not None:
                gives[self.givers[stream]].append(arc)
            if kind == "box":
                takes[taker].append(arc)
        return gives, takes

    @functools.cached_property
    def reached_of(self):
        """The arcs that are reached from each arc, and itself, as the bits of a number."""
        gives, of_boxes = self.arcs_of[0], {}

        def of_box(number):
            if number not in of_boxes:
                of_boxes[number] = 0
                for arc in gives[number]:
                    of_boxes[number] |= of_arc(arc)
            return of_boxes[number]

        def of_arc(arc):
            kind, number = self.arcs[arc][1]
            return 1 << arc | (of_box(number) if kind == "box" else 0)

        return [of_arc(arc) for arc in range(len(self.arcs))]

    def below(self, own):
        """Returns the arcs that are reached from these, and themselves."""
        return {arc for arc in range(len(self.arcs)) if any(self.reached_of[it] >> arc & 1 for it in own)}

    @functools.cached_property
    def taken_by(self):
        """The arcs that each box takes, and those that no drop may stand above, as the bits of numbers."""
        bits = [sum(1 << arc for arc in set(self.arcs_of[1][number])) for number in range(len(self.boxes))]
        return bits, sum(it for it, box in zip(bits, self.boxes) if box["kind"] not in BELOW_A_DROP)

    @functools.cached_property
    def drops(self):
        """The drop points, by their numbers."""
        own = {stream: [] for stream in self.givers}
        for arc, (stream, _) in enumerate(self.arcs):
            own[stream].append(arc)
        places = []
        for stream, arcs in own.items():
            places += [(stream, arcs)] if arcs else []
            places += [(stream, [arc]) for arc in arcs] if len(arcs) > 1 else []
        found = [(drop, reached) for drop, reached in (self.candidate(*it) for it in places) if drop]
        bits = [sum(1 << arc for arc in drop.arcs) for drop, _ in found]
        return [drop for (drop, _), it in zip(found, bits) if not any(it != other and not it & ~reached for other, (_, reached) in zip(bits, found))]

    def candidate(self, stream, own):
        """Returns the drop that may stand at these arcs of a stream, or None, and the bits of the arcs that it reaches."""
        reached, (taken, barred) = 0, self.taken_by
        for arc in own:
            reached |= self.reached_of[arc]
        if reached & barred:
            return None, reached
        boxes = [number for number, bits in enumerate(taken) if bits & reached]
        ends = [arc for arc, (_, (kind, _)) in enumerate(self.arcs) if kind == "output" and reached >> arc & 1]
        if not ends or any(taken[it] & ~reached for it in boxes):
            return None, reached
        known = self.ways(set(own), boxes)
        of_arc = {arc: (frozenset([None]), 0) if arc in own else known[self.givers[self.arcs[arc][0]]] for arc in ends}
        last = frozenset().union(*(it for it, _ in of_arc.values()))
        if None in last:
            return None, reached
        length = self.table.get("batch", 1) * math.lcm(*(self.boxes[it]["advance"] for it in last))
        # A box whose streams nothing takes gives no arc, and is on no way.
        reach = max([0, *(known[number][1] for number in boxes if self.arcs_of[0][number])])
        return Drop(stream, frozenset(own), boxes, sorted(self.arcs[arc][1][1] for arc in ends), length, reach), reached

    def ways(self, own, boxes):
        """Returns of each box the last Aggregates on the ways to its streams from a place, None for a way without one, and how far back they reach."""
        known, below, takes = {}, set(boxes), self.arcs_of[1]

        def of_box(number):
            if number not in known:
                givers = {None if arc in own else self.givers[self.arcs[arc][0]] for arc in takes[number]}
                before = [(frozenset([None]), 0) if it is None else of_box(it) for it in givers]
                last, reach = frozenset().union(*(it for it, _ in before)), max(it for _, it in before)
                box = self.boxes[number]
                known[number] = (frozenset([number]), reach + box["size"] - 1) if box["kind"] == "aggregate" else (last, reach)
            return known[number]

        for number in below:
            of_box(number)
        return known


def paired(left, right):
    return {f"l_{name}": kind for name, kind in left.items()} | {f"r_{name}": kind for name, kind in right.items()}


def given_fields(box, taken):
    """Returns the fields of a box's streams from those that it takes."""
    kind = box["kind"]
    if kind == "map":
        return {name: expression.checked(text, taken[0])[0] for name, text in box["set"]}
    if kind == "aggregate":
        return {name: taken[0].get(name) for name in box.get("group", [])} | answers(box["give"], taken[0])
    if kind == "resample":
        return {f"l_{name}": of for name, of in taken[0].items()} | answers(box["give"], taken[1])
    return paired(*taken) if kind == "join" else taken[0]


def answers(give, fields):
    """Returns the names of an Aggregate's functions and the kinds of their answers."""
    return {name: "int" if function in NUMBER_ANSWERS else fields.get(field[0]) for name, function, *field in give}


def read(path):
    """Reads the network file of a run; raises Unreadable where it is none that the program accepts, with the rule that it breaks."""
    from .accepting import refusal
    try:
        network = Network(path)
        broken = refusal(network)
    except (KeyError, IndexError, TypeError, ValueError, AttributeError, StopIteration, RecursionError) as fault:
        raise Unreadable(f"{path} is no network that aurora runs (`aurora run {path}` says why)") from fault
    except OSError as fault:
        raise Unreadable(f"{path}: {fault.strerror}") from fault
    if broken:
        why = f": {network.fault}" if network.fault else ""
        raise Unreadable(f"{path}: aurora refuses this network: {' '.join(map(str, broken))}{why} (`aurora-explain {path}` tells more)")
    return network
