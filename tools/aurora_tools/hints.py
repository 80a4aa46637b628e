"""What a run that ended well may hide: parts of a network that nothing takes, questions that are no error and rarely meant, and what
its text tells of boxes that gave nothing, of late tuples and of capacities that change nothing."""
import os
import re

from . import expression, network, planning
from .finding import Finding, counted, listed
from .places import line_and_column

KEYS_OF_EXPRESSIONS = {"filter": "where", "map": "set", "join": "on"}
ORDERS = ("<", "<=", ">", ">=")
SCALE = re.compile(r"# ([a-z][a-z0-9_]*): .* times (10{1,18})")


def at(net, words, remedy, part, number, *way):
    """Returns a finding with the line of the network file."""
    line, _ = line_and_column(net.text, net.places.offset(part, number, *way))
    return Finding(words, remedy, net.path, line, net.text.split("\n")[line - 1])


def box_named(net, number):
    box = net.boxes[number]
    return f"box {number}, `{box['name']}`, a {box['kind']}: " if box["kind"] != "aggregate" else f"box {number}, `{box['name']}`, an aggregate: "


def unused(net):
    """Yields sources, boxes and ports that nothing takes, or that lead to no output."""
    leading = {output["from"] for output in net.outputs}
    waiting = [net.givers[it] for it in leading]
    seen = set()
    while waiting:
        number = waiting.pop()
        if number is not None and number not in seen:
            seen.add(number)
            leading |= set(net.boxes[number]["in"])
            waiting += [net.givers[it] for it in net.boxes[number]["in"]]
    for number, source in enumerate(net.sources):
        if source["name"] not in leading:
            yield at(net, f"source {number}, `{source['name']}`: no output has anything of it", "It is read, and must be right, but changes nothing.", "source", number)
    for number, box in enumerate(net.boxes):
        if number not in seen:
            yield at(net, box_named(net, number) + "no output has anything of it", "What it does is done for nothing. Is an output missing, or the wrong stream named in an `in`?", "box", number)
        elif box["kind"] == "filter":
            yield from unused_ports(net, number, box, leading)


def unused_ports(net, number, box, leading):
    wheres, taken = box["where"], [it in leading for it in network.ports(box)]
    if len(wheres) > 1 and taken[0] and not any(taken[1:]):
        both = " and ".join(f"({it})" for it in wheres)
        words = f"only `{box['name']}.1` is taken, so what its {'other predicate asks' if len(wheres) == 2 else 'other predicates ask'} changes nothing"
        yield at(net, box_named(net, number) + words, f"Each predicate has a port of its own. What all of them are true of is one predicate: where = [\"{both}\"]", "box", number, "where")
        return
    for port, is_taken in enumerate(taken[:-1]):
        if not is_taken and not (len(wheres) == 1 and taken[-1]):
            words = f"`{box['name']}.{port + 1}` is taken by nothing: what the predicate `{wheres[port]}` takes is left out"
            yield at(net, box_named(net, number) + words, "That may be meant: a port may be for what shall go away.", "box", number, "where", port)


def scales_of(net):
    """Returns of each source which fields are told to be decimals times a power of ten, in the remarks before its table as aurora-stream writes them."""
    lines, found = net.text.split("\n"), []
    for number in range(len(net.sources)):
        line, scales = line_and_column(net.text, net.places.offset("source", number))[0] - 2, {}
        while line >= 0 and lines[line].startswith("#"):
            if told := SCALE.fullmatch(lines[line]):
                scales[told[1]] = int(told[2])
            line -= 1
        found.append(scales)
    return found


def scales(net):
    """Yields fields of one name that have another scale in one source than in another."""
    seen = {}
    for number, told in enumerate(scales_of(net)):
        source = net.sources[number]
        for field, kind in (it.split(":") for it in source["fields"]):
            scale = told.get(field, 1)
            first, before = seen.setdefault(field, (number, scale)) if kind == "int" else (number, scale)
            if scale != before:
                other, words = net.sources[first]["name"], [f"is times {it:,}" if it > 1 else "has no scale" for it in (scale, before)]
                yield at(net, f"source {number}, `{source['name']}`: `{field}` {words[0]}, and in `{other}` it {words[1]}",
                         f"Where the two meet they are no numbers of one unit: aurora-stream --decimals COLUMN={len(str(max(scale, before))) - 1} makes both tables alike.",
                         "source", number, "fields")


def expressions(net):
    """Yields each expression with its box's number, its place, its text, and its fields."""
    for number, box in enumerate(net.boxes):
        key = KEYS_OF_EXPRESSIONS.get(box["kind"])
        fields = net.taken_fields(box) if key else {}
        if key == "on":
            yield number, ("on",), box["on"], fields
        elif key:
            for item, it in enumerate(box[key]):
                yield (number, (key, item), it, fields) if key == "where" else (number, (key, item, 1), it[1], fields)


def nodes_of(node):
    yield node
    for side in node.sides:
        yield from nodes_of(side)


def questions(net):
    """Yields parts of expressions that are no error and rarely meant."""
    for number, way, text, fields in expressions(net):
        try:
            tree = expression.tree(text)
        except (IndexError, ValueError, RecursionError):
            continue
        for node in nodes_of(tree):
            for words, remedy in strange(node, text, fields):
                yield at(net, box_named(net, number) + words, remedy, "box", number, *way)
        leaves = {it.word for it in nodes_of(tree) if not it.sides}
        if way[0] != "set" and not any(it == "time" or it in fields for it in leaves) and text.strip() != "true":
            yield at(net, f"{box_named(net, number)}`{text}` names no field, so it is the same of each tuple", "", "box", number, *way)


def strange(node, text, fields):
    """Yields what is strange in one part of an expression."""
    if node.word not in expression.COMPARISONS or len(node.sides) != 2:
        return
    sides = [expression.part(text, it) for it in node.sides]
    if "null" in sides:
        other = sides[1 - sides.index("null")]
        asks = "is not null" if node.word == "<>" else "is null"
        yield f"`{expression.part(text, node)}` is Null of every tuple, and so never true", f"What is missing is asked for by: {other} {asks}"
    kinds = [expression.kind_of(it, fields, [], text) for it in node.sides]
    number = next((it for it in sides if re.fullmatch(r"'-?[0-9]+'", it)), None)
    if node.word in ORDERS and kinds == ["text", "text"] and number:
        yield f"`{expression.part(text, node)}` compares texts byte by byte: '10' is before '9'", "Declare the field as int, and write the number without quotes."
    if sides[0] == sides[1]:
        yield f"`{expression.part(text, node)}` has the same on both sides", ""


def gave_nothing(net, run):
    """Yields boxes that were fed something and gave nothing, and BSorts that left tuples out."""
    known = planning.streams_told(net, run)
    for number, box in enumerate(net.boxes):
        name, fed = box["name"], run.fed.get(box["name"])
        late = run.late.get(name, 0)
        if late:
            words = f"it left out {late:,} of {fed:,} tuples: they came too late for its slack of {box['slack']:,}, or `{box['by']}` is Null, negative or behind their tick"
            yield at(net, box_named(net, number) + words, "These are missing in all that is below it. A greater slack keeps what came too late; aurora-stream tells which suffices." if late < fed else "That is all of them.", "box", number, "slack")
        streams = network.ports(box)
        if not fed or late or any(it not in known for it in streams):
            continue
        if box["kind"] == "filter":
            for port, stream in enumerate(streams[:-1]):
                if known[stream] == 0:
                    yield at(net, f"{box_named(net, number)}`{box['where'][port]}` took none of the {fed:,} tuples that it was fed", "", "box", number, "where", port)
        elif box["kind"] == "resample" and keeps_times(net, box) and (why := apart(net, box)):
            yield at(net, f"{box_named(net, number)}nothing of `{box['in'][1]}` is near any tuple of `{box['in'][0]}`", why, "box", number)
        elif known[streams[0]] == 0:
            remedy = apart(net, box) if box["kind"] == "join" else ""
            yield at(net, f"{box_named(net, number)}it was fed {counted(fed, 'tuple')} and gave none", remedy, "box", number)


def ends_of(path):
    """Returns the first and the last tick of a stream file, or None of one that has none, or is no plain file."""
    if not os.path.isfile(path):
        return None
    with open(path, "rb") as file:
        size = os.fstat(file.fileno()).st_size
        begin = file.read(1 << 13)
        file.seek(max(0, size - (1 << 13)))
        lines = [it for part in (begin.removeprefix(b"\xef\xbb\xbf").split(b"\n")[:1 if size > 1 << 13 else None], file.read().split(b"\n")) for it in part if it.strip()]
    try:
        return planning.tick_of(lines[0]), planning.tick_of(lines[-1])
    except (IndexError, network.Unreadable):
        return None


def sources_above(net, stream):
    """Returns the sources that a stream comes from."""
    return {it for it in [stream, *(it for box in boxes_above(net, [stream]) for it in box["in"])] if net.givers[it] is None}


def boxes_above(net, streams):
    """Returns the boxes that streams come from."""
    above, waiting = {}, [net.givers[it] for it in streams]
    while waiting:
        number = waiting.pop()
        if number is not None and number not in above:
            above[number] = net.boxes[number]
            waiting += [net.givers[it] for it in above[number]["in"]]
    return above.values()


def keeps_times(net, box):
    """Says whether what a box takes has the times of its sources, so that their files tell which these are."""
    return not any(it["kind"] in ("bsort", "aggregate") for it in boxes_above(net, box["in"]))


def apart(net, box):
    """Returns in words that the ticks of the two sides of a Join or Resample are never near each other, where their files say so."""
    files = {it["name"]: it["file"] for it in net.sources}
    ranges = []
    for stream in box["in"]:
        ends = [ends_of(files[it]) for it in sources_above(net, stream)]
        if None in ends:
            return ""
        ranges.append((min(it for it, _ in ends), max(it for _, it in ends)))
    (low, high), (other_low, other_high) = ranges
    if other_low - high <= box["size"] and low - other_high <= box["size"]:
        return ""
    return (f"The ticks above `{box['in'][0]}` are {low:,} to {high:,}, and those above `{box['in'][1]}` {other_low:,} to {other_high:,}: none is within {box['size']:,} of another. "
            "Have they one unit, and one origin?")


def one_drop(net):
    """Yields outputs whose different weights decide nothing, since they are below one drop."""
    for number, drop in enumerate(net.drops):
        below = [net.outputs[it] for it in sorted(drop.outputs)]
        weights = [it.get("weight", 1) for it in below]
        if len(set(weights)) > 1:
            yield Finding(f"{listed([it['name'] for it in below])} are below drop {number}: they lose the same windows, and that their weights are {listed([str(it) for it in weights])} changes nothing",
                          "Outputs have drops of their own where their ways begin at sources of their own: name the file in two (the manual's part 17).")


def loads(net, capacities, run):
    """Yields why capacities change nothing, or less than is asked."""
    plain = all(os.path.isfile(it["file"]) for it in net.sources)
    if not plain:
        return
    counts, last = planning.counted(net)
    if not net.drops:
        kinds = sorted({it["kind"] for it in net.boxes} & {"bsort", "join", "resample"})
        yield Finding(f"there is no drop point in {net.path}, so nothing is dropped, whatever the capacity",
                      "A drop needs an Aggregate on each way to its outputs" + (f", and stands behind each {listed(kinds, 'or')}" if kinds else "") + " (the manual's part 8).")
    if last == 0 and counts:
        yield Finding(f"all tuples lie in epoch 0, which is {net.epoch:,} ticks long and is run without any limit", "Set `epoch` at the top of the network to many times a batch of windows, and to a part of the streams.")
    over = [(epoch, plan) for epoch, plan in planning.plans_of(net, capacities).items() if plan.capacity is not None and plan.load - planning.saved_by(plan) > plan.capacity]
    if over:
        epoch, plan = max(over, key=lambda it: it[1].load - it[1].capacity)
        yield Finding(f"{counted(len(over), 'epoch')} {'has' if len(over) == 1 else 'have'} more load than capacity, and nothing left to drop: epoch {epoch} has "
                      f"{plan.load:,}, of which all steps save {planning.saved_by(plan):,}, and may have {plan.capacity:,}", "The run isn't slower for it: aurora has no clock. A machine that is would fall behind.")
    if run and capacities and counts and not run.plans and net.drops and not over and last:
        _, load = planning.busiest(net, counts)
        yield Finding(f"no epoch is over its capacity: the busiest has a load of {load:,}", "So nothing was dropped.")


def hints(net, run, capacities):
    """Yields all hints on a network, on the text of its run where there is one, and on capacities."""
    yield from unused(net)
    yield from questions(net)
    yield from scales(net)
    if run:
        yield from gave_nothing(net, run)
    if capacities is not None:
        yield from one_drop(net)
        yield from loads(net, capacities, run)
