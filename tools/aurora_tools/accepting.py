"""Which networks the program accepts: its rules on network files, in its order, so that no tool goes on with one that it refuses."""
from . import expression, shape_rules
from .network import FIELD_KINDS, MOST_BATCHES_OF_A_REACH, MOST_TICKS_OF_A_BATCH, NUMBERS_OF, is_name, ports

MOST_WINDOW, MOST_WINDOWS = 1 << 32, 4096
MOST_FIELDS, MOST_POINTS = 16, 21


def refusal(network):
    """Returns the rule that a network breaks first, with its part and number, as the program names them; None where it is accepted."""
    for rule, broken in RULES:
        for part, number in parts_of(network) if rule != "Toml" else [("top", 0)]:
            if broken(network, part, number):
                return (rule,) if rule in ("Toml", "Version") else (rule, part, number)
    return refusal_of_boxes(network) or refusal_of_drops(network)


def parts_of(network):
    yield "top", 0
    for part in ("source", "box", "output"):
        for number in range(len(network.tables(part))):
            yield part, number


def no_toml(network, *_):
    try:
        network.bytes.decode()
    except UnicodeDecodeError:
        return True
    return bool(network.fault) or any(not -(1 << 63) <= it < 1 << 63 for it in numbers_in(network.table))


def numbers_in(value):
    """Yields all whole numbers of a document."""
    waiting = [value]
    while waiting:
        it = waiting.pop()
        if isinstance(it, (dict, list)):
            waiting += it.values() if isinstance(it, dict) else it
        elif shape_rules.is_number(it):
            yield it


def version(network, part, _):
    have = network.table.get("version")
    return part == "top" and not (shape_rules.is_number(have) and have in (1, 2))


def found_by(rule):
    """Returns whether a rule that looks for what is to be told finds anything."""
    return lambda network, part, number: next(iter(rule(network, part, number, 0)), None) is not None


def no_name(network, part, number):
    return part != "top" and not is_name(network.part(part, number)["name"])


def twice(network, part, number):
    if part == "top":
        return False
    before = [it["name"] for it in network.tables(part)[:number]] + [it["name"] for it in network.sources if part == "box"]
    return network.part(part, number)["name"] in before


def unknown(network, part, number):
    it = network.part(part, number)
    return any(stream not in network.givers for stream in (it["in"] if part == "box" else [it["from"]] if part == "output" else []))


def cycle(network, part, number):
    """Says whether a box takes, by way of others, what it gives itself."""
    if part != "box":
        return False
    seen, waiting = set(), [number]
    while waiting:
        for stream in network.boxes[waiting.pop()]["in"]:
            giver = network.givers[stream]
            if giver == number:
                return True
            if giver is not None and giver not in seen:
                seen.add(giver)
                waiting.append(giver)
    return False


def window(network, part, number):
    box = network.part(part, number)
    if part != "box" or box["kind"] != "aggregate":
        return False
    size, advance, phase = box["size"], box["advance"], box.get("phase", 0)
    return not (1 <= advance <= size <= MOST_WINDOW and size <= MOST_WINDOWS * advance and 0 <= phase < advance)


def graph(network, part, number):
    points = network.part(part, number).get("graph") if part == "output" else None
    if points is None:
        return False
    steps = list(zip(points, points[1:]))
    off = any(x % 50 or not 0 <= x <= 1000 or not 0 <= y <= 1_000_000 for x, y in points) or any(after[0] <= now[0] for now, after in steps)
    if len(points) > MOST_POINTS or off or len(points) < 2 or points[0][0] != 0 or points[-1][0] != 1000:
        return True
    slopes = [(after[0] - now[0], after[1] - now[1]) for now, after in steps]
    return any(high < 0 for _, high in slopes) or any(up * wide > before * far for (wide, before), (far, up) in zip(slopes, slopes[1:]))


def schema_of_source(network, part, number):
    if part != "source":
        return False
    fields = [it.partition(":") for it in network.sources[number]["fields"]]
    return any(not is_name(name) or kind not in FIELD_KINDS for name, _, kind in fields) or len({name for name, _, _ in fields}) < len(fields)


RULES = (
    ("Toml", no_toml), ("Version", version), ("Shape", found_by(shape_rules.shape)), ("Limit", found_by(shape_rules.limit)), ("NoName", no_name),
    ("Twice", twice), ("Unknown", unknown), ("Cycle", cycle), ("Window", window), ("Graph", graph), ("Schema", schema_of_source),
)


# ---- from here on box by box, each behind those that it takes from

def in_order(network):
    """Yields the numbers of the boxes, each behind those that it takes from, the least first of those that can follow."""
    done = {name for name, giver in network.givers.items() if giver is None}
    left = list(range(len(network.boxes)))
    while left:
        number = next(it for it in left if done.issuperset(network.boxes[it]["in"]))
        left.remove(number)
        done.update(ports(network.boxes[number]))
        yield number


def refusal_of_boxes(network):
    for number in in_order(network):
        box = network.boxes[number]
        taken = [network.fields(stream) for stream in box["in"]]
        rule = RULES_OF_KINDS.get(box["kind"], lambda *_: None)(box, taken)
        if rule:
            return rule, "box", number
    return None


def expressions(box, fields, is_wanted):
    """Returns the rule that an expression of a box breaks, over fields of these kinds."""
    for text, _ in shape_rules.expressions(box):
        try:
            expression.tree(text)
        except (ValueError, IndexError):
            return "Expr"
    for text, _ in shape_rules.expressions(box):
        kind, misfits = expression.checked(text, fields)
        if misfits or not is_wanted(kind):
            return "Typing"
    return None


def predicates(box, fields):
    return expressions(box, fields, lambda kind: kind in ("bool", "null"))


def are_names(names, others=()):
    """Says whether fields may have these names beside others that the tuples have."""
    return all(map(is_name, names)) and len(set(names)) == len(names) <= MOST_FIELDS - len(others) and not {*names} & {*others}


def of_map(box, taken):
    if not are_names([name for name, _ in box["set"]]):
        return "Schema"
    return expressions(box, taken[0], lambda kind: kind != "null")


def of_union(_, taken):
    return "Schema" if any(list(it.items()) != list(taken[0].items()) for it in taken) else None


def of_bsort(box, taken):
    return None if taken[0].get(box["by"]) == "int" else "Typing"


def functions(box, fields):
    """Returns the rule that the functions of a box break, over fields of these kinds."""
    for _, function, *field in box["give"]:
        if field and (field[0] not in fields or function in NUMBERS_OF and fields[field[0]] != "int"):
            return "Typing"
    return None


def of_aggregate(box, taken):
    group = box.get("group", [])
    if not are_names([it[0] for it in box["give"]], group):
        return "Schema"
    return functions(box, taken[0]) or ("Group" if len(set(group)) < len(group) or any(it not in taken[0] for it in group) else None)


def of_join(box, taken):
    fields = {f"l_{name}": kind for name, kind in taken[0].items()} | {f"r_{name}": kind for name, kind in taken[1].items()}
    return "Schema" if len(fields) > MOST_FIELDS else predicates(box, fields)


def of_resample(box, taken):
    names = [f"l_{it}" for it in taken[0]]
    return functions(box, taken[1]) if are_names([it[0] for it in box["give"]], names) else "Schema"


RULES_OF_KINDS = {
    "filter": lambda box, taken: predicates(box, taken[0]), "map": of_map, "union": of_union, "bsort": of_bsort, "aggregate": of_aggregate, "join": of_join,
    "resample": of_resample,
}


def refusal_of_drops(network):
    for number, drop in enumerate(network.drops):
        if drop.length > MOST_TICKS_OF_A_BATCH or drop.reach + 1 > MOST_BATCHES_OF_A_REACH * drop.length:
            return "Limit", "drop", number
    return None
