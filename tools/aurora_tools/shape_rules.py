"""The rules on the form of a network file, each as a function from a part to what it finds: words, a remedy, the way to the key."""
import re

from .finding import article, counted, listed, near
from .network import FIELD_KINDS, FUNCTIONS, KINDS, NAME, OPTIONAL, REQUIRED, WORDS, is_name, keys_of

TEXT, NUMBER, LIST = "a text, in double quotes", "a whole number, without quotes", "a list, in square brackets"
TABLES = "an array of tables, each headed by double brackets"
WANTED = {
    "version": NUMBER, "epoch": NUMBER, "batch": NUMBER, "cost": NUMBER, "slack": NUMBER,
    "size": NUMBER, "advance": NUMBER, "phase": NUMBER, "weight": NUMBER,
    "source": TABLES, "box": TABLES, "output": TABLES,
    "fields": LIST, "in": LIST, "selectivity": LIST, "where": LIST, "set": LIST, "group": LIST, "give": LIST, "graph": LIST,
    "name": TEXT, "file": TEXT, "kind": TEXT, "by": TEXT, "on": TEXT, "from": TEXT,
}
NAMED = "A name is 1 to 32 bytes: a lower-case letter, then lower-case letters, digits or `_`, and none of " + ", ".join(WORDS) + "."


def is_number(value):
    return isinstance(value, int) and not isinstance(value, bool)


def fits(value, wanted):
    if wanted is NUMBER:
        return is_number(value)
    if wanted is TABLES:
        return isinstance(value, list) and all(isinstance(it, dict) for it in value)
    return isinstance(value, str if wanted is TEXT else list)


def said(value):
    """Returns a value as a TOML file has it, as far as this is short."""
    text = str(value).lower() if isinstance(value, bool) else f'"{value}"' if isinstance(value, str) else str(value).replace("'", '"')
    return text if len(text) <= 60 else text[:57] + "..."


def version(network, *_):
    have = network.table.get("version")
    if have is not None:
        hint = "Write `version = 1`, or `version = 2` where an Aggregate has a `phase`."
        hint = "Write the number without quotes." if isinstance(have, str) else hint
        yield f"`version` is {said(have)}, and there are the versions 1 and 2", hint, ("version",)
        return
    lost = next(((part, number) for part in ("source", "box", "output") for number, it in enumerate(network.tables(part)) if "version" in it), None)
    if lost:
        words = f"`version` stands in {lost[0]} {lost[1]}, whose table begins above it"
        yield words, "Set it before the first line with brackets.", (lost, "version")
    else:
        yield "the file has no `version`", "Begin it with `version = 1`.", ()


def shape(network, part, number, _):
    """What of a table is missing, isn't known or is of another kind."""
    it = network.part(part, number)
    if part == "box" and "kind" not in it:
        yield no_kind(it)
        return
    if part == "box" and not isinstance(it["kind"], str):
        yield f"`kind` is {said(it['kind'])}, and must be {TEXT}", f"The kinds are {listed(KINDS)}.", ("kind",)
        return
    if part == "box" and it["kind"] not in KINDS:
        yield f"there is no box of the kind {said(it['kind'])}{near(str(it['kind']), KINDS)}", f"The kinds are {listed(KINDS)}.", ("kind",)
        return
    kind = it.get("kind")
    need, may = keys_of(kind) if part == "box" and kind else (REQUIRED[part], OPTIONAL[part])
    if network.table.get("version") == 1:
        may = tuple(key for key in may if key != "phase")
    yield from keys(it, need, may, "the top of the file" if part == "top" else article(kind) if kind else f"a table [[{part}]]")
    for key, value in it.items():
        if key in need + may and not fits(value, WANTED[key]):
            hint = f"Write [[{key}]] in place of [{key}]." if WANTED[key] is TABLES and isinstance(value, dict) else ""
            yield f"`{key}` is {said(value)}, and must be {WANTED[key]}", hint, (key,)
        elif key in need + may and isinstance(value, list) and WANTED[key] is LIST:
            yield from entries(key, value)
    yield from selectivity(it)


def no_kind(box):
    """Returns what is said of a box without a kind: which kind its other keys look like, as far as one is nearest."""
    known = REQUIRED["box"] + OPTIONAL["box"]
    wrong = next((key for key in box if key not in known and near("kind", [key])), None)
    if wrong:
        return f"the key `{wrong}` isn't known in a table [[box]] (is `kind` meant?)", f"The kinds are {listed(KINDS)}.", (wrong,)
    own = {key for key in box if key not in known}
    far = {kind: len(own - set(sum(keys_of(kind), ()))) + len(set(KINDS[kind]) - own) for kind in KINDS}
    nearest = [kind for kind in KINDS if far[kind] == min(far.values())]
    guess = f": its other keys are those of {article(nearest[0])}" if len(nearest) == 1 else ""
    return f"the key `kind` is missing{guess}", f"The kinds are {listed(KINDS)}.", ()


def keys(it, need, may, place):
    unknown = [key for key in it if key not in need + may]
    missing = [key for key in need if key not in it]
    for key in unknown:
        words = f"the key `{key}` isn't known {'at' if place.startswith('the top') else 'in'} {place}"
        if key == "phase":
            yield words + " of version 1", "Write `version = 2` at the top.", (key,)
            continue
        guess = near(key, missing) or near(key, need + may)
        if near(key, missing) and len(missing) == 1:
            missing = []
        elif len(unknown) == len(missing) == 1:
            words, guess, missing = words + f", and `{missing[0]}` is missing", "", []
        yield words + guess, f"Its keys are {listed(need + may)}.", (key,)
    for key in missing:
        hint = f"It is written with double brackets: [[{key}]]." if WANTED[key] is TABLES else ""
        yield f"the key `{key}` is missing: {place} must have it", hint, ()


def entries(key, value):
    """What is wrong with the entries of a list."""
    for at, entry in enumerate(value):
        if key in ("fields", "in", "where", "group") and not isinstance(entry, str):
            yield f"entry {at} of `{key}` is {said(entry)}, and must be a text, in double quotes", "", (key, at)
        elif key == "selectivity" and not is_number(entry):
            yield f"entry {at} of `selectivity` is {said(entry)}, and must be a whole number, in permille", "", (key, at)
        elif key == "set" and not (isinstance(entry, list) and len(entry) == 2 and all(isinstance(it, str) for it in entry)):
            yield f"entry {at} of `set` is {said(entry)}, and must be [\"name\", \"expression\"], both as texts", "", (key, at)
        elif key == "graph" and not (isinstance(entry, list) and len(entry) == 2 and all(is_number(it) for it in entry)):
            yield f"entry {at} of `graph` is {said(entry)}, and must be [x, y], two whole numbers", "", (key, at)
        elif key == "give":
            yield from given(at, entry)


def given(at, entry):
    form = "An entry is [\"name\", \"count\"] or [\"name\", \"function\", \"field\"]."
    if not isinstance(entry, list) or not all(isinstance(it, str) for it in entry) or len(entry) < 2:
        yield f"entry {at} of `give` is {said(entry)}, which is no list of two or three texts", form, ("give", at)
    elif entry[1] not in FUNCTIONS:
        yield f"there is no function `{entry[1]}`{near(entry[1], FUNCTIONS)}", f"The functions are {listed(FUNCTIONS)}. {form}", ("give", at, 1)
    elif entry[1] == "count" and len(entry) > 2:
        hint = "For the number of values that aren't Null put a Filter before it, as `where = [\"x is not null\"]`."
        yield "`count` takes no field: it counts tuples", hint, ("give", at)
    elif entry[1] != "count" and len(entry) != 3:
        yield f"`{entry[1]}` needs one field behind it", form, ("give", at)


def selectivity(box):
    kind, where, given = box.get("kind"), box.get("where"), box.get("selectivity")
    streams = 1 if kind in KINDS and kind != "filter" else len(where) + 1 if isinstance(where, list) else None
    if isinstance(given, list) and streams not in (None, len(given)):
        rest = f": one for each of its {len(where)} predicates, and one for the rest" if kind == "filter" else ""
        yield f"`selectivity` has {counted(len(given), 'number')}, and the box has {counted(streams, 'stream')}{rest}", "", ("selectivity",)


def between(it, key, least, most, path=()):
    if is_number(it) and not least <= it <= most:
        yield f"`{key}` is {it:,}, and must be {least:,} to {most:,}", "", (key, *path)


def long(it, key, least, most, words):
    if isinstance(it, (list, bytes)) and not least <= len(it) <= most:
        yield f"`{key}` has {counted(len(it), *words)}, and must have {least:,}" + ("" if least == most else f" to {most:,}"), "", (key,)


def limit(network, part, number, _):
    """Which numbers and lengths of a table are out of their limits."""
    it = network.part(part, number)
    yield from {"top": limit_top, "source": limit_source, "box": limit_box, "output": limit_output, "drop": limit_drop}[part](network, it, number)


def limit_top(network, it, _):
    for part, least, most in (("source", 1, 8), ("box", 0, 128), ("output", 1, 32)):
        if not least <= len(it.get(part, [])) <= most:
            hint = "Streams of the same fields may be put into one file, sorted by their ticks." if part == "source" else ""
            yield f"there are {len(it.get(part, []))} tables [[{part}]], and there must be {least} to {most}", hint, (part,)
    yield from between(it.get("epoch"), "epoch", 1, 1 << 34)
    yield from between(it.get("batch"), "batch", 1, 1_000_000)


def limit_source(_, it, __):
    yield from long(it["file"].encode(), "file", 1, 255, ("byte",))
    yield from long(it["fields"], "fields", 1, 16, ("field",))


def limit_box(_, it, __):
    kind = it["kind"]
    inputs = {"union": (1, 8), "join": (2, 2), "resample": (2, 2)}.get(kind, (1, 1))
    for found, hint, way in long(it["in"], "in", *inputs, ("stream",)):
        yield found, "Bring several streams of the same fields together by a Union." if kind not in ("union", "join", "resample") else hint, way
    yield from between(it.get("cost"), "cost", 0, 1000)
    for at, entry in enumerate(it.get("selectivity", [])):
        yield from between(entry, "selectivity", 0, 1_000_000, (at,))
    for key, most, words in (("where", 15, "predicate"), ("set", 16, "field"), ("give", 16, "function")):
        yield from long(it.get(key), key, 1, most, (words,))
    yield from long(it.get("group"), "group", 0, 16, ("field",))
    yield from between(it.get("slack"), "slack", 0, 10_000)
    if kind in ("join", "resample"):
        yield from between(it.get("size"), "size", 0, 1 << 32)
    for text, way in expressions(it):
        if not 1 <= len(text.encode()) <= 4096:
            yield f"the expression has {len(text.encode()):,} bytes, and must have 1 to 4,096", "", way


def limit_output(_, it, __):
    yield from between(it.get("weight"), "weight", 0, 1000)
    yield from long(it.get("graph"), "graph", 0, 1000, ("point",))


def limit_drop(network, _, number):
    drop = network.drops[number]
    where = f"drop {number} stands at the stream `{drop.stream}`; "
    below = [network.boxes[it] for it in drop.boxes]
    advances = "The advances are: " + listed(f"{box['name']} {box['advance']:,}" for box in below if box["kind"] == "aggregate") + "."
    way = (("box", network.arcs[min(drop.arcs)][1][1]),)
    if drop.length > 1 << 34:
        yield (f"{where}a batch of its windows has {drop.length:,} ticks, the least common multiple of advances times `batch`, "
               f"and may have {1 << 34:,} at most", f"Take advances that divide each other, or a smaller `batch`. {advances}", way)
    else:
        enough = -(-(drop.reach + 1) // (4096 * (drop.length // network.table.get("batch", 1))))
        words = f"{where}the Aggregates below reach back over {drop.reach + 1:,} ticks, and may over 4,096 batches of {counted(drop.length, 'tick')}"
        yield words, f"Take `batch = {enough}` or more, or greater advances. {advances}", way


def expressions(box):
    """Returns the expressions of a box, each with the way to it."""
    kind = box.get("kind")
    if kind == "filter":
        return [(text, ("where", at)) for at, text in enumerate(box["where"])]
    if kind == "map":
        return [(entry[1], ("set", at, 1)) for at, entry in enumerate(box["set"])]
    return [(box["on"], ("on",))] if kind == "join" else []


def no_name(network, part, number, _):
    name = network.part(part, number)["name"]
    yield f"{said(name)} is no name: {why_no_name(name)}", NAMED, ("name",)


def why_no_name(name):
    if not name:
        return "it is empty"
    if name in WORDS:
        return "it is a word of the language of expressions"
    if " " in name:
        return "it has a blank"
    if strange := re.search(r"[^a-z0-9_]", name):
        kind = "a capital letter" if strange[0].isupper() else "a dash: take `_`" if strange[0] == "-" else "no lower-case letter, digit or `_`"
        return f"`{strange[0]}` is {kind}"
    return f"it has {len(name)} bytes" if NAME.fullmatch(name[:32]) else "it doesn't begin with a lower-case letter"


def why_no_field(text):
    """Returns why an entry of `fields` has another form, and a remedy."""
    name, colon, kind = text.partition(":")
    if not colon:
        return "it has no kind behind a colon", f"Write `{text}:int`, `{text}:bool` or `{text}:text`." if is_name(text) else NAMED
    if text != text.replace(" ", ""):
        return "it has a blank", "Write it without blanks."
    if kind not in FIELD_KINDS:
        other = {"integer": "int", "number": "int", "boolean": "bool", "string": "text", "str": "text", "i64": "int"}.get(kind.lower(), None)
        fraction = kind.lower() in ("float", "double", "real", "decimal")
        hint = " Fractions are kept as whole numbers of a smaller unit, as tenths or cents." if fraction else ""
        guess = f" (is `{other}` meant?)" if other else near(kind, FIELD_KINDS)
        return f"there is no kind `{kind}`{guess}", f"The kinds are {listed(FIELD_KINDS)}.{hint}"
    return f"`{name}` is no name: {why_no_name(name)}", NAMED
