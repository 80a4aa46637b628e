"""The rules on what a network file means, each as a function from a part to what it finds: words, a remedy, the way to the key."""
import re

from . import expression
from .finding import counted, listed, near, shown_fields, told_fields
from .network import is_name
from .shape_rules import NAMED, expressions, said, why_no_field, why_no_name

STEP = "Each x is a multiple of 50 from 0 to 1000 and greater than the one before; each y is 0 to 1,000,000."


def twice(network, part, number, _):
    name = network.part(part, number)["name"]
    spaces = ("output",) if part == "output" else ("source", "box")
    before = next((space, at) for space in spaces for at, it in enumerate(network.tables(space)) if it["name"] == name)
    line = network.places.line(network.places.offset(*before, "name"))
    rest = ", and sources and boxes share one space of names" if part == "box" and before[0] == "source" else ""
    words = f"the name `{name}` stood before, as that of {before[0]} {before[1]} in line {line}{rest}"
    yield words, "Take another name here, and where this stream is taken.", ("name",)


def unknown(network, part, number, item):
    it = network.part(part, number)
    name, way = (it["in"][item], ("in", item)) if part == "box" else (it["from"], ("from",))
    streams = list(network.givers)
    own = [stream for stream in streams if "." in stream and stream.rpartition(".")[0] == name.partition(".")[0]]
    if own:
        words = f"there is no stream `{name}`: this Filter has the streams {listed(own)}"
        yield words, f"`{own[-1]}` is what no predicate takes; `{own[0]}` is what the first one takes.", way
    elif "." in name and name.partition(".")[0] in streams:
        yield f"there is no stream `{name}`: only Filters have numbered streams", f"Take `{name.partition('.')[0]}`.", way
    elif any(output["name"] == name for output in network.outputs):
        yield f"`{name}` is an output, and no stream{near(name, streams)}", f"The streams are {listed(streams)}.", way
    else:
        yield f"there is no stream `{name}`{near(name, streams)}", f"The streams are {listed(streams)}.", way


def cycle(network, _, number, __):
    way = way_round(network, number)
    names = [network.boxes[it]["name"] for it in way]
    if len(way) == 1:
        yield f"the box takes its own stream, `{names[0]}`", "A box takes what sources and other boxes give.", ("in",)
    else:
        words = f"what it takes comes of what it gives, by way of {' <- '.join([*names, names[0]])}"
        yield words, "Take one of these streams from elsewhere: a network has no cycle.", ("in",)


def way_round(network, start):
    """Returns the boxes of a shortest way from a box back to itself, each taking from the next."""
    taken = {at: [network.givers[stream] for stream in box["in"] if network.givers[stream] is not None] for at, box in enumerate(network.boxes)}
    ways, seen = [[start]], set()
    while ways:
        way = ways.pop(0)
        for giver in taken[way[-1]]:
            if giver == start:
                return way
            if giver not in seen:
                seen.add(giver)
                ways.append([*way, giver])
    return [start]


def window(network, _, number, __):
    box = network.boxes[number]
    size, advance, phase = box["size"], box["advance"], box.get("phase", 0)
    if advance < 1:
        yield f"`advance` is {advance}, and must be 1 or more", "", ("advance",)
    elif advance > size:
        words = f"`advance` is {advance:,} and greater than `size`, which is {size:,}: tuples between two windows would be in none"
        yield words, "Take an `advance` of at most `size`.", ("advance",)
    elif size > 1 << 32:
        yield f"`size` is {size:,}, and must be {1 << 32:,} at most", "", ("size",)
    elif size > 4096 * advance:
        words = f"`size` is {size:,}, which is over 4,096 times `advance`, {advance:,}"
        yield words, f"Take an `advance` of {-(-size // 4096):,} or more.", ("size",)
    else:
        words = f"`phase` is {phase:,}, and must be 0 to {advance - 1:,}, below `advance`"
        yield words, f"`phase = {phase % advance}` has the same windows, and those that begin before them.", ("phase",)


def graph(network, _, number, __, why=""):
    points = network.outputs[number]["graph"]
    if why == "TooMany":
        yield f"the graph has {len(points)} points, and may have 21", "", ("graph",)
    elif why == "Grid":
        yield from off_the_grid(points)
    elif why == "Ends":
        at = 0 if not points or points[0][0] != 0 else len(points) - 1
        said_points = f"it begins at {points[0]} and ends at {points[-1]}" if points else "it has no point"
        yield f"a graph has two points or more, the first at x = 0 and the last at x = 1000; {said_points}", "", ("graph", at)
    elif why == "Falls":
        at = next(at for at in range(1, len(points)) if points[at][1] < points[at - 1][1])
        yield f"the worth falls from {points[at - 1]} to {points[at]}: who is shown more has no less", "", ("graph", at)
    else:
        steep = [(after[1] - now[1]) / (after[0] - now[0]) for now, after in zip(points, points[1:])]
        at = next(at for at in range(1, len(steep)) if steep[at] > steep[at - 1])
        words = f"the line from {points[at]} to {points[at + 1]} rises by {steep[at]:g} a permille, more steeply than the line before it"
        words += f", which rises by {steep[at - 1]:g}"
        yield words, "Each further part of the tuples is worth at most as much as the part before it.", ("graph", at + 1)


def off_the_grid(points):
    before = -1
    for at, (x, y) in enumerate(points):
        if x % 50 or not 0 <= x <= 1000:
            yield f"the x of the point {[x, y]} is no multiple of 50 from 0 to 1000", STEP, ("graph", at, 0)
        elif x <= before:
            yield f"the x of the point {[x, y]} isn't greater than the one before, {before}", STEP, ("graph", at, 0)
        elif not 0 <= y <= 1_000_000:
            yield f"the y of the point {[x, y]} is out of 0 to 1,000,000", STEP, ("graph", at, 1)
        else:
            before = x
            continue
        return


def schema(network, part, number, item):
    it = network.part(part, number)
    if part == "source":
        field = it["fields"][item]
        names = [one.partition(":")[0] for one in it["fields"][:item]]
        if field.partition(":")[0] in names and field.count(":") == 1:
            yield f"the field `{field.partition(':')[0]}` stood before in this source", "Take another name for one of the two.", ("fields", item)
        else:
            why, hint = why_no_field(field)
            yield f"entry {item} of `fields` is `{field}`, and must be of the form name:int: {why}", hint, ("fields", item)
    elif it["kind"] == "union":
        first, other = network.fields(it["in"][0]), network.fields(it["in"][item])
        words = f"a Union takes streams of the same fields: `{it['in'][0]}` has {shown_fields(first)}, and "
        words += f"`{it['in'][item]}` has {shown_fields(other)}"
        yield words, "Put a Map before it that gives the same names, kinds and order.", ("in", item)
    else:
        yield from names_of_fields(network, it, item)


def names_of_fields(network, box, item):
    """What is wrong with the names that a Map, Aggregate, Join or Resample gives its fields."""
    key = "set" if box["kind"] == "map" else "give"
    names = [entry[0] for entry in box.get(key, [])]
    before = box.get("group", [])
    if box["kind"] == "resample":
        before = [f"l_{it}" for it in network.fields(box["in"][0])]
    name = names[item] if item < len(names) else None
    if name is not None and not is_name(name):
        yield f"{said(name)} is no name for a field: {why_no_name(name)}", NAMED, (key, item, 0)
    elif name in names[:item]:
        yield f"the name `{name}` stood before in `{key}`", "Take another name for one of the two.", (key, item, 0)
    elif name in before:
        rest = "stands in `group`, whose fields are given too" if box["kind"] == "aggregate" else "is that of a field of the left stream"
        yield f"the name `{name}` {rest}", "Take another name.", (key, item, 0)
    else:
        count = len(before) + len(names) if key in box else sum(len(network.fields(it)) for it in box["in"])
        hint = "Leave out what isn't needed" + (", by a Map before it." if box["kind"] in ("join", "resample") else ".")
        yield f"its tuples would have {count} fields, and may have 16", hint, ("in",)


def unreadable(network, _, number, item, at="0", what=""):
    """An expression that can't be read. Its third answer is a way, and the fourth the byte in the text there."""
    text, way = expressions(network.boxes[number])[item]
    place = len(text.encode()[:int(at)].decode(errors="replace"))
    reason, hint = why_unreadable(text, place, what)
    yield f"the expression can't be read at byte {at}: {reason}", hint, way, place


# What other languages have, and what stands for it here, by the word before the fault or behind it.
ELSEWHERE = {
    "in": "There is no list of values: write `a = 1 or a = 2`.",
    "like": "There are no patterns: texts are compared whole, by = and the other comparisons.",
    "between": "Write both bounds: `a >= 1 and a <= 5`.",
    "case": "There is no choice in an expression: a Filter parts the tuples, a Map behind each port sets its value, and a Union brings them together.",
    "if": "There is no choice in an expression: a Filter parts the tuples, a Map behind each port sets its value, and a Union brings them together.",
    "coalesce": "A Filter parts what `is null` from the rest; a Map behind each port sets its value, and a Union brings them together.",
    "ifnull": "A Filter parts what `is null` from the rest; a Map behind each port sets its value, and a Union brings them together.",
    "abs": "There are no functions: a Filter by `a < 0`, a Map with `0 - a` behind it, and a Union.",
    "where": "An expression is what stands behind WHERE in SQL, alone.",
    "select": "An expression is what stands behind WHERE in SQL, alone.",
}
ELSEWHERE |= {"when": ELSEWHERE["case"], "then": ELSEWHERE["case"], "else": ELSEWHERE["case"], "ilike": ELSEWHERE["like"], "matches": ELSEWHERE["like"], "nvl": ELSEWHERE["ifnull"]}
TOGETHER = "Texts can't be put together: keep each in a field of its own."
ELSEWHERE |= {"concat": TOGETHER} | dict.fromkeys(("substr", "substring", "upper", "lower", "trim"), "Texts can't be cut or changed: do it before, where the stream is made.")
# The same behind a `not`.
DENIED = ELSEWHERE | {"in": "There is no list of values: write `a <> 1 and a <> 2`.", "between": "Write both bounds: `a < 1 or a > 5`.", "null": "Write `a is not null`."}


def why_unreadable(text, at, what):
    here, rest = text[at:at + 1], text[at:]
    if what == "BadToken":
        return bad_token(text, at)
    if what == "Wide":
        return "the number is over 9223372036854775807", "The least number is written -9223372036854775807 - 1."
    if what == "EmptyText":
        return "there is no empty text", "An empty field of a stream is Null: ask by `is null`."
    if what == "Depth":
        return "65 of `(`, `not` and `-` are open here, and 64 may be", "Put a part of it into a Map before the box."
    before = [word for word, start in expression.tokens(text) if start < at]
    last = before[-1] if before else ""
    if last == "=" and rest.startswith("="):
        return "the equals sign stands twice", "Write one: `=` compares."
    if before[-2:] == ["is", "not"] or last == "is":
        return "`is` asks for Null alone", "Write `is null` or `is not null`; values are compared by `=`."
    if rest.startswith("not ") and last in (*expression.COMPARISONS, "+", "-", "*", "/", "%"):
        return f"`not` binds less than `{last}`", "Put it in parentheses: (not a)."
    if not last or last in ("and", "or", "not", "(") or not (last[-1].isalnum() or last[-1] in "_')"):
        return f"{'here' if here else 'where it ends'} a value must stand: a number, a text in single quotes, a field, or a part in parentheses", ""
    if not here:
        return f"it ends, and {counted(before.count('(') - before.count(')'), 'parenthesis is', 'parentheses are')} open", "Close by `)`."
    if rest.startswith("is "):
        return "behind a comparison `is` needs parentheses", "Write `(a = b) is null`."
    if any(rest.startswith(it) for it in expression.COMPARISONS):
        return "comparisons don't chain", "Write `a < b and b < c`."
    guess = near(last, ("and", "or", "not", "is")) if last.isalpha() else ""
    words = f"an operator must stand between `{last}` and `{rest.split()[0]}`, or the expression ends{guess}"
    behind = [it.partition("(")[0] for it in rest.split()]
    remedy = DENIED.get(behind[1], "") if behind[0] == "not" and len(behind) > 1 else next((ELSEWHERE[it] for it in (last, behind[0]) if it in ELSEWHERE), "")
    return words, remedy or "There are no functions: operators are + - * / %, comparisons, and, or, not, is null."


def bad_token(text, at):
    here, two = text[at], text[at:at + 2]
    if two == "||" and ("'" in text[at + 2:].lstrip()[:1] or text[:at].rstrip().endswith("'")):
        return "there is no `||`", TOGETHER
    if here in "?~" or two == "!~":
        return f"the language of expressions has no `{two if here == '!' else here}`", ELSEWHERE["case" if here == "?" else "like"]
    for sign, instead in (("!=", "<>"), ("&&", "and"), ("||", "or"), ("!", "not"), ("&", "and"), ("|", "or")):
        if two.startswith(sign):
            return f"there is no `{sign}`", f"Write `{instead}`."
    if here == "'":
        if text.find("'", at + 1) > 0:
            return "the text has more than 255 bytes", ""
        return "the text isn't closed", "It ends with a single quote; a quote in it is written twice."
    if here == '"':
        meant = re.match(r'"([^"\']+)"', text[at:])
        return "a text in an expression stands in single quotes", f"Write '{meant[1] if meant else 'so'}'."
    named = re.search(r"([a-z][a-z0-9_]*)\.$", text[:at + 1]), re.match(r"\.([a-z][a-z0-9_]*)", text[at:])
    if here == "." and all(named):
        stream, field = named[0][1], named[1][1]
        return f"a field has no stream's name before it, as `{stream}.{field}`", f"Its name is `{field}`; in a Join the fields of the first stream begin with l_ and those of the second with r_: l_{field}, r_{field}."
    if here == ".":
        return "there are no fractions, and no names with a point", "Numbers are whole: compare in a smaller unit, as tenths or cents."
    if here.isupper():
        return f"`{here}` is a capital letter", "Names and words are in small letters; a text stands in single quotes."
    if here in "\t\n\r":
        return "it has a tab or a line's end", "Between tokens stand blanks alone."
    if re.search(r"[0-9]$", text[:at]) and re.match(r"[_,'][0-9]", text[at:]):
        return f"a number has no `{here}`", "No sign stands between thousands."
    return f"the language of expressions has no `{here}`", "A text stands in single quotes."


def typing(network, _, number, item):
    box = network.boxes[number]
    fields = network.taken_fields(box)
    have = told_fields(fields)
    if box["kind"] in ("filter", "map", "join"):
        yield from mistyped(box, item, fields, have)
        return
    field, way = (box["by"], ("by",)) if box["kind"] == "bsort" else (box["give"][item][2], ("give", item, 2))
    if field not in fields:
        yield f"there is no field `{field}`{near(field, fields)}", have, way
    else:
        who = "`by`" if box["kind"] == "bsort" else f"`{box['give'][item][1]}`"
        yield f"{who} is for numbers, and `{field}` is of the kind {fields[field]}", have, way


def mistyped(box, item, fields, have):
    """What doesn't fit in an expression. Its third answer is a way, and the fourth the place in the text there."""
    text, way = expressions(box)[item]
    kind, misfits = expression.checked(text, fields)
    added = [it for it in misfits if it.words.startswith("`+` ") and it.words.endswith(" text")]
    for misfit in misfits:
        sides = [side for side in (f"l_{misfit.field}", f"r_{misfit.field}") if side in fields]
        guess = f" (is {listed([f'`{side}`' for side in sides], 'or')} meant?)" if sides else near(misfit.field, fields) if misfit.field else ""
        remedy = TOGETHER if len(added) > 1 and misfit in added else own_field(box, item, misfit.field) or have + text_meant(text, misfit.field, guess)
        yield misfit.words + guess, remedy, way, misfit.at
    if not misfits and box["kind"] == "map":
        yield "the bare `null` has no kind", "Leave the field out, or compute a Null of a kind: `null + 0` is a number.", way, 0
    elif not misfits:
        hint = "Compare it, as by `<> 0`." if kind == "int" else "Compare it, as by `= 'so'`."
        yield f"the predicate `{text}` is of the kind {kind}, and must be a boolean", f"{hint} {have}", way, 0


def own_field(box, item, field):
    """Returns what to do about a field that the same Map sets."""
    if box["kind"] == "map" and any(name == field for name, _ in box["set"]):
        return f"`{field}` is set by this Map, whose expressions see what comes in: what is made of `{field}` goes into a second Map behind it."
    return ""


def text_meant(text, field, guess):
    """Returns a remark where the only word of an expression, or one side of a comparison, may be meant as a text."""
    alone = field and (text.strip() == field or re.search(rf"(?:=|<>)\s*{field}\s*$", text))
    return f" A text stands in single quotes: '{field}'." if alone and not guess else ""


def group(network, _, number, item):
    box = network.boxes[number]
    field, fields = box["group"][item], network.taken_fields(box)
    if field in fields:
        yield f"the field `{field}` stood before in `group`", "Leave one of the two out.", ("group", item)
    else:
        yield f"there is no field `{field}` to group by{near(field, fields)}", told_fields(fields), ("group", item)
