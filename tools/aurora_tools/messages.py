"""The messages of `aurora run` and `aurora tap`: which file each is about, and what is found out there."""
import os
import re

from . import line_rules, meaning_rules, shape_rules
from .finding import Finding, article, near
from .front import clean
from .network import KINDS, TOO_WIDE, Network, Unreadable
from .places import VALUE, line_and_column
from .run_words import Words
from .tap_rules import TapWords, tap_finding

RULES = {
    "Version": shape_rules.version, "Shape": shape_rules.shape, "Limit": shape_rules.limit, "NoName": shape_rules.no_name,
    "Twice": meaning_rules.twice, "Unknown": meaning_rules.unknown, "Cycle": meaning_rules.cycle, "Window": meaning_rules.window,
    "Graph": meaning_rules.graph, "Schema": meaning_rules.schema, "Expr": meaning_rules.unreadable, "Typing": meaning_rules.typing,
    "Group": meaning_rules.group,
}
HEADINGS = "Each source, box and output has a heading with double brackets: [[source]], [[box]], [[output]]."
BEGINNING = "What was written is the beginning of each output's lines."
TOML_FAULTS = (
    (r"Illegal character '\\n'|Unterminated string|Expected \"'\"", "a text isn't closed on its line", "It ends with the quote that it began with."),
    (r"Invalid value", "no value begins here", "Texts stand in double quotes, lists in square brackets, true and false are in small letters."),
    (r"Cannot overwrite a value", "this key stands twice in its table", "Each table has a key once: is a line with [[box]] missing before it?"),
    (r"Cannot declare|Cannot mutate|namespace", "this table can't stand here", HEADINGS),
    (r"Expected '\]", "a heading isn't closed", "A table of an array has double brackets on both sides, as [[box]]."),
    (r"Expected '='", "a key is followed by =", ""),
    (r"Unclosed array", "a list isn't closed", "It ends with a square bracket; between its entries stand commas."),
    (r"Expected newline or end of document", "something stands behind the end of a value",
     "Each key has a line of its own; a text in a list stands in quotes."),
    (r"Invalid initial character for a key part|Invalid statement", "no key begins here", "A line is KEY = VALUE, or a heading as [[box]]."),
    (r"Unescaped '\\\\'", "a backslash in double quotes begins an escape", "Write it twice, or take single quotes round the text."),
)
FROM_HERE = "Names are looked for from the folder where the program is run."
FIXED = {
    "spill disk failed": "The spill file aurora.spill, in the folder where the program was run, couldn't be made, written or read. Is something of "
                         "that name there already, is the folder not to be written, or the disk full? More memory by --frames spills less. " + BEGINNING,
    "output failed": "Standard output took no more: the disk is full, or the program that read it ended before, as `head` does. " + BEGINNING,
    "too many tuples": "More tuples and marks would be fed than are counted, 2^62.",
    "out of memory": "A run keeps its whole streams in memory, and open windows, slack and Joins beside them. "
                     "Cut the streams, or make windows and sizes smaller. " + BEGINNING,
}


class ReadOnce(Exception):
    """A file that can't be read again, since it is none: a pipe, or a device."""


def again(path, what):
    """Returns a path of what the program read, where it is a file that can be read a second time."""
    if os.path.exists(path) and not os.path.isfile(path):
        raise ReadOnce(f"{what} came from {path}, which is no file and can't be read again")
    return path


def network_of(given):
    return Network(again(given.nets[0], "the network"))


def told_names(words):
    """Returns the names of files that a message of a run with these words may have."""
    given = TapWords(words[1:]) if words[:1] == ["tap"] else Words(words)
    names = [*given.nets, *given.options.values(), *words]
    for path in filter(os.path.isfile, given.nets):
        names += [it["file"] for it in Network(path).sources if isinstance(it.get("file"), str)]
    return names


HEADS = ("aurora: cannot read ", "aurora: file too long: ")


def messages_in(words, text, is_of_one_run=False):
    """Cuts what was told into messages. Names of files are told as they are, so one with line feeds makes a message of several lines; a run tells one."""
    if is_of_one_run and text.startswith(HEADS):
        yield text
        return
    try:
        wide = sorted({it for it in told_names(words) if "\n" in it}, key=len, reverse=True)
    except (OSError, ValueError, Unreadable):
        wide = []
    while text:
        found = next((it for it in (f"{head}{name}\n" for head in HEADS for name in wide) if text.startswith(it)), text[:text.find("\n") + 1] or text)
        yield found.removesuffix("\n")
        text = text[len(found):]


def findings(words, message):
    """Yields what is found out of a message of a run with these words, or of a tap where the first is `tap`."""
    given = TapWords(words[1:]) if words[:1] == ["tap"] else Words(words)
    said = message.removeprefix("aurora: ")
    if said.startswith("usage: "):
        for fault in given.faults:
            yield Finding(fault)
    elif match := re.fullmatch(r"network: (\w+)(?: (\w+) (\d+) (\d+))?((?: \S+)*)", said):
        yield from of_network(network_of(given), match)
    elif match := re.fullmatch(r"query: (\w+)(?: (\w+) (\d+) (\d+))?((?: \S+)*)", said):
        yield from of_network(Network(again(given.query, "the query")), match)
    elif match := re.fullmatch(r"tap: (\w+)", said):
        yield tap_finding(given, match[1])
    elif match := re.fullmatch(r"(capacities|picks): line (\d+)", said):
        rule = line_rules.capacities_finding if match[1] == "capacities" else line_rules.picks_finding
        yield rule(again(given.options[f"--{match[1]}"], f"the file of --{match[1]}"), int(match[2]))
    elif match := re.fullmatch(r"stream (\w+): line (\d+): (\w+)", said):
        yield line_rules.stream_finding(network_of(given), match[1], int(match[2]), match[3])
    elif match := re.fullmatch(r"(cannot read|file too long:) (.*)", said, re.DOTALL):
        yield unread(match[2], given) if match[1] == "cannot read" else too_long(match[2], given)
    elif said in FIXED:
        yield Finding(FIXED[said])
    elif re.match(r"page \d+ |arc \d+: ", said):
        yield Finding("The spill file came back with other bytes than were put into it. Test the disk, and run again. " + BEGINNING)


def of_network(network, match):
    """Yields what is found of a rule of network files."""
    rule, part, number, item = match[1], match[2] or "top", int(match[3] or 0), int(match[4] or 0)
    if rule == "Toml":
        yield toml_finding(network)
        return
    for words, remedy, way, *place in RULES[rule](network, part, number, item, *match[5].split()):
        there, path = (way[0], way[1:]) if way and isinstance(way[0], tuple) else (("", 0) if part == "top" else (part, number), way)
        start = network.places.offset(*there, *path, *([VALUE] if place else []))
        offset = start + (place_in_text(network.text, start, network.part(part, number), way, place[0]) if place else 0)
        line, column = line_and_column(network.text, offset)
        text = network.text.split("\n")[line - 1]
        shown = Finding(titled(network, part, number) + words, remedy, network.path, line, text, column if len(path) > 1 or place else None)
        if place and place[0] and offset == start:
            shown.words += f" (behind `{text_at(network.part(part, number), way)[:place[0]]}`)"
        if part == "top" and not way:
            shown.line, shown.text, shown.column = 0, None, None
        yield shown


def text_at(it, way):
    for step in way:
        it = it[step]
    return it


def place_in_text(text, offset, it, way, place):
    """Returns how far a place in an expression is from the offset of its quotes, where it stands in the file as it is."""
    expression = text_at(it, way)
    return place + 1 if text.startswith(expression, offset + 1) else 0


def titled(network, part, number):
    it = network.part(part, number)
    name, kind = it.get("name"), it.get("kind")
    if part in ("top", "drop"):
        return ""
    named = f", `{name}`" if isinstance(name, str) else ""
    return f"{part} {number}{named}" + (f", {article(kind)}" if isinstance(kind, str) and kind in KINDS else "") + ": "


def toml_finding(network):
    try:
        network.bytes.decode()
    except UnicodeDecodeError as fault:
        line = network.bytes.count(b"\n", 0, fault.start) + 1
        words = f"the byte {network.bytes[fault.start]:02X} is no UTF-8"
        if network.bytes[:2] in (b"\xff\xfe", b"\xfe\xff"):
            return Finding("the file is UTF-16", "It is mended by: iconv -f UTF-16 -t UTF-8", network.path, 1)
        return Finding(words, "A file of another code is mended by: iconv -f LATIN1 -t UTF-8", network.path, line)
    if network.fault in (None, TOO_WIDE):
        wide = re.search(r"\b[0-9][0-9_]{18,}\b", network.text)
        line, column = line_and_column(network.text, wide.start()) if wide else (0, None)
        text = network.text.split("\n")[line - 1] if wide else None
        return Finding(TOO_WIDE if wide else "this is no TOML document", "", network.path, line, text, column)
    place = re.search(r" \(at (?:line (\d+), column (\d+)|(end of document))\)", network.fault)
    lines = network.text.rstrip("\n").split("\n")
    line = int(place[1]) if place and place[1] else len(lines)
    column = min(int(place[2]) - 1, len(lines[line - 1])) if place and place[2] else None
    for pattern, words, remedy in TOML_FAULTS:
        if re.search(pattern, network.fault):
            words, remedy = of_this_line(words, remedy, lines, line)
            return Finding(f"this is no TOML: {words}", remedy, network.path, line, lines[line - 1], column)
    return Finding(f"this is no TOML: {network.fault}", "", network.path, line, lines[line - 1], column)


def of_this_line(words, remedy, lines, line):
    """Returns what is said of a fault of TOML, nearer to what stands in its line."""
    heading, entry = lines[line - 1].lstrip().startswith("["), re.search(r"[\",']", lines[line - 1])
    if "heading" in words and entry:
        return "no list goes on here: the one above ended already", "Look for a bracket too many in the lines above."
    if "twice" in words and heading:
        return "there is a table of this name with single brackets", HEADINGS
    return words + (stood_before(lines, line) if "twice" in words else ""), remedy


def stood_before(lines, line):
    """Returns where the key of a line stood before in its table."""
    key = lines[line - 1].partition("=")[0].strip()
    for at in range(line - 1, 0, -1):
        if re.match(r"\s*\[+\s*\w+\s*\]", lines[at - 1]):
            break
        if lines[at - 1].partition("=")[0].strip() == key:
            return f", first in line {at}"
    return ""


def who_names(name, given):
    """Returns the line of the network file that names a file, and who names it, as far as these are known."""
    if name in given.nets:
        return "", 0, None, "the network file " if name == given.nets[0] else "the query's file "
    if given.text and name == given.text:
        return "", 0, None, "the text "
    for option, value in given.options.items():
        if value == name:
            return "", 0, None, f"the file of `{option}`, "
    network = network_of(given)
    number = next((at for at, source in enumerate(network.sources) if source.get("file") == name), None)
    if number is None:
        return "", 0, None, "the file "
    line = network.places.line(network.places.offset("source", number, "file"))
    return network.path, line, network.text.split("\n")[line - 1], f"source {number}, `{network.sources[number].get('name')}`: its file "


def unread(name, given):
    path, line, text, who = who_names(name, given)
    folder = os.path.dirname(name) or "."
    beside = os.path.join(os.path.dirname(given.nets[0]) if given.nets else "", name)
    remedy = ""
    if os.path.isdir(name):
        words = f"{who}{name} is a folder"
    elif os.path.exists(name):
        words = f"{who}{name} can't be opened, or reading it failed"
        remedy = "May this user read it? `ls -l` tells."
    elif not os.path.isdir(folder):
        words = f"{who}{name} isn't there, and neither is its folder {folder}"
    else:
        words = f"{who}{name} isn't there" + near(os.path.basename(name), os.listdir(folder))
    if not os.path.exists(name) and given.nets and name != given.nets[0] and os.path.exists(beside):
        remedy = f"It lies beside the network file. {FROM_HERE} Go there first: cd {os.path.dirname(given.nets[0])}"
    elif not os.path.exists(name):
        remedy = FROM_HERE
    return Finding(words, remedy, path, line, text)


def too_long(name, given):
    path, line, text, who = who_names(name, given)
    limit = 67_108_864 if line else 268_435_456 if name == given.text else 1_048_576
    have = f" has {os.path.getsize(name):,} bytes, and" if os.path.isfile(name) else ""
    return Finding(f"{who}{name}{have} may have {limit:,} bytes", line_rules.IN_PARTS if line else "", path, line, text)


def explained(words, message):
    """Returns a message and the lines below it."""
    message = message.removesuffix("\n")
    try:
        below = [line for found in findings(words, message) for line in found.lines()]
    except ReadOnce as why:
        below = list(Finding(str(why), "Keep it in a file, and run again.").lines())
    except (KeyError, IndexError, TypeError, AttributeError, ValueError, StopIteration, OSError, RecursionError, Unreadable):
        below = []
    if not below and message.startswith("aurora: "):
        below = ["  nothing more is found out: the manual's parts 9 to 11 have this message"]
    return "\n".join([clean(message), *below]) + "\n"
