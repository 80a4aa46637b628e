"""The rules on the lines of streams, capacity and picks files: what of a line breaks a rule, and what to do."""
import os
import re

from .finding import Finding, counted, listed, shown_fields

MOST_TICK = 1 << 40
QUOTED = re.compile(rb'(?:[^"]++|"")*+')
QUOTED_WHOLE = re.compile(rb'"(?:[^"]++|"")*+"(?=,|$)')
WHOLE = re.compile(rb"-?[0-9]{1,19}")


PACKED = "Unpack it before; aurora-stream unpacks tables by itself."
OTHER_FORMS = (
    (b"\x1f\x8b", "packed by gzip", PACKED), (b"\x28\xb5\x2f\xfd", "packed by zstd", PACKED), (b"BZh", "packed by bzip2", PACKED), (b"\xfd7zXZ", "packed by xz", PACKED),
    (b"PK\x03\x04", "a zip or a spreadsheet", "Unpack it, or save it as CSV."), (b"PAR1", "Parquet", "Write it as CSV before."),
    (b"\xff\xfe", "UTF-16", "It is mended by: iconv -f UTF-16 -t UTF-8"), (b"\xfe\xff", "UTF-16", "It is mended by: iconv -f UTF-16 -t UTF-8"),
)
# UTF-16 without a mark: of the first letters, which a stream has from ASCII, every other byte is 0.
WIDE_LETTERS = ((re.compile(rb"(?:[^\0]\0){3}"), "UTF-16LE"), (re.compile(rb"(?:\0[^\0]){3}"), "UTF-16BE"))
HEADINGS = "A stream has no line of headings: take it away by sed 1d, or make the stream by aurora-stream."
IN_PARTS = "Run its parts, cut by time or by a key: aurora-shard. Or cut the file into several sources of the same fields and put them together by a Union."


def lines_of(path):
    """Returns the lines of a file as the program cuts them, without a mark of byte order at the start and CR at their ends."""
    with open(path, "rb") as file:
        text = file.read().removeprefix(b"\xef\xbb\xbf")
    return [line.removesuffix(b"\r") for line in text.split(b"\n")]


def fields_of(line):
    """Returns the fields of a line, each with the place where it begins. A field in quotes may have commas."""
    fields, at = [], 0
    while True:
        begin, value = at, b""
        if line[at:at + 1] == b'"':
            inside = QUOTED.match(line, at + 1)
            value, at = inside[0].replace(b'""', b'"'), inside.end() + 1
        end = line.find(b",", at)
        end = len(line) if end < 0 else end
        fields.append((value + line[at:end], begin))
        if end == len(line):
            return fields
        at = end + 1


def shown(value):
    return f"`{value.decode(errors='replace')}`" if value else "empty"


def other_form(path):
    """Returns what a file is, and what to do, where its first bytes say that it is no text of UTF-8 at all; else None."""
    with open(path, "rb") as file:
        begin = file.read(6)
    for magic, words, remedy in OTHER_FORMS:
        if begin.startswith(magic):
            return Finding(f"the file is {words}", remedy, path, 1)
    code = next((it for pattern, it in WIDE_LETTERS if pattern.match(begin)), None)
    return Finding(f"the file is {code}", f"It is mended by: iconv -f {code} -t UTF-8", path, 1) if code else None


def stream_finding(network, name, number, why):
    """Returns what is found of line `number` of the file of a source."""
    source = next(it for it in network.sources if it["name"] == name)
    path, kinds = source["file"], [field.split(":") for field in source["fields"]]
    if not os.path.isfile(path):
        return Finding(f"the stream of source `{name}` came from {path}, which is no file and can't be read again", "Keep it in a file, and run again.")
    if number == 1 and (other := other_form(path)):
        return other
    lines = lines_of(path)
    line = lines[number - 1]
    words, remedy, place = RULES[why](line, fields_of(line), kinds, lines[:number - 1])
    text = line.decode(errors="replace")
    column = None if place is None else len(line[:place].decode(errors="replace"))
    return Finding(words, remedy, path, number, text, column)


def too_many(*_):
    return "a source has at most 1,000,000 tuples, and this line would be one more", IN_PARTS, None


def cut(line, *_):
    if line.startswith(b"\xef\xbb\xbf"):
        return "it begins with a mark of byte order, which only the start of a file may have", "Take it away: sed 's/^\\xef\\xbb\\xbf//'", 0
    place = line.find(b"\r")
    words = "something stands behind a carriage return, which ends a record outside of quotes"
    return words, "A file whose lines end by it alone is mended by: tr '\\r' '\\n'", place if place >= 0 else None


def open_quote(line):
    """Returns where a quote opens in a line that isn't closed in it, or None."""
    return next((begin for _, begin in fields_of(line) if line[begin:begin + 1] == b'"' and not QUOTED_WHOLE.match(line, begin)), None)


def number_of_fields(line, fields, kinds, before):
    names = ["the tick", *(f"`{name}`" for name, _ in kinds)]
    words = f"it has {counted(len(fields), 'field')}, and {listed(names)} make {len(names)}"
    for sign, written, said in ((b";", ";", "semicolons"), (b"\t", "\\t", "tabs"), (b"|", "|", "bars")):
        if len(fields) == 1 and line.count(sign) >= len(kinds):
            return words, f"Fields are separated by commas, and here by {said}: tr '{written}' ','", line.find(sign)
    if not any(before) and re.match(rb"[A-Za-z_]", line) and not any(WHOLE.fullmatch(value) for value, _ in fields):
        return words, HEADINGS, 0
    if len(fields) > len(names):
        numbers = " A number has none, neither between thousands nor before decimals." if any(kind == "int" for _, kind in kinds) else ""
        return words, "A text with a comma in it stands in double quotes." + numbers, fields[len(names)][1]
    if line.lstrip()[:1] in (b"#", b"/"):
        return words, "A stream has no remarks: take the line away by grep -v '^#'", 0
    if not line.strip():
        return words, "A line of blanks is no empty line: take it away by sed '/^[[:blank:]]*$/d'", 0
    opened = open_quote(line)
    if opened is not None:
        return words, "A quote opens here and isn't closed in this line. A text has no line feed, and a quote in it is written twice.", opened
    if before and open_quote(before[-1]) is not None:
        return words, "In the line before a quote opens that isn't closed there. A text has no line feed: put a blank in its place.", None
    return words, "What is missing is left empty, but its comma stands.", None


def no_text(line, fields, *_):
    for at, (value, begin) in enumerate(fields):
        try:
            value.decode()
        except UnicodeDecodeError as fault:
            words = f"the byte {value[fault.start]:02X} in field {at} is no UTF-8"
            return words, "A file of another code is mended by: iconv -f LATIN1 -t UTF-8", begin + fault.start
    return "a field isn't UTF-8", "", None


def tick(_, fields, __, before):
    value, place = fields[0]
    words = f"the tick is {shown(value)}, and must be 1 to 13 digits of a number below {MOST_TICK:,}"
    if re.fullmatch(rb"[0-9]+", value):
        milliseconds = len(value) >= 13
        remedy = "Milliseconds since 1970 are too great: take seconds, or subtract the start of the day." if milliseconds else ""
    elif re.match(rb"[0-9]{4}-[0-9]{2}|[0-9]+[:/]", value):
        remedy = "A date is brought to seconds since 1970 before, as by aurora-stream, or: date +%s -d"
    elif re.fullmatch(rb"[0-9]*\.[0-9]+", value):
        remedy = "A tick is whole: multiply fractions before."
    elif value.startswith(b"-"):
        remedy = "Ticks aren't negative: add the same number to all."
    elif value.strip() != value:
        remedy = "Blanks belong to a field: take them away."
    elif re.match(rb"[A-Za-z_]", value) and not any(before):
        remedy = HEADINGS
    else:
        remedy = "The first field of each line is the tick of arrival."
    return words, remedy, place


def falls(_, fields, __, before):
    last = next(((at, line) for at, line in reversed(list(enumerate(before, 1))) if line), (0, b""))
    words = f"the tick {shown(fields[0][0])} is below that of line {last[0]}, {shown(fields_of(last[1])[0][0])}"
    return words, "If both are right, put the file in order by: sort -t, -k1,1n -s. If one is a slip, mend it.", 0


def field_of_kind(kind, wrong, words, remedies):
    """Returns a rule: the leftmost field of a kind that is wrong, with words and the first remedy whose pattern it has."""
    def rule(_, fields, kinds, __):
        for at, (name, own) in enumerate(kinds):
            value, place = fields[at + 1]
            if own == kind and value and wrong(value):
                remedy = next((remedy for pattern, remedy in remedies if re.search(pattern, value)), "")
                here = f"{len(value)} bytes long" if kind == "text" else shown(value)
                return f"the field `{name}:{kind}` is {here}, and {words}", remedy, place
        return f"a field isn't of its kind; the fields are {shown_fields(dict(kinds))}", "", None
    return rule


def no_number(value):
    return not WHOLE.fullmatch(value) or not -(1 << 63) <= int(value) < 1 << 63


NUMBERS = (
    (rb"^-?[0-9]+$", "Its digits go beyond 64 bits: from -9223372036854775808 to 9223372036854775807."),
    (rb"^ *[-+]?[0-9]* *$", "No plus, no blanks: they belong to the field."),
    (rb"[0-9][.][0-9]", "Fractions are kept as whole numbers of a smaller unit, as tenths or cents: multiply before."),
    (rb"^(?i:na|n/a|nan|null|none|-)$", "What is missing is left empty."),
    (rb"[0-9][,' _][0-9]{3}", "No sign stands between thousands."),
    (rb"", "A field of texts is declared as name:text."),
)
BOOLEANS = (
    (rb"^(?i:true|false)$", "In small letters: tr 'TRUEFALS' 'truefals'"),
    (rb"^[01]$", "1 and 0 are numbers: declare the field as name:int, or write true and false."),
    (rb"^(?i:na|n/a|nan|null|none|-)$", "What is missing is left empty."),
    (rb"", ""),
)
RULES = {
    "TooMany": too_many,
    "Cut": cut,
    "Fields": number_of_fields,
    "Utf8": no_text,
    "Tick": tick,
    "Falls": falls,
    "NotInt": field_of_kind("int", no_number, "must be a whole number of 64 bits: digits, with `-` before them or without", NUMBERS),
    "NotBool": field_of_kind("bool", lambda value: value not in (b"true", b"false"), "must be true or false", BOOLEANS),
    "TextLong": field_of_kind("text", lambda value: len(value) > 255, "a text has at most 255", ((rb"", "Shorten it before."),)),
}


def capacities_finding(path, number):
    """Returns what is found of line `number` of a capacity file."""
    lines = lines_of(path)
    text = lines[number - 1].decode(errors="replace")
    epoch, comma, capacity = text.partition(",")
    before = next((line.split(b",")[0] for line in reversed(lines[:number - 1]) if line), None)
    remedy = "A line is an epoch, a comma, and the capacity from it on, `-` where there is no limit: 12,90000000"
    if not comma:
        words, column = "it has no comma", None
    elif not re.fullmatch("[0-9]{1,13}", epoch) or int(epoch) >= MOST_TICK:
        words, column = f"the epoch is `{epoch}`, and must be 1 to 13 digits of a number below {MOST_TICK:,}", 0
    elif before is not None and int(epoch) <= int(before):
        words, column = f"the epoch {int(epoch)} isn't greater than that of the line before, {int(before)}", 0
        remedy = "Each line holds until the next: give each epoch once, in order, as by sort -t, -k1,1n."
    else:
        words, column = f"the capacity is `{capacity}`, and must be 1 to 24 digits, or `-` for none", len(epoch) + 1
    return Finding(words, remedy, path, number, text, column)


def picks_finding(path, number):
    """Returns what is found of line `number` of a picks file."""
    text = lines_of(path)[number - 1].decode(errors="replace")
    words = f"the line is `{text}`, and must be 1 to 10 digits of a number below {1 << 32:,}"
    return Finding(words, "It has no blanks and no sign.", path, number, text, 0)
