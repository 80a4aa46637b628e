"""Times of tables as ticks: numbers of a unit, ISO 8601, forms of strptime. What isn't exactly a tick is refused."""
import datetime
import re
import zoneinfo

from .tables import Refused
from .numbers import whole

UNITS = {"ns": 1, "us": 10**3, "ms": 10**6, "s": 10**9, "m": 60 * 10**9, "h": 3600 * 10**9, "d": 86400 * 10**9}
MOST_TICK, MOST_KEPT, SAMPLE = 2**40, 20_000, 64
EPOCH, FIRST_DAY = datetime.datetime(1970, 1, 1, tzinfo=datetime.timezone.utc), datetime.date(1970, 1, 1).toordinal()
OFFSET = r"(Z|z|[-+][0-9]{2}(?::?[0-9]{2})?)?"
CLOCK = r"([0-9]{2})(?::?([0-9]{2})(?::?([0-9]{2})(?:[.,]([0-9]+))?)?)?"
ISO = re.compile(rf"([0-9]{{4}})(-?)([0-9]{{2}})\2([0-9]{{2}})(?:[Tt ]{CLOCK} ?{OFFSET})?")
HEAD = re.compile(r"([0-9]{4}-[0-9]{2}-[0-9]{2})[Tt ]([0-9]{2}):([0-9]{2}):")
REST = re.compile(rf"(?:[.,]([0-9]+))? ?{OFFSET}")
LIKE_ISO = re.compile(r"[0-9]{4}-[0-9]{2}-[0-9]{2}")
LIKE_DATE = re.compile(r"[0-9]{1,4}[./-][0-9]{1,2}[./-][0-9]{1,4}(?![0-9])|[0-9]{1,2}:[0-9]{2}|[0-9]{1,2}[ -][A-Z][a-z]{2}\b")
WHOLE_LINES = re.compile(r"(?>-?+(?>0|[1-9][0-9]{0,18}+)\n)*+")
PARTS_LINES = re.compile(r"(?>-?+(?>0|[1-9][0-9]{0,18}+)(?>\.[0-9]{1,9}+)?+\n)*+")
DIRECTIVES = {"Y": "(?P<Y>[0-9]{4})", "m": "(?P<m>[0-9]{2})", "d": "(?P<d>[0-9]{2})", "b": "(?P<b>[A-Z][a-z]{2})", "H": "(?P<H>[0-9]{2})", "M": "(?P<M>[0-9]{2})",
              "S": "(?P<S>[0-9]{2})", "f": "(?P<f>[0-9]{1,6})", "z": "(?P<z>Z|[-+][0-9]{4}|[-+][0-9]{2}:[0-9]{2})"}
WIDTHS = {"%Y": 4, "%m": 2, "%d": 2, "%b": 3, "%H": 2, "%M": 2, "%S": 2}
MONTHS = {name: at for at, name in enumerate("Jan Feb Mar Apr May Jun Jul Aug Sep Oct Nov Dec".split(), 1)}


def fraction(digits):
    """Returns the nanoseconds of the digits behind a point of seconds."""
    if len(digits) > 9 and digits[9:].strip("0"):
        raise Refused(f".{digits[:40]} is finer than a nanosecond")
    return int(digits[:9].ljust(9, "0"))


def offset(text):
    """Returns how many seconds a zone as +01:00 is before UTC."""
    if not text or text in "Zz":
        return 0
    digits = text[1:].replace(":", "")
    hours, minutes = int(digits[:2]), int(digits[2:] or 0)
    if hours > 23 or minutes > 59:
        raise Refused(f"{text} is no offset from UTC")
    return (hours * 3600 + minutes * 60) * (-1 if text[0] == "-" else 1)


def clock(hour, minute, second):
    if hour > 23 or minute > 59 or second > 59:
        raise Refused(f"{hour:02}:{minute:02}:{second:02} is no time of day")
    return hour * 3600 + minute * 60 + second


class Days(dict):
    """The seconds since 1970 of days, by year, month and day."""

    def __missing__(self, key):
        try:
            self[key] = found = (datetime.date(*map(int, key)).toordinal() - FIRST_DAY) * 86400
        except ValueError:
            raise Refused(f"{'-'.join(map(str, key))} is no day") from None
        return found


DAYS = Days()


def utc(seconds):
    return seconds


def zone_named(name):
    """Returns what makes seconds of UTC of those of a zone's clock. A time that the clock shows twice, or never, is refused."""
    try:
        zone = zoneinfo.ZoneInfo(name)
    except (zoneinfo.ZoneInfoNotFoundError, ValueError, OSError):
        raise Refused(f"--zone {name}: there is no such zone here; they have names as Europe/Berlin") from None

    def of_clock(seconds):
        shown = datetime.datetime(1970, 1, 1) + datetime.timedelta(seconds=seconds)
        ways = {seconds - int(shown.replace(tzinfo=zone, fold=fold).utcoffset().total_seconds()) for fold in (0, 1)}
        there = [it for it in ways if datetime.datetime.fromtimestamp(it, zone).replace(tzinfo=None, fold=0) == shown]
        if len(there) != 1:
            raise Refused(f"{shown} stands {'twice' if there else 'never'} on the clocks of {name}")
        return there[0]
    return of_clock


def iso(text, local=utc):
    """Returns a time of ISO 8601 in nanoseconds since 1970; without an offset it is UTC, or of a clock."""
    found = ISO.fullmatch(text)
    if not found:
        raise Refused(f"{text[:60]!r} is no time of ISO 8601, as 2026-03-01T08:30:00Z or 2026-03-01")
    year, _, month, day, hour, minute, second, digits, zone = found.groups()
    seconds = DAYS[year, month, day] + clock(int(hour or 0), int(minute or 0), int(second or 0))
    return (seconds - offset(zone) if zone else local(seconds)) * 10**9 + fraction(digits or "")


class Kept(dict):
    """Answers of a function that are kept, so many at most."""

    def __init__(self, function):
        super().__init__()
        self.function = function

    def __missing__(self, text):
        if len(self) > MOST_KEPT:
            self.clear()
        self[text] = found = self.function(text)
        return found


def head(text, local):
    found = HEAD.fullmatch(text)
    if not found:
        raise KeyError(text)
    date, hour, minute = found.groups()
    return local(DAYS[tuple(date.split("-"))] + clock(int(hour), int(minute), 0)) * 10**9


def second(text):
    if not re.fullmatch("[0-5][0-9]", text):
        raise KeyError(text)
    return int(text) * 10**9


def rest(text, local):
    found = REST.fullmatch(text)
    if not found or found[2] and local is not utc:
        raise KeyError(text)
    return fraction(found[1] or "") - offset(found[2]) * 10**9


class Parts:
    """Times as the sum of their parts, which are kept: up to the minute, in so many letters, and from the seconds on. They are told in
    units of so many nanoseconds from an origin on; a part that is no whole number of these, or not of the form, is a KeyError."""

    def __init__(self, width, head, rest, unit=1, origin=0):
        def whole_units(past):
            units, more = divmod(past, unit)
            if more:
                raise KeyError(past)
            return units
        self.width = width
        self.heads = Kept(lambda it: whole_units(head(it) - origin))
        self.seconds, self.rests = Kept(lambda it: whole_units(second(it))), Kept(lambda it: whole_units(rest(it)))
        self.upper = Kept(lambda it: self.heads[it[:width]] + self.seconds[it[width:]])

    def all(self, cells):
        """Returns the times of cells, or None where one isn't the sum of such parts."""
        heads, seconds, rests, upper, width, behind = self.heads, self.seconds, self.rests, self.upper, self.width, self.width + 2
        begin = cells[:SAMPLE]
        try:
            if 4 * len({it[:behind] for it in begin}) <= len(begin):
                # Some share their second, so that what is above it needs to be cut but once.
                return [upper[it[:behind]] + rests[it[behind:]] for it in cells]
            return [heads[it[:width]] + seconds[it[width:behind]] + rests[it[behind:]] for it in cells]
        except KeyError:
            return None


class Iso:
    """Times of ISO 8601."""

    def __init__(self, local):
        self.local, self.wholes = local, Kept(lambda it: iso(it, local))

    def one(self, text):
        return self.wholes[text]

    def parts(self, unit, origin):
        return Parts(17, lambda it: head(it, self.local), lambda it: rest(it, self.local), unit, origin)


class Number:
    """Times as numbers of a unit."""

    def __init__(self, unit):
        self.unit = UNITS[unit]

    def one(self, text):
        if LIKE_DATE.match(text):
            remedy = "it looks like ISO 8601, for which --unit iso stands" if LIKE_ISO.match(text) else "a date or a time of day has a form, as --unit '%d.%m.%Y %H:%M:%S'"
            raise Refused(f"{text[:60]!r} is no number: {remedy}")
        past, rest = divmod(whole(text, 9) * self.unit, 10**9)
        if rest:
            raise Refused(f"{text} is finer than a nanosecond")
        return past

    def parts(self, unit, origin):
        return None

    def all(self, cells):
        lines, unit = "\n".join(cells) + "\n", self.unit
        if lines.count("\n") != len(cells):
            return None
        if WHOLE_LINES.fullmatch(lines):
            return list(map(unit.__mul__, map(int, cells)))
        if self.unit == 10**9 and PARTS_LINES.fullmatch(lines):
            return [int(before + (after + "000000000")[:9]) for before, _, after in (it.partition(".") for it in cells)]
        return None


def pattern_of(parts):
    """Returns the pattern of a form's parts, or None where one isn't known."""
    found = [DIRECTIVES.get(it[1:]) if it[0] == "%" else re.escape(it) for it in parts]
    try:
        return None if None in found else re.compile("".join(found))
    except re.error:
        return None


class Form:
    """Times in a form of strptime, in UTC unless it has %z. Forms of fixed numbers are read without strptime; where what is before the
    seconds has one width, its parts are kept as those of ISO 8601 are."""

    def __init__(self, form, local):
        self.form, self.local, self.kept = form, local, Kept(self.read)
        parts = re.findall(r"%.|[^%]+", form)
        has_day = {"%Y", "%d"} <= set(parts) and {"%m", "%b"} & set(parts)
        self.pattern = pattern_of(parts) if has_day else None
        at = parts.index("%S") if self.pattern and "%S" in parts else 0
        before, behind = parts[:at], parts[at + 1:]
        self.is_cut = bool(at) and {"%Y", "%d"} <= set(before) and set(behind).isdisjoint({"%Y", "%m", "%b", "%d", "%H", "%M"}) and set(before).isdisjoint({"%f", "%z"})
        if self.is_cut:
            self.width = sum(WIDTHS.get(it, len(it)) for it in before)
            self.before, self.behind = pattern_of(before), pattern_of(behind)

    def seconds_of(self, part):
        """Returns the seconds since 1970 of the parts of a form but for its zone, or None where its month has another name."""
        month = part.get("m") or MONTHS.get(part.get("b"))
        return month and DAYS[part["Y"], month, part["d"]] + clock(*(int(part.get(it, 0)) for it in "HMS"))

    def head(self, text):
        found = self.before.fullmatch(text)
        seconds = found and self.seconds_of(found.groupdict())
        if seconds is None:
            raise KeyError(text)
        return (seconds if "z" in self.behind.groupindex else self.local(seconds)) * 10**9

    def rest(self, text):
        found = self.behind.fullmatch(text)
        if not found:
            raise KeyError(text)
        part = found.groupdict()
        return fraction(part.get("f", "")) - offset(part.get("z")) * 10**9

    def read(self, text):
        found = self.pattern.fullmatch(text) if self.pattern else None
        seconds = found and self.seconds_of(found.groupdict())
        if seconds is None:
            return self.by_strptime(text)
        part = found.groupdict()
        return (seconds - offset(part["z"]) if "z" in part else self.local(seconds)) * 10**9 + fraction(part.get("f", ""))

    def by_strptime(self, text):
        try:
            moment = datetime.datetime.strptime(text, self.form)
        except (ValueError, OverflowError, re.error) as why:
            hint = ": it looks like ISO 8601, for which --unit iso stands" if LIKE_ISO.match(text) else ""
            raise Refused(f"{why}{hint}") from None
        past = (moment if moment.tzinfo else moment.replace(tzinfo=datetime.timezone.utc)) - EPOCH
        seconds = past.days * 86400 + past.seconds
        return (seconds if moment.tzinfo else self.local(seconds)) * 10**9 + past.microseconds * 1000

    def one(self, text):
        return self.kept[text]

    def parts(self, unit, origin):
        return Parts(self.width, self.head, self.rest, unit, origin) if self.is_cut else None


def reader(unit, local):
    """Returns what reads times of a unit, of `iso`, or of a form."""
    return Iso(local) if unit == "iso" else Number(unit) if unit in UNITS else Form(unit, local)


class Ticks:
    """Makes ticks of times."""

    def __init__(self, unit, tick, origin, down, zone=None):
        self.local = zone_named(zone) if zone else utc
        self.times, self.tick, self.down = reader(unit, self.local), UNITS[tick], down
        self.origin = 0 if origin is None else self.origin_of(origin)
        self.parts = self.times.parts(1, 0) if down else self.times.parts(self.tick, self.origin)

    def origin_of(self, text):
        """An origin is written as in the column, or in ISO 8601 whatever stands there."""
        try:
            return self.times.one(text)
        except Refused:
            return iso(text, self.local)

    def one(self, text):
        if text == "":
            raise Refused("the time is missing")
        past = self.times.one(text)
        tick, rest = divmod(past - self.origin, self.tick)
        if rest and not self.down:
            raise Refused(f"{text} lies between two ticks: take a finer --tick, or --down")
        if not 0 <= tick < MOST_TICK:
            raise Refused(f"{text} is tick {tick}, and ticks are 0 to 2^40 - 1: {self.hint(past)}")
        return tick

    def hint(self, past):
        """Returns what to do about a time whose tick is too great or too small."""
        if past > 2**62:
            return "are these ms, us or ns? Say --unit"
        if past > self.origin and isinstance(self.times, (Iso, Form)) or past > 2**59:
            return f"say --origin {(EPOCH + datetime.timedelta(days=past // (86400 * 10**9))).date()}, or take a greater --tick"
        return "say --origin, or take a greater --tick"

    def all(self, cells):
        """Returns the ticks of many cells, or None where one after the other is to be looked at."""
        try:
            found = self.parts.all(cells) if self.parts else self.ticks_of(self.times.all(cells)) if isinstance(self.times, Number) else None
        except Refused:
            return None
        if found and self.parts and self.down:
            found = self.ticks_of(found)
        return found if found and min(found) >= 0 and max(found) < MOST_TICK else None

    def ticks_of(self, pasts):
        """Returns the ticks of nanoseconds, or None where one lies between two ticks."""
        if not pasts:
            return None
        origin, tick = self.origin, self.tick
        found = [(it - origin) // tick for it in pasts]
        # No rest is negative, so all are 0 where their sum is.
        return found if self.down or sum(pasts) - origin * len(pasts) == tick * sum(found) else None
