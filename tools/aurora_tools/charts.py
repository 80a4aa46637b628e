"""Charts as SVG: panels over one axis of time with grey bands, small multiples, bars."""
import dataclasses
import datetime
import html
import math

from .front import blanked
from .series import pieces

# Each is told from a white and from a black ground.
COLOURS = ("#1f7fd1", "#d9620a", "#0f9d6b", "#c763a2", "#a88400", "#2f95cf", "#8f63c9", "#7a7a7a")
WIDTH, LEFT, RIGHT, TOP, LETTER = 960, 66, 12, 20, 6.6
MOST_LINES, MOST_MULTIPLES, MOST_DOTS, MOST_POINTS = 8, 24, 400, 1500
KEPT, SAVED, CAPACITY = "#4a7ebb", "#a9c1e0", "#d04040"
SECONDS = (1, 2, 5, 10, 15, 30, 60, 120, 300, 600, 900, 1800, 3600, 7200, 10800, 21600, 43200, 86400, 172800, 604800, 2629800, 31557600)


@dataclasses.dataclass
class Axis:
    """The ticks that all panels show, and whether they are seconds since 1970."""
    low: int
    high: int
    seconds: bool

    def text(self, tick):
        return moment(tick) if self.seconds else f"{tick:,}"

    @property
    def room(self):
        """How high the texts below a panel are: a day stands below the clock."""
        return 34 if self.seconds else 20

    def marks(self, width):
        """Returns where an axis of this width is marked, with a text for each, and room between the texts."""
        span = max(self.high - self.low, 1)
        for most in range(8, 0, -1):
            found = self.marked(span, most)
            room = max((letters(words) for _, words in found), default=0) * LETTER + 8
            if len(found) < 2 or (found[1][0] - found[0][0]) / span * width >= room:
                break

        def meet(one, other):
            places = [within((tick - self.low) / span * width, words, width) for tick, words in (one, other)]
            return places[1] - places[0] < (letters(one[1]) + letters(other[1])) / 2 * LETTER + 8
        # At its ends a text stands further in, and may meet the next one there. The first tells the day.
        while len(found) > 1 and meet(*found[:2]):
            (_, gone), (tick, words) = found[:2]
            found[:2] = [(tick, words if "\n" in words or "\n" not in gone else words + gone[gone.index("\n"):])]
        while len(found) > 1 and meet(*found[-2:]):
            del found[-1]
        return found

    def marked(self, span, most):
        """Returns where the axis is marked, at most so many times."""
        if not self.seconds:
            step = max(1, round_step(span / most))
            return [(tick, f"{tick:,}") for tick in range(-(-self.low // step) * step, self.high + 1, step)]
        step = next((it for it in SECONDS if span / it <= most), SECONDS[-1] * max(1, -(-span // (SECONDS[-1] * most))))
        found, day = [], None
        for tick in range(-(-self.low // step) * step, self.high + 1, step):
            date, clock = moment(tick).split(" ")
            shown = date if step >= 86400 else clock if step % 60 else clock[:5]
            found.append((tick, shown if date == day or step >= 86400 else f"{shown}\n{date}"))
            day = date
        return found


def letters(words):
    return max(map(len, words.split("\n")))


def within(x, words, width):
    """Returns where a text stands in the middle of x, or so near to it that the text goes no further out than a panel of this width."""
    half = letters(words) * LETTER / 2 - 4
    return min(max(x, half), width - half)


def moment(tick):
    """Returns the time in UTC of a tick that is a second since 1970."""
    return (datetime.datetime(1970, 1, 1) + datetime.timedelta(seconds=tick)).strftime("%Y-%m-%d %H:%M:%S") if tick < 253402300800 else f"{tick} s"


def round_step(step):
    """Returns the least of 1, 2 and 5 times a power of ten that isn't below a step."""
    power = 10 ** math.floor(math.log10(step)) if step > 0 else 1
    found = next(it for it in (1, 2, 5, 10) if it * power >= step * 0.999999) * power
    return int(found) if found >= 1 else found


def worth_marks(low, high, most):
    """Returns the marks of an axis of values: whole numbers, each with its text."""
    step = max(1, round_step((high - low) / most if high > low else 1))
    return [(value, short(value)) for value in range(-(-math.floor(low) // step) * step, math.ceil(high) + 1, step) if low <= value <= high]


def short(value):
    """Returns a number in few letters."""
    for power, sign in ((18, "E"), (15, "P"), (12, "T"), (9, "G"), (6, "M")):
        if abs(value) >= 10 ** power:
            return f"{value / 10 ** power:.6g}{sign}"
    return f"{value:,}"


@dataclasses.dataclass
class Drawn:
    """A drawing: how high it is, its SVG, what it is in words, the colours that its lines have by their names, and a remark."""
    height: float
    inside: str
    words: str
    entries: list = ()
    note: str = ""


STYLE = """svg text{font:12px system-ui,sans-serif;fill:#333}svg .end{text-anchor:end}svg .mid{text-anchor:middle}svg .name{font-weight:bold}
svg .grid{stroke:#e3e3e3;fill:none}svg .frame{stroke:#999;fill:none}svg .gone{fill:#c8c8c8}svg .line{fill:none;stroke-width:1.6}
svg .over .line{stroke-dasharray:7 7}
"""


def escaped(words):
    """Returns words for HTML and SVG, what can't be shown as a blank: XML has no such characters."""
    return html.escape(blanked(words))


def text(x, y, words, kind="", title=""):
    kind, title = f' class="{kind}"' if kind else "", f"<title>{escaped(title)}</title>" if title else ""
    return f'<text x="{x:.1f}" y="{y:.1f}"{kind}>{title}{escaped(words)}</text>'


def bar(kind, x, y, width, height, title):
    place = f'x="{x:.1f}" y="{y:.1f}" width="{width:.1f}" height="{height:.1f}"'
    return f'<rect class="{kind}" {place}><title>{escaped(title)}</title></rect>'


def dot(x, y, colour, title):
    said = f"<title>{escaped(title)}</title>" if title else ""
    return f'<circle cx="{x:.1f}" cy="{y:.1f}" r="2.3" fill="{colour}">{said}</circle>'


def level(x, y, width, words):
    """Returns a level line with its value before it."""
    return f'<path class="grid" d="M{x} {y:.1f}h{width}"/>' + text(x - 6, y + 4, words, "end")


def picture(height, inside, words):
    return f'<div class="wide"><svg viewBox="0 0 {WIDTH} {height}" role="img" aria-label="{escaped(words)}">{inside}</svg></div>'


def legend(entries):
    """Returns colours with their names, as HTML that wraps."""
    shown = "".join(f'<span><i style="background:{colour}"></i>{escaped(name)}</span> ' for name, colour in entries)
    return f'<p class="legend">{shown}</p>' if entries else ""


def on_a_page(drawn):
    """Returns a drawing with its colours and its remark below it."""
    return picture(drawn.height, drawn.inside, drawn.words) + legend(drawn.entries) + (note(drawn.note) if drawn.note else "")


def note(words):
    return f'<p class="note">{html.escape(words)}</p>'


@dataclasses.dataclass
class Frame:
    """Where a panel's ticks and values stand in its picture."""
    axis: Axis
    left: float
    top: float
    width: float
    height: float
    low: float
    high: float

    def x(self, tick):
        span = max(self.axis.high - self.axis.low, 1)
        return self.left + 4 + (tick - self.axis.low) / span * (self.width - 8)

    def y(self, value):
        return self.top + self.height - (value - self.low) / ((self.high - self.low) or 1) * self.height

    def ground(self, gone, marks_of_time, marks_of_value, named=True):
        """Draws bands, the marks of both axes, and the frame."""
        parts = []
        for low, high in gone:
            begin, end = max(self.x(low), self.left), min(self.x(high), self.left + self.width)
            title = f"left out: {self.axis.text(low)} to {self.axis.text(high - 1)}"
            parts.append(bar("gone", begin, self.top, max(end - begin, 1), self.height, title))
        for value, words in marks_of_value:
            parts.append(level(self.left, self.y(value), self.width, words))
        for tick, words in marks_of_time:
            parts.append(f'<path class="grid" d="M{self.x(tick):.1f} {self.top}v{self.height}"/>')
            x = self.left + within(self.x(tick) - self.left, words, self.width)
            parts += [text(x, self.top + self.height + 14 + 12 * line, word, "mid") for line, word in enumerate(words.split("\n") if named else [])]
        return "".join(parts) + f'<rect class="frame" x="{self.left}" y="{self.top}" width="{self.width}" height="{self.height}"/>'

    def line(self, points, gone, colour, dots, joined=True):
        """Draws the pieces of one line, and its tuples as dots. Where tuples are many, gaps narrower than a dot aren't seen."""
        parts, width = [], (self.axis.high - self.axis.low) / self.width
        points, least = (thinned(points, self.axis, int(self.width)), 2 * width) if len(points) > MOST_POINTS else (points, 0)
        for piece in pieces(points, gone, least):
            if len(piece) > 1 and joined:
                way = "L".join(f"{self.x(tick):.1f} {self.y(value):.1f}" for tick, value in piece)
                parts.append(f'<path class="line" stroke="{colour}" d="M{way}"/>')
            for tick, value in piece if dots or len(piece) == 1 or not joined else []:
                parts.append(dot(self.x(tick), self.y(value), colour, f"{self.axis.text(tick)}: {value:,}" if dots else ""))
        return "".join(parts)


def thinned(points, axis, columns):
    """Returns of many points the first, least, greatest and last of each stretch that is as wide as a dot."""
    span, kept, stretch, now = max(axis.high - axis.low, 1), [], [], None
    for point in [*(it for it in points if it[1] is not None), None]:
        column = None if point is None else (point[0] - axis.low) * columns // span
        if column != now and stretch:
            places = {0, len(stretch) - 1, *(choose(range(len(stretch)), key=lambda at: stretch[at][1]) for choose in (min, max))}
            kept += [stretch[at] for at in sorted(places)]
            stretch = []
        now = column
        stretch.append(point)
    return kept


def values_of(series):
    return [value for points in series.lines.values() for _, value in points if value is not None]


def range_of(values):
    low, high = (min(values), max(values)) if values else (0, 1)
    edge = (high - low) * 0.08 or 1
    return low - edge, high + edge


def panel(series, gone, axis, colours):
    """Returns a field as it stands on a page."""
    return on_a_page(drawn(series, gone, axis, colours))


def drawn(series, gone, axis, colours):
    """Draws a field: its lines in one panel, in small multiples where they are more than eight, or dots where they don't repeat."""
    points = sum(len(it) for it in series.lines.values())
    if not series.field:
        return events(series, gone, axis)
    if len(series.lines) > MOST_MULTIPLES and points < 3 * len(series.lines):
        together = sorted(point for it in series.lines.values() for point in it if point[1] is not None)
        words = f"{len(series.lines):,} different texts go with it, too many for lines: each tuple is a dot."
        return dataclasses.replace(one_panel(dataclasses.replace(series, lines={"": together}), gone, axis, colours, joined=False), note=words)
    return multiples(series, gone, axis) if len(series.lines) > MOST_LINES else one_panel(series, gone, axis, colours)


def one_panel(series, gone, axis, colours, joined=True):
    height = 130
    frame = Frame(axis, LEFT, TOP, WIDTH - LEFT - RIGHT, height, *range_of(values_of(series)))
    parts = [text(LEFT, TOP - 7, series.field, "name"), frame.ground(gone, axis.marks(frame.width), worth_marks(frame.low, frame.high, 5))]
    dots, entries, seen = sum(len(it) for it in series.lines.values()) <= MOST_DOTS, [], set()
    for name, points in sorted(series.lines.items()):
        colour = colours.setdefault(name, COLOURS[sum(it != "" for it in colours) % len(COLOURS)] if name else COLOURS[0])
        way = frame.line(points, gone, colour, dots, joined)
        parts.append(f'<g class="over">{way}</g>' if tuple(points) in seen else way)
        seen.add(tuple(points))
        entries += [(name, colour)] if name else []
    return Drawn(TOP + height + axis.room, "".join(parts), f"{series.field} over time", entries)


def multiples(series, gone, axis):
    """Draws each line in a small panel of its own, all with the same axes, those with most tuples first."""
    columns, high, left = 4, 62, 56
    across = (WIDTH - left) // columns
    wide = across - RIGHT
    chosen = sorted(series.lines.items(), key=lambda it: (-len(it[1]), it[0]))[:MOST_MULTIPLES]
    low, top = range_of([value for _, points in chosen for _, value in points if value is not None])
    parts = [text(left, 12, series.field, "name")]
    for at, (name, points) in enumerate(sorted(chosen)):
        column, row = at % columns, at // columns
        frame = Frame(axis, left + across * column, 32 + (high + 22) * row, wide, high, low, top)
        levels = [(value, words if column == 0 else "") for value, words in worth_marks(low, top, 3)]
        parts.append(frame.ground(gone, axis.marks(wide), levels, at + columns >= len(chosen)))
        parts.append(text(frame.left, frame.top - 4, name[:30], title=name) + frame.line(points, gone, COLOURS[0], False))
    more, height = len(series.lines) - len(chosen), 32 + (high + 22) * -(-len(chosen) // columns) + axis.room - 18
    said = f"{more:,} further lines, with fewer tuples, aren't drawn." if more else ""
    return Drawn(height, "".join(parts), f"{series.field} over time, a panel a line", note=said)


def events(series, gone, axis):
    """Draws tuples without a number: a row of dots for each of their texts."""
    names = sorted(sorted(series.lines, key=lambda it: (-len(series.lines[it]), it))[:MOST_MULTIPLES])
    height = 26 * len(names) + 6
    frame = Frame(axis, LEFT, TOP, WIDTH - LEFT - RIGHT, height, 0, len(names))
    parts = [frame.ground(gone, axis.marks(frame.width), [])]
    for at, name in enumerate(names):
        y = TOP + 22 + 26 * at
        shown = [(tick, 0) for tick, _ in series.lines[name]]
        shown = thinned(shown, axis, int(frame.width)) if len(shown) > MOST_POINTS else shown
        parts += [dot(frame.x(tick), y, COLOURS[at % len(COLOURS)], axis.text(tick)) for tick, _ in shown]
        parts.append(text(LEFT + 6, y - 6, name[:60]))
    more = len(series.lines) - len(names)
    return Drawn(TOP + height + axis.room, "".join(parts), "tuples over time", note=f"{more:,} further texts aren't drawn." if more else "")


def epochs_marked(first, count, length, seconds, width):
    """Returns the epochs that are named below their bars, with their texts: where ticks are seconds, the time of some of them."""
    if seconds:
        marks = Axis(first * length, (first + count) * length - 1, True).marks(width)
        return [(tick / length - 0.5, words) for tick, words in marks]
    every = max(1, math.ceil((len(f"{first + count:,}") * LETTER + 8) * count / width))
    return [(epoch, f"{epoch:,}") for epoch in range(first, first + count, every)]


def loads(plans, length, seconds):
    """Draws for each epoch a bar of its load: what the plan leaves of it on average and what it saves, with a line at the capacity."""
    most = max(max(plan.load, plan.capacity) for plan in plans) or 1
    first, count, tall = plans[0].epoch, plans[-1].epoch - plans[0].epoch + 1, 150
    room, floor = (WIDTH - LEFT - RIGHT) / count, TOP + tall
    wide = max(min(room * 0.7, 50), 0.5)
    parts = [level(LEFT, floor - value / most * tall, WIDTH - LEFT - RIGHT, words) for value, words in worth_marks(0, most, 5)]
    for plan in plans:
        x, left = LEFT + (plan.epoch - first + 0.5) * room, max(plan.load - plan.saved, 0)
        title = f"epoch {plan.epoch}: load {plan.load:,}, planned saving {plan.saved:,}, capacity {plan.capacity:,}, {plan.verdict}"
        for kind, value in (("saved", plan.load), ("kept", left)):
            high = value / most * tall
            parts.append(bar(kind, x - wide / 2, floor - high, wide, high, title))
        parts.append(f'<path class="capacity" d="M{x - wide / 2 - 3:.1f} {floor - plan.capacity / most * tall:.1f}h{wide + 6:.1f}"/>')
    for epoch, words in epochs_marked(first, count, length, seconds, WIDTH - LEFT - RIGHT):
        parts += [text(LEFT + (epoch - first + 0.5) * room, floor + 14 + 12 * line, word, "mid") for line, word in enumerate(words.split("\n"))]
    shown = picture(floor + (34 if seconds else 22), "".join(parts) + text(LEFT, TOP - 7, "load by epoch", "name"), "load and capacity by epoch")
    return shown + legend([("load that the plan leaves, on average", KEPT), ("planned saving", SAVED), ("capacity", CAPACITY)])
