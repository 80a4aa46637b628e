"""Cells of tables as fields of a stream, column by column: which kind a column has, and its cells as a stream file has them.

A column is looked at as one text, a line for each cell, where all of its cells are of the usual form; else cell by cell.
"""
import dataclasses
import functools
import re

from .numbers import NUMBER, whole
from .tables import BadRow, Refused

INTEGERS = re.compile(r"(?>(?>-?+(?>0|[1-9][0-9]*+))?+\n)*+")
DECIMALS = re.compile(r"(?>(?>-?+(?>0|[1-9][0-9]*+)(?>\.[0-9]++)?+)?+\n)*+")
COMMAS = re.compile(r"(?>(?>-?+[0-9]++(?>,[0-9]++)?+)?+\n)*+")
SPECIAL = re.compile('[,"\r]')
FEW_WORDS, SAFE_LENGTH, MOST_TEXT = 3, 18, 255


@functools.cache
def exactly(digits):
    """Returns the pattern of lines of numbers with so many digits behind the point, of which no other digit is needless, within 64 bits."""
    behind = rf"\.[0-9]{{{digits}}}" if digits else ""
    return re.compile(rf"(?>(?>-?+(?>0|[1-9][0-9]{{0,{SAFE_LENGTH - 1 - digits}}}+){behind})?+\n)*+")


class Lines:
    """The columns of a block as lines of one text each, and which of them are known to be decimal numbers."""

    def __init__(self):
        self.begin()

    def begin(self):
        self.known, self.decimal, self.exact = {}, set(), set()

    def of(self, cells):
        """Returns the cells as lines of one text, or None where one has a line feed."""
        if id(cells) not in self.known:
            lines = "\n".join(cells) + "\n"
            self.known[id(cells)] = lines if lines.count("\n") == len(cells) else None, cells
        return self.known[id(cells)][0]

    def are_exact(self, cells, digits):
        """Says whether each cell that isn't empty is a number with exactly so many digits behind the point."""
        if (id(cells), digits) in self.exact:
            return True
        lines = self.of(cells) if digits < SAFE_LENGTH else None
        if found := lines is not None and exactly(digits).fullmatch(lines) is not None:
            self.exact.add((id(cells), digits))
        return found

    def are_decimal(self, lines):
        if id(lines) in self.decimal:
            return True
        if found := DECIMALS.fullmatch(lines) is not None:
            self.decimal.add(id(lines))
        return found


def with_points(text):
    """Returns numbers with decimal commas as numbers with points; a point of theirs parts thousands, and makes no number."""
    return text.replace(".", "'").replace(",", ".")


def within(text, value):
    if not -2**63 <= value < 2**63:
        raise Refused(f"{text} is out of 64 bits")
    return str(value)


def bare(number):
    """Returns a whole number without zeros before its first digit, and 0 without a sign."""
    sign, digits = ("-", number[1:]) if number[:1] == "-" else ("", number)
    kept = digits.lstrip("0")
    return sign + kept if kept else digits[:1]


def without_zeros(lines):
    """Returns of lines of whole numbers each as `bare` does."""
    return [it if it >= "1" else bare(it) for it in lines[:-1].split("\n")]


def without_points(lines, cells, digits):
    """Returns numbers with so many digits behind the point as whole numbers."""
    return without_zeros(lines.replace(".", "")) if digits else cells if "-0" not in lines else without_zeros(lines)


@dataclasses.dataclass
class Field:
    """A field of a stream: its column, its name, its kind, and the digits behind the point of its numbers."""
    column: str
    name: str
    kind: str
    digits: int = 0

    def made(self, cells, given):
        """Returns cells as fields of a stream, or raises BadRow with the place of the first that can't be one."""
        usual = getattr(self, f"usual_{self.kind}")(cells, given)
        return self.one_by_one(cells, given) if usual is None else usual

    def one_by_one(self, cells, given):
        made = []
        for at, cell in enumerate(cells):
            if given.cut and self.kind == "text" and len(cell.encode()) > MOST_TEXT:
                cell = cell.encode()[:MOST_TEXT].decode(errors="ignore")
                count, first = given.cuts.get(self.name, (0, given.row + at))
                given.cuts[self.name] = count + 1, first
            try:
                made.append(self.one(cell, given) if cell else "")
            except Refused as why:
                raise BadRow(at, self.column, str(why)) from None
        return made

    def one(self, cell, given):
        """Returns a cell that isn't missing as a field."""
        if self.kind == "int":
            return within(cell, whole(with_points(cell) if given.comma else cell, self.digits))
        if self.kind == "time":
            return str(given.ticks.one(cell))
        if self.kind == "bool":
            if cell not in given.booleans:
                raise Refused(f"{cell!r} is no word for true or false")
            return given.booleans[cell]
        if len(cell.encode()) > MOST_TEXT:
            raise Refused(f"a text over {MOST_TEXT} bytes: --cut cuts it there")
        if "\n" in cell:
            raise Refused("a text with a line feed")
        return '"' + cell.replace('"', '""') + '"' if SPECIAL.search(cell) else cell

    def usual_int(self, cells, given):
        if not given.comma and given.lines.are_exact(cells, self.digits):
            return without_points(given.lines.of(cells), cells, self.digits)
        lines = given.lines.of(cells)
        if lines is None:
            return None
        lines = with_points(lines) if given.comma else lines
        zeros = "0" * self.digits
        if INTEGERS.fullmatch(lines):
            made = [it and it + zeros for it in cells] if zeros else cells
        elif zeros and (DECIMALS.fullmatch(lines) if given.comma else given.lines.are_decimal(lines)) and not re.search(rf"\.[0-9]{{{self.digits + 1}}}", lines):
            made = [before and before + after + zeros[len(after):] for before, _, after in (it.partition(".") for it in lines[:-1].split("\n"))]
        else:
            return None
        return without_zeros("\n".join(made) + "\n") if max(map(len, made), default=0) <= SAFE_LENGTH else None

    def usual_time(self, cells, given):
        there = [it for it in cells if it]
        found = given.ticks.all(there)
        if found is None:
            return None
        found = map(str, found)
        return list(found) if len(there) == len(cells) else [it and next(found) for it in cells]

    def usual_bool(self, cells, given):
        try:
            return list(map(given.booleans_or_missing.__getitem__, cells))
        except KeyError:
            return None

    def usual_text(self, cells, given):
        lines = given.lines.of(cells)
        if lines is None or SPECIAL.search(lines):
            return None
        longest = max(map(len, cells), default=0)
        return cells if longest <= MOST_TEXT // 4 or longest <= MOST_TEXT and lines.isascii() else None


class Guess:
    """Which kind fits all cells of a column that were seen, and what few words make a text of a column of numbers."""

    def __init__(self, column, given):
        self.column, self.given = column, given
        self.fixed = given.digits.get(column)
        self.seen, self.boolean, self.number, self.digits, self.wide = False, True, True, self.fixed or 0, None
        self.words, self.numbers = {}, 0
        # Words among numbers of which some have a decimal comma, and how many cells they are.
        self.among, self.others, self.comma = {}, 0, False

    @property
    def kind(self):
        return "text" if not self.seen or not (self.boolean or self.number) else "bool" if self.boolean else "int"

    def add(self, cells, first):
        """Looks at further cells. Returns whether what was seen before would be written otherwise now."""
        if self.seen and self.number and not self.boolean and not self.given.comma and self.given.lines.are_exact(cells, self.digits):
            self.numbers += len(cells) - cells.count("")
            return False
        before = (self.kind, self.digits) if self.seen else None
        if not any(cells):
            return False
        self.seen = True
        if self.boolean:
            self.boolean = self.given.booleans_or_missing.keys() >= set(cells)
        if self.number:
            self.look_at_numbers(cells, first)
        if self.number:
            self.numbers += len(cells) - cells.count("")
        elif self.words is not None or self.among is not None:
            self.look_at_words(cells, first)
            self.look_at_commas(cells, first)
        return before is not None and before != (self.kind, self.digits)

    def look_at_numbers(self, cells, first):
        lines = self.given.lines.of(cells)
        if lines and self.given.comma:
            lines = with_points(lines)
        self.number = lines is not None and (DECIMALS.fullmatch(lines) is not None if self.given.comma else self.given.lines.are_decimal(lines))
        if not self.number:
            self.digits = 0
            return
        if "." in lines and self.fixed is None:
            longer = re.findall(rf"\.([0-9]{{{self.digits + 1},}})", lines)
            self.digits = max(map(len, longer), default=self.digits)
        if max(map(len, cells)) + self.digits > SAFE_LENGTH:
            wide = next((first + at for at, it in enumerate(lines[:-1].split("\n")) if len(it) + self.digits > SAFE_LENGTH and self.leaves(it)), None)
            if wide is not None:
                self.number, self.wide = False, (wide, self.digits)
            self.digits = self.digits if self.number else 0

    def leaves(self, text):
        """Says whether a number leaves 64 bits by the digits that the column has behind the point."""
        try:
            return self.digits > SAFE_LENGTH or not -2**63 < whole(text, self.digits) < 2**63
        except Refused:
            return self.fixed is None

    def look_at_words(self, cells, first):
        if self.words is not None:
            self.words = few(self.words, {it for it in set(cells) if it and not NUMBER.fullmatch(it)}, cells, first)
        if self.words is not None:
            self.numbers += len(cells) - cells.count("") - sum(map(cells.count, self.words))

    def look_at_commas(self, cells, first):
        lines = self.given.lines.of(cells) if self.among is not None else None
        if lines is not None and COMMAS.fullmatch(lines):
            self.comma = self.comma or "," in lines
        elif self.among is not None:
            different = set(cells)
            odd = {it for it in different if it and ("\n" in it or not COMMAS.fullmatch(it + "\n"))}
            self.comma = self.comma or any("," in it for it in different - odd)
            self.among = few(self.among, odd, cells, first)
            self.others += sum(map(cells.count, self.among or ()))


def few(words, found, cells, first):
    """Returns words with their rows and those that were found now, or None where these are too many."""
    found = found - words.keys()
    if len(words) + len(found) > FEW_WORDS:
        return None
    return words | {it: first + cells.index(it) for it in sorted(found, key=cells.index)}
