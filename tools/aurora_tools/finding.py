"""What is found out about a message: where in a file, what is wrong there, and what to do. Shown as lines below the message."""
import dataclasses
import difflib

from .front import blanked, clean

WIDTH = 100


@dataclasses.dataclass
class Finding:
    """Words, a remedy, and where known a line of a file: its number, its text, and the column of a caret."""
    words: str
    remedy: str = ""
    path: str = ""
    line: int = 0
    text: str | None = None
    column: int | None = None

    def lines(self):
        place = self.path + (f":{self.line}" if self.line else "") + ("" if self.column is None else f":{self.column + 1}")
        yield clean(f"  {place}{': ' if place else ''}{self.words}")
        if self.text is not None:
            shown, column = window(self.text, self.column)
            yield f"    {self.line} | {shown}".rstrip()
            if column is not None:
                yield f"    {' ' * len(str(self.line))} | {' ' * column}^"
        if self.remedy:
            yield clean(f"    {self.remedy}")


def window(text, column):
    """Returns what of a long line is shown round a column, and the column in it. A tab, and what can't be shown, is one blank."""
    text = blanked(text)
    begin = max(0, (column or 0) - WIDTH // 2) if len(text) > WIDTH else 0
    shown = ("..." if begin else "") + text[begin:begin + WIDTH] + ("..." if len(text) > begin + WIDTH else "")
    return shown, None if column is None else column - begin + (3 if begin else 0)


def near(word, words):
    """Returns a question that names the nearest of the words, or nothing."""
    lower = {it.lower(): it for it in words}
    found = difflib.get_close_matches(word.strip().lower(), lower, 1)
    return f" (is `{lower[found[0]]}` meant?)" if found else ""


def listed(words, joint="and"):
    """Returns words in a sentence."""
    words = [str(it) for it in words]
    return words[0] if len(words) == 1 else f"{', '.join(words[:-1])} {joint} {words[-1]}" if words else "none"


def shown_fields(fields):
    return ", ".join(f"{name}:{kind}" if kind else name for name, kind in fields.items())


def told_fields(fields):
    return f"The stream has the {'field' if len(fields) == 1 else 'fields'} {shown_fields(fields)}."


def counted(number, one, many=None):
    return f"{number:,} {one if number == 1 else many or one + 's'}"


def article(word):
    return f"an {word}" if word[:1] in "aeiou" and word != "union" else f"a {word}"
