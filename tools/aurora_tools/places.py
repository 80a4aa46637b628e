"""Where in the text of a TOML document its tables, its keys and the entries of its lists stand."""
import re

TOKEN = re.compile(
    r'(?P<text>"""(?:\\.|[^\\])*?"""|\'\'\'.*?\'\'\'|"(?:\\.|[^"\\\n])*"|\'[^\'\n]*\')'
    r"|(?P<comment>#[^\n]*)|(?P<open>[\[{])|(?P<close>[\]}])|(?P<comma>,)|(?P<newline>\n)|(?P<blank>[^\S\n]+)|(?P<word>[^\s,\[\]{}#\"']+|.)",
    re.DOTALL)
HEADER = re.compile(r"\[\[?([^\[\]\n]*)\]\]?")
# Where one long text isn't closed none behind it is looked for: each would be looked for up to the end.
SHORT_TOKEN = re.compile(TOKEN.pattern.replace(r'"""(?:\\.|[^\\])*?"""|\'\'\'.*?\'\'\'|', ""), re.DOTALL)
KEY = re.compile(r"([A-Za-z0-9_-]+|\"[^\"\n]*\"|'[^'\n]*')[ \t]*=")
VALUE = "="
# No entry of a network lies in more lists than these.
MOST_DEEP = 4


class Places:
    """The offsets of a document's parts. A part is a table's name and its number among those of that name; the top's name is empty."""

    def __init__(self, text):
        self.text, self.tables, self.keys, counts, part = text, {("", 0): 0}, {}, {}, ("", 0)
        self.tokens = TOKEN
        at = 0
        while at < len(text):
            header, key = HEADER.match(text, at), KEY.match(text, at)
            if header:
                name = header[1].strip(" \t").strip("\"'")
                part = (name, counts.get(name, 0))
                counts[name] = part[1] + 1
                self.tables[part] = at
                at = header.end()
            elif key:
                self.keys[part, key[1].strip("\"'")] = at
                at = self.value(key.end(), (part, key[1].strip("\"'")))
            else:
                at = self.token(at).end()

    def token(self, at):
        found = self.tokens.match(self.text, at)
        if found[0] in ('""', "''") and self.text.startswith(found[0] + found[0][0], at):
            self.tokens = SHORT_TOKEN
        return found

    def value(self, at, key):
        """Notes where a value's entries stand, those in lists of lists too, and returns where it ends."""
        path = []
        while at < len(self.text):
            found = self.token(at)
            kind = found.lastgroup
            if kind in ("text", "open", "word") and len(path) <= MOST_DEEP:
                self.keys.setdefault((*key, *(path or [VALUE])), at)
            if kind == "newline" and not path:
                break
            if kind == "open":
                path.append(0)
            elif kind == "close" and path:
                path.pop()
            elif kind == "comma" and path:
                path[-1] += 1
            at = found.end()
        return at

    def offset(self, name, number, *path):
        """Returns the offset of a table, of a key in it, of its value or of an entry of its list; of what is round it where it isn't found."""
        while path:
            if ((name, number), *path) in self.keys:
                return self.keys[(name, number), *path]
            path = path[:-1]
        return self.tables.get((name, number), self.keys.get((("", 0), name, number), self.keys.get((("", 0), name), 0)))

    def line(self, offset):
        return line_and_column(self.text, offset)[0]


def line_and_column(text, offset):
    """Returns the line, from 1, and the column, from 0, of an offset."""
    return text.count("\n", 0, offset) + 1, offset - (text.rfind("\n", 0, offset) + 1)
