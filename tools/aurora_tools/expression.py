"""The expressions of networks: their tokens, their trees, and of which kinds their parts are."""
import dataclasses
import re

TOKEN = re.compile(r"'(?:[^']|'')*'|[a-z][a-z0-9_]*|[0-9]+|<>|<=|>=|[()+\-*/%=<>]")
KEYWORDS = ("and", "or", "not", "is", "null", "true", "false", "time")
COMPARISONS = ("=", "<>", "<", "<=", ">", ">=")
LEVELS = (("or",), ("and",), ("not",), COMPARISONS, ("+", "-"), ("*", "/", "%"))
OPERATORS = ("and", "or", "not", "is")
MOST_NUMBER, MOST_TEXT, MOST_OPEN = (1 << 63) - 1, 255, 64


@dataclasses.dataclass
class Node:
    """A part of an expression: an operator with its sides, or a name or value; where it begins and ends."""
    word: str
    sides: list
    begin: int
    end: int


@dataclasses.dataclass
class Misfit:
    """What doesn't fit in an expression, and where."""
    at: int
    words: str
    field: str | None = None


def tokens(text):
    """Returns the tokens before the first place where none begins, each with its offset."""
    found, at = [], 0
    while at < len(text):
        token = TOKEN.match(text, at)
        if text[at] != " " and not token:
            break
        if token:
            found.append((token[0], at))
        at = token.end() if token else at + 1
    return found


class Parser:
    """Reads the tree of an expression. Where the program reads none it raises ValueError."""

    def __init__(self, text):
        found = tokens(text)
        end = found[-1][1] + len(found[-1][0]) if found else 0
        if text[end:].strip(" "):
            raise ValueError("no token begins here")
        self.tokens, self.at, self.open = [*found, ("", len(text))], 0, 0

    def next(self):
        return self.tokens[self.at][0]

    def take(self, *words):
        """Takes the next token, which must be one of these words where any are given."""
        if words and self.next() not in words:
            raise ValueError("another token must stand here")
        self.at += 1
        return self.tokens[self.at - 1]

    def within(self, depth):
        """Reads what stands behind a parenthesis, a `not` or a sign."""
        self.open += 1
        if self.open > MOST_OPEN:
            raise ValueError("too many are open")
        inner = self.operand() if depth is None else self.level(depth)
        self.open -= 1
        return inner

    def level(self, depth):
        """Reads an expression whose operators are of this level or bind more tightly."""
        if depth == len(LEVELS):
            return self.operand()
        if LEVELS[depth] == ("not",):
            return self.prefixed("not", depth) if self.next() == "not" else self.level(depth + 1)
        node = self.level(depth + 1)
        while self.next() in LEVELS[depth]:
            word, _ = self.take()
            right = self.level(depth + 1)
            node = Node(word, [node, right], node.begin, right.end)
            if word in COMPARISONS:
                return node
        return self.asked_for_null(node) if LEVELS[depth] == COMPARISONS and self.next() == "is" else node

    def prefixed(self, word, depth):
        _, begin = self.take()
        inner = self.within(depth)
        return Node(word, [inner], begin, inner.end)

    def asked_for_null(self, node):
        self.take("is")
        if self.next() == "not":
            self.take()
        word, at = self.take("null")
        return Node("is null", [node], node.begin, at + len(word))

    def operand(self):
        word, begin = self.take()
        if word == "-":
            inner = self.within(None)
            return Node("-", [inner], begin, inner.end)
        if word == "(":
            inner = self.within(0)
            _, close = self.take(")")
            return Node(inner.word, inner.sides, begin, close + 1)
        if not is_leaf(word):
            raise ValueError("a value must stand here")
        return Node(word, [], begin, begin + len(word))


def is_leaf(word):
    """Says whether a token is a value or a name."""
    if word[:1].isdigit():
        return len(word.lstrip("0")) < 20 and int(word) <= MOST_NUMBER
    if word[:1] == "'":
        return 1 <= len(word[1:-1].replace("''", "'").encode()) <= MOST_TEXT
    return word[:1].isalpha() and word not in OPERATORS


def tree(text):
    parser = Parser(text)
    node = parser.level(0)
    parser.take("")
    return node


def kind_of(node, fields, misfits, text):
    """Returns the kind of a node over fields, `null` or None where it isn't known, and appends what doesn't fit."""
    kinds = [kind_of(side, fields, misfits, text) for side in node.sides]
    word = node.word
    if not kinds:
        return leaf_kind(node, fields, misfits)
    if word == "is null":
        return "bool"
    if word in COMPARISONS:
        left, right = kinds
        if left != right and not {left, right} & {None, "null"}:
            sides = " and ".join(f"`{part(text, side)}` is of the kind {kind}" for side, kind in zip(node.sides, kinds))
            misfits.append(Misfit(node.begin, f"`{word}` compares two values of one kind, and here {sides}"))
        return "bool"
    wanted, said = ("bool", "booleans") if word in ("and", "or", "not") else ("int", "numbers")
    for side, kind in zip(node.sides, kinds):
        if kind not in (wanted, None, "null"):
            misfits.append(Misfit(side.begin, f"`{word}` is for {said}, and `{part(text, side)}` is of the kind {kind}"))
    return wanted


def leaf_kind(node, fields, misfits):
    word = node.word
    if word[0].isdigit() or word == "time":
        return "int"
    if word[0] == "'":
        return "text"
    if word in ("true", "false"):
        return "bool"
    if word == "null":
        return "null"
    if word not in fields:
        misfits.append(Misfit(node.begin, f"there is no field `{word}`", word))
    return fields.get(word)


def part(text, node):
    return text[node.begin:node.end]


def checked(text, fields):
    """Returns the kind of an expression and what doesn't fit in it. What can't be read has no kind and no misfits."""
    misfits = []
    try:
        return kind_of(tree(text), fields, misfits, text), misfits
    except (IndexError, ValueError, RecursionError):
        return None, []
