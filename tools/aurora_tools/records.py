"""Records of what a run writes: one ends at a line feed outside of quotes, since a text in quotes may have line feeds. Quotes in it are doubled."""
import itertools

# So many lines are looked at together.
MANY = 2048


def blocks(lines):
    """Yields the records of lines, in bytes or in text, each with its line feed, many in a list. What isn't ended is the last."""
    lines, held = iter(lines), []
    while block := list(itertools.islice(lines, MANY)):
        nothing = block[0][:0]
        quote = '"' if isinstance(nothing, str) else b'"'
        if held or quote in nothing.join(block):
            block, held = parted(block, held, quote)
        yield block
    if held:
        yield [held[0][:0].join(held)]


def parted(lines, held, quote):
    """Returns the records of lines, the first of which goes on with those that are held, and the lines of one that goes on behind them."""
    found = []
    for line in lines:
        is_odd = line.count(quote) % 2 == 1
        if is_odd == bool(held):
            found.append(line[:0].join([*held, line]) if held else line)
            held = []
        else:
            held.append(line)
    return found, held


def records(lines):
    """Yields the records of lines one by one."""
    return itertools.chain.from_iterable(blocks(lines))


def whole(text):
    """Returns a text up to the end of its last record that is ended."""
    end = text.rfind("\n") + 1
    quotes = text.count('"', 0, end)
    while quotes % 2:
        before = text.rfind("\n", 0, end - 1) + 1
        quotes -= text.count('"', before, end)
        end = before
    return text[:end]
