"""The rules of joining a query to a stream, and the words of a tap."""
from .finding import Finding, counted, near, shown_fields
from .front import is_between
from .network import Network, read
from .places import line_and_column

MOST = (1 << 40) - 1


class TapWords:
    """NET, STREAM, TICK, HISTORY and QUERY of a tap as they were written, and what is wrong with them."""

    def __init__(self, words):
        words = list(words)
        self.options, self.faults, self.text = {}, [], ""
        net, self.stream, tick, history, self.query = (words + [""] * 5)[:5]
        self.nets = [net, self.query]
        if len(words) != 5:
            self.faults.append(f"a tap takes five words, NET STREAM TICK HISTORY QUERY, and no options; these are {counted(len(words), 'word')}")
            return
        for name, text in (("NET", net), ("STREAM", self.stream), ("QUERY", self.query)):
            if not text or text.startswith("-"):
                self.faults.append(f"{name} is `{text}`, and a name doesn't begin with a dash: a file of this name is written `./{text}`")
        for name, text in (("TICK", tick), ("HISTORY", history)):
            if not is_between(text, 0, MOST) or len(text) > 13:
                self.faults.append(f"{name} is `{text}`, and must be 0 to {MOST:,}, in digits")


def no_stream(network, query, words):
    numbered = [name for name in network.givers if name.startswith(f"{words.stream}.")]
    more = f": a Filter's ports have numbers, {' or '.join(numbered)}" if numbered else near(words.stream, network.givers)
    return Finding(f"{network.path} has no stream `{words.stream}`{more}", "STREAM is the name of a source, of a box, or of a port of a Filter, as in `in`.")


def sources(network, query, words):
    line, _ = line_and_column(query.text, query.places.offset("source", 1))
    return Finding(f"a query has one source, which stands for the stream; this one has {len(query.sources)}", "", query.path, line,
                   query.text.split("\n")[line - 1])


def schema(network, query, words):
    line, column = line_and_column(query.text, query.places.offset("source", 0, "fields"))
    have, want = query.fields(query.sources[0]["name"]), network.fields(words.stream)
    return Finding(f"the stream `{words.stream}` has {shown_fields(want)}; the query's source has {shown_fields(have)}",
                   "The kinds must be the same, in their order; names may differ.", query.path, line, query.text.split("\n")[line - 1], column)


def limit(network, query, words):
    return Finding(f"joined, the boxes that `{words.stream}` needs and the query's {counted(len(query.boxes), 'box', 'boxes')} are more than 128 with one between "
                   "them, or windows on a way through both are too wide", "Ask a stream that is nearer to the sources, or put windows of the query apart.")


RULES = {"NoStream": no_stream, "Sources": sources, "Schema": schema, "Limit": limit}


def tap_finding(words, rule):
    """Returns what is found of a rule of joining."""
    return RULES[rule](read(words.nets[0]), Network(words.query), words)
