"""The lines that a chart of an output has: which fields are shown, which tell lines apart, and where a line breaks."""
import collections
import dataclasses
import statistics


@dataclasses.dataclass
class Series:
    """The lines of one field: its name, and of each line the points by the line's name; a value that is missing is None."""
    field: str
    lines: dict


def roles(network, output):
    """Returns the places of the fields that are shown, which are numbers, and of those that tell lines apart."""
    fields = network.fields(output["from"])
    groups = {name for box in network.boxes for name in box.get("group", [])}
    numbers = [at for at, kind in enumerate(fields.values()) if kind in ("int", None)]
    shown = [at for at in numbers if list(fields)[at] not in groups] or numbers
    return shown, [at for at in range(len(fields)) if at not in shown and (at not in numbers or list(fields)[at] in groups)]


def series_of(network, output, rows):
    """Returns the series of each field with numbers; where there is none, one whose values are all missing."""
    shown, keys = roles(network, output)
    names = list(network.fields(output["from"]))
    found = []
    for at in shown or [None]:
        lines = collections.defaultdict(list)
        for time, fields in rows:
            lines[" ".join(fields[key] or "-" for key in keys)].append((time, int(fields[at]) if at is not None and fields[at] else None))
        found.append(Series(names[at] if at is not None else "", dict(lines)))
    return found


def usual_step(points):
    """Returns the most ticks between two tuples of a line that has no gap: half as many again as most have."""
    steps = [after[0] - now[0] for now, after in zip(points, points[1:])]
    return 1.5 * statistics.median(steps) if steps else 0


def pieces(points, gone, least=0):
    """Cuts a line where a value is missing, at a step that is longer than usual and than the least, and at a span that was left out."""
    most = max(usual_step(points), least)
    found, before, spans = [], None, iter(gone)
    span = next(spans, None)
    for time, value in points:
        while span and span[1] <= (before if before is not None else time):
            span = next(spans, None)
        crossed = before is not None and span is not None and before < span[1] and span[0] < time
        if value is None:
            before = None
            continue
        if before is None or time - before > most or crossed:
            found.append([])
        found[-1].append((time, value))
        before = time
    return found
