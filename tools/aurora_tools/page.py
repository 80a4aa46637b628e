"""A run and its network as one page of HTML, without scripts, links and further files."""
import bisect

from . import charts, graph, run_text, series
from .finding import counted, listed

STYLE = """
:root{color-scheme:light dark}body{font:15px/1.45 system-ui,sans-serif;margin:0 auto;padding:1em 1.2em 3em;max-width:1280px;color:#222;background:#fff}
h1{font-size:1.5em}h2{font-size:1.2em;margin:1.8em 0 .4em;border-bottom:1px solid #ccc}h3{font-size:1em;margin:1.2em 0 .2em}
.wide{overflow-x:auto}.wide svg{display:block;width:100%;min-width:600px;height:auto}.network svg{min-width:0;width:auto;max-width:100%}
.legend{margin:0 0 .6em;padding-left:min(5.5em,8%);font-size:.88em}.legend span{margin-right:1.1em;white-space:nowrap}
.legend i{display:inline-block;width:1.3em;height:.3em;margin-right:.4em;vertical-align:middle}
table{border-collapse:collapse;font-size:.93em;margin:.5em 0}th,td{border:1px solid #ccc;padding:.15em .6em;text-align:right;white-space:nowrap}
th{background:#f3f3f3}th:first-child,td:first-child{text-align:left}.note{color:#555;font-size:.93em}
.state{padding:.5em .8em;border-left:5px solid}.good{background:#e9f6e9;border-color:#3a8f3a}.bad{background:#fdeaea;border-color:#c03030}
svg .kept{fill:KEPT}svg .saved{fill:SAVED}svg .capacity{stroke:CAPACITY;stroke-width:2}
"""
# Graphviz made the boxes for texts of this size.
NETWORK = """.network svg text{font:10.5px sans-serif}
"""
DARK = """@media(prefers-color-scheme:dark){body{color:#ddd;background:#15171a}h2{border-color:#444}th,td{border-color:#444}th{background:#24272b}.note{color:#aaa}
.good{background:#16301a}.bad{background:#3d1a1a}svg text,.network svg text{fill:#ccc}svg .grid{stroke:#34383d}svg .frame{stroke:#777}svg .gone{fill:#4a4e54}
.network [fill="#ffffff"]{fill:#24272b}.network [fill="#e8f1fa"]{fill:#1c3145}.network [fill="#eaf6ea"]{fill:#1b3520}.network [fill="#fbe0dc"]{fill:#552a25}
.network [stroke="#555555"]{stroke:#999}}
"""
MOST_SPANS, MOST_PLANS = 12, 300


def style():
    """Returns how the page looks, on a light ground and on a dark one."""
    return STYLE.replace("KEPT", charts.KEPT).replace("SAVED", charts.SAVED).replace("CAPACITY", charts.CAPACITY) + charts.STYLE + NETWORK + DARK


def table(heads, rows):
    def cells(tag, row):
        return "".join(f"<{tag}>{charts.escaped(str(it))}</{tag}>" for it in row)
    return f'<div class="wide"><table><tr>{cells("th", heads)}</tr>' + "".join(f"<tr>{cells('td', row)}</tr>" for row in rows) + "</table></div>"


def spans_told(axis, spans):
    """Returns spans of ticks in words; where ticks are seconds each day is named once."""
    told, day = [], None
    for low, high in spans:
        ends = [axis.text(low)] if low == high - 1 else [axis.text(low), axis.text(high - 1)]
        shown = []
        for end in ends:
            date, _, clock = end.partition(" ")
            shown.append(clock if clock and date == day else end)
            day = date if clock else None
        told.append(" to ".join(shown))
    return ", ".join(told)


def state(network, run):
    """Says whether the run came to its end, and what is missing."""
    if not run.whole:
        return ('<p class="state bad">The run didn\'t come to its end: the text has no <code>@end</code>. What is here is the beginning of each '
                "output; what would follow isn't known, and more is missing than is grey below.</p>")
    gone = listed(f"{counted(len(batches), 'batch', 'batches')} of drop {number}" for number, batches in sorted(run.gone.items()) if batches)
    missing = f"Under load it left out {gone}: the windows that are grey below." if run.batches else "It left out no windows: each output is whole."
    late = sum(run.late.values())
    too_late = f" A BSort left out {counted(late, 'tuple')}, too late or without a time." if late else ""
    return f'<p class="state good">The run came to its end. {missing}{too_late}</p>'


def axis_of(network, run, seconds):
    times = [time for rows in run.rows.values() for time, _ in rows]
    times += [edge for output in range(len(network.outputs)) for low, high in run_text.missing(network, run, output) for edge in (low, high - 1)]
    return charts.Axis(min(times), max(times), seconds) if times else None


def output_part(network, run, number, axis, colours):
    """Returns what the page has of an output: how much is shown, what was left out, a panel for each of its fields."""
    output, drop = network.outputs[number], run_text.drop_above(network, number)
    rows, gone = run.shown(output), run_text.missing(network, run, number)
    more = f", and {counted(len(gone) - MOST_SPANS, 'span')} more" if len(gone) > MOST_SPANS else ""
    left_out = f"Left out by drop {drop}: the windows that start from {spans_told(axis, gone[:MOST_SPANS])}{more}." if gone else ""
    if not gone and run.whole:
        left_out = "Nothing of it was left out."
    stream, weight = f"the stream <code>{charts.escaped(output['from'])}</code>", f"weight {output.get('weight', 1):,}"
    parts = [f"<h3>{charts.escaped(output['name'])}</h3><p>{counted(len(rows), 'line')} of {stream}, {weight}. {left_out}</p>"]
    if rows or gone:
        for one in series.series_of(network, output, rows):
            parts.append(charts.panel(one, gone, axis, colours))
    return "".join(parts)


def plans_part(network, run, axis):
    """Returns the loads and capacities of the epochs that have a plan, as bars and as a table with what went of each drop."""
    rows = []
    for plan in run.plans[:MOST_PLANS]:
        begin, end = plan.epoch * network.epoch, (plan.epoch + 1) * network.epoch
        row = [f"{plan.epoch:,}", axis.text(begin), f"{plan.load:,}", f"{plan.capacity:,}", f"{plan.saved:,}", plan.verdict]
        for number, drop in enumerate(network.drops):
            batches = range(-(-begin // drop.length), -(-end // drop.length))
            gone = run.gone[number]
            levels = [level for _, level in gone[bisect.bisect_left(gone, (batches.start,)):bisect.bisect_left(gone, (batches.stop,))]]
            went = f"{len(levels)} of {len(batches)}" if batches else "none begins"
            row.append(went + (f" (level {levels[0]})" if levels else ""))
        rows.append(row)
    heads = ["epoch", "from tick", "load", "capacity", "planned saving", "verdict"]
    heads += [f"drop {number}, at {drop.stream}" for number, drop in enumerate(network.drops)]
    more = charts.note(f"{len(run.plans) - MOST_PLANS:,} plans more aren't listed.") if len(run.plans) > MOST_PLANS else ""
    return ("<h2>Plans</h2>" + charts.loads(run.plans, network.epoch, axis.seconds) + table(heads, rows) + more +
            '<p class="note">A load is estimated from the epoch before. An epoch that isn\'t here had no plan that takes a step. Of each drop stands '
            "how many of the batches that begin in the epoch were left out; a level is the chance of each of them in permille, so of few batches "
            "more or fewer go.</p>")


def boxes_part(network, run):
    def told(counts, name, otherwise):
        return f"{counts[name]:,}" if name in counts else otherwise
    rows = [(box["name"], box["kind"], told(run.fed, box["name"], "not told"), told(run.late, box["name"], "")) for box in network.boxes]
    return "<h2>Boxes</h2>" + table(["box", "kind", "tuples fed", "late"], rows) if rows else ""


def made(network, run, title, seconds):
    """Returns the page."""
    axis, picture = axis_of(network, run, seconds), graph.drawn(network, run)
    parts = ['<!doctype html><html lang="en"><meta charset="utf-8"><meta name="viewport" content="width=device-width">']
    parts.append(f"<title>{charts.escaped(title)}</title><style>{style()}</style><h1>{charts.escaped(title)}</h1>{state(network, run)}<h2>Network</h2>")
    parts.append(f'<div class="wide network">{picture}</div>' if picture else "<p>Not drawn: Graphviz wasn't there.</p>")
    colours = {}
    parts.append("<h2>Outputs</h2>")
    if axis is None:
        parts.append("<p>No output has a line.</p>")
    parts += [output_part(network, run, number, axis, colours) for number in range(len(network.outputs)) if axis]
    parts.append(plans_part(network, run, axis or charts.Axis(0, 1, seconds)) if run.plans else "")
    parts.append(boxes_part(network, run))
    parts.append('<p class="note">Grey are windows that the run says it left out: what was there isn\'t known. A line that breaks elsewhere had no '
                 f"tuple there. Ticks are {'seconds since 1970, shown in UTC' if seconds else 'shown as they are'}. The page is made from the lines "
                 "of the run by a script, which isn't proved.</p></html>\n")
    return "\n".join(parts)
