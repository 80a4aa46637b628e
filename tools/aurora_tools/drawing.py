"""The outputs of a run as one picture: an SVG of the charts that a report has, with the names of lines beside them."""
from . import charts, run_text, series

BESIDE, LINE, HEAD, MOST_LETTERS, MOST_NAMES = 190, 15, 22, 30, 40
GROUND = "svg{background:#fff}"


def names_beside(entries, top):
    """Returns the colours of lines with their names, to the right of the drawing, and how much room they take."""
    parts = []
    for at, (name, colour) in enumerate(entries[:MOST_NAMES]):
        y = top + charts.TOP + 8 + LINE * at
        short = name if len(name) <= MOST_LETTERS else name[:MOST_LETTERS - 2] + ".."
        parts.append(f'<rect x="{charts.WIDTH + 8}" y="{y - 6:.1f}" width="14" height="4" fill="{colour}"/>' + charts.text(charts.WIDTH + 28, y, short, title=name))
    return "".join(parts), (charts.TOP + 8 + LINE * len(parts) if parts else 0)


def chosen(network, output, rows, field):
    """Returns the series of a field of an output, the last one where none is named; None where it has no such number."""
    found = series.series_of(network, output, rows)
    return found[-1] if field is None else next((it for it in found if it.field == field), None)


def made(network, run, columns, axis):
    """Returns the picture, or None where there is nothing to draw."""
    parts, top, colours, beside_any = [], 0, {}, False
    for number, output in enumerate(network.outputs):
        rows, gone = run.shown(output), run_text.missing(network, run, number)
        if not rows:
            continue
        drawn = charts.drawn(chosen(network, output, rows, columns.get(output["name"])), gone, axis, colours)
        beside, room = names_beside(drawn.entries, top + HEAD)
        parts.append(charts.text(8, top + 15, output["name"], "output") + f'<g transform="translate(0 {top + HEAD})">{drawn.inside}</g>{beside}')
        high, beside_any = max(drawn.height, room), beside_any or bool(beside)
        if drawn.note:
            parts.append(charts.text(charts.LEFT, top + HEAD + high + 12, drawn.note))
        top += HEAD + high + (18 if drawn.note else 0) + 8
    if not parts:
        return None
    wide, style = charts.WIDTH + (BESIDE if beside_any else 8), charts.STYLE + "svg .output{font-size:14px;font-weight:bold}" + GROUND
    size = f'width="{wide}" height="{top:.0f}" viewBox="0 0 {wide} {top:.0f}"'
    ground = f'<rect width="{wide}" height="{top:.0f}" fill="#fff"/>'
    return f'<svg xmlns="http://www.w3.org/2000/svg" {size}><style>{style}</style>{ground}{"".join(parts)}</svg>\n'
