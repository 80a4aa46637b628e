"""A network drawn by Graphviz, with what each box was fed and what each drop point left out."""
import re
import shutil
import subprocess

from .front import blanked

MOST_LETTERS = 44
HEAD = """digraph network { rankdir=LR; bgcolor="transparent"; nodesep=0.3; ranksep=0.45;
node [fontname="sans-serif" fontsize=11 shape=box style="filled" fillcolor="#ffffff" color="#555555"];
edge [fontname="sans-serif" fontsize=10 color="#777777" arrowsize=0.7];"""


def quoted(words):
    """Returns words as a text of DOT in one line, what can't be shown as a blank."""
    return '"' + blanked(words).replace("\\", "\\\\").replace('"', '\\"') + '"'


def cut(words):
    return words if len(words) <= MOST_LETTERS else words[:MOST_LETTERS - 3] + "..."


def says(box):
    """Returns what a box does, in a few lines."""
    kind = box["kind"]
    if kind == "filter":
        return [f".{port}: {it}" for port, it in enumerate(box["where"], 1)] + [f".{len(box['where']) + 1}: the rest"]
    if kind == "map":
        return [f"{name} = {it}" for name, it in box["set"] if name != it] or ["fewer fields"]
    if kind == "bsort":
        return [f"by {box['by']}, slack {box['slack']:,}"]
    if kind == "union":
        return []
    if kind == "join":
        return [f"within {box['size']:,}", f"on {box['on']}"]
    given = [", ".join(f"{name} = {' '.join(it)}" for name, *it in box["give"])]
    if kind == "resample":
        return [f"within {box['size']:,}", *given]
    phase = f" from {box['phase']:,}" if box.get("phase") else ""
    return [f"{box['size']:,} ticks, each {box['advance']:,}{phase}"] + ([f"by {', '.join(box['group'])}"] if box.get("group") else []) + given


def joined(lines):
    """Returns lines as a label, each in the middle."""
    return '"' + "\\n".join(quoted(line)[1:-1] for line in lines) + '"'


def label(lines):
    """Returns lines as a label, each from the left."""
    return '"' + "".join(quoted(cut(line))[1:-1] + "\\l" for line in lines) + '"'


def nodes(network, run):
    for number, source in enumerate(network.sources):
        yield f's{number} [shape=cylinder fillcolor="#e8f1fa" label={label([source["name"], source["file"]])}];'
    for number, box in enumerate(network.boxes):
        name = box["name"]
        fed = f"fed {run.fed[name]:,}" + (f", late {run.late[name]:,}" if run.late.get(name) else "") if name in run.fed else "fed: not told"
        yield f'b{number} [style="filled,rounded" label={label([name + ": " + box["kind"], *says(box), fed])}];'
    for number, output in enumerate(network.outputs):
        words = [output["name"], f"{len(run.shown(output)):,} lines", f"weight {output.get('weight', 1):,}"]
        yield f'o{number} [peripheries=2 fillcolor="#eaf6ea" label={label(words)}];'
    for number, drop in enumerate(network.drops):
        gone = len(run.gone[number])
        words = [f"drop {number}", f"batches of {drop.length:,}", f"{gone:,} left out"]
        yield f'd{number} [shape=hexagon margin=0.02 fillcolor="{"#fbe0dc" if gone else "#ffffff"}" label={joined(words)}];'


def edges(network):
    sources = {source["name"]: f"s{number}" for number, source in enumerate(network.sources)}
    giver = {stream: f"b{number}" if number is not None else sources[stream] for stream, number in network.givers.items()}
    port = {stream: f' [label="{stream[stream.rindex("."):]}"]' if "." in stream else "" for stream in network.givers}
    for number, drop in enumerate(network.drops):
        yield f"{giver[drop.stream]} -> d{number}{port[drop.stream]};"
    for arc, (stream, (kind, taker)) in enumerate(network.arcs):
        drop = next((number for number, it in enumerate(network.drops) if arc in it.arcs), None)
        yield f"{giver[stream]} -> {kind[0]}{taker}{port[stream]};" if drop is None else f"d{drop} -> {kind[0]}{taker};"


def drawn(network, run):
    """Returns the network as SVG, or None where Graphviz isn't installed or can't draw it."""
    if not shutil.which("dot"):
        return None
    text = "\n".join([HEAD, *nodes(network, run), *edges(network), "}"])
    made = subprocess.run(["dot", "-Tsvg"], input=text, capture_output=True, encoding="utf-8")
    if made.returncode:
        return None
    picture = made.stdout[made.stdout.find("<svg"):].replace(' xmlns:xlink="http://www.w3.org/1999/xlink"', "")
    natural = re.search(r'width="(\d+)pt"', picture)
    return picture.replace("<svg", f'<svg style="min-width:min(760px,{natural[1]}pt)"', 1) if natural else picture
