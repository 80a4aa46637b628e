"""How far slices of a run by time reach into its sources, and where they may end: what `aurora_slices` tells, and what plans need beside."""
import collections
import json
import math
import os
import subprocess
import tempfile

from . import network
from .parts import Stop
from .planning import keep_of

MOST_BOXES, MOST_OUTPUTS = 128, 32
Reach = collections.namedtuple("Reach", "back ahead step phase")


def asked(program, words):
    """Returns what the program tells of each output and of the run, by name. It stops where it refuses the network or has no slices of the run."""
    said = subprocess.run([program, *words], capture_output=True, text=True)
    lines = [line.split(",") for line in said.stdout.splitlines()]
    if said.returncode == 1:
        uncut = ", ".join(name for name, *rest in lines if rest == ["uncut"])
        name, box, kind = lines[-1]
        raise Stop(f"no slices of time make {uncut or 'the run'}: the {kind} {box} can't be sliced: tell by --delay how many ticks after its time a tuple comes to it at most", 1)
    if said.returncode:
        raise Stop(said.stderr.rstrip("\n"), said.returncode)
    return {name: Reach(*map(int, rest[-4:])) for name, *rest in lines}


def delay_words(delay):
    return [] if delay is None else ["--delay", str(delay)]


def text_of(table):
    """Returns the text of a network file."""
    lines = [f"{name} = {value_of(value)}" for name, value in table.items() if not is_tables(value)]
    for name, tables in table.items():
        for entries in tables if is_tables(tables) else ():
            lines += [f"[[{name}]]", *(f"{json.dumps(key)} = {value_of(value)}" for key, value in entries.items())]
    return "\n".join(lines) + "\n"


def is_tables(value):
    return isinstance(value, list) and bool(value) and all(isinstance(it, dict) for it in value)


def value_of(value):
    if isinstance(value, list):
        return f"[{', '.join(map(value_of, value))}]"
    return json.dumps(value, ensure_ascii=False).replace("\x7f", "\\u007f")


# ---- plans

def reaches_of_streams(program, net, delay, streams):
    """Returns the reaches of streams: those of outputs that a network has of them."""
    found = []
    for first in range(0, len(streams), MOST_OUTPUTS):
        outputs = [{"name": f"o{number}", "from": stream} for number, stream in enumerate(streams[first:first + MOST_OUTPUTS])]
        with tempfile.TemporaryDirectory() as room:
            with open(f"{room}/network.toml", "w", encoding="utf-8") as file:
                file.write(text_of({**net.table, "output": outputs}))
            told = asked(program, [*delay_words(delay), f"{room}/network.toml"])
        found += [told[it["name"]] for it in outputs]
    return found


def with_plans(program, net, delay, reach):
    """Returns the reach of slices that show the whole's plans too: they end at epochs and at batches of each drop, have the epoch before, and of each
    drop's stream what is kept for their last batch."""
    drops = net.drops
    step = math.lcm(reach.step, net.epoch, *(drop.length for drop in drops))
    back, ahead = max(reach.back, net.epoch), reach.ahead + reach.phase
    for drop, own in zip(drops, reaches_of_streams(program, net, delay, [drop.stream for drop in drops])):
        kept = keep_of(net, drop)
        to_cut = (own.phase - kept) % own.step if step % own.step == 0 else own.step - 1
        back, ahead = max(back, own.back + (delay or 0)), max(ahead, kept + to_cut + own.ahead)
    return Reach(back, ahead, step, 0)


# ---- delays

def with_checks(net, delay):
    """Returns the network with an output for each BSort that has the tuples that came to it later than so many ticks after their time, and of
    each such output, by name, the BSort. A Filter that costs nothing, beside a BSort, changes no plan: above a BSort nothing is dropped."""
    taken = {it["name"] for it in [*net.sources, *net.boxes, *net.outputs]}
    fresh = (name for name in (f"delayed{number}" for number in range(1000)) if name not in taken)
    checks = [(next(fresh), box) for box in net.boxes if box["kind"] == "bsort"]
    if len(net.boxes) + len(checks) > MOST_BOXES or len(net.outputs) + len(checks) > MOST_OUTPUTS:
        raise Stop(f"there is no room for a Filter and an output beside each BSort, which show that none comes later than the delay: a run has {MOST_BOXES} boxes and {MOST_OUTPUTS} outputs")
    boxes = [{"name": name, "kind": "filter", "in": list(box["in"]), "where": [f"time - {box['by']} > {delay}"], "cost": 0} for name, box in checks]
    outputs = [{"name": name, "from": f"{name}.1", "weight": 0} for name, _ in checks]
    places = {name: [box["name"], 2 + list(net.fields(box["in"][0])).index(box["by"])] for name, box in checks}
    return text_of({**net.table, "box": net.boxes + boxes, "output": net.outputs + outputs}), places


# ---- all of it

def of_run(program, path, delay, capacities):
    """Returns the network, the names of its outputs, the reach of its slices, what each part runs where it isn't the network itself, and its checks."""
    told = asked(program, [*delay_words(delay), path])
    reach = told.pop("@run")
    net = network.Network(path)
    if capacities:
        reach = with_plans(program, net, delay, reach)
    text, checks = with_checks(net, delay) if delay is not None and any(box["kind"] == "bsort" for box in net.boxes) else (None, {})
    return net, list(told), reach, text, checks
