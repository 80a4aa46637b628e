"""The plans of a run under capacities, made of the same rule a second time, and what a run tells of its streams."""
import bisect
import collections
import csv
import fractions
import os
import re

from . import network, run_text

CAPACITY = re.compile(r"[0-9]{1,13},(?:-|[0-9]{1,24})")
TICK = re.compile(rb"[0-9]{1,13}")
MOST_RATE = 2**48
MULTIPLIER, WORD = 6364136223846793005, 2**64
Touched = collections.namedtuple("Touched", "batch level draw until")
Step = collections.namedtuple("Step", "quotient drop number loss saves")
Plan = collections.namedtuple("Plan", "epoch counts rates loads steps taken load capacity")


def rows_of(path):
    """Yields the lines of a capacity or stream file but for empty ones, in bytes."""
    with open(path, "rb") as file:
        for number, line in enumerate(file):
            line = (line if number else line.removeprefix(b"\xef\xbb\xbf")).removesuffix(b"\n").removesuffix(b"\r")
            if line:
                yield line


def capacities_of(path):
    """Returns the epochs of a capacity file, each with the capacity from it on, None without limit."""
    found = []
    for line in rows_of(path):
        row = next(csv.reader([line.decode(errors="replace")]))
        if len(row) != 2 or not CAPACITY.fullmatch(",".join(row)) or found and int(row[0]) <= found[-1][0]:
            raise network.Unreadable(f"{path}: {','.join(row)[:60]} is no line of capacities: aurora refuses it")
        found.append((int(row[0]), None if row[1] == "-" else int(row[1])))
    return found


def tick_of(line):
    digits = line.partition(b",")[0].strip(b'"')
    if not TICK.fullmatch(digits):
        raise network.Unreadable(f"{line[:40].decode(errors='replace')} has no tick: aurora refuses the stream")
    return int(digits)


def counted(net):
    """Returns how many tuples each source has in each epoch, and the last epoch with any tuple."""
    counts = collections.defaultdict(lambda: [0] * len(net.sources))
    for at, source in enumerate(net.sources):
        if os.path.exists(source["file"]) and not os.path.isfile(source["file"]):
            raise network.Unreadable(f"{source['file']} is no file, and can't be read again")
        for line in rows_of(source["file"]):
            counts[tick_of(line) // net.epoch][at] += 1
    return counts, max(counts, default=0)


def loads_of(net, counts):
    """Returns the load of each box by the counts of the sources in an epoch."""
    rates = rates_of(net, counts)
    return rates, [sum(rates[stream] for stream in box["in"]) * box.get("cost", 1) for box in net.boxes]


def busiest(net, counts):
    """Returns the epoch of the greatest load, the first of several, and that load."""
    return max(((-it, sum(loads_of(net, counts[it])[1])) for it in counts), key=lambda it: (it[1], it[0]), default=(0, 0))


def capacity_at(capacities, epoch):
    """Returns the capacity of an epoch, None where there is no limit."""
    at = bisect.bisect_right(capacities, epoch, key=lambda it: it[0])
    return capacities[at - 1][1] if at else None


def selectivity(box):
    ports = len(network.ports(box))
    return box.get("selectivity", [1000] * ports)


def rates_of(net, counts):
    """Returns the rate of each stream."""
    rates = {source["name"]: min(MOST_RATE, 1_000_000 * count) for source, count in zip(net.sources, counts)}

    def rate(stream):
        if stream not in rates:
            box = net.boxes[net.givers[stream]]
            taken = sum(map(rate, box["in"]))
            for name, part in zip(network.ports(box), selectivity(box)):
                rates[name] = min(MOST_RATE, taken * part // 1000)
        return rates[stream]

    for stream in net.givers:
        rate(stream)
    return rates


def worth(output, x):
    """Returns what an output is worth where x permille are shown, times its weight."""
    points = output.get("graph", [[0, 0], [1000, 1000000]])
    for (low, below), (high, above) in zip(points, points[1:]):
        if x <= high:
            return output.get("weight", 1) * (below + fractions.Fraction((above - below) * (x - low), high - low))
    return None


def steps_of(net, loads):
    """Returns all steps, the least loss for its saving first."""
    steps = []
    for at, drop in enumerate(net.drops):
        saves = sum(loads[it] for it in drop.boxes) // 20
        outputs = [net.outputs[it] for it in drop.outputs]
        for number in range(1, 21) if saves else []:
            loss = sum(worth(it, 1050 - 50 * number) - worth(it, 1000 - 50 * number) for it in outputs)
            steps.append(Step(fractions.Fraction(loss, saves), at, number, loss, saves))
    return sorted(steps)


def planned(net, epoch, counts, capacity):
    """Returns the plan of an epoch from the counts of the one before."""
    rates, loads = loads_of(net, counts)
    load, steps, taken, saved = sum(loads), steps_of(net, loads), 0, 0
    while capacity is not None and load - saved > capacity and taken < len(steps):
        saved += steps[taken].saves
        taken += 1
    return Plan(epoch, counts, rates, loads, steps, taken, load, capacity)


def plans_of(net, capacities):
    """Returns the plan of each epoch that is planned: it has tuples in the epoch before, and there is one in it or later."""
    counts, last = counted(net)
    return {it + 1: planned(net, it + 1, counts[it], capacity_at(capacities, it + 1)) for it in sorted(counts) if it < last}


def saved_by(plan):
    return sum(it.saves for it in plan.steps[:plan.taken])


def levels(net, plan):
    taken = collections.Counter(it.drop for it in plan.steps[:plan.taken])
    return [50 * taken[at] for at in range(len(net.drops))]


def draw(seed, drop, batch):
    """Returns the draw of a batch: the word of this number of the generator Lcg64Xsh32 for this seed and stream, modulo 1000."""
    add, factor, increment = 0, 1, 2 * drop + 1
    multiplier, steps = MULTIPLIER, batch
    state = ((seed + increment) * MULTIPLIER + increment) % WORD
    # So many steps as one: it is put together of those of 1, 2, 4 and so on.
    while steps:
        if steps % 2:
            factor, add = factor * multiplier % WORD, (add * multiplier + increment) % WORD
        increment, multiplier, steps = (multiplier + 1) * increment % WORD, multiplier * multiplier % WORD, steps // 2
    state = (state * factor + add) % WORD
    word, turn = (state >> 18 ^ state) >> 27 & 0xFFFFFFFF, state >> 59
    return ((word >> turn | word << (32 - turn)) & 0xFFFFFFFF) % 1000


def keep_of(net, drop):
    """Returns for how many ticks behind a batch of a drop its tuples are needed."""
    known, below, keep = net.ways(drop.arcs, drop.boxes), net.below(drop.arcs), 0
    for arc, (stream, taker) in enumerate(net.arcs):
        if arc in below and taker[0] == "output":
            lasts, reach = known[net.givers[stream]]
            keep = max(keep, reach + 1 - min(net.boxes[it]["advance"] - net.boxes[it].get("phase", 0) for it in lasts))
    return keep


def touched(net, plans, seed, number, tick):
    """Returns the batches of a drop that may need a tuple of this tick: of each its level, its draw, and until which tick it needs tuples where it is kept."""
    drop = net.drops[number]
    keep, length, found = keep_of(net, drop), drop.length, []
    for batch in range(max(0, tick - keep) // length, tick // length + 1):
        plan = plans.get(batch * length // net.epoch)
        level, drawn = levels(net, plan)[number] if plan else 0, draw(seed, number, batch)
        found.append(Touched(batch, level, drawn, None if drawn < level else (batch + 1) * length + keep))
    return found


def line_of(plan):
    """Returns what the line @plan of a plan tells, None where it takes no step."""
    fits = plan.capacity is None or plan.load - saved_by(plan) <= plan.capacity
    return run_text.Plan(plan.epoch, plan.load, plan.capacity, saved_by(plan), "fits" if fits else "short") if plan.taken else None


def streams_told(net, run):
    """Returns how many tuples each stream had, as far as the text tells by what was fed, late and shown; nothing below a drop that left out batches."""
    drops = [net.drops[number] for number, gone in run.gone.items() if gone]
    boxes, outputs = ({it for drop in drops for it in getattr(drop, what)} for what in ("boxes", "outputs"))
    known = {it["from"]: len(run.shown(it)) for number, it in enumerate(net.outputs) if number not in outputs}
    known |= {it["name"]: sum(1 for _ in rows_of(it["file"])) for it in net.sources if os.path.isfile(it["file"])}
    same = [(box["name"], box["in"][0]) for box in net.boxes if box["kind"] == "resample"]
    told = [box for number, box in enumerate(net.boxes) if box["name"] in run.fed and number not in boxes]
    sums = [(box["in"], run.fed[box["name"]]) for box in told]
    for box in told:
        if box["kind"] in ("filter", "map", "union", "bsort"):
            sums.append((network.ports(box), run.fed[box["name"]] - run.late.get(box["name"], 0)))
    while True:
        more = {name: known[first] for name, first in same if name not in known and first in known}
        for streams, total in sums:
            unknown = {it for it in streams if it not in known}
            if unknown and total == sum(known[it] for it in streams if it in known):
                more |= dict.fromkeys(unknown, 0)
            elif len(unknown) == 1:
                stream = unknown.pop()
                more[stream] = (total - sum(known[it] for it in streams if it != stream)) // streams.count(stream)
        if not more:
            return known
        known |= more
