#!/usr/bin/env python3
"""The recipes' networks give over drawn streams what plain definitions of their questions give."""
import collections
import math
import os
import random
import shutil
import subprocess
import tempfile
import unittest

RECIPES = os.path.join(os.path.dirname(os.path.abspath(__file__)), "..", "..", "examples", "recipes")


@unittest.skipUnless(os.environ.get("AURORA"), "there is no program")
class Recipes(unittest.TestCase):
    def shown(self, name, output, **streams):
        """Returns the lines of an output, fields as texts, of a recipe over these streams."""
        with tempfile.TemporaryDirectory() as room:
            shutil.copy(f"{RECIPES}/{name}.toml", room)
            for file, rows in streams.items():
                with open(f"{room}/{file}.csv", "w", encoding="utf-8") as stream:
                    stream.writelines(",".join(map(str, row)) + "\n" for row in rows)
            ran = subprocess.run([os.environ["AURORA"], "run", f"{name}.toml"], cwd=room, capture_output=True, text=True)
        self.assertEqual(ran.returncode, 0, ran.stderr)
        self.assertNotRegex(ran.stdout, r"(?m)^@late,\w+,[1-9]")
        return [tuple(line.split(",")[1:]) for line in ran.stdout.splitlines() if line.startswith(f"{output},")]

    def drawn(self, count, most_step, *fields, seed=1):
        """Returns rows of ticks and of fields that are drawn."""
        draw, tick, rows = random.Random(seed), 0, []
        for _ in range(count):
            tick += draw.randrange(most_step)
            rows.append((tick, *(draw.choice(it) for it in fields)))
        return rows

    def same(self, found, wanted):
        self.assertTrue(wanted)
        self.assertEqual(sorted(found), sorted(tuple(map(str, it)) for it in wanted))

    def test_distinct(self):
        rows = self.drawn(600, 4, "abcdefgh", ["home", "shop", "help"])
        visits = collections.Counter((tick // 60 * 60, page, user) for tick, user, page in rows)
        wanted = collections.defaultdict(list)
        for (window, page, _), count in visits.items():
            wanted[window, page].append(count)
        self.same(self.shown("distinct", "visitors", visits=rows), [(*key, len(it), sum(it)) for key, it in wanted.items()])
        self.same(self.shown("distinct", "once", visits=rows), [(*key, count) for key, count in collections.Counter(rows).items()])

    def test_top(self):
        rows = self.drawn(600, 4, "ab", "uvwxyz")
        counts = collections.Counter((tick // 60 * 60, page) for tick, _, page in rows)
        wanted = []
        for window in {it for it, _ in counts}:
            pages = sorted((-count, page) for (at, page), count in counts.items() if at == window)
            wanted += [(window, page, -count, rank) for rank, (count, page) in enumerate(pages[:2], 1)]
        self.same(self.shown("top", "top", visits=rows), wanted)

    def test_percentile(self):
        rows = self.drawn(900, 3, ["north", "south"], range(20, 400))
        times = collections.defaultdict(list)
        for tick, host, ms in rows:
            times[tick // 60 * 60, host].append(ms)
        self.same(self.shown("percentile", "p95", answers_ms=rows), [(*key, len(it), sorted(it)[math.ceil(0.95 * len(it)) - 1]) for key, it in times.items()])

    def test_sessions(self):
        rows = self.drawn(400, 900, "abcdef")
        last, sessions = {}, []
        for tick, user in rows:
            if user not in last or tick - last[user][-1] > 1800:
                last[user] = []
                sessions.append((user, last[user]))
            last[user].append(tick)
        whole = [(it[0] // 1800 * 1800, user, it[0], len(it), it[-1] - it[0]) for user, it in sessions]
        self.assertLessEqual(max(it[-1] for it in whole), 12600)
        self.same(self.shown("sessions", "sessions", clicks=rows), whole)

    def test_hysteresis(self):
        rows = [(tick, at, kettle, celsius) for at, (tick, kettle, celsius) in enumerate(self.drawn(500, 30, "abc", range(60, 95)), 1)]
        states, wanted = {}, []
        for tick, number, kettle, celsius in rows:
            if (celsius >= 80 or celsius < 70) and states.get(kettle) is not (celsius >= 80):
                hot = states[kettle] = celsius >= 80
                wanted.append((tick, number, kettle, celsius, str(hot).lower(), str(not hot).lower()))
        self.same(self.shown("hysteresis", "turns", kettles=rows), wanted)

    def test_unpaid(self):
        orders = [(tick, at, cents) for at, (tick, cents) in enumerate(self.drawn(300, 200, range(1, 900)), 1)]
        draw = random.Random(2)
        payments = sorted((tick + draw.randrange(15_000), at) for tick, at, _ in orders if draw.random() < 0.9)
        paid = dict((at, tick) for tick, at in payments)
        wanted = [(tick, at, cents, 0) for tick, at, cents in orders if at not in paid or paid[at] - tick > 7200]
        self.same(self.shown("unpaid", "unpaid", orders=orders, payments=payments), wanted)


if __name__ == "__main__":
    unittest.main()
