#!/usr/bin/env python3
"""Each refusal of examples/refused is explained as its NAME.explained says."""
import glob
import os
import unittest

import forked

TOP = os.path.dirname(os.path.dirname(os.path.dirname(os.path.abspath(__file__))))
REFUSED = f"{TOP}/examples/refused"


def read(path):
    with open(path, encoding="utf-8") as file:
        return file.read()


class Refusals(unittest.TestCase):
    maxDiff = None

    def test_each_is_explained(self):
        networks = sorted(glob.glob("*.toml", root_dir=REFUSED))
        self.assertGreater(len(networks), 20)
        for network in networks:
            name = network.removesuffix(".toml")
            more = read(f"{REFUSED}/{name}.words").split() if os.path.exists(f"{REFUSED}/{name}.words") else []
            with self.subTest(name):
                ran = forked.run([f"{TOP}/tools/explain", "--program", os.environ["AURORA"], network, *more], cwd=REFUSED)
                self.assertEqual(ran.stdout + ran.stderr, read(f"{REFUSED}/{name}.explained"))


if __name__ == "__main__":
    unittest.main()
