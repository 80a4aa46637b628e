#!/usr/bin/env python3
"""By which columns the outputs of a network can be had from parts: what `aurora_keys` writes and says, and how it ends."""
import os
import subprocess
import tempfile
import unittest

KEYS = os.environ.get("AURORA_KEYS", "")

NETWORK = """version = 1
source = [
  {name='trades', file='t.csv', fields=['symbol:text', 'price:int']},
  {name='rates', file='r.csv', fields=['at:int', 'rate:int']},
]
box = [
  {name='ticks', kind='bsort', in=['rates'], by='at', slack=3},
  {name='dear', kind='filter', in=['trades'], where=['price > 9']},
  {name='named', kind='map', in=['dear.1'], set=[['cost', 'price'], ['name', 'symbol']]},
  {name='means', kind='aggregate', in=['named'], size=9, advance=3, group=['name'], give=[['mean', 'avg', 'cost']]},
  {name='pairs', kind='join', in=['trades', 'named'], size=5, on='l_symbol = r_name and l_price < r_cost'},
  {name='rated', kind='join', in=['dear.2', 'ticks'], size=5, on='l_price > r_rate'},
  {name='all', kind='union', in=['dear.1', 'dear.2']},
]
output = [
  {name='o1', from='means'},
  {name='o2', from='pairs'},
  {name='o3', from='rated'},
  {name='o4', from='ticks'},
  {name='o5', from='all'},
]
"""
BY_SYMBOL = "o1,cut,name\no2,cut,l_symbol,r_name\no3,cut,l_symbol\no4,whole\no5,cut,symbol\n"
USAGE = "aurora_keys: usage: aurora_keys [--on-time] NET SOURCE=FIELD..\n"
# Words, what is written, what is said, and the status.
ROWS = (
    ("a.toml trades=symbol", BY_SYMBOL, "", 0),
    ("--on-time a.toml trades=symbol", BY_SYMBOL, "", 0),
    ("a.toml trades=price", "o1,lost\no2,lost\no3,cut,l_price\no4,whole\no5,cut,price\n@loses,means,aggregate\n", "", 1),
    ("a.toml rates=at", "o1,whole\no2,whole\no3,lost\no4,lost\no5,whole\n@loses,ticks,bsort\n", "", 1),
    ("--on-time a.toml rates=at", "o1,whole\no2,whole\no3,cut,r_at\no4,cut,at\no5,whole\n", "", 0),
    ("--on-time a.toml rates=at trades=symbol",
     "o1,cut,name\no2,cut,l_symbol,r_name\no3,lost\no4,cut,at\no5,cut,symbol\n@loses,rated,join\n", "", 1),
    ("a.toml", "", USAGE, 2),
    ("a.toml trades=", "", USAGE, 2),
    ("b.toml trades=symbol", "", "aurora_keys: cannot read b.toml\n", 7),
    ("t.csv trades=symbol", "", "aurora_keys: network: Toml\n", 3),
    ("long trades=symbol", "", "aurora_keys: file too long: long\n", 11),
    ("a.toml quotes=symbol", "", "aurora_keys: key 1: NoSource\n", 18),
    ("a.toml trades=symbol trades=none", "", "aurora_keys: key 2: Twice\n", 18),
    ("a.toml trades=symbol rates=bid", "", "aurora_keys: key 2: NoField\n", 18),
)


@unittest.skipUnless(KEYS, "there is no program aurora_keys")
class Keys(unittest.TestCase):
    def setUp(self):
        room = tempfile.TemporaryDirectory()
        self.addCleanup(room.cleanup)
        self.room = room.name
        for name, text in (("a.toml", NETWORK), ("t.csv", "1,a,7\n"), ("long", "#" * 1_048_577)):
            with open(f"{self.room}/{name}", "w", encoding="utf-8") as file:
                file.write(text)

    def test_words_are_answered(self):
        for words, text, message, status in ROWS:
            with self.subTest(words):
                said = subprocess.run([KEYS, *words.split()], cwd=self.room, capture_output=True, text=True)
                self.assertEqual((said.stdout, said.stderr, said.returncode), (text, message, status))

    def test_an_output_that_takes_nothing_is_told(self):
        with open("/dev/full", "w", encoding="utf-8") as full:
            said = subprocess.run([KEYS, "a.toml", "trades=symbol"], cwd=self.room, stdout=full, stderr=subprocess.PIPE, text=True)
        self.assertEqual((said.stderr, said.returncode), ("aurora_keys: output failed\n", 10))


if __name__ == "__main__":
    unittest.main()
