"""What the house's script finds in a small house."""
import contextlib
import io
import pathlib
import sys
import tempfile
import unittest
import unittest.mock

import loaded

house = loaded.tool("house")

FILES = {
    "crates.txt": "low:\nhigh: low spare\n",
    "crates/low/src/lib.rt": "ghost use Rattle.low.specs.Words.{twice};\nfn f(n: u32) -> u32\n    ensures { result ≡ twice n }\n{\n    n + n\n}\n",
    "crates/low/specs/Words.antt": "-- twice as much\nabbrev pub twice : ℕ → ℕ\ntwice n = n + n\n\nabbrev pub first : List ℕ → ℕ\nfirst xs = 0\n\n"
                                   "abbrev pub wide : ℕ → ℕ\nwide n = 1\n",
    "crates/low/proofs/Sums.antt": "pub sum-zero : (n : ℕ) → n + 0 ≡ n\nsum-zero n = refl\n",
    "crates/high/src/lib.rt": "ghost use Rattle.low.specs.Words.{first};\nfn g(n: u32) -> u32\n    ensures { result ≡ first [] }\n{\n    n\n}\n",
    "crates/high/specs/Words.antt": "abbrev pub double : ℕ → ℕ\ndouble n = n + n\n\nabbrev pub wide : ℕ → ℕ\nwide n = 2\n",
    "crates/high/proofs/Sums.antt": "plus-none : (m : ℕ) → m + 0 ≡ m\nplus-none m = refl\n\npub plus-one : (m : ℕ) → m + 1 ≡ suc m\nplus-one m = refl\n",
}


class Found(unittest.TestCase):
    def setUp(self):
        self.room = tempfile.TemporaryDirectory()
        for name, text in FILES.items():
            path = pathlib.Path(self.room.name, name)
            path.parent.mkdir(parents=True, exist_ok=True)
            path.write_text(text, encoding="utf-8")
        self.house = house.House(pathlib.Path(self.room.name))

    def tearDown(self):
        self.room.cleanup()

    def test_one_name_that_means_two_things(self):
        self.assertEqual([it.split(":")[0] for it in self.house.same_names()], ["wide"])

    def test_a_definition_under_two_names(self):
        self.assertEqual(list(self.house.same_definitions()), ["twice (crates/low/specs/Words.antt), double (crates/high/specs/Words.antt)"])

    def test_a_lemma_that_stands_twice_with_other_variables(self):
        self.assertEqual(list(self.house.same_lemmas()), ["sum-zero (crates/low/proofs/Sums.antt), plus-none (crates/high/proofs/Sums.antt)"])

    def test_what_no_clause_reaches(self):
        self.assertEqual(self.house.unreached(), ["wide (crates/low/specs/Words.antt)", "double (crates/high/specs/Words.antt)", "wide (crates/high/specs/Words.antt)"])

    def test_a_house_that_is_not_in_order_fails_where_it_is_judged(self):
        for words, status in ([], 0), (["--judge"], 1):
            with contextlib.redirect_stdout(io.StringIO()), unittest.mock.patch.object(sys, "argv", ["house", *words, self.room.name]):
                self.assertEqual(house.main(), status)

    def write(self, name, text):
        path = pathlib.Path(self.room.name, name)
        path.parent.mkdir(parents=True, exist_ok=True)
        path.write_text(text, encoding="utf-8")
        self.house = house.House(pathlib.Path(self.room.name))

    def test_a_definition_with_other_variables(self):
        self.write("crates/high/specs/Words.antt", "abbrev pub double : ℕ → ℕ\ndouble m = m + m\n")
        self.assertEqual(list(self.house.same_definitions()), ["twice (crates/low/specs/Words.antt), double (crates/high/specs/Words.antt)"])

    def test_a_definition_that_moved_to_the_proofs(self):
        self.write("crates/high/specs/Words.antt", "abbrev pub wide : ℕ → ℕ\nwide n = 1\n")
        self.write("crates/high/proofs/Sums.antt", "abbrev double : ℕ → ℕ\ndouble m = m + m\n")
        self.write("crates/high/proofs/g/Proof.antt", "abbrev own : ℕ → ℕ\nown m = m + m\n")
        self.assertEqual(list(self.house.same_definitions(self.house.specs + self.house.helpers))[0], "twice (crates/low/specs/Words.antt), double (crates/high/proofs/Sums.antt)")

    def test_a_type_that_two_crates_have(self):
        self.write("crates/low/src/more.rt", "pub struct Seat {\n    at: u32,\n}\n")
        self.write("crates/high/src/more.rt", "enum Seat {\n    Here,\n}\n")
        self.assertEqual(list(self.house.same_types()), ["Seat: high, low"])

    def test_a_body_and_a_clause_that_stand_again(self):
        body = "{\n    let mut found = 0u64;\n    for it in xs.iter() {\n        found = found.max(*it).min(1000);\n    }\n    found\n}\n"
        clause = "    ensures few { result ≡ greatest_of_all_that_are_in_the_list_that_was_given xs.now.items }\n"
        for name in ("low", "high"):
            self.write(f"crates/{name}/src/more.rt", f"fn {name}_most(xs: &Vec<u64>) -> u64\n{clause}{body}")
        self.write("crates/low/src/again.rt", f"fn other(xs: &Vec<u64>) -> u64\n{clause}    ensures one {{ 1 ≤ result }}\n{{\n    1\n}}\n")
        self.assertEqual(list(self.house.same_bodies()), ["6 lines: low_most (crates/low/src/more.rt:1), high_most (crates/high/src/more.rt:1)"])
        self.assertEqual([it.split(":")[0] for it in self.house.same_clauses()], ["3 functions"])
        self.assertEqual(len(self.house.most_clauses()), 2)

    def test_what_a_definition_reaches(self):
        self.write("crates/high/specs/Words.antt", "use Rattle.low.specs.Words.{twice}\n\nabbrev pub wide : ℕ → ℕ\nwide n = twice n\n")
        self.assertEqual([it.name for it in self.house.reach(("high.specs.Words", "wide"))], ["wide", "twice"])

    def test_comments_of_crates_txt(self):
        self.write("crates.txt", "## all: both\n# the low one\nlow:\n# the high one\nhigh: low spare # not cited\n")
        self.assertEqual(self.house.libraries, {"low": [], "high": ["low", "spare"]})

    def test_a_library_that_is_named_and_not_cited(self):
        self.assertEqual(list(self.house.uncited()), ["high: spare"])


if __name__ == "__main__":
    unittest.main()
