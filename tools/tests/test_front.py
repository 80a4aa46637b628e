#!/usr/bin/env python3
"""The tools have one front: help of one form with status 0, a line for words that are none, no word where a reader goes away."""
import ast
import os
import re
import subprocess
import tempfile
import unittest

import forked

TOP = os.path.dirname(os.path.dirname(os.path.dirname(os.path.abspath(__file__))))
NAMES = ("draw", "explain", "output", "plan", "report", "shard", "stream")
DESK = f"{TOP}/examples/desk"


def ran(name, *words, **more):
    return forked.run([f"{TOP}/tools/{name}", *words], **more)


class Front(unittest.TestCase):
    def test_help_is_of_one_form(self):
        for name in NAMES:
            for word in ("--help", "-h"):
                with self.subTest(name=name, word=word):
                    said = ran(name, word)
                    self.assertEqual((said.returncode, said.stderr), (0, ""))
                    self.assertRegex(said.stdout, rf"\A[A-Z](?:[^\n]+\n)+\n    aurora-{name} ")
                    self.assertNotIn("tools/", said.stdout)

    def test_the_version_is_that_of_the_file(self):
        with open(f"{TOP}/VERSION", encoding="utf-8") as file:
            version = file.read().strip()
        for name in NAMES:
            said = ran(name, "--version")
            self.assertEqual((said.returncode, said.stdout, said.stderr), (0, f"aurora-{name} {version}\n", ""))

    def test_lines_fit_the_terminal(self):
        for columns in (50, 80, 132):
            for name in NAMES:
                lines = ran(name, "--help", env={**os.environ, "COLUMNS": str(columns)}).stdout.split("\n")
                ways = [it for it in lines if it.startswith(f"    aurora-{name} ")]
                self.assertTrue(ways)
                self.assertLessEqual(max(len(it) for it in lines if it not in ways), columns, name)
        words = ["explain", "--messages", "-", "--polcy", "rr", "net.toml"]
        said = ran(*words, input="aurora: usage: aurora run NET [options]\n", env={**os.environ, "COLUMNS": "50"}).stdout
        self.assertLessEqual(max(map(len, said.split("\n"))), 50)
        self.assertEqual(" ".join(said.split()), " ".join(ran(*words, input="aurora: usage: aurora run NET [options]\n").stdout.split()))

    def test_words_that_are_none_are_one_line_and_status_2(self):
        for name in NAMES:
            for words in ((), ("--no-such-word", "a", "b", "c")) if name != "explain" else ((),):
                with self.subTest(name=name, words=words):
                    said = ran(name, *words)
                    self.assertEqual((said.returncode, said.stdout), (2, ""))
                    self.assertRegex(said.stderr, rf"\A{name}: [^\n]*; aurora-{name} --help tells more\n\Z")

    def test_a_number_among_the_words_has_digits_alone(self):
        for words in (("plan", "--epoch", "{}", "n", "c", "t"), ("plan", "--seed", "{}", "n", "c", "t"), ("shard", "n.toml", "s=k", "{}")):
            for number in ("1_0", "+7", " 7", "-1", "\u0663", "18446744073709551616", ""):
                with self.subTest(words=words, number=number):
                    said = ran(*(it.format(number) for it in words))
                    self.assertEqual((said.returncode, said.stdout), (2, ""))
                    self.assertRegex(said.stderr, rf"\A{words[0]}: [^\n]*; aurora-{words[0]} --help tells more\n\Z")

    def test_a_reader_that_goes_away_makes_no_noise(self):
        for words in (("output", "--csv", "-", "--output", "lost", f"{DESK}/desk.toml", f"{DESK}/expected.txt"), ("plan", "--help"), ("stream", "--help"), ("explain", "--help")):
            with self.subTest(words=words):
                tool = subprocess.Popen([f"{TOP}/tools/{words[0]}", *words[1:]], stdout=subprocess.PIPE, stderr=subprocess.PIPE)
                tool.stdout.close()
                self.assertEqual((tool.stderr.read(), tool.wait()), (b"", 141))
                tool.stderr.close()

    def test_an_output_that_is_full_or_closed_is_told_in_a_line(self):
        words = f"{TOP}/tools/output --csv - --output lost {DESK}/desk.toml {DESK}/expected.txt"
        for end, why in ((">/dev/full", "No space left on device"), (">&-", "Bad file descriptor")):
            said = subprocess.run(["sh", "-c", f"{words} {end}"], capture_output=True, text=True)
            self.assertEqual((said.returncode, said.stderr), (1, f"output: standard output: {why}\n"))

    def test_files_that_cannot_be_read_are_told_without_numbers_of_the_system(self):
        with tempfile.TemporaryDirectory() as room:
            for name, words in (("output", ("--csv", "-", f"{DESK}/desk.toml", room)), ("report", (f"{DESK}/desk.toml", "nowhere", "x.html")),
                                ("stream", ("--time", "t", "--form", "csv", room, "x.csv")), ("plan", ("--load", "nowhere.toml")), ("explain", ("--hints", "nowhere.toml"))):
                with self.subTest(name=name):
                    said = ran(name, *words, cwd=room)
                    self.assertEqual(said.returncode, 1)
                    self.assertRegex(said.stderr, rf"\A{name}: [^\[\n]*: (Is a directory|No such file or directory)\n\Z")

    def test_every_option_is_described(self):
        for name in NAMES:
            with self.subTest(name=name), open(f"{TOP}/tools/{name}", encoding="utf-8") as file:
                text = file.read()
                taken = set(re.findall(r'add_argument\("(--[a-z][a-z-]*)"', text)) | {f"--{it}" for names in re.findall(r'for name(?:, default)? in (\(.*\)):\n\s+\S*\.add_argument\(f"--', text)
                                                                       for it in (it if isinstance(it, str) else it[0] for it in ast.literal_eval(names))}
                described = set(re.findall(r"--[a-z][a-z-]*", ast.get_docstring(ast.parse(text))))
                self.assertLessEqual(taken, described)

    def test_the_completion_has_their_words(self):
        for shell, option in (("bash", "--words"), ("zsh", "--zsh")):
            with self.subTest(shell), open(f"{TOP}/tools/completion.{shell}", encoding="utf-8") as text:
                self.assertIn(f"<<'WORDS'\n{ran('pages', option).stdout}WORDS\n", text.read())

    def test_each_has_a_manual_page(self):
        with tempfile.TemporaryDirectory() as room:
            self.assertEqual(ran("pages", room, "1.2.3").returncode, 0)
            self.assertEqual(sorted(os.listdir(room)), [f"aurora-{name}.1" for name in NAMES] + ["aurora_keys.1", "aurora_slices.1"])
            with open(f"{room}/aurora-stream.1", encoding="utf-8") as page:
                text = page.read()
            for words in (".TH AURORA-STREAM 1 \"\" \"aurora 1.2.3\"", ".B \\-\\-version", ".SH SYNOPSIS", ".B \\-\\-time COLUMN", ".SH SEE ALSO"):
                self.assertIn(words, text)


if __name__ == "__main__":
    unittest.main()
