#!/usr/bin/env python3
"""What parts make is what the whole run makes, and a network that has no such parts is refused by name."""
import contextlib
import csv
import io
import json
import os
import shlex
import shutil
import signal
import subprocess
import sys
import tempfile
import time
import types
import unittest
import unittest.mock

import loaded

TOP = os.path.dirname(os.path.dirname(os.path.dirname(os.path.abspath(__file__))))
sys.path.insert(0, f"{TOP}/tools")
from aurora_tools import cutting, joining, parts, records  # noqa: E402

PROGRAM = os.environ["AURORA"]
KEYS = os.environ.get("AURORA_KEYS", "")

NETWORK = """
version = 1
[[source]]
name = "trades"
file = "trades.csv"
fields = ["symbol:text", "price:int"]
[[source]]
name = "rates"
file = "rates.csv"
fields = ["at:int", "rate:int"]
[[box]]
name = "sorted"
kind = "bsort"
in = ["rates"]
by = "at"
slack = 4
[[box]]
name = "dear"
kind = "filter"
in = ["trades"]
where = ["price > 30"]
[[box]]
name = "means"
kind = "aggregate"
in = ["trades"]
group = ["symbol"]
size = 40
advance = 20
give = [["trades", "count"], ["mean", "avg", "price"]]
[[box]]
name = "pairs"
kind = "join"
in = ["trades", "dear.1"]
size = 6
on = "l_symbol = r_symbol and l_price < r_price"
[[box]]
name = "rated"
kind = "join"
in = ["dear.2", "sorted"]
size = 2
on = "l_price > r_rate"
[[output]]
name = "means"
from = "means"
[[output]]
name = "pairs"
from = "pairs"
[[output]]
name = "rated"
from = "rated"
[[output]]
name = "sorted"
from = "sorted"
"""
# What stands for ssh where there are no other machines: each has a folder of its own to log in to, and a shell. One that has a file `down` is
# there for the first question alone.
LOGIN = """#!/bin/sh
echo "$*" >>"${0%/*}/../asked"
while [ "$1" != -- ]; do shift; done
cd "${0%/*}/../$2" 2>/dev/null || { echo "ssh: no route to $2" >&2; exit 255; }
case $3 in *nproc*) ;; *) [ ! -f down ] || { echo "ssh: $2 hung up" >&2; exit 255; } ;; esac
echo "what the shell of $2 says at each login"
HOME=$PWD exec setsid "${LOGIN_SHELL:-sh}" -c "$3"
"""
SYMBOLS = ['"a, b"', "h", "", '"say ""so"""', "ü", "cc", "d", "e"]


def rising(lines):
    """Returns the lines of a text in the order of their outputs, and of each output by time and then by what follows."""
    return sorted(lines, key=lambda line: (line.split(",")[0], int(line.split(",")[1]), line))


@unittest.skipUnless(KEYS, "there is no program aurora_keys")
class Parts(unittest.TestCase):
    def setUp(self):
        room = tempfile.TemporaryDirectory()
        self.addCleanup(room.cleanup)
        self.room = room.name
        self.write("net.toml", NETWORK)
        self.write("trades.csv", "".join(f"{at},{SYMBOLS[at * at % 11 % 8]},{at * 7 % 61}\n" for at in range(600)))
        self.write("rates.csv", "".join(f"{at * 9},{at * 9 - at % 2 * 12},{at % 23}\n" for at in range(66)))

    def write(self, name, text):
        with open(f"{self.room}/{name}", "w", encoding="utf-8") as file:
            file.write(text)

    def shard(self, *words, **more):
        words = [f"{TOP}/tools/shard", "--program", PROGRAM, "--keys", KEYS, *words]
        # As a service runs it: without a SHELL, and at home in a folder of its own.
        asked = {name: value for name, value in os.environ.items() if name != "SHELL"}
        return subprocess.run(words, cwd=self.room, capture_output=True, text=True, env={**asked, "HOME": self.room, **more})

    def refused(self, why, status, *words):
        said = self.shard(*words)
        self.assertEqual((said.stdout, said.stderr, said.returncode), ("", f"shard: {why}\n", status))
        self.assertFalse(os.path.exists(f"{self.room}/parts"))

    def whole(self, name="net.toml"):
        return subprocess.run([PROGRAM, "run", name], cwd=self.room, capture_output=True, text=True, check=True).stdout.splitlines()

    def compare(self, said, whole):
        self.assertEqual((said.stderr, said.returncode), ("", 0))
        lines = said.stdout.splitlines()
        self.assertEqual(lines[-1], "@end")
        shown = [line for line in lines if line[0] != "@"]
        self.assertEqual(rising(shown), rising(line for line in whole if line[0] != "@"))
        for output in ("means", "pairs", "rated", "sorted"):
            times = [int(line.split(",")[1]) for line in shown if line.startswith(output + ",")]
            self.assertEqual(times, sorted(times))
            self.assertGreater(len(times), 4)
        return lines

    def test_four_parts_make_the_whole(self):
        whole = self.whole()
        lines = self.compare(self.shard("net.toml", "trades=symbol", "4"), whole)
        for part in range(4):
            self.assertGreater(os.path.getsize(f"{self.room}/parts/part-{part}/trades.csv"), 0)
        for box in ("sorted", "dear", "means", "pairs"):
            told = [line for line in whole if line.startswith(f"@box,{box},")]
            self.assertEqual([line for line in lines if line.startswith(f"@box,{box},")], told)
        self.assertFalse([line for line in lines if line.startswith("@box,rated,")])
        self.assertEqual(len([line for line in lines if line.startswith("@part,") and "@box,rated," in line]), 4)

    def test_numbers_go_to_one_part_however_they_are_written(self):
        self.write("trades.csv", "".join(f"{at},{SYMBOLS[at % 8]},{'0' * (at % 3)}{at % 5}\n" for at in range(300)))
        self.write("net.toml", NETWORK.replace('group = ["symbol"]', 'group = ["price"]').replace("l_price < r_price", "l_price = r_price").replace("price > 30", "price > 2"))
        self.compare(self.shard("net.toml", "trades=price", "4"), self.whole())

    def test_a_network_that_is_not_keyed_is_refused_by_name(self):
        said = self.shard("net.toml", "trades=price", "4")
        self.assertEqual((said.stdout, said.returncode), ("", 1))
        self.assertEqual(said.stderr, "shard: no parts make means, pairs: the aggregate means loses the key\n")
        self.assertFalse(os.path.exists(f"{self.room}/parts"))

    def test_a_bsort_keeps_the_key_where_none_is_late(self):
        said = self.shard("net.toml", "rates=at", "trades=symbol", "2")
        self.assertIn("sorted", said.stderr)
        self.assertEqual(said.returncode, 1)
        self.write("net.toml", NETWORK.replace('"l_price > r_rate"', '"l_price > r_rate and l_symbol = r_symbol"').replace('"at:int", "rate:int"', '"at:int", "rate:int", "symbol:text"'))
        self.write("rates.csv", "".join(f"{at},{at - at % 2},{at % 23},{SYMBOLS[at % 8]}\n" for at in range(600)))
        self.compare(self.shard("--on-time", "net.toml", "rates=symbol", "trades=symbol", "4"), self.whole())
        self.write("rates.csv", "".join(f"{at},{at % 7},{at % 23},{SYMBOLS[at % 8]}\n" for at in range(600)))
        late = self.shard("--on-time", "--work", "late", "net.toml", "rates=symbol", "trades=symbol", "4")
        self.assertEqual(late.stdout, "")
        self.assertIn("has tuples that a BSort leaves out (@late,sorted,", late.stderr)

    def test_a_part_that_fails_fails_all_and_is_gone_on_with(self):
        with open(f"{self.room}/trades.csv", "a", encoding="utf-8") as file:
            file.write("700,b,none\n")
        said = self.shard("net.toml", "trades=symbol", "4")
        self.assertEqual((said.stdout, said.returncode), ("", 6))
        self.assertRegex(said.stderr, r"^shard: part \d ended with status 6: aurora: stream trades: line \d+: NotInt\n$")
        failed = int(said.stderr.split()[2])
        self.assertFalse(os.path.exists(f"{self.room}/parts/part-{failed}/out"))
        self.assertIn("parts is there", self.shard("net.toml", "trades=symbol", "4").stderr)
        self.assertIn("something else", self.shard("--resume", "net.toml", "trades=symbol", "3").stderr)
        kept = os.stat(f"{self.room}/parts/part-{(failed + 1) % 4}/out").st_mtime_ns
        path = f"{self.room}/parts/part-{failed}/trades.csv"
        with open(path, encoding="utf-8") as file:
            mended = file.read().replace("700,b,none\n", "")
        with open(path, "w", encoding="utf-8") as file:
            file.write(mended)
        again = self.shard("--resume", "net.toml", "trades=symbol", "4")
        self.write("trades.csv", "".join(f"{at},{SYMBOLS[at * at % 11 % 8]},{at * 7 % 61}\n" for at in range(600)))
        self.compare(again, self.whole())
        self.assertEqual(os.stat(f"{self.room}/parts/part-{(failed + 1) % 4}/out").st_mtime_ns, kept)

    def test_an_array_job_does_the_same(self):
        said = self.shard("--slurm", "net.toml", "trades=symbol", "4")
        self.assertEqual(said.stdout, f"sbatch --quiet --wait parts/job; {TOP}/tools/shard --merge parts\n")
        self.assertIn("part 0 has not ended", self.shard("--merge", "parts").stderr)
        for part in range(4):
            subprocess.run(["bash", "parts/job"], cwd=self.room, env={**os.environ, "SLURM_ARRAY_TASK_ID": str(part)}, check=True)
        self.compare(self.shard("--merge", "parts"), self.whole())
        said = self.shard("--slurm", "--resume", "net.toml", "trades=symbol", "4")
        self.assertEqual(said.stdout, f"{TOP}/tools/shard --merge parts\n")

    def test_a_task_runs_several_parts_where_slurm_takes_fewer_tasks(self):
        left = [0, 2, 3, 4, 1000, 1003, 2003]
        for part in left:
            os.makedirs(f"{self.room}/parts/part-{part}")
            self.script(f"parts/part-{part}/run", f"echo {part} >>ran; exit {10 * (part == 1003)}")
        with contextlib.redirect_stdout(io.StringIO()):
            loaded.tool("shard").slurm_job(types.SimpleNamespace(work=f"{self.room}/parts"), left)
        with open(f"{self.room}/parts/job", encoding="utf-8") as job:
            self.assertIn("\n#SBATCH --array=0,2-4\n", job.read())
        ended = [subprocess.run(["sh", "parts/job"], cwd=self.room, env={**os.environ, "SLURM_ARRAY_TASK_ID": task}).returncode for task in "0234"]
        with open(f"{self.room}/parts/ran", encoding="utf-8") as ran:
            self.assertEqual((ended, ran.read().split()), ([0, 0, 10, 0], ["0", "1000", "2", "3", "1003", "2003", "4"]))

    def test_parts_need_few_programs(self):
        os.mkdir(f"{self.room}/bin")
        os.symlink(sys.executable, f"{self.room}/bin/python3")
        for name in ("sh", "rm", "mv", "mktemp"):
            os.symlink(shutil.which(name), f"{self.room}/bin/{name}")
        self.compare(self.shard("net.toml", "trades=symbol", "4", PATH=f"{self.room}/bin"), self.whole())
        said = self.shard("--work", "far", "--sshlogin", "2/one", "net.toml", "trades=symbol", "4", PATH=f"{self.room}/bin")
        self.assertEqual((said.stderr, said.returncode), ("shard: --sshlogin needs ssh\n", 2))
        self.assertFalse(os.path.exists(f"{self.room}/far"))

    def test_any_shell_may_call(self):
        for name in filter(shutil.which, ("bash", "zsh", "fish", "tcsh")):
            with self.subTest(shell=name):
                words = [f"{TOP}/tools/shard", "--program", PROGRAM, "--keys", KEYS, "--work", name, "net.toml", "trades=symbol", "4"]
                # It waits, since another command follows.
                said = subprocess.run([name, "-c", f"{shlex.join(words)}; true"], cwd=self.room, capture_output=True, text=True)
                self.compare(said, self.whole())

    def test_names_that_shells_and_tools_know_are_names(self):
        folder = f"{self.room}/a {{}} {{#}} 'b' $(c) %a"
        os.mkdir(folder)
        os.symlink(PROGRAM, f"{folder}/{{}} aurora")
        self.compare(self.shard("--program", f"{folder}/{{}} aurora", "--work", f"{folder}/parts", "net.toml", "trades=symbol", "4"), self.whole())

    def test_the_end_of_a_part_tells_whose_fault_it_is(self):
        self.shard("--slurm", "net.toml", "trades=symbol", "1")
        text = parts.run_text("./program", None, 0o077)
        for status in (0, 2, 6, 7, 8, 10, 11, 12, 18, 126, 127, 137, 143, 255):
            self.script("parts/part-0/program", f"echo told >&2\nexit {status}")
            self.write("parts/part-0/run", text)
            ended = subprocess.run(["sh", f"{self.room}/parts/part-0/run"]).returncode
            self.assertEqual(ended, 0 if status in (0, 2, 6, 18) else status)
            self.assertEqual((parts.status_of(f"{self.room}/parts/part-0"), parts.message_of(f"{self.room}/parts/part-0")), (status, "told"))
            self.assertEqual(os.path.exists(f"{self.room}/parts/part-0/out"), status == 0)
            self.assertEqual([name for name in os.listdir(f"{self.room}/parts/part-0") if name.startswith("writing")], [])

    def test_a_file_can_be_cut_in_one_way_only(self):
        self.write("net.toml", NETWORK.replace('file = "rates.csv"', 'file = "./trades.csv"').replace('"at:int", "rate:int"', '"at:text", "rate:int"').replace('by = "at"', 'by = "rate"'))
        why = "the sources trades and rates have one file, ./trades.csv, and aren't cut by the same field of it"
        self.refused(why, 2, "net.toml", "trades=symbol", "4")
        self.refused(why, 2, "--on-time", "net.toml", "rates=at", "4")
        self.write("net.toml", NETWORK.replace("rates.csv", "status"))
        self.refused("the file of source rates has a name that a part has for something else: status", 2, "net.toml", "trades=symbol", "4")
        self.write("net.toml", NETWORK.replace("rates.csv", "a/../rates.csv"))
        self.refused("the file of source rates must lie in the folder that this is run in, or below: a/../rates.csv", 2, "net.toml", "trades=symbol", "4")

    def test_what_is_not_there_is_told_before_anything_is_cut(self):
        self.refused("there is no program nowhere", 2, "--program", "nowhere", "net.toml", "trades=symbol", "4")
        self.refused("there is no program nowhere", 2, "--keys", "nowhere", "net.toml", "trades=symbol", "4")
        self.refused("cannot read none.csv", 7, "--capacities", "none.csv", "net.toml", "trades=symbol", "4")
        self.refused("parts has no parts", 2, "--merge", "parts")
        os.remove(f"{self.room}/rates.csv")
        self.refused("cannot read rates.csv", 7, "net.toml", "trades=symbol", "4")

    def test_a_part_of_too_many_tuples_is_told_before_it_runs(self):
        self.write("trades.csv", "2,h,3\n" + "3,h,4\n" * 1_000_000)
        said = self.shard("net.toml", "trades=symbol", "4")
        self.assertRegex(said.stderr, r"^shard: part \d would have 1,000,001 lines of source trades, and a run takes 1,000,000: ")
        self.assertEqual((said.stdout, said.returncode, os.path.exists(f"{self.room}/parts")), ("", 6, False))

    def test_a_folder_of_others_is_left_alone(self):
        os.makedirs(f"{self.room}/mine/part-0")
        self.write("mine/part-0/thesis.txt", "precious")
        words = ("--resume", "--work", "mine", "net.toml", "trades=symbol", "4")
        self.refused("mine has part-0 and no plan of parts: name another folder by --work", 2, *words)
        self.write("mine/plan.json", '{"parts": 2')
        self.refused("mine/plan.json isn't whole: take the folder away and begin anew", 2, *words)
        self.refused("mine/plan.json isn't whole: take the folder away and begin anew", 2, "--merge", "mine")
        for cut in ("[]", "{}", '{"parts": true}', '{"parts": 1e400}', "[" * 100_000, "\x00"):
            self.write("mine/plan.json", cut)
            with self.assertRaisesRegex(parts.Stop, "isn't whole"):
                parts.read_plan(f"{self.room}/mine")
        self.assertTrue(os.path.exists(f"{self.room}/mine/part-0/thesis.txt"))

    def test_parts_that_were_not_all_made_are_made_anew_and_nothing_else_is_taken_away(self):
        self.shard("--slurm", "net.toml", "trades=symbol", "2")
        with open(f"{self.room}/parts/plan.json", encoding="utf-8") as text:
            plan = json.load(text)
        self.write("parts/plan.json", json.dumps({**plan, "made": False}))
        self.write("parts/part-0/trades.csv", "1,h,1\n")
        os.mkdir(f"{self.room}/parts/part-2")
        self.write("parts/part-2/notes", "mine")
        self.compare(self.shard("--resume", "net.toml", "trades=symbol", "2"), self.whole())
        self.assertTrue(os.path.exists(f"{self.room}/parts/part-2/notes"))

    def test_a_network_on_a_pipe_is_told(self):
        read, write = os.pipe()
        os.write(write, NETWORK.encode())
        os.close(write)
        said = subprocess.run([f"{TOP}/tools/shard", "--program", PROGRAM, "--keys", KEYS, "/dev/stdin", "trades=symbol", "2"], cwd=self.room, stdin=read, capture_output=True, text=True)
        os.close(read)
        self.assertEqual((said.stderr, said.returncode), ("shard: /dev/stdin is no file that can be read again: keep it in one\n", 7))

    def test_texts_over_the_end_of_a_line_stay_whole(self):
        self.write("net.toml", "version = 1\n[[source]]\nname = \"s\"\nfile = \"s.csv\"\nfields = [\"k:text\"]\n[[box]]\nname = \"m\"\nkind = \"map\"\nin = [\"s\"]\n"
                   "set = [[\"k\", \"k\"], [\"t\", \"'one\\no,9,forged\\n@end\\n\\\"'\"]]\n[[output]]\nname = \"o\"\nfrom = \"m\"\n")
        self.write("s.csv", "".join(f"{at},{at % 7}\n" for at in range(30)))
        said = self.shard("net.toml", "s=k", "3")
        self.assertEqual((said.stderr, said.returncode), ("", 0))
        rows = list(csv.reader(io.StringIO(said.stdout)))
        self.assertEqual(rows[-1], ["@end"])
        shown = sorted((int(row[1]), *row[2:]) for row in rows if row[0] == "o")
        self.assertEqual(shown, [(at, str(at % 7), 'one\no,9,forged\n@end\n"') for at in range(30)])

    @unittest.skipUnless(os.path.exists("/dev/full"), "there is no /dev/full")
    def test_an_answer_that_cannot_be_written_is_told(self):
        self.shard("net.toml", "trades=symbol", "2")
        with open("/dev/full", "w", encoding="utf-8") as full:
            said = subprocess.run([f"{TOP}/tools/shard", "--merge", "parts"], cwd=self.room, stdout=full, stderr=subprocess.PIPE, text=True)
        self.assertEqual((said.stderr, said.returncode), ("shard: output failed: No space left on device\n", 10))

    def test_a_line_that_cannot_be_read_is_refused_by_its_part(self):
        with open(f"{self.room}/trades.csv", "a", encoding="utf-8", newline="") as file:
            file.write('700,b\rc,"5"\n')
        said = self.shard("net.toml", "trades=symbol", "4")
        self.assertRegex(said.stderr, r"^shard: part \d ended with status 6: aurora: stream trades: line \d+: Cut\n$")


    # ---- cutting

    def test_what_the_whole_run_refuses_is_refused_before_anything_is_cut(self):
        for lines, why in (("1,a,1\n9,b,2\n3,c,3\n4,a,4\n", "line 3: Falls"), ('1,a,1\n"9",b,2\n08,"c",3\n', "line 3: Falls"), ("1,a,1\n\n\ufeff2,b,2\n", "line 3: Cut"),
                           ("\ufeff\ufeff2,b,2\n", "line 1: Cut"), ("1,a,1\n\n9,b,1\n10,c,1\n0000009,d,1\n", "line 5: Falls")):
            self.write("trades.csv", lines)
            whole = subprocess.run([PROGRAM, "run", "net.toml"], cwd=self.room, capture_output=True, text=True)
            self.assertEqual((whole.stderr, whole.returncode), (f"aurora: stream trades: {why}\n", 6))
            self.refused(f"stream trades: {why}", 6, "net.toml", "trades=symbol", "3")

    def test_times_that_are_no_numbers_are_left_to_their_parts(self):
        self.write("trades.csv", "10,a,1\n1-,b,1\n1 ,b,1\n200,a,2\n,c,3\n2000,d,1\n")
        said = self.shard("net.toml", "trades=symbol", "4")
        self.assertRegex(said.stderr, r"^shard: part \d ended with status 6: aurora: stream trades: line \d: Tick\n$")

    def test_a_mark_blank_lines_and_ends_of_lines_are_cut_as_a_run_reads_them(self):
        self.write("trades.csv", "\ufeff" + "".join(f"{at},{SYMBOLS[at * at % 11 % 8]},{at * 7 % 61}{end}" for at, end in zip(range(600), ["\n", "\r\n", "\n\n", "\n\r\n"] * 150)) + "\r")
        self.compare(self.shard("net.toml", "trades=symbol", "4"), self.whole())

    def test_equal_texts_meet_however_they_are_quoted(self):
        self.write("trades.csv", "".join(f'{at},{("ab", chr(34) + "ab" + chr(34), chr(34) + "a" + chr(34) + "b")[at % 3]},{at}\n{at},c,{at}\n' for at in range(300)))
        said = self.shard("net.toml", "trades=symbol", "4")
        self.assertEqual((said.stderr, said.returncode), ("", 0))
        self.assertEqual(rising(line for line in said.stdout.splitlines() if line[0] != "@"), rising(line for line in self.whole() if line[0] != "@"))

    def test_like_keys_go_to_all_parts_and_the_longest_are_shared_out(self):
        self.write("trades.csv", "".join(f"{at},K{at % 8},{at % 61}\n" for at in range(800)))
        self.shard("--slurm", "net.toml", "trades=symbol", "2")
        self.assertEqual([self.lines(f"parts/part-{part}/trades.csv") for part in range(2)], [400, 400])
        # 9, 5, 4 and 3 times a hundred: 900 stand by themselves, and then the emptiest part takes the next.
        self.write("trades.csv", "".join(f"{at},{'a' * (at % 21 < 9) or 'b' * (at % 21 < 14) or 'c' * (at % 21 < 18) or 'd'},1\n" for at in range(2100)))
        self.shard("--slurm", "--work", "again", "net.toml", "trades=symbol", "2")
        self.assertEqual([self.lines(f"again/part-{part}/trades.csv") for part in range(2)], [1200, 900])

    def lines(self, name):
        with open(f"{self.room}/{name}", encoding="utf-8") as text:
            return sum(1 for _ in text)

    def test_values_behind_the_table_are_cut_by_a_sum_of_theirs(self):
        source = {"name": "s", "file": f"{self.room}/s.csv", "fields": ["k:int"]}
        self.write("s.csv", "".join(f"{at},{'0' * (at % 3)}{at % 50}\n" for at in range(600)))
        with unittest.mock.patch.object(cutting, "MOST_VALUES", 7), unittest.mock.patch.object(cutting, "CLASSES", 5):
            values = cutting.Values()
            numbers = [number for number, _ in cutting.numbered(source, "k", values)]
            again = [number for number, _ in cutting.numbered(source, "k", values)]
        self.assertEqual(numbers, again)
        for value in range(50):
            self.assertEqual(len({numbers[at] for at in range(value, 600, 50)}), 1)
        self.assertEqual(len({numbers[at] for at in range(7)}), 7)
        self.assertLessEqual(set(numbers[7:50]), set(range(5)))

    def test_parts_over_64_mib_are_told_before_anything_is_cut(self):
        source = {"name": "s", "file": f"{self.room}/s.csv", "fields": ["k:text"]}
        self.write("s.csv", "1,a\n1,b\n1,b\n2,b\n")
        with unittest.mock.patch.object(cutting, "MOST_BYTES", 12):
            cutting.Cut([source], {"s": "k"}, 2)
            with self.assertRaisesRegex(parts.Stop, r"^part 0 would have 16 bytes of source s, and a run takes 12: take more parts, or a key of more values$") as why:
                cutting.Cut([source], {"s": "k"}, 1)
            self.assertEqual(why.exception.status, 11)
            with self.assertRaisesRegex(parts.Stop, "source s is given whole to each part and has 16 bytes"):
                cutting.Cut([source], {}, 2)
        with unittest.mock.patch.object(cutting, "MOST_BYTES", 11), self.assertRaisesRegex(parts.Stop, "those of the key `b` alone are 12, so take another key: no number of parts helps$"):
            cutting.Cut([source], {"s": "k"}, 2)

    def test_what_is_private_stays_private(self):
        os.chmod(f"{self.room}/trades.csv", 0o600)
        self.compare(self.shard("net.toml", "trades=symbol", "2"), self.whole())
        seen = [os.path.join(folder, name) for folder, folders, names in os.walk(f"{self.room}/parts") for name in [*folders, *names]]
        self.assertGreater(len(seen), 12)
        self.assertEqual([name for name in seen if os.stat(name).st_mode & 0o077], [])
        os.chmod(f"{self.room}/trades.csv", 0o640)
        old = os.umask(0o022)
        self.shard("--work", "shared", "net.toml", "trades=symbol", "2")
        os.umask(old)
        for name, mode in (("shared", 0o750), ("shared/part-0", 0o750), ("shared/part-0/trades.csv", 0o640), ("shared/part-0/rates.csv", 0o640)):
            self.assertEqual(os.stat(f"{self.room}/{name}").st_mode & 0o777, mode, name)

    # ---- putting together

    def test_lines_that_no_run_writes_are_told(self):
        self.shard("net.toml", "trades=symbol", "2")
        with open(f"{self.room}/parts/part-1/out", encoding="utf-8") as text:
            whole = text.read()
        for line in ("means,8\u0663,h,1,1\n", "means,\n"):
            self.write("parts/part-1/out", line + whole)
            said = self.shard("--merge", "parts")
            self.assertEqual((said.stderr, said.returncode), ("shard: parts has a part whose `out` no run wrote: take the folder away and begin anew\n", 2))

    def test_blocks_make_the_order_that_one_sort_makes(self):
        rows = [[b"o,%d,%d-%d\n" % (time, part, at) for at, time in enumerate(sorted(at * at * (part + 2) % 31 for at in range(count)))] for part, count in enumerate((40, 0, 1, 23, 40))]
        for part, some in enumerate(rows):
            os.mkdir(f"{self.room}/part-{part}")
            self.write(f"part-{part}/out", "other,1,x\n" + "".join(row.decode() for row in some) + "@end\n")
        for many in (1, 2, 9, 2048):
            with unittest.mock.patch.object(records, "MANY", many):
                made = [row for rows in joining.merged([joining.Front(f"{self.room}/part-{part}", b"o") for part in range(5)]) for row in rows]
            self.assertEqual(made, sorted((row for some in rows for row in some), key=lambda row: int(row.split(b",")[1])))

    def test_a_late_tuple_that_no_slack_helps_is_told_as_that(self):
        self.write("net.toml", NETWORK.replace('"l_price > r_rate"', '"l_price > r_rate and l_symbol = r_symbol"').replace('"at:int", "rate:int"', '"at:int", "rate:int", "symbol:text"'))
        rates = [f"{at},{at - at % 2},{at % 23},{SYMBOLS[at % 8]}\n" for at in range(600)]
        never = ["600,,1,h\n", "600,-1,2,h\n", "600,601,3,h\n"]
        self.write("rates.csv", "".join(rates + never))
        said = self.shard("--on-time", "net.toml", "rates=symbol", "trades=symbol", "4")
        self.assertRegex(said.stderr, r"^shard: part \d has tuples that a BSort leaves out \(@late,sorted,3\), so its outputs aren't those of the whole: 3 of what it is fed have no time "
                                      "that it can give, but Null, a negative one or one in the future, where no slack helps: put a Filter before it\n$")
        self.assertEqual((said.stdout, said.returncode), ("", 2))
        self.write("rates.csv", "".join(rates + ["601,2,1,h\n"]))
        self.assertIn("give it more slack", self.shard("--work", "late", "--on-time", "net.toml", "rates=symbol", "trades=symbol", "4").stderr)

    # ---- machines

    def script(self, name, text):
        self.write(name, f"#!/bin/sh\n{text}\n")
        os.chmod(f"{self.room}/{name}", 0o755)

    def far(self, *words, **more):
        """Runs parts on machines that are folders."""
        for name in ("bin", "one", "two"):
            os.makedirs(f"{self.room}/{name}", exist_ok=True)
        self.write("bin/ssh", LOGIN)
        os.chmod(f"{self.room}/bin/ssh", 0o755)
        return self.shard(*words, "net.toml", "trades=symbol", "4", PATH=f"{self.room}/bin:{os.environ['PATH']}", **more)

    def nothing_left(self):
        for name in ("one", "two"):
            self.assertEqual(set(os.listdir(f"{self.room}/{name}")) - {"down"}, set())
        self.assertFalse(os.path.exists(f"{self.room}/parts/hosts"))

    def asked(self, host):
        with open(f"{self.room}/asked", encoding="utf-8") as lines:
            return [line for line in lines if f" -- {host} " in line]

    def test_more_machines_run_parts_by_a_connection_each_and_keep_nothing(self):
        os.chmod(f"{self.room}/trades.csv", 0o600)
        self.script("modes", f'ls -lR . >>"{self.room}/modes.txt"\nexec {PROGRAM} "$@"')
        self.compare(self.far("--sshlogin", "1/one,1/two", "--program", f"{self.room}/modes"), self.whole())
        self.nothing_left()
        # Each is asked first, then once for each part, and swept last.
        self.assertEqual(len(self.asked("one")) + len(self.asked("two")), 4 + 2 + 2)
        self.assertTrue(all("ServerAliveInterval=15" in line and "ConnectTimeout=10" in line for line in self.asked("one")))
        with open(f"{self.room}/modes.txt", encoding="utf-8") as lines:
            modes = [line.split()[0] for line in lines if line.startswith(("-", "d"))]
        self.assertGreater(len(modes), 12)
        self.assertEqual({mode[4:10] for mode in modes}, {"------"})

    def test_a_folder_that_another_part_takes_away_meanwhile_is_made_again(self):
        os.makedirs(f"{self.room}/bin")
        self.script("bin/mkdir", f'[ -e "{self.room}/once" ] || {{ : >"{self.room}/once"; exit 1; }}\nexec {shutil.which("mkdir")} "$@"')
        self.compare(self.far("--sshlogin", "1/one"), self.whole())
        self.assertTrue(os.path.exists(f"{self.room}/once"))
        self.assertEqual(len(self.asked("one")), 1 + 4 + 1)
        self.nothing_left()

    def test_this_machine_takes_parts_too(self):
        self.compare(self.far("--sshlogin", "1/:,one"), self.whole())
        self.nothing_left()

    def test_any_shell_may_be_logged_in_to(self):
        shells = [name for name in ("bash", "zsh", "fish", "tcsh") if shutil.which(name)]
        for name in shells:
            with self.subTest(shell=name):
                self.compare(self.far("--work", name, "--sshlogin", "2/one", LOGIN_SHELL=name), self.whole())
        if len(shells) < 4:
            self.skipTest("of bash, zsh, fish and tcsh only " + " and ".join(shells))

    def test_a_machine_that_is_down_is_named_and_gets_no_part(self):
        said = self.far("--sshlogin", "1/one,3/none")
        self.assertEqual(said.stderr, "shard: host none can't be reached: ssh: no route to none\n")
        self.compare(said.__class__(said.args, said.returncode, said.stdout, ""), self.whole())
        self.nothing_left()
        said = self.far("--work", "other", "--sshlogin", "none")
        self.assertEqual((said.stderr, said.returncode), ("shard: host none can't be reached: ssh: no route to none\nshard: no machine can be reached\n", 2))
        said = self.far("--work", "third", "--sshlogin", "1/-oProxyCommand=x")
        self.assertEqual((said.stderr, said.returncode), ("shard: `1/-oProxyCommand=x` is no machine: they are told as 8/one,8/two, and this one is 2/:\n", 2))

    def test_a_machine_that_goes_down_is_given_up_and_its_parts_go_on(self):
        os.makedirs(f"{self.room}/two")
        self.write("two/down", "")
        said = self.far("--sshlogin", "1/one,1/two")
        self.assertIn("shard: host two can't be reached: ssh: two hung up. It gets no more parts\n", said.stderr)
        self.assertIn("shard: host two can't be reached: ssh: two hung up. Copies of parts may lie there in ~/.aurora-parts/", said.stderr)
        self.compare(said.__class__(said.args, said.returncode, said.stdout, ""), self.whole())
        self.assertLessEqual(len(self.asked("two")), 4)
        os.remove(f"{self.room}/two/down")
        self.compare(self.far("--resume"), self.whole())
        self.nothing_left()

    def test_what_a_machine_is_to_blame_for_is_run_on_another_and_named(self):
        self.script("some", f'case $PWD in */two/*) echo "aurora: out of memory" >&2; exit 12;; esac\nexec {PROGRAM} "$@"')
        said = self.far("--sshlogin", "1/two,1/one", "--program", f"{self.room}/some")
        self.assertRegex(said.stderr, r"^shard: host two failed \d parts? that ended well then: aurora: out of memory\n$")
        self.compare(said.__class__(said.args, said.returncode, said.stdout, ""), self.whole())
        said = self.far("--sshlogin", "1/two", "--work", "again", "--program", f"{self.room}/some")
        self.assertRegex(said.stderr, r"^shard: part 0 ended with status 12 on host two: aurora: out of memory; host two: aurora: out of memory\n$")
        self.assertEqual((said.stdout, said.returncode), ("", 12))
        self.nothing_left()

    def test_a_machine_whose_disk_is_full_is_named_with_the_reason(self):
        os.makedirs(f"{self.room}/bin")
        why = "echo tar: trades.csv: Cannot write: No space left on device; echo tar: Exiting with failure status due to previous errors"
        self.script("bin/tar", f'case $PWD in */two/*) {{ {why}; }} >&2; exit 2;; esac\nexec {shutil.which("tar")} "$@"')
        said = self.far("--sshlogin", "1/two,1/one")
        self.assertRegex(said.stderr, r"^shard: host two failed \d parts? that ended well then: tar: trades.csv: Cannot write: No space left on device\n$")
        self.compare(said.__class__(said.args, said.returncode, said.stdout, ""), self.whole())
        self.nothing_left()

    def test_a_run_that_is_ended_leaves_nothing_and_is_gone_on_with(self):
        self.far("--work", "none", "--sshlogin", "none")
        self.script("slow", f'touch "{self.room}/begun"; sleep 60; exec {PROGRAM} "$@"')
        for sign, status in ((signal.SIGTERM, 143), (signal.SIGINT, -signal.SIGINT), (signal.SIGKILL, -signal.SIGKILL)):
            with self.subTest(sign=sign):
                words = ["--program", f"{self.room}/slow", "--keys", KEYS, "--sshlogin", "1/one,1/two,1/:", "net.toml", "trades=symbol", "4"]
                tool = subprocess.Popen([f"{TOP}/tools/shard", *words], cwd=self.room, stdout=subprocess.PIPE, stderr=subprocess.PIPE, text=True,
                                        env={**os.environ, "PATH": f"{self.room}/bin:{os.environ['PATH']}"}, preexec_fn=lambda: signal.signal(signal.SIGINT, signal.default_int_handler))
                while not os.path.exists(f"{self.room}/begun"):
                    self.assertIsNone(tool.poll())
                    time.sleep(0.02)
                again = self.far("--resume", "--program", f"{self.room}/slow")
                self.assertEqual((again.stderr, again.returncode), (f"shard: parts is in use by process {tool.pid}\n", 2))
                tool.send_signal(sign)
                said, why = tool.communicate()
                self.assertEqual((said, why, tool.returncode), ("", "" if sign == signal.SIGKILL else "shard: interrupted: --resume goes on\n", status))
                if sign == signal.SIGKILL:
                    self.assertEqual(parts.hosts_of(f"{self.room}/parts"), ["one", "two"])
                    self.await_end()
                else:
                    self.nothing_left()
                self.script("slow", f'exec {PROGRAM} "$@"')
                self.compare(self.far("--resume", "--sshlogin", "2/two", "--program", f"{self.room}/slow"), self.whole())
                self.nothing_left()
                shutil.rmtree(f"{self.room}/parts")
                os.remove(f"{self.room}/begun")
                self.script("slow", f'touch "{self.room}/begun"; sleep 60; exec {PROGRAM} "$@"')

    def await_end(self):
        """Waits until what ran of a run that was killed has ended too, here and on other machines, and keeps nothing there: well before its minute is over."""
        until = time.monotonic() + 50
        while time.monotonic() < until:
            with contextlib.suppress(parts.Stop):
                os.close(parts.locked(f"{self.room}/parts"))
                if not os.listdir(f"{self.room}/one") + os.listdir(f"{self.room}/two"):
                    return
            time.sleep(0.05)
        self.fail("parts of a run that was killed go on, or have left something")


if __name__ == "__main__":
    unittest.main()
