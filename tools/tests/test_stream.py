#!/usr/bin/env python3
"""Tables become the streams that are expected of them, and what can't be written exactly is refused by its line."""
import datetime
import gzip
import os
import shutil
import signal
import subprocess
import tempfile
import time
import unittest
import unittest.mock

import forked
from aurora_tools import moments, stream_file
from aurora_tools.tables import Refused

TOOLS = os.path.dirname(os.path.dirname(os.path.abspath(__file__)))
ISO = "%Y-%m-%dT%H:%M:%SZ"


class Streams(unittest.TestCase):
    def setUp(self):
        room = tempfile.TemporaryDirectory()
        self.addCleanup(room.cleanup)
        self.room = room.name

    def run_on(self, text, *words, name="t.csv"):
        with open(f"{self.room}/{name}", "w", encoding="utf-8", newline="") as table:
            table.write(text)
        return forked.run([f"{TOOLS}/stream", *words, name, "made.csv"], cwd=self.room)

    def made(self, text, *words, name="t.csv"):
        """Returns the lines of the stream and of its table."""
        ran = self.run_on(text, *words, name=name)
        self.assertEqual(ran.returncode, 0, ran.stderr)
        with open(f"{self.room}/made.csv", encoding="utf-8", newline="") as stream:
            return stream.read().split("\n")[:-1], ran.stdout.split("\n")

    def refused(self, why, text, *words, name="t.csv"):
        if os.path.exists(f"{self.room}/made.csv"):
            os.unlink(f"{self.room}/made.csv")
        ran = self.run_on(text, *words, name=name)
        self.assertEqual((ran.returncode, ran.stdout), (1, ""))
        self.assertIn(why, ran.stderr)
        self.assertFalse(os.path.exists(f"{self.room}/made.csv"))

    def test_kinds_are_guessed_of_whole_columns(self):
        lines, table = self.made("t,Price (USD),ok,code,note\n1,10.5,true,007,\"a, b\"\n2,,false,012,\n2,-3.25,,100,\"say \"\"no\"\"\"\n", "--time", "t")
        self.assertEqual(lines, ['1,1050,true,007,"a, b"', "2,,false,012,", '2,-325,,100,"say ""no"""'])
        self.assertEqual(table[0], "# price_usd: Price (USD) times 100")
        self.assertEqual(table[1:5], ["[[source]]", 'name = "made"', 'file = "made.csv"',
                                      'fields = ["price_usd:int", "ok:bool", "code:text", "note:text"]'])

    def test_a_word_that_makes_a_text_of_a_column_of_numbers_is_told(self):
        ran = self.run_on("t,v,code,who\n1,1.5,007,ann\n2,NA,012,bob\n3,2.5,100,5\n4,NA,101,6\n5,-,102,7\n6,3,1,8\n7,4,1,cy\n", "--time", "t")
        self.assertIn('fields = ["v:text", "code:text", "who:text"]', ran.stdout)
        self.assertIn('stream: v is text because of "NA" in line 3 and "-" in line 6: --missing NA --missing - makes Null of that\n', ran.stderr)
        self.assertNotIn("code", ran.stderr)
        text = "t,v\n1,1.5\n2,NA\n3,2\n"
        self.assertIn('["v:int"]', self.run_on(text, "--time", "t", "--missing", "NA").stdout)
        self.assertEqual(self.run_on(text, "--time", "t", "--field", "v:text").stderr, "")

    def test_a_stream_to_standard_output_has_its_table_beside_it(self):
        with open(f"{self.room}/t.csv", "w", encoding="utf-8") as table:
            table.write("t,v\n1,2\n")
        ran = forked.run([f"{TOOLS}/stream", "--time", "t", "t.csv", "-"], cwd=self.room)
        self.assertEqual(ran.stdout, "1,2\n")
        self.assertEqual(ran.stderr, '[[source]]\nname = "t"\nfile = "t.csv"\nfields = ["v:int"]\n')

    def test_fields_that_are_named_are_taken_alone(self):
        lines, table = self.made("t;a;b\n1;2,0;N/A\n", "--time", "t", "--separator", ";", "--field", "b=left:int.2", "--missing", "N/A")
        self.assertEqual(lines, ["1,"])
        self.assertIn('fields = ["left:int"]', table)

    def test_units_forms_and_origins(self):
        self.assertEqual(self.made("t,v\n1700000001000,1\n", "--time", "t", "--unit", "ms")[0], ["1700000001,1"])
        self.assertEqual(self.made("t,v\n1700000001500,1\n", "--time", "t", "--unit", "ms", "--down")[0], ["1700000001,1"])
        self.assertEqual(self.made("t,v\n1700000001.5,1\n", "--time", "t", "--tick", "ms", "--origin", "1700000000")[0], ["1500,1"])
        self.assertEqual(self.made("t,v\n2026-03-01T00:02:00Z,1\n", "--time", "t", "--unit", ISO, "--tick", "m", "--origin", "2026-03-01T00:00:00Z")[0], ["2,1"])
        self.assertEqual(self.made("t,v\n2026-03-01 01:00:05 +0100,1\n", "--time", "t", "--unit", "%Y-%m-%d %H:%M:%S %z")[0], ["1772323205,1"])
        self.assertEqual(self.made("v\n8\n9\n", "--time", "")[0], ["0,8", "1,9"])

    def test_decimals_are_scaled_exactly(self):
        cells = ["-0.5", "0.50", "+7", "1e3", "25e-1", ".5", "1.", "92233720368547758.07", "-92233720368547758.08"]
        lines, _ = self.made("t,v\n" + "".join(f"1,{it}\n" for it in cells), "--time", "t", "--field", "v:int.2")
        self.assertEqual(lines, [f"1,{it}" for it in ("-50", "50", "700", "100000", "250", "50", "100", "9223372036854775807", "-9223372036854775808")])

    def test_lines_of_json(self):
        rows = '{"t": 1, "price": 1.10, "on": true}\n\n{"t": 2, "price": null, "who": "x"}\n'
        lines, table = self.made(rows, "--time", "t", name="t.jsonl")
        self.assertEqual(lines, ["1,110,true,", "2,,,x"])
        self.assertIn('fields = ["price:int", "on:bool", "who:text"]', table)

    def test_tabs_part_cells_and_quotes_are_text(self):
        self.assertEqual(self.made('t\ta\n1\t"x" y\n', "--time", "t", name="t.tsv")[0], ['1,"""x"" y"'])

    def test_sorted_by_time_and_else_as_they_stood(self):
        self.assertEqual(self.made("t,v\n2,a\n1,b\n2,c\n1,d\n", "--time", "t", "--sort")[0], ["1,b", "1,d", "2,a", "2,c"])

    def test_a_log_with_one_time_keeps_it_beside_the_greatest_so_far(self):
        ran = self.run_on("t,v\n5,a\n3,b\n9,c\n4,d\n", "--time", "t", "--running", "at")
        self.assertIn("slack = 2 ", ran.stderr)
        with open(f"{self.room}/made.csv", encoding="utf-8") as stream:
            self.assertEqual(stream.read(), "5,5,a\n5,3,b\n9,9,c\n9,4,d\n")

    def test_a_second_time_becomes_ticks_too(self):
        lines, table = self.made("came,made,v\n00:00:05,00:00:03,1\n00:00:06,,2\n", "--time", "came", "--unit", "%H:%M:%S", "--origin", "00:00:00",
                                 "--field", "made=at:time", "--field", "v:int")
        self.assertEqual(lines, ["5,3,1", "6,,2"])
        self.assertIn('fields = ["at:int", "v:int"]', table)

    def test_lines_are_numbered_as_they_stood(self):
        lines, table = self.made("t,v\n2,a\n1,b\n", "--time", "t", "--sort", "--number", "id")
        self.assertEqual(lines, ["1,2,b", "2,1,a"])
        self.assertIn('fields = ["id:int", "v:text"]', table)

    def test_what_is_not_exact_is_refused(self):
        self.refused("line 3, v: 1.25 has more than 1 decimal", "t,v\n1,1.5\n2,1.25\n", "--time", "t", "--field", "v:int.1")
        self.refused("line 2, v: 9223372036854775808 is out of 64 bits", "t,v\n1,9223372036854775808\n", "--time", "t", "--field", "v:int")
        self.refused("has more than 1 decimal", f"t,v\n1,1.{'0' * 500}1\n", "--time", "t", "--field", "v:int.1")
        self.refused("line 2, v: 'NaN' is no number", "t,v\n1,NaN\n", "--time", "t", "--field", "v:int")
        self.refused("line 2, v: 'yes' is no word for true or false", "t,v\n1,yes\n", "--time", "t", "--field", "v:bool")
        self.refused("line 2, v: a text over 255 bytes: --cut", f"t,v\n1,{'ä' * 128}\n", "--time", "t")
        self.refused("a line feed", 't,v\n1,"a\nb"\n', "--time", "t")
        self.refused("line 1, v: an empty text", '{"t": 1, "v": ""}\n', "--time", "t", name="t.jsonl")

    def test_a_date_that_is_no_number_is_told_as_that(self):
        for time in ("02.03.2026 00:00:00", "3/2/2026", "08:30", "2 Mar 2026"):
            self.refused("a date or a time of day has a form, as --unit", f"t,v\n{time},1\n", "--time", "t")
        self.refused("for which --unit iso stands", "t,v\n2026-03-02,1\n", "--time", "t", "--unit", "s")
        self.assertEqual(self.made("t,v\n02.03.2026 00:00:01,1\n", "--time", "t", "--unit", "%d.%m.%Y %H:%M:%S")[0], ["1772409601,1"])

    def test_times_that_are_no_ticks_are_refused(self):
        self.refused("line 2, t: 1700000001500 lies between two ticks", "t,v\n1700000001500,1\n", "--time", "t", "--unit", "ms")
        self.refused("ticks are 0 to 2^40 - 1", "t,v\n1700000001500,1\n", "--time", "t", "--unit", "ms", "--tick", "ms")
        self.refused("line 3: its time is before that of a line above", "t,v\n2,1\n1,1\n", "--time", "t")
        self.refused("line 2, t: the time is missing", "t,v\n,1\n", "--time", "t")
        self.refused("line 2, t: time data", "t,v\n1 March,1\n", "--time", "t", "--unit", ISO)

    def test_tables_that_are_not_whole_are_refused(self):
        self.refused("line 3: 1 fields, and 2 headings", "t,v\n1,1\n2\n", "--time", "t")
        self.refused("the heading 'v' stands twice", "t,v,v\n1,1,1\n", "--time", "t")
        self.refused("there is no column 'at'", "t,v\n1,1\n", "--time", "at")
        self.refused("there are t;v: say --separator ';'\n", "t;v\n1;1\n", "--time", "t")
        self.refused("there are t\\x09v: say --separator '\\t'\n", "t\tv\n1\t1\n", "--time", "t")
        self.refused("is no name of a field", "t,And\n1,1\n", "--time", "t")
        self.refused("--field w:int", "t,v\n1,1\n", "--time", "t", "--field", "w:int")
        self.refused("a list or an object is no field", '{"t": 1, "v": [2]}\n', "--time", "t", name="t.jsonl")

    def test_iso_times_are_known_by_themselves_with_offsets_and_fractions(self):
        self.assertEqual(self.made("t,v\n2026-03-01,1\n2026-03-01 01:00:05+01:00,2\n2026-03-01T00:00:06Z,3\n20260301T000007Z,4\n", "--time", "t")[0],
                         ["1772323200,1", "1772323205,2", "1772323206,3", "1772323207,4"])
        words = ("--time", "t", "--tick", "ms", "--origin", "2026-03-01")
        self.assertEqual(self.made("t,v\n2026-03-01T00:00:05.25Z,1\n2026-03-01T00:00:05,251Z,2\n".replace("05,", "05."), *words)[0], ["5250,1", "5251,2"])
        self.assertEqual(self.made("t,v\n1772323205250,1\n", *words, "--unit", "ms")[0], ["5250,1"])
        self.assertEqual(self.made("t,v\n01.03.2026 00:00:05,1\n", *words, "--unit", "%d.%m.%Y %H:%M:%S")[0], ["5000,1"])
        self.refused("line 2, t: 2026-02-30 is no day", "t,v\n2026-02-30,1\n", "--time", "t")
        self.refused("24:00:00 is no time of day", "t,v\n2026-02-28T24:00:00Z,1\n", "--time", "t")
        self.refused("is finer than a nanosecond", "t,v\n2026-02-28T20:00:00.0000000001Z,1\n", "--time", "t")
        self.refused("lies between two ticks", "t,v\n2026-02-28T20:00:00.5Z,1\n", "--time", "t")
        self.refused("say --origin 2026-03-01", "t,v\n2026-03-01T20:00:00.5Z,1\n", "--time", "t", "--tick", "ms")
        self.refused("are these ms, us or ns?", "t,v\n1772323205250,1\n", "--time", "t")

    def test_forms_are_read_as_strptime_reads_them(self):
        forms = ("%Y-%m-%d %H:%M:%S", "%d/%b/%Y:%H:%M:%S %z", "%d.%m.%Y %H:%M", "%Y%m%dT%H%M%S.%f%z", "%H:%M:%S", "%S %Y %d %m", "%d %B %Y %H:%M:%S", "%j %Y",
                 "%I:%M:%S %p %d.%m.%Y", "(%Y) %m %d %H:%M:%S", "%y%m%d %H%M%S", "%%%Y%m%d %S")
        zones = [datetime.timezone(datetime.timedelta(minutes=it)) for it in (0, 60, -330)]
        for form in forms:
            times = [datetime.datetime(1999 + it, it % 12 + 1, it % 28 + 1, it % 24, it * 7 % 60, it * 11 % 60, it * 250_000 % 10**6, zones[it % 3]) for it in range(30)]
            cells = [it.strftime(form) for it in times] + ["1/1/1", ""]
            reader = moments.Form(form, moments.utc)
            parts = reader.parts(1, 0)
            for cell, many in zip(cells, parts and parts.all(cells[:30]) or [None] * 30):
                moment = datetime.datetime.strptime(cell, form)
                past = (moment if moment.tzinfo else moment.replace(tzinfo=datetime.timezone.utc)) - moments.EPOCH
                wanted = (past.days * 86400 + past.seconds) * 10**9 + past.microseconds * 1000
                self.assertEqual((reader.one(cell), many or wanted), (wanted, wanted), (form, cell))
            self.assertRaises(Refused, reader.one, "1/1/1")

    def test_times_that_share_their_seconds_are_the_sum_of_their_parts(self):
        # So many rows a second that a second is kept as one part, and so few that it isn't; milliseconds from an origin within a second.
        for step in (7, 1700):
            past = [1_772_323_200_250 + it * step for it in range(300)]
            cells = [(moments.EPOCH + datetime.timedelta(milliseconds=it)).strftime("%Y-%m-%dT%H:%M:%S") + f".{it % 1000:03}Z" for it in past]
            ticks = moments.Ticks("iso", "ms", "2026-03-01T00:00:00.250Z", False)
            self.assertEqual(ticks.all(cells), [it * step for it in range(300)])
            self.assertIsNone(ticks.all([*cells, "2026-03-01T00:00:00.2505Z"]))
            self.assertEqual(moments.Ticks("iso", "s", "2026-03-01", True).all(cells), [(it - 1_772_323_200_000) // 1000 for it in past])

    def test_times_of_a_zones_clock(self):
        words = ("--time", "t", "--zone", "Europe/Berlin")
        rows = "t,v\n2026-03-29T01:59:59,1\n2026-03-29T03:00:00,2\n2026-03-29T01:00:01Z,3\n2026-10-25T01:59:59,4\n2026-10-25T03:00:00,5\n"
        self.assertEqual(self.made(rows, *words)[0], ["1774745999,1", "1774746000,2", "1774746001,3", "1792886399,4", "1792893600,5"])
        self.assertEqual(self.made("t,v\n01.07.2026 12:00:00,1\n", *words, "--unit", "%d.%m.%Y %H:%M:%S")[0], ["1782900000,1"])
        self.assertEqual(self.made("t,v\n2026-07-01,1\n", *words, "--origin", "2026-07-01")[0], ["0,1"])
        self.refused("2026-03-29 02:30:00 stands never on the clocks of Europe/Berlin", "t,v\n2026-03-29 02:30:00,1\n", *words)
        self.refused("2026-10-25 02:30:00 stands twice on the clocks of Europe/Berlin", "t,v\n2026-10-25T02:30:00,1\n", *words)
        self.refused("there is no such zone here", "t,v\n2026-10-25T02:30:00,1\n", "--time", "t", "--zone", "Nowhere/../x")

    def test_what_turns_out_late_changes_the_rows_before(self):
        many = "".join(f"{it},{it % 7}\n" for it in range(60_000))
        lines, table = self.made(f"t,v\n{many}60000,1.25\n", "--time", "t")
        self.assertEqual((lines[0], lines[3], lines[-1]), ("0,0", "3,300", "60000,125"))
        self.assertEqual(self.made(f"t,v\n{many}60000,x\n", "--time", "t")[0][3], "3,3")
        rows = "".join(f'{{"t": {it}, "v": {it % 7}}}\n' for it in range(5000))
        lines, table = self.made(rows + '{"t": 5000, "w": true}\n', "--time", "t", name="t.jsonl")
        self.assertEqual((lines[3], lines[-1]), ("3,3,", "5000,,true"))
        self.refused("line 60003, v: 1.5 is no whole number", f'"t",v\n{many}60000,"1"\n60001,1.5\n', "--time", "t", "--field", "v:int")
        self.refused("line 60002: its time is before", f"t,v\n{many}1,1\n", "--time", "t")

    def test_quotes_and_line_feeds_from_somewhere_on(self):
        many = "".join(f"{it},a\n" for it in range(60_000))
        lines, _ = self.made(f't,v\n{many}60000,"b, c"\n\n60001,d\n', "--time", "t")
        self.assertEqual(lines[-3:], ["59999,a", '60000,"b, c"', "60001,d"])
        self.refused("line 60005, v: a text with a line feed", f't,v\n{many}60000,"b"\n\n60001,"d\ne"\n', "--time", "t")

    def test_sorting_is_stable_over_many_blocks(self):
        rows = [(it * 7919 % 50_021, it) for it in range(60_000)]
        lines, _ = self.made("t,v\n" + "".join(f"{a},{b}\n" for a, b in rows), "--time", "t", "--sort")
        self.assertEqual(lines, [f"{a},{b}" for a, b in sorted(rows, key=lambda it: it[0])])

    def test_packed_tables_are_unpacked(self):
        with gzip.open(f"{self.room}/t.csv.gz", "wt") as table:
            table.write("t,v\n1,2\n")
        if shutil.which("zstd"):
            with open(f"{self.room}/t.csv.zst", "wb") as table:
                table.write(subprocess.run(["zstd", "-q"], input=b"t,v\n1,2\n", capture_output=True, check=True).stdout)
        for name in filter(lambda it: os.path.exists(f"{self.room}/{it}"), ("t.csv.gz", "t.csv.zst")):
            ran = forked.run([f"{TOOLS}/stream", "--time", "t", name, "-"], cwd=self.room)
            self.assertEqual(ran.stdout, "1,2\n", ran.stderr)
            with open(f"{self.room}/{name}", "rb") as table:
                whole = table.read()
            with open(f"{self.room}/{name}", "wb") as table:
                table.write(whole[:-6])
            ran = forked.run([f"{TOOLS}/stream", "--time", "t", name, "s.csv"], cwd=self.room)
            self.assertEqual((ran.returncode, os.path.exists(f"{self.room}/s.csv")), (1, False), ran.stderr)

    def test_a_decimal_comma_is_told_and_read(self):
        text = "t;v\n1;12,5\n2;3,25\n"
        self.assertIn("v is text, and looks like numbers with a decimal comma: --comma", self.run_on(text, "--time", "t", "--separator", ";").stderr)
        self.assertEqual(self.made(text, "--time", "t", "--separator", ";", "--comma")[0], ["1,1250", "2,325"])
        beside = text + "3;NA\n4;\n5;-\n6;4\n7;7,25\n"
        said = self.run_on(beside, "--time", "t", "--separator", ";").stderr
        self.assertIn('v is text, and looks like numbers with a decimal comma beside "NA" in line 4 and "-" in line 6: --comma --missing NA --missing - makes numbers of that', said)
        self.assertEqual(self.made(beside, "--time", "t", "--separator", ";", "--comma", "--missing", "NA", "--missing=-")[0][-3:], ["5,", "6,400", "7,725"])
        for words in ("a\n3;b\n4;c\n5;d\n6;e\n", "a\n3;a\n4;a\n5;a\n"):
            self.assertNotIn("comma", self.run_on(f"t;v\n1;12,5\n2;{words}", "--time", "t", "--separator", ";").stderr)
        self.refused("'12,5' is no number: where its comma parts the decimals, say --comma", text, "--time", "t", "--separator", ";", "--field", "v:int.2")
        self.refused("is no number", "t;v\n1;1.234,5\n", "--time", "t", "--separator", ";", "--comma", "--field", "v:int.2")

    def test_json_in_one_array(self):
        self.assertEqual(self.made('[{"t": 1, "v": 1.5},\n {"t": 2, "w": "x"}]', "--time", "t", name="t.json")[0], ["1,15,", "2,,x"])
        self.refused("item 2: ", '[{"t": 1}, {"t": 2', "--time", "t", name="t.json")
        for text, why in (('{"t": 1, "v": NaN}', "NaN is no value of JSON: --missing NaN"), ('{"t": 1, "v": "\\ud800"}', "half of a character"),
                          ('{"t": 1, "t": 2}', "a key stands twice"), ("[" * 100_000, "nested too deeply")):
            self.refused(why, text + "\n", "--time", "t", name="t.jsonl")

    def test_access_logs(self):
        log = ('10.0.0.7 - ann [10/Oct/2000:13:55:36 -0700] "GET /a,b HTTP/1.0" 200 2326 "-" "curl"\n'
               '10.0.0.8 - - [10/Oct/2000:13:55:37 -0700] "-" 408 -\n')
        words = ("--form", "clf", "--time", "time", "--field", "status:int", "--field", "path:text", "--field", "bytes:int")
        self.assertEqual(self.made(log, *words)[0], ['971211336,200,"/a,b",2326', "971211337,408,,"])
        self.refused("line 3: no line of an access log", log + "x\n", *words)

    def test_a_long_table_is_written_only_where_that_is_said(self):
        self.assertEqual((stream_file.MOST_TUPLES, stream_file.MOST_BYTES), (1_000_000, 64 * 2**20), "what a run takes of a source")
        for limit, most, why in (("MOST_TUPLES", 1000, "more than 1,000 tuples"), ("MOST_BYTES", 4000, "more than 4,000 bytes")):
            with self.subTest(limit), unittest.mock.patch.object(stream_file, limit, most):
                self.assertEqual(len(self.made("t,v\n" + "1,2\n" * 1000, "--time", "t")[0]), 1000)
                rows = "t,v\n" + "1,2\n" * 1001
                self.refused(f"{why}, which is the most that a run takes of a source", rows, "--time", "t")
                self.assertEqual(len(self.made(rows, "--time", "t", "--long")[0]), 1001)

    def test_wide_texts_are_cut_where_that_is_said(self):
        ran = self.run_on(f"t,v\n1,{'a' * 255}\n2,{'ä' * 128}\n3,{'b' * 300}\n", "--time", "t", "--cut")
        self.assertIn("stream: 2 texts of v over 255 bytes were cut, the first in line 3\n", ran.stderr)
        with open(f"{self.room}/made.csv", encoding="utf-8") as stream:
            self.assertEqual(stream.read(), f"1,{'a' * 255}\n2,{'ä' * 127}\n3,{'b' * 255}\n")

    def test_one_scale_in_all_tables(self):
        self.assertEqual(self.made("t,p,n\n1,10,7\n2,10.5,\n", "--time", "t", "--decimals", "p=4")[0], ["1,100000,7", "2,105000,"])
        self.assertEqual(self.made("t,p\n1,10\n", "--time", "t", "--decimals", "p=4"), (["1,100000"], ["# p: p times 10000", "[[source]]", 'name = "made"', 'file = "made.csv"', 'fields = ["p:int"]', ""]))
        self.refused("line 2, p: 1.25 has more than 1 decimal", "t,p\n1,1.25\n", "--time", "t", "--decimals", "p=1")
        self.refused("not all in that column are numbers", "t,p\n1,1.25\n2,x\n", "--time", "t", "--decimals", "p=4")
        self.refused("there is no column 'q'", "t,p\n1,1.25\n", "--time", "t", "--decimals", "q=4")
        self.refused("it is COLUMN=N", "t,p\n1,1.25\n", "--time", "t", "--decimals", "p=x")

    def test_a_number_that_leaves_64_bits_is_told(self):
        ran = self.run_on("t,id,v\n1,7,1.123456789\n2,9223372036854775807,12345678901\n3,9223372036854775808,2\n", "--time", "t")
        self.assertIn('fields = ["id:text", "v:text"]', ran.stdout)
        self.assertIn("stream: id is text because the number in line 4 leaves 64 bits\n", ran.stderr)
        self.assertIn("stream: v is text because the number in line 3 times 1000000000, by the decimals of others, leaves 64 bits\n", ran.stderr)

    def test_nothing_that_is_read_is_written_over(self):
        with open(f"{self.room}/own.csv", "w", encoding="utf-8") as table:
            table.write("t,v\n1,2\n")
        os.symlink("own.csv", f"{self.room}/link.csv")
        for name in ("own.csv", "link.csv", "./own.csv"):
            ran = forked.run([f"{TOOLS}/stream", "--time", "t", "own.csv", name], cwd=self.room)
            self.assertEqual((ran.returncode, ran.stdout), (1, ""))
            self.assertIn("it isn't written over", ran.stderr)
        with open(f"{self.room}/own.csv", encoding="utf-8") as table:
            self.assertEqual(table.read(), "t,v\n1,2\n")

    def test_the_slack_of_each_time(self):
        ran = self.run_on("t,at,v\n5,3,1\n6,1,2\n7,,3\n8,9,3\n9,2,1\n", "--time", "t", "--field", "at=at:time", "--field", "v:int")
        self.assertIn("a BSort by at with slack = 2 loses nothing of this table, but for 1 whose at is behind their tick", ran.stderr)

    def test_an_interrupt_leaves_nothing(self):
        with open(f"{self.room}/t.csv", "w", encoding="utf-8") as table:
            table.write("t,v\n" + "1,2\n" * 900_000)
        for sign, told in ((signal.SIGINT, b"stream: interrupted\n"), (signal.SIGTERM, b"")):
            run = subprocess.Popen([f"{TOOLS}/stream", "--time", "t", "t.csv", "s.csv"], cwd=self.room, stderr=subprocess.PIPE)
            while run.poll() is None and len(os.listdir(self.room)) < 2:
                time.sleep(0.01)
            run.send_signal(sign)
            said = run.communicate()[1]
            self.assertEqual((said, os.listdir(self.room)), (told, ["t.csv"]))
            self.assertNotEqual(run.returncode, 0)

    def test_help_has_status_0(self):
        ran = forked.run([f"{TOOLS}/stream", "--help"])
        self.assertEqual((ran.returncode, ran.stderr), (0, ""))
        self.assertIn("aurora-stream --time COLUMN", ran.stdout)
