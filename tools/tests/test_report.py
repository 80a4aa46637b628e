"""What a page and a picture are made of: drop points and kinds of fields, what a run left out, lines that break, the page itself."""
import os
import re
import shutil
import tempfile
import unittest
import xml.etree.ElementTree

import forked
from aurora_tools import charts, network, page, run_text, series

TOOLS = os.path.dirname(os.path.dirname(os.path.abspath(__file__)))
FRONT = f"{TOOLS}/../examples/overload/front.toml"
SOURCE = '[[source]]\nname = "s"\nfile = "s.csv"\nfields = ["v:int", "w:text"]\n'


def box(name, kind, *into, **keys):
    rest = "".join(f"{key} = {value}\n" for key, value in keys.items())
    return f'[[box]]\nname = "{name}"\nkind = "{kind}"\nin = {list(into)}\n{rest}'.replace("'", '"')


def aggregate(name, into, size, advance, **keys):
    return box(name, "aggregate", into, size=size, advance=advance, give='[["t", "sum", "v"]]' if into == "s" else '[["t", "max", "t"]]', **keys)


def output(name, stream):
    return f'[[output]]\nname = "{name}"\nfrom = "{stream}"\n'


class Files(unittest.TestCase):
    def setUp(self):
        self.room = tempfile.TemporaryDirectory()

    def tearDown(self):
        self.room.cleanup()

    def write(self, name, text):
        with open(f"{self.room.name}/{name}", "w", encoding="utf-8", newline="") as file:
            file.write(text)
        return f"{self.room.name}/{name}"

    def network(self, *parts, version=1):
        return network.read(self.write("net.toml", f"version = {version}\n{SOURCE}" + "".join(parts)))

    def drops(self, *parts, **more):
        return [(drop.stream, drop.boxes, drop.outputs, drop.length, drop.reach) for drop in self.network(*parts, **more).drops]

    def run_of(self, text):
        return run_text.Run(self.write("text", text))


class DropPoints(Files):
    def test_a_chain_of_aggregates_has_one_at_its_head_and_batches_of_the_last_advance(self):
        chain = aggregate("a", "s", 4, 2), aggregate("b", "a", 4, 4), output("o", "b")
        self.assertEqual(self.drops(*chain), [("s", [0, 1], [0], 4, 6)])

    def test_batches_have_the_least_common_multiple_of_all_outputs(self):
        self.assertEqual(self.drops(aggregate("a", "s", 6, 4), aggregate("b", "a", 9, 6), output("o", "a"), output("p", "b")), [("s", [0, 1], [0, 1], 12, 13)])

    def test_a_phase_leaves_batches_as_they_are(self):
        self.assertEqual(self.drops(aggregate("a", "s", 4, 2, phase=1), output("o", "a"), version=2), [("s", [0], [0], 2, 3)])

    def test_none_stands_above_a_join_a_sort_or_a_resample(self):
        join = box("j", "join", "s", "s", size=1, on='"true"')
        after = box("a", "aggregate", "j", size=2, advance=2, give='[["n", "count"]]')
        self.assertEqual(self.drops(join, after, output("o", "a")), [("j", [1], [0], 2, 1)])
        sort = box("j", "bsort", "s", by='"v"', slack=1)
        self.assertEqual(self.drops(sort, after, output("o", "a")), [("j", [1], [0], 2, 1)])
        resample = box("j", "resample", "s", "s", size=1, give='[["n", "count"]]')
        self.assertEqual(self.drops(resample, after, output("o", "a")), [("j", [1], [0], 2, 1)])

    def test_an_output_of_the_stream_itself_leaves_an_arc(self):
        self.assertEqual(self.drops(aggregate("a", "s", 4, 2), output("o", "a"), output("p", "s")), [("s", [0], [0], 2, 3)])

    def test_none_where_no_aggregate_stands(self):
        self.assertEqual(self.drops(output("p", "s")), [])


class Fields(Files):
    def test_kinds_follow_from_box_to_box(self):
        boxes = (box("m", "map", "s", set='[["a", "v + 1"], ["b", "v > 1"], ["c", "w"], ["d", "time"]]'),
                 box("g", "aggregate", "m", size=2, advance=2, group='["c"]', give='[["n", "count"], ["f", "first", "b"], ["l", "last", "c"]]'),
                 box("j", "join", "g", "s", size=1, on='"true"'), box("f", "filter", "j", where='["l_n > 1"]'),
                 box("r", "resample", "s", "m", size=1, give='[["most", "max", "c"], ["mean", "avg", "a"]]'))
        of = self.network(*boxes, output("o", "f.1"), output("p", "r"))
        self.assertEqual(of.fields("m"), {"a": "int", "b": "bool", "c": "text", "d": "int"})
        self.assertEqual(of.fields("g"), {"c": "text", "n": "int", "f": "bool", "l": "text"})
        self.assertEqual(of.fields("f.2"), {"l_c": "text", "l_n": "int", "l_f": "bool", "l_l": "text", "r_v": "int", "r_w": "text"})
        self.assertEqual(of.fields("r"), {"l_v": "int", "l_w": "text", "most": "text", "mean": "int"})

    def test_numbers_are_shown_and_texts_and_groups_tell_lines_apart(self):
        of = self.network(box("g", "aggregate", "s", size=2, advance=2, group='["v", "w"]', give='[["n", "count"]]'), output("o", "g"))
        found = series.series_of(of, of.outputs[0], [(0, ["7", "x", "3"]), (2, ["7", "x", ""]), (2, ["8", "", "1"])])
        self.assertEqual([(one.field, one.lines) for one in found], [("n", {"7 x": [(0, 3), (2, None)], "8 -": [(2, 1)]})])


class Runs(Files):
    def setUp(self):
        super().setUp()
        self.net = self.network(aggregate("a", "s", 4, 2), output("o", "a"), output("p", "s"))

    def test_batches_that_meet_are_one_span(self):
        run = self.run_of("o,0,1\n@drop,0,3,50\n@drop,0,1,50\n@drop,0,2,50\n@box,a,5\n@end\n")
        self.assertEqual(run_text.missing(self.net, run, 0), [(2, 8)])
        self.assertEqual(run_text.missing(self.net, run, 1), [])
        self.assertTrue(run.whole)

    def test_a_run_that_broke_off(self):
        run = self.run_of("o,0,1\no,2,")
        self.assertEqual((run.whole, run.rows), (False, {"o": [(0, ["1"])]}))
        self.assertFalse(self.run_of("o,0,1\n@end").whole)

    def strange(self, text, words):
        with self.assertRaisesRegex(run_text.Strange, words):
            run_text.agree(self.net, self.run_of(text))

    def test_another_network(self):
        self.strange("o,2,1\n@drop,0,1,50\n@end\n", "o has a line of tick 2, and drop 0 left out batch 1")
        self.strange("@drop,1,1,50\n@end\n", "drop 1")
        self.strange("q,2,1\n@end\n", "has no q")
        self.strange("@box,b,1\n@end\n", "has no b")
        self.strange("o,2,1,5\n@end\n", "2 fields, and 1")
        with self.assertRaisesRegex(run_text.Strange, "line 2 of the text"):
            self.run_of("o,0,1\no,x,1\n@end\n")


class Charts(unittest.TestCase):
    def test_a_line_breaks_at_a_gap_at_a_span_and_where_a_value_is_missing(self):
        points = [(0, 1), (10, 2), (20, 3), (50, 4), (60, None), (70, 5), (80, 6), (90, 7)]
        self.assertEqual(series.pieces(points, []), [[(0, 1), (10, 2), (20, 3)], [(50, 4)], [(70, 5), (80, 6), (90, 7)]])
        self.assertEqual(series.pieces([(0, 1), (10, 2), (20, 3)], [(12, 15)]), [[(0, 1), (10, 2)], [(20, 3)]])

    def test_of_many_points_each_stretch_keeps_its_least_and_greatest(self):
        points = [(tick, 5 if tick == 1234 else -5 if tick == 4321 else tick % 2) for tick in range(5000)]
        kept = charts.thinned(points, charts.Axis(0, 4999, False), 100)
        self.assertLessEqual(len(kept), 400)
        self.assertEqual(kept, sorted(kept))
        self.assertLessEqual({(0, 0), (1234, 5), (4321, -5), (4999, 1)}, set(kept))

    def test_marks_of_an_axis(self):
        self.assertEqual([tick for tick, _ in charts.Axis(3, 98, False).marked(95, 5)], [20, 40, 60, 80])
        self.assertEqual(charts.Axis(1704066000, 1704073200, True).marks(150), [(1704067200, "00:00\n2024-01-01"), (1704070800, "01:00")])

    def test_marks_leave_room_between_their_texts(self):
        for axis in (charts.Axis(1704066000, 1704066000 + days * 86400, True) for days in (1, 2, 5, 40, 4000)):
            for width in (150, 214, 880):
                marks = axis.marks(width)
                self.assertTrue(marks)
                drawn = charts.Frame(axis, 0, 0, width, 50, 0, 1).ground([], marks, [])
                texts = [(float(x), words) for x, words in re.findall(r'<text x="([-0-9.]+)" y="64.0" class="mid">([^<]*)<', drawn)]
                self.assertEqual(len(texts), len(marks))
                for (now, words), (after, more) in zip(texts, texts[1:]):
                    self.assertGreaterEqual(after - now, (len(words) + len(more)) / 2 * 6, (axis, width, marks))

    def test_spans_name_each_day_once(self):
        axis, ticks = charts.Axis(0, 200_000, True), charts.Axis(0, 200_000, False)
        self.assertEqual(page.spans_told(axis, [(60, 120), (180, 181), (86400, 90000)]),
                         "1970-01-01 00:01:00 to 00:01:59, 00:03:00, 1970-01-02 00:00:00 to 00:59:59")
        self.assertEqual(page.spans_told(ticks, [(60, 120), (180, 181)]), "60 to 119, 180")

    def test_more_than_eight_lines_have_panels_of_their_own(self):
        lines = {f"host{at}": [(0, 1), (10, 2)] for at in range(9)}
        axis = charts.Axis(0, 10, False)
        self.assertEqual(charts.panel(series.Series("v", lines), [], axis, {}).count('class="frame"'), 9)
        lines.pop("host0")
        self.assertEqual(charts.panel(series.Series("v", lines), [], axis, {}).count('class="frame"'), 1)


class Page(Files):
    def report(self, text, *words, net=FRONT, path=None):
        with open(f"{TOOLS}/../examples/overload/expected.txt", encoding="utf-8") as file:
            text = file.read() if text is None else text
        page = f"{self.room.name}/page.html"
        env = {**os.environ, "PATH": path} if path else None
        run = forked.run([f"{TOOLS}/report", *words, net, self.write("text", text), page], env=env)
        if run.returncode:
            return run.stderr, ""
        with open(page, encoding="utf-8") as file:
            return run.stderr, file.read()

    def test_the_overloaded_front(self):
        _, page = self.report(None)
        self.assertIn("5 batches of drop 0 and 2 batches of drop 1", page)
        self.assertIn("the windows that start from 80 to 129", page)
        self.assertIn("the windows that start from 90 to 149", page)
        went = re.findall(r"<td>(\d of \d(?: \(level \d+\))?|none begins)</td>", page)
        self.assertEqual(went, ["2 of 2 (level 450)", "1 of 1 (level 800)", "2 of 2 (level 450)", "none begins", "1 of 2 (level 450)", "1 of 1 (level 800)"])
        self.assertIn("<td>tens</td><td>aggregate</td><td>153</td>", page)
        for words in ("load that the plan leaves, on average", "</i>planned saving", "<th>planned saving</th>"):
            self.assertIn(words, page)
        self.assertEqual(page.count("left out: 80 to 129"), 4, "a band in each panel below drop 0")
        self.assertNotRegex(page, r"<script|href|src=|http://(?!www\.w3\.org)|@import")

    def test_seconds_are_shown_in_utc(self):
        self.assertIn("1970-01-01 00:01:20 to 00:02:09", self.report(None, "--seconds")[1])

    def test_a_run_that_broke_off_is_said(self):
        self.assertIn("didn't come to its end", self.report("asked,0,cart,1,48\n")[1])

    def test_another_network_is_refused(self):
        with open(FRONT, encoding="utf-8") as file:
            other = self.write("other.toml", file.read().replace("advance = 10\ngroup", "advance = 5\ngroup").replace("size = 30\nadvance = 10", "size = 30\nadvance = 5"))
        said, page = self.report(None, net=other)
        self.assertIn("isn't the network of this run", said)
        self.assertEqual(page, "")

    def test_without_graphviz_the_rest_is_made(self):
        said, page = self.report(None, path=self.room.name)
        self.assertIn("dot isn't installed", said)
        self.assertIn("Not drawn", page)

    @unittest.skipUnless(shutil.which("dot"), "dot isn't installed")
    def test_the_network_is_drawn(self):
        page = self.report(None)[1]
        for words in ("batches of 30", "5 left out", "fed 153", "asked = count, slowest = max millis"):
            self.assertIn(words, page)

    def test_a_script_of_a_name_makes_no_page(self):
        for name in ("x.\"]; s0 [URL=\"javascript:alert(1)\"", "../../out"):
            net = self.write("hostile.toml", f"version = 1\n[[source]]\nname = '{name}'\nfile = 's.csv'\nfields = ['v:int']\n[[output]]\nname = 'o'\nfrom = '{name}'\n")
            self.assertEqual(self.report("@end\n", net=net)[1], "")


class Picture(Files):
    def draw(self, text, *words, net=FRONT, picture="picture.svg", path=None):
        """Returns the status, what is said, and the picture."""
        env = {**os.environ, "PATH": path} if path else None
        where = os.path.join(self.room.name, picture)
        run = forked.run([f"{TOOLS}/draw", "--network", net, *words, self.write("text", text), where], env=env)
        drawn = None
        if os.path.exists(where):
            with open(where, "rb") as file:
                drawn = file.read()
        return run.returncode, run.stderr, drawn

    def front(self):
        with open(f"{TOOLS}/../examples/overload/expected.txt", encoding="utf-8") as file:
            return file.read()

    def test_the_overloaded_front(self):
        _, said, drawn = self.draw(self.front())
        self.assertEqual(said, "")
        words = "".join(it.text or "" for it in xml.etree.ElementTree.fromstring(drawn).iter())
        for word in ("asked", "slowest", "cart", "pay", "search", "left out: 80 to 129"):
            self.assertIn(word, words)
        self.assertIn("asked", self.draw(self.front(), "--column", "asked=asked")[2].decode())

    def test_texts_and_names_run_nothing_and_make_whole_xml(self):
        net = self.write("n.toml", "version = 1\n[[source]]\nname = 's'\nfile = 's.csv'\nfields = ['k:text', 'v:int']\n[[output]]\nname = 'o'\nfrom = 's'\n")
        rows = "".join(f"o,{at},\"{at}{' ' * (160 + at)}!touch {self.room.name}/RUN #\x00\x1b[2J</svg><script>\u202e'\",{at}\n" for at in range(7))
        status, said, drawn = self.draw(rows + "@end\n", net=net, picture=f"|touch {self.room.name.replace('/', '_')} #.svg")
        self.assertEqual((status, said), (0, ""))
        xml.etree.ElementTree.fromstring(drawn)
        self.assertNotIn(b"<script", drawn)
        self.assertEqual(len(os.listdir(self.room.name)), 3)

    def test_what_cannot_be_drawn_is_told(self):
        for words, why in ((("--column", "asked=service"), "has no number `service`"), (("--column", "nope=asked"), "the outputs are asked")):
            status, said, drawn = self.draw(self.front(), *words)
            self.assertEqual((status, drawn), (1, None))
            self.assertIn(why, said)
        self.assertIn("x.gif ends neither in .svg nor in .png or .pdf", self.draw(self.front(), picture="x.gif")[1])
        for name in ("x.png", "x.pdf"):
            status, said, drawn = self.draw(self.front(), picture=name, path=self.room.name)
            self.assertEqual((status, drawn), (1, None))
            self.assertIn(f"{name}: rsvg-convert, which makes a {name[1:]}, isn't there; Debian's package librsvg2-bin has it", said)
        self.assertIn("no line of an output", self.draw("@end\n")[1])
        self.assertIn("asked has a line whose `asked` isn't of the kind int", self.draw("asked,0,cart,x,48\n@end\n")[1])

    def test_nothing_that_is_read_is_written_over(self):
        with open(FRONT, encoding="utf-8") as file:
            net = self.write("front.svg", file.read())
        status, said, drawn = self.draw(self.front(), net=net, picture="front.svg")
        self.assertEqual(status, 1)
        self.assertIn("it isn't written over", said)
        self.assertIn(b"version", drawn)

    @unittest.skipUnless(shutil.which("rsvg-convert"), "rsvg-convert isn't installed")
    def test_a_picture_of_points(self):
        self.assertTrue(self.draw(self.front(), picture="x.png")[2].startswith(b"\x89PNG"))
        self.assertTrue(self.draw(self.front(), picture="x.pdf")[2].startswith(b"%PDF"))


if __name__ == "__main__":
    unittest.main()
