"""Which links of a page lead nowhere, and where it counts other edits than there are."""
import pathlib
import tempfile
import unittest
import unittest.mock

import loaded

promises = loaded.tool("promises")


class Pages(unittest.TestCase):
    def setUp(self):
        room = tempfile.TemporaryDirectory()
        self.addCleanup(room.cleanup)
        self.top = pathlib.Path(room.name)
        patched = unittest.mock.patch.object(promises, "TOP", self.top)
        patched.start()
        self.addCleanup(patched.stop)

    def page(self, text, name="docs/A.md"):
        path = self.top / name
        path.parent.mkdir(parents=True, exist_ok=True)
        path.write_text(text, encoding="utf-8")
        return path

    def test_anchors_are_those_of_the_page_as_it_is_shown(self):
        text = "# The page\n## 8. When load is over `capacity`\n## A [link](b.md): twice\n### Twice\n### Twice\n```sh\n# no heading\n```\n"
        self.assertEqual(promises.anchors_in(text), {"the-page", "8-when-load-is-over-capacity", "a-link-twice", "twice", "twice-1"})

    def test_links_that_lead_nowhere(self):
        self.page("# Here\n", "docs/B.md")
        page = self.page("# Top\n[a](B.md#here) [b](B.md#there) [c](C.md) [d](#top) [e](https://x.example/y) ![f](../g.svg) [`h`](../docs/B.md)\n```toml\n[i](J.md)\n```\n")
        self.assertEqual(list(promises.dead_links(page)), ["docs/A.md links to B.md#there, and B.md has no such heading", "docs/A.md links to C.md, which isn't there", "docs/A.md links to ../g.svg, which isn't there"])

    def test_other_numbers_of_edits_than_there_are(self):
        for name in ("x/must-fail/a", "x/must-fail/b", "y/must-fail/c", "x/edits/d"):
            self.page("", f"crates/{name}.edit")
        self.assertEqual(list(promises.wrong_numbers(self.page("It tries 3 edits in 2\ncrates."))), [])
        self.assertEqual(list(promises.wrong_numbers(self.page("It tries 3 edits in 1 crates, and it tries 4 edits in 2 crates."))),
                         [f"docs/A.md tells {said} crates, and the gate tries 3 in 2" for said in ("3 edits in 1", "4 edits in 2")])
        self.assertEqual(list(promises.wrong_numbers(self.page("It tried 9 edits in 9 crates.", "docs/CHANGELOG.md"))), [])


if __name__ == "__main__":
    unittest.main()
