"""Which licenses a package tells, of the program and of the libraries that are linked into it, read from a kit."""
import pathlib
import tempfile
import unittest

import loaded

tool = loaded.tool("copyright")

OWN = """SPDX-License-Identifier: Apache-2.0 OR MIT

Copyright 2026 the authors of aurora

Apache-2.0

Ask /usr/share/common-licenses/Apache-2.0.

MIT

Do what you like,
but keep this.
"""
APACHE = "   Apache License\n   Version 2.0, January 2004\n\n   Copyright 1999 in an example\n\n   END OF TERMS AND CONDITIONS\n"
KIT = {
    "apples": (["pears", "std"], {"LICENSE-APACHE": APACHE, "LICENSE-MIT": "The MIT License (MIT)\n\nCopyright (c) 2001 Ann Other\n\nDo what\nyou like, but keep this.\n"}),
    "pears": (["std"], {"LICENSE": APACHE, "LICENSE-MORE": "Do what you like, but keep this.\n"}),
    "plums": (["std"], {"LICENSE": "Copyright 2002 Some One\n\nDo nothing.\n"}),
    "figs": ([], {"LICENSE": "Do what you like, but keep this.\n"}),
    "std": ([], {}),
}


class Copyrights(unittest.TestCase):
    def setUp(self):
        with tempfile.TemporaryDirectory() as room:
            kit = pathlib.Path(room)
            for name, (below, notices) in KIT.items():
                (kit / "rlibs" / f"{name}.rlib").mkdir(parents=True)
                (kit / "rattle" / name).mkdir(parents=True)
                (kit / "rlibs" / f"{name}.rlib" / "format").write_text("".join(f"dep {it}\n" for it in below))
                for file, text in notices.items():
                    (kit / "rattle" / name / file).write_text(text)
            self.said = tool.copyright_of(OWN, kit, ["apples", "plums"]).split("\n\n")

    def test_own_licenses_point_to_the_common_ones(self):
        self.assertEqual(self.said[1], "Files: *\nCopyright: 2026 the authors of aurora\nLicense: Apache-2.0 or Expat")
        self.assertEqual(self.said[-2:], ["License: Apache-2.0\n Ask /usr/share/common-licenses/Apache-2.0.", "License: Expat\n Do what you like,\n but keep this.\n"])

    def test_each_library_that_is_linked_has_its_holders_and_its_license(self):
        self.assertIn("Files: linked/apples/*\nCopyright: (c) 2001 Ann Other\nLicense: Expat", self.said)
        self.assertIn("Files: linked/pears/*\nCopyright: none is named in its notice\nLicense: Apache-2.0 and Expat", self.said)
        self.assertNotIn("figs", "".join(self.said))

    def test_another_text_stands_as_it_is(self):
        self.assertIn("Files: linked/plums/*\nCopyright: 2002 Some One\nLicense: notice-of-plums\n Copyright 2002 Some One\n .\n Do nothing.", self.said)

    def test_what_has_no_notice_is_said(self):
        self.assertIn("No notice lies beside these: std.", self.said[0])


if __name__ == "__main__":
    unittest.main()
