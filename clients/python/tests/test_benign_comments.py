"""A comment `itc: benign` is found on its line in each language, and a text or another comment that reads the same is none."""

from __future__ import annotations

import tempfile
import unittest
from pathlib import Path

from itc_trace.analyse.benign_comments import lines_with_comment

MEANT = "(meant)"
"""It stands in each line that has the comment."""
SOURCES = {
    "a.py": (
        "left -= 1  # itc: benign (meant)", "left -= len('# itc: benign')", "left -= 1  #itc:benign, as it is a hint (meant)",
        "'''", "# itc: benign", "'''", "left -= 1  # itc: benignant", "left -= 1  # not itc: benign", "left //= 2  // itc: benign",
    ),
    "A.java": (
        "left--; // itc: benign (meant)", 'said = "// itc: benign";', r'said = "\"// itc: benign";', "c = '\"'; // itc: benign (meant)",
        "/* // itc: benign", "   // itc: benign */ left--; // itc: benign (meant)", '"""', "// itc: benign", r'\""" // itc: benign', '""";',
        "left--; //itc:benign: a hint (meant)", "left--; // itc: benignly", "left--; # itc: benign", "/* /* */ left--; // itc: benign (meant)",
        r"c = '\''; // itc: benign (meant)", r"c = '\\'; // itc: benign (meant)", "left--; /* itc: benign */",
    ),
    "a.kt": (
        "left-- // itc: benign (meant)", "/* /* */ left--; // itc: benign", "*/ left-- // itc: benign (meant)", 'said = """', "// itc: benign",
        r'\"""" // itc: benign (meant)', 'said = "// itc: benign"',
    ),
    "a.go": (
        "left-- // itc: benign (meant)", "said = `", "// itc: benign `", "r := '\"' // itc: benign (meant)", "r := '`' // itc: benign (meant)",
        'said = "`// itc: benign"', "left-- // itc: benign (meant)",
    ),
    "a.rs": (
        "left -= 1; // itc: benign (meant)", 'let said = "', "// itc: benign", '";', 'r#"', '" // itc: benign', '"#; // itc: benign (meant)',
        "fn one<'a>(it: &'a str) {} // itc: benign (meant)", "let c = '\"'; // itc: benign (meant)", r"let c = '\''; // itc: benign (meant)",
        r"let c = '\u{1F600}'; // itc: benign (meant)", "/* /* */ // itc: benign", "*/ left -= 1; // itc: benign (meant)", r'br"\" // itc: benign (meant)',
        "/* it does not end", "// itc: benign",
    ),
}


class Comments(unittest.TestCase):
    def setUp(self) -> None:
        self.folder = Path(self.enterContext(tempfile.TemporaryDirectory()))

    def written(self, name: str, text: bytes) -> str:
        (self.folder / name).write_bytes(text)
        return str(self.folder / name)

    def test_only_comments_are_found(self) -> None:
        for name, lines in SOURCES.items():
            for end in ("\n", "\r\n"):
                path = self.written(f"{len(end)}{name}", end.join(lines).encode())
                due = {number for number, line in enumerate(lines, 1) if MEANT in line}
                with self.subTest(name, end=end):
                    self.assertEqual(sorted(lines_with_comment(path)), sorted(due))

    def test_a_file_that_cannot_be_read_has_none(self) -> None:
        self.assertEqual(lines_with_comment(str(self.folder / "none.java")), frozenset())
        self.assertEqual(lines_with_comment(str(self.folder)), frozenset())
        self.assertEqual(lines_with_comment(self.written("b.py", b"'''  # itc: benign")), frozenset())
        self.assertEqual(lines_with_comment(self.written("b.java", b"\xff\xfe // itc: benign\n\xff // itc: benign")), {1, 2})


if __name__ == "__main__":
    unittest.main()
