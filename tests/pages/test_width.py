"""No page has a line of more than 120 characters; an image or a link alone on its line may be longer."""

import re
import unittest

from pages import texts

WIDEST = 120
ALONE = re.compile(r"[-* ]*!?\[[^\]]*\]\([^)]*\)[.,;]?")


def too_wide(lines):
    """The numbers of the lines that are too wide, from 1."""
    return [number for number, line in enumerate(lines, 1) if len(line) > WIDEST and not ALONE.fullmatch(line)]


class Width(unittest.TestCase):
    def test_every_page(self):
        for name, path in texts.pages().items():
            with self.subTest(page=name):
                self.assertEqual(too_wide(texts.lines_of(path)), [])

    def test_what_is_too_wide(self):
        wide, link = "x" * (WIDEST + 1), f"![a picture](examples/{'x' * WIDEST}.svg)"
        self.assertEqual(too_wide(["x" * WIDEST, wide, "", link, f"and {link}"]), [2, 5])


if __name__ == "__main__":
    unittest.main()
