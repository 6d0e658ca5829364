"""The reading of docs/REFUSALS.md."""

import os
import tempfile
import unittest
from unittest import mock

from front import page

TEXT = """# Numbers

## 7: a straight line

- **When**: p < 2^-20.

- **Example**: one: two

## Not an entry

nothing

## 22: the state
last

## 220: another
very last
"""


class Page(unittest.TestCase):
    """A page of three entries."""

    def setUp(self):
        folder = tempfile.TemporaryDirectory()
        self.addCleanup(folder.cleanup)
        self.path = os.path.join(folder.name, "page.md")
        patch = mock.patch.object(page, "PAGE", self.path)
        patch.start()
        self.addCleanup(patch.stop)

    def fill(self):
        with open(self.path, "w", encoding="utf-8") as file:
            file.write(TEXT)

    def test_entries(self):
        self.fill()
        self.assertEqual(page.entry("7"), ["7: a straight line", "- **When**: p < 2^-20.", "- **Example**: one: two"])
        self.assertEqual(page.entry("22"), ["22: the state", "last"])
        self.assertEqual(page.entry("220"), ["220: another", "very last"])
        self.assertEqual(page.entry("022"), [])
        self.assertEqual(page.entry("2"), [])
        self.assertEqual(page.entry(""), [])

    def test_headings(self):
        self.fill()
        self.assertEqual(page.headings(), ["7: a straight line", "22: the state", "220: another"])

    def test_reasons(self):
        self.fill()
        self.assertEqual(page.reason(7), "a straight line")
        self.assertEqual(page.explained(7), "7: a straight line; './tailfiddle why 7' tells more")
        self.assertEqual(page.explained(220), "220: another; './tailfiddle why 220' tells more")
        self.assertEqual(page.explained(8), "8: docs/REFUSALS.md tells it")

    def test_without_a_page(self):
        self.assertEqual(page.explained(7), "7: docs/REFUSALS.md tells it")
        with self.assertRaises(OSError):
            page.entry("7")

    def test_what_is_said(self):
        self.fill()
        with mock.patch("front.streams.say") as say:
            page.say_why([220, 22, 7, 22])
        self.assertEqual([call.args[0][:3] for call in say.call_args_list], ["7: ", "22:", "220"])


if __name__ == "__main__":
    unittest.main()
