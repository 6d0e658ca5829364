"""What write hands to its program, which a program of the system stands in for, and what it says of wrong lines."""

import os
import re
import struct
import unittest
from unittest import mock

from front.tests.stand import Stand
from front.tests.test_problems import ALIKE, LINE, RECORD, WANTED

REFUSED = "tailfiddle: nothing is written: the deck is refused with 40: .*\n"


class Write(Stand):
    """The stand-in refuses each deck: its bytes are text."""

    def setUp(self):
        super().setUp()
        self.patch(mock.patch("front.streams.catch_signals"))
        self.prints["write_deck"] = "deck 40\n"
        self.text = os.path.join(self.folder, "problems.txt")
        self.out = os.path.join(self.folder, "out.deck")

    def try_text(self, text, status, said):
        """Runs write for a text of problems. Nothing is written to OUT."""
        self.written = {1: "", 2: ""}
        with open(self.text, "wb") as file:
            file.write(text)
        self.check(["write", self.text, self.out], status, "", said)
        self.assertFalse(os.path.exists(self.out))

    def test_what_the_program_reads(self):
        tag = struct.pack("<Iq", 25544, -3)
        moment = struct.pack("<Iq", 0, 1794744000)
        for text, data in (
            (b"", struct.pack("<II", 2, 1)),
            (b"# nothing\n", struct.pack("<II", 2, 1)),
            (LINE * 2, struct.pack("<II", 1, 0) + RECORD * 2),
            (b"25544 -3 " + LINE, struct.pack("<II", 2, 1) + RECORD + tag),
            (
                b"25544 -3 " + LINE + b"0 2026-11-15T12:00:00Z " + LINE,
                struct.pack("<II", 2, 1) + RECORD + tag + RECORD + moment,
            ),
        ):
            with self.subTest(text):
                self.try_text(text, 1, REFUSED)
                self.assertEqual(self.given("write_deck"), data)

    def test_no_more_than_the_program_reads(self):
        for line, size in ((LINE, 17484), (b"1 2 " + LINE, 20568)):
            self.try_text(line * 300, 1, REFUSED)
            self.assertEqual(len(self.given("write_deck")), size)

    def test_wrong_lines(self):
        for text, said in (
            (b"1 " + LINE, f"line 1: {WANTED} 10"),
            (LINE + b"1 2 " + LINE, f"line 2: here are 11 columns, and in line 1, the first problem, 9: {ALIKE}"),
            (b"1 2 " + LINE + LINE, f"line 2: here are 9 columns, and in line 1, the first problem, 11: {ALIKE}"),
            (b"-1 2 " + LINE, "line 1: OBJECT: '-1' is not a whole number from 0 to 4294967295, as OBJECT must be"),
            (b"1 12:00 " + LINE, "line 1: EPOCH: '12:00' is not an epoch: .*"),
            (b"1 2016-12-31T23:59:60Z " + LINE, "line 1: EPOCH: '2016-12-31T23:59:60Z' is not in the calendar: .*"),
        ):
            with self.subTest(text):
                self.try_text(text, 2, f"tailfiddle: write: '{re.escape(self.text)}', {said}\n")
                self.assertIsNone(self.given("write_deck"))


if __name__ == "__main__":
    unittest.main()
