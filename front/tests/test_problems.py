"""Problems as text."""

import struct
import tempfile
import unittest

from front import decks, problems, words
from front.decks import Version
from front.tests.test_decks import TAGS, SOLVED, deck_of

LINE = b"1 2 3 4 5 6 7 8 20\n"
RECORD = struct.pack("<8dI", 1, 2, 3, 4, 5, 6, 7, 8, 20)
WANTED = "a problem has 9 columns, MU RX RY RZ VX VY VZ DT LIMIT, or 11, with OBJECT EPOCH in front, and here are"
ALIKE = "give OBJECT and EPOCH in every line, or in none"
NO_EPOCH = "is not an epoch: give whole seconds, .*, or UTC written as 2026-11-15T12:00:00Z$"


def read(text):
    """The problems in a text."""
    with tempfile.TemporaryFile() as file:
        file.write(text)
        file.seek(0)
        return problems.read(file.fileno())


class Lines(unittest.TestCase):
    """Lines that are problems, lines that are none, lines that are wrong."""

    def test_problems_and_comments(self):
        text = b"# first\n\n1 2 3 4 5 6 7 8 20\n\t 1  2 3 4 5 6 7 8 21 # behind\r\n   \n#1 2 3\n"
        found = read(text)
        self.assertEqual(found.records, [RECORD, RECORD[:64] + struct.pack("<I", 21)])
        self.assertIs(found.version, Version.ONE)

    def test_objects_and_epochs(self):
        text = b"# OBJECT EPOCH first\n25544 -3 " + LINE + b"\n0 2026-11-15T12:00:00Z  " + LINE
        text += b"4294967295 -9223372036854775808 " + LINE + b"007 9223372036854775807\t" + LINE
        tags = ((25544, -3), (0, 1794744000), (4294967295, -(1 << 63)), (7, (1 << 63) - 1))
        found = read(text)
        self.assertEqual(found.records, [RECORD + struct.pack("<Iq", *tag) for tag in tags])
        self.assertIs(found.version, Version.TWO)

    def test_zeros_are_not_absent(self):
        found = read(b"0 0 " + LINE)
        self.assertEqual((found.version, found.records), (Version.TWO, [RECORD + bytes(12)]))

    def test_nothing(self):
        for text in (b"", b"\n# \xff\n"):
            self.assertEqual((read(text).records, read(text).version), ([], Version.TWO))

    def test_the_last_line_need_not_be_ended(self):
        self.assertEqual(read(LINE[:-1]).records, [RECORD])

    def test_hex_words(self):
        (record,) = read(b"0x7ff8000000000abc nan -inf -0 0 0 0 0 0\n").records
        self.assertEqual(words.PROBLEM.unpack(record)[:4], (0x7FF8000000000ABC, words.NAN, 0xFFF << 52, 1 << 63))

    def test_wrong_lines(self):
        for text, said in (
            (b"1 2 3 4 5 6 7 8\n", f"line 1: {WANTED} 8$"),
            (b"\n#\n1 2 3 4 5 6 7 8 9 10\n", f"line 3: {WANTED} 10$"),
            (b"1 2 " + LINE + b"1 2 3 " + LINE, f"line 2: {WANTED} 12$"),
            (b"1 2 3 4 5 6 7 8 20\n1 2 3 4 5 x 7 8 20\n", "line 2: VY: 'x' is not a number"),
            (b"1 2 3 4 5 6 7 8 2.5\n", "line 1: LIMIT: '2.5' is not a whole number"),
            (b"1 2 3 4 5 6 7 8 4294967296\n", "line 1: LIMIT: '4294967296' is not a whole .*, as LIMIT must be$"),
            (b"-1 x " + LINE, "line 1: OBJECT: '-1' is not a whole number from 0 to 4294967295, as OBJECT must be$"),
            (b"4294967296 0 " + LINE, "line 1: OBJECT: '4294967296' is not a whole number"),
            (b"1 1.5 " + LINE, f"line 1: EPOCH: '1.5' {NO_EPOCH}"),
            (b"1 2026-02-29T00:00:00Z " + LINE, "line 1: EPOCH: '2026-02-29T00:00:00Z' is not in the calendar: "),
            (b"1 -9223372036854775809 " + LINE, f"line 1: EPOCH: '-9223372036854775809' {NO_EPOCH}"),
            (b"1 " + b"9" * 60000 + b" " + LINE, r"line 1: EPOCH: '9{40}\.\.\.' " + NO_EPOCH),
            (b"1 2 x" + LINE, "line 1: MU: 'x1' is not a number$"),
            (b"1 2 3 4 5 6 7 8 20\0\n", "line 1: it is no text"),
            (b"\xff\n", "line 1: it is no text"),
            (b"1 " * 40000, "line 1: it is longer than 65536 bytes"),
            (b"z" * 60000 + b" 2 3 4 5 6 7 8 20\n", r"line 1: MU: 'z{40}\.\.\.' is not a number$"),
        ):
            with self.subTest(said), self.assertRaisesRegex(words.Wrong, said):
                read(text)

    def test_lines_that_are_not_alike(self):
        for text, said in (
            (LINE + b"1 2 " + LINE, f"line 2: here are 11 columns, and in line 1, the first problem, 9: {ALIKE}$"),
            (b"1 2 " + LINE + LINE, f"line 2: here are 9 columns, and in line 1, the first problem, 11: {ALIKE}$"),
            (b"#\n" + LINE * 2 + b"\n1 2 " + LINE * 2, f"line 5: here are 11 columns, and in line 2, .* 9: {ALIKE}$"),
            # It is said before what else is wrong in the line, and behind what is wrong in one before.
            (LINE + b"x y " + LINE, "line 2: here are 11 columns"),
            (LINE + b"x" + LINE + b"1 2 " + LINE, "line 2: MU: 'x1' is not a number$"),
            (b"1 2 " + LINE * 257, "line 2: here are 9 columns"),
        ):
            with self.subTest(said), self.assertRaisesRegex(words.Wrong, said):
                read(text)

    def test_reading_ends_behind_one_too_many(self):
        for line, size in ((LINE, 68), (b"1 -2 " + LINE, 80)):
            self.assertEqual(len(read(line * 256).records), 256)
            records = read(line * 257 + b"wrong\n").records
            self.assertEqual([len(records), {len(record) for record in records}], [257, {size}])

    def test_a_card_as_a_line(self):
        line = "398600.44179999997 7000 0 0 0 7.5 1 3600 20"
        for tag in TAGS:
            (card,) = decks.read(deck_of(SOLVED, tag=tag)).cards
            front = f"{tag.object} {tag.epoch} " if tag else ""
            self.assertEqual(problems.line_of(card), front + line)
            card.numbers[1] = 0x7FF8000000000001
            (record,) = read(problems.line_of(card).encode()).records
            self.assertEqual(record, decks.problem([*card.numbers, card.limit], tag))


if __name__ == "__main__":
    unittest.main()
