"""`digits`: the table from lines that are given as text, and the command with a stand-in for `root_digits`."""

import struct
import unittest

from front import digits
from front.tests.stand import Stand


def turns(radicand):
    """The lines of the 54 turns, as docs/RULES.md, "The root on paper", has them."""
    lines = []
    settled = remainder = 0
    for turn in range(1, 55):
        pair = radicand >> 2 * (54 - turn) & 3
        trial = settled * 4 + 1
        remainder = remainder * 4 + pair
        digit = 1 if trial <= remainder else 0
        remainder -= trial * digit
        settled = settled * 2 + digit
        lines.append(f"turn {turn} {pair} {trial} {digit} {remainder}")
    return lines


# The record of 2.
TWO = struct.pack("<d", 2)
# The lines for 2: u is 2^1075, h 1021 and v 2^53.
TURNS = turns(1 << 107)
ROUNDED = "rounded 12738103345051545 6369051672525773"
ROOT = "root 3ff6a09e667f3bcd"
LINES = [*TURNS, ROUNDED, ROOT]
WHOLE = "".join(f"{line}\n" for line in LINES)
# The rows for 2: the heads and the first four turns, the last turn, and what stands below the table.
FIRST = """\
number 4000000000000000 2
turn  pair              trial  digit         remainder
   1    10                  1      1                 1
   2    00                  5      0                 4
   3    00                  9      1                 7
   4    00                 21      1                 7
"""
LAST = """\
  54    00  25476206690103089      1  3292739303401103
the 54 binary digits make 12738103345051545; rounded to 53 they make 6369051672525773
root 3ff6a09e667f3bcd 1.4142135623730951
"""
ZERO = "root 0000000000000000\n"
FAILED = "tailfiddle: the program root_digits did not end as it should\n"


class Rows(unittest.TestCase):
    """A whole working is shown, and nothing else is."""

    def refuse(self, text):
        with self.subTest(text), self.assertRaises(ValueError):
            digits.shown(TWO, text.encode("latin-1"))

    def test_a_table(self):
        rows = digits.rows_of(TWO, LINES)
        self.assertEqual("".join(f"{row}\n" for row in rows[:6]), FIRST)
        self.assertEqual("".join(f"{row}\n" for row in rows[55:]), LAST)
        self.assertEqual({len(row) for row in rows[1:56]}, {len(FIRST.split("\n")[1])})
        self.assertEqual([row.split()[0] for row in rows[2:56]], [str(turn) for turn in range(1, 55)])
        self.assertEqual(digits.shown(TWO, WHOLE.encode()), rows)

    def test_the_digits_of_a_table_are_the_root(self):
        settled = "".join(row.split()[3] for row in digits.table(TURNS)[1:])
        self.assertEqual(f"rounded {int(settled, 2)} {(int(settled, 2) + 1) // 2}", ROUNDED)

    def test_pairs(self):
        for pair, shown in enumerate(("00", "01", "10", "11")):
            self.assertEqual(digits.cells(7, f"turn 7 {pair} 85 0 41"), ["7", shown, "85", "0", "41"])

    def test_zero(self):
        told = "zero is its own root"
        self.assertEqual(digits.rows_of(TWO, ["root 0000000000000000"]), [told, "root 0000000000000000 0"])
        self.assertEqual(digits.rows_of(TWO, ["root 8000000000000000"]), [told, "root 8000000000000000 -0"])

    def test_refusals(self):
        for line, reason in (
            ("refused 1", "a number given is NaN or infinite"),
            ("refused 13", "the root of a number below zero"),
        ):
            self.assertEqual(digits.rows_of(TWO, [line]), [line, f"  reason    {reason}"])

    def test_each_cut_is_refused(self):
        for text in (WHOLE, ZERO, "refused 13\n"):
            for length in range(len(text)):
                self.refuse(text[:length])

    def test_each_line_missing_or_twice_is_refused(self):
        for place in range(len(LINES)):
            for times in (0, 2):
                with self.subTest(place=place, times=times), self.assertRaises(ValueError):
                    digits.rows_of(TWO, LINES[:place] + LINES[place : place + 1] * times + LINES[place + 1 :])

    def test_one_more_turn_is_refused(self):
        with self.assertRaises(ValueError):
            digits.rows_of(TWO, [*TURNS, TURNS[-1].replace("turn 54", "turn 55"), ROUNDED, ROOT])

    def test_another_order_is_refused(self):
        for place in range(len(LINES) - 1):
            lines = LINES[:]
            lines[place : place + 2] = lines[place + 1], lines[place]
            with self.subTest(place), self.assertRaises(ValueError):
                digits.rows_of(TWO, lines)

    def test_what_follows_is_refused(self):
        for text in (WHOLE, ZERO, "refused 1\n"):
            for more in ("x", "\n", "short\n", ZERO, "refused 1\n", WHOLE):
                self.refuse(text + more)

    def test_a_line_alone_is_refused(self):
        for line in (ROOT, ROUNDED, TURNS[0], "root 0", "short", ""):
            self.refuse(line + "\n")
        for line in ("refused", "refused 7", "refused 13 0", "refused 013", "refused 101", "refused 108"):
            self.refuse(line + "\n")

    def test_other_words_are_refused(self):
        for old, new in (
            *((TURNS[1], new) for new in ("turn 2 0 5 0", "turn 2 0 5 0 4 4", "turn 2 0 5 0 4 ", "turn  2 0 5 0 4")),
            *((TURNS[1], new) for new in ("turn 2 4 5 0 4", "turn 2 0 5 2 4", "turn 3 0 5 0 4", "turned 2 0 5 0 4")),
            *((TURNS[1], f"turn 2 0 {new} 0 4") for new in ("05", "+5", "-5", "5_0", "5.0", "0x5", "", 1 << 64)),
            *((TURNS[1], new) for new in ("turn", "", "refused 13", "short", "solved 2 0 5 0 4", "\xff")),
            *((ROUNDED, new) for new in (ROUNDED[:-17], ROUNDED + " 1", ROUNDED.upper(), "rounded -1 0")),
            *((ROOT, new) for new in ("root", ROOT[:-1], ROOT + "0", ROOT.upper(), ROOT + " 1", ROOT + "\r")),
            *((ROOT, new) for new in ("roots" + ROOT[4:], "root -000000000000001", "root 0x3ff6a09e667f3b", "short")),
        ):
            self.assertEqual(WHOLE.count(f"{old}\n"), 1)
            self.refuse(WHOLE.replace(f"{old}\n", f"{new}\n"))


class Digits(Stand):
    """`root_digits` stands in, with the working of 2 where nothing else is said."""

    def setUp(self):
        super().setUp()
        self.prints["root_digits"] = WHOLE

    def test_a_table(self):
        printed = "".join(f"{row}\n" for row in digits.rows_of(TWO, LINES))
        for text in ("2", "0x4000000000000000"):
            with self.subTest(text):
                self.written[1] = ""
                self.check(["digits", text], 0, printed)
                self.assertEqual(self.given("root_digits"), struct.pack("<d", 2))

    def test_zero(self):
        self.prints["root_digits"] = "root 8000000000000000\n"
        self.check(["digits", "-0"], 0, "zero is its own root\nroot 8000000000000000 -0\n")
        self.assertEqual(self.given("root_digits"), struct.pack("<d", -0.0))

    def test_refusals(self):
        for text, line, reason in (
            ("-1", "refused 13", "the root of a number below zero"),
            ("-inf", "refused 1", "a number given is NaN or infinite"),
        ):
            with self.subTest(text):
                self.written[1] = ""
                self.prints["root_digits"] = line + "\n"
                self.check(["digits", text], 1, f"{line}\n  reason    {reason}\n")
                self.assertEqual(self.given("root_digits"), struct.pack("<d", float(text)))

    def test_a_program_that_fails(self):
        without = WHOLE.replace(TURNS[52] + "\n", "")
        for text, end in (
            *((text, "exit 0") for text in (without, WHOLE[:-1], WHOLE[:900], "", "short\n", "refused 1")),
            *((text, "exit 1") for text in (WHOLE, ZERO, "refused 1\n")),
            ("", "kill $$"),
        ):
            with self.subTest(text=text, end=end):
                self.written = {1: "", 2: ""}
                self.prints["root_digits"] = text
                self.ends["root_digits"] = end
                self.check(["digits", "2"], 2, "", FAILED)

    def test_wrong_words(self):
        for texts, said in (
            ("", "digits takes one NUMBER, or '-', and 0 were given; './tailfiddle help' .*"),
            ("2 3", "digits takes one NUMBER, or '-', and 2 were given; './tailfiddle help' .*"),
            ("- -", "digits takes one NUMBER, or '-', and 2 were given; './tailfiddle help' .*"),
            ("two", "digits: 'two' is not a number; './tailfiddle help' tells more"),
            ("0x40", "digits: '0x40' is not a number; './tailfiddle help' tells more"),
        ):
            with self.subTest(texts):
                self.written = {1: "", 2: ""}
                self.check(["digits", *texts.split()], 2, "", f"tailfiddle: {said}\n")
                self.assertIsNone(self.given("root_digits"))

    def test_lines_are_passed_on(self):
        for lines, status in (
            (WHOLE + ZERO + WHOLE, 0),
            ("", 0),
            (WHOLE + "refused 13\n" + WHOLE, 1),
            ("refused 1\n", 1),
            (WHOLE + "short\n", 1),
            (WHOLE + "turned 1\n", 1),
        ):
            with self.subTest(lines[-60:]):
                self.written[1] = ""
                self.prints["root_digits"] = lines
                self.check_input("digits", b"any bytes", status, lines)
                self.assertEqual(self.given("root_digits"), b"any bytes")

    def test_lines_that_are_cut_off(self):
        self.prints["root_digits"] = WHOLE + "turn 1 2"
        self.check_input("digits", bytes(16), 2, WHOLE, FAILED)


if __name__ == "__main__":
    unittest.main()
