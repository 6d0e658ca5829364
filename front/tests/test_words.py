"""Numbers, words and records."""

import struct
import unittest

from front import words


class Numbers(unittest.TestCase):
    """What people write becomes a word, and a word what people read."""

    def test_decimals(self):
        for text, word in (
            ("2", 0x4000000000000000),
            ("-1", 0xBFF0000000000000),
            ("0.1", 0x3FB999999999999A),
            (".5", 0x3FE0000000000000),
            ("1.", 0x3FF0000000000000),
            ("+1e0", 0x3FF0000000000000),
            ("1E+2", 0x4059000000000000),
            ("007", 0x401C000000000000),
            ("0", 0),
            ("-0", 0x8000000000000000),
            ("-0.0e9", 0x8000000000000000),
        ):
            with self.subTest(text):
                self.assertEqual(words.word(text), word)

    def test_subnormals(self):
        self.assertEqual(words.word("4.9e-324"), 1)
        self.assertEqual(words.word("2.2250738585072011e-308"), 0x000FFFFFFFFFFFFF)
        self.assertEqual(words.word("2.2250738585072014e-308"), 0x0010000000000000)
        # Half the least number is a tie, and goes to 0; a little more does not.
        self.assertEqual(words.word("2.4703282292062327208e-324"), 0)
        self.assertEqual(words.word("2.4703282292062328e-324"), 1)
        self.assertEqual(words.word("-1e-400"), words.SIGN)

    def test_largest(self):
        self.assertEqual(words.word("1.7976931348623157e308"), 0x7FEFFFFFFFFFFFFF)
        self.assertEqual(words.word("1.7976931348623158e308"), 0x7FEFFFFFFFFFFFFF)
        self.assertEqual(words.word("1.797693134862315808e308"), words.INFINITY)
        self.assertEqual(words.word("-1e999"), words.SIGN | words.INFINITY)

    def test_ties_go_to_the_even_one(self):
        self.assertEqual(words.word("9007199254740993"), words.word_of(9007199254740992.0))
        self.assertEqual(words.word("9007199254740995"), words.word_of(9007199254740996.0))
        self.assertEqual(words.word("9007199254740993.0000001"), words.word_of(9007199254740994.0))

    def test_infinities_and_nan(self):
        for text, word in (("inf", 0x7FF << 52), ("-Infinity", 0xFFF << 52), ("NaN", words.NAN)):
            self.assertEqual(words.word(text), word)
        self.assertEqual(words.word("-nan"), words.SIGN | words.NAN)

    def test_hex_words(self):
        self.assertEqual(words.word("0x4000000000000000"), 1 << 62)
        self.assertEqual(words.word("0XFFF8000000000ABC"), 0xFFF8000000000ABC)

    def test_hex_digits(self):
        for digits in ("0123456789abcdef", "0" * 16, "f" * 16):
            self.assertTrue(words.is_hex(digits))
        for digits in ("", "0" * 15, "0" * 17, "0123456789ABCDEF", "0123456789abcdeg", "0123456789abcd_f", " " * 16, "٣" * 16):
            with self.subTest(digits):
                self.assertFalse(words.is_hex(digits))

    def test_no_numbers(self):
        texts = ["", "-", "+", ".", "e5", "1e", "1e5e5", "+-1", "--1", "1_0", " 1", "1 ", "1,5", "١", "infin"]
        texts += ["0x400000000000000", "0x40000000000000000", "0x400000000000000g", "-0x4000000000000000", "0x_4"]
        for text in texts:
            with self.subTest(text), self.assertRaisesRegex(words.Wrong, "is not a number"):
                words.word(text)

    def test_whole_numbers(self):
        for text, value in (("0", 0), ("20", 20), ("4294967295", (1 << 32) - 1), ("0" * 9999 + "7", 7)):
            self.assertEqual(words.whole(text), value)
        for text in ("", "-1", "+1", "1.0", "4294967296", "99999999999", "1e3", "٣", "²", "0x10", "9" * 9999):
            with self.subTest(text[:20]), self.assertRaisesRegex(words.Wrong, "whole number from 0 to 4294967295"):
                words.whole(text)
        with self.assertRaisesRegex(words.Wrong, "^'x' is not a whole number .*, as LIMIT must be$"):
            words.whole("x")
        with self.assertRaisesRegex(words.Wrong, "^'x' is not a whole number .*, as OBJECT must be$"):
            words.whole("x", "OBJECT")

    def test_whole_numbers_below_zero(self):
        for text, value in (("-1", -1), ("-0", 0), ("0", 0), ("-007", -7), ("-" + "0" * 9999 + "9", -9), ("5", 5)):
            with self.subTest(text[:20]):
                self.assertEqual(words.whole_within(text, -9, 5), value)
        no_numbers = ("", "-", "--1", "+1", "-+1", "1-", " -1", "-1 ", "-1.0", "−1", "-٣", "-1_0", "-0x1")
        for text in ("-10", "6", "-" + "9" * 9999, "9" * 9999, *no_numbers):
            with self.subTest(text[:20]):
                self.assertIsNone(words.whole_within(text, -9, 5))
        self.assertIsNone(words.whole_within("-0", 0, 5))

    def test_ways(self):
        self.assertEqual([words.way("short"), words.way("long")], [0, 1])
        for text in ("", "0", "1", "Short", "long ", "shortlong", "nan"):
            with self.subTest(text), self.assertRaisesRegex(words.Wrong, "the last word must be short or long"):
                words.way(text)
        for number, text in ((0, "short"), (1, "long"), (2, "2"), (4294967295, "4294967295")):
            self.assertEqual(words.way_text(number), text)

    def test_words_as_decimals(self):
        self.assertEqual(words.decimal(words.word("0.1")), "0.10000000000000001")
        self.assertEqual(words.shortest(words.word("0.1")), "0.1")
        self.assertEqual(words.shortest(words.word("7000")), "7000")
        self.assertEqual(words.shortest(words.word("-0")), "-0")
        self.assertEqual(words.decimal(words.SIGN), "-0")
        self.assertEqual(words.decimal(1), "4.9406564584124654e-324")

    def test_words_that_are_not_finite(self):
        for turn in (words.decimal, words.shortest):
            self.assertEqual(turn(words.INFINITY), "inf")
            self.assertEqual(turn(words.SIGN | words.INFINITY), "-inf")
            self.assertEqual(turn(words.NAN), "nan")
            self.assertEqual(turn(words.NAN + 1), "0x7ff8000000000001")
            self.assertEqual(turn(words.SIGN | words.NAN), "0xfff8000000000000")
            self.assertEqual(turn(words.INFINITY + 1), "0x7ff0000000000001")

    def test_back_and_forth(self):
        edges = [0, 1, 0x000FFFFFFFFFFFFF, 0x0010000000000000, 0x3FB999999999999A, 0x7FEFFFFFFFFFFFFF, words.INFINITY]
        edges += [words.NAN, words.NAN + 5, words.INFINITY + 1, 0x4340000000000001, 0x123456789ABCDEF0]
        for word in edges + [words.SIGN | edge for edge in edges]:
            with self.subTest(hex(word)):
                self.assertEqual(words.word(words.decimal(word)), word)
                self.assertEqual(words.word(words.shortest(word)), word)


class Records(unittest.TestCase):
    """Records of numbers."""

    def test_a_problem_has_68_bytes(self):
        record = words.problem("1 2 3 4 5 6 7 8 20".split())
        self.assertEqual(record, struct.pack("<8dI", 1, 2, 3, 4, 5, 6, 7, 8, 20))
        self.assertEqual(len(record), words.PROBLEM.size)
        self.assertEqual(words.PROBLEM.size, 68)

    def test_a_transfer_has_72_bytes(self):
        for way, number in (("short", 0), ("long", 1)):
            record = words.transfer(["1", "2", "3", "4", "5", "6", "0x7ff8000000000abc", "8", "100", way])
            wanted = struct.pack("<6dQdII", 1, 2, 3, 4, 5, 6, 0x7FF8000000000ABC, 8, 100, number)
            self.assertEqual(record, wanted)
            self.assertEqual(len(record), words.TRANSFER.size)
        self.assertEqual(words.TRANSFER.size, 72)
        self.assertEqual(len(words.TRANSFER_NAMES), 10)

    def test_a_transfer_that_is_wrong(self):
        for text, said in (
            ("1 2 3 4 5 x 7 8 y z", "'x' is not a number"),
            ("1 2 3 4 5 6 7 8 2.5 z", "'2.5' is not a whole number"),
            ("1 2 3 4 5 6 7 8 20 z", "'z' is not a way"),
        ):
            with self.subTest(text), self.assertRaisesRegex(words.Wrong, said):
                words.transfer(text.split())

    def test_words_alone(self):
        self.assertEqual(words.packed(["1", "0x00000000000000ff"]), struct.pack("<dQ", 1, 255))
        self.assertEqual(words.packed([]), b"")

    def test_the_first_that_is_wrong_is_named(self):
        with self.assertRaisesRegex(words.Wrong, "'x' is not a number"):
            words.packed(["1", "x", "y"])


if __name__ == "__main__":
    unittest.main()
