"""`series`, with a program of the system in the place of the proved one."""

import struct
import unittest

from front import decks, page, words
from front.tests.stand import Stand

# At 1, 4 and -4, and at zero or a subnormal number.
AT_1 = "series 3fdd6bafe095f2e9 3fc44aadc3dbcc48"
AT_4 = "series 3fd6a88995d4dc82 3fc173848a9725dd"
AT_MINUS_4 = "series 3fe618fa0df2d9bc 3fca079ec76dc33e"
AT_0 = "series 3fe0000000000000 3fc5555555555555"
SHOWN = {
    AT_1: f"{AT_1} 0.45969769413186029 0.1585290151921035\n",
    AT_4: f"{AT_4} 0.35403670913678564 0.13633782164678979\n",
    AT_MINUS_4: f"{AT_MINUS_4} 0.69054892277090785 0.20335755098087732\n",
    AT_0: f"{AT_0} 0.5 0.16666666666666666\n",
    "refused 60": "refused 60\n  reason    z is outside the range of the series\n",
}
FAILED = "tailfiddle: the program series did not end as it should\n"


class Series(Stand):
    """The program stands in."""

    def fill(self, *lines):
        self.written = {1: "", 2: ""}
        self.prints["series"] = "".join(f"{line}\n" for line in lines)


class Asked(Series):
    """What goes to the program, and what is shown of its lines."""

    def test_numbers(self):
        for text, word, line in (
            ("1", 0x3FF0000000000000, AT_1),
            ("4", 0x4010000000000000, AT_4),
            ("-4", 0xC010000000000000, AT_MINUS_4),
            ("0xC010000000000000", 0xC010000000000000, AT_MINUS_4),
            ("0", 0, AT_0),
            ("-0", words.SIGN, AT_0),
            ("4.9e-324", 1, AT_0),
        ):
            with self.subTest(text):
                self.fill(line)
                self.check(["series", text], 0, SHOWN[line])
                self.assertEqual(self.given("series"), struct.pack("<Q", word))

    def test_refusals(self):
        for text, word in (
            ("4.000000000000001", 0x4010000000000001),
            ("-4.000000000000001", 0xC010000000000001),
            ("1e308", 0x7FE1CCF385EBC8A0),
            ("inf", words.INFINITY),
            ("-1e999", words.SIGN | words.INFINITY),
            ("nan", words.NAN),
            ("0x7ff0000000000abc", 0x7FF0000000000ABC),
        ):
            with self.subTest(text):
                self.fill("refused 60")
                self.check(["series", text], 1, SHOWN["refused 60"])
                self.assertEqual(self.given("series"), struct.pack("<Q", word))

    def test_several_numbers(self):
        lines = (AT_4, "refused 60", AT_0, AT_1)
        self.fill(*lines)
        self.check(["series", "4", "5", "0", "1"], 1, "".join(SHOWN[line] for line in lines))
        self.assertEqual(self.given("series"), struct.pack("<4d", 4, 5, 0, 1))
        self.assertEqual(self.order, [1])

    def test_a_program_that_fails(self):
        for text, end, shown in (
            (AT_1 + "\n", "exit 1", SHOWN[AT_1]),
            ("refused 60\n", "exit 1", SHOWN["refused 60"]),
            (AT_1, "exit 0", ""),
            (f"{AT_1}\nrefused", "exit 0", SHOWN[AT_1]),
            ("", "kill $$", ""),
        ):
            with self.subTest(text=text, end=end):
                self.written = {1: "", 2: ""}
                self.prints["series"] = text
                self.ends["series"] = end
                self.check(["series", "1"], 2, shown, FAILED)

    def test_wrong_words(self):
        for texts, said in (
            ("", "series: which number\\? './tailfiddle help' shows how"),
            ("z", "series: 'z' is not a number; './tailfiddle help' tells more"),
            ("1 0x40", "series: '0x40' is not a number; './tailfiddle help' tells more"),
            ("1 -", "series: '-' is not a number; './tailfiddle help' tells more"),
            ("- -", "series: '-' is not a number; './tailfiddle help' tells more"),
        ):
            with self.subTest(texts):
                self.fill(AT_1)
                self.check(["series", *texts.split()], 2, "", f"tailfiddle: {said}\n")
                self.assertIsNone(self.given("series"))


class Passed(Series):
    """With '-' the words go in as they come, and the program's lines come out as they are."""

    def test_lines_are_passed_on(self):
        for lines, status in (
            ((AT_1, AT_4, AT_0), 0),
            ((), 0),
            ((AT_1, "refused 60", AT_4), 1),
            (("refused 60",), 1),
            ((AT_1, "short"), 1),
            (("short",), 1),
        ):
            with self.subTest(lines):
                self.fill(*lines)
                self.check_input("series", b"any bytes", status, self.prints["series"])
                self.assertEqual(self.given("series"), b"any bytes")

    def test_lines_that_are_cut_off(self):
        self.prints["series"] = f"{AT_1}\nseries 3f"
        self.check_input("series", bytes(16), 2, AT_1 + "\n", FAILED)


class Refusal(unittest.TestCase):
    """The number 60."""

    def test_it_has_an_entry(self):
        self.assertEqual(page.entry("60")[0], "60: z is outside the range of the series")

    def test_no_card_has_it(self):
        self.assertNotIn(60, decks.REFUSALS)


if __name__ == "__main__":
    unittest.main()
