"""The reading of check_deck's listing."""

import unittest

from front import listing, words
from front.decks import Tag

# A deck of version 1, and the same in version 2.
WHOLE = b"""\
card 1 solved - - 0
card 2 refused - - 24
card 3 solved - - 22
solved 1 refused 0 rejected 2
mean 0000000000000000
worst 3da2e00000000000
"""
TAGGED = WHOLE.replace(b"- -", b"25544 -3").replace(b"25544 -3", b"4294967295 -9223372036854775808", 1)
TAGS = [Tag(4294967295, -9223372036854775808), Tag(25544, -3), Tag(25544, -3)]


class Reading(unittest.TestCase):
    """A whole listing is read, and nothing else is."""

    def test_a_listing(self):
        for text, tags in ((WHOLE, [None] * 3), (TAGGED, TAGS)):
            said = listing.read(text)
            self.assertIsNone(said.refusal)
            self.assertEqual([card.tag for card in said.cards], tags)
            self.assertEqual([card.word for card in said.cards], ["solved", "refused", "solved"])
            self.assertEqual([card.verdict for card in said.cards], [0, 24, 22])
            self.assertEqual(said.totals, [1, 0, 2])
            self.assertEqual(said.residuals, [0, 0x3DA2E00000000000])
            self.assertEqual(said.numbers(), [24, 22])
            self.assertEqual(said.status(), 1)

    def test_tags(self):
        for text, tag in (
            (b"0 0", (0, 0)),
            (b"1 -1", (1, -1)),
            (b"4294967295 9223372036854775807", (4294967295, (1 << 63) - 1)),
        ):
            said = listing.read(WHOLE.replace(b"- -", text))
            self.assertEqual([card.tag for card in said.cards], [tag] * 3)

    def test_tags_that_can_t_be(self):
        texts = ["0 9223372036854775808", "0 -9223372036854775809", "-1 0", "4294967296 0", "0 -0", "00 0", "0 00"]
        texts += ["0 -01", "01 0", "+1 0", "0 +1", "- 0", "0 -", "-- -", "- --", "x 0", "0 x", "0 1.0", "0x1 0"]
        for text in (*texts, "none none", "0", "-", "", "0 0 0", "- - -", " 0", "0 "):
            with self.subTest(text), self.assertRaises(ValueError):
                listing.read(WHOLE.replace(b"- -", text.encode()))

    def test_all_cards_have_tags_or_none_has(self):
        for place in range(3):
            lines = WHOLE.splitlines(True)
            lines[place] = lines[place].replace(b"- -", b"0 0")
            with self.subTest(place), self.assertRaises(ValueError):
                listing.read(b"".join(lines))

    def test_verdicts_of_three_digits(self):
        said = listing.read(WHOLE.replace(b"solved - - 22", b"solved - - 108"))
        self.assertEqual((said.cards[2], said.numbers(), said.status()), (("solved", None, 108), [24, 108], 1))

    def test_all_accepted(self):
        said = listing.read(b"card 1 refused 7 8 0\nsolved 0 refused 1 rejected 0\nmean none\nworst none\n")
        self.assertEqual((said.numbers(), said.status(), said.residuals), ([], 0, []))

    def test_no_cards(self):
        said = listing.read(b"solved 0 refused 0 rejected 0\nmean none\nworst none\n")
        self.assertEqual((said.cards, said.status(), said.residuals), ([], 0, []))

    def test_a_refused_deck(self):
        said = listing.read(b"deck 31\n")
        self.assertEqual((said.refusal, said.numbers(), said.status(), said.residuals), (31, [31], 1, []))

    def test_each_cut_is_refused(self):
        for text in (WHOLE, TAGGED):
            for length in range(len(text)):
                with self.subTest(length), self.assertRaises(ValueError):
                    listing.read(text[:length])
        for length in range(len(b"deck 31\n")):
            with self.subTest(length), self.assertRaises(ValueError):
                listing.read(b"deck 31\n"[:length])

    def test_what_follows_is_refused(self):
        for more in (b"x", b"\n", b"card 1 solved - - 0\n"):
            with self.subTest(more), self.assertRaises(ValueError):
                listing.read(WHOLE + more)
            with self.subTest(more), self.assertRaises(ValueError):
                listing.read(b"deck 31\n" + more)

    def test_each_missing_line_is_refused(self):
        lines = WHOLE.splitlines(True)
        for place in range(len(lines)):
            with self.subTest(place), self.assertRaises(ValueError):
                # Without its last card a listing is whole: the totals are the program's.
                rest = lines[:place] + lines[place + 1 :]
                listing.read(b"".join(rest if place != 2 else rest[1:]))

    def test_other_words_are_refused(self):
        for old, new in (
            (b"card 2", b"card 4"),
            (b"refused -", b"unknown -"),
            (b"refused -", b"transfer -"),
            (b"- 22", b"- -2"),
            (b"- 22", b"- 022"),
            (b"- 22", b"- 10000000000"),
            (b" - - 22", b" 22"),
            (b"card 2", b"card 02"),
            (b"rejected 2", b"rejected 02"),
            (b"rejected 2", b"rejected"),
            (b"mean 0", b"mean 00"),
            (b"worst 3", b"best 3"),
            (b"card 1", b"deck 1\ncard 1"),
            (b"card 1", b"card \xff"),
        ):
            with self.subTest(new), self.assertRaises(ValueError):
                listing.read(WHOLE.replace(old, new, 1))


def ended(mean, worst, solved=1):
    """A listing without cards' lines: the totals, mean and worst."""
    return f"solved {solved} refused 0 rejected 0\nmean {mean}\nworst {worst}\n".encode()


ZERO = "0000000000000000"
# Seconds that there can be: the least, the largest subnormal one, the least behind it, 2^988.
GOOD = (ZERO, "0000000000000001", "000fffffffffffff", "0010000000000000", "7db0000000000000")
TOO_MANY = ("7db0000000000001", "7fefffffffffffff")
NOT_FINITE = ("7ff0000000000000", "7ff0000000000001", "7ff8000000000000", "7fffffffffffffff")
MINUS = ("8000000000000000", "8000000000000001", "bdb0000000000000", "fff0000000000000", "fff8000000000000")
NO_WORDS = (
    *("", "None", "NONE", "none ", "nan", "0", "0.0", ZERO[1:], ZERO + "0", " " + ZERO, ZERO + " "),
    *("3DA2E00000000000", "3da2e0000000000g", "0x3da2e000000000", "3da2e0000000_000", "+da2e00000000000"),
)


class Residuals(unittest.TestCase):
    """Mean and worst: two words of seconds that there can be, or none where no card is solved."""

    def test_words(self):
        for word in GOOD:
            with self.subTest(word):
                self.assertEqual(listing.read(ended(word, ZERO)).residuals, [int(word, 16), 0])
                self.assertEqual(listing.read(ended(ZERO, word)).residuals, [0, int(word, 16)])

    def test_what_is_refused(self):
        for word in (*TOO_MANY, *NOT_FINITE, *MINUS, *NO_WORDS):
            for lines in (ended(word, ZERO), ended(ZERO, word), ended(word, word)):
                for text in (lines, lines.replace(b"solved 1", b"solved 0")):
                    with self.subTest(text), self.assertRaises(ValueError):
                        listing.read(text)

    def test_none_exactly_where_no_card_is_solved(self):
        self.assertEqual(listing.read(ended("none", "none", 0)).residuals, [])
        for solved, mean, worst in (
            (0, ZERO, ZERO),
            (0, ZERO, "none"),
            (0, "none", ZERO),
            (1, "none", "none"),
            (1, ZERO, "none"),
            (256, "none", ZERO),
        ):
            with self.subTest((solved, mean, worst)), self.assertRaises(ValueError):
                listing.read(ended(mean, worst, solved))

    def test_each_has_its_line(self):
        lines = ended(ZERO, ZERO)
        for wrong in (
            lines.replace(b"mean", b"worst"),
            lines.replace(b"worst", b"mean"),
            b"solved 1 refused 0 rejected 0\nworst 0000000000000000\nmean 0000000000000000\n",
            b"solved 0 refused 0 rejected 0\nworst none\nmean none\n",
        ):
            with self.subTest(wrong), self.assertRaises(ValueError):
                listing.read(wrong)

    def test_seconds(self):
        for mean, worst, said in (
            (ZERO, ZERO, "mean 0 s, worst 0 s"),
            ("3e2ccd98e9973ec9", "3e4319c40bb4cc75", "mean 3.3531238451872792e-09 s, worst 8.894432182611344e-09 s"),
            ("3fb999999999999a", "4059000000000000", "mean 0.1 s, worst 100 s"),
            ("0000000000000001", "000fffffffffffff", "mean 5e-324 s, worst 2.225073858507201e-308 s"),
            ("7db0000000000000", "7db0000000000000", "mean 2.615987810513348e+297 s, worst 2.615987810513348e+297 s"),
        ):
            with self.subTest(said):
                self.assertEqual(listing.read(ended(mean, worst)).seconds(), said)

    def test_seconds_read_back(self):
        for word in GOOD:
            _, mean, _, _, worst, _ = listing.read(ended(word, word)).seconds().split(" ")
            self.assertEqual([words.word(mean), words.word(worst)], [int(word, 16)] * 2)

    def test_neither_is_not_zero(self):
        said = listing.read(ended("none", "none", 0)).seconds()
        self.assertEqual(said, "mean and worst: none, no card is accepted as solved")
        self.assertNotRegex(said, "[0-9]")


if __name__ == "__main__":
    unittest.main()
