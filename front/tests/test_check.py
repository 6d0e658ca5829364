"""What check prints and says of a deck, and what show prints of mean and worst."""

import re
import unittest
from unittest import mock

from front import commands
from front.tests.stand import Stand
from front.tests.test_decks import TAG, REFUSED, SOLVED, TRANSFER, deck_of

LISTING = """\
card 1 solved 25544 -3 0
card 2 refused 25544 -3 24
card 3 solved 25544 -3 22
solved {} refused 0 rejected {}
mean {}
worst {}
"""
OF_22 = "tailfiddle: 22: .*; './tailfiddle why 22' tells more\n"
OF_24 = "tailfiddle: 24: .*; './tailfiddle why 24' tells more\n"
NEITHER = "mean and worst: none, no card is accepted as solved"
# Words of mean and worst, and what is said of them.
SECONDS = (
    ("0000000000000000", "0000000000000000", "mean 0 s, worst 0 s"),
    ("3e2ccd98e9973ec9", "3e4319c40bb4cc75", "mean 3.3531238451872792e-09 s, worst 8.894432182611344e-09 s"),
    ("0000000000000001", "000fffffffffffff", "mean 5e-324 s, worst 2.225073858507201e-308 s"),
    ("7da0000000000000", "7db0000000000000", "mean 1.307993905256674e+297 s, worst 2.615987810513348e+297 s"),
)


class Command(Stand):
    """A command that runs check_deck, and its deck on standard input."""

    def setUp(self):
        super().setUp()
        self.patch(mock.patch("front.streams.catch_signals"))


class Check(Command):
    """The listing first, to the letter; then mean and worst in seconds, then the numbers."""

    def check_listing(self, text, status, said, printed=None):
        """Runs check where `text` is the program's listing. What is printed is that, to the letter."""
        self.written = {1: "", 2: ""}
        self.order = []
        self.prints["check_deck"] = text
        self.check_input("check", b"a deck", status, text if printed is None else printed, said)
        self.assertEqual(self.given("check_deck"), b"a deck")

    def test_seconds(self):
        for mean, worst, said in SECONDS:
            with self.subTest(said):
                line = f"tailfiddle: {re.escape(said)}\n"
                self.check_listing(LISTING.format(1, 2, mean, worst), 1, line + OF_22 + OF_24)
                self.assertEqual(self.order, [1, 2, 2, 2])

    def test_all_accepted(self):
        for mean, worst, said in SECONDS:
            with self.subTest(said):
                text = f"card 1 solved - - 0\nsolved 1 refused 0 rejected 0\nmean {mean}\nworst {worst}\n"
                self.check_listing(text, 0, f"tailfiddle: {re.escape(said)}\n")
                self.assertEqual(self.order, [1, 2])

    def test_no_card_is_solved(self):
        rejected = LISTING.format(0, 3, "none", "none").replace("-3 0", "-3 22", 1)
        self.check_listing(rejected, 1, f"tailfiddle: {NEITHER}\n" + OF_22 + OF_24)
        for lines in ("card 1 refused 0 0 0\nsolved 0 refused 1 rejected 0\n", "solved 0 refused 0 rejected 0\n"):
            self.check_listing(f"{lines}mean none\nworst none\n", 0, f"tailfiddle: {NEITHER}\n")

    def test_which_number_is_not_finite(self):
        text = LISTING.format(1, 2, *["0" * 16] * 2).replace("-3 22", "-3 106")
        of_106 = "tailfiddle: 106: the velocity's y is NaN or infinite; './tailfiddle why 106' tells more\n"
        self.check_listing(text, 1, "tailfiddle: mean 0 s, worst 0 s\n" + OF_24 + of_106)

    def test_a_refused_deck(self):
        self.check_listing("deck 30\n", 1, "tailfiddle: 30: no whole header; './tailfiddle why 30' tells more\n")
        self.assertEqual(self.order, [1, 2])

    def test_how_much_is_read(self):
        self.prints["check_deck"] = "deck 38\n"
        self.check_input("check", bytes(40000), 1, "deck 38\n", "tailfiddle: 38: .*\n")
        self.assertEqual(self.given("check_deck"), bytes(38921))

    def test_words_that_can_t_be(self):
        said = "tailfiddle: the program check_deck printed a listing that is not whole\n"
        odd = ("7db0000000000001", "7ff0000000000000", "7ff8000000000000", "8000000000000000", "3DA2E00000000000", "none")
        for word in odd:
            for mean, worst in ((word, "0" * 16), ("0" * 16, word)):
                with self.subTest((mean, worst)):
                    self.check_listing(LISTING.format(1, 2, mean, worst), 2, said, "")


class Show(Command):
    """Mean and worst are the last line, on standard output; with --problems they are not there."""

    def show(self, text, status, *more):
        """Runs show for a deck of which `text` is the listing. The lines that it prints."""
        self.written = {1: "", 2: ""}
        self.prints["check_deck"] = text
        deck = deck_of(SOLVED, REFUSED, TRANSFER, tag=TAG)
        with mock.patch("front.streams.open_input"), mock.patch("front.check.fetch", return_value=deck):
            self.assertEqual(commands.main(["show", "-", *more]), status, self.written)
        return self.written[1].split("\n")

    def test_seconds(self):
        for mean, worst, said in SECONDS:
            with self.subTest(said):
                *_, totals, last, end = self.show(LISTING.format(1, 2, mean, worst), 1)
                self.assertEqual([totals, last, end], ["3 cards: 1 solved, 0 refused, 2 rejected", said, ""])
                self.assertEqual(self.written[2], "")

    def test_no_card_is_solved(self):
        text = LISTING.format(0, 3, "none", "none").replace("-3 0", "-3 22", 1)
        *_, totals, last, end = self.show(text, 1)
        self.assertEqual([totals, last, end], ["3 cards: 0 solved, 0 refused, 3 rejected", NEITHER, ""])
        self.assertEqual(self.written[2], "")

    def test_problems_alone(self):
        line = "25544 -3 398600.44179999997 7000 0 0 0 7.5 1 3600 20"
        for mean, worst, _ in SECONDS:
            self.assertEqual(self.show(LISTING.format(1, 2, mean, worst), 1, "--problems"), [line, line, ""])
            self.assertRegex(self.written[2], "^tailfiddle: 1 transfer left out: .*\n$")

    def test_a_refused_deck(self):
        self.assertEqual(self.show("deck 30\n", 1), [""])
        self.assertRegex(self.written[2], "^tailfiddle: the deck is refused with 30: .*\n$")

    def test_words_that_can_t_be(self):
        self.assertEqual(self.show(LISTING.format(1, 2, "8000000000000000", "0" * 16), 2), [""])
        self.assertRegex(self.written[2], "^tailfiddle: .* listing that is not whole\n$")


if __name__ == "__main__":
    unittest.main()
