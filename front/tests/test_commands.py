"""What the commands print, as far as no program is needed for it."""

import os
import tempfile
import unittest
from unittest import mock

from front import answers, commands, decks, epochs, help, show, streams, words
from front.decks import Tag, Version
from front.listing import Line, Listing
from front.problems import Problems
from front.tests.test_decks import TAG, TAGS, PROBLEM, REFUSED, SOLVED, TRANSFER, deck_of, refused_with

# Two cards; the rows of object and epoch are left out.
SHOWN = """\
card 1: solved; accepted
  problem  {tag}
           mu        398600.4418 km^3/s^2
           position  7000 0 0 km
           velocity  0 7.5 1 km/s
           time      3600 s
           limit     20
  answer   x         0.5
           position  0.1 2 3 km
           velocity  4 5 6 km/s

card 2: refused; rejected with 23: a spare is not 0, or a way neither 0 nor 1
  problem  {tag}
           mu        398600.4418 km^3/s^2
           position  7000 0 0 km
           velocity  0 7.5 1 km/s
           time      3600 s
           limit     20
           spare     9
  answer   refusal   8: beyond the far end
           spare     7

2 cards: 1 solved, 0 refused, 1 rejected
mean 5e-324 s, worst 0.25 s
"""
SHOWN_TRANSFER = """\
card 1: solved transfer; accepted
  problem  {tag}
           mu        398600.4418 km^3/s^2
           start     7000 0 0 km
           goal      0 8000 1000 km
           time      1800 s
           limit     100
           way       long
  answer   z         3.5
           velocity  1.25 7.5 1 km/s

1 card: 1 solved, 0 refused, 0 rejected
mean 0 s, worst 2.615987810513348e+297 s
"""
# The rows of object and epoch.
OF_TAGS = (
    (None, "absent", "absent"),
    (TAG, "25544", "-3 s, 1969-12-31T23:59:57Z"),
    (Tag(0, 0), "0", "0 s, 1970-01-01T00:00:00Z"),
    (Tag(7, 253402300799), "7", "253402300799 s, 9999-12-31T23:59:59Z"),
    (Tag(7, 253402300800), "7", "253402300800 s, outside the calendar of the years 1 to 9999"),
)
# What 101 to 108 name, in order.
NAMES = (
    "mu",
    *(f"the {vector}'s {axis}" for vector in ("position", "velocity") for axis in "xyz"),
    "the time or the angle",
)
LISTING = b"""\
card 1 solved - - 0
card 2 solved - - 0
card 3 refused - - 0
solved 2 refused 1 rejected 0
mean 0000000000000000
worst 0000000000000000
"""


class Show(unittest.TestCase):
    """The text of cards."""

    def check_shown(self, bodies, verdicts, totals, residuals, wanted):
        """What is shown of a deck of these bodies, in both versions."""
        for tag, number, epoch in OF_TAGS:
            cards = decks.read(deck_of(*bodies, tag=tag)).cards
            said = Listing(None, [Line(None, tag, verdict) for verdict in verdicts], totals, residuals)
            rows = f"object    {number}\n           epoch     {epoch}"
            with self.subTest(tag):
                self.assertEqual(show.shown(cards, said), wanted.format(tag=rows))

    def test_two_cards(self):
        self.check_shown([SOLVED, REFUSED], [0, 23], [1, 0, 1], [1, words.word("0.25")], SHOWN)

    def test_a_transfer(self):
        self.check_shown([TRANSFER], [0], [1, 0, 0], [0, 0x7DB << 52], SHOWN_TRANSFER)

    def test_ways_of_a_transfer(self):
        (card,) = decks.read(deck_of(TRANSFER)).cards
        for way, text in ((0, "short"), (1, "long"), (2, "2"), (4294967295, "4294967295")):
            card.way = way
            self.assertEqual(show.transfer_fields(card)[-1], ("way", text))
        self.assertRegex(show.card_text(7, card, 23), r"^card 7: solved transfer; rejected with 23: .*way")

    def test_no_cards(self):
        text = show.shown([], Listing(None, [], [0, 0, 0], []))
        last = "mean and worst: none, no card is accepted as solved\n"
        self.assertEqual(text, "0 cards: 0 solved, 0 refused, 0 rejected\n" + last)

    def test_numbers_that_are_none(self):
        (card,) = decks.read(deck_of(SOLVED)).cards
        card.numbers[1:4] = [words.NAN, words.SIGN | words.INFINITY, words.NAN + 1]
        self.assertIn(("position", "nan -inf 0x7ff8000000000001 km"), show.problem_fields(card))

    def test_a_refusal_and_other_numbers(self):
        self.assertTrue(show.refusal_text(8).startswith("8: beyond"))
        for number in decks.REFUSALS:
            self.assertNotIn("docs/REFUSALS.md", show.refusal_text(number))
        for number in (0, 4, 12, 13, 22, 40, 50, 60, 99, 100, 109, 4294967295):
            self.assertEqual(show.refusal_text(number), f"{number}: no refusal of a prediction")

    def test_numbers_that_are_not_finite(self):
        self.assertEqual(show.refusal_text(1), "1: a number given is NaN or infinite")
        for number, name in enumerate(NAMES, 101):
            self.assertEqual(show.refusal_text(number), f"{number}: {name} is NaN or infinite")

    def test_a_solved_card_with_such_a_number(self):
        (card,) = decks.read(deck_of(SOLVED)).cards
        title = "card 7: solved; rejected with 108: the time or the angle is NaN or infinite\n"
        self.assertTrue(show.card_text(7, card, 108).startswith(title))

    def test_the_listing_of_another_deck(self):
        said = Listing(None, [Line("refused", None, 0)], [0, 1, 0], [])
        for card in (SOLVED, TRANSFER):
            with self.assertRaisesRegex(streams.Stop, "not this deck's"):
                show.cards_of(deck_of(card), said)

    def test_a_listing_with_other_tags(self):
        for tag in TAGS:
            for other in TAGS:
                said = Listing(None, [Line("refused", other, 0)], [0, 1, 0], [])
                if other == tag:
                    self.assertEqual(len(show.cards_of(deck_of(REFUSED, tag=tag), said)), 1)
                    continue
                with self.subTest((tag, other)), self.assertRaisesRegex(streams.Stop, "not this deck's"):
                    show.cards_of(deck_of(REFUSED, tag=tag), said)

    def test_the_listing_calls_a_transfer_solved(self):
        lines = [Line("solved", TAG, 0), Line("refused", TAG, 0), Line("solved", TAG, 22)]
        said = Listing(None, lines, [1, 1, 1], [0, 0])
        deck = deck_of(TRANSFER, REFUSED, SOLVED, tag=TAG)
        self.assertEqual([card.kind for card in show.cards_of(deck, said)], ["transfer", "refused", "solved"])
        said.cards[0] = Line("transfer", TAG, 0)
        with self.assertRaisesRegex(streams.Stop, "not this deck's"):
            show.cards_of(deck, said)


class Ran(unittest.TestCase):
    """Commands from their words to their status; what they print and say is kept."""

    def setUp(self):
        self.written = b""
        for name, stand_in in (("write", self.keep), ("plug", lambda: None), ("catch_signals", lambda command: None)):
            patch = mock.patch.object(streams, name, stand_in)
            patch.start()
            self.addCleanup(patch.stop)

    def keep(self, descriptor, data):
        self.written += f"{descriptor} ".encode() + data

    def run_with(self, output, *texts):
        """The status of a command whose program prints `output`."""
        with mock.patch("front.built.ready", return_value=["program"]), mock.patch(
            "front.kit.output_of", return_value=output
        ):
            return commands.main(list(texts))

    def write_with(self, output, count, version=Version.ONE):
        """The status of 'write' for so many problems, where its program prints `output`."""
        given = Problems()
        given.version, given.records = version, [PROBLEM] * count
        with mock.patch("front.problems.read", return_value=given):
            return self.run_with(output, "write", "-", "-")

    def test_write(self):
        out = deck_of(SOLVED, refused_with(8))
        self.assertEqual(self.write_with(out, 2), 1)
        self.assertTrue(self.written.startswith(b"1 " + out))
        self.assertIn(b"tailfiddle: 2 cards written: 1 solved, 1 refused\n", self.written)
        self.assertIn(b"tailfiddle: 1 refused with 8: beyond the far end; './tailfiddle why 8'", self.written)

    def test_write_says_each_refusal(self):
        out = deck_of(*map(refused_with, (106, 8, 101, 106)), tag=TAG)
        self.assertEqual(self.write_with(out, 4, Version.TWO), 1)
        _, *said = self.written[len(b"1 " + out) :].decode().splitlines()
        wanted = ("1 refused with 8: beyond", "1 refused with 101: mu", "2 refused with 106: the velocity's y")
        for line, begun in zip(said, wanted):
            self.assertTrue(line.startswith(f"2 tailfiddle: {begun} "), line)
        self.assertEqual(len(said), 3)

    def test_write_all_solved(self):
        self.assertEqual(self.write_with(deck_of(SOLVED), 1), 0)
        self.assertTrue(self.written.endswith(b"tailfiddle: 1 card written: 1 solved, 0 refused\n"))

    def test_write_is_refused(self):
        self.assertEqual(self.write_with(b"deck 40\n", 257), 1)
        self.assertRegex(self.written, rb"^2 tailfiddle: nothing is written: the deck is refused with 40: ")

    def test_write_with_a_program_that_fails(self):
        good = deck_of(SOLVED)
        for output in (b"", b"deck", b"deck 4", good[:-1], good + b"x", deck_of()):
            with self.subTest(output):
                self.written = b""
                self.assertEqual(self.write_with(output, 1), 2)
                self.assertRegex(self.written, rb"^2 tailfiddle: the program write_deck wrote .*\n$")

    def test_write_with_a_program_that_writes_the_other_version(self):
        for count in (0, 1):
            for version, tag, said in ((Version.ONE, TAG, "2, not 1"), (Version.TWO, None, "1, not 2")):
                with self.subTest((count, said)):
                    self.written = b""
                    self.assertEqual(self.write_with(deck_of(*[SOLVED] * count, tag=tag), count, version), 2)
                    line = f"2 tailfiddle: the program write_deck wrote version {said}\n"
                    self.assertEqual(self.written, line.encode())

    def test_why(self):
        for number, name in enumerate(NAMES, 101):
            self.written = b""
            self.assertEqual(commands.main(["why", str(number)]), 0)
            self.assertTrue(self.written.startswith(f"1 {number}: {name} is NaN or infinite\n- **When**".encode()))
            self.assertEqual(self.written.count(b"NaN or infinite\n"), 1)
        self.written = b""
        self.assertEqual(commands.main(["why", "1"]), 0)
        for said in (b"1 1: a number given", b"root", b"Transfer: ", b"101 to 108", b"On a refused card 1 means"):
            self.assertIn(said, self.written)

    def test_why_of_numbers_that_have_no_entry(self):
        for number in ("100", "109", "0101", "1010"):
            self.written = b""
            self.assertEqual(commands.main(["why", number]), 2)
            self.assertIn(f"has no entry for {number};".encode(), self.written)

    def test_wrong_usage(self):
        commands_of_all = "write", "write a", "write a b c", "show", "show a b", "show --problems", "check", "check a b"
        for command in (*commands_of_all, "why 1 2", "why x", "root", "root x", "series", "turn 1", "predict - -", "nothing"):
            with self.subTest(command):
                self.written = b""
                self.assertEqual(commands.main(command.split()), 2)
                self.assertRegex(self.written, rb"^2 tailfiddle: .*\n$")

    def test_one_word_was_given(self):
        for command in ("write a", "predict 1", "turn 1", "transfer 1"):
            with self.subTest(command):
                self.written = b""
                self.assertEqual(commands.main(command.split()), 2)
                self.assertIn(b", and 1 was given; ", self.written)
        for command, count in (("check", 0), ("write a b c", 3), ("why 1 2", 2), ("turn 1 2", 2)):
            with self.subTest(command):
                self.written = b""
                self.assertEqual(commands.main(command.split()), 2)
                self.assertIn(f", and {count} were given; ".encode(), self.written)

    def test_help_has_each_command(self):
        for name in set(commands.COMMANDS) - {"run"}:
            self.assertIn(f" ./tailfiddle {name} ", help.TEXT)

    def test_help_in_a_hundred_columns(self):
        self.assertLessEqual(max(map(len, help.TEXT.split("\n"))), 100)

    def test_help_says_seconds(self):
        self.check_help(
            ("check", "the residuals, in seconds, of the cards that are accepted as solved"),
            ("check", "mean and worst in decimals of seconds"),
            ("show", "mean and worst in seconds"),
        )

    def check_help(self, *lines):
        """Each text stands in the part of the help that begins with the command and what it does."""
        for first, said in lines:
            begun = tuple(f"{first} {does}" for does in ("prints", "takes", "is"))
            (part,) = [part for part in help.TEXT.split("\n\n") if part.startswith(begun)]
            self.assertIn(said, " ".join(part.split()))

    def test_help_says_objects_and_epochs(self):
        self.check_help(
            ("write", "in front of them OBJECT EPOCH, in every line or in none"),
            ("write", "A deck without cards is of version 2"),
            ("OBJECT", "0 to 4294967295"),
            ("OBJECT", "-9223372036854775808 to 9223372036854775807"),
            ("OBJECT", f"in this form: {epochs.SAMPLE}, of a year from 0001 to 9999"),
            ("OBJECT", f"so many seconds from {epochs.utc(0)} on, here {epochs.read(epochs.SAMPLE)}"),
            ("check", "its object and its epoch, or '- -' where they are absent"),
            ("show", "its object, and its epoch with the UTC beside it, or that they are absent"),
        )

    def test_a_fault_is_no_refusal(self):
        with mock.patch("front.why.run", side_effect=RuntimeError("odd")):
            self.assertEqual(commands.main(["why"]), 2)
        self.assertEqual(self.written, b"2 tailfiddle: RuntimeError: odd\n")

    def test_a_deck_that_is_refused_is_not_shown(self):
        with open(os.devnull, "rb") as empty, mock.patch.object(streams, "open_input", return_value=empty.fileno()):
            for more in ([], ["--problems"]):
                self.written = b""
                self.assertEqual(self.run_with(b"deck 30\n", "show", "-", *more), 1)
                self.assertRegex(self.written, rb"^2 tailfiddle: the deck is refused with 30: no whole header; .*\n$")

    def show_problems(self, *bodies):
        """The status of 'show --problems' for a deck of which LISTING is the listing."""
        with tempfile.TemporaryFile() as file:
            file.write(deck_of(*bodies))
            file.seek(0)
            with mock.patch.object(streams, "open_input", return_value=file.fileno()):
                return self.run_with(LISTING, "show", "--problems", "-")

    def test_transfers_are_no_problems(self):
        line = b"398600.44179999997 7000 0 0 0 7.5 1 3600 20\n"
        for bodies, printed, said in (
            ((SOLVED, TRANSFER, REFUSED), line * 2, b"2 tailfiddle: 1 transfer left out: "),
            ((TRANSFER, TRANSFER, REFUSED), line, b"2 tailfiddle: 2 transfers left out: "),
            ((SOLVED, SOLVED, REFUSED), line * 3, b""),
        ):
            with self.subTest(said):
                self.written = b""
                self.assertEqual(self.show_problems(*bodies), 0)
                self.assertTrue(self.written.startswith(b"1 " + printed + said), self.written)
                self.assertEqual(self.written.count(b"tailfiddle: "), 1 if said else 0)


class Answers(unittest.TestCase):
    """What stands below a program's line, and how lines are passed on."""

    def test_rows(self):
        one = "3ff0000000000000"
        line = f"solved 5 {one} {one} {one} {one} {one} {one} {one}"
        rows = [line, "  guesses   5", "  x         1", "  position  1 1 1", "  velocity  1 1 1"]
        self.assertEqual(answers.explained("predict", line), rows)
        turned = [rows[0].replace("5", "0", 1), "  angle     1", *rows[3:]]
        self.assertEqual(answers.explained("turn", turned[0]), turned)
        refused = "refused 106 0"
        rows = [refused, "  reason    the velocity's y is NaN or infinite"]
        self.assertEqual(answers.explained("predict", refused), rows)
        self.assertEqual(answers.explained("turn", refused), rows)
        bracket = f"refused 10 1 {one} 4034000000000000"
        rows = [bracket, "  reason    the limit is reached", "  guesses   1", "  bracket   1 to 20"]
        self.assertEqual(answers.explained("predict", bracket), rows)
        found = f"solved 7 {one} {one} {one} 4034000000000000"
        rows = [found, "  guesses   7", "  z         1", "  velocity  1 1 20 km/s"]
        self.assertEqual(answers.explained("transfer", found), rows)
        self.assertEqual(answers.explained("root", f"root {one}"), [f"root {one} 1"])
        self.assertEqual(answers.explained("root", "refused 13"), ["refused 13"])
        sums = f"series {one} 4034000000000000"
        self.assertEqual(answers.explained("series", sums), [f"{sums} 1 20"])
        rows = ["refused 60", "  reason    z is outside the range of the series"]
        self.assertEqual(answers.explained("series", "refused 60"), rows)

    def test_other_lines_are_counted(self):
        self.assertEqual(answers.others(b""), 0)
        self.assertEqual(answers.others(b"solved 1\nroot 2\nturn 1 2 1 1 1\nrounded 3 2\n"), 0)
        self.assertEqual(answers.others(b"refused 1 0\nsolved 1\nshort\nsolvedx\nunsolved root \n"), 4)
        self.assertEqual(answers.others(b"refused 13\nturn 1\nturn\nturned 1\n turn 1\nround 1\n\n"), 6)
        self.assertEqual(answers.others(b"series 1 2\nrefused 60\nseries\nserie 1\nshort\n"), 4)

    def test_lines_are_passed_on_whole(self):
        passed = []
        blocks = [b"solved 1\nref", b"used 7", b" 0\n", b"\n", b"solved 2\nsol"]
        with mock.patch.object(streams, "blocks", return_value=iter(blocks)), mock.patch.object(
            streams, "write", lambda descriptor, data: passed.append(data)
        ):
            self.assertEqual(answers.pass_lines(3), (2, b"sol"))
        self.assertEqual(b"".join(passed), b"solved 1\nrefused 7 0\n\nsolved 2\n")
        self.assertEqual(passed[0], b"solved 1\n")


if __name__ == "__main__":
    unittest.main()
