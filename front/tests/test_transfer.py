"""`transfer`, with programs of the system in the place of `transfer` and `predict`."""

import struct
import unittest
from unittest import mock

from front import streams, transfer, words
from front.tests.stand import Stand

ASKED = "transfer 398600.4418 7000 0 0 0 8000 0x408f400000000000 1800 50 short".split()
RECORD = struct.pack("<8dII", 398600.4418, 7000, 0, 0, 0, 8000, 1000, 1800, 50, 0)
HALF, ONE, TWO, FOUR = "3fe0000000000000", "3ff0000000000000", "4000000000000000", "4010000000000000"
SOLVED = f"solved 7 {HALF} {ONE} {TWO} {FOUR}\n"
# 3 km beside the goal in x, 4 km in z.
THREE, GOAL_Y, BEYOND = (f"{words.word(text):016x}" for text in ("3", "8000", "1004"))
ARRIVED = f"solved 6 {TWO} {THREE} {GOAL_Y} {BEYOND} {ONE} {TWO} {FOUR}\n"
SHOWN = f"""\
{SOLVED}\
  guesses   7
  z         0.5
  velocity  1 2 4 km/s
"""
SHOWN_ARRIVAL = """\
  arrival   as predict, with limit 100, has it:
            position  3 8000 1004 km
            velocity  1 2 4 km/s
            distance  5 km from R2
"""


class Transfer(Stand):
    """Both programs stand in."""

    def setUp(self):
        super().setUp()
        self.prints = {"transfer": SOLVED, "predict": ARRIVED}


class Solved(Transfer):
    """A transfer that is solved, and where it arrives."""

    def test_what_is_asked_and_what_is_shown(self):
        self.check(ASKED, 0, SHOWN + SHOWN_ARRIVAL)
        self.assertEqual(self.given("transfer"), RECORD)
        problem = struct.pack("<8dI", 398600.4418, 7000, 0, 0, 1, 2, 4, 1800, 100)
        self.assertEqual(self.given("predict"), problem)

    def test_all_rows_are_one_write(self):
        pieces = []
        keep = self.keep

        def counted(descriptor, data):
            pieces.append(descriptor)
            keep(descriptor, data)

        with mock.patch.object(streams, "write", counted):
            self.check(ASKED, 0, SHOWN + SHOWN_ARRIVAL)
        self.assertEqual(pieces.count(1), 1)

    def test_the_long_way(self):
        self.check([*ASKED[:-1], "long"], 0, SHOWN + SHOWN_ARRIVAL)
        self.assertEqual(self.given("transfer"), RECORD[:-4] + b"\1\0\0\0")

    def test_predict_refuses_the_arrival(self):
        for line, row in (
            ("refused 11 9\n", "11: too near the centre"),
            ("refused 7 0\n", "7: a straight line"),
            (f"refused 9 12 {ONE} {TWO}\n", "9: the bracket has closed"),
        ):
            with self.subTest(line):
                self.written[1] = ""
                self.prints["predict"] = line
                self.check(ASKED, 0, f"{SHOWN}  arrival   predict, with limit 100, refuses it with {row}\n")

    def test_predict_fails(self):
        for line, end, said in (
            (ARRIVED, "exit 1", "the program predict did not end as it should"),
            ("", "exit 0", "the program predict did not print one whole line, .*"),
            (ARRIVED[:-1], "exit 0", "the program predict did not print one whole line, .*"),
            (ARRIVED * 2, "exit 0", "the program predict did not print one whole line, .*"),
            (ARRIVED[:-18] + "\n", "exit 0", "the program predict did not print one whole line, .*"),
            ("short\n", "exit 0", "the program predict did not print one whole line, .*"),
        ):
            with self.subTest(line=line, end=end):
                self.written = {1: "", 2: ""}
                self.prints["predict"] = line
                self.ends["predict"] = end
                self.check(ASKED, 2, SHOWN, f"tailfiddle: {said}\n")

    def test_predict_is_missing(self):
        ready = self.ready

        def only_transfer(name):
            if name != "transfer":
                raise streams.Stop("predict is not built, and 'rt', which would build it, is missing")
            return ready(name)

        with mock.patch("front.built.ready", only_transfer):
            self.check(ASKED, 2, SHOWN, "tailfiddle: predict is not built, .*\n")

    def test_distances(self):
        goal = tuple(map(words.word, ("3", "0", "-4")))
        self.assertEqual(transfer.distance([f"{0:016x}"] * 3, goal), 5)
        far = [f"{words.word(text):016x}" for text in ("-1.7e308", "0", "0")]
        self.assertEqual(transfer.distance(far, (words.word("1.7e308"), 0, 0)), float("inf"))
        self.assertIn("            distance  0 km from R2", transfer.state_rows([f"{0:016x}"] * 6, (0, 0, 0)))


class Refused(Transfer):
    """A transfer that is refused: the reason is said, and predict is not asked."""

    def test_refusals(self):
        for line, rows in (
            ("refused 50 0", "  reason    the angle is too near 0, 180 or 360 degrees\n"),
            ("refused 51 0", "  reason    too little time\n"),
            ("refused 52 0", "  reason    too much time\n"),
            ("refused 3 0", "  reason    the limit is not 1 to 100\n"),
            (f"refused 9 12 {ONE} {TWO}", "  reason    the bracket has closed\n  guesses   12\n  bracket   1 to 2\n"),
            (f"refused 10 1 {ONE} {TWO}", "  reason    the limit is reached\n  guesses   1\n  bracket   1 to 2\n"),
        ):
            with self.subTest(line):
                self.written[1] = ""
                self.prints["transfer"] = line + "\n"
                self.check(ASKED, 1, f"{line}\n{rows}")
                self.assertIsNone(self.given("predict"))

    def test_numbers_that_are_none_go_to_the_program(self):
        self.prints["transfer"] = "refused 1 0\n"
        for text, word in (("nan", words.NAN), ("-inf", words.SIGN | words.INFINITY), ("1e999", words.INFINITY)):
            with self.subTest(text):
                self.written[1] = ""
                asked = [*ASKED[:6], text, *ASKED[7:]]
                self.check(asked, 1, "refused 1 0\n  reason    a number given is NaN or infinite\n")
                self.assertEqual(words.TRANSFER.unpack(self.given("transfer"))[5], word)

    def test_limits_go_to_the_program(self):
        self.prints["transfer"] = "refused 3 0\n"
        for text in ("0", "101", "4294967295"):
            with self.subTest(text):
                self.written[1] = ""
                asked = [*ASKED[:-2], text, "short"]
                self.check(asked, 1, "refused 3 0\n  reason    the limit is not 1 to 100\n")
                self.assertEqual(words.TRANSFER.unpack(self.given("transfer"))[8], int(text))

    def test_transfer_fails(self):
        for line, end, shown in ((SOLVED, "exit 1", SHOWN), (SOLVED[:-1], "exit 0", ""), ("", "kill $$", "")):
            with self.subTest(line=line, end=end):
                self.written = {1: "", 2: ""}
                self.prints["transfer"] = line
                self.ends["transfer"] = end
                self.check(ASKED, 2, shown, "tailfiddle: the program transfer did not end as it should\n")
                self.assertIsNone(self.given("predict"))


class Wrong(Transfer):
    """Wrong usage: one line that says what to do, and no program is run."""

    def test_wrong_words(self):
        nine = "1 1 0 0 0 1 0 2 100"
        for texts, said in (
            ("", "transfer takes 10 words, MU, R1 .* and short or long, or '-', and 0 were given; .* shows which"),
            ("1", "transfer takes 10 words, .*, and 1 was given; .*"),
            (nine, "transfer takes 10 words, .*, and 9 were given; .*"),
            (f"{nine} short long", "transfer takes 10 words, .*, and 11 were given; .*"),
            ("- -", "transfer takes 10 words, .*, and 2 were given; .*"),
            (f"{nine} left", "transfer: 'left' is not a way: the last word must be short or long; .* tells more"),
            (f"{nine} 0", "transfer: '0' is not a way: .*"),
            (f"{nine} Long", "transfer: 'Long' is not a way: .*"),
            ("1 1 0 0 0 1 0 2 short 100", "transfer: 'short' is not a whole number .*, as LIMIT must be; .*"),
            ("1 1 0 0 0 1 0 2 2.5 short", "transfer: '2.5' is not a whole number .*"),
            ("1 1 0 0 0 1 0 2 -1 short", "transfer: '-1' is not a whole number .*"),
            ("1 1 0 0 0 1,5 0 2 100 short", "transfer: '1,5' is not a number; .*"),
            ("1 1 0 0 0 0x40 0 2 100 short", "transfer: '0x40' is not a number; .*"),
        ):
            with self.subTest(texts):
                self.written = {1: "", 2: ""}
                self.check(["transfer", *texts.split()], 2, "", f"tailfiddle: {said}\n")
                self.assertIsNone(self.given("transfer"))


class Passed(Transfer):
    """With '-' the records go in as they come, and the program's lines come out as they are."""

    def pass_through(self, data, status, printed, said=""):
        self.check_input("transfer", data, status, printed, said)
        self.assertEqual(self.given("transfer"), data)
        self.assertIsNone(self.given("predict"))

    def test_all_solved(self):
        self.prints["transfer"] = SOLVED * 3
        self.pass_through(RECORD * 3, 0, SOLVED * 3)

    def test_one_refused(self):
        self.prints["transfer"] = SOLVED + "refused 23 0\n" + SOLVED
        odd = RECORD[:-4] + b"\2\0\0\0"
        self.pass_through(RECORD + odd + RECORD, 1, self.prints["transfer"])

    def test_cut_off(self):
        self.prints["transfer"] = SOLVED + "short\n"
        self.pass_through(RECORD + RECORD[:71], 1, SOLVED + "short\n")

    def test_a_program_that_fails(self):
        self.prints["transfer"] = SOLVED + "refus"
        self.pass_through(RECORD * 2, 2, SOLVED, "tailfiddle: the program transfer did not end as it should\n")


if __name__ == "__main__":
    unittest.main()
