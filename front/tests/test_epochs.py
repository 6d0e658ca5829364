"""Epochs as numbers and as UTC."""

import unittest

from front import epochs, words

LEAST, MOST = -9223372036854775808, 9223372036854775807
# UTC and the epoch that it is: about 0, about the end of February in years with and without a 29th, about a
# leap second, and the ends of the calendar.
TIMES = (
    ("1970-01-01T00:00:00Z", 0),
    ("1969-12-31T23:59:59Z", -1),
    ("1969-12-31T23:59:57Z", -3),
    ("2026-11-15T12:00:00Z", 1794744000),
    ("2038-01-19T03:14:08Z", 1 << 31),
    ("2000-02-29T00:00:00Z", 951782400),
    ("2000-03-01T00:00:00Z", 951868800),
    ("1900-02-28T23:59:59Z", -2203891201),
    ("1900-03-01T00:00:00Z", -2203891200),
    ("2016-12-31T23:59:59Z", 1483228799),
    ("2017-01-01T00:00:00Z", 1483228800),
    ("0001-01-01T00:00:00Z", -62135596800),
    ("9999-12-31T23:59:59Z", 253402300799),
)
NOT_IN_THE_CALENDAR = (
    *("2026-02-29T00:00:00Z", "1900-02-29T00:00:00Z", "2026-04-31T00:00:00Z", "2026-00-01T00:00:00Z"),
    *("2026-13-01T00:00:00Z", "2026-01-00T00:00:00Z", "2026-01-32T00:00:00Z", "0000-01-01T00:00:00Z"),
    *("2026-01-01T24:00:00Z", "2026-01-01T23:60:00Z", "2016-12-31T23:59:60Z", "2026-01-01T00:00:99Z"),
)
NO_EPOCHS = (
    *("", "-", "x", "1.0", "1e3", "+1", "--1", "0x10", "1_000", "٣", "²", "nan", "-inf", " 1", "1 "),
    *(str(MOST + 1), str(LEAST - 1), "9" * 9999, "-" + "9" * 9999),
    *("2026-11-15", "2026-11-15T12:00Z", "2026-11-15T12:00:00", "2026-11-15T12:00:00z", "2026-11-15t12:00:00Z"),
    *("2026-11-15T12:00:00.0Z", "2026-11-15T12:00:00+00:00", "2026-11-15T12:00:00ZZ", "2026-11-15 12:00:00Z"),
    *("12026-11-15T12:00:00Z", "-026-11-15T12:00:00Z", "26-11-15T12:00:00Z", "2026-1-15T12:00:00Z", "20261115T120000Z"),
    *("2026/11/15T12:00:00Z", "2026-11-15T12.00.00Z", "٢026-11-15T12:00:00Z", " 026-11-15T12:00:00Z"),
    *("2026-11-15T12:00:+0Z", "2026-11-15T12:00:0_Z"),
)


class Read(unittest.TestCase):
    """A number of seconds, or UTC in one form alone."""

    def test_numbers(self):
        for text, epoch in (("0", 0), ("-3", -3), ("-0", 0), ("007", 7), (str(LEAST), LEAST), (str(MOST), MOST)):
            self.assertEqual(epochs.read(text), epoch)
        # As many digits as a year's number has are seconds too.
        self.assertEqual(epochs.read("2026"), 2026)

    def test_utc(self):
        for text, epoch in TIMES:
            with self.subTest(text):
                self.assertEqual(epochs.read(text), epoch)

    def test_not_in_the_calendar(self):
        for text in NOT_IN_THE_CALENDAR:
            said = f"^'{text}' is not in the calendar: give a year from 0001 to 9999, .* from 00:00:00 to 23:59:59$"
            with self.subTest(text), self.assertRaisesRegex(words.Wrong, said):
                epochs.read(text)

    def test_no_epochs(self):
        said = f"' is not an epoch: give whole seconds, {LEAST} to {MOST}, or UTC written as 2026-11-15T12:00:00Z$"
        for text in NO_EPOCHS:
            with self.subTest(text[:30]), self.assertRaisesRegex(words.Wrong, said):
                epochs.read(text)


class Shown(unittest.TestCase):
    """UTC where the calendar has it."""

    def test_utc(self):
        for text, epoch in TIMES:
            with self.subTest(text):
                self.assertEqual(epochs.utc(epoch), text)

    def test_outside(self):
        for epoch in (-62135596801, 253402300800, LEAST, MOST, -(10**15), 10**15):
            with self.subTest(epoch):
                self.assertEqual(epochs.utc(epoch), "outside the calendar of the years 1 to 9999")


if __name__ == "__main__":
    unittest.main()
