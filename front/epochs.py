"""Epochs as people write and read them: whole seconds since 1970-01-01T00:00:00Z, or UTC.

UTC is written as 2026-11-15T12:00:00Z. A day has 86,400 seconds, so that there are no leap seconds, and
the calendar is that of now in all its years, which are 1 to 9999. An epoch may lie outside it.
"""

from __future__ import annotations

from datetime import datetime, timedelta

from front.decks import LEAST_EPOCH, MOST_EPOCH
from front.words import Wrong, whole_within

START = datetime(1970, 1, 1)
SECOND = timedelta(seconds=1)
SAMPLE = "2026-11-15T12:00:00Z"
# Where a number begins and ends in such a text.
PLACES = ((0, 4), (5, 7), (8, 10), (11, 13), (14, 16), (17, 19))


def read(text: str) -> int:
    """The epoch in a text, which is a number of seconds or UTC."""
    if shape(text) == shape(SAMPLE):
        return seconds(text)
    epoch = whole_within(text, LEAST_EPOCH, MOST_EPOCH)
    if epoch is None:
        raise Wrong(
            f"'{text}' is not an epoch: give whole seconds, {LEAST_EPOCH} to {MOST_EPOCH}, or UTC written as {SAMPLE}"
        )
    return epoch


def shape(text: str) -> str:
    """The text with 0 for each digit."""
    return "".join("0" if letter in "0123456789" else letter for letter in text)


def seconds(text: str) -> int:
    """The epoch that a text of the right shape is."""
    try:
        moment = datetime(*(int(text[begin:end]) for begin, end in PLACES))
    except ValueError:
        raise Wrong(
            f"'{text}' is not in the calendar: give a year from 0001 to 9999, a day that its month has, "
            "and a time from 00:00:00 to 23:59:59"
        ) from None
    return (moment - START) // SECOND


def utc(epoch: int) -> str:
    """An epoch as UTC, or that it is not in the calendar."""
    try:
        return (START + epoch * SECOND).isoformat() + "Z"
    except OverflowError:
        return "outside the calendar of the years 1 to 9999"
