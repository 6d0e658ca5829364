"""Decks: their two versions, what the fields of their cards are, and what `write_deck` reads for one.

The layout of a deck stands here, and nowhere else in the front; docs/RULES.md, "The deck" and "Writing
a deck", says what it is. It is no part of `words`, since `predict` has no use for it and is to start
quickly.
"""

from __future__ import annotations

import struct
from collections import namedtuple
from enum import Enum

from front import words


class Version(Enum):
    """A deck's version. Each card of version 2 has an object and an epoch, and none of version 1 has."""

    ONE = 1
    TWO = 2


# A card's tag: its object, and its epoch in whole seconds. Where a card has neither, None stands for it, which
# is not two zeros.
Tag = namedtuple("Tag", "object epoch")
TAG_NAMES = ("OBJECT", "EPOCH")
TAG = struct.Struct("<Iq")
TAG_SIZES = {Version.ONE: 0, Version.TWO: TAG.size}
MOST_OBJECT = words.MOST_WHOLE
LEAST_EPOCH, MOST_EPOCH = -(1 << 63), (1 << 63) - 1

# A deck: its header, an entry for each card, the cards' bodies. A body is what was given, and an answer.
HEADER = struct.Struct("<II")  # version, count
ENTRY = struct.Struct("<III")  # kind, offset, length
KINDS = {1: "solved", 2: "refused", 3: "transfer"}
GIVEN = words.TRANSFER  # or a problem, with a spare where a transfer has its way
ANSWERS = {
    "solved": struct.Struct("<7Q"),  # x, position, velocity
    "refused": struct.Struct("<II"),  # the refusal's number, spare
    "transfer": struct.Struct("<4Q"),  # z, velocity
}
# The numbers that a refused card can have: those with which a prediction after a time can be refused, and 1,
# which a card from before has for each of 101 to 108.
REFUSALS = frozenset((1, 2, 3, 5, 6, 7, 8, 9, 10, 11, 14, *range(101, 109)))
MOST_CARDS = 256

# Where a body has its tag and its answer, and how many bytes it has.
Layout = namedtuple("Layout", "tag answer size")


def layout(version: Version, kind: str) -> Layout:
    """The layout of a body. A tag stands behind the problem, and in a transfer at the end."""
    tag, answer = TAG_SIZES[version], ANSWERS[kind].size
    size = GIVEN.size + tag + answer
    if kind == "transfer":
        return Layout(size - tag, GIVEN.size, size)
    return Layout(GIVEN.size, size - answer, size)


LAYOUTS = {(version, kind): layout(version, kind) for version in Version for kind in ANSWERS}
MOST_DECK = HEADER.size + MOST_CARDS * (ENTRY.size + max(places.size for places in LAYOUTS.values()))

# What `write_deck` reads in front of the problems, and the form that goes with a version: 1 where each
# problem has a tag behind it, else 0.
ORDER = struct.Struct("<II")  # version, form
FORMS = {Version.ONE: 0, Version.TWO: 1}


# ---- reading


class Card:
    """The fields of a card, as they stand in its bytes. Where it is refused there is no answer; a
    transfer alone has a way, and it has no spare."""

    def __init__(self, version: Version, kind: str, body: bytes) -> None:
        places = LAYOUTS[version, kind]
        self.kind = kind
        *self.numbers, self.limit, last = GIVEN.unpack_from(body)
        self.tag = Tag(*TAG.unpack_from(body, places.tag)) if TAG_SIZES[version] else None
        self.way = last if kind == "transfer" else None
        self.spares = [] if kind == "transfer" else [last]
        self.answer: tuple[int, ...] = ANSWERS[kind].unpack_from(body, places.answer)
        self.refusal = 0
        if kind == "refused":
            self.refusal, spare = self.answer
            self.spares.append(spare)
            self.answer = ()


# A deck that is whole: its version and its cards.
Deck = namedtuple("Deck", "version cards")


def read(data: bytes) -> Deck:
    """The deck in these bytes; ValueError where they are no whole one."""
    try:
        number, count = HEADER.unpack_from(data)
        version = Version(number)
        cards = [card_at(data, version, place) for place in range(count)]
    except (struct.error, KeyError):
        raise ValueError("the bytes are no whole deck") from None
    if len(data) != HEADER.size + sum(ENTRY.size + LAYOUTS[version, card.kind].size for card in cards):
        raise ValueError("the bytes are no whole deck")
    return Deck(version, cards)


def card_at(data: bytes, version: Version, place: int) -> Card:
    """The card at a place, which counts from 0."""
    kind, offset, length = ENTRY.unpack_from(data, HEADER.size + place * ENTRY.size)
    return Card(version, KINDS[kind], data[offset : offset + length])


# ---- writing


def problem(numbers: list[int], tag: Tag | None) -> bytes:
    """A problem as `write_deck` reads it: the numbers that PROBLEM_NAMES names, and its tag, if it has one."""
    return words.PROBLEM.pack(*numbers) + (b"" if tag is None else TAG.pack(*tag))


def order(version: Version, problems: list[bytes]) -> bytes:
    """All that `write_deck` reads for a deck of that version."""
    return ORDER.pack(version.value, FORMS[version]) + b"".join(problems)
