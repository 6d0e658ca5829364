"""Decks of both versions, and what is asked of the writer."""

import struct
import unittest

from front import decks, words
from front.decks import Tag, Version


def deck_of(*bodies, tag=None):
    """A deck of finished bodies: kind and bytes of each, as version 1 has them. Where there is a tag, it is
    of version 2, and each body gets the tag in its place."""
    if tag:
        bodies = [(kind, tagged(kind, body, struct.pack("<Iq", *tag))) for kind, body in bodies]
    offset = 8 + 12 * len(bodies)
    entries = b""
    for kind, body in bodies:
        entries += struct.pack("<III", kind, offset, len(body))
        offset += len(body)
    return struct.pack("<II", 2 if tag else 1, len(bodies)) + entries + b"".join(body for _, body in bodies)


def tagged(kind, body, tag):
    """The body with object and epoch: behind the 72 bytes of the problem, or at the end of a transfer."""
    place = 104 if kind == 3 else 72
    return body[:place] + tag + body[place:]


TAG = Tag(25544, -3)
PROBLEM = struct.pack("<8dI", 398600.4418, 7000, 0, 0, 0, 7.5, 1, 3600, 20)
SOLVED = (1, PROBLEM + struct.pack("<I7d", 0, 0.5, 0.1, 2, 3, 4, 5, 6))
REFUSED = (2, PROBLEM + struct.pack("<III", 9, 8, 7))
TRANSFER = (3, struct.pack("<8dII4d", 398600.4418, 7000, 0, 0, 0, 8000, 1000, 1800, 100, 1, 3.5, 1.25, 7.5, 1))
# Tags of both versions, and all kinds that a number can be.
TAGS = (None, TAG, Tag(0, 0), Tag(4294967295, -(1 << 63)), Tag(1, (1 << 63) - 1))


def refused_with(number):
    """A refused card with that number."""
    return 2, PROBLEM + struct.pack("<III", 0, number, 0)


def values(numbers):
    """The numbers that words are."""
    return [words.value_of(word) for word in numbers]


class Sizes(unittest.TestCase):
    """Each size and place is that of the rules."""

    def test_the_sizes_of_the_rules(self):
        sizes = {(version.value, kind): places.size for (version, kind), places in decks.LAYOUTS.items()}
        first = {(1, "solved"): 128, (1, "refused"): 80, (1, "transfer"): 104}
        second = {(2, "solved"): 140, (2, "refused"): 92, (2, "transfer"): 116}
        self.assertEqual(sizes, {**first, **second})
        self.assertEqual(decks.MOST_DECK, 38920)

    def test_the_places_of_the_rules(self):
        places = {kind: decks.LAYOUTS[Version.TWO, kind][:2] for kind in decks.ANSWERS}
        self.assertEqual(places, {"solved": (72, 84), "refused": (72, 84), "transfer": (104, 72)})
        self.assertEqual({decks.LAYOUTS[Version.ONE, kind].answer for kind in decks.ANSWERS}, {72})


class Decks(unittest.TestCase):
    """The fields are read where the rules put them, in both versions."""

    def check(self, bodies, tag):
        """The cards of a deck of these bodies, each of which has to have the tag."""
        deck = decks.read(deck_of(*bodies, tag=tag))
        self.assertEqual(deck.version.value, 1 if tag is None else 2)
        self.assertEqual([card.tag for card in deck.cards], [tag] * len(bodies))
        return deck.cards

    def test_a_solved_card(self):
        for tag in TAGS:
            with self.subTest(tag):
                (card,) = self.check([SOLVED], tag)
                self.assertEqual((card.kind, card.limit, card.spares, card.way), ("solved", 20, [0], None))
                self.assertEqual(values(card.numbers), [398600.4418, 7000, 0, 0, 0, 7.5, 1, 3600])
                self.assertEqual(values(card.answer), [0.5, 0.1, 2, 3, 4, 5, 6])

    def test_a_refused_card(self):
        for tag in TAGS:
            with self.subTest(tag):
                _, card = self.check([SOLVED, REFUSED], tag)
                self.assertEqual((card.kind, card.refusal, card.spares, card.answer), ("refused", 8, [9, 7], ()))

    def test_the_number_of_a_refused_card(self):
        for number in (0, 1, 14, 101, 108, 4294967295):
            for tag in TAGS:
                (card,) = self.check([refused_with(number)], tag)
                self.assertEqual((card.refusal, card.spares), (number, [0, 0]))

    def test_a_transfer(self):
        for tag in TAGS:
            with self.subTest(tag):
                _, card, last = self.check([SOLVED, TRANSFER, REFUSED], tag)
                self.assertEqual((card.kind, card.limit, card.way), ("transfer", 100, 1))
                self.assertEqual((card.spares, card.refusal), ([], 0))
                self.assertEqual(values(card.numbers), [398600.4418, 7000, 0, 0, 0, 8000, 1000, 1800])
                self.assertEqual(values(card.answer), [3.5, 1.25, 7.5, 1])
                self.assertEqual((last.kind, last.refusal, last.way), ("refused", 8, None))

    def test_absent_is_not_zero(self):
        (card,) = decks.read(deck_of(SOLVED)).cards
        self.assertIsNone(card.tag)
        (card,) = decks.read(deck_of(SOLVED, tag=(0, 0))).cards
        self.assertEqual(card.tag, (0, 0))

    def test_no_cards(self):
        self.assertEqual(decks.read(deck_of()), (Version.ONE, []))
        self.assertEqual(decks.read(deck_of(tag=TAG)), (Version.TWO, []))

    def test_what_is_no_whole_deck(self):
        for tag in (None, TAG):
            good = deck_of(SOLVED, REFUSED, tag=tag)
            bad = [b"", good[:7], good[:20], good[:-1], good + b"x", deck_of((4, SOLVED[1]), tag=tag)]
            bad += [version + good[1:] for version in (b"\0", b"\1", b"\2", b"\3", b"\xff") if version != good[:1]]
            bad += [good[:1] + b"\1" + good[2:], good[:4] + struct.pack("<I", 1 << 31) + good[8:]]
            bad += [deck_of((2, REFUSED[1][:79]), tag=tag), deck_of((1, TRANSFER[1]), tag=tag)]
            bad += [deck_of((3, SOLVED[1]), tag=tag), deck_of((0, TRANSFER[1]), tag=tag)]
            bad += [deck_of((3, TRANSFER[1][:103]), tag=tag), deck_of((3, TRANSFER[1] + bytes(4)), tag=tag)]
            for deck in bad:
                with self.subTest(deck[:30]), self.assertRaises(ValueError):
                    decks.read(deck)

    def test_cards_of_the_other_version(self):
        for bodies in ([SOLVED], [REFUSED], [TRANSFER], [TRANSFER, SOLVED]):
            for tag, other in ((None, b"\2"), (TAG, b"\1")):
                with self.subTest((bodies, tag)), self.assertRaises(ValueError):
                    decks.read(other + deck_of(*bodies, tag=tag)[1:])


class Orders(unittest.TestCase):
    """What `write_deck` reads: version and form, then the problems, each with its tag behind it."""

    def test_problems(self):
        numbers = [*map(words.word, "398600.4418 7000 0 0 0 7.5 1 3600".split()), 20]
        self.assertEqual(decks.problem(numbers, None), PROBLEM)
        for tag in TAGS[1:]:
            record = decks.problem(numbers, tag)
            self.assertEqual(record, PROBLEM + struct.pack("<Iq", *tag))
            self.assertEqual(len(record), 80)

    def test_the_version_and_its_form(self):
        self.assertEqual(decks.order(Version.ONE, [b"one", b"two"]), b"\1\0\0\0\0\0\0\0onetwo")
        self.assertEqual(decks.order(Version.TWO, [b"one"]), b"\2\0\0\0\1\0\0\0one")
        self.assertEqual(decks.order(Version.TWO, []), b"\2\0\0\0\1\0\0\0")


if __name__ == "__main__":
    unittest.main()
