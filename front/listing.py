"""The listing that `check_deck` prints, read back. A listing that is not whole is none.

The verdicts are the program's; the front adds nothing to them and leaves nothing out.
"""

from __future__ import annotations

from collections import namedtuple

from front import words
from front.decks import LEAST_EPOCH, MOST_EPOCH, MOST_OBJECT, Tag

# The word of 2^988, the most seconds that a mean or a worst can have (docs/RULES.md, "Tally"). Above it come
# larger numbers, infinity, the NaNs, and then all that has a minus.
MOST_SECONDS = 0x7DB0000000000000
# The word that stands in a card's line, for each kind of card.
KIND_WORDS = {"solved": "solved", "refused": "refused", "transfer": "solved"}
# What stands for an object and for an epoch where there is none.
ABSENT = "-"
# A count, a place, a verdict and a refusal's number are below 10^10.
MOST_NUMBER = 10**10 - 1

# What a card's line says: the word of its kind, its tag or None, its verdict.
Line = namedtuple("Line", "word tag verdict")


class Listing:
    """What a listing says: the deck's refusal, or each card's line, the totals, and mean and worst of the
    residuals in seconds."""

    def __init__(self, refusal: int | None, cards: list[Line], totals: list[int], residuals: list[int]) -> None:
        self.refusal = refusal
        self.cards = cards
        self.totals = totals  # solved, refused, rejected
        self.residuals = residuals  # mean, worst, as words; nothing where there is neither

    def numbers(self) -> list[int]:
        """The numbers that have a meaning, other than 0."""
        return [number for number in (self.refusal, *(card.verdict for card in self.cards)) if number]

    def status(self) -> int:
        """0 where every card is accepted, 1 where one is rejected or the deck is refused."""
        return 1 if self.refusal is not None or self.totals[2] else 0

    def seconds(self) -> str:
        """Mean and worst in as few digits as read back as the same word. Where there is neither, that is said
        in words: it is not the same as zero."""
        if not self.residuals:
            return "mean and worst: none, no card is accepted as solved"
        mean, worst = map(words.shortest, self.residuals)
        return f"mean {mean} s, worst {worst} s"


def read(text: bytes) -> Listing:
    """The listing in what the program printed; ValueError where it is not whole."""
    *lines, rest = text.decode("ascii").split("\n")
    if rest or not lines:
        raise ValueError("the last line is not ended")
    if lines[0].startswith("deck ") and len(lines) == 1:
        return Listing(number(lines[0][5:]), [], [0, 0, 0], [])
    *cards, counts, mean, worst = lines
    found = [read_card(place, line) for place, line in enumerate(cards, 1)]
    if len({card.tag is None for card in found}) > 1:
        raise ValueError("some cards have an object and an epoch, and others have neither")
    totals = read_totals(counts)
    return Listing(None, found, totals, read_residuals(mean, worst, totals[0]))


def read_card(place: int, line: str) -> Line:
    """What the line of the card at a place says."""
    card, at, word, object_text, epoch_text, verdict = line.split(" ")
    if card != "card" or number(at) != place or word not in KIND_WORDS.values():
        raise ValueError(f"'{line}' is not the line of card {place}")
    return Line(word, read_tag(object_text, epoch_text), number(verdict))


def read_tag(object_text: str, epoch_text: str) -> Tag | None:
    """The object and the epoch in a card's line; None where both are absent."""
    if object_text == epoch_text == ABSENT:
        return None
    return Tag(number(object_text, 0, MOST_OBJECT), number(epoch_text, LEAST_EPOCH, MOST_EPOCH))


def read_totals(line: str) -> list[int]:
    """How many cards are solved, refused and rejected."""
    found = line.split(" ")
    if len(found) != 6 or found[::2] != ["solved", "refused", "rejected"]:
        raise ValueError(f"'{line}' is not the line of the totals")
    return [number(word) for word in found[1::2]]


def read_residuals(mean: str, worst: str, solved: int) -> list[int]:
    """The words of mean and worst, from their lines. There is neither exactly where no card is solved."""
    if solved:
        return [read_residual("mean", mean), read_residual("worst", worst)]
    if (mean, worst) != ("mean none", "worst none"):
        raise ValueError(f"'{mean}' and '{worst}' are not the lines where no card is solved")
    return []


def read_residual(name: str, line: str) -> int:
    """The word in the line of that name."""
    first, word = line.split(" ")
    if first != name or not words.is_hex(word) or int(word, 16) > MOST_SECONDS:
        raise ValueError(f"'{line}' is not the line of {name}")
    return int(word, 16)


def number(text: str, least: int = 0, most: int = MOST_NUMBER) -> int:
    """A whole number from `least` to `most`, which has to be written as the program writes it."""
    found = words.whole_within(text, least, most)
    if found is None or text != str(found):
        raise ValueError(f"'{text}' is not a number")
    return found
