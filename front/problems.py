"""Problems as text, a problem a line: MU RX RY RZ VX VY VZ DT LIMIT, with blanks between them.

Each is a decimal or a hex word, as elsewhere. OBJECT and EPOCH may stand in front of them, in every
line or in none: with them the lines make a deck of version 2, without them one of version 1. What
stands behind a `#` is a comment; a line with nothing else is passed over. A line that is wrong is named
with its number and what is wrong in it.
"""

from __future__ import annotations

from front import decks, epochs, streams, words
from front.decks import TAG_NAMES, Tag, Version
from front.words import PROBLEM_NAMES, Wrong

TYPE_CHECKING = False
if TYPE_CHECKING:
    from typing import Iterator

# No line that anybody writes is longer, and input without line ends must not be waited for.
MOST_LINE = 1 << 16
# How much of a word that is wrong is shown.
MOST_SHOWN = 40
# The columns of a line, by the version of the deck that such lines make.
COLUMNS = {Version.ONE: PROBLEM_NAMES, Version.TWO: TAG_NAMES + PROBLEM_NAMES}
VERSIONS = {len(names): version for version, names in COLUMNS.items()}
WANTED = (
    f"a problem has {len(PROBLEM_NAMES)} columns, {' '.join(PROBLEM_NAMES)}, "
    f"or {len(COLUMNS[Version.TWO])}, with {' '.join(TAG_NAMES)} in front"
)


class Problems:
    """The problems of a text: the version of the deck that they make, and a record for each. No problems
    make a deck of version 2."""

    def __init__(self) -> None:
        self.version = Version.TWO
        self.records: list[bytes] = []
        self.first = 0  # the line of the first problem

    def add(self, line: int, texts: list[str]) -> None:
        """Adds the problem in a line, which has to have as many columns as the first one."""
        count = len(texts)
        if count not in VERSIONS:
            raise Wrong(f"{WANTED}, and here are {count}")
        if not self.records:
            self.version, self.first = VERSIONS[count], line
        names = COLUMNS[self.version]
        if count != len(names):
            raise Wrong(
                f"here are {count} columns, and in line {self.first}, the first problem, {len(names)}: "
                f"give {' and '.join(TAG_NAMES)} in every line, or in none"
            )
        self.records.append(record(names, texts))


def read(source: int) -> Problems:
    """The problems that come. One more than a deck takes ends the reading."""
    problems = Problems()
    for number, line in enumerate(lines(source), 1):
        try:
            texts = texts_of(line)
            if texts:
                problems.add(number, texts)
        except Wrong as wrong:
            raise Wrong(f"line {number}: {wrong}") from None
        if len(problems.records) > decks.MOST_CARDS:
            break
    return problems


def lines(source: int) -> Iterator[bytes]:
    """The lines that come, without their ends. The last one need not be ended."""
    rest = b""
    for block in streams.blocks(source):
        *ended, rest = (rest + block).split(b"\n")
        yield from ended
        if len(rest) > MOST_LINE:
            break
    if rest:
        yield rest


def texts_of(line: bytes) -> list[str]:
    """What stands in the columns of a line; nothing where the line has no problem."""
    if len(line) > MOST_LINE:
        raise Wrong(f"it is longer than {MOST_LINE} bytes")
    try:
        texts = [word.decode() for word in line.partition(b"#")[0].split()]
    except UnicodeDecodeError:
        raise Wrong("it is no text") from None
    if not "".join(texts).isprintable():
        raise Wrong("it is no text")
    return texts


def record(names: tuple[str, ...], texts: list[str]) -> bytes:
    """The record of the problem in the columns of these names."""
    values = [value(name, text) for name, text in zip(names, texts)]
    tag, numbers = values[: -len(PROBLEM_NAMES)], values[-len(PROBLEM_NAMES) :]
    return decks.problem(numbers, Tag(*tag) if tag else None)


def value(name: str, text: str) -> int:
    """The number or the word in a column. Where it is wrong, the column is named."""
    try:
        if name == "EPOCH":
            return epochs.read(text)
        return words.whole(text, name) if name in ("OBJECT", "LIMIT") else words.word(text)
    except Wrong as wrong:
        short = text if len(text) <= MOST_SHOWN else text[:MOST_SHOWN] + "..."
        raise Wrong(f"{name}: {str(wrong).replace(text, short)}") from None


def line_of(card: decks.Card) -> str:
    """The problem of a card as a line that is read back as the same record."""
    return " ".join([*map(str, card.tag or ()), *map(words.decimal, card.numbers), str(card.limit)])
