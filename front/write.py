"""`write`: a deck of cards from problems in a text file, of version 2 where these have OBJECT and EPOCH.

The deck's bytes are those of the proved program `write_deck`. They appear in OUT whole or not at all.
It is said on standard error how many cards were written as solved and as refused, and why those were.
Status 0 where all are solved, 1 where one is refused or the deck is, 2 where something is wrong.
"""

from __future__ import annotations

import os

from front import built, decks, kit, listing, page, problems, streams, whole, words
from front.streams import Stop

PROGRAM = "write_deck"


def run(texts: list[str]) -> int:
    """PROBLEMS and OUT, each a file or '-'."""
    if len(texts) != 2:
        raise Stop(f"write takes PROBLEMS and OUT, and {streams.were_given(len(texts))}; './tailfiddle help' tells more")
    name, out = texts
    streams.catch_signals("write")
    see_to_room(name, out)
    given = read_problems(name)
    made = kit.output_of(built.ready(PROGRAM), decks.order(given.version, given.records))
    try:
        refusal = listing.read(made).refusal if made.startswith(b"deck ") else None
        deck = decks.read(made) if refusal is None else None
    except ValueError:
        raise Stop(f"the program {PROGRAM} wrote a deck that is not whole") from None
    if deck is None:
        streams.say(f"nothing is written: the deck is refused with {page.explained(refusal)}")
        return 1
    see_to_deck(deck, given)
    put(out, made)
    return say_what(deck.cards)


def see_to_deck(deck: decks.Deck, given: problems.Problems) -> None:
    """Stops where the deck is not one for these problems."""
    cards, wanted = len(deck.cards), len(given.records)
    if cards != wanted:
        raise Stop(f"the program {PROGRAM} wrote {cards} cards for {wanted} problems")
    if deck.version is not given.version:
        raise Stop(f"the program {PROGRAM} wrote version {deck.version.value}, not {given.version.value}")


def see_to_room(name: str, out: str) -> None:
    """Stops where it can be seen at the start that OUT can't be written."""
    if out == "-":
        streams.need_output("write")
        return
    folder = os.path.dirname(out) or "."
    if os.path.isdir(out):
        raise Stop(f"write: '{out}' is a directory")
    if not os.path.isdir(folder):
        raise Stop(f"write: there is no folder '{folder}'")
    if os.path.isfile(out) and is_given(name, out):
        raise Stop("write: PROBLEMS and OUT are one file, and OUT is replaced; give OUT another name")
    if os.path.isfile(out) and any(is_open(descriptor, out) for descriptor in (1, 2)):
        raise Stop(f"write: '{out}' is where standard output or error goes; give OUT another name, or '-' for standard output")


def is_given(name: str, out: str) -> bool:
    """Whether the problems come from the file OUT, by its name or as standard input."""
    return is_open(0, out) if name == "-" else os.path.exists(name) and os.path.samefile(name, out)


def is_open(descriptor: int, out: str) -> bool:
    """Whether a descriptor leads to the file OUT."""
    return os.path.samestat(os.fstat(descriptor), os.stat(out))


def read_problems(name: str) -> problems.Problems:
    """The problems in a file or on standard input."""
    source = streams.open_input("write", name)
    shown = "standard input" if name == "-" else f"'{name}'"
    try:
        return problems.read(source)
    except words.Wrong as wrong:
        raise Stop(f"write: {shown}, {wrong}") from None
    except OSError as failure:
        raise Stop(f"write: {shown} was not read to its end: {failure.strerror}") from None


def put(out: str, deck: bytes) -> None:
    """Writes the deck to OUT."""
    if out == "-":
        streams.show_bytes(deck, "write: the deck could not be written; what was written is not all")
        return
    try:
        whole.save(out, deck)
    except OSError as failure:
        raise Stop(f"write: '{out}' could not be written: {failure.strerror}") from None


def say_what(cards: list[decks.Card]) -> int:
    """Says how many cards are solved and refused, and why those are. The status."""
    refusals = [card.refusal for card in cards if card.kind == "refused"]
    solved = len(cards) - len(refusals)
    streams.say(f"{streams.counted(len(cards), 'card')} written: {solved} solved, {len(refusals)} refused")
    for number in sorted(set(refusals)):
        streams.say(f"{refusals.count(number)} refused with {page.explained(number)}")
    return 1 if refusals else 0
