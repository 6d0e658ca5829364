"""`check`: the verdicts on a deck of cards.

The program's listing is printed to the letter, and only when it is whole. Then, on standard error, mean
and worst are said in decimals of seconds, where the deck is accepted, and what each number means.
"""

from __future__ import annotations

from front import built, decks, kit, listing, page, streams
from front.listing import Listing
from front.streams import Stop

PROGRAM = "check_deck"


def run(texts: list[str]) -> int:
    """One file, or '-'."""
    if len(texts) != 1:
        raise Stop(f"check takes one FILE, or '-', and {streams.were_given(len(texts))}; './tailfiddle help' tells more")
    streams.catch_signals("check")
    _, text, said = checked("check", texts[0])
    streams.show_bytes(text, "check: the listing could not be written")
    if said.refusal is None:
        streams.say(said.seconds())
    page.say_why(said.numbers())
    return said.status()


def checked(command: str, name: str) -> tuple[bytes, bytes, Listing]:
    """A deck's bytes, as far as they are read, and its listing: the text, and what it says."""
    source = streams.open_input(command, name)
    ready = built.ready(PROGRAM)
    deck = fetch(command, source)
    text = kit.output_of(ready, deck)
    try:
        return deck, text, listing.read(text)
    except ValueError:
        raise Stop(f"the program {PROGRAM} printed a listing that is not whole") from None


def fetch(command: str, source: int) -> bytes:
    """A deck, as far as it is read: one byte more than the largest deck has."""
    try:
        return streams.read_most(source, decks.MOST_DECK + 1)
    except OSError as failure:
        raise Stop(f"{command}: the deck was not read to its end: {failure.strerror}") from None
