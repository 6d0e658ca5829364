"""`show`: the cards of a deck as people read them.

Verdicts, totals, mean and worst are those of `check_deck`; a deck that it refuses is not shown. The
other numbers are the fields of the cards' bytes. All are in as few digits as read back as the same
word. With --problems the problems alone are printed, as lines that `write` takes; a transfer is no
such problem and is left out. Three cards are shown so (in a deck of version 1 the object and the epoch
of each are absent):

    card 1: solved; accepted
      problem  object    25544
               epoch     1794744000 s, 2026-11-15T12:00:00Z
               mu        398600.4418 km^3/s^2
               position  7000 0 0 km
               velocity  0 7.5 1 km/s
               time      3600 s
               limit     20
      answer   x         3.8563973673999983
               position  -5400.911577482996 -4517.529081172817 -602.3372108230423 km
               velocity  4.853466182834458 -5.660956476685207 -0.754794196891361 km/s

    card 2: refused; rejected with 24: Kepler does not refuse with this number
      problem  object    0
               epoch     -62135596801 s, outside the calendar of the years 1 to 9999
               mu        1 km^3/s^2
               position  1 0 0 km
               velocity  0 1 0 km/s
               time      0 s
               limit     20
      answer   refusal   7: a straight line

    card 3: solved transfer; accepted
      problem  object    25544
               epoch     -3 s, 1969-12-31T23:59:57Z
               mu        398600.4418 km^3/s^2
               start     7000 0 0 km
               goal      0 8000 1000 km
               time      1800 s
               limit     100
               way       short
      answer   z         3.0902333042582892
               velocity  1.186044512683371 7.38665218685074 0.9233315233563425 km/s

    3 cards: 2 solved, 0 refused, 1 rejected
    mean 2.0597684308866947e-13 s, worst 4.1195368617733894e-13 s
"""

from __future__ import annotations

from front import check, decks, epochs, page, problems, streams, words
from front.listing import KIND_WORDS, Listing
from front.streams import Stop

PROBLEMS = "--problems"
# What a card is called, by its kind.
TITLES = {"solved": "solved", "refused": "refused", "transfer": "solved transfer"}


def run(texts: list[str]) -> int:
    """One file, or '-'; and --problems, if the problems alone are wanted."""
    files = [text for text in texts if text != PROBLEMS]
    if len(files) != 1:
        raise Stop(f"show takes one DECK, or '-', and {streams.were_given(len(files))}; './tailfiddle help' tells more")
    streams.catch_signals("show")
    streams.need_output("show")
    deck, _, said = check.checked("show", files[0])
    if said.refusal is not None:
        streams.say(f"the deck is refused with {page.explained(said.refusal)}")
        return said.status()
    cards = cards_of(deck, said)
    if files == texts:
        show_text(shown(cards, said))
    else:
        show_problems(cards)
    return said.status()


def show_text(text: str) -> None:
    """Prints it."""
    streams.show(text, "show: the cards could not be written; what was printed is not all")


def show_problems(cards: list[decks.Card]) -> None:
    """The problems alone. A transfer is none that `write` takes; it is said how many are left out."""
    taken = [card for card in cards if card.kind != "transfer"]
    show_text("".join(f"{problems.line_of(card)}\n" for card in taken))
    left = len(cards) - len(taken)
    if left:
        streams.say(f"{streams.counted(left, 'transfer')} left out: write takes none; './tailfiddle show' shows them")


def cards_of(deck: bytes, said: Listing) -> list[decks.Card]:
    """The cards of a deck that was accepted. The listing has to be that of this deck."""
    try:
        cards = decks.read(deck).cards
    except ValueError:
        cards = []
    if [(KIND_WORDS[card.kind], card.tag) for card in cards] != [(line.word, line.tag) for line in said.cards]:
        raise Stop(f"the program {check.PROGRAM} printed a listing that is not this deck's")
    return cards


def shown(cards: list[decks.Card], said: Listing) -> str:
    """All cards, the totals, and mean and worst."""
    texts = [card_text(place, card, said.cards[place - 1].verdict) for place, card in enumerate(cards, 1)]
    solved, refused, rejected = said.totals
    count = streams.counted(len(cards), "card")
    totals = f"{count}: {solved} solved, {refused} refused, {rejected} rejected"
    return "\n".join([*texts, f"{totals}\n{said.seconds()}\n"])


def card_text(place: int, card: decks.Card, verdict: int) -> str:
    """A card: its place, kind and verdict, then its fields."""
    judged = f"rejected with {verdict}: {page.reason(verdict)}" if verdict else "accepted"
    given = transfer_fields(card) if card.kind == "transfer" else problem_fields(card)
    rows = [*rows_of("problem", [*tag_fields(card), *given]), *rows_of("answer", answer_fields(card))]
    return "".join(f"{line}\n" for line in [f"card {place}: {TITLES[card.kind]}; {judged}", *rows])


def rows_of(part: str, fields: list[tuple[str, str]]) -> list[str]:
    """The rows of a part of a card; its name stands in the first."""
    return [f"  {'' if at else part:<7}  {name:<9} {text}" for at, (name, text) in enumerate(fields)]


def tag_fields(card: decks.Card) -> list[tuple[str, str]]:
    """The object, and the epoch with its UTC; or that they are absent."""
    if card.tag is None:
        return [("object", "absent"), ("epoch", "absent")]
    return [("object", str(card.tag.object)), ("epoch", f"{card.tag.epoch} s, {epochs.utc(card.tag.epoch)}")]


def problem_fields(card: decks.Card) -> list[tuple[str, str]]:
    """The problem, with its units; the spare where it is not 0."""
    mu, *state, dt = card.numbers
    return [
        ("mu", f"{words.shortest(mu)} km^3/s^2"),
        *state_fields(state),
        ("time", f"{words.shortest(dt)} s"),
        ("limit", str(card.limit)),
        *spare_fields(card.spares[:1]),
    ]


def transfer_fields(card: decks.Card) -> list[tuple[str, str]]:
    """What a transfer was asked for, with its units: r1 is the start and r2 the goal."""
    mu, *ends, dt = card.numbers
    return [
        ("mu", f"{words.shortest(mu)} km^3/s^2"),
        ("start", triple(ends[:3], "km")),
        ("goal", triple(ends[3:], "km")),
        ("time", f"{words.shortest(dt)} s"),
        ("limit", str(card.limit)),
        ("way", words.way_text(card.way)),
    ]


def answer_fields(card: decks.Card) -> list[tuple[str, str]]:
    """The answer: x or z, which has no unit, and the state or the velocity; or the refusal, and its
    spare where it is not 0."""
    if card.kind == "solved":
        x, *state = card.answer
        return [("x", words.shortest(x)), *state_fields(state)]
    if card.kind == "transfer":
        z, *velocity = card.answer
        return [("z", words.shortest(z)), ("velocity", triple(velocity, "km/s"))]
    return [("refusal", refusal_text(card.refusal)), *spare_fields(card.spares[1:])]


def refusal_text(number: int) -> str:
    """The number on a refused card, with its reason where a refused card can have it."""
    return f"{number}: {page.reason(number) if number in decks.REFUSALS else 'no refusal of a prediction'}"


def state_fields(state: list[int]) -> list[tuple[str, str]]:
    """A position and a velocity."""
    return [("position", triple(state[:3], "km")), ("velocity", triple(state[3:], "km/s"))]


def triple(numbers: list[int], unit: str) -> str:
    """Three numbers and their unit."""
    return " ".join([*map(words.shortest, numbers), unit])


def spare_fields(spares: list[int]) -> list[tuple[str, str]]:
    """What stands where nothing belongs."""
    return [("spare", str(spare)) for spare in spares if spare]
