"""`digits`: a root digit by digit, as docs/RULES.md, "The root on paper", finds it.

The numbers of the table and below it are those of the proved program `root_digits`. Its lines are shown only when they are the
whole working of one number. What is shown for 2, without the turns between:

    number 4000000000000000 2
    turn  pair              trial  digit         remainder
       1    10                  1      1                 1
       2    00                  5      0                 4
      54    00  25476206690103089      1  3292739303401103
    the 54 binary digits make 12738103345051545; rounded to 53 they make 6369051672525773
    root 3ff6a09e667f3bcd 1.4142135623730951
"""

from __future__ import annotations

from front import answers, built, kit, streams, words

PROGRAM = "root_digits"
TURNS = 54
HEADS = ["turn", "pair", "trial", "digit", "remainder"]
# What is printed for zero, and where the number is refused: one line.
ZEROS = ("root 0000000000000000", "root 8000000000000000")
REFUSALS = ("refused 1", "refused 13")


def run(texts: list[str]) -> int:
    """One number, or '-'."""
    answers.given("digits", 1, texts, "one NUMBER")
    if texts == ["-"]:
        return answers.answer("digits", PROGRAM, texts)
    streams.need_output("digits")
    record = answers.record_of("digits", texts)
    program = built.ready(PROGRAM)
    text = kit.output_of(program, record)
    try:
        rows = shown(record, text)
    except ValueError:
        raise kit.failed(program) from None
    answers.show("digits", rows)
    return 1 if answers.others(text) else 0


def shown(record: bytes, text: bytes) -> list[str]:
    """The rows for what the program printed for a record; ValueError where that is not whole."""
    *lines, cut = text.decode("ascii").split("\n")
    if cut:
        raise ValueError("the last line is not ended")
    return rows_of(record, lines)


def rows_of(record: bytes, lines: list[str]) -> list[str]:
    """The rows for the lines of the number in a record; ValueError where they are not whole."""
    first = lines[0] if len(lines) == 1 else ""
    if first in ZEROS:
        return ["zero is its own root", answers.with_decimals(first)]
    if first in REFUSALS:
        return [first, answers.reason_row(first.split(" ")[1])]
    *turns, rounded, root = lines
    return [number_row(record), *table(turns), rounding(rounded), read_root(root)]


def number_row(record: bytes) -> str:
    """The word of the number, which says what pairs come, and its decimal."""
    word = int.from_bytes(record, "little")
    return f"number {word:016x} {words.decimal(word)}"


def table(turns: list[str]) -> list[str]:
    """The heads, and a row for the line of each turn; each column ends at the right."""
    if len(turns) != TURNS:
        raise ValueError(f"there are {len(turns)} turns")
    rows = [HEADS, *(cells(place, line) for place, line in enumerate(turns, 1))]
    widths = [max(map(len, column)) for column in zip(*rows)]
    return ["  ".join(cell.rjust(width) for cell, width in zip(row, widths)) for row in rows]


def cells(place: int, line: str) -> list[str]:
    """The row for the line of the turn at a place. The pair is shown as its two digits."""
    turn, pair, trial, digit, remainder = numbers("turn", line)
    if turn != place or pair > 3 or digit > 1:
        raise ValueError(f"'{line}' is not the line of turn {place}")
    return [str(turn), f"{pair:02b}", str(trial), str(digit), str(remainder)]


def rounding(line: str) -> str:
    """What the last line but one says, in words."""
    digits, rounded = numbers("rounded", line)
    return f"the {TURNS} binary digits make {digits}; rounded to {TURNS - 1} they make {rounded}"


def numbers(name: str, line: str) -> list[int]:
    """The numbers in the line of that name, which has to be written as the program writes it."""
    found = [int(word) for word in line.split(" ")[1:]]
    if line != " ".join([name, *map(str, found)]) or not all(0 <= number < 1 << 64 for number in found):
        raise ValueError(f"'{line}' is not a line of the name {name}")
    return found


def read_root(line: str) -> str:
    """The row for the root's line."""
    name, word = line.split(" ")
    if name != "root" or not words.is_hex(word):
        raise ValueError(f"'{line}' is not the line of a root")
    return answers.with_decimals(line)
