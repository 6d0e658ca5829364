"""What `predict`, `turn`, `transfer`, `root`, `digits` and `series` share: numbers or '-' in, lines out.

With numbers, the same in decimals stands below or behind the program's line; `digits` shows its lines
as a table. With '-' the lines are passed on as they are and as they come; a line that is cut off is
not passed on. Status 0 where every line is a good one, else 1.
"""

from __future__ import annotations

from front import built, kit, page, streams, words
from front.streams import Stop

TYPE_CHECKING = False
if TYPE_CHECKING:
    from typing import Callable, Optional

    # What a record is made of texts with, and what makes rows of a record and the program's line for it.
    Pack = Callable[[list[str]], bytes]
    More = Optional[Callable[[bytes, str], list[str]]]

# How a line begins that is an answer, or a part of one. Any other is a refusal, `short`, or unknown.
GOOD = (b"solved ", b"root ", b"turn ", b"rounded ", b"series ")


def answer(command: str, name: str, texts: list[str], pack: Pack = words.packed, more: More = None) -> int:
    """Answers with the program of that name. `more` gives the rows that follow those of a line."""
    streams.need_output(command)
    if texts == ["-"]:
        source = streams.open_input(command, "-")
        return answer_input(command, name, source)
    return answer_record(command, name, record_of(command, texts, pack), more)


def record_of(command: str, texts: list[str], pack: Pack = words.packed) -> bytes:
    """The record that the texts make; Stop where one of them is wrong."""
    try:
        return pack(texts)
    except words.Wrong as wrong:
        raise Stop(f"{command}: {wrong}; './tailfiddle help' tells more") from None


def given(command: str, count: int, texts: list[str], what: str = "") -> None:
    """Sees to it that so many words are given, or '-'. `what` says which, where not all are numbers."""
    if texts != ["-"] and len(texts) != count:
        wanted = what or f"{count} numbers"
        there = streams.were_given(len(texts))
        raise Stop(f"{command} takes {wanted}, or '-', and {there}; './tailfiddle help' shows which")


# ---- numbers


def answer_record(command: str, name: str, record: bytes, more: More = None) -> int:
    """The program's lines, with what is added for people, in one write: who reads the first line alone may
    then go. Where something fails, what was found before is printed."""
    program = built.ready(name)
    running = kit.Running(program, [record], quiet=True)
    output = b"".join(streams.blocks(running.output))
    ended, _ = running.end()
    *lines, cut = output.decode("ascii", "replace").split("\n")
    rows = [row for line in lines for row in explained(command, line)]
    try:
        if cut or not ended:
            raise kit.failed(program)
        if more:
            rows += [row for line in lines for row in more(record, line)]
    except Stop:
        show(command, rows)
        raise
    show(command, rows)
    return 1 if others(output) else 0


def show(command: str, rows: list[str]) -> None:
    """Prints the rows."""
    streams.show("".join(f"{row}\n" for row in rows), unwritten(command))


def explained(command: str, line: str) -> list[str]:
    """A line, and what people are told of it."""
    first, *rest = line.split(" ")
    if first in ("root", "series"):
        return [with_decimals(line)]
    if first == "solved":
        return [line, *(found_rows(rest) if command == "transfer" else solved_rows(command, rest))]
    if first == "refused" and command != "root":
        return [line, *refused_rows(rest)]
    return [line]


def with_decimals(line: str) -> str:
    """The line of a root or a series, and behind it the decimals of its words."""
    return " ".join([line, *map(decimal, line.split(" ")[1:])])


def solved_rows(command: str, rest: list[str]) -> list[str]:
    """Below a prediction's line with `solved`: guesses, x or angle, position, velocity."""
    numbers = [decimal(word) for word in rest[1:]]
    return [
        *guesses(rest[0]),
        row("angle" if command == "turn" else "x", numbers[0]),
        row("position", " ".join(numbers[1:4])),
        row("velocity", " ".join(numbers[4:7])),
    ]


def found_rows(rest: list[str]) -> list[str]:
    """Below a transfer's line with `solved`: guesses, z, velocity."""
    z, *velocity = [decimal(word) for word in rest[1:]]
    return [*guesses(rest[0]), row("z", z), row("velocity", " ".join(velocity) + " km/s")]


def refused_rows(rest: list[str]) -> list[str]:
    """Below a line with `refused`: the reason, guesses where they are counted, and the last bracket if there
    is one."""
    made = guesses(rest[1]) if len(rest) > 1 else []
    bracket = [row("bracket", " to ".join(map(decimal, rest[2:])))] if len(rest) == 4 else []
    return [reason_row(rest[0]), *made, *bracket]


def reason_row(number: str) -> str:
    """What a refusal's number means."""
    return row("reason", page.reason(int(number)))


def guesses(count: str) -> list[str]:
    """How many there were, where there were any."""
    return [row("guesses", count)] if count != "0" else []


def row(name: str, text: str) -> str:
    """A row below a line."""
    return f"  {name:<9} {text}"


def decimal(digits: str) -> str:
    """The decimal of a word in hex."""
    return words.decimal(int(digits, 16))


# ---- standard input


def answer_input(command: str, name: str, source: int) -> int:
    """The program's lines for what comes in, as it is."""
    program = built.ready(name)
    running = kit.Running(program, streams.blocks(source), quiet=True)
    try:
        other, cut = pass_lines(running.output)
    except OSError:
        running.stop()
        raise Stop(unwritten(command)) from None
    ended, fed = running.end()
    if cut or not ended:
        raise kit.failed(program)
    if not fed:
        raise Stop(f"{command}: standard input was not read to its end; what was printed is not all")
    return 1 if other else 0


def pass_lines(source: int) -> tuple[int, bytes]:
    """Passes whole lines on. How many are no good ones, and what is left at the end."""
    rest = b""
    count = 0
    for block in streams.blocks(source):
        block = rest + block
        end = block.rfind(b"\n") + 1
        lines, rest = block[:end], block[end:]
        streams.write(1, lines)
        count += others(lines)
    return count, rest


def others(lines: bytes) -> int:
    """How many of the lines, each of which is ended, are no good ones."""
    begun = b"\n" + lines
    return lines.count(b"\n") - sum(begun.count(b"\n" + word) for word in GOOD)


def unwritten(command: str) -> str:
    """What is said where lines can't be written."""
    return f"{command}: the lines could not be written; what was printed is not all"
