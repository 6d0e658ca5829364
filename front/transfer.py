"""`transfer`: the velocity that leads from one position to another in a time.

What the velocity is, the proved program `transfer` says. Where there is one, the proved program
`predict` says where the spacecraft comes to with it. How far that is from R2 is worked here, in
floating point, for people to read: nothing hangs on it, and the status is that of the transfer.
"""

from __future__ import annotations

import math

from front import answers, built, kit, page, words
from front.streams import Stop

PREDICT = "predict"
# How its lines begin, and how many words they have.
LINES = (("solved", 9), ("refused", 3), ("refused", 5))
COUNT = len(words.TRANSFER_NAMES)
TAKEN = f"{COUNT} words, MU, R1 and R2 with three numbers each, DT, LIMIT and short or long"


def run(texts: list[str]) -> int:
    """MU, R1, R2, DT, LIMIT and the way, or '-'."""
    answers.given("transfer", COUNT, texts, TAKEN)
    return answers.answer("transfer", "transfer", texts, words.transfer, arrival)


def arrival(record: bytes, line: str) -> list[str]:
    """The rows that say where the velocity in a line leads: the state there, or why there is none."""
    first, *found = line.split(" ")
    if first != "solved":
        return []
    by = f"{PREDICT}, with limit {words.MOST_LIMIT},"
    outcome, *rest = predicted(problem_of(record, found[2:]))
    if outcome == "refused":
        return [answers.row("arrival", f"{by} refuses it with {rest[0]}: {page.reason(int(rest[0]))}")]
    return [answers.row("arrival", f"as {by} has it:"), *state_rows(rest[2:], words.TRANSFER.unpack(record)[4:7])]


def problem_of(record: bytes, velocity: list[str]) -> bytes:
    """The problem that `predict` is given: R1, the velocity that was found, DT, and the largest limit."""
    mu, x, y, z, _, _, _, dt, _, _ = words.TRANSFER.unpack(record)
    return words.PROBLEM.pack(mu, x, y, z, *(int(word, 16) for word in velocity), dt, words.MOST_LIMIT)


def predicted(problem: bytes) -> list[str]:
    """The words of the line that `predict` prints for the problem."""
    printed = kit.output_of(built.ready(PREDICT), problem).decode("ascii", "replace")
    line, end, behind = printed.partition("\n")
    found = line.split(" ")
    if behind or not end or (found[0], len(found)) not in LINES:
        raise Stop(f"the program {PREDICT} did not print one whole line, so that the arrival can't be shown")
    return found


def state_rows(state: list[str], goal: tuple[int, ...]) -> list[str]:
    """The state at the end, and how far from the goal it is."""
    numbers = [answers.decimal(word) for word in state]
    fields = (
        ("position", " ".join(numbers[:3]) + " km"),
        ("velocity", " ".join(numbers[3:]) + " km/s"),
        ("distance", f"{distance(state[:3], goal):.3g} km from R2"),
    )
    return [answers.row("", f"{name:<9} {text}") for name, text in fields]


def distance(position: list[str], goal: tuple[int, ...]) -> float:
    """How far a position is from the goal, in km; each step is rounded."""
    reached = [words.value_of(int(word, 16)) for word in position]
    return math.dist(reached, [words.value_of(word) for word in goal])
