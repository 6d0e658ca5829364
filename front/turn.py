"""`turn`: the state through an angle."""

from __future__ import annotations

from front import answers


def run(texts: list[str]) -> int:
    """Eight numbers, or '-'."""
    answers.given("turn", 8, texts)
    return answers.answer("turn", "turn", texts)
