"""`predict`: the state after a time."""

from __future__ import annotations

from front import answers, words


def run(texts: list[str]) -> int:
    """Nine numbers, or '-'."""
    answers.given("predict", len(words.PROBLEM_NAMES), texts)
    return answers.answer("predict", "predict", texts, words.problem)
