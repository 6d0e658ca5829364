"""`series`: C2 and C3, the sums that the universal functions are made of, where twelve terms are good for them."""

from __future__ import annotations

from front import answers
from front.streams import Stop


def run(texts: list[str]) -> int:
    """As many numbers as are given, or '-'."""
    if not texts:
        raise Stop("series: which number? './tailfiddle help' shows how")
    return answers.answer("series", "series", texts)
