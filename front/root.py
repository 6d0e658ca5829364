"""`root`: the binary64 number nearest each square root."""

from __future__ import annotations

from front import answers
from front.streams import Stop


def run(texts: list[str]) -> int:
    """As many numbers as are given, or '-'."""
    if not texts:
        raise Stop("root: which number? './tailfiddle help' shows how")
    return answers.answer("root", "roots", texts)
