"""What the numbers of refusals and verdicts mean: docs/REFUSALS.md, which is read and never repeated.

An entry of the page begins with '## ', its number, a colon, a space, and why: the reason. It ends
where the next heading begins.
"""

from __future__ import annotations

import os

from front import TOP, streams

PAGE = os.path.join(TOP, "docs", "REFUSALS.md")


def lines() -> list[str]:
    """The page's lines; OSError where it is missing, is no file or may not be read."""
    with open(PAGE, "rb") as page:
        return page.read().decode("utf-8", "surrogateescape").split("\n")


def heading(line: str) -> tuple[str, str]:
    """The number and the reason in the heading of an entry; both empty in any other line."""
    number, colon, reason = line[3:].partition(": ")
    if line.startswith("## ") and colon and number.isascii() and number.isdigit():
        return number, reason
    return "", ""


def headings() -> list[str]:
    """Each heading, without its mark."""
    return [line[3:] for line in lines() if heading(line)[0]]


def entry(wanted: str) -> list[str]:
    """The entry for a number, without its mark and its empty lines; nothing where there is none."""
    found: list[str] = []
    inside = False
    for line in lines():
        if line.startswith("## "):
            inside = heading(line)[0] == wanted != ""
            line = line[3:]
        if inside and line.strip():
            found.append(line)
    return found


def reasons() -> dict[str, str]:
    """The reason for each number; none where the page can't be read."""
    try:
        return dict(filter(all, map(heading, lines())))
    except OSError:
        return {}


def reason(number: int, more: str = "") -> str:
    """The reason for a number, followed by `more`; or where to look."""
    known = reasons().get(str(number))
    return known + more if known else "docs/REFUSALS.md tells it"


def explained(number: int) -> str:
    """A number, its reason, and how to hear more."""
    return f"{number}: " + reason(number, f"; './tailfiddle why {number}' tells more")


def say_why(numbers: list[int]) -> None:
    """Says on standard error what each number means, once and in order."""
    for number in sorted(set(numbers)):
        streams.say(explained(number))
