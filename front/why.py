"""`why`: what a number in an answer means, as docs/REFUSALS.md says it. No kit is needed."""

from __future__ import annotations

from front import page, streams
from front.streams import Stop


def run(texts: list[str]) -> int:
    """One number, or none for a list of them."""
    if len(texts) > 1:
        raise Stop(f"why takes one NUMBER, and {streams.were_given(len(texts))}; './tailfiddle help' tells more")
    wanted = texts[0] if texts else ""
    if texts and not (wanted.isascii() and wanted.isdigit()):
        raise Stop(f"why: '{wanted}' is not a number; './tailfiddle why' lists those that are used")
    try:
        found = page.entry(wanted) if texts else page.headings()
    except OSError:
        raise Stop("why: docs/REFUSALS.md is missing, or may not be read") from None
    if not found:
        which = wanted or "any number"
        raise Stop(f"why: docs/REFUSALS.md has no entry for {which}; './tailfiddle why' lists those that it has")
    streams.show("".join(f"{line}\n" for line in found), "why: the entry could not be written")
    return 0
