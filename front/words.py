"""Numbers, words and records: what people write, and the bytes that the programs read and write.

A number is a decimal, taken as the nearest binary64 number (beyond the largest one: infinity), or 0x
and the 16 hex digits of a word; it becomes a word, a whole number of 64 bits. Numbers in records are
little-endian. The layout of a record stands here, and nowhere else in the front; docs/RULES.md,
"Lines", says what it is.
"""

from __future__ import annotations

import struct

NAN = 0x7FF8000000000000
INFINITY = 0x7FF0000000000000
SIGN = 1 << 63
MOST_WHOLE = (1 << 32) - 1
HEX = frozenset("0123456789abcdef")

# A problem, as `predict` and `write_deck` read it.
PROBLEM_NAMES = ("MU", "RX", "RY", "RZ", "VX", "VY", "VZ", "DT", "LIMIT")
LIMIT_PLACE = PROBLEM_NAMES.index("LIMIT")
PROBLEM = struct.Struct("<8QI")
MOST_LIMIT = 100

# A transfer, as `transfer` reads it: it has R1 and R2 where a problem has R and V, and the way behind.
TRANSFER_NAMES = ("MU", "X1", "Y1", "Z1", "X2", "Y2", "Z2", "DT", "LIMIT", "WAY")
TRANSFER = struct.Struct("<8QII")
WAYS = ("short", "long")  # 0 and 1


class Wrong(ValueError):
    """A text that is not what it should be; its words say which, and what it should be."""


# ---- numbers


def word(text: str) -> int:
    """The word of a number as people write it."""
    small = text.lower()
    digits = small[2:]
    if small.startswith("0x") and is_hex(digits):
        return int(digits, 16)
    sign = SIGN if small.startswith("-") else 0
    size = small[1:] if small[:1] in ("-", "+") else small
    if size == "nan":
        return sign | NAN
    if size in ("inf", "infinity"):
        return sign | INFINITY
    # Of these characters float takes decimals alone, and a sign in front is gone already.
    if size[:1] in ("-", "+") or not set(size) <= set("0123456789.e+-"):
        raise Wrong(f"'{text}' is not a number")
    try:
        return sign | word_of(float(size))
    except ValueError:
        raise Wrong(f"'{text}' is not a number") from None


def is_hex(digits: str) -> bool:
    """Whether these are the 16 hex digits of a word, in lower case."""
    return len(digits) == 16 and HEX.issuperset(digits)


def whole(text: str, name: str = "LIMIT") -> int:
    """A whole number of 4 bytes as people write it."""
    number = whole_within(text, 0, MOST_WHOLE)
    if number is None:
        raise Wrong(f"'{text}' is not a whole number from 0 to {MOST_WHOLE}, as {name} must be")
    return number


def whole_within(text: str, least: int, most: int) -> int | None:
    """The whole number that a text is; None where it is none of these. Where some of them are below zero, a
    minus may stand in front."""
    minus = least < 0 and text.startswith("-")
    digits = text[1:] if minus else text
    # Thousands of digits, which int does not take, are too many or zeros in front.
    size = digits.lstrip("0") or "0"
    if not (digits.isascii() and digits.isdigit() and len(size) <= len(str(most))):
        return None
    number = -int(size) if minus else int(size)
    return number if least <= number <= most else None


def way(text: str) -> int:
    """The number of a way as people write it."""
    if text not in WAYS:
        raise Wrong(f"'{text}' is not a way: the last word must be short or long")
    return WAYS.index(text)


def way_text(number: int) -> str:
    """A way in a word, or the number where it is none."""
    return WAYS[number] if number < len(WAYS) else str(number)


def word_of(value: float) -> int:
    """The word of a binary64 number."""
    return struct.unpack("<Q", struct.pack("<d", value))[0]


def value_of(word: int) -> float:
    """The binary64 number that a word is."""
    return struct.unpack("<d", struct.pack("<Q", word))[0]


def decimal(word: int) -> str:
    """A word in 17 digits, or as a hex word where no decimal reads back as that word."""
    return special(word) or "%.17g" % value_of(word)


def shortest(word: int) -> str:
    """The same in as few digits as read back as that word."""
    text = special(word) or repr(value_of(word))
    return text[:-2] if text.endswith(".0") else text


def special(word: int) -> str:
    """What is written for an infinity or a NaN; nothing for a finite number."""
    size = word & ~SIGN
    if size < INFINITY:
        return ""
    if size == INFINITY:
        return "-inf" if word & SIGN else "inf"
    return "nan" if word == NAN else f"0x{word:016x}"


# ---- records


def field(text: str, is_whole: bool) -> bytes:
    """A number as people write it, as bytes: 8 of a word, 4 of a whole number."""
    return struct.pack("<I", whole(text)) if is_whole else struct.pack("<Q", word(text))


def packed(texts: list[str], whole_place: int = -1) -> bytes:
    """Numbers one behind the other. That at `whole_place`, if any, is a whole one."""
    return b"".join(field(text, place == whole_place) for place, text in enumerate(texts))


def problem(texts: list[str]) -> bytes:
    """The record of a problem, from the texts that PROBLEM_NAMES names."""
    return packed(texts, LIMIT_PLACE)


def transfer(texts: list[str]) -> bytes:
    """The record of a transfer, from the texts that TRANSFER_NAMES names."""
    *numbers, last = texts
    return packed(numbers, LIMIT_PLACE) + struct.pack("<I", way(last))
