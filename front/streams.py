"""Bytes in and out, and the lines that are said on standard error.

All goes through descriptors, without buffers of Python's own: what was written has been written, and
what failed is heard of. A failure that ends a command is a Stop.
"""

from __future__ import annotations

# `signal` without its enums, which take longer to load than all else here.
import _signal as signal
import os

TYPE_CHECKING = False
if TYPE_CHECKING:
    from typing import Iterator

BLOCK = 1 << 16

# The standard descriptors that were closed at the start.
closed: set[int] = set()


class Stop(Exception):
    """Ends the command with one line on standard error and status 2."""


def plug() -> None:
    """Opens each closed standard descriptor, so that no file that is opened later takes its place.

    Standard input and output lead nowhere then: to read or to write there fails, as before."""
    for descriptor, way in ((0, os.O_WRONLY), (1, os.O_RDONLY), (2, os.O_WRONLY)):
        try:
            os.fstat(descriptor)
        except OSError:
            closed.add(descriptor)
            os.set_inheritable(os.open(os.devnull, way), True)


def say(text: str) -> None:
    """A line on standard error. Where it can't be written, nobody is there to hear of that."""
    try:
        write(2, os.fsencode(f"tailfiddle: {text}\n"))
    except OSError:
        pass


def counted(count: int, noun: str) -> str:
    """So many of them, in words: '1 card', '2 cards'."""
    return f"{count} {noun}" + ("" if count == 1 else "s")


def were_given(count: int) -> str:
    """How many words were given, in words: '1 was given', '2 were given'."""
    return f"{count} {'was' if count == 1 else 'were'} given"


def write(descriptor: int, data: bytes) -> None:
    """Writes all of it; OSError where that fails."""
    rest = memoryview(data)
    while rest:
        rest = rest[os.write(descriptor, rest) :]


def show(text: str, failure: str) -> None:
    """Writes text on standard output. Where that fails, `failure` is the line that says so."""
    show_bytes(text.encode("utf-8", "surrogateescape"), failure)


def show_bytes(data: bytes, failure: str) -> None:
    """The same for bytes."""
    try:
        write(1, data)
    except OSError:
        raise Stop(failure) from None


def need_output(command: str) -> None:
    """Stops where standard output was closed."""
    if 1 in closed:
        raise Stop(f"{command}: standard output is closed")


def open_input(command: str, name: str) -> int:
    """A descriptor for the file, or for standard input where its name is '-'."""
    if name == "-":
        if 0 in closed:
            raise Stop(f"{command}: standard input is closed")
        return 0
    if not os.path.exists(name):
        raise Stop(f"{command}: there is no file '{name}'")
    if os.path.isdir(name):
        raise Stop(f"{command}: '{name}' is a directory")
    try:
        return os.open(name, os.O_RDONLY)
    except OSError:
        raise Stop(f"{command}: '{name}' may not be read") from None


def blocks(descriptor: int) -> Iterator[bytes]:
    """What comes, in blocks, to its end; OSError where a read fails."""
    while True:
        block = os.read(descriptor, BLOCK)
        if not block:
            return
        yield block


def read_most(descriptor: int, most: int) -> bytes:
    """What comes, to its end or to so many bytes. What comes in small pieces is waited for."""
    got = bytearray()
    while len(got) < most:
        piece = os.read(descriptor, most - len(got))
        if not piece:
            break
        got += piece
    return bytes(got)


def catch_signals(command: str) -> None:
    """From now on a signal that asks the command to end is a Stop. It may come twice."""
    ending = (signal.SIGHUP, signal.SIGINT, signal.SIGTERM)

    def stop(number: int, frame: object) -> None:
        for one in ending:
            signal.signal(one, signal.SIG_IGN)
        raise Stop(f"{command}: stopped by a signal")

    for one in ending:
        if signal.getsignal(one) != signal.SIG_IGN:
            signal.signal(one, stop)
