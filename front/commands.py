"""Which commands there are, and what is done where one fails.

A command ends with a status: 0 all is well, 1 something was refused or rejected, 2 wrong usage or
something missing. Only the module of the command that is asked for is loaded.
"""

from __future__ import annotations

import importlib
import os

from front import streams
from front.streams import signal

COMMANDS = ("predict", "turn", "transfer", "root", "digits", "series", "write", "show", "check", "why", "run", "help")
OTHER_NAMES = {"-h": "help", "--help": "help"}


def main(words: list[str]) -> int:
    """Does what the words ask, and gives the status."""
    streams.plug()
    try:
        return run(words)
    except streams.Stop as stop:
        streams.say(str(stop))
        return 2
    except KeyboardInterrupt:
        return interrupted()
    except Exception as fault:
        # What nobody has thought of is no refusal either.
        streams.say(f"{type(fault).__name__}: {fault}")
        return 2


def run(words: list[str]) -> int:
    """Runs the command that the first word names."""
    first = words[0] if words else ""
    name = OTHER_NAMES.get(first, first)
    if not name:
        return importlib.import_module("front.help").without_command()
    if name not in COMMANDS:
        raise streams.Stop(f"there is no command '{first}'; './tailfiddle help' lists them")
    return importlib.import_module("front." + name).run(words[1:])


def interrupted() -> int:
    """Ends as a program does that SIGINT ends, so that the caller hears of it."""
    signal.signal(signal.SIGINT, signal.SIG_DFL)
    os.kill(os.getpid(), signal.SIGINT)
    return 128 + signal.SIGINT
