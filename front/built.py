"""Programs that are built, and no older than their sources; building where they are not.

The program NAME stands as crates/NAME/out/NAME, where `rt run` and `rt ci` leave it. Its sources are what
stands in src/, specs/ and proofs/ of its crate and of all crates that it stands on, and crates.txt. Where
the front has built the program, or begun to, a stamp beside it says of which state; the program may then
be run where it and its sources are in that very state. Where there is no stamp, as behind `rt ci`, which
empties that folder, it may be run where it is newer than all of them, their folders too. Else `rt run`
proves and builds it first.
"""

from __future__ import annotations

import os

from front import TOP, kit
from front.streams import Stop

LISTED = "crates.txt"
CRATES = "crates"
PARTS = ("src", "specs", "proofs")
MADE = "out"
LETTERS = frozenset("abcdefghijklmnopqrstuvwxyz0123456789_")


def ready(name: str, top: str = TOP) -> list[str]:
    """The words that run the program, which is built anew where it has to be.

    Standard input is left alone: it is the program's."""
    if not name or not LETTERS.issuperset(name):
        raise Stop(f"'{name}' is not a program's name")
    kit.need_machine()
    program = Program(name, top)
    if not program.is_fresh():
        from front import building

        building.build(program, kit.find())
    return [program.path]


class Program:
    """A program of the repository at `top`, and the state of its sources."""

    def __init__(self, name: str, top: str) -> None:
        self.name = name
        self.top = top
        self.folder = os.path.join(top, CRATES, name)
        self.path = os.path.join(self.folder, MADE, name)
        self.stamp = os.path.join(self.folder, MADE, "front.stamp")

    def is_built(self) -> bool:
        """Whether there is one at all."""
        return kit.is_program(self.path)

    def is_fresh(self) -> bool:
        """Whether it may be run as it is. Where there are no sources, nothing is newer."""
        if not self.is_built():
            return False
        if not os.path.exists(os.path.join(self.top, LISTED)):
            return True
        sources = self.sources()
        try:
            with open(self.stamp, encoding="utf-8", errors="surrogateescape") as stamp:
                return stamp.read() == self.state(sources)
        except FileNotFoundError:
            return os.stat(self.path).st_mtime_ns > max(time for _, _, time in sources)
        except OSError:
            return False

    def sources(self) -> list[tuple[str, int, int]]:
        """Each source and each folder of sources: its path, its size and when it was changed."""
        listed = os.path.join(self.top, LISTED)
        found = [told(LISTED, os.stat(listed))]
        for crate in self.crates():
            for part in PARTS:
                found += walk(os.path.join(self.top, CRATES, crate, part), f"{CRATES}/{crate}/{part}")
        return found

    def state(self, sources: list[tuple[str, int, int]]) -> str:
        """The state of the program and its sources, in words."""
        program = told(self.name, os.stat(self.path))
        return "".join(f"{path} {size} {time}\n" for path, size, time in [program, *sources])

    def crates(self) -> list[str]:
        """The program's crate and those that it stands on, in the order in which rt proves them."""
        below = standing(self.top)
        entered = set()
        order: list[str] = []

        def visit(crate: str) -> None:
            if crate in below and crate not in entered:
                entered.add(crate)
                for one in below[crate]:
                    visit(one)
                order.append(crate)

        visit(self.name)
        return order


def standing(top: str) -> dict[str, list[str]]:
    """What crates.txt says: for each crate what it stands on. Other names are libraries of the kit."""
    below = {}
    with open(os.path.join(top, LISTED), encoding="utf-8") as listed:
        for line in listed:
            words, colon, others = line.partition("#")[0].partition(":")
            if colon and words.split():
                # Behind the name may stand what kind of crate it is.
                below[words.split()[0]] = others.split()
    return below


def walk(folder: str, shown: str) -> list[tuple[str, int, int]]:
    """The folder and the files in it; nothing where there is none. A folder changes where a file in it comes, goes or is moved."""
    try:
        found = [told(shown, os.stat(folder))]
        entries = sorted(os.scandir(folder), key=lambda entry: entry.name)
    except FileNotFoundError:
        return []
    for entry in entries:
        path = f"{shown}/{entry.name}"
        if entry.is_dir():
            found += walk(entry.path, path)
        else:
            found.append(told(path, entry.stat(follow_symlinks=False)))
    return found


def told(path: str, found: os.stat_result) -> tuple[str, int, int]:
    """What a state holds of a file or folder."""
    return path, found.st_size, found.st_mtime_ns
