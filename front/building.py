"""Proving and building a program with the kit's rt, while it is said how far that is."""

from __future__ import annotations

import fcntl
import os
import re
import select
import subprocess

from front import kit, streams
from front.built import CRATES, Program
from front.streams import Stop

# How long rt has to be quiet, in seconds, before it is said what it proves.
QUIET = 0.3
# The lines in which rt names the crate that it is at: it chose how to check it, or has proved something of it.
# Where an earlier check kept something, rt says so of every crate before it comes to the first.
AT = re.compile(r"^(?:rt: chose --jobs \d+ for (\w+)|\w+ (\w+)::.*: proved)$", re.M)


def build(program: Program, rt: str) -> None:
    """Proves and builds the program; Stop where that fails. One such build of it at a time goes on here."""
    name = program.name
    if not os.path.isfile(os.path.join(program.folder, "src", "main.rt")):
        raise Stop(f"there is no program {name}: {CRATES}/{name}/src/main.rt is missing")
    built = program.is_built()
    if not os.access(rt, os.X_OK):
        which = "older than its sources" if built else "not built"
        raise Stop(f"{name} is {which}, and the Rattle kit, which would build it, is missing: {kit.WHERE}")
    with lock(program):
        if program.is_fresh():
            return
        if built:
            streams.say(f"{name} is older than its sources. Proving and building it anew; this can take a while")
        else:
            streams.say(f"{name} is not built yet. Proving and building it first; this takes a while")
        while not built_as_it_stands(program, rt):
            streams.say(f"{name}: its sources were changed meanwhile; once more")


def lock(program: Program):
    """A file that is held as long as the build goes on. Builds of two programs wait for each other in rt."""
    folder = os.path.dirname(program.stamp)
    try:
        os.makedirs(folder, exist_ok=True)
        held = open(os.path.join(folder, "front.lock"), "w")
        take(held, program.name)
    except OSError as failure:
        raise Stop(f"{program.name} can't be built: {failure.filename or folder}: {failure.strerror}") from None
    return held


def take(held, name: str) -> None:
    """Locks the file, and says so where another holds it."""
    try:
        fcntl.flock(held, fcntl.LOCK_EX | fcntl.LOCK_NB)
    except BlockingIOError:
        streams.say(f"{name} has to be built, and another build of it is going on; waiting for its end")
        fcntl.flock(held, fcntl.LOCK_EX)


def built_as_it_stands(program: Program, rt: str) -> bool:
    """Builds it, and writes the stamp; False where a source was changed while it was built.

    Till then the stamp is empty, so that nothing that a build leaves half-way is run."""
    name = program.name
    before = program.sources()
    write_stamp(program, "")
    status, said = run_rt(program, rt)
    if status != 0:
        streams.write(2, said)
        raise Stop(f"{name} was not built: 'rt run' in {CRATES}/{name} failed")
    if not program.is_built():
        raise Stop(f"{name} was not built: 'rt run' left no {CRATES}/{name}/out/{name}")
    if program.sources() != before:
        return False
    write_stamp(program, program.state(before))
    return True


def write_stamp(program: Program, state: str) -> None:
    """Says of which state the program is built."""
    with open(program.stamp, "w", encoding="utf-8", errors="surrogateescape") as stamp:
        stamp.write(state)


def run_rt(program: Program, rt: str) -> tuple[int, bytes]:
    """Has rt prove, build and run the program, on no input; says which crate it is at, and gives its status
    and all that was printed."""
    child = subprocess.Popen(
        [rt, "run"],
        cwd=program.folder,
        env={**os.environ, "LC_ALL": "C"},
        stdin=subprocess.DEVNULL,
        stdout=subprocess.PIPE,
        stderr=subprocess.STDOUT,
    )
    try:
        with child.stdout as source:
            said = follow(source.fileno(), program.crates())
        return child.wait(), said
    except BaseException:
        child.terminate()
        raise


def follow(source: int, crates: list[str]) -> bytes:
    """Reads what rt prints to its end. Where rt is quiet, it is said which crate is being proved."""
    said = b""
    told = ""
    while True:
        if not select.select([source], [], [], QUIET)[0]:
            crate = at_work(said, crates)
            if crate != told:
                streams.say(f"proving {crate}, {crates.index(crate) + 1} of {len(crates)}")
                told = crate
            continue
        block = os.read(source, streams.BLOCK)
        if not block:
            return said
        said += block


def at_work(said: bytes, crates: list[str]) -> str:
    """The crate that rt named last; empty where it has named none yet."""
    named = ["".join(words) for words in AT.findall(said.decode("utf-8", "replace"))]
    return next((crate for crate in reversed(named) if crate in crates), "")
