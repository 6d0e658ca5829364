"""The Rattle kit: where its `rt` is; and how programs are run.

The programs are for x86-64 and run as they are, with the machine's own C library, as the kit's `rt` runs
them. `python3 -m front.kit`, at the top of the repository, prints the path of rt.
"""

from __future__ import annotations

import os

from front import streams
from front.streams import Stop, signal

TYPE_CHECKING = False
if TYPE_CHECKING:
    from typing import Iterable

MACHINE = "x86_64"
WHERE = "put its 'rt' on the PATH, or set RATTLE_HOME to its folder"


def find() -> str:
    """The 'rt' on the PATH, else that of the kit that RATTLE_HOME names; empty where there is neither."""
    home = os.environ.get("RATTLE_HOME", "")
    beside = os.path.join(home, "bin", "rt")
    return on_path("rt") or (beside if home and is_program(beside) else "")


def need_machine() -> None:
    """Stops where the programs can't run."""
    machine = os.uname().machine
    if machine != MACHINE:
        raise Stop(f"the programs run on x86-64 alone, and this machine is {machine}")


def is_program(path: str) -> bool:
    """Whether a file that can be run stands at the path."""
    return os.path.isfile(path) and os.access(path, os.X_OK)


def on_path(name: str) -> str:
    """The first program of that name on the PATH; empty where there is none."""
    for folder in os.environ.get("PATH", os.defpath).split(os.pathsep):
        path = os.path.join(folder or ".", name)
        if is_program(path):
            return path
    return ""


class Running:
    """A program that runs, and beside it a process that writes its input.

    `output` is the descriptor that its lines are read from. What it says on standard error is thrown
    away where `quiet` is set."""

    def __init__(self, command: list[str], blocks: Iterable[bytes], quiet: bool) -> None:
        source, into = os.pipe()
        self.output, sink = os.pipe()
        self.program = start(command, source, sink, quiet)
        os.close(source)
        os.close(sink)
        self.feeder = self.feed(blocks, into)
        os.close(into)

    def feed(self, blocks: Iterable[bytes], into: int) -> int:
        """A process that writes the blocks and ends; with status 1 where a read or a write fails."""
        feeder = os.fork()
        if feeder:
            return feeder
        status = 1
        try:
            os.close(self.output)
            for block in blocks:
                streams.write(into, block)
            status = 0
        finally:
            os._exit(status)

    def stop(self) -> None:
        """Ends both at once."""
        os.kill(self.program, signal.SIGKILL)
        self.end()

    def end(self) -> tuple[bool, bool]:
        """Waits for both. Whether the program ended well, and whether it was given all its input."""
        os.close(self.output)
        ended = os.waitpid(self.program, 0)[1] == 0
        if not ended:
            # Nobody takes the input any more, and more of it may be long in coming.
            os.kill(self.feeder, signal.SIGKILL)
        return ended, os.waitpid(self.feeder, 0)[1] == 0


# What Python ignores and a program must not.
IGNORED = (signal.SIGPIPE, signal.SIGXFSZ)


def start(command: list[str], source: int, sink: int, quiet: bool = False) -> int:
    """Starts a program with these descriptors as standard input and output, and gives its process."""
    actions = [(os.POSIX_SPAWN_DUP2, source, 0), (os.POSIX_SPAWN_DUP2, sink, 1)]
    if quiet:
        actions.append((os.POSIX_SPAWN_OPEN, 2, os.devnull, os.O_WRONLY, 0))
    try:
        return os.posix_spawn(command[0], command, os.environ, file_actions=actions, setsigdef=IGNORED)
    except OSError as failure:
        raise Stop(f"{command[0]} could not be run: {failure.strerror}") from None


def become(command: list[str]) -> None:
    """Goes on as the program, with the descriptors as they are."""
    for number in IGNORED:
        signal.signal(number, signal.SIG_DFL)
    try:
        os.execv(command[0], command)
    except OSError as failure:
        raise Stop(f"{command[0]} could not be run: {failure.strerror}") from None


def output_of(command: list[str], data: bytes) -> bytes:
    """What the program prints for the data; Stop where it does not end as it should."""
    running = Running(command, [data], quiet=False)
    output = b"".join(streams.blocks(running.output))
    if not running.end()[0]:
        raise failed(command)
    return output


def failed(command: list[str]) -> Stop:
    """What is said where a program fails, or its lines are not whole."""
    return Stop(f"the program {os.path.basename(command[-1])} did not end as it should")


def main() -> int:
    """What `bench/run` and `bench/root` ask for."""
    try:
        need_machine()
        rt = find()
        if not rt:
            raise Stop(f"the Rattle kit is missing: {WHERE}")
    except Stop as stop:
        streams.say(str(stop))
        return 2
    print(rt)
    return 0


if __name__ == "__main__":
    raise SystemExit(main())
