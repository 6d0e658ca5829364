"""`run`: a program with its own input and output, for the gate."""

from __future__ import annotations

import os

from front import built, kit
from front.streams import Stop


def run(texts: list[str]) -> int:
    """The program NAME; or, with INTO FILE..., what it prints for each FILE as its answer in INTO."""
    command = built.ready(texts[0] if texts else "")
    if len(texts) == 1:
        kit.become(command)
    for file in texts[2:]:
        if run_on(command, file, answer_of(file, texts[1])) != 0:
            raise Stop(f"the program {texts[0]} failed on {file}")
    return 0


def answer_of(file: str, folder: str) -> str:
    """Where the answer to a file goes: its name, with the ending .answer for its own."""
    return os.path.join(folder, os.path.splitext(os.path.basename(file))[0] + ".answer")


def run_on(command: list[str], file: str, answer: str) -> int:
    """Runs the program on a file, and gives its status, which is 0 where it ended well."""
    try:
        with open(file, "rb") as source, open(answer, "wb") as sink:
            return os.waitpid(kit.start(command, source.fileno(), sink.fileno()), 0)[1]
    except OSError as failure:
        raise Stop(f"run: {failure.filename}: {failure.strerror}") from None
