"""Files that appear whole or not at all.

The bytes are written beside the file, under another name, and the file is then put in its place. Where
something fails, the old file stays as it was and nothing is left beside it.
"""

from __future__ import annotations

import os

from front import streams


def save(path: str, data: bytes) -> None:
    """Puts a file with these bytes at the path; OSError where that fails.

    A link is followed. What is there and is no plain file, a device or a pipe, can't be replaced: it
    is written to."""
    if os.path.exists(path) and not os.path.isfile(path):
        write_to(path, data, os.O_WRONLY)
        return
    path = os.path.realpath(path)
    folder = os.path.dirname(path)
    beside = os.path.join(folder, f".tailfiddle-{os.urandom(8).hex()}")
    try:
        write_to(beside, data, os.O_WRONLY | os.O_CREAT | os.O_EXCL)
        os.replace(beside, path)
    except BaseException:
        remove(beside)
        raise
    settle(folder)


def write_to(path: str, data: bytes, way: int) -> None:
    """Opens the path that way and writes all of the data, to the disk where it stands on one."""
    opened = os.open(path, way, 0o666)
    try:
        streams.write(opened, data)
        if os.path.isfile(path):
            os.fsync(opened)
    finally:
        os.close(opened)


def remove(path: str) -> None:
    """Removes a file, if it is there."""
    try:
        os.unlink(path)
    except FileNotFoundError:
        pass


def settle(folder: str) -> None:
    """Has the folder's own change written to the disk, where the file system can do that."""
    try:
        opened = os.open(folder, os.O_RDONLY)
    except OSError:
        return
    try:
        os.fsync(opened)
    except OSError:
        pass
    finally:
        os.close(opened)
