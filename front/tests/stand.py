"""Commands that run with programs of the system in the place of the proved ones.

Each stand-in keeps what it reads in a file of its name, and prints what the test wants it to print.
"""

import os
import tempfile
import unittest
from unittest import mock

from front import commands, streams


class Stand(unittest.TestCase):
    """What each program prints, by its name, and how it ends. What the command prints and says is kept,
    with its descriptor, and in what order."""

    def setUp(self):
        folder = tempfile.TemporaryDirectory()
        self.addCleanup(folder.cleanup)
        self.folder = folder.name
        self.prints = {}
        self.ends = {}
        self.written = {1: "", 2: ""}
        self.order = []
        self.write = streams.write
        for name, stand_in in (("write", self.keep), ("plug", lambda: None)):
            self.patch(mock.patch.object(streams, name, stand_in))
        self.patch(mock.patch("front.built.ready", self.ready))

    def patch(self, patch):
        patch.start()
        self.addCleanup(patch.stop)

    def keep(self, descriptor, data):
        """Keeps what goes to standard output and error; a program gets its input."""
        if descriptor in self.written:
            self.written[descriptor] += data.decode()
            self.order.append(descriptor)
        else:
            self.write(descriptor, data)

    def ready(self, name):
        """The words that run a stand-in; its name is the last of them, as a program's is."""
        end = self.ends.get(name, "exit 0")
        script = f"cat >{self.folder}/{name}; printf '%s' '{self.prints[name]}'; {end}"
        return ["/bin/sh", "-c", script, name]

    def given(self, name):
        """What a program was given; None where it was not run."""
        path = os.path.join(self.folder, name)
        if not os.path.exists(path):
            return None
        with open(path, "rb") as file:
            return file.read()

    def check(self, texts, status, printed, said=""):
        """Runs the command; standard error has to be of that form."""
        self.assertEqual(commands.main(texts), status, self.written)
        self.assertEqual(self.written[1], printed)
        self.assertRegex(self.written[2], f"^{said}$")

    def check_input(self, command, data, status, printed, said=""):
        """The same for the command with '-', and the data on standard input."""
        with tempfile.TemporaryFile() as file:
            file.write(data)
            file.seek(0)
            with mock.patch.object(streams, "open_input", return_value=file.fileno()):
                self.check([command, "-"], status, printed, said)
