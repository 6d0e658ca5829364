"""Files that appear whole or not at all."""

import os
import stat
import tempfile
import unittest
from unittest import mock

from front import streams, whole


class Saving(unittest.TestCase):
    """Saving into a folder with one old file."""

    def setUp(self):
        folder = tempfile.TemporaryDirectory()
        self.addCleanup(folder.cleanup)
        self.folder = folder.name
        self.path = os.path.join(self.folder, "deck")
        with open(self.path, "wb") as file:
            file.write(b"old")

    def content(self, name="deck"):
        with open(os.path.join(self.folder, name), "rb") as file:
            return file.read()

    def test_an_old_file_is_replaced(self):
        whole.save(self.path, b"new")
        self.assertEqual(self.content(), b"new")
        self.assertEqual(os.listdir(self.folder), ["deck"])

    def test_a_new_file(self):
        whole.save(os.path.join(self.folder, "other"), b"")
        self.assertEqual(self.content("other"), b"")

    def test_in_the_current_folder(self):
        before = os.getcwd()
        os.chdir(self.folder)
        self.addCleanup(os.chdir, before)
        whole.save("here", b"here")
        self.assertEqual(self.content("here"), b"here")

    def test_the_umask_gives_the_permissions(self):
        before = os.umask(0o027)
        self.addCleanup(os.umask, before)
        whole.save(self.path, b"new")
        self.assertEqual(stat.S_IMODE(os.stat(self.path).st_mode), 0o640)

    def test_a_link_is_followed(self):
        link = os.path.join(self.folder, "link")
        os.symlink("deck", link)
        whole.save(link, b"new")
        self.assertTrue(os.path.islink(link))
        self.assertEqual(self.content(), b"new")

    def fails(self, name, failure):
        """Saving fails in the midst: the old file is there, and no other."""
        with mock.patch(name, side_effect=failure), self.assertRaises(type(failure)):
            whole.save(self.path, b"new")
        self.assertEqual(self.content(), b"old")
        self.assertEqual(os.listdir(self.folder), ["deck"])

    def test_failures_in_the_midst(self):
        self.fails("front.streams.write", OSError("no room"))
        self.fails("os.fsync", OSError("a broken disk"))
        self.fails("os.replace", OSError("not allowed"))
        self.fails("os.close", KeyboardInterrupt())
        self.fails("front.streams.write", streams.Stop("stopped by a signal"))

    def test_some_bytes_and_then_a_failure(self):
        def half(descriptor, data):
            os.write(descriptor, data[:1])
            raise OSError("no room")

        with mock.patch("front.streams.write", half), self.assertRaises(OSError):
            whole.save(self.path, b"new")
        self.assertEqual(self.content(), b"old")
        self.assertEqual(os.listdir(self.folder), ["deck"])

    def test_what_is_no_file_is_written_to(self):
        pipe = os.path.join(self.folder, "pipe")
        os.mkfifo(pipe)
        reader = os.open(pipe, os.O_RDONLY | os.O_NONBLOCK)
        self.addCleanup(os.close, reader)
        whole.save(pipe, b"new")
        self.assertEqual(os.read(reader, 9), b"new")
        self.assertTrue(stat.S_ISFIFO(os.stat(pipe).st_mode))
        with self.assertRaises(OSError):
            whole.save("/dev/full", b"new")

    def test_nowhere(self):
        with self.assertRaises(OSError):
            whole.save(os.path.join(self.folder, "none", "deck"), b"new")
        with self.assertRaises(OSError):
            whole.save(self.folder, b"new")
        self.assertEqual(os.listdir(self.folder), ["deck"])


if __name__ == "__main__":
    unittest.main()
