"""Where the kit is, and how programs are run. Programs of the system stand in for the kit's."""

import os
import tempfile
import unittest
from unittest import mock

from front import kit, streams


class Finding(unittest.TestCase):
    """A kit in a scratch folder."""

    def setUp(self):
        folder = tempfile.TemporaryDirectory()
        self.addCleanup(folder.cleanup)
        self.home = os.path.realpath(folder.name)

    def make(self, *parts, mode=0o755):
        path = os.path.join(self.home, *parts)
        os.makedirs(os.path.dirname(path), exist_ok=True)
        with open(path, "w", encoding="utf-8"):
            os.chmod(path, mode)
        return path

    def find(self, **environment):
        with mock.patch.dict(os.environ, environment, clear=True):
            return kit.find()

    def test_by_its_home_and_by_the_path(self):
        rt = self.make("bin", "rt")
        self.assertEqual(self.find(RATTLE_HOME=self.home, PATH=""), rt)
        self.assertEqual(self.find(PATH="/none:" + os.path.dirname(rt)), rt)

    def test_the_path_comes_first(self):
        self.make("bin", "rt")
        other = self.make("other", "rt")
        self.assertEqual(self.find(RATTLE_HOME=self.home, PATH=os.path.dirname(other)), other)

    def test_where_there_is_none(self):
        self.assertEqual(self.find(PATH="/none"), "")
        self.assertEqual(self.find(RATTLE_HOME=self.home, PATH="/none"), "")
        self.make("bin", "rt", mode=0o644)
        self.assertEqual(self.find(RATTLE_HOME=self.home, PATH="/none"), "", "it can't be run")

    def test_what_the_bench_asks_for(self):
        rt = self.make("bin", "rt")
        for find, machine, status, said in (
            (rt, "x86_64", 0, rt),
            ("", "x86_64", 2, f"the Rattle kit is missing: {kit.WHERE}"),
            (rt, "aarch64", 2, "the programs run on x86-64 alone, and this machine is aarch64"),
        ):
            uname = mock.patch("os.uname", return_value=mock.Mock(machine=machine))
            with self.subTest(said), uname, mock.patch.object(kit, "find", return_value=find):
                self.assertEqual(self.printed(), (status, said))

    def printed(self):
        """The status of `python3 -m front.kit`, and what it prints or says."""
        with mock.patch("builtins.print") as printed, mock.patch.object(streams, "say") as said:
            status = kit.main()
        return status, "".join(str(call.args[0]) for call in [*printed.call_args_list, *said.call_args_list])


class Running(unittest.TestCase):
    """Programs with input and output."""

    def shell(self, command):
        return ["/bin/sh", "-c", command]

    def test_all_goes_in_and_all_comes_out(self):
        data = bytes(range(256)) * 4096
        self.assertEqual(kit.output_of(self.shell("cat"), data), data)

    def test_a_program_that_fails(self):
        with self.assertRaisesRegex(streams.Stop, "did not end as it should"):
            kit.output_of(self.shell("cat; exit 3"), b"data")
        with self.assertRaisesRegex(streams.Stop, "could not be run"):
            kit.output_of(["/none/program"], b"")

    def test_input_that_can_not_be_read(self):
        def blocks():
            yield b"some"
            raise OSError("a read failed")

        running = kit.Running(self.shell("cat"), blocks(), quiet=True)
        self.assertEqual(b"".join(streams.blocks(running.output)), b"some")
        self.assertEqual(running.end(), (True, False))

    def test_a_program_that_takes_no_input(self):
        running = kit.Running(self.shell(":"), [bytes(1 << 20)], quiet=True)
        self.assertEqual(running.end(), (True, False))

    def test_a_program_that_fails_is_not_waited_for(self):
        def endless():
            import time

            while True:
                time.sleep(60)
                yield b""

        running = kit.Running(self.shell("exit 1"), endless(), quiet=True)
        self.assertEqual(running.end(), (False, False))

    def test_a_program_hears_of_a_closed_pipe(self):
        running = kit.Running(self.shell("kill -PIPE $$; echo alive"), [], quiet=True)
        self.assertEqual(b"".join(streams.blocks(running.output)), b"")
        self.assertEqual(running.end()[0], False)

    def test_both_are_stopped(self):
        running = kit.Running(self.shell("sleep 60"), [b"data"], quiet=True)
        running.stop()
        with self.assertRaises(ProcessLookupError):
            os.kill(running.program, 0)
        with self.assertRaises(ProcessLookupError):
            os.kill(running.feeder, 0)


if __name__ == "__main__":
    unittest.main()
