"""When a program may be run as it is, and when it is built anew."""

import os
import tempfile
import unittest
from unittest import mock

from front import building, built, streams

CRATES = """\
# One line a crate.
low:
side:
middle: low json   # a library of the kit
program: middle
other staticlib: side
"""
# What stands in for rt: it builds the program in whose crate's folder it is run, and says so as rt does.
RT = """#!/bin/sh
echo "rt: chose --jobs 2 for middle"
echo "fn middle::f: proved"
name=${PWD##*/}
mkdir -p out && echo built >>out/$name && chmod +x out/$name
cd ../..
echo "$1 $name" >>asked
{more}
"""
PROGRAM = "crates/program/out/program"


class Scratch(unittest.TestCase):
    """A tree with a few crates, all of which were changed at the time 100."""

    def setUp(self):
        folder = tempfile.TemporaryDirectory()
        self.addCleanup(folder.cleanup)
        self.top = folder.name
        self.program = built.Program("program", self.top)
        self.fill("crates.txt", CRATES)
        for crate in ("low", "side", "middle", "other"):
            self.fill(f"crates/{crate}/src/lib.rt")
        for name in ("src/main.rt", "proofs/main/Answers.antt", "stdout", "must-fail/one.edit"):
            self.fill("crates/program/" + name)
        self.age(".", 100)

    def path(self, name):
        return os.path.join(self.top, name)

    def fill(self, name, text="text\n"):
        os.makedirs(os.path.dirname(self.path(name)), exist_ok=True)
        with open(self.path(name), "w", encoding="utf-8") as file:
            file.write(text)

    def age(self, name, time):
        """Sets the time of a file, or of all that stands below a folder."""
        for folder, _, files in os.walk(self.path(name)):
            for one in [folder, *(os.path.join(folder, file) for file in files)]:
                os.utime(one, (time, time))
        os.utime(self.path(name), (time, time))

    def build(self, time):
        self.fill(PROGRAM)
        os.chmod(self.program.path, 0o755)
        self.age(PROGRAM, time)


class Staleness(Scratch):
    """A program is fresh where it is newer than all of its sources."""

    def test_not_built(self):
        self.assertFalse(self.program.is_fresh())

    def test_newer_older_and_as_old(self):
        for time, fresh in ((101, True), (100, False), (99, False)):
            self.build(time)
            self.assertIs(self.program.is_fresh(), fresh, time)

    def test_what_makes_it_stale(self):
        for name in (
            "crates.txt",
            "crates/low/src/lib.rt",
            "crates/middle/src/lib.rt",
            "crates/program/src/main.rt",
            "crates/program/proofs/main/Answers.antt",
            "crates/program/proofs/main",
        ):
            with self.subTest(name):
                self.build(101)
                os.utime(self.path(name), (102, 102))
                self.assertFalse(self.program.is_fresh())
                os.utime(self.path(name), (100, 100))
                self.assertTrue(self.program.is_fresh())

    def test_what_does_not(self):
        self.build(101)
        self.fill("crates/low/out/incremental/kept")
        for name in (
            "crates/side/src/lib.rt",
            "crates/program/stdout",
            "crates/program/must-fail/one.edit",
            "crates/low/out/incremental/kept",
            "crates/low",
        ):
            os.utime(self.path(name), (102, 102))
            self.assertTrue(self.program.is_fresh(), name)

    def test_a_source_that_is_removed_or_moved(self):
        self.build(101)
        os.rename(self.path("crates/low/src/lib.rt"), self.path("crates/low/src/moved.rt"))
        self.assertFalse(self.program.is_fresh())
        self.age("crates", 100)
        self.build(101)
        self.assertTrue(self.program.is_fresh())
        os.unlink(self.path("crates/low/src/moved.rt"))
        self.assertFalse(self.program.is_fresh())

    def test_where_there_are_no_sources(self):
        self.build(99)
        os.unlink(self.path("crates.txt"))
        self.assertTrue(self.program.is_fresh())

    def test_the_order_is_that_of_rt(self):
        self.assertEqual(self.program.crates(), ["low", "middle", "program"])
        self.fill("crates.txt", "program: high other\nhigh: middle low\nother staticlib: side\nside:\nmiddle: side\nlow:\n")
        self.assertEqual(self.program.crates(), ["side", "middle", "low", "high", "other", "program"])

    def test_a_circle_comes_to_an_end(self):
        self.fill("crates.txt", "low: program\nprogram: low\n")
        self.assertEqual(sorted(self.program.crates()), ["low", "program"])


class Building(Scratch):
    """Building with a stand-in for rt."""

    def setUp(self):
        super().setUp()
        patch = mock.patch("front.streams.say")
        self.say = patch.start()
        self.addCleanup(patch.stop)

    def run_build(self, more=""):
        self.fill("rt", RT.replace("{more}", more))
        os.chmod(self.path("rt"), 0o755)
        building.build(self.program, self.path("rt"))

    def said(self):
        return [call.args[0] for call in self.say.call_args_list]

    def asked(self):
        with open(self.path("asked"), encoding="utf-8") as file:
            return file.read().splitlines()

    def test_it_is_built(self):
        self.run_build()
        self.assertTrue(self.program.is_fresh())
        self.assertEqual(self.asked(), ["run program"])
        self.assertIn("not built yet", self.said()[0])

    def test_the_stamp_counts_where_the_times_do_not(self):
        self.build(50)
        self.run_build()
        os.utime(self.program.path, (50, 50))
        self.assertFalse(self.program.is_fresh(), "the program is not the one that was built")
        self.run_build(f"touch -d @50 {PROGRAM}")
        self.assertTrue(self.program.is_fresh())
        self.assertIn("older than its sources", self.said()[-1])
        self.age("crates/low/src/lib.rt", 51)
        self.assertFalse(self.program.is_fresh())

    def test_another_program_in_its_place(self):
        self.run_build(f"touch -d @50 {PROGRAM}")
        self.assertTrue(self.program.is_fresh())
        self.build(51)
        self.assertFalse(self.program.is_fresh())

    def test_a_build_that_fails(self):
        with mock.patch("front.streams.write") as write, self.assertRaisesRegex(streams.Stop, "was not built"):
            self.run_build("exit 1")
        self.assertIn(b"fn middle::f: proved", write.call_args.args[1])
        self.assertFalse(self.program.is_fresh(), "it was linked, and the build failed")

    def test_a_source_that_changes_and_then_fails(self):
        with mock.patch("front.streams.write"), self.assertRaisesRegex(streams.Stop, "was not built"):
            self.run_build("[ $(wc -l <asked) -eq 1 ] || exit 1; echo more >>crates/low/src/lib.rt")
        self.assertFalse(self.program.is_fresh(), "it was linked from sources that are gone")

    def test_a_build_that_leaves_nothing(self):
        with self.assertRaisesRegex(streams.Stop, f"left no {PROGRAM}"):
            self.run_build(f"rm {PROGRAM}")

    def test_sources_that_change_meanwhile(self):
        self.run_build("[ $(wc -l <asked) -gt 1 ] || echo more >>crates/low/src/lib.rt")
        self.assertEqual(len(self.asked()), 2)
        self.assertIn("changed meanwhile", self.said()[-1])

    def test_no_such_program_and_no_rt(self):
        with self.assertRaisesRegex(streams.Stop, "there is no program other"):
            building.build(built.Program("other", self.top), "/bin/false")
        for rt in ("", self.path("none")):
            with self.assertRaisesRegex(streams.Stop, "is not built, and the Rattle kit, .* is missing"):
                building.build(self.program, rt)
        self.build(50)
        with self.assertRaisesRegex(streams.Stop, "older than its sources, and the Rattle kit, .* is missing"):
            building.build(self.program, self.path("none"))

    def test_where_rt_empties_the_folder(self):
        self.run_build()
        os.unlink(self.program.stamp)
        self.build(50)
        self.assertFalse(self.program.is_fresh())
        self.build(101)
        self.assertTrue(self.program.is_fresh(), "rt ci has built it since")

    def test_which_crate_is_being_proved(self):
        with mock.patch.object(building, "QUIET", 0.01):
            self.run_build("echo 'rt: chose --jobs 2 for program'; sleep 0.2")
        self.assertIn("proving program, 3 of 3", self.said())

    def test_the_lines_of_rt(self):
        crates = ["low", "middle", "program"]
        for said, crate in (
            ("", ""),
            ("only=0 proved=0\n", ""),
            ("rt: chose --jobs 2 for low\n", "low"),
            ("rt: low: begins with what a check kept in ../other/crates/low\n", ""),
            ("rt: low: begins with what a check kept in ../other/crates/low\nfn middle::f: proved\nrt: program: begins with what a check kept in ../other/crates/program\n", "middle"),
            ("fn low::f: proved\ncrate low: modules loaded=0 checked=57\n", "low"),
            ("fn low::f: proved\nrt: chose --jobs 2 for program\n", "program"),
            ("impl middle::Reason: proved\nstatements core: modules loaded=222 checked=0\n", "middle"),
            ("fn program::main+run: proved\nlibrary low: modules loaded=18 checked=0\n", "program"),
            ("fn low::f: proved\nrt: chose --jobs 2 for another\n", "low"),
            ("fn low::f: proved\nrt: chose --jo", "low"),
        ):
            with self.subTest(said):
                self.assertEqual(building.at_work(said.encode(), crates), crate)


class Names(unittest.TestCase):
    """What is no program's name is refused before anything is looked for."""

    def test_names(self):
        for name in ("", "../x", "a b", "Predict", "x\n"):
            with self.subTest(name), self.assertRaisesRegex(streams.Stop, "not a program's name"):
                built.ready(name)


class Machines(Scratch):
    """A program that is fresh is run where it can run, and else it is said that it can't."""

    def ready_on(self, machine):
        with mock.patch("os.uname", return_value=mock.Mock(machine=machine)):
            return built.ready("program", self.top)

    def test_machines(self):
        self.build(101)
        self.assertEqual(self.ready_on("x86_64"), [self.program.path])
        with self.assertRaisesRegex(streams.Stop, "on x86-64 alone, and this machine is aarch64"):
            self.ready_on("aarch64")


if __name__ == "__main__":
    unittest.main()
