#!/usr/bin/env python3
"""Tests of the comparison: each of many wrong programs differs from the reference on some drawn case.

    python3 conformance/test_compare.py          the tests
    python3 conformance/test_compare.py --table  how many of 400 cases find each wrong program

A wrong program is the reference with one place of its text changed.
"""

import concurrent.futures
import functools
import os
import pickle
import shutil
import subprocess
import sys
import tempfile
import unittest

import breaches
import generate
import make_vectors
import reference
from wrong import WRONG

FOLDER = os.path.dirname(os.path.abspath(__file__))
FILES = ("packets.py", "reflector.py", "files.py", "made.py", "rules.py", "reference.py")
CASES = 400

# The kinds of all commands, those that the program doesn't have yet among them.
ALL = "judge,show,replay,make,check,migrate,serve,words"


RUNNER = """
import pickle, sys
import reference
cases = pickle.load(sys.stdin.buffer)
sys.stdout.buffer.write(pickle.dumps([reference.run(words, lambda: data) for words, data in cases]))
"""


@functools.lru_cache(maxsize=None)
def drawn(kinds):
    """The cases of the kinds, and what the reference says to each."""
    chosen = generate.selected(kinds.split(","))
    cases = [generate.case(generate.kind_of(chosen, 1, index), 1, index) for index in range(CASES)]
    return cases, [reference.run(words, lambda: data) for words, data in cases]


def changed_folder(folder, file, old, new):
    for name in FILES:
        shutil.copy(os.path.join(FOLDER, name), folder)
    path = os.path.join(folder, file + ".py")
    with open(path) as source:
        text = source.read()
    if text.count(old) != 1:
        raise AssertionError("%r stands %d times in %s" % (old, text.count(old), file))
    with open(path, "w") as source:
        source.write(text.replace(old, new))


def said_by(name, cases):
    """What this wrong program says to each case."""
    file, old, new, _ = WRONG[name]
    with tempfile.TemporaryDirectory() as folder:
        changed_folder(folder, file, old, new)
        environment = dict(os.environ, PYTHONPATH=folder)
        command = [sys.executable, "-c", RUNNER]
        done = subprocess.run(command, input=pickle.dumps(cases), stdout=subprocess.PIPE, cwd=folder, env=environment)
    done.check_returncode()
    return pickle.loads(done.stdout)


def differing(name):
    """How many cases find this wrong program."""
    cases, expected = drawn(WRONG[name][3])
    return sum(one != other for one, other in zip(expected, said_by(name, cases)))


def found_by():
    """How many cases find each wrong program."""
    with concurrent.futures.ProcessPoolExecutor() as pool:
        return dict(zip(WRONG, pool.map(differing, WRONG)))


def compare(*words):
    """The status and the lines of compare.py."""
    command = [sys.executable, os.path.join(FOLDER, "compare.py"), "--jobs", "2"]
    done = subprocess.run(command + list(words), stdout=subprocess.PIPE)
    return done.returncode, done.stdout.decode().split("\n")[:-1]


class Compare(unittest.TestCase):
    def test_each_wrong_program_is_found(self):
        self.assertEqual([name for name, count in found_by().items() if count == 0], [])

    def test_the_reference_passes(self):
        program = "%s %s" % (sys.executable, os.path.join(FOLDER, "reference.py"))
        status, lines = compare("--program", program, "--cases", "40")
        self.assertEqual((status, lines[-1]), (0, "40 passed, 0 failed"))

    def test_the_vectors_are_those_of_the_reference(self):
        for name, content in make_vectors.files().items():
            with open(os.path.join(make_vectors.FOLDER, name), "rb") as file:
                self.assertEqual(file.read(), content, name)
        self.assertEqual(sorted(os.listdir(make_vectors.FOLDER)), sorted(make_vectors.files()))

    def test_the_vectors_pass(self):
        program = "%s %s" % (sys.executable, os.path.join(FOLDER, "reference.py"))
        status, lines = compare("--program", program, "--vectors", make_vectors.FOLDER, "--only", ALL)
        self.assertEqual((status, lines[-1]), (0, "%d passed, 0 failed" % len(make_vectors.VECTORS)))

    def test_a_command_that_is_not_there_is_left_out(self):
        with tempfile.TemporaryDirectory() as folder:
            without = ("reference", '("judge", "show", "check"):', '("judge", "show"):')
            changed_folder(folder, *without)
            program = "%s %s" % (sys.executable, os.path.join(folder, "reference.py"))
            words = ("--program", program, "--failures", os.path.join(folder, "failures"))
            vectors = ("--vectors", make_vectors.FOLDER)
            told = "left out, since the program doesn't have it: check"
            for more in (("--cases", "40"), vectors, ("--cases", "20", "--only", "words")):
                status, lines = compare(*words, "--without", "check", *more)
                self.assertEqual((status, told in lines, lines[-1].endswith(" passed, 0 failed")), (0, True, True))
            some = ("--cases", "10", "--only", "check")
            for more in (some, (*vectors, "--only", ALL), (*vectors, "--without", "none")):
                status, lines = compare(*words, *more)
                self.assertEqual((status, told in lines), (1, False))

    def test_vectors_are_chosen_by_their_names(self):
        program = "%s %s" % (sys.executable, os.path.join(FOLDER, "reference.py"))
        status, lines = compare("--program", program, "--vectors", make_vectors.FOLDER, "--only", "check")
        count = sum(name.startswith("check") for name, *_ in make_vectors.VECTORS)
        self.assertEqual((status, lines[-1]), (0, "%d passed, 0 failed" % count))

    def test_a_change_of_a_byte_finds_wrong_programs(self):
        cases = [([b"check"], data) for _, data in breaches.with_each_byte_changed((1, 0x80))]
        expected = [reference.run(words, lambda: data) for words, data in cases]
        for name in ("value_is_not_compared", "value_is_not_judged", "leave_is_forgotten", "moments_may_fall"):
            self.assertNotEqual(said_by(name, cases), expected, name)

    def test_a_failure_is_printed_kept_and_repeated(self):
        with tempfile.TemporaryDirectory() as folder:
            changed_folder(folder, *WRONG["repeat_is_admitted"][:3])
            program = "%s %s" % (sys.executable, os.path.join(folder, "reference.py"))
            kept = os.path.join(folder, "failures")
            words = ("--program", program, "--failures", kept)
            status, lines = compare(*words, "--cases", "20", "--only", "judge-sharp", "--show", "1", "--shrink")
            self.assertEqual((status, lines[-1].endswith("passed, 0 failed")), (1, False))
            again = next(line for line in lines if line.startswith("  again: ")).split()
            status, lines = compare(*words, *again[again.index("--seed") :])
            self.assertEqual((status, lines[-1]), (1, "0 passed, 1 failed"))
            self.assertTrue(any(name.endswith(".expected") for name in os.listdir(kept)))


if __name__ == "__main__":
    if sys.argv[1:] == ["--table"]:
        for its_name, its_count in found_by().items():
            print("%4d %s" % (its_count, its_name))
    else:
        unittest.main()
