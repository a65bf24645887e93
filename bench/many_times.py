#!/usr/bin/env python3
"""Runs the tests with threads many times, and the cases with workers, and counts the runs that fail.

Usage: bench/many_times.py [--times 200] [--seconds 60] [CRATE ..]   without words desk_tests and desk_rows

What threads do first is another thing in each run, so that a test of threads that passed once says little. Each test is run so often, as
`rt test` has built it, and so is desk_rows, built by `rt run`, which then plays the cases with workers alone. A run that takes longer than so
many seconds is ended, and has failed. Of desk_tests those of threads are run, and those of files beside them; its walks of changes are the same
in each run, and are left out.

Prints a line a test: how many runs there were, how many failed, and how long the longest took. The status is 1 where one failed.
"""
import argparse
import os
import shutil
import subprocess
import sys
import tempfile
import time

CRATES = os.path.join(os.path.dirname(os.path.dirname(os.path.abspath(__file__))), "crates")
USUAL = ["desk_tests", "desk_rows"]
# the modules of tests with threads, and of tests of files
MODULES = {"host", "live", "turn"}


def program_of(crate):
    """The built program of a crate: its tests, or its cases."""
    name = crate if crate == "desk_rows" else crate + "_tests"
    program = os.path.join(CRATES, crate, "out", name)
    if not os.path.exists(program):
        sys.exit("%s is not built: `%s` in crates/%s" % (program, "rt run" if crate == "desk_rows" else "rt test", crate))
    return program


def put_cases(folder):
    """The usual day and the cases with workers in a folder, and how many there are."""
    data = os.path.join(CRATES, "desk_rows", "data")
    shutil.copytree(os.path.join(data, "usual"), os.path.join(folder, "usual"))
    count = 0
    for name in os.listdir(data):
        path = os.path.join(data, name, "transcript")
        if os.path.exists(path) and "--workers" in open(path).read():
            shutil.copytree(os.path.join(data, name), os.path.join(folder, name))
            count += 1
    return count


def tests_of(program):
    """The full names of the tests with threads, and of files, of a built program."""
    told = subprocess.run([program, "--list"], stdout=subprocess.PIPE, text=True, check=True).stdout
    names = [line.rsplit(": ", 1)[0] for line in told.splitlines() if line.endswith(": test")]
    return [name for name in names if MODULES & set(name.split("::"))]


def run(command, folder, seconds):
    """Why a run failed, or None; and its seconds."""
    start = time.time()
    try:
        done = subprocess.run(command, cwd=folder, stdin=subprocess.DEVNULL, stdout=subprocess.PIPE, stderr=subprocess.STDOUT, timeout=seconds)
    except subprocess.TimeoutExpired:
        return "it did not end in %d seconds" % seconds, time.time() - start
    if done.returncode != 0:
        return "status %d\n%s" % (done.returncode, done.stdout.decode(errors="replace")[-2000:]), time.time() - start
    return None, time.time() - start


def run_often(what, command, folder, asked):
    """How many runs of a command failed."""
    failed, longest = 0, 0.0
    for number in range(1, asked.times + 1):
        fault, took = run(command, folder, asked.seconds)
        longest = max(longest, took)
        if fault:
            failed += 1
            print("%s, run %d: %s" % (what, number, fault))
    print("%s: %d runs, %d failed; the longest took %.2f s" % (what, asked.times, failed, longest), flush=True)
    return failed


def main():
    words = argparse.ArgumentParser(usage=__doc__)
    words.add_argument("--times", type=int, default=200)
    words.add_argument("--seconds", type=int, default=60)
    words.add_argument("crates", nargs="*")
    asked = words.parse_args()
    failed = 0
    for crate in asked.crates or USUAL:
        program = program_of(crate)
        with tempfile.TemporaryDirectory() as folder:
            if crate == "desk_rows":
                failed += run_often("%d cases with workers" % put_cases(folder), [program], folder, asked)
            else:
                for test in tests_of(program):
                    failed += run_often("%s of %s" % (test, crate), [program, test], folder, asked)
    return 1 if failed else 0


if __name__ == "__main__":
    sys.exit(main())
