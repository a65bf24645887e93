#!/usr/bin/env python3
"""Times a million changes of a plan, beside another program.

Usage: bench/changes.py [--runs 3] [OTHER ..]

The desk's are those of the test of desk_tests of a million changes: on the schedule of a day of size 40 each leg departs a minute later, the
cost and the first broken item are asked, and the change is taken back. The tests are run as `rt test` has built them. The test's time is of
the whole of it: with the day that is made and read, the evaluator opened, and the first 960 changes judged from scratch besides. A second test
does all that and no other changes; the difference is the time of the changes. OTHER is a command that prints a line with `N ns each` where it
has done the same; it is ended after that line. All are run in turn, some times, and the shortest time of each is printed, with how many times
that of the other a change takes (3 are aimed at).

The status is 1 where the test fails, or takes more than 60 s.
"""
import argparse
import os
import re
import subprocess
import sys
import time

TOP = os.path.dirname(os.path.dirname(os.path.abspath(__file__)))
TESTS = os.path.join(TOP, "crates", "desk_tests", "out", "desk_tests_tests")
TEST = "tests::changes::a_million_changes_are_answered_and_taken_back"
BESIDES = "tests::changes::the_first_changes_are_judged_from_scratch"
CHANGES = 1_000_000
JUDGED = 960
MOST_SECONDS = 60.0
EACH = re.compile(r"(\d+) ns each")


def own_time(test):
    """The seconds of a test."""
    start = time.perf_counter()
    subprocess.run([TESTS, test], check=True, stdout=subprocess.DEVNULL)
    return time.perf_counter() - start


def other_time(command):
    """The nanoseconds of a change by the other program."""
    with subprocess.Popen(command, stdout=subprocess.PIPE, text=True) as other:
        for line in other.stdout:
            found = EACH.search(line)
            if found:
                other.kill()
                return int(found[1])
    sys.exit("the other program printed no time")


def main():
    words = argparse.ArgumentParser(usage=__doc__)
    words.add_argument("--runs", type=int, default=3)
    words.add_argument("other", nargs=argparse.REMAINDER)
    asked = words.parse_args()
    own, besides, other = [], [], []
    for _ in range(asked.runs):
        own.append(own_time(TEST))
        besides.append(own_time(BESIDES))
        if asked.other:
            other.append(other_time(asked.other))
    each = 1e9 * (min(own) - min(besides)) / (CHANGES - JUDGED)
    print("%.2f s for a million changes (at most %.0f), of which %.2f s for the day and what is judged from scratch; %.0f ns each"
          % (min(own), MOST_SECONDS, min(besides), each))
    if other:
        print("%d ns each by the other program: %.1f times that" % (min(other), each / max(1, min(other))))
    return 0 if min(own) <= MOST_SECONDS else 1


if __name__ == "__main__":
    sys.exit(main())
