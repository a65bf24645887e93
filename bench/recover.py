#!/usr/bin/env python3
"""Times recoveries of days that are made up, and walks through their lists of moves.

Usage: bench/recover.py [--sizes 1,2,3] [--seeds 5] [--moves N] [--runs 3] [--tried] [--walk SIZE] [OTHER ..]

OTHER is a command that takes the words of the desk. `recover` runs on days of some sizes, each of some seeds from 1 on, with the
built desk and with OTHER beside it: how many moves were accepted, the time of each size, how it grows, and whether OTHER wrote the
same. A time is of the processor, and the shortest of some runs, so that other work beside it counts for little. With --moves at most so
many moves are accepted after each batch. With --tried it tells how many moves the search came to that it did not pass over as those of a
unit or a path of which it is known that none is better, to the next hundred below. Then the moves near the schedule of a day of a size, 40 where it is left out, are made one
after another and not applied, by the program of bench/near.py; with 0 that is left out.

The status is 1 where OTHER gave something else.
"""
import argparse
import os
import re
import subprocess
import sys
import tempfile

from near import TOP, built_program, input_of

PROGRAM = [os.path.join(TOP, "crates", "desk", "out", "desk")]
# the script `desk` asks for large pages too
AS_DESK = {**os.environ, "GLIBC_TUNABLES": "glibc.malloc.hugetlb=1"}
WRITTEN = ("journal.csv", "sol_rotations.csv", "sol_itineraries.csv")


def make_day(folder, seed, size):
    """The files of a day that is made up, in a new folder."""
    day = os.path.join(folder, "day%d_%d" % (seed, size))
    os.mkdir(day)
    subprocess.run(PROGRAM + ["gen", day, "--seed", str(seed), "--size", str(size)], check=True, stdout=subprocess.DEVNULL)
    return day


def timed(command, text=b""):
    """The status of a command, what it prints, and its seconds of the processor."""
    with tempfile.TemporaryFile() as given, tempfile.TemporaryFile() as told:
        given.write(text)
        given.seek(0)
        child = subprocess.Popen(command, stdin=given, stdout=told, env=AS_DESK)
        _, status, used = os.wait4(child.pid, 0)
        child.returncode = os.waitstatus_to_exitcode(status)
        told.seek(0)
        return child.returncode, told.read(), used.ru_utime + used.ru_stime


def recover(program, day, asked):
    """What a recovery gives, its status, report and files; and its shortest time in seconds."""
    best = None
    for _ in range(asked.runs):
        with tempfile.TemporaryDirectory() as out:
            moves = ["--moves", str(asked.moves)] if asked.moves else []
            status, told, took = timed(program + ["recover", day, out] + moves)
            best = took if best is None else min(best, took)
            given = [status, told]
            for name in WRITTEN:
                path = os.path.join(out, name)
                with open(path if os.path.exists(path) else os.devnull, "rb") as file:
                    given.append(file.read())
    return given, best


def tried_on(day, asked):
    """How many moves a recovery came to, in hundreds: by the lines that the desk prints on standard error where it is asked for them."""
    with tempfile.TemporaryDirectory() as out:
        moves = ["--moves", str(asked.moves)] if asked.moves else []
        lines = subprocess.run(PROGRAM + ["recover", day, out] + moves, env={**AS_DESK, "DESK_HEADWAY": "100"}, capture_output=True)
        counts = re.findall(rb"tried (\d+)", lines.stderr)
        return int(counts[-1]) // 100 * 100 if counts else 0


def times_of(folder, size, asked):
    """The moves accepted on the days of a size, the time of all, that of OTHER, how many it gave otherwise, and how many moves were tried."""
    accepted, own_time, other_time, differ, tried = 0, 0.0, 0.0, 0, 0
    for seed in range(1, asked.seeds + 1):
        day = make_day(folder, seed, size)
        given, took = recover(PROGRAM, day, asked)
        accepted += given[2].count(b",accepted ")
        own_time += took
        if asked.tried:
            tried += tried_on(day, asked)
        if asked.other:
            others, took = recover(asked.other, day, asked)
            other_time += took
            differ += others != given
    return accepted, own_time, other_time, differ, tried


def walk(folder, size):
    """Tells how many moves there are near the schedule of a day, and how long they take."""
    day = os.path.join(folder, "walk")
    os.mkdir(day)
    day = make_day(day, 1, size)
    _, told, took = timed([built_program()], input_of((day, 0, 1)))
    print("size %d, all moves near the schedule: %s; %.2f s with all that is read" % (size, told.decode().strip(), took))


def main():
    words = argparse.ArgumentParser(usage=__doc__)
    words.add_argument("--sizes", default="1,2,3")
    words.add_argument("--seeds", type=int, default=5)
    words.add_argument("--moves", type=int)
    words.add_argument("--runs", type=int, default=3)
    words.add_argument("--tried", action="store_true")
    words.add_argument("--walk", type=int, default=40)
    words.add_argument("other", nargs="*")
    asked = words.parse_args()
    before, differ = None, 0
    with tempfile.TemporaryDirectory() as folder:
        for size in map(int, asked.sizes.split(",")):
            accepted, took, other_took, others, tried = times_of(folder, size, asked)
            differ += others
            grown = "" if before is None else ", %.1f times that of the size before" % (took / before)
            beside = "; the other %.3f s, %d of them otherwise" % (other_took, others) if asked.other else ""
            came = ", %d moves looked at" % tried if asked.tried else ""
            print("size %d, %d days: %d moves accepted%s, %.3f s%s%s" % (size, asked.seeds, accepted, came, took, grown, beside), flush=True)
            before = took
        if asked.walk:
            walk(folder, asked.walk)
    return 1 if differ else 0


if __name__ == "__main__":
    sys.exit(main())
