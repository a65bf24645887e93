#!/usr/bin/env python3
"""Times recoveries by teams of workers.

Usage: bench/team.py [--size 8 | --legs N] [--seed 1] [--workers 1,2,4] [--moves N] [--live] [--watch] [--runs 3] [--processors 0,1,..]

A day is made up by `gen` of a size and a seed, or has so many legs as that of bench/day.py. It is recovered by each number of workers,
so many times, on those processors alone where some are named. Prints a line for each number of workers, of the run that took least by the
clock: its seconds by the clock and of the processors, its most memory, how many proposals were accepted and how many refused, which are
those that another worker's move or a batch came before, how the search ended, and the clock beside that of the first number. Other work
beside it counts, so the load of the machine is printed too. Build the desk first: it is crates/desk/out/desk.
"""
import argparse
import os
import subprocess
import sys
import tempfile
import time

from day import day_of
from recover import AS_DESK, PROGRAM, make_day


def put_day(room, legs):
    """The files of a day of so many legs, in a new folder."""
    folder = os.path.join(room, "legs")
    os.mkdir(folder)
    for name, text in dict(day_of(legs), **{"feed.csv": ""}).items():
        with open(os.path.join(folder, name), "w") as file:
            file.write(text)
    return folder


def run(words, processors):
    """A run of the desk: its seconds by the clock and of the processors, its most memory in MB, and what it prints."""
    with tempfile.TemporaryFile() as told:
        start = time.perf_counter()
        child = subprocess.Popen(PROGRAM + words, stdout=told, env=AS_DESK,
                                 preexec_fn=(lambda: os.sched_setaffinity(0, processors)) if processors else None)
        _, status, used = os.wait4(child.pid, 0)
        clock = time.perf_counter() - start
        child.returncode = os.waitstatus_to_exitcode(status)
        told.seek(0)
        report = told.read().decode().splitlines()
    return clock, used.ru_utime + used.ru_stime, used.ru_maxrss / 1024, child.returncode, report


def best_of(day, workers, asked, processors):
    """The run of so many workers that took least by the clock, with how many proposals were accepted and refused in it."""
    best = None
    for _ in range(asked.runs):
        with tempfile.TemporaryDirectory() as out:
            words = ["recover", day, out, "--workers", str(workers)]
            words += ["--moves", str(asked.moves)] if asked.moves else []
            words += ["--live"] if asked.live else []
            words += ["--watch"] if asked.watch else []
            done = run(words, processors)
            if done[3] > 1:
                sys.exit("the desk ended with status %d: %s" % (done[3], "; ".join(done[4])))
            with open(os.path.join(out, "journal.csv"), "rb") as file:
                moves = [line for line in file if line.split(b",", 2)[1] == b"move"]
        accepted = sum(b",accepted " in line for line in moves)
        if best is None or done[0] < best[0][0]:
            best = done, accepted, len(moves) - accepted
    return best


def main():
    words = argparse.ArgumentParser(usage=__doc__)
    words.add_argument("--size", type=int, default=8)
    words.add_argument("--legs", type=int)
    words.add_argument("--seed", type=int, default=1)
    words.add_argument("--workers", default="1,2,4")
    words.add_argument("--moves", type=int)
    words.add_argument("--live", action="store_true")
    words.add_argument("--watch", action="store_true")
    words.add_argument("--runs", type=int, default=3)
    words.add_argument("--processors", default="")
    asked = words.parse_args()
    processors = {int(one) for one in asked.processors.split(",") if one}
    first = None
    with tempfile.TemporaryDirectory() as room:
        day = put_day(room, asked.legs) if asked.legs else make_day(room, asked.seed, asked.size)
        for workers in map(int, asked.workers.split(",")):
            (clock, used, memory, status, report), accepted, refused = best_of(day, workers, asked, processors)
            first = first or clock
            ended = next((line for line in report if line.startswith("ended ")), "no plan")
            print("%2d workers: %.3f s by the clock, %.3f s of processors, %.0f MB, %d accepted, %d refused, %s, %s, status %d; %.2f of the first; load %.1f"
                  % (workers, clock, used, memory, accepted, refused, ended, report[-1], status, clock / first, os.getloadavg()[0]), flush=True)


if __name__ == "__main__":
    main()
