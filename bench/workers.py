#!/usr/bin/env python3
"""Recovers days that are made up with workers, and replays each journal that was written.

Usage: bench/workers.py [--workers 1,2,7,64] [--sizes 1,2] [--seeds 3] [--rounds 1] [--moves N] [--watch]

Each day is recovered with each number of workers, in turn and live, as often as --rounds says; which entries a run has depends on the
threads. Its journal is replayed, and has to give the same status, the same files, and the same report but for the line that begins with
`ended`. The batches of the journal have to be those of the day, in their order and from caller 0, and each move has to come from
a worker that there is. A run with one worker, in turn, has to give what the desk gives alone, but for the callers. With --watch a viewer
watches each run, and what it saw has to be 1 to 64 views of beginnings of the journal, each of more entries than the one before it, the last that
of the whole, each with the changes and the cost that the journal's answers say. In turn, where the desk tells before each batch and before
each search, a view before the last has to be of the entries before a batch, or of these with that batch; live it may be of any. How many
views each run had is told behind its seconds, and at the end how many runs had one before the last, and how many had one of some entries and
not of all. Of 10 runs and more it is a fault if none had: a viewer that looks at the end alone has neither, and a desk that tells at the end
alone shows none of the second kind, and no clause refuses them. A viewer that looks all the time misses both in all runs only where no thread
is started. Build the desk first: it is crates/desk/out/desk.

Prints a line a day; the status is 1 where a run gave something else.
"""
import argparse
import csv
import os
import re
import sys
import tempfile

from recover import PROGRAM, WRITTEN, make_day, timed

FILES = ("sol_rotations.csv", "sol_itineraries.csv", "journal.csv")


def read(path):
    """The bytes of a file; none where it isn't there."""
    if not os.path.exists(path):
        return b""
    with open(path, "rb") as file:
        return file.read()


def run(words, out):
    """What the desk gives: its status, its report, its files and its seconds of the processor."""
    status, report, took = timed(PROGRAM + words)
    return status, report, [read(os.path.join(out, name)) for name in FILES], took


def without_end(report):
    return b"".join(line for line in report.splitlines(True) if not line.startswith((b"ended ", b"seen ")))


def without_views(report):
    return b"".join(line for line in report.splitlines(True) if not line.startswith(b"seen "))


def views_of(journal, first):
    """What a view says of each beginning of a journal: how many changes there were, and the cost or what is broken; `first` before all."""
    changes, views = 0, ["0 " + first]
    for _, kind, _, answer in csv.reader(journal.decode().splitlines()):
        change = re.fullmatch(r"(?:keep|shift|ground|accepted) (\d+)|(no plan .*)", answer)
        if change and (kind == "batch" or change[1]):
            changes += 1
            views.append("%d %s" % (changes, change[1] or change[2]))
        else:
            views.append(views[-1])
    return views


def seen_in(report):
    """How many entries each view of a report is of, and what it says of them."""
    lines = [line.split(" ", 2) for line in report.decode().splitlines() if line.startswith("seen ")]
    return [(int(entries), view) for _, entries, view in lines]


def told_in_turn(journal):
    """Of how many entries a view may be in turn, but the last one: those before a batch, and these with it."""
    batches = [at for at, row in enumerate(csv.reader(journal.decode().splitlines())) if row[1] == "batch"]
    return {at + more for at in batches for more in (0, 1)}


def faults_of_views(report, journal, first, live):
    """What is wrong with what a viewer saw."""
    views, seen = views_of(journal, first), seen_in(report)
    places, whole = [entries for entries, _ in seen], len(views) - 1
    if not 1 <= len(seen) <= 64 or places != sorted(set(places)) or places[-1] != whole:
        yield "views of %s entries, of %d" % (places, whole)
    if not live and not set(places) <= told_in_turn(journal) | {whole}:
        yield "views of %s entries, where batches were told at %s" % (places, sorted(told_in_turn(journal)))
    for entries, view in seen:
        if views[min(entries, whole)] != view:
            yield "seen %d %s" % (entries, view)


def replayed(day, journal):
    """What the desk gives for a journal on a day."""
    with tempfile.TemporaryDirectory() as room:
        given = os.path.join(room, "in")
        os.mkdir(given)
        for name in os.listdir(day):
            os.symlink(os.path.join(os.path.abspath(day), name), os.path.join(given, name))
        path = os.path.join(given, "journal.csv")
        if os.path.lexists(path):
            os.remove(path)
        with open(path, "wb") as file:
            file.write(journal)
        out = os.path.join(room, "out")
        os.mkdir(out)
        return run(["replay", given, out], out)


def faults_of_journal(journal, workers):
    """What is wrong with the callers and the batches of a journal."""
    batches = 0
    for line in journal.decode().splitlines():
        caller, kind, detail = line.split(",")[:3]
        if kind == "batch":
            if int(caller) != 0 or int(detail) != batches:
                yield "batch %s of caller %s where batch %d is next" % (detail, caller, batches)
            batches += 1
        elif not 1 <= int(caller) <= workers:
            yield "a move of caller %s" % caller


def faults_of_run(day, workers, live, moves, alone, first):
    """What is wrong with one run, its seconds, and of how many entries each of its views was. Where it is watched `first` is what the
    opening plan costs, or breaks."""
    with tempfile.TemporaryDirectory() as out:
        words = ["recover", day, out, "--workers", str(workers)] + (["--live"] if live else []) + (["--watch"] if first else []) + moves
        status, report, files, took = run(words, out)
    faults = list(faults_of_journal(files[2], workers)) + (list(faults_of_views(report, files[2], first, live)) if first else [])
    other = replayed(day, files[2])
    if (status, without_end(report), files) != (other[0], other[1], other[2]):
        faults.append("its journal replays to something else")
    if workers == 1 and not live:
        as_desk = b"".join(b"0," + line.partition(b",")[2] for line in files[2].splitlines(True))
        if (status, without_views(report), files[:2], as_desk) != (alone[0], alone[1], alone[2][:2], alone[2][2]):
            faults.append("one worker gives something else than the desk alone")
    return faults, took, [entries for entries, _ in seen_in(report)]


def main():
    words = argparse.ArgumentParser(description=__doc__.split("\n")[0])
    words.add_argument("--workers", default="1,2,7,64")
    words.add_argument("--sizes", default="1,2")
    words.add_argument("--seeds", type=int, default=3)
    words.add_argument("--rounds", type=int, default=1)
    words.add_argument("--moves", type=int)
    words.add_argument("--watch", action="store_true")
    asked = words.parse_args()
    assert set(FILES) == set(WRITTEN)
    moves = ["--moves", str(asked.moves)] if asked.moves else []
    wrong, runs, early, within = 0, 0, 0, 0
    with tempfile.TemporaryDirectory() as room:
        for size in map(int, asked.sizes.split(",")):
            for seed in range(1, asked.seeds + 1):
                day = make_day(room, seed, size)
                with tempfile.TemporaryDirectory() as out:
                    alone = run(["recover", day, out] + moves, out)
                first = replayed(day, b"")[1].decode().splitlines()[-1].removeprefix("cost ") if asked.watch else None
                told = []
                for workers in map(int, asked.workers.split(",")):
                    for live in (False, True):
                        for _ in range(asked.rounds):
                            faults, took, views = faults_of_run(day, workers, live, moves, alone, first)
                            runs, early, within = runs + 1, early + (len(views) > 1), within + any(0 < entries < views[-1] for entries in views)
                            told.append("%d%s %.2f%s" % (workers, " live" if live else "", took, " (%d seen)" % len(views) if first else ""))
                            for fault in faults:
                                wrong += 1
                                print("size %d seed %d, %d workers%s: %s" % (size, seed, workers, ", live" if live else "", fault))
                print("size %d seed %d: alone %.2f s; %s" % (size, seed, alone[3], ", ".join(told)), flush=True)
    if asked.watch:
        print("%d of %d runs had a view before the last, %d one of some entries and not of all" % (early, runs, within))
        wrong += runs >= 10 and (not early) + (not within)
    print("%d faults" % wrong)
    return 1 if wrong else 0


if __name__ == "__main__":
    sys.exit(main())
