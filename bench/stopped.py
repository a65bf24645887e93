#!/usr/bin/env python3
"""Stops `store` at random moments over a real file, and runs it again each time.

    bench/stopped.py [DAY]          300 stops of a run over DAY; over a made-up day that a recovery was made of, where none is given
    bench/stopped.py --runs N DAY   N stops

The run is killed after a random time. Then the file that it left is read by this program, as docs/FORMATS.md has it: its records have to
be those of a beginning of the journal.csv that `replay` writes, which bench/judge spells as records, with all that the run before had
left; and the next run goes on from there. Once a run has come to its end, the file has to hold all of that journal, the journal.csv, the
plan and the report have to be those of `replay`, with the line `opened N` before the report, and the file is taken away for the next try.
It prints what it counted, and how many events a second were kept; it is no part of the checks, since a stop comes where it comes. It ends
with 1 where anything was other than it has to be.
"""

import os
import random
import shutil
import subprocess
import sys
import tempfile
import time

from judge.disk import read as files_of
from judge.files import DAY_FILES
from judge.stored import file_payloads, journal_payloads

TOP = os.path.dirname(os.path.dirname(os.path.abspath(__file__)))
DESK = os.path.join(TOP, "crates", "desk", "out", "desk")
FILES = ("sol_rotations.csv", "sol_itineraries.csv", "journal.csv")


def read(path):
    """The bytes of a file, none where it is not there."""
    if not os.path.exists(path):
        return b""
    with open(path, "rb") as file:
        return file.read()


def replayed(day, plain):
    """The payloads of the journal that `replay` wrote of a day."""
    return journal_payloads({**files_of(day, DAY_FILES), **files_of(plain, ("journal.csv",))})


def run(words, after=None):
    """The status and the report of the desk; none where it was killed after that many seconds."""
    with subprocess.Popen([DESK] + words, stdout=subprocess.PIPE, stderr=subprocess.DEVNULL) as desk:
        try:
            report, _ = desk.communicate(timeout=after)
        except subprocess.TimeoutExpired:
            desk.kill()
            desk.communicate()
            return None
    return desk.returncode, report


def made_day(folder):
    """A made-up day with the journal of its recovery."""
    day, out = os.path.join(folder, "day"), os.path.join(folder, "recovered")
    run(["gen", day, "--size", "4"])
    run(["recover", day, out, "--moves", "200"])
    shutil.copy(os.path.join(out, "journal.csv"), day)
    return day


def main(words):
    """Stops and goes on, and answers the status."""
    stops = int(words[1]) if words[:1] == ["--runs"] else 300
    days = words[2:] if words[:1] == ["--runs"] else words
    folder = tempfile.mkdtemp(dir=TOP)
    try:
        return tried(days[0] if days else made_day(folder), folder, stops)
    finally:
        shutil.rmtree(folder)


def tried(day, folder, stops):
    """The same over a day, in a folder."""
    plain, out = os.path.join(folder, "plain"), os.path.join(folder, "out")
    status, report = run(["replay", day, plain])
    begun = time.time()
    whole = run(["store", day, out])
    took = time.time() - begun
    kept = replayed(day, plain)
    faults = [] if whole == (status, b"opened 0\n" + report) else [f"a run that was not stopped: {whole}"]
    if file_payloads(read(os.path.join(out, "journal.bin"))) != kept:
        faults.append("a run that was not stopped kept another journal than that of replay")
    print(f"{len(kept)} events are kept in {took:.2f} s, {2 * len(kept) / took:.0f} syncs a second")
    counts, ended, held = {}, 0, 0
    shutil.rmtree(out)
    for _ in range(stops):
        given = run(["store", day, out], random.uniform(0, 1.2 * took))
        found = file_payloads(read(os.path.join(out, "journal.bin")))
        if found is None or found != kept[:len(found)] or len(found) < held:
            faults.append(f"after {held} entries the file holds {found and len(found)}")
            break
        counts[len(found)] = counts.get(len(found), 0) + 1
        if given is None:
            held = len(found)
            continue
        if given != (status, b"opened %d\n" % held + report) or found != kept:
            faults.append(f"a run that went on from {held}: {given}")
        faults += [f"{name} is another" for name in FILES if read(os.path.join(out, name)) != read(os.path.join(plain, name))]
        ended, held = ended + 1, 0
        shutil.rmtree(out)
    for fault in faults:
        print(fault)
    print(f"{stops} runs, {ended} of them to their end, left files of {len(counts)} lengths; {len(faults)} were other than they have to be")
    return 1 if faults else 0


if __name__ == "__main__":
    sys.exit(main(sys.argv[1:]))
