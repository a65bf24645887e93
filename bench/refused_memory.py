#!/usr/bin/env python3
"""Refuses each allocation of runs of the built desk in turn: replays, recoveries alone and with workers, checks, made-up days, runs
that go on with a journal on the disk and a refused command, over the host's folder by the program, and over the folder in memory by
a case of desk_rows, where that is built.

Each run must end with status 6 or with its own status, and with its own status it must write what it writes where nothing is refused.
With status 6 the output files are whole up to one, which has a front of its text, and what the report has is a front of it, before the
line `memory` or a front of that. Which moves workers find depends on the threads: there a run that ends with its own status must have
written what a replay of its journal writes, and one that ends with 6 nothing, or a beginning of what some run wrote. What journal.bin
holds afterwards must be a beginning of what it holds in the end, with all that it held, and the next run must go on with it.
"""
import os
import shutil
import subprocess
import sys
import tempfile
from concurrent.futures import ThreadPoolExecutor
from typing import NamedTuple

import memory_case
from judge.stored import file_payloads

HERE = os.path.dirname(os.path.abspath(__file__))
CRATES = os.path.join(os.path.dirname(HERE), "crates")
PROGRAM = os.path.join(CRATES, "desk", "out", "desk")
ROWS = os.path.join(CRATES, "desk_rows", "out", "desk_rows")
DAY = os.path.join(os.path.dirname(HERE), "examples", "disrupted")
ROTATIONS = "F1 01/03/08 P1\nF2 01/03/08 P1\nF3 01/03/08 P2\n"
CHEAPER = "1,move,set F3 01/03/08 + P2 01/03/08 12:00 + P1 01/03/08 12:00\n"
CANCEL = "1,move,set F3 01/03/08 + P2 01/03/08 12:00 -\n"
# over the disrupted sample day: rotations.csv and the journal
REPLAYS = (
    (ROTATIONS, ""),
    (ROTATIONS, CHEAPER + CANCEL),
    (ROTATIONS, "2,move,set F2 01/03/08 + P1 01/03/08 09:30 + P1 01/03/08 09:29\n"),
    (ROTATIONS, "2,move,set F1 01/03/08 + P1 01/03/08 08:00 -\n"),
    (ROTATIONS, "2,move,set F1 01/03/08 + P1 01/03/08 08:00 + P1 01/03/08 08:01\n"),
    (ROTATIONS.split("\n", 1)[1], ""),
    (ROTATIONS, "0,batch,0\n0,batch,1\n"),
)
# a day on which a leg is called off, and four passengers look for seats on another
SEATS = {
    "config.csv": "01/03/08 06:00 02/03/08 06:00\n",
    "flights.csv": "F1 AAA BBB 08:00 09:00 0\nF2 BBB AAA 09:30 10:30 0\nF3 AAA BBB 12:00 13:00 0\nF4 AAA BBB 10:00 11:00 0\n",
    "rotations.csv": ROTATIONS + "F4 01/03/08 P3\n",
    "aircraft.csv": "P1 M1 NB 0/0/10 600 100 30 20 AAA NULL\nP2 M1 NB 0/0/9 600 120 30 20 AAA NULL\n"
                    "P3 M1 NB 0/0/10 600 100 30 20 AAA NULL\n",
    "airports.csv": "AAA 10 10 00:00 24:00\nBBB 10 10 00:00 24:00\n",
    "dist.csv": "AAA BBB 60 D\n",
    "itineraries.csv": "R1 A 100 10 F1 01/03/08 E\nR2 A 50.5 4 F2 01/03/08 E\nR3 A 80 6 F3 01/03/08 E\n"
                       "R4 A 60 2 F4 01/03/08 E\nR5 A 60 2 F4 01/03/08 E\n",
    "position.csv": "AAA M1 0/0/10 1\nBBB M1 0/0/9 1\n",
    "alt_flights.csv": "F4 01/03/08 -1\n",
    "alt_aircraft.csv": "",
    "alt_airports.csv": "",
    "tariff.csv": "delay,D,E,10\ncancel,D,E,200\ncare,D,120,20\ncompensation,D,none,250\nposition,500\n",
    "feed.csv": "1,flight,F3,01/03/08,-1\n",
    "journal.csv": "0,batch,0\n1,move,rebook R4 A 2 0 1 F3 01/03/08 E\n2,move,rebook R5 A 2 0 1 F3 01/03/08 E\n0,batch,1\n"
                   "1,move,rebook R4 A 2 0 1 F3 01/03/08 E\n",
}
# all files that a run may write, in file order
PLAN = ("sol_rotations.csv", "sol_itineraries.csv")
OUTPUTS = (
    "config.csv", "flights.csv", "rotations.csv", "aircraft.csv", "airports.csv", "dist.csv", "itineraries.csv",
    "position.csv", "alt_flights.csv", "alt_aircraft.csv", "alt_airports.csv", "tariff.csv", "feed.csv",
) + PLAN + ("journal.csv",)


class Run(NamedTuple):
    """A run: its words, in which {day} and {out} are directories, its day, the plan and the journal.bin that it finds in OUT."""
    title: str
    words: str
    day: str
    plan: dict = {}
    journal: bytes = b""


class Given(NamedTuple):
    """What a run gave: its status, its report, its files, what stands in journal.bin, and how many allocations it had."""
    status: int
    report: bytes
    written: tuple
    journal: bytes
    calls: int

    def outcome(self):
        return self.status, self.report, self.written


def bytes_of(path):
    if not os.path.exists(path):
        return b""
    with open(path, "rb") as file:
        return file.read()


def put(folder, texts):
    """Writes texts into a folder."""
    for name, text in texts.items():
        with open(os.path.join(folder, name), "wb") as file:
            file.write(text if isinstance(text, bytes) else text.encode())


def made(shim, asked, refuse):
    """Makes a run, of which the allocation of this number is refused."""
    with tempfile.TemporaryDirectory() as out:
        put(out, asked.plan)
        if asked.journal:
            put(out, {"journal.bin": asked.journal})
        env = {**os.environ, "LD_PRELOAD": shim, "REFUSE": str(refuse)}
        words = [word.format(day=asked.day, out=out) for word in asked.words.split()]
        done = subprocess.run([PROGRAM] + words, capture_output=True, env=env)
        written = tuple(bytes_of(os.path.join(out, name)) for name in OUTPUTS)
        calls = int(done.stderr.split()[-1]) if refuse == 0 else 0
        return Given(done.returncode, done.stdout, written, bytes_of(os.path.join(out, "journal.bin")), calls)


def is_story(written, report, whole, whole_report):
    """Whole up to one, a front of that one, and nothing after it."""
    texts = list(zip(written + (report,), whole + (whole_report,)))
    open_still = True
    for has, wants in texts:
        if not wants.startswith(has) or (has and not open_still):
            return False
        open_still = open_still and has == wants
    return True


def front_of(report):
    """What a report has before the line of the fault."""
    return report[:-len(b"memory\n")] if report.endswith(b"memory\n") else report


def is_begun(given, own):
    """Whether a run without memory wrote a beginning of what another wrote. A plan that was only read stays."""
    return given.status == 6 and is_story(given.written, front_of(given.report), own.written, own.report)


def is_kept(shim, asked, given, own):
    """Whether journal.bin holds a beginning, with all that it held, and whether the next run goes on with it."""
    found, whole, held = file_payloads(given.journal), file_payloads(own.journal), file_payloads(asked.journal)
    if found is None or found != whole[:len(found)] or len(found) < len(held):
        return False
    again = made(shim, asked._replace(journal=given.journal), 0)
    report = b"opened %d\n" % len(found) + own.report.split(b"\n", 1)[1]
    return (again.status, again.report, again.written) == (own.status, report, own.written)


def is_right(shim, asked, given, own):
    """Whether a run of which an allocation was refused gave what it may."""
    right = given.outcome() == own.outcome() or is_begun(given, own)
    return right and ("store" not in asked.words or is_kept(shim, asked, given, own))


def is_replayed(shim, asked, given):
    """Whether the journal that a run wrote gives what it wrote when it is replayed."""
    with tempfile.TemporaryDirectory() as day:
        shutil.copytree(asked.day, day, dirs_exist_ok=True)
        put(day, {"journal.csv": given.written[-1]})
        other = made(shim, Run("", "replay {day} {out}", day), 0)
    lines = [line for line in given.report.splitlines(True) if not line.startswith(b"ended ")]
    return (other.status, other.report, other.written) == (given.status, b"".join(lines), given.written)


def faults_alone(shim, asked, own, given):
    """The numbers of the allocations of which a run gave what it may not."""
    return [number for number, one in given if not is_right(shim, asked, one, own)]


def faults_of_workers(shim, asked, own, given):
    """The same of a run with workers."""
    whole = {one.outcome(): one for _, one in given if one.status == own.status}
    whole[own.outcome()] = own
    wrong = {outcome for outcome, one in whole.items() if not is_replayed(shim, asked, one)}
    nothing = tuple(b"" for _ in OUTPUTS)
    return [
        number for number, one in given
        if one.outcome() in wrong or one.status not in (own.status, 6)
        or one.status == 6 and one.written != nothing and not any(is_begun(one, other) for other in whole.values())
    ]


def refused_in(shim, asked):
    """Refuses each allocation of a run in turn. With workers some more are asked for, since not all runs have as many."""
    own = made(shim, asked, 0)
    workers = "--workers" in asked.words
    numbers = range(1, own.calls + 1 + (own.calls // 4 if workers else 0))
    with ThreadPoolExecutor(os.cpu_count()) as threads:
        given = list(zip(numbers, threads.map(lambda number: made(shim, asked, number), numbers)))
    wrong = (faults_of_workers if workers else faults_alone)(shim, asked, own, given)
    for number in wrong[:20]:
        one = dict(given)[number]
        print("%s, refused %d: status %d, report %r" % (asked.title, number, one.status, one.report))
    six = sum(one.status == 6 for _, one in given)
    print("| %s | %d | %d | %d | %d |" % (asked.title, own.status, len(numbers), six, len(wrong)), flush=True)
    return len(numbers), six, len(wrong)


def day_of(folder, texts, base=None):
    """A new folder with these texts, over those of another."""
    day = tempfile.mkdtemp(dir=folder)
    if base:
        shutil.copytree(base, day, dirs_exist_ok=True)
    put(day, texts)
    return day


def runs_in(shim, folder):
    """The runs."""
    for number, (rotations, journal) in enumerate(REPLAYS, 1):
        day = day_of(folder, {"rotations.csv": rotations, "journal.csv": journal}, DAY)
        yield Run("`replay` of the sample day, journal %d" % number, "replay {day} {out}", day)
    seats = day_of(folder, SEATS)
    told = day_of(folder, {"feed.csv": "1,at,01/03/08,11:00\n" + SEATS["feed.csv"]}, seats)
    plain = day_of(folder, {**SEATS, "alt_flights.csv": "", "feed.csv": "", "journal.csv": ""})
    yield Run("`replay` without a batch", "replay {day} {out}", plain)
    yield Run("`replay` of two batches and three moves", "replay {day} {out}", seats)
    yield Run("`replay` of a batch with a moment", "replay {day} {out}", told)
    yield Run("`recover`", "recover {day} {out}", seats)
    yield Run("`recover` from a batch with a moment on", "recover {day} {out}", told)
    yield Run("`recover --workers 2`", "recover {day} {out} --workers 2", seats)
    yield Run("`recover --workers 2 --live`", "recover {day} {out} --workers 2 --live", seats)
    whole = made(shim, Run("", "replay {day} {out}", seats), 0)
    plan = {name: text for name, text in zip(OUTPUTS, whole.written) if name in PLAN}
    yield Run("`check`", "check {day} {out}", seats, plan)
    yield Run("`check` of a batch with a moment", "check {day} {out}", told, plan)
    yield Run("`store`", "store {day} {out}", seats)
    first = day_of(folder, {"journal.csv": "".join(SEATS["journal.csv"].splitlines(True)[:2])}, seats)
    old = made(shim, Run("", "store {day} {out}", first), 0).journal
    yield Run("`store` where journal.bin has two entries", "store {day} {out}", seats, {}, old)
    yield Run("`gen`", "gen {out}", seats)
    yield Run("`gen` with words that are no command", "gen {out} --size 41", seats)


def refuse_in_case(shim, folder):
    """How often the case was played with an allocation refused, and how often it ended as it may not."""
    if not os.path.exists(ROWS):
        return 0, 0
    data = memory_case.laid_out(folder)

    def played(refuse):
        env = {**os.environ, "LD_PRELOAD": shim, "REFUSE": str(refuse)}
        return subprocess.run([ROWS], cwd=data, stdin=subprocess.DEVNULL, capture_output=True, text=True, env=env)

    calls = int(played(0).stderr.split()[-1])
    return calls, sum(not memory_case.is_right(played(refuse)) for refuse in range(1, calls + 1))


def main():
    with tempfile.TemporaryDirectory() as folder:
        shim = os.path.join(folder, "refused.so")
        subprocess.run(["gcc", "-shared", "-fPIC", "-O1", "-o", shim,
                        os.path.join(HERE, "refused_memory.c"), "-ldl"], check=True)
        print("| Run | Its status | Allocations refused | Ended with 6 | Wrong |\n|---|---|---|---|---|")
        tried, six, wrong = 0, 0, 0
        for asked in runs_in(shim, folder):
            more = refused_in(shim, asked)
            tried, six, wrong = tried + more[0], six + more[1], wrong + more[2]
        print("%d allocations refused: %d runs ended with 6, %d as if none was refused, %d wrong"
              % (tried, six, tried - six - wrong, wrong))
        calls, failed = refuse_in_case(shim, folder)
        print("%d allocations of the case refused: %d times it ended otherwise" % (calls, failed))
    sys.exit(1 if wrong or failed else 0)


if __name__ == "__main__":
    main()
