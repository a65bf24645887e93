#!/usr/bin/env python3
"""Has two runs of `store` on one OUT at once, kills some of them at random moments, and looks whether an entry goes.

    bench/two_runs.py [--program PATH] [--pairs N] [--seed N]

50 pairs, over the day of a recovery that is made up: in half of them both runs have the same journal, in half two that part after some entries. They begin
at random moments, and of each pair none, one or both are killed. While they run, and after each has ended, journal.bin is read: it may be
damaged at no moment, it has to be a beginning of one of the two journals, and no entry that stood in it once may go or become another. A
run that says that it is done had its whole journal there. A run that finds the file taken has to end with the status that --taken says, where it is given.
Then one run is stopped while it keeps records (SIGSTOP), and another has to end within ten seconds, not done, and leave each file of OUT as it is; the first then
goes on to its end. It ends with 1 where something was other than it has to be.
"""
import argparse
import os
import random
import shutil
import signal
import subprocess
import sys
import tempfile
import time

from judge.disk import read as files_of
from judge.files import DAY_FILES
from judge.stored import file_payloads, journal_payloads

TOP = os.path.dirname(os.path.dirname(os.path.abspath(__file__)))
DESK = os.path.join(TOP, "crates", "desk", "out", "desk")
OUTPUTS = ("sol_rotations.csv", "sol_itineraries.csv", "journal.csv")
DONE, REFUSED, DISK, KILLED = (0, 1), 3, 8, -signal.SIGKILL


class Runs:
    """Two runs on one OUT, and what was seen of the file that they keep."""

    def __init__(self, program, out):
        self.program, self.out = program, out
        self.seen, self.faults = [], []

    def begin(self, day):
        return subprocess.Popen([self.program, "store", day, self.out], stdout=subprocess.DEVNULL, stderr=subprocess.DEVNULL)

    def look(self):
        """Reads the file: all entries that were seen before have to be there still."""
        try:
            with open(os.path.join(self.out, "journal.bin"), "rb") as file:
                found = file_payloads(file.read())
        except FileNotFoundError:
            found = []
        if found is None:
            self.faults.append("the file is damaged")
        elif found[:len(self.seen)] != self.seen:
            self.faults.append("entries that were there are gone")
        else:
            self.seen = found


def pair(program, days, journals, out, draws, took):
    """Runs a pair; gives its statuses and what was wrong."""
    runs = Runs(program, out)
    begun = time.monotonic()
    starts = [0, draws.uniform(0, 1.2 * took)]
    ends = [draws.uniform(0, 1.5 * took) if draws.random() < 0.5 else None for _ in days]
    children, statuses = [None, None], [None, None]
    while None in statuses:
        now = time.monotonic() - begun
        for at, day in enumerate(days):
            if children[at] is None and now >= starts[at]:
                children[at] = runs.begin(day)
            elif children[at] is not None and statuses[at] is None:
                if ends[at] is not None and now >= starts[at] + ends[at]:
                    children[at].kill()
                    children[at].wait()
                statuses[at] = children[at].poll()
                if statuses[at] in DONE:
                    runs.look()
                    if runs.seen[:len(journals[at])] != journals[at]:
                        runs.faults.append("a run is done, and the file has %d of its %d entries" % (len(runs.seen), len(journals[at])))
        runs.look()
        time.sleep(0.001)
    if not any(runs.seen == whole[:len(runs.seen)] for whole in journals):
        runs.faults.append("the file is of neither journal")
    last = runs.begin(days[0]).wait()
    runs.look()
    return statuses, last, sorted(set(runs.faults))


def state_of(folder):
    """The bytes of each file of a folder, and when it was last written."""
    state = {}
    for name in sorted(os.listdir(folder)):
        with open(os.path.join(folder, name), "rb") as file:
            state[name] = file.read(), os.fstat(file.fileno()).st_mtime_ns
    return state


def beside_one_that_stands(program, days, out, taken):
    """A run beside one that is stopped while it keeps records: what it gives, and what was wrong."""
    runs = Runs(program, out)
    os.mkdir(out)
    for name in OUTPUTS:
        with open(os.path.join(out, name), "wb") as file:
            file.write(b"what an earlier run left\n")
    first = runs.begin(days[0])
    while len(runs.seen) < 5 and first.poll() is None:
        runs.look()
    first.send_signal(signal.SIGSTOP)
    time.sleep(0.2)
    before = state_of(out)
    second = runs.begin(days[1])
    try:
        status = second.wait(10)
    except subprocess.TimeoutExpired:
        second.kill()
        status = second.wait()
        runs.faults.append("it does not end beside a run that stands")
    if status in DONE or taken is not None and status != taken:
        runs.faults.append("it gives %s beside a run that stands" % status)
    if state_of(out) != before:
        runs.faults.append("it changes %s beside a run that stands" % ", ".join(
            name for name, was in state_of(out).items() if before.get(name) != was))
    first.send_signal(signal.SIGCONT)
    if first.wait() not in DONE:
        runs.faults.append("the run that stood gives %s" % first.returncode)
    return status, runs.faults


def made_days(program, folder):
    """Two days with journals that part after half of their entries, and what their journals keep."""
    day, other, out = (os.path.join(folder, name) for name in ("day", "other", "recovered"))
    quiet = {"stdout": subprocess.DEVNULL, "stderr": subprocess.DEVNULL, "check": False}
    subprocess.run([program, "gen", day, "--size", "4"], **quiet)
    subprocess.run([program, "recover", day, out, "--moves", "200"], **quiet)
    with open(os.path.join(out, "journal.csv"), encoding="ascii") as file:
        lines = file.readlines()
    shutil.copytree(day, other)
    for place, whole in ((day, lines), (other, lines[:len(lines) // 2] + ["7,move,tidy\n"] * (len(lines) // 2))):
        with open(os.path.join(place, "journal.csv"), "w", encoding="ascii") as file:
            file.writelines(whole)
    return (day, other), [journal_payloads(files_of(place, DAY_FILES + ("journal.csv",))) for place in (day, other)]


def main():
    parser = argparse.ArgumentParser(description="Has two runs of `store` on one OUT at once.")
    parser.add_argument("--program", default=DESK, help="the desk")
    parser.add_argument("--pairs", type=int, default=50, help="how many pairs run")
    parser.add_argument("--seed", type=int, default=1, help="of what is drawn")
    parser.add_argument("--taken", type=int, help="the status of a run that finds the file taken")
    asked = parser.parse_args()
    program, draws, wrong, counts = os.path.abspath(asked.program), random.Random(asked.seed), 0, {}
    with tempfile.TemporaryDirectory(dir=TOP) as folder:
        days, journals = made_days(program, folder)
        out = os.path.join(folder, "out")
        begun = time.monotonic()
        Runs(program, out).begin(days[0]).wait()
        took = time.monotonic() - begun
        may_be = DONE + (REFUSED, DISK, KILLED) + (() if asked.taken is None else (asked.taken,))
        for number in range(asked.pairs):
            shutil.rmtree(out)
            other = number % 2
            statuses, last, faults = pair(program, (days[0], days[other]), (journals[0], journals[other]), out, draws, took)
            faults += ["a run gives %s" % status for status in statuses if status not in may_be]
            if last not in DONE + ((REFUSED,) if other else ()):
                faults.append("a run behind both gives %s" % last)
            for status in statuses:
                counts[status] = counts.get(status, 0) + 1
            wrong += bool(faults)
            for fault in faults:
                print("pair %d, %s journals, statuses %s: %s" % (number, "different" if other else "equal", statuses, fault), flush=True)
        for at in (0, 1):
            shutil.rmtree(out)
            status, faults = beside_one_that_stands(program, (days[0], days[at]), out, asked.taken)
            wrong += bool(faults)
            print("beside one that stands, %s: status %s%s" % ("another journal" if at else "the same journal", status,
                                                                "".join("; " + fault for fault in faults)))
    told = ", ".join("%s: %d" % one for one in sorted(counts.items()))
    print("%d pairs of runs that take %.2f s, with statuses %s; %d were wrong" % (asked.pairs, took, told, wrong))
    return 1 if wrong else 0


if __name__ == "__main__":
    sys.exit(main())
