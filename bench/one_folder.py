#!/usr/bin/env python3
"""Runs each command that writes with one folder for IN and OUT, in many spellings, has a write fail, and looks at what the command read.

    bench/one_folder.py [--program PATH] [--show]

The folder has two spellings of five kinds in turn: with a slash or a dot behind or before it, by a link, by its whole path, and by a way
that leads out of it and back; and once the same word twice, and once OUT is another folder in which what the command reads
is there by links to the files themselves. A write fails since a folder stands in the place of an output or of journal.bin, since no file may have more
than some bytes (RLIMIT_FSIZE), since standard output takes nothing, or since the folder is a disk that is full (that needs a root that may mount).
Whatever the status, each file that the command reads has to have the bytes that it had. Where the run is done, journal.csv of a replay may
be the new one: the same events, each with its answer. It ends with 1 where a file that was read is another, or where no write failed.
"""
import argparse
import contextlib
import os
import resource
import shutil
import signal
import subprocess
import sys
import tempfile
from typing import NamedTuple

from judge.files import DAY_FILES, SOLUTION_FILES

TOP = os.path.dirname(os.path.dirname(os.path.abspath(__file__)))
DESK = os.path.join(TOP, "crates", "desk", "out", "desk")
SAMPLE = os.path.join(TOP, "examples", "disrupted")
CASES = os.path.join(TOP, "crates", "desk_rows", "data")
# a day and its plan, to which `ferry` adds a leg: the files of a case over the usual ones, and these aircraft
ADDED_TO = ("usual", "an_added_leg_saves_more_than_it_costs")
AIRCRAFT = b"P1 M1 NB 0/0/10 600 499.9999 30 20 AAA NULL\nP2 M1 NB 0/0/9 600 120 30 20 AAA NULL\n"
DONE, OUTPUTS = (0, 1), ("sol_rotations.csv", "sol_itineraries.csv", "journal.csv")
PLAIN = "day"
SPELLINGS = {"slash": "day/", "dot": "./day", "dot behind": "day/.", "link": "link", "absolute": "{room}/day", "relative": "day/../day"}


class Command(NamedTuple):
    """A command: its words before the folders and behind them, the files that it reads beside the day, and its outputs."""
    word: str
    more: tuple
    reads: tuple
    outputs: tuple


COMMANDS = (
    Command("replay", (), ("journal.csv",), OUTPUTS),
    Command("store", (), ("journal.csv",), OUTPUTS + ("journal.bin",)),
    Command("recover", (), (), OUTPUTS),
    Command("recover", ("--workers", "2", "--watch"), (), OUTPUTS),
    Command("ferry", (), SOLUTION_FILES, ("sol_added.csv",)),
)


class Fault(NamedTuple):
    """How a write fails: the file that is a folder, how many bytes a file may have, whether the report or the whole disk takes nothing."""
    title: str
    folder: str = ""
    most: int | None = None
    silent: bool = False
    full: bool = False


def faults_of(command):
    """The faults that are tried of a command."""
    yield Fault("no fault")
    for name in command.outputs:
        if name not in command.reads:
            yield Fault("%s is a folder" % name, folder=name)
    for most in (0, 1, 100, 150):
        yield Fault("no file may have more than %d bytes" % most, most=most)
    yield Fault("standard output takes nothing", silent=True)
    yield Fault("the disk is full", full=True)


def spelled(room):
    """The pairs of spellings."""
    words = [PLAIN] + [word.format(room=room) for word in SPELLINGS.values()]
    pairs = [(PLAIN, PLAIN), (words[4], words[1]), (PLAIN, "other")]
    return pairs + [(PLAIN, word) for word in words[1:]] + [(word, PLAIN) for word in words[1:]]


def bytes_of(path):
    """The bytes of a file; none where there is no file."""
    if not os.path.isfile(path):
        return None
    with open(path, "rb") as file:
        return file.read()


def limited(most):
    """Has no file get more than so many bytes, and the call fail that would write more."""
    def limit():
        signal.signal(signal.SIGXFSZ, signal.SIG_IGN)
        resource.setrlimit(resource.RLIMIT_FSIZE, (most, most))
    return limit if most is not None else None


def run(program, words, room, fault):
    """The status of a run, of which a write fails."""
    into = open("/dev/full", "wb") if fault.silent else subprocess.DEVNULL
    done = subprocess.run([program, *words], cwd=room, stdin=subprocess.DEVNULL, stdout=into, stderr=subprocess.DEVNULL,
                          preexec_fn=limited(fault.most), restore_signals=False, check=False)
    return done.returncode


def make_day(command, day):
    """Puts the files of the day into the folder, and for `ferry` those of a plan."""
    if command.word != "ferry":
        shutil.copytree(SAMPLE, day, dirs_exist_ok=True)
        return
    for case in ADDED_TO:
        shutil.copytree(os.path.join(CASES, case), day, dirs_exist_ok=True)
    with open(os.path.join(day, "aircraft.csv"), "wb") as file:
        file.write(AIRCRAFT)


def set_up(command, fault, room, ends):
    """Puts the day into the folder, and has the fault stand there; whether it could."""
    day = os.path.join(room, PLAIN)
    os.mkdir(day)
    os.symlink(PLAIN, os.path.join(room, "link"))
    if fault.full:
        if subprocess.run(["mount", "-t", "tmpfs", "-o", "size=256k", "none", day], stderr=subprocess.DEVNULL, check=False).returncode:
            return False
        ends.callback(subprocess.run, ["umount", "-l", day], check=True)
    make_day(command, day)
    os.mkdir(os.path.join(room, "other"))
    for name in command.reads:
        os.symlink(os.path.join("..", PLAIN, name), os.path.join(room, "other", name))
    if fault.folder:
        with contextlib.suppress(FileNotFoundError):
            os.remove(os.path.join(day, fault.folder))
        os.mkdir(os.path.join(day, fault.folder))
    if fault.full:
        with contextlib.suppress(OSError), open(os.path.join(day, "nothing"), "wb", buffering=0) as file:
            while True:
                file.write(bytes(4096))
    return True


def tried(program, command, fault, pair, plan):
    """The status of a run and the files that were read and are others now; none where it could not be tried."""
    with tempfile.TemporaryDirectory() as room, contextlib.ExitStack() as ends:
        if not set_up(command, fault, room, ends):
            return None
        words = [word.format(room=room) for word in pair]
        day = os.path.join(room, PLAIN)
        reads = DAY_FILES + command.reads
        before = {name: bytes_of(os.path.join(day, name)) for name in reads}
        status = run(program, [command.word, *words, *command.more], room, fault)
        changed = [name for name in reads if bytes_of(os.path.join(day, name)) != before[name]]
        answered = plan["journal.csv"]
        if status in DONE + (5,) and bytes_of(os.path.join(day, "journal.csv")) == answered and (status != 5 or fault.silent):
            changed = [name for name in changed if name != "journal.csv"]
        return status, changed


def made_plan(program):
    """What a replay of the sample day writes."""
    with tempfile.TemporaryDirectory() as out:
        subprocess.run([program, "replay", SAMPLE, out], stdout=subprocess.DEVNULL, check=True)
        return {name: bytes_of(os.path.join(out, name)) for name in OUTPUTS}


def main():
    parser = argparse.ArgumentParser(description="Runs each command with one folder for IN and OUT, and has a write fail.")
    parser.add_argument("--program", default=DESK, help="the desk")
    parser.add_argument("--show", action="store_true", help="a line for each run")
    asked = parser.parse_args()
    program, runs, failed, wrong = os.path.abspath(asked.program), 0, 0, 0
    plan = made_plan(program)
    for command in COMMANDS:
        for fault in faults_of(command):
            statuses = {}
            for pair in spelled("{room}"):
                given = tried(program, command, fault, pair, plan)
                if given is None:
                    print("%s, %s: NOT TRIED, since nothing may be mounted here" % (command.word, fault.title))
                    break
                status, changed = given
                runs, failed, wrong = runs + 1, failed + (status not in DONE), wrong + bool(changed)
                statuses[status] = statuses.get(status, 0) + 1
                if changed or asked.show:
                    print("%s, %s: status %s%s" % (" ".join((command.word, *pair, *command.more)), fault.title, status,
                                                   "; OTHER: " + ", ".join(changed) if changed else ""))
            told = ", ".join("%s: %d" % one for one in sorted(statuses.items()))
            print("%s, %s: statuses %s" % (" ".join((command.word, *command.more)), fault.title, told), flush=True)
    print("%d runs, of which %d were not done; in %d of them a file that was read is another" % (runs, failed, wrong))
    return 1 if wrong or not failed else 0


if __name__ == "__main__":
    sys.exit(main())
