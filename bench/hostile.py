#!/usr/bin/env python3
"""Runs the built desk where a file system is hostile, and prints what each run gave as a table.

Usage: bench/hostile.py [--program PATH] [--kills N] [--noise MEGABYTES] [--only WORD ..]

Each case gives the desk a folder that is not what it should be: full disks, folders without leave, files that are folders, pipes,
endless devices, files that shrink while they are read, outputs that lead to a full device, standard output closed, little memory.
bench/hostile_inputs.py adds runs that are killed at random moments, noise in each input, names of 32 bytes of each kind, and numbers at
both ends of their ranges. Which status is right is said by docs/FORMATS.md, and stands with each case. --only takes the cases whose group
is one of the words. As another user than root the cases that need one are left out, and so are those that need a mount where none may be
made. Build the desk first: it is crates/desk/out/desk, or --program.

The table has a row for each case; the status is 1 where a run crashed, hung, or ended with a status that it should not have.
"""
import argparse
import contextlib
import os
import resource
import shutil
import socket
import subprocess
import sys
import tempfile
import time
from typing import NamedTuple

import hostile_inputs
from hostile_room import NOBODY, SAMPLE, TOP, WRITTEN, Room, disk_left, entries_left, files_of, left_in, printed, row_of, run
from judge import expected
from judge.files import DAY_FILES

PROGRAM = os.path.join(TOP, "crates", "desk", "out", "desk")
REPLAY, STORE = ("replay", "in", "out"), ("store", "in", "out")


class Case(NamedTuple):
    """A case: its group and title, what makes it, the statuses that it may have, how its report may begin, its words, and what
    journal.bin has then, where that is known."""
    group: str
    title: str
    setup: object
    statuses: tuple
    said: bytes
    words: tuple
    disk: str


CASES = []


def case(group, title, statuses, said=b"", words=REPLAY, disk=""):
    """Adds a case that a function sets up in a room. It may give more of how the desk is run (`how`), by name."""

    def add(setup):
        CASES.append(Case(group, title, setup, statuses if isinstance(statuses, tuple) else (statuses,), said, words, disk))
        return setup

    return add


def try_case(program, asked):
    """Runs a case; gives its row and whether it is as it should be."""
    with tempfile.TemporaryDirectory() as path:
        room = Room(path)
        with room.ends:
            how = asked.setup(room) or {}
            new = how.pop("new", None) or expected.replay(files_of(SAMPLE)).files
            may_be_any = how.pop("any", False)
            given = run(program, asked.words, path, **how)
            left = "what the search found" if may_be_any else left_in(room, new)
            good = True
            if asked.words[0] == "store":
                left += "; journal.bin: " + disk_left(room)
                good = disk_left(room) == (asked.disk or disk_left(room)) and (given.status not in (DISK, WRITE) or goes_on(program, room, path))
    good = good and given.status in asked.statuses and given.said.startswith(asked.said) and "OTHER" not in left
    return row_of(asked.title, asked.words, given, left), good


def goes_on(program, room, path):
    """Whether the next run goes on, in another folder, from the journal.bin that a run left with answered events: it opens all of
    them, comes to its end, and keeps them."""
    if not os.path.isfile(room.of("out", "journal.bin")):
        return True
    kept = entries_left(room)
    if kept is None:
        return False
    shutil.copytree(room.of("out"), room.of("again"), ignore=lambda *_: WRITTEN)
    given = run(program, ("store", "in", "again"), path)
    now = entries_left(room, "again") or []
    return given.status == 0 and given.said.startswith(b"opened %d\n" % len(kept)) and now[:len(kept)] == kept


# Inputs

READ = 4


@case("input", "IN is not there", READ, b"read fault config.csv\n", ("replay", "nowhere", "out"))
def _(_):
    pass


@case("input", "IN is a file", READ, b"read fault config.csv\n", ("replay", "file", "out"))
def _(room):
    room.put("", "file", b"01/03/08 06:00 02/03/08 06:00\n")


@case("input", "flights.csv is not there", READ, b"read fault flights.csv\n")
def _(room):
    room.take("in", "flights.csv")


@case("input", "feed.csv and journal.csv are not there", 0, b"changes 0\n")
def _(room):
    room.take("in", "feed.csv")
    room.take("in", "journal.csv")
    return {"new": room.new()}


@case("input", "flights.csv is a folder", READ, b"read fault flights.csv\n")
def _(room):
    os.mkdir(room.take("in", "flights.csv"))


@case("input", "feed.csv is a folder", READ, b"read fault feed.csv\n")
def _(room):
    os.mkdir(room.take("in", "feed.csv"))


@case("input", "flights.csv leads to itself", READ, b"read fault flights.csv\n")
def _(room):
    room.link("in", "flights.csv", "flights.csv")


@case("input", "feed.csv leads to itself", READ, b"read fault feed.csv\n")
def _(room):
    room.link("in", "feed.csv", "feed.csv")


@case("input", "flights.csv may not be read", READ, b"read fault flights.csv\n")
def _(room):
    os.chmod(room.of("in", "flights.csv"), 0)
    room.out_of_nobody()
    return {"user": NOBODY}


@case("input", "journal.csv may not be read", READ, b"read fault journal.csv\n")
def _(room):
    os.chmod(room.of("in", "journal.csv"), 0)
    room.out_of_nobody()
    return {"user": NOBODY}


@case("input", "IN may not be entered", READ, b"read fault config.csv\n")
def _(room):
    os.chmod(room.of("in"), 0)
    room.out_of_nobody()
    room.ends.callback(os.chmod, room.of("in"), 0o755)
    return {"user": NOBODY}


@case("input", "flights.csv is a socket", READ, b"read fault flights.csv\n")
def _(room):
    bound = room.ends.enter_context(socket.socket(socket.AF_UNIX))
    bound.bind(room.take("in", "flights.csv"))


@case("input", "flights.csv is a pipe that gives its bytes one by one", 0, b"batch 0 shift 1020000000000\n")
def _(room):
    with open(room.of("in", "flights.csv"), "rb") as file:
        text = file.read()
    path = room.take("in", "flights.csv")
    os.mkfifo(path)

    def work():
        with open(path, "wb", buffering=0) as pipe:
            for byte in text:
                pipe.write(bytes([byte]))
                time.sleep(0.002)

    room.beside(work)


@case("input", "flights.csv is a pipe that never ends", 3, b"refused flights.csv 0 Size\n")
def _(room):
    path = room.take("in", "flights.csv")
    os.mkfifo(path)

    def work():
        with contextlib.suppress(OSError), open(path, "wb", buffering=0) as pipe:
            while True:
                pipe.write(b"F1 AAA BBB 08:00 09:00 0\n" * 1000)

    room.beside(work)


def endless(name, device):
    @case("input", "%s leads to %s" % (name, device), 3, b"refused %s 0 Size\n" % name.encode())
    def _(room):
        room.link("in", name, device)


for each in DAY_FILES[:2] + ("tariff.csv", "feed.csv", "journal.csv"):
    endless(each, "/dev/zero")
endless("itineraries.csv", "/dev/urandom")
endless("airports.csv", "/dev/full")


@case("input", "itineraries.csv leads to /dev/null", 0, b"batch 0 shift ")
def _(room):
    room.put("in", "itineraries.csv", b"")
    new = room.new()
    room.link("in", "itineraries.csv", "/dev/null")
    return {"new": new}


LONG_DISTANCES = b"AAA BBB 60 D\n" + b"# " + b"x" * 40_000_000


@case("input", "dist.csv shrinks while it is read", 0, b"batch 0 shift 1020000000000\n")
def _(room):
    room.put("in", "dist.csv", LONG_DISTANCES)

    def work():
        for size in range(40_000_000, 13, -1_000_000):
            with contextlib.suppress(OSError):
                os.truncate(room.of("in", "dist.csv"), size)
            time.sleep(0.001)

    room.beside(work)


@case("input", "dist.csv grows while it is read, past its limit", (0, 3))
def _(room):
    def work():
        with contextlib.suppress(OSError), open(room.of("in", "dist.csv"), "ab") as file:
            file.write(b"#")
            for _ in range(100):
                file.write(b"x" * 1_000_000)

    room.beside(work)


# Outputs

WRITE = 5


@case("output", "OUT is not there, nor is the folder that it is in", 0, b"", ("replay", "in", "out/new/newer"))
def _(_):
    pass


@case("output", "OUT is a file", WRITE, b"write fault sol_rotations.csv\n", ("replay", "in", "in/config.csv"))
def _(_):
    pass


@case("output", "OUT may not be written, and is empty", WRITE, b"write fault sol_rotations.csv\n")
def _(room):
    for name in WRITTEN:
        room.take("out", name)
    return {"user": NOBODY}


@case("output", "OUT and its files may not be written", WRITE, b"write fault sol_rotations.csv\n")
def _(_):
    return {"user": NOBODY}


@case("output", "OUT may not be made", WRITE, b"write fault sol_rotations.csv\n", ("replay", "in", "new"))
def _(_):
    return {"user": NOBODY}


def no_file(name):
    @case("output", "%s in OUT is a folder" % name, WRITE, b"write fault %s\n" % name.encode())
    def _(room):
        os.mkdir(room.take("out", name))

    @case("output", "%s in OUT leads to /dev/full" % name, WRITE, b"write fault %s\n" % name.encode())
    def _(room):
        room.link("out", name, "/dev/full")


for each in WRITTEN:
    no_file(each)


@case("output", "all three in OUT lead to /dev/null", 0, b"batch 0 shift ")
def _(room):
    for name in WRITTEN:
        room.link("out", name, "/dev/null")


@case("output", "no plan, and sol_rotations.csv in OUT may not be emptied", 1, b"batch 0 no plan ")
def _(room):
    # F1 has begun, and may not land
    room.put("in", "config.csv", b"01/03/08 08:30 02/03/08 06:00\n")
    room.put("in", "alt_airports.csv", b"BBB 01/03/08 09:00 01/03/08 10:00 0 0\n")
    room.put("in", "feed.csv", b"")
    room.put("in", "journal.csv", b"0,batch,0\n")
    new = room.new()
    room.out_of_nobody()
    os.chown(room.of("out", "sol_rotations.csv"), 0, 0)
    return {"user": NOBODY, "new": new}


@case("output", "check with a plan that may not be read", READ, b"read fault sol_rotations.csv\n", ("check", "in", "out"))
def _(room):
    os.chmod(room.of("out", "sol_rotations.csv"), 0)
    return {"user": NOBODY}


@case("output", "gen, and feed.csv in OUT is a folder", WRITE, b"write fault feed.csv\n", ("gen", "new"))
def _(room):
    os.makedirs(room.of("new", "feed.csv"))


def mounted(room, size):
    """Has OUT be a small disk."""
    done = subprocess.run(["mount", "-t", "tmpfs", "-o", "size=%s" % size, "none", room.of("out")], stderr=subprocess.DEVNULL)
    if done.returncode:
        raise Skipped
    room.ends.callback(subprocess.run, ["umount", "-l", room.of("out")], check=True)


class Skipped(Exception):
    """A case that can't be made here."""


def long_journal(room):
    with open(room.of("in", "journal.csv"), "ab") as file:
        file.write(b"1,move,tidy\n" * 2_000)


def full_disk(pages, statuses, said):
    @case("output", "OUT is a disk of %d kB, and the texts have 76" % (4 * pages), statuses, said)
    def _(room):
        long_journal(room)
        new = room.new()
        mounted(room, "%dk" % (4 * pages))
        return {"new": new}


full_disk(1, WRITE, b"write fault sol_itineraries.csv\n")
full_disk(3, WRITE, b"write fault journal.csv\n")
full_disk(10, WRITE, b"write fault journal.csv\n")
full_disk(40, 0, b"batch 0 ")


@case("output", "no file may have more than 4 kB (RLIMIT_FSIZE)", ("SIGXFSZ", WRITE))
def _(room):
    long_journal(room)
    return {"limits": [(resource.RLIMIT_FSIZE, 4096)], "new": room.new()}


# The journal on a disk

DISK = 8


@case("journal", "journal.bin is not there", 0, b"opened 0\n", STORE)
def _(_):
    pass


@case("journal", "journal.bin is a folder", DISK, b"disk fault\n", STORE, "no file")
def _(room):
    os.mkdir(room.of("out", "journal.bin"))


@case("journal", "journal.bin leads to itself", DISK, b"disk fault\n", STORE, "no file")
def _(room):
    room.link("out", "journal.bin", "journal.bin")


@case("journal", "OUT is a file", DISK, b"disk fault\n", ("store", "in", "in/config.csv"), "none")
def _(_):
    pass


@case("journal", "journal.bin is a pipe", DISK, b"disk fault\n", STORE, "no file")
def _(room):
    os.mkfifo(room.of("out", "journal.bin"))


def no_disk(device):
    @case("journal", "journal.bin leads to %s" % device, DISK, b"disk fault\n", STORE, "no file")
    def _(room):
        room.link("out", "journal.bin", device)


for each in ("/dev/full", "/dev/null", "/dev/zero", "/dev/urandom"):
    no_disk(each)


@case("journal", "journal.bin may not be written", DISK, b"disk fault\n", STORE, "0 entries")
def _(room):
    room.put("out", "journal.bin", b"\0")
    room.out_of_nobody()
    return {"user": NOBODY}


@case("journal", "OUT may not be written, and has no journal.bin", DISK, b"disk fault\n", STORE, "none")
def _(room):
    for name in WRITTEN:
        room.take("out", name)
    return {"user": NOBODY}


def bytes_on_disk(title, text, statuses, said, disk):
    @case("journal", "journal.bin has %s" % title, statuses, said, STORE, disk)
    def _(room):
        room.put("out", "journal.bin", text)


bytes_on_disk("a byte 0 and then noise", b"\0" + b"noise" * 10_000, 0, b"opened 0\n", "5 entries")
bytes_on_disk("a byte 1 and then noise", b"\1" + b"noise" * 10_000, 3, b"refused journal.bin 0 Damaged\n", "damaged")
bytes_on_disk("a move that is another than the first", b"\1\0\0\0\x07\0\0\0\1\1\1\4\0", 3, b"refused journal.csv 1 Other\n", "1 entries")


@case("journal", "journal.bin has 1,024 MB of nothing, and the run 256 MB of memory", 6, b"memory\n", STORE, "as it was")
def _(room):
    with open(room.of("out", "journal.bin"), "wb") as file:
        file.truncate(1 << 30)
    return {"limits": [(resource.RLIMIT_AS, 256 << 20)]}


def full_disk_of_store(pages, statuses, said):
    @case("journal", "OUT is a disk of %d kB, and journal.bin has 24 and the texts 76" % (4 * pages), statuses, said, STORE)
    def _(room):
        long_journal(room)
        new = room.new()
        mounted(room, "%dk" % (4 * pages))
        return {"new": new}


full_disk_of_store(1, DISK, b"disk fault\n")
full_disk_of_store(4, DISK, b"disk fault\n")
full_disk_of_store(10, WRITE, b"write fault journal.csv\n")
full_disk_of_store(40, 0, b"opened 0\n")


# Standard output


@case("standard output", "standard output leads to /dev/full", WRITE)
def _(room):
    return {"into": room.ends.enter_context(open("/dev/full", "wb"))}


@case("standard output", "standard output is closed", WRITE)
def _(_):
    return {"before": ["sh", "-c", 'exec "$@" >&-', "sh"]}


@case("standard output", "standard output is a pipe that nobody reads", (WRITE, "SIGPIPE"))
def _(room):
    reader, writer = os.pipe()
    os.close(reader)
    return {"into": room.ends.enter_context(os.fdopen(writer, "wb"))}


@case("standard output", "standard output is closed, of a usage fault", 2, b"", ("help",))
def _(_):
    return {"before": ["sh", "-c", 'exec "$@" >&-', "sh"]}


@case("standard output", "standard input, output and error are closed", WRITE)
def _(_):
    return {"before": ["sh", "-c", 'exec "$@" <&- >&- 2>&-', "sh"]}


@case("standard output", "standard output is closed, of gen", WRITE, b"", ("gen", "new"))
def _(_):
    return {"before": ["sh", "-c", 'exec "$@" >&-', "sh"]}


# What the system leaves


@case("resources", "no more than four open files", READ, b"read fault config.csv\n")
def _(_):
    return {"limits": [(resource.RLIMIT_NOFILE, 4)]}


@case("resources", "no more than ten open files", (READ,), b"read fault ")
def _(_):
    return {"limits": [(resource.RLIMIT_NOFILE, 10)]}


def little_memory(megabytes, size, statuses, said=b""):
    @case("resources", "%d MB of memory, the day of `gen --size %d`" % (megabytes, size), statuses, said)
    def _(room):
        for name, text in expected.gen(1, size).files.items():
            room.put("in", name, text)
        room.put("in", "journal.csv", b"0,batch,0\n0,batch,1\n" + b"1,move,tidy\n" * 100)
        return {"limits": [(resource.RLIMIT_AS, megabytes << 20)], "new": room.new()}


for each in ((4, 1), (64, 40)):
    little_memory(*each, 0, b"batch 0 ")
for each in (4, 5, 6, 8):
    little_memory(each, 40, (0, 6))


@case("resources", "32 MB of memory, so that threads find no stacks", 0, b"batch 0 ", ("recover", "in", "out", "--workers", "4", "--watch"))
def _(_):
    return {"limits": [(resource.RLIMIT_AS, 32 << 20)], "any": True}


# here the viewer has to look after the search: one that came first would wait for it forever
@case("resources", "no thread may be started", 0, b"batch 0 ", ("recover", "in", "out", "--workers", "4", "--watch"))
def _(room):
    room.out_of_nobody()
    return {"limits": [(resource.RLIMIT_NPROC, 0)], "user": NOBODY, "any": True}


def little_stack(kilobytes, statuses):
    @case("resources", "%d kB of stack" % kilobytes, statuses)
    def _(_):
        return {"limits": [(resource.RLIMIT_STACK, kilobytes << 10)]}


# proofs say nothing of the stack: with too little of it the system ends the run before it begins to write
little_stack(64, "SIGSEGV")
little_stack(256, 0)


def main():
    parser = argparse.ArgumentParser(description="Runs the desk where a file system is hostile.")
    parser.add_argument("--program", default=PROGRAM, help="the desk")
    parser.add_argument("--only", nargs="*", default=(), help="the groups of cases that are run")
    parser.add_argument("--kills", type=int, default=200, help="how many runs are killed")
    parser.add_argument("--noise", type=int, default=64, metavar="MEGABYTES", help="how much noise an input has")
    asked = parser.parse_args()
    asked.program = os.path.abspath(asked.program)
    faults = 0
    print("| Case | Command | Status | Says | Then in OUT: %s |\n|---|---|---|---|---|" % ", ".join(WRITTEN))
    for one in CASES:
        if asked.only and one.group not in asked.only:
            continue
        try:
            row, good = try_case(asked.program, one)
        except (Skipped, PermissionError):
            row, good = "| %s | left out: it needs another user, or a mount | | | |" % one.title, True
        faults += not good
        print(row + ("" if good else " **WRONG: wanted %s %s**" % (one.statuses, printed(one.said + b"\n"))), flush=True)
    for group, rows in hostile_inputs.GROUPS.items():
        if not asked.only or group in asked.only:
            for row, good in rows(asked):
                faults += not good
                print(row + ("" if good else " **WRONG**"), flush=True)
    sys.exit(1 if faults else 0)


if __name__ == "__main__":
    main()
