#!/usr/bin/env python3
"""Has each sync of runs of `store` fail in turn, on a device that then does not keep what it was given, and mounts the device anew after each run.

    bench/failing_disk.py [--program PATH] [--only WORD ..]

The device is a file behind a loop device, with ext4 on it. While one call of fsync or fdatasync is made (failing_sync.c), the device has no room
for the bytes of files, which stand in its second half: what the call was to bring there is lost, the call fails, and later calls do not,
since the system takes the page that it lost for one that is written. Or the run is ended before that call. What the device has after a run is read from a copy of it, which is
mounted by itself, as after a loss of power: nothing that only the system's memory holds is in it.

Each sync of a run over a whole journal is tried: it fails, or the run ends before it; alone, or with one of the syncs by which the next run
opens the file. Then a run goes on over the entries that the file shows, and one over the whole journal. So it is tried with a new file,
and with one in which the end mark is the last byte of a page. After each run that says that it is done the device has to hold all entries of its journal, and
after each other one a beginning that has each entry of which both syncs had answered, and each that an earlier run had said.

It needs a root that may mount a loop device, and gcc. Where there is none it says so, tries nothing, and ends with 77; it ends with 1
where something was other than it has to be, or where no sync failed.
"""
import argparse
import contextlib
import fcntl
import os
import shutil
import subprocess
import sys
import tempfile
from typing import NamedTuple

from judge.disk import read as files_of
from judge.files import DAY_FILES
from judge.stored import file_payloads, journal_payloads

HERE = os.path.dirname(os.path.abspath(__file__))
DESK = os.path.join(os.path.dirname(HERE), "crates", "desk", "out", "desk")
MEGABYTE = 1 << 20
# the device, and where the bytes of files begin on it; before stands what the file system needs
SIZE, CUT, BLOCK = 32 * MEGABYTE, 16 * MEGABYTE, 4096
FIBMAP = 1
NOT_TRIED, ENDED, DISK, DONE = 77, 99, 8, (0, 1)
# a batch and moves whose records have 4,095 bytes together, so that the end mark behind them is the last byte of a page
TO_A_PAGE = ["0,batch,0", "1,move,tidy,tidy"] + ["1,move,tidy"] * 339
FAILS, ENDS = "FAIL", "STOP"


class Start(NamedTuple):
    """What is tried: the lines of a whole journal, how many of them the file has at first, and how many the run has whose syncs fail."""
    title: str
    lines: list
    held: int
    first: int


class Given(NamedTuple):
    """What a run gave: its status, its report, and how many syncs it made."""
    status: int
    report: bytes
    syncs: int


def system(*words):
    """Runs a command of the system, and gives what it prints; an error where it fails."""
    return subprocess.run(words, check=True, stdout=subprocess.PIPE, stderr=subprocess.PIPE, text=True).stdout.strip()


@contextlib.contextmanager
def mounted(image):
    """Mounts the file system of an image; gives its loop device and where it stands."""
    place = tempfile.mkdtemp()
    with contextlib.ExitStack() as ends:
        ends.callback(os.rmdir, place)
        loop = system("losetup", "--show", "-f", image)
        ends.callback(system, "losetup", "-d", loop)
        system("mount", loop, place)
        ends.callback(system, "umount", place)
        yield loop, place


def new_image(path):
    """A new file system with a folder `out`, in which the bytes of files have room behind CUT alone: a file of nothing fills what is before."""
    with open(path, "wb") as file:
        file.truncate(SIZE)
    system("mkfs.ext4", "-q", "-F", "-b", str(BLOCK), "-E", "packed_meta_blocks=1", path)
    with mounted(path) as (_, place):
        os.mkdir(os.path.join(place, "out"))
        with open(os.path.join(place, "nothing"), "wb") as file:
            blocks = 0
            while not blocks or block_of(file, blocks - 1) < CUT // BLOCK:
                file.write(bytes(64 * BLOCK))
                file.flush()
                blocks += 64
    return path


def block_of(file, number):
    """Where on the device a block of a file stands."""
    place = bytearray(number.to_bytes(4, sys.byteorder))
    fcntl.ioctl(file.fileno(), FIBMAP, place)
    return int.from_bytes(place, sys.byteorder)


def entries_in(place):
    """The entries of the file that stands in a mounted file system; none where it is damaged."""
    path = os.path.join(place, "out", "journal.bin")
    if not os.path.exists(path):
        return []
    with open(path, "rb") as file:
        return file_payloads(file.read())


class Tries:
    """The tries of a start, in a folder: the program, what the shim is, the image of the start, and what was counted."""

    def __init__(self, program, shim, folder, start):
        self.program, self.shim, self.folder, self.start = program, shim, folder, start
        self.day = os.path.join(folder, "day")
        self.image = new_image(os.path.join(folder, "start.image"))
        self.entries = self.payloads()
        self.failed, self.faults, self.tried = 0, [], 0
        with mounted(self.image) as (loop, place):
            if start.held:
                self.run(loop, place, start.held)
        self.opening = self.syncs_of(start.held)
        self.syncs = self.syncs_of(start.first)

    def payloads(self):
        """The payloads of the whole journal."""
        self.cut(len(self.start.lines))
        return journal_payloads(files_of(self.day, DAY_FILES + ("journal.csv",)))

    def cut(self, count):
        """Has the day's journal be its first lines."""
        with open(os.path.join(self.day, "journal.csv"), "w", encoding="ascii") as file:
            file.writelines(line + "\n" for line in self.start.lines[:count])

    def run(self, loop, place, count, how="", number=0):
        """A run over the first lines of the journal, of which one sync fails, or which ends before it."""
        self.cut(count)
        env = {**os.environ, "LD_PRELOAD": self.shim, "LOOP": loop, "CUT": str(CUT), **({how: str(number)} if how else {})}
        words = [self.program, "store", self.day, os.path.join(place, "out")]
        done = subprocess.run(words, stdout=subprocess.PIPE, stderr=subprocess.PIPE, env=env)
        told = done.stderr.split()
        return Given(done.returncode, done.stdout, int(told[-1]) if told and told[-1].isdigit() else 0)

    def fresh(self):
        """A copy of the image of the start."""
        return shutil.copyfile(self.image, os.path.join(self.folder, "tried.image"))

    def syncs_of(self, count):
        """How many syncs a run over the first lines makes at the start."""
        with mounted(self.fresh()) as (loop, place):
            return self.run(loop, place, count).syncs

    def on_device(self, image):
        """The entries that the device has; what only the system's memory holds is not among them."""
        with mounted(shutil.copyfile(image, os.path.join(self.folder, "seen.image"))) as (_, place):
            return entries_in(place)

    def fault(self, title, what):
        self.faults.append("%s: %s: %s" % (self.start.title, title, what))

    def look(self, title, image, least, whole=None):
        """Holds what the device has against what it has to have: a beginning with so many entries, or just so many."""
        found = self.on_device(image)
        if found is None or found != self.entries[:len(found)] or len(found) < least or whole not in (None, len(found)):
            wanted = "%d entries" % whole if whole is not None else "a beginning with at least %d entries" % least
            self.fault(title, "the device has %s, and has to have %s" % ("a damaged file" if found is None else "%d entries" % len(found), wanted))

    def finished(self, title, image, loop, place, count):
        """A run over the first lines of which no sync fails: it opens what the file shows, is done, and the device has all of them."""
        shown = len(entries_in(place) or [])
        given = self.run(loop, place, count)
        if given.status not in DONE or not given.report.startswith(b"opened %d\n" % shown):
            self.fault(title, "a run that goes on from %d entries gives %s %r" % (shown, given.status, given.report[:40]))
        self.look(title + ", gone on to %d" % count, image, 0, count)

    def one(self, how, number, again="", other=0):
        """Has a sync of the first run fail or not come, and then one of the next, and goes on."""
        title = "%s at sync %d" % (how, number) + (", then %s at sync %d" % (again, other) if again else "")
        image = self.fresh()
        self.tried += 1
        with mounted(image) as (loop, place):
            kept = self.start.held + max(0, number - 1 - self.opening) // 2
            for way, at, count in ((how, number, self.start.first), (again, other, 0)):
                if not way:
                    continue
                given = self.run(loop, place, count or len(entries_in(place) or []), way, at)
                self.failed += given.status == DISK
                if given.status not in DONE + (DISK, ENDED):
                    self.fault(title, "a run gives %s" % given.status)
                if given.status in DONE:
                    kept = max(kept, count or len(entries_in(place) or []))
                self.look(title, image, kept)
            self.finished(title, image, loop, place, len(entries_in(place) or []))
            self.finished(title, image, loop, place, len(self.start.lines))

    def all(self):
        """Tries each sync."""
        for number in range(1, self.syncs + 1):
            other = 1 + number % max(1, self.opening)
            for how in (FAILS, ENDS):
                self.one(how, number)
                self.one(how, number, FAILS, other)
            self.one(FAILS, number, ENDS, other)


def starts(program, folder):
    """The starts, and their day, which is made up and recovered."""
    day, out = os.path.join(folder, "day"), os.path.join(folder, "recovered")
    subprocess.run([program, "gen", day], check=True, stdout=subprocess.DEVNULL)
    subprocess.run([program, "recover", day, out], check=True, stdout=subprocess.DEVNULL, stderr=subprocess.DEVNULL)
    with open(os.path.join(out, "journal.csv"), encoding="ascii") as file:
        lines = file.read().splitlines()
    page = TO_A_PAGE + ["2,move,tidy"] * 10
    yield "new", Start("a new file", lines, 0, len(lines))
    yield "page", Start("the end mark is the last byte of a page", page, len(TO_A_PAGE), len(TO_A_PAGE) + 3)


def is_allowed(folder):
    """Whether a loop device may be mounted here; where it may not, says why."""
    try:
        with mounted(new_image(os.path.join(folder, "try.image"))):
            return True
    except (OSError, subprocess.CalledProcessError) as error:
        print("no loop device can be mounted here, so NOTHING WAS TRIED: %s" % (getattr(error, "stderr", None) or error))
        return False


def main():
    parser = argparse.ArgumentParser(description="Has each sync of runs of `store` fail in turn.")
    parser.add_argument("--program", default=DESK, help="the desk")
    parser.add_argument("--only", nargs="*", default=(), help="the starts that are tried: new, page")
    asked = parser.parse_args()
    faults, failed = [], 0
    with tempfile.TemporaryDirectory() as folder:
        if not is_allowed(folder):
            return NOT_TRIED
        shim = os.path.join(folder, "failing.so")
        subprocess.run(["gcc", "-shared", "-fPIC", "-O1", "-o", shim, os.path.join(HERE, "failing_sync.c"), "-ldl"], check=True)
        for name, start in starts(os.path.abspath(asked.program), folder):
            if asked.only and name not in asked.only:
                continue
            tries = Tries(os.path.abspath(asked.program), shim, folder, start)
            tries.all()
            print("%s: %d syncs, %d of them to open it; %d tries, in which %d runs ended with 8: %d faults"
                  % (start.title, tries.syncs, tries.opening, tries.tried, tries.failed, len(tries.faults)), flush=True)
            for fault in tries.faults[:20]:
                print(fault)
            faults, failed = faults + tries.faults, failed + tries.failed
    return 1 if faults or not failed else 0


if __name__ == "__main__":
    sys.exit(main())
