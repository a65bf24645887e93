#!/usr/bin/env python3
"""Times `store` of the built desk: how fast it opens a full journal.bin, and how many events a second it keeps.

    bench/kept.py           a journal.bin of 900,000 records, and 2,000 events that are kept one by one
    bench/kept.py --events N

Two full files are opened, one of the shortest records (12 bytes: the most records a megabyte has) and one of moves that set a leg (18
bytes). With an empty journal.csv the run ends once the file is opened and compared, so that its time, less that of a run with no file,
is that of opening. A full journal takes no move: with one event more the run reports that it opened 900,000 entries and leaves the file
as it was; the script ends with 1 where it does not. Then events are kept in a new file, and beside that stands how
many times a second this machine brings a byte of a file to its device. The folders are made in the repository, on its own disk.
"""
import os
import resource
import shutil
import subprocess
import sys
import tempfile
import time

TOP = os.path.dirname(os.path.dirname(os.path.abspath(__file__)))
DESK = os.path.join(TOP, "crates", "desk", "out", "desk")
MOST = 900_000
TIDY = bytes.fromhex("0100000007" "00000001" "01" "01" "04")
# caller 1 gives leg 0, which has no row, no row
SET = bytes.fromhex("010000000d" "00000001" "01" "01" "00" "00000000" "00" "00")


def processor():
    """The processor seconds of all runs so far."""
    used = resource.getrusage(resource.RUSAGE_CHILDREN)
    return used.ru_utime + used.ru_stime


def run(*words):
    """The status and the report of a run, its seconds by the clock, and those of the processor."""
    begun, used = time.time(), processor()
    done = subprocess.run([DESK, *words], stdout=subprocess.PIPE, stderr=subprocess.DEVNULL)
    return done.returncode, done.stdout.decode(), time.time() - begun, processor() - used


def write(path, data):
    """Writes a file and brings it to the device, so that no run has to."""
    with open(path, "wb") as file:
        file.write(data)
        file.flush()
        os.fsync(file.fileno())


def opening(day, folder, record):
    """The bytes of a full file of such records, and the seconds that it takes to open it, by the clock and of the processor."""
    out = os.path.join(folder, "full")
    os.makedirs(out, exist_ok=True)
    stored = os.path.join(out, "journal.bin")
    write(os.path.join(day, "journal.csv"), b"")
    write(stored, b"\0")
    none = [run("store", day, out)[2:] for _ in range(3)]
    write(stored, record * MOST + b"\0")
    took = []
    for _ in range(3):
        status, report, *seconds = run("store", day, out)
        if (status, report) != (3, "refused journal.csv 0 Other\n"):
            sys.exit(f"opening ended with {status} {report}")
        took.append(seconds)
    return [len(record) * MOST + 1] + [min(many[i] for many in took) - min(one[i] for one in none) for i in (0, 1)]


def full(day, folder):
    """Whether a full journal takes no move more and leaves the file as it was, and the seconds of that run."""
    out = os.path.join(folder, "full")
    data = TIDY * MOST + b"\0"
    write(os.path.join(out, "journal.bin"), data)
    write(os.path.join(day, "journal.csv"), b"1,move,tidy\n" * (MOST + 1))
    status, report, seconds, _ = run("store", day, out)
    with open(os.path.join(out, "journal.bin"), "rb") as file:
        same = file.read() == data
    return status == 0 and report.startswith(f"opened {MOST}\n") and same, seconds


def syncs(folder, count):
    """How many times a second a byte of a file is brought to the device."""
    file = os.open(os.path.join(folder, "byte"), os.O_CREAT | os.O_RDWR)
    os.pwrite(file, bytes(100_000), 0)
    os.fsync(file)
    begun = time.time()
    for i in range(count):
        os.pwrite(file, b"\1", i)
        os.fdatasync(file)
    took = time.time() - begun
    os.close(file)
    return count / took


def main(words):
    count = int(words[1]) if words[:1] == ["--events"] else 2_000
    folder = tempfile.mkdtemp(dir=TOP)
    try:
        day = os.path.join(folder, "day")
        run("gen", day)
        for name, record in (("tidy", TIDY), ("set", SET)):
            size, seconds, used = opening(day, folder, record)
            print(f"{MOST} records of {name}, {size / 1e6:.1f} MB, are opened in {seconds:.2f} s, {used:.2f} s of the processor: "
                  f"{size / 1e6 / used:.0f} MB a second of it")
        is_same, seconds = full(day, folder)
        print(f"one event more than a full journal takes: {seconds:.2f} s, {'the file stays' if is_same else 'WRONG'}")
        write(os.path.join(day, "journal.csv"), b"1,move,tidy\n" * count)
        status, report, seconds, _ = run("store", day, os.path.join(folder, "new"))
        begin = run("replay", day, os.path.join(folder, "new"))[2]
        print(f"{count} events are kept in {seconds - begin:.2f} s: {count / (seconds - begin):.0f} a second, with two syncs each")
        print(f"the machine brings {syncs(folder, 2 * count):.0f} bytes a second to the device, one by one")
        return 0 if is_same and (status, report.split("\n")[0]) == (0, "opened 0") else 1
    finally:
        shutil.rmtree(folder)


if __name__ == "__main__":
    sys.exit(main(sys.argv[1:]))
