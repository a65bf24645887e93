#!/usr/bin/env python3
"""Holds the calls that `store` makes of the host's file against the order by which a record is kept, record by record, with strace.

    bench/calls_in_order.py [--program PATH] [DAY]

A made-up day that a recovery was made of is kept, or DAY with its journal.csv: with no file, with one that has half of the entries, and with one
in which another byte than 0 stands behind these. Behind all by which the file was opened each record has to be kept by just these calls, and
nothing else may write to the file or sync it: a write of its length, its payload and a byte 0 behind the end mark that stands, a sync, a write of the byte 1 over that
end mark, a sync. Before the first of them what was written at opening has to be synced, with the folder where the file got its name or was put in the
place of another; and the report and the other files may come only behind the last. So a record costs two syncs and no more.

It prints a line for each run, with how many syncs it made to open the file, and ends with 1 where a call was other than it has to be. Where
there is no strace, or it may watch nothing, it says so, tries nothing and ends with 77.
"""
import argparse
import os
import re
import shutil
import subprocess
import sys
import tempfile
from typing import NamedTuple

from judge.disk import read as files_of
from judge.files import DAY_FILES
from judge.stored import file_payloads, journal_payloads

TOP = os.path.dirname(os.path.dirname(os.path.abspath(__file__)))
DESK = os.path.join(TOP, "crates", "desk", "out", "desk")
NOT_TRIED, DONE = 77, (0, 1)
WRITES, SYNCS = ("write", "pwrite64"), ("fsync", "fdatasync")
WATCHED = WRITES + SYNCS + ("lseek", "openat", "open", "rename", "renameat", "renameat2", "ftruncate", "writev", "pwritev", "pwritev2", "fallocate",
                            "sync_file_range", "syncfs", "sync", "read", "pread64")
CALL = re.compile(r"\d+ +(\w+)\((.*)\) += (-?\d+)")
FILE = re.compile(r"\d+<([^>]*)>")
TEXT = re.compile(r'"([^"]*)"')


class Call(NamedTuple):
    """A call that answered: its name, the file that it was made of, at which place of it, with which bytes; a sync has none."""
    name: str
    path: str
    place: int
    data: bytes


def text_of(hexed):
    """The bytes that strace tells in hexadecimal."""
    return bytes.fromhex(hexed.replace("\\x", ""))


def path_of(words):
    """The file that a call was made of, by its descriptor."""
    found = FILE.match(words)
    return text_of(found[1]).decode(errors="replace") if found and found[1].startswith("\\x") else ""


def calls_of(lines):
    """The calls that change a file, bring it to the device or give it its name, in their order; of a write that was made in parts the whole."""
    places, calls = {}, []
    for line in lines:
        found = CALL.match(line)
        if not found or int(found[3]) < 0:
            continue
        name, words, answer = found[1], found[2], int(found[3])
        path = path_of(words)
        if name == "lseek":
            places[path] = answer
        elif name == "read":
            places[path] = places.get(path, 0) + answer
        elif name in WRITES:
            place = int(words.rsplit(",", 1)[1]) if name == "pwrite64" else places.get(path, 0)
            data = text_of(TEXT.search(words)[1])[:answer]
            last = calls[-1] if calls else None
            if last and last.name == "write" and last.path == path and last.place + len(last.data) == place:
                calls[-1] = last._replace(data=last.data + data)
            else:
                calls.append(Call("write", path, place, data))
            if name == "write":
                places[path] = place + answer
        elif name.startswith("open"):
            opened = FILE.search(line.rsplit("=", 1)[1])
            path = text_of(opened[1]).decode(errors="replace") if opened else ""
            places[path] = 0
            if "O_CREAT" in words:
                calls.append(Call("name", path, 0, b""))
        elif name.startswith("rename"):
            before, now = [text_of(one) for one in TEXT.findall(words)]
            calls.append(Call("name", now.decode(errors="replace"), 0, before))
        elif name not in ("pread64",):
            calls.append(Call("sync" if name in SYNCS else name, path, 0, b""))
    return calls


def wanted_of(payloads, held):
    """The calls by which the entries from a place on are kept."""
    mark = sum(5 + len(payload) for payload in payloads[:held])
    for payload in payloads[held:]:
        yield "write", mark + 1, len(payload).to_bytes(4, "big") + payload + b"\x00"
        yield "sync", 0, b""
        yield "write", mark, b"\x01"
        yield "sync", 0, b""
        mark += 5 + len(payload)


def told(call):
    """A call in words."""
    return "%s at %d of %d bytes" % (call[0], call[1], len(call[2])) if call[0] == "write" else call[0]


def faults_of(calls, payloads, held, folder):
    """What is other than it has to be, and how many syncs the file was opened by."""
    path = os.path.join(folder, "journal.bin")
    wanted = list(wanted_of(payloads, held))
    own = [number for number, call in enumerate(calls) if call.path == path and call.name != "name"]
    keeping = own[len(own) - len(wanted):] if wanted and len(own) >= len(wanted) else own
    faults = []
    for number, (index, want) in enumerate(zip(keeping, wanted)):
        found = (calls[index].name, calls[index].place, calls[index].data)
        if found != want:
            faults.append("call %d of record %d is %s, and has to be %s" % (number % 4 + 1, held + number // 4, told(found), told(want)))
    if len(own) < len(wanted):
        faults.append("%d calls keep %d records" % (len(own), len(payloads) - held))
    first, last = (keeping[0], keeping[-1]) if keeping else (len(calls), -1)
    opening, rest = calls[:first], calls[last + 1:]
    faults += pending_in(opening, path, folder)
    between = [call for call in calls[first:last + 1] if call.path != path]
    faults += ["%s of %s comes while records are kept" % (call.name, os.path.basename(call.path)) for call in between]
    if any(call.name == "write" and call.path.endswith(".csv") for call in opening) or not any(call.path.endswith(".csv") for call in rest):
        faults.append("the texts are not written behind the last record")
    return faults, sum(call.name == "sync" for call in opening)


def pending_in(opening, path, folder):
    """What is not on the device where the first record is kept: bytes of the file, or its name."""
    faults = []
    named = [number for number, call in enumerate(opening) if call.name == "name" and os.path.basename(call.path) == "journal.bin"]
    names = {"journal.bin"} | {os.path.basename(opening[number].data.decode(errors="replace")) for number in named}
    own = [call.name for call in opening if os.path.basename(call.path) in names and call.name != "name"]
    if not own or own[-1] != "sync":
        faults.append("the file is not synced before the first record")
    synced = [number for number, call in enumerate(opening) if call.name == "sync" and call.path == folder]
    if named and (not synced or synced[-1] < named[-1]):
        faults.append("the folder is not synced behind the name of the file")
    return faults


def run(words, **more):
    return subprocess.run(words, stdout=subprocess.PIPE, stderr=subprocess.DEVNULL, check=False, **more)


def watched(program, day, out, log):
    """Watches a run; its status and the lines of strace."""
    words = ["strace", "-f", "-y", "-xx", "-s", "1000000", "-o", log, "-e", "trace=" + ",".join(WATCHED), program, "store", day, out]
    status = run(words).returncode
    with open(log, encoding="ascii", errors="replace") as file:
        return status, file.readlines()


def made_day(program, folder):
    """A made-up day with the journal of its recovery."""
    day, out = os.path.join(folder, "day"), os.path.join(folder, "recovered")
    run([program, "gen", day, "--size", "2"])
    run([program, "recover", day, out, "--moves", "100"])
    shutil.copy(os.path.join(out, "journal.csv"), day)
    return day


def main():
    parser = argparse.ArgumentParser(description="Holds the calls of `store` against the order by which a record is kept.")
    parser.add_argument("--program", default=DESK, help="the desk")
    parser.add_argument("day", nargs="?", help="a day with its journal.csv")
    asked = parser.parse_args()
    if not shutil.which("strace") or run(["strace", "-o", os.devnull, "true"]).returncode:
        print("strace is not there or may watch nothing, so NOTHING WAS TRIED")
        return NOT_TRIED
    program, wrong = os.path.abspath(asked.program), 0
    with tempfile.TemporaryDirectory() as folder:
        folder = os.path.realpath(folder)
        day = os.path.abspath(asked.day) if asked.day else made_day(program, folder)
        payloads = journal_payloads(files_of(day, DAY_FILES + ("journal.csv",)))
        half = b"".join(b"\x01" + len(one).to_bytes(4, "big") + one for one in payloads[:len(payloads) // 2])
        for title, begun in (("no file", None), ("half of the entries", half + b"\x00"), ("another byte behind these", half + b"\x07noise")):
            out = os.path.join(folder, "out")
            shutil.rmtree(out, ignore_errors=True)
            if begun is not None:
                os.mkdir(out)
                with open(os.path.join(out, "journal.bin"), "wb") as file:
                    file.write(begun)
            held = len(file_payloads(begun or b""))
            status, lines = watched(program, day, out, os.path.join(folder, "log"))
            faults, opening = faults_of(calls_of(lines), payloads, held, out)
            if status not in DONE:
                faults.append("it ended with %s" % status)
            print("%s: %d records are kept, each by two writes and two syncs; %d syncs before the first: %d faults"
                  % (title, len(payloads) - held, opening, len(faults)))
            for fault in faults[:8]:
                print("  " + fault)
            wrong += len(faults)
    return 1 if wrong else 0


if __name__ == "__main__":
    sys.exit(main())
