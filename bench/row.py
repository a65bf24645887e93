#!/usr/bin/env python3
"""Runs cases of crates/desk_rows by hand, with ./desk over a folder of the disk.

Usage: bench/row.py [--second] NAME ..

With --second the cases are played by the package bench/judge.

Prints each transcript as it comes, and ends with 1 where one is not as it stands in the case. A run
whose calls are to fail, whose sink has little room, in which somebody waits at the gate, or of which it is told what a listener hears,
can't be made so: it is left out, with its answer. So are all runs of a case that keeps a journal on a disk, whose bytes one run hands to the next. A run whose calls are to give
and take few bytes is made as any other.
"""
import itertools
import os
import re
import shutil
import subprocess
import sys
import tempfile

from judge import disk

TOP = os.path.dirname(os.path.dirname(os.path.abspath(__file__)))
DATA = os.path.join(TOP, "crates", "desk_rows", "data")
SOLUTION = ("sol_rotations.csv", "sol_itineraries.csv")
# all files, in file order
FILES = (
    "config.csv", "flights.csv", "rotations.csv", "aircraft.csv", "airports.csv", "dist.csv", "itineraries.csv",
    "position.csv", "alt_flights.csv", "alt_aircraft.csv", "alt_airports.csv", "tariff.csv", "feed.csv", "journal.csv",
) + SOLUTION + ("sol_added.csv",)
ESCAPES = {b"n": b"\n", b"r": b"\r", b"t": b"\t"}


def unescaped(text):
    def byte(mark):
        name = mark.group(1)
        return bytes([int(name[1:], 16)]) if name[:1] == b"x" else ESCAPES.get(name, name)

    return re.sub(rb"\\(x..|.)", byte, text.encode())


def read(path):
    if not os.path.exists(path):
        return b""
    with open(path, "rb") as file:
        return file.read()


def write(path, text):
    with open(path, "wb") as file:
        file.write(text)


def shown(text):
    return text + (b"\\\n" if text and not text.endswith(b"\n") else b"")


def new_day(case, folder):
    """A folder with the files of the usual day, and over them those of the case."""
    day = tempfile.mkdtemp(dir=folder)
    os.mkdir(os.path.join(day, "in"))
    for source in (os.path.join(DATA, "usual"), case):
        for name in os.listdir(source):
            if name.endswith(".csv"):
                shutil.copy(os.path.join(source, name), os.path.join(day, "in", name))
    return day


def change(day, before, words):
    """Does a command that is about the next run."""
    verb, _, rest = words.partition(" ")
    name, _, rest = rest.partition(" ")
    path = os.path.join(day, "in", name)
    if verb == "text":
        write(path, unescaped(rest))
    elif verb == "rows":
        first, last, row = rest.split(" ", 2)
        row = unescaped(row)
        rows = (row.replace(b"{}", b"%d" % n, 1) for n in range(int(first), int(last) + 1))
        write(path, read(path) + b"".join(rows))
    elif verb == "take":
        write(path, before.get(name, b""))
    elif verb not in ("cut", "sizes", "repeats", "last", "heard"):
        sys.exit("no command: " + words)


def directories_of(words):
    """The words that name the input and the output, where there are as many as the command has."""
    dirs, rest = [], iter(words[1:])
    for word in rest:
        if word == "--":
            dirs += rest
        elif not word.startswith("-"):
            dirs.append(word)
        elif "=" not in word and word not in ("--live", "--watch", "--crew"):
            next(rest, None)  # the number of the option
    if words[:1] == ["gen"]:
        return "", dirs[0] if len(dirs) == 1 else ""
    return tuple(dirs) if len(dirs) == 2 else ("", "")


def repeated(text):
    """A text of which lines one after another that are the same stand once, after how many times they come."""
    told = b""
    for line, same in itertools.groupby(text.splitlines(keepends=True)):
        times = len(list(same))
        told += b"%d times %s" % (times, line) if times > 1 else line
    return told


def file_told(name, text, changes):
    """A file that a run wrote: its text, or how many bytes it has."""
    if "sizes" in changes:
        return b"%s: %d bytes\n" % (name.encode(), len(text))
    return name.encode() + b":\n" + shown(repeated(text) if "repeats" in changes else text)


def run_desk(words, day):
    """The status and the report of the desk in a folder."""
    done = subprocess.run([os.path.join(TOP, "desk")] + words, cwd=day, stdout=subprocess.PIPE)
    return done.returncode, done.stdout


def played(run, day, words, changes):
    """What a run gives, and what it wrote. A check finds the files of the solution in its output directory, and so does what adds legs."""
    words = ["" if word == "''" else word for word in words.split()]
    given, out = directories_of(words)
    if words[:1] in (["check"], ["ferry"]) and out:
        os.makedirs(os.path.join(day, out), exist_ok=True)
        for name in SOLUTION:
            if os.path.exists(os.path.join(day, "in", name)):
                os.rename(os.path.join(day, "in", name), os.path.join(day, out, name))
    if given:
        os.rename(os.path.join(day, "in"), os.path.join(day, given))
    stood = {name: read(os.path.join(day, out, name)) for name in FILES}
    status, report = run(words, day)
    texts = {name: read(os.path.join(day, out, name)) for name in FILES}
    written = {name: texts[name] for name in FILES if texts[name] and texts[name] != stood[name]}
    told = b"status %d\n" % status + shown(report)
    for name, text in written.items():
        told += file_told(name, text, changes)
    return told, written


def given_below(lines, at):
    """The lines of an answer that stands in the transcript."""
    end = at
    while end < len(lines) and lines[end] and not lines[end].startswith(("#", "$ ")):
        end += 1
    return "".join(line + "\n" for line in lines[at:end]).encode()


def ready_day(case, folder, before, changes):
    """A folder in which the next run is made."""
    day = new_day(case, folder)
    for words in changes:
        change(day, before, words)
    return day


def fronts_told(run, day, words):
    """What runs give with each beginning of a file in its place, once for those one after another that give the same."""
    name, _, words = words.partition(" ")
    text = read(os.path.join(day, "in", name))
    given = []
    for size in range(len(text) + 1):
        with tempfile.TemporaryDirectory() as folder:
            copy = shutil.copytree(day, os.path.join(folder, "day"))
            write(os.path.join(copy, "in", name), text[:size])
            given.append(played(run, copy, words, [])[0])
    told, end = b"", 0
    for front, same in itertools.groupby(given):
        start, end = end, end + len(list(same))
        told += (b"%d bytes:\n" % start if end == start + 1 else b"%d to %d bytes:\n" % (start, end - 1)) + front
    return told


def texts_given(told):
    """The files that an answer says were written."""
    texts, name = {}, None
    for line in told.splitlines(keepends=True):
        stem = line.rstrip(b":\n").decode(errors="replace")
        if line.endswith(b":\n") and stem in FILES:
            name, texts[stem] = stem, b""
        elif name:
            texts[name] += line
    return texts


def play(case, folder, run):
    """The transcript of a case as it comes."""
    lines = read(os.path.join(case, "transcript")).decode().splitlines()
    text, before, changes = b"", {}, []
    on_disk = any(line.startswith("$ ./desk store") for line in lines)
    for at, line in enumerate(lines):
        if not line or line.startswith(("#", "$ ")):
            text += line.encode() + b"\n"
        if line.startswith("$ ./desk"):
            by_hand = not on_disk and not any(words.startswith(("fail ", "room ", "hold ", "heard")) for words in changes)
            if by_hand:
                day = ready_day(case, folder, before, changes)
                told, before = played(run, day, line[len("$ ./desk"):], changes)
            else:
                told = given_below(lines, at + 1)
                before = texts_given(told)
            text += told
            changes = []
        elif line.startswith("$ fronts "):
            text += fronts_told(run, ready_day(case, folder, before, changes), line[len("$ fronts "):])
            before, changes = {}, []
        elif line.startswith("$ "):
            changes.append(line[2:])
    return text


def main():
    others, names = 0, sys.argv[1:]
    run = disk.run if names[:1] == ["--second"] else run_desk
    names = names[1:] if run == disk.run else names
    for name in names:
        case = os.path.join(DATA, name)
        with tempfile.TemporaryDirectory() as folder:
            text = play(case, folder, run)
        is_other = text != read(os.path.join(case, "transcript"))
        others += is_other
        print(text.decode(errors="replace") + ("other than expected" if is_other else "as expected"))
    sys.exit(1 if others or not names else 0)


if __name__ == "__main__":
    main()
