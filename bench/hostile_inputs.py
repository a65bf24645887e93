"""Runs that are killed, and inputs that are hostile, for bench/hostile.py: noise, odd names, numbers at both ends of their ranges.

What a run has to give is what the package bench/judge says of the same files; of noise it is asked about the beginning, which decides.
"""
import collections
import random
import re
import resource
import signal
import subprocess
import tempfile
import time

from hostile_room import OLD, SAMPLE, WRITTEN, Given, Room, files_of, left_in, printed, row_of, run
from judge import expected
from judge.files import DAY_FILES, MOST_JOURNAL_BYTES, SOLUTION_FILES

REPLAY, CHECK = ("replay", "in", "out"), ("check", "in", "out")
# of noise the judge reads so many bytes, which have several rows and whole lines of each kind
BEGINNING = 64 * 1024


# Runs that are killed


def long_run(room):
    """Has a replay take a while, and write a while: what it then writes, and its seconds."""
    with open(room.of("in", "journal.csv"), "ab") as file:
        file.write(b"1,move,tidy\n" * 20_000)
    return room.new()


def kill_once(program, room, new, after):
    """Kills a replay after so many seconds, and gives what it left; none where it had ended."""
    for name in WRITTEN:
        room.put("out", name, OLD)
    child = subprocess.Popen([program, *REPLAY], cwd=room.path, stdin=subprocess.DEVNULL, stdout=subprocess.DEVNULL)
    time.sleep(after)
    child.send_signal(signal.SIGKILL)
    return left_in(room, new) if child.wait() == -signal.SIGKILL else None


def kills(asked):
    """Kills runs at random moments, and gives a row for each thing that they left."""
    draws, seen = random.Random(1), collections.Counter()
    with tempfile.TemporaryDirectory() as path:
        room = Room(path)
        new = long_run(room)
        took = min(run(asked.program, REPLAY, path).seconds for _ in range(3))
        for _ in range(asked.kills):
            seen[kill_once(asked.program, room, new, took * draws.uniform(0.3, 1))] += 1
    for left, count in seen.most_common():
        # what an earlier run left is gone before a byte is written
        good = left is None or not ("OTHER" in left or "old" in left and ("whole" in left or "beginning" in left))
        told = "%d runs had ended" % count if left is None else "%d runs were killed" % count
        yield "| %s | %s | %s | | %s |" % (told, " ".join(REPLAY), "" if left is None else "SIGKILL", left or ""), good


# Noise

NOISES = (
    ("bytes that are 0", b"\0" * 4096), ("bytes that are 255", b"\xff" * 4096), ("the letter a", b"a" * 4096),
    ("empty lines", b"\n" * 4096), ("spaces", b" " * 4096), ("CR", b"\r" * 4096), ("commas", b"," * 4096), ("quote marks", b'"' * 4096),
    ("an open quote, and lines", b'"' + b"a\n" * 2048), ("lines of a #", b"#\n" * 2048), ("digits", b"0123456789" * 400),
    ("lines of a 1", b"1\n" * 2048), ("lines of fields", b"1 A B 0 0 0 0 0 0 0 0 0 0 0 0 0\n" * 128),
    ("records of fields", b"1,none,0,0,0\n" * 300), ("random bytes", random.Random(2).randbytes(65_536)),
)


def noise_of(block, megabytes):
    """So many megabytes of a block, again and again, and the first of them."""
    size = megabytes << 20
    if block.startswith(b'"a'):
        block = block[:1] + block[1:] * (size // (len(block) - 1))
        return block[:size], block[:BEGINNING]
    return (block * (size // len(block) + 1))[:size], (block * (BEGINNING // len(block) + 1))[:BEGINNING]


def wanted_of(files, solution):
    return expected.check(files, solution) if solution is not None else expected.replay(files)


def noise_in(asked, name, title, block):
    """A row of noise in one file."""
    with tempfile.TemporaryDirectory() as path:
        room = Room(path)
        files, solution = files_of(room.of("in")), None
        whole, beginning = noise_of(block, asked.noise)
        if name in SOLUTION_FILES:
            solution = {**room.new(), name: beginning}
            for each in SOLUTION_FILES:
                room.put("out", each, whole if each == name else solution[each])
        else:
            room.put("in", name, whole)
            files[name] = beginning
        wanted = wanted_of(files, solution)
        given = run(asked.program, CHECK if solution else REPLAY, path)
    good = (given.status, given.said) == (wanted.status, wanted.report)
    return given, wanted, good


def noise(asked):
    """A row for each kind of noise: what each file that it stands in gives."""
    for title, block in NOISES:
        causes, most, good, slowest = collections.Counter(), 0, True, 0
        for name in DAY_FILES + ("journal.csv",) + SOLUTION_FILES:
            given, wanted, fits = noise_in(asked, name, title, block)
            cause = given.said.decode("ascii", "replace").split()[-1] if given.status == 3 else "read"
            causes["%s, %s" % (given.status, cause)] += 1
            most, slowest, good = max(most, given.megabytes), max(slowest, given.seconds), good and fits
            if not fits:
                print("noise %r in %s: gave %s, wanted %s" % (title, name, given, wanted[:2]), flush=True)
        told = "; ".join("%s: %d" % pair for pair in causes.most_common())
        yield "| %d MB of %s in each of 16 files in turn | replay, check | %s | | at most %.1f s and %d MB of memory |" % (
            asked.noise, title, told, slowest, most), good


# Rows that are right, as many as a file may hold

MANY = (
    ("dist.csv", b"A B 0 D\n"), ("alt_flights.csv", b"F1 1/3/08 1\n"), ("itineraries.csv", b"R A 1 1 F1 1/3/08 E\n"),
    ("position.csv", b"A M 0/0/0 0\n"), ("flights.csv", b"F A B 0:00 0:01 0\n"), ("tariff.csv", b"position,1\n"),
    ("feed.csv", b"1,none\n"), ("journal.csv", b"0,move,tidy\n"),
)


def most_rows(asked):
    """A row of the longest journal.csv there may be, of the shortest moves, in 2 GB of memory."""
    line, most = b"0,move,tidy\n", 2 << 30
    with tempfile.TemporaryDirectory() as path:
        room = Room(path)
        count = MOST_JOURNAL_BYTES // len(line)
        room.put("in", "journal.csv", line * count)
        given = run(asked.program, REPLAY, path, limits=[(resource.RLIMIT_AS, most)])
    return "| %d rows `%s` in journal.csv, 256 MB, in 2,048 MB of memory | replay | %s | %s | %.1f s and %d MB of memory |" % (
        count, line.decode().strip(), given.status, printed(given.said), given.seconds, given.megabytes), given.status in (0, 3)


def rows(asked):
    """A row for each file that is full of rows which are right by themselves."""
    yield most_rows(asked)
    for name, line in MANY:
        with tempfile.TemporaryDirectory() as path:
            room = Room(path)
            count = (asked.noise << 20) // len(line)
            if name == "journal.csv":
                count = min(count, 920_000)
            room.put("in", name, line * count)
            given = run(asked.program, REPLAY, path)
            good = given.status in (0, 3)
        yield "| %d rows `%s` in %s | replay | %s | %s | %.1f s and %d MB of memory |" % (
            count, line.decode().strip(), name, given.status, printed(given.said), given.seconds, given.megabytes), good


# Names and numbers


def due_of(files):
    """What has to stand in the outputs, as `left_in` says it: those of this run, of which some may be empty, or the old ones."""
    states = ["old" if not files else "whole" if files[name] else "empty" for name in WRITTEN]
    return states[0] if len(set(states)) == 1 else ", ".join(states)


def played(program, files, title, solution=None):
    """A row of files that are handed in: what the desk gives has to be what the judge says."""
    with tempfile.TemporaryDirectory() as path:
        room = Room(path)
        for name, text in files.items():
            room.put("in", name, text)
        for name, text in (solution or {}).items():
            room.put("out", name, text)
        words = CHECK if solution else REPLAY
        wanted = wanted_of(files, solution)
        given = run(program, words, path)
        left = left_in(room, wanted.files or dict.fromkeys(WRITTEN, b""))
    good = (given.status, given.said) == (wanted.status, wanted.report) and (bool(solution) or left == due_of(wanted.files))
    return row_of(title, words, given, "" if solution else left), good, given


def renamed(files, names):
    """The files with other names in the place of those of the sample day, whole words alone."""
    pattern = re.compile(rb"(?<![^ ,\n])(%s)(?![^ ,\n])" % b"|".join(map(re.escape, names)))
    quoted = {name: b'"%s"' % new.replace(b'"', b'""') if b"," in new or b'"' in new else new for name, new in names.items()}
    return {file: pattern.sub(lambda found: (quoted if file == "feed.csv" else names)[found[1]], text) for file, text in files.items()}


def odd_names(draws, names):
    """A new name of 32 bytes for each, of bytes that can be printed; all of them come."""
    pool = [byte for _ in range(4) for byte in range(0x21, 0x7F)]
    draws.shuffle(pool)
    made = {name: bytes(pool[32 * at:32 * at + 32]) for at, name in enumerate(names)}
    return {name: b"!" + new[1:] if new.startswith(b"#") else new for name, new in made.items()}


def names(asked):
    """Rows of names of 32 bytes."""
    draws = random.Random(3)
    files = {**files_of(SAMPLE), "journal.csv": b"0,batch,0\n0,batch,1\n"}
    for _ in range(5):
        odd = odd_names(draws, (b"F1", b"F2", b"F3", b"P1", b"P2", b"AAA", b"BBB", b"R1", b"R2", b"R3"))
        row, good, _ = played(asked.program, renamed(files, odd), "all names have 32 bytes, of every kind that can be printed")
        yield row, good
    for old, new in ((b"F1", b"#1"), (b"P1", b"cancelled"), (b"P1", b"+"), (b"AAA", b"A-A-A"), (b"F1", b"a" * 33), (b"F2", b'",",')):
        title = "is named `%s`" % new.decode() if len(new) <= 32 else "has a name of %d bytes" % len(new)
        row, good, _ = played(asked.program, renamed(files, {old: new}), "%s %s" % (old.decode(), title))
        yield row, good


# the two aircraft of the sample day, of which the first is spelled with a number
PLANES = b"P1 M1 NB %s AAA %s\nP2 M1 NB 0/0/9 600 120 30 20 AAA NULL\n"
# the rotations of a plan of the sample day, of which the first is spelled with a number
FLOWN = b"F1 %s P1 %s\nF2 01/03/08 P1 01/03/08 11:00\nF3 01/03/08 P2 01/03/08 14:00\n"


def planes(numbers, maintenance=b"NULL"):
    return PLANES.replace(b"%s", numbers, 1).replace(b"%s", maintenance, 1)


# a file, its line with a place for a number, and the least and the most that stands there
RANGES = (
    ("config.csv", b"%d/03/08 06:00 02/04/08 06:00\n", 1, 31),
    ("config.csv", b"01/%d/08 06:00 02/12/08 06:00\n", 1, 12),
    ("config.csv", b"01/03/%02d 06:00 02/03/99 06:00\n", 0, 99),
    ("config.csv", b"01/03/%d 06:00 02/03/2099 06:00\n", 2_000, 2_099),
    ("config.csv", b"01/03/08 %d:00 02/03/08 06:00\n", 0, 23),
    ("config.csv", b"01/03/08 06:%02d 02/03/08 06:00\n", 0, 59),
    ("flights.csv", b"F1 AAA BBB %d:00 09:00 0\nF2 BBB AAA 09:30 10:30 0\nF3 AAA BBB 12:00 13:00 0\n", 0, 23),
    ("flights.csv", b"F1 AAA BBB 08:00 09:00+%d 0\nF2 BBB AAA 09:30 10:30 0\nF3 AAA BBB 12:00 13:00 0\n", 0, 9),
    ("rotations.csv", b"F1 %d/03/08 P1\nF2 01/03/08 P1\nF3 01/03/08 P2\n", 1, 31),
    ("aircraft.csv", planes(b"0/0/%d 600 100 30 20"), 0, 999),
    ("aircraft.csv", planes(b"0/%d/10 600 100 30 20"), 0, 999),
    ("aircraft.csv", planes(b"%d/0/10 600 100 30 20"), 0, 999),
    ("aircraft.csv", planes(b"0/0/10 %d 100 30 20"), 0, 100_000),
    ("aircraft.csv", planes(b"0/0/10 600 %d 30 20"), 0, 999_999_999),
    ("aircraft.csv", planes(b"0/0/10 600 100 %d 20"), 0, 2_880),
    ("aircraft.csv", planes(b"0/0/10 600 100 30 %d"), 0, 2_880),
    ("aircraft.csv", planes(b"0/0/10 600 100 30 20", b"AAA-01/03/08-11:00-01/03/08-13:00-%d"), 0, 100_000),
    ("airports.csv", b"AAA %d 10 00:00 24:00\nBBB 10 10 00:00 24:00\n", 0, 100_000),
    ("airports.csv", b"AAA 10 %d 00:00 24:00\nBBB 10 10 00:00 24:00\n", 0, 100_000),
    ("airports.csv", b"AAA 10 10 %d:00 24:00\nBBB 10 10 00:00 24:00\n", 0, 23),
    ("airports.csv", b"AAA 10 10 00:00 %d:00\nBBB 10 10 00:00 24:00\n", 1, 24),
    ("airports.csv", b"AAA 10 10 00:00 01:%02d\nBBB 10 10 00:00 24:00\n", 0, 59),
    ("dist.csv", b"AAA BBB %d D\n", 0, 100_000),
    ("itineraries.csv", b"R1 A 100 %d F1 01/03/08 E\n", 1, 1_000),
    ("itineraries.csv", b"R1 A %d 10 F1 01/03/08 E\n", 0, 999_999_999),
    ("itineraries.csv", b"R1 A 100.%04d 10 F1 01/03/08 E\n", 0, 9_999),
    ("position.csv", b"AAA M1 0/0/9 %d\n", 0, 1_000),
    ("position.csv", b"AAA M1 %d/0/9 1\n", 0, 999),
    ("position.csv", b"AAA M1 0/%d/9 1\n", 0, 999),
    ("position.csv", b"AAA M1 0/0/%d 1\n", 0, 999),
    ("alt_flights.csv", b"F3 01/03/08 %d\n", -1, 2_880),
    ("alt_aircraft.csv", b"P2 01/03/08 %d:30 01/03/08 23:45\n", 0, 23),
    ("alt_airports.csv", b"AAA 01/03/08 10:00 01/03/08 11:00 %d 0\n", 0, 100_000),
    ("alt_airports.csv", b"AAA 01/03/08 10:00 01/03/08 11:00 0 %d\n", 0, 100_000),
    ("tariff.csv", b"delay,D,E,%d\n", 0, 999_999_999),
    ("tariff.csv", b"cancel,D,E,%d\n", 0, 999_999_999),
    ("tariff.csv", b"downgrade,D,B,E,%d\n", 0, 999_999_999),
    ("tariff.csv", b"care,D,%d,20\n", 1, 10_000),
    ("tariff.csv", b"care,D,120,%d\n", 0, 999_999_999),
    ("tariff.csv", b"compensation,D,%d,20\n", 1, 10_000),
    ("tariff.csv", b"compensation,D,none,%d\n", 0, 999_999_999),
    ("tariff.csv", b"position,%d\n", 0, 999_999_999),
    ("tariff.csv", b"weight,delay,%d\n", 0, 999_999),
    ("tariff.csv", b"weight,operating,%d\n", 0, 999_999),
    ("tariff.csv", b"weight,cancellation,%d\n", 0, 999_999),
    ("tariff.csv", b"weight,downgrade,%d\n", 0, 999_999),
    ("tariff.csv", b"weight,legal,%d\n", 0, 999_999),
    ("tariff.csv", b"weight,position,%d\n", 0, 999_999),
    ("tariff.csv", b"weight,delay,0.%03d\n", 0, 999),
    ("feed.csv", b"%d,none\n", 1, 1),
    ("feed.csv", b"1,at,01/03/08,%d:00\n", 6, 23),
    ("feed.csv", b"1,flight,F3,01/03/08,%d\n", -1, 2_880),
    ("feed.csv", b"1,airport,AAA,01/03/08,10:00,01/03/08,11:00,%d,10\n", 0, 100_000),
    ("feed.csv", b"1,airport,AAA,01/03/08,10:00,01/03/08,11:00,10,%d\n", 0, 100_000),
    ("feed.csv", b"1,aircraft,P2,01/03/08,%d:30,01/03/08,23:45\n", 0, 23),
    ("journal.csv", b"%d,move,tidy\n", 0, 64),
    ("journal.csv", b"0,batch,%d\n", 0, 0),
    ("journal.csv", b"0,move,rebook R1 A %d 0 0\n", 1, 1_000),
    ("journal.csv", b"0,move,rebook R1 A 1 %d 0\n", 0, 0),
    ("journal.csv", b"0,move,swap P1 P2 01/03/08 %d:00\n", 0, 23),
    ("sol_rotations.csv", FLOWN.replace(b"%s", b"%d/03/08", 1).replace(b"%s", b"01/03/08 08:40", 1), 1, 31),
    ("sol_rotations.csv", FLOWN.replace(b"%s", b"01/03/08", 1).replace(b"%s", b"01/03/08 %d:40", 1), 0, 23),
    ("sol_itineraries.csv", b"R1 A %d F1 01/03/08 E\n", 1, 1_000),
)


def number_tried(program, files, name, text):
    """Whether a number in a file gives what the judge says, and what it gives. A plan is checked, with the other of its files as a replay leaves it."""
    if name not in SOLUTION_FILES:
        _, fits, given = played(program, {**files, name: text}, "")
        return fits, given
    plan = {each: expected.replay(files).files[each] for each in SOLUTION_FILES}
    _, fits, given = played(program, files, "", {**plan, name: text})
    return fits, given


def numbers(asked):
    """A row for each column with a range: its least and its most, and one less and one more."""
    files = {**files_of(SAMPLE), "journal.csv": b"0,batch,0\n0,batch,1\n"}
    for name, line, least, most in RANGES:
        told, good = [], True
        for number in (least - 1, least, most, most + 1):
            fits, given = number_tried(asked.program, files, name, line % number)
            good = good and fits
            cause = given.said.decode("ascii", "replace").split()[-1] if given.status == 3 else ""
            told.append("%d: %s %s" % (number, given.status, cause))
        shown = re.sub(r"%0?[234]?d", "N", line.decode().split("\n")[0])
        words = "check" if name in SOLUTION_FILES else "replay"
        yield "| `%s` in %s | %s | %s | | |" % (shown, name, words, "; ".join(one.strip() for one in told)), good


GROUPS = {"kills": kills, "names": names, "numbers": numbers, "rows": rows, "noise": noise}
