#!/usr/bin/env python3
"""Writes a large day and times the built desk on it.

Usage: bench/day.py [LEGS]      LEGS, a multiple of 40, is 20,000 where it is left out

A day of 20,000 legs has 1,000 aircraft, 500 airports, 250,000 rows of distances, 100,000 reservations
of one to three legs, 10,000 groups of positions and a tariff of 100 rows; other days have as many less,
but for the airports and the tariff, so that half the distances are of half the pairs. Each aircraft
flies 20 legs there and back between two airports. The day, one of half its rows and one of no rows are
run with a journal whose one line names a leg that is not there, so that a run ends when all is read and
joined; and the first two with an empty journal, so that the schedule is checked and written too; and
with one of moves of one step, each of which is applied, judged, refused and taken back. The day of no rows shows the
start of the program apart. The schedule that the whole day writes is read
again and judged by `check`, under all disruptions. Then the whole day is run with a journal
of each of some usual moves, asked again and again. Last the whole day and
half of it take a batch: each 50th leg is half an hour late, each 100th aircraft is out of service for an hour, and
each 50th airport is closed for one, so that the schedule does not stand, and the desk shifts. After it the whole day takes
another batch, without a moment and with noon for its moment, by which most legs have left. The desk runs on one processor.

The last lines say how many bytes a second were read and joined, how long a check takes beside a replay without a journal,
how long a move and a batch take, and how much longer twice the rows took. The status is 1 where that is less than 40 MB a
second, more than 1.5 times the replay, more than 50 microseconds a set or a rebooking, more than 500 a delay or a swap, more
than 500 ms a batch, more than 1.6 times as long a run where the batch tells a moment, more than 1.5 times as long for a set on twice
the legs, or more than 2.3 times as long for the rest.
"""
import os
import subprocess
import sys
import tempfile
import time

TOP = os.path.dirname(os.path.dirname(os.path.abspath(__file__)))
PROGRAM = os.path.join(TOP, "crates", "desk", "out", "desk")
# the script `desk` asks for large pages too
AS_DESK = {**os.environ, "GLIBC_TUNABLES": "glibc.malloc.hugetlb=1"}
LEGS_OF_AIRCRAFT = 20
AIRPORTS = 500
UNKNOWN = "1,move,set F0 02/03/08 - -\n"
MOVES = 20000
REFUSED = "1,move,set F0 01/03/08 + P0 01/03/08 00:00 + P0 01/03/08 00:01\n" * MOVES
# usual moves, each refused, so that the next one meets the same plan; how often each is asked; and at most how many microseconds it may
# take, where that is limited
USUAL = [
    ("a set", "set F0 01/03/08 + P0 01/03/08 00:00 + P0 01/03/08 00:01", 20000, 50),
    ("a delay by half an hour", "set F0 01/03/08 + P0 01/03/08 00:00 + P0 01/03/08 00:30 push P0 after F0 01/03/08 tidy", 2000, 500),
    ("a cancellation", "set F0 01/03/08 + P0 01/03/08 00:00 - tidy", 2000, None),
    ("a swap", "swap P0 P500 01/03/08 12:00 push P0 all push P500 all tidy", 2000, 500),
    ("a rebooking", "rebook R0 A 1 1 F0 01/03/08 B 0", 20000, 50),
    ("a tidy", "tidy", 20000, None),
    ("a refill", "refill F0 01/03/08", 20000, None),
]
BATCH = "0,batch,0\n"
BATCHES = BATCH + "0,batch,1\n"
NEWS = "1,flight,F1,01/03/08,30\n"
AT_NOON = "1,at,01/03/08,12:00\n"
MOST_OF_MOMENT = 1.6
LEAST_RATE = 40.0
MOST_BATCH_MILLISECONDS = 500.0
MOST_RATIO = 2.3
MOST_MOVE_RATIO = 1.5
MOST_OF_CHECK = 1.5


def airports_of(legs):
    pairs = AIRPORTS // 2 if legs else 0
    return ["A%03d" % i for i in range(pairs)] + ["B%03d" % i for i in range(pairs)]


def schedule_of(legs, airports):
    """The lines of flights.csv, rotations.csv and aircraft.csv."""
    flights, rotations, aircraft = [], [], []
    for p in range(legs // LEGS_OF_AIRCRAFT):
        home = airports[p % (len(airports) // 2)]
        away = "B" + home[1:]
        aircraft.append("P%d M1 NB 0/20/130 1000 1000 20 20 %s NULL" % (p, home))
        for k in range(LEGS_OF_AIRCRAFT):
            dep = 65 * k
            ends = (home, away) if k % 2 == 0 else (away, home)
            flight = "F%d" % (p * LEGS_OF_AIRCRAFT + k)
            previous = "F%d" % (p * LEGS_OF_AIRCRAFT + k - 1) if k else "0"
            flights.append("%s %s %s %02d:%02d %02d:%02d %s" % (
                flight, ends[0], ends[1], dep // 60, dep % 60, (dep + 40) // 60, (dep + 40) % 60, previous))
            rotations.append("%s 01/03/08 P%d" % (flight, p))
    return flights, rotations, aircraft


def distances_of(rows, airports):
    """So many rows over all ordered pairs, again and again; the first row of a pair counts."""
    n = len(airports)
    return ["%s %s %d D" % (airports[i // n % n], airports[i % n], 40 + i % 600) for i in range(rows)]


def itineraries_of(legs):
    """Five reservations that begin with each leg, and go on with the next one or two of its aircraft."""
    lines = []
    for i in range(legs * 5):
        first = i // 5
        last = min(first + i % 3, first // LEGS_OF_AIRCRAFT * LEGS_OF_AIRCRAFT + LEGS_OF_AIRCRAFT - 1)
        cabin, count = ("B", 3) if i % 5 == 0 else ("E", 10)
        path = " ".join("F%d 01/03/08 %s" % (x, cabin) for x in range(first, last + 1))
        lines.append("R%d A %d.5 %d %s" % (i, 50 + i % 200, count, path))
    return lines


def tariff_of():
    rows = ["position,500", "weight,delay,1.5"]
    for h in "DCI":
        for k in "FBE":
            rows += ["delay,%s,%s,10" % (h, k), "cancel,%s,%s,200" % (h, k)]
        rows += ["downgrade,%s,%s,%s,100" % (h, k, l) for k, l in ("FB", "FE", "BE")]
        rows += ["care,%s,%d,%d" % (h, 60 * t, 10 * t) for t in range(1, 12)] + ["care,%s,none,10" % h]
        rows += ["compensation,%s,%d,%d" % (h, 90 * t, 20 * t) for t in range(1, 12)]
    return (rows + ["surface,BUS%d" % i for i in range(100)])[:100]


def day_of(legs):
    """The text of each file but the journal."""
    airports = airports_of(legs)
    flights, rotations, aircraft = schedule_of(legs, airports)
    groups = " ".join("M%d 0/20/130 1" % i for i in range(max(1, legs // 1000)))
    lines = {
        "config.csv": ["01/03/08 00:00 03/03/08 00:00"],
        "flights.csv": flights,
        "rotations.csv": rotations,
        "aircraft.csv": aircraft,
        "airports.csv": ["%s 100 100 00:00 24:00" % a for a in airports],
        "dist.csv": distances_of(legs * 25 // 2, airports),
        "itineraries.csv": itineraries_of(legs),
        "position.csv": ["%s %s" % (a, groups) for a in airports],
        "alt_flights.csv": ["F%d 01/03/08 30" % i for i in range(0, legs, 50)],
        "alt_aircraft.csv": ["P%d 01/03/08 10:00 01/03/08 11:00" % i for i in range(0, legs // LEGS_OF_AIRCRAFT, 100)],
        "alt_airports.csv": ["%s 01/03/08 12:00 01/03/08 13:00 0 0" % a for a in airports[::50]],
        "tariff.csv": tariff_of() if legs else [],
    }
    return {name: "".join(line + "\n" for line in of) for name, of in lines.items()}


def desk(command, folder, into):
    """Runs a command on a day."""
    return subprocess.run([PROGRAM, command, folder, into], capture_output=True, text=True, env=AS_DESK)


def run(legs, what, journal, command="replay", feed=""):
    """The bytes of the day, and the shortest time of five runs. A check is of the plan that a replay has written."""
    with tempfile.TemporaryDirectory() as folder:
        into = os.path.join(folder, "out")
        os.mkdir(into)
        size = 0
        for name, text in dict(day_of(legs), **{"journal.csv": journal, "feed.csv": feed}).items():
            with open(os.path.join(folder, name), "w") as file:
                file.write(text)
            size += len(text)
        if command == "check":
            desk("replay", folder, into)
        best = None
        for _ in range(5):
            start = time.perf_counter()
            done = desk(command, folder, into)
            took = time.perf_counter() - start
            best = took if best is None else min(best, took)
        print("%6d legs, %8d bytes, %s: %7.3f s, status %d: %s"
              % (legs, size, what, best, done.returncode, done.stdout.strip().replace("\n", "; ")))
        return size, best


def main():
    legs = int(sys.argv[1]) if len(sys.argv) > 1 else 20000
    _, nothing = run(0, "read and joined", "")
    _, half = run(legs // 2, "read and joined", UNKNOWN)
    size, whole = run(legs, "read and joined", UNKNOWN)
    _, half_checked = run(legs // 2, "and checked", "")
    _, whole_checked = run(legs, "and checked", "")
    _, judged = run(legs, "a plan checked", "", "check")
    _, half_moved = run(legs // 2, "and moves answered", REFUSED)
    _, whole_moved = run(legs, "and moves answered", REFUSED)
    rate = size / 1e6 / (whole - nothing)
    ratio = (whole - nothing) / (half - nothing)
    move_ratio = (whole_moved - whole_checked) / (half_moved - half_checked)
    print("%.1f MB a second read and joined (at least %.0f)" % (rate, LEAST_RATE))
    print("%.2f times as long for twice the rows (at most %.1f)" % (ratio, MOST_RATIO))
    print("%.2f times a replay without a journal for a check (at most %.1f)" % (judged / whole_checked, MOST_OF_CHECK))
    print("%.2f times as long for a set on twice the legs (at most %.1f)" % (move_ratio, MOST_MOVE_RATIO))
    slow = 0
    for name, steps, count, most in USUAL:
        _, moved = run(legs, name, ("1,move,%s\n" % steps) * count)
        took = 1e6 * (moved - whole_checked) / count
        slow += most is not None and took > most
        print("%.1f microseconds %s%s" % (took, name, "" if most is None else " (at most %d)" % most))
    _, half_fallen = run(legs // 2, "and a batch taken", BATCH)
    _, fallen = run(legs, "and a batch taken", BATCH)
    batch = 1000 * (fallen - whole_checked)
    batch_ratio = (fallen - whole_checked) / (half_fallen - half_checked)
    print("%.1f ms a batch (at most %.0f)" % (batch, MOST_BATCH_MILLISECONDS))
    print("%.2f times as long for twice the legs (at most %.1f)" % (batch_ratio, MOST_RATIO))
    _, told = run(legs, "and another batch", BATCHES, feed=NEWS)
    _, told_at_noon = run(legs, "and another batch, at noon", BATCHES, feed=AT_NOON + NEWS)
    print("%.1f ms more for the moment, and %.2f times as long a run (at most %.1f)"
          % (1000 * (told_at_noon - told), told_at_noon / told, MOST_OF_MOMENT))
    held = (told_at_noon <= MOST_OF_MOMENT * told and rate >= LEAST_RATE and judged <= MOST_OF_CHECK * whole_checked and not slow and move_ratio <= MOST_MOVE_RATIO
            and batch <= MOST_BATCH_MILLISECONDS and max(ratio, batch_ratio) <= MOST_RATIO)
    return 0 if held else 1


if __name__ == "__main__":
    sys.exit(main())
