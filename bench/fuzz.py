#!/usr/bin/env python3
"""Makes small days, spoils some of them, and holds the built desk against a slow reading of the pages.

Usage: bench/fuzz.py [--days FROM TO] [--mutate] [--keep DIR] [--program PATH] [--recover EVERY] [--commands NAME,..] [--seconds N] [--judge-alone]

A day is made up from its number by bench/small_days.py, with its crews, a journal, and two plans for it; with --mutate it is then spoilt by
bench/spoilt_days.py. The desk is run on it with `replay` and `check`, half of them with `--crew`, and with `ferry`, each EVERYth day with `recover` and a few moves, and now and then
with `gen` and with words that are near a command. With `--commands workers` each day that is small enough is recovered with workers instead, live
or not, watched or not; then what it gives has to be what a replay of the journal that it wrote gives, the batches those of the day and from
caller 0, and each line of what a viewer saw that of a beginning of that journal, the last of them that of the whole. Its status, what it prints and the files that it leaves have to be what the package
bench/judge says. Build the desk first: it is crates/desk/out/desk, or --program.

Prints a line for each run that differs, and with --keep leaves its files in DIR/NUMBER-COMMAND: `in`, `out` as it stood before,
`given` as the run left it, and `difference` with the words, what differs and what was printed. In the end it prints how many runs there were, by command and status, and how often each answer
and each rule came. The status is 1 where a run differs. With --seconds no day is begun after so many seconds.
"""
import argparse
import collections
import os
import random
import re
import shutil
import subprocess
import sys
import tempfile
import time

from judge import expected
from judge.expected import Outcome
from judge.files import DAY_FILES, SOLUTION_FILES
from judge.words import command
from small_days import make_day
from spoilt_days import spoil

TOP = os.path.dirname(os.path.dirname(os.path.abspath(__file__)))
PROGRAM = os.path.join(TOP, "crates", "desk", "out", "desk")
# a run of a small day that takes longer hangs
LONGEST = 120
# larger days are not recovered, since the judge tries each move near each plan
MOST_LINES = 9
NEAR_WORDS = (
    "replay", "recover", "check", "ferry", "gen", "trial", "help", "--help", "", "-", "--", "-x", "IN", "OUT", "OUT", "--seed", "--seed=3", "--seed=",
    "--size", "--size=0", "--size=41", "--moves", "--moves=0", "--moves=0000000001", "--moves=100001", "--workers", "--workers=1",
    "--workers=65", "--live", "--live=", "--watch", "--watch=1", "--crew", "--crew=1", "0", "1", "007", "40", "65", "100000", "999999999", "1000000000", "+1", "1.0",
)


class Case:
    """One run: its words, the files of its two folders before it, and what it has to give."""

    def __init__(self, name, words, given, out, wanted, is_one_folder=False):
        self.name, self.words, self.given, self.out = name, words, given, out
        self.wanted, self.is_one_folder = wanted, is_one_folder

    def left(self):
        """What stands in OUT after the run: the files that it wrote, and those that were there and are not its own."""
        left = {name: text for name, text in self.out.items() if text}
        for name, text in (self.wanted.files or {}).items():
            if text:
                left[name] = text
            elif not (self.is_one_folder and name == "journal.csv"):
                left.pop(name, None)
        return left


def fill(folder, files):
    os.mkdir(folder)
    for name, text in files.items():
        if text is not None:
            with open(os.path.join(folder, name), "wb") as file:
                file.write(text)


def found_in(folder):
    """The files of a folder that have bytes, by name."""
    files = {}
    for name in os.listdir(folder):
        with open(os.path.join(folder, name), "rb") as file:
            files[name] = file.read()
    return {name: text for name, text in files.items() if text}


def run(program, case, room):
    """Runs the desk on a case in a folder; gives its status, what it printed and what it left, and what standard error got."""
    fill(os.path.join(room, "in"), case.given)
    if not case.is_one_folder:
        fill(os.path.join(room, "out"), case.out)
    try:
        done = subprocess.run([program] + case.words, cwd=room, stdout=subprocess.PIPE, stderr=subprocess.PIPE, timeout=LONGEST)
        status, printed, warned = done.returncode, done.stdout, done.stderr
    except subprocess.TimeoutExpired:
        status, printed, warned = None, b"", b"did not end"
    return Outcome(status, printed, found_in(os.path.join(room, "in" if case.is_one_folder else "out"))), warned


def first_difference(case, given, warned):
    """What a run gave that it should not have, or none."""
    wanted = case.wanted
    if (given.status, given.report) != (wanted.status, wanted.report):
        return "gave %s %r, wanted %d %r" % (given.status, given.report, wanted.status, wanted.report)
    if b"desk: warning: " in warned or (warned and given.status in (0, 6)):
        return "printed on standard error %r" % warned
    left = case.left()
    for name in sorted(left.keys() | given.files.keys()):
        pair = given.files.get(name, b"").split(b"\n"), left.get(name, b"").split(b"\n")
        if pair[0] != pair[1]:
            at = next((at for at, lines in enumerate(zip(*pair)) if lines[0] != lines[1]), min(map(len, pair)))
            return "%s %d: gave %r, wanted %r" % (name, at + 1, *(lines[at:at + 1] for lines in pair))
    return None


def keep(folder, number, case, room, given, difference):
    """Leaves the files of a run that differs."""
    kept = os.path.join(folder, "%d-%s" % (number, case.name))
    shutil.rmtree(kept, ignore_errors=True)
    os.makedirs(kept)
    fill(os.path.join(kept, "in"), case.given)
    fill(os.path.join(kept, "out"), case.out)
    shutil.copytree(os.path.join(room, "in" if case.is_one_folder else "out"), os.path.join(kept, "given"))
    with open(os.path.join(kept, "difference"), "wb") as file:
        file.write(("%s\n%s\n" % (" ".join(case.words), difference)).encode() + given.report)


def replay_case(draws, files):
    """A replay, half of them beside crews, mostly over what an earlier run left, and now and then in the folder that it reads."""
    crew = crew_words(draws)
    wanted = expected.replay(files, bool(crew))
    if draws.random() < 0.05:
        return Case("replay", ["replay", "in", "in"] + crew, files, files, wanted, True)
    stood = {name: b"old\n" for name in expected.WRITTEN + ("notes",) if draws.random() < 0.3}
    return Case("replay", ["replay"] + crew + ["in", "out"], files, stood, wanted)


def check_case(draws, files, solution):
    crew = crew_words(draws)
    words = draws.choice((["check", "in", "out"] + crew, ["check", "in"] + crew + ["--", "out"]))
    return Case("check", words, files, solution, expected.check(files, solution, bool(crew)))


def ferry_case(draws, files, solution):
    """Legs added to a plan, now and then over what an earlier run left."""
    stood = {"sol_added.csv": b"old\n"} if draws.random() < 0.3 else {}
    return Case("ferry", ["ferry", "in", "out"], files, {**solution, **stood}, expected.ferry(files, solution))


def crew_words(draws):
    """The option of the crews, for half of the runs."""
    return ["--crew"] if draws.random() < 0.5 else []


def recover_case(draws, files):
    most = draws.randint(1, 3)
    words = ["recover", "in", "out"] + draws.choice((["--moves", "%d" % most], ["--moves=0%d" % most], ["--workers=0", "--moves=%d" % most]))
    return Case("recover", words, files, {}, expected.recover(files, most))


def workers_case(draws, files):
    """A recovery by workers. What it has to give depends on the journal that it writes, so that is judged afterwards."""
    most, flags = draws.randint(1, 3), [flag for flag in ("--live", "--watch") if draws.random() < 0.5]
    words = ["recover", "in", "out", "--workers", str(draws.choice((1, 2, 7, 64))), "--moves", str(most)] + flags
    return Case("workers", words, files, {}, expected.recover(files, 0))


def seen_fault(lines, views):
    """What is wrong with the lines of what a viewer saw, or none."""
    places = [int(line.split()[1]) for line in lines]
    if places != sorted(set(places)) or not places or places[-1] != len(views) - 1 or len(places) > 64:
        return "views of %r entries, of %d" % (places, len(views) - 1)
    return next(("gave %r, wanted %r" % (line, views[at]) for at, line in zip(places, lines) if views[at] != line), None)


def workers_difference(case, given, warned):
    """What a recovery by workers gave that no team may give, or none; and from then on what it has to give is known."""
    if case.wanted.status not in (0, 1):
        return first_difference(case, given, warned)
    files = {**case.given, "journal.csv": given.files.get("journal.csv", b"")}
    batches = re.findall(rb"(?m)^(\d+),batch,(\d+),", files["journal.csv"])
    if batches != [(b"0", b"%d" % number) for number in range(len(batches))] or len(batches) != case.wanted.report.count(b"batch "):
        return "batches %r" % batches
    wanted = expected.replay(files)
    lines = given.report.splitlines(True)
    ended = [line for line in lines if line.startswith(b"ended ")]
    seen = [line for line in lines if line.startswith(b"seen ")]
    if len(ended) != (wanted.status == 0) or not set(ended) <= {b"ended quiet\n", b"ended budget\n"}:
        return "ended %r" % ended
    if "--watch" in case.words:
        fault = seen_fault(seen, expected.views(files))
        if fault:
            return fault
    elif seen:
        return "seen %r" % seen
    head, changes, end = wanted.report.rpartition(b"changes ")
    case.wanted = wanted._replace(report=head + b"".join(ended + seen) + changes + end)
    return first_difference(case, given, warned)


def is_small(files):
    return all((files[name] or b"").count(b"\n") <= MOST_LINES for name in ("rotations.csv", "itineraries.csv"))


def gen_case(draws):
    seed, size = draws.randrange(1_000_000_000), draws.choice((1, 1, 2, 40))
    return Case("gen", ["gen", "out", "--seed=%d" % seed, "--size=%d" % size], {}, {}, expected.gen(seed, size))


def words_case(draws):
    """Words that are near a command and are none."""
    words = [draws.choice(NEAR_WORDS[:6])] + [draws.choice(NEAR_WORDS) for _ in range(draws.randint(0, 5))]
    if command(words):
        words.append("--help")
    return Case("words", words, {}, {}, Outcome(2, b"usage\n", None))


def cases_of(number, options):
    """The runs of a day."""
    draws = random.Random(number)
    files, solution, flown = make_day(draws)
    if options.mutate:
        both = {**files, **solution}
        spoil(draws, both)
        solution = flown = {name: both.pop(name) for name in SOLUTION_FILES}
        files = both
    if "workers" in options.commands:
        if is_small(files):
            yield workers_case(draws, {name: files[name] for name in DAY_FILES})
        return
    yield replay_case(draws, files)
    yield check_case(draws, {name: files[name] for name in DAY_FILES + ("crew.csv",)}, solution)
    yield ferry_case(draws, {name: files[name] for name in DAY_FILES}, flown)
    if options.recover and number % options.recover == 0 and is_small(files):
        yield recover_case(draws, files)
    if number % 20 == 0:
        yield gen_case(draws)
    if number % 5 == 0:
        yield words_case(draws)


class Tally:
    """How many runs there were, and what they gave."""

    def __init__(self):
        self.days, self.runs, self.differing = 0, 0, 0
        self.statuses, self.answers = collections.Counter(), collections.Counter()

    def add(self, case):
        self.runs += 1
        self.statuses["%s %d" % (case.name, case.wanted.status)] += 1
        report = case.wanted.report.decode("ascii", "replace")
        if case.wanted.status == 3:
            self.answers["refused " + report.split()[-1]] += 1
        elif report.startswith("broken"):
            self.answers["broken " + report.split()[1]] += 1
        if case.name == "ferry" and case.wanted.status == 0:
            self.answers["added %d" % report.count("added ")] += 1
        for said in re.findall(r"(?m)^crew (?:\d+ )?(ok|K\d)", report):
            self.answers["crew " + said] += 1
        for line in (case.wanted.files or {}).get("journal.csv", b"").splitlines():
            answer = re.split(rb",(?:\")?(?=[a-z])", line)[-1].decode()
            self.answers[re.match(r"(no plan|breaks|[a-z]+)( C\d+)?", answer).group()] += 1

    def summary(self):
        lines = ["%d days, %d runs, %d differ" % (self.days, self.runs, self.differing)]
        for title, counts in (("runs", self.statuses), ("answers", self.answers)):
            each = ("%s: %d" % pair for pair in sorted(counts.items()))
            lines.append("%s: %s" % (title, ", ".join(each)))
        return "\n".join(lines)


def try_case(number, case, options, tally):
    """Runs a case, and tells what differs."""
    tally.add(case)
    if options.judge_alone:
        return
    with tempfile.TemporaryDirectory() as room:
        given, warned = run(options.program, case, room)
        difference = (workers_difference if case.name == "workers" else first_difference)(case, given, warned)
        if difference:
            tally.differing += 1
            print("day %d, %s: %s" % (number, case.name, difference), flush=True)
            if options.keep:
                keep(options.keep, number, case, room, given, difference)


def main():
    parser = argparse.ArgumentParser(description="Holds the desk against a slow reading of the pages, on small days.")
    parser.add_argument("--days", nargs=2, type=int, default=(1, 1000), metavar=("FROM", "TO"), help="the numbers of the days")
    parser.add_argument("--mutate", action="store_true", help="spoil each day")
    parser.add_argument("--keep", metavar="DIR", help="where the files of runs that differ are left")
    parser.add_argument("--program", default=PROGRAM, help="the desk")
    parser.add_argument("--recover", type=int, default=25, metavar="EVERY", help="recover each so many days; 0 for none")
    parser.add_argument("--commands", type=lambda names: names.split(","), default=[], metavar="NAME,..", help="workers: recover each small day with workers, and do nothing else")
    parser.add_argument("--seconds", type=float, default=float("inf"), help="begin no day after so many seconds")
    parser.add_argument("--judge-alone", action="store_true", help="run the judge and not the desk, to see what the days are like")
    options = parser.parse_args()
    options.program = os.path.abspath(options.program)
    tally, begun = Tally(), time.monotonic()
    for number in range(options.days[0], options.days[1] + 1):
        if time.monotonic() - begun > options.seconds:
            break
        for case in cases_of(number, options):
            try_case(number, case, options, tally)
        tally.days += 1
    print(tally.summary())
    print("%.0f seconds" % (time.monotonic() - begun))
    sys.exit(1 if tally.differing else 0)


if __name__ == "__main__":
    main()
