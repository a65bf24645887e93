"""What is expected of a whole run: its status, its report and its files (docs/FORMATS.md, "The report" and "Faults and statuses")."""
from typing import NamedTuple

from judge import files as readers
from judge.added import FILE as ADDED, end_of, ferried
from judge.crews import FILE as CREWS, join_crews, judged as judged_crews
from judge.day import join
from judge.fallback import State
from judge.files import DAY_FILES, MAY_BE_MISSING, SOLUTION_FILES
from judge.generated import generate
from judge.journal import join_journal, join_solution, record
from judge.moves import moved
from judge.near import descend
from judge.plan import Plan
from judge.cost import cost
from judge.rows import Refused
from judge.rules import first_broken
from judge.situation import Situation
from judge.texts import Texts

WRITTEN = ("sol_rotations.csv", "sol_itineraries.csv", "journal.csv")


class Outcome(NamedTuple):
    """What a run gives: a status, a report, and the files that it writes, by name; none where OUT stays as it was."""
    status: int
    report: bytes
    files: dict | None


class Fault(Exception):
    """A file that is not there."""


def read_all(names, given):
    """The rows of files by name, read one after another."""
    read = {}
    for name in names:
        if given.get(name) is None and name not in MAY_BE_MISSING:
            raise Fault(name)
        read[name] = readers.rows_of(name, given.get(name) or b"", record if name == "journal.csv" else readers.READERS[name])
    return read


def read_day(given, more=()):
    """The day of the files, and the rows of more files."""
    read = read_all(DAY_FILES + more, given)
    return join({name: read[name] for name in DAY_FILES}), [read[name] for name in more]


class Run:
    """A run that takes events, one after another, and keeps what it writes."""

    def __init__(self, day):
        self.state, self.texts = State(day), Texts(day)
        self.lines, self.entries, self.end = [], [], None
        self.crews, self.crew_lines = None, []

    def take(self, who, what):
        """Takes a batch or a move, and looks at the crews where that left another plan."""
        before = self.state.changes
        self.answer(who, what)
        if self.crews is not None and self.state.changes > before and not self.state.item:
            self.crew_lines.append(b"crew %d %s\n" % (self.state.changes, judged_crews(self.state.plan, self.crews)))

    def answer(self, who, what):
        if isinstance(what, int):
            answer = self.state.take_batch(what)
            self.lines.append(b"batch %d %s\n" % (what, self.texts.answer(answer)))
        else:
            answer = self.state.propose(what)
        if answer:
            self.entries.append(self.texts.entry(who, what, answer))

    def seen(self):
        """The line of the view of what was taken by now."""
        state = self.state
        end = b"no plan %s" % self.texts.item(state.item) if state.item else b"%d" % state.cost
        return b"seen %d %d %s\n" % (len(self.entries), state.changes, end)

    def outcome(self):
        state = self.state
        lines = list(self.lines)
        if self.end and not state.item:
            lines.append(b"ended %s\n" % self.end.encode())
        lines += self.crew_lines
        lines.append(b"changes %d\n" % state.changes)
        last = b"no plan %s\n" % self.texts.item(state.item) if state.item else b"cost %d\n" % state.cost
        files = dict.fromkeys(WRITTEN, b"")
        files["journal.csv"] = b"".join(self.entries)
        if not state.item:
            files["sol_rotations.csv"] = self.texts.rotations(state.plan)
            files["sol_itineraries.csv"] = self.texts.itineraries(state.plan)
        return Outcome(1 if state.item else 0, b"".join(lines) + last, files)


def guarded(run):
    """A run, with what refuses it and the file that is missing."""

    def ended(*asked):
        try:
            return run(*asked)
        except Refused as refused:
            return Outcome(3, b"refused %s %d %s\n" % (refused.file.encode(), refused.line, refused.cause.encode()), None)
        except Fault as fault:
            return Outcome(4, b"read fault %s\n" % fault.args[0].encode(), None)

    return ended


def read_with_crews(given, has_crews, more):
    """The day of the files, its crews or none, and the rows of more files."""
    day, read = read_day(given, ((CREWS,) if has_crews else ()) + more)
    crews = join_crews(day, read[0]) if has_crews else None
    return day, crews, read[-len(more):]


@guarded
def replay(given, has_crews=False):
    """What `replay` gives for files by name, with or without crews."""
    day, crews, (records,) = read_with_crews(given, has_crews, ("journal.csv",))
    events = join_journal(day, records)
    run = Run(day)
    run.crews = crews
    for who, what in events:
        run.take(who, what)
    return run.outcome()


def views(given):
    """The lines of the views of all beginnings of the journal among the files by name, that of no entry first."""
    day, (records,) = read_day(given, ("journal.csv",))
    run = Run(day)
    lines = [run.seen()]
    for who, what in join_journal(day, records):
        run.take(who, what)
        lines.append(run.seen())
    return lines


@guarded
def recover(given, most):
    """What `recover` without workers gives, with at most so many accepted moves after each batch."""
    day, _ = read_day(given)
    run = Run(day)
    for number in range(len(day.batches)):
        run.take(0, number)
        run.end = descend(run.state, most, lambda steps: run.take(0, steps))
    return run.outcome()


def read_plan(given, out, has_crews=False):
    """The day after all batches with the plan of OUT, the plan, and the crews or none."""
    solution = {name: out.get(name) for name in SOLUTION_FILES}
    day, crews, (rotations, itineraries) = read_with_crews({**given, **solution}, has_crews, SOLUTION_FILES)
    plan = Plan(day, *join_solution(day, rotations, itineraries))
    situation = Situation(day)
    for number in range(len(day.batches)):
        situation = situation.with_batch(number, plan)
    return situation, plan, crews


def verdict(situation, plan):
    """The first item that a plan breaks or none, and what is reported of it and of the cost."""
    item = first_broken(situation, plan)
    judged = b"broken %s\n" % Texts(plan.day).item(item) if item else b"feasible\n"
    return item, judged + b"cost %d\n" % cost(plan)


@guarded
def check(given, out, has_crews=False):
    """What `check` gives for the files of a day and those of OUT, with or without crews."""
    situation, plan, crews = read_plan(given, out, has_crews)
    item, report = verdict(situation, plan)
    if has_crews:
        kept = judged_crews(plan, crews)
        return Outcome(7 if item or kept != b"ok" else 0, report + b"crew %s\n" % kept, {})
    return Outcome(7 if item else 0, report, {})


@guarded
def ferry(given, out):
    """What `ferry` gives for the files of a day and those of OUT."""
    situation, plan, _ = read_plan(given, out)
    item, report = verdict(situation, plan)
    if item:
        return Outcome(7, report, {ADDED: b""})
    lines, told, now = [], [], cost(plan)
    for leg, now in ferried(situation, plan):
        lines.append(Texts(plan.day).added(end_of(plan, leg.plane), leg))
        told.append(b"added %s %d\n" % (lines[-1], now))
    return Outcome(0, b"".join(told) + b"ended quiet\ncost %d\n" % now, {ADDED: b"".join(line + b"\n" for line in lines)})


def gen(seed, size):
    """What `gen` gives."""
    return Outcome(0, b"written 13\n", generate(seed, size))


def trial(seed, size):
    """What `trial` gives."""
    return recover(generate(seed, size), 1_000)._replace(files={})
