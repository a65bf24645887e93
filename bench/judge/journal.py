"""What journal.csv and the solution files ask of a day (docs/FORMATS.md, "journal.csv, as input" and after).

A record is read by itself first, with the names of the day, and joined after: names become numbers.
"""
from judge import rows
from judge.day import MOST_LEGS
from judge.files import at, moment
from judge.moves import MOMENT_LIMIT, MOST_STEPS
from judge.rows import Refused

MOST_CALLER, MOST_BATCH, MOST_COUNT = 64, 1_000, 1_000
caller = rows.number(0, MOST_CALLER)


class Words:
    """The words of a move, read from the left."""

    def __init__(self, text):
        self.words = [word for word in text.split(b" ") if word]

    def take(self, *readers):
        """The next words, each by its reader."""
        taken = []
        for read in readers:
            if not self.words:
                raise Refused("Fields")
            taken.append(read(self.words.pop(0)))
        return taken

    def leg(self):
        return tuple(self.take(rows.name, rows.date))

    def row(self):
        if self.take(rows.word({b"-": False, b"+": True}))[0]:
            plane, day, minute = self.take(rows.name, *moment)
            return plane, at(day, minute)
        return None

    def path(self):
        length, = self.take(rows.number(0, MOST_LEGS))
        return tuple(self.leg() + tuple(self.take(rows.cabin)) for _ in range(length))

    def step(self):
        """One step, by names."""
        word, = self.take(rows.word({b"set": "set", b"push": "push", b"swap": "swap", b"rebook": "rebook", b"tidy": "tidy",
                                     b"refill": "refill"}))
        if word == "set":
            return word, self.leg(), self.row(), self.row()
        if word == "push":
            plane, after = self.take(rows.name, rows.word({b"all": False, b"after": True}))
            return word, plane, self.leg() if after else None
        if word == "swap":
            one, other, day, minute = self.take(rows.name, rows.name, *moment)
            return word, one, other, at(day, minute)
        if word == "rebook":
            reservation = tuple(self.take(rows.name, rows.kind))
            count, = self.take(rows.number(1, MOST_COUNT))
            return word, reservation, count, self.path(), self.path()
        return (word, self.leg()) if word == "refill" else (word,)

    def steps(self):
        steps = []
        while self.words:
            steps.append(self.step())
        return steps


def record(fields):
    """A record: its caller, and the number of a batch or the steps of a move by names."""
    rows.all_printed(fields[:3] + fields[4:])
    if not 3 <= len(fields) <= 4:
        raise Refused("Fields")
    who = caller(fields[0])
    if rows.word({b"batch": True, b"move": False})(fields[1]):
        return who, rows.number(0, MOST_BATCH)(fields[2])
    return who, Words(fields[2]).steps()


def found(key, names):
    if key not in names:
        raise Refused("Unknown")
    return names[key]


def path_of(day, path):
    """A path by its numbers."""
    return tuple((found((flight, date), day.leg_of), cabin) for flight, date, cabin in path)


def row_of(day, row):
    return row and (found(row[0], day.plane_of), row[1])


def step_of(day, step):
    """A step by numbers."""
    word, *named = step
    if word == "set":
        return word, found(named[0], day.leg_of), row_of(day, named[1]), row_of(day, named[2])
    if word == "push":
        return word, found(named[0], day.plane_of), named[1] and found(named[1], day.leg_of)
    if word == "swap":
        return word, found(named[0], day.plane_of), found(named[1], day.plane_of), named[2]
    if word == "rebook":
        return word, found(named[0], day.reservation_of), named[1], path_of(day, named[2]), path_of(day, named[3])
    return (word,) + tuple(found(name, day.leg_of) for name in named)


def moments_of(step):
    """The moments that a step has."""
    if step[0] == "set":
        return [row[1] for row in step[2:] if row]
    return step[3:] if step[0] == "swap" else ()


def fits(steps):
    """Whether a move can be asked."""
    return 1 <= len(steps) <= MOST_STEPS and all(moment < MOMENT_LIMIT for step in steps for moment in moments_of(step))


def join_journal(day, records):
    """The events: callers, and numbers of batches or steps by numbers."""
    events, batches = [], 0
    for line, (who, what) in records:
        try:
            if isinstance(what, int):
                if what != batches or what >= len(day.batches):
                    raise Refused("Batch")
                batches += 1
            else:
                what = [step_of(day, step) for step in what]
                if not fits(what):
                    raise Refused("Move")
        except Refused as refused:
            raise Refused(refused.cause, line, "journal.csv") from None
        events.append((who, what))
    return events


def join_rotation(day, row, rows_of_legs):
    leg = found(row[0], day.leg_of)
    placed = row_of(day, row[1])
    if placed and placed[1] >= MOMENT_LIMIT:
        raise Refused("Limit")
    if leg in rows_of_legs:
        raise Refused("Twice")
    rows_of_legs[leg] = placed


def join_itinerary(day, row, groups):
    number = found((row[0], row[1]), day.reservation_of)
    path = path_of(day, row[3])
    if len(path) > MOST_LEGS:
        raise Refused("Limit")
    if path in groups[number]:
        raise Refused("Twice")
    groups[number][path] = row[2]


def join_solution(day, rotations, itineraries):
    """The rows of all legs and the groups of all reservations, as the solution files say."""
    placed, groups = {}, [{} for _ in day.reservations]
    for file, lines, join_row, table in (("sol_rotations.csv", rotations, join_rotation, placed),
                                         ("sol_itineraries.csv", itineraries, join_itinerary, groups)):
        for line, row in lines:
            try:
                join_row(day, row, table)
            except Refused as refused:
                raise Refused(refused.cause, line, file) from None
    if len(placed) < len(day.legs):
        raise Refused("Missing", 0, "sol_rotations.csv")
    if any(sum(paths.values()) != one.count for paths, one in zip(groups, day.reservations)):
        raise Refused("Count", 0, "sol_itineraries.csv")
    return [placed[leg] for leg in range(len(day.legs))], groups
