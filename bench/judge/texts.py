"""What is written: items, steps, the journal and the solution files (docs/FORMATS.md, "Output files" and "The report")."""
import datetime

from judge.rows import DAY, ORIGIN

CABIN, HOUR = b"FBE", 60


def date_text(date):
    day = datetime.date.fromordinal(date + ORIGIN)
    return b"%02d/%02d/%02d" % (day.day, day.month, day.year % 100)


def moment_text(moment):
    minute = moment % DAY
    return b"%s %02d:%02d" % (date_text(moment // DAY), minute // 60, minute % 60)


class Texts:
    """What is written of a day."""

    def __init__(self, day):
        self.day = day

    def leg(self, leg):
        return b"%s %s" % (self.day.legs[leg].flight, date_text(self.day.legs[leg].date))

    def pair(self, pair):
        return b"%s %c" % (self.leg(pair[0]), CABIN[pair[1]])

    def reservation(self, number):
        return b"%s %s" % self.day.reservations[number][:2]

    def item(self, item):
        """The rule's name and what it names."""
        rule, named = item
        if rule <= 7:
            text = self.leg(named)
        elif rule <= 9:
            text = self.day.planes[named].name
        elif rule <= 11:
            hour = named[1] % 24
            text = b"%s %s %02d" % (self.day.airports[named[0]], date_text(named[1] // 24), hour)
        else:
            text = self.pair(named) if rule == 12 else self.reservation(named)
        return b"C%d %s" % (rule, text)

    def answer(self, answer):
        word, *rest = answer
        told = [self.item(part) if isinstance(part, tuple) else b"%d" % part for part in rest]
        return b" ".join([word.encode()] + told)

    def row(self, row):
        return b"+ %s %s" % (self.day.planes[row[0]].name, moment_text(row[1])) if row else b"-"

    def path(self, path):
        return b" ".join([b"%d" % len(path)] + [self.pair(pair) for pair in path])

    def step(self, step):
        word, *named = step
        planes = self.day.planes
        if word == "set":
            parts = [self.leg(named[0]), self.row(named[1]), self.row(named[2])]
        elif word == "push":
            parts = [planes[named[0]].name, b"all" if named[1] is None else b"after " + self.leg(named[1])]
        elif word == "swap":
            parts = [planes[named[0]].name, planes[named[1]].name, moment_text(named[2])]
        elif word == "rebook":
            parts = [self.reservation(named[0]), b"%d" % named[1], self.path(named[2]), self.path(named[3])]
        else:
            parts = [self.leg(leg) for leg in named]
        return b" ".join([word.encode()] + parts)

    def move(self, steps):
        return b" ".join(self.step(step) for step in steps)

    def entry(self, who, what, answer):
        """A line of the journal."""
        event = [b"batch", b"%d" % what] if isinstance(what, int) else [b"move", self.move(what)]
        return b",".join(map(quoted, [b"%d" % who] + event + [self.answer(answer)])) + b"\n"

    def added(self, origin, leg):
        """The line of an added leg, which leaves from an airport."""
        airports = self.day.airports
        return b"%s %s %s %s" % (self.day.planes[leg.plane].name, airports[origin], airports[leg.dest], moment_text(leg.dep))

    def rotations(self, plan):
        """The text of sol_rotations.csv."""
        lines = []
        for leg, row in enumerate(plan.rows):
            lines.append(b"%s %s\n" % (self.leg(leg), self.row(row)[2:] if row else b"cancelled"))
        return b"".join(lines)

    def itineraries(self, plan):
        """The text of sol_itineraries.csv."""
        lines = []
        for number, groups in enumerate(plan.groups):
            for path, count in sorted(groups.items()):
                parts = [self.reservation(number), b"%d" % count] + [self.pair(pair) for pair in path]
                lines.append(b" ".join(parts) + b"\n")
        return b"".join(lines)


def quoted(field):
    """A field as a comma file has it."""
    if any(mark in field for mark in (b",", b'"', b"\r", b"\n")):
        return b'"' + field.replace(b'"', b'""') + b'"'
    return field
