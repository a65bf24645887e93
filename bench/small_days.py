"""Small days that are made up from a seed, for bench/fuzz.py: the files of a day, its crews, a journal, a plan to check, and one to add legs to.

Most of a day is sound, so that there is a plan and moves are accepted; each part goes wrong now and then. The journal is made step by
step with the judge's own state, so that its moves speak of the plan that stands.
"""
import datetime
import itertools

from judge.expected import read_day
from judge.fallback import State
from judge.files import SOLUTION_FILES
from judge.moves import moved
from judge.near import Near
from judge.rows import DAY, ORIGIN, Refused
from judge.texts import Texts, quoted

PLACES = (b"AAA", b"BBB", b"CCC", b"D-D")
FAMILIES = (b"NB", b"NB", b"NB", b"WB", b"BUS")
# mostly there are enough
SEATS = (b"2/14/40", b"2/14/40", b"0/12/20", b"2/4/12", b"000/02/0015", b"0/0/3")
PRICES = (b"100", b"120", b"50.5", b"0.0001", b"007", b"999999999.9999", b"0")
# the first days that there are, leap days, and the last ones
DATES = [datetime.date(*day).toordinal() - ORIGIN for day in (
    (2008, 3, 1), (2008, 3, 1), (2008, 3, 1), (2008, 3, 1), (2008, 2, 28), (2007, 12, 31), (2000, 1, 1), (2099, 10, 11))]
TARIFF = (
    b"weight,delay,0.5", b"weight,operating,1.25", b"weight,legal,2", b"weight,position,000000.001", b"weight,cancellation,3",
    b"weight,downgrade,0", b"delay,D,E,10", b"delay,D,B,20", b"delay,C,E,12", b"delay,I,F,33.3", b"delay,D,F,1", b"cancel,D,E,200",
    b"cancel,D,B,400", b"cancel,C,E,250", b"cancel,I,F,0.5", b"downgrade,D,B,E,100", b"downgrade,D,F,E,100", b"downgrade,C,F,B,9",
    b"care,D,120,20", b"care,D,60,5", b"care,D,1,0.01", b"care,C,180,30", b"care,D,none,7", b"compensation,D,none,250",
    b"compensation,D,240,90", b"compensation,C,10000,90", b"position,500", b"position,0.25", b"surface,SEA",
)


class Maker:
    """A day that is being made up: what was drawn so far, and its files."""

    def __init__(self, draws):
        self.draws, self.date, self.files = draws, draws.choice(DATES), {}
        self.places = list(PLACES[:draws.randint(2, 4)])
        # the last moment that was told, first the window's start
        self.now = 0
        self.planes, self.kinds, self.legs = [], [], []

    def chance(self, share=0.05):
        """Whether a draw falls into a share of all draws."""
        return self.draws.random() < share

    def pick(self, *choices):
        return self.draws.choice(choices)

    def date_text(self, date):
        """A date, in one of its spellings."""
        day = datetime.date.fromordinal(min(date + ORIGIN, datetime.date(2099, 12, 31).toordinal()))
        forms = (b"%02d/%02d/%02d", b"%d/%d/%02d") if self.chance(0.9) else (b"%02d/%02d/20%02d",)
        return self.pick(*forms) % (day.day, day.month, day.year % 100)

    def moment(self, minute, date_is_apart=b" "):
        """A moment, so many minutes after the midnight of the day."""
        date, minute = self.date + minute // DAY, minute % DAY
        return b"%s%s%02d:%02d" % (self.date_text(date), date_is_apart, minute // 60, minute % 60)

    def hour(self):
        return self.draws.randint(4, 20) * 60 + self.pick(0, 0, 30, 59)

    def span(self, apart=b" "):
        begin = self.hour()
        return self.moment(begin, apart) + apart + self.moment(begin + self.pick(1, 60, 61, 120, 240, 1440), apart)

    def put(self, name, lines):
        self.files[name] = b"".join(line + b"\n" for line in lines)

    def make_planes(self):
        lines = []
        for number in range(self.draws.randint(1, 4)):
            name, family, origin = b"P%d" % (number + 1), self.pick(*FAMILIES), self.pick(*self.places)
            turn, transit = self.pick(30, 30, 45, 0, 20), 60 if self.chance() else self.pick(20, 0)
            work = b"NULL"
            if self.chance(0.1):
                work = b"%s-%s-%d" % (self.pick(*self.places), self.span(b"-"), self.pick(0, 60, 300, 900))
            model, seats = self.pick(b"M1", b"M2"), self.pick(*SEATS[:3], *SEATS[:3], *SEATS)
            self.planes.append((name, family, origin, turn))
            self.kinds.append((model, seats))
            lines.append(b"%s %s %s %s %d %s %d %d %s %s" % (
                name, model, family, seats, 40 if self.chance(0.01) else 600,
                self.pick(*PRICES[:3], *PRICES), turn, transit, origin, work))
        self.put("aircraft.csv", lines)

    def time_text(self, minute):
        days = minute // DAY
        return b"%02d:%02d" % (minute % DAY // 60, minute % 60) + (b"+%d" % days if days or self.chance() else b"")

    def make_legs(self):
        """Each aircraft flies from place to place; a leg is a flight, its places, a departure, and an arrival."""
        flights, rotations = [], []
        for name, _, place, turn in self.planes:
            minute, before = self.draws.randint(60, 120) * 5, b"0"
            for _ in range(self.draws.randint(0, 4)):
                target = self.pick(*[other for other in self.places if other != place] if not self.chance(0.02) else self.places)
                block = self.pick(30, 60, 60, 75, 90, 180)
                flight = b"F%d" % (len(flights) + 1)
                flights.append(b"%s %s %s %s %s %s" % (flight, place, target, self.time_text(minute), self.time_text(minute + block),
                                                       before if self.chance(0.3) else b"0"))
                rotations.append(b"%s %s %s" % (flight, self.date_text(self.date), name))
                self.legs.append((flight, place, target, minute, minute + block))
                place, before = target, flight
                minute += block + turn + self.pick(0, 5, 10, 30, 60, 120) - (10 if self.chance(0.03) else 0)
        if flights and self.chance(0.1):
            flight = self.pick(*self.legs)
            rotations.append(b"%s %s %s" % (flight[0], self.date_text(self.date + 1), self.pick(*self.planes)[0]))
        self.draws.shuffle(flights)
        if self.chance(0.3):
            self.draws.shuffle(rotations)
        self.put("flights.csv", flights)
        self.put("rotations.csv", rotations)

    def make_places(self):
        lines = []
        for place in self.places:
            groups = [b"%d %d 00:00 24:00" % self.pick(*[(10, 10)] * 12, (1, 1), (1, 2), (2, 1))]
            if self.chance(0.2):
                groups.append(b"%d %d %02d:00 %02d:%02d" % (self.draws.randint(1, 3), self.draws.randint(1, 3),
                                                           self.draws.randint(0, 23), self.draws.randint(0, 23), self.pick(0, 1, 30)))
            lines.append(place + b" " + b" ".join(groups if not self.chance() else groups[1:] or groups))
        self.put("airports.csv", lines)
        pairs = list(itertools.permutations(self.places, 2)) + [(place, place) for place in self.places]
        self.draws.shuffle(pairs)
        flown = {frozenset(leg[1:3]) for leg in self.legs}
        pairs = [pair for pair in pairs if frozenset(pair) in flown or not self.chance(0.15)]
        self.put("dist.csv", [b"%s %s %d %s" % (*pair, 601 if self.chance(0.01) else self.pick(30, 60, 90, 600),
                                                self.pick(b"D", b"D", b"C", b"I")) for pair in pairs])

    def make_reservations(self):
        lines = []
        for number in range(self.draws.randint(0, 6) if self.legs else 0):
            path = [self.pick(*self.legs)]
            while len(path) < 4 and self.chance(0.4):
                onward = [leg for leg in self.legs if leg[1] == path[-1][2] and leg[3] >= path[-1][4] + 20]
                path += [self.pick(*onward)] if onward else []
                if not onward:
                    break
            if self.chance(0.02):
                path.append(self.pick(*self.legs))
            cabin = b"B" if self.chance(0.15) else b"E"
            groups = b"".join(b" %s %s %s" % (leg[0], self.date_text(self.date), self.pick(cabin, cabin, cabin, b"E"))
                              for leg in path)
            lines.append(b"R%d %s %s %d%s" % (number + 1, self.pick(b"A", b"R"), self.pick(*PRICES), self.draws.randint(1, 3), groups))
        self.put("itineraries.csv", lines)

    def make_wishes(self):
        """Where aircraft are wanted at the end of the window: some that there are not, and often some that there are."""
        wanted = [b"%s M%d %s %d" % (self.pick(*self.places), self.draws.randint(1, 2), self.pick(*SEATS[:3]), self.draws.randint(0, 2))
                  for _ in range(self.draws.randint(0, 3))]
        if self.chance(0.75):
            wanted += [b"%s %s %s %d" % (self.pick(*self.places), *self.pick(*self.kinds), self.pick(1, 1, 2, 3))
                       for _ in range(self.draws.randint(1, 4))]
        self.put("position.csv", wanted)

    def order(self, kind):
        """A random order of a kind, as the fields of a line of its file."""
        if kind == b"flight":
            delay = self.pick(b"-1", b"0", b"15", b"40", b"040", b"90", b"240", b"2880")
            return self.pick(*self.legs)[0] + b" %s %s" % (self.date_text(self.date), delay)
        if kind == b"aircraft":
            return self.pick(*self.planes)[0] + b" " + self.span()
        return self.pick(*self.places) + b" %s %d %d" % (self.span(), self.draws.randint(0, 2), self.draws.randint(0, 11))

    def orders(self, kind, most):
        count = self.draws.randint(0, most) if kind != b"flight" or self.legs else 0
        return [self.order(kind) for _ in range(count)]

    def make_orders(self):
        for name, kind in (("alt_flights.csv", b"flight"), ("alt_aircraft.csv", b"aircraft"), ("alt_airports.csv", b"airport")):
            self.put(name, self.orders(kind, self.pick(0, 0, 1, 2)))
        tells = self.chance(0.36)
        lines = []
        for batch in range(1, self.pick(2, 3, 4, 5) if tells else self.pick(1, 1, 2, 3, 4)):
            rows = [b"%d,%s,%s" % (batch, kind, order.replace(b" ", b","))
                    for kind in (b"flight", b"aircraft", b"airport") for order in self.orders(kind, self.pick(0, 1, 1))]
            if tells and self.chance(0.8):
                rows.insert(0 if not self.chance(0.02) else len(rows), b"%d,at,%s" % (batch, self.told()))
            lines += rows or [b"%d,none" % batch]
        self.put("feed.csv", lines)

    def told(self):
        """A moment no earlier than the last one that was told, but now and then a minute: mostly about when a leg departs."""
        departures = [leg[3] + self.pick(0, 1, 20) for leg in self.legs]
        now = max(self.now, self.pick(*departures, self.now + self.pick(0, 60, 240)))
        self.now = now if not self.chance(0.02) else self.now - 1
        return self.moment(self.now, b",")

    def make_prices(self):
        rows = self.draws.sample(TARIFF, self.draws.randint(0, len(TARIFF)))
        rows = [b"position,500"] * self.chance(0.7) + rows
        rows = [row for at, row in enumerate(rows) if not row.startswith(b"position") or
                not any(other.startswith(b"position") for other in rows[:at])]
        self.put("tariff.csv", rows + ([b"surface,BUS"] if self.chance(0.6) else []))

    def make(self):
        self.now = begin = self.draws.randint(30, 65) * 10
        self.put("config.csv", [self.moment(begin) + b" " + self.moment(begin + self.pick(600, 1200, 1440))])
        for part in (self.make_planes, self.make_legs, self.make_places, self.make_reservations, self.make_wishes, self.make_orders,
                     self.make_prices):
            part()
        return self.files


class Proposer:
    """What proposes moves of the plan of a state."""

    def __init__(self, draws, state):
        self.draws, self.state, self.day = draws, state, state.situation.day

    def leg(self):
        return self.draws.randrange(len(self.day.legs))

    def plane(self):
        return self.draws.randrange(len(self.day.planes))

    def row(self, leg):
        scheduled, now = self.day.legs[leg], self.state.plan.rows[leg]
        plane = self.plane() if self.draws.random() < 0.4 else (now or (scheduled.plane,))[0]
        moment = (now or (0, scheduled.dep))[1] + self.draws.choice((0, 0, -1, 1, 15, -30, 60, 600, 1080, 2880))
        return None if self.draws.random() < 0.2 else (plane, max(0, min(moment, 52_499_999)))

    def path(self, number):
        reservation = self.day.reservations[number]
        paths = [reservation.path, (), *self.state.plan.groups[number]]
        stem = self.draws.choice([()] + self.state.situation.stems(number))
        paths.append(stem + tuple((self.leg(), self.draws.randrange(3)) for _ in range(self.draws.choice((1, 1, 1, 2, 3)))))
        return self.draws.choice(paths)

    def step(self):
        word = self.draws.choice(("set", "set", "set", "push", "push", "swap", "rebook", "rebook", "tidy", "refill"))
        if word == "tidy":
            return (word,)
        if word == "push":
            return word, self.plane(), self.leg() if self.draws.random() < 0.3 else None
        if word == "swap":
            return word, self.plane(), self.plane(), self.day.legs[self.leg()].dep + self.draws.choice((0, 0, 1, -1))
        if word == "rebook" and self.day.reservations:
            number = self.draws.randrange(len(self.day.reservations))
            return word, number, self.draws.choice((1, 2, 1000)), self.path(number), self.path(number)
        leg = self.leg()
        if word == "refill":
            return word, leg
        now = self.state.plan.rows[leg]
        return "set", leg, now if self.draws.random() < 0.95 else self.row(leg), self.row(leg)

    def near(self):
        """A move near the plan, of one neighbourhood."""
        near = Near(self.state.situation, self.state.plan)
        family = self.draws.choice((near.retimed, near.swapped, near.dropped, near.restored, near.handed_on, near.rebooked))
        moves = list(itertools.islice(family(), 30))
        self.draws.shuffle(moves)
        # one that is accepted, where there is one among a few
        return next((steps for steps in moves[:5] if self.state.judge(steps)[1]), moves[0] if moves else [("tidy",)])

    def move(self):
        if self.draws.random() < 0.5:
            return self.near()
        steps = [self.step() for _ in range(self.draws.choice((1, 1, 1, 2, 3)))]
        return steps + ([("tidy",)] if self.draws.random() < 0.5 else [])


def spelled(draws, field):
    """A field of the journal, as it may be spelled too."""
    if draws.random() < 0.03:
        return b'"' + field.replace(b'"', b'""') + b'"'
    return quoted(field.replace(b" ", b"  ") if draws.random() < 0.03 else field)


def events_of(draws, day, state, take):
    """Takes the batches in their order and moves between them; most days have all batches."""
    proposer = Proposer(draws, state)
    batches = len(day.batches) if draws.random() < 0.9 else draws.randint(0, len(day.batches))
    for number in range(batches + 1):
        for _ in range(draws.choice((0, 1, 2, 4)) if day.legs else 0):
            take(proposer.move())
        if number < batches:
            take(number)


def make_journal(draws, day):
    """The text of a journal, and the state that it leaves."""
    state, texts, lines = State(day), Texts(day), []

    def take(what):
        if isinstance(what, int):
            state.take_batch(what)
            fields = [b"batch", b"%d" % what]
        else:
            state.propose(what)
            fields = [b"move", texts.move(what)]
        fields = [b"%d" % draws.choice((0, 1, 2, 64))] + fields + ([b"old, \xff"] if draws.random() < 0.05 else [])
        lines.append(b",".join(spelled(draws, field) for field in fields) + b"\n")

    events_of(draws, day, state, take)
    return b"".join(lines), state


def make_solution(draws, day, state, stepped):
    """The files of a plan: that of the state, in such a share of days with some steps more."""
    plan = state.plan
    if draws.random() < stepped and day.legs:
        proposer = Proposer(draws, state)
        plan = moved(state.situation, plan, [proposer.step() for _ in range(draws.randint(1, 3))])
    texts = Texts(day)
    files = {"sol_rotations.csv": texts.rotations(plan), "sol_itineraries.csv": texts.itineraries(plan)}
    if draws.random() < 0.3:
        for name, text in files.items():
            lines = text.splitlines(True)
            draws.shuffle(lines)
            files[name] = b"".join(lines)
    return files


def make_crew(draws, number, rotations):
    """The line of a crew: mostly it works the legs of one aircraft, or some of them, from where the first of them leaves."""
    flight, _, plane, _ = draws.choice(rotations)
    legs = [row for row in rotations if row[2] == plane and (row[0] == flight or draws.random() < 0.9)]
    if draws.random() < 0.2:
        legs = draws.sample(rotations, draws.randint(1, len(rotations)))
    if draws.random() < 0.3:
        draws.shuffle(legs)
    home = legs[0][3] if draws.random() < 0.9 else draws.choice(PLACES)
    duty, rest = draws.choice((b"60", b"150", b"0300", b"480", b"10000")), draws.choice((b"1", b"30", b"60", b"600", b"10000"))
    return b" ".join([b"C%d" % number, home, duty, rest] + [field for row in legs for field in row[:2]])


def make_crews(draws, files):
    """The crews of a day: most are sound."""
    origins = {fields[0]: fields[1] for fields in map(bytes.split, files["flights.csv"].splitlines()) if fields}
    rotations = [fields + [origins[fields[0]]] for fields in map(bytes.split, files["rotations.csv"].splitlines()) if fields]
    lines = [make_crew(draws, number + 1, rotations) for number in range(draws.choice((0, 1, 2, 4)) if rotations else 0)]
    return b"".join(line + b"\n" for line in lines)


def make_day(draws):
    """The files of a day with its journal and its crews, those of a plan to check, and those of a plan to add legs to."""
    files = Maker(draws).make()
    try:
        day, _ = read_day(files)
    except Refused:
        none = dict.fromkeys(SOLUTION_FILES, b"")
        return {**files, "crew.csv": b"", "journal.csv": b""}, none, none
    files["journal.csv"], state = make_journal(draws, day)
    solution, flown = make_solution(draws, day, state, 0.6), make_solution(draws, day, state, 0.1)
    files["crew.csv"] = make_crews(draws, files)
    return files, solution, flown
