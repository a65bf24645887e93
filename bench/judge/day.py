"""The join of the 13 files of the day, and the day that comes of it (docs/FORMATS.md, "Refusals" and the columns)."""
from typing import NamedTuple

from judge.rows import DAY, Refused

MOST_ROWS = {
    "flights.csv": 20_000, "rotations.csv": 20_000, "aircraft.csv": 1_000, "airports.csv": 500, "dist.csv": 250_000,
    "itineraries.csv": 100_000, "tariff.csv": 1_000,
}
MOST_GROUPS, MOST_ORDERS, MOST_BATCHES, MOST_PASSENGERS, MOST_LEGS = 10_000, 100_000, 1_000, 1_000, 8
LAST_SCHEDULED = 52_480_000
LAST_MOMENT = 52_480_000
# an aircraft goes on within a day after its previous leg
LONGEST_WAIT = 1_440


class Leg(NamedTuple):
    """A leg as it is scheduled; airports and the aircraft are numbers, the previous leg too, or none."""
    flight: bytes
    date: int
    origin: int
    dest: int
    dep: int
    block: int
    plane: int
    distance: int
    haul: int
    previous: int | None

    @property
    def arr(self):
        return self.dep + self.block


class Plane(NamedTuple):
    """An aircraft; its maintenance is an airport, a start, an end and minutes, or none."""
    name: bytes
    model: bytes
    family: bytes
    seats: tuple
    range: int
    cost: int
    turn: int
    transit: int
    origin: int
    maintenance: tuple | None
    is_surface: bool


class Reservation(NamedTuple):
    """A reservation and what it booked; its path is of pairs of a leg and a cabin."""
    name: bytes
    kind: bytes
    price: int
    count: int
    path: tuple
    origin: int
    dest: int
    dep: int
    arr: int
    haul: int
    cabin: int
    begun: tuple


class Day(NamedTuple):
    """The rows of a day that is joined, and its batches, number 0 first: each the moment that it tells or none, and its orders.

    The distances are minutes by two airports; there are none of airports without one.
    """
    start: int
    end: int
    airports: list
    caps: list
    planes: list
    legs: list
    reservations: list
    positions: list
    prices: dict
    batches: list
    leg_of: dict
    plane_of: dict
    reservation_of: dict
    distances: dict


def limit(index, file):
    if index >= MOST_ROWS[file]:
        raise Refused("Limit")


def once(key, seen):
    if key in seen:
        raise Refused("Twice")
    seen.add(key)


def known(key, names):
    if key not in names:
        raise Refused("Unknown")


class Join:
    """The join: each file's rows are tried in their order, and each row by one method."""

    def __init__(self, files):
        self.files = files
        self.flights = {}
        for _, row in files["flights.csv"]:
            self.flights.setdefault(row[0], row)
        self.planes = {row[0] for _, row in files["aircraft.csv"]}
        self.airports = {row[0] for _, row in files["airports.csv"]}
        self.legs = {(row[0], row[1]) for _, row in files["rotations.csv"]}
        self.distances = {}
        for _, (origin, dest, minutes, haul) in files["dist.csv"]:
            self.distances.setdefault((origin, dest), (minutes, haul))
        self.seen, self.groups, self.orders, self.batch = set(), 0, 0, 0
        self.moment = files["config.csv"][0][1][0]

    def distance(self, origin, dest):
        return self.distances.get((origin, dest)) or self.distances.get((dest, origin))

    def try_all(self):
        """Refuses what does not join, the first of it in the order of files, lines and causes."""
        for file, rows in self.files.items():
            self.seen = set()
            test = getattr(self, "test_" + file[:-4])
            for index, (line, row) in enumerate(rows):
                try:
                    test(index, row)
                except Refused as refused:
                    raise Refused(refused.cause, line, file) from None

    def test_config(self, _, row):
        if row[1] <= row[0]:
            raise Refused("BadWindow")

    def test_flights(self, index, row):
        limit(index, "flights.csv")
        once(row[0], self.seen)
        previous = row[5]
        if previous is not None and (previous not in self.flights or self.flights[previous][2] != row[1]):
            raise Refused("BadPrev")

    def test_rotations(self, index, row):
        limit(index, "rotations.csv")
        flight = self.flights.get(row[0])
        if flight and row[1] * DAY + flight[3] > LAST_SCHEDULED:
            raise Refused("Limit")
        known(row[0], self.flights)
        known(flight[1], self.airports)
        known(flight[2], self.airports)
        known(row[2], self.planes)
        if self.distance(flight[1], flight[2]) is None:
            raise Refused("NoDistance")
        once((row[0], row[1]), self.seen)

    def test_aircraft(self, index, row):
        limit(index, "aircraft.csv")
        once(row[0], self.seen)
        known(row[8], self.airports)
        if row[9]:
            known(row[9][0], self.airports)
            if row[9][2] <= row[9][1]:
                raise Refused("BadWindow")

    def test_airports(self, index, row):
        limit(index, "airports.csv")
        once(row[0], self.seen)

    def test_dist(self, index, _):
        limit(index, "dist.csv")

    def test_itineraries(self, index, row):
        limit(index, "itineraries.csv")
        if row[3] > MOST_PASSENGERS or len(row[4]) > MOST_LEGS:
            raise Refused("Limit")
        once((row[0], row[1]), self.seen)
        for flight, date, _ in row[4]:
            known((flight, date), self.legs)

    def test_position(self, _, row):
        self.groups += len(row[1])
        if self.groups > MOST_GROUPS:
            raise Refused("Limit")
        known(row[0], self.airports)

    def test_order(self, _, order):
        self.orders += 1
        if self.orders > MOST_ORDERS:
            raise Refused("Limit")
        known(order[1], {"flight": self.legs, "aircraft": self.planes, "airport": self.airports}[order[0]])
        if order[0] != "flight" and order[3] <= order[2]:
            raise Refused("BadWindow")

    test_alt_flights = test_alt_aircraft = test_alt_airports = test_order

    def test_tariff(self, index, row):
        limit(index, "tariff.csv")
        once(row[0], self.seen)

    def test_feed(self, index, row):
        batch, order = row
        if batch > MOST_BATCHES or not (batch == 1 if index == 0 else batch in (self.batch, self.batch + 1)):
            raise Refused("Batch")
        if order and order[0] == "at":
            self.test_moment(batch, order[1])
        elif order:
            self.test_order(index, order)
        self.batch = batch

    def test_moment(self, batch, moment):
        if batch == self.batch:
            raise Refused("Batch")
        if moment > LAST_MOMENT:
            raise Refused("Limit")
        if moment < self.moment:
            raise Refused("BadWindow")
        self.moment = moment


def hours_of_day(groups):
    """For each hour of a day the caps of the last group that covers it, or none."""
    caps = [None] * 24
    for departures, arrivals, begin, end in groups:
        for hour in range(24):
            minute = 60 * hour
            if begin <= minute < end if begin < end else minute >= begin or minute < end:
                caps[hour] = (departures, arrivals)
    return caps


def previous_leg(legs, flights, index):
    """Of the legs of the previous flight the one that arrives last, no later than this one leaves and not too long before."""
    leg, best = legs[index], None
    for other, before in enumerate(legs):
        if before.flight == flights[leg.flight][5] and 0 <= leg.dep - before.arr <= LONGEST_WAIT:
            if best is None or before.arr > legs[best].arr:
                best = other
    return best


def legs_of(join, airport_of, plane_of):
    legs = []
    for _, (flight, date, plane) in join.files["rotations.csv"]:
        _, origin, dest, departs, block, _ = join.flights[flight]
        minutes, haul = join.distance(origin, dest)
        legs.append(Leg(flight, date, airport_of[origin], airport_of[dest], date * DAY + departs, block, plane_of[plane], minutes,
                        haul, None))
    return [leg._replace(previous=previous_leg(legs, join.flights, index)) for index, leg in enumerate(legs)]


def reservation(row, legs, leg_of, start):
    """What a row of itineraries.csv booked."""
    path = tuple((leg_of[flight, date], cabin) for flight, date, cabin in row[4])
    flown = [legs[leg] for leg, _ in path]
    begun = 0
    while begun < len(path) and flown[begun].dep < start:
        begun += 1
    return Reservation(
        row[0], row[1], row[2], row[3], path, flown[0].origin, flown[-1].dest, flown[0].dep, flown[-1].arr,
        max(leg.haul for leg in flown), min(cabin for _, cabin in path), path[:begun],
    )


def order_of(order, numbers):
    """An order with the number of what it names."""
    return (order[0], numbers[order[0]][order[1]]) + order[2:]


def batches_of(files, numbers):
    first = [order for file in ("alt_flights.csv", "alt_aircraft.csv", "alt_airports.csv") for _, order in files[file]]
    batches = [(None, [order_of(order, numbers) for order in first])]
    for _, (batch, order) in files["feed.csv"]:
        if batch == len(batches):
            batches.append((order[1] if order and order[0] == "at" else None, []))
        if order and order[0] != "at":
            batches[batch][1].append(order_of(order, numbers))
    return batches


def numbered(keys):
    return {key: number for number, key in enumerate(keys)}


def distances_of(joined, airport_of):
    """The minutes from each airport to each other one, and to itself, where there is a distance."""
    found = {}
    for pair in joined.distances:
        for origin, dest in (pair, pair[::-1]):
            if origin in airport_of and dest in airport_of:
                found[airport_of[origin], airport_of[dest]] = joined.distance(origin, dest)[0]
    return found


def join(files):
    """The day of the rows of all files, in the order of files; refuses what does not join."""
    joined = Join(files)
    joined.try_all()
    (_, (start, end)), = files["config.csv"]
    prices = {key: price for _, (key, price) in files["tariff.csv"]}
    airports = [row[0] for _, row in files["airports.csv"]]
    airport_of, plane_of = numbered(airports), numbered(row[0] for _, row in files["aircraft.csv"])
    planes = [Plane(*row[:8], airport_of[row[8]], row[9] and (airport_of[row[9][0]],) + row[9][1:], ("surface", row[2]) in prices)
              for _, row in files["aircraft.csv"]]
    legs = legs_of(joined, airport_of, plane_of)
    leg_of = numbered((leg.flight, leg.date) for leg in legs)
    reservations = [reservation(row, legs, leg_of, start) for _, row in files["itineraries.csv"]]
    positions = [(airport_of[row[0]], *group) for _, row in files["position.csv"] for group in row[1]]
    caps = [hours_of_day(row[1]) for _, row in files["airports.csv"]]
    batches = batches_of(files, {"flight": leg_of, "aircraft": plane_of, "airport": airport_of})
    return Day(start, end, airports, caps, planes, legs, reservations, positions, prices, batches, leg_of, plane_of,
               numbered((one.name, one.kind) for one in reservations), distances_of(joined, airport_of))
