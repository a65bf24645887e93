"""What each file is by itself: its rows, each with its line, or the first refusal (docs/FORMATS.md, from "config.csv" on)."""
from judge import rows
from judge.rows import Refused

DAY_FILES = (
    "config.csv", "flights.csv", "rotations.csv", "aircraft.csv", "airports.csv", "dist.csv", "itineraries.csv",
    "position.csv", "alt_flights.csv", "alt_aircraft.csv", "alt_airports.csv", "tariff.csv", "feed.csv",
)
SOLUTION_FILES = ("sol_rotations.csv", "sol_itineraries.csv")
# a file that is missing reads as a file of no bytes
MAY_BE_MISSING = ("feed.csv", "journal.csv")
MOST_BYTES = 67_108_864
MOST_JOURNAL_BYTES = 268_435_456
LAST_MINUTES = 2_880
MOST_CAP = 100_000

cap = rows.number(0, MOST_CAP)
moment = (rows.date, rows.time)


def at(day, minute):
    """The moment of a date and a time."""
    return day * rows.DAY + minute


def flight(fields):
    fields = rows.columns(fields, (rows.name, rows.name, rows.name, rows.later_time, rows.later_time, rows.name))
    flight_name, origin, dest, (minute, days), (arrives, later), previous = fields
    departs = minute + rows.DAY * (days or 0)
    if later is None:
        block = (arrives - departs - 1) % rows.DAY + 1
    else:
        block = arrives + rows.DAY * later - departs
        if not 1 <= block <= LAST_MINUTES:
            raise Refused("Time")
    return flight_name, origin, dest, departs, block, None if previous == b"0" else previous


def config(fields):
    day, minute, last_day, last_minute = rows.columns(fields, moment + moment)
    return at(day, minute), at(last_day, last_minute)


def rotation(fields):
    return rows.columns(fields, (rows.name, rows.date, rows.name))


def maintenance(field):
    """Where and when it is due, and the minutes before it; none for NULL."""
    if field == b"NULL":
        return None
    parts = field.split(b"-")
    if len(parts) < 6:
        raise Refused("Word")
    parts = [b"-".join(parts[:-5])] + parts[-5:]
    place, day, minute, last_day, last_minute, minutes = rows.columns(
        parts, (rows.name,) + moment + moment + (rows.number(0, 100_000),)
    )
    return place, at(day, minute), at(last_day, last_minute), minutes


def aircraft(fields):
    ground = rows.number(0, 2_880)
    return rows.columns(fields, (
        rows.name, rows.name, rows.name, rows.seats, rows.number(0, 100_000), rows.price, ground, ground, rows.name, maintenance,
    ))


def airport(fields):
    head, groups = rows.in_groups(fields, (rows.name,), (cap, cap, rows.time, rows.time_to))
    return head[0], groups


def distance(fields):
    return rows.columns(fields, (rows.name, rows.name, rows.number(0, 100_000), rows.haul))


def itinerary(fields):
    first = (rows.name, rows.kind, rows.price, rows.number(1, 999_999_999))
    head, path = rows.in_groups(fields, first, (rows.name, rows.date, rows.cabin))
    return head + [[tuple(leg) for leg in path]]


def position(fields):
    head, groups = rows.in_groups(fields, (rows.name,), (rows.name, rows.seats, rows.number(0, 1_000)))
    return head[0], groups


def delay(field):
    """So many minutes, or none where the leg is called off."""
    return None if field == b"-1" else rows.number(0, 2_880)(field)


FLIGHT_ORDER = (rows.name, rows.date, delay)
AIRCRAFT_ORDER = (rows.name,) + moment + moment
AIRPORT_ORDER = AIRCRAFT_ORDER + (cap, cap)


def flight_order(values):
    return ("flight", (values[0], values[1]), values[2])


def aircraft_order(values):
    return ("aircraft", values[0], at(*values[1:3]), at(*values[3:5]))


def airport_order(values):
    return ("airport", values[0], at(*values[1:3]), at(*values[3:5]), values[5], values[6])


def alt_flight(fields):
    return flight_order(rows.columns(fields, FLIGHT_ORDER))


def alt_aircraft(fields):
    return aircraft_order(rows.columns(fields, AIRCRAFT_ORDER))


def alt_airport(fields):
    return airport_order(rows.columns(fields, AIRPORT_ORDER))


FED = {
    b"flight": (FLIGHT_ORDER, flight_order),
    b"aircraft": (AIRCRAFT_ORDER, aircraft_order),
    b"airport": (AIRPORT_ORDER, airport_order),
    b"at": (moment, lambda values: ("at", at(*values))),
    b"none": ((), lambda values: None),
}


def fed(fields):
    """A record of feed.csv: the number of its batch, and its order, its moment or none."""
    rows.all_printed(fields)
    if len(fields) < 2:
        raise Refused("Fields")
    readers, made = rows.word(FED)(fields[1])
    if len(fields) != 2 + len(readers):
        raise Refused("Fields")
    batch = rows.number(1, 999_999_999)(fields[0])
    return batch, made(rows.columns(fields[2:], readers))


def threshold(field):
    """So many minutes, or none for those who are not carried."""
    return None if field == b"none" else rows.number(1, 10_000)(field)


def below(reference, field):
    cabin = rows.cabin(field)
    if cabin <= reference:
        raise Refused("Word")
    return cabin


TERMS = {term: term.decode() for term in (b"operating", b"delay", b"cancellation", b"downgrade", b"legal", b"position")}
PRICED = {
    b"surface": (rows.name,),
    b"weight": (rows.word(TERMS), rows.weight),
    b"delay": (rows.haul, rows.cabin, rows.price),
    b"cancel": (rows.haul, rows.cabin, rows.price),
    b"downgrade": (rows.haul, rows.cabin, bytes, rows.price),
    b"care": (rows.haul, threshold, rows.price),
    b"compensation": (rows.haul, threshold, rows.price),
    b"position": (rows.price,),
}


def tariff(fields):
    """What a row says: its kind and key, and its price, none for `surface`."""
    rows.all_printed(fields)
    readers = rows.word(PRICED)(fields[0])
    if fields[0] == b"downgrade":
        rows.columns(fields[1:], (bytes,) * 4)
        reference = rows.columns(fields[1:3], (rows.haul, rows.cabin))[1]
        readers = (rows.haul, rows.cabin, lambda field: below(reference, field), rows.price)
    values = rows.columns(fields[1:], readers)
    kind = fields[0].decode()
    if kind == "surface":
        return (kind, values[0]), None
    return (kind,) + tuple(values[:-1]), values[-1]


def crew(fields):
    minutes = rows.number(1, 10_000)
    head, legs = rows.in_groups(fields, (rows.name, rows.name, minutes, minutes), (rows.name, rows.date))
    return head + [[tuple(leg) for leg in legs]]


def sol_rotation(fields):
    """The row of a leg: its flight and date, and its aircraft and departure or none."""
    if len(fields) == 3:
        flight_name, day, _ = rows.columns(fields, (rows.name, rows.date, rows.word({b"cancelled": None})))
        return (flight_name, day), None
    if len(fields) < 5:
        raise Refused("Fields")
    flight_name, day, plane, dep_day, minute = rows.columns(fields, (rows.name, rows.date, rows.name) + moment)
    return (flight_name, day), (plane, at(dep_day, minute))


def sol_itinerary(fields):
    first = (rows.name, rows.kind, rows.number(1, 1_000))
    head, path = rows.in_groups(fields, first, (rows.name, rows.date, rows.cabin), 0)
    return head + [[tuple(leg) for leg in path]]


READERS = {
    "config.csv": config, "flights.csv": flight, "rotations.csv": rotation, "aircraft.csv": aircraft, "airports.csv": airport,
    "dist.csv": distance, "itineraries.csv": itinerary, "position.csv": position, "alt_flights.csv": alt_flight,
    "alt_aircraft.csv": alt_aircraft, "alt_airports.csv": alt_airport, "tariff.csv": tariff, "feed.csv": fed,
    "crew.csv": crew, "sol_rotations.csv": sol_rotation, "sol_itineraries.csv": sol_itinerary,
}
COMMA_FILES = ("tariff.csv", "feed.csv", "journal.csv")


def rows_of(name, data, reader):
    """The rows of a file, each with its line. The reader of the journal is handed in."""
    if len(data) > (MOST_JOURNAL_BYTES if name == "journal.csv" else MOST_BYTES):
        raise Refused("Size", 0, name)
    lines = rows.comma_records(data) if name in COMMA_FILES else rows.text_lines(data)
    read = []
    line = 0
    try:
        for line, fields in lines:
            read.append((line, reader(fields)))
            if name == "config.csv":
                break
    except Refused as refused:
        raise Refused(refused.cause, line if refused.line is None else refused.line, name) from None
    if name == "config.csv" and not read:
        raise Refused("Fields", 0, name)
    return read
