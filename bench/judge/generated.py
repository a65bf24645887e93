"""The day that `gen` makes up (docs/FORMATS.md, "A day that is made up")."""
WORD = (1 << 64) - 1
OUTSTATIONS = ((b"AAA", 60), (b"BBB", 75), (b"CCC", 90))
TARIFF = b"""surface,SURFACE
delay,D,E,10
delay,D,B,20
delay,C,E,12
delay,C,B,24
cancel,D,E,200
cancel,D,B,400
cancel,C,E,250
cancel,C,B,500
downgrade,D,B,E,100
downgrade,C,B,E,150
care,D,120,20
care,C,180,30
compensation,D,none,250
compensation,C,none,400
position,500
"""


def rotated(word, bits):
    return (word << bits | word >> 64 - bits) & WORD


class Draws:
    """The generator xoshiro256++, seeded by splitmix64 as its crate does."""

    def __init__(self, seed):
        self.state = []
        for _ in range(4):
            seed = seed + 0x9E3779B97F4A7C15 & WORD
            word = (seed ^ seed >> 30) * 0xBF58476D1CE4E5B9 & WORD
            word = (word ^ word >> 27) * 0x94D049BB133111EB & WORD
            self.state.append(word ^ word >> 31)

    def draw(self, most):
        a, b, c, d = self.state
        word = rotated(a + d & WORD, 23) + a & WORD
        c, d = c ^ a, d ^ b
        self.state = [a ^ d, b ^ c, c ^ b << 17 & WORD, rotated(d, 45)]
        return word % most


def aircraft(number):
    """The row of an aircraft, counted from 0; each sixth is a bus."""
    if number % 6 == 5:
        kind = b"BUS SURFACE 0/0/50 600 40"
    else:
        kind = b"M1 NARROW 0/12/80 600 900" if number % 2 else b"M1 NARROW 0/20/100 600 1000"
    return b"P%d %s 30 20 HUB NULL\n" % (number + 1, kind)


def seats(number):
    """Seats in business and economy."""
    return [0, 50] if number % 6 == 5 else [12, 80] if number % 2 else [20, 100]


def flights(draws, number):
    """The four legs of an aircraft: there and back, twice."""
    leaves = 360 + 5 * draws.draw(13)
    first = draws.draw(3)
    second = (first + 1 + draws.draw(2)) % 3
    rows = []
    for station, block in (OUTSTATIONS[first], OUTSTATIONS[second]):
        for pair in ((b"HUB", station), (station, b"HUB")):
            arrives = leaves + block
            rows.append(b"F%d %s %s %02d:%02d %02d:%02d 0\n" % (
                4 * number + len(rows) + 1, *pair, leaves // 60, leaves % 60, arrives // 60, arrives % 60))
            leaves = arrives + 40
    return rows


def itineraries(draws, size):
    """The rows of the reservations for whom there are seats."""
    left = {}
    rows = []
    for number in range(40 * size):
        plane, kind, count = draws.draw(6 * size), draws.draw(4), 1 + draws.draw(8)
        price, is_business = 50 + draws.draw(200), draws.draw(5) == 0 and plane % 6 != 5
        legs = [4 * plane + at for at in ((0,), (1,), (2,), (1, 2))[kind]]
        cabin = 0 if is_business else 1
        rooms = [left.setdefault(leg, seats(plane)) for leg in legs]
        count = min([count] + [room[cabin] for room in rooms])
        if count:
            for room in rooms:
                room[cabin] -= count
            path = b"".join(b" F%d 01/03/08 %c" % (leg + 1, b"BE"[cabin]) for leg in legs)
            rows.append(b"R%d A %d %d%s\n" % (number + 1, price, count, path))
    return rows


def generate(seed, size):
    """The 13 files of a day, by name and in the order of files."""
    draws, planes = Draws(seed), 6 * size
    legs = [row for number in range(planes) for row in flights(draws, number)]
    booked = itineraries(draws, size)
    airports = (b"HUB", b"AAA", b"BBB", b"CCC")
    return {
        "config.csv": b"01/03/08 06:00 02/03/08 06:00\n",
        "flights.csv": b"".join(legs),
        "rotations.csv": b"".join(b"F%d 01/03/08 P%d\n" % (leg + 1, leg // 4 + 1) for leg in range(4 * planes)),
        "aircraft.csv": b"".join(map(aircraft, range(planes))),
        "airports.csv": b"".join(b"%s %d %d 00:00 24:00\n" % (name, planes, planes) for name in airports),
        "dist.csv": b"HUB AAA 60 D\nHUB BBB 75 D\nHUB CCC 90 C\n",
        "itineraries.csv": b"".join(booked),
        "position.csv": b"HUB M1 0/20/100 %d M1 0/12/80 %d\n" % (3 * size, 2 * size),
        "alt_flights.csv": b"F1 01/03/08 60\n",
        "alt_aircraft.csv": b"P2 01/03/08 10:00 01/03/08 13:00\n",
        "alt_airports.csv": b"AAA 01/03/08 09:00 01/03/08 11:00 0 0\n",
        "tariff.csv": TARIFF,
        "feed.csv": b"1,flight,F5,01/03/08,-1\n",
    }
