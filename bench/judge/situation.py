"""What the orders that were taken make of a day, and how far it has gone (docs/RULES-AND-COST.md, after the table of rules)."""
LATEST = 2_880


def went(groups, gone):
    """How many of the carried passengers of groups have each list of pairs behind them, by what a path has behind it."""
    counts = {}
    for path, count in groups.items():
        if path:
            counts[gone(path)] = counts.get(gone(path), 0) + count
    return counts


class Situation:
    """A day with the orders of the batches that were taken so far, and what has left by the last moment that one told.

    The rows of the legs that have left are by leg, and the tally of a reservation counts by list of pairs who has left on it.
    """

    def __init__(self, day, orders=(), now=None, frozen=None, tallies=None):
        self.day, self.orders = day, list(orders)
        self.now = day.start if now is None else now
        self.frozen = frozen or {}
        self.tallies = tallies or [{(): one.count} for one in day.reservations]
        self.delays, self.spans, self.closures = {}, {}, {}
        self.departed, self.arrived, self.landed = {}, {}, {}
        for order in self.orders:
            if order[0] == "flight":
                self.delays[order[1]] = order[2]
            elif order[0] == "aircraft":
                self.spans.setdefault(order[1], []).append(order[2:])
            else:
                for hour in range(order[2] // 60, (order[3] - 1) // 60 + 1):
                    self.closures[order[1], hour] = order[4:]
        for leg, row in self.frozen.items():
            if row:
                self.count(leg, *row)

    def count(self, leg, plane, dep):
        """Notes a leg that has left with an aircraft: where this one landed last, and the hours that it used."""
        scheduled = self.day.legs[leg]
        arrival = dep + scheduled.block
        self.landed[plane] = max(arrival, self.landed.get(plane, arrival))
        if not self.day.planes[plane].is_surface:
            for counts, hour in ((self.departed, (scheduled.origin, dep // 60)), (self.arrived, (scheduled.dest, arrival // 60))):
                counts[hour] = counts.get(hour, 0) + 1

    def has_left(self, leg, row, moment):
        """Whether a leg that has not left yet leaves with this row before a moment."""
        return row[1] < moment if row else self.is_fixed(leg) and self.earliest(leg) < moment

    def gone_on(self, plan, moment):
        """What has left by a later moment, and the tally of each reservation, where the rows and passengers are those of a plan."""
        frozen = dict(self.frozen)
        for leg, row in enumerate(plan.rows):
            if leg not in frozen and self.has_left(leg, row, moment):
                frozen[leg] = row
        later = Situation(self.day, (), moment, frozen, self.tallies)
        tallies = []
        for groups, tally in zip(plan.groups, self.tallies):
            counted, after = went(groups, self.gone), went(groups, later.gone)
            each = {path: after.get(path, 0) + max(0, tally.get(path, 0) - counted.get(path, 0)) for path in {*tally, *after}}
            tallies.append({path: count for path, count in each.items() if count})
        return moment, frozen, tallies

    def with_batch(self, number, plan):
        """The day with one batch more, by the plan that stands: what has left before its moment, and then its orders."""
        moment, orders = self.day.batches[number]
        so_far = self.now, self.frozen, self.tallies
        if moment is not None and moment > self.now:
            so_far = self.gone_on(plan, moment)
        return Situation(self.day, self.orders + orders, *so_far)

    def is_fixed(self, leg):
        scheduled = self.day.legs[leg]
        return self.day.planes[scheduled.plane].is_surface or scheduled.dep < self.day.start or leg in self.frozen

    def is_called_off(self, leg):
        return self.delays.get(leg, 0) is None

    def ordered(self, leg):
        return self.day.legs[leg].dep + (self.delays.get(leg) or 0)

    def earliest(self, leg):
        return self.ordered(leg) if self.is_fixed(leg) else max(self.ordered(leg), self.now)

    def latest(self, leg):
        return self.ordered(leg) + LATEST

    def due(self, leg):
        """The row that a fixed leg is due."""
        if leg in self.frozen:
            return self.frozen[leg]
        return None if self.is_called_off(leg) else (self.day.legs[leg].plane, self.earliest(leg))

    def spans_of(self, plane):
        """The spans in which an aircraft is out of service: each begins no earlier than it landed last of what has left."""
        spans = self.spans.get(plane, ())
        cut = [(max(begin, self.landed.get(plane, begin)), end) for begin, end in spans]
        return [(begin, end) for begin, end in cut if begin < end]

    def caps(self, airport, hour):
        """How many may depart and arrive in an hour, never less than have left, or none."""
        caps = self.closures.get((airport, hour)) or self.day.caps[airport][hour % 24]
        used = self.departed.get((airport, hour), 0), self.arrived.get((airport, hour), 0)
        return caps and tuple(map(max, caps, used))

    def gone(self, path):
        """What of a path has left: its legs at the start that have all left."""
        length = 0
        while length < len(path) and path[length][0] in self.frozen:
            length += 1
        return path[:length]

    def room(self, number, groups, path):
        """How many more may go the way that a path has gone; less than none where they are too many."""
        gone = self.gone(path)
        return self.tallies[number].get(gone, 0) - went(groups, self.gone).get(gone, 0)

    def is_bound(self, number, groups, path):
        """Whether a path is one of passengers who are where it goes on (C15)."""
        begun = self.day.reservations[number].begun
        return path[:len(begun)] == begun and self.gone(path) in self.tallies[number] and self.room(number, groups, path) >= 0

    def stems(self, number):
        """The lists of pairs with which passengers go on: what has begun, and then what some have left on."""
        begun = self.day.reservations[number].begun
        return [begun] + [path for path in sorted(self.tallies[number]) if path not in ((), begun)]

    def is_good(self, plan, number, path):
        """Whether a path that is not empty meets C13, C14 and C15 in a plan."""
        one = self.day.reservations[number]
        return plan.takes_there(one, path) and plan.is_in_time(one, path) and self.is_bound(number, plan.groups[number], path)
