"""A plan: the row of each leg, and the passengers of each reservation by their paths (docs/RULES-AND-COST.md, "A plan")."""
CONNECTION = 30


class Plan:
    """A row is none, cancelled, or an aircraft and a departure. The groups of a reservation are counts by path."""

    def __init__(self, day, rows, groups):
        self.day, self.rows, self.groups = day, rows, groups

    def copy(self):
        return Plan(self.day, list(self.rows), [dict(groups) for groups in self.groups])

    def arrival(self, leg):
        return self.rows[leg][1] + self.day.legs[leg].block

    def rotation(self, plane):
        """The legs that an aircraft flies, in their order."""
        return sorted((row[1], leg) for leg, row in enumerate(self.rows) if row and row[0] == plane)

    def flown_by(self, plane):
        return [leg for _, leg in self.rotation(plane)]

    def ground_time(self, before, leg):
        """How long an aircraft stands between two of its legs."""
        plane = self.day.planes[self.rows[leg][0]]
        return plane.transit if self.day.legs[leg].previous == before else plane.turn

    def aboard(self, leg, cabin):
        """The passengers in a cabin of a leg."""
        return sum(count for groups in self.groups for path, count in groups.items() if (leg, cabin) in path)

    def all_aboard(self):
        """The passengers in each cabin of each leg on which there are some."""
        found = {}
        for groups in self.groups:
            for path, count in groups.items():
                for pair in set(path):
                    found[pair] = found.get(pair, 0) + count
        return found

    def move(self, number, source, target, count):
        """Moves so many passengers of a reservation from one path to another, or all where they are fewer."""
        groups = self.groups[number]
        count = min(count, groups.get(source, 0))
        if source == target or not count:
            return
        groups[source] -= count
        if not groups[source]:
            del groups[source]
        groups[target] = groups.get(target, 0) + count

    def is_flown(self, path):
        return all(self.rows[leg] for leg, _ in path)

    def goes_on(self, before, leg):
        """Whether a flown leg goes on from the flown leg before it in a path."""
        legs, rows = self.day.legs, self.rows
        if legs[before].dest != legs[leg].origin:
            return False
        stays_aboard = legs[leg].previous == before and rows[leg][0] == rows[before][0]
        return rows[leg][1] >= self.arrival(before) + (0 if stays_aboard else CONNECTION)

    def takes_there(self, reservation, path):
        """Whether a path that is not empty runs as it was booked (C13)."""
        if not self.is_flown(path):
            return False
        first, last = path[0][0], path[-1][0]
        legs = self.day.legs
        return (
            legs[first].origin == reservation.origin and legs[last].dest == reservation.dest
            and self.rows[first][1] >= reservation.dep
            and all(self.goes_on(before, leg) for (before, _), (leg, _) in zip(path, path[1:]))
        )

    def is_in_time(self, reservation, path):
        """Whether a path that is flown arrives in time (C14); of another one nothing is asked."""
        longest = 2_160 if reservation.haul == 2 else 1_080
        return not self.is_flown(path) or self.arrival(path[-1][0]) <= reservation.arr + longest


def schedule(day):
    """The first plan: each leg as it is scheduled, and all passengers on their scheduled paths."""
    return Plan(day, [(leg.plane, leg.dep) for leg in day.legs], [{one.path: one.count} for one in day.reservations])
