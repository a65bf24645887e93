"""The moves near a plan, and the search (docs/MOVES.md, "The moves near a plan" and after)."""
from judge.moves import MOMENT_LIMIT

LATER = (15, 30, 60, 120, 240)
LONGEST_RUN = 4
LONGEST_STAY = 1_440
CABINS = (0, 1, 2)


class Near:
    """The moves near a plan under the orders of a day."""

    def __init__(self, situation, plan):
        self.situation, self.plan, self.day = situation, plan, situation.day
        self.legs, self.planes = self.day.legs, self.day.planes

    def moves(self):
        """All of them, in their order; one that departs too late is left out."""
        for family in (self.retimed, self.swapped, self.dropped, self.restored, self.handed_on, self.rebooked):
            for steps in family():
                if all(step[0] != "set" or step[3] is None or step[3][1] < MOMENT_LIMIT for step in steps):
                    yield steps

    def movable(self, flown):
        """The movable legs that are flown, or that are cancelled and not called off."""
        for leg, row in enumerate(self.plan.rows):
            if not self.situation.is_fixed(leg):
                if row if flown else row is None and not self.situation.is_called_off(leg):
                    yield leg

    def runs(self, leg):
        """The runs of movable legs of one aircraft that begin with a leg, and whether the aircraft's last leg ends them."""
        rotation = self.plan.flown_by(self.plan.rows[leg][0])
        at = rotation.index(leg)
        for length in range(1, LONGEST_RUN + 1):
            run = rotation[at:at + length]
            if len(run) == length and not any(map(self.situation.is_fixed, run)):
                yield run, at + length == len(rotation)

    def of_family(self, plane):
        family = self.planes[plane].family
        return (number for number, other in enumerate(self.planes) if other.family == family)

    def retimed(self):
        for leg in self.movable(True):
            plane, dep = row = self.plan.rows[leg]
            earliest = self.situation.earliest(leg)
            for moment in ([earliest] if dep > earliest else []) + [dep + later for later in LATER]:
                yield [("set", leg, row, (plane, moment)), ("push", plane, leg), ("tidy",), ("refill", leg)]

    def swapped(self):
        for one, plane in enumerate(self.planes):
            for other in self.of_family(one):
                if other > one and not plane.is_surface:
                    departures = {self.plan.rows[leg][1] for leg in self.movable(True) if self.plan.rows[leg][0] in (one, other)}
                    for moment in sorted(departures):
                        yield [("swap", one, other, moment), ("push", one, None), ("push", other, None), ("tidy",)]

    def dropped(self):
        for leg in self.movable(True):
            for run, is_last in self.runs(leg):
                if is_last or self.legs[run[-1]].dest == self.legs[leg].origin:
                    cancelled = [("set", one, self.plan.rows[one], None) for one in run]
                    yield cancelled + [("push", self.plan.rows[leg][0], None), ("tidy",)]

    def backs(self, leg):
        """The legs that bring an aircraft back from a leg."""
        there = self.legs[leg]
        for back in self.movable(False):
            one = self.legs[back]
            if (one.origin, one.dest) == (there.dest, there.origin) and there.arr <= one.dep <= there.arr + LONGEST_STAY:
                yield back

    def restored(self):
        for leg in self.movable(False):
            earliest = self.situation.earliest(leg)
            for plane in self.of_family(self.legs[leg].plane):
                flown = ("set", leg, None, (plane, earliest))
                yield [flown, ("push", plane, leg), ("tidy",), ("refill", leg)]
                ready = earliest + self.legs[leg].block + self.planes[plane].turn
                for back in self.backs(leg):
                    returning = ("set", back, None, (plane, max(self.situation.earliest(back), ready)))
                    yield [flown, returning, ("push", plane, None), ("tidy",), ("refill", leg), ("refill", back)]

    def handed_on(self):
        for leg in self.movable(True):
            plane = self.plan.rows[leg][0]
            for run, _ in self.runs(leg):
                for other in self.of_family(plane):
                    if other != plane:
                        handed = [("set", one, self.plan.rows[one], (other, self.plan.rows[one][1])) for one in run]
                        yield handed + [("push", other, None), ("push", plane, None), ("tidy",)]

    def routes(self, number):
        """The paths to which passengers of a reservation may be rebooked."""
        legs = range(len(self.legs))
        tried = [self.day.reservations[number].path]
        for stem in self.situation.stems(number):
            tried.append(stem)
            tried += [stem + ((leg, cabin),) for leg in legs for cabin in CABINS]
            tried += [stem + ((leg, cabin), (then, cabin)) for leg in legs for cabin in CABINS for then in legs]
        found = []
        for path in tried:
            if 1 <= len(path) <= 8 and path not in found and self.situation.is_good(self.plan, number, path):
                found.append(path)
        return found

    def rebooked(self):
        for number in range(len(self.day.reservations)):
            aims = self.routes(number) + [()]
            for source, count in sorted(self.plan.groups[number].items()):
                for aim in aims:
                    if aim != source:
                        for portion in [count] + [1 << power for power in range(9, -1, -1) if 1 << power < count]:
                            yield [("rebook", number, portion, source, aim)]


def descend(state, most, take):
    """Proposes the first better move until none is or so many were accepted; gives how it ended, or none without a plan."""
    if state.item:
        return None
    for _ in range(most):
        better = next((steps for steps in Near(state.situation, state.plan).moves() if state.judge(steps)[1]), None)
        if better is None:
            return "quiet"
        take(better)
    return "budget"
