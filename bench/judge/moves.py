"""The steps of a move (docs/MOVES.md, "Moves").

A step is a tuple: its word, and what it names by numbers. `steps` gives the function that a word stands for.
"""
from judge.rules import meets

MOST_STEPS = 16
# a moment of a move is below it
MOMENT_LIMIT = 52_500_000


def set_row(_, plan, leg, was, new):
    if plan.rows[leg] == was:
        plan.rows[leg] = new


class Room:
    """How many legs that are not scheduled by surface transport use each hour of each airport."""

    def __init__(self, situation, plan, but):
        self.situation, self.departing, self.arriving = situation, {}, {}
        for leg, row in enumerate(plan.rows):
            scheduled = plan.day.legs[leg]
            if row and leg != but and not plan.day.planes[scheduled.plane].is_surface:
                departing, arriving = (scheduled.origin, row[1] // 60), (scheduled.dest, plan.arrival(leg) // 60)
                self.departing[departing] = self.departing.get(departing, 0) + 1
                self.arriving[arriving] = self.arriving.get(arriving, 0) + 1

    def departs(self, airport, hour):
        caps = self.situation.caps(airport, hour)
        return caps is None or self.departing.get((airport, hour), 0) < caps[0]

    def arrives(self, airport, hour):
        caps = self.situation.caps(airport, hour)
        return caps is None or self.arriving.get((airport, hour), 0) < caps[1]


def first_moment(situation, plan, before, leg):
    """The first moment at which a leg may depart after the leg before it on its aircraft, or none."""
    scheduled, plane = plan.day.legs[leg], plan.rows[leg][0]
    moment = situation.earliest(leg)
    if before is not None:
        moment = max(moment, plan.arrival(before) + plan.ground_time(before, leg))
    spans = list(situation.spans_of(plane))
    if plan.day.planes[plane].maintenance:
        spans.append(plan.day.planes[plane].maintenance[1:3])
    room = Room(situation, plan, leg)
    while moment <= situation.latest(leg):
        arrival = moment + scheduled.block
        met = [span[1] for span in spans if meets(moment, arrival, span)]
        if met:
            moment = max(met)
        elif not room.departs(scheduled.origin, moment // 60):
            moment = moment // 60 * 60 + 60
        elif not room.arrives(scheduled.dest, arrival // 60):
            moment += 60 - arrival % 60
        else:
            return moment
    return None


def push(situation, plan, plane, after):
    """Places the movable legs of an aircraft anew, all or those after a leg."""
    rotation = plan.flown_by(plane)
    if after is not None and after not in rotation:
        return
    begin = 0 if after is None else rotation.index(after) + 1
    for at in range(begin, len(rotation)):
        leg = rotation[at]
        if not situation.is_fixed(leg):
            moment = first_moment(situation, plan, rotation[at - 1] if at else None, leg)
            if moment is not None:
                plan.rows[leg] = (plane, moment)


def swap(_, plan, one, other, moment):
    goes_to = {one: other, other: one}
    for leg, row in enumerate(plan.rows):
        if row and row[0] in goes_to and row[1] >= moment:
            plan.rows[leg] = (goes_to[row[0]], row[1])


def rebook(_, plan, number, count, source, target):
    plan.move(number, source, target, count)


def tidy(situation, plan):
    for number, groups in enumerate(plan.groups):
        # asked of all paths before anybody is taken off
        for path in [path for path in groups if path and not situation.is_good(plan, number, path)]:
            plan.move(number, path, (), groups[path])


def refill(situation, plan, leg):
    for number, reservation in enumerate(plan.day.reservations):
        path = reservation.path
        if any(booked == leg for booked, _ in path) and situation.is_good(plan, number, path):
            left = min(plan.day.planes[plan.rows[on][0]].seats[cabin] - plan.aboard(on, cabin) for on, cabin in path)
            plan.move(number, (), path, max(0, min(left, situation.room(number, plan.groups[number], path))))


STEPS = {"set": set_row, "push": push, "swap": swap, "rebook": rebook, "tidy": tidy, "refill": refill}


def moved(situation, plan, steps):
    """The plan that a move makes."""
    plan = plan.copy()
    for word, *named in steps:
        STEPS[word](situation, plan, *named)
    return plan
