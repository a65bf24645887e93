"""The fifteen rules, and the first item that a plan breaks (docs/RULES-AND-COST.md, "The rules").

A rule is a function that gives the items that a plan breaks, in their order. An item is its rule's number and what it names.
"""


def meets(dep, arr, span):
    """Whether a leg meets a span: it may arrive as the span begins, and depart as it ends."""
    return dep < span[1] and span[0] < arr


class Judged:
    """A plan under the orders of a day, with what several rules ask of it."""

    def __init__(self, situation, plan):
        self.situation, self.plan, self.day = situation, plan, situation.day
        self.rotations = [[] for _ in self.day.planes]
        for leg in self.flown():
            self.rotations[plan.rows[leg][0]].append(leg)
        for rotation in self.rotations:
            rotation.sort(key=lambda leg: (plan.rows[leg][1], leg))

    def flown(self):
        return (leg for leg, row in enumerate(self.plan.rows) if row)

    def air_planes(self):
        """The aircraft that are no surface transport."""
        return (number for number, plane in enumerate(self.day.planes) if not plane.is_surface)


def c1(judged):
    for leg, row in enumerate(judged.plan.rows):
        if judged.situation.is_fixed(leg) and row != judged.situation.due(leg):
            yield leg


def c2(judged):
    situation = judged.situation
    for leg in judged.flown():
        if not situation.is_fixed(leg):
            dep = judged.plan.rows[leg][1]
            if situation.is_called_off(leg) or not situation.earliest(leg) <= dep <= situation.latest(leg):
                yield leg


def c3(judged):
    planes = judged.day.planes
    for leg in judged.flown():
        if planes[judged.plan.rows[leg][0]].family != planes[judged.day.legs[leg].plane].family:
            yield leg


def c4(judged):
    for leg in judged.flown():
        if judged.day.legs[leg].distance > judged.day.planes[judged.plan.rows[leg][0]].range:
            yield leg


def c5(judged):
    broken = []
    for number in judged.air_planes():
        place = judged.day.planes[number].origin
        for leg in judged.rotations[number]:
            if judged.day.legs[leg].origin != place:
                broken.append(leg)
            place = judged.day.legs[leg].dest
    return sorted(broken)


def c6(judged):
    broken, plan = [], judged.plan
    for number in judged.air_planes():
        rotation = judged.rotations[number]
        for before, leg in zip(rotation, rotation[1:]):
            if plan.rows[leg][1] < plan.arrival(before) + plan.ground_time(before, leg):
                broken.append(leg)
    return sorted(broken)


def c7(judged):
    for leg in judged.flown():
        number, dep = judged.plan.rows[leg]
        if not judged.day.planes[number].is_surface:
            if any(meets(dep, judged.plan.arrival(leg), span) for span in judged.situation.spans_of(number)):
                yield leg


def maintained(judged):
    """The aircraft that have a maintenance, and their legs before its start and from it on."""
    for number in judged.air_planes():
        plane = judged.day.planes[number]
        if plane.maintenance:
            rotation, start = judged.rotations[number], plane.maintenance[1]
            before = [leg for leg in rotation if judged.plan.rows[leg][1] < start]
            yield number, plane, before, rotation[len(before):]


def c8(judged):
    for number, plane, before, after in maintained(judged):
        place, start, end, _ = plane.maintenance
        stands = judged.day.legs[before[-1]].dest if before else plane.origin
        meeting = any(meets(judged.plan.rows[leg][1], judged.plan.arrival(leg), (start, end)) for leg in before + after)
        if after and (meeting or stands != place):
            yield number


def c9(judged):
    for number, plane, before, _ in maintained(judged):
        if sum(judged.day.legs[leg].block for leg in before) > plane.maintenance[3]:
            yield number


def overfull(judged, which, place_and_moment):
    """The hours of airports in which too many legs depart or arrive."""
    counts = {}
    for leg in judged.flown():
        if not judged.day.planes[judged.plan.rows[leg][0]].is_surface:
            airport, moment = place_and_moment(leg)
            counts[airport, moment // 60] = counts.get((airport, moment // 60), 0) + 1
    for slot, count in sorted(counts.items()):
        caps = judged.situation.caps(*slot)
        if caps and count > caps[which]:
            yield slot


def c10(judged):
    return overfull(judged, 0, lambda leg: (judged.day.legs[leg].origin, judged.plan.rows[leg][1]))


def c11(judged):
    return overfull(judged, 1, lambda leg: (judged.day.legs[leg].dest, judged.plan.arrival(leg)))


def c12(judged):
    for (leg, cabin), count in sorted(judged.plan.all_aboard().items()):
        row = judged.plan.rows[leg]
        if row and count > judged.day.planes[row[0]].seats[cabin]:
            yield leg, cabin


def of_paths(test):
    """The rule that asks each path of each reservation by a test."""

    def rule(judged):
        for number, groups in enumerate(judged.plan.groups):
            if any(path and not test(judged, number, path) for path in groups):
                yield number

    return rule


c13 = of_paths(lambda judged, number, path: judged.plan.takes_there(judged.day.reservations[number], path))
c14 = of_paths(lambda judged, number, path: judged.plan.is_in_time(judged.day.reservations[number], path))
c15 = of_paths(lambda judged, number, path: judged.situation.is_bound(number, judged.plan.groups[number], path))

RULES = (c1, c2, c3, c4, c5, c6, c7, c8, c9, c10, c11, c12, c13, c14, c15)


def first_broken(situation, plan):
    """The first item that a plan breaks, or none."""
    judged = Judged(situation, plan)
    for number, rule in enumerate(RULES, 1):
        for item in rule(judged):
            return number, item
    return None
