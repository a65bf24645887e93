"""Crews: the join of crew.csv, and the rules K1 to K4 of their duties (docs/FORMATS.md, "crew.csv"; docs/RULES-AND-COST.md, "Crews")."""
from typing import NamedTuple

from judge.rows import Refused

FILE = "crew.csv"
MOST_CREWS, MOST_LEGS = 5_000, 64


class Crew(NamedTuple):
    """A crew; its home and its legs are numbers."""
    name: bytes
    home: int
    duty: int
    rest: int
    legs: list


def join_crews(day, rows):
    """The crews of the rows, or the first row that is refused."""
    crews = []
    for line, row in rows:
        try:
            crews.append(crew(day, crews, row))
        except Refused as refused:
            raise Refused(refused.cause, line, FILE) from None
    return crews


def crew(day, before, row):
    """The crew of a row that comes after these."""
    name, home, duty, rest, legs = row
    if len(before) >= MOST_CREWS or len(legs) > MOST_LEGS:
        raise Refused("Limit")
    if any(name == other.name for other in before):
        raise Refused("Twice")
    if home not in day.airports or any(leg not in day.leg_of for leg in legs):
        raise Refused("Unknown")
    if len(set(legs)) < len(legs):
        raise Refused("Twice")
    return Crew(name, day.airports.index(home), duty, rest, [day.leg_of[leg] for leg in legs])


def keeps(plan, one):
    """For each rule whether a crew keeps it in a plan."""
    legs = plan.day.legs
    worked = [leg for _, leg in sorted((plan.rows[leg][1], leg) for leg in one.legs if plan.rows[leg])]
    if not worked:
        return [True] * 4
    pairs = list(zip(worked, worked[1:]))
    duties = [[worked[0]]]
    for before, leg in pairs:
        if plan.rows[leg][1] < plan.arrival(before) + one.rest:
            duties[-1].append(leg)
        else:
            duties.append([leg])
    return [
        legs[worked[0]].origin == one.home and all(legs[leg].origin == legs[before].dest for before, leg in pairs),
        all(plan.rows[leg][1] >= plan.arrival(before) for before, leg in pairs),
        all(plan.arrival(duty[-1]) <= plan.rows[duty[0]][1] + one.duty for duty in duties),
        legs[worked[-1]].dest == one.home,
    ]


def judged(plan, crews):
    """What the report says of the crews: the first rule that is not kept, and of it the first crew."""
    kept = [keeps(plan, one) for one in crews]
    for rule in range(4):
        for number, one in enumerate(crews):
            if not kept[number][rule]:
                return b"K%d %s" % (rule + 1, one.name)
    return b"ok"
