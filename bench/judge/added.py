"""Added legs: what they are, and which are added to a plan (docs/RULES-AND-COST.md, "Added legs")."""
from typing import NamedTuple

from judge.cost import cost
from judge.day import Leg
from judge.plan import Plan
from judge.rules import RULES, Judged
from judge.situation import Situation

FILE = "sol_added.csv"
# an added leg departs within two days of when its aircraft is ready
LONGEST = 2_880
# C4 to C11
ASKED = RULES[3:11]


class Added(NamedTuple):
    """An added leg: its aircraft and its destination are numbers."""
    plane: int
    dest: int
    dep: int


def end_of(plan, plane):
    """Where an aircraft ends in a plan."""
    flown = plan.flown_by(plane)
    return plan.day.legs[flown[-1]].dest if flown else plan.day.planes[plane].origin


def merged(situation, plan, added):
    """The day with added legs behind its own, one for each aircraft and cancelled where it has none, and the plan with their rows."""
    day, of = plan.day, {one.plane: one for one in added}
    legs, rows = list(day.legs), list(plan.rows)
    for number in range(len(day.planes)):
        one, origin = of.get(number), end_of(plan, number)
        minutes = day.distances[origin, one.dest] if one else 0
        legs.append(Leg(b"", 0, origin, one.dest if one else origin, 0, minutes, number, minutes, 0, None))
        rows.append((number, one.dep) if one else None)
    longer = day._replace(legs=legs)
    more = Situation(longer, situation.orders, situation.now, situation.frozen, situation.tallies)
    return more, Plan(longer, rows, plan.groups)


def breaks_none(situation, plan, added):
    """Whether added legs break none of the rules that are asked of them."""
    judged = Judged(*merged(situation, plan, added))
    return all(next(iter(rule(judged)), None) is None for rule in ASKED)


def cost_added(situation, plan, added):
    """What a plan costs with added legs."""
    return cost(merged(situation, plan, added)[1])


def moments(situation, plan, plane):
    """When an aircraft may leave with an added leg, but for the rules."""
    flown = plan.flown_by(plane)
    ready = situation.now
    if flown:
        ready = max(ready, plan.arrival(flown[-1]) + plan.day.planes[plane].turn)
    return range(ready, min(ready + LONGEST + 1, plan.day.end))


def first_that_pays(situation, plan, added):
    """The first candidate with which the cost is lower than with these added legs, or none.

    All its moments are before the end of the window, so it costs the same at each of them. So what it costs is asked first, and when
    it may depart of those alone that pay.
    """
    day, now = plan.day, cost_added(situation, plan, added)
    for plane, dest in ((plane, dest) for plane in range(len(day.planes)) for dest in range(len(day.airports))):
        if day.planes[plane].is_surface or any(one.plane == plane for one in added):
            continue
        if (end_of(plan, plane), dest) not in day.distances:
            continue
        legs = [Added(plane, dest, moment) for moment in moments(situation, plan, plane)]
        if legs and cost_added(situation, plan, added + legs[:1]) < now:
            found = next((leg for leg in legs if breaks_none(situation, plan, added + [leg])), None)
            if found:
                return found
    return None


def ferried(situation, plan):
    """The legs that are added to a plan that breaks no rule, in their order, each with what the plan costs with it and those before it."""
    added, told = [], []
    while True:
        leg = first_that_pays(situation, plan, added)
        if leg is None:
            return told
        added = added + [leg]
        told.append((leg, cost_added(situation, plan, added)))
