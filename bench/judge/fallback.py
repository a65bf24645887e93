"""Batches, states and answers (docs/MOVES.md, "Batches" and after)."""
from judge.cost import cost
from judge.moves import moved, push, tidy
from judge.plan import schedule
from judge.rules import first_broken
from judge.situation import Situation

MOST_ENTRIES_FOR_A_MOVE = 900_000


def settle(situation, plan):
    """Gives each fixed leg the row that it is due."""
    for leg in range(len(plan.rows)):
        if situation.is_fixed(leg):
            plan.rows[leg] = situation.due(leg)


def keep(_, plan):
    return plan


def shift(situation, plan):
    """Drops what is called off and what follows it, and pushes all aircraft."""
    plan = plan.copy()
    settle(situation, plan)
    for plane in range(len(plan.day.planes)):
        movable = [leg for leg in plan.flown_by(plane) if not situation.is_fixed(leg)]
        called_off = [at for at, leg in enumerate(movable) if situation.is_called_off(leg)]
        for leg in movable[called_off[0]:] if called_off else ():
            plan.rows[leg] = None
    for plane in range(len(plan.day.planes)):
        push(situation, plan, plane, None)
    tidy(situation, plan)
    return plan


def ground(situation, plan):
    """Cancels all movable legs."""
    plan = plan.copy()
    settle(situation, plan)
    for leg in range(len(plan.rows)):
        if not situation.is_fixed(leg):
            plan.rows[leg] = None
    tidy(situation, plan)
    return plan


FALLBACKS = (keep, shift, ground)


class State:
    """The day with its orders, the rows as they stand, and the first item that they break."""

    def __init__(self, day):
        self.situation, self.plan = Situation(day), schedule(day)
        self.item = first_broken(self.situation, self.plan)
        self.cost = cost(self.plan)
        self.changes, self.entries = 0, 0

    def take_batch(self, number):
        """Takes a batch, and gives the answer to it."""
        self.situation = self.situation.with_batch(number, self.plan)
        self.changes += 1
        self.entries += 1
        for fallback in FALLBACKS:
            plan = fallback(self.situation, self.plan)
            self.item = first_broken(self.situation, plan)
            if self.item is None:
                break
        self.plan, self.cost = plan, cost(plan)
        return ("no plan", self.item) if self.item else (fallback.__name__, self.cost)

    def judge(self, steps):
        """The answer to a move, and the plan that it makes where it is accepted."""
        if self.item:
            return ("no plan", self.item), None
        plan = moved(self.situation, self.plan, steps)
        item = first_broken(self.situation, plan)
        if item:
            return ("breaks", item), None
        would = cost(plan)
        return (("accepted", would), plan) if would < self.cost else (("dearer", self.cost, would), None)

    def propose(self, steps):
        """Takes a move, and gives the answer to it; none where the journal has no room."""
        if self.entries >= MOST_ENTRIES_FOR_A_MOVE:
            return None
        self.entries += 1
        answer, plan = self.judge(steps)
        if plan:
            self.plan, self.cost = plan, answer[1]
            self.changes += 1
        return answer
