"""The six terms of the cost, in grains (docs/RULES-AND-COST.md, "The cost")."""
HOUR = 60


class Tariff:
    """The prices and weights of a day."""

    def __init__(self, prices):
        self.prices = prices
        self.thresholds = {}
        for key in prices:
            if key[0] in ("care", "compensation") and key[2] is not None:
                self.thresholds.setdefault(key[:2], []).append(key[2])

    def weight(self, term):
        return self.prices.get(("weight", term), 1_000)

    def price(self, *key):
        return self.prices.get(key, 0)

    def owed(self, kind, haul, delay):
        """The price of the greatest threshold that a delay reaches."""
        reached = [minutes for minutes in self.thresholds.get((kind, haul), ()) if minutes <= delay]
        return self.price(kind, haul, max(reached)) if reached else 0


def operating(tariff, plan):
    flown = (leg for leg, row in enumerate(plan.rows) if row)
    return tariff.weight("operating") * sum(
        plan.day.planes[plan.rows[leg][0]].cost * plan.day.legs[leg].block for leg in flown
    )


def groups_of(plan):
    for reservation, groups in zip(plan.day.reservations, plan.groups):
        for path, count in groups.items():
            yield reservation, path, count


def late(plan):
    """Who arrives, with the minutes after the booked arrival."""
    for reservation, path, count in groups_of(plan):
        if path and plan.is_flown(path):
            yield reservation, count, max(0, plan.arrival(path[-1][0]) - reservation.arr)


def delay(tariff, plan):
    return tariff.weight("delay") * sum(
        tariff.price("delay", reservation.haul, reservation.cabin) * minutes * count for reservation, count, minutes in late(plan)
    )


def cancellation(tariff, plan):
    return HOUR * tariff.weight("cancellation") * sum(
        tariff.price("cancel", reservation.haul, reservation.cabin) * count
        for reservation, path, count in groups_of(plan) if not path
    )


def downgrade(tariff, plan):
    return HOUR * tariff.weight("downgrade") * sum(
        tariff.price("downgrade", plan.day.legs[leg].haul, reservation.cabin, cabin) * count
        for reservation, path, count in groups_of(plan) for leg, cabin in path if cabin > reservation.cabin
    )


def legal(tariff, plan):
    owed_to_late = sum(
        (tariff.owed("care", reservation.haul, minutes) + tariff.owed("compensation", reservation.haul, minutes)) * count
        for reservation, count, minutes in late(plan)
    )
    owed_to_uncarried = sum(
        (reservation.price + tariff.price("care", reservation.haul, None)
         + tariff.price("compensation", reservation.haul, None)) * count
        for reservation, path, count in groups_of(plan) if not path
    )
    return HOUR * tariff.weight("legal") * (owed_to_late + owed_to_uncarried)


def ends(plan):
    """Where each aircraft that is no surface transport ends."""
    for number, plane in enumerate(plan.day.planes):
        if not plane.is_surface:
            before = [leg for dep, leg in plan.rotation(number) if dep < plan.day.end]
            yield (plan.day.legs[before[-1]].dest if before else plane.origin), plane.model, plane.seats


def position(tariff, plan):
    stand = list(ends(plan))
    missing = sum(max(0, count - stand.count((airport, model, seats))) for airport, model, seats, count in plan.day.positions)
    return HOUR * tariff.weight("position") * tariff.price("position") * missing


TERMS = (operating, delay, cancellation, downgrade, legal, position)


def cost(plan):
    """What a plan costs, in grains."""
    tariff = Tariff(plan.day.prices)
    return sum(term(tariff, plan) for term in TERMS)
