"""What the unusual decisions of a schedule cost, and which states were reached for what."""

import functools
from collections import namedtuple


class Price(namedtuple("Price", "preemptions kills stops early cuts")):
    """What the unusual decisions of a schedule cost, or may cost at most."""

    @functools.lru_cache(maxsize=None)
    def plus(self, other):
        return Price._make([a + b for a, b in zip(self, other)])

    @functools.lru_cache(maxsize=None)
    def is_within(self, other):
        return all([a <= b for a, b in zip(self, other)])

    def __str__(self):
        return ", ".join(f"{count} {what}" for count, what in zip(self, self._fields) if count) or "nothing"


FREE = Price(0, 0, 0, 0, 0)
PREEMPTS, KILLS, STOPS, EARLY, CUTS = [Price._make([int(k == at) for k in range(5)]) for at in range(5)]


class Seen:
    """The states that were reached, with the prices, and with the client that went on there."""

    def __init__(self, scenario, bounds):
        self.bounds = bounds
        self.states = {}
        self._of_current = (KILLS, CUTS, EARLY) if scenario.stall else (KILLS, CUTS)
        self._plain = {}

    def _is_plain(self, price):
        """Whether no more can be paid for what is done to the client that goes on and not to others."""
        if price not in self._plain:
            more = [price.plus(each) for each in self._of_current]
            self._plain[price] = not any(total.is_within(bound) for total in more for bound in self.bounds)
        return self._plain[price]

    def has(self, state, price):
        """Whether all that may come from here within the bounds comes from there too.

        So it does if the state was reached for no more, and the same client went on. If another one did, then the next step,
        whosever it is, costs one preemption there at most, and nothing if the other one had to wait.
        """
        whole, current, _ = state
        for other, was, was_able in self.states.get(whole, ()):
            if other.is_within(price):
                if was == current or self._is_plain(price) and (not was_able or other.plus(PREEMPTS).is_within(price)):
                    return True
        return False

    def add(self, state, price):
        whole, current, is_able = state
        self.states[whole] = (*self.states.get(whole, ()), (price, current, is_able))
