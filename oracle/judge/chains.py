"""Chains of changes that repair a record with several slips, by the second judge.

Each step is the cheapest head that concerns lines of the sheet: a change with which the rules allow the first refused event too. After each step the
first repair of the record that it makes is the last change, if it costs little enough. The first step may cost less than a wrong number, and each
change after it a wrong number more.
"""
from dataclasses import dataclass
from math import inf

from pairs import cheapest_heads
from repairs import WRONG_NUMBER, Front, Repair, remembered, repairs_below
from rules import ENGLISH

STEPS = 7
TWO_NUMBERS = 2 * WRONG_NUMBER  # a chain is looked for if what is simpler costs more


@dataclass
class Chain:
    """The steps, which are heads, and the last change, which is a repair of the record that they make."""

    steps: list
    last: Repair

    @property
    def cost(self):
        return self.last.cost + sum(it.change.weight for it in self.steps)


def own_after(own, change):
    """Which lines are of the sheet, after a change of a record of which that is known."""
    there = [not change.adds(change.place)] * len(change.there)
    return [*own[: change.place], *there, *own[change.place + change.replaced :]]


def concerns_sheet(own, change):
    """Whether each line that a change concerns is of the sheet."""
    return all(own[change.place : change.place + change.replaced])


def is_right(changed, right, last, place):
    """Whether the numbers of a line are right once a record is repaired."""
    event, had = changed[place], 0
    for k, it in enumerate(changed[:place]):
        if it.player == event.player:
            had = had + right[k].score if last.adds(k) else it.total
    return event.score == right[place].score and event.total in (had + event.score, right[place].total)


def is_of_sheet(own, events, last):
    """Whether a repair concerns only lines of the sheet, and leaves no number wrong on another line."""
    change = last.change
    changed, right, whose = change.applied(events), last.right(), own_after(own, change)
    others = [k for k, is_own in enumerate(whose) if not is_own and not change.adds(k)]
    return concerns_sheet(own, change) and all(is_right(changed, right, change, k) for k in others)


def last_of(own, events, listed, rules, below):
    """The last change, if the first repair of a record is one; and whether it is known of each repair whether a deal fits."""
    found = repairs_below(Front(rules, events, listed), inf)
    first = next((it for it in found if it.dealt), None)
    good = first and first.cost < below and is_of_sheet(own, events, first)
    return first if good else None, all(it.is_known for it in found)


@remembered
def chain(events, listed, rules=ENGLISH):
    """The chain that repairs a record, or None; and whether the second judge knows of each repair on the way whether a deal fits."""
    steps, own, known = [], [True] * len(events), True
    for taken in range(STEPS):
        step = next((it for it in cheapest_heads(events, listed, rules) if concerns_sheet(own, it.change)), None)
        if not step or step.cost >= WRONG_NUMBER * (taken + 1):
            return None, known
        steps.append(step)
        events, own = step.made, own_after(own, step.change)
        last, all_known = last_of(own, events, listed, rules, WRONG_NUMBER * (taken + 2))
        known = known and all_known
        if last:
            return Chain(steps, last), known
    return None, known
