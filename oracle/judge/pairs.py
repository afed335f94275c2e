"""Pairs of changes that repair a record with two slips, by the second judge.

A head is a change with which the rules allow the first refused event too, so that the fault moves on. The three cheapest heads are gone on with: each
repair of the record that a head makes is the second change of a pair.
"""
from dataclasses import dataclass, replace
from itertools import islice
from math import inf

from boards import Refused
from repairs import UNLISTED_WORD, WORDS_OF_SLIPS, WRONG_NUMBER, AnyHands, Change, Front, Repair, remembered, repairs, repairs_below, wrong_numbers
from rules import ENGLISH

HEADS = 3


@dataclass
class Head:
    """A change with which the fault moves on, what it costs up to there, and the record that it makes. A line that is missing has its right score
    then, and the total that goes with it."""

    change: Change
    cost: int
    made: list


@dataclass
class Pair:
    """A head, and a repair of the record that it makes."""

    head: Head
    then: Repair

    @property
    def cost(self):
        return self.head.change.weight + self.then.cost

    def record(self):
        return self.then.record()


def made_by(change, changed, right):
    """A record with a change, with the numbers of the sheet."""
    place = change.place
    if not change.adds(place):
        return changed
    line = changed[place]
    had = next((it.total for it in changed[:place][::-1] if it.player == line.player), 0)
    score = right[place].score
    return [*changed[:place], replace(line, score=score, total=had + score), *changed[place + 1 :]]


def head_by(front, change):
    """The head by a change, if it is one: all events up to the first refused one have to be allowed, and those that the change puts there."""
    changed, start = change.applied(front.events), max(0, change.place - 1)
    behind = len(front.events) - len(front.taken) - 1
    end = max(len(changed) - behind, change.place + len(change.there))
    try:
        rest = list(islice(front.states[start].copy().goes_on(changed, start, front.listed), max(0, end - start)))
    except Refused:
        return None
    taken = [*front.taken[:start], *rest][:end]
    right = [it.event for it in taken]
    wrong, unlisted = wrong_numbers(change, changed, right), sum(len(it.unlisted) for it in taken)
    return Head(change, WRONG_NUMBER * wrong + UNLISTED_WORD * unlisted + change.weight, made_by(change, changed, right))


def cheapest_heads(events, listed, rules=ENGLISH):
    """The heads of a record, the cheapest first; none if the rules allow each event with its right numbers."""
    front = Front(rules, events, listed, AnyHands)
    if len(front.taken) == len(events):
        return []
    found = filter(None, (head_by(front, change) for change in front.changes()))
    return sorted(found, key=lambda it: it.cost)


def heads(events, listed, rules=ENGLISH):
    """The first three of these heads, with which pairs go on."""
    return cheapest_heads(events, listed, rules)[:HEADS]


def is_of_sheet(head, then):
    """Whether a second change is of lines of the sheet alone, and no number is wrong on a line that the first one put there."""
    new = head.change.place
    if not head.change.adds(new):
        return True
    if then.change.place <= new < then.change.place + then.change.replaced:
        return False
    place = new if new < then.change.place else new + len(then.change.there) - then.change.replaced
    changed, right, had = then.change.applied(head.made), then.right(), 0
    for k, it in enumerate(changed[:place]):
        if it.player == changed[place].player:
            had = had + right[k].score if then.change.adds(k) else it.total
    return changed[place].score == right[place].score and changed[place].total in (had + changed[place].score, right[place].total)


def is_likely(single):
    """Whether a single repair costs no more than a wrong number, or leaves no number wrong and more unlisted words than come from slips."""
    return single.cost <= WRONG_NUMBER or not single.wrong and single.unlisted > WORDS_OF_SLIPS


@remembered
def pairs(events, listed, rules=ENGLISH):
    """The pairs that repair a record, each resulting record once, those that cost least first. They are looked for if the first single repair is not
    likely, and each costs less than any. Also whether of each second change it is known whether a deal fits, and whether the program comes to it: a
    record that the rules allow to its end with the head alone is searched only for a number of steps, the last lines first, and steps are not counted
    here.
    """
    singles = [it for it in repairs(events, listed, rules) if it.dealt]
    least = min((it.cost for it in singles), default=inf)
    found, known = [], True
    for head in [] if singles and is_likely(singles[0]) else heads(events, listed, rules):
        front = Front(rules, head.made, listed)
        seconds = [it for it in repairs_below(front, inf) if head.change.weight + it.cost < least]
        known = known and all(it.is_known for it in seconds) and not (seconds and len(front.taken) == len(front.events))
        found += [Pair(head, it) for it in seconds if it.dealt and is_of_sheet(head, it)]
    seen, told = {it.record() for it in singles}, []
    for pair in sorted(found, key=lambda it: it.cost):
        if pair.then.record() not in seen:
            seen.add(pair.then.record())
            told.append(pair)
    return told, known
