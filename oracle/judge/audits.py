"""What `audit` prints of a sheet, by the second judge: its wrong numbers, and the verdict on the corrected events."""
import copy
from dataclasses import replace

from boards import Refused
from deals import settled_verdicts
from games import Game, step
from rules import ENGLISH

MOST = 999_999


def mended(event, fault):
    """The event with the number that a fault names, or None where it names none that a record can write."""
    name, _, number = str(fault).partition(" ")
    if name not in ("WrongScore", "WrongTotal") or abs(int(number)) > MOST:
        return None
    return replace(event, **{"score" if name == "WrongScore" else "total": int(number)})


def taken(game, event, following, listed):
    """The game after an event, the event with the right numbers, and whether it is allowed with them."""
    while True:
        after = copy.deepcopy(game)
        try:
            step(after, event, following, listed)
            return after, event, True
        except Refused as fault:
            other = mended(event, fault)
            if other is None:
                return game, event, False
            event = other


def corrected_to(events, listed, rules=ENGLISH):
    """The events with the right numbers, up to the first that is refused for something else, and its place, or None where none is."""
    game, right = Game(rules), []
    for place, event in enumerate(events):
        following = events[place + 1] if place + 1 < len(events) else None
        game, event, allowed = taken(game, event, following, listed)
        right.append(event)
        if not allowed:
            return right + events[place + 1 :], place
    return right, None


def corrected(events, listed, rules=ENGLISH):
    """The events with the right numbers, up to the first that is refused for something else, and whether none is."""
    right, stop = corrected_to(events, listed, rules)
    return right, stop is None


def last_totals(events):
    totals = {}
    for event in events:
        totals[event.player] = event.total
    return totals


def wrong_numbers(events, right, stop, numbers=None, nicks="AB"):
    """The lines of the wrong scores and sums of a sheet, and of the last totals where it has a correction: where that does not stop at a place. A sum
    is wrong if it is neither what the line before it gives nor, as far as the correction goes, the right total. A last total is told by its line if
    its sum is wrong."""
    numbers = numbers or range(1, len(events) + 1)
    told, had, by_line = [], {}, {}
    for place, (number, written, other) in enumerate(zip(numbers, events, right)):
        event = f"{nicks[written.player]}, {written.text}"
        if written.score != other.score:
            told.append(f"line {number}: score {written.score}, should be {other.score} ({event})")
        total = had.get(written.player, 0) + written.score
        due = other.total if stop is None or place < stop else total
        by_line[written.player] = written.total not in (total, due)
        if by_line[written.player]:
            told.append(f"line {number}: sum {written.total}, should be {due} ({event})")
        had[written.player] = written.total
    rights = last_totals(right)
    told += [f"total of {nicks[k]}: {had[k]}, should be {rights[k]}" for k in sorted(had) if stop is None and had[k] != rights[k] and not by_line[k]]
    return told


def off_by_units(events, right, stop, rules=ENGLISH):
    """Whether a wrong sum is off by some bonuses for a word or some steps of time: only then a bonus or a penalty is looked for."""
    had, units = {}, [unit for unit in (rules.challenge_unit, rules.time_step) if unit]
    for place, (written, other) in enumerate(zip(events, right)):
        off = written.total - had.get(written.player, 0) - written.score
        is_wrong = off and not ((stop is None or place < stop) and written.total == other.total)
        if is_wrong and any(off % unit == 0 for unit in units):
            return True
        had[written.player] = written.total
    return False


def ways(events, listed, rules=ENGLISH, numbers=None, nicks="AB"):
    """The wrong numbers of a sheet, and the verdict lines of which one has to follow, each with the line that says who is ahead if there is one."""
    right, stop = corrected_to(events, listed, rules)
    verdicts = settled_verdicts(right, listed, rules)
    if numbers:
        verdicts = [on_line(verdict, numbers) for verdict in verdicts]
    return wrong_numbers(events, right, stop, numbers, nicks), ["\n".join([verdict, *lead(verdict, events, right, nicks)]) for verdict in verdicts]


def ahead_of(events):
    """The player who is ahead, and by how many points; no player where both have the same."""
    totals = last_totals(events)
    by = totals.get(0, 0) - totals.get(1, 0)
    return (None if by == 0 else 0 if by > 0 else 1), abs(by)


def lead(verdict, events, right, nicks="AB"):
    """The line that says who is ahead by the right numbers, and by the sheet if that is not the same; none if the record is illegal."""
    if verdict.startswith("illegal"):
        return []
    verb = "won" if verdict == "legal complete" else "is ahead"
    said = [
        f"{nicks[player] or 'the other player'} {verb} by {by}" if by else "both have the same total" for player, by in map(ahead_of, (right, events))
    ]
    return [said[0] if said[0] == said[1] else "; by the sheet ".join(said)]


def on_line(verdict, numbers):
    """A verdict with the line of the record in place of the number of the event."""
    if not verdict.startswith("illegal"):
        return verdict
    place, fault = verdict.removeprefix("illegal line ").split(":", 1)
    return f"illegal line {numbers[int(place) - 1]}:{fault}"


def status(wrong, verdict):
    """The exit status of an audit."""
    return max(bool(wrong), {"legal": 0, "illegal": 1, "unsettled": 2}[verdict.split()[0]])
