"""Compares the single changes of records with those that the second judge lists: compare_changes PROBE CASES SEED.

The probe (`crates/tool_changes`) shows each change at the places up to the first event that is not allowed: the place, what it weighs, and the
whole record with the change. The second judge has to list the same ones in the same order.
"""
from boards import Refused
from changes import changes_at, ordered
from comparing import Differences, compare_cases
from deals import events_of
from games import Game, step
from mistakes import some_inputs
from rules import ENGLISH

HEAD = "#player1 A\n#player2 B\n"
CODES = {"pass": "-", "withdraw": "--", "challenge": "(challenge)", "time": "(time)"}
MOST_EVENTS = 8


def text_of_kind(event):
    """What happened, in the normal form."""
    if event.kind == "play":
        row, column = str(event.at[0] + 1), chr(65 + event.at[1])
        return f"{row + column if event.direction == (0, 1) else column + row} {event.word}"
    if event.kind == "exchange":
        return "-" + ordered(event.tiles)
    if event.kind == "unknown":
        return f"-{event.size}"
    if event.kind == "rack":
        return f"({ordered(event.tiles)})"
    return CODES[event.kind]


def line_of(event):
    rack = ordered(event.rack) + " " if event.rack else ""
    return f">{'AB'[event.player]}: {rack}{text_of_kind(event)} {event.score:+d} {event.total}\n"


def record_of(events):
    return HEAD + "".join(map(line_of, events))


def all_changes(rules, events, listed):
    """All that the probe has to print of a record."""
    game, told = Game(rules), []
    for place in range(len(events) + 1):
        for many, weight, there in changes_at(game, events, place):
            told.append(f"{place} {weight}\n{record_of([*events[:place], *there, *events[place + many :]])}\n")
        if place == len(events):
            break
        following = events[place + 1] if place + 1 < len(events) else None
        try:
            step(game, events[place], following, listed)
        except Refused:
            break
    return told


def first_difference(told, expected):
    """The first of two lists of changes that are not the same."""
    for one, other in zip(told, expected):
        if one != other:
            return one, other
    return (told[len(expected) :] or expected[len(told) :])[0], "only one of both has it"


def compare_case(differences, number):
    """Compares the changes of one record."""
    rules, events, words, _, _ = some_inputs(differences.put)
    events = events[:MOST_EVENTS]
    record = record_of(events)
    events = events_of(record)
    differences.put("record", record.encode())
    listed = set(words.decode().split())
    run = differences.run("words", "-" if rules == ENGLISH else "rules", "record")
    expected = all_changes(rules, events, listed)
    text = run.stdout.decode()
    if run.returncode or text != "".join(expected):
        told = [part + "\n\n" for part in text.split("\n\n")][:-1]
        differences.expect(False, number, run.returncode, record, *first_difference(told, expected))
    differences.seen["changes"] += len(expected)
    differences.seen["events"] += len(events)


if __name__ == "__main__":
    compare_cases(Differences, compare_case)
