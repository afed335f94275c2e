"""Slips that run through a whole sheet, by the second judge: a line that is not read is an event, or the same slip is on each line from one on; and
what is wrong with the line for which a text is not a record."""
import re
from collections import Counter
from dataclasses import dataclass, replace
from itertools import groupby

from deals import events_of
from records import Fault, read
from repairs import NOTHING, AnyHands, Change, Front, Repair, remembered
from rules import ENGLISH, SIDE
from unread import lines_in, unread

MOST_LINES, MOST_PLACES, FEWER_THAN, AT_LEAST, AT_LEAST_BLANKS = 16, 60, 10, 3, 2
MOST_BYTES, MOST_NAMED = 262_144, 3
MARK = b"\xef\xbb\xbf"
OFF = {
    (0, -1): "are one column too far right",
    (0, 1): "are one column too far left",
    (-1, 0): "are one row too far down",
    (1, 0): "are one row too far up",
}
IN_FRONT = {
    "blank": "a blank is before its >",
    "before": "something is before its >",
    "sign": "another sign is in place of its >",
    "none": "> is missing",
}


@dataclass
class SheetRepair:
    """A slip of the whole sheet in words, the record without it, and what is wrong with that. Its events have these lines. If a line is not read, its
    number."""

    said: str
    repair: Repair
    own: list
    line: int | None = None

    @property
    def cost(self):
        return self.repair.cost

    @property
    def dealt(self):
        return self.repair.dealt

    @property
    def is_known(self):
        return self.repair.is_known


def on_board(square):
    return all(0 <= it < SIDE for it in square)


def turned(event):
    return replace(event, direction=event.direction[::-1]) if is_play(event) else event


def in_other_case(event):
    return replace(event, word=event.word.swapcase()) if is_play(event) else event


def moved(by):
    return lambda event: replace(event, at=(event.at[0] + by[0], event.at[1] + by[1])) if is_play(event) else event


def with_blanks(event):
    """A play in whose word each capital is a small letter for which no tile of the stated rack is left, but a blank."""
    left, word = Counter(event.rack), ""
    if event.kind != "play" or not event.rack:
        return event
    for symbol in event.word:
        if symbol.isupper() and not left[symbol] and left["?"]:
            symbol = symbol.lower()
        tile = "?" if symbol.islower() else symbol
        left[tile] = max(0, left[tile] - 1)
        word += symbol
    return replace(event, word=word)


def is_play(event):
    return event.kind == "play"


def is_turn(event):
    return event.kind in ("play", "pass", "exchange", "unknown")


def has_blank(event):
    return is_play(event) and any(map(str.islower, event.word))


def kinds():
    """The slips that may run through a sheet: what is said of them, the events on which they may begin, on how many of these at least, which events
    without them are other ones, and an event without them."""
    yield "all places{} have row and column interchanged", is_play, AT_LEAST, is_play, turned
    for by, off in OFF.items():
        yield "all places{} " + off, is_play, AT_LEAST, is_play, moved(by)
    yield "all words{} have small letters and capitals interchanged", is_play, AT_LEAST, is_play, in_other_case
    yield "all blanks{} are written as capitals", lambda event: with_blanks(event) != event, AT_LEAST_BLANKS, has_blank, with_blanks
    yield "all lines{} have the name of the other player", is_turn, AT_LEAST, lambda _: True, lambda event: replace(event, player=1 - event.player)


def running(own, places):
    """The slips that run through a sheet from one of its first events on: what is said of each, its place, and the events from there on without
    it."""
    for place in range(min(places, MOST_PLACES, len(own))):
        for said, begins, least, changed, without in kinds():
            there = [event for _, event in own[place:]]
            if not begins(there[0]) or sum(map(begins, there)) < least:
                continue
            right = [without(it) if changed(without(it)) else it for it in there]
            if all(on_board(it.at) for it in right if it.kind == "play"):
                before = any(changed(it) for _, it in own[:place])
                yield said.format(f" from line {own[place][0]} on" if before else ""), place, right


def with_line(game, number, why):
    """The text of a sheet with a line that is not read as an event."""
    mark = MARK if game.startswith(MARK) else b""
    lines = game.removeprefix(MARK).split(b"\n")
    line = lines[number - 1]
    lines[number - 1] = line[line.index(b">") :] if why in ("blank", "before") else b">" + (line[1:] if why == "sign" else line)
    return mark + b"\n".join(lines)


def numbered(game):
    """The events of a text, each with its line."""
    return list(zip((line for line, text in lines_in(game) if text.startswith(b">")), events_of(game.decode("latin-1"))))


def as_events(game, listed, rules):
    """The records that a text is if one of its lines that is not read is an event."""
    for line, why in unread(game)[:MOST_LINES]:
        if why not in IN_FRONT:
            continue
        try:
            own = numbered(with_line(game, line, why))
        except Fault:
            continue
        front = Front(rules, [event for _, event in own], listed)
        yield f"line {line}: {IN_FRONT[why]}", front, front.with_change(NOTHING), own, line


def through_sheet(own, events, listed, rules):
    """The records that a sheet is without a slip that runs through it."""
    places = len(Front(rules, events, listed, AnyHands).states)
    front = Front(rules, events, listed)
    for said, place, right in running(own, places):
        change = Change(place, len(events) - place, 2, right)
        if place < len(front.states):
            there = [*own[:place], *((line, event) for (line, _), event in zip(own[place:], right))]
            yield said, front, front.with_change(change), there, None


@remembered
def of_text(game, listed, rules=ENGLISH):
    """The slips of the whole sheet that repair the record of a text, those that cost least first. Few numbers and words stay wrong, and fewer than if
    only the numbers are corrected."""
    own = numbered(game)
    events = [event for _, event in own]
    front = Front(rules, events, listed)
    alone = front.with_change(NOTHING)
    alone = alone and front.dealt(alone)
    few, found = min(FEWER_THAN, alone.wrong + alone.unlisted if alone else FEWER_THAN), []
    for said, front, repair, there, line in [*as_events(game, listed, rules), *through_sheet(own, events, listed, rules)]:
        if repair and repair.wrong + repair.unlisted < few:
            settled = front.dealt(repair)
            found += [SheetRepair(said, settled, there, line)] if settled else []
    return sorted(found, key=lambda it: it.cost)


def says_less(sheet, repair):
    """Whether a repair says less than that a line is not read: a line is missing where that line is."""
    place = repair.change.place
    return sheet.line is not None and not repair.change.replaced and place < len(sheet.own) and sheet.own[place][0] == sheet.line


def is_first(sheets, found, two, alone, margin):
    """Whether the first slip of the whole sheet is ahead of everything else."""
    first = sheets[0]
    rivals = [it for it in found if not (says_less(first, it) and first.cost <= it.cost)]
    return all(first.cost + margin <= it.cost for it in [*rivals, *two[:1], *sheets[1:2], *([alone] if alone else [])])


# ---- a line that no record can have


def with_lines(game, number, change):
    """A text with one of its lines changed; a CR at its end stays."""
    lines = game.removeprefix(MARK).split(b"\n")
    line = lines[number - 1]
    bare = line.removesuffix(b"\r")
    lines[number - 1] = change(bare) + line[len(bare) :]
    return (MARK if game.startswith(MARK) else b"") + b"\n".join(lines)


def may_be_note(line):
    """Whether a line that begins with > has nothing of which numbers, places and codes are made, or begins with two."""
    return not any(byte in b"0123456789-(" for byte in line) or line.startswith(b">>")


def put_in(place):
    """Puts a place before the third field from the end of what is behind the first colon of a line."""

    def change(line):
        nick, colon, behind = line.partition(b":")
        found = re.fullmatch(rb"((?:.*[ \t])?)([^ \t]+[ \t]+[^ \t]+[ \t]+[^ \t]+[ \t]*)", behind, re.DOTALL)
        return nick + colon + found[1] + place + b" " + found[2] if found else line

    return change


def bad_lines(game, number):
    """What may be wrong with the line of a text that has this number, in words, in short, and the text without that."""
    lines = game.removeprefix(MARK).split(b"\n")
    line = lines[number - 1].removesuffix(b"\r") if 0 < number <= len(lines) else b""
    if len(game) > MOST_BYTES or not line.startswith(b">"):
        return
    if may_be_note(line):
        yield f"line {number}: > should not be there", "without its >", with_lines(game, number, lambda it: it[1:])
    for down in (False, True):
        for row in range(SIDE):
            for column in range(SIDE):
                place = f"{chr(65 + column)}{row + 1}" if down else f"{row + 1}{chr(65 + column)}"
                yield f"line {number}: the place is missing: {place}", place, with_lines(game, number, put_in(place.encode()))


@dataclass
class LineRepair:
    """What is wrong with a line, in words and in short, and the record without it."""

    sheet: SheetRepair
    short: str

    @property
    def cost(self):
        return self.sheet.cost


def of_bad_text(game, listed, rules=ENGLISH):
    """What repairs a text that is not a record because of one of its lines: those that cost least first."""
    try:
        read(game)
    except Fault as fault:
        number = fault.line
    found = []
    for said, short, text in bad_lines(game, number):
        try:
            own = numbered(text)
        except Fault:
            continue
        front = Front(rules, [event for _, event in own], listed)
        repair = front.with_change(NOTHING)
        if repair and repair.wrong + repair.unlisted < FEWER_THAN:
            settled = front.dealt(repair)
            found += [LineRepair(SheetRepair(said, settled, own, number), short)] if settled else []
    return sorted(found, key=lambda it: it.cost)


def alike(found):
    """Repairs in lines, each with how the others are told that cost the same."""
    for _, same in groupby(found, key=lambda it: it.cost):
        first, *others = same
        named = ", ".join(it.short for it in others[:MOST_NAMED])
        more = f" and {len(others) - MOST_NAMED} more" if len(others) > MOST_NAMED else ""
        yield first.sheet, f" (or {named}{more})" if others else ""


def is_written(found, margin):
    """Whether the sheet with the first of the repairs is to be written."""
    return bool(found) and found[0].sheet.dealt and not found[0].sheet.repair.wrong and all(found[0].cost + margin <= it.cost for it in found[1:2])
