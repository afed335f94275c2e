"""A slow second reading of drafts, which are records whose event lines may lack the total, or the score and the total; and what makes a record of
one.

A line is read from the left, field by field, and no number is put in before it is read.
"""
import copy
import re
from dataclasses import dataclass, replace

from audits import corrected_to, taken, wrong_numbers
from boards import Refused
from games import Game, step
from records import MOST_BYTES, MOST_EVENTS, Fault, code, name_players, number, position, seat_of, tiles, word
from rules import ENGLISH

GIVEN = (b"(challenge)", b"(time)")


class DraftFault(Fault):
    """The first fault of a draft: its line and its name, and which field the line lacks, or that it has too many."""

    def __init__(self, line, why, amiss=None):
        super().__init__(line, why)
        self.amiss = amiss


@dataclass
class Written:
    """An event of a draft: its line, its player, its rack and what it is as a record has them, and its numbers, None for one that is missing."""

    line: int
    seat: int
    rack: bytes
    what: bytes
    score: int
    total: int


def head_of(line, fields):
    """The fields of an event line up to its numbers: a rack or none, and then a position and a word, or a code."""

    def begins(k):
        return fields[k][:1] in (b"-", b"(")

    rack = 0 if not fields or begins(0) or re.search(rb"[0-9]", fields[0]) else 1
    if len(fields) == rack:
        raise DraftFault(line, "Fields", "no event")
    if begins(rack) or not re.search(rb"[0-9]", fields[rack]):
        return rack, rack + 1
    if len(fields) == rack + 1:
        raise DraftFault(line, "Fields", "no word")
    return rack, rack + 2


def said(line, fields):
    """The rack, what happened, the score and the total that the fields of a line say."""
    rack, head = head_of(line, fields)
    numbers = fields[head:]
    if len(numbers) > 2:
        raise DraftFault(line, "Fields", "too many")
    if not numbers and head - rack == 1 and fields[rack] in GIVEN:
        raise DraftFault(line, "Fields", "no score")
    stated = tiles(fields[0]) if rack else None
    if rack and stated is None:
        raise DraftFault(line, "Rack")
    if head - rack == 1:
        what = code(fields[rack])
        if what is None:
            raise DraftFault(line, "Code")
    else:
        place, text = position(fields[rack]), word(fields[rack + 1])
        if place is None or text is None:
            raise DraftFault(line, "Position" if place is None else "Word")
        what = place + b" " + text
    values = [number(field) for field in numbers]
    if None in values:
        raise DraftFault(line, "Number")
    return stated, what, *values, *[None] * (2 - len(values))


def read_line(line, text, players, events):
    """Reads the line of an event, after its '>'."""
    if len(events) >= MOST_EVENTS:
        raise DraftFault(line, "TooManyEvents")
    nick, colon, rest = text.partition(b":")
    nick = nick.strip(b" \t")
    if not colon or not nick or b" " in nick or b"\t" in nick:
        raise DraftFault(line, "NoColon")
    try:
        seat = seat_of(line, nick, players)
    except Fault as fault:
        raise DraftFault(line, fault.why) from None
    events.append(Written(line, seat, *said(line, [field for field in re.split(rb"[ \t]+", rest) if field])))
    players[seat] = players[seat] or (nick, b"")


def stand_in(line):
    """The numbers that stand for those that are missing at the end of a line, if it is read; a line that is not keeps its length."""
    body = line.removesuffix(b"\r")
    if not body.startswith(b">") or b":" not in body:
        return b""
    fields = [field for field in re.split(rb"[ \t]+", body.partition(b":")[2]) if field]
    try:
        rack, head = head_of(0, fields)
    except DraftFault:
        return b""
    if len(fields) > head + 1 or (len(fields) == head and head - rack == 1 and fields[rack] in GIVEN):
        return b""
    gap = b"" if body[-1:] in (b" ", b"\t") else b" "
    return gap + (b"0" if len(fields) == head + 1 else b"+0 0")


def lines_of(draft):
    return draft.removeprefix(b"\xef\xbb\xbf").split(b"\n")


def read(draft):
    """The players and the events of a draft, or its first fault."""
    if len(draft) + sum(len(stand_in(line)) for line in lines_of(draft)) > MOST_BYTES:
        raise DraftFault(0, "TooLong")
    players, events = [None, None], []
    for line, text in enumerate(lines_of(draft), 1):
        text = text.removesuffix(b"\r")
        if text.startswith(b"#"):
            try:
                name_players(line, text[1:], players, bool(events))
            except Fault as fault:
                raise DraftFault(line, fault.why) from None
        elif text.startswith(b">"):
            read_line(line, text[1:], players, events)
    return players, events


def with_numbers(line, written, score, total):
    """A line with the numbers that are to stand on it: a written one that is right stays as it is, and one that is missing comes at its end."""
    end = b"\r" if line.endswith(b"\r") else b""
    body = line.removesuffix(b"\r")
    if written.total is not None:
        body = at_end(body, 0, written.total, total, b"%d")
        body = at_end(body, 1, written.score, score, b"%+d")
        return body + end
    if written.score is not None:
        body = at_end(body, 0, written.score, score, b"%+d")
        return body + gap_after(body) + b"%d" % total + end
    return body + gap_after(body) + b"%+d %d" % (score, total) + end


def gap_after(body):
    return b"" if body[-1:] in (b" ", b"\t") else b" "


def at_end(body, others, written, right, form):
    """A line with another number in the place of the last field but `others`, if that is not right."""
    if written == right:
        return body
    found = list(re.finditer(rb"[^ \t]+", body))[-1 - others]
    return body[: found.start()] + form % right + body[found.end() :]


def filled_text(draft, written, numbers):
    """A draft with the numbers of its events, each a score and a total."""
    mark = b"\xef\xbb\xbf" if draft.startswith(b"\xef\xbb\xbf") else b""
    lines = lines_of(draft)
    for event, (score, total) in zip(written, numbers):
        lines[event.line - 1] = with_numbers(lines[event.line - 1], event, score, total)
    return mark + b"\n".join(lines)


@dataclass
class Filled:
    """What is found of a draft: the right numbers as far as they go, where they stop, what is wrong with the written ones, and how many were put
    in."""

    right: list
    stop: int
    told: list
    many: int


def fill(events, lacks, listed, rules=ENGLISH, numbers=None, nicks="AB"):
    """What is found of a draft: of its events, with 0 in the place of each number that is missing, and how many numbers each lacks."""
    right, stop = corrected_to(events, listed, rules)
    sheet = [
        replace(event, score=other.score if missing == 2 else event.score, total=other.total if missing else event.total)
        for event, other, missing in zip(events, right, lacks)
    ]
    again, halt = corrected_to(sheet, listed, rules)
    numbers = numbers or range(1, len(events) + 1)
    told = wrong_numbers(sheet, again, halt, numbers, nicks)
    if stop is not None and any(lacks):
        told = [text for text in told if int(re.match(r"line (\d+)", text)[1]) < numbers[stop]]
    return Filled(again, stop, told, sum(lacks[:stop]))


def name_of(seat, nicks):
    return nicks[seat] or f"player {seat + 1}"


def many(number, what):
    return f"{number} {what}{'s' * (number != 1)}"


def refusal_of(game, event, following, listed):
    """Why an event with right numbers is refused."""
    try:
        step(copy.deepcopy(game), event, following, listed)
    except Refused as fault:
        return str(fault)
    raise AssertionError("the event is allowed")


def next_lines(events, listed, rules=ENGLISH, numbers=None, nicks="AB"):
    """What is said of the line after the events of a draft, with 0 in the place of each number that is missing; and whether a line is refused."""
    game, said = Game(rules), []
    numbers = numbers or range(1, len(events) + 1)
    for place, event in enumerate(events):
        following = events[place + 1] if place + 1 < len(events) else None
        game, event, allowed = taken(game, event, following, listed)
        if not allowed:
            said.append(f"illegal line {numbers[place]}: {refusal_of(game, event, following, listed)}")
            break
    turn = "next: either player" if game.mover is None else f"next: {name_of(game.mover, nicks)}"
    turn = turn if game.out is None else f"{name_of(game.out, nicks)} is out"
    state = ["the game is complete" if game.complete else turn]
    state += [f"{name_of(seat, nicks)}: total {game.totals[seat]}, {many(game.racks[seat], 'tile')}" for seat in (0, 1)]
    return [*said, *state, f"bag: {many(game.bag, 'tile')}"], bool(said)
