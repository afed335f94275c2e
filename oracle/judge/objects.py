"""What `judge`, `audit`, `explain`, `top`, `board` and `check` are to print with `--json`, as an object, by the second judge: from the bytes of the
inputs to the value of each key."""
import re

import rules_texts
from answers import answered, checked, lines_of, place_before, tiles_named, told_of
from audits import ahead_of, corrected_to, last_totals
from best import MANY, Search
from boards import ACROSS
from deals import event_of, judge_deal, settled_verdicts, settled_ways
from explained_objects import explained_keys
from games import Game, board_after, go_through, is_judged, step
from records import Fault, read
from rules import ENGLISH, KINDS, SIDE
from sheets import last_total, lay, off_board, square_text
from unread import unread_objects

NAMES = {"unknown": "exchange", "rack": "last rack"}


def refused(answer):
    """An object that says that an input is bad, from the line that says so."""
    line = answer.decode("latin-1").removesuffix("\n")
    if line.startswith("bad line"):
        return head("bad line")
    what, _, fault = line.partition(": ")
    place = re.search(" line ([0-9]+)$", what)
    name, _, path = fault.partition(" ")
    told = {"name": name} | ({"path": path} if path else {}) if fault else None
    return {"verdict": re.sub(" line [0-9]+$", "", what), "line": int(place[1]) if place else None, "fault": told}


def unread_in(game):
    """The last key of an object about a record."""
    return {"unread_lines": unread_objects(game)}


def head(verdict, line=None, fault=None):
    """The keys that every object has."""
    return {"verdict": verdict, "line": line, "fault": fault}


def fault_of(text):
    """A fault of a game from its text in a report."""
    name, _, said = text.partition(" ")
    if not said:
        return {"name": name}
    return {"name": name, "tile": said} if name == "TilesShort" else {"name": name, "expected": int(said)}


def verdict_of(line):
    """The keys of a verdict from its line."""
    if line.startswith("illegal"):
        place, fault = line.removeprefix("illegal line ").split(": ")
        return {"verdict": "illegal", "line": int(place), "fault": fault_of(fault), "ending": None}
    verdict, *ending = line.split(" ")
    return {"verdict": verdict, "line": None, "fault": None, "ending": ending[0] if ending else None}


def text_or_none(name):
    """A name of a record as JSON has it."""
    return name.decode("utf-8", "replace") if name else None


def sorted_tiles(tiles):
    return "".join(sorted(tiles, key=lambda tile: (tile == "?", tile)))


def written(event, line, nick):
    """What an event line says."""
    play = event.kind == "play"
    position, text = event.text.split(" ") if play else (None, None)
    direction = ("across" if event.direction == ACROSS else "down") if play else None
    return {
        "line": line,
        "player": event.player + 1,
        "nick": nick.decode("utf-8", "replace"),
        "rack": sorted_tiles(event.rack) or None,
        "kind": NAMES.get(event.kind, event.kind),
        "place": position,
        "direction": direction,
        "text": text,
        "word": None,
        "tiles": sorted_tiles(event.tiles) or None,
        "number": event.size if event.kind == "unknown" else None,
        "score": event.score,
        "total": event.total,
        "turn": None,
        "best": None,
        "unlisted": None,
    }


def play_of(play):
    """A play that was found."""
    place, text, points = str(play).split(" ")
    return {"place": place, "direction": "down" if play.down else "across", "text": text, "score": int(points)}


def best_of(search, board, rack, holds, gave):
    """What is said of the best play of a turn that gave so many points."""
    if len(rack) != holds:
        return {"turn": "rack not shown", "best": None}
    plays = list(search.plays(board, rack))
    if not plays:
        return {"turn": "no play", "best": None}
    best = play_of(min(plays, key=lambda play: play.rank()))
    return {"turn": "best play", "best": best | {"more": best["score"] - gave}}


def answers_of(events, listed, rules):
    """What is answered of each event of a record of which the rules allow every one."""
    game, search = Game(rules), Search(listed, rules)
    for event, following in zip(events, [*events[1:], None]):
        gave = 0 if following and following.kind == "withdraw" else event.score
        turn = best_of(search, dict(game.board), event.rack, game.racks[event.player], gave) if is_judged(event, game.out) else None
        taken = game.latest["new"] if game.latest and event.kind == "withdraw" else None
        told = step(game, event, following, listed)
        answer = {"unlisted": told.removeprefix(" unlisted ").split(" ") if told else []} | (turn or {"turn": "none", "best": None})
        if event.kind == "play":
            (row, column), (down, right) = event.at, event.direction
            squares = [(row + down * k, column + right * k) for k in range(len(event.word))]
            answer |= {
                "word": "".join(game.board[square] for square in squares).upper(),
                "tiles": "".join(game.latest["new"][s] for s in sorted(game.latest["new"])),
            }
        elif taken:
            answer["tiles"] = "".join(taken[square] for square in sorted(taken))
        yield answer


def game_objects(listed, players, events, rules, lines, verdicts):
    """The objects that may be printed of a record with these verdict lines, one for each."""
    nicks = [player[0] if player else b"" for player in players]
    told = [written(event, line, nicks[event.player]) for event, line in zip(events, lines)]
    allowed = not go_through(events, listed, rules=rules)[0].startswith("illegal")
    if allowed:
        told = [said | answer for said, answer in zip(told, answers_of(events, listed, rules))]
    left = [sum(max(0, it["best"]["more"]) for it in told if it["best"] and it["player"] == number) for number in (1, 2)]
    names = [
        {"nick": text_or_none(nicks[k]), "name": text_or_none(players[k][1] if players[k] else b""), "left": left[k] if allowed else None}
        for k in range(2)
    ]
    return [verdict_of(verdict) | {"players": names, "events": told} for verdict in verdicts]


def judged_objects(words, lexicon, game, text=None, settle=False):
    """The objects that `judge --json` may print, with or without `--settle`."""

    def objects(listed, players, events, rules):
        reports = settled_ways(events, listed, rules) if settle else [judge_deal(events, listed, rules)]
        verdicts = [told_of(report.split("\n")[0] + "\n", game, players).decode().removesuffix("\n") for report in reports]
        return [told | unread_in(game) for told in game_objects(listed, players, events, rules, lines_of(game), verdicts)]

    answer = answered(words, lexicon, game, text, objects)
    return answer if isinstance(answer, list) else [refused(answer)]


def wrong(what, event, line, nick, numbers):
    """A wrong number of an event, with what is written, what the line before it gives, and what is right."""
    said = written(event, line, nick)
    told = {"wrong": what} | {key: said[key] for key in ("line", "player", "nick", "kind", "place", "direction", "text")}
    return told | dict(zip(("written", "sum", "right"), numbers))


def wrong_objects(events, right, stop, lines, nicks):
    """Each wrong score and sum of a sheet, and the last totals that are wrong where it has a correction."""
    had, by_line = {}, {}
    for place, (event, other) in enumerate(zip(events, right)):
        there = (event, lines[place], nicks[event.player])
        if event.score != other.score:
            yield wrong("score", *there, (event.score, None, other.score))
        total = had.get(event.player, 0) + event.score
        right_total = other.total if stop is None or place < stop else None
        by_line[event.player] = event.total not in (total, right_total)
        if by_line[event.player]:
            yield wrong("sum", *there, (event.total, total, right_total))
        had[event.player] = event.total
    ends = last_totals(right)
    for player in sorted(had):
        if stop is None and had[player] != ends[player] and not by_line[player]:
            told = {"wrong": "last total", "line": None, "player": player + 1, "nick": nicks[player].decode("utf-8", "replace")}
            yield told | dict.fromkeys(("kind", "place", "direction", "text")) | {"written": had[player], "sum": None, "right": ends[player]}


def ahead_keys(verdict, events, right):
    """Who is ahead by the right numbers and by the sheet; nobody is named if the record is illegal or has no event."""
    if verdict.startswith(("illegal", "no game")):
        return {"ahead": None, "ahead_by_sheet": None}
    both = [{"player": None if player is None else player + 1, "by": by} for player, by in map(ahead_of, (right, events))]
    return dict(zip(("ahead", "ahead_by_sheet"), both))


def audited_objects(words, lexicon, game, text=None):
    """The objects that `audit --json` may print, but for a bonus or a penalty that would explain the numbers: `without_amount` takes it off an
    object."""

    def objects(listed, players, events, rules):
        right, stop = corrected_to(events, listed, rules)
        verdicts = settled_verdicts(right, listed, rules) if events else ["no game"]
        said = [told_of(verdict + "\n", game, players).decode().removesuffix("\n") for verdict in verdicts]
        both = [player or (b"", b"") for player in (players[0], players[1])]
        names = [{"nick": text_or_none(nick), "name": text_or_none(name)} for nick, name in both]
        told = list(wrong_objects(events, right, stop, lines_of(game), [nick for nick, _ in both]))
        return [
            audit_verdict(verdict) | {"players": names, "wrong": told} | ahead_keys(verdict, events, right) | {"amount": None} | unread_in(game)
            for verdict in said
        ]

    answer = answered(words, lexicon, game, text, objects)
    return answer if isinstance(answer, list) else [refused(answer)]


def explained_objects(words, lexicon, game, asked=None, text=None):
    """The objects that `explain --json` may print, of the verdict or of the event on a line or after it."""

    def objects(listed, players, events, rules):
        if not events:
            return [head("no game") | unread_in(game)]
        verdicts = [
            told_of(report.split("\n")[0] + "\n", game, players).decode().removesuffix("\n") for report in settled_ways(events, listed, rules)
        ]
        ways = [(verdict, dealt) for verdict in verdicts for dealt in ((False, True) if verdict.endswith(": NoDeal") else (False,))]
        keys = [explained_keys(verdict, game, events, lines_of(game), listed, rules, asked, dealt) for verdict, dealt in ways]
        return [head("bad line") if it is None else verdict_of(verdict) | it | unread_in(game) for (verdict, _), it in zip(ways, keys)]

    answer = answered(words, lexicon, game, text, objects)
    return answer if isinstance(answer, list) else [refused(answer)]


def audit_verdict(line):
    """The keys of the verdict of an audit."""
    return head("no game") | {"ending": None} if line == "no game" else verdict_of(line)


def topped_object(words, lexicon, game, rack=None, text=None, number=MANY, before=None):
    """The object that `top --json` is to print: so many plays, before a line where one is named; without a rack, with that of the line."""

    def plays(listed, players, events, rules):
        place = place_before(lines_of(game), before)
        if place is None:
            return head("bad line")
        shown = tiles_named(rack) if rack else (events[place].rack if place < len(events) else None)
        if not shown:
            return head("bad rack")
        verdict = go_through(events[:place], listed, rules=rules)[0]
        if verdict.startswith("illegal"):
            told = verdict_of(told_of(verdict, game, players).decode().removesuffix("\n"))
            return {key: told[key] for key in ("verdict", "line", "fault")}
        found = sorted(Search(listed, rules).plays(board_after(events[:place], listed, rules), shown), key=lambda play: play.rank())
        return head("ok") | {"rack": sorted_tiles(shown), "plays": [play_of(play) for play in found[:number]]}

    if rack is not None and not tiles_named(rack):
        return head("bad rack")
    answer = answered(words, lexicon, game, text, plays)
    return answer if isinstance(answer, dict) else refused(answer)


def boarded_object(game, before=None, text=None):
    """The object that `board --json` is to print, before a line where one is named."""
    try:
        rules = ENGLISH if text is None else rules_texts.read(text)
        players, said = read(game)
    except (rules_texts.Fault, Fault) as bad:
        return refused(bad.text())
    events, lines = [event_of(it) for it in said], lines_of(game)
    asked = place_before(lines, before)
    if asked is None:
        return head("bad line")
    board, end, fault = lay(events, asked)
    there, off = (events[end] if end < len(events) else None), off_board(board, rules)
    line = lines[end] if there else None
    names = [player or (b"", b"") for player in (players[0], players[1])]
    return (
        head("ok", line if fault else None, {"name": fault} if fault else None)
        | {
            "before": line,
            "rows": ["".join(square_text(board, rules, (row, column)) for column in range(SIDE)) for row in range(SIDE)],
            "players": [
                {"nick": text_or_none(it[0]), "name": text_or_none(it[1]), "total": last_total(events[:end], k)} for k, it in enumerate(names)
            ],
            "rack": (sorted_tiles(there.rack) or None) if there else None,
            "off_board": {"number": sum(off.values()), "kinds": [{"tile": kind, "number": off[kind]} for kind in KINDS]},
        }
        | unread_in(game)
    )


def checked_object(words, lexicon):
    """The object that `check --json` is to print."""
    answer = checked(words, lexicon)
    return head("ok") | {"words": int(answer.split()[1])} if answer.startswith(b"ok") else refused(answer)
