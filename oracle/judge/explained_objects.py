"""What `explain` is to print with `--json`, by the second judge: of a verdict and a record, the facts about a line, the words of its play and the
board, each as a value."""
import re

import explains as told
from boards import ACROSS, Refused, place, runs, score_of
from clashes import AnyClash
from deals import course, epoch
from games import Game, step
from rules import RACK, SIDE
from sheets import lay, square_text
from slips import fits, notes_of, order_of, slips_of, stands_at

PREMIUMS = {"DL": "double letter", "TL": "triple letter", "DW": "double word", "TW": "triple word"}


def fact(name, **fields):
    return {"name": name} | fields


def named(square):
    return told.square_name(square)


def way(direction):
    return "across" if direction == ACROSS else "down"


# ---- the words of a play, and the board


def square_object(square, after, new, rules):
    worth, premium = rules.points.get(after[square], 0), rules.premiums.get(square) if square in new else None
    times = told.FACTORS[premium] if premium in ("DL", "TL") else 1
    name = PREMIUMS.get(premium)
    return {
        "square": named(square),
        "tile": after[square],
        "new": square in new,
        "points": worth,
        "premium": name,
        "factor": times,
        "adds": worth * times,
    }


def word_object(run, after, new, listed, rules):
    letters = "".join(after[square] for square in run).upper()
    squares, factor = [square_object(square, after, new, rules) for square in run], 1
    for square in run:
        premium = rules.premiums.get(square) if square in new else None
        factor *= told.FACTORS[premium] if premium in ("DW", "TW") else 1
    added = sum(it["adds"] for it in squares)
    return {"word": letters, "listed": letters in listed, "squares": squares, "sum": added, "factor": factor, "score": added * factor}


def play_object(board, event, listed, rules):
    """The words of a play with their squares and sums, the bonus and the score; none where the play cannot be laid."""
    if event.kind != "play":
        return None
    try:
        new, after = place(board, event.at, event.direction, event.word)
    except Refused:
        return None
    found = runs(after, new, event.direction) + runs(after, new, event.direction[::-1])
    words = [word_object(run, after, new, listed, rules) for run in found]
    return {"words": words, "bonus": rules.bonus if len(new) == RACK else None, "score": score_of(after, new, found, rules)}


def board_object(board, event, rules):
    marked = sorted(it for it in told.squares_of(event) if max(it) < SIDE) if event.kind == "play" else []
    rows = ["".join(square_text(board, rules, (row, column)) for column in range(SIDE)) for row in range(SIDE)]
    return {"rows": rows, "marked": [named(square) for square in marked]}


# ---- facts by the rules


def elsewhere(scene):
    """Where the text of a play has the written score, and the record stands with it to its end."""
    event, found, listed = scene.event, [], []
    for direction in (ACROSS, ACROSS[::-1]):
        for at in [(row, column) for row in range(SIDE) for column in range(SIDE)]:
            try:
                new, after = place(scene.game.board, at, direction, event.word)
            except Refused:
                continue
            formed = runs(after, new, direction) + runs(after, new, direction[::-1])
            if score_of(after, new, formed, scene.game.rules) == event.score and stands_at(scene, at, direction):
                found.append({"square": named(at), "direction": way(direction)})
                words = ["".join(after[square] for square in run).upper() for run in formed]
                listed += found[-1:] if all(word in scene.listed for word in words) else []
    found = listed or found
    return [fact("ElsewhereScore", written=event.score, places=found[:3], more_places=max(0, len(found) - 3))] if found else []


def misfit(scene):
    board = scene.game.board
    for square, symbol in zip(told.squares_of(scene.event), scene.event.word):
        if symbol == "." and square not in board:
            return fact("DotOnEmpty", square=named(square))
        if symbol != "." and board.get(square, symbol).upper() != symbol.upper():
            return fact("OtherLetter", square=named(square), letter=symbol, tile=board[square].upper())
    raise AssertionError("no misfit")


def not_whole(scene):
    event, board, said = scene.event, scene.game.board, []
    first, last, (down, right) = event.at, told.squares_of(event)[-1], event.direction
    for square, name in (((first[0] - down, first[1] - right), "TileBefore"), ((last[0] + down, last[1] + right), "TileAfter")):
        if square in board:
            said.append(fact(name, square=named(square), tile=board[square].upper()))
    return [*said, fact("NotWhole")]


def slip_facts(scene, is_wrong):
    """Which tiles are not on the rack, what may have been misread, and what may be a blank."""
    slips, facts = slips_of(scene, is_wrong), []
    rack = "".join(sorted(scene.event.rack, key=lambda tile: (tile == "?", tile)))
    for kind, played, has in slips.missing:
        facts.append(fact("NotOnRack", tile=kind, rack=rack, number=played, limit=has))
    for it in slips.readings:
        facts.append(
            fact("Misread", square=named(it.square), letter=it.letter, read=it.read, score=it.score, written=scene.event.score, words=it.words)
        )
    for it in slips.blanks:
        facts.append(fact("AsBlank", square=named(it.square), letter=it.letter, read=it.read, score=it.score))
    return facts


def order_facts(scene):
    """What seems to be wrong with the order of the lines."""
    name, points = order_of(scene)
    lines, at, other = scene.lines, scene.at, 2 - scene.event.player
    facts = {
        "StandsTwice": lambda: fact(name, line=lines[at - 1]),
        "WrongWay": lambda: fact(name, on_lines=lines[at : at + 2]),
        "Missing": lambda: fact(name, player=other, score=points, on_lines=lines[at - 1 : at + 1]),
        "AllowedFor": lambda: fact(name, player=other),
    }
    return [facts[name]()] if name else []


def play_facts(scene, name):
    event = scene.event
    if name == "OffBoard":
        room = SIDE - (event.at[1] if event.direction == ACROSS else event.at[0])
        return [fact("LeavesBoard", square=named(event.at), direction=way(event.direction), number=len(event.word), limit=room)]
    if name == "Mismatch":
        return [misfit(scene)]
    if name == "TooManyTiles":
        return [fact("ManyTiles", number=told.new_tiles(scene), limit=RACK)]
    return not_whole(scene) if name == "NotWhole" else [fact(name)]


def score_facts(scene, right):
    event, numbers = scene.event, {"right": right, "written": scene.event.score}
    if event.kind == "play":
        total = [fact("TotalFits", score=right, right=event.total)] if fits(scene, right) else []
        return [fact("PlayScore", **numbers), *slip_facts(scene, True), *(elsewhere(scene) or total)]
    if event.kind == "rack":
        return [fact("LastRackScore", player=event.player + 1, rack=event.tiles, doubled=scene.game.out is not None, **numbers)]
    return [fact({"pass": "PassScore", "withdraw": "WithdrawalScore"}.get(event.kind, "ExchangeScore"), **numbers)]


def total_facts(scene, right):
    event, short = scene.event, right - scene.event.total
    said = [fact("WrongTotal", player=event.player + 1, had=scene.game.totals[event.player], score=event.score, right=right, written=event.total)]
    if event.score == short:
        return [*said, fact("LeavesOutOwn")]
    line, score = told.latest_of(scene)
    return [*said, fact("LeavesOut", line=line, score=short)] if score == short else said


def none_before(scene, name):
    return fact(name, first_event=not scene.past)


def challenge_fact(scene, name):
    event, play, latest = scene.event, scene.play_before(), scene.lines[len(scene.past) - 1]
    players = {"player": event.player + 1, "other": 2 - event.player}
    if name in ("WithdrawnValid", "BonusOnPhony"):
        return fact("PlayStands" if name == "WithdrawnValid" else "NoWordListed", line=latest, words=scene.words_before())
    if name == "NothingToWithdraw":
        return fact("OthersPlay", line=latest, **players) if play else none_before(scene, "NothingToTakeBack")
    if not play:
        return none_before(scene, "NothingToChallenge")
    if play.player != event.player:
        return fact("OthersBonus", line=latest, **players)
    unit, listed = scene.game.rules.challenge_unit, sum(word in scene.listed for word in scene.words_before())
    return fact("Bonus", limit=unit, listed=listed, amounts=[unit * k for k in range(1, listed + 1)], written=event.score)


def over_fact(scene):
    game, player = scene.game, scene.event.player
    if game.complete:
        return fact("Complete")
    if game.out is not None:
        return fact("Out", player=game.out + 1, other=2 - game.out)
    ended = player if game.ended[player] else 1 - player
    return fact("RackLost", player=ended + 1, other=2 - ended)


def number_fact(scene, name):
    """A fact about how many there are."""
    game, event, player = scene.game, scene.event, scene.event.player
    if name == "NotOver":
        return fact("NoRackDue", number=game.idle_turns, limit=game.rules.zero_limit)
    if name == "TooManyUsed":
        return fact(name, player=player + 1, number=told.new_tiles(scene), limit=game.racks[player])
    if name == "ExchangeRefused":
        return fact(name, bag=game.bag, limit=game.rules.exchange_min)
    if name == "ExchangeSize":
        return fact(name, player=player + 1, bag=game.bag, number=event.size, limit=game.racks[player])
    holder = player if game.out is None else 1 - game.out
    return fact("LastRackSize", player=holder + 1, number=len(event.tiles), limit=game.racks[holder])


def time_fact(scene):
    player = scene.event.player
    if scene.game.timed[player]:
        line = next(line for line, it in zip(scene.lines, scene.past) if it.kind == "time" and it.player == player)
        return fact("SecondTime", player=player + 1, line=line)
    return fact("TimeStep", limit=scene.game.rules.time_step, written=scene.event.score)


def rule_facts(scene, text):
    name, _, right = text.partition(" ")
    if name == "WrongScore":
        return score_facts(scene, int(right))
    if name == "WrongTotal":
        return total_facts(scene, int(right))
    if name in told.PLAY_FAULTS:
        return [*play_facts(scene, name), *elsewhere(scene)]
    if name in ("WithdrawnValid", "BonusOnPhony", "NothingToWithdraw", "BadBonus"):
        return [challenge_fact(scene, name)]
    if name == "GameOver":
        return [over_fact(scene)]
    if name == "NotYourTurn":
        own = scene.event.kind == "rack"
        turn = fact("OthersLine" if own else "OthersTurn", player=scene.event.player + 1, other=2 - scene.event.player)
        return [turn, *order_facts(scene)]
    return [time_fact(scene) if name == "BadTime" else number_fact(scene, name)]


# ---- racks


def rack_lines(places, now, lines, holder):
    for k in range(epoch(places, holder, now), now + 1):
        it = places[k]
        if it.holder == holder and it.need.total():
            played = {"played": told.tiles_text(it.used)} if it.stands else {}
            thrown = {"exchanged": told.tiles_text(it.throws())} if it.event.kind == "exchange" else {}
            yield {"line": lines[k], "player": holder + 1, "shown": told.tiles_text(it.need)} | played | thrown


def kind_lines(places, now, lines, kind):
    for k, it in enumerate(places[: now + 1]):
        if it.holder is None or not it.need[kind]:
            continue
        played = it.used[kind] if it.stands else 0
        if played or k >= epoch(places, it.holder, now):
            yield {"line": lines[k], "player": it.holder + 1, "number_shown": it.need[kind], "number_played": played}


def exchange_lines(places, now, lines):
    for k, it in enumerate(places[: now + 1]):
        if it.event.kind in ("exchange", "unknown"):
            yield {"line": lines[k], "player": it.event.player + 1, "number_exchanged": it.event.size}


def left_facts(places, now, lines):
    found = told.left_over(places, now)
    if not found:
        return []
    latest, left, kind, has = found
    tiles = {"tile": kind, "rack": told.tiles_text(left), "number": has, "limit": left[kind]}
    return [fact("LeftOver", player=places[now].holder + 1, **tiles, on_lines=[lines[latest], lines[now]])]


def rack_facts(events, listed, rules, now, lines, text, dealt):
    places = course(events, listed, rules)
    name, _, kind = text.partition(" ")
    if name == "RackTooBig":
        holder = places[now].holder
        must = told.must_have(places, holder, now)
        shown = list(rack_lines(places, now, lines, holder))
        return [
            *left_facts(places, now, lines),
            fact(name, player=holder + 1, rack=told.tiles_text(must), number=must.total(), limit=places[now].racks[holder], lines=shown),
        ]
    if name == "TilesShort":
        laid = sum(it.used[kind] for it in places[:now] if it.stands)
        racks = [told.must_have(places, player, now)[kind] for player in (0, 1)]
        shown = list(kind_lines(places, now, lines, kind))
        return [fact(name, tile=kind, number=laid + sum(racks), limit=rules.tiles[kind], on_board=laid, on_racks=racks, lines=shown)]
    before = [fact("DealtTo", line=lines[now - 1])] if dealt and now else []
    clash = AnyClash(places[: now + 1], lines[: now + 1], rules.tiles)
    return [fact(name, clash=clash, lines=list(exchange_lines(places, now, lines))), *before]


# ---- all of it


def facts_at(events, lines, at, listed, rules, verdict, dealt):
    """What is said of the event at a place. Where no deal gives the racks, `dealt` says that one was found for the events before."""
    game = Game(rules)
    for k in range(at):
        try:
            step(game, events[k], events[k + 1], listed)
        except Refused:
            return [fact("NotJudged", line=lines[k])]
    found = re.fullmatch(rf"illegal line {lines[at]}: (.*)", verdict)
    if not found:
        return [fact("Allowed")]
    scene = told.Scene(game, events, lines, at, listed, ["A", "B"])
    if found[1].split(" ")[0] in ("RackTooBig", "TilesShort", "NoDeal"):
        return [*slip_facts(scene, False), *rack_facts(events, listed, rules, at, lines, found[1], dealt)]
    return rule_facts(scene, found[1])


def whole_facts(verdict, events, lines, listed, rules):
    if not events:
        return [fact("NoEvent")]
    notes = notes_of(events, lines, listed, rules)
    unlisted = [{"line": line, "player": player + 1, "words": words} for line, player, words in notes.plays]
    found = fact("Legal" if verdict.startswith("legal") else "Unsettled")
    parts = [{"line": line, "player": player + 1, "number_shown": shown, "number_held": has} for line, player, shown, has in notes.parts]
    racks = fact("RacksHidden", number=len(notes.hidden), limit=len(notes.turns), on_lines=notes.hidden) | ({"lines": parts} if parts else {})
    due = [fact(notes.due[0], player=notes.due[1] + 1, other=2 - notes.due[1])] if notes.due else []
    other = [fact("OtherList")] if notes.is_other_list() else []
    return [found, fact("Unlisted", plays=unlisted), *other, racks, *due]


def explained_keys(verdict, game, events, lines, listed, rules, asked, dealt=False):
    """The keys of an explanation after those of the verdict; none where no event is on the line that was asked for, or after it. What repair is
    likely is not looked for: `without_likely` takes it off an object."""
    illegal = re.match("illegal line ([0-9]+):", verdict)
    wanted = asked if asked is not None else int(illegal[1]) if illegal else None
    nothing = {"play": None, "board": None, "unknown_since": None, "likely": None}
    if wanted is None:
        return {"explained": None, "text": None, "facts": whole_facts(verdict, events, lines, listed, rules)} | nothing
    at = next((k for k, line in enumerate(lines) if line >= wanted), None)
    if at is None:
        return None
    text = told.line_of(game, lines[at]).decode("utf-8", "replace")
    keys = {"explained": lines[at], "text": text, "facts": facts_at(events, lines, at, listed, rules, verdict, dealt)}
    board, end, _ = lay(events, at)
    if end < at:
        return keys | nothing | {"unknown_since": lines[end]}
    return keys | nothing | {"play": play_object(board, events[at], listed, rules), "board": board_object(board, events[at], rules)}


def without_amount(told):
    """An object of `audit` without the bonus or the penalty that would explain its numbers, which may be there only if a sum is wrong."""
    may_have = any(it["wrong"] == "sum" for it in told.get("wrong") or []) and isinstance(told.get("amount"), dict)
    return told | {"amount": None} if may_have else told


def without_likely(told, asked):
    """An object of `explain` without its likely repair, where it may have one: without a line that was asked for, and of an illegal record."""
    may_have = told.get("verdict") == "illegal" and asked is None and isinstance(told.get("likely"), dict)
    return told | {"likely": None} if may_have else told
