"""What is on the page of a game: as the second judge says it, and as it is read from a page."""
import re
from hashlib import sha256

import web
from audits import corrected_to
from best import best_plays
from boards import Refused, place, runs, score_of
from explains import FACTORS, judged_text, squares_of, whole_text
from games import Game, is_judged, step
from rules import KINDS, RACK, SIDE
from sheets import lay, off_board
from unread import time_racks, unread_text

COLUMNS = "ABCDEFGHIJKLMNO"
CENTRE = (7, 7)
STAR = "\u2605"
CODES = {"d": "DL", "t": "TL", "D": "DW", "T": "TW"}
OWN = {"title": "Title", "event": "Event", "description": "Description", "lexicon": "Lexicon", "note": "Note"}


def name_of(player):
    """How a page calls a player: by the full name, else by the nickname."""
    nick, full = player if player else (b"", b"")
    return (full or nick).decode(errors="replace")


# ---- what is to be on a page


def board_shown(board, rules, marked):
    """The squares of a board: the letter with its points, a premium, or nothing; a star where it is marked, and a wave where it is a blank."""

    def square(at):
        star = "*" if at in marked else ""
        if at in board:
            tile = board[at]
            return f"{tile}{rules.points.get(tile, 0)}{star}{'~' if tile.islower() else ''}"
        return f"{rules.premiums.get(at, '')}{STAR if at == CENTRE else ''}{star}"

    return [[square((row, column)) for column in range(SIDE)] for row in range(SIDE)]


def pictured(events, at, rules):
    """The board after the event at a place, with its new tiles marked; with the squares of its play where it cannot be laid."""
    before, _, _ = lay(events, at)
    after, end, _ = lay(events, min(at + 1, len(events)))
    if end <= at < len(events):
        event = events[at]
        return board_shown(after, rules, set(squares_of(event)) if event.kind == "play" else set()), False
    return board_shown(after, rules, {it for it in after if it not in before}), True


def bag_text(board, rules):
    """The tiles that are not on a board, by kind, after their number."""
    left = off_board(board, rules)
    return f"Not on the board: {sum(left.values())} " + "".join(kind * left[kind] + " " for kind in KINDS if left[kind])


def play_text(events, at):
    """The play at a place, with brackets around the tiles that were on the board, and whether it puts down seven; as it is written where it
    cannot be laid."""
    event = events[at]
    (before, *_), (after, end, _) = lay(events, at), lay(events, at + 1)
    if end <= at:
        return event.text, False
    squares = squares_of(event)
    told, inside = event.text.split(" ")[0] + " ", False
    for square in squares:
        old = square in before
        told += "(" if old and not inside else ")" if inside and not old else ""
        told, inside = told + after[square], old
    return told + (")" if inside else ""), sum(square not in before for square in squares) == RACK


def happened(events, at):
    """What happened in the event at a place, in words, and whether it puts down seven tiles."""
    event = events[at]
    codes = {"pass": "pass", "withdraw": "play taken back", "challenge": "challenge bonus", "time": "time penalty"}
    if event.kind == "play":
        return play_text(events, at)
    if event.kind in codes:
        return codes[event.kind], False
    if event.kind == "exchange":
        return f"exchange {event.text[1:]}", False
    return (f"exchange of {event.text[1:]}" if event.kind == "unknown" else f"last rack {event.text[1:-1]}"), False


def signed(points):
    return f"{points:+d}"


def bracketed(best, board):
    """A best play with brackets around the tiles that it plays through, in place of the dots."""
    spot, word, points = best.split(" ")
    down = spot[0].isalpha()
    column, row = (spot[0], spot[1:]) if down else (spot[-1], spot[:-1])
    start = int(row) - 1, COLUMNS.index(column)
    letters = [board[start[0] + down * k, start[1] + (not down) * k] if symbol == "." else symbol for k, symbol in enumerate(word)]
    marked = "".join(f"({letter})" if symbol == "." else letter for symbol, letter in zip(word, letters))
    return f"{spot} {marked.replace(')(', '')} {points}"


def facts(events, listed, rules):
    """Of each event its best play, the points more, its unlisted words and its right numbers."""
    right, stop = corrected_to(events, listed, rules)
    game, stands, told, had = Game(rules), True, [], [0, 0]
    for k, event in enumerate(events):
        best, more, unlisted = "", None, ""
        if stands:
            if is_judged(event, game.out):
                if event.rack and len(event.rack) == game.racks[event.player]:
                    best = best_plays(dict(game.board), event.rack, listed, rules, 1)[1].strip()
                    if best != "none":
                        taken_back = k + 1 < len(events) and events[k + 1].kind == "withdraw"
                        more = int(best.split(" ")[-1]) - (0 if taken_back else right[k].score)
                        best = bracketed(best, game.board)
                else:
                    best = "rack not shown"
            try:
                unlisted = step(game, right[k], right[k + 1] if k + 1 < len(right) else None, listed).removeprefix(" unlisted ")
            except Refused:
                stands = False
        should = [f"score {right[k].score}"] if right[k].score != event.score else []
        total = had[event.player] + event.score
        due = right[k].total if stop is None or k < stop else total
        should += [f"total {due}"] if event.total not in (total, due) else []
        had[event.player] = event.total
        told.append((best, more, unlisted, " ".join(should)))
    return told


def panel(events, lines, nicks, at, rules):
    """What is shown of the position after the event at a place: its links, its board, the next rack, and the tiles that are not on the board."""
    many = next((k for k in range(len(events)) if lay(events, k + 1)[1] <= k), len(events))
    if at >= many:
        return None
    text, _ = happened(events, at)
    follows = events[at + 1] if at + 1 < many else None
    return {
        "previous": lines[at - 1] if at > 0 else None,
        "line": lines[at],
        "next": lines[at + 1] if follows else None,
        "now": f"{nicks[events[at].player]} {text} {signed(events[at].score)}",
        "board": pictured(events, at, rules)[0],
        "rack": f"{nicks[follows.player]} to go: {sorted_tiles(follows.rack)}" if follows and follows.rack else None,
        "bag": bag_text(lay(events, at + 1)[0], rules),
    }


def sorted_tiles(rack):
    return "".join(sorted(rack, key=KINDS.index))


def rows(events, lines, nicks, found, rules, faulty):
    """The rows of the sheet: their cells, their marks, and the position after each."""
    told = []
    columns = any(it[2] for it in found), any(it[3] for it in found)
    for k, event in enumerate(events):
        best, more, unlisted, should = found[k]
        text, full = happened(events, k)
        back = k + 1 < len(events) and events[k + 1].kind == "withdraw"
        cells = [str(lines[k]), nicks[event.player], text, signed(event.score), str(event.total), sorted_tiles(event.rack or ""), best,
                 "" if more is None or more < 0 else f"+{more}" if more else "equal"]  # fmt: skip
        cells += [unlisted] if columns[0] else []
        cells += [should] if columns[1] else []
        kinds = ["fault"] * (k == faulty) + (["back"] if back else ["other"] if event.kind != "play" else [])
        tags = ["bingo"] * full + ["taken back"] * back + ["fault"] * (k == faulty)
        told.append({"cells": cells, "kinds": kinds, "tags": tags, "panel": panel(events, lines, nicks, k, rules)})
    return told


def sums_text(events, found, names, players):
    """What the best plays would have given more, by player."""
    gains = [sum(max(0, it[1] or 0) for event, it in zip(events, found) if event.player == seat) for seat in (0, 1)]
    return "The best plays would have given more: " + ", ".join(f"{names[seat]} {gains[seat]}" for seat in (0, 1) if seat == 0 or players[1])


def sum_lines(events, at, listed, rules):
    """The words of a play with their sums; none where it is no play, or cannot be laid."""
    event = events[at]
    board, end, _ = lay(events, at)
    if event.kind != "play" or end < at:
        return []
    try:
        new, after = place(board, event.at, event.direction, event.word)
    except Refused:
        return []
    told, found = [], runs(after, new, event.direction) + runs(after, new, event.direction[::-1])
    for run in found:
        letters, parts, points, factor = "".join(after[it] for it in run).upper(), [], 0, 1
        for it in run:
            worth, premium = rules.points.get(after[it], 0), rules.premiums.get(it) if it in new else None
            times = FACTORS[premium] if premium in ("DL", "TL") else 1
            factor *= FACTORS[premium] if premium in ("DW", "TW") else 1
            points += worth * times
            parts.append(f"{after[it]} {worth}" + (f" \xd7 {times}" if times > 1 else ""))
        unlisted = "" if letters in listed else "(not in the word list) "
        told.append(f"{letters} {unlisted}{' + '.join(parts)} = {points}" + (f" \xd7 {factor} = {points * factor}" if factor > 1 else ""))
    told += [f"bonus for seven tiles: {rules.bonus}"] if len(new) == RACK else []
    return [*told, f"score of the play: {score_of(after, new, found, rules)}"]


def result_text(verdict, names, totals):
    """Who won, or is ahead, and by how much."""
    ahead = None if totals[0] == totals[1] else (names[0 if totals[0] > totals[1] else 1], abs(totals[0] - totals[1]))
    if verdict == "legal complete":
        return f"{ahead[0]} won by {ahead[1]}." if ahead else "A tie."
    if verdict.startswith("legal"):
        return f"Unfinished. {ahead[0]} is ahead by {ahead[1]}." if ahead else "Unfinished."
    return f"As it is written, {ahead[0]} is ahead by {ahead[1]}." if ahead else "As it is written, both have the same."


def said_lines(game):
    """The pragmas and notes of a record: of the first line of each kind what it says, and of each note how many lines of events are before it."""
    own, notes, before = {}, [], 0
    for line in game.removeprefix(b"\xef\xbb\xbf").split(b"\n"):
        line = line.removesuffix(b"\r")
        word, text = re.fullmatch(rb"([^ \t]*)[ \t]*(.*)", line, re.DOTALL).groups()
        if word == b"#note" and text:
            notes.append((before, text))
        if word[:1] == b"#" and word[1:].decode("latin-1") in ("title", "event", "description", "lexicon") and text:
            own.setdefault(word[1:].decode(), text)
        before += line.startswith(b">")
    return own, notes


def expected(verdict, players, events, lines, listed, rules, words, rules_text=None, game=b"", latin=False, printed=""):
    """What is to be on the page of a record with this settled verdict line; `words` are the bytes of the list, `game` those of the record. Where no
    deal gives the racks, what was `printed` says what was found of them."""
    illegal = re.match("illegal line ([0-9]+):", verdict)
    place_at = next(k for k, line in enumerate(lines) if line >= int(illegal[1])) if illegal else None
    nicks = [player[0].decode("latin-1") if player else "the other player" for player in players]
    reason = (
        whole_text(verdict, events, lines, listed, rules, nicks)
        if place_at is None
        else judged_text(events, lines, place_at, listed, rules, nicks, verdict, printed)
    )
    reason = unread_text(game) + time_racks(game) + reason
    names, shown = [name_of(player) for player in players], [player[0].decode(errors="replace") if player else "" for player in players]
    totals = [next((it.total for it in reversed(events) if it.player == seat), 0) for seat in (0, 1)]
    found = facts(events, listed, rules)
    by = f"a text with the SHA-256 {sha256(rules_text).hexdigest()}" if rules_text is not None else "the English game"

    def text_of(said):
        return said.decode("latin-1") if latin else said.decode(errors="replace")

    own, notes = said_lines(game)
    there = [name for name, player in zip(names, players) if player]
    last = lay(events, len(events))[1]
    at = None
    if place_at is not None:
        event = events[place_at]
        at = (lines[place_at], f"Line {lines[place_at]}: {shown[event.player]} {happened(events, place_at)[0]} {signed(event.score)} {event.total}")
    return {
        "title": " and ".join(there),
        "h1": f"{names[0]} {totals[0]} \u2013 {totals[1]} {names[1]}"
        if players[0] and players[1]
        else f"{names[0]} {totals[0]}"
        if players[0]
        else f" \u2013 {totals[1]} {names[1]}",
        "result": result_text(verdict, names, totals),
        "own": [(OWN[key], text_of(own[key])) for key in ("title", "event", "description", "lexicon") if key in own]
        + [("Note", text_of(text)) for before, text in notes if before == 0],
        "class": verdict.split(" ")[0],
        "verdict": verdict,
        "at": at,
        "reason": reason.rstrip("\n").encode("latin-1").decode(errors="replace"),
        "sum": sum_lines(events, place_at, listed, rules) if place_at is not None else [],
        "heading": "The board at the end" if place_at is None else f"The board at line {illegal[1]}",
        "board": pictured(events, len(events) if place_at is None else place_at, rules)[0],
        "first": lines[0] if last > 0 and lay(events, 1)[1] == 1 else None,
        "bag": bag_text(lay(events, len(events))[0], rules) if place_at is None else None,
        "rows": rows(events, lines, shown, found, rules, place_at),
        "notes": [(before, text_of(text)) for before, text in notes if before > 0],
        "sums": sums_text(events, found, names, players),
        "foot": f"Word list: {len(listed)} words, SHA-256 {sha256(words).hexdigest()}. Rules: {by}. Made by referee",
    }


# ---- what is on a page


def square_read(cell):
    """A square: a tile has no class, or one that says that it is new (`n`), a blank (`b`) or both (`m`)."""
    kinds, text = cell.kinds(), cell.text()
    if kinds in ([], ["n"], ["b"], ["m"]) and text:
        return f"{text}{'*' if kinds in (['n'], ['m']) else ''}{'~' if kinds in (['b'], ['m']) else ''}"
    star = "*" if "x" in kinds else ""
    codes = [kind for kind in kinds if kind not in ("x", "s")]
    assert len(codes) <= 1 and text in (CODES[codes[0]] if codes else "", STAR), (kinds, text)
    assert ("s" in kinds) == (text == STAR and not codes)
    return f"{CODES[codes[0]] if codes else ''}{STAR if text == STAR else ''}{star}"


def board_read(table):
    head, *rest = table.all("tr")
    assert [it.text() for it in head.all("th")] == list(COLUMNS) and [it.text() for it in head.all("td")] == [""]
    assert [row.first("th").text() for row in rest] == [str(k + 1) for k in range(SIDE)]
    return [[square_read(cell) for cell in row.all("td")] for row in rest]


def line_of_link(link):
    return int(link.attributes["href"].removeprefix("#l"))


def panel_read(cell):
    if not cell.inside:
        return None
    nav, *rest = cell.children()
    before, here, close, behind = nav.children()
    kinds = [it.kinds()[0] for it in rest]
    assert nav.kinds() == ["nav"] and kinds in (["now", "board", "rack", "bag"], ["now", "board", "bag"]), kinds
    assert (before.text(), close.text(), behind.text()) == ("\u2039 previous", "close", "next \u203a") and close.attributes["href"] == "#end"
    return {
        "previous": line_of_link(before) if before.tag == "a" else None,
        "line": int(here.text().removeprefix("Line ")),
        "next": line_of_link(behind) if behind.tag == "a" else None,
        "now": rest[0].text(),
        "board": board_read(rest[1]),
        "rack": rest[2].text() if kinds[2] == "rack" else None,
        "bag": rest[-1].text(),
    }


HEADS = ["Line", "Player", "Play", "Score", "Total", "Rack", "Best play", "More"]


def row_read(row):
    """A row: its cells, its marks, and the position after it, to which its play leads."""
    *cells, last = row.children()
    play = cells[2]
    tags = [it.text() for it in play.all("b", "tag")]
    told = [it.text().strip() for it in cells]
    told[2] = play.text().removesuffix("".join(f" {tag}" for tag in tags))
    panel_ = panel_read(last)
    assert last.kinds() == ["pos"] and row.attributes["id"] == f"l{told[0]}"
    assert [line_of_link(it) for it in play.all("a")] == ([int(told[0])] if panel_ else [])
    return {"cells": told, "kinds": row.kinds(), "tags": tags, "panel": panel_}


def rows_read(table):
    """The rows of the sheet, and its notes with the number of rows before each."""
    heads = [it.text() for it in table.first("thead").all("th")]
    assert heads[:8] == HEADS and heads[8:] in (
        ["Board"],
        ["Not in the list", "Board"],
        ["Should be", "Board"],
        ["Not in the list", "Should be", "Board"],
    )
    found, notes = [], []
    for row in table.first("tbody").children():
        if row.kinds() == ["note"]:
            notes.append((len(found), row.text()))
        else:
            found.append(row_read(row))
            assert len(found[-1]["cells"]) == len(heads) - 1
    return found, notes


def own_read(part):
    name, text = part.text().split(" by the record: ", 1)
    return name, part.first("q").text()


def shown(page):
    """What is on a page."""
    tree = web.read(page)
    header, main, box = tree.first("header"), tree.first("main"), tree.first("section", "verdict")
    end, at = main.first("section", "end"), box.all("p", "at")
    found, notes = rows_read(main.first("table", "sheet"))
    first, bag, back = end.all("p", "nav"), end.all("p", "bag"), header.all("p", "up")
    assert tree.first("body").kinds() == ["game"] and end.attributes["id"] == "end"
    return {
        "title": tree.first("title").text(),
        "h1": header.first("h1").text(),
        "result": header.first("p", "result").text(),
        "own": [own_read(it) for it in header.all("p", "own")],
        "class": box.attributes["class"].removeprefix("verdict "),
        "verdict": box.first("h2").text(),
        "at": (line_of_link(at[0].first("a")), at[0].text()) if at else None,
        "reason": box.first("p", "why").text(),
        "sum": [it.text() for it in box.all("li")],
        "heading": end.first("h2").text(),
        "board": board_read(end.first("table", "board")),
        "first": line_of_link(first[0].first("a")) if first else None,
        "bag": bag[0].text() if bag else None,
        "rows": found,
        "notes": notes,
        "sums": main.first("p", "sums").text(),
        "foot": tree.first("footer").text().strip(),
        "back": back[0].first("a").attributes["href"] if back else None,
    }


def differences(page, wanted):
    """Where a page is not what it is to be."""
    found = shown(page)
    told = [f"{key}: {found[key]!r}, not {wanted[key]!r}" for key in wanted if key not in ("rows", "foot") and found[key] != wanted[key]]
    told += [f"row {k}: {a}, not {b}" for k, (a, b) in enumerate(zip(found["rows"], wanted["rows"])) if a != b]
    told += [] if len(found["rows"]) == len(wanted["rows"]) else ["the number of rows"]
    return told + ([] if found["foot"].startswith(wanted["foot"]) else [f"foot: {found['foot']!r}"])
