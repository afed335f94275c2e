"""The board of a record as a text, whatever is wrong with its events but that a play cannot be laid: the second judge's."""
from boards import Refused, place
from rules import KINDS, SIDE

MARKS = {"TW": "=", "DW": "-", "TL": '"', "DL": "'"}


def lay(events, asked):
    """The board before the event at a place, that place, and no fault; or the same of the first play that cannot be laid."""
    standing, shown = {}, {}
    for k, event in enumerate(events[:asked]):
        shown = standing
        if event.kind == "play":
            try:
                shown = place(standing, event.at, event.direction, event.word)[1]
            except Refused as fault:
                return standing, k, str(fault)
        if k + 1 == len(events) or events[k + 1].kind != "withdraw":
            standing = shown
    return shown, asked, None


def square_text(board, rules, square):
    return board[square] if square in board else MARKS.get(rules.premiums.get(square), ".")


def off_board(board, rules):
    """How many tiles of each kind are not on the board."""
    laid = ["?" if tile.islower() else tile for tile in board.values()]
    return {kind: max(0, rules.tiles[kind] - laid.count(kind)) for kind in KINDS}


def last_total(events, player):
    return next((event.total for event in reversed(events) if event.player == player), 0)


def sheet(players, events, lines, asked, rules):
    """The text of the board before the event at a place of the record whose events are on some lines."""
    board, end, fault = lay(events, asked)
    where = f"before line {lines[end]}" if end < len(events) else "after the last event"
    told = [f"board {where}{f', whose play cannot be laid: {fault}' if fault else ''}".encode()]
    told.append(b"   " + b" ".join(b"ABCDEFGHIJKLMNO"[k : k + 1] for k in range(SIDE)))
    for row in range(SIDE):
        told.append(f"{row + 1:2} {' '.join(square_text(board, rules, (row, column)) for column in range(SIDE))}".encode())
    told += [b"= triple word, - double word, \" triple letter, ' double letter", b"small letters are blanks"]
    for seat in (0, 1):
        nick = players[seat][0][:60] if players[seat] else b""
        told.append(nick + b" %d" % last_total(events[:end], seat))
    if end < len(events) and events[end].rack:
        told.append(f"rack {events[end].rack}".encode())
    left = off_board(board, rules)
    told.append(b"tiles not on the board: %d" % sum(left.values()))
    for first in (0, 9, 18):
        told.append("".join(f"  {kind} {left[kind]}" for kind in KINDS[first : first + 9]).encode())
    return b"".join(line + b"\n" for line in told)
