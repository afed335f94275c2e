"""Boards, plays, words and scores by the WESPA Game Rules: what the second judge and its search rest on.

A board is a dictionary from squares (row and column, from 0) to tiles: a capital for a letter, a small letter for a blank.
"""

from rules import ENGLISH, RACK, SIDE

ACROSS, DOWN = (0, 1), (1, 0)


class Refused(Exception):
    """The first check of an event that fails."""


def check(holds, fault):
    if not holds:
        raise Refused(fault)


def runs(board, squares, step):
    """The runs of two tiles or more in one direction that hold one of the squares."""
    found = []
    for row, column in sorted(squares):
        while (row - step[0], column - step[1]) in board:
            row, column = row - step[0], column - step[1]
        run = []
        while (row, column) in board:
            run.append((row, column))
            row, column = row + step[0], column + step[1]
        if len(run) > 1 and run not in found:
            found.append(run)
    return found


def place(board, at, step, word):
    """The new tiles of a text and the board with them, or the first fault of the text or of the play."""
    squares = [(at[0] + step[0] * k, at[1] + step[1] * k) for k in range(len(word))]
    check(max(squares[-1]) < SIDE, "OffBoard")
    check(all((s in board) if t == "." else board.get(s, t).upper() == t.upper() for s, t in zip(squares, word)), "Mismatch")
    new = {square: tile for square, tile in zip(squares, word) if square not in board}
    check(new, "NoNewTile")
    check(len(new) <= RACK, "TooManyTiles")
    ends = (at[0] - step[0], at[1] - step[1]), (squares[-1][0] + step[0], squares[-1][1] + step[1])
    check(not any(end in board for end in ends), "NotWhole")
    after = board | new
    check(board or (7, 7) in new, "MissesCentre")
    check(runs(after, new, ACROSS) or runs(after, new, DOWN), "TooShort")
    beside = [(row + a, column + b) for row, column in new for a, b in (ACROSS, DOWN, (0, -1), (-1, 0))]
    check(not board or any(square in board for square in beside), "Apart")
    return new, after


def score_of(after, new, words, rules=ENGLISH):
    total = rules.bonus if len(new) == RACK else 0
    for run in words:
        points, factor = 0, 1
        for square in run:
            premium = rules.premiums.get(square) if square in new else None
            points += rules.points.get(after[square], 0) * {"DL": 2, "TL": 3}.get(premium, 1)
            factor *= {"DW": 2, "TW": 3}.get(premium, 1)
        total += points * factor
    return total
