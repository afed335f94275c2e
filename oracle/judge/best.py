"""The best play of a turn by the second judge: of the plays that a rack and a word list allow, the one of the highest score.

A play covers squares of one line without a gap between its first and its last, so that no choice is left once its direction, its
first empty square and the number of its tiles are known: it takes the empty squares of the line in their order. For each such set
of squares the run through them is a pattern of old letters and of gaps; the words of the list that match it are looked up by
length and letters, and each is laid with letters and blanks in every way that the rack allows. So the list is never gone through
at a place, and no text is tried: `try_best.py` does that, to compare.
"""
from collections import Counter, defaultdict
from dataclasses import dataclass

from boards import ACROSS, DOWN, runs, score_of
from rules import ENGLISH, RACK, SIDE

CENTRE = (7, 7)
MANY = 10


@dataclass(frozen=True)
class Found:
    """A play as it is written, with its score."""

    score: int
    down: bool
    row: int
    column: int
    word: str

    def rank(self):
        """What is compared, the least first: a higher score, across before down, the row, the column, the bytes of the word."""
        return -self.score, self.down, self.row, self.column, self.word.encode()

    def __str__(self):
        row, column = str(self.row + 1), chr(ord("A") + self.column)
        return f"{column + row if self.down else row + column} {self.word} {self.score}"


def lines():
    """All rows and columns: the direction along them, and their squares."""
    for fixed in range(SIDE):
        yield ACROSS, [(fixed, k) for k in range(SIDE)]
        yield DOWN, [(k, fixed) for k in range(SIDE)]


def coverings(board, most):
    """All sets of squares that a play of up to so many tiles may cover, as far as squares alone show, each with the direction in
    which the play is written and its run along it."""
    for step, line in lines():
        empty = [square for square in line if square not in board]
        for first in range(len(empty)):
            for size in range(1, min(most, len(empty) - first) + 1):
                new = empty[first : first + size]
                along = is_joined(board, new) and runs(board | dict.fromkeys(new, "?"), new, step)
                if along and not (size == 1 and step == DOWN and makes_row(board, *new[0])):
                    yield step, new, along[0]


def makes_row(board, row, column):
    """Whether a lone tile makes a word across: then it is written across, although it lies in a column too."""
    return (row, column - 1) in board or (row, column + 1) in board


def is_joined(board, new):
    """Whether new tiles touch old ones; the first play touches the centre."""
    if not board:
        return CENTRE in new
    return any((row + a, column + b) in board for row, column in new for a, b in ((0, 1), (1, 0), (0, -1), (-1, 0)))


def layings(letters, rack):
    """All ways to show letters by tiles of a rack: each by its own tile, or by a blank, which is a small letter."""
    if not letters:
        yield ""
        return
    for kind, shown in ((letters[0], letters[0]), ("?", letters[0].lower())):
        if kind in rack:
            for others in layings(letters[1:], rack.replace(kind, "", 1)):
                yield shown + others


class Search:
    """Names the plays that a list of words allows, with their scores by rules."""

    def __init__(self, listed, rules=ENGLISH):
        self.listed, self.rules, self.having = listed, rules, defaultdict(set)
        for word in listed:
            self.having[len(word)].add(word)
            for place, letter in enumerate(word):
                self.having[len(word), place, letter].add(word)

    def matching(self, pattern):
        """The words with these letters at their places; None is a gap."""
        keys = [(len(pattern), place, letter) for place, letter in enumerate(pattern) if letter]
        return set.intersection(*(self.having.get(key, set()) for key in keys or [len(pattern)]))

    def fits_across(self, board, new, step):
        """Whether the words that cross the run are all listed."""
        after = board | new
        crossing = runs(after, new, step[::-1])
        return all("".join(after[square] for square in run).upper() in self.listed for run in crossing)

    def plays(self, board, rack):
        """All plays, each once."""
        for step, new, run in coverings(board, min(RACK, len(rack))):
            pattern = [board[square].upper() if square in board else None for square in run]
            for word in self.matching(pattern):
                letters = "".join(letter for letter, old in zip(word, pattern) if not old)
                laid = list(layings(letters, rack))
                if laid and self.fits_across(board, dict(zip(new, letters)), step):
                    for shown in laid:
                        yield self.found(board, dict(zip(new, shown)), step, run)

    def found(self, board, new, step, run):
        """A play with its score, written from the first square of its run on, with a dot for each old tile."""
        after = board | new
        words = runs(after, new, step) + runs(after, new, step[::-1])
        text = "".join(new.get(square, ".") for square in run)
        return Found(score_of(after, new, words, self.rules), step == DOWN, *run[0], text)

    def best(self, board, rack):
        """The best play of a rack on a board, None where there is no play."""
        return min(self.plays(board, rack), key=Found.rank, default=None)

    def told(self, board, rack, held):
        """How a line of a report goes on whose turn states a rack, of a player who holds so many tiles: ` best -` where the record
        does not state the whole rack, ` best none` where it does and no play is allowed, else the best play."""
        if len(rack) != held:
            return " best -"
        return f" best {self.best(board, rack) or 'none'}"


def best_plays(board, rack, listed, rules=ENGLISH, number=MANY):
    """All plays of a rack on a board, the best first, and what `referee top` is to print of so many of them."""
    plays = sorted(Search(listed, rules).plays(board, rack), key=Found.rank)
    return plays, "".join(f"{play}\n" for play in plays[:number]) or "none\n"


def kinds_told(report):
    """What kinds of best plays a report has, how often each."""
    kinds = Counter()
    for line in report.splitlines():
        fields = line.split(" best ")[1].split(" ") if " best " in line else []
        if fields and fields[0] in ("-", "none"):
            kinds["not whole" if fields[0] == "-" else fields[0]] += 1
        elif fields:
            word = fields[1]
            new = word.replace(".", "")
            kinds["down" if fields[0][0].isalpha() else "across"] += 1
            kinds["one tile"] += len(new) == 1
            kinds["seven tiles"] += len(new) == RACK
            kinds["with a blank"] += new != new.upper()
            kinds["over old tiles"] += "." in word
    return kinds
