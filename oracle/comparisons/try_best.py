"""Tries the second judge's search for best plays on worked rows and on random boards: try_best CASES SEED

On a random board the search has to find exactly the plays of all texts that can be written there: at each square, in both
directions, of each length, with the tiles of the rack in each order. Whether a text is a play, and what it scores, the rules of
`boards.py` say, as they do of the plays of a record.
"""
import itertools
import random
import sys
from collections import Counter
from dataclasses import replace

from best import Found, Search
from boards import ACROSS, DOWN, Refused, place, runs, score_of
from deals import events_of, judge_deal
from dealing import text_from, words_in_reach
from rules import ENGLISH, RACK, SIDE

SMALL = replace(ENGLISH, tiles=Counter("AADEEINORRSTTW"))
ON_WORD = ">A: DORWAAE 8E WORD +16 16\n>B: AT 9G AT +9 9\n"
TOLD = "1 A 8E WORD +16 16 best 8E WORD 16\n2 B 9G AT +9 9 best -"
PASSES = "".join(f">{'AB'[k % 2]}: - +0 0\n" for k in range(6))
LEFT, DONE = "legal unfinished\n", "legal complete\n"

# Records with their reports, made by hand: the listed words, the record, the report.
REPORTS = [
    ("WORD", ">A: DORWAAE 8E WORD +16 16\n", LEFT + "1 A 8E WORD +16 16 best 8E WORD 16\n"),
    ("WORD", ">A: DORWAAE 8E WORD +16 17\n", "illegal line 1: WrongTotal 16\n"),
    ("WORD", ">A: DOW? 8E WOrD +14 14\n", LEFT + "1 A 8E WOrD +14 14 best -\n"),
    ("RETAINS", ">A: AEINRST - +0 0\n", LEFT + "1 A - +0 0 best 8B RETAINS 66\n"),
    ("QI", ">A: AEOUUTT - +0 0\n", LEFT + "1 A - +0 0 best none\n"),
    ("WORD AT RA", ON_WORD, LEFT + TOLD + " unlisted DT\n"),
    ("WORD AT RA", ON_WORD + ">B: AT -- -9 0\n>A: AT 9G AT +9 25\n", LEFT + TOLD + "\n3 B -- -9 0\n4 A 9G AT +9 25 best - unlisted DT\n"),
    ("WORD AT RA DT", ON_WORD + ">B: AT -- -9 0\n>A: AT 9G AT +9 25\n", "illegal line 3: WithdrawnValid\n"),
    ("WORD AT RA", ON_WORD + ">B: AT (challenge) +5 14\n", LEFT + TOLD + " unlisted DT\n3 B (challenge) +5 14\n"),
    (
        "RETAINS",
        PASSES + ">A: AEINRST (AEINRST) -7 -7\n>B: AEINRST (AEINRST) -7 -7\n",
        DONE + "".join(f"{k + 1} {'AB'[k % 2]} - +0 0 best -\n" for k in range(6)) + "7 A (AEINRST) -7 -7\n8 B (AEINRST) -7 -7\n",
    ),
    ("AT", ">A: AEI -5 +0 0\n>B: QU - +0 0\n>A: SX - +0 0\n", LEFT + "1 A -5 +0 0 best -\n2 B - +0 0 best -\n3 A - +0 0 best -\n"),
    ("WORD AT RA EAT OE", ON_WORD + ">A: E 9F E.. +5 21\n", LEFT + TOLD + " unlisted DT\n3 A 9F E.. +5 21 best -\n"),
    ("WORD AT RA EAT OE", ON_WORD + ">A: E F8 .E +5 21\n", LEFT + TOLD + " unlisted DT\n3 A F8 .E +5 21 best -\n"),
    ("WORD AT RA EAT OE", ON_WORD + ">A: E 9F E(AT) +5 21\n", LEFT + TOLD + " unlisted DT\n3 A 9F EAT +5 21 best -\n"),
    ("AT", ">A: ABCDEF? - +0 0\n", LEFT + "1 A - +0 0 best 8G At 2\n"),
    ("RETAINS", ">A: AEINRST - +0 0\n>B: ADEORTW - +0 0\n", LEFT + "1 A - +0 0 best 8B RETAINS 66\n2 B - +0 0 best none\n"),
    # An exchange of either kind is a turn, and so is a play that is taken back: its rack is judged on the board before it.
    ("AT", ">A: AABCDDT -AAB +0 0\n>B: AAEEFFT -2 +0 0\n", LEFT + "1 A -AAB +0 0 best 8G AT 4\n2 B -2 +0 0 best 8G AT 4\n"),
    ("AT", ">A: AABBCCT 8H BAT +10 10\n>A: -- -10 0\n", LEFT + "1 A 8H BAT +10 10 best 8G AT 4\n2 A -- -10 0\n"),
]

# Reports by a set of fourteen tiles, in the same way: the first player goes out, and the pass after that is no turn.
SMALL_REPORTS = [
    ("RETAINS", ">A: AEINRST 8D RETAINS +66 66\n>A: (ADEORTW) +22 88\n", DONE + "1 A 8D RETAINS +66 66 best 8B RETAINS 66\n2 A (ADEORTW) +22 88\n"),
    (
        "RETAINS",
        ">A: AEINRST 8D RETAINS +66 66\n>B: ADEORTW - +0 0\n>A: (ADEORTW) +22 88\n>A: (time) -5 83\n",
        DONE + "1 A 8D RETAINS +66 66 best 8B RETAINS 66\n2 B - +0 0\n3 A (ADEORTW) +22 88\n4 A (time) -5 83\n",
    ),
    # Once the bag is empty a rack of five tiles is whole.
    (
        "AT TA",
        ">A: AEINRST 8H AT +4 4\n>B: ADEORTW - +0 0\n>A: EINRS - +0 4\n",
        LEFT + "1 A 8H AT +4 4 best 8G AT 4\n2 B - +0 0 best 7H TA 8\n3 A - +0 4 best none\n",
    ),
]

# Plays of a rack, best first, made by hand: the listed words, the texts on the board, the rack, the plays.
PLAYS = [
    ("AT", [], "?A", ["8G At 2", "8H At 2", "H7 At 2", "H8 At 2"]),
    ("AT", [], "AT", ["8G AT 4", "8H AT 4", "H7 AT 4", "H8 AT 4"]),
    ("", [], "A", []),
    ("AA", [], "A?", [f"{at} {word} 2" for at in ("8G", "8H", "H7", "H8") for word in ("Aa", "aA")]),
    ("AE EA", [], "E?", [f"{at} {word} 2" for at in ("8G", "8H", "H7", "H8") for word in ("Ea", "aE")]),
    (
        "AT ATE",
        [],
        "AT?",
        ["8F ATe 4", "8G AT 4", "8G ATe 4", "8H AT 4", "8H ATe 4", "H6 ATe 4", "H7 AT 4", "H7 ATe 4", "H8 AT 4", "H8 ATe 4"]
        + [f"{at} {word} 2" for at in ("8G", "8H", "H7", "H8") for word in ("At", "aT")],
    ),
    ("WORD AT RA EAT OE", [((7, 4), ACROSS, "WORD"), ((8, 6), ACROSS, "AT")], "E", ["9F E.. 5"]),
    ("AT ATS", [((7, 7), ACROSS, "AT")], "S", ["8H ..S 3"]),
    ("AT ATS", [((7, 7), DOWN, "AT")], "S", ["H8 ..S 3"]),
    ("AT", [((7, 7), DOWN, "AT")], "?", ["8H .t 1", "9G a. 1"]),
]


def rows():
    """Tries the worked rows."""
    for rules, reports in ((ENGLISH, REPORTS), (SMALL, SMALL_REPORTS)):
        for words, record, wanted in reports:
            told = judge_deal(events_of(record), set(words.split()), rules)
            assert told == wanted, f"{record}told {told}for {wanted}"
    for words, texts, rack, wanted in PLAYS:
        board = {}
        for text in texts:
            board = place(board, *text)[1]
        told = [str(play) for play in sorted(Search(set(words.split())).plays(board, rack), key=Found.rank)]
        assert told == wanted, (words, texts, rack, told, wanted)
    print(f"best plays: {len(REPORTS) + len(SMALL_REPORTS)} reports and {len(PLAYS)} boards by hand", flush=True)


def texts_of(board, at, step, length, rack, letters):
    """All texts of a length from a square on, with a dot for each tile of the board and tiles of the rack on the empty squares."""
    squares = [(at[0] + step[0] * k, at[1] + step[1] * k) for k in range(length)]
    empty = [square for square in squares if square not in board]
    for order in set(itertools.permutations(rack, len(empty))):
        for shown in itertools.product(*(letters.lower() if tile == "?" else tile for tile in order)):
            laid = dict(zip(empty, shown))
            yield "".join(laid.get(square, ".") for square in squares)


def is_place(board, at, step, length):
    """Whether a text of this length may be at a square, whatever its letters."""
    last = at[0] + step[0] * (length - 1), at[1] + step[1] * (length - 1)
    if max(last) >= SIDE:
        return False
    squares = [(at[0] + step[0] * k, at[1] + step[1] * k) for k in range(length)]
    try:
        place(board, at, step, "".join("." if square in board else "X" for square in squares))
    except Refused:
        return False
    return True


def all_plays(board, rack, listed):
    """All plays of a rack, from all texts. A blank is tried as each letter of the listed words: another is in no word."""
    letters = "".join(sorted(set("".join(listed))))
    for step, row, column in itertools.product((ACROSS, DOWN), range(SIDE), range(SIDE)):
        for length in range(2, SIDE + 1):
            if not is_place(board, (row, column), step, length):
                continue
            for text in texts_of(board, (row, column), step, length, rack, letters):
                new, after = place(board, (row, column), step, text)
                if len(new) == 1 and step == DOWN and runs(after, new, ACROSS):
                    continue
                words = runs(after, new, ACROSS) + runs(after, new, DOWN)
                if all("".join(after[square] for square in run).upper() in listed for run in words):
                    yield Found(score_of(after, new, words), step == DOWN, row, column, text)


def random_board(tiles):
    """Some plays of random tiles, the first of which may lie anywhere."""
    board, plays = {}, random.choice([0, 1, 1, 2, 4, 8, 20, 40])
    if plays and random.random() < 0.5:
        row, column = random.choice([0, 1, 7, 13, 14]), random.randint(0, 11)
        at, step = random.choice([((row, column), ACROSS), ((column, row), DOWN)])
        board = {(at[0] + step[0] * k, at[1] + step[1] * k): random.choice(tiles) for k in range(random.randint(2, 4))}
        board = {square: "e" if tile == "?" else tile for square, tile in board.items()}
    for _ in range(10 * plays):
        tried = text_from(board, random.choices(tiles, k=RACK))
        try:
            board = place(board, *tried)[1] if tried else board
        except Refused:
            continue
        if len(board) > 3 * plays:
            break
    return board


def random_case():
    """A board, a rack and listed words, few enough to try all texts."""
    tiles = random.choice(["AET", "AEIRT?", "AEINRSTQ?"])
    board = random_board(tiles)
    if random.random() < 0.2:
        rack = random.choice(["A" * 7, "A" * 6 + "T", "A" * 5 + "TT", "AAAAAA?", "TTTTTT", "AAAEEEE"])
    else:
        blanks, letters = random.choice([(0, 1), (0, 2), (0, 3), (0, 4), (1, 0), (1, 1), (1, 2), (2, 0), (2, 1)])
        rack = "?" * blanks + "".join(random.choices(tiles.strip("?"), k=letters))
    tries = random.choice([0, 3, 30, 300])
    listed = words_in_reach(board, rack, tries) | words_in_reach(board, random.choices(tiles, k=RACK), tries)
    listed |= {"".join(random.choices("AEIRT", k=random.choice([2, 2, 2, 3, 3, 4]))) for _ in range(tries // 3)}
    return board, rack, listed


def small(cases):
    """Random boards, where all texts are tried."""
    seen = Counter()
    for _ in range(cases):
        board, rack, listed = random_case()
        found = Counter(Search(listed).plays(board, rack))
        wanted = Counter(all_plays(board, rack, listed))
        assert max(found.values(), default=1) == 1, ("twice", board, rack, listed, found)
        assert found == wanted, ("other plays", board, rack, listed, found - wanted, wanted - found)
        best = Search(listed).best(board, rack)
        first = sorted(wanted, key=Found.rank)[0] if wanted else None
        assert best == first, ("another best", board, rack, listed, best, first)
        seen["none" if best is None else "tied" if [play.score for play in wanted].count(best.score) > 1 else "alone"] += 1
        new = best.word.replace(".", "") if best else ""
        seen["one tile"] += len(new) == 1
        seen["seven tiles"] += len(new) == RACK
        seen["with a blank"] += new != new.upper()
        seen["down"] += best is not None and best.down
    print(f"{cases} boards, all texts tried: {', '.join(f'{kind} {times}' for kind, times in sorted(seen.items()))}", flush=True)


if __name__ == "__main__":
    rows()
    random.seed(int(sys.argv[2]))
    small(int(sys.argv[1]))
