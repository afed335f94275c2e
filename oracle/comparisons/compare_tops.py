"""Compares `referee top` with the second judge's search, on the boards of random games that were dealt for real:
compare_tops PROGRAM CASES SEED

The search finds all plays that a rack allows on the board after the record; the program has to print the first ten of them, or
as many as it is asked for, by the greater score and then as they are written, one a line, or `none`.
"""
import random
import subprocess
import sys
from collections import Counter
from pathlib import Path

from best import MANY, best_plays
from comparing import compared
from dealing import Dealer, line, words_in_reach
from lexicons import build
from making import in_either_case, random_rack
from rules import ENGLISH


def cases(number):
    """Records, their boards, racks, and listed words, of which the racks make some; what was taken back stays unlisted."""
    tiles = list(ENGLISH.tiles.elements())
    for _ in range(number):
        dealer = Dealer(ENGLISH, random.choice([0, 1, 4, 12, 30, 60]), random.choice([(), ("known", "unknown")]), "mixed")
        events, _, listed = dealer.game()
        rack = random_rack(tiles)
        listed = (listed | words_in_reach(dealer.board, rack, random.choice([0, 5, 50, 500]))) - dealer.phonies
        yield "".join(map(line, events)), dealer.board, rack, listed


class Tops:
    """A program, a folder for its inputs, and what was compared so far."""

    def __init__(self, program, folder):
        self.program, self.differences, self.kinds = program, 0, Counter()
        self.words, self.lexicon, self.game = (Path(folder, name) for name in ("words", "lexicon", "game"))

    def compare(self, text, board, rack, listed):
        self.words.write_text("\n".join(sorted(listed)))
        self.lexicon.write_bytes(build(listed))
        self.game.write_text(text)
        number = random.choice([MANY, 1, 9, 11, 40, 100])
        asked = [] if number == MANY else ["--number", str(number)]
        named = in_either_case(rack)
        words = [self.program, "top", *asked, self.words, self.lexicon, self.game, named]
        told = subprocess.run(words, capture_output=True, check=False).stdout.decode()
        plays, expected = best_plays(board, rack, listed, number=number)
        expected = expected if named == rack else "bad rack\n"
        self.kinds["a rack in small letters"] += named != rack
        self.kinds["none" if not plays else "fewer" if len(plays) < number else "as many" if len(plays) == number else "more"] += 1
        self.kinds["with a blank"] += "?" in rack
        self.kinds["a tie at the end"] += len(plays) > number and plays[number - 1].score == plays[number].score
        if told != expected:
            self.differences += 1
            print(text, rack, "listed", *sorted(listed), "program", told, "second judge", expected, sep="\n")


def main():
    tops, number = compared(Tops, lambda made, number: [made.compare(*case) for case in cases(number)])
    print(f"{number} racks, {tops.differences} differences", dict(sorted(tops.kinds.items())))
    sys.exit(tops.differences > 0)


if __name__ == "__main__":
    main()
