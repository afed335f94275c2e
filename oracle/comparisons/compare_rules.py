"""Compares `referee judge --rules` and `referee top --rules` with the second judge: compare_rules PROGRAM CASES SEED

In each case the rules are random: other tiles, points, premiums and parameters. The program reads one of the many texts that mean
them, and judges a game that nobody dealt, a game that was dealt for real by these rules and one with a rack of it spoiled; it names
the ten best plays of a rack; and it reads a text with a fault, and then all the rest by what that text means, where it means any.
The game of `examples/` with other rules comes first.
"""
import random
import re
import subprocess
import sys
from collections import Counter
from pathlib import Path

from answers import error_of, judged, status_of, topped
from best import kinds_told
from comparing import compared
from dealing import Dealer, in_order, likely, line, spoiled, words_in_reach
from lexicons import build
from making import Maker
from rules import ENGLISH
from rules_texts import text_of
from ruling import another_text, choose, damaged_text, random_rules

EXCHANGES = [(), (), ("known",), ("unknown",), ("known", "unknown")]


def record_of(events):
    return "".join(map(line, events)).encode()


def games(rules):
    """Records by some rules, with their listed words and the racks that are asked for."""
    maker = Maker(choose([2, 3, 6, 10, 40]), rules)
    if (events := maker.game()) and not events[0].player:
        yield record_of(events), maker.listed, "AEINRT?"
    dealer = Dealer(rules, choose([0, 1, 4, 12, 40]), choose(EXCHANGES), choose(["whole", "part", "mixed"]))
    events = dealer.game()[0]
    tiles = list(rules.tiles.elements())
    rack = in_order(random.sample(tiles, min(len(tiles), choose([1, 3, 5, 7, 7]))))
    listed = dealer.listed | words_in_reach(dealer.board, rack, choose([0, 5, 50]))
    for event, board, (racks, _) in zip(dealer.events, dealer.boards, dealer.deal):
        if likely(0.3):
            listed |= words_in_reach(board, racks[event.player].elements(), choose([0, 1, 5, 20]))
    for record in (events, spoiled(events, rules)):
        if record is not None:
            yield record_of(record), listed - dealer.phonies, rack


def kind_of(answer):
    """The first line of an answer without its numbers of lines, scores and tiles."""
    first = answer.decode("latin-1").split("\n")[0]
    return re.sub(" line [0-9]+|(?<=WrongScore) .*|(?<=WrongTotal) .*|(?<=TilesShort) .", "", first)


class Ruled:
    """A program, a folder for its inputs, and what was compared so far."""

    def __init__(self, program, folder):
        self.program, self.differences, self.seen, self.kinds = program, 0, Counter(), Counter()
        self.rules, self.words, self.lexicon, self.game = (Path(folder, name) for name in ("rules", "words", "lexicon", "game"))

    def run(self, command, text, expected, *rack):
        """Compares a command by a rules text, and counts its answer."""
        words = [self.program, command, "--rules", self.rules, self.words, self.lexicon, self.game, *rack]
        ran = subprocess.run(words, capture_output=True, check=False, timeout=60)
        self.seen[f"{command}: {kind_of(expected)}" if command == "judge" or status_of(expected) else "top: plays"] += 1
        if (ran.returncode, ran.stdout, ran.stderr) != (status_of(expected), expected, error_of(words[1:], expected, self.game)):
            self.differences += 1
            print(command, "rules", text.decode("latin-1"), "words", self.words.read_text(), "game", self.game.read_text(), sep="\n")
            print(*rack, "program", ran.returncode, ran.stdout.decode(), ran.stderr.decode(), "second judge", expected.decode(), sep="\n")

    def compare(self, text, record, listed, rack):
        """Compares both commands by a rules text."""
        words, lexicon = "".join(f"{word}\n" for word in sorted(listed)).encode(), build(listed)
        for it, data in ((self.rules, text), (self.words, words), (self.lexicon, lexicon), (self.game, record)):
            it.write_bytes(data)
        report = judged(words, lexicon, record, text)
        self.kinds += kinds_told(report.decode())
        self.run("judge", text, report)
        self.run("top", text, topped(words, lexicon, record, rack, text), rack)


def example(ruled):
    """Compares the game of `examples/` by other rules, and by the English ones."""
    folder = Path(__file__).resolve().parents[2] / "examples"
    game, listed = (folder / "club.gcg").read_bytes(), set((folder / "words.txt").read_text().upper().split())
    for text in ((folder / "club.rules").read_bytes(), text_of(ENGLISH)):
        ruled.compare(text, game, listed, "AEINRST")


def compare(ruled, cases):
    """Compares the game of `examples/` and games by random rules."""
    example(ruled)
    for _ in range(cases):
        rules = random_rules()
        for game in games(rules):
            ruled.compare(another_text(rules), *game)
        ruled.compare(damaged_text(rules), *game)


def main():
    ruled, cases = compared(Ruled, compare)
    print(f"{cases} rules, {ruled.seen.total()} runs, {ruled.differences} differences", dict(sorted(ruled.seen.items())))
    print("best plays:", ", ".join(f"{kind} {times}" for kind, times in sorted(ruled.kinds.items())))
    sys.exit(ruled.differences > 0)


if __name__ == "__main__":
    main()
