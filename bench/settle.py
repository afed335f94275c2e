"""Measures what `judge --settle` takes beyond `judge`: settle.py PROGRAM [GAMES [SEED]]

Both are run in turn on games that were dealt for real, with exchanges, and the least processor time of five runs of each counts. Where
`judge` leaves a game open it writes no report, so there the report of the game is part of what `--settle` takes. Then come records of
1,000 events by a set of 200 tiles, more than nine in ten of them exchanges, as they were dealt and with one rack spoiled.
"""
import random
import sys
import tempfile
from collections import Counter
from dataclasses import replace
from pathlib import Path

from running import run

from dealing import Dealer, line, spoiled
from lexicons import build
from rules import ENGLISH
from rules_texts import text_of

BOTH = ("known", "unknown")
TWO_SETS = replace(ENGLISH, tiles=Counter({tile: 2 * count for tile, count in ENGLISH.tiles.items()}), exchange_min=1, zero_limit=99)


def timed(folder, words):
    """The first line of what a run said, and its processor time in milliseconds."""
    ran = run(folder, words, errors=False)
    return ran.said.decode().split("\n")[0], ran.processor * 1000


def both(folder, program, runs=5):
    """What `judge` printed, and the least times of it and of `judge --settle`."""
    files, times, told = ["words", "lexicon", "game"], [[], []], ""
    for _ in range(runs):
        told, took = timed(folder, [program, "judge", *files])
        times[0].append(took)
        times[1].append(timed(folder, [program, "judge", "--settle", *files])[1])
    return told, min(times[0]), min(times[1])


def put(folder, events, listed):
    Path(folder, "words").write_text("\n".join(sorted(listed)))
    Path(folder, "lexicon").write_bytes(build(listed))
    Path(folder, "game").write_text("".join(map(line, events)))


def usual(folder, program, games):
    """Games of 40 turns by the English rules."""
    for style in ("whole", "one", "mixed", "part", "none"):
        more = {}
        for _ in range(games):
            dealer = Dealer(ENGLISH, 40, BOTH, style, 15)
            put(folder, dealer.game()[0], dealer.listed)
            told, plain, settled = both(folder, program)
            more.setdefault(told.split(" ")[0], []).append(settled - plain)
        for told, times in sorted(more.items()):
            print(
                f"racks {style}: {len(times)} games that judge calls {told}, {sum(times) / len(times):.2f} ms more, at most {max(times):.2f}",
                flush=True,
            )


def thousand(style):
    """The first 1,000 events of a game that has so many, and the words that are listed."""
    while True:
        dealer = Dealer(TWO_SETS, 1000, BOTH, style, 93)
        events = dealer.game()[0][:1000]
        if len(events) == 1000:
            return events, dealer.listed


def longest(folder, program, games):
    """Records of 1,000 events, and of each the slowest of those with a rack spoiled."""
    Path(folder, "rules").write_bytes(text_of(TWO_SETS))
    for style in ("none", "part", "one"):
        for _ in range(games):
            events, listed = thousand(style)
            slowest = {}
            for number in range(20):
                put(folder, spoiled(events, TWO_SETS) or events if number else events, listed)
                said, took = timed(folder, [program, "judge", "--settle", "--rules", "rules", "words", "lexicon", "game"])
                said = said.split(": ")[-1].split(" ")[0] if number else f"as dealt, {said}"
                slowest[said] = max(took, slowest.get(said, 0))
            print(f"1,000 events, racks {style}:", ", ".join(f"{said} {took:.0f} ms" for said, took in slowest.items()), flush=True)


def main():
    program = str(Path(sys.argv[1]).resolve())
    games = int((sys.argv + ["20"] * 2)[2])
    random.seed(int((sys.argv + ["1"] * 4)[3]))
    with tempfile.TemporaryDirectory() as folder:
        usual(folder, program, games)
        longest(folder, program, 3)


if __name__ == "__main__":
    main()
