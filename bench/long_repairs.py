"""Measures `repair` of records of 1,000 events with slips of the pen.

The records are made as games are dealt, by a set of 200 tiles, so more than nine in ten of the events are exchanges. Their list has the words of all
plays that are kept, but for those that are left out. Each slip is of one of the kinds of `oracle/run repair_figures`. A row has the slips, how racks
are stated, what `judge` says of the record, the first repair or that there is none, the processor time, and the peak memory. The last line has the
time in the mean and at most.
"""
import argparse
import random
import tempfile
from pathlib import Path

from running import run
from settle import BOTH, TWO_SETS

from compare_changes import line_of
from dealing import Dealer
from lexicons import build
from repair_figures import SLIPS, STYLES
from rules_texts import text_of

EVENTS = 1000


def thousand(stated):
    """The first 1,000 events of a game that has so many, and the words of its plays that are kept."""
    while True:
        dealer = Dealer(TWO_SETS, EVENTS, BOTH, stated, 93, known=1)
        events = dealer.game()[0][:EVENTS]
        if len(events) == EVENTS:
            return events, {word for word in dealer.listed if 2 <= len(word) <= 15}


def with_slips(events, many):
    """Kinds of slips, and the events of a sheet with one of each."""
    kinds = []
    while len(kinds) < many:
        kind = random.choice(list(SLIPS))
        made = SLIPS[kind](events)
        if made and made[1] != events and len(made[1]) <= EVENTS:
            kinds, events = [*kinds, kind], made[1]
    return kinds, events


def main():
    known = argparse.ArgumentParser(description=__doc__, formatter_class=argparse.RawDescriptionHelpFormatter)
    known.add_argument("program", type=Path)
    known.add_argument("records", type=int, nargs="?", default=10)
    known.add_argument("seed", type=int, nargs="?", default=1)
    known.add_argument("--slips", type=int, default=1, help="how many slips each record has")
    known.add_argument("--left-out", type=int, default=0, metavar="WORDS", help="how many words of its plays are not in the list")
    asked = known.parse_args()
    program = str(asked.program.resolve())
    random.seed(asked.seed)
    print("| slips | racks | `judge` | the first repair | seconds | memory |\n|---|---|---|---|---|---|", flush=True)
    with tempfile.TemporaryDirectory() as folder:
        there = Path(folder)
        (there / "rules").write_bytes(text_of(TWO_SETS))
        took = []
        while len(took) < asked.records:
            stated = STYLES[len(took) % len(STYLES)]
            events, listed = thousand(stated)
            kinds, sheet = with_slips(events, asked.slips)
            if asked.left_out:
                listed = set(random.sample(sorted(listed), max(0, len(listed) - asked.left_out)))
            (there / "words").write_text("\n".join(sorted(listed)))
            (there / "lexicon").write_bytes(build(listed))
            (there / "game").write_text("".join(map(line_of, sheet)))
            ran = run(folder, [program, "repair", "--rules", "rules", "words", "lexicon", "game"])
            verdict, *told = ran.said.decode().split("\n")
            if verdict.startswith("legal"):
                continue
            took.append(ran.processor)
            print(f"| {', '.join(kinds)} | {stated} | `{verdict}` | {told[0] or '-'} | {ran.processor:.2f} | {ran.memory:.1f} MB |", flush=True)
    print(f"{len(took)} records: {sum(took) / len(took):.1f} s in the mean, at most {max(took):.1f}")


if __name__ == "__main__":
    main()
