"""Compares `referee judge` with the second judge on random games that nobody dealt: compare_games PROGRAM CASES SEED

The second judge is tried on worked rows first, and the two are compared on the game of `examples/`.
"""
import random
from pathlib import Path

from comparing import Comparison, compared
from dealing import line
from deals import events_of
from making import Maker
from try_best import rows

choose = random.choice


def example(comparison):
    """Compares the events of the game of `examples/`."""
    folder = Path(__file__).resolve().parents[2] / "examples"
    text = "".join(it + "\n" for it in (folder / "game.gcg").read_text().splitlines() if it.startswith(">"))
    text = text.replace(">Bob:", ">A:").replace(">Ann:", ">B:")
    comparison.judge(events_of(text), text, set((folder / "words.txt").read_text().upper().split()))


def compare(comparison, cases):
    """Compares the game of `examples/` and random ones."""
    example(comparison)
    for _ in range(cases):
        maker = Maker(choose([2, 3, 6, 10, 40, 120]))
        events = maker.game()
        if events and not events[0].player:
            comparison.judge(events, "".join(map(line, events)), maker.listed)


def main():
    rows()
    compared(Comparison, compare)[0].end()


if __name__ == "__main__":
    main()
