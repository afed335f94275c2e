"""How often `referee compare` merges two players' sheets into the true record: sheet_figures PROGRAM PAIRS SEED

Each pair of sheets is a game that was dealt and played for real to its end, as its two players write it: each with their own racks, and with so many
slips of the pen. The table says for each number of slips how many pairs were merged, for how many of these the record is the true one, how many
sheets of player 1 alone are, and the seconds of processor time of the program in the mean and at 95 of 100, with the reading of its files.
"""
import random
import resource
import subprocess
import sys
import tempfile
from pathlib import Path

from compare_changes import record_of
from compare_sheets import bare, own_racks, with_slips
from deals import events_of
from lexicons import build
from repair_figures import high, mean, some_game
from repairs import Front
from rules import ENGLISH

SLIPS_ON_EACH = ((0, 0), (1, 0), (1, 1), (2, 1), (2, 2), (3, 3))


def seconds():
    """The processor time of the programs that were run so far."""
    used = resource.getrusage(resource.RUSAGE_CHILDREN)
    return used.ru_utime + used.ru_stime


def merged(program, folder, sheets, listed):
    """The events of the merged record, if there is one, and the seconds that it took."""
    (folder / "words").write_text("\n".join(sorted(listed)))
    (folder / "lexicon").write_bytes(build(listed))
    for name, sheet in zip(("first", "second"), sheets):
        (folder / name).write_text(record_of(sheet))
    (folder / "out").unlink(missing_ok=True)
    start = seconds()
    subprocess.run([program, "compare", "--merged", "out", "words", "lexicon", "first", "second"], cwd=folder, capture_output=True, check=False)
    there = (folder / "out").exists()
    return events_of((folder / "out").read_text()) if there else None, seconds() - start


def happened(events, listed):
    """What happened in a record: whatever the racks are, whether a tile of the board is a dot or a letter, and whether the tiles of an exchange are
    known. Of a record that the rules refuse it is what is written."""
    taken = Front(ENGLISH, events, listed).taken
    if len(taken) < len(events):
        return [bare(event) for event in events]
    kinds = ["exchange" if it.event.kind == "unknown" else it.event.kind for it in taken]
    return [(it.event.player, kind, it.event.size, it.new) for kind, it in zip(kinds, taken)]


def row(program, folder, slips, pairs):
    """The figures of some pairs of sheets with so many slips."""
    there, right, own, times = 0, 0, 0, []
    for _ in range(pairs):
        events, listed = some_game(None, "whole")
        sheets = [with_slips(own_racks(events, player), number) for player, number in enumerate(slips)]
        made, took = merged(program, folder, sheets, listed)
        there += made is not None
        right += made is not None and happened(made, listed) == happened(events, listed)
        own += happened(sheets[0], listed) == happened(events, listed)
        times.append(took)
    return f"| {slips[0]} and {slips[1]} | {pairs} | {there} | {right} | {own} | {mean(times):.3f} | {high(times):.3f} |"


def main():
    program, pairs, seed = str(Path(sys.argv[1]).resolve()), int(sys.argv[2]), sys.argv[3]
    print("| slips on the sheets | pairs | merged | true | sheet 1 alone | seconds | at 95 |\n|---|---|---|---|---|---|---|")
    with tempfile.TemporaryDirectory() as folder:
        for slips in SLIPS_ON_EACH:
            random.seed(f"{seed} {slips}")
            print(row(program, Path(folder), slips, pairs), flush=True)


if __name__ == "__main__":
    main()
