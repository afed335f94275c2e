"""How often `referee explain` names what really happened, on sheets with one slip of the pen: slip_figures PROGRAM SHEETS SEED

Each sheet is a game that was dealt and played for real, with every rack on its line, and one slip of a known kind. The first line says how many
sheets of each kind were made; the table, of how many the program told a fault, named the cause first among all that it names, and named it at all.
A second table is of sheets that `referee repair` mends by one of their lines or by the whole of them: of how many it told a fault, told the cause
first, and with `--repaired` wrote the sheet, and how many of these sheets are not of the true game.
"""
import json
import random
import subprocess
import sys
import tempfile
from collections import Counter
from dataclasses import replace
from pathlib import Path

from compare_changes import HEAD
from dealing import Dealer, line
from deals import events_of
from lexicons import build
from mistakes import moved, with_text
from repair_figures import record_of
from rules import ENGLISH, SIDE

choose = random.choice
LETTERS = "AAABCDDEEEEFGHIIIJKLLMNNNOOOPQRRRSSSTTTUUVWXYZ"
# What a fact names in addition to the number that is right.
HINTS = ("AsBlank", "Misread", "ElsewhereScore", "LeavesOut", "LeavesOutOwn", "StandsTwice", "WrongWay", "Missing", "AllowedFor")


def square_name(event, at):
    row, column = event.at[0] + event.direction[0] * at, event.at[1] + event.direction[1] * at
    return f"{row + 1}{chr(65 + column)}"


def turns_of(events):
    """The places of turns with a turn on each side."""
    kinds = ("play", "pass")
    return [k for k in range(1, len(events) - 1) if all(it.kind in kinds for it in events[k - 1 : k + 2])]


def plays_of(events):
    return [k for k, it in enumerate(events) if it.kind == "play" and (k + 1 == len(events) or events[k + 1].kind == "play")]


def with_letter(events, place, at, letter):
    event = events[place]
    changed = with_text(replace(event, word=event.word[:at] + letter + event.word[at + 1 :]))
    return [*events[:place], changed, *events[place + 1 :]]


def is_reading(fact, names, square, read):
    """Whether a fact says what a square should show: which tile may have been meant, or which one is there already."""
    if fact["name"] == "OtherLetter":
        return (fact["square"], fact["tile"]) == (square, read)
    return fact["name"] in names and (fact["square"], fact["read"]) == (square, read)


def misread(events):
    """A tile that was read as another one, which the player does not have."""
    place = choose(plays_of(events))
    event = events[place]
    at = choose([k for k, it in enumerate(event.word) if it.isupper()] or [None])
    others = [it for it in LETTERS if it not in event.rack]
    if at is None or not others:
        return None
    square, read = square_name(event, at), event.word[at]
    return with_letter(events, place, at, choose(others)), lambda it: is_reading(it, ("Misread",), square, read)


def misread_twice(events):
    """A tile that was read as another one on the rack and in the word. No fact names such a tile, so the likely repair has to."""
    place = choose(plays_of(events))
    event = events[place]
    at = choose([k for k, it in enumerate(event.word) if it.isupper()] or [None])
    capitals = Counter(it for it in event.word if it.isupper())
    if at is None or capitals - Counter(event.rack):
        return None
    tile, wrong = event.word[at], choose(LETTERS)
    changed = with_letter(events, place, at, wrong)
    changed[place] = replace(changed[place], rack=event.rack.replace(tile, wrong, 1))
    true = {"name": "Likely", "slip": "other tile on rack and in word", "line": place + 1}
    return (changed, lambda it: true.items() <= it.items()) if wrong != tile else None


def swapped(events, blank):
    """A blank that was written as a letter, or a letter that was written as a blank."""
    places = [k for k in plays_of(events) if any(it.islower() == blank for it in events[k].word if it != ".")]
    if not places:
        return None
    place = choose(places)
    event = events[place]
    at = choose([k for k, it in enumerate(event.word) if it != "." and it.islower() == blank])
    square, read = square_name(event, at), event.word[at]
    return with_letter(events, place, at, read.swapcase()), lambda it: is_reading(it, ("AsBlank", "Misread"), square, read)


def elsewhere(events):
    """A play at another place, or in the other direction."""
    place = choose(plays_of(events))
    event = events[place]
    changed = moved(event)
    if (changed.at, changed.direction) == (event.at, event.direction):
        return None
    true = {"square": square_name(event, 0), "direction": "across" if event.direction == (0, 1) else "down"}
    return [*events[:place], changed, *events[place + 1 :]], lambda it: it["name"] == "ElsewhereScore" and it["places"][0] == true


def score(events):
    """A wrong score, carried on."""
    place, by = choose(plays_of(events)), choose([-10, -2, -1, 1, 2, 10])
    right, player = events[place].score, events[place].player
    changed = [replace(it, total=it.total + by) if k >= place and it.player == player else it for k, it in enumerate(events)]
    changed[place] = replace(changed[place], score=right + by)
    return changed, lambda it: it["name"] == "PlayScore" and it["right"] == right


def total(events):
    """A total that lacks a turn, carried on."""
    place = choose(plays_of(events))
    own = [k for k in range(place + 1) if events[k].player == events[place].player and events[k].kind == "play" and events[k].score]
    if not own:
        return None
    left, player = choose(own), events[place].player
    short = events[left].score
    changed = [replace(it, total=it.total - short) if k >= place and it.player == player else it for k, it in enumerate(events)]

    def named(it):
        return it["name"] == "LeavesOutOwn" if left == place else it["name"] == "LeavesOut" and it["line"] == left + 1

    return changed, named


def missing(events):
    """A line that is missing."""
    place = choose(turns_of(events))
    gone = events[place]

    def named(it):
        return it["name"] == "Missing" and (it["score"], it["on_lines"]) == (gone.score, [place, place + 1])

    return events[:place] + events[place + 1 :], named


def twice(events):
    """A line that is there twice."""
    place = choose(turns_of(events))
    return events[: place + 1] + events[place:], lambda it: it["name"] == "StandsTwice" and it["line"] == place + 1


def wrong_way(events):
    """Two lines the wrong way round."""
    place = choose(turns_of(events))
    changed = [*events[:place], events[place + 1], events[place], *events[place + 2 :]]
    return changed, lambda it: it["name"] == "WrongWay" and it["on_lines"] == [place + 1, place + 2]


def others(events):
    """A line under the other player's name."""
    place = choose(turns_of(events))
    changed = replace(events[place], player=1 - events[place].player)
    return [*events[:place], changed, *events[place + 1 :]], lambda it: it["name"] == "AllowedFor"


SLIPS = {
    "a tile read as another one": misread,
    "a blank written as a letter": lambda events: swapped(events, True),
    "a letter written as a blank": lambda events: swapped(events, False),
    "a play at another place": elsewhere,
    "a wrong score": score,
    "a total without a turn": total,
    "a line that is missing": missing,
    "a line that stands twice": twice,
    "two lines the wrong way round": wrong_way,
    "a line under the other name": others,
    "a tile read as another one on the rack too": misread_twice,
}


def without_place(events):
    """A play whose place is not written: the texts of the sheet and of the true one, and how the cause is told."""
    place = choose(plays_of(events))
    lines = list(map(line, events))
    there = lines[place].split(" ")
    at = next(k for k, it in enumerate(there) if k and any(byte.isdigit() for byte in it))
    wrong = " ".join(there[:at] + there[at + 1 :])
    return "".join([*lines[:place], wrong, *lines[place + 1 :]]), "".join(lines), f"line {place + 1}: the place is missing: {there[at]}"


def marked_note(events):
    """A note that begins with > as an event does."""
    place = random.randrange(len(events))
    lines = list(map(line, events))
    front, back = "".join(lines[:place]), "".join(lines[place:])
    return f"{front}> a word was challenged\n{back}", f"{front} a word was challenged\n{back}", f"line {place + 1}: > should not be there"


def capital_blanks(events):
    """Blanks that are written as capitals on all lines; there are two such plays."""
    changed = [with_text(replace(it, word=it.word.upper())) if it.kind == "play" else it for it in events]
    if sum(one != other for one, other in zip(events, changed)) < 2:
        return None
    return "".join(map(line, changed)), "".join(map(line, events)), "all blanks are written as capitals"


MENDED = {"a play without its place": without_place, "a note with a > in front": marked_note, "blanks written as capitals throughout": capital_blanks}


def some_sheet(slip):
    """A sheet with a slip, the words of its list, and whether a fact names what happened."""
    while True:
        dealer = Dealer(ENGLISH, 24, (), "whole", known=1)
        events, _, listed = dealer.game()
        listed = {word for word in listed - dealer.phonies if 2 <= len(word) <= SIDE}
        made = slip(events) if plays_of(events) and turns_of(events) else None
        if made:
            return *made, listed


def explained(program, folder, events, listed):
    """The facts that the program gives of a sheet, and its likely repair as one more; none where it finds no fault."""
    Path(folder, "words").write_text("\n".join(sorted(listed)))
    Path(folder, "lexicon").write_bytes(build(listed))
    Path(folder, "game").write_text("".join(map(line, events)))
    ran = subprocess.run([program, "explain", "--json", "words", "lexicon", "game"], cwd=folder, capture_output=True, check=False, timeout=60)
    said = json.loads(ran.stdout)
    likely = [said["likely"] | {"name": "Likely"}] if said["likely"] else []
    return said["facts"] + likely if said["verdict"] == "illegal" else None


def repaired(program, folder, text, listed):
    """The lines that `repair` prints, and the sheet that it writes; none if it writes none."""
    Path(folder, "words").write_text("\n".join(sorted(listed)))
    Path(folder, "lexicon").write_bytes(build(listed))
    Path(folder, "game").write_text(text)
    Path(folder, "out").unlink(missing_ok=True)
    words = [program, "repair", "--repaired", "out", "words", "lexicon", "game"]
    told = subprocess.run(words, cwd=folder, capture_output=True, check=False, timeout=60).stdout.decode().splitlines()
    return told, Path(folder, "out").read_text() if Path(folder, "out").exists() else None


def is_same_game(sheet, other, listed):
    """Whether two sheets have the same game, however a tile that lay on the board is written."""
    return sheet == other or record_of(events_of(HEAD + sheet), listed) == record_of(events_of(HEAD + other), listed)


def mended_rows(program, folder, sheets):
    print("| slip | a fault is told | the cause comes first | a sheet is written | it is another game |\n|---|---|---|---|---|")
    for name, slip in MENDED.items():
        seen = Counter()
        for _ in range(sheets):
            wrong, true, cause, listed = some_sheet(slip)
            told, written = repaired(program, folder, wrong, listed)
            seen["told"] += not told[0].startswith("legal")
            seen["first"] += told[1:2] != [] and told[1].split(" (or ")[0] == cause
            seen["written"] += written is not None
            seen["other"] += written is not None and not is_same_game(written, true, listed)
        print(f"| {name} | {seen['told']} | {seen['first']} | {seen['written']} | {seen['other']} |")


def main():
    program, sheets, seed = str(Path(sys.argv[1]).resolve()), int(sys.argv[2]), int(sys.argv[3])
    random.seed(seed)
    print(f"{sheets} sheets of each kind, seed {seed}")
    print("| slip | a fault is told | the cause comes first | the cause is named |\n|---|---|---|---|")
    with tempfile.TemporaryDirectory() as folder:
        for name, slip in SLIPS.items():
            seen = Counter()
            for _ in range(sheets):
                events, is_cause, listed = some_sheet(slip)
                facts = explained(program, folder, events, listed)
                hints = [it for it in facts or [] if it["name"] in HINTS or is_cause(it)]
                seen["told"] += facts is not None
                seen["first"] += bool(hints) and is_cause(hints[0])
                seen["named"] += any(is_cause(it) for it in hints)
            print(f"| {name} | {seen['told']} | {seen['first']} | {seen['named']} |")
        print()
        mended_rows(program, folder, sheets)


if __name__ == "__main__":
    main()
