"""How often the repairs of a sheet have the true record, for sheets with one slip of the pen: repair_figures PROGRAM RECORDS SEED

Each sheet is a game that was dealt and played for real to its end, with one slip of a known kind and the numbers of the true game, as a scorer writes
them. A third of the sheets state both players' racks, a third one player's, and a third none. With `none` for PROGRAM the second judge finds the
repairs. For each kind the table says how many sheets are faulty, and for how many of these the true record is among the repairs, is the first of
them, and is on the first line or one of the first three. The last rows are of sheets that stop in the middle of the game, with one slip of any kind,
and of sheets of whole games with two. Pairs of changes that are told count as repairs. Then come the lines in the mean, and the seconds of processor
time for a record in the mean, at 95 of 100, and at most; of the program that is its whole process, with the reading of its files.
"""
import json
import random
import resource
import subprocess
import sys
import tempfile
import time
from collections import defaultdict
from dataclasses import replace
from pathlib import Path

from changes import LETTERS, ordered
from compare_changes import HEAD, line_of
from dealing import Dealer
from deals import decide, events_of
from games import Event
from lexicons import build
from pairs import pairs
from repair_texts import pair_lines
from repairs import Front, lines, repairs
from rules import ENGLISH, KINDS, RACK, SIDE

choose = random.choice
TURNS, MOST_TURNS = 24, 200
STYLES = ("whole", "one", "none")
TURN = ("play", "pass", "exchange", "unknown")
COUNTED = ("faulty", "among", "first", "first line", "three lines")


# ---- slips: each gives the true events and those of the sheet, or None if it finds no place


def at(is_place, change):
    """A slip at an event: what `change` makes of it, if that is something else."""

    def slip(events):
        places = [k for k, event in enumerate(events) if is_place(event)]
        if not places:
            return None
        place = choose(places)
        wrong = change(events[place])
        return (events, [*events[:place], wrong, *events[place + 1 :]]) if wrong not in (None, events[place]) else None

    return slip


def of_kind(kind, change):
    return at(lambda event: event.kind == kind, change)


def moved(squares):
    """A play on another square."""

    def change(event):
        found = [it for it in squares(*event.at) if 0 <= min(it) and max(it) < SIDE]
        return replace(event, at=choose(found)) if found else None

    return of_kind("play", change)


def spelt(is_symbol, wrong):
    """A play of whose symbols one is written as `wrong` says: as another one, as several, or not at all."""

    def change(event):
        places = [k for k, symbol in enumerate(event.word) if is_symbol(symbol)]
        if not places:
            return None
        place = choose(places)
        word = event.word[:place] + wrong(event.word[place]) + event.word[place + 1 :]
        return replace(event, word=word) if 0 < len(word) <= SIDE else None

    return of_kind("play", change)


def twisted(event):
    place = random.randrange(len(event.word))
    front, pair, back = event.word[:place], event.word[place : place + 2], event.word[place + 2 :]
    return replace(event, word=front + pair[::-1] + back)


def without_dots(event):
    return replace(event, word=event.word.replace(".", ""))


def another(symbol):
    right = choose(LETTERS)
    return right.lower() if symbol.islower() else right


def with_tiles(event, tiles):
    return replace(event, tiles=ordered(tiles), size=len(tiles)) if 0 < len(tiles) <= RACK else None


def other_tile(tiles):
    return tiles.replace(choose(tiles), choose(KINDS), 1)


def one_less(tiles):
    return tiles.replace(choose(tiles), "", 1)


def one_more(tiles):
    return tiles + choose(KINDS)


def some_rack(size):
    return ordered(random.sample(list(ENGLISH.tiles.elements()), size))


def on_rack(change):
    """A slip of a stated rack that is judged."""
    return at(lambda event: event.rack and event.kind in TURN, lambda event: replace(event, rack=ordered(change(event.rack))))


def is_with_rack(event):
    """Whether a line states a rack, from which letter tiles are played or known tiles exchanged."""
    return event.rack and (event.kind == "exchange" or event.kind == "play" and any(it.isupper() for it in event.word))


def misread_twice(event):
    """A line on which one tile is read as another one twice: on the rack and in the word, or on the rack and in the exchange."""
    if event.kind == "exchange":
        tile, wrong = choose(event.tiles), choose(KINDS)
        return replace(with_tiles(event, event.tiles.replace(tile, wrong, 1)), rack=ordered(event.rack.replace(tile, wrong, 1)))
    place, wrong = choose([k for k, symbol in enumerate(event.word) if symbol.isupper()]), choose(LETTERS)
    word = event.word[:place] + wrong + event.word[place + 1 :]
    return replace(event, word=word, rack=ordered(event.rack.replace(event.word[place], wrong, 1)))


def copied_wrongly(events):
    """A stated rack that is another one altogether; the true one cannot be known then."""
    made = on_rack(lambda tiles: some_rack(len(tiles)))(events)
    if made is None:
        return None
    true = [replace(one, rack="") if one != other else one for one, other in zip(*made)]
    return true, made[1]


def is_taken_back(events, place):
    """Whether the next event takes an event back."""
    return place + 1 < len(events) and events[place + 1].kind == "withdraw"


def missing(kind):
    """A line that is missing. What rack it stated cannot be known, nor what a play was that was taken back: that one is not left out."""

    def slip(events):
        places = [k for k, event in enumerate(events) if event.kind == kind and not is_taken_back(events, k)]
        if not places:
            return None
        place = choose(places)
        true = [*events[:place], replace(events[place], rack=""), *events[place + 1 :]]
        return true, events[:place] + events[place + 1 :]

    return slip


def turned(many):
    """Some neighbours the wrong way round."""

    def slip(events):
        place = random.randrange(max(1, len(events) - many))
        return events, [*events[:place], *events[place : place + many][::-1], *events[place + many :]]

    return slip


def twice(events):
    place = random.randrange(len(events))
    return events, events[: place + 1] + events[place:]


def pass_too_many(events):
    place = random.randrange(1, len(events))
    event = events[place]
    return events, [*events[:place], Event(event.player, "pass", 0, event.total - event.score, "-"), *events[place:]]


def replayed(events):
    """A play in whose place the square, the direction and the whole text of another play of the game are written. It is none that was taken back."""
    plays = [k for k, event in enumerate(events) if event.kind == "play" and not is_taken_back(events, k)]
    if len(plays) < 2:
        return None
    place, other = random.sample(plays, 2)
    wrong = replace(events[place], at=events[other].at, direction=events[other].direction, word=events[other].word)
    return events, [*events[:place], wrong, *events[place + 1 :]]


def is_letter(symbol):
    return symbol.isupper()


def is_dot(symbol):
    return symbol == "."


def near(row, column):
    return (row, column - 1), (row, column + 1), (row - 1, column), (row + 1, column)


def further(row, column):
    squares = [(row, k) for k in range(SIDE)] + [(k, column) for k in range(SIDE)]
    return [it for it in squares if it != (row, column) and it not in near(row, column)]


SLIPS = {
    "a play in the other direction": of_kind("play", lambda it: replace(it, direction=it.direction[::-1])),
    "a play one square off": moved(near),
    "a play further off in its row or column": moved(further),
    "row and column interchanged": moved(lambda row, column: [(column, row)]),
    "a blank written as a letter": spelt(str.islower, str.upper),
    "a letter written as a blank": spelt(is_letter, str.lower),
    "a letter written as a dot": spelt(is_letter, lambda symbol: "."),
    "a dot written as a letter": spelt(is_dot, lambda symbol: choose(LETTERS)),
    "a letter read as another one": spelt(str.isalpha, another),
    "a letter that is missing": spelt(is_letter, lambda symbol: ""),
    "a dot that is missing": spelt(is_dot, lambda symbol: ""),
    "a letter too many": spelt(str.isalpha, lambda symbol: symbol + choose(LETTERS)),
    "a dot too many": spelt(str.isalpha, lambda symbol: symbol + "."),
    "two letters twisted": of_kind("play", twisted),
    "a play without its dots": at(lambda event: event.word.count(".") > 1, without_dots),
    "a thrown tile misread": of_kind("exchange", lambda it: with_tiles(it, other_tile(it.tiles))),
    "a thrown tile that is missing": of_kind("exchange", lambda it: with_tiles(it, one_less(it.tiles))),
    "a thrown tile too many": of_kind("exchange", lambda it: with_tiles(it, one_more(it.tiles))),
    "an exchange with another number": of_kind("unknown", lambda it: replace(it, size=random.randint(1, RACK))),
    "an exchange written as a pass": of_kind("unknown", lambda it: replace(it, kind="pass", size=0)),
    "a pass written as an exchange": of_kind("pass", lambda it: replace(it, kind="unknown", size=random.randint(1, RACK))),
    "another bonus": of_kind("challenge", lambda it: replace(it, score=ENGLISH.challenge_unit * random.randint(1, 8))),
    "another penalty": of_kind("time", lambda it: replace(it, score=-ENGLISH.time_step * random.randint(1, 20))),
    "a withdrawal written as a pass": of_kind("withdraw", lambda it: replace(it, kind="pass")),
    "a pass written as a withdrawal": of_kind("pass", lambda it: replace(it, kind="withdraw")),
    "a tile of a rack misread": on_rack(other_tile),
    "a tile misread twice on its line": at(is_with_rack, misread_twice),
    "a rack that is another one": copied_wrongly,
    "a line under the other name": at(lambda event: True, lambda it: replace(it, player=1 - it.player)),
    "a line that stands twice": twice,
    "a pass too many": pass_too_many,
    "two lines the wrong way round": turned(2),
    "two lines in each other's place, one between them": turned(3),
    "a pass that is missing": missing("pass"),
    "an exchange that is missing": missing("unknown"),
    "a penalty that is missing": missing("time"),
    "a withdrawal that is missing": missing("withdraw"),
    "a bonus that is missing": missing("challenge"),
}
# Slips of a last rack, which whole games alone have, and those of whole plays: the tiles of such a play can be known if a last rack is written.
END_SLIPS = {
    "a tile of a last rack misread": of_kind("rack", lambda it: with_tiles(it, other_tile(it.tiles))),
    "a tile of a last rack that is missing": of_kind("rack", lambda it: with_tiles(it, one_less(it.tiles))),
    "a tile of a last rack too many": of_kind("rack", lambda it: with_tiles(it, one_more(it.tiles))),
    "a last rack that is another one": of_kind("rack", lambda it: with_tiles(it, some_rack(len(it.tiles)))),
    "a last rack that is missing": missing("rack"),
    "a play that is missing": missing("play"),
    "a play whose whole text is another": replayed,
}


# ---- sheets


def dotted(event, board):
    """A play whose text has a dot for each tile of the board."""
    if event.kind != "play":
        return event
    (row, column), (down, right) = event.at, event.direction
    squares = [(row + down * k, column + right * k) for k in range(len(event.word))]
    return replace(event, word="".join("." if it in board else symbol for it, symbol in zip(squares, event.word)))


def some_game(turns, stated, rules=ENGLISH):
    """The events of a game that was dealt for real, and its list, in which all words are but those that were taken back. It has so many turns, or is
    played to its end if no number is given."""
    while True:
        dealer = Dealer(rules, turns or MOST_TURNS, ("known", "unknown"), stated, known=1)
        events, _, listed = dealer.game()
        if turns or events[-1].kind == "rack":
            break
    events = [dotted(event, board) for event, board in zip(events, dealer.boards)]
    return events, {word for word in listed - dealer.phonies if 2 <= len(word) <= SIDE}


def some_sheet(slip, turns, stated, rules=ENGLISH):
    """The true events, those of a sheet with a slip, and the list."""
    while True:
        events, listed = some_game(turns, stated, rules)
        made = slip(events) if len(events) > 3 else None
        if made and made[0] != made[1]:
            return *made, listed


def with_two_slips(turns, stated):
    """The true events, those of a sheet with two slips, and the list."""
    while True:
        events, sheet, listed = some_sheet(SLIPS[choose(list(SLIPS))], turns, stated)
        made = SLIPS[choose(list(SLIPS))](sheet)
        if made and made[0] == sheet and made[1] not in (sheet, events):
            return events, made[1], listed


# ---- repairs: in lines, those that cost least first, each with the records that it makes


def record_of(events, listed):
    """What happened in a record, however it is written."""
    return tuple(it.what_happened() for it in Front(ENGLISH, events, listed).taken)


def of_judge(sheet, listed):
    """The repairs of a sheet by the second judge."""
    one = [(line[0].cost, [it.happened() for it in line]) for line in lines(repairs(sheet, listed), sheet)]
    two = [(line[0].cost, [it.then.happened() for it in line]) for line in pair_lines(pairs(sheet, listed)[0])]
    return sorted([*one, *two], key=lambda line: line[0])


def named(line):
    """A line, with a nickname for the player who has none since the sheet has no line of B."""
    return line.replace(">: ", ">B: ") + "\n"


def with_lines(own, change, there):
    """Numbered lines with a change that puts some lines there. A line that is missing has no number."""
    at = [number for number, _ in own].index(change["line"])
    if change["at"] != "on":
        at += change["at"] == "after"
        return [*own[:at], *((None, named(line)) for line in there), *own[at:]]
    many = len(change["replaces"])
    numbers = [number for number, _ in own[at : at + many]]
    return [*own[:at], *zip(numbers, map(named, there)), *own[at + many :]]


def changed(own, listed):
    """The record of numbered lines."""
    return record_of(events_of(HEAD + "".join(text for _, text in own)), listed)


def of_program(program, folder, sheet, listed):
    """The repairs of a sheet by the program. A sheet is a line for each event."""
    (folder / "words").write_text("\n".join(sorted(listed)))
    (folder / "lexicon").write_bytes(build(listed))
    (folder / "game").write_text("".join(map(line_of, sheet)))
    words = [program, "repair", "--json", "--number", "100", "words", "lexicon", "game"]
    told = json.loads(subprocess.run(words, cwd=folder, capture_output=True, check=False).stdout)
    own, found = list(enumerate(map(line_of, sheet), 1)), []
    for it in told["repairs"]:
        puts = it["lines"], *([other] for other in it["others"])
        found.append((it["cost"], [changed(with_lines(own, it, there), listed) for there in puts]))
    for it in told.get("pairs", []):
        first, second = it["changes"]
        one, puts = with_lines(own, first, first["lines"]), (second["lines"], *([other] for other in it["others"]))
        found.append((it["cost"], [changed(with_lines(one, second, there), listed) for there in puts]))
    return sorted(found, key=lambda line: line[0])


def seconds(program):
    """The processor time so far, of this process or of the programs that it ran."""
    used = resource.getrusage(resource.RUSAGE_CHILDREN)
    return time.process_time() if program == "none" else used.ru_utime + used.ru_stime


def tried(program, folder, made, seen):
    """Finds the repairs of a sheet with slips, and counts."""
    events, sheet, listed = made
    if not decide(sheet, listed)[0].startswith("illegal"):
        return
    true = record_of(events, listed)
    start = seconds(program)
    found = of_judge(sheet, listed) if program == "none" else of_program(program, folder, sheet, listed)
    seen["seconds"].append(seconds(program) - start)
    seen["lines"].append(len(found))
    places = [k for k, (_, line) in enumerate(found) if true in line]
    seen["faulty"].append(1)
    seen["among"].append(bool(places))
    seen["first"].append(bool(found) and found[0][1][0] == true)
    seen["first line"].append(places[:1] == [0])
    seen["three lines"].append(bool(places) and places[0] < 3)


def mean(numbers):
    return sum(numbers) / len(numbers) if numbers else 0


def high(numbers):
    """The number that 95 of 100 do not exceed."""
    return sorted(numbers)[int(0.95 * (len(numbers) - 1))] if numbers else 0


def row(name, seen):
    figures = [str(sum(seen[it])) for it in COUNTED]
    spent = seen["seconds"]
    figures += [f"{mean(seen['lines']):.1f}", f"{mean(spent):.3f}", f"{high(spent):.3f}", f"{max(spent, default=0):.2f}"]
    return f"| {name} | {' | '.join(figures)} |"


def of_sheets(program, folder, seed, records, some):
    """What was counted of so many sheets that `some` makes, the styles of stated racks in turn."""
    random.seed(seed)
    seen = defaultdict(list)
    for number in range(records):
        tried(program, folder, some(STYLES[number % len(STYLES)]), seen)
    return seen


def main():
    program, records, seed = sys.argv[1], int(sys.argv[2]), int(sys.argv[3])
    program = program if program == "none" else str(Path(program).resolve())
    print(f"{records} sheets of each kind, seed {seed}")
    print(f"| slip | {' | '.join(COUNTED)} | lines | seconds | at 95 | at most |\n|---{'|---' * len(COUNTED)}|---|---|---|---|")
    whole = defaultdict(list)
    with tempfile.TemporaryDirectory() as folder:
        for name, slip in (SLIPS | END_SLIPS).items():
            seen = of_sheets(program, Path(folder), f"{seed} {name}", records, lambda stated: some_sheet(slip, None, stated))
            for it, figures in seen.items():
                whole[it] += figures
            print(row(name, seen), flush=True)
        print(row("all", whole))
        seen = of_sheets(
            program, Path(folder), f"{seed} unfinished", 4 * records, lambda stated: some_sheet(SLIPS[choose(list(SLIPS))], TURNS, stated)
        )
        print(row("any of these, in a game that stops in the middle", seen), flush=True)
        seen = of_sheets(program, Path(folder), f"{seed} two slips", 4 * records, lambda stated: with_two_slips(None, stated))
        print(row("two slips of any kinds", seen))


if __name__ == "__main__":
    main()
