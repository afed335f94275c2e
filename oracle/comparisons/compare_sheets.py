"""Compares `referee compare` with what the second judge says of merged records: compare_sheets PROGRAM CASES SEED

Games that were dealt for real are written by two players, each with the own racks and with none, one or two slips of the pen. A sheet and itself have
to agree. Where both write every rack, and some of them not as they were, all choices of the racks are tried by the second judge: the merged record
has to be the game with the fewest racks that are not from the player's own sheet. A merged record has to be a game by the second judge, if that does
not leave open whether a deal fits, of lines that are on the sheets; where no choice of them makes a game, one event of it may be on neither. What is
said of last totals and of who won has to follow from it. The object of `compare --json` has to say the same: its lines are made by
`comparison_texts.py` and compared with those of the program. Where the second judge knows the object (`comparisons.py`), it has to be that one. Four
pairs of sheets come first of which a choice is left open. The last line says how often the merged record is the true one, and how often it was
repaired.
"""
import json
import random
from dataclasses import replace
from itertools import combinations

from answers import lines_of
from comparing import Differences, compared
from comparison_texts import STATUSES, agrees_with_itself, is_text_of, text_of
from comparisons import compared_objects
from compare_changes import record_of, text_of_kind
from dealing import in_order
from deals import decide, events_of
from lexicons import build
from repair_figures import SLIPS, TURNS, some_game
from repair_rows import NOT_DEALT
from rules import ENGLISH

TILES = list(ENGLISH.tiles.elements())
KEPT = [name for name in SLIPS if "rack" not in name]
SLIPS_EACH = (0, 0, 0, 1, 1, 1, 2)
REPAIRED = "with one more change"


def own_racks(events, player):
    """The events as a player writes them: of the other's turns no rack is known, and of an exchange only how many tiles."""

    def written(event):
        if event.player == player or event.kind == "rack":
            return event
        if event.kind == "exchange":
            event = replace(event, kind="unknown", tiles="")
        return replace(event, rack="")

    return [written(event) for event in events]


def with_slips(events, number):
    """The events of a sheet with so many slips."""
    for _ in range(number):
        made = SLIPS[random.choice(KEPT)](events)
        if made:
            events = made[1]
    return events


def bare(event):
    """What happened, whatever the numbers and the rack are."""
    return event.player, text_of_kind(event)


def given(differences, listed, first, second):
    differences.put("words", "\n".join(sorted(listed)).encode())
    differences.put("lexicon", build(listed))
    differences.put("first", record_of(first).encode())
    differences.put("second", record_of(second).encode())
    (differences.folder / "out").unlink(missing_ok=True)
    done = differences.run("compare", "--merged", "out", "words", "lexicon", "first", "second")
    there = (differences.folder / "out").exists()
    merged = (differences.folder / "out").read_bytes().decode() if there else None
    compare_object(differences, done, merged)
    return done, merged


def compare_object(differences, done, merged):
    """Compares the object of the same sheets with the text of a run, its status and the record that it wrote."""
    ran = differences.run("compare", "--json", "words", "lexicon", "first", "second")
    told, text = json.loads(ran.stdout), done.stdout.decode()
    differences.seen[f"object: {told['verdict']}"] += 1
    good = is_text_of(text, told, True) and agrees_with_itself(told) and told["merged"] == merged
    good = good and ran.returncode == done.returncode == STATUSES[told["verdict"]]
    differences.expect(good, ran.stdout.decode(), f"status {ran.returncode}", text_of(told, True), text, merged)
    sheets = [(differences.folder / name).read_bytes() for name in ("words", "first", "second")]
    for wanted in compared_objects(*sheets):
        differences.seen["whole objects"] += 1
        differences.expect(told == wanted and list(told) == list(wanted), *sheets[1:], ran.stdout.decode(), wanted)


def last_totals(events):
    """The last totals of both players; None for one who has no line."""
    return [next((it.total for it in reversed(events) if it.player == player), None) for player in (0, 1)]


def lead(totals, complete):
    """Who has more points."""
    by = (totals[0] or 0) - (totals[1] or 0)
    if by:
        return f"{'AB'[by < 0]} {'won' if complete else 'is ahead'} by {abs(by)}"
    return "both have the same total"


def results(sheets, merged, complete):
    """The lines about last totals that differ, and who won by the merged record, and by a sheet that says otherwise."""
    own, right, text = [last_totals(sheet) for sheet in sheets], last_totals(merged), ""
    for player in (0, 1):
        one, other = ("none" if it[player] is None else it[player] for it in own)
        if not one == other == right[player]:
            text += f"total of {'AB'[player]}: {one} | {other}: the rules give {right[player]}\n"
    text += lead(right, complete)
    for name, totals in zip(("first", "second"), own):
        if lead(totals, complete) != lead(right, complete):
            text += f"; by the {name} sheet {lead(totals, complete)}"
    return text + "\n"


def itself(differences, events, listed):
    """A sheet and itself agree."""
    done, merged = given(differences, listed, events, events)
    verdict = decide(events, listed)[0]
    if not verdict.startswith("legal"):
        return
    wanted = verdict.strip() + "\n" + results((events, events), events, "complete" in verdict) + "written: the merged record\n"
    good = done.returncode == 0 and done.stdout.decode() == wanted and merged == record_of(events)
    differences.expect(good, record_of(events), done.stdout.decode(), f"status {done.returncode}", merged)


def spoiled(event):
    """The event with one tile of its rack another one."""
    rack = list(event.rack)
    rack[random.randrange(len(rack))] = random.choice(TILES)
    return replace(event, rack=in_order(rack))


def choices_of(sheets, places):
    """Each set of places of other racks that is taken from the sheet of the other player, with the events that this makes."""
    for many in range(len(places) + 1):
        for taken in combinations(places, many):
            yield taken, [sheets[it.player ^ (k in taken)][k] for k, it in enumerate(sheets[0])]


def rack_lines(sheets, places, taken):
    """What is said of racks that differ, of which these are taken from the sheet of the other player."""
    text, lines, names = "", lines_of(record_of(sheets[0]).encode()), ("first", "second")
    for k in places:
        own, line = sheets[0][k].player, f"line {lines[k]}"
        text += f"{line} | {line}: rack {sheets[0][k].rack} | rack {sheets[1][k].rack}: "
        if k in taken:
            text += f"the {names[1 - own]}; with the {names[own]}, the sheet of {'AB'[own]}, no deal yields the racks\n"
        else:
            text += f"the {names[own]}, the sheet of {'AB'[own]}\n"
    return text


def other_racks(differences, events, listed):
    """Sheets that differ only in some racks."""
    stated, sheets = [k for k, it in enumerate(events) if it.rack and it.kind != "rack"], [list(events), list(events)]
    for k in random.sample(stated, min(len(stated), random.choice((1, 1, 2, 3)))):
        sheets[random.randrange(2)][k] = spoiled(events[k])
    places = [k for k, (it, other) in enumerate(zip(*sheets)) if it.rack != other.rack]
    found = [(taken, made, decide(made, listed)[0]) for taken, made in choices_of(sheets, places)]
    done, merged = given(differences, listed, *sheets)
    told, games = done.stdout.decode(), [it for it in found if it[2].startswith("legal")]
    if any(it[2].startswith("unsettled") for it in found) or "it is not known" in told:
        differences.seen["racks left open"] += 1
        return
    best = [it for it in games if len(it[0]) == len(games[0][0])]
    differences.seen[f"racks of the other sheet: {len(best[0][0])}" if len(best) == 1 else "racks with rivals" if best else "racks of no game"] += 1
    if len(best) == 1:
        taken, made, verdict = best[0]
        wanted = (
            rack_lines(sheets, places, taken) + verdict.strip() + "\n" + results(sheets, made, "complete" in verdict) + "written: the merged record\n"
        )
        differences.expect(told == wanted and merged == record_of(made), *map(record_of, sheets), told, wanted, merged)
    elif best:
        differences.expect(merged is None and "another choice of the lines would stand as well" in told, *map(record_of, sheets), told)
    else:
        many = 2 ** len(places)
        differences.expect(
            f"none of {many} choice{'s' if many > 1 else ''} of the lines is known to be a game\n" in told, *map(record_of, sheets), told
        )


def case(differences, number):
    events, listed = some_game(TURNS, "whole")
    if len(events) < 4:
        return
    sheets = [with_slips(own_racks(events, player), random.choice(SLIPS_EACH)) for player in (0, 1)]
    itself(differences, events, listed)
    other_racks(differences, events, listed)
    done, merged = given(differences, listed, *sheets)
    told = done.stdout.decode()
    shown = [record_of(sheet) for sheet in sheets]
    differences.seen[f"status {done.returncode}"] += 1
    differences.expect(done.returncode in (0, 1, 2), *shown, told, done.stderr.decode())
    if done.returncode == 0:
        differences.expect(told.startswith("legal") and merged is not None, *shown, told)
    if merged is None:
        differences.expect("not written: " in told, *shown, told)
        return
    differences.expect(told.endswith("\nwritten: the merged record\n"), *shown, told)
    differences.seen["merged"] += 1
    made = events_of(merged)
    verdict = decide(made, listed)[0]
    differences.seen["deals left open"] += verdict.startswith("unsettled")
    differences.expect(not verdict.startswith("illegal"), *shown, merged, verdict)
    complete = "\nlegal complete\n" in "\n" + told
    end = results(sheets, made, complete) + "written: the merged record\n"
    differences.expect(told.endswith(f"legal {'complete' if complete else 'unfinished'}\n{end}"), *shown, told, end)
    lines = {bare(event) for sheet in sheets for event in sheet}
    others = [event for event in made if bare(event) not in lines]
    repaired = REPAIRED in told
    differences.expect(len(others) <= repaired, *shown, told, merged)
    true = [bare(it) for it in made] == [bare(it) for it in events]
    differences.seen["merged and true"] += true
    differences.seen["repaired"] += repaired
    differences.seen["repaired and true"] += repaired and true


def left_open(differences):
    """Sheets of a game that nobody can have dealt although no search shows it, and of one that was dealt: the second judge knows what is left
    open."""
    known = differences.seen["whole objects"]
    for first, second in [(NOT_DEALT.replace(*other), NOT_DEALT) for other in (("-1 ", "-2 "), ("B: Z", "B: E"))]:
        for sheets in ((first, second), (second, first)):
            done, _ = given(differences, {"JX"}, *map(events_of, sheets))
            differences.expect("no deal yields the racks" not in done.stdout.decode(), *sheets, done.stdout.decode())
    differences.expect(differences.seen["whole objects"] == known + 4, "left open", "the second judge does not know each object")


def main():
    def compare(differences, cases):
        left_open(differences)
        for number in range(cases):
            case(differences, number)

    differences, cases = compared(Differences, compare)
    differences.end(cases, "pairs of sheets")


if __name__ == "__main__":
    main()
