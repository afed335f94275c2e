"""Compares `referee repair` with worked records and with the second judge: compare_repairs PROGRAM CASES SEED

The worked records are those of `repair_rows`: the first repair has to be the known one, with its cost, its line and what stands there then. Then as
many games that were dealt for real have one slip of the pen, and the second judge lists the repairs: those that are told have to be the same, with
the same costs, as far as both tell them. Each third game has two slips, and the pairs of changes are compared. Of as many short games with few tiles
all that is told has to be the same, in the same order, and so has the object of `repair --json` of each record of which all is known. Of a record
with more changes than are tried it has to be told which are not. A record is passed over if it is not known of some change what a search for its deal
finds: the rule of completion leaves it open, and the record names too many kinds for the second judge to try all deals and all cuts (`settlings.py`);
or if the program may end its search for pairs before it comes to one (`pairs.py`). The words of `compare` for one more change, of a worked record and
itself, have to be those of its first repair, and the line of `archive --repairs` has to say the likely one.
"""
import json
import random
import re
from collections import Counter
from dataclasses import replace
from math import inf

import web
from comparing import Differences, compared, without_amount
from compare_changes import line_of
from deals import events_of
from game_pages import board_read, pictured
from lexicons import build
from pairs import pairs
from repair_objects import chain_wanted, repaired_objects
from repair_rows import CHAINS, LINES, NONE, OPEN, PHONIES, ROWS, TWO, puts
from repair_figures import SLIPS, STYLES, TURNS, some_sheet, with_two_slips
from repair_texts import (
    amount_repair,
    chain_text,
    choice,
    likely_repair,
    likely_sheet,
    numbered,
    pairs_text,
    repair_text,
    sheet_text,
    suggested_text,
    what_changes,
    with_numbers,
)
from repairs import NOTHING, AnyHands, Front, most_left, repairs, repairs_below
from rules import ENGLISH
from rules_texts import text_of
from sheet_slips import of_text

MOST = 100
TWO_CHANGES = "with two changes:\n"
CHAINED = re.compile("(?m)^with [0-9]+ changes, one after the other:\n")
EXTRA = " is a game with one more change: "
UNTRIED = re.compile("(?m)^([0-9]+) of ([0-9]+) changes were not tried, since the record is long: those before line ([0-9]+)$")


def told_by(differences, rules, listed, text, number=MOST):
    """What the program tells of a record."""
    differences.put("words", "\n".join(sorted(listed)).encode())
    differences.put("lexicon", build(listed))
    differences.put("game", text.encode())
    differences.put("rules", text_of(rules))
    done = differences.run("repair", "--json", "--rules", "rules", "--number", str(number), "words", "lexicon", "game")
    return done.returncode, json.loads(done.stdout)


def named(line):
    """A line, with a nickname for the player who has none since the record has no line of B."""
    return line.replace(">: ", ">B: ") + "\n"


def first(answer):
    """The first repair: its cost, its line, and what stands there."""
    if not answer["repairs"]:
        return None
    it = answer["repairs"][0]
    return it["cost"], it["line"], "".join(map(named, it["lines"]))


def rows(differences):
    for rules, words, record, cost, line, there in ROWS:
        status, answer = told_by(differences, rules, set(words.split()), record)
        told = first(answer)
        behind = told and answer["repairs"][0]["at"] == "after"
        good = told and (told[0], told[1] + behind, told[2]) == (cost, line, there) and status == 1
        differences.expect(good, record, f"told {status} {told} for {(cost, line, there)}")
        texts(differences, rules, set(words.split()), record, "worked")
        extra_change(differences, rules, set(words.split()), record)
        if rules == ENGLISH:
            found, (two, _) = repairs(events_of(record), set(words.split())), pairs(events_of(record), set(words.split()))
            likely(differences, events_of(record), set(words.split()), record, found, two)
    for rules, words, record in NONE:
        status, answer = told_by(differences, rules, set(words.split()), record)
        differences.expect(not answer["repairs"], record, f"told {first(answer)}")
    for rules, words, record, cost, there in TWO:
        status, answer = told_by(differences, rules, set(words.split()), record)
        told = next(pairs_told(answer), None)
        differences.expect(told == (cost, *there) and status == 1, record, f"told {status} {told} for {(cost, there)}")
        found = known_pairs(differences, rules, set(words.split()), events_of(record))
        if found is not None:
            pair_texts(differences, record, "worked", found, events_of(record), nicks_in(record))
    for rules, words, record in PHONIES:
        status, answer = told_by(differences, rules, set(words.split()), record)
        differences.expect(answer["repairs"] and not answer["pairs"] and status == 1, record, f"told {status} {list(pairs_told(answer))}")
    for rules, words, record, told in CHAINS:
        status, answer = told_by(differences, rules, set(words.split()), record)
        there = answer["chain"] and [named(line) for change in answer["chain"]["changes"] for line in change["lines"]]
        differences.expect(there == told and status == 1, record, f"told {status} {there} for {told}")
        chained(differences, rules, set(words.split()), events_of(record), record, nicks_in(record))
    for rules, words, record, wanted in LINES:
        status, answer = told_by(differences, rules, set(words.split()), record)
        many = 1 + len(answer["repairs"][0]["others"])
        differences.expect(many == wanted, record, f"{many} on the first line for {wanted}")
    for record, wanted in OPEN:
        told_by(differences, ENGLISH, {"JX"}, record)
        said = singles_told(differences)
        differences.expect(said == wanted, "left open", record, said, "by hand", wanted)
        texts(differences, ENGLISH, {"JX"}, record, "left open", False)


def all_told(answer):
    """Each repair that the program tells: its cost and what stands there, those that are told with another one too."""
    for it in answer["repairs"]:
        yield it["cost"], "".join(map(named, it["lines"]))
        yield from ((it["cost"], named(other)) for other in it["others"])


def pairs_told(answer):
    """Each pair that the program tells: its cost, and what stands there with each of its changes."""
    for it in answer["pairs"]:
        one, other = ("".join(map(named, change["lines"])) for change in it["changes"])
        yield it["cost"], one, other
        yield from ((it["cost"], one, named(line)) for line in it["others"])


def expected(found):
    """The same by the second judge."""
    for it in found:
        place = it.change.place
        yield it.cost, "".join(map(line_of, it.right()[place : place + len(it.change.there)]))


def nicks_in(text):
    """The nicknames of a record as it is read: player 1 is the one whose line comes first."""
    return [*dict.fromkeys(re.findall("(?m)^>([A-Z]):", text)), "the other player"][:2]


def names_in(text):
    """The nicknames of a record that was dealt, of which player 1 is A."""
    return [nick if f">{nick}:" in text else "the other player" for nick in "AB"]


def singles_told(differences):
    """What is printed of an illegal record after the verdict line, but for what it says of two changes and of several."""
    done = differences.run("repair", "--rules", "rules", "words", "lexicon", "game")
    return CHAINED.split(done.stdout.decode().split("\n", 1)[1].split(TWO_CHANGES)[0])[0]


def extra_change(differences, rules, listed, text):
    """Compares the words in which `compare` tells of one more change, of a record and itself: those of the first change by the list that repairs it.
    If it needs none but right numbers, none is told."""
    events, nicks = events_of(text), nicks_in(text)
    front = Front(rules, events, listed)
    found = repairs_below(front, inf) if most_left(front) == inf else []
    if not all(it.is_known for it in found):
        return
    first = next((it for it in found if it.dealt), None)
    said = differences.run("compare", "--rules", "rules", "words", "lexicon", "game", "game").stdout.decode()
    told = [line.split(EXTRA)[1] for line in said.split("\n") if EXTRA in line]
    wanted = [what_changes(first.change, first.right(), numbered(events), nicks)] if first else []
    differences.seen["extra changes of `compare`"] += bool(wanted)
    differences.expect(told == wanted, text, f"compared {said}", f"second judge {wanted}")


def texts(differences, rules, listed, text, name, is_whole=True):
    """Compares all that is printed of an illegal record after the verdict line, if the second judge knows of every change what a search for its deal
    finds; and the object of the whole."""
    events = events_of(text)
    if not all(it.is_known for it in repairs(events, listed, rules)):
        return
    told, wanted = singles_told(differences), repair_text(events, listed, rules, nicks_in(text), game=text.encode())
    differences.expect(told == wanted, name, text, told, "second judge", wanted)
    if is_whole:
        whole_object(differences, name, text)


def whole_object(differences, name, text):
    """Compares the object of a record, if the second judge knows all of it."""
    words, lexicon, game, by = ((differences.folder / it).read_bytes() for it in ("words", "lexicon", "game", "rules"))
    wanted = [it.told for it in repaired_objects(words, lexicon, game, by, most_events=inf) if it.is_whole]
    if wanted:
        told = json.loads(differences.run("repair", "--json", "--rules", "rules", "words", "lexicon", "game").stdout)
        differences.seen["whole objects"] += 1
        differences.expect(told in wanted and list(told) == list(wanted[0]), name, text, told, "second judge", wanted[0])


def known_pairs(differences, rules, listed, events):
    """The pairs of changes of a record; None if the second judge leaves open whether a deal fits with some change."""
    found, known = pairs(events, listed, rules)
    if known and all(it.is_known for it in repairs(events, listed, rules)):
        differences.seen["records with pairs"] += bool(found)
        return found
    differences.seen["deals left open"] += 1
    return None


def likely(differences, events, listed, text, found, two):
    """Compares how the explanation of an illegal record ends: with its likely repair, with a bonus or a penalty if a total is wrong, or with
    neither."""
    names = names_in(text)
    said = differences.run("explain", "words", "lexicon", "game").stdout.decode()
    told = said[said.index("\nLikely: ") + 1 :] if "\nLikely: " in said else ""
    sheets = of_text(text.encode(), listed)
    repair, sheet = (find(found, two, events, listed, ENGLISH, sheets) for find in (likely_repair, likely_sheet))
    wanted = suggested_text("Likely", repair, events, names) if repair else f"Likely: {sheet.said}\n{sheet_text(sheet)}" if sheet else ""
    differences.seen["likely repairs"] += bool(told)
    differences.expect(told == wanted, text, f"explained {told}", f"second judge {wanted}")
    other = "".join(f"{line}\n" for line in without_amount(said.split("\n"))[1])
    amount = None if repair or sheet or ": WrongTotal " not in said.split("\n")[0] else amount_repair(found, events, listed)
    differences.seen["bonuses and penalties"] += bool(other)
    differences.expect(other == (suggested_text("Or", amount, events, names) if amount else ""), text, f"explained {other}", amount)
    if not sheet:
        likely_object(differences, text, told)
    likely_line(differences, text, wanted)
    likely_page(differences, text, told, repair if repair and is_of_play(repair.change, events) else None)


def likely_object(differences, text, told):
    """Compares the likely repair in the object of `explain`: the first one of `repair`, if the explanation has one."""
    found = json.loads(differences.run("explain", "--json", "words", "lexicon", "game").stdout)["likely"]
    first = json.loads(differences.run("repair", "--json", "words", "lexicon", "game").stdout)["repairs"][:1]
    differences.expect(found == (first[0] if told else None), text, f"explained {found}", f"repairs {first}")


def likely_line(differences, text, wanted):
    """Compares the likely repair in the line of `archive --repairs` with what the second judge says of it in an explanation."""
    said = json.loads(differences.run("archive", "--json", "--repairs", "words", "lexicon", "game").stdout)["likely"]
    change, right = wanted.removeprefix("Likely: ").split("\n")[:2] if wanted else (None, None)
    told = {"change": change, "numbers_right": right and right.strip().rsplit(" ", 2)[0]}
    differences.expect(said == told, text, f"archived {said}", f"second judge {told}")


def is_of_play(change, events):
    """Whether a change is one of the position or the text of a play, or a play that is missing."""
    if change.replaced > 1 or len(change.there) != 1 or change.there[0].kind != "play":
        return False
    if not change.replaced:
        return True
    return any(getattr(change.there[0], part) != getattr(events[change.place], part) for part in ("at", "direction", "word"))


def likely_page(differences, text, told, of_play):
    """Compares the likely repair on the page: the words of the explanation, and the board with the play, if the repair is `of_play`."""
    differences.run("page", "words", "lexicon", "game", "out")
    page = web.read((differences.folder / "out").read_bytes())
    words = [it.text() for it in page.first("section", "verdict").all("p", "likely")]
    differences.expect(words == ([told.rstrip("\n")] if told else []), text, f"page {words}", f"explained {told}")
    heads = [it.text() for it in page.first("section", "end").all("h2")]
    boards = [board_read(it) for it in page.first("section", "end").all("table", "board")]
    wanted = [pictured(of_play.right(), of_play.change.place, ENGLISH)[0]] if told and of_play else []
    differences.seen["boards of likely repairs"] += bool(wanted)
    good = boards[1:] == wanted and heads[1:] == ["The board with the likely repair"] * len(wanted)
    differences.expect(good, text, f"boards {heads} {boards[1:]}", f"second judge {wanted}")


def pair_texts(differences, text, name, found, events, nicks):
    """Compares all that is printed of pairs of changes."""
    done = differences.run("repair", "--rules", "rules", "words", "lexicon", "game")
    parts = done.stdout.decode().split(TWO_CHANGES)
    told, wanted = TWO_CHANGES + CHAINED.split(parts[1])[0] if parts[1:] else "", pairs_text(events, found, nicks)
    differences.expect(told == wanted, name, text, told, "second judge", wanted)


def repaired(differences, listed, text, found):
    """Compares the sheet that `--repaired` writes with the events of the first repair, or with the right numbers, each line of the file but those of
    events as it was."""
    (differences.folder / "out").unlink(missing_ok=True)
    noted = "#title a game\n" + text.replace("\n", "\r\n#note as it was\n")
    differences.put("game", noted.encode())
    done = differences.run("repair", "--repaired", "out", "words", "lexicon", "game")
    events = events_of(text)
    two, known = pairs(events, listed)
    if not known:
        return
    alone = with_numbers(events, listed)
    sheets = of_text(noted.encode(), listed)
    chosen = {"repair": found[0] if found else None, "numbers": alone, "sheet": sheets[0].repair if sheets else None}.get(
        choice(found, two, alone, events, sheets)
    )
    wanted = "".join(map(line_of, chosen.right())) if chosen else None
    said = done.stdout.decode().rpartition("\nwritten: ")[2] if chosen else ""
    differences.expect(
        said == ("" if not chosen else "the sheet with its right numbers\n" if chosen is alone else "the sheet with the first repair\n"), text, said
    )
    there = (differences.folder / "out").exists()
    made = (differences.folder / "out").read_bytes().decode() if there else ""
    lines = [line.rstrip("\r") + "\n" for line in made.split("\n") if line.startswith(">")]
    kept = [line for line in made.split("\n") if line.startswith("#")]
    differences.seen["repaired sheets"] += there
    differences.expect(("".join(lines) if there else None) == wanted, text, f"repaired {made}", f"second judge {wanted}", done.stdout.decode())
    if there:
        differences.expect(kept == [line for line in noted.split("\n") if line.startswith("#")], text, f"other lines of {made}")


def is_known(events, listed, rules, found):
    """Whether the second judge knows of the record with right numbers, and with each change that it found, whether a deal fits."""
    front = Front(rules, events, listed)
    nothing = front.with_change(NOTHING)
    settled = front.dealt(nothing) if nothing else None
    return all(it.is_known for it in found) and (settled is None or settled.is_known)


def case(differences, number):
    name = random.choice(list(SLIPS))
    _, events, listed = some_sheet(SLIPS[name], TURNS, random.choice(STYLES))
    text = "".join(map(line_of, events))
    status, answer = told_by(differences, ENGLISH, listed, text)
    differences.seen[f"status {status}"] += 1
    found = repairs(events, listed, ENGLISH)
    if status == 1 and not is_known(events, listed, ENGLISH, found):
        differences.seen["deals left open"] += 1
    elif status == 1:
        texts(differences, ENGLISH, listed, text, name)
        two, known = pairs(events, listed)
        if known:
            likely(differences, events, listed, text, found, two)
        told, wanted = list(all_told(answer)), list(expected(found))
        last = min((max(them)[0] for them in (told, wanted) if them), default=0)
        few = [sorted({it for it in them if it[0] < last}) for them in (told, wanted)]
        repaired(differences, listed, text, found)
        differences.expect(few[0] == few[1], name, text, f"program {few[0][:5]}", f"second judge {few[1][:5]}")


def small(differences):
    """A short game with few tiles and one slip: the same repairs in the same order, in all that is told of them."""
    rules = replace(ENGLISH, tiles=Counter(random.sample(list(ENGLISH.tiles.elements()), random.randint(24, 34))))
    name = random.choice(list(SLIPS))
    _, events, listed = some_sheet(SLIPS[name], random.randint(3, 7), random.choice(STYLES), rules)
    text = "".join(map(line_of, events))
    status, answer = told_by(differences, rules, listed, text)
    found = repairs(events, listed, rules)
    differences.seen[f"small: status {status}"] += 1
    if status == 1 and is_known(events, listed, rules, found):
        differences.seen["small: all compared"] += 1
        texts(differences, rules, listed, text, name)


def two_slips(differences):
    """A record with two slips: the program has to tell the same pairs as the second judge, with the same costs, as far as both tell them."""
    sheet, listed = with_two_slips(TURNS, random.choice(STYLES))[1:]
    text = "".join(map(line_of, sheet))
    status, answer = told_by(differences, ENGLISH, listed, text)
    if status != 1:
        return
    found = known_pairs(differences, ENGLISH, listed, sheet)
    if found is None:
        return
    pair_texts(differences, text, "two slips", found, sheet, names_in(text))
    told, wanted = list(pairs_told(answer)), [(it.cost, *puts(it)) for it in found]
    last = min((max(them)[0] for them in (told, wanted) if them), default=0)
    few = [sorted({it for it in them if it[0] < last}) for them in (told, wanted)]
    differences.expect(few[0] == few[1], "two slips", text, f"program {few[0][:5]}", f"second judge {few[1][:5]}")


def chained(differences, rules, listed, events, text, nicks):
    """Compares what is told of several changes."""
    found, known = chain_wanted(events, listed, rules, "".join(map(line_of, events)).encode())
    if not known:
        return
    said = differences.run("repair", "--rules", "rules", "words", "lexicon", "game").stdout.decode()
    there = CHAINED.search(said)
    told, wanted = said[there.start() :] if there else "", chain_text(events, found, nicks)
    differences.seen[f"chains of {len(found.steps) + 1 if found else 0}"] += 1
    differences.expect(told == wanted, text, f"told {told}", f"second judge {wanted}")


def more_slips(differences):
    """A record with three slips: the program has to tell the same chain as the second judge."""
    while True:
        _, sheet, listed = with_two_slips(TURNS, random.choice(STYLES))
        made = SLIPS[random.choice(list(SLIPS))](sheet)
        if made and made[0] == sheet and made[1] != sheet:
            break
    text = "".join(map(line_of, made[1]))
    status, answer = told_by(differences, ENGLISH, listed, text)
    if status == 1:
        chained(differences, ENGLISH, listed, made[1], text, names_in(text))


def long_ones(differences):
    """A record with more changes than are tried: those that are told as not tried have to be the ones before the line that is named."""
    passes = "".join(f">{'AB'[k % 2]}: {('AEINRST', 'DGLOTUW')[k % 2]} - +0 0\n" for k in range(700))
    text = passes + ">A: QQ - +0 0\n"
    status, answer = told_by(differences, ENGLISH, {"AT"}, text)
    said = differences.run("repair", "--rules", "rules", "words", "lexicon", "game").stdout.decode()
    told = UNTRIED.search(said)
    places = [it.place for it in Front(ENGLISH, events_of(text), {"AT"}, AnyHands).changes()]
    before = told and sum(1 for place in places if place < int(told[3]) - 1)
    differences.expect(
        told and (int(told[1]), int(told[2])) == (before, len(places)), "a long record", f"told {told}, there are {before} of {len(places)}"
    )
    good = (status, answer["untried"], answer["tried"], 0 < len(places) - answer["untried"]) == (1, before, len(places) - (before or 0), True)
    differences.expect(good, "a long record", f"{status}, {answer['tried']} tried, {answer['untried']} not")
    best = answer["repairs"][0]["line"] if answer["repairs"] else None
    differences.expect(best == 701, "a long record", f"the first repair is of line {best}")
    written = differences.run("repair", "--repaired", "out", "--rules", "rules", "words", "lexicon", "game").stdout.decode()
    differences.expect(written.endswith("not written: it is not known whether another change repairs it\n"), "a long record", written)


def main():
    def compare(differences, cases):
        rows(differences)
        long_ones(differences)
        for number in range(cases):
            case(differences, number) if number % 3 else two_slips(differences)
        for _ in range(cases // 6):
            more_slips(differences)
        for _ in range(cases):
            small(differences)

    differences, cases = compared(Differences, compare)
    differences.end(1 + 2 * cases + cases // 6 + sum(map(len, (ROWS, NONE, TWO, PHONIES, CHAINS, LINES, OPEN))), "records")


if __name__ == "__main__":
    main()
