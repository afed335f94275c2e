"""What `repair --json` is to print, as an object, by the second judge: what repairs a record, with the names of the slips, the lines that come in the
place of others and the evidence; and the events of the sheet that is to be kept."""
from dataclasses import dataclass
from math import inf

import rules_texts
from answers import answered, lines_of, told_of, words_of
from changes import ANOTHER_PLAY, ordered
from chains import TWO_NUMBERS, chain
from deals import settled_ways
from objects import head, refused, unread_in, verdict_of
from pairs import pairs
from repair_texts import choice, many_open, pair_lines, position, with_change, with_numbers
from repairs import WRONG_NUMBER, AnyHands, Front, has_likely, lines, many_tried, most_left, repairs, repairs_below
from rules import ENGLISH
from sheet_slips import has_blank, is_play, is_written, of_bad_text, of_text

MOST_EVENTS, MOST_ALIKE = 4, 27
CODES = {"pass": "-", "withdraw": "--", "challenge": "(challenge)", "time": "(time)"}
MISSING = {
    "play": "play missing",
    "pass": "pass missing",
    "unknown": "exchange missing",
    "time": "penalty missing",
    "withdraw": "withdrawal missing",
    "challenge": "bonus missing",
    "rack": "last rack missing",
}
ON_RACK = ("other tile on rack", "tile too many on rack", "tile missing on rack")
EXCHANGED = ("other tile exchanged", "tile too many exchanged", "tile missing in exchange")
ON_LAST_RACK = ("other tile on last rack", "tile too many on last rack", "tile missing on last rack")
OTHER_CODES = {"pass": "pass", "unknown": "exchange", "withdraw": "withdrawal"}
RUNNING = {  # the name of a slip that runs through a sheet, by what is said of it, and which events without it are other ones
    "row and column interchanged": ("rows and columns interchanged", is_play),
    "one column too far right": ("places one column too far right", is_play),
    "one column too far left": ("places one column too far left", is_play),
    "one row too far down": ("places one row too far down", is_play),
    "one row too far up": ("places one row too far up", is_play),
    "small letters and capitals interchanged": ("small letters and capitals interchanged", is_play),
    "are written as capitals": ("blanks as capitals", has_blank),
    "have the name of the other player": ("players interchanged", lambda _: True),
}


@dataclass
class Repaired:
    """An object; whether it has all that is found, or only the verdict of an illegal record; and the events of the sheet that is to be kept, if one
    is."""

    told: dict
    is_whole: bool = True
    kept: list | None = None


# ---- lines


def happened(event):
    """What happened, as a record writes it."""
    if event.kind == "play":
        return f"{position(event)} {event.word}"
    said = {"exchange": f"-{ordered(event.tiles)}", "unknown": f"-{event.size}", "rack": f"({ordered(event.tiles)})"}
    return said.get(event.kind) or CODES[event.kind]


def line_text(event, nicks):
    """An event in the normal form."""
    rack = f"{ordered(event.rack)} " if event.rack else ""
    return f">{nicks[event.player]}: {rack}{happened(event)} {event.score:+d} {event.total}"


# ---- the names of slips


def position_name(change, written, right):
    if written.at == right.at:
        return "other direction"
    return {2: "one square off", 3: "other square", 4: "row and column interchanged"}[change.weight]


def spelling_name(weight, written, right):
    """The name of a slip of a text; a letter that is there twice may be missing in two places."""
    if len(written) == len(right):
        places = [k for k, symbol in enumerate(written) if symbol != right[k]]
        if len(places) > 1:
            is_twisted = (
                len(places) == 2 and places[1] == places[0] + 1 and written[places[0]] + written[places[1]] == right[places[1]] + right[places[0]]
            )
            return "symbols interchanged" if is_twisted else "dots too many or too few"
        one, other = written[places[0]], right[places[0]]
        if one == "." or other == ".":
            return "dot in place of letter" if one == "." else "letter in place of dot"
        return "letter or blank" if one.lower() == other.lower() else "other letter"
    if len(right) == len(written) - 1 and weight == 3:
        return "symbol too many"
    extra = [symbol for k, symbol in enumerate(right) if right[:k] + right[k + 1 :] == written]
    if extra and (extra[0] == "." or weight == 4):
        return "dot missing" if extra[0] == "." else "letter missing"
    return "dots too many or too few"


def tiles_name(written, right, names):
    """Of three names that of a slip of tiles: another one, one too many, or one that is missing."""
    return names[0] if len(written) == len(right) else names[1] if len(written) > len(right) else names[2]


def tile_name(weight, written, right):
    """The name of a slip of a stated rack, of exchanged tiles or of a last rack."""
    if ordered(written.rack) != ordered(right.rack):
        return tiles_name(written.rack, right.rack, ON_RACK) if right.rack else "other rack"
    if written.kind == "exchange":
        return tiles_name(written.tiles, right.tiles, EXCHANGED)
    return "other last rack" if weight == 3 else tiles_name(written.tiles, right.tiles, ON_LAST_RACK)


def line_name(change, written, right):
    """The name of a slip of one line, in the place of which another one comes."""
    if written.player != right.player:
        return "other player"
    if ordered(written.rack) != ordered(right.rack) and (written.word, written.tiles) != (right.word, right.tiles):
        return f"other tile on rack and {'in word' if written.kind == 'play' else 'exchanged'}"
    if written.kind != right.kind:
        return OTHER_CODES[right.kind]
    if ordered(written.rack) != ordered(right.rack) or written.kind in ("exchange", "rack"):
        return tile_name(change.weight, written, right)
    if written.kind == "play":
        if change.weight == ANOTHER_PLAY:
            return "another play"
        return position_name(change, written, right) if written.word == right.word else spelling_name(change.weight, written.word, right.word)
    return "other number of tiles" if written.kind == "unknown" else "other amount"


def slip_name(change, events):
    """The name of what is wrong."""
    if not change.replaced:
        return MISSING[change.there[0].kind]
    if not change.there:
        return "line repeated" if change.weight == 1 else "pass too many" if events[change.place].kind == "pass" else "line too many"
    if change.replaced > 1:
        return "lines interchanged" if change.replaced == 2 else "lines interchanged over another"
    return line_name(change, events[change.place], change.there[0])


# ---- what repairs a record


def evidence(repair, own):
    """How many numbers of the sheet there are with a change and how many are right, those that are wrong, and the words that are not in the list.
    `own` are the numbered events with the change."""
    wrong, had, many = [], [0, 0], 0
    for (line, one), other in zip(own, repair.right()):
        if line is None:
            had[one.player] += other.score
            continue
        many += 2
        total = had[one.player] + one.score
        if one.score != other.score:
            wrong.append({"wrong": "score", "line": line, "written": one.score, "right": other.score})
        if one.total not in (total, other.total):
            wrong.append({"wrong": "sum", "line": line, "written": one.total, "right": other.total})
        had[one.player] = one.total
    return {"numbers": many, "numbers_right": many - len(wrong), "wrong": wrong, "unlisted": repair.words()}


def change_object(change, own, right, nicks):
    """A change of numbered events, and what comes in the place of its lines."""
    line = next((line for line, _ in own[change.place :] if line), None)
    return {
        "at": "on" if change.replaced else "before" if line else "after",
        "line": line or next((line for line, _ in own[::-1] if line), 0),
        "slip": slip_name(change, [event for _, event in own]),
        "replaces": [line for line, _ in own[change.place : change.place + change.replaced]],
        "lines": [line_text(it, nicks) for it in right[change.place : change.place + len(change.there)]],
    }


def other_lines(others, nicks):
    """What other repairs on a line put there."""
    return [line_text(it.right()[it.change.place], nicks) for it in others]


def repair_object(line, own, nicks):
    """The repairs of one line."""
    first = line[0]
    costs = {"weight": first.change.weight, "cost": first.cost, "evidence": evidence(first, with_change(own, first.change))}
    return change_object(first.change, own, first.right(), nicks) | {"others": other_lines(line[1:], nicks)} | costs


def numbered_as(own, change, made):
    """The numbered events that a change makes of others."""
    return [(line, event) for (line, _), event in zip(with_change(own, change), made)]


def pair_object(line, own, nicks):
    """The pairs of one line."""
    first, then = line[0].head, line[0].then
    made = numbered_as(own, first.change, first.made)
    return {
        "changes": [change_object(first.change, own, first.made, nicks), change_object(then.change, made, then.right(), nicks)],
        "others": other_lines([it.then for it in line[1:]], nicks),
        "weight": first.change.weight + then.change.weight,
        "cost": line[0].cost,
        "evidence": evidence(then, with_change(made, then.change)),
    }


def chain_object(found, own, nicks):
    """A chain."""
    changes = []
    for step in found.steps:
        changes.append(change_object(step.change, own, step.made, nicks))
        own = numbered_as(own, step.change, step.made)
    last = found.last
    changes.append(change_object(last.change, own, last.right(), nicks))
    weight = last.change.weight + sum(it.change.weight for it in found.steps)
    return {"changes": changes, "weight": weight, "cost": found.cost, "evidence": evidence(last, with_change(own, last.change))}


def chain_wanted(events, listed, rules, game):
    """The chain that is told of a record, or None; and whether the second judge knows of all changes whether a deal fits."""
    singles, (two, known), alone = repairs(events, listed, rules), pairs(events, listed, rules), with_numbers(events, listed, rules)
    sheets = of_text(game, listed, rules)
    least = min((it.cost for it in [*[it for it in singles if it.dealt], *two, *sheets, *([alone] if alone else [])]), default=inf)
    if not known or not all(it.is_known for it in singles):
        return None, False
    if least <= TWO_NUMBERS or not all(it.dealt for it in singles):
        return None, True
    found, known = chain(events, listed, rules)
    return found if found and found.cost < least else None, known


def sheet_object(sheet, nicks):
    """A slip of the whole sheet."""
    name, first, changed = "line not read", 0, None
    if sheet.line is None:
        name, changed = next(names for said, names in RUNNING.items() if said in sheet.said)
        if " from line " in sheet.said:
            first = int(sheet.said.split(" from line ")[1].split(" ")[0])
    there = [
        (line, right)
        for (line, _), right in zip(sheet.own, sheet.repair.right())
        if (changed(right) and line >= first if changed else line == sheet.line)
    ]
    return {
        "slip": name,
        "line": there[0][0] if there else 0,
        "replaces": [line for line, _ in there],
        "lines": [line_text(it, nicks) for _, it in there],
        "settled": sheet.dealt,
        "weight": sheet.repair.change.weight,
        "cost": sheet.cost,
        "evidence": evidence(sheet.repair, sheet.own),
    }


def many_changes(events, listed, rules):
    """How many changes are tried: without the plays that are looked for, if a likely repair is found before."""
    front = Front(rules, events, listed)
    if has_likely(repairs_below(front, most_left(front))):
        return sum(1 for _ in Front(rules, events, listed, AnyHands).changes())
    return many_tried(events, listed, rules)


def faulty_keys(game, events, listed, rules, nicks, number):
    """The keys of an illegal record after the verdict, and the events of the sheet that is to be kept; None if the second judge does not know of each
    change whether a deal fits."""
    found, alone, sheets = repairs(events, listed, rules), with_numbers(events, listed, rules), of_text(game, listed, rules)
    (two, pairs_known), (several, chain_known) = pairs(events, listed, rules), chain_wanted(events, listed, rules, game)
    known = pairs_known and chain_known and all(it.is_known for it in [*found, *sheets, *([alone] if alone else [])])
    if not known or len(found) > MOST_ALIKE * number:
        return None
    own = list(zip(lines_of(game), events))
    keys = {
        "numbers_alone": evidence(alone, own) if alone else None,
        "repairs": [repair_object(line, own, nicks) for line in lines([it for it in found if it.dealt], events)[:number]],
        "pairs": [pair_object(line, own, nicks) for line in pair_lines(two)[:number]],
        "chain": chain_object(several, own, nicks) if several else None,
        "left": many_open(found),
        "tried": many_changes(events, listed, rules),
        "untried": 0,
        "numbers_alone_settled": alone.dealt if alone else None,
        "sheet_slips": [sheet_object(it, nicks) for it in sheets],
    }
    chosen = {"repair": found[:1], "numbers": [alone], "sheet": [it.repair for it in sheets[:1]]}.get(choice(found, two, alone, events, sheets))
    return keys, chosen[0].right() if chosen else None


NO_KEYS: dict[str, object] = {"numbers_alone": None, "repairs": [], "pairs": [], "chain": None, "left": None, "tried": None, "untried": None}
NO_KEYS |= {"numbers_alone_settled": None, "sheet_slips": []}


def nicks_of(players):
    """The nicknames of both players; none for one who has no line."""
    return [player[0].decode("utf-8", "replace") if player else "" for player in players]


def bad_repaired(game, told, listed, rules):
    """What is said of a text that is not a record."""
    found = of_bad_text(game, listed, rules)
    slips = [line_object(it) for it in found]
    kept = found[0].sheet.repair.right() if is_written(found, WRONG_NUMBER) else None
    return Repaired(told | {"line_slips": slips}, all(it.sheet.is_known for it in found), kept)


def line_object(found):
    """What may be wrong with a line that no record can have."""
    sheet, is_mark = found.sheet, found.short.startswith("without")
    names = {"slip": "> too many" if is_mark else "no place", "line": sheet.line, "place": None if is_mark else found.short, "settled": sheet.dealt}
    return names | {"weight": sheet.repair.change.weight, "cost": sheet.cost, "evidence": evidence(sheet.repair, sheet.own)}


def repaired_objects(words, lexicon, game, text=None, number=10, most_events=MOST_EVENTS):
    """What may be answered on a record: its verdict and, if it is illegal, what repairs it. Of an illegal record with more events only the verdict is
    known here."""

    def answers(listed, players, events, rules):
        if not events:
            return [Repaired(head("no game") | unread_in(game))]
        verdicts = [
            told_of(report.split("\n")[0] + "\n", game, players).decode().removesuffix("\n") for report in settled_ways(events, listed, rules)
        ]
        told, faulty = [], None
        if any(it.startswith("illegal") for it in verdicts) and len(events) <= most_events:
            faulty = faulty_keys(game, events, listed, rules, nicks_of(players), number)
        for verdict in verdicts:
            if not verdict.startswith("illegal"):
                told.append(Repaired(verdict_of(verdict) | NO_KEYS | unread_in(game)))
            elif faulty:
                told.append(Repaired(verdict_of(verdict) | faulty[0] | unread_in(game), True, faulty[1]))
            else:
                told.append(Repaired(verdict_of(verdict) | unread_in(game), False))
        return told

    bad = []

    def bad_record(fault):
        bad.append(fault)
        return fault.text()

    answer = answered(words, lexicon, game, text, answers, bad_record)
    if isinstance(answer, list):
        return answer
    if not bad:
        return [Repaired(refused(answer))]
    return [bad_repaired(game, refused(answer), *pair_of(words, text))]


def pair_of(words, text):
    """The words of a good list, and the rules of a good text."""
    return words_of(words), ENGLISH if text is None else rules_texts.read(text)
