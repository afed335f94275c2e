"""What `repair` prints of an illegal record behind the verdict line, by code of the second judge."""
from collections import Counter
from dataclasses import replace

from answers import lines_of
from changes import ordered
from repairs import NOTHING, WORDS_OF_SLIPS, WRONG_NUMBER, Front, lines, many_tried, repairs
from rules import ENGLISH
from sheet_slips import alike, is_first, of_bad_text, of_text

LINES = 10


def things(many, one):
    return f"{many} {one}{'' if many == 1 else 's'}"


def position(event):
    row, column = str(event.at[0] + 1), chr(65 + event.at[1])
    return row + column if event.direction == (0, 1) else column + row


def tiles_in(tiles):
    return ordered(tiles) or "no tile"


def what_happened(event):
    """What stands on a line, in words."""
    if event.kind == "play":
        return f"{event.word} at {position(event)}"
    if event.kind == "exchange":
        return f"an exchange of {tiles_in(event.tiles)}"
    if event.kind == "unknown":
        return f"an exchange of {things(event.size, 'tile')}"
    if event.kind == "rack":
        return f"the last rack {tiles_in(event.tiles)}"
    others = {"pass": "a pass", "withdraw": "a play that is taken back", "challenge": "a bonus for a challenge", "time": "a penalty for time"}
    return others[event.kind]


def what_is_missing(event, nicks):
    """A line that is missing, in words."""
    nick = nicks[event.player]
    said = {
        "play": " plays ",
        "pass": " passes",
        "unknown": f" exchanges {things(event.size, 'tile')}",
        "time": f" gets a penalty for time, {event.score}",
        "withdraw": " takes the play back",
        "challenge": f" gets {event.score} points for a failed challenge",
        "rack": f" gets the points of the last rack {tiles_in(event.tiles)}",
    }
    return nick + said[event.kind] + (what_happened(event) if event.kind == "play" else "")


def which_blank(written, right):
    """Which tile of a play is a blank, or is none, where a single letter of it is written the other way."""
    places = [k for k, (one, other) in enumerate(zip(written.word, right.word)) if one != other]
    if len(written.word) != len(right.word) or written.word.upper() != right.word.upper() or len(places) != 1:
        return ""
    row, column = (at + places[0] * step for at, step in zip(right.at, right.direction))
    letter = right.word[places[0]]
    return f": the {letter.upper()} on {row + 1}{chr(65 + column)} is {'a' if letter.islower() else 'not a'} blank"


def what_is_misread(written, right, nicks):
    """What should stand on a line, of which one tile is misread on the rack too."""
    wrong, true = Counter(written.rack), Counter(right.rack)
    told = what_is_other(replace(written, rack=right.rack), right, nicks)
    return f"{told}: the {ordered(wrong - true)} on the rack is {ordered(true - wrong)} too"


def what_is_other(written, right, nicks):
    """What should stand on a line, and what stands there."""
    if written.player != right.player:
        return f"{nicks[right.player]}'s line, not {nicks[written.player]}'s"
    if ordered(written.rack) != ordered(right.rack) and (written.word, written.tiles) != (right.word, right.tiles):
        return what_is_misread(written, right, nicks)
    if ordered(written.rack) != ordered(right.rack):
        return f"the rack is {ordered(right.rack) or 'another one'}, not {ordered(written.rack) or 'another one'}"
    if written.kind == "play" and written.word != right.word and (written.at, written.direction) != (right.at, right.direction):
        return f"{what_happened(right)}, not {what_happened(written)}"
    if written.kind == "play" and written.word != right.word:
        return f"{what_happened(right)}, not {written.word}{which_blank(written, right)}"
    if written.kind == "play":
        return f"{what_happened(right)}, not at {position(written)}"
    if written.kind == right.kind and written.kind in ("challenge", "time"):
        return f"{what_happened(right)}, {right.score}, not {written.score}"
    if written.kind == right.kind:
        return f"{what_happened(right)}, not {written.size if written.kind == 'unknown' else tiles_in(written.tiles)}"
    return f"{what_happened(right)}, not {what_happened(written)}"


def numbered(events):
    """Events, each with its line of the file."""
    return [(k + 1, event) for k, event in enumerate(events)]


def with_change(own, change):
    """Numbered events with a change. A line that is missing has no number."""
    moved = own[change.place : change.place + change.replaced]
    there = moved[::-1] if change.replaced > 1 else [(moved[0][0] if moved else None, event) for event in change.there]
    return [*own[: change.place], *there, *own[change.place + change.replaced :]]


def what_changes(change, right, own, nicks):
    """Where a change stands in the file, and what it changes, in words."""
    there = right[change.place : change.place + len(change.there)]
    line = next((line for line, _ in own[change.place :] if line), None)
    if not change.replaced:
        spot = f"before line {line}" if line else f"after line {next((it for it, _ in own[::-1] if it), 0)}"
        return f"{spot}: {what_is_missing(there[0], nicks)}"
    if not there:
        told = "it repeats the line before it and should not be there" if change.weight == 1 else "it should not be there"
    elif change.replaced == 2:
        told = "it belongs after the next line"
    elif change.replaced == 3:
        told = "it should change places with the line after the next one"
    else:
        told = what_is_other(own[change.place][1], there[0], nicks)
    return f"line {line}: {told}"


def differing(repair, events):
    """The letter, the tile or the number of tiles in which a repair differs from those that are like it."""
    change, right = repair.change, repair.right()[repair.change.place]
    written = events[change.place] if change.replaced else None
    if right.kind == "unknown" and (not written or written.rack == right.rack):
        return str(right.size)
    for field in ("tiles", "rack"):
        one, other = Counter(getattr(written, field)), Counter(getattr(right, field))
        if one != other:
            return ordered(other - one or one - other)
    if len(written.word) == len(right.word):
        return next(b for a, b in zip(written.word, right.word) if a != b)
    return next(right.word[k] for k in range(len(right.word)) if right.word[:k] + right.word[k + 1 :] == written.word)


def wrong_on_sheet(own, right):
    """The scores and sums of numbered events that are wrong, each by its line, and how many numbers there are."""
    told, had, many = [], [0, 0], 0
    for (line, one), other in zip(own, right):
        if line is None:
            had[one.player] += other.score
            continue
        many += 2
        total = had[one.player] + one.score
        if one.score != other.score:
            told.append(f"  line {line}: score {one.score}, should be {other.score}\n")
        if one.total not in (total, other.total):
            told.append(f"  line {line}: sum {one.total}, should be {other.total}\n")
        had[one.player] = one.total
    return told, many


def evidence(repair, own):
    """How many numbers of the sheet are right, those that are not, and the words that are not in the list."""
    unlisted = repair.words()
    told, many = wrong_on_sheet(with_change(own, repair.change), repair.right())
    words = f"  not in the list: {', '.join(unlisted)}\n" if unlisted else ""
    return f"  {many - len(told)} of {things(many, 'number')} right\n" + "".join(told) + words


def sheet_text(sheet):
    """A slip of the whole sheet, and the evidence for it."""
    told, many = wrong_on_sheet(sheet.own, sheet.repair.right())
    unlisted = sheet.repair.words()
    words = f"  not in the list: {', '.join(unlisted)}\n" if unlisted else ""
    return f"  {many - len(told)} of {things(many, 'number')} right\n" + "".join(told) + words


def pair_lines(found):
    """Pairs in lines, by their first pairs: those of one head whose second changes are told in one line."""
    told = {}
    for pair in found:
        told.setdefault(id(pair.head), (pair.head, []))[1].append(pair)
    grouped = []
    for head, those in told.values():
        by_repair = {id(pair.then): pair for pair in those}
        grouped += [[by_repair[id(it)] for it in line] for line in lines([pair.then for pair in those], head.made)]
    return sorted(grouped, key=lambda line: found.index(line[0]))


def pairs_text(events, found, nicks="AB", number=LINES):
    """The lines about two changes."""
    own, text = numbered(events), ""
    for line in pair_lines(found)[:number]:
        head, then = line[0].head, line[0].then
        made = [(it, event) for (it, _), event in zip(with_change(own, head.change), head.made)]
        others = [differing(it.then, head.made) for it in line[1:]]
        more = f" (or with {', '.join(others)})" if others else ""
        first, second = what_changes(head.change, head.made, own, nicks), what_changes(then.change, then.right(), made, nicks)
        text += f"{first}; and {second}{more}\n" + evidence(then, made)
    return "with two changes:\n" + text if text else ""


def chain_text(events, found, nicks="AB"):
    """The lines about several changes, one after the other; none if there is no chain."""
    if not found:
        return ""
    own, said = numbered(events), []
    for step in found.steps:
        said.append(what_changes(step.change, step.made, own, nicks))
        own = [(it, event) for (it, _), event in zip(with_change(own, step.change), step.made)]
    said.append(what_changes(found.last.change, found.last.right(), own, nicks))
    return f"with {len(said)} changes, one after the other:\n" + "".join(f"{line}\n" for line in said) + evidence(found.last, own)


def with_numbers(events, listed, rules=ENGLISH):
    """The record as it is but for its numbers, if no deal is ruled out."""
    front = Front(rules, events, listed)
    nothing = front.with_change(NOTHING)
    return nothing and front.dealt(nothing)


def rack_then(repair, events):
    """The rack that a repair of a stated rack alone gives the line, and None for any other repair."""
    change = repair.change
    if change.replaced != 1 or len(change.there) != 1:
        return None
    written, there = events[change.place], change.there[0]
    return Counter(there.rack) if there.rack != written.rack and replace(there, rack=written.rack) == written else None


def says_less(first, other, events):
    """Whether another repair says the same of a stated rack, and less: it leaves out the tile for which the first has another one, or all tiles."""
    racks = [rack_then(it, events) for it in (first, other)]
    if first.change.place != other.change.place or None in racks or not racks[0]:
        return False
    written = Counter(events[first.change.place].rack)
    return not racks[1] or (racks[0].total() == written.total() and racks[1] == written - (written - racks[0]))


def choice(found, two, alone, events, sheets=()):
    """Which sheet is to be kept: 'sheet', that without the first slip of the whole sheet, or what is kept otherwise if that is ahead of the slips."""
    if not all(it.dealt for it in found):
        return "open"
    if sheets and is_first(sheets, found, two, alone, WRONG_NUMBER):
        return "open" if not sheets[0].dealt else None if sheets[0].repair.wrong else "sheet"
    kept = choice_without(found, two, alone, events)
    costs = {"repair": found[0].cost if found else 0, "numbers": alone.cost if alone else 0}
    return None if sheets and kept in costs and costs[kept] + WRONG_NUMBER > sheets[0].cost else kept


def choice_without(found, two, alone, events):
    """Which sheet is to be kept if no slip of the whole sheet repairs the record: 'repair', that of the first repair; 'numbers', that with right
    numbers; 'open' where that is not known; or none. A repair is ahead of what costs a wrong number more, and of those that say less; and so are the
    numbers alone of what costs more."""
    costs = [it.cost for it in [*found[:1], *two[:1]]]
    if alone and all(alone.cost + WRONG_NUMBER <= cost for cost in costs):
        return "numbers" if alone.dealt else "open"
    if not found or two and two[0].cost < found[0].cost:
        return None
    rivals = [it for it in found[1:] if not says_less(found[0], it, events)] + ([alone] if alone else [])
    return "repair" if all(found[0].cost + WRONG_NUMBER <= it.cost for it in rivals) else None


def likely_repair(found, two, events, listed, rules=ENGLISH, sheets=()):
    """The first of the repairs, if it is to be kept."""
    return found[0] if choice(found, two, with_numbers(events, listed, rules), events, sheets) == "repair" else None


def likely_sheet(found, two, events, listed, rules=ENGLISH, sheets=()):
    """The first of the slips of the whole sheet, if the sheet without it is to be kept."""
    return sheets[0] if choice(found, two, with_numbers(events, listed, rules), events, sheets) == "sheet" else None


def is_of_amount(change, events):
    """Whether a change is one of a bonus for a challenge or of a penalty for time: it is missing, or it is another amount."""
    if change.replaced > 1 or len(change.there) != 1 or change.there[0].kind not in ("challenge", "time"):
        return False
    return not change.replaced or events[change.place].kind == change.there[0].kind and events[change.place].score != change.there[0].score


def amount_repair(found, events, listed, rules=ENGLISH):
    """The first of the repairs, if it is one of a bonus or a penalty, and costs less than correcting only the numbers, where that may make a game."""
    alone, told = with_numbers(events, listed, rules), [it for it in found if it.dealt]
    good = told and is_of_amount(told[0].change, events) and (not alone or told[0].cost < alone.cost)
    return told[0] if good else None


def suggested_text(words, repair, events, nicks="AB"):
    """What `explain` says of the likely repair, or of a bonus or a penalty, after the board."""
    own = numbered(events)
    return f"{words}: {what_changes(repair.change, repair.right(), own, nicks)}\n{evidence(repair, own)}"


def repair_text(events, listed, rules=ENGLISH, nicks="AB", number=LINES, game=None):
    """All lines behind the verdict line of an illegal record, but for those about two changes. Slips of the whole sheet are those of its text."""
    found, alone, told = repairs(events, listed, rules), with_numbers(events, listed, rules), []
    own = list(zip(lines_of(game), events)) if game else numbered(events)
    if alone and alone.unlisted > WORDS_OF_SLIPS:
        told.append((-1, 0, f"{alone.unlisted} words of the plays are not in the list: perhaps the game was played with another word list\n"))
    if alone:
        text = "with only the numbers corrected it " + ("is a game\n" if alone.dealt else "may be a game: no deal was found\n")
        told.append((alone.cost, 0, text + evidence(alone, own)))
    for line in lines([it for it in found if it.dealt], events)[:number]:
        others = [differing(it, events) for it in line[1:]]
        more = f" (or with {', '.join(others)})" if others else ""
        text = what_changes(line[0].change, line[0].right(), own, nicks) + more + "\n" + evidence(line[0], own)
        told.append((line[0].cost, len(told) + 1, text))
    for sheet in of_text(game, listed, rules) if game else []:
        text = sheet.said + ("\n" if sheet.dealt else " (no deal was found)\n") + sheet_text(sheet)
        told.append((sheet.cost, len(told) + number, text))
    text = "".join(it for _, _, it in sorted(told))
    if not any(it.dealt for it in found):
        known = all(it.dealt for it in found)
        but = ", but for letters that merely trade places" if alone and alone.unlisted > WORDS_OF_SLIPS else ""
        helps = ("leaves fewer errors", "is known to leave fewer errors") if alone else ("makes it a game", "is known to make it a game")
        text += f"none of {many_tried(events, listed, rules)} single changes {helps[not known]}{but}\n"
    if left := many_open(found):
        text += f"with {things(left, 'more change')} every event stands, but no deal was found\n"
    return text


def many_open(found):
    """How many changes are left open."""
    return sum(it.times for it in found if not it.dealt)


def bad_record_text(game, listed, rules=ENGLISH, number=LINES):
    """All lines behind the verdict line of a text that is not a record."""
    text = ""
    for sheet, others in list(alike(of_bad_text(game, listed, rules)))[:number]:
        text += sheet.said + others + ("\n" if sheet.dealt else " (no deal was found)\n") + sheet_text(sheet)
    return text
