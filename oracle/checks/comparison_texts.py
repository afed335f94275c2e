"""What `compare` prints, made from the object of `compare --json`: the second judge's.

`text_of` makes the lines from the keys of the object alone, so that the words and the object of one run can be compared. The words for the change of
a repair are compared by `compare_repairs`; here it is only looked at which choice has it and on which sheet it is.
"""
STATUSES = {"agree": 0, "differ": 1, "unsettled": 2}
OTHER = {"first": "second", "second": "first"}
WHY_NOT = {
    "other choice": "another choice of the lines would stand as well",
    "choice left open": "it is not known whether another choice is a game",
    "no game": "no choice of the lines is known to be a game",
    "other change": "another change would make a game as well",
    "change left open": "it is not known whether another change makes a game",
    "no nickname": "a player of the merged record has no nickname",
}
WITHOUT = {"no deal": " no deal yields the racks", "no deal found": " no deal was found"}
OWN_RACK = {"no game": "there is no game", "no deal": "no deal yields the racks", "no deal found": "no deal was found", "more wrong": "more is wrong"}
CHANGE = "<the change>"


def number(line):
    return "no line" if line is None else f"line {line}"


def numbers(pair):
    """The numbers of two lines, each of which may be missing."""
    return " | ".join(number(pair[sheet] and pair[sheet]["line"]) for sheet in ("first", "second"))


def things(many, name):
    return f"{many} {name}{'' if many == 1 else 's'}"


def fault_of(fault):
    """A fault as reports have it."""
    return " ".join([fault["name"], *(str(fault[key]) for key in ("expected", "tile") if key in fault)])


def refused(stop):
    """Where an event is refused, and why."""
    return f"{number(stop['first'])} | {number(stop['second'])} is refused: {fault_of(stop['fault'])}"


def written(pair):
    """The lines of a pair, each with its player if they are not of one."""
    lines = [pair["first"], pair["second"]]
    named = None in lines or lines[0]["player"] != lines[1]["player"]
    return " | ".join("nothing" if it is None else f"{it['nick']}: {it['text']}" if named else it["text"] for it in lines)


def support(pair):
    """Which line of a pair is taken, and what comes of the other one."""
    taken, what = pair["taken"], pair["other"]
    if taken is None:
        return ""
    other = f"the {OTHER[taken]}"
    if what == "not varied":
        return f": not varied, the {taken} is taken"
    if what == "as good":
        return ": both stand"
    if what == "refused":
        return f": the {taken}; with {other}, {refused(pair['refused'])}"
    if what == "other score":
        return f": the {taken}; {other} gives {pair['right']}, and {pair['written']} is written"
    if what == "more wrong":
        return f": the {taken}; {other} leaves more wrong"
    return f": the {taken}; with {other}{WITHOUT[what]}"


def lines_text(pair):
    if pair["lines"] == "agree":
        return ""
    said = f": the rules give {pair['right']}" if pair["lines"] == "other scores" else support(pair)
    return f"{numbers(pair)}: {written(pair)}{said}\n"


def racks_text(pair):
    if pair["racks"] == "same":
        return ""
    text = f"{numbers(pair)}: rack {pair['first']['rack']} | rack {pair['second']['rack']}"
    own, nick = pair["own_sheet"], pair["first"]["nick"]
    if pair["racks"] == "own":
        text += f": the {own}, the sheet of {nick}"
    elif pair["racks"] == "other":
        text += f": the {OTHER[own]}; with the {own}, the sheet of {nick}, {OWN_RACK[pair['own_rack']]}"
    return text + "\n"


def choice_name(choice):
    return ", ".join(choice["lines"]) or "the record of both sheets"


def repair_text(told):
    """The cheapest repair of all, without the words for its change."""
    best = told["best_repair"]
    if best is None:
        return ""
    sheet = f"{best['sheet']} sheet, " if best["sheet"] else ""
    text = f"{choice_name(told['tried'][best['tried']]['choice'])} is a game with one more change: {sheet}{CHANGE}\n"
    return text + ("" if best["ahead"] else "another change would make a game as well\n")


def nick_of(told, player):
    return told["players"][player - 1]["nick"]


def standing(told, ahead):
    if ahead["player"] is None:
        return "both have the same total"
    name = nick_of(told, ahead["player"]) or "the other player"
    return f"{name} {'won' if told['ending'] == 'complete' else 'is ahead'} by {ahead['by']}"


def end_text(told):
    """The verdict on the game, the last totals that differ, and who is ahead."""
    if told["ending"] is None:
        return ""
    text = f"legal {told['ending']}\n"
    for totals in told["totals"]:
        one, other, right = ("none" if totals[key] is None else totals[key] for key in ("first", "second", "right"))
        if not one == other == right:
            text += f"total of {nick_of(told, totals['player']) or ''}: {one} | {other}: the rules give {right}\n"
    text += standing(told, told["ahead"])
    for sheet in ("first", "second"):
        if told[f"ahead_by_{sheet}"] != told["ahead"]:
            text += f"; by the {sheet} sheet {standing(told, told[f'ahead_by_{sheet}'])}"
    return text + "\n"


def text_of(told, kept):
    """What `compare` prints of the same sheets; `kept` says that OUT is named."""
    text = "".join(lines_text(pair) + racks_text(pair) for pair in told["differences"])
    rivals, left = len(told["rivals"]), len(told["left"])
    open_ones = f"of {things(left, 'choice')} of the lines it is not known whether a deal yields the racks\n" if left else ""
    if told["best"]:
        text += f"{things(rivals, 'other choice')} of the lines would stand as well\n" if rivals else ""
        text += open_ones
    else:
        text += f"{open_ones}none of {things(told['choices'], 'choice')} of the lines is known to be a game\n"
        if stop := told["furthest"]:
            text += f"{choice_name(stop['choice'])} goes furthest: {refused(stop['refused'])}\n"
        text += repair_text(told)
    text += end_text(told)
    if kept:
        text += "written: the merged record\n" if told["not_merged"] is None else f"not written: {WHY_NOT[told['not_merged']]}\n"
    return text


def is_text_of(text, told, kept):
    """Whether a text says what the object does, whatever the words for the change of a repair are."""
    wanted = text_of(told, kept)
    before, found, after = wanted.partition(CHANGE)
    if not found:
        return text == wanted
    return text.startswith(before) and text.endswith(after) and "\n" not in text[len(before) : len(text) - len(after)]


def agrees_with_itself(told):
    """Whether the counts of an object, its verdict and its merged record go together."""
    varied = [pair for pair in told["differences"] if pair["other"] != "not varied"]
    items = sum(pair["lines"] == "differ" for pair in told["differences"])
    racks = sum(pair["racks"] in ("own", "other") for pair in told["differences"])
    same = not told["differences"] and told["best"] is not None
    return (
        told["choices"] == 2 ** min(12, items + racks)
        and told["not_varied"] == max(0, items + racks - 12)
        and len(varied) >= len(told["differences"]) - told["not_varied"]
        and (told["verdict"] != "agree" or same)
        and (told["verdict"] == "unsettled") == (told["best"] is None and told["left"] != [])
        and (told["merged"] is None) == (told["not_merged"] is not None)
        and (told["ending"] is None) == (told["best"] is None and told["best_repair"] is None)
        and not (told["merged"] is not None and told["best"] is not None and (told["rivals"] or told["left"]))
    )
