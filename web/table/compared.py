"""What the page says of two sheets of one game: the object of `compare` as rows and sentences. Nothing is worked out here."""
from __future__ import annotations

from dataclasses import dataclass
from typing import Any, Optional

from .shown import sentence

OTHER = {"first": "second", "second": "first"}
NOT_MERGED = {
    "other choice": "another choice of the lines would stand as well",
    "choice left open": "it is not known whether another choice of the lines makes a game",
    "no game": "no choice of the lines is known to make a game",
    "other change": "another change would make a game as well",
    "change left open": "it is not known whether another change makes a game",
    "no nickname": "a player has no nickname",
}
OTHER_LINES = {
    "not varied": "it was not tried with the other",
    "as good": "both stand",
    "no deal": "with the other no deal yields the racks",
    "no deal found": "with the other no deal was found",
    "more wrong": "with the other more is wrong",
}
OWN_RACKS = {
    "no game": "there is no game",
    "no deal": "no deal yields the racks",
    "no deal found": "no deal was found",
    "more wrong": "more is wrong",
}


@dataclass(frozen=True)
class Row:
    """Two lines that are not the same: where they are, what they say, and what is right."""

    first_at: str
    first: str
    second_at: str
    second: str
    right: str


@dataclass(frozen=True)
class Comparison:
    """What differs between two sheets, what there is to say of them, and the merged record, if there is one."""

    headline: str
    kind: str
    rows: list[Row]
    sentences: list[str]
    merged: Optional[str]


def comparison_of(answer: dict[str, Any], unread: list[tuple[str, list[str]]]) -> Comparison:
    """What is shown of the object of `compare`; if a sheet cannot be read or has no event, of what is said of that sheet."""
    verdict = answer["verdict"]
    if "differences" not in answer:
        which = " and ".join(name for name, _ in unread) or "other"
        many = "sheets have" if len(unread) > 1 else "sheet has"
        said = [f"{sentence(name)} sheet: {reason}" for name, reasons in unread for reason in reasons]
        return Comparison(f"The {which} {many} no game that can be read.", "illegal", [], said, None)
    headline, kind = {"agree": ("The sheets agree.", "legal"), "unsettled": ("It is open which sheet is right.", "unsettled")}.get(
        verdict, ("The sheets differ.", "illegal")
    )
    rows = [row for it in answer["differences"] for row in _rows(it)]
    return Comparison(headline, kind, rows, _sentences(answer), answer["merged"])


def _rows(difference: dict[str, Any]) -> list[Row]:
    """A pair of lines: a row if what happened differs, and one if the racks do."""
    first, second = difference["first"], difference["second"]
    at = (_at(first), _at(second))
    rows = []
    if difference["lines"] != "agree":
        rows.append(Row(at[0], first["text"] if first else "nothing", at[1], second["text"] if second else "nothing", sentence(_right(difference))))
    if difference["racks"] in ("own", "other"):
        rows.append(Row(at[0], _rack(first), at[1], _rack(second), sentence(_right_rack(difference, first or second))))
    return rows


def _at(line: Optional[dict[str, Any]]) -> str:
    return f"line {line['line']}, {line['nick']}" if line else "no line"


def _rack(line: Optional[dict[str, Any]]) -> str:
    return f"rack {line['rack']}" if line and line["rack"] else "no rack"


def _right(difference: dict[str, Any]) -> str:
    """Which line is right, and what comes of the other one."""
    if difference["lines"] == "other scores":
        return f"the rules give {difference['right']}" if difference["right"] is not None else ""
    taken, other = difference["taken"], difference["other"]
    if taken is None:
        return ""
    if other == "refused":
        why = f"with the {OTHER[taken]}, {_refused(difference['refused'])}"
    elif other == "other score":
        why = f"the {OTHER[taken]} gives {difference['right']}, and {difference['written']} is written"
    else:
        why = OTHER_LINES[other]
    return f"the {taken}; {why}"


def _right_rack(difference: dict[str, Any], line: dict[str, Any]) -> str:
    """Which rack is taken: that of the player's own sheet, if it can be."""
    own = difference["own_sheet"]
    if difference["racks"] == "own":
        return f"the {own}, the sheet of {line['nick']}"
    return f"the {OTHER[own]}; with the {own}, the sheet of {line['nick']}, {OWN_RACKS[difference['own_rack']]}"


def _refused(refused: dict[str, Any]) -> str:
    """Where the rules refuse an event."""
    lines = [f"line {refused[sheet]} of the {sheet} sheet" for sheet in ("first", "second") if refused[sheet] is not None]
    return f"{lines[0] if lines else 'the end of the game'} does not stand"


def _many(number: int, thing: str) -> str:
    return f"{number} {thing}" if number == 1 else f"{number} {thing}s"


def _sentences(answer: dict[str, Any]) -> list[str]:
    """What there is to say of the sheets as a whole."""
    said = []
    if answer["best"] is not None and answer["rivals"]:
        said.append(f"{_many(len(answer['rivals']), 'other choice')} of the lines would stand as well")
    if answer["left"]:
        said.append(f"of {_many(len(answer['left']), 'choice')} of the lines it is not known whether a deal yields the racks")
    if answer["not_varied"]:
        said.append(
            f"{_many(answer['not_varied'], 'difference')} came after the twelfth, and was not tried either way"
            if answer["not_varied"] == 1
            else f"{answer['not_varied']} differences came after the twelfth, and were not tried either way"
        )
    if answer["furthest"] is not None:
        said.append(
            f"no choice of the lines is known to make a game; the one that goes furthest stops where {_refused(answer['furthest']['refused'])}"
        )
    if answer["best_repair"] is not None:
        said.append(_repaired(answer))
    return [f"{sentence(it)}." for it in [*said, *_end(answer), *_merged(answer)]]


def _repaired(answer: dict[str, Any]) -> str:
    """The change with which the lines make a game."""
    best = answer["best_repair"]
    repair = answer["tried"][best["tried"]]["repair"]
    where = f" of the {best['sheet']} sheet" if best["sheet"] else ""
    return f"with one more change it is a game: line {repair['line']}{where}, {repair['slip']}"


def _end(answer: dict[str, Any]) -> list[str]:
    """How the game ends, with the last totals that differ."""
    if answer["ending"] is None:
        return []
    ahead, names = answer["ahead"], [it["name"] or it["nick"] or "a player" for it in answer["players"]]
    verb = "won" if answer["ending"] == "complete" else "is ahead"
    said = ["the game is complete" if answer["ending"] == "complete" else "the game stands so far"]
    for total in answer["totals"]:
        if not total["first"] == total["second"] == total["right"]:
            said.append(
                f"total of {names[total['player'] - 1]}: {_total(total['first'])} on the first sheet, "
                f"{_total(total['second'])} on the second; the rules give {_total(total['right'])}"
            )
    said.append(f"{names[ahead['player'] - 1]} {verb} by {ahead['by']}, by the right numbers" if ahead["player"] else "both have the same total")
    return said


def _total(total: Optional[int]) -> str:
    return "none" if total is None else str(total)


def _merged(answer: dict[str, Any]) -> list[str]:
    if answer["merged"] is not None:
        return ["the merged record can be kept, below"] if answer["verdict"] != "agree" else []
    return [f"there is no merged record: {NOT_MERGED[answer['not_merged']]}"] if answer["not_merged"] else []
