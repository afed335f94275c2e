"""What the templates show: rows of a board, events in words, slips as lines that go and lines that come. Nothing is worked out here."""
from __future__ import annotations

from dataclasses import dataclass, field
from typing import Any, Optional

from . import drafts

COLUMNS = "ABCDEFGHIJKLMNO"
TAKEN_OUT = ("line too many", "pass too many")
PREMIUMS = {"=": ("T", "TW", "triple word"), "-": ("D", "DW", "double word"), '"': ("t", "TL", "triple letter"), "'": ("d", "DL", "double letter")}


@dataclass(frozen=True)
class Cell:
    """A square of a board: its name, its class, its mark, and what is said of it."""

    square: str
    kind: str
    mark: str
    said: str

    @property
    def is_free(self) -> bool:
        """Whether there is no tile on it."""
        return self.kind not in ("a", "b", "n", "m")


def cell_of(mark: str, row: int, column: int, centre: int, marked: set[str]) -> Cell:
    """A square by its mark."""
    square = f"{row + 1}{COLUMNS[column]}"
    if mark.isalpha():
        kind = ("m" if mark.islower() else "n") if square in marked else ("b" if mark.islower() else "a")
        return Cell(square, kind, mark, f"{square}, {mark.upper()}{', a blank' if mark.islower() else ''}")
    kind, short, said = PREMIUMS.get(mark, ("", "", ""))
    if (row, column) == (centre, centre):
        return Cell(square, f"{kind} s", "★", f"{square}, the centre")
    return Cell(square, kind, short, f"{square}, {said}" if said else square)


def board_of(answer: Optional[dict[str, Any]], marked: list[str]) -> list[list[Cell]]:
    """The rows of a board."""
    rows = answer["rows"] if answer else []
    return [[cell_of(mark, row, column, len(rows) // 2, set(marked)) for column, mark in enumerate(marks)] for row, marks in enumerate(rows)]


def marked_of(play: Optional[dict[str, Any]]) -> list[str]:
    """The squares on which a play put down tiles."""
    return [square["square"] for word in play["words"] for square in word["squares"] if square["new"]] if play else []


@dataclass(frozen=True)
class Row:
    """A line of a sheet: its number, who, the rack, what happened, the numbers as they are written, and whether the game stops there, or before."""

    line: int
    nick: str
    rack: str
    said: str
    kind: str
    score: str
    total: str
    is_fault: bool
    is_after: bool


def sheet_of(text: str, events: list[dict[str, Any]], fault: Optional[int]) -> list[Row]:
    """The lines of a sheet, as they are written, the last one first."""
    lines, of = drafts.lines_of(text), {event["line"]: event for event in events}
    return [_row(number, lines[number - 1], of.get(number), fault) for number in reversed(drafts.event_lines(text))]


def _row(number: int, line: str, event: Optional[dict[str, Any]], fault: Optional[int]) -> Row:
    fields = drafts.fields_of(line)
    where = {"is_fault": number == fault, "is_after": fault is not None and number > fault}
    if fields is None:
        return Row(number, "", "", line.lstrip("> "), "", "", "", **where)
    said = event_text(event) if event else " ".join(fields.move)
    score, total = [*fields.numbers, "", ""][:2]
    return Row(number, fields.nick, fields.rack or "", said, event["kind"] if event else "", score, total, **where)


def seats_of(text: str, board: Optional[dict[str, Any]], events: list[dict[str, Any]]) -> list[dict[str, Any]]:
    """Both players: their names, their totals, and the tiles that their last line leaves them with, if it says so."""
    lines = drafts.lines_of(text)
    totals = {event["nick"]: event["total"] for event in events}
    last = {event["nick"]: drafts.fields_of(lines[event["line"] - 1]) for event in events if event["kind"] not in ("challenge", "time", "last rack")}
    found = []
    for player in drafts.players_of(text):
        fields = last.get(player.nick)
        found.append(
            {"nick": player.nick, "name": player.name, "total": totals.get(player.nick, 0), "kept": drafts.kept_tiles(fields) if fields else None}
        )
    return found


def event_text(event: dict[str, Any]) -> str:
    """What happened, in a few words."""
    kind = event["kind"]
    if kind == "play":
        return f"{event['place']} {event['text']}"
    named = {"pass": "passes", "withdraw": "takes the play back", "challenge": "bonus for a challenge", "time": "penalty for time"}
    if kind == "exchange":
        tiles = event.get("tiles")
        return f"exchanges {tiles}" if tiles else f"exchanges {event.get('number')}"
    return named.get(kind) or f"last rack {event.get('tiles') or ''}".rstrip()


def verdict_text(answer: dict[str, Any]) -> str:
    """A verdict, as a headline."""
    verdict, line = answer["verdict"], answer.get("line")
    if verdict == "legal":
        return "The game stands, and it is complete." if answer.get("ending") == "complete" else "The game stands so far."
    if verdict == "illegal":
        return f"Line {line} does not stand."
    if verdict == "unsettled":
        return "Every event stands. Whether the racks could be dealt is open."
    if verdict == "no game":
        return "There is no game in this text."
    if verdict == "bad record":
        return f"Line {line} cannot be read." if line else "This text cannot be read."
    return f"{verdict[:1].upper()}{verdict[1:]}."


def sentence(word: str) -> str:
    """A word with a capital in front."""
    return word[:1].upper() + word[1:]


@dataclass(frozen=True)
class Change:
    """A change of a sheet: the lines that go, each with its number, and those that come."""

    heading: str
    gone: list[tuple[int, str]]
    come: list[str]


@dataclass(frozen=True)
class Repair:
    """A repair, with the sheet on which it has been made; whether it takes a line out, and whether only an amount is another one."""

    is_without: bool
    is_amount: bool
    changes: list[Change]
    right: int
    numbers: int
    wrong: int
    unlisted: list[str]
    text: str = field(repr=False)


def repairs_of(answer: dict[str, Any], sheet: str, is_righted: bool, most: int = 5) -> list[Repair]:
    """The likeliest repairs of a sheet, the likeliest first. One that takes a line out is among them only if there is no other, and not if the right
    numbers alone explain the sheet."""
    whole = [(slip, [slip]) for slip in (answer.get("sheet_slips") or []) + (answer.get("line_slips") or [])]
    found = whole + [(it, [it]) for it in answer.get("repairs") or []] + [(it, it["changes"]) for it in answer.get("pairs") or []]
    if answer.get("chain"):
        found.append((answer["chain"], answer["chain"]["changes"]))
    repairs = [_repair(it, changes, sheet) for it, changes in sorted(found, key=_cost)]
    others = [it for it in repairs if not it.is_without]
    return (others if others or is_righted else repairs)[:most]


def _cost(found: tuple[dict[str, Any], list[dict[str, Any]]]) -> int:
    return int(found[0]["cost"])


def _repair(answer: dict[str, Any], changes: list[dict[str, Any]], sheet: str) -> Repair:
    evidence, lines = answer["evidence"], drafts.lines_of(sheet)
    shown, text = [], list(lines)
    edits = [_edit(change, lines) for change in changes]
    for change, (gone, come, _) in zip(changes, edits):
        shown.append(Change(_heading(change), [(number, lines[number - 1]) for number in gone[:6]], come[:6]))
    for gone, come, at in sorted(edits, key=lambda it: -it[2]):
        if len(gone) == len(come):
            for number, line in zip(gone, come):
                text[number - 1] = line
        else:
            text[at : at + len(gone)] = come
    is_without = any(change["slip"] in TAKEN_OUT for change in changes)
    is_amount = [change["slip"] for change in changes] == ["other amount"]
    return Repair(
        is_without, is_amount, shown, evidence["numbers_right"], evidence["numbers"], len(evidence["wrong"]), evidence["unlisted"], "\n".join(text)
    )


def _edit(change: dict[str, Any], lines: list[str]) -> tuple[list[int], list[str], int]:
    """The lines that a change takes out, those that it puts there, and where."""
    if "place" in change or change["slip"] == "> too many":
        line = lines[change["line"] - 1]
        return [change["line"]], [_with_place(line, change.get("place"))], change["line"] - 1
    if change.get("at") in ("before", "after"):
        return [], change["lines"], change["line"] - (change["at"] == "before")
    return change["replaces"], change["lines"], change["line"] - 1


def _with_place(line: str, place: Optional[str]) -> str:
    """A line with the place of its play, which is not written there, or without its `>`."""
    if place is None:
        return line.lstrip(">")
    fields = drafts.fields_of(line)
    rest = line.partition(":")[2].split()
    numbers = [it for it in rest if drafts.NUMBER.match(it)][-2:]
    words = rest[: len(rest) - len(numbers)]
    return f">{fields.nick if fields else ''}: {' '.join([*words[:-1], place, *words[-1:], *numbers])}"


def _heading(change: dict[str, Any]) -> str:
    where = {"before": "before line", "after": "after line"}.get(change.get("at", "on"), "line")
    return sentence(f"{where} {change['line']}: {change['slip']}")


def best_of(top: Optional[dict[str, Any]], most: int = 10) -> list[dict[str, Any]]:
    """The best plays, of those that differ only in which tile is the blank the first one."""
    found: dict[tuple[str, str], dict[str, Any]] = {}
    for play in (top or {}).get("plays") or []:
        found.setdefault((play["place"], play["text"].upper()), play)
    return list(found.values())[:most]
