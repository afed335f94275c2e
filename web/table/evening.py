"""What goes with an evening: all games that a browser has kept, as one archive and as a table of results; a sheet to print; and a page of help."""
from __future__ import annotations

import io
import zipfile
from dataclasses import dataclass
from itertools import zip_longest
from typing import Any

from flask import Blueprint, Response, render_template, request

from . import drafts
from .forms import download, judges

pages = Blueprint("evening", __name__)

MOST_GAMES = 200


@dataclass(frozen=True)
class Result:
    """A game of an evening: its text, its players with their totals, and who won or is ahead."""

    text: str
    about: str
    names: tuple[str, str]
    totals: tuple[int, int]
    said: str


@pages.post("/evening")
def evening() -> Response | str:
    """The games of an evening as one archive, or their results."""
    games = zip_longest(*(request.form.getlist(name)[:MOST_GAMES] for name in ("games", "lists", "rules-of")), fillvalue="")
    results = [result_of(text.replace("\r\n", "\n"), words, rules) for text, words, rules in games if text.strip()]
    if request.form.get("what") == "archive":
        return download(archive_of(results), "games.zip", "application/zip")
    return render_template("results.html", here="home", results=results)


def result_of(text: str, words: str = "", rules: str = "") -> Result:
    """What came of a game, by its own list and rules."""
    program = judges().of(judges().names(words or drafts.pragma_of(text, "lexicon"), rules))
    filled = program.filled(text)
    events = program.verdict(filled.judged).get("events") or []
    players = [*drafts.players_of(text), drafts.Player("?", "?"), drafts.Player("?", "?")][:2]
    totals = {event["nick"]: event["total"] for event in events}
    names = tuple(player.name for player in players)
    about = ", ".join(said if name in ("event", "date") else f"{name} {said}" for name in drafts.ABOUT if (said := drafts.pragma_of(text, name)))
    verdict = program.line(filled.text)
    points = [totals.get(player.nick, 0) for player in players]
    return Result(filled.text, about, (names[0], names[1]), (points[0], points[1]), _said(verdict, program.ahead(text), names))


def _said(verdict: dict[str, Any], ahead: dict[str, Any] | None, names: tuple[str, ...]) -> str:
    """Who won or is ahead, or that the game does not stand."""
    if verdict["verdict"] == "no game":
        return "not begun"
    if verdict["verdict"] not in ("legal", "unsettled"):
        return f"line {verdict['line']} does not stand" if verdict.get("line") else "does not stand"
    if not ahead or not ahead["player"]:
        return "a draw" if verdict.get("ending") == "complete" else "even so far"
    return f"{names[ahead['player'] - 1]} {'won' if verdict.get('ending') == 'complete' else 'is ahead'} by {ahead['by']}"


def archive_of(results: list[Result]) -> bytes:
    """An archive with the record of each game, and with the table of results."""
    out = io.BytesIO()
    with zipfile.ZipFile(out, "w", zipfile.ZIP_DEFLATED) as archive:
        taken: set[str] = set()
        for result in results:
            name = _free_name(result.text, taken)
            archive.writestr(name, result.text)
        archive.writestr("results.csv", table_of(results))
    return out.getvalue()


def _free_name(text: str, taken: set[str]) -> str:
    """A name of a file that no other game has."""
    number = 1
    while (name := drafts.file_name(text, ".gcg" if number == 1 else f"-{number}.gcg")) in taken:
        number += 1
    taken.add(name)
    return name


def table_of(results: list[Result]) -> str:
    """The results as a table: a line for each game, with commas between."""
    rows = [("game", "player", "points", "player", "points", "result")]
    rows += [(it.about, it.names[0], str(it.totals[0]), it.names[1], str(it.totals[1]), it.said) for it in results]
    return "".join(",".join(_quoted(cell) for cell in row) + "\r\n" for row in rows)


def _quoted(cell: str) -> str:
    """A cell of the table. One that would be a formula in a spreadsheet is a text."""
    cell = "'" + cell if cell[:1] in "=+-@\t" and cell else cell
    return '"' + cell.replace('"', '""') + '"'


@pages.get("/blank")
def blank() -> str:
    """A sheet to print, for two players."""
    letter = request.args.get("size") == "letter"
    return render_template("blank.html", here="help", letter=letter)


@pages.get("/help")
def help_page() -> str:
    """How lines are written, with a whole example."""
    return render_template("help.html", here="help")
