"""Entering a game line by line. The state is the text of the record so far: a form brings it, and the address of the next page has it."""
from __future__ import annotations

import re
import secrets
from dataclasses import asdict, dataclass, fields as fields_of_class, replace
from typing import Mapping, Optional

from flask import Blueprint, Response, redirect, render_template, request, url_for

from . import drafts, plays, ruling, shown
from .address import Page, led_to, packed, unpacked
from .forms import chosen, download, field as field_in, further, judge, judges, text_in

pages = Blueprint("entering", __name__)

KINDS = ("play", "pass", "exchange", "withdraw", "challenge", "time", "last")
PLACE = plays.PLACE
FOR_WHO_IS_ON_TURN = ("play", "pass", "exchange")


@dataclass(frozen=True)
class Entry:
    """What is typed for a line: for the next one, or for one that is corrected. The `case` says what a word of small letters is meant to be."""

    kind: str = "play"
    player: str = ""
    move: str = ""
    rack: str = ""
    tiles: str = ""
    points: str = ""
    case: str = ""

    def code(self) -> str:
        """The move as a record has it, with the score of a challenge or a penalty."""
        if self.kind == "exchange":
            return "-" + self.tiles
        if self.kind in ("challenge", "time"):
            sign = "-" if self.kind == "time" else "+"
            return f"({self.kind}) {sign}{self.points.lstrip('+-') or 0}"
        return {"pass": "-", "withdraw": "--", "last": f"({self.tiles})"}.get(self.kind, self.play())

    def play(self) -> str:
        """The play as a record has it."""
        move = plays.parted(self.move)
        return plays.with_case(move, self.case or plays.case_of(move, self.rack) or plays.LARGE)

    @property
    def is_open(self) -> bool:
        """Whether it is open if the word is one of blanks."""
        return self.kind == "play" and not self.case and plays.case_of(plays.parted(self.move), self.rack) is None

    def line(self, nick: str) -> str:
        """The line of the record."""
        if self.kind == "play" and self.move.startswith(">"):
            return self.move
        return f">{nick}: {self.rack} {self.code()}".replace("  ", " ").rstrip()


@dataclass(frozen=True)
class Asked:
    """What the page of a game is asked for besides the game. All of it is in the address of the page.

    `do` says what was done: a line was tried (`try`), or taken back (`back`) or out (`cut`), one is opened for correction (`mend`, of the line `at`,
    or `insert` before it) or was corrected (`mended`), the numbers were righted (`righted`), a square was chosen (`square`), or words were ruled on
    (`rule`)."""

    id: str = ""
    do: str = ""
    at: str = ""
    took: str = ""
    words: str = ""
    each: str = ""
    listed: str = ""
    kind: str = ""
    player: str = ""
    move: str = ""
    rack: str = ""
    tiles: str = ""
    points: str = ""
    case: str = ""

    @property
    def entry(self) -> Entry:
        """What is in the fields of the line."""
        return Entry(self.kind if self.kind in KINDS else "play", self.player, self.move, self.rack, self.tiles, self.points, self.case)

    @property
    def line(self) -> int:
        """The line that it is about, or 0."""
        return int(self.at) if self.at.isascii() and self.at.isdigit() and len(self.at) < 8 else 0

    def with_entry(self, entry: Entry, **others: str) -> Asked:
        """The same with what is in the fields of a line."""
        return replace(self, **asdict(entry), **others)


def asked_in(given: Mapping[str, str]) -> Asked:
    """What an address asks for."""
    return Asked(**{it.name: given.get(it.name, "") for it in fields_of_class(Asked)})


def entry_in() -> Entry:
    """What the form has for a line."""
    kind = field_in("kind")
    rack, tiles = (field_in(name).upper().replace(" ", "") for name in ("rack", "tiles"))
    return Entry(kind if kind in KINDS else "play", field_in("player"), field_in("move"), rack, tiles, field_in("points").replace(" ", ""))


def entry_of(text: str, line: int) -> Entry:
    """A line of a record as it would be typed, so that it can be mended."""
    fields = drafts.fields_of(drafts.lines_of(text)[line - 1])
    if fields is None or not fields.move:
        return Entry()
    rack, move = fields.rack or "", " ".join(fields.move)
    points = fields.numbers[0].lstrip("+-") if fields.numbers else ""
    if move in ("-", "--", "(challenge)", "(time)"):
        kind = {"-": "pass", "--": "withdraw"}.get(move, move.strip("()"))
        return Entry(kind, "", "", rack, "", points if kind in ("challenge", "time") else "")
    if move.startswith(("-", "(")):
        return Entry("exchange" if move.startswith("-") else "last", "", "", rack, move.strip("-()"))
    return Entry("play", "", move, rack, case=plays.SMALL)


@dataclass
class View:
    """A game after a line was tried: its text, and why the line is refused, if it is."""

    text: str
    refused: tuple[str, ...] = ()
    line: str = ""
    broken_at: int = 0


# The pages.


@pages.get("/")
def home() -> str:
    """Where one begins."""
    return render_template("home.html", here="home")


@pages.get("/game")
def game_page() -> Page:
    """The page of a game; or the form for the names of the players, or for a record with which to go on."""
    if "g" not in request.args:
        return render_template("start.html", here="game", lists=judges().lists, rules=judges().rules)
    text = unpacked(request.args["g"])
    chosen(text)
    return game_of(text, asked_in(request.args))


@pages.post("/game")
def game() -> Page:
    """What is done with a game. It leads to the page of the game."""
    do, _, about = request.form.get("do", "add").partition("-")
    asked = Asked(id=field_in("id")[:40] or secrets.token_urlsafe(6), listed="1" if "listed" in request.form else "")
    text = text_in("game" if do == "open" else "draft")
    if do == "start":
        text = drafts.started(field_in("first"), field_in("second"), chosen()[0], {name: field_in(name)[:60] for name in drafts.ABOUT})
    elif do == "open" and not text.strip():
        return redirect(url_for("entering.game_page"), 303)
    elif do == "keep":
        return _kept(text or text_in("game"))
    return gone(*_done(do, about, judge().filled(text).text, asked))


def gone(text: str, asked: Asked) -> Page:
    """The way to the page of a game."""
    parts = {it.name: str(getattr(asked, it.name)) for it in fields_of_class(Asked)}
    return led_to("entering.game_page", lambda _: game_of(text, asked), g=packed(text), **parts, **further())


def _kept(text: str) -> Response:
    return download(text, drafts.file_name(text, ".gcg"))


# What is done.


def _done(do: str, about: str, text: str, asked: Asked) -> tuple[str, Asked]:
    """A game after what was done with it, and what its page is asked for."""
    number = int(about) if about.isascii() and about.isdigit() and len(about) < 8 else 0
    is_there = number in drafts.event_lines(text)
    if do == "undo":
        return _undone(text, asked)
    if do == "cut" and is_there:
        took = drafts.lines_of(text)[number - 1]
        return _refilled(drafts.without_line(text, number), number), replace(asked, do="cut", at=about, took=took)
    if do == "mend" and is_there:
        entry = _typed(text, number)
        return text, asked.with_entry(entry, do="mend", at=about)
    if do == "insert" and is_there:
        return text, replace(asked, do="insert", at=about)
    if do in ("mended", "inserted") and is_there:
        return _mended(text, number, asked, do == "inserted")
    if do == "righten":
        righted = judge().righted(text)
        return (righted, replace(asked, do="righted")) if righted else (text, asked)
    if do == "rule":
        return text, replace(asked, do="rule", words=field_in("words")[:300], each="1" if "each" in request.form else "")
    if do == "square":
        return text, asked.with_entry(_with_square(entry_in(), about), do="square")
    if do == "off":
        return _added(text, _withdrawal(text), asked)
    if do == "add":
        entry = entry_in()
        return _added(text, replace(entry, case=about if about in (plays.LARGE, plays.SMALL) else ""), asked)
    return text, asked


def _undone(text: str, asked: Asked) -> tuple[str, Asked]:
    """A game without its last line, which is in the form again."""
    events = drafts.event_lines(text)
    if not events:
        return text, asked
    took = drafts.lines_of(text)[events[-1] - 1]
    return drafts.without_last(text), asked.with_entry(entry_of(text, events[-1]), do="back", took=took)


def _refilled(text: str, number: int) -> str:
    """A text whose numbers are filled in again from a line on."""
    return judge().filled(drafts.bare_from(text, number)).text


def _typed(text: str, number: int) -> Entry:
    """A line as it would be typed in one field, with its player."""
    fields = drafts.fields_of(drafts.lines_of(text)[number - 1])
    if fields is None:
        return Entry()
    points = fields.numbers[:1] if fields.move[:1] in (["(challenge)"], ["(time)"]) else []
    return Entry("play", fields.nick, " ".join([*fields.move, *points]), fields.rack or "", case=plays.SMALL)


def _mended(text: str, number: int, asked: Asked, is_new: bool) -> tuple[str, Asked]:
    """A game with another line in place of one, or with a new one before it."""
    entry = entry_in()
    before = _typed(text, number)
    entry = replace(entry, case=plays.SMALL if not is_new and entry.move == before.move else "")
    view = corrected(text, number, entry, is_new)
    if view.refused:
        return text, asked.with_entry(entry, do="insert" if is_new else "mend", at=str(number), took="tried")
    return view.text, replace(asked, do="mended", at=str(number))


def corrected(text: str, number: int, entry: Entry, is_new: bool) -> View:
    """A game with this line in place of one, or before it, if it stands there: with what comes after it filled in again."""
    if not entry.move:
        return View(text, ("Type a place and a word, such as 8E WORD, or a code, such as - for a pass.",))
    line = entry.line(entry.player)
    longer = drafts.bare_from(drafts.with_line_at(text, number, line, is_new), number)
    filled = judge().filled(longer)
    answer = judge().verdict(filled.judged)
    stands = answer["verdict"] in ("legal", "unsettled")
    if stands or (answer.get("line") or 0) > number:
        return View(filled.text, broken_at=0 if stands else answer["line"])
    if answer.get("line") and answer["line"] < number:
        return View(filled.text, broken_at=answer["line"])
    return View(text, _plainly(judge().reasons(longer)) or (shown.verdict_text(answer),), line)


def _with_square(entry: Entry, square: str) -> Entry:
    """An entry with the place of its play: across, and down if the same square is meant once more."""
    found = re.fullmatch(r"([0-9]{1,2})([A-O])", square)
    if not found:
        return entry
    move = plays.parted(entry.move)
    place, _, word = move.partition(" ") if PLACE.match(move) else ("", "", move)
    return replace(entry, kind="play", move=f"{found[2] + found[1] if place == square else square} {word}")


def _withdrawal(text: str) -> Entry:
    """The line that takes the last play back."""
    events = drafts.event_lines(text)
    fields = drafts.fields_of(drafts.lines_of(text)[events[-1] - 1]) if events else None
    return Entry("withdraw", fields.nick if fields else "", "", fields.rack or "" if fields else "")


def _added(text: str, entry: Entry, asked: Asked) -> tuple[str, Asked]:
    """A game with one more line; or without it, if it is refused, and then with what was typed."""
    view = added(text, entry)
    return (text, asked.with_entry(entry, do="try")) if view.refused else (view.text, asked)


def added(text: str, entry: Entry) -> View:
    """A game with one more line, if the rules allow it; else what is wrong with the line."""
    if entry.kind in ("exchange", "last") and not entry.tiles or entry.kind == "play" and not entry.move:
        wanted = {"exchange": "Which tiles are exchanged? Type them, or how many they are.", "last": "Which tiles are on the last rack?"}
        return View(text, (wanted.get(entry.kind, "Type a place and a word, such as 8E WORD."),))
    if entry.is_open:
        return View(text, ("Are the small letters blanks?",))
    tried = [_tried(text, entry, nick) for nick in _whose(text, entry)]
    standing = [it for it in tried if not it.refused]
    if len(standing) == 1:
        return standing[0]
    if standing or not tried:
        return View(text, ("Whose line is it? Choose the player.",))
    return tried[0]


def _whose(text: str, entry: Entry) -> list[str]:
    """Whose line it may be: of the player who is chosen, or who is on turn, or of either."""
    nicks = [player.nick for player in drafts.players_of(text)]
    if entry.player in nicks or entry.move.startswith(">"):
        return [entry.player if entry.player in nicks else ""]
    turn = judge().next(text).turn
    is_turn = entry.kind in FOR_WHO_IS_ON_TURN and not entry.move.startswith(("--", "("))
    if turn and is_turn:
        return [turn]
    return [nick for nick in nicks if nick != turn] + ([turn] if turn else [])


def _tried(text: str, entry: Entry, nick: str) -> View:
    """A game with a line of this player, or why it is refused."""
    amounts = _bonuses(text, entry, nick) if entry.kind == "challenge" and not entry.points else []
    if len(amounts) > 1:
        return View(text, (f"The points are missing. The bonus is {' or '.join(amounts)}.",), f">{nick}: {entry.rack} (challenge)".replace("  ", " "))
    if entry.kind == "time" and not entry.points:
        return View(text, ("The points of the penalty are missing.",), f">{nick}: (time)")
    line = replace(entry, points=amounts[0] if amounts else entry.points).line(nick)
    longer = drafts.with_line(text, line)
    answer = judge().line(longer)
    if answer["verdict"] in ("legal", "unsettled"):
        whole = judge().filled(longer).judged
        if len(judge().verdict(whole)["events"]) == len(drafts.event_lines(whole)):
            return View(whole)
    return View(text, _plainly(judge().reasons(longer)) or (shown.verdict_text(answer),), line)


def _plainly(reasons: list[str]) -> tuple[str, ...]:
    """Reasons without the number of a line which is the one that is meant anyway."""
    return tuple(re.sub(r"^Line \d+: ", "", reason) for reason in reasons)


def _bonuses(text: str, entry: Entry, nick: str) -> list[str]:
    """The points that the rules allow for a challenge whose points are not typed."""
    longer = drafts.with_line(text, entry.line(nick) + " 0")
    facts = judge().line(longer, len(drafts.lines_of(longer)) - 1).get("facts") or []
    return [str(amount) for fact in facts if fact["name"] == "Bonus" for amount in fact.get("amounts") or []]


# The page of a game.


def game_of(text: str, asked: Asked) -> str:
    """The page of a game that is entered."""
    judged = judge().filled(text).judged
    answer = judge().verdict(judged)
    stands = answer["verdict"] in ("legal", "unsettled")
    events = answer.get("events") or []
    is_over = answer.get("ending") == "complete"
    view = added(text, asked.entry) if asked.do == "try" and stands else View(text)
    last = judge().line(judged, events[-1]["line"]) if stands and events else None
    board = judge().board(text)
    play = last.get("play") if last else None
    words = asked.words or " ".join(word["word"] for word in (play or {}).get("words", []))
    return render_template(
        "game.html",
        here="game",
        asked=asked,
        entry=asked.entry if asked.do not in ("mend", "insert") else Entry(),
        text=text,
        answer=answer,
        headline=shown.verdict_text(answer),
        stands=stands,
        is_over=is_over,
        ahead=judge().ahead(text) if is_over else None,
        view=view,
        is_open=asked.do == "try" and asked.entry.is_open,
        reasons=[] if stands else judge().reasons(text),
        is_righted=not stands and judge().righted(text) is not None,
        rows_of_sheet=shown.sheet_of(text, events, answer.get("line")),
        opened=_opened(text, asked),
        events=events,
        play=play,
        players=shown.seats_of(text, board, events),
        next=judge().next(text) if stands else None,
        rows=shown.board_of(board, shown.marked_of(play)),
        columns=shown.COLUMNS,
        off=board["off_board"] if board else None,
        quiet=not asked.listed,
        words=words,
        ruled=ruling.of(asked.words, bool(asked.each)) if asked.do == "rule" else None,
        about=[(name, said) for name in drafts.ABOUT if (said := drafts.pragma_of(text, name))],
    )


@dataclass(frozen=True)
class Opened:
    """A line that is open for correction, or a place for a new line before it, with what is typed and why that is refused."""

    number: int
    is_new: bool
    entry: Entry
    refused: tuple[str, ...]


def _opened(text: str, asked: Asked) -> Optional[Opened]:
    """The line that is open, if one is."""
    if asked.do not in ("mend", "insert") or asked.line not in drafts.event_lines(text):
        return None
    is_new = asked.do == "insert"
    refused = corrected(text, asked.line, asked.entry, is_new).refused if asked.took else ()
    return Opened(asked.line, is_new, asked.entry, refused)
