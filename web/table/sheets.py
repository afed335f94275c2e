"""What is done with a whole sheet: it is checked, repaired, compared with another one, and shown as a page; and words that are challenged."""
from __future__ import annotations

import base64
import hashlib
import re
from typing import Any, Mapping, Optional

from flask import Blueprint, Response, g, render_template, request
from referee import Answer

from . import drafts, ruling, shown
from .address import Page, led_to, packed, unpacked
from .compared import comparison_of
from .forms import chosen, download, field, further, judge, text_in
from .judge import TooLong

pages = Blueprint("sheets", __name__)

KINDS = {"legal": "legal", "unsettled": "unsettled"}
NO_TEXT = "There is no game yet. Choose a file, or paste its text."


@pages.app_template_filter("kept")
def kept_filter(text: str) -> str:
    """A text for a hidden field."""
    return base64.b64encode(text.encode("utf-8", "replace")).decode()


def text_of_address(name: str = "g") -> str:
    """The text that the address has, or none."""
    text = unpacked(request.args[name]) if name in request.args else ""
    chosen(text)
    return text


# A sheet.


@pages.get("/sheet")
def sheet_page() -> str:
    """The form for a sheet, or what a sheet says."""
    text = text_of_address()
    return checked(text, request.args) if text else render_template("sheet.html", here="sheet")


@pages.post("/sheet")
def sheet() -> Page:
    """The way to what a sheet says."""
    written = text_in("game")
    if not written.strip():
        return render_template("sheet.html", here="sheet", missing=NO_TEXT)
    asked = {name: field(name) for name in ("taken", "look")}
    return led_to("sheets.sheet_page", lambda _: checked(written, asked), g=packed(written), **asked, **further())


def checked(written: str, asked: Mapping[str, str]) -> str:
    """What a sheet says, and what it should say."""
    filled = judge().filled(written)
    text, has_holes = filled.judged, drafts.has_holes(filled.text)
    verdict: dict[str, Any] = judge().verdict(text)
    answer, is_found = _audited(text, bool(asked.get("look")))
    if answer["verdict"] == "no game":
        verdict = {"verdict": "no game"}
    faulty = verdict["verdict"] in ("illegal", "bad record")
    corrected = answer.text if answer.text is not None and answer.text != text else None
    return render_template(
        "checked.html",
        here="sheet",
        text=filled.text,
        has_holes=has_holes,
        put_in=filled.number,
        verdict=verdict,
        headline=_headline(verdict, answer),
        kind=KINDS.get(verdict["verdict"], "illegal"),
        reasons=judge().reasons(filled.text),
        answer=answer,
        wrong=[] if has_holes else [it for it in answer.get("wrong") or [] if it["written"] != it["right"]],
        line_text=_line_text(filled.text, verdict.get("line")),
        corrected=corrected,
        stands=answer["verdict"] == "legal",
        is_game=verdict["verdict"] not in ("bad record", "no game"),
        taken=bool(asked.get("taken")),
        **_repairs(filled.text, corrected is not None, bool(asked.get("look")), faulty, is_found),
    )


def _audited(text: str, is_patient: bool) -> tuple[Answer, bool]:
    """The wrong numbers of a sheet, and whether they are found; else only the verdict, until they are."""
    try:
        return judge().audit(text, is_patient), True
    except TooLong:
        return Answer(verdict="later"), False


def _line_text(text: str, line: Any) -> str:
    lines = drafts.lines_of(text)
    return lines[line - 1] if isinstance(line, int) and 0 < line <= len(lines) else ""


def _headline(verdict: dict[str, Any], answer: dict[str, Any]) -> str:
    """The verdict in plain words: if only numbers are wrong, that."""
    wrong = [it for it in answer.get("wrong") or [] if it["written"] != it["right"] and it["wrong"] != "last total"]
    if verdict["verdict"] == "illegal" and answer["verdict"] == "legal" and wrong:
        many = len(wrong)
        return (
            "1 number is wrong. With the right one the game stands."
            if many == 1
            else f"{many} numbers are wrong. With the right ones the game stands."
        )
    return shown.verdict_text(verdict)


def _repairs(text: str, is_righted: bool, is_patient: bool, is_faulty: bool, is_found: bool) -> dict[str, Any]:
    """The likely repairs of a sheet that does not stand; or that they, or the wrong numbers, take longer, or took too long."""
    if not is_found:
        return {"too_long": True} if is_patient else {"later": True}
    if not is_faulty:
        return {}
    try:
        found = judge().repairs(text, is_patient)
    except TooLong:
        return {"too_long": True} if is_patient else {"later": True}
    repairs = shown.repairs_of(found, text, is_righted)
    return {"repairs": repairs, "looked": True, "is_amount": bool(repairs) and repairs[0].is_amount}


@pages.post("/keep")
def keep() -> Response:
    """A text as a file: a sheet, or the record with its best plays."""
    text, what = text_in("game"), request.form.get("what", "sheet")
    if what == "annotated":
        return download(judge().annotated(text) or text, drafts.file_name(text, "-annotated.gcg"))
    if what == "page":
        return download(judge().page(text), drafts.file_name(text, ".html"), "text/html; charset=utf-8")
    return download(
        text, drafts.file_name(text, {"corrected": "-corrected.gcg", "merged": "-merged.gcg", "repaired": "-repaired.gcg"}.get(what, ".gcg"))
    )


# Two sheets.


@pages.get("/two")
def two_page() -> str:
    """The form for two sheets, or where they differ."""
    first, second = (text_of_address(name) for name in ("a", "b"))
    return both(first, second) if first and second else render_template("two.html", here="two")


@pages.post("/two")
def two() -> Page:
    """The way to where two sheets of one game differ."""
    first, second = text_in("first"), text_in("second")
    if not first.strip() or not second.strip():
        return render_template("two.html", here="two", missing="Two sheets are needed: choose two files, or paste two texts.", texts=(first, second))
    return led_to("sheets.two_page", lambda _: both(first, second), a=packed(first), b=packed(second), **further())


def both(first: str, second: str) -> str:
    """Where two sheets of one game differ, and the record that is made of them."""
    unread = [(name, judge().reasons(text)) for name, text in (("first", first), ("second", second)) if not _is_read(text)]
    answer = comparison_of(judge().compare(first, second), unread)
    return render_template("compared.html", here="two", answer=answer, first=first, second=second)


def _is_read(text: str) -> bool:
    """Whether a text is a draft with an event."""
    return judge().line(text)["verdict"] not in ("bad record", "no game")


# A challenge.


@pages.get("/challenge")
def challenge_page() -> str:
    """The form for a challenge, with the ruling on the words that the address has."""
    return _challenged(request.args) if "words" in request.args else render_template("challenge.html", here="challenge")


@pages.post("/challenge")
def challenge() -> Page:
    """The way to the ruling on words."""
    asked = {"words": field("words"), "each": "1" if "each" in request.form else ""}
    return led_to("sheets.challenge_page", _challenged, **asked, **further()) if asked["words"] else _challenged(asked)


def _challenged(asked: Mapping[str, str]) -> str:
    each = bool(asked.get("each"))
    return render_template("challenge.html", here="challenge", ruled=ruling.of(asked["words"], each), each=each)


# The page of a game.


@pages.get("/view")
def view_page() -> str:
    """The form for the page of a game, or that page."""
    text = text_of_address()
    return viewed(text, request.args) if text else render_template("view.html", here="view")


@pages.post("/view")
def view() -> Page:
    """The way to the page of a game."""
    text = text_in("game")
    if not text.strip():
        return render_template("view.html", here="view", missing=NO_TEXT)
    asked = {"rack": field("rack")[:40], "line": field("line")[:8]}
    return led_to("sheets.view_page", lambda _: viewed(text, asked), g=packed(text), **asked, **further())


def viewed(written: str, asked: Mapping[str, str]) -> str:
    """The page of a game in a frame that may do nothing, and the best plays of a rack."""
    text = judge().filled(written).judged
    answer = judge().verdict(text)
    rack, line = asked.get("rack", "").upper().replace(" ", ""), _number(asked.get("line", ""))
    top = judge().top(text, rack or None, line) if rack or line else None
    page = judge().page(text) if answer.get("events") else ""
    g.style = _style_of(page)
    return render_template(
        "viewed.html",
        here="view",
        text=text,
        page=page,
        answer=answer,
        headline=shown.verdict_text(answer),
        reasons=[] if page else judge().reasons(written),
        rack=rack,
        line=line,
        top=top,
        best=shown.best_of(top),
    )


def _number(text: str) -> Optional[int]:
    """A number of a line, if it is one."""
    return int(text) if text.isascii() and text.isdigit() and len(text) < 8 else None


def _style_of(page: str) -> str:
    """The sum of the style of a page, by which a browser knows it: a page in a frame has the policy of the page around it."""
    styles = re.findall(r"<style>(.*?)</style>", page, re.DOTALL)
    return " ".join(f"'sha256-{base64.b64encode(hashlib.sha256(style.encode()).digest()).decode()}'" for style in styles)
