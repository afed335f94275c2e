"""What a form brings: texts, files and what is kept from page to page; and which list and rules it is about."""
from __future__ import annotations

import base64
import binascii

from flask import Response, abort, current_app, g, make_response, request
from referee import text_of

from . import drafts
from .judge import Judge, Judges


def judges() -> Judges:
    """The programs of this page."""
    found: Judges = current_app.extensions["judges"]
    return found


def chosen(text: str = "") -> tuple[str, str]:
    """The list and the rules of this request: those that it names, or else the list that a text names, or else the first ones."""
    if "chosen" not in g:
        g.chosen = judges().names(request.values.get("list") or drafts.pragma_of(text, "lexicon"), request.values.get("rules", ""))
    names: tuple[str, str] = g.chosen
    return names


def judge() -> Judge:
    """The program that this request asks."""
    return judges().of(chosen())


def further() -> dict[str, str]:
    """What the address of a page has besides the game: the list and the rules, if they are not the first ones."""
    names = zip(("list", "rules"), chosen(), judges().names())
    return {key: name for key, name, first in names if name != first}


def kept(text: str) -> str:
    """A text as a hidden field has it, in which no line end is changed."""
    return base64.b64encode(text.encode("utf-8", "replace")).decode()


def unkept(field: str) -> str:
    """The text of a hidden field."""
    try:
        return base64.b64decode(field, validate=True).decode("utf-8")
    except (binascii.Error, UnicodeDecodeError):
        abort(400, "This is not a text that this page has kept.")


def text_in(name: str) -> str:
    """A text: that of a file, or else what was pasted. A browser sends the ends of pasted lines as CR LF."""
    text = _text_in(name)
    chosen(text)
    return text


def _text_in(name: str) -> str:
    sent = request.files.get(f"{name}-file")
    if sent is not None and sent.filename:
        return text_of(sent.read())
    if f"{name}-kept" in request.form:
        return unkept(request.form[f"{name}-kept"])
    text: str = request.form.get(f"{name}-file") or request.form.get(name) or ""
    return text.replace("\r\n", "\n")


def field(name: str) -> str:
    """A field of one line, without blanks around it."""
    return " ".join(request.form.get(name, "").split())


def download(content: str | bytes, name: str, kind: str = "text/plain; charset=utf-8") -> Response:
    """An answer that the browser keeps as a file."""
    answer = make_response(content if isinstance(content, bytes) else content.encode("utf-8", "replace"))
    answer.headers["Content-Type"] = kind
    answer.headers["Content-Disposition"] = f'attachment; filename="{name}"'
    return answer
