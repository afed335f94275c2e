"""The table: a web page for games of Scrabble, which asks `referee serve` for everything that it says.

Nothing is stored on the server: the state is the text of the record, which is in the form and in the address of each page.
"""
from __future__ import annotations

import atexit
import sys
from typing import Optional, Union

from flask import Flask, Response, g, make_response, render_template
from referee import RefereeError
from werkzeug.exceptions import HTTPException, RequestEntityTooLarge

from . import entering, evening, sheets, shown
from .forms import chosen, further, judges
from .judge import Judges, TooLong
from .safety import Guard
from .settings import ENGLISH, Settings, settings_of

__all__ = ["create_app"]


def create_app(settings: Optional[Settings] = None) -> Flask:
    """The page, with its program started."""
    settings = settings or settings_of()
    app = Flask(__name__)
    app.jinja_env.trim_blocks = app.jinja_env.lstrip_blocks = True
    app.jinja_env.filters["sentence"] = shown.sentence
    app.jinja_env.filters["event_text"] = shown.event_text
    programs = app.extensions["judges"] = Judges(settings)
    _start(programs)
    app.jinja_env.globals.update(chosen_list=_chosen_list, chosen_names=chosen, further=further)
    app.jinja_env.globals.update(many_lists=len(programs.lists) > 1, many_rules=len(programs.rules) > 1)
    atexit.register(programs.close)
    Guard(app, settings)
    app.register_blueprint(entering.pages)
    app.register_blueprint(sheets.pages)
    app.register_blueprint(evening.pages)
    app.register_error_handler(HTTPException, _refused)
    app.register_error_handler(TooLong, _too_long)
    app.register_error_handler(RefereeError, _broken)
    return app


def _start(programs: Judges) -> None:
    """Starts the program with the first list and rules. If it does not start, that is said in a line, and the page ends."""
    try:
        programs.of(programs.names()).words
    except RefereeError as error:
        print(f"the table: the program did not start: {error}", file=sys.stderr, flush=True)
        raise SystemExit(3) from None


def _chosen_list() -> str:
    """The list of this page, with its size."""
    names = chosen()
    rules = f", rules {names[1]}" if names[1] != ENGLISH.name else ""
    return f"{names[0]}: {judges().of(names).words:,} words{rules}"


def _told(status: int, heading: str, text: str) -> Response:
    g.setdefault("chosen", judges().names())
    return make_response(render_template("refused.html", heading=heading, text=text), status)


def _refused(error: HTTPException) -> Union[Response, HTTPException]:
    """A request that is not answered, with the reason."""
    if isinstance(error, RequestEntityTooLarge):
        return _told(413, "That is too much", "A record has no more than 1 MiB.")
    headings = {404: "There is no such page", 405: "There is no such page"}
    code = error.code or 500
    text = "The address leads nowhere. The links above lead to all that there is." if code in headings else error.description or ""
    return _told(code, headings.get(code, "That is not possible"), text)


def _too_long(_: TooLong) -> Response:
    text = "There was no answer within the time that one request may take, so that others need not wait. Nothing is lost: go back and try it again."
    return _told(503, "That takes too long", text)


def _broken(_: RefereeError) -> Response:
    return _told(503, "No answer", "The program did not answer. Nothing is lost: go back and try it again.")
