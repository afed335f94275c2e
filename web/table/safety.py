"""What keeps the page to its own: the name by which it is called, a token against forms of other sites, strict headers, and short requests."""
from __future__ import annotations

import hashlib
import hmac
import secrets
from typing import Optional
from urllib.parse import urlsplit

from flask import Flask, Response, abort, g, make_response, render_template, request

from referee import text_of

from .settings import Settings

COOKIE = "table"
POLICY = {
    "default-src": "'none'",
    "style-src": "'self'",
    "script-src": "'self'",
    "img-src": "'self'",
    "connect-src": "'self'",
    "frame-src": "data:",
    "form-action": "'self'",
    "base-uri": "'none'",
    "frame-ancestors": "'none'",
}
HEADERS = {
    "X-Frame-Options": "DENY",
    "X-Content-Type-Options": "nosniff",
    "Referrer-Policy": "same-origin",
    "Cross-Origin-Resource-Policy": "same-origin",
    "Cross-Origin-Opener-Policy": "same-origin",
    "Permissions-Policy": "camera=(), microphone=(), geolocation=(), payment=(), usb=()",
}


def name_in(host: str) -> Optional[str]:
    """The name of a host, without its port."""
    try:
        return urlsplit("//" + host).hostname
    except ValueError:
        return None


class Guard:
    """The checks of a request, and the headers of an answer."""

    def __init__(self, app: Flask, settings: Settings) -> None:
        self.settings = settings
        app.config["MAX_CONTENT_LENGTH"] = settings.most_bytes
        app.before_request(self.check)
        app.after_request(self.finish)
        app.jinja_env.globals["token"] = self.token

    def check(self) -> Optional[Response]:
        """Refuses a request that does not come from a page of this server."""
        if name_in(request.host) not in self.settings.names:
            abort(403, "This page is not called by that name.")
        self.check_length()
        if request.method == "POST" or request.args:
            self.check_origin()
        if request.method == "POST":
            if not self.has_token():
                return self.asked_again()
        return None

    def check_length(self) -> None:
        """A request says how long it is, and it is short."""
        if "Transfer-Encoding" in request.headers or request.method == "POST" and request.content_length is None:
            abort(411, "The request does not say how long it is.")
        if (request.content_length or 0) > self.settings.most_bytes:
            abort(413)

    def check_origin(self) -> None:
        """A form of another site is refused, and a link of another site that brings more than a path."""
        origin = request.headers.get("Origin")
        if origin is not None and urlsplit(origin).netloc != request.host:
            abort(403, "Another site may not ask.")
        if request.headers.get("Sec-Fetch-Site", "same-origin") not in ("same-origin", "none"):
            abort(403, "Another site may not ask.")

    def has_token(self) -> bool:
        """Whether a form has the token that goes with the cookie of its browser."""
        token = request.form.get("token", "")
        return hmac.compare_digest(token.encode(), self.token_of(request.cookies.get(COOKIE, "")).encode())

    def asked_again(self) -> Response:
        """A form without the token, such as one from before the server was started again, is shown again, so that nothing that was typed is lost."""
        fields = [(name, text) for name, text in request.form.items(multi=True) if name != "token"]
        fields += [(name, text_of(sent.read())) for name, sent in request.files.items() if sent.filename]
        return make_response(render_template("stale.html", fields=fields, path=request.path), 403)

    def token_of(self, cookie: str) -> str:
        """The token that goes with a cookie."""
        return hmac.new(self.settings.secret.encode(), cookie.encode(), hashlib.sha256).hexdigest()

    def token(self) -> str:
        """The token of a form in this answer."""
        if "cookie" not in g:
            g.cookie = request.cookies.get(COOKIE) or secrets.token_urlsafe(24)
        return self.token_of(g.cookie)

    def finish(self, answer: Response) -> Response:
        """The headers of an answer."""
        policy = POLICY | ({"style-src": f"'self' {g.style}"} if "style" in g else {})
        answer.headers["Content-Security-Policy"] = "; ".join(f"{key} {value}" for key, value in policy.items())
        answer.headers.extend(HEADERS)
        answer.headers["Cache-Control"] = "no-cache" if request.endpoint == "static" else "private, max-age=0"
        if "cookie" in g and request.cookies.get(COOKIE) != g.cookie:
            answer.set_cookie(COOKIE, g.cookie, httponly=True, samesite="Strict")
        return answer
