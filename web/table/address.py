"""How a game travels: its text, packed, is in the address of its page. So each page can be opened again, and nothing is stored on the server."""
from __future__ import annotations

import base64
import binascii
import zlib
from typing import Any, Callable, Union

from flask import abort, redirect, url_for
from werkzeug.wrappers import Response

from .settings import MOST_BYTES

LONGEST = 7000
Page = Union[str, Response]


def packed(text: str) -> str:
    """A text as an address has it."""
    return base64.urlsafe_b64encode(zlib.compress(text.encode("utf-8", "replace"), 9)).decode().rstrip("=")


def unpacked(state: str) -> str:
    """The text that an address has."""
    try:
        found = zlib.decompressobj()
        text = found.decompress(base64.b64decode(state + "=" * (-len(state) % 4), altchars=b"-_", validate=True), MOST_BYTES)
        if found.eof:
            return text.decode("utf-8")
    except (binascii.Error, zlib.error, ValueError):
        pass
    abort(400, "This is not the address of a page that was shown here: a part of it is missing.")


def led_to(place: str, show: Callable[[dict[str, str]], Page], **parts: str) -> Page:
    """The way to the page that a GET gives, which these parts of its address say. If the address would be too long, the page is the answer itself."""
    given: dict[str, Any] = {name: part for name, part in parts.items() if part}
    address = url_for(place, **given)
    return redirect(address, 303) if len(address) < LONGEST else show(given)
