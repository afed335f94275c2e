"""A ruling on words that are challenged. What cannot be read as words is never ruled on."""
from __future__ import annotations

import re
from dataclasses import dataclass
from typing import Any

from .forms import judge

STRAY = ".:!?'\"()[]“”‘’"
WORD = re.compile(r"[A-Za-z]{2,15}")


@dataclass(frozen=True)
class Ruling:
    """Words as they were typed, those of them that cannot be read, and whether all others are acceptable, if all can be read."""

    words: list[str]
    unread: list[str]
    is_acceptable: bool
    each: list[dict[str, Any]]

    @property
    def is_ruled(self) -> bool:
        """Whether there is a ruling."""
        return bool(self.words) and not self.unread


def of(text: str, each: bool) -> Ruling:
    """The ruling on the words of a text: one for all of them, and if that is asked for, one for each."""
    words = [word.strip(STRAY) for word in re.findall(r"[^\s,;]+", text)]
    words = [word.upper() for word in words if word]
    unread = [word for word in words if not WORD.fullmatch(word)]
    if unread or not words:
        return Ruling(words, unread, False, [])
    answer = judge().word(words)
    if answer["verdict"] not in ("acceptable", "not acceptable"):
        return Ruling(words, words, False, [])
    return Ruling(words, [], answer["verdict"] == "acceptable", list(answer["words"]) if each else [])
