"""What the page is started with: the files, the program, the names by which it may be called, and the limits."""
from __future__ import annotations

import os
import secrets
from dataclasses import dataclass, field
from typing import Mapping, Optional

MOST_BYTES = 1 << 20
OWN_NAMES = frozenset({"127.0.0.1", "localhost", "::1"})


@dataclass(frozen=True)
class WordList:
    """A word list: its name, its file, and the file of its lexicon."""

    name: str
    words: str
    lexicon: str


@dataclass(frozen=True)
class Rules:
    """Rules: their name, and their file, if they are not those that the program has."""

    name: str
    file: Optional[str] = None


ENGLISH = Rules("English")


@dataclass(frozen=True)
class Settings:
    """The settings of a page. The first list and the first rules are those of a game for which nothing is chosen."""

    lists: tuple[WordList, ...]
    rules: tuple[Rules, ...] = (ENGLISH,)
    first_field: bool = False
    skip_others: bool = False
    program: str = "referee"
    names: frozenset[str] = OWN_NAMES
    secret: str = field(default_factory=lambda: secrets.token_hex(32), repr=False)
    seconds: float = 10.0
    most_bytes: int = MOST_BYTES


def settings_of(environment: Mapping[str, str] = os.environ) -> Settings:
    """The settings that the variables of the environment say, which start.sh sets: of the lists and of the rules a line has each, with tabs
    between."""
    other_names = environment.get("TABLE_NAMES", "").split()
    rules = tuple(Rules(*line.split("\t")) for line in environment.get("TABLE_RULES", "").splitlines())
    return Settings(
        lists=tuple(WordList(*line.split("\t")) for line in environment["TABLE_LISTS"].splitlines()),
        rules=tuple(Rules(it.name, it.file or None) for it in rules) or (ENGLISH,),
        first_field=bool(environment.get("TABLE_FIRST_FIELD")),
        skip_others=bool(environment.get("TABLE_SKIP_OTHERS")),
        program=environment.get("TABLE_PROGRAM") or "referee",
        names=OWN_NAMES | {name.lower() for name in other_names},
        secret=environment.get("TABLE_SECRET") or secrets.token_hex(32),
        seconds=float(environment.get("TABLE_SECONDS") or 10),
    )
