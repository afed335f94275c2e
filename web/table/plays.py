"""A play as people type it: its place and its word are told apart, and a word of small letters alone is one that was typed without capitals, unless
it may be of blanks. Nothing here knows the rules of the game."""
from __future__ import annotations

import re
from typing import Optional

PLACE = re.compile(r"[0-9]{1,2}[A-Oa-o]|[A-Oa-o][0-9]{1,2}")
GLUED = re.compile(rf"({PLACE.pattern})([A-Za-z.()]+)")
WORD = re.compile(r"[A-Za-z.()?]+")
NUMBER = re.compile(r"[+-]?[0-9]{1,6}")
LARGE, SMALL = "large", "small"


def is_place(field: str) -> bool:
    """Whether a field is the place of a play."""
    return bool(PLACE.fullmatch(field))


def parted(text: str) -> str:
    """A play with a blank between its place and its word, and with the place in front: `8DCELON`, `F 6 Qu.` and `QU F6` are read so."""
    if text.startswith(("-", "(", ">")):
        return text
    fields = _joined(text.split())
    places = [at for at, it in enumerate(fields) if is_place(it)]
    if not places and fields and (glued := GLUED.fullmatch(fields[0])):
        fields[:1] = [glued[1], glued[2]]
    elif places[:1] == [1] and WORD.fullmatch(fields[0]) and not any(WORD.fullmatch(it) for it in fields[2:]):
        fields[:2] = [fields[1], fields[0]]
    return " ".join(it.upper() if is_place(it) else it for it in fields)


def _joined(fields: list[str]) -> list[str]:
    """Fields in which a letter and a number that make a place together are one."""
    for at, pair in enumerate(zip(fields, fields[1:])):
        if all(len(it) < 3 and it.isalnum() for it in pair) and is_place("".join(pair)) and not any(is_place(it) for it in fields):
            return [*fields[:at], "".join(pair), *fields[at + 2 :]]
    return fields


def word_of(move: str) -> str:
    """The word of a play that is parted."""
    fields = move.split()
    at = next((at for at, it in enumerate(fields) if is_place(it)), len(fields))
    return fields[at + 1] if at + 1 < len(fields) else ""


def case_of(move: str, rack: str) -> Optional[str]:
    """Whether a word of small letters alone is meant in capitals, or of blanks; nothing if both may be. Other words stay as they are."""
    letters = [letter for letter in word_of(move) if letter.isalpha()]
    if not letters or not all(letter.islower() for letter in letters):
        return SMALL
    if rack.count("?") < len(letters):
        return LARGE
    left = list(rack.upper())
    for letter in letters:
        if letter.upper() not in left:
            return SMALL
        left.remove(letter.upper())
    return None


def with_case(move: str, case: str) -> str:
    """A play with its word in capitals, if that is meant."""
    word = word_of(move)
    return move.replace(f" {word}", f" {word.upper()}", 1) if case == LARGE and word else move
