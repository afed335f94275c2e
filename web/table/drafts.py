"""The text of a draft: a record in whose event lines the numbers at the end may be missing.

Nothing here knows the rules of the game. A line is told apart by its fields alone: a field with a digit that does not begin with `-` is a position,
and one that begins with `-` or `(` is a code; anything else is a rack, and what follows it is read the same way.
"""
from __future__ import annotations

import re
from dataclasses import dataclass
from typing import Mapping, Optional

HEADER = "#character-encoding UTF-8\n"
EVENT = re.compile(r"^>\s*([^\s:]+):(.*)$")
PLAYER = re.compile(r"^#player([12])[ \t]+([^\s:]+)(?:[ \t]+(.*?))?[ \t]*$")
NUMBER = re.compile(r"^[+-]?[0-9]{1,6}$")
ABOUT = ("event", "round", "table", "date")


@dataclass(frozen=True)
class Fields:
    """The fields of an event line."""

    nick: str
    rack: Optional[str]
    move: list[str]
    numbers: list[str]

    @property
    def missing(self) -> int:
        """How many numbers are missing at the end."""
        return max(0, 2 - len(self.numbers))


def fields_of(line: str) -> Optional[Fields]:
    """The fields of a line, if it is that of an event."""
    found = EVENT.match(line.rstrip())
    if not found:
        return None
    fields = found[2].split()
    rack = fields.pop(0) if fields and not _is_position(fields[0]) and not _is_code(fields[0]) else None
    many = 2 if fields and _is_position(fields[0]) else 1
    return Fields(found[1], rack, fields[:many], fields[many:])


def _is_position(field: str) -> bool:
    return not field.startswith("-") and any(letter in "0123456789" for letter in field)


def _is_code(field: str) -> bool:
    return field.startswith(("-", "("))


def lines_of(text: str) -> list[str]:
    """The lines of a text, without their ends."""
    return text.replace("\r\n", "\n").split("\n")


def with_line(text: str, line: str) -> str:
    """A text with one more line."""
    return (text if not text or text.endswith("\n") else text + "\n") + line + "\n"


def event_lines(text: str) -> list[int]:
    """The numbers of the lines that begin with `>`."""
    return [number for number, line in enumerate(lines_of(text), 1) if line.startswith(">")]


def without_line(text: str, number: int) -> str:
    """A text without one of its lines."""
    lines = lines_of(text)
    return "\n".join(lines[: number - 1] + lines[number:])


def without_last(text: str) -> str:
    """A text without its last event."""
    events = event_lines(text)
    return without_line(text, events[-1]) if events else text


def with_line_at(text: str, number: int, line: str, is_new: bool = False) -> str:
    """A text with another line in place of one, or with a new one before it."""
    lines = lines_of(text)
    return "\n".join([*lines[: number - 1], line, *lines[number - is_new :]])


def bare_from(text: str, number: int) -> str:
    """A text whose events have no totals from a line on, and no scores but those of challenges and penalties, so that they can be filled in again."""
    lines = lines_of(text)
    return "\n".join([*lines[: number - 1], *(_bare(line) for line in lines[number - 1 :])])


def _bare(line: str) -> str:
    fields = fields_of(line)
    if fields is None:
        return line
    is_typed = fields.move[:1] in (["(challenge)"], ["(time)"])
    return " ".join([f">{fields.nick}:", *([fields.rack] if fields.rack else []), *fields.move, *(fields.numbers[:1] if is_typed else [])])


def pragma_of(text: str, name: str) -> str:
    """What a record says after a pragma, the first time."""
    found = re.search(rf"^#{name}[ \t]+(.*?)[ \t]*\r?$", text, re.MULTILINE)
    return found[1] if found else ""


def with_pragma(text: str, name: str, said: str) -> str:
    """A record with a pragma before its events, if it has none of that name."""
    if not said or pragma_of(text, name):
        return text
    lines = lines_of(text)
    at = next((at for at, line in enumerate(lines) if line.startswith(">")), len(lines) - (lines[-1:] == [""]))
    return "\n".join([*lines[:at], f"#{name} {said}", *lines[at:]])


def has_holes(text: str) -> bool:
    """Whether numbers are missing at the ends of lines."""
    return any(fields.missing for line in lines_of(text) if (fields := fields_of(line)))


@dataclass(frozen=True)
class Player:
    """A player of a record: the nickname of the lines, and a name to show."""

    nick: str
    name: str


def players_of(text: str) -> list[Player]:
    """The players whom a text names, at most two."""
    found: dict[str, str] = {}
    for line in lines_of(text):
        if named := PLAYER.match(line):
            found.setdefault(named[2], named[3] or named[2])
        elif fields := fields_of(line):
            found.setdefault(fields.nick, fields.nick)
    return [Player(nick, name) for nick, name in found.items()][:2]


def started(first: str, second: str, lexicon: str = "", about: Mapping[str, str] = {}) -> str:
    """The text of a game that begins, with the players' names, the name of the list, and what else is known of it."""
    names = [" ".join(name.split()) for name in (first, second)]
    nicks = [_nick_of(name, f"Player{number}") for number, name in enumerate(names, 1)]
    if nicks[0] == nicks[1]:
        nicks[1] += "2"
    rows = [
        f"#player{number} {nick} {name}".rstrip() if name != nick else f"#player{number} {nick}"
        for number, (nick, name) in enumerate(zip(nicks, names), 1)
    ]
    text = HEADER + "\n".join(rows) + "\n"
    for name, said in (("lexicon", lexicon), *about.items()):
        text = with_pragma(text, name, " ".join(said.split()))
    return text


def _nick_of(name: str, otherwise: str) -> str:
    """The first word of a name, without a colon."""
    words = name.replace(":", "").split()
    return words[0] if words else otherwise


def file_name(text: str, end: str) -> str:
    """A name for a file of a game, in plain letters: the nicknames, and what else is known of the game."""
    parts = [_plain(player.nick) for player in players_of(text)]
    about = {name: _plain(pragma_of(text, name)) for name in ABOUT}
    parts += [about["event"], *(f"{name}-{about[name]}" for name in ("round", "table") if about[name]), about["date"]]
    return "-".join([part for part in parts if part] or ["game"]) + end


def _plain(text: str) -> str:
    """A text in small letters, digits and hyphens alone."""
    kept = ["".join(letter for letter in word if letter.isascii() and letter.isalnum()).lower() for word in re.split(r"[\s_./-]+", text)]
    return "-".join(word for word in kept if word)[:40]


def kept_tiles(fields: Fields) -> Optional[str]:
    """The tiles of a stated rack that the line does not put down, hand in or exchange; nothing if that is not plain from the line."""
    if fields.rack is None or not fields.move:
        return None
    used = _used(fields.move)
    left = sorted(fields.rack.upper().replace("?", "~"))
    for tile in used:
        if tile not in left:
            return None
        left.remove(tile)
    return "".join(left).replace("~", "?")


def _used(move: list[str]) -> list[str]:
    """The tiles that a line names: of a play each letter that is not a dot, and of an exchange its tiles."""
    if len(move) == 2:
        return ["~" if letter.islower() else letter for letter in re.sub(r"\([^)]*\)|\.", "", move[1])]
    return list(move[0][1:].replace("?", "~")) if re.match(r"^-[A-Z?]+$", move[0]) else []
