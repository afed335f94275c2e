"""The lines of a record that its reader passes over although they look like events, and the lines that begin like events and are none, by the second
judge: why each is not read, and the sentences that name them."""
import re

from records import BLANKS, Fault, code, number, position, read

MOST_NAMED = 10
NAMES = {"blank": "blank before >", "before": "something before >", "sign": "another sign than >", "none": "no >", "parts": "parts of an event"}
SENTENCES = {
    "blank": "it has a blank before its >",
    "before": "it has something before its >",
    "sign": "it begins with another sign than >",
    "none": "it has no > in front",
    "parts": "it has a position or a code and two numbers, but no > in front",
}
SIGNS = b"!\"#$%&'()*+,-./:;<=>?@[\\]^_`{|}~"


def lines_in(game):
    """The lines of a text with their numbers."""
    return enumerate((line.removesuffix(b"\r") for line in game.removeprefix(b"\xef\xbb\xbf").split(b"\n")), 1)


def is_event(text):
    """Whether a line alone is a record with an event."""
    try:
        return bool(read(text)[1])
    except Fault:
        return False


def has_move(line):
    """Whether fields in a row are a position or a code, and two numbers; a word may be between."""
    fields = [field for field in re.split(rb"[ \t]+", line.strip(BLANKS)) if field]
    numbers = [number(field) is not None for field in fields] + [False] * 3
    for k, field in enumerate(fields):
        here, later = numbers[k + 1] and numbers[k + 2], numbers[k + 2] and numbers[k + 3]
        if here and code(field) or (here or later) and position(field):
            return True
    return False


def why_of(line, in_note):
    """Why a line is not read, if it looks like an event; in a note only a whole event does."""
    if not line or line[:1] in (b">", b"#"):
        return None
    front, mark, rest = line.partition(b">")
    if mark and is_event(mark + rest):
        return "before" if front.strip(b" \t\xc2\xa0") else "blank"
    if is_event(b">" + line):
        return "sign" if line[0] in SIGNS else "none"
    return "parts" if not in_note and has_move(line) else None


def unread(game):
    """The lines that are not read although they look like events, each with its reason."""
    found, in_note = [], False
    if len(game) > 1 << 20:
        return found
    for line, text in lines_in(game):
        why = why_of(text, in_note)
        if why:
            found.append((line, why))
        if text[:1] in (b">", b"#"):
            in_note = text.startswith(b"#note")
    return found


def faulty(game):
    """The lines that begin with > and are not events, whatever the other lines are."""
    if len(game) > 1 << 20:
        return
    for line, text in lines_in(game):
        if text.startswith(b">"):
            try:
                read(text)
            except Fault as fault:
                yield Fault(line, fault.why)


def others(game, first):
    """Those but the first fault of a text."""
    return [fault for fault in faulty(game) if fault.line != first.line]


def more_text(many, one, several):
    more = many - MOST_NAMED
    return "" if more < 1 else f"{more} more line{'' if more == 1 else 's'} {one if more == 1 else several}.\n"


def unread_text(game):
    """The sentences that name the lines that are not read."""
    found = unread(game)
    told = "".join(f"Line {line} is not read: {SENTENCES[why]}.\n" for line, why in found[:MOST_NAMED])
    return told + more_text(len(found), "is not read", "are not read")


def time_racks(game):
    """The sentences that name the lines with `(TIME)`, which is a last rack."""
    there = [line for line, text in lines_in(game) if text.startswith(b">") and b"(TIME)" in re.split(rb"[ \t]+", text)]
    return "".join(f"(TIME) on line {line} is a last rack with the tiles T, I, M and E: a penalty is written (time).\n" for line in there)


def unread_objects(game):
    """The lines that are not read as objects have them."""
    return [{"line": line, "why": NAMES[why]} for line, why in unread(game)]


def unread_advice(name, game):
    """What standard error says of the lines that are not read."""
    found = unread(game)
    told = [f"referee: {name}: line {line} is not read: {SENTENCES[why]}\n" for line, why in found[:MOST_NAMED]]
    if len(found) > MOST_NAMED:
        told.append(f"referee: {name}: more lines that are not read: {len(found) - MOST_NAMED}\n")
    return "".join(told).encode()
