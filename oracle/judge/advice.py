"""What standard error gets in addition to an answer: what is wrong with a file that is no game, by the second judge."""
import re

from archive_lines import states_latin, text_of
from explains import missing, record_text
from records import Fault, read
from unread import MOST_NAMED, others, unread_advice

BOM = b"\xef\xbb\xbf"
SETTLE = b"referee: unsettled: `judge --settle` searches for a deal that yields the racks\n"
BLANK = re.compile(b"[ \t]+")
INDENTED = "its lines begin with blanks before the >"
WORDS = "it is a word list, and the files are WORDS, LEXICON and GAME, in this order"
OTHER = "no line begins with >"
RECORD = ("judge", "top", "tidy", "board", "audit", "explain", "repair", "compare", "page", "annotate")


def fields_of(text):
    return [it for it in BLANK.split(text) if it]


def lines_of(text):
    return [line.removesuffix(b"\r") for line in text.removeprefix(BOM).split(b"\n")]


def kind_of(text):
    """What a file without an event seems to be."""
    first = fields_of(text.removeprefix(BOM))[:1]
    if not text:
        return "it is empty"
    if text[:4] in (b"GAD1", b"GAD2"):
        return "it is a compiled lexicon"
    if text.startswith(b"\x1f\x8b"):
        return "it is compressed (gzip)"
    if text.startswith(b"PK\3\4"):
        return "it is compressed (zip)"
    if text[:2] in (b"\xff\xfe", b"\xfe\xff") or 0 in text[:2]:
        return "it is text in UTF-16, and records are read as UTF-8 or ISO-8859-1"
    if first and first[0].startswith(b"<"):
        return "it is HTML or another markup"
    if b"\r" in text and b"\n" not in text:
        return "its lines end only in CR, not in LF or CR LF"
    if any(line[:1] != b">" and (fields_of(line) or [b""])[0].startswith(b">") for line in lines_of(text)):
        return INDENTED
    if re.match(b"[A-Za-z]", text.removeprefix(BOM)) and all(re.fullmatch(rb"([A-Za-z]{2,15})?", line) for line in lines_of(text)):
        return WORDS
    return OTHER


def bad_record(name, game):
    """What is said of the first fault of a text that is no record, and of its other lines that begin like events and are none."""
    try:
        read(game)
    except Fault as fault:
        more = others(game, fault)
        told = b"".join(fault_advice(name, game, it) for it in [fault, *more[:MOST_NAMED]])
        if len(more) > MOST_NAMED:
            told += f"referee: {name}: more lines that begin with > and are not events: {len(more) - MOST_NAMED}\n".encode()
        return told
    return b""


def fault_advice(name, game, fault):
    """What is said of a fault."""
    place = f" line {fault.line}" if fault.line else ""
    said = record_text(game, fault).removesuffix(b"\n") + (missing(lines_of(game)[fault.line - 1], fault.why) if fault.line else b"")
    kind = kind_of(game)
    more = "" if kind in (INDENTED, OTHER, WORDS) else f" ({kind})"
    return f"referee: {name}{place}: {text_of(said, states_latin(game))}{more}\n".encode()


def no_game(name, game):
    """Why a text has no event, where it has none."""
    if any(line.startswith(b">") for line in lines_of(game)):
        return b""
    return f"referee: {name} has no event: {kind_of(game)}\n".encode()


def advice(command, output, name, game, rack=None):
    """What standard error gets in addition to what a command printed of a game; a rack is that of the command line. Which lines are not read is said
    of each record that was read."""
    if (
        command not in RECORD
        or output.startswith((b"bad rules", b"bad word list", b"bad lexicon"))
        or rack is not None
        and output.startswith(b"bad rack")
    ):
        return b""
    told = b""
    if output.startswith(b"bad record"):
        told = b"" if command == "explain" else bad_record(name, game)
    elif not output.startswith(b"bad rack") and (game or command != "top"):
        told = no_game(name, game)
    return told + unread_advice(name, game) + (SETTLE if command == "judge" and output == b"unsettled\n" else b"")
