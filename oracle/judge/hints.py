"""What standard error says in addition to the line that says that an input is bad, by the second judge."""
import re
from pathlib import Path

VALUED = ("--rules", "--before", "--number", "--names", "--pages", "--corrected", "--repaired", "--skip", "--top")
NUMBERS = ("bonus", "exchange_min", "zero_limit", "challenge_unit", "time_step")
ITEMS = [f"tile {it}" for it in "ABCDEFGHIJKLMNOPQRSTUVWXYZ?"] + [f"row {it}" for it in range(1, 16)] + list(NUMBERS)


def option(words, name):
    """The value of an option of a command line, or nothing."""
    return next((words[k + 1] for k, it in enumerate(words) if it == name), None)


def operands(words):
    """The names of a command line: what comes after the command, without options and their values."""
    found, k, plain = [], 1, False
    while k < len(words):
        if plain or not words[k].startswith("-") or words[k] == "-":
            found.append(words[k])
        elif words[k] == "--":
            plain = True
        k += 2 if not plain and words[k] in VALUED else 1
    return found


def statements(text):
    """The fields of the lines of a rules text that state something."""
    lines = text.removeprefix(b"\xef\xbb\xbf").decode("latin-1").split("\n")
    fields = (re.split("[ \t]+", it.removesuffix("\r").strip(" \t")) for it in lines if not it.startswith("#"))
    return [it for it in fields if it != [""]]


def item(fields):
    """What a statement is about."""
    return f"row {int(fields[1])}" if fields[0] == "row" else " ".join(fields[:2]) if fields[0] == "tile" else fields[0]


def missing(text):
    """The items that a rules text leaves out."""
    stated = {item(it) for it in statements(text)}
    return "the rules text has no line for " + ", ".join(it for it in ITEMS if it not in stated)


def limit(text):
    """The first number of a rules text that is outside its limits."""
    stated = statements(text)
    tiles = sum(int(it[2]) for it in stated if it[0] == "tile")
    if not 14 <= tiles <= 200:
        return f"the rules text has {tiles} tiles together, and may have 14 to 200"
    for it in stated:
        if it[0] == "tile" and int(it[3]) > 99:
            return f"tile {it[1]} has {int(it[3])} points in the rules text, and may have 0 to 99"
        if it[0] in NUMBERS[1:] and not 1 <= int(it[1]) <= 99:
            return f"{it[0]} is {int(it[1])} in the rules text, and may be 1 to 99"
    return None


def rack_clause(rack):
    """What is wrong with the rack of a command line, or that it has none."""
    if rack is None:
        return "the line shows no rack: name one after GAME"
    for tile in (it.upper() if it.isascii() else it for it in rack):
        if not (tile == "?" or tile.isascii() and tile.isupper()):
            return f"'{tile}' in the rack is not a tile: tiles are A to Z, and ? for a blank"
    if not rack:
        return "the rack has no tile, and a rack has 1 to 7"
    if len(rack) > 7:
        return f"the rack has {len(rack)} tiles, and a rack has 1 to 7"
    return f"the tiles of a rack are capitals: perhaps {rack.upper()} is meant"


def clause_of(words, line, folder, stdin):
    """What may help in addition to the line of a fault, or nothing."""
    names = operands(words)
    if line.startswith(b"bad rack"):
        return rack_clause(names[3] if len(names) > 3 else None)
    for front, told in ((b"bad rules: Missing", missing), (b"bad rules: Limits", limit)):
        if line.startswith(front):
            return told(Path(folder, option(words, "--rules")).read_bytes())
    if words[0] in ("convert", "board", "tidy") or not line.startswith((b"bad word list", b"bad lexicon")):
        return None
    listed = "standard input" if names[0] == "-" else names[0]
    if line.startswith(b"bad word list"):
        front = (stdin if names[0] == "-" else Path(folder, names[0]).read_bytes())[:64]
        if front[:4] in (b"GAD1", b"GAD2"):
            return f"{listed} is a compiled lexicon, not a word list: the two names are the wrong way round"
        is_record = re.match(rb"(\xef\xbb\xbf)?(>|#[a-z])", front)
        return f"{listed} is a game record, not a word list: the files are WORDS, LEXICON and GAME, in this order" if is_record else None
    if line.startswith((b"bad lexicon: Missing", b"bad lexicon: Extra", b"bad lexicon: WordCount")):
        return f"{names[1]} is not the lexicon of {listed}, but of another list: referee build makes the right one"
    return None


def beside(words, line, folder=".", stdin=b""):
    """What standard error gets in addition to the line of a fault of an input: for `build` and `convert`, whose line goes into OUT, the line itself
    too."""
    words = [str(it) for it in words]
    said = b""
    if words[0] in ("build", "convert"):
        name = operands(words)[words[0] == "convert"]
        said = f"referee: {'standard input' if name == '-' and words[0] == 'build' else name}: ".encode() + line
    clause = clause_of(words, line, folder, stdin)
    return said + (f"referee: {clause}\n".encode() if clause else b"")
