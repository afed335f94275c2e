"""Runs the compiled program through its statuses and texts: program PROGRAM [large]

Every row is a command line with what has to come of it: the exit status, the bytes on standard output, the text on standard
error, and what is in the file OUT of `build` and `convert`. The answers were made by hand from the rules and the formats. With `large`
there are rows of lexicon files at the limits of their formats too, which take some hundred megabytes of disk and of memory.
"""
import gzip
import json
import os
import pty
import resource
import struct
import subprocess
import sys
import tempfile
import tty
from pathlib import Path
from urllib.parse import unquote

import web
from comparison_texts import is_text_of
from explain_rows import explain_rows
from hints import beside
from repair_rows import NOT_DEALT, OPEN, SHORT_OF

AT_FILE = bytes.fromhex("47414431 05000000 04000000 01000000 74000000 c0000000 61000000 01010000 d4010000")
AT_IT_FILE = bytes.fromhex("47414431 07000000 05000000 02000000 74000000 c0000000 21000000 69000000 01010000 09010000 d4010000")
EMPTY_FILE = bytes.fromhex("47414431 00000000 00000000 00000000")
AT_MASKS = bytes.fromhex(
    "47414432 0d000000 0a000000 01000000 00001080 00001000 00000000 01000080 00000000 01000000"
    "02000080 02000000 00000000 02001080 00000000 04000000 07000000"
)
EMPTY_MASKS = b"GAD2" + EMPTY_FILE[4:]
# 25 nodes of the labels A and B, each with both arcs to the one before: 2 to the 25 strings, of which none is to be gone through.
FAN = struct.pack("<4s5I", b"GAD1", 50, 49, 1, 33, 98) + b"".join(struct.pack("<2I", 1 | j << 7, 66 | j << 7) for j in range(1, 48, 2))
ENGLISH_RULES = """\
tile A 9 1
tile B 2 3
tile C 2 3
tile D 4 2
tile E 12 1
tile F 2 4
tile G 3 2
tile H 2 4
tile I 9 1
tile J 1 8
tile K 1 5
tile L 4 1
tile M 2 3
tile N 6 1
tile O 8 1
tile P 2 3
tile Q 1 10
tile R 6 1
tile S 4 1
tile T 6 1
tile U 4 1
tile V 2 4
tile W 2 4
tile X 1 8
tile Y 2 4
tile Z 1 10
tile ? 2 0
row 1 T..d...T...d..T
row 2 .D...t...t...D.
row 3 ..D...d.d...D..
row 4 d..D...d...D..d
row 5 ....D.....D....
row 6 .t...t...t...t.
row 7 ..d...d.d...d..
row 8 T..d...D...d..T
row 9 ..d...d.d...d..
row 10 .t...t...t...t.
row 11 ....D.....D....
row 12 d..D...d...D..d
row 13 ..D...d.d...D..
row 14 .D...t...t...D.
row 15 T..d...T...d..T
bonus 50
exchange_min 7
zero_limit 6
challenge_unit 5
time_step 5
"""
ROW_8 = "row 8 T..d...D...d..T\n"


def with_counts(count):
    """The English rules with other counts of the tiles, by the kind and the count that it has."""
    lines = (line.split() for line in ENGLISH_RULES.splitlines())
    told = ([it[0], it[1], str(count(it[1], int(it[2]))), it[3]] if it[0] == "tile" else it for it in lines)
    return "".join(" ".join(line) + "\n" for line in told)


TWO_SETS = with_counts(lambda kind, count: 2 * count)
NO_EVENT = {  # what is said of a file without an event
    name: f"referee: {name if name != '-' else 'standard input'} has no event: {why}"
    for names, why in [
        ("nothing -", "it is empty"),
        ("page", "it is HTML or another markup"),
        ("full-game named plain", "no line begins with >"),
        ("indented", "its lines begin with blanks before the >\nreferee: indented: line 1 is not read: it has a blank before its >"),
        ("at word", "it is a word list, and the files are WORDS, LEXICON and GAME, in this order"),
        ("utf-16", "it is text in UTF-16, and records are read as UTF-8 or ISO-8859-1"),
        ("returns", "its lines end only in CR, not in LF or CR LF"),
        ("gzip", "it is compressed (gzip)"),
        ("zip", "it is compressed (zip)\nreferee: zip: line 1 is not read: it has something before its >"),
        ("at.gad at-masks.gad", "it is a compiled lexicon"),
    ]
    for name in names.split()
}
BAD = {  # what is said of the first fault of a file that is no record
    "number": "referee: number line 1: The score +x is not a number of 1 to 6 digits, with or without a sign.",
    "third": "referee: third line 3: C is a third nickname: the players are A and B.",
    "long-game": "referee: long-game: The file has more than 1,048,576 bytes, and no game record may be that long. Is it the wrong file?",
    "blank-nick": "referee: blank-nick line 1: There is a space or a tab inside the nickname before the colon. Write Ann_Lee.",
    "no-total": "referee: no-total line 1: 8E is not an event: an event is a play with its position, word, score and total, or one of the codes"
    " -, --, -TILES, -NUMBER, (challenge), (time) and (TILES). The score or the total is missing: an event ends with both.",
    "no-numbers": "referee: no-numbers line 1: There are 2 fields after the colon, but an event has 3 to 5. The score and the total are missing.",
    "numbers-alone": "referee: numbers-alone line 1: There are 2 fields after the colon, but an event has 3 to 5."
    " The play or the code before the score is missing.",
    "latin-third": "referee: latin-third line 4: \u00c9va is a third nickname: the players are A and B.",
    "returns-alone": "referee: returns-alone line 1: There are more than 5 fields after the colon, but an event has 3 to 5."
    " (its lines end only in CR, not in LF or CR LF)",
}
SETTLE = "referee: unsettled: `judge --settle` searches for a deal that yields the racks"
FOURTEEN = with_counts(lambda kind, count: "AADEEINORRSTTW".count(kind))
WORD = ">A: DORWAAE 8E WORD +16 16\n"
GOING_ON = ">B: - +0 0\n>A: - +0 16\n"
MISREAD = ">A: AADEORW 8E XORD +16 16\n"
PASSES = "".join(f">{'AB'[k % 2]}: - +0 0\n" for k in range(6))
LOST_RACKS = ">A: AEINRST (AEINRST) -7 -7\n>B: AEINRST (AEINRST) -7 -7\n"
ON_WORD = WORD + ">B: AT 9G AT +9 9\n"

BY_HAND = "\ufeff#title Final, table 3\r\n#player1 A  Ann  Lee \r\n>A:\tDORWAAE   8e  WORD  16  +16 \r\n#note Ann: 16? yes: 16 16\r\n"
OTHERS = "\t\r\n\r\n>A: - +0 016"

UNREAD_LINES = [  # lines that are passed over: those from line 2 to line 9 and line 12 look like events, the others do not
    " >A: (time) -5 11",
    "\u00a0\t>A: (time) -5 11",
    "2. >A: (time) -5 11",
    "=A: (time) -5 11",
    "A: (time) -5 11",
    "A (time) -5 11",
    "A: DORWAAEX 8H AT +9 9",
    "8H +9 9",
    "#note x",
    "8H AT 9 9",
    "A: (time) -5 11",
    "",
    "A: well played, 16 points of 31",
    "8E WORD 16",
]
UNREAD = {  # the number and the reason of each
    2: ("blank before >", "it has a blank before its >"),
    3: ("blank before >", "it has a blank before its >"),
    4: ("something before >", "it has something before its >"),
    5: ("another sign than >", "it begins with another sign than >"),
    6: ("no >", "it has no > in front"),
    7: ("parts of an event", "it has a position or a code and two numbers, but no > in front"),
    8: ("parts of an event", "it has a position or a code and two numbers, but no > in front"),
    9: ("parts of an event", "it has a position or a code and two numbers, but no > in front"),
    12: ("no >", "it has no > in front"),
}
TEXTS = {
    "people": "\ufeffAT\r\nit's\n\nAT 4\nA\nABCDEFGHIJKLMNOP\n# it\nit",
    "by-hand": f"{BY_HAND}>B: AT 9G AT +10 +010{OTHERS}",
    "word": "WORD\n",
    "at": "AT\n",
    "it-at": "it\nAT\nAt\n",
    "word-at-ra": "WORD\nAT\nRA\n",
    "nothing": "",
    "digit": "AT\nA1\n",
    "short-word": "A\n",
    "long-list": "\n" * 16_777_217,
    "full-list": "\n" * 16_777_216,
    "line": WORD,
    "misread": MISREAD,
    "as-blank": ">A: 8E WORD +8 8\n",
    "gone": WORD + ">A: - +0 16\n>B: - +0 9\n",
    "short-line": ">A: 8E WORD +16\n",
    "line-17": WORD.replace("16\n", "17\n"),
    "line-18": WORD.replace("+16 16", "+18 18"),
    "line-8d": WORD.replace("8E", "8D"),
    "turn": WORD + ">A: - +0 16\n",
    "blanks": ">A: ?? - +0 0\n>B: ? - +0 0\n",
    "big-rack": ">A: AEINRST 8H AT +4 4\n>B: - +0 0\n>A: AAABCDE - +0 4\n",
    "one-q": ">A: Q -Q +0 0\n>B: - +0 0\n>A: Q - +0 0\n",
    "one-q-earlier": ">A: Q -Q +0 0\n>B: - +0 0\n>A: Q - +0 0\n>B: - +0 0\n>A: Q - +0 0\n",
    "one-q-of-another": ">A: Q -Q +0 0\n>B: - +0 0\n>A: - +0 0\n>B: Q - +0 0\n>A: - +0 0\n>B: Q - +0 0\n",
    "one-of-seven-earlier": ">A: AEINRST -1 +0 0\n>B: - +0 0\n>A: BCDFGHJ - +0 0\n>B: - +0 0\n>A: - +0 0\n",
    "one-of-seven": ">A: AEINRST -1 +0 0\n>B: - +0 0\n>A: BCDFGHJ - +0 0\n",
    "two-of-seven": ">A: AEIN -2 +0 0\n>B: - +0 0\n>A: STUV - +0 0\n",
    "unknown": ">A: AEI -5 +0 0\n>B: QU - +0 0\n>A: SX - +0 0\n",
    "not-judged": ON_WORD + ">B: ZZZZZZZ -- -9 0\n>A: AT 9G AT +9 25\n",
    "ends": PASSES + LOST_RACKS,
    "too-soon": PASSES[: -len(">B: - +0 0\n")] + ">B: AEINRST (AEINRST) -7 -7\n",
    "unlisted": ON_WORD,
    "stops": WORD + ">B: 8G XX +9 9\n>A: - +0 16\n",
    "blank-word": "#player1 Ann Ann Lee\n#player2 Bob\n#note x\n>Ann: DOW? 8E WOrD +14 14\n",
    "withdrawn": ON_WORD + ">B: AT -- -9 0\n>A: AT 9G AT +9 25\n",
    "with-blank": ">A: ABCDEF? - +0 0\n",
    "no-play": ">A: AEIRSUV - +0 0\n>B: AEINRST - +0 0\n",
    "shown-rack": ">A: AT 8H AT +4 4\n>B: - +0 0\n",
    "wrong-score": ">A: AT 8H AT +5 5\n>B: AT - +0 0\n",
    "third": ">A: - +0 0\n>B: - +0 0\n>C: - +0 0\n",
    "number": ">A: 8E WORD +x 16\n",
    "long-game": "\n" * 1_048_577,
    "full-game": "\n" * 1_048_576,
    "english.rules": ENGLISH_RULES,
    "two-sets.rules": TWO_SETS,
    "fourteen.rules": FOURTEEN,
    "dressed.rules": "\ufeff# a remark\r\n\r\n" + ENGLISH_RULES.replace("\n", " \t\r\n").replace("row 8 ", "\t row  08\t"),
    "nineteen.rules": TWO_SETS.replace("A 18 1", "A 19 1"),
    "thirteen.rules": FOURTEEN.replace("A 2 1", "A 1 1"),
    "no-row.rules": ENGLISH_RULES.replace(ROW_8, ""),
    "in-front.rules": "tile ? 2 1\n" + ENGLISH_RULES,
    "behind.rules": ENGLISH_RULES + "bonus 50\n",
    "tiles.rules": "tiles A 9 1\n",
    "fields.rules": ENGLISH_RULES.replace("bonus 50", "bonus 50 points"),
    "name.rules": ENGLISH_RULES.replace("row 15 ", "row 16 "),
    "long.rules": ENGLISH_RULES + "\n" * (65_537 - len(ENGLISH_RULES)),
    "full.rules": ENGLISH_RULES + "\n" * (65_536 - len(ENGLISH_RULES)),
    "bonus-35.rules": ENGLISH_RULES.replace("bonus 50", "bonus 35"),
    "four-blanks": ">A: ?? - +0 0\n>B: ??? - +0 0\n",
    "goes-out": ">A: AEINRST 8D RETAINS +66 66\n>A: (ADEORTW) +22 88\n",
    "retains": "RETAINS\n",
    "seven": ">A: AEINRST - +0 0\n",
    "page": "<html>\n<body>no game</body>\n</html>\n",
    "indented": " " + WORD,
    "plain": "8E WORD 16\n",
    "returns": "#player1 A Ann\r>A: 8E WORD +16 16\r",
    "returns-alone": ">A: 8E WORD +16 16\r>B: - +0 0\r",
    "blank-nick": ">Ann  Lee: 8E WORD +16 16\n",
    "no-total": ">A: DORWAAE 8E WORD +16\n",
    "no-numbers": ">A: 8E WORD\n",
    "numbers-alone": ">A: +16 16\n",
    "named": "#player1 Ann Ann Lee\n#player2 Bob Bob Roe\n",
    "tab\there": WORD,
    "two\nlines": WORD,
    "back\\slash": WORD,
    "caf\u00e9": WORD,
    "score-and-sum": ">A: DORWAAE 8E WORD +18 19\n",
    "sum-then-turn": ">A: DORWAAE 8E WORD +16 15\n>B: (time) +0 4\n",
    "score-alone": WORD.replace("+16", "+18") + GOING_ON,
    "total-alone": WORD.replace("16\n", "17\n") + GOING_ON,
    "total-carried": WORD.replace("16\n", "17\n") + GOING_ON.replace("16\n", "17\n"),
    "two-totals": WORD.replace("16\n", "17\n") + GOING_ON.replace("16\n", "18\n"),
    "one-player": ">A: (time) -5 -5\n",
    "bonus-missing": WORD + GOING_ON.replace("16\n", "21\n") + ">B: - +0 0\n",
    "bonus-of-10": WORD + ">A: (challenge) +10 21\n" + GOING_ON.replace("16\n", "21\n"),
    "unread": WORD + "A: (time) -5 11\n",
    "unread-kinds": WORD + "".join(f"{line}\n" for line in UNREAD_LINES),
    "unread-many": WORD + 12 * "A: - +0 16\n",
    "unread-alone": "A: 8E WORD +16 16\n",
    "bad-twice": ">A: 8E WORD +x 16\n>B: 8H +9 9\nA: - +0 16\n>B: - +0 0\n>C: AEINRST - 0\n",
    "two-marks": WORD + ">B: - +0 0\n>>A: - +0 16\n",
    "time-rack": WORD + ">B: (TIME) -10 -10\n",
    "untidy": "\ufeff#player1 A  Ann Lee\r\n#note x\n>A:\tDORWAAE  8e WORD 16 16\r\n",
}


def changes_of(file, front, *rows):
    """Changes of a lexicon: for each row the place and the bytes that are there instead, and the line that says so, by name."""
    told = {}
    for name, place, part, line in (row.split(" ", 3) for row in rows):
        place, part = int(place), bytes.fromhex(part)
        told[front + name] = (file[:place] + part + file[place + len(part) :], line)
    return told


AT_CHANGES = changes_of(
    AT_FILE,
    "",
    "magic 0 48 Magic",
    "root 8 05 Root",
    "no-root 8 00 Root",
    "label 16 7b Label",
    "order 32 c1 Order",
    "dead 16 54 DeadArc",
    "open 32 94 OpenRun",
    "target 20 40010000 Target",
    "extra 28 21010000 Extra A",
    "count 12 02 WordCount",
)
MASK_CHANGES = changes_of(
    AT_MASKS,
    "masks-",
    "root 8 0b Root",
    "mask 16 00001088 Mask",
    "no-mark 28 01000000 NoMark",
    "accept 32 02000000 Accept",
    "target 36 04000000 Target",
    "dead 20 00000000 DeadArc",
    "open 52 06001080 OpenRun",
    "extra 56 02000000 Extra A",
)
CHANGED = {  # the lexicon of AT with one change, and the line that tells it
    **AT_CHANGES,
    "other": (AT_IT_FILE, "Extra I"),
    "text": (b"no lexicon at all\n", "Magic"),
    "third-format": (b"GAD3" + AT_FILE[4:], "Magic"),
    **MASK_CHANGES,
    "masks-length": (AT_MASKS + bytes(4), "Length"),
    "fan": (FAN, "Missing A+T"),
}
# What is wrong with a lexicon only with its list, so that it is converted all the same.
OF_LIST = ("extra", "count", "other", "masks-extra", "fan")


def files(folder):
    """Writes the files that rows name, and a folder and a lexicon for each list."""
    for name, text in TEXTS.items():
        Path(folder, name).write_bytes(text.encode())
    for name, (data, _) in CHANGED.items():
        Path(folder, f"{name}.gad").write_bytes(data)
    Path(folder, "at.gad").write_bytes(AT_FILE)
    Path(folder, "it-at.gad").write_bytes(AT_IT_FILE)
    Path(folder, "nothing.gad").write_bytes(EMPTY_FILE)
    Path(folder, "at-masks.gad").write_bytes(AT_MASKS)
    Path(folder, "nothing-masks.gad").write_bytes(EMPTY_MASKS)
    for size in range(len(AT_FILE)):
        Path(folder, f"front-{size}.gad").write_bytes(AT_FILE[:size])
    Path(folder, "utf-16").write_bytes(WORD.encode("utf-16"))
    Path(folder, "latin").write_bytes(WORD.replace("A:", "\u00c9va:").encode("latin-1"))
    Path(folder, "latin-stated").write_bytes(("#character-encoding ISO-8859-1\n" + WORD.replace("A:", "\u00c9va:")).encode("latin-1"))
    Path(folder, "latin-wrong").write_bytes(
        ("#character-encoding iso-8859-1\r\n" + WORD.replace("A:", "\u00c9va:").replace("16\n", "17\n")).encode("latin-1")
    )
    Path(folder, "latin-third").write_bytes("#character-encoding ISO-8859-1\n>A: - +0 0\n>B: - +0 0\n>\u00c9va: - +0 0\n".encode("latin-1"))
    Path(folder, "gzip").write_bytes(gzip.compress(WORD.encode()))
    Path(folder, "zip").write_bytes(b"PK\3\4" + bytes(26) + WORD.encode())
    Path(folder, "many").write_text("".join(f"{word}\n" for word in many_words()))
    Path(folder, "folder").mkdir()


def many_words():
    """A list that a program of 64 MiB has no room for."""
    letters = "ABCDEFGHIJKLMNOPQRSTUVWXYZ"
    for number in range(400_000):
        word = ""
        for _ in range(14):
            word, number = word + letters[number % 26], number // 26 + 7 * (number % 26) + 1
        yield word


# What `archive` says of a game by the list WORD, or by WORD, AT and RA, and the status of it alone.
ARCHIVED = {
    "word": [
        ("line", "legal unfinished - - 1 A 16 - - 0 0", 0),
        ("ends", "legal complete - - 8 A -7 B -7 0 0", 0),
        ("unknown", "legal unfinished - - 3 A 0 B 0 0 0", 0),
        ("two-of-seven", "legal unfinished - - 3 A 0 B 0 0 0", 0),
        ("line-18", "illegal - 1 WrongScore_16 1 A 18 - - - 0", 1),
        ("line-17", "illegal - 1 WrongTotal_16 1 A 17 - - - 0", 1),
        ("line-8d", "illegal - 1 MissesCentre 1 A 16 - - - 0", 1),
        ("turn", "illegal - 2 NotYourTurn 2 A 16 - - - 0", 1),
        ("blanks", "illegal - 2 TilesShort_? 2 A 0 B 0 0 0", 1),
        ("one-q", "illegal - 3 NoDeal 3 A 0 B 0 0 0", 1),
        ("one-of-seven", "illegal - 3 NoDeal 3 A 0 B 0 0 0", 1),
        ("too-soon", "illegal - 6 NotOver 6 A 0 B -7 - 0", 1),
        ("third", "bad_record - 3 ThirdPlayer - - - - - - -", 3),
        ("number", "bad_record - 1 Number - - - - - - -", 3),
        ("long-game", "bad_record - - TooLong - - - - - - -", 3),
        ("nothing", "no_game - - - 0 - - - - 0 0", 3),
        ("page", "no_game - - - 0 - - - - 0 0", 3),
        ("utf-16", "no_game - - - 0 - - - - 0 0", 3),
        ("indented", "no_game - - - 0 - - - - 0 1", 3),
        ("named", "no_game - - - 0 Ann - Bob - 0 0", 3),
        ("nowhere", "unread - - cannot_open - - - - - - -", 4),
        ("no/where", "unread - - cannot_open - - - - - - -", 4),
        ("", "unread - - cannot_open - - - - - - -", 4),
        ("folder", "unread - - is_a_folder - - - - - - -", 4),
    ],
    "word-at-ra": [
        ("line", "legal unfinished - - 1 A 16 - - 0 0", 0),
        ("unlisted", "legal unfinished - - 2 A 16 B 9 1 0", 0),
        ("withdrawn", "legal unfinished - - 4 A 25 B 0 1 0", 0),
    ],
}
FIELDS = "name verdict ending line fault events player1 total1 player2 total2 unlisted unread_lines".split()


def unread_field(text):
    """The last field of a line whose other fields are these, of a record without lines that are not read."""
    return "-" if text.startswith(("bad_record", "unread")) else "0"


def told_of(name, text):
    """The fields of a line of ARCHIVED."""
    return [name, *(field.replace("_", " ") for field in text.split())]


OF_A_GAME = ("judge", "top", "tidy", "board", "audit", "explain", "repair", "page", "annotate")


def advised(words, out, stdin):
    """What standard error gets in addition to an answer about a file that is no game, by the name of the file."""
    behind = [words[k + 1 :] for k, it in enumerate(words) if it.endswith(".gad")]
    names = words[1:] if words[:1] == ["tidy"] or words[:1] == ["board"] else behind[0][:1] if behind else []
    game = next((it for it in names if it in NO_EVENT or it in BAD), None)
    other = ("bad rules", "bad word list", "bad lexicon", "bad rack")
    if not words or words[0] not in OF_A_GAME or "--json" in words or game is None or (out or "").startswith(other) or (game == "-" and stdin):
        return ""
    if game in BAD:
        return BAD[game] if words[0] != "explain" else ""
    return NO_EVENT[game] if words[0] != "top" or game not in ("nothing", "-") else ""


ADVISED = object()


class Runner:
    """Runs the program in a folder, and counts what it does not do as it has to."""

    def __init__(self, program, folder):
        self.program, self.folder, self.rows, self.failures, self.patience = program, folder, 0, 0, 60

    def row(self, words, status, out="", error=ADVISED, stdin="", wrote=None, stdout=None, room=None):
        """One command line; `out` or `error` None asks for some text, `wrote` is what the file `out` has then. Where nothing is said of `error`,
        it is what the second judge says in addition to the line of a bad input or of a file that is no game, and else nothing."""
        if error is ADVISED:
            line = (wrote or b"") if words[0] in ("build", "convert") else (out or "").encode()
            hint = beside(words, line, self.folder, stdin.encode()).decode().removesuffix("\n") if status == 3 else ""
            error = "\n".join(it for it in (hint, advised(words, out, stdin)) if it)
        limit = (lambda: resource.setrlimit(resource.RLIMIT_AS, (room, room))) if room else None
        how = {"cwd": self.folder, "input": stdin.encode(), "stderr": subprocess.PIPE, "preexec_fn": limit, "timeout": self.patience}
        with open(stdout or os.devnull, "wb") as sink:
            ran = subprocess.run([self.program, *words], stdout=sink if stdout else subprocess.PIPE, check=False, **how)
        said, told = ran.stderr.decode(), ran.stdout or b""
        wanted = f"{error}\n" if error else ""
        out = None if out is None else out.encode()
        good = ran.returncode == status and (told != b"" if out is None else told == out) and (said != "" if error is None else said == wanted)
        if wrote is not None:
            good = good and Path(self.folder, "out").read_bytes() == wrote
        self.rows += 1
        if not good:
            self.failures += 1
            print(f"{words}: status {ran.returncode} for {status}\n  output {told!r}\n  for    {out!r}\n  error  {said!r}")
            if wrote is not None:
                print(f"  file   {Path(self.folder, 'out').read_bytes()[:80]!r}\n  for    {wrote[:80]!r}")

    def expect(self, what, good):
        """What has to hold of files that rows wrote."""
        self.rows += 1
        if not good:
            self.failures += 1
            print(f"{what}: not so")


# Records by the list WORD, and the status and the output of `judge`, which `judge --settle` has too.
BY_WORD = [
    ("line", 0, "legal unfinished\n1 A 8E WORD +16 16 best 8E WORD 16\n"),
    ("line-18", 1, "illegal line 1: WrongScore 16\n"),
    ("blanks", 1, "illegal line 2: TilesShort ?\n"),
    ("number", 3, "bad record line 1: Number\n"),
]


def judged(run):
    """`judge`, by its verdicts."""
    run.row(["build", "word", "word.gad"], 0)
    run.row(["build", "word-at-ra", "word-at-ra.gad"], 0)

    def by_word(game, status, out):
        return run.row(["judge", "word", "word.gad", game], status, out)

    for row in BY_WORD:
        by_word(*row)
    for game in ("nothing", "page", "full-game", "plain", "indented", "utf-16", "returns", "gzip", "zip", "at.gad", "at-masks.gad"):
        for more in ([], ["--settle"], ["--rules", "english.rules"], ["--settle", "--rules", "english.rules"]):
            run.row(["judge", *more, "word", "word.gad", game], 0, "legal unfinished\n", error=NO_EVENT[game])
    by_word("blank-nick", 3, "bad record line 1: NoColon\n")
    by_word("no-total", 3, "bad record line 1: Code\n")
    by_word("no-numbers", 3, "bad record line 1: Fields\n")
    by_word("numbers-alone", 3, "bad record line 1: Fields\n")
    by_word("latin-third", 3, "bad record line 4: ThirdPlayer\n")
    by_word("returns-alone", 3, "bad record line 1: Fields\n")
    lines = "".join(f"{k + 1} {'AB'[k % 2]} - +0 0 best -\n" for k in range(6))
    by_word("ends", 0, f"legal complete\n{lines}7 A (AEINRST) -7 -7\n8 B (AEINRST) -7 -7\n")
    by_word("too-soon", 1, "illegal line 6: NotOver\n")
    by_word("line-17", 1, "illegal line 1: WrongTotal 16\n")
    by_word("line-8d", 1, "illegal line 1: MissesCentre\n")
    by_word("turn", 1, "illegal line 2: NotYourTurn\n")
    by_word("third", 3, "bad record line 3: ThirdPlayer\n")
    by_word("long-game", 3, "bad record: TooLong\n")

    def listed(game, out):
        return run.row(["judge", "word-at-ra", "word-at-ra.gad", game], 0, out)

    laid = "legal unfinished\n1 A 8E WORD +16 16 best 8E WORD 16\n2 B 9G AT +9 9 best -"
    back = "3 B -- -9 0\n4 A 9G AT +9 25 best - unlisted DT\n"
    listed("unlisted", f"{laid} unlisted DT\n")
    listed("withdrawn", f"{laid}\n{back}")
    listed("not-judged", f"{laid}\n{back}")
    run.row(["judge", "word", "word.gad", "one-q"], 2, "unsettled\n", error=SETTLE)
    run.row(["judge", "at", "at.gad", "big-rack"], 1, "illegal line 3: RackTooBig\n")
    lines = "1 A -5 +0 0 best -\n2 B - +0 0 best -\n3 A - +0 0 best -\n"
    run.row(["judge", "at", "at.gad", "unknown"], 0, f"legal unfinished\n{lines}")
    run.row(["judge", "at", "at.gad", "with-blank"], 0, "legal unfinished\n1 A - +0 0 best 8G At 2\n")
    run.row(["judge", "at", "at.gad", "no-play"], 0, "legal unfinished\n1 A - +0 0 best none\n2 B - +0 0 best 8G AT 4\n")
    run.row(["judge", "nothing", "nothing.gad", "no-play"], 0, "legal unfinished\n1 A - +0 0 best none\n2 B - +0 0 best none\n")
    run.row(["judge", "nothing", "nothing.gad", "nothing"], 0, "legal unfinished\n")
    run.row(["judge", "digit", "at.gad", "line"], 3, "bad word list line 2: BadLetter\n")
    run.row(["judge", "short-word", "at.gad", "line"], 3, "bad word list line 1: BadLength\n")
    run.row(["judge", "long-list", "at.gad", "line"], 3, "bad word list: TooLong\n")
    run.row(["judge", "full-list", "nothing.gad", "nothing"], 0, "legal unfinished\n")
    run.row(["judge", "at", "extra.gad", "number"], 3, "bad lexicon: Extra A\n")
    run.row(["judge", "it-at", "at.gad", "number"], 3, "bad lexicon: Missing I+T\n")


def settled(run):
    """`judge --settle`: as `judge`, but where that says `unsettled`."""

    def by_word(game, status, out):
        return run.row(["judge", "--settle", "word", "word.gad", game], status, out)

    for row in BY_WORD:
        by_word(*row)
    by_word("one-q", 1, "illegal line 3: NoDeal\n")
    by_word("one-of-seven", 1, "illegal line 3: NoDeal\n")
    by_word("one-q-earlier", 1, "illegal line 3: NoDeal\n")
    by_word("one-q-of-another", 1, "illegal line 4: NoDeal\n")
    by_word("one-of-seven-earlier", 1, "illegal line 3: NoDeal\n")
    lines = "1 A -2 +0 0 best -\n2 B - +0 0 best -\n3 A - +0 0 best -\n"
    by_word("two-of-seven", 0, f"legal unfinished\n{lines}")
    run.row(["judge", "word", "word.gad", "one-of-seven"], 2, "unsettled\n", error=SETTLE)
    run.row(["judge", "--rules", "english.rules", "word", "word.gad", "one-q"], 2, "unsettled\n", error=SETTLE)
    run.row(["judge", "--settle", "--rules", "english.rules", "word", "word.gad", "one-q"], 1, "illegal line 3: NoDeal\n")
    run.row(["judge", "--rules", "english.rules", "word", "word.gad", "one-q", "--settle"], 1, "illegal line 3: NoDeal\n")
    run.row(["judge", "--settle", "--settle", "word", "word.gad", "one-q"], 64, error=None)
    run.row(["top", "--settle", "word", "word.gad", "one-q", "A"], 64, error=None)


def built_and_checked(run):
    """`build` and `check`."""
    for words, data in [("at", AT_FILE), ("it-at", AT_IT_FILE), ("nothing", EMPTY_FILE)]:
        Path(run.folder, "out").write_bytes(bytes(1000))
        run.row(["build", words, "out"], 0, wrote=data)
    run.row(["check", "at", "at.gad"], 0, "ok 1\n")
    run.row(["check", "it-at", "it-at.gad"], 0, "ok 2\n")
    run.row(["check", "nothing", "nothing.gad"], 0, "ok 0\n")
    run.row(["build", "digit", "out"], 3, wrote=b"bad word list line 2: BadLetter\n")
    run.row(["build", "long-list", "out"], 3, wrote=b"bad word list: TooLong\n")
    run.row(["check", "it-at", "at.gad"], 3, "bad lexicon: Missing I+T\n")
    run.row(["check", "short-word", "at.gad"], 3, "bad word list line 1: BadLength\n")
    for name, (_, line) in CHANGED.items():
        run.row(["check", "at", f"{name}.gad"], 3, f"bad lexicon: {line}\n")
    for size in range(len(AT_FILE)):
        run.row(["check", "at", f"front-{size}.gad"], 3, f"bad lexicon: {'Short' if size < 16 else 'Length'}\n")


def converted(run):
    """`convert`: both formats, there and back, and faults; what it makes is read as the file that it was made of."""
    for name, form, data in [
        ("at.gad", "gad2", AT_MASKS),
        ("at-masks.gad", "gad1", AT_FILE),
        ("at.gad", "gad1", AT_FILE),
        ("at-masks.gad", "gad2", AT_MASKS),
        ("nothing.gad", "gad2", EMPTY_MASKS),
        ("nothing-masks.gad", "gad1", EMPTY_FILE),
        ("count.gad", "gad2", AT_MASKS[:12] + b"\2" + AT_MASKS[13:]),
    ]:
        Path(run.folder, "out").write_bytes(bytes(1000))
        run.row(["convert", form, name, "out"], 0, wrote=data)
    for name, (_, line) in CHANGED.items():
        if name not in OF_LIST:
            run.row(["convert", "gad1", f"{name}.gad", "out"], 3, wrote=f"bad lexicon: {line}\n".encode())
            run.row(["convert", "gad2", f"{name}.gad", "out"], 3, wrote=f"bad lexicon: {line}\n".encode())
    run.row(["check", "at", "at-masks.gad"], 0, "ok 1\n")
    run.row(["check", "nothing", "nothing-masks.gad"], 0, "ok 0\n")
    run.row(["check", "it-at", "at-masks.gad"], 3, "bad lexicon: Missing I+T\n")
    for size in range(len(AT_MASKS)):
        Path(run.folder, "front").write_bytes(AT_MASKS[:size])
        run.row(["check", "at", "front"], 3, f"bad lexicon: {'Short' if size < 16 else 'Length'}\n")
    for form, back, data in (("gad2", "gad1", AT_IT_FILE), ("gad1", "gad1", AT_IT_FILE)):
        run.row(["convert", form, "it-at.gad", "there"], 0)
        run.row(["convert", back, "there", "out"], 0, wrote=data)
        run.row(["check", "it-at", "there"], 0, "ok 2\n")
    run.row(["convert", "gad2", "fan.gad", "there"], 0)
    run.row(["check", "at", "there"], 3, "bad lexicon: Missing A+T\n")
    run.row(["convert", "gad1", "there", "out"], 0, wrote=FAN)
    by_converted(run)
    Path(run.folder, "out").write_bytes(b"something")
    run.row(["convert", "gad2", "nowhere", "out"], 4, error="referee: cannot open nowhere: no such file", wrote=b"something")
    run.row(["convert", "gad2", "at.gad", "no/where"], 4, error="referee: cannot open no/where: no such file")
    run.row(["convert", "gad2", "nowhere", "no/where"], 4, error="referee: cannot open nowhere: no such file")
    run.row(["convert", "gad2", "folder", "out"], 4, error="referee: read failed: folder: is a folder", wrote=b"something")
    for form in ("gad3", "GAD2", "gad", "2", ""):
        Path(run.folder, "out").write_bytes(b"something")
        run.row(["convert", form, "at.gad", "out"], 64, error=None, wrote=b"something")


def by_converted(run):
    """Commands that are given a converted lexicon answer as by the one that it was made of."""
    run.row(["build", "word", "word.gad"], 0)
    run.row(["convert", "gad2", "word.gad", "word-masks.gad"], 0)
    run.row(["judge", "word", "word-masks.gad", "line"], 0, "legal unfinished\n1 A 8E WORD +16 16 best 8E WORD 16\n")
    run.row(["judge", "word", "word-masks.gad", "line-18"], 1, "illegal line 1: WrongScore 16\n")
    run.row(["top", "at", "at-masks.gad", "nothing", "?A"], 0, "8G At 2\n8H At 2\nH7 At 2\nH8 At 2\n")


def converted_large(run):
    """Files at the limits: nodes of one label come to three words each in the second format, nodes of 27 labels to 27 arcs."""
    most_arcs, most_words, small, big = 33_554_431, 67_108_863, struct.pack("<I", 97), struct.pack("<2I", 0x87FF_FFFF, 0x07FF_FFFF)
    big += bytes(108)
    run.patience = 600

    def lexicon(name, form, length, body):
        with open(Path(run.folder, name), "wb") as file:
            file.write(form + struct.pack("<3I", length, 1, 0))
            file.write(body)

    nodes = most_words // 3
    lexicon("large", b"GAD1", nodes, small * nodes)
    run.row(["convert", "gad2", "large", "out"], 0)
    Path(run.folder, "out").replace(Path(run.folder, "there"))
    run.row(["convert", "gad1", "there", "out"], 0)
    run.row(["check", "nothing", "out"], 3, "bad lexicon: Extra A\n")
    run.expect("a large file there and back", Path(run.folder, "out").read_bytes() == Path(run.folder, "large").read_bytes())
    lexicon("large", b"GAD1", nodes + 1, small * (nodes + 1))
    run.row(["convert", "gad2", "large", "out"], 3, wrote=b"bad lexicon: TooManyArcs\n")
    nodes = most_arcs // 27
    lexicon("large", b"GAD2", 29 * nodes, big * nodes)
    run.row(["convert", "gad1", "large", "out"], 0)
    lexicon("large", b"GAD2", 29 * (nodes + 1), big * (nodes + 1))
    run.row(["convert", "gad1", "large", "out"], 3, wrote=b"bad lexicon: TooManyArcs\n")
    for size, magic, line in [
        (134_217_741, b"GAD1", "Length"),
        (134_217_741, b"GAD2", "Length"),
        (134_217_741, b"GAD3", "Magic"),
        (268_435_468, b"GAD2", "Length"),
        (268_435_468, b"GAD3", "Magic"),
        (268_435_469, b"GAD3", "Length"),
    ]:
        Path(run.folder, "large").write_bytes(magic)
        os.truncate(Path(run.folder, "large"), size)
        run.row(["check", "at", "large"], 3, f"bad lexicon: {line}\n")
        run.row(["convert", "gad1", "large", "out"], 3, wrote=f"bad lexicon: {line}\n".encode())


def ruled(run):
    """`judge` and `top` by a rules text."""
    run.row(["build", "word", "word.gad"], 0)
    run.row(["build", "retains", "retains.gad"], 0)

    def by_at(rules, game, status, out):
        return run.row(["judge", "--rules", f"{rules}.rules", "at", "at.gad", game], status, out)

    by_at("two-sets", "blanks", 0, "legal unfinished\n1 A - +0 0 best -\n2 B - +0 0 best -\n")
    by_at("two-sets", "four-blanks", 1, "illegal line 2: TilesShort ?\n")
    by_at("english", "blanks", 1, "illegal line 2: TilesShort ?\n")
    by_at("full", "blanks", 1, "illegal line 2: TilesShort ?\n")
    for rules, line in [
        ("nineteen", ": Limits"),
        ("thirteen", ": Limits"),
        ("no-row", ": Missing"),
        ("in-front", " line 1: Number"),
        ("behind", " line 48: Twice"),
        ("tiles", " line 1: Unknown"),
        ("fields", " line 43: Fields"),
        ("name", " line 42: Name"),
        ("long", ": TooLong"),
    ]:
        by_at(rules, "blanks", 3, f"bad rules{line}\n")
        run.row(["top", "--rules", f"{rules}.rules", "at", "at.gad", "blanks", "AT"], 3, f"bad rules{line}\n")
    told = "legal unfinished\n1 A 8E WORD +16 16 best 8E WORD 16\n"
    for rules in ("english", "dressed", "two-sets"):
        run.row(["judge", "--rules", f"{rules}.rules", "word", "word.gad", "line"], 0, told)

    def by_retains(rules, game, status, out):
        return run.row(["judge", "--rules", f"{rules}.rules", "retains", "retains.gad", game], status, out)

    by_retains("fourteen", "goes-out", 0, "legal complete\n1 A 8D RETAINS +66 66 best 8B RETAINS 66\n2 A (ADEORTW) +22 88\n")
    by_retains("bonus-35", "goes-out", 1, "illegal line 1: WrongScore 51\n")
    by_retains("bonus-35", "seven", 0, "legal unfinished\n1 A - +0 0 best 8B RETAINS 51\n")
    run.row(["judge", "retains", "retains.gad", "goes-out"], 1, "illegal line 2: NotOver\n")
    ruled_tops(run)
    ruled_lines(run)


def ruled_tops(run):
    """`top` by a rules text: the rack is looked at before the text is read."""
    plays = "8G At 2\n8H At 2\nH7 At 2\nH8 At 2\n"
    run.row(["top", "--rules", "english.rules", "at", "at.gad", "nothing", "?A"], 0, plays)
    run.row(["top", "--rules", "two-sets.rules", "at", "at.gad", "four-blanks", "?A"], 0, plays)
    # Each of these squares lets one letter lie on a double letter; 8E and H5 do not.
    for rules, score in (("english", 66), ("bonus-35", 51)):
        best = "".join(f"{at} RETAINS {score}\n" for at in "8B 8C 8D 8F 8G 8H H2 H3 H4 H6".split())
        run.row(["top", "--rules", f"{rules}.rules", "retains", "retains.gad", "nothing", "AEINRST"], 0, best)
    run.row(["top", "--rules", "tiles.rules", "at", "at.gad", "nothing", "A1"], 3, "bad rack\n")
    run.row(["top", "--rules", "folder", "folder", "folder", "folder", "A1"], 3, "bad rack\n")
    run.row(["top", "--rules", "nowhere", "at", "at.gad", "nothing", "A1"], 4, error="referee: cannot open nowhere: no such file")
    run.row(["top", "--rules", "folder", "at", "at.gad", "nothing", "A"], 4, error="referee: read failed: folder: is a folder")


def ruled_lines(run):
    """Where the option is, and the file that it names: it is opened first, and read first."""
    names, told = ["word", "word.gad", "line"], "legal unfinished\n1 A 8E WORD +16 16 best 8E WORD 16\n"
    for words in (["--rules", "english.rules", *names], [*names, "--rules", "english.rules"], ["--rules=english.rules", *names]):
        run.row(["judge", *words], 0, told)
    run.row(["judge", "word", "--rules", "english.rules", "word.gad", "line"], 0, told)
    run.row(["top", "at", "at.gad", "nothing", "Q", "--rules", "english.rules"], 0, "none\n")
    run.row(["judge", "--rules", "nowhere", "elsewhere", "at.gad", "line"], 4, error="referee: cannot open nowhere: no such file")
    run.row(["judge", "--rules", "tiles.rules", "elsewhere", "at.gad", "line"], 4, error="referee: cannot open elsewhere: no such file")
    run.row(["judge", "--rules", "folder", "digit", "at.gad", "line"], 4, error="referee: read failed: folder: is a folder")
    # What comes after a bad rules text is not read.
    run.row(["judge", "--rules", "tiles.rules", "folder", "folder", "folder"], 3, "bad rules line 1: Unknown\n")
    run.row(["judge", "--rules", "english.rules", "digit", "folder", "folder"], 3, "bad word list line 2: BadLetter\n")
    twice = ["--rules", "english.rules", "--rules", "english.rules"]
    for words in (["judge", *twice, *names], ["judge", *names, "--rules"], ["judge", "--rules", *names], ["judge", "--rule", *names]):
        run.row(words, 64, error=None)
    for command in (["check", "at", "at.gad"], ["tidy", "line"], ["build", "at", "out"], ["convert", "gad2", "at.gad", "out"]):
        run.row([*command, "--rules", "english.rules"], 64, error=None)
    run.row(["--rules", "english.rules", "judge", *names], 64, error=None)


def topped(run):
    """`top`, by its verdicts."""

    def by_at(game, rack, status, out):
        return run.row(["top", "at", "at.gad", game, rack], status, out)

    by_at("nothing", "?A", 0, "8G At 2\n8H At 2\nH7 At 2\nH8 At 2\n")
    ten = "8G AT 4\n8H AT 4\nH7 AT 4\nH8 AT 4\n8G At 2\n8G aT 2\n8H At 2\n8H aT 2\nH7 At 2\nH7 aT 2\n"
    by_at("nothing", "AT?", 0, ten)
    by_at("nothing", "Q", 0, "none\n")
    by_at("page", "Q", 0, "none\n")
    by_at("line-17", "AT", 1, "illegal line 1: WrongTotal 16\n")
    # Deals are not judged: three blanks are shown, of which there are two.
    by_at("blanks", "?A", 0, "8G At 2\n8H At 2\nH7 At 2\nH8 At 2\n")
    by_at("number", "AT", 3, "bad record line 1: Number\n")
    for rack in ("", "A1", "a1", "AAAAAAAA", "a", "?a", "AEInrst"):
        by_at("number", rack, 3, "bad rack\n")
        run.row(["top", "--before", "1", "at", "at.gad", "nothing", rack], 3, "bad rack\n")
        run.row(["top", "--json", "at", "at.gad", "nothing", rack], 3, refusal("bad rack"))
    run.row(["top", "nothing", "nothing.gad", "nothing", "A"], 0, "none\n")
    run.row(["top", "digit", "extra.gad", "number", "A"], 3, "bad word list line 2: BadLetter\n")
    run.row(["top", "at", "extra.gad", "number", "A"], 3, "bad lexicon: Extra A\n")
    # The files are opened before the rack is looked at, and none is read after a rack that is none.
    run.row(["top", "at", "at.gad", "nowhere", "A1"], 4, error="referee: cannot open nowhere: no such file")
    run.row(["top", "folder", "folder", "folder", "A1"], 3, "bad rack\n")
    run.row(["top", "at", "at.gad", "folder", "A"], 4, error="referee: read failed: folder: is a folder")


def topped_before(run):
    """`top` with a number and before a line; the rack is that of the line where none is given."""
    four = "8G AT 4\n8H AT 4\nH7 AT 4\nH8 AT 4\n"

    def by_at(words, status, out):
        return run.row(["top", *words[:-1], "at", "at.gad", *words[-1].split()], status, out)

    by_at(["--number", "3", "nothing AT?"], 0, "8G AT 4\n8H AT 4\nH7 AT 4\n")
    twelve = four + "8G At 2\n8G aT 2\n8H At 2\n8H aT 2\nH7 At 2\nH7 aT 2\nH8 At 2\nH8 aT 2\n"
    for number in ("12", "13", "100"):
        by_at(["--number", number, "nothing AT?"], 0, twelve)
    by_at(["--number", "10", "nothing ?A"], 0, "8G At 2\n8H At 2\nH7 At 2\nH8 At 2\n")
    by_at(["--number", "10", "nothing ?a"], 3, "bad rack\n")
    by_at(["--before", "1", "shown-rack"], 0, four)
    by_at(["--before", "1", "--number", "2", "shown-rack"], 0, "8G AT 4\n8H AT 4\n")
    by_at(["--before", "1", "shown-rack Q"], 0, "none\n")
    by_at(["--before", "0", "shown-rack"], 0, four)
    # The event on the line is not judged, those before it are.
    by_at(["--before", "1", "wrong-score"], 0, four)
    by_at(["--before", "2", "wrong-score"], 1, "illegal line 1: WrongScore 4\n")
    by_at(["--before", "2", "shown-rack"], 3, "bad rack\n")
    by_at(["--before", "3", "shown-rack"], 3, "bad line: no event is on it or after it\n")
    by_at(["--before", "3", "shown-rack A1"], 3, "bad rack\n")
    by_at(["--before", "1", "number A"], 3, "bad record line 1: Number\n")
    by_at(["--rules", "english.rules", "--before", "1", "shown-rack"], 0, four)
    by_at(["--rules", "english.rules", "--before", "2", "wrong-score"], 1, "illegal line 1: WrongScore 4\n")
    run.row(["top", "--before", "1", "at", "at.gad", "-"], 0, four, stdin=">A: AT 8H AT +4 4\n")
    for number in ("0", "101", "-1", "ten", ""):
        run.row(["top", "--number", number, "at", "at.gad", "nothing", "A"], 64, error=None)
    run.row(["top", "--number", "3", "at", "at.gad", "nothing"], 64, error=None)
    run.row(["top", "--before", "at", "at.gad", "nothing", "A"], 64, error=None)


def tidied(run):
    """`tidy`, and names of files."""
    normal = "#player1 A Ann Lee\n>A: AADEORW 8E WORD +16 16\n"
    run.row(["tidy", "untidy"], 0, normal)
    run.row(["tidy", "nothing"], 0)
    run.row(["tidy", "number"], 3, "bad record line 1: Number\n")
    run.row(["tidy", "long-game"], 3, "bad record: TooLong\n")
    run.row(["tidy", "/dev/stdin"], 0, normal, stdin=TEXTS["untidy"])


def from_standard_input(run):
    """`-` is standard input for WORDS and GAME, once in a command line; LEXICON, RULES, OUT and a line of a list of names are files."""
    run.row(["build", "word", "word.gad"], 0)
    told = "legal unfinished\n1 A 8E WORD +16 16 best 8E WORD 16\n"
    line, legal = TEXTS["line"], "\tlegal\tunfinished\t-\t-\t1\tA\t16\t-\t-\t0\t0\n"
    for more in ([], ["--settle"], ["--rules", "english.rules"], ["--settle", "--rules", "english.rules"]):
        run.row(["judge", *more, "word", "word.gad", "-"], 0, told, stdin=line)
        run.row(["judge", *more, "-", "word.gad", "line"], 0, told, stdin="WORD\n")
        run.row(["judge", *more, "word", "word.gad", "-"], 0, "legal unfinished\n")
    run.row(["judge", "word", "word.gad", "-"], 1, "illegal line 1: WrongScore 16\n", stdin=TEXTS["line-18"])
    run.row(["judge", "-", "at.gad", "line"], 3, "bad word list line 2: BadLetter\n", stdin=TEXTS["digit"])
    plays = "8G At 2\n8H At 2\nH7 At 2\nH8 At 2\n"
    for more in ([], ["--rules", "english.rules"]):
        run.row(["top", *more, "-", "at.gad", "nothing", "?A"], 0, plays, stdin="AT\n")
        run.row(["top", *more, "at", "at.gad", "-", "?A"], 0, plays)
    run.row(["tidy", "-"], 0, "#player1 A Ann Lee\n>A: AADEORW 8E WORD +16 16\n", stdin=TEXTS["untidy"])
    run.row(["build", "-", "out"], 0, stdin="AT\n", wrote=AT_FILE)
    run.row(["check", "-", "at.gad"], 0, "ok 1\n", stdin="AT\n")
    run.row(["archive", "-", "word.gad", "line"], 0, f"line{legal}", stdin="WORD\n")
    run.row(["archive", "word", "word.gad", "-", "line"], 0, f"-{legal}line{legal}", stdin=line)
    Path(run.folder, "names").write_text("-\nline\n")
    unread = "\tunread\t-\t-\tcannot open\t-\t-\t-\t-\t-\t-\t-\n"
    run.row(["archive", "--names", "names", "word", "word.gad"], 4, f"-{unread}line{legal}", stdin=line)
    run.row(["archive", "--names", "-", "word", "word.gad"], 4, f"-{unread}line{legal}", stdin="-\nline\n")
    # Files are opened in their order, standard input among them, and only then read.
    run.row(["judge", "-", "word.gad", "nowhere"], 4, error="referee: cannot open nowhere: no such file", stdin="A1\n")
    for words in (["judge", "word", "-", "line"], ["check", "word", "-"], ["top", "word", "-", "line", "A"], ["archive", "word", "-", "line"]):
        run.row(words, 4, error="referee: cannot open -: no such file", stdin="AT\n")
    run.row(["convert", "gad2", "-", "out"], 4, error="referee: cannot open -: no such file", stdin="AT\n")
    run.row(["judge", "--rules", "-", "word", "word.gad", "line"], 4, error="referee: cannot open -: no such file", stdin=ENGLISH_RULES)
    for words in (
        ["judge", "-", "at.gad", "-"],
        ["top", "-", "at.gad", "-", "A"],
        ["archive", "-", "at.gad", "-"],
        ["archive", "at", "at.gad", "-", "-"],
    ):
        run.row(words, 64, error=None, stdin="AT\n")
    run.row(["archive", "--names", "-", "-", "at.gad"], 64, error=None, stdin="AT\n")
    run.row(["judge", "--", "-", "at.gad", "-"], 64, error=None, stdin="AT\n")
    unreadable(run)


# Word lists as people have them, and the lexicon or the fault that they have with --first-field, and without it.
FIELDED = {
    "AT 4\n": ("at", AT_FILE, "bad word list line 1: BadLetter\n"),
    "# two words\nAT\tat, toward\r\n\nit 4 # a pronoun\n": ("it-at", AT_IT_FILE, "bad word list line 1: BadLetter\n"),
    "AT\nIT": ("it-at", AT_IT_FILE, None),
    " AT\n#AT\n": ("nothing", EMPTY_FILE, "bad word list line 1: BadLetter\n"),
    "AT # IT\nA1 IT\n": (None, b"bad word list line 2: BadLetter\n", "bad word list line 1: BadLetter\n"),
    "AT#\n": (None, b"bad word list line 1: BadLetter\n", "bad word list line 1: BadLetter\n"),
    "#\nA 1\n": (None, b"bad word list line 2: BadLength\n", "bad word list line 1: BadLetter\n"),
}


def fielded(run):
    """`--first-field`, of every command that reads WORDS: the lexicon is compared with what was read so."""
    for text, (listed, data, plain) in FIELDED.items():
        Path(run.folder, "fields").write_bytes(text.encode())
        Path(run.folder, "out").write_bytes(bytes(1000))
        bad = "" if listed else data.decode()
        run.row(["build", "--first-field", "fields", "out"], 0 if listed else 3, wrote=data)
        run.row(["build", "fields", "out"], 3 if plain else 0, wrote=plain.encode() if plain else data)
        name = f"{listed or 'at'}.gad"
        run.row(["check", "--first-field", "fields", name], 0 if listed else 3, bad or f"ok {data[12]}\n")
        run.row(["check", "--first-field", "-", name], 0 if listed else 3, bad or f"ok {data[12]}\n", stdin=text)
        for more in ([], ["--settle"], ["--rules", "english.rules"]):
            run.row(["judge", "--first-field", *more, "fields", name, "number"], 3, bad or "bad record line 1: Number\n")
        for more in ([], ["--rules", "english.rules"]):
            run.row(["top", *more, "fields", name, "number", "A", "--first-field"], 3, bad or "bad record line 1: Number\n")
        run.row(
            ["archive", "--first-field", "fields", name, "nowhere"],
            4 if listed else 3,
            bad or "nowhere\tunread\t-\t-\tcannot open\t-\t-\t-\t-\t-\t-\t-\n",
        )
    Path(run.folder, "fields").write_text("AT 4\n")
    run.row(["check", "--first-field", "fields", "it-at.gad"], 3, "bad lexicon: Extra I\n")
    run.row(["top", "--first-field", "fields", "at.gad", "nothing", "?A"], 0, "8G At 2\n8H At 2\nH7 At 2\nH8 At 2\n")
    run.row(["top", "--first-field", "--before", "1", "fields", "at.gad", "shown-rack"], 0, "8G AT 4\n8H AT 4\nH7 AT 4\nH8 AT 4\n")
    # The text is longer than a list may be, and its first fields are not.
    Path(run.folder, "fields").write_text("AT" + " " * 22 + "\n" + "#" * 16_800_000)
    run.row(["check", "--first-field", "fields", "at.gad"], 0, "ok 1\n")
    run.row(["check", "fields", "at.gad"], 3, "bad word list: TooLong\n")
    run.row(["check", "--first-field", "long-list", "at.gad"], 3, "bad word list: TooLong\n")
    run.row(["check", "--first-field", "folder", "at.gad"], 4, error="referee: read failed: folder: is a folder")
    run.row(["check", "--first-field", "nowhere", "at.gad"], 4, error="referee: cannot open nowhere: no such file")
    for words in (
        ["tidy", "--first-field", "line"],
        ["convert", "--first-field", "gad2", "at.gad", "out"],
        ["check", "--first-field", "--first-field", "at", "at.gad"],
        ["check", "--first-field=1", "at", "at.gad"],
    ):
        run.row(words, 64, error=None)


def skipped(run):
    """`--skip-others`, of every command that reads WORDS, and with `--first-field`, which comes before it."""
    told = 'referee: {}: lines that are not words, passed over: {}; the first is line {}, "{}"'
    plain, fielded = told.format("people", 5, 2, "it's"), told.format("people", 3, 2, "it's")
    run.row(["build", "--skip-others", "people", "out"], 0, error=plain, wrote=AT_IT_FILE)
    run.row(["build", "--skip-others", "--first-field", "people", "out"], 0, error=fielded, wrote=AT_IT_FILE)
    run.row(["check", "--skip-others", "people", "it-at.gad"], 0, "ok 2\n", error=plain)
    run.row(["check", "--skip-others", "-", "it-at.gad"], 0, "ok 2\n", error=told.format("standard input", 5, 2, "it's"), stdin=TEXTS["people"])
    run.row(["check", "--skip-others", "it-at", "it-at.gad"], 0, "ok 2\n", error="")
    run.row(["check", "--json", "--skip-others", "people", "it-at.gad"], 0, refusal("ok", words=2), error=plain)
    run.row(["top", "--json", "--skip-others", "people", "it-at.gad", "nothing", "A1"], 3, refusal("bad rack"), error="")
    run.row(["top", "--json", "--skip-others", "people", "it-at.gad", "with-blank", "--before", "9"], 3, refusal("bad line"), error=plain)
    run.row(["check", "people", "it-at.gad"], 3, "bad word list line 2: BadLetter\n")
    run.row(["check", "--skip-others", "people", "nowhere"], 4, error="referee: cannot open nowhere: no such file")
    for command, out in (
        ("judge", "legal unfinished\n1 A - +0 0 best 8G At 2\n"),
        ("audit", "legal unfinished\nboth have the same total\n"),
        ("explain", f"legal unfinished\n{STANDS}"),
        ("archive", "with-blank\tlegal\tunfinished\t-\t-\t1\tA\t0\t-\t-\t0\t0\n"),
    ):
        run.row([command, "--skip-others", "people", "it-at.gad", "with-blank"], 0, None if command == "judge" else out, error=plain)
    run.row(["page", "--skip-others", "people", "it-at.gad", "with-blank", "out"], 0, "legal unfinished\n", error=plain)
    run.row(["top", "--skip-others", "people", "it-at.gad", "nothing", "?A"], 0, "8G At 2\n8H At 2\nH7 At 2\nH8 At 2\n", error=plain)
    for words in (
        ["tidy", "--skip-others", "line"],
        ["convert", "--skip-others", "gad2", "at.gad", "out"],
        ["board", "--skip-others", "line"],
        ["check", "--skip-others", "--skip-others", "at", "at.gad"],
    ):
        run.row(words, 64, error=None)


def words_ruled(run):
    """`word`: the answer is for all words together, and with `--each` a line a word."""
    at, both = ["at", "at.gad"], ["it-at", "it-at.gad"]
    for words in (["AT"], ["at"], ["aT", "At", "AT"]):
        run.row(["word", *at, *words], 0, "acceptable\n", error="")
        run.row(["word", "--each", *at, *words], 0, "AT acceptable\n" * len(words), error="")
    run.row(["word", *both, "it", "at"], 0, "acceptable\n")
    for words in (["IT"], ["at", "it"], ["it", "at"], ["ABCDEFGHIJKLMNO"], ["TA"], ["ATA"]):
        run.row(["word", *at, *words], 1, "not acceptable\n", error="")
    run.row(["word", "--each", *at, "it", "At", "ta"], 1, "IT not acceptable\nAT acceptable\nTA not acceptable\n", error="")
    for bad in ("A", "", "ABCDEFGHIJKLMNOP", "A1", "A T", "it's", "\u00e9t\u00e9"):
        for more in ([], ["--each"]):
            run.row(["word", *more, "nowhere", "at.gad", "at", bad, "1"], 3, "bad word\n", error=f'referee: "{bad}" is not a word of 2 to 15 letters')
    run.row(["word", "digit", "at.gad", "at"], 3, "bad word list line 2: BadLetter\n")
    run.row(["word", "it-at", "at.gad", "at"], 3, "bad lexicon: Missing I+T\n", error=None)
    run.row(["word", "at", "nowhere", "at"], 4, error="referee: cannot open nowhere: no such file")
    run.row(["word", "folder", "at.gad", "at"], 4, error="referee: read failed: folder: is a folder")
    run.row(["word", "-", "at.gad", "at"], 0, "acceptable\n", stdin="AT\n")
    Path(run.folder, "scored").write_text("# of a club\nAT 2\nIT\t2 a pronoun\n")
    run.row(["word", "--first-field", "scored", "it-at.gad", "it"], 0, "acceptable\n")
    run.row(
        ["word", "--skip-others", "people", "it-at.gad", "it"],
        0,
        "acceptable\n",
        error='referee: people: lines that are not words, passed over: 5; the first is line 2, "it\'s"',
    )
    for words in ([], ["at"], ["--loud", *at, "at"], ["--rules", "english.rules", *at, "at"]):
        run.row(["word", *words], 64, error=None)
    run.row(["word", *at], 64, error=None)
    run.row(["word", "--each", "--each", *at, "at"], 64, error=None)
    if os.path.exists("/dev/full"):
        run.row(["word", *at, "at"], 4, error="referee: write failed: standard output: no space left, error 28 of the system", stdout="/dev/full")


def unreadable(run):
    """Standard input that cannot be read is named so."""
    folder = os.open(run.folder, os.O_RDONLY)
    for words in (
        ["judge", "-", "at.gad", "line"],
        ["judge", "at", "at.gad", "-"],
        ["judge", "--rules", "english.rules", "at", "at.gad", "-"],
        ["top", "-", "at.gad", "line", "A"],
        ["top", "--rules", "english.rules", "at", "at.gad", "-", "A"],
        ["tidy", "-"],
        ["check", "-", "at.gad"],
        ["build", "-", "out"],
        ["archive", "-", "at.gad", "line"],
        ["archive", "--names", "-", "at", "at.gad"],
    ):
        ran = subprocess.run([run.program, *words], stdin=folder, cwd=run.folder, capture_output=True, check=False)
        run.expect(
            f"{words} of a folder", (ran.returncode, ran.stdout, ran.stderr) == (4, b"", b"referee: read failed: standard input: is a folder\n")
        )
    ran = subprocess.run([run.program, "archive", "at", "at.gad", "-"], stdin=folder, cwd=run.folder, capture_output=True, check=False)
    run.expect("a game that is a folder", (ran.returncode, ran.stdout.split(b"\t")[:5]) == (4, [b"-", b"unread", b"-", b"-", b"read failed"]))
    os.close(folder)


SQUARES = """\
   A B C D E F G H I J K L M N O
 1 = . . ' . . . = . . . ' . . =
 2 . - . . . " . . . " . . . - .
 3 . . - . . . ' . ' . . . - . .
 4 ' . . - . . . ' . . . - . . '
 5 . . . . - . . . . . - . . . .
 6 . " . . . " . . . " . . . " .
 7 . . ' . . . ' . ' . . . ' . .
 8 = . . ' . . . - . . . ' . . =
 9 . . ' . . . ' . ' . . . ' . .
10 . " . . . " . . . " . . . " .
11 . . . . - . . . . . - . . . .
12 ' . . - . . . ' . . . - . . '
13 . . - . . . ' . ' . . . - . .
14 . - . . . " . . . " . . . - .
15 = . . ' . . . = . . . ' . . =
= triple word, - double word, " triple letter, ' double letter
small letters are blanks
"""
ROW_OF_WORD = (" 8 = . . ' . . . - . . . ' . . =", " 8 = . . ' W O R D . . . ' . . =")
ROW_OF_AT = (" 9 . . ' . . . ' . ' . . . ' . .", " 9 . . ' . . . A T ' . . . ' . .")
EVERY_TILE = """\
tiles not on the board: 100
  A 9  B 2  C 2  D 4  E 12  F 2  G 3  H 2  I 9
  J 1  K 1  L 4  M 2  N 6  O 8  P 2  Q 1  R 6
  S 4  T 6  U 4  V 2  W 2  X 1  Y 2  Z 1  ? 2
"""


def changed(text, changes):
    """A text with some of its lines changed, each of which it has once."""
    for old, new in changes:
        assert text.count(old) == 1, old
        text = text.replace(old, new)
    return text


def board_of(first, told, *changes):
    """The English board with some of its lines changed."""
    return changed(f"board {first}\n{SQUARES}{told}{EVERY_TILE}", changes)


WITHOUT_WORD = [("board: 100", "board: 96"), ("D 4", "D 3"), ("O 8", "O 7"), ("R 6", "R 5"), ("W 2", "W 1")]
WITHOUT_AT = [("board: 100", "board: 94"), *WITHOUT_WORD[1:], ("A 9", "A 8"), ("T 6", "T 5")]


def boarded(run):
    """`board`, by what is laid, the line that is named, and the rules."""
    run.row(["board", "nothing"], 0, board_of("after the last event", " 0\n 0\n"))
    run.row(["board", "line"], 0, board_of("after the last event", "A 16\n 0\n", ROW_OF_WORD, *WITHOUT_WORD))
    before_word = board_of("before line 1", "A 0\n 0\nrack AADEORW\n")
    for line in ("0", "1"):
        run.row(["board", "--before", line, "line"], 0, before_word)
    for line in ("2", "4294967295"):
        run.row(["board", "line", "--before", line], 3, "bad line: no event is on it or after it\n")
    run.row(["board", "--before", "1", "nothing"], 3, "bad line: no event is on it or after it\n")
    # A play is on the board before its withdrawal, and off it after.
    tried = board_of("before line 3", "A 16\nB 9\nrack ZZZZZZZ\n", ROW_OF_WORD, ROW_OF_AT, *WITHOUT_AT)
    run.row(["board", "--before", "3", "withdrawn"], 0, tried.replace("rack ZZZZZZZ", "rack AT"))
    run.row(["board", "--before", "3", "not-judged"], 0, tried)
    back = board_of("before line 4", "A 16\nB 0\nrack AT\n", ROW_OF_WORD, *WITHOUT_WORD)
    run.row(["board", "--before=4", "not-judged"], 0, back)
    run.row(["board", "not-judged"], 0, board_of("after the last event", "A 25\nB 0\n", ROW_OF_WORD, ROW_OF_AT, *WITHOUT_AT))
    # Scores, totals and turns do not matter; a play that cannot be laid ends the laying.
    for game, total in (("line-17", 17), ("line-18", 18)):
        run.row(["board", game], 0, board_of("after the last event", f"A {total}\n 0\n", ROW_OF_WORD, *WITHOUT_WORD))
    for named in ([], ["--before", "3"]):
        stopped = "before line 2, whose play cannot be laid: Mismatch"
        run.row(["board", *named, "stops"], 0, board_of(stopped, "A 16\nB 0\n", ROW_OF_WORD, *WITHOUT_WORD))
    run.row(["board", "--before", "1", "line-8d"], 0, board_of("before line 1", "A 0\n 0\nrack AADEORW\n"))
    run.row(["board", "line-8d"], 0, board_of("before line 1, whose play cannot be laid: MissesCentre", "A 0\n 0\nrack AADEORW\n"))
    # A blank is small, and a blank of the tiles that are left; lines of players and remarks are none.
    blank = board_of(
        "after the last event", "Ann 14\nBob 0\n", (ROW_OF_WORD[0], ROW_OF_WORD[1].replace("R", "r")), *WITHOUT_WORD, ("R 5", "R 6"), ("? 2", "? 1")
    )
    run.row(["board", "blank-word"], 0, blank)
    run.row(["board", "--before", "2", "blank-word"], 0, board_of("before line 4", "Ann 0\nBob 0\nrack DOW?\n"))
    run.row(["board", "number"], 3, "bad record line 1: Number\n")
    run.row(["board", "--before", "9", "number"], 3, "bad record line 1: Number\n")
    more = [
        ("board: 100", "board: 200"),
        ("  A 9  B 2  C 2  D 4  E 12  F 2  G 3  H 2  I 9", "  A 18  B 4  C 4  D 8  E 24  F 4  G 6  H 4  I 18"),
        ("  J 1  K 1  L 4  M 2  N 6  O 8  P 2  Q 1  R 6", "  J 2  K 2  L 8  M 4  N 12  O 16  P 4  Q 2  R 12"),
        ("  S 4  T 6  U 4  V 2  W 2  X 1  Y 2  Z 1  ? 2", "  S 8  T 12  U 8  V 4  W 4  X 2  Y 4  Z 2  ? 4"),
    ]
    run.row(["board", "--rules", "two-sets.rules", "nothing"], 0, board_of("after the last event", " 0\n 0\n", *more))
    run.row(["board", "--rules", "tiles.rules", "folder"], 3, "bad rules line 1: Unknown\n")
    run.row(["board", "--rules", "nowhere", "elsewhere"], 4, error="referee: cannot open nowhere: no such file")
    run.row(["board", "nowhere"], 4, error="referee: cannot open nowhere: no such file")
    run.row(["board", "folder"], 4, error="referee: read failed: folder: is a folder")
    for words in (
        ["--before", "line"],
        ["--before", "-1", "line"],
        ["--before", "x", "line"],
        ["--before", "4294967296", "line"],
        ["--settle", "line"],
    ):
        run.row(["board", *words], 64, error=None)


def widest(run):
    """No line of a board is longer than 80 bytes, however long the nicknames and the numbers are."""
    nicks = "N" * 200, "\u00e9" * 200
    passes = "".join(f">{nicks[k % 2]}: AEINRST - -999999 -999999\n" for k in range(998))
    Path(run.folder, "wide").write_text(passes + f">{nicks[0]}: AEINRST 1H ABCDEFGHI -999999 -999999\n")
    for named in ([], ["--before", "1"], ["--before", "999"]):
        ran = subprocess.run([run.program, "board", *named, "wide"], cwd=run.folder, capture_output=True, check=False)
        lines = ran.stdout.split(b"\n")
        run.expect("lines of 80 bytes", ran.returncode == 0 and len(lines) > 20 and max(map(len, lines)) <= 80)


def archived(run):
    """`archive`, by what it says of each game alone and of all together, in both forms."""
    for words, rows in ARCHIVED.items():
        names, lines = [words, f"{words}.gad"], ["\t".join(told_of(name, text)) + "\n" for name, text, _ in rows]
        for (name, _, status), line in zip(rows, lines):
            run.row(["archive", *names, name], status, line)
        every = [name for name, _, _ in rows]
        worst = max(status for _, _, status in rows)
        run.row(["archive", *names, *every], worst, "".join(lines))
        run.row(["archive", "--quiet", *names, *reversed(every)], worst, "".join(reversed(lines)))
        run.row(["archive", "--progress", *names, *every], worst, "".join(lines), error=f"games done: {len(rows)}")
        objects = subprocess.run([run.program, "archive", "--json", *names, *every], cwd=run.folder, capture_output=True, check=False)
        told = [json.loads(text) for text in objects.stdout.decode().splitlines()]
        run.expect("the names of a JSON object", all(list(it) == [*FIELDS[:-1], "fault_name", "expected", FIELDS[-1]] for it in told))
        faults = [None if it["fault"] is None or it["verdict"] == "unread" else it["fault"].split() for it in told]
        run.expect("the name of a fault", [it["fault_name"] for it in told] == [fault and fault[0] for fault in faults])
        wrong = [int(fault[1]) if fault and fault[0] in ("WrongScore", "WrongTotal") else None for fault in faults]
        run.expect("what was expected", [it["expected"] for it in told] == wrong and 16 in wrong if words == "word" else True)
        texts = [["-" if it[field] is None else str(it[field]) for field in FIELDS] for it in told]
        run.expect("JSON objects", texts == [told_of(name, text) for name, text, _ in rows] and objects.returncode == worst)
    archived_names(run)
    archived_inputs(run)
    archived_lines(run)
    archived_pages(run)
    archived_again(run)
    archived_repairs(run)


def archived_repairs(run):
    """`archive --repairs`: two more fields of each line, after that of the page."""
    run.row(["build", "word-at-ra", "word-at-ra.gad"], 0)
    Path(run.folder, "stands-twice").write_text(WORD + ">B: AT 9G AT +9 9\n" * 2)
    Path(run.folder, "of-other").write_text("#player2 B\n" + WORD + ">A: AT 9G AT +9 9\n>A: - +0 16\n")
    rows = [  # a game, its line but for its name, its page, and its likely repair
        ("line", "legal unfinished - - 1 A 16 - - 0", "line%.html", ("-", "-")),
        (
            "stands-twice",
            "illegal - 3 NotYourTurn 3 A 16 B 9 -",
            "stands-twice%.html",
            ("line 3: it repeats the line before it and should not be there", "4 of 4"),
        ),
        ("of-other", "illegal - 3 NotYourTurn 3 A 16 B - -", "of-other%.html", ("line 3: B's line, not A's", "6 of 6")),
        ("line-18", "illegal - 1 WrongScore_16 1 A 18 - - -", "line-18%.html", ("-", "-")),
        ("third", "bad_record - 3 ThirdPlayer - - - - - -", "-", ("-", "-")),
        ("nothing", "no_game - - - 0 - - - - 0", "-", ("-", "-")),
        ("nowhere", "unread - - cannot_open - - - - - -", "-", ("-", "-")),
    ]
    names = [name for name, _, _, _ in rows]
    lines = ["\t".join([*told_of(name, text), *repair, unread_field(text)]) + "\n" for name, text, _, repair in rows]
    paged = ["\t".join([*told_of(name, text), page, *repair, unread_field(text)]) + "\n" for name, text, page, repair in rows]
    run.row(["archive", "--repairs", "word-at-ra", "word-at-ra.gad", *names], 4, "".join(lines))
    run.row(["archive", "--repairs", "--pages", "pages/repaired", "word-at-ra", "word-at-ra.gad", *names], 4, "".join(paged))
    objects = subprocess.run(
        [run.program, "archive", "--repairs", "--json", "word-at-ra", "word-at-ra.gad", *names], cwd=run.folder, capture_output=True, check=False
    )
    told = [json.loads(text)["likely"] for text in objects.stdout.decode().splitlines()]
    keys = ("change", "numbers_right")
    run.expect("likely repairs in JSON", told == [dict(zip(keys, (None if it == "-" else it for it in repair))) for _, _, _, repair in rows])
    for text in (lines, paged):
        Path(run.folder, "repaired-lines").write_text("".join(text))
        run.row(["archive", "--repairs", "--skip", "repaired-lines", "word-at-ra", "word-at-ra.gad", *names], 0, "")
        run.row(["index", "repaired-lines", "repaired-index"], 0, "")
    run.row(["archive", "--repairs", "--pages", "pages/repaired", "word-at-ra", "word-at-ra.gad", "line"], 0, paged[0])


def archived_names(run):
    """Where names stand, and how a line has them."""
    legal = "\tlegal\tunfinished\t-\t-\t1\tA\t16\t-\t-\t0\t0\n"
    unread = "\tunread\t-\t-\tcannot open\t-\t-\t-\t-\t-\t-\t-\n"
    Path(run.folder, "names").write_bytes(b"line\n\n\nno\xff\xfewhere\ncaf\xc3\xa9\nback\\slash\ntab\there\nline\r\nline")
    out = f"line{legal}no\ufffd\ufffdwhere{unread}caf\u00e9{legal}back\\\\slash{legal}tab\\there{legal}line\r{unread}line{legal}"
    run.row(["archive", "--names", "names", "word", "word.gad"], 4, out)
    run.row(["archive", "word", "word.gad", "--names=names"], 4, out)
    run.row(["archive", "--names", "-", "word", "word.gad"], 0, f"line{legal}", stdin="\nline\n")
    run.row(["archive", "--names", "-", "word", "word.gad"], 0, "", stdin="")
    run.row(["archive", "--names", "nothing", "word", "word.gad"], 0, "")
    run.row(["archive", "--names", "nothing", "--progress", "word", "word.gad"], 0, "", error="games done: 0")
    run.row(["archive", "word", "word.gad", "two\nlines"], 0, f"two\\nlines{legal}")
    run.row(["archive", "word", "word.gad", "/dev/stdin"], 0, f"/dev/stdin{legal}", stdin=WORD)
    nick = legal.replace("A", "\ufffdva")
    run.row(["archive", "word", "word.gad", "latin"], 0, f"latin{nick}")
    run.row(["archive", "word", "word.gad", "latin-stated"], 0, f"latin-stated{legal.replace('A', chr(0xC9) + 'va')}")
    Path(run.folder, "slashed").write_text(WORD.replace("A:", "a\\b:"))
    run.row(["archive", "word", "word.gad", "slashed"], 0, "slashed" + legal.replace("A", "a\\\\b"))
    objects = ["two\\nlines", "back\\\\slash", "tab\\there", "caf\u00e9", "\ufffdva"]
    told = subprocess.run(
        [run.program, "archive", "--json", "word", "word.gad", "two\nlines", "back\\slash", "tab\there", "caf\u00e9", "latin"],
        cwd=run.folder,
        capture_output=True,
        check=False,
    ).stdout.decode()
    read = [json.loads(text) for text in told.splitlines()]
    run.expect("names in JSON", [it["name"] for it in read] == ["two\nlines", "back\\slash", "tab\there", "caf\u00e9", "latin"])
    run.expect("how JSON writes them", all(text in told for text in objects) and read[-1]["player1"] == "\ufffdva")


def archived_inputs(run):
    """The inputs that are read once: where one is bad or cannot be read, no game is read."""
    run.row(["archive", "digit", "at.gad", "nowhere"], 3, "bad word list line 2: BadLetter\n")
    run.row(["archive", "--json", "at", "extra.gad", "folder"], 3, "bad lexicon: Extra A\n")
    run.row(["archive", "it-at", "at.gad", "line"], 3, "bad lexicon: Missing I+T\n")
    run.row(["archive", "--rules", "tiles.rules", "digit", "folder", "folder"], 3, "bad rules line 1: Unknown\n")
    run.row(["archive", "--rules", "english.rules", "digit", "folder", "folder"], 3, "bad word list line 2: BadLetter\n")
    for words in (["nowhere", "at.gad"], ["at", "nowhere"], ["--names", "nowhere", "at", "at.gad"], ["--rules", "nowhere", "digit", "at.gad"]):
        games = [] if "--names" in words else ["line"]
        run.row(["archive", *words, *games], 4, error="referee: cannot open nowhere: no such file")
    for words in (["folder", "at.gad"], ["at", "folder"], ["--names", "folder", "at", "at.gad"], ["--rules", "folder", "digit", "at.gad"]):
        games = [] if "--names" in words else ["line"]
        run.row(["archive", *words, *games], 4, error="referee: read failed: folder: is a folder")
    run.row(["archive", "--rules", "two-sets.rules", "at", "at.gad", "blanks"], 0, "blanks\tlegal\tunfinished\t-\t-\t2\tA\t0\tB\t0\t0\t0\n")
    run.row(
        ["archive", "--rules", "fourteen.rules", "retains", "retains.gad", "goes-out"], 0, "goes-out\tlegal\tcomplete\t-\t-\t2\tA\t88\t-\t-\t0\t0\n"
    )
    run.row(["archive", "many", "at.gad", "line"], 4, error="referee: no memory", room=1 << 23)
    if os.path.exists("/dev/full"):
        run.row(
            ["archive", "word", "word.gad", "nowhere", "line"],
            4,
            error="referee: write failed: standard output: no space left, error 28 of the system",
            stdout="/dev/full",
        )
        run.row(
            ["archive", "digit", "word.gad", "line"],
            4,
            error="referee: write failed: standard output: no space left, error 28 of the system",
            stdout="/dev/full",
        )


PAGED = [  # a game, its line but for its name and its page, the page, and the verdict, the totals and the result in the index
    ("line", "legal unfinished - - 1 A 16 - - 0", "line%.html", ["\u2713 legal: unfinished", "A", "16", "", "", "A is ahead by 16"]),
    ("./line", "legal unfinished - - 1 A 16 - - 0", "%./line%.html", ["\u2713 legal: unfinished", "A", "16", "", "", "A is ahead by 16"]),
    (
        "folder/../line",
        "legal unfinished - - 1 A 16 - - 0",
        "folder/%../line%.html",
        ["\u2713 legal: unfinished", "A", "16", "", "", "A is ahead by 16"],
    ),
    ("index", "legal unfinished - - 1 A 16 - - 0", "index%.html", ["\u2713 legal: unfinished", "A", "16", "", "", "A is ahead by 16"]),
    ("index.gcg", "legal unfinished - - 1 A 16 - - 0", "index.gcg%.html", ["\u2713 legal: unfinished", "A", "16", "", "", "A is ahead by 16"]),
    ("r1/final.gcg", "legal unfinished - - 1 A 16 - - 0", "r1/final.html", ["\u2713 legal: unfinished", "A", "16", "", "", "A is ahead by 16"]),
    (
        "r2/final.gcg",
        "illegal - 1 WrongTotal_16 1 A 17 - - -",
        "r2/final.html",
        ["\u2717 illegal line 1: the total is wrong WrongTotal 16", "A", "17", "", "", "A is ahead by 17"],
    ),
    ("r2/100%", "legal unfinished - - 1 A 16 - - 0", "r2/100%25%.html", ["\u2713 legal: unfinished", "A", "16", "", "", "A is ahead by 16"]),
    ("<b>&\"'.gcg", "legal unfinished - - 1 A 16 - - 0", "<b>&\"'.html", ["\u2713 legal: unfinished", "A", "16", "", "", "A is ahead by 16"]),
    (
        "latin-stated",
        "legal unfinished - - 1 \u00c9va 16 - - 0",
        "latin-stated%.html",
        ["\u2713 legal: unfinished", "\u00c9va", "16", "", "", "\u00c9va is ahead by 16"],
    ),
    (
        "unlisted",
        "legal unfinished - - 2 A 16 B 9 1",
        "unlisted%.html",
        ["\u2713 legal: unfinished, 1 play with an unlisted word", "A", "16", "B", "9", "A is ahead by 7"],
    ),
    (
        "turn",
        "illegal - 2 NotYourTurn 2 A 16 - - -",
        "turn%.html",
        ["\u2717 illegal line 2: it is the other player's turn NotYourTurn", "A", "16", "", "", "A is ahead by 16"],
    ),
    ("nothing", "no_game - - - 0 - - - - 0", "-", ["\u2013 no game: it is empty", "", "", "", "", ""]),
    ("third", "bad_record - 3 ThirdPlayer - - - - - -", "-", ["\u2013 bad record line 3: there is a third nickname ThirdPlayer", "", "", "", "", ""]),
    ("nowhere", "unread - - cannot_open - - - - - -", "-", ["\u2013 unread: cannot open", "", "", "", "", ""]),
    ("..", "unread - - is_a_folder - - - - - -", "-", ["\u2013 unread: is a folder", "", "", "", "", ""]),
]
IN_ORDER = [  # the rows of the index: by name, with numbers in names by their value
    "..", "./line", "<b>&\"'.gcg", "folder/../line", "index", "index.gcg", "latin-stated", "line", "nothing", "nowhere",
    "r1/final.gcg", "r2/100%", "r2/final.gcg", "third", "turn", "unlisted",
]  # fmt: skip
COUNTED = ["\u2713 10 legal", "\u2717 2 illegal", "\u2013 1 bad record", "\u2013 1 no game", "\u2013 2 unread"]


def archived_pages(run):
    """`archive --pages`: a page for each game that is read, by the name of the game alone, and their index."""
    pages, names = Path(run.folder, "pages/of/games"), [name for name, _, _, _ in PAGED]
    for name, text in [
        ("index", WORD),
        ("index.gcg", WORD),
        ("<b>&\"'.gcg", WORD),
        ("r1/final.gcg", WORD),
        ("r2/final.gcg", TEXTS["line-17"]),
        ("r2/100%", WORD),
    ]:
        Path(run.folder, name).parent.mkdir(exist_ok=True)
        Path(run.folder, name).write_text(text)
    lines = ["\t".join([*told_of(name, text), page, unread_field(text)]) + "\n" for name, text, page, _ in PAGED]
    for order in (1, -1):
        run.row(["archive", "--pages", "pages/of/games", "word", "word.gad", *names[::order]], 4, "".join(lines[::order]))
    run.row(["archive", "--pages", "pages/of/games", "word", "word.gad", *names], 4, "".join(lines))
    made = sorted(str(it.relative_to(pages)) for it in pages.rglob("*") if it.is_file())
    run.expect("the files of a folder", made == sorted(["index.html", *(page for _, _, page, _ in PAGED if page != "-")]))
    for name, text, page, _ in PAGED:
        if page != "-":
            made = (pages / page).read_bytes()
            back = b"".join([b'<p class="up"><a href="', b"../" * page.count("/"), b'index.html">&lsaquo; All games</a></p>\n'])
            run.expect(f"the link back of {page}", made.count(back) == 1)
            run.row(["page", "word", "word.gad", name, "out"], int(text.startswith("illegal")), None, wrote=made.replace(back, b""))
    whole = (pages / "index.html").read_bytes()
    run.expect("the counts of the index", [it.text() for it in web.read(whole).first("ul", "counts").all("li")] == COUNTED)
    rows = web.read(whole).first("tbody").all("tr")
    paged = {name: (page, cells) for name, _, page, cells in PAGED}
    run.expect("the rows of the index", [[it.text() for it in row.all("td")] for row in rows] == [[name, *paged[name][1]] for name in IN_ORDER])
    links = [[unquote(it.attributes["href"]) for it in row.all("a")] for row in rows]
    run.expect("the links of the index", links == [[paged[name][0]] if paged[name][0] != "-" else [] for name in IN_ORDER])
    told = subprocess.run(
        [run.program, "archive", "--json", "--pages", "pages", "word", "word.gad", *names], cwd=run.folder, capture_output=True, check=False
    )
    objects = [json.loads(text) for text in told.stdout.decode().splitlines()]
    named = all(list(it) == [*FIELDS[:-1], "page", "fault_name", "expected", FIELDS[-1]] for it in objects)
    run.expect("pages in JSON", named and [it["page"] or "-" for it in objects] == [page for _, _, page, _ in PAGED])
    refused_pages(run)
    kept_inputs(run)
    named_pages(run)
    indexed(run, lines, told.stdout.decode(), whole.replace(b": it is empty", b""))


def named_pages(run):
    """What the index has of names, titles and results; games whose names have numbers; and a likely repair, also by the lines of the run."""
    folder = Path(run.folder, "rounds")
    folder.mkdir()
    names = "#title Final <3>\n#player1 A Ann \u05d0\n#player2 B Bob\n"
    texts = {"t10": names + WORD, "t2": names + ON_WORD, "t1": WORD.replace("8E", "9E"), "t02": names + WORD}
    for name, text in texts.items():
        Path(folder, f"{name}.gcg").write_text(text)
    run.row(["build", "word-at-ra", "word-at-ra.gad"], 0)
    words, games = ["word-at-ra", "word-at-ra.gad"], [f"rounds/{name}.gcg" for name in sorted(texts)]
    told = subprocess.run(
        [run.program, "archive", "--repairs", "--pages", "rounded", *words, *games], cwd=run.folder, capture_output=True, check=False
    )
    read = web.read(Path(run.folder, "rounded/index.html").read_bytes()).first("tbody").all("tr")
    likely = "line 1: WORD at 8E, not at 9E"
    cells = {
        "t1": [
            "rounds/t1.gcg",
            f"\u2717 illegal line 1: the first play misses the centre MissesCentrelikely: {likely}",
            "A",
            "16",
            "",
            "",
            "A is ahead by 16",
        ],
        "t02": ["rounds/t02.gcgFinal <3>", "\u2713 legal: unfinished", "Ann \u05d0", "16", "Bob", "", "Ann \u05d0 is ahead by 16"],
        "t2": [
            "rounds/t2.gcgFinal <3>",
            "\u2713 legal: unfinished, 1 play with an unlisted word",
            "Ann \u05d0",
            "16",
            "Bob",
            "9",
            "Ann \u05d0 is ahead by 7",
        ],
        "t10": ["rounds/t10.gcgFinal <3>", "\u2713 legal: unfinished", "Ann \u05d0", "16", "Bob", "", "Ann \u05d0 is ahead by 16"],
    }
    found = [[it.text() for it in row.all("td")] for row in read]
    run.expect("names, titles, results and order", found == list(cells.values()))
    run.expect("names by themselves", all(row.first("td", "pl").all("bdi") and row.first("td", "ld").all("bdi") for row in read))
    run.row(["index", "-", "rounded/again.html"], 0, stdin=told.stdout.decode())
    again = web.read(Path(run.folder, "rounded/again.html").read_bytes()).first("tbody").all("tr")
    nicks = {"Ann \u05d0": "A", "Bob": "B"}
    plain = [[nicks.get(it, it.replace("Final <3>", "").replace("Ann \u05d0", "A")) for it in row] for row in cells.values()]
    run.expect("the index of the lines", [[it.text() for it in row.all("td")] for row in again] == plain)


def kept_inputs(run):
    """Pages that would be written over an input: the run is refused before anything is written, where the games are known before it."""
    legal = "legal\tunfinished\t-\t-\t1\tA\t16\t-\t-\t0"
    for folder, page, name in [
        ("over-words", "index.html", "word"),
        ("over-game", "line%.html", "line"),
        ("over-other", "other%.html", "line"),
        ("over-list", "line%.html", "names-of-one"),
    ]:
        Path(run.folder, folder).mkdir()
        Path(run.folder, folder, page).symlink_to(f"../{name}")
    Path(run.folder, "other").write_text(WORD)
    Path(run.folder, "names-of-one").write_text("line\n")
    kept = {name: Path(run.folder, name).read_bytes() for name in ("word", "line", "other", "names-of-one")}
    for folder, games, lost in [
        ("over-words", ["line"], "WORDS"),
        ("over-game", ["line"], "GAME"),
        ("over-game", ["--names", "names-of-one"], "GAME"),
        ("over-other", ["line", "other"], "GAME"),
        ("over-list", ["--names", "names-of-one"], "the FILE of --names"),
    ]:
        status, told, error = said(run, ["archive", "--pages", folder, "word", "word.gad", *games])
        message = f"a page in FOLDER is the same file as {lost}, which would be lost"
        run.expect(f"pages over {lost} in {folder}", status == 64 and told == b"" and message in error.decode())
    run.row(["archive", "--pages", "over-game", "--names", "-", "word", "word.gad"], 4, f"line\t{legal}\tcannot write\t0\n", stdin="line\n")
    run.expect("the inputs of pages are as they were", all(Path(run.folder, name).read_bytes() == data for name, data in kept.items()))
    # A link that leads to no input is followed.
    Path(run.folder, "over-other/line%.html").symlink_to("../elsewhere.html")
    run.row(["archive", "--pages", "over-other", "word", "word.gad", "line"], 0, f"line\t{legal}\tline%.html\t0\n")
    run.expect(
        "the page behind a link",
        Path(run.folder, "elsewhere.html").read_bytes().startswith(b"<!DOCTYPE html>") and Path(run.folder, "over-other/line%.html").is_symlink(),
    )


def indexed(run, lines, objects, whole):
    """`index`: of the lines of runs, in both forms, the index that one run makes of them all, but for what no line says."""
    for text in ("".join(lines), objects, "".join(lines[:3]) + "\n".join(objects.split("\n")[3:])):
        Path(run.folder, "lines").write_text(text)
        run.row(["index", "lines", "out"], 0, wrote=whole)
        run.row(["index", "-", "out"], 0, stdin=text, wrote=whole)
    plain = ["\t".join(line.split("\t")[:11]) + "\n" for line in lines]
    for text in (["\t".join(line.split("\t")[:12]) + "\n" for line in lines], plain):
        run.row(["index", "-", "out"], 0, stdin="".join(text), wrote=whole if text is not plain else None)
    rows = web.read(Path(run.folder, "out").read_bytes()).first("tbody").all("tr")
    cells = {name: [it.removesuffix(": it is empty") for it in cells] for name, _, _, cells in PAGED}
    run.expect("an index without pages", [[it.text() for it in row.all("td")] for row in rows] == [[name, *cells[name]] for name in IN_ORDER])
    run.expect("no links", not any(row.all("a") for row in rows))
    run.row(["index", "-", "out"], 0, stdin="")
    Path(run.folder, "out").write_bytes(b"as it was")
    for bad in (
        "line\n",
        "\n",
        lines[0].replace("legal", "lawful"),
        lines[0].replace("16", "x"),
        lines[0].replace("line%.html", "a\tb\tc\td"),
        lines[0][:-1],
        "{}\n",
        objects.split("\n")[0].replace('"legal"', '"lawful"') + "\n",
        objects.split("\n")[0][:-1] + "\n",
    ):
        run.row(
            ["index", "-", "out"], 3, stdin=lines[1] + bad, error="referee: standard input line 2 is not a line of an archive", wrote=b"as it was"
        )
    for page in ("/line%.html", "../line%.html", "a/../../line%.html", "..//a.html"):
        outside = lines[0].replace("line%.html", page)
        run.row(
            ["index", "-", "out"],
            3,
            stdin=lines[1] + outside,
            error="referee: standard input line 2 names a page outside the folder of the index",
            wrote=b"as it was",
        )
    run.row(["index", "nowhere", "out"], 4, error="referee: cannot open nowhere: no such file", wrote=b"as it was")
    run.row(["index", "folder", "out"], 4, error="referee: read failed: folder: is a folder", wrote=b"as it was")
    run.row(["index", "lines"], 64, error=None)
    run.row(["index", "lines", "out", "more"], 64, error=None)


def refused_pages(run):
    """Pages that cannot be written."""
    legal = "legal\tunfinished\t-\t-\t1\tA\t16\t-\t-\t0"
    run.row(["archive", "--pages", "line", "word", "word.gad", "line"], 4, error="referee: cannot open line: error 17 of the system")
    run.row(["archive", "--pages", "line/x", "word", "word.gad", "line"], 4, error="referee: cannot open line/x: error 20 of the system")
    Path(run.folder, "some/line%.html").mkdir(parents=True)
    Path(run.folder, "some/r1").write_text("")
    names, pages = ["line", "caf\u00e9", "r1/final.gcg"], ["cannot write", "caf\u00e9%.html", "cannot write"]
    run.row(
        ["archive", "--pages", "some", "word", "word.gad", *names], 4, "".join(f"{name}\t{legal}\t{page}\t0\n" for name, page in zip(names, pages))
    )
    Path(run.folder, "none/index.html").mkdir(parents=True)
    run.row(
        ["archive", "--pages", "none", "word", "word.gad", "line"],
        4,
        f"line\t{legal}\tline%.html\t0\n",
        error="referee: write failed: none: is a folder",
    )


def archived_again(run):
    """`archive --skip`: the games that have no line yet; and `-0`, names that end in NUL."""
    legal, other = "\tlegal\tunfinished\t-\t-\t1\tA\t16\t-\t-\t0\t0", "\tno game\t-\t-\t-\t0\t-\t-\t-\t-\t0\t0"
    names = ["line", "no\xffwhere", "tab\there", "two\nlines", "back\\slash", "nothing"]
    shown = [
        ("line", legal),
        ("no\ufffdwhere", "\tunread\t-\t-\tcannot open\t-\t-\t-\t-\t-\t-\t-"),
        ("tab\\there", legal),
        ("two\\nlines", legal),
        ("back\\\\slash", legal),
        ("nothing", other),
    ]
    lines, statuses = [f"{name}{text}\n" for name, text in shown], [0, 4, 0, 0, 0, 3]
    Path(run.folder, "names").write_bytes(b"\0".join(name.encode("latin-1") for name in names))
    null = ["--names", "names", "word", "word.gad"]
    for option in ("-0", "--null"):
        run.row(["archive", option, *null], 4, "".join(lines))
    run.row(["archive", "-0", "--names", "-", "word", "word.gad"], 0, f"{lines[0]}{lines[3]}", stdin="\0\0line\0two\nlines\0")
    told = subprocess.run([run.program, "archive", "--json", "-0", *null], cwd=run.folder, capture_output=True, check=False).stdout
    objects = told.decode().splitlines(keepends=True)
    for done in range(len(names) + 1):
        left, status = "".join(lines[done:]), max(statuses[done:], default=0)
        Path(run.folder, "done").write_text("".join(lines[:done]))
        run.row(["archive", "-0", "--skip", "done", *null], status, left)
        run.row(["archive", "-0", "--skip", "-", *null], status, left, stdin="".join(objects[:done]))
        run.row(["archive", "--skip", "done", "word", "word.gad", "--", "line", "line"], 0, lines[0] * 2 if done == 0 else "")
        part = lines[done][:-1] if done < len(names) else "x"
        Path(run.folder, "done").write_text("".join(lines[:done]) + part)
        run.row(
            ["archive", "-0", "--skip", "done", *null],
            3,
            error=f"referee: done ends with part of line {done + 1}: drop that part, and run this again",
        )
    Path(run.folder, "done").write_text(lines[0] + "line\n")
    run.row(["archive", "--skip", "done", "word", "word.gad", "turn"], 3, error="referee: done line 2 is not a line of an archive")
    run.row(["archive", "--skip", "nowhere", "word", "word.gad", "line"], 4, error="referee: cannot open nowhere: no such file")
    run.row(["archive", "--skip", "folder", "word", "word.gad", "line"], 4, error="referee: read failed: folder: is a folder")
    run.row(["archive", "--skip", "-", "--names", "-", "word", "word.gad"], 64, error=None)
    run.row(["archive", "-0", "word", "word.gad", "line"], 64, error=None)


def archived_lines(run):
    """Each line goes out before the next game is read, and the progress is shown every hundred games."""
    Path(run.folder, "names").write_text("line\n" * 250)
    ran = subprocess.run(
        [run.program, "archive", "--progress", "--names", "names", "word", "word.gad"], cwd=run.folder, capture_output=True, check=False
    )
    run.expect("the progress", ran.stderr.decode() == "".join(f"games done: {count}\n" for count in (100, 200, 250)))
    run.expect("a line for each name", ran.stdout.count(b"\n") == 250)
    words = [run.program, "archive", "--names", "-", "word", "word.gad"]
    pipes = {"stdin": subprocess.PIPE, "stdout": subprocess.PIPE, "bufsize": 0}
    with subprocess.Popen(words, cwd=run.folder, **pipes) as process:
        for name in (b"line", b"nowhere", b"line"):
            process.stdin.write(name + b"\n")
            run.expect("a line before the next name", process.stdout.readline().startswith(name + b"\t"))
        process.stdin.close()
        run.expect("the status of all", process.wait(run.patience) == 4)


def served(run):
    """`serve`: what it says first, the answers to lines, and that each goes out before the next line is read."""
    pair, ready = ["word", "word.gad"], '{"ready":true,"words":1,"version":"1.2.0"}\n'
    asked = '{"id":1,"do":"word","words":["word"]}'
    told = '{"id":1,"status":0,"answer":{"verdict":"acceptable","line":null,"fault":null,"words":[{"word":"WORD","acceptable":true}]}}\n'
    run.row(["serve", *pair], 0, ready)
    run.row(["serve", *pair], 0, ready + told, stdin=asked)
    run.row(["serve", *pair], 0, ready + told + told, stdin=f"{asked}\r\n{asked}\n")
    run.row(
        ["serve", *pair],
        0,
        ready + '{"id":"n","status":0,"answer":{"verdict":"ok","line":null,"fault":null,"words":1}}\n',
        stdin='{"id":"n","do":"check"}',
    )
    run.row(["serve", "--first-field", "--skip-others", *pair], 0, ready + told, stdin=asked)
    for line, error in [
        ("", "the line is not JSON"),
        ("[]", "the line is not a JSON object"),
        ('{"id":1}', "the object has no do"),
        ('{"do":1}', "do is not a text"),
        ('{"do":"judged"}', 'there is no command \\"judged\\"'),
        ('{"do":"tidy","rack":"A","game":""}', 'tidy has no \\"rack\\"'),
        ('{"do":"check","game":""}', 'check has no \\"game\\"'),
        ('{"do":"top","game":""}', "top needs rack or line"),
        ('{"do":"word","words":[]}', "word needs words"),
        ('{"do":"board","game":"","line":4294967296}', "line is not a number from 0 to 4294967295"),
        ('{"do":"judge","game":"","settle":1}', "settle is neither true nor false"),
        ('{"id":[],"do":"tidy","game":""}', "id is neither a text nor a number"),
        ('{"do":"repair"}', "repair needs game"),
        ('{"do":"repair","game":"","number":0}', "number is not a number from 1 to 100"),
        ('{"do":"repair","game":"","number":101}', "number is not a number from 1 to 100"),
        ('{"do":"repair","game":"","repaired":1}', "repaired is neither true nor false"),
        ('{"do":"repair","game":"","line":1}', 'repair has no \\"line\\"'),
        ('{"do":"compare","second":""}', "compare needs first"),
        ('{"do":"compare","first":""}', "compare needs second"),
        ('{"do":"compare","first":"","second":7}', "second is not a text"),
        ('{"do":"compare","first":"","second":"","merged":"yes"}', "merged is neither true nor false"),
        ('{"do":"compare","first":"","second":"","game":""}', 'compare has no \\"game\\"'),
        ('{"do":"annotate","game":null}', "annotate needs game"),
        ('{"do":"annotate","game":[]}', "game is not a text"),
        ('{"do":"annotate","game":"","number":0}', "number is not a number from 1 to 100"),
        ('{"do":"annotate","game":"","number":101}', "number is not a number from 1 to 100"),
        ('{"do":"annotate","game":"","likely":true}', 'annotate has no \\"likely\\"'),
    ]:
        run.row(["serve", *pair], 0, f'{ready}{{"id":null,"status":64,"error":"{error}"}}\n', stdin=f"{line}\n")
    # The letters of a rack may be lower case, but not on the command line; no other character is a tile in either case.
    plays = [{"place": "8G", "direction": "across", "text": "AT", "score": 4}]
    by_at = ["serve", "at", "at.gad"], 0
    for rack in ("AT?", "at?", "aT?"):
        found = {"verdict": "ok", "line": None, "fault": None, "rack": "AT?", "plays": plays}
        answer = json.dumps({"id": None, "status": 0, "answer": found}, separators=(",", ":"))
        run.row(*by_at, f"{ready}{answer}\n", stdin=json.dumps({"do": "top", "game": "", "rack": rack, "number": 1}))
    refused = '{"id":null,"status":3,"answer":{"verdict":"bad rack","line":null,"fault":null}}\n'
    for rack in ("", "a1", "\u00e4", "a t", "aaaaaaaa"):
        run.row(*by_at, f"{ready}{refused}", stdin=json.dumps({"do": "top", "game": "", "rack": rack, "line": 1}))
    sheets_served(run)
    run.row(["serve", "digit", "word.gad"], 3, '{"verdict":"bad word list","line":2,"fault":{"name":"BadLetter"}}\n', error="", stdin=asked)
    run.row(["serve", "word", "at.gad"], 3, '{"verdict":"bad lexicon","line":null,"fault":{"name":"Extra","path":"A"}}\n', error="", stdin=asked)
    run.row(["serve", "--rules", "nothing", *pair], 3, '{"verdict":"bad rules","line":null,"fault":{"name":"Missing"}}\n', error="", stdin=asked)
    run.row(
        ["serve", "nowhere", "at.gad"],
        4,
        '{"verdict":"cannot open","line":null,"fault":null,"file":"nowhere"}\n',
        error="referee: cannot open nowhere: no such file",
    )
    for words in ([], ["word"], ["-", "word.gad"], ["word", "word.gad", "line"], ["--json", *pair]):
        run.row(["serve", *words], 64, error=None, stdin="WORD\n")
    if os.path.exists("/dev/full"):
        run.row(["serve", *pair], 4, error="referee: write failed: standard output: no space left, error 28 of the system", stdout="/dev/full")
    long = '{"id":1,"do":"tidy","game":"' + "x" * (5 << 20) + '"}'
    run.row(
        ["serve", *pair], 0, f'{ready}{{"id":null,"status":64,"error":"the line has more than 4194304 bytes"}}\n{told}', stdin=f"{long}\n{asked}\n"
    )
    pipes = {"stdin": subprocess.PIPE, "stdout": subprocess.PIPE, "bufsize": 0}
    with subprocess.Popen([run.program, "serve", *pair], cwd=run.folder, **pipes) as process:
        run.expect("it is ready before a line", process.stdout.readline().decode() == ready)
        for _ in range(3):
            process.stdin.write(asked.encode() + b"\n")
            run.expect("an answer before the next line", process.stdout.readline().decode() == told)
        process.stdin.close()
        run.expect("it ends with the lines", process.wait(run.patience) == 0)


ANY = object()
NO_REPAIRS: dict[str, object] = {
    "numbers_alone": None,
    "repairs": [],
    "pairs": [],
    "chain": None,
    "left": None,
    "tried": None,
    "untried": None,
    "numbers_alone_settled": None,
    "sheet_slips": [],
}
NO_GAME_HEAD: dict[str, object] = {"verdict": "no game", "line": None, "fault": None, "unread_lines": []}
THIRD = {"verdict": "bad record", "line": 3, "fault": {"name": "ThirdPlayer"}}


def sheets_served(run):
    """The requests `repair`, `compare` and `annotate` to `serve`: the status, the object and the text of each, made by hand, and that the object is
    the one that the command writes."""
    run.row(["build", "word-at-ra", "word-at-ra.gad"], 0)
    Path(run.folder, "eats").write_text("AT\nDT\nEAT\nOE\nRA\nWORD\n")
    run.row(["build", "eats", "eats.gad"], 0)

    def told(words, files, asked, status, answer=None, text=None):
        """One request; where an answer is `ANY`, it is the one that the command writes. Of a sheet without notes it is that of `explain`."""
        request = {"id": "n", **asked}
        words = [words, f"{words}.gad"]
        ran = subprocess.run([run.program, "serve", *words], cwd=run.folder, input=json.dumps(request).encode(), capture_output=True, check=False)
        said = json.loads(ran.stdout.split(b"\n")[1])
        wanted = {"id": "n", "status": status}
        if answer is not None:
            command = [{"annotate": "explain"}.get(asked["do"], asked["do"]), "--json"]
            command += ["--number", str(asked["number"])] if asked["do"] == "repair" and "number" in asked else []
            for key, name in files.items():
                Path(run.folder, name).write_bytes(asked[key].encode())
            ran = subprocess.run([run.program, *command, *words, *files.values()], cwd=run.folder, capture_output=True, check=False)
            written = json.loads(ran.stdout)
            run.expect(f"the status of the command beside {asked}", ran.returncode == status)
            run.expect(f"the object of the command beside {asked}: {written}", answer is ANY or written == answer)
            wanted["answer"] = written
        wanted |= {} if text is None else {"text": text}
        run.expect(f"{asked} is answered with {said} for {wanted}", said == wanted and list(said) == list(wanted))

    def repair(words, game, status, answer=ANY, text=None, **more):
        told(words, {"game": "asked"}, {"do": "repair", "game": game, **more}, status, answer, text)

    def compare(one, other, status, answer, text=None, **more):
        told("word", {"first": "asked", "second": "beside"}, {"do": "compare", "first": one, "second": other, **more}, status, answer, text)

    def annotate(words, game, status, text=None, answer=None, **more):
        told(words, {"game": "asked"}, {"do": "annotate", "game": game, **more}, status, answer, text)

    at, eat, word = ">B: AT 9G AT +9 9\n", ">A: E 9F E.. +5 21\n", WORD.replace("DORWAAE", "AADEORW")
    legal = {"verdict": "legal", "line": None, "fault": None, "ending": "unfinished"} | NO_REPAIRS | {"unread_lines": []}
    for more in ({}, {"repaired": False}, {"repaired": True}, {"number": 1, "repaired": True}):
        repair("word", WORD, 0, legal, **more)
        repair("word", "", 3, NO_GAME_HEAD, **more)
        repair("word", TEXTS["third"], 3, THIRD | {"line_slips": []}, **more)
    repair("word-at-ra", WORD + at + at, 1, number=1)
    repair("word-at-ra", WORD + at + at, 1, text=WORD + at, number=1, repaired=True)
    repair("eats", WORD.replace("+16 16", "+18 18") + at, 1, text=WORD + at, repaired=True)
    repair("eats", word + at[1:] + eat, 1, text=word + at + eat, repaired=True)
    repair("eats", ">A: AADEORW E8 WORD +16 16\n>B: AT 9H AT +9 9\n" + eat, 1, repaired=True)
    repair("eats", word.replace("8E ", "") + at + eat, 3)
    repair("eats", word.replace("8E ", "") + at + eat, 3, text=word + at + eat, repaired=True)
    merged, first, second = "#player1 A\n" + word, {"lines": ["first"], "racks": []}, {"lines": ["second"], "racks": []}
    agree = comparison("agree", [], best={"lines": [], "racks": []}, merged=merged)
    compare(WORD, WORD, 0, agree)
    compare(WORD, WORD, 0, agree, merged=False)
    compare(WORD, WORD, 0, agree, merged, merged=True)
    one, refused = sheet_line("8E WORD +16 16"), {"first": 1, "second": 1, "fault": {"name": "MissesCentre"}}
    centre = difference(one, sheet_line("8D WORD +16 16"), "differ", taken="first", other="refused", refused=refused)
    compare(WORD, WORD.replace("8E", "8D"), 1, comparison("differ", [centre], choices=2, best=first, merged=merged), merged, merged=True)
    both = difference(one, sheet_line("8F WORD +16 16"), "differ", taken="first", other="as good")
    compare(WORD, WORD.replace("8E", "8F"), 1, comparison("differ", [both], choices=2, best=first, rivals=[second], why="other choice"), merged=True)
    for sheets in ((TEXTS["third"], WORD), (WORD, TEXTS["third"]), (TEXTS["third"], "")):
        compare(*sheets, 3, THIRD, merged=True)
    for sheets in (("", WORD), (WORD, ""), ("", TEXTS["third"])):
        compare(*sheets, 3, NO_GAME_HEAD, merged=True)
    best = f"{WORD}#note best 8E WORD 16, equal\n"
    annotate("word", WORD, 0, best)
    annotate("word", WORD.replace("\n", "\r\n"), 0, best.replace("\n", "\r\n"))
    annotate("word", TEXTS["line-18"], 1, ">A: DORWAAE 8E WORD +18 18\n#note The play scores 16, but 18 is written.\n")
    run.row(["build", "at", "at.gad"], 0)
    none = ">A: AEIRSUV - +0 0\n#note no play is possible\n>B: AEINRST - +0 0\n#note best 8G AT 4, 4 more"
    annotate("at", TEXTS["no-play"], 0, f"{none}\n")
    annotate("at", TEXTS["no-play"], 0, f"{none}\n", number=1)
    annotate("at", TEXTS["no-play"], 0, f"{none}; then 8H AT 4, H7 AT 4\n", number=3)
    for more in ({}, {"number": 1}, {"number": 100}):
        annotate("word", TEXTS["third"], 3, answer=THIRD, **more)
        annotate("word", "", 3, answer=NO_GAME_HEAD, **more)


def audited(run):
    """`audit`, by the wrong numbers of a sheet and the verdict on its correction, and the record that it writes."""
    run.row(["build", "word", "word.gad"], 0)
    run.row(["build", "word-at-ra", "word-at-ra.gad"], 0)
    line, passed = WORD.encode(), f"{WORD}{GOING_ON}".encode()
    lead, by_sheet = "A is ahead by 16\n", "A is ahead by 16; by the sheet A is ahead by %d\n"
    for game, status, out, kept in [
        ("line", 0, f"legal unfinished\n{lead}", line),
        ("line-18", 1, f"line 1: score 18, should be 16 (A, 8E WORD)\ntotal of A: 18, should be 16\nlegal unfinished\n{by_sheet % 18}", line),
        ("line-17", 1, f"line 1: sum 17, should be 16 (A, 8E WORD)\nlegal unfinished\n{by_sheet % 17}", line),
        (
            "score-and-sum",
            1,
            f"line 1: score 18, should be 16 (A, 8E WORD)\nline 1: sum 19, should be 16 (A, 8E WORD)\nlegal unfinished\n{by_sheet % 19}",
            line,
        ),
        ("score-alone", 1, f"line 1: score 18, should be 16 (A, 8E WORD)\nlegal unfinished\n{lead}", passed),
        ("total-alone", 1, f"line 1: sum 17, should be 16 (A, 8E WORD)\nlegal unfinished\n{lead}", passed),
        ("total-carried", 1, f"line 1: sum 17, should be 16 (A, 8E WORD)\ntotal of A: 17, should be 16\nlegal unfinished\n{by_sheet % 17}", passed),
        (
            "two-totals",
            1,
            f"line 1: sum 17, should be 16 (A, 8E WORD)\nline 3: sum 18, should be 16 (A, -)\nlegal unfinished\n{by_sheet % 18}",
            passed,
        ),
        ("one-player", 0, "legal unfinished\nthe other player is ahead by 5\n", TEXTS["one-player"].encode()),
        (
            "bonus-of-10",
            1,
            "line 2: sum 21, should be 26 (A, (challenge))\nOr: line 2: a bonus for a challenge, 5, not 10\n"
            "  8 of 8 numbers right\nillegal line 2: BadBonus\n",
            None,
        ),
        ("untidy", 0, f"legal unfinished\n{lead}", TEXTS["untidy"].encode()),
        (
            "by-hand",
            1,
            "line 5: score 10, should be 9 (B, 9G AT)\ntotal of B: 10, should be 9\n"
            "legal unfinished\nA is ahead by 7; by the sheet A is ahead by 6\n",
            f"{BY_HAND}>B: AT 9G AT +9 9{OTHERS}".encode(),
        ),
        ("nothing", 3, "no game\n", None),
        ("page", 3, "no game\n", None),
        ("line-8d", 1, "illegal line 1: MissesCentre\n", None),
        ("turn", 1, "illegal line 2: NotYourTurn\n", None),
        ("blanks", 1, "illegal line 2: TilesShort ?\n", None),
        ("one-q", 1, "illegal line 3: NoDeal\n", None),
        ("sum-then-turn", 1, "line 1: sum 15, should be 16 (A, 8E WORD)\nline 2: sum 4, should be 0 (B, (time))\nillegal line 2: BadTime\n", None),
    ]:
        Path(run.folder, "out").write_bytes(b"as it was")
        run.row(["audit", "--corrected", "out", "word", "word.gad", game], status, out, wrote=b"as it was" if kept is None else kept)
        run.row(["audit", "word", "word.gad", game], status, out)
    missing = (
        "line 3: sum 21, should be 16 (A, -)\nOr: before line 2: A gets 5 points for a failed challenge\n  8 of 8 numbers right\nlegal unfinished\n"
        + by_sheet % 21
    )
    run.row(["audit", "word", "word.gad", "bonus-missing"], 1, missing)
    Path(run.folder, "out").write_bytes(b"as it was")
    held = "not written: either the bonus or penalty after Or: is missing, or the number is wrong\n"
    run.row(["audit", "--corrected", "out", "word", "word.gad", "bonus-missing"], 1, missing + held, wrote=b"as it was")
    run.row(["audit", "word-at-ra", "word-at-ra.gad", "unlisted"], 0, "legal unfinished\nA is ahead by 7\n")
    for words, status, out in [
        (["digit", "word.gad", "line"], 3, "bad word list line 2: BadLetter\n"),
        (["at", "extra.gad", "line"], 3, "bad lexicon: Extra A\n"),
        (["word", "word.gad", "third"], 3, "bad record line 3: ThirdPlayer\n"),
        (["--rules", "tiles.rules", "word", "word.gad", "line"], 3, "bad rules line 1: Unknown\n"),
    ]:
        Path(run.folder, "out").write_bytes(b"as it was")
        run.row(["audit", "--corrected", "out", *words], status, out, wrote=b"as it was")
    run.row(["audit", "--rules", "two-sets.rules", "at", "at.gad", "blanks"], 0, "legal unfinished\nboth have the same total\n")
    run.row(["audit", "word", "word.gad", "-"], 0, f"legal unfinished\n{lead}", stdin=WORD)
    run.row(["audit", "word", "word.gad", "nowhere"], 4, error="referee: cannot open nowhere: no such file")
    run.row(["audit", "word", "folder", "line"], 4, error="referee: read failed: folder: is a folder")
    run.row(["audit", "--corrected", "no/where", "word", "word.gad", "line"], 4, error="referee: cannot open no/where: no such file")
    run.row(["audit", "word", "word.gad"], 64, error=None)
    if os.path.exists("/dev/full"):
        run.row(
            ["audit", "word", "word.gad", "line"],
            4,
            error="referee: write failed: standard output: no space left, error 28 of the system",
            stdout="/dev/full",
        )
        run.row(
            ["audit", "--corrected", "/dev/full", "word", "word.gad", "line"],
            4,
            error="referee: write failed: /dev/full: no space left, error 28 of the system",
        )


# What the lines of a draft may lack, or have too many, in the words of the report.
AMISS = {
    ">A: AEINRST\n": "After the colon comes neither a position and a word nor a code.",
    ">A:\n": "After the colon comes neither a position and a word nor a code.",
    ">A: 8E\n": "After the position comes no word.",
    ">A: (time)\n": "The line has no score. The rules allow several for a challenge or a penalty, so it has to be written.",
    ">A: 8E WORD 16 16 16\n": "More than a score and a total come after the word or the code.",
}
HELD = "not written: either the bonus or penalty after Or: is missing, or the number is wrong\n"


def filled(run):
    """`fill`: the numbers that are put in, those that are wrong, the verdict, and the record."""
    run.row(["build", "word", "word.gad"], 0)
    lead, files = "legal unfinished\nA is ahead by 16\n", ["word", "word.gad", "draft"]
    wrong, bare = "line 1: score 18, should be 16 (A, 8E WORD)\n", WORD.removesuffix(" +16 16\n")
    left_out = BY_HAND.replace("  16  +16 ", "\t") + ">B: AT 9G AT +10 " + OTHERS.replace(" +0 016", "")
    wanted = BY_HAND.replace("  16  +16 ", "\t+16 16") + ">B: AT 9G AT +9 \t9\r\n\r\n>A: - +0 16"
    for draft, status, out, kept in [
        (bare, 0, f"put in: 1 score, 1 total\n{lead}", WORD.removesuffix("\n")),
        (f"{bare} +16\n", 0, f"put in: 0 scores, 1 total\n{lead}", WORD),
        (f"{bare} +18\n", 1, f"put in: 0 scores, 1 total\n{wrong}{lead}", WORD),
        (WORD, 0, f"put in: 0 scores, 0 totals\n{lead}", WORD),
        (
            TEXTS["line-18"],
            1,
            f"put in: 0 scores, 0 totals\n{wrong}total of A: 18, should be 16\nlegal unfinished\nA is ahead by 16; by the sheet A is ahead by 18\n",
            WORD,
        ),
        (
            f"{bare}\n>B: -\n>A: - +0 18\n",
            1,
            "put in: 2 scores, 2 totals\nline 3: sum 18, should be 16 (A, -)\nlegal unfinished\nA is ahead by 16; by the sheet A is ahead by 18\n",
            WORD + GOING_ON,
        ),
        (f"{bare}\n>B: -\n>A: -\n", 0, f"put in: 3 scores, 3 totals\n{lead}", WORD + GOING_ON),
        (left_out, 1, "put in: 2 scores, 3 totals\nline 5: score 10, should be 9 (B, 9G AT)\nlegal unfinished\nA is ahead by 7\n", wanted),
        (TEXTS["untidy"], 0, f"put in: 0 scores, 0 totals\n{lead}", TEXTS["untidy"]),
        (">A: -\n>A: -\n", 1, "put in: 1 score, 1 total\nillegal line 2: NotYourTurn\n", None),
        (f"{bare} +18\n>A: -\n", 1, f"put in: 0 scores, 1 total\n{wrong}illegal line 2: NotYourTurn\n", None),
        (bare.replace("8E", "8D"), 1, "put in: 0 scores, 0 totals\nillegal line 1: MissesCentre\n", None),
        (">A: ??  -\n>B: ? -\n", 1, "put in: 2 scores, 2 totals\nillegal line 2: TilesShort ?\n", None),
        (
            f"{bare}\n>B: -\n>A: - +0 21\n>B: -\n",
            1,
            "put in: 3 scores, 3 totals\nline 3: sum 21, should be 16 (A, -)\n"
            "Or: before line 2: A gets 5 points for a failed challenge\n  8 of 8 numbers right\nlegal unfinished\n"
            f"A is ahead by 16; by the sheet A is ahead by 21\n{HELD}",
            None,
        ),
        *[(text, 3, f"bad record line 1: Fields\n{why}\n", None) for text, why in AMISS.items()],
        (">A: -\n>B: 8E\n", 3, "bad record line 2: Fields\nAfter the position comes no word.\n", None),
        (">A: -\n>B: - +0\n>C: -\n", 3, "bad record line 3: ThirdPlayer\n", None),
        (">A: W0RD W0RD\n", 3, "bad record line 1: Position\n", None),
        ("\n" * 1_048_577, 3, "bad record: TooLong\n", None),
    ]:
        Path(run.folder, "draft").write_bytes(draft.encode())
        Path(run.folder, "out").write_bytes(b"as it was")
        run.row(["fill", *files, "out"], status, out, error="", wrote=b"as it was" if kept is None else kept.encode())
        for more in ([], ["-"]):
            run.row(["fill", *files, *more], status, kept or "", error=out.removesuffix("\n"))
    Path(run.folder, "draft").write_text(bare)
    run.row(["fill", "word", "word.gad", "-"], 0, WORD.removesuffix("\n"), error=f"put in: 1 score, 1 total\n{lead}".removesuffix("\n"), stdin=bare)
    run.row(["fill", "--rules", "english.rules", *files, "out"], 0, f"put in: 1 score, 1 total\n{lead}", wrote=WORD.removesuffix("\n").encode())
    run.row(["fill", "word", "word.gad", "nothing", "out"], 3, "no game\n", error=NO_EVENT["nothing"])
    for words, status, out in [
        (["digit", "word.gad", "draft"], 3, "bad word list line 2: BadLetter\n"),
        (["at", "extra.gad", "draft"], 3, "bad lexicon: Extra A\n"),
        (["--rules", "tiles.rules", *files], 3, "bad rules line 1: Unknown\n"),
    ]:
        Path(run.folder, "out").write_bytes(b"as it was")
        run.row(["fill", *words, "out"], status, out, wrote=b"as it was")
    run.row(["fill", "word", "word.gad", "nowhere"], 4, error="referee: cannot open nowhere: no such file")
    run.row(["fill", *files, "no/where"], 4, error="referee: cannot open no/where: no such file")
    for words in (
        ["word", "word.gad"],
        [*files, "out", "out"],
        ["--next", *files, "out"],
        ["--draft", *files],
        ["-", "word.gad", "-"],
        [*files, "draft"],
        [*files, "word"],
    ):
        run.row(["fill", *words], 64, error=None)
    run.expect("a draft that is OUT stays as it was", Path(run.folder, "draft").read_text() == bare)
    whole = Path(__file__).resolve().parents[2] / "examples"
    pair = [str(whole / "words.txt"), str(whole / "words.gad")]
    run.row(
        ["fill", *pair, str(whole / "draft.gcg"), "out"],
        0,
        "put in: 43 scores, 45 totals\nlegal complete\nBob won by 34\n",
        wrote=(whole / "game.gcg").read_bytes(),
    )
    filled_in_json(run, bare, files)
    next_lines(run, bare, files)


def filled_in_json(run, bare, files):
    """`fill --json`: the object of `audit`, and what was put in."""
    players = [{"nick": "A", "name": None}, {"nick": None, "name": None}]

    def told(draft, status, out="", **more):
        Path(run.folder, "draft").write_text(draft)
        answer = {
            "verdict": "legal",
            "line": None,
            "fault": None,
            "ending": "unfinished",
            "players": players,
            "wrong": [],
            "ahead": {"player": 1, "by": 16},
            "ahead_by_sheet": {"player": 1, "by": 16},
            "amount": None,
            "unread_lines": [],
        } | more
        text = json.dumps(answer, separators=(",", ":")) + "\n"
        run.row(["fill", "--json", *files], status, text)
        Path(run.folder, "out").write_bytes(b"as it was")
        run.row(["fill", "--json", *files, "out"], status, text, wrote=out.encode() or b"as it was")

    line = {"line": 1, "score": 16, "total": 16, "score_put_in": True}
    told(f"{bare}\n", 0, WORD, put_in={"scores": 1, "totals": 1}, lines=[line])
    told(f"{bare} +16\n", 0, WORD, put_in={"scores": 0, "totals": 1}, lines=[line | {"score_put_in": False}])
    told(WORD, 0, WORD, put_in={"scores": 0, "totals": 0}, lines=[])
    refused = {"verdict": "illegal", "line": 2, "fault": {"name": "NotYourTurn"}, "ending": None, "ahead": None, "ahead_by_sheet": None}
    told(f"{bare}\n>A: -\n", 1, **refused, put_in={"scores": 1, "totals": 1}, lines=[line])
    for text, name in ((">A: 8E\n", "no word"), (">A: AB\n", "no event"), (">A: (challenge)\n", "no score"), (">A: - 1 2 3\n", "too many")):
        for more in ([], ["--next"]):
            Path(run.folder, "draft").write_text(text)
            run.row(["fill", "--json", *more, *files], 3, refusal("bad record", 1, {"name": "Fields"}, amiss=name))
    Path(run.folder, "draft").write_text(TEXTS["third"])
    run.row(["fill", "--json", *files], 3, refusal("bad record", 3, {"name": "ThirdPlayer"}, amiss=None))
    run.row(
        ["fill", "--json", "word", "word.gad", "nowhere"],
        4,
        refusal("cannot open", file="nowhere"),
        error="referee: cannot open nowhere: no such file",
    )


def next_lines(run, bare, files):
    """`fill --next`: whose turn it is, the totals, and the tiles on the racks and in the bag."""
    first = "A: total 16, 7 tiles\nplayer 2: total 0, 7 tiles\nbag: 82 tiles\n"
    start = "player 1: total 0, 7 tiles\nplayer 2: total 0, 7 tiles\nbag: 86 tiles\n"
    sides = [{"nick": "A", "name": None, "total": 16, "tiles": 7}, {"nick": None, "name": None, "total": 0, "tiles": 7}]
    state = {"verdict": "ok", "line": None, "fault": None, "complete": False, "turn": 2, "out": None, "players": sides, "bag": 82}
    for draft, status, out, answer in [
        (bare, 0, f"next: player 2\n{first}", state),
        (f"{bare} +18\n", 0, f"next: player 2\n{first}", state),
        (f"{bare}\n>B: -\n", 0, "next: A\n" + first.replace("player 2", "B"), state | {"turn": 1, "players": [sides[0], sides[1] | {"nick": "B"}]}),
        (
            f"#player2 B Bo Bell\n{bare}\n",
            0,
            "next: B\n" + first.replace("player 2", "B"),
            state | {"players": [sides[0], sides[1] | {"nick": "B", "name": "Bo Bell"}]},
        ),
        ("", 0, f"next: either player\n{start}", state | {"turn": None, "players": [it | {"nick": None, "total": 0} for it in sides], "bag": 86}),
        (
            f"{bare}\n>A: -\n",
            1,
            f"illegal line 2: NotYourTurn\nnext: player 2\n{first}",
            state | {"verdict": "illegal", "line": 2, "fault": {"name": "NotYourTurn"}},
        ),
        (
            PASSES.replace(" +0 0", "") + ">A: AEINRST (AEINRST)\n>B: AEINRST (AEINRST)\n",
            0,
            "the game is complete\nA: total -7, 7 tiles\nB: total -7, 7 tiles\nbag: 86 tiles\n",
            None,
        ),
    ]:
        Path(run.folder, "draft").write_text(draft)
        run.row(["fill", "--next", *files], status, out, error="")
        if answer:
            run.row(["fill", "--json", "--next", *files], status, json.dumps(answer, separators=(",", ":")) + "\n", error="")
    Path(run.folder, "draft").write_text(">A: 8E\n")
    run.row(["fill", "--next", *files], 3, "bad record line 1: Fields\nAfter the position comes no word.\n", error="")


DEALT = "The rules allow every event, and a deal of the tiles gives the players every rack that is shown.\n"
BLANKS_SHOWN = "Each word of every play that stands is in the word list.\nLine 1 shows 2 of 7 tiles.\nLine 2 shows 1 of 7 tiles.\n"
STANDS = DEALT + "Each word of every play that stands is in the word list.\nEvery turn shows its rack.\n"
HIDDEN = DEALT + "Each word of every play that stands is in the word list.\nNo turn shows its rack.\n"
WORD_SUMS = "WORD\n  8E W 4\n  8F O 1\n  8G R 1\n  8H D 2, double word\n  sum 8 x 2 = 16\nscore of the play: 16\n"
DOWN_SUMS = "WORD\n  8H W 4, double word\n  9H O 1\n  10H R 1\n  11H D 2\n  sum 8 x 2 = 16\nscore of the play: 16\n"
DOWN_MARKED = [
    (" 8 = . . ' . . . - . . . ' . . =", " 8 = . . ' . . .[-]. . . ' . . ="),
    (" 9 . . ' . . . ' . ' . . . ' . .", " 9 . . ' . . . '[.]' . . . ' . ."),
    ("10 . \" . . . \" . . . \" . . . \" .", "10 . \" . . . \" .[.]. \" . . . \" ."),
    ("11 . . . . - . . . . . - . . . .", "11 . . . . - . .[.]. . - . . . ."),
]
XORD_SUMS = "XORD, which is not in the word list\n  8E X 8\n  8F O 1\n  8G R 1\n  8H D 2, double word\n  sum 12 x 2 = 24\nscore of the play: 24\n"
NOT_AN_EVENT = (
    "8E is not an event: an event is a play with its position, word, score and total, "
    "or one of the codes -, --, -TILES, -NUMBER, (challenge), (time) and (TILES).\n"
)
AT_SUMS = """\
AT
  9G A 1 x 2 = 2, double letter
  9H T 1
  sum 3
(R)A
  8G R 1, already on the board
  9G A 1 x 2 = 2, double letter
  sum 3
(D)T, which is not in the word list
  8H D 2, already on the board
  9H T 1
  sum 3
score of the play: 9
"""
WORD_MARKED = (ROW_OF_WORD[0], " 8 = . . '[. . . -]. . . ' . . =")
AT_MARKED = (ROW_OF_AT[0], " 9 . . ' . . .[' .]' . . . ' . .")


def picture_of(line, play, *changes):
    """The English board before a line, with some of its rows changed."""
    return changed(f"board before line {line}{', the squares of the play in brackets' if play else ''}\n{SQUARES}", changes)


def repairs_listed(run):
    """`repair`, by its statuses; what it tells of illegal records is compared with the second judge by `compare_repairs`."""
    run.row(["build", "word", "word.gad"], 0)
    told = ["repair", "word", "word.gad"]
    for game, out in (("line", "legal unfinished\n"), ("untidy", "legal unfinished\n"), ("ends", "legal complete\n")):
        run.row([*told, game], 0, out)
        run.row([*told, "--repaired", "out", game], 0, f"{out}not written: there is nothing to repair\n")
    run.row([*told, "-"], 0, "legal unfinished\n", stdin=WORD)
    for game in ("nothing", "page"):
        run.row([*told, game], 3, "no game\n")
        run.row([*told, "--repaired", "out", game], 3, "no game\nnot written: there is nothing to repair\n", error=NO_EVENT[game])
    for words, out in [
        (["digit", "word.gad", "line"], "bad word list line 2: BadLetter\n"),
        (["at", "extra.gad", "line"], "bad lexicon: Extra A\n"),
        (["word", "word.gad", "third"], "bad record line 3: ThirdPlayer\nnot written: it is not a record\n"),
        (["--rules", "tiles.rules", "word", "word.gad", "line"], "bad rules line 1: Unknown\n"),
    ]:
        Path(run.folder, "out").write_bytes(b"as it was")
        run.row(["repair", "--repaired", "out", *words], 3, out, wrote=b"as it was")
    at = ">B: AT 9G AT +9 9\n"
    Path(run.folder, "twice").write_text(WORD + at + at)
    run.row(["build", "word-at-ra", "word-at-ra.gad"], 0)
    twice = ["word-at-ra", "word-at-ra.gad", "twice"]
    found = "illegal line 3: NotYourTurn\nline 3: it repeats the line before it and should not be there\n  4 of 4 numbers right\n"
    run.row(["repair", "--number", "1", *twice], 1, found + "  not in the list: DT\n")
    first = "written: the sheet with the first repair\n"
    run.row(["repair", "--number", "1", "--repaired", "out", *twice], 1, found + "  not in the list: DT\n" + first, wrote=(WORD + at).encode())
    Path(run.folder, "all").write_text("AT\nDT\nEAT\nOE\nRA\nWORD\n")
    run.row(["build", "all", "all.gad"], 0)
    numbers_alone(run, at)
    long_sheet(run, at)
    eat = ">A: E 9F E.. +5 21\n"
    through_sheet(run, at, eat)
    other_list(run, at, eat)
    misread_twice(run, at, eat)
    bad_lines(run, at, eat)
    Path(run.folder, "passes").write_text(f"{WORD}{at}>A: - +0 16\n{eat}")
    passes = "illegal line 4: NotYourTurn\nline 3: it should not be there\n  6 of 6 numbers right\n"
    run.row(["repair", "--number", "1", "all", "all.gad", "passes"], 1, passes)
    wrong = ">A: AADEORW E8 WORD +16 16\n>B: AT 9H AT +9 9\n"
    Path(run.folder, "two").write_text(wrong)
    Path(run.folder, "three").write_text(wrong + eat)
    none = "illegal line 1: MissesCentre\nnone of 611 single changes makes it a game\n"
    pair = "with two changes:\nline 1: WORD at 8E, not at E8; and line 2: AT at 9G, not at 9H\n  6 of 6 numbers right\n"
    run.row(["repair", "--number", "1", "all", "all.gad", "three"], 1, none + pair)
    run.row(
        ["repair", "--number", "1", "--repaired", "out", "all", "all.gad", "three"], 1, none + pair + "not written: no single change repairs it\n"
    )
    found = "illegal line 1: MissesCentre\nline 1: WORD at 8F, not at E8\n  4 of 4 numbers right\n"
    pair = "with two changes:\nline 1: WORD at 8E, not at E8; and line 2: AT at 9G, not at 9H\n  4 of 4 numbers right\n"
    likelier = "not written: two changes are likelier than the first repair\n"
    run.row(["repair", "--number", "1", "--repaired", "out", "all", "all.gad", "two"], 1, found + pair + likelier)
    run.row([*told, "nowhere"], 4, error="referee: cannot open nowhere: no such file")
    run.row(["repair", "word", "folder", "line"], 4, error="referee: read failed: folder: is a folder")
    run.row(["repair", "--repaired", "no/where", *twice], 4, error="referee: cannot open no/where: no such file")
    for words in (
        [],
        ["line", "line"],
        ["--number", "0", "line"],
        ["--number", "101", "line"],
        ["--number", "x", "line"],
        ["--json", "--repaired", "out", "line"],
    ):
        run.row([*told, *words], 64, error=None)


def through_sheet(run, at, eat):
    """`repair` of sheets with a slip that runs through them, and of one with a line that is not read: the slip comes first, and the sheet without it
    is written. What comes after the slip is compared with the second judge by `compare_repairs`."""
    word = ">A: AADEORW 8E WORD +16 16\n"
    right, passes = word + at + eat, word + at + eat + ">B: - +0 9\n>A: - +0 21\n"
    rows = [  # the sheet, its verdict, the slip, how many numbers are right, and the sheet without it
        (word + at[1:] + eat, "line 3: NotYourTurn", "line 2: > is missing", 6, right),
        (word + at.replace(">", " >") + eat, "line 3: NotYourTurn", "line 2: a blank is before its >", 6, right),
        (word + at.replace(">", "=") + eat, "line 3: NotYourTurn", "line 2: another sign is in place of its >", 6, right),
        (
            word.replace("8E", "E8") + at.replace("9G", "G9") + eat.replace("9F", "F9"),
            "line 1: MissesCentre",
            "all places have row and column interchanged",
            6,
            right,
        ),
        (
            word.replace("8E", "9E") + at.replace("9G", "10G") + eat.replace("9F", "10F"),
            "line 1: MissesCentre",
            "all places are one row too far down",
            6,
            right,
        ),
        (
            word.replace("WORD", "word") + at.replace("AT +", "at +") + eat.replace("E..", "e.."),
            "line 1: WrongScore 0",
            "all words have small letters and capitals interchanged",
            6,
            right,
        ),
        (
            word + at + ">B: E 9F E.. +5 21\n>A: - +0 9\n>B: - +0 21\n",
            "line 3: NotYourTurn",
            "all lines from line 3 on have the name of the other player",
            10,
            passes,
        ),
    ]
    for sheet, verdict, slip, numbers, there in rows:
        Path(run.folder, "slipped").write_text(sheet)
        Path(run.folder, "out").unlink(missing_ok=True)
        done = subprocess.run(
            [run.program, "repair", "--repaired", "out", "all", "all.gad", "slipped"], cwd=run.folder, capture_output=True, check=False
        )
        told = done.stdout.decode()
        begins = f"illegal {verdict}\n{slip}\n  {numbers} of {numbers} numbers right\n"
        ends = "written: the sheet with the first repair\n"
        run.expect(f"the slip of {sheet}told {told}", done.returncode == 1 and told.startswith(begins) and told.endswith(ends))
        written = Path(run.folder, "out").read_text() if Path(run.folder, "out").exists() else None
        run.expect(f"the sheet without the slip of {sheet}written {written}", written == there)
        said = subprocess.run([run.program, "explain", "all", "all.gad", "slipped"], cwd=run.folder, capture_output=True, check=False).stdout.decode()
        run.expect(f"the likely slip of {sheet}said {said}", f"\nLikely: {slip}\n  {numbers} of {numbers} numbers right\n" in said)
        found = json.loads(
            subprocess.run([run.program, "repair", "--json", "all", "all.gad", "slipped"], cwd=run.folder, capture_output=True, check=False).stdout
        )
        first = found["sheet_slips"][0]
        lines = "".join(line.replace(">: ", ">B: ") + "\n" for line in first["lines"])
        run.expect(f"the object of the slip of {sheet}has {first}", first["settled"] and lines in there)
        told = subprocess.run(
            [run.program, "archive", "--repairs", "--json", "all", "all.gad", "slipped"], cwd=run.folder, capture_output=True, check=False
        ).stdout
        wanted = {"change": slip, "numbers_right": f"{numbers} of {numbers}"}
        run.expect(f"the slip of {sheet}in an archive: {told}", json.loads(told)["likely"] == wanted)
    Path(run.folder, "slipped").write_text(word + at.replace("+9 9", "+9 16") + eat + ">B: - +0 16\n")
    told = subprocess.run([run.program, "repair", "all", "all.gad", "slipped"], cwd=run.folder, capture_output=True, check=False).stdout.decode()
    one = "with only the numbers corrected it is a game\n  7 of 8 numbers right\n  line 2: sum 16, should be 9\n"
    run.expect(f"totals that are wrong by the same from a line on are one wrong number: {told}", one in told)


def misread_twice(run, at, eat):
    """`repair` of a sheet on which one tile is misread on the rack and in the word, and of one on which it is on the rack and in the exchange. On the
    first the scores say which tile it is, and the sheet is written with it; on the second nothing does."""
    played = "illegal line 1: WrongScore 30\nline 1: WORD at 8E, not WXRD: the X on the rack is O too\n  6 of 6 numbers right\n"
    played += (
        "with only the numbers corrected it is a game\n  4 of 6 numbers right\n"
        "  line 1: score 16, should be 30\n  line 3: score 5, should be 12\n  not in the list: WXRD, XE\n"
    )
    exchanged = (
        "illegal line 2: TilesShort Z\nline 2: an exchange of AA, not AZ: the Z on the rack is A too"
        " (or with B, C, D, E, F, G, H, I, J, K, L, M, N, O, P, Q, R, S, T, U, V, W, X, Y, ?)\n  6 of 6 numbers right\n"
    )
    Path(run.folder, "za").write_text("ZA\n")
    run.row(["build", "za", "za.gad"], 0)
    rows = [  # the list, the sheet, what is told, what it ends with, the sheet that is written, the name of the slip and the line that is put there
        (
            "all",
            f">A: AADEXRW 8E WXRD +16 16\n{at}{eat}",
            played,
            "written: the sheet with the first repair\n",
            f">A: AADEORW 8E WORD +16 16\n{at}{eat}",
            "in word",
            ">A: AADEORW 8E WORD +16 16",
        ),
        (
            "za",
            ">A: AEINRSZ 8G ZA +22 22\n>B: AABCDDZ -AZ +0 0\n>A: - +0 22\n",
            exchanged,
            "not written: the second repair is nearly as likely as the first\n",
            "as it was",
            "exchanged",
            ">B: AAABCDD -AA +0 0",
        ),
    ]
    for words, sheet, told, ends, written, name, line in rows:
        Path(run.folder, "misread-twice").write_text(sheet)
        Path(run.folder, "out").write_bytes(b"as it was")
        asked = [words, f"{words}.gad", "misread-twice"]
        run.row(["repair", "--number", "1", "--repaired", "out", *asked], 1, told + ends, wrote=written.encode())
        found = json.loads(subprocess.run([run.program, "repair", "--json", *asked], cwd=run.folder, capture_output=True, check=False).stdout)
        first = found["repairs"][0]
        run.expect(f"the object of {sheet}", (first["slip"], first["lines"]) == (f"other tile on rack and {name}", [line]))


def bad_lines(run, at, eat):
    """`repair` of texts that are no records because of one of their lines: its first repair, and the sheet that is written with it."""
    word, names = ">A: AADEORW 8E WORD +16 16\n", "#player1 A\n#player2 B\n"
    rows = [  # the text, its verdict, the first repair, the place that it gives, and the sheet with it
        (word.replace("8E ", "") + at + eat, "line 1: Code", "line 1: the place is missing: 8E", "8E", word + at + eat),
        (">A: WORD +16 16\n" + at + eat, "line 1: Code", "line 1: the place is missing: 8E", "8E", ">A: 8E WORD +16 16\n" + at + eat),
        (
            word + at + eat.replace("9F ", "").replace("\n", " \r\n"),
            "line 3: Code",
            "line 3: the place is missing: 9F",
            "9F",
            word + at + eat.replace("\n", " \r\n"),
        ),
        (word + "> B thinks\n" + at + eat, "line 2: NoColon", "line 2: > should not be there", None, word + " B thinks\n" + at + eat),
        (names + word + ">" + at + eat, "line 4: ThirdPlayer", "line 4: > should not be there", None, names + word + at + eat),
    ]
    for sheet, verdict, first, place, there in rows:
        Path(run.folder, "bad").write_bytes(sheet.encode())
        Path(run.folder, "out").unlink(missing_ok=True)
        done = subprocess.run([run.program, "repair", "--repaired", "out", "all", "all.gad", "bad"], cwd=run.folder, capture_output=True, check=False)
        told = done.stdout.decode()
        begins, ends = f"bad record {verdict}\n{first}\n  6 of 6 numbers right\n", "written: the sheet with the first repair\n"
        run.expect(f"the bad line of {sheet}told {told}", done.returncode == 3 and told.startswith(begins) and told.endswith(ends))
        written = Path(run.folder, "out").read_bytes().decode() if Path(run.folder, "out").exists() else None
        run.expect(f"the sheet without the bad line of {sheet}written {written}", written == there)
        done = subprocess.run([run.program, "repair", "--json", "all", "all.gad", "bad"], cwd=run.folder, capture_output=True, check=False)
        found = json.loads(done.stdout)
        one = found["line_slips"][0]
        wanted = {"slip": "no place" if place else "> too many", "line": found["line"], "place": place, "settled": True, "weight": 0, "cost": 0}
        evidence = {"numbers": 6, "numbers_right": 6, "wrong": [], "unlisted": []}
        run.expect(f"the object of the bad line of {sheet}has {found}", done.returncode == 3 and one == {**wanted, "evidence": evidence})
    places = "line 1: the place is missing: 8E (or 8F, 8G, 8H and 4 more)\n  2 of 2 numbers right\n"
    close = "not written: it is not a record, and another repair is as likely as the first, or nearly so, or the first leaves numbers wrong\n"
    Path(run.folder, "out").write_bytes(b"as it was")
    for sheet, out in [
        (word.replace("8E ", ""), f"bad record line 1: Code\n{places}{close}"),
        (word.replace("8E ", "").replace(" 16", " I6"), "bad record line 1: Code\nnot written: it is not a record\n"),
        (word + "> B has 3 left\n", "bad record line 2: NoColon\nnot written: it is not a record\n"),
        (word + ">B 9G AT +9 9\n", "bad record line 2: NoColon\nnot written: it is not a record\n"),
    ]:
        Path(run.folder, "bad").write_text(sheet)
        run.row(["repair", "--repaired", "out", "all", "all.gad", "bad"], 3, out, error=None, wrote=b"as it was")
    blanks = ">A: AADEO?W 8E WORD +14 14\n>B: A? 9G AT +6 6\n>A: E 9F E.. +4 18\n"
    Path(run.folder, "bad").write_text(blanks)
    told = subprocess.run([run.program, "repair", "all", "all.gad", "bad"], cwd=run.folder, capture_output=True, check=False).stdout.decode()
    run.expect(
        f"blanks as capitals: {told}", told.startswith("illegal line 1: WrongScore 16\nall blanks are written as capitals\n  6 of 6 numbers right\n")
    )
    kept = subprocess.run(
        [run.program, "repair", "--repaired", "out", "all", "all.gad", "bad"], cwd=run.folder, capture_output=True, check=False
    ).stdout.decode()
    unsure = (
        kept.endswith("not written: of two equal letters in a word either may be the blank\n")
        and Path(run.folder, "out").read_bytes() == b"as it was"
    )
    run.expect(f"no sheet is written where either letter may be the blank: {kept}", unsure)
    found = json.loads(
        subprocess.run([run.program, "repair", "--json", "all", "all.gad", "bad"], cwd=run.folder, capture_output=True, check=False).stdout
    )
    one = found["sheet_slips"][0]
    wanted = ("blanks as capitals", [1, 2], [">A: AADEOW? 8E WOrD +14 14", ">B: A? 9G At +6 6"], 2)
    run.expect(f"the object of blanks as capitals: {one}", (one["slip"], one["replaces"], one["lines"], one["cost"]) == wanted)


def left_open(run):
    """`repair` of a game that nobody can have dealt although no search shows it, with a slip: what is not known is not said as known."""
    Path(run.folder, "jx").write_text("JX\n")
    run.row(["build", "jx", "jx.gad"], 0)
    run.row(["judge", "--settle", "jx", "jx.gad", "-"], 2, "unsettled\n", stdin=NOT_DEALT)
    verdicts = ["3: WrongScore 32", "9: WrongTotal 32", "9: NothingToWithdraw", "3: WrongTotal 32", "6: NotYourTurn"]
    left = [("leaves", 2), ("leaves", 1), ("makes", 1), ("leaves", 0), ("", 1)]
    ends = "not written: it is not known whether another change repairs it\n"
    for (record, wanted), verdict, (helps, many) in zip(OPEN, verdicts, left):
        Path(run.folder, "left-open").write_text(record)
        begins = f"illegal line {verdict}\n{wanted}"
        ran = subprocess.run(
            [run.program, "repair", "--repaired", "out", "jx", "jx.gad", "left-open"], cwd=run.folder, capture_output=True, check=False
        )
        told = ran.stdout.decode()
        run.expect(f"what is left open of {record}told {told}", ran.returncode == 1 and told.startswith(begins) and (not many or told.endswith(ends)))
        said = json.loads(
            subprocess.run([run.program, "repair", "--json", "jx", "jx.gad", "left-open"], cwd=run.folder, capture_output=True, check=False).stdout
        )
        settled = [said["left"], said["numbers_alone_settled"], [it["settled"] for it in said["sheet_slips"]]]
        run.expect(
            f"the object of what is left open of {record}has {settled}",
            settled == [many, False if helps == "leaves" else None, [] if helps else [False] * 2],
        )
    Path(run.folder, "left-open").write_text("> a note\n" + NOT_DEALT)
    mark = "bad record line 1: NoColon\nline 1: > should not be there (no deal was found)\n  16 of 16 numbers right\n"
    ends = "not written: it is not a record, and it is not known whether it is a game with the first repair\n"
    run.row(["repair", "--repaired", "out", "jx", "jx.gad", "left-open"], 3, mark + ends, error=None)
    Path(run.folder, "left-open").write_text(NOT_DEALT.replace("8G JX", "JX"))
    place = "bad record line 3: Code\nline 3: the place is missing: 8G (or 8H, H7, H8) (no deal was found)\n  16 of 16 numbers right\n"
    run.row(["repair", "jx", "jx.gad", "left-open"], 3, place, error=None)
    Path(run.folder, "left-open").write_text(SHORT_OF)
    told = subprocess.run(
        [run.program, "repair", "--draft", "jx", "jx.gad", "left-open"], cwd=run.folder, capture_output=True, check=False
    ).stdout.decode()
    run.expect(f"a draft of what is left open: {told}", told == f"illegal line 3: WrongScore 32\n{OPEN[0][1]}")


def choices_left_open(run):
    """`compare` of such a game with sheets of which a deal is found, or not: no sentence says of a choice that is left open that no deal yields its
    racks."""
    kept, ahead = ["compare", "--merged", "out", "jx", "jx.gad"], "legal unfinished\nA is ahead by 32\n"
    open_one = "of 1 choice of the lines it is not known whether a deal yields the racks\n"
    other, none = "not written: it is not known whether another choice is a game\n", "not written: no choice of the lines is known to be a game\n"
    two, six, e = NOT_DEALT.replace("-1 ", "-2 "), NOT_DEALT.replace("B: -7 +0 0\n>A: -", "B: -6 +0 0\n>A: -"), NOT_DEALT.replace("B: Z", "B: E")
    shown, turn = NOT_DEALT.replace("QZ", "EQ"), NOT_DEALT + ">B: - +0 0\n"
    cut = ">A: QZ -1 +0 0\n>B: -7 +0 0\n>A: - +0 0\n>B: Q -7 +0 0\n>A: - +0 0\n>B: Z - +0 0\n"
    for first, second, status, out, why in [
        (two, NOT_DEALT, 1, f"line 1 | line 1: -2 +0 0 | -1 +0 0: the first; with the second no deal was found\n{open_one}{ahead}", other),
        (NOT_DEALT, two, 1, f"line 1 | line 1: -1 +0 0 | -2 +0 0: the second; with the first no deal was found\n{open_one}{ahead}", other),
        (
            e,
            NOT_DEALT,
            1,
            f"line 8 | line 8: rack E | rack Z: the first; with the second, the sheet of B, no deal was found\n{open_one}{ahead}",
            other,
        ),
        (
            NOT_DEALT,
            shown,
            1,
            f"line 1 | line 1: rack QZ | rack EQ: the second; with the first, the sheet of A, no deal was found\n{open_one}{ahead}",
            other,
        ),
        (NOT_DEALT, NOT_DEALT, 2, f"{open_one}none of 1 choice of the lines is known to be a game\n", none),
        (
            NOT_DEALT,
            six,
            2,
            f"line 6 | line 6: -7 +0 0 | -6 +0 0\n{open_one.replace('1 choice', '2 choices')}none of 2 choices of the lines is known to be a game\n",
            none,
        ),
        # Of the lines that may be one too many, line 8 is one without which a deal is found.
        (
            turn,
            turn,
            1,
            "none of 1 choice of the lines is known to be a game\nthe record of both sheets goes furthest: line 9 | line 9 is refused: NotYourTurn\n"
            f"the record of both sheets is a game with one more change: line 8: it should not be there\n{ahead}",
            "not written: it is not known whether another change makes a game\n",
        ),
        # If B draws the Z in place of the Q itself, it is known that there is no deal.
        (
            cut.replace("-1 ", "-2 "),
            cut,
            1,
            "line 1 | line 1: -2 +0 0 | -1 +0 0: the first; with the second no deal yields the racks\n"
            "legal unfinished\nboth have the same total\n",
            "written: the merged record\n",
        ),
    ]:
        Path(run.folder, "one").write_text(first)
        Path(run.folder, "two").write_text(second)
        run.row([*kept, "one", "two"], status, out + why)
        text = subprocess.run([run.program, *kept, "one", "two"], cwd=run.folder, capture_output=True, check=False).stdout.decode()
        told = json.loads(
            subprocess.run([run.program, "compare", "--json", "jx", "jx.gad", "one", "two"], cwd=run.folder, capture_output=True, check=False).stdout
        )
        run.expect(f"the object of what {text} says: {told}", is_text_of(text, told, True))


def numbers_alone(run, at):
    """`repair` of a sheet on which only a score is wrong, for which no change of the play makes up: the sheet is written with the right one."""
    Path(run.folder, "scored").write_text(WORD.replace("+16 16", "+18 18") + at)
    run.row(["repair", "--repaired", "out", "all", "all.gad", "scored"], 1, None, wrote=(WORD + at).encode())


def long_sheet(run, at):
    """`repair` of a sheet of 1 MiB which its right numbers would make too long for a record, and of one that is a byte shorter."""
    sheet = WORD.replace("+16 16", "+16 1") + at + "#note "
    unlike, written = "not written: the repaired sheet would not read as the repaired record\n", "\nwritten: the sheet with its right numbers\n"
    for spare, ends in ((0, unlike), (1, written)):
        text = sheet + "x" * (1_048_576 - spare - len(sheet) - 1) + "\n"
        Path(run.folder, "long").write_text(text)
        Path(run.folder, "out").write_text("as it was")
        done = subprocess.run(
            [run.program, "repair", "--repaired", "out", "all", "all.gad", "long"], cwd=run.folder, capture_output=True, check=False
        )
        told = done.stdout.decode()
        run.expect(f"a sheet of 1 MiB without {spare} bytes told {told}", done.returncode == 1 and told.endswith(ends))
        kept = text.replace("+16 1\n", "+16 16\n") if spare else "as it was"
        run.expect(f"a sheet of 1 MiB without {spare} bytes written", Path(run.folder, "out").read_text() == kept)


def other_list(run, at, eat):
    """`repair` of a sheet with a wrong total that was perhaps played with another list: OWRD for WORD would avoid a word, and is not told."""
    Path(run.folder, "owrd").write_text("OWRD\n")
    run.row(["build", "owrd", "owrd.gad"], 0)
    Path(run.folder, "other").write_text(WORD + at + eat.replace("+5 21", "+5 22"))
    told = subprocess.run([run.program, "repair", "owrd", "owrd.gad", "other"], cwd=run.folder, capture_output=True, check=False).stdout.decode()
    begins = "illegal line 3: WrongTotal 21\n6 words of the plays are not in the list: perhaps the game was played with another word list\n"
    run.expect(f"no letters trade places to avoid a word: {told}", told.startswith(begins) and "OWRD at 8E" not in told)


def compared(run):
    """`compare`, by its statuses."""
    run.row(["build", "word", "word.gad"], 0)
    told = ["compare", "word", "word.gad"]
    ahead, done = "legal unfinished\nA is ahead by 16\n", "written: the merged record\n"
    for game, out in (("line", ahead), ("ends", "legal complete\nboth have the same total\n")):
        run.row([*told, game, game], 0, out)
        run.row([*told, "-", game], 0, out, stdin=Path(run.folder, game).read_text())
    other = WORD.replace("8E", "8D")
    Path(run.folder, "other").write_text(other)
    merged = "#player1 A\n" + WORD.replace("DORWAAE", "AADEORW")
    first = "line 1 | line 1: 8E WORD +16 16 | 8D WORD +16 16: the first; with the second, line 1 | line 1 is refused: MissesCentre\n" + ahead
    run.row([*told, "line", "other"], 1, first)
    run.row([*told, "--merged", "out", "line", "other"], 1, first + done, wrote=merged.encode())
    run.row([*told, "--merged", "-", "line", "other"], 1, merged, error=first + done.removesuffix("\n"))
    Path(run.folder, "others").write_text(WORD.replace("8E", "8F"))
    both = "line 1 | line 1: 8E WORD +16 16 | 8F WORD +16 16: both stand\n1 other choice of the lines would stand as well\n" + ahead
    run.row([*told, "line", "others"], 1, both)
    Path(run.folder, "out").write_bytes(b"as it was")
    run.row(
        [*told, "--merged", "out", "line", "others"], 1, both + "not written: another choice of the lines would stand as well\n", wrote=b"as it was"
    )
    for name, place in (("left", "8C"), ("above", "7E"), ("aside", "7F")):
        Path(run.folder, name).write_text(WORD.replace("8E", place))
    refused = "{0}\nnone of 2 choices of the lines is known to be a game\nfirst goes furthest: line 1 | line 1 is refused: MissesCentre\n"
    mended = (
        refused.format("line 1 | line 1: 8D WORD +16 16 | 8C WORD +16 16")
        + "first is a game with one more change: line 1: WORD at 8E, not at 8D\n"
        + ahead
    )
    run.row([*told, "--merged", "out", "other", "left"], 1, mended + done, wrote=merged.encode())
    rival = "another change would make a game as well\n"
    either = (
        refused.format("line 1 | line 1: 7E WORD +16 16 | 7F WORD +16 16")
        + f"first is a game with one more change: line 1: WORD at 8E, not at 7E\n{rival}{ahead}"
    )
    Path(run.folder, "out").write_bytes(b"as it was")
    run.row([*told, "--merged", "out", "above", "aside"], 1, f"{either}not written: {rival}", wrote=b"as it was")
    for sheets, names, words in [  # where the line that is changed has another number on the other sheet, it is said which sheet it is of
        (("other", "noted left"), ("line 1 | line 2", "8D", "8C", "first"), "first sheet, line 1"),
        (("noted other", "left"), ("line 2 | line 1", "8D", "8C", "first"), "first sheet, line 2"),
        (("left", "noted other"), ("line 1 | line 2", "8C", "8D", "second"), "second sheet, line 2"),
        (("noted left", "other"), ("line 2 | line 1", "8C", "8D", "second"), "second sheet, line 1"),
        (("noted other", "noted left"), ("line 2 | line 2", "8D", "8C", "first"), "line 2"),
    ]:
        for name in ("other", "left"):
            Path(run.folder, f"noted {name}").write_text("#note the first table\n" + Path(run.folder, name).read_text())
        lines, one, two, taken = names
        begins = (
            f"{lines}: {one} WORD +16 16 | {two} WORD +16 16\nnone of 2 choices of the lines is known to be a game\n"
            f"first goes furthest: {lines} is refused: MissesCentre\n"
        )
        run.row([*told, *sheets], 1, f"{begins}{taken} is a game with one more change: {words}: WORD at 8E, not at 8D\n{ahead}")
    at = ">B: AT 9G AT +9 9\n"
    run.row(["build", "word-at-ra", "word-at-ra.gad"], 0)
    for sheet, refused, words, end in [  # a sheet and itself: what is refused, the words of the change, and what comes of it
        (WORD + at + at, 3, "line 3: it repeats the line before it and should not be there", "A is ahead by 7\n"),
        (
            WORD + ">A: AT 9G AT +9 25\n",
            2,
            f"before line 2: the other player passes\n{rival.rstrip()}",
            "total of : none | none: the rules give 0\nA is ahead by 25\n",
        ),
        (
            "#player2 B\n" + WORD + ">A: AT 9G AT +9 9\n>A: - +0 16\n",
            3,
            "line 3: B's line, not A's",
            "total of B: none | none: the rules give 9\nA is ahead by 7; by the first sheet A is ahead by 16; by the second sheet A is ahead by 16\n",
        ),
    ]:
        Path(run.folder, "itself").write_text(sheet)
        begins = (
            "none of 1 choice of the lines is known to be a game\n"
            f"the record of both sheets goes furthest: line {refused} | line {refused} is refused: NotYourTurn\n"
        )
        out = f"{begins}the record of both sheets is a game with one more change: {words}\nlegal unfinished\n{end}"
        run.row(["compare", "word-at-ra", "word-at-ra.gad", "itself", "itself"], 1, out)
    sheets_of_two(run)
    for words, out in [
        (["digit", "word.gad", "line", "line"], "bad word list line 2: BadLetter\n"),
        (["at", "extra.gad", "line", "line"], "bad lexicon: Extra A\n"),
    ]:
        run.row(["compare", *words], 3, out)
    for sheets in (["third", "line"], ["line", "third"]):
        run.row([*told, *sheets], 3, "bad record line 3: ThirdPlayer\n", error=BAD["third"])
    for sheets in (["nothing", "line"], ["line", "nothing"]):
        run.row([*told, *sheets], 3, "no game\n", error=NO_EVENT["nothing"])
    run.row([*told, "-", "-"], 64, error=None)
    for sheet in ("line", "other"):
        run.row([*told, "--merged", sheet, "line", "other"], 64, error=None)
    run.row([*told, "line", "nowhere"], 4, error="referee: cannot open nowhere: no such file")
    for words in ([], ["line"], ["line", "line", "line"]):
        run.row([*told, *words], 64, error=None)
    compared_in_json(run)


def sheet_line(text, **more):
    """The line of a sheet in the object of `compare`, made by hand."""
    return {"line": 1, "player": 1, "nick": "A", "rack": "AADEORW", "text": text, **more}


def difference(first, second, lines, **more):
    """A pair of lines in the object of `compare`, made by hand: what is not said here is null, and the racks are the same."""
    keys = dict.fromkeys(("taken", "other", "refused", "written", "right"))
    return {"first": first, "second": second, "lines": lines, **keys, "racks": "same", "own_sheet": None, "own_rack": None, **more}


def comparison(verdict, differences, *, choices=1, best=None, merged=None, why=None, **more):
    """The object of `compare` on sheets with the play of WORD, made by hand."""
    ahead, nobody = {"player": 1, "by": 16}, {"player": 2, "first": None, "second": None, "right": None}
    return {
        "verdict": verdict,
        "line": None,
        "fault": None,
        "ending": "unfinished",
        "players": [{"nick": "A", "name": None}, {"nick": None, "name": None}],
        "differences": differences,
        "not_varied": 0,
        "choices": choices,
        "best": best and {"choice": best, "cost": 0, "unlisted": 0},
        "rivals": [],
        "left": [],
        "furthest": None,
        "tried": [],
        "best_repair": None,
        "totals": [{"player": 1, "first": 16, "second": 16, "right": 16}, nobody],
        "ahead": ahead,
        "ahead_by_first": ahead,
        "ahead_by_second": ahead,
        "merged": merged,
        "not_merged": why,
    } | more


def compared_in_json(run):
    """`compare --json`: one object, whatever happened."""
    told = ["compare", "--json", "word", "word.gad"]
    merged = "#player1 A\n" + WORD.replace("DORWAAE", "AADEORW")
    first, second = {"lines": ["first"], "racks": []}, {"lines": ["second"], "racks": []}
    centre = {"first": 1, "second": 1, "fault": {"name": "MissesCentre"}}

    def row(sheets, status, wanted):
        ran = subprocess.run([run.program, *told, *sheets], cwd=run.folder, capture_output=True, check=False)
        said = json.loads(ran.stdout)
        run.expect(f"compare --json {sheets}: {said}", ran.returncode == status and said == wanted and list(said) == list(wanted) and not ran.stderr)

    row(["line", "line"], 0, comparison("agree", [], best={"lines": [], "racks": []}, merged=merged))
    one, other = sheet_line("8E WORD +16 16"), sheet_line("8D WORD +16 16")
    refused = difference(one, other, "differ", taken="first", other="refused", refused=centre)
    row(["line", "other"], 1, comparison("differ", [refused], choices=2, best=first, merged=merged))
    refused = difference(other, one, "differ", taken="second", other="refused", refused=centre)
    row(["other", "line"], 1, comparison("differ", [refused], choices=2, best=second, merged=merged))
    both = difference(one, sheet_line("8F WORD +16 16"), "differ", taken="first", other="as good")
    row(["line", "others"], 1, comparison("differ", [both], choices=2, best=first, rivals=[second], why="other choice"))
    ran = subprocess.run([run.program, *told, "other", "left"], cwd=run.folder, capture_output=True, check=False)
    said = json.loads(ran.stdout)
    tried = said.pop("tried")
    neither = difference(other, sheet_line("8C WORD +16 16"), "differ")
    stop = {"choice": first, "refused": centre}
    repair = {"tried": 0, "sheet": None, "ahead": True, "settled": True}
    wanted = comparison("differ", [neither], choices=2, furthest=stop, best_repair=repair, merged=merged)
    wanted.pop("tried")
    run.expect(f"one more change: {said}", ran.returncode == 1 and said == wanted)
    keys = ("at", "line", "slip", "replaces", "lines")
    moved = ["on", 1, "one square off", [1], [">A: AADEORW 8E WORD +16 16"]]
    run.expect(f"the choices with one more change: {tried}", tried[0]["choice"] == first and [tried[0]["repair"][key] for key in keys] == moved)
    run.expect("both choices are tried", [it["choice"] for it in tried] == [first, second])
    racks_in_json(run)
    run.row(["compare", "--json", "digit", "word.gad", "line", "line"], 3, refusal("bad word list", 2, {"name": "BadLetter"}))
    run.row(["compare", "--json", "at", "extra.gad", "line", "line"], 3, refusal("bad lexicon", fault={"name": "Extra", "path": "A"}))
    for sheets in (["third", "line"], ["line", "third"]):
        run.row([*told, *sheets], 3, refusal("bad record", 3, {"name": "ThirdPlayer"}))
    for sheets in (["nothing", "line"], ["line", "nothing"]):
        run.row([*told, *sheets], 3, '{"verdict":"no game","line":null,"fault":null,"unread_lines":[]}\n')
    run.row([*told, "line", "nowhere"], 4, refusal("cannot open", file="nowhere"), error="referee: cannot open nowhere: no such file")
    run.row([*told, "--merged", "out", "line", "line"], 64, error=None)


def racks_in_json(run):
    """Racks and scores that differ in the object of `compare`, on sheets of which each has its own player first."""

    def told(*sheets):
        words = [run.program, "compare", "--json", "word-at-ra", "word-at-ra.gad", *sheets]
        return json.loads(subprocess.run(words, cwd=run.folder, capture_output=True, check=False).stdout)

    one, other = sheet_line("8E WORD +16 16", line=3), sheet_line("8E WORD +16 16", line=3, rack="ADEEORW")
    said = told("ann", "racks")
    run.expect(f"racks of the own sheet: {said}", said["differences"] == [difference(one, other, "agree", racks="own", own_sheet="first")])
    run.expect(
        "a choice of racks", said["choices"] == 2 and said["best"]["choice"] == {"lines": [], "racks": ["own"]} and said["verdict"] == "differ"
    )
    run.expect("the players of the first sheet", said["players"] == [{"nick": "A", "name": "Ann Lee"}, {"nick": "B", "name": "Ben Ray"}])
    said = told("own-wrong", "ben-whole")
    wrong = sheet_line("8E WORD +16 16", line=3, rack="AADEORX")
    racks = difference(wrong, one, "agree", racks="other", own_sheet="first", own_rack="no deal")
    run.expect(f"racks of the other sheet: {said}", said["differences"] == [racks] and said["best"]["choice"] == {"lines": [], "racks": ["other"]})
    # The rack of the other sheet costs 1, and DT, which is not in the list, 3.
    run.expect("what a rack of the other sheet costs", [said["best"][key] for key in ("cost", "unlisted")] == [4, 1])
    said = told("ann", "totals")
    scores = [sheet_line(f"9G AT +{score} {score}", line=4, player=2, nick="B", rack="AT") for score in (9, 19)]
    run.expect(f"scores that differ: {said}", said["differences"] == [difference(*scores, "other scores", right=9)])
    run.expect("last totals", said["totals"][1] == {"player": 2, "first": 9, "second": 19, "right": 9})
    run.expect("who is ahead", [said[key] for key in ("ahead", "ahead_by_second")] == [{"player": 1, "by": 7}, {"player": 2, "by": 3}])


def sheets_of_two(run):
    """`compare` of sheets of which each has its own player first, of racks that differ, and of last totals that do."""
    told = ["compare", "--merged", "out", "word-at-ra", "word-at-ra.gad"]
    run.row(["build", "word-at-ra", "word-at-ra.gad"], 0)
    at = ">B: AT 9G AT +9 9\n"
    ann, ben = "#player1 A Ann Lee\n#player2 B Ben Ray\n", "#player1 B Ben Ray\n#player2 A Ann Lee\n"
    done = "legal unfinished\nA is ahead by 7\nwritten: the merged record\n"
    merged = (ann + WORD.replace("DORWAAE", "AADEORW") + at).encode()
    for name, text in {
        "ann": ann + WORD + at,
        "ben": ben + ">A: 8E WORD +16 16\n" + at,
        "racks": ben + ">A: DORWAEE 8E WORD +16 16\n" + at,
        "ann-whole": ann + WORD + at.replace(": AT", ": AEEIRST"),
        "own-wrong": ann + ">A: DORXAAE 8E WORD +16 16\n" + at.replace(": AT", ": AEEIRST"),
        "ben-whole": ben + WORD + at.replace(": AT", ": AEEIRST"),
        "ben-wrong": ben + WORD + at.replace(": AT", ": AEEIRSX"),
        "totals": ben + ">A: 8E WORD +16 16\n" + at.replace("+9 9", "+19 19"),
    }.items():
        Path(run.folder, name).write_text(text)
    run.row([*told, "ann", "ben"], 0, done, wrote=merged)
    racks = "line 3 | line 3: rack AADEORW | rack ADEEORW: the first, the sheet of A\n"
    run.row([*told, "ann", "racks"], 1, racks + done, wrote=merged)
    # If no deal yields the rack of the player's own sheet, that of the other sheet is taken.
    own = [": the second; with the first, the sheet of A", ": the first; with the second, the sheet of B"]
    for sheets, texts, why in [
        (("own-wrong", "ben-whole"), ("rack AADEORX | rack AADEORW", None), ("no deal yields the racks", None)),
        (("ann-whole", "ben-wrong"), (None, "rack AEEIRST | rack AEEIRSX"), (None, "no deal yields the racks")),
        (("own-wrong", "ben-wrong"), ("rack AADEORX | rack AADEORW", "rack AEEIRST | rack AEEIRSX"), ("no deal yields the racks",) * 2),
    ]:
        lines = [f"line {k} | line {k}: {text}{own[k - 3]}, {why[k - 3]}\n" for k, text in enumerate(texts, 3) if text]
        run.row([*told, *sheets], 1, "".join(lines) + done, wrote=merged.replace(b": AT", b": AEEIRST"))
    scores = "line 4 | line 4: 9G AT +9 9 | 9G AT +19 19: the rules give 9\n"
    totals = "total of B: 9 | 19: the rules give 9\nA is ahead by 7; by the second sheet B is ahead by 3\n"
    run.row([*told, "ann", "totals"], 1, scores + "legal unfinished\n" + totals + "written: the merged record\n", wrote=merged)


def explained(run):
    """`explain`, by the verdict and by the line that is named."""
    run.row(["build", "word", "word.gad"], 0)
    run.row(["build", "word-at-ra", "word-at-ra.gad"], 0)

    def told(game, status, out, *line):
        return run.row(["explain", "word", "word.gad", game, *line], status, out)

    told("line", 0, f"legal unfinished\n{STANDS}")
    told("ends", 0, f"legal complete\n{HIDDEN}")
    for line in ([], ["0"], ["1"]):
        told("nothing", 3, "no game\n", *line)
        told("page", 3, "no game\n", *line)
    named = (
        "latin-wrong",
        1,
        "illegal line 2: WrongTotal 16\nline 2: >\u00c9va: DORWAAE 8E WORD +16 17\n"
        "\u00c9va had 0 and scores 16 on this line, which makes 16, but 17 is written.\n",
    )
    by_hand = "is ahead by 16; by the sheet"
    told(named[0], named[1], named[2] + WORD_SUMS + picture_of(2, True, WORD_MARKED) + f"\u00c9va {by_hand} \u00c9va is ahead by 17\n")
    for line in ([], ["0"], ["1"]):
        score = "illegal line 1: WrongScore 16\nline 1: >A: DORWAAE 8E WORD +18 18\nThe play scores 16, but 18 is written.\n"
        told("line-18", 1, score + WORD_SUMS + picture_of(1, True, WORD_MARKED) + ("" if line else f"A {by_hand} A is ahead by 18\n"), *line)
    down = "illegal line 1: WrongScore 16\nline 1: >A: DORWAAE H8 WORD +18 18\nThe play scores 16, but 18 is written.\n"
    Path(run.folder, "down").write_text(">A: DORWAAE H8 WORD +18 18\n")
    told("down", 1, down + DOWN_SUMS + picture_of(1, True, *DOWN_MARKED) + f"A {by_hand} A is ahead by 18\n")
    total = (
        "illegal line 1: WrongTotal 16\nline 1: >A: DORWAAE 8E WORD +16 17\nA had 0 and scores 16 on this line, which makes 16, but 17 is written.\n"
    )
    told("line-17", 1, total + WORD_SUMS + picture_of(1, True, WORD_MARKED) + f"A {by_hand} A is ahead by 17\n")
    turn = "illegal line 2: NotYourTurn\nline 2: >A: - +0 16\nIt is the other player's turn, not A's.\n"
    told("turn", 1, turn + picture_of(2, False, ROW_OF_WORD))
    centre = "illegal line 1: MissesCentre\nline 1: >A: DORWAAE 8D WORD +16 16\nThe first play of a game has to cover 8H, and this one does not.\n"
    spot = "The same letters score 16 at 8E across, 8F across, 8G across and 5 other places.\n"
    told("line-8d", 1, centre + spot + picture_of(1, True, (ROW_OF_WORD[0], " 8 = . .[' . . .]- . . . ' . . =")))
    short = (
        "The game has 2 of the tile ?, but by what the lines up to this one show there would have to be 3: "
        "0 on the board, 2 on A's rack and 1 on B's.\n"
    )
    shown = "  line 1 shows 2 on A's rack\n  line 2 shows 1 on B's rack\n"
    told("blanks", 1, f"illegal line 2: TilesShort ?\nline 2: >B: ? - +0 0\n{short}{shown}" + picture_of(2, False))
    no_deal = "No deal of the tiles gives the players the racks that the lines up to this one show, though no single line shows too much.\n"
    alone = "Even if only these tiles were shown, no deal would give them:\n  line 1 shows AEINRST on A's rack\n  line 3 shows BCDFGHJ on A's rack\n"
    exchanged = (
        "Compare the racks with the exchanges:\n  line 1: A exchanges 1 tile\n"
        "Up to line 2 a deal of the tiles gives the players every rack that is shown.\n"
    )
    told("one-of-seven", 1, f"illegal line 3: NoDeal\nline 3: >A: BCDFGHJ - +0 0\n{no_deal}{alone}{exchanged}" + picture_of(3, False))
    third = "bad record line 3: ThirdPlayer\nline 3: >C: - +0 0\nC is a third nickname: the players are A and B.\n"
    number = "bad record line 1: Number\nline 1: >A: 8E WORD +x 16\nThe score +x is not a number of 1 to 6 digits, with or without a sign.\n"
    for line in ([], ["7"]):
        told("third", 3, third, *line)
        told("number", 3, number, *line)
    long = "The file has more than 1,048,576 bytes, and no game record may be that long. Is it the wrong file?\n"
    told("long-game", 3, f"bad record: TooLong\n{long}")
    for game, line in (("line", "2"), ("line", "4294967295")):
        told(game, 3, "bad line: no event is on it or after it\n", line)
    allowed = "The rules allow this event.\n"
    told("line", 0, f"legal unfinished\nline 1: {WORD}{allowed}{WORD_SUMS}" + picture_of(1, True, WORD_MARKED), "1")
    listed = ["explain", "word-at-ra", "word-at-ra.gad"]
    laid = f"legal unfinished\nline 2: >B: AT 9G AT +9 9\n{allowed}{AT_SUMS}" + picture_of(2, True, ROW_OF_WORD, AT_MARKED)
    run.row([*listed, "unlisted", "2"], 0, laid)
    part = "Line 2: B's play stands with DT, which is not in the word list.\nLine 2 shows 2 of 7 tiles.\nEvery other turn shows its rack.\n"
    run.row([*listed, "unlisted"], 0, f"legal unfinished\n{DEALT}{part}")
    read = "X is played, but the rack AADEORW has none.\nWith W for X on 8E the play makes WORD, and scores 16, as is written.\n"
    told(
        "misread",
        1,
        f"illegal line 1: WrongScore 24\nline 1: {MISREAD}The play scores 24, but 16 is written.\n{read}{XORD_SUMS}"
        + picture_of(1, True, WORD_MARKED),
    )
    blank = "With the W on 8E as a blank the play scores 8, as is written.\n"
    told(
        "as-blank",
        1,
        f"illegal line 1: WrongScore 16\nline 1: >A: 8E WORD +8 8\nThe play scores 16, but 8 is written.\n{blank}{WORD_SUMS}"
        + picture_of(1, True, WORD_MARKED)
        + f"A {by_hand} A is ahead by 8\n",
    )
    gone = "It is B's turn, not A's.\nA line of B with +9 seems to be missing between lines 1 and 2.\n"
    told("gone", 1, f"illegal line 2: NotYourTurn\nline 2: >A: - +0 16\n{gone}" + picture_of(2, False, ROW_OF_WORD))
    told(
        "short-line",
        3,
        "bad record line 1: Code\nline 1: >A: 8E WORD +16\n" + NOT_AN_EVENT + "The score or the total is missing: an event ends with both.\n",
    )
    back = f"legal unfinished\nline 3: >B: AT -- -9 0\n{allowed}" + picture_of(3, False, ROW_OF_WORD, ROW_OF_AT)
    run.row([*listed, "withdrawn", "3"], 0, back)
    not_judged = "The rules do not allow line 1, so this line was not judged.\n"
    unknown = "The board before this line is not known, since the play on line 2 cannot be laid.\n"
    told("stops", 1, "illegal line 2: Mismatch\nline 3: >A: - +0 16\n" + not_judged.replace("1", "2") + unknown, "3")
    for words, status, out in [
        (["digit", "word.gad", "line"], 3, "bad word list line 2: BadLetter\n"),
        (["at", "extra.gad", "line"], 3, "bad lexicon: Extra A\n"),
        (["--rules", "tiles.rules", "word", "word.gad", "line"], 3, "bad rules line 1: Unknown\n"),
        (["--rules", "two-sets.rules", "at", "at.gad", "blanks"], 0, f"legal unfinished\n{DEALT}{BLANKS_SHOWN}"),
    ]:
        run.row(["explain", *words], status, out)
    run.row(["explain", "word", "word.gad", "-"], 0, f"legal unfinished\n{STANDS}", stdin=WORD)
    run.row(["explain", "word", "word.gad", "nowhere"], 4, error="referee: cannot open nowhere: no such file")
    run.row(["explain", "word", "folder", "line"], 4, error="referee: read failed: folder: is a folder")
    run.row(["explain", "word", "word.gad", "folder"], 4, error="referee: read failed: folder: is a folder")
    for words in (["line", "x"], ["line", "-1"], ["line", "4294967296"], ["line", "1", "2"], ["--before", "1", "line"]):
        run.row(["explain", "word", "word.gad", *words], 64, error=None)
    if os.path.exists("/dev/full"):
        run.row(
            ["explain", "word", "word.gad", "line"],
            4,
            error="referee: write failed: standard output: no space left, error 28 of the system",
            stdout="/dev/full",
        )


def paged(run):
    """`page`: the verdict line, and what is on the page."""
    run.row(["build", "word", "word.gad"], 0)
    out = Path(run.folder, "out")
    for game, status, verdict in [
        ("line", 0, "legal unfinished"),
        ("ends", 0, "legal complete"),
        ("line-18", 1, "illegal line 1: WrongScore 16"),
        ("turn", 1, "illegal line 2: NotYourTurn"),
    ]:
        run.row(["page", "word", "word.gad", game, "out"], status, f"{verdict}\n")
        banner = web.read(out.read_bytes()).first("section", "verdict")
        run.expect(f"the banner of {game}", banner.first("h2").text() == verdict and banner.attributes["class"] == f"verdict {verdict.split()[0]}")
        run.expect(f"no likely repair on the page of {game}", not banner.all("p", "likely"))
    rows = {
        "line": ["1", "A", "8E WORD", "+16", "16", "AADEORW", "8E WORD 16", "equal"],
        "line-18": ["1", "A", "8E WORD fault", "+18", "18", "AADEORW", "8E WORD 16", "equal", "score 16"],
        "score-alone": ["1", "A", "8E WORD fault", "+18", "16", "AADEORW", "8E WORD 16", "equal", "score 16"],
        "total-alone": ["1", "A", "8E WORD fault", "+16", "17", "AADEORW", "8E WORD 16", "equal", "total 16"],
        "line-17": ["1", "A", "8E WORD fault", "+16", "17", "AADEORW", "8E WORD 16", "equal", "total 16"],
    }
    for game, cells in rows.items():
        run.row(["page", "word", "word.gad", game, "out"], int(game != "line"), None)
        row = web.read(out.read_bytes()).first("table", "sheet").first("tbody").first("tr")
        found = [it.text().strip() for it in row.children()[:-1]]
        run.expect(f"the row of {game}", found == cells)
    Path(run.folder, "nine").write_text(WORD.replace("8E", "9E"))
    run.row(["page", "word", "word.gad", "nine", "out"], 1, "illegal line 1: MissesCentre\n")
    page = web.read(out.read_bytes())
    likely = page.first("section", "verdict").first("p", "likely").text()
    run.expect("the likely repair on a page", likely == "Likely: line 1: WORD at 8E, not at 9E\n  2 of 2 numbers right")
    heads = [it.text() for it in page.first("section", "end").all("h2")]
    run.expect("the boards of a page", heads == ["The board at line 1", "The board with the likely repair"])
    unread_pages(run, out)


def unread_pages(run, out):
    """Where `page` writes no page, and the page that is written again."""
    unwritten(run, out, "page")
    run.row(["page", "word", "word.gad", "-", "out"], 0, "legal unfinished\n", stdin=WORD)
    page = out.read_bytes()
    for words in (["-", "word.gad", "line"], ["word", "word.gad", "line"]):
        run.row(["page", *words, "out"], 0, "legal unfinished\n", stdin="WORD\n", wrote=page)
    run.row(["page", "-", "word.gad", "-", "out"], 64, error=None)


def unwritten(run, out, command):
    """Where a command makes nothing of a record, so that its output stays as it was."""
    out.write_bytes(b"as it was")
    for words, status, told in [
        (["word", "word.gad", "third"], 3, "bad record line 3: ThirdPlayer\n"),
        (["word", "word.gad", "long-game"], 3, "bad record: TooLong\n"),
        (["word", "word.gad", "nothing"], 3, "no game\n"),
        (["digit", "word.gad", "line"], 3, "bad word list line 2: BadLetter\n"),
        (["--rules", "tiles.rules", "word", "word.gad", "line"], 3, "bad rules line 1: Unknown\n"),
    ]:
        run.row([command, *words, "out"], status, told, wrote=b"as it was")
    for place, words in enumerate([["nowhere", "word.gad", "line"], ["word", "nowhere", "line"], ["word", "word.gad", "nowhere"]]):
        run.row([command, *words, "out"], 4, error="referee: cannot open nowhere: no such file", wrote=b"as it was")
        words[place] = "folder"
        run.row([command, *words, "out"], 4, error="referee: read failed: folder: is a folder", wrote=b"as it was")
    run.row([command, "word", "word.gad", "line", "folder"], 4, error="referee: cannot open folder: is a folder")
    run.row([command, "many", "at.gad", "line", "out"], 4, error="referee: no memory", wrote=b"as it was", room=1 << 23)
    if os.path.exists("/dev/full"):
        run.row(
            [command, "word", "word.gad", "line", "/dev/full"], 4, error="referee: write failed: /dev/full: no space left, error 28 of the system"
        )
        run.row(
            [command, "word", "word.gad", "line", "out"],
            4,
            error="referee: write failed: standard output: no space left, error 28 of the system",
            stdout="/dev/full",
        )


BY_POINTS = (
    [  # by the list AT: a record, how many points more the best play of its first line gives, the note, the cell of the page, and the sum for A
        (">A: AADERTW 8E DRAW +16 16\n", -12, "best 8G AT 4; not in the list: DRAW", "", 0),
        (">A: AADERTW 8E DRAW +16 16\n>A: AADERTW -- -16 0\n", 4, "best 8G AT 4, 4 more", "+4", 4),
        (">A: AADERTW 8H AT +4 4\n", 0, "best 8G AT 4, equal", "equal", 0),
        (">A: AADERTW - +0 0\n", 4, "best 8G AT 4, 4 more", "+4", 4),
    ]
)


KEPT_BESTS = [  # by the list WORD, AT, RA: turns in which players pass with the same racks while the board is the same, and after it changed
    ("A", "AEINRST", "- +0 0", "8G AT 4", ", 4 more"),
    ("B", "AADEORW", "- +0 0", "8E WORD 16", ", 16 more"),
    ("A", "AEINRST", "- +0 0", "8G AT 4", ", 4 more"),
    ("B", "AADEORW", "8E WORD +16 16", "8E WORD 16", ", equal"),
    ("A", "AEINRST", "- +0 0", "G8 .A 3", ", 3 more"),
    ("B", "AAEEFGG", "- +0 16", "G8 .A 3", ", 3 more"),
    ("A", "AEINRST", "G8 .A +3 3", "G8 .A 3", ", equal"),
    ("B", "AAEEFGG", "- +0 16", "none", ""),
]


def kept_bests(run):
    """The best play of a rack is not the one that was found for it before the board changed."""
    run.row(["build", "word-at-ra", "word-at-ra.gad"], 0)
    words = ["word-at-ra", "word-at-ra.gad", "kept-bests"]
    lines = [f">{nick}: {rack} {event}\n" for nick, rack, event, *_ in KEPT_BESTS]
    Path(run.folder, "kept-bests").write_text("".join(lines))
    told = "".join(f"{k} {nick} {event} best {best}\n" for k, (nick, _, event, best, _) in enumerate(KEPT_BESTS, 1))
    run.row(["judge", *words], 0, f"legal unfinished\n{told}")
    notes = [f"#note best {best}{more}\n" if more else "#note no play is possible\n" for *_, best, more in KEPT_BESTS]
    run.row(["annotate", *words], 0, "".join(map("".join, zip(lines, notes))), error="legal unfinished")


def counted_points(run):
    """How many points more the best play would have given: one number in `judge --json`, `annotate` and the page."""
    run.row(["build", "at", "at.gad"], 0)
    for text, more, note, cell, left in BY_POINTS:
        Path(run.folder, "points").write_text(text)
        told = json.loads(said(run, ["judge", "--json", "at", "at.gad", "points"])[1])
        run.expect(f"the points of {text!r}", told["events"][0]["best"]["more"] == more and told["players"][0]["left"] == left)
        run.expect(f"the note of {text!r}", said(run, ["annotate", "at", "at.gad", "points"])[1].decode().split("\n")[1] == f"#note {note}")
        said(run, ["page", "at", "at.gad", "points", "points.html"])
        page = web.read(Path(run.folder, "points.html").read_bytes())
        row = [it.text() for it in page.first("table", "sheet").first("tbody").first("tr").children()]
        run.expect(
            f"the page of {text!r}",
            row[6:8] == ["8G AT 4", cell] and page.first("p", "sums").text() == f"The best plays would have given more: A {left}",
        )


def seen(run, words, stream):
    """The status of a command line, and what a terminal gets that is its standard output or its standard error."""
    terminal, its = pty.openpty()
    tty.setraw(its)
    streams = {"stdout": subprocess.DEVNULL, "stderr": subprocess.DEVNULL} | {stream: its}
    ran = subprocess.Popen([run.program, *words], cwd=run.folder, stdin=subprocess.DEVNULL, **streams)
    os.close(its)
    told = b""
    try:
        while part := os.read(terminal, 1 << 16):
            told += part
    except OSError:
        pass
    os.close(terminal)
    return ran.wait(), told


def on_a_terminal(run):
    """Control characters of a record are shown on a terminal; in a file and through a pipe they are as they are."""
    run.row(["build", "word", "word.gad"], 0)
    hostile = b"A\x1b[1A\x1b[2K\x07\x7f\xc2\x9b31m\xc3\x9b\xc2\xa7"
    shown = "A^[[1A^[[2K^G^?^[[31m\u00db\u00a7".encode()
    Path(run.folder, "hostile").write_bytes(b">" + hostile + b": DORWAAE 8E WORD +16 16\n")
    judge = b"legal unfinished\n1 %s 8E WORD +16 16 best 8E WORD 16\n"
    run.expect("judge on a terminal", seen(run, ["judge", "word", "word.gad", "hostile"], "stdout") == (0, judge % shown))
    run.expect("judge through a pipe", said(run, ["judge", "word", "word.gad", "hostile"])[:2] == (0, judge % hostile))
    tidied = b"#player1 %s\n>%s: AADEORW 8E WORD +16 16\n"
    run.expect("tidy on a terminal", seen(run, ["tidy", "hostile"], "stdout") == (0, tidied % (shown, shown)))
    run.expect("tidy through a pipe", said(run, ["tidy", "hostile"])[:2] == (0, tidied % (hostile, hostile)))
    noted = b">%s: DORWAAE 8E WORD +16 16\n#note best 8E WORD 16, equal\n"
    run.expect("annotate on a terminal", seen(run, ["annotate", "word", "word.gad", "hostile", "-"], "stdout") == (0, noted % shown))
    Path(run.folder, "returns").write_bytes(b">A:\tDORWAAE 8E WORD +16 16\r\n")
    returns = b">A:\tDORWAAE 8E WORD +16 16%s\n#note best 8E WORD 16, equal%s\n"
    run.expect("a tab and a CR", seen(run, ["annotate", "word", "word.gad", "returns", "-"], "stdout") == (0, returns % (b"^M", b"^M")))
    lost = b"referee: cannot open no%swhere: no such file\n"
    run.expect("standard error that is a terminal", seen(run, ["judge", "word", "word.gad", "no\x1b[2Jwhere"], "stderr") == (4, lost % b"^[[2J"))
    run.expect("standard error that is a pipe", said(run, ["judge", "word", "word.gad", "no\x1b[2Jwhere"])[2] == lost % b"\x1b[2J")
    status, told = seen(run, ["--help"], "stdout")
    run.expect("help on a terminal", (status, told) == said(run, ["--help"])[:2])


def annotated(run):
    """`annotate`: the record with notes, in the file that is named or on standard output."""
    run.row(["build", "word", "word.gad"], 0)
    run.row(["build", "word-at-ra", "word-at-ra.gad"], 0)
    by_word, listed = ["annotate", "word", "word.gad"], ["annotate", "word-at-ra", "word-at-ra.gad"]
    best = f"{WORD}#note best 8E WORD 16, equal\n"
    run.row([*by_word, "line", "out"], 0, "legal unfinished\n", wrote=best.encode())
    for words in ([*by_word, "line"], [*by_word, "line", "-"], [*by_word, "-"]):
        run.row(words, 0, best, error="legal unfinished", stdin=WORD)
    score = ">A: DORWAAE 8E WORD +18 18\n#note The play scores 16, but 18 is written.\n"
    run.row([*by_word, "line-18"], 1, score, error="illegal line 1: WrongScore 16")
    turn = f"{best}>A: - +0 16\n#note It is the other player's turn, not A's.\n"
    run.row([*by_word, "turn"], 1, turn, error="illegal line 2: NotYourTurn")
    run.row([*listed, "unlisted"], 0, f"{best}>B: AT 9G AT +9 9\n#note not in the list: DT\n", error="legal unfinished")
    none = ">A: AEIRSUV - +0 0\n#note no play is possible\n>B: AEINRST - +0 0\n#note best 8G AT 4, 4 more\n"
    run.row(["annotate", "at", "at.gad", "no-play"], 0, none, error="legal unfinished")
    three = none.replace("4 more", "4 more; then 8H AT 4, H7 AT 4")
    run.row(["annotate", "--top", "3", "at", "at.gad", "no-play"], 0, three, error="legal unfinished")
    for words in (["--top", "0"], ["--top", "101"], ["--top", "x"], ["--number", "3"]):
        run.row(["annotate", *words, "word", "word.gad", "line"], 64, error=None)
    run.row(["annotate", "word", "word.gad", "line", "out", "out"], 64, error=None)
    unwritten(run, Path(run.folder, "out"), "annotate")


def broken(run):
    """Status 4: files that cannot be opened, read or written, and want of memory."""
    run.row(["judge", "nowhere", "at.gad", "line"], 4, error="referee: cannot open nowhere: no such file")
    run.row(["judge", "at", "nowhere", "line"], 4, error="referee: cannot open nowhere: no such file")
    run.row(["judge", "at", "at.gad", "nowhere"], 4, error="referee: cannot open nowhere: no such file")
    # Files are opened in their order, before any is read.
    run.row(["judge", "digit", "at.gad", "nowhere"], 4, error="referee: cannot open nowhere: no such file")
    run.row(["judge", "folder", "nowhere", "elsewhere"], 4, error="referee: cannot open nowhere: no such file")
    run.row(["check", "nowhere", "elsewhere"], 4, error="referee: cannot open nowhere: no such file")
    run.row(["tidy", "nowhere"], 4, error="referee: cannot open nowhere: no such file")
    run.row(["build", "nowhere", "out"], 4, error="referee: cannot open nowhere: no such file")
    run.row(["build", "at", "no/where"], 4, error="referee: cannot open no/where: no such file")
    run.row(["build", "at", "folder"], 4, error="referee: cannot open folder: is a folder")
    for words in (["judge", "folder", "at.gad", "line"], ["judge", "at", "folder", "line"], ["judge", "at", "at.gad", "folder"]):
        run.row(words, 4, error="referee: read failed: folder: is a folder")
    run.row(["check", "at", "folder"], 4, error="referee: read failed: folder: is a folder")
    run.row(["tidy", "folder"], 4, error="referee: read failed: folder: is a folder")
    Path(run.folder, "out").write_text("something")
    run.row(["build", "folder", "out"], 4, error="referee: read failed: folder: is a folder", wrote=b"something")
    # What comes after a bad word list or a bad lexicon is not read.
    run.row(["judge", "digit", "folder", "folder"], 3, "bad word list line 2: BadLetter\n")
    run.row(["judge", "at", "extra.gad", "folder"], 3, "bad lexicon: Extra A\n")
    run.row(["check", "digit", "folder"], 3, "bad word list line 2: BadLetter\n")
    if os.path.exists("/dev/full"):
        for words in (["judge", "at", "at.gad", "nothing"], ["check", "at", "at.gad"], ["tidy", "untidy"], ["tidy", "number"]):
            run.row(words, 4, error="referee: write failed: standard output: no space left, error 28 of the system", stdout="/dev/full")
        run.row(["tidy", "nothing"], 0, stdout="/dev/full")
        run.row(["build", "at", "/dev/full"], 4, error="referee: write failed: /dev/full: no space left, error 28 of the system")
    run.row(["build", "many", "out"], 4, error="referee: no memory", wrote=b"something", room=1 << 26)
    run.row(["judge", "many", "at.gad", "line"], 4, error="referee: no memory", room=1 << 23)


def said(run, words, stdin=b""):
    """The status, the bytes on standard output and those on standard error of a command line."""
    ran = subprocess.run([run.program, *words], cwd=run.folder, input=stdin, capture_output=True, check=False, timeout=run.patience)
    return ran.returncode, ran.stdout, ran.stderr


def put_out(run):
    """OUT: standard output where it is `-`; a file that its links lead to, with the permissions that it had; and what is no file."""
    run.row(["build", "word", "word.gad"], 0)
    page = ["page", "word", "word.gad", "line"]
    run.row([*page, "out"], 0, "legal unfinished\n")
    for words, ended in [
        (["build", "at", "-"], (0, AT_FILE, b"")),
        (["build", "digit", "-"], (3, b"bad word list line 2: BadLetter\n", b"referee: digit: bad word list line 2: BadLetter\n")),
        (["convert", "gad2", "at.gad", "-"], (0, AT_MASKS, b"")),
        (["convert", "gad2", "text.gad", "-"], (3, b"bad lexicon: Magic\n", b"referee: text.gad: bad lexicon: Magic\n")),
        ([*page, "-"], (0, Path(run.folder, "out").read_bytes(), b"legal unfinished\n")),
        (["page", "word", "word.gad", "third", "-"], (3, b"", b"bad record line 3: ThirdPlayer\n" + BAD["third"].encode() + b"\n")),
        (["page", "digit", "word.gad", "line", "-"], (3, b"", b"bad word list line 2: BadLetter\n")),
        (
            ["audit", "--corrected", "-", "word", "word.gad", "line-17"],
            (1, WORD.encode(), b"line 1: sum 17, should be 16 (A, 8E WORD)\nlegal unfinished\nA is ahead by 16; by the sheet A is ahead by 17\n"),
        ),
        (["audit", "--corrected", "-", "word", "word.gad", "turn"], (1, b"", b"illegal line 2: NotYourTurn\n")),
        (
            ["fill", "word", "word.gad", "short-line"],
            (0, b">A: 8E WORD +16 16\n", b"put in: 0 scores, 1 total\nlegal unfinished\nA is ahead by 16\n"),
        ),
        (
            ["audit", "--corrected", "-", "at", "extra.gad", "line"],
            (3, b"", b"bad lexicon: Extra A\nreferee: extra.gad is not the lexicon of at, but of another list: referee build makes the right one\n"),
        ),
    ]:
        run.expect(words, said(run, words) == ended)
    run.expect("no file is named -", not Path(run.folder, "-").exists())
    run.row(["build", "at", "./-"], 0)
    run.expect("./- is a file", Path(run.folder, "-").read_bytes() == AT_FILE)
    Path(run.folder, "-").unlink()
    Path(run.folder, "out").write_bytes(b"something")
    Path(run.folder, "out").chmod(0o640)
    for link, end in (("link", "out"), ("folder/dangling", "../made"), ("loop", "loop")):
        Path(run.folder, link).symlink_to(end)
    run.row(["build", "at", "link"], 0, wrote=AT_FILE)
    run.expect("a link stays one", Path(run.folder, "link").is_symlink() and Path(run.folder, "out").stat().st_mode & 0o777 == 0o640)
    run.row(["build", "at", "folder/dangling"], 0)
    run.expect("a link to no file", Path(run.folder, "folder/dangling").is_symlink() and Path(run.folder, "made").read_bytes() == AT_FILE)
    run.row(["build", "at", "/dev/null"], 0)
    run.expect("a device", said(run, ["build", "at", "/dev/stdout"]) == (0, AT_FILE, b""))
    for name, why in (
        ("loop", "too many links"),
        ("folder", "is a folder"),
        ("line/x", "error 20 of the system"),
        ("x" * 300, "error 36 of the system"),
        ("", "no such file"),
        ("new/", "no such file"),
    ):
        run.row(["build", "at", name], 4, error=f"referee: cannot open {name}: {why}")
        if name != "folder":
            why = why if name != "new/" else "no such file"
            run.row(["check", "at", name], 4, error=f"referee: cannot open {name}: {why}")
    if os.geteuid():
        Path(run.folder, "shut").mkdir(0o500)
        run.row(["build", "at", "shut/out"], 4, error="referee: cannot open shut/out: permission denied")
        Path(run.folder, "mine").write_text("AT\n")
        Path(run.folder, "mine").chmod(0)
        for words in (["check", "mine", "at.gad"], ["build", "at", "mine"]):
            run.row(words, 4, error="referee: cannot open mine: permission denied")
    run.expect("nothing else is left", not list(Path(run.folder).glob("**/.referee*")))


def overwritten(run):
    """An OUT that is one of the inputs is a mistake of the command line, and nothing is written."""
    run.row(["build", "word", "word.gad"], 0)
    Path(run.folder, "again").symlink_to("word")
    os.link(Path(run.folder, "word"), Path(run.folder, "other-name"))
    kept = {name: Path(run.folder, name).read_bytes() for name in ("word", "word.gad", "line", "english.rules")}
    game = ["--rules", "english.rules", "word", "word.gad", "line"]
    for out in ("word", "./word", "again", "other-name"):
        run.row(["build", "word", out], 64, error=None)
        run.row(["build", "again", out], 64, error=None)
        run.row(["page", *game, out], 64, error=None)
        run.row(["audit", "--corrected", out, *game], 64, error=None)
    for out in ("word.gad", "line", "english.rules", "folder/../line"):
        run.row(["page", *game, out], 64, error=None)
        run.row(["audit", "--corrected", out, *game], 64, error=None)
    run.row(["convert", "gad2", "word.gad", "word.gad"], 64, error=None)
    with open(Path(run.folder, "word"), "rb") as words:
        ran = subprocess.run([run.program, "build", "-", "word"], stdin=words, cwd=run.folder, capture_output=True, check=False)
    run.expect("standard input that is OUT", ran.returncode == 64 and ran.stdout == b"" and b"OUT is the same file as WORDS" in ran.stderr)
    run.expect("the inputs are as they were", all(Path(run.folder, name).read_bytes() == data for name, data in kept.items()))
    run.row(["page", "word", "word.gad", "line", "other"], 0, "legal unfinished\n")


def hinted(run):
    """What standard error says in addition to the line of a fault, by every command that has such a line."""
    rack = "tiles are A to Z, and ? for a blank"
    for named, told in [
        ("", "the rack has no tile, and a rack has 1 to 7"),
        ("A1", f"'1' in the rack is not a tile: {rack}"),
        ("a1", f"'1' in the rack is not a tile: {rack}"),
        ("\u00c4", f"'\u00c4' in the rack is not a tile: {rack}"),
        ("AAAAAAAA", "the rack has 8 tiles, and a rack has 1 to 7"),
        ("aaaaaaaa", "the rack has 8 tiles, and a rack has 1 to 7"),
        ("at?", "the tiles of a rack are capitals: perhaps AT? is meant"),
        ("AEInrst", "the tiles of a rack are capitals: perhaps AEINRST is meant"),
    ]:
        run.row(["top", "at", "at.gad", "number", named], 3, "bad rack\n", error=f"referee: {told}")
        run.row(["top", "--before", "2", "at", "at.gad", "number", named], 3, "bad rack\n", error=f"referee: {told}")
    run.row(["top", "--before", "2", "at", "at.gad", "shown-rack"], 3, "bad rack\n", error="referee: the line shows no rack: name one after GAME")
    texts = {
        "no-row": (ENGLISH_RULES.replace(ROW_8, ""), "Missing", "the rules text has no line for row 8"),
        "few": (
            "\ufeff bonus 50\n" + "".join(it for it in ENGLISH_RULES.splitlines(True) if it[:5] in ("tile ", "row 1") and "Q" not in it),
            "Missing",
            "the rules text has no line for tile Q, row 2, row 3, row 4, row 5, row 6, row 7, row 8, row 9,"
            " exchange_min, zero_limit, challenge_unit, time_step",
        ),
        "nineteen": (TWO_SETS.replace("A 18 1", "A 19 1"), "Limits", "the rules text has 201 tiles together, and may have 14 to 200"),
        "thirteen": (FOURTEEN.replace("A 2 1", "A 1 1"), "Limits", "the rules text has 13 tiles together, and may have 14 to 200"),
        "dear": (ENGLISH_RULES.replace("Q 1 10", "Q 1 100"), "Limits", "tile Q has 100 points in the rules text, and may have 0 to 99"),
        "never": (ENGLISH_RULES.replace("zero_limit 6", "zero_limit 00"), "Limits", "zero_limit is 0 in the rules text, and may be 1 to 99"),
        "late": (ENGLISH_RULES.replace("time_step 5", "time_step 100"), "Limits", "time_step is 100 in the rules text, and may be 1 to 99"),
    }
    judging = (["judge"], ["judge", "--settle"], ["explain"], ["audit"], ["archive"], ["top"], ["page"])

    def behind(command):
        return {"top": ["A"], "page": ["out"]}.get(command[0], [])

    for name, (text, why, told) in texts.items():
        Path(run.folder, f"{name}.rules").write_text(text)
        for command in judging:
            words = [*command, "--rules", f"{name}.rules", "at", "at.gad", "line", *behind(command)]
            run.row(words, 3, f"bad rules: {why}\n", error=f"referee: {told}")
        run.row(["board", "--rules", f"{name}.rules", "line"], 3, f"bad rules: {why}\n", error=f"referee: {told}")
    run.row(["judge", "--rules", "tiles.rules", "at", "at.gad", "line"], 3, "bad rules line 1: Unknown\n", error="")
    other = "referee: {} is not the lexicon of {}, but of another list: referee build makes the right one"
    turned = "referee: {} is a compiled lexicon, not a word list: the two names are the wrong way round"
    for command in (["check"], *judging):
        more = [] if command == ["check"] else ["line", *behind(command)]
        for words, lexicon, told in (("it-at", "at.gad", "Missing I+T"), ("at", "it-at.gad", "Extra I"), ("at", "count.gad", "WordCount")):
            run.row([*command, words, lexicon, *more], 3, f"bad lexicon: {told}\n", error=other.format(lexicon, words))
        for lexicon in ("at.gad", "at-masks.gad"):
            run.row([*command, lexicon, "at", *more], 3, "bad word list line 1: BadLetter\n", error=turned.format(lexicon))
        run.row([*command, "--first-field", "at.gad", "at", *more], 3, "bad word list line 1: BadLetter\n", error=turned.format("at.gad"))
        run.row([*command, "digit", "at.gad", *more], 3, "bad word list line 2: BadLetter\n", error="")
        run.row([*command, "at", "text.gad", *more], 3, "bad lexicon: Magic\n", error="")
    fault = "bad word list line 1: BadLetter"
    run.row(["build", "at.gad", "out"], 3, error=f"referee: at.gad: {fault}\n{turned.format('at.gad')}", wrote=f"{fault}\n".encode())
    run.row(
        ["build", "-", "out"],
        3,
        error="referee: standard input: bad word list line 1: BadLength",
        stdin="A\n",
        wrote=b"bad word list line 1: BadLength\n",
    )
    run.row(["check", "-", "it-at.gad"], 3, "bad lexicon: Extra I\n", error=other.format("it-at.gad", "standard input"), stdin="AT\n")


def misordered(run):
    """Files in the wrong order are named as what they are."""
    order = "the files are WORDS, LEXICON and GAME, in this order"
    run.row(
        ["judge", "line", "at.gad", "at"], 3, "bad word list line 1: BadLetter\n", error=f"referee: line is a game record, not a word list: {order}"
    )
    run.row(
        ["judge", "by-hand", "at.gad", "at"],
        3,
        "bad word list line 1: BadLetter\n",
        error=f"referee: by-hand is a game record, not a word list: {order}",
    )
    run.row(["judge", "at", "at.gad", "it-at"], 0, "legal unfinished\n", error=f"referee: it-at has no event: it is a word list, and {order}")


def refusal(verdict, line=None, fault=None, **more):
    """The object of an answer that is no report."""
    return json.dumps({"verdict": verdict, "line": line, "fault": fault} | more, separators=(",", ":")) + "\n"


def in_json(run):
    """`judge`, `audit`, `explain`, `top`, `board` and `check` with `--json`: one object, whatever happened."""
    run.row(["check", "--json", "at", "at.gad"], 0, refusal("ok", words=1))
    run.row(["check", "--json", "at", "extra.gad"], 3, refusal("bad lexicon", fault={"name": "Extra", "path": "A"}))
    run.row(["check", "--json", "it-at", "at.gad"], 3, refusal("bad lexicon", fault={"name": "Missing", "path": "I+T"}))
    run.row(["check", "--json", "digit", "folder"], 3, refusal("bad word list", 2, {"name": "BadLetter"}))
    run.row(["judge", "--json", "long-list", "at.gad", "line"], 3, refusal("bad word list", fault={"name": "TooLong"}))
    run.row(["judge", "--json", "word", "word.gad", "third"], 3, refusal("bad record", 3, {"name": "ThirdPlayer"}))
    run.row(["judge", "--json", "--rules", "line", "word", "word.gad", "line"], 3, refusal("bad rules", 1, {"name": "Unknown"}))
    player = '{"nick":%s,"name":null,"left":%s}'
    start = '{"line":1,"player":1,"nick":"A","rack":"AADEORW","kind":"play","place":"8E","direction":"across","text":"WORD",'
    legal = f'{start}"word":"WORD","tiles":"WORD","number":null,"score":16,"total":16,"turn":"best play",'
    best = '"best":{"place":"8E","direction":"across","text":"WORD","score":16,"more":0},"unlisted":[]}'
    head = '{"verdict":"legal","line":null,"fault":null,"ending":"unfinished","players":'
    both = f'[{player % (chr(34) + "A" + chr(34), 0)},{player % ("null", 0)}]'
    for more in ([], ["--settle"]):
        run.row(["judge", "--json", *more, "word", "word.gad", "line"], 0, f'{head}{both},"events":[{legal}{best}],"unread_lines":[]}}\n')
    head = '{"verdict":"illegal","line":1,"fault":{"name":"WrongScore","expected":16},"ending":null,"players":'
    both = f'[{player % (chr(34) + "A" + chr(34), "null")},{player % ("null", "null")}]'
    wrong = f'{start}"word":null,"tiles":null,"number":null,"score":18,"total":18,"turn":null,"best":null,"unlisted":null}}'
    run.row(["judge", "--json", "word", "word.gad", "line-18"], 1, f'{head}{both},"events":[{wrong}],"unread_lines":[]}}\n')

    def told(words):
        return json.loads(subprocess.run([run.program, *words], cwd=run.folder, capture_output=True, check=False).stdout)

    game = told(["judge", "--json", "word-at-ra", "word-at-ra.gad", "withdrawn"])
    run.expect("the tiles of a play and of its withdrawal", [event["tiles"] for event in game["events"]] == ["WORD", "AT", "AT", "AT"])
    run.expect("the words that are not listed", [event["unlisted"] for event in game["events"]] == [[], [], [], ["DT"]])
    game = told(["judge", "--json", "at", "at.gad", "with-blank"])
    run.expect("a best play with a blank", game["events"][0]["best"] == {"place": "8G", "direction": "across", "text": "At", "score": 2, "more": 2})
    run.expect("what the best play would have given more", [player["left"] for player in game["players"]] == [2, 0])
    game = told(["judge", "--json", "at", "at.gad", "big-rack"])
    run.expect("racks that no deal yields", [game["verdict"], game["line"], game["fault"]] == ["illegal", 3, {"name": "RackTooBig"}])
    run.expect("no report beside an object", told(["judge", "--json", "word", "word.gad", "one-q"])["verdict"] == "unsettled")
    run.row(
        ["judge", "--json", "word", "word.gad", "nowhere"],
        4,
        refusal("cannot open", file="nowhere"),
        error="referee: cannot open nowhere: no such file",
    )
    run.row(
        ["judge", "--json", "word", "folder", "line"], 4, refusal("read failed", file="folder"), error="referee: read failed: folder: is a folder"
    )
    run.row(["check", "--json", "at", "nowhere"], 4, refusal("cannot open", file="nowhere"), error="referee: cannot open nowhere: no such file")
    if os.path.exists("/dev/full"):
        run.row(
            ["check", "--json", "at", "at.gad"],
            4,
            error="referee: write failed: standard output: no space left, error 28 of the system",
            stdout="/dev/full",
        )
    run.row(["check", "--json", "--json", "at", "at.gad"], 64, error=None)
    audit = ["audit", "--json", "word", "word.gad"]
    keys = (
        '{"verdict":"%s","line":%s,"fault":%s,"ending":%s,"players":[{"nick":"A","name":null},{"nick":null,"name":null}],"wrong":[%s],'
        '"ahead":{"player":1,"by":16},"ahead_by_sheet":{"player":1,"by":%d},"amount":null,"unread_lines":[]}\n'
    )
    event = '"line":1,"player":1,"nick":"A","kind":"play","place":"8E","direction":"across","text":"WORD"'
    score, total = f'{{"wrong":"score",{event},"written":18,"sum":null,"right":16}}', '"kind":null,"place":null,"direction":null,"text":null'
    last = f'{{"wrong":"last total","line":null,"player":1,"nick":"A",{total},"written":%d,"sum":null,"right":16}}'
    good = ("legal", "null", "null", '"unfinished"')
    run.row([*audit, "line"], 0, keys % (*good, "", 16))
    run.row([*audit, "line-18"], 1, keys % (*good, f"{score},{last % 18}", 18))
    run.row([*audit, "score-and-sum"], 1, keys % (*good, f'{score},{{"wrong":"sum",{event},"written":19,"sum":18,"right":16}}', 19))
    game = told([*audit, "sum-then-turn"])
    run.expect("a sum before the line at which the correction stops", [game["wrong"][0][key] for key in ("written", "sum", "right")] == [15, 16, 16])
    run.expect("a sum on that line", [game["wrong"][1][key] for key in ("line", "kind", "written", "sum", "right")] == [2, "time", 4, 0, None])
    run.expect("no last total without a correction", [it["wrong"] for it in game["wrong"]] == ["sum", "sum"] and game["line"] == 2)
    amount, first = (told([command, "--json", "word", "word.gad", "bonus-missing"]) for command in ("audit", "repair"))
    run.expect("a bonus that would explain the numbers", amount["amount"] == first["repairs"][0] and amount["amount"]["slip"] == "bonus missing")
    for game, wrong in (("score-alone", ("score", 18)), ("total-alone", ("sum", 17)), ("total-carried", ("sum", 17))):
        alone = told(["repair", "--json", "word", "word.gad", game])["numbers_alone"]
        counted = {"numbers": 6, "numbers_right": 5, "wrong": [{"wrong": wrong[0], "line": 1, "written": wrong[1], "right": 16}], "unlisted": []}
        run.expect(f"the numbers that repair counts of {game}", alone == counted)
    run.row(
        [*audit, "nothing"],
        3,
        '{"verdict":"no game","line":null,"fault":null,"ending":null,"players":[%s,%s],"wrong":[],'
        '"ahead":null,"ahead_by_sheet":null,"amount":null,"unread_lines":[]}\n' % (('{"nick":null,"name":null}',) * 2),
    )
    run.row([*audit, "third"], 3, refusal("bad record", 3, {"name": "ThirdPlayer"}))
    run.row([*audit, "nowhere"], 4, refusal("cannot open", file="nowhere"), error="referee: cannot open nowhere: no such file")
    run.row([*audit, "--corrected", "out", "line"], 64, error=None)
    top, at = ["top", "--json"], ["at", "at.gad"]
    play = '{"place":"%s","direction":"%s","text":"%s","score":2}'
    plays = ",".join(play % it for it in (("8G", "across", "At"), ("8H", "across", "At"), ("H7", "down", "At"), ("H8", "down", "At")))
    both = '{"verdict":"ok","line":null,"fault":null,"rack":"A?","plays":[%s]}\n'
    run.row([*top, *at, "nothing", "?A"], 0, both % plays)
    run.row([*top, "--number", "1", *at, "nothing", "?A"], 0, both % (play % ("8G", "across", "At")))
    run.row([*top, *at, "nothing", "ZZ"], 0, '{"verdict":"ok","line":null,"fault":null,"rack":"ZZ","plays":[]}\n')
    run.row([*top, *at, "nothing", "A1"], 3, refusal("bad rack"))
    run.row([*top, *at, "nowhere", "A1"], 4, refusal("cannot open", file="nowhere"), error="referee: cannot open nowhere: no such file")
    run.row([*top, "--before", "9", *at, "with-blank"], 3, refusal("bad line"))
    run.row([*top, "word", "word.gad", "line-18", "A"], 1, refusal("illegal", 1, {"name": "WrongScore", "expected": 16}))
    run.row([*top, "digit", "folder", "line", "A"], 3, refusal("bad word list", 2, {"name": "BadLetter"}))
    run.row([*top, *at, "third", "A"], 3, refusal("bad record", 3, {"name": "ThirdPlayer"}))
    board = told(["board", "--json", "line"])
    run.expect("the keys of a board", list(board) == ["verdict", "line", "fault", "before", "rows", "players", "rack", "off_board", "unread_lines"])
    run.expect("a row of a board", board["rows"][7] == "=..'WORD...'..=" and len(board["rows"]) == 15)
    run.expect(
        "the tiles that are not on the board", board["off_board"]["number"] == 96 and board["off_board"]["kinds"][3] == {"tile": "D", "number": 3}
    )
    run.expect("the totals of a board", [player["total"] for player in board["players"]] == [16, 0])
    board = told(["board", "--json", "--before", "1", "line"])
    run.expect("the board before a line", [board["before"], board["rack"], board["rows"][7]] == [1, "AADEORW", "=..'...-...'..="])
    run.row(["board", "--json", "--before", "9", "line"], 3, refusal("bad line"))
    run.row(["board", "--json", "third"], 3, refusal("bad record", 3, {"name": "ThirdPlayer"}))
    run.row(["board", "--json", "--rules", "line", "line"], 3, refusal("bad rules", 1, {"name": "Unknown"}))
    run.row(["board", "--json", "nowhere"], 4, refusal("cannot open", file="nowhere"), error="referee: cannot open nowhere: no such file")
    run.row(["board", "--json", "folder"], 4, refusal("read failed", file="folder"), error="referee: read failed: folder: is a folder")
    explained_in_json(run, told)


def lines_unread(run):
    """Lines that are not read although they look like events are named, and so is each line that begins like an event and is none."""
    run.row(["build", "word", "word.gad"], 0)
    pair = ["word", "word.gad"]
    report = "legal unfinished\n1 A 8E WORD +16 16 best 8E WORD 16\n"
    one = "referee: unread: line 2 is not read: it has no > in front"
    kinds = "\n".join(f"referee: unread-kinds: line {line} is not read: {why}" for line, (_, why) in UNREAD.items())
    many = [f"referee: unread-many: line {line} is not read: it has no > in front" for line in range(2, 12)]
    many = "\n".join([*many, "referee: unread-many: more lines that are not read: 2"])
    for game, error in (("unread", one), ("unread-kinds", kinds), ("unread-many", many)):
        for more in ([], ["--settle"]):
            run.row(["judge", *more, *pair, game], 0, report, error=error)
        run.row(["tidy", game], 0, "#player1 A\n>A: AADEORW 8E WORD +16 16\n", error=error)
        run.row(["board", game], 0, None, error=error)
        run.row(["top", *pair, game, "A"], 0, None, error=error)
        run.row(["audit", *pair, game], 0, "legal unfinished\nA is ahead by 16\n", error=error)
        run.row(["repair", *pair, game], 0, "legal unfinished\n", error=error)
        run.row(["page", *pair, game, "out"], 0, "legal unfinished\n", error=error)
        run.row(["annotate", *pair, game, "out"], 0, "legal unfinished\n", error=error)
        for command in ("judge", "audit", "explain", "repair"):
            run.row([command, "--json", *pair, game], 0, None, error=error)
        run.row(["board", "--json", game], 0, None, error=error)
        run.row(["top", "--json", *pair, game, "A"], 0, None, error=error)
        run.row(["archive", *pair, game], 0, None, error="")
    run.row(["compare", *pair, "unread-kinds", "unread"], 0, None, error=f"{one}\n{kinds}")
    run.row(["explain", *pair, "unread"], 0, f"legal unfinished\nLine 2 is not read: it has no > in front.\n{STANDS}", error=one)
    told = "".join(f"Line {line} is not read: {why}.\n" for line, (_, why) in UNREAD.items())
    run.row(["explain", *pair, "unread-kinds"], 0, f"legal unfinished\n{told}{STANDS}", error=kinds)
    told = "".join(f"Line {line} is not read: it has no > in front.\n" for line in range(2, 12)) + "2 more lines are not read.\n"
    run.row(["explain", *pair, "unread-many"], 0, f"legal unfinished\n{told}{STANDS}", error=many)
    alone = "referee: unread-alone has no event: no line begins with >\nreferee: unread-alone: line 1 is not read: it has no > in front"
    run.row(["judge", *pair, "unread-alone"], 0, "legal unfinished\n", error=alone)
    run.row(["explain", *pair, "unread-alone"], 3, "no game\n", error=alone)
    objects(run, pair)
    faulty(run, pair)


def objects(run, pair):
    """The objects and the lines of an archive have the lines that are not read."""
    wanted = [{"line": line, "why": why} for line, (why, _) in UNREAD.items()]
    for command in (
        ["judge", "--json", *pair],
        ["audit", "--json", *pair],
        ["explain", "--json", *pair],
        ["repair", "--json", *pair],
        ["board", "--json"],
    ):
        ran = subprocess.run([run.program, *command, "unread-kinds"], cwd=run.folder, capture_output=True, check=False)
        told = json.loads(ran.stdout)
        run.expect(f"the lines that {command[0]} does not read", list(told)[-1] == "unread_lines" and told["unread_lines"] == wanted)
    run.row(["explain", "--json", *pair, "unread-alone"], 3, refusal("no game", unread_lines=[{"line": 1, "why": "no >"}]), error=None)
    line = "\t".join(told_of("unread-kinds", f"legal unfinished - - 1 A 16 - - 0 {len(UNREAD)}"))
    run.row(["archive", *pair, "unread-kinds"], 0, f"{line}\n")
    ran = subprocess.run([run.program, "archive", "--json", *pair, "unread-kinds"], cwd=run.folder, capture_output=True, check=False)
    run.expect("how many lines an archive does not read", list(json.loads(ran.stdout).items())[-1] == ("unread_lines", len(UNREAD)))


def faulty(run, pair):
    """Each line that begins with > and is not an event is named."""
    first = "The score +x is not a number of 1 to 6 digits, with or without a sign."
    code = (
        "8H is not an event: an event is a play with its position, word, score and total, "
        "or one of the codes -, --, -TILES, -NUMBER, (challenge), (time) and (TILES)."
    )
    bad = "bad record line 1: Number\n"
    word, last = "The word of the play is missing.", "AEINRST is not an event" + code.removeprefix("8H is not an event")
    lacks = "The score or the total is missing: an event ends with both."
    error = f"referee: bad-twice line 1: {first}\nreferee: bad-twice line 2: {code} {word}\nreferee: bad-twice line 5: {last} {lacks}"
    unread = "referee: bad-twice: line 3 is not read: it has no > in front"
    for command in ("judge", "audit", "repair"):
        run.row([command, *pair, "bad-twice"], 3, bad, error=f"{error}\n{unread}")
    told = f"{bad}line 1: >A: 8E WORD +x 16\n{first}\nline 2: >B: 8H +9 9\n{code}\n{word}\nline 5: >C: AEINRST - 0\n{last}\n{lacks}\n"
    run.row(["explain", *pair, "bad-twice"], 3, f"{told}Line 3 is not read: it has no > in front.\n", error=unread)
    marks = ">A is a third nickname: the players are A and B."
    run.row(
        ["judge", *pair, "two-marks"],
        3,
        "bad record line 3: ThirdPlayer\n",
        error=f"referee: two-marks line 3: {marks} The line begins with more than one >.",
    )
    run.row(["explain", *pair, "time-rack"], 1, None, error="")
    ran = subprocess.run([run.program, "explain", *pair, "time-rack"], cwd=run.folder, capture_output=True, check=False)
    sentence = b"(TIME) on line 2 is a last rack with the tiles T, I, M and E: a penalty is written (time).\n"
    run.expect("a last rack that is a penalty", ran.stdout.split(b"\n", 2)[2].startswith(sentence))


WHOLE = [{"name": "Legal"}, {"name": "Unlisted", "plays": []}, {"name": "RacksHidden", "number": 0, "limit": 1, "on_lines": []}]


def explained_in_json(run, told):
    """`explain --json`: facts, words and the board as values."""
    said = told(["explain", "--json", "word", "word.gad", "line-18"])
    keys = ["verdict", "line", "fault", "ending", "explained", "text", "facts", "play", "board", "unknown_since", "likely", "unread_lines"]
    run.expect("the keys of an explanation", list(said) == keys)
    run.expect("what is explained", [said["line"], said["explained"], said["text"]] == [1, 1, ">A: DORWAAE 8E WORD +18 18"])
    run.expect("a wrong score as a fact", said["facts"] == [{"name": "PlayScore", "right": 16, "written": 18}])
    word = said["play"]["words"][0]
    run.expect("a word and its sum", [word[key] for key in ("word", "listed", "sum", "factor", "score")] == ["WORD", True, 8, 2, 16])
    first = {"square": "8E", "tile": "W", "new": True, "points": 4, "premium": None, "factor": 1, "adds": 4}
    run.expect("a square of a word", word["squares"][0] == first and [it["adds"] for it in word["squares"]] == [4, 1, 1, 2])
    run.expect("the score of a play", [said["play"]["bonus"], said["play"]["score"]] == [None, 16])
    run.expect("the squares of a play", said["board"]["marked"] == ["8E", "8F", "8G", "8H"] and said["board"]["rows"][7] == "=..'...-...'..=")
    said = told(["explain", "--json", "word", "word.gad", "line-8d"])
    centre, spots = {"name": "MissesCentre"}, [{"square": square, "direction": "across"} for square in ("8E", "8F", "8G")]
    run.expect("other places as a fact", said["facts"] == [centre, {"name": "ElsewhereScore", "written": 16, "places": spots, "more_places": 5}])
    said = told(["explain", "--json", "word", "word.gad", "blanks"])
    lines = [{"line": 1, "player": 1, "number_shown": 2, "number_played": 0}, {"line": 2, "player": 2, "number_shown": 1, "number_played": 0}]
    short = {"name": "TilesShort", "tile": "?", "number": 3, "limit": 2, "on_board": 0, "on_racks": [2, 1], "lines": lines}
    run.expect("tiles that are short as a fact", said["facts"] == [short] and said["play"] is None)
    said = told(["explain", "--json", "word", "word.gad", "line"])
    run.expect("a legal record as a whole", [said["verdict"], said["explained"], said["facts"], said["board"]] == ["legal", None, WHOLE, None])
    run.expect("no likely repair of a legal record", said["likely"] is None)
    Path(run.folder, "nine").write_text(WORD.replace("8E", "9E"))
    said = told(["explain", "--json", "word", "word.gad", "nine"])["likely"]
    run.expect(
        "a likely repair",
        [said[key] for key in ("at", "line", "slip", "lines", "others")] == ["on", 1, "one square off", [">A: AADEORW 8E WORD +16 16"], []],
    )
    Path(run.folder, "passing").write_text(f"{WORD}>A: - +0 16\n")
    said = told(["repair", "--json", "word", "word.gad", "passing"])["repairs"][0]
    run.expect("a pass too many", [said[key] for key in ("at", "line", "slip", "lines", "weight", "cost")] == ["on", 2, "pass too many", [], 2, 2])
    run.expect("no likely repair of a line", told(["explain", "--json", "word", "word.gad", "nine", "1"])["likely"] is None)
    run.row(["explain", "--json", "word", "word.gad", "line", "9"], 3, refusal("bad line"))
    run.row(["explain", "--json", "word", "word.gad", "nothing"], 3, refusal("no game", unread_lines=[]), error="")
    run.row(["explain", "--json", "word", "word.gad", "third"], 3, refusal("bad record", 3, {"name": "ThirdPlayer"}))
    run.row(["explain", "--json", "digit", "folder", "line"], 3, refusal("bad word list", 2, {"name": "BadLetter"}))
    run.row(
        ["explain", "--json", "word", "word.gad", "nowhere"],
        4,
        refusal("cannot open", file="nowhere"),
        error="referee: cannot open nowhere: no such file",
    )


def on_drafts(run):
    """`explain --draft` and `board --draft`: what they say of the sheet that a draft makes, with its lines as they are in the draft."""
    run.row(["build", "word", "word.gad"], 0)
    bare, files, ahead = WORD.removesuffix(" +16 16\n"), ["word", "word.gad", "draft"], "A is ahead by 16\n"
    by_sheet = "A is ahead by 16; by the sheet A is ahead by 18\n"

    def score(line):
        return f"illegal line 1: WrongScore 16\nline 1: {line}\nThe play scores 16, but 18 is written.\n"

    sums, fits = WORD_SUMS + picture_of(1, True, WORD_MARKED), "With 16 the total is 16, as is written.\n"
    turn = (
        "illegal line 2: NotYourTurn\nline 2: >A: -\nIt is the other player's turn, not A's.\n"
        "If this is a line of the other player, the rules allow it.\n" + picture_of(2, False, ROW_OF_WORD)
    )
    total = (
        "illegal line 3: WrongTotal 16\nline 3: >A: - +0 18\nA had 16 and scores 0 on this line, which makes 16, but 18 is written.\n"
        + picture_of(3, False, ROW_OF_WORD)
    )
    not_judged = "illegal line 2: NotYourTurn\nline 3: >B: -\nThe rules do not allow line 2, so this line was not judged.\n" + picture_of(
        3, False, ROW_OF_WORD
    )
    for draft, status, out, line in [
        (bare, 0, f"legal unfinished\n{STANDS}", []),
        (WORD, 0, f"legal unfinished\n{STANDS}", []),
        (f"{bare} +18\n", 1, score(f"{bare} +18") + sums + ahead, []),
        (f"{bare} +18\n", 1, score(f"{bare} +18") + sums, ["1"]),
        # that the total is right is said only if it is written
        (f"{bare} +18 16\n", 1, score(f"{bare} +18 16") + fits + sums + ahead, []),
        (f"{bare}\n>A: -\n", 1, turn, []),
        (f"{bare}\n>A: -\n>B: -\n", 1, not_judged, ["3"]),
        (f"{bare}\n>B: -\n>A: - +0 18\n", 1, total + by_sheet, []),
        ("", 3, "no game\n", []),
        *[(text, 3, f"bad record line 1: Fields\n{why}\n", []) for text, why in AMISS.items()],
        (">A: -\n>B: - +0\n>C: -\n", 3, "bad record line 3: ThirdPlayer\n", []),
        ("\n" * 1_048_577, 3, "bad record: TooLong\n", []),
    ]:
        Path(run.folder, "draft").write_text(draft)
        more = {} if draft else {"error": "referee: draft has no event: it is empty"}
        run.row(["explain", "--draft", *files, *line], status, out, **more)
    after, laid = "after the last event", (ROW_OF_WORD, *WITHOUT_WORD)
    for draft, status, out, line in [
        (bare, 0, board_of(after, "A 16\n 0\n", *laid), []),
        (WORD, 0, board_of(after, "A 16\n 0\n", *laid), []),
        (bare, 0, board_of("before line 1", "A 0\n 0\nrack AADEORW\n"), ["--before", "1"]),
        (bare, 3, "bad line: no event is on it or after it\n", ["--before", "2"]),
        (f"{bare} +18\n", 0, board_of(after, "A 16\n 0\n", *laid), []),
        (f"{bare} +18 18\n>B: -\n", 0, board_of(after, "A 18\nB 0\n", *laid), []),
        (f"{bare}\n>B: -\n>A: -\n", 0, board_of(after, "A 16\nB 0\n", *laid), []),
        # no number is put in from a line on that the rules refuse, or that has a challenge
        (f"{bare}\n>A: -\n>A: -\n>B: - +0 7\n>B: -\n", 0, board_of(after, "A 16\nB 7\n", *laid), []),
        (f"{bare}\n>A: (challenge) +5\n>B: -\n", 0, board_of(after, "A 16\nB 0\n", *laid), []),
        (f"{bare}\n>A: (challenge) +5 21\n>B: -\n>A: -\n", 0, board_of(after, "A 21\nB 0\n", *laid), []),
        *[(text, 3, f"bad record line 1: Fields\n{why}\n", []) for text, why in AMISS.items()],
    ]:
        Path(run.folder, "draft").write_text(draft)
        run.row(["board", "--draft", *line, "draft"], status, out, error="")
        run.row(["board", "--draft", "--rules", "english.rules", *line, "draft"], status, out, error="")
    run.row(["board", "--draft", "nothing"], 0, board_of(after, " 0\n 0\n"), error=NO_EVENT["nothing"])
    run.row(["board", "--draft", "--rules", "tiles.rules", "draft"], 3, "bad rules line 1: Unknown\n")
    run.row(["board", "--draft", "nowhere"], 4, error="referee: cannot open nowhere: no such file")
    for words in (["explain", "--draft", "word", "word.gad"], ["board", "--draft"], ["judge", "--draft", *files], ["audit", "--draft", *files]):
        run.row(words, 64, error=None)
    on_drafts_in_json(run, bare, files)
    drafts_repaired(run, files)
    drafts_compared(run, bare)


def drafts_repaired(run, files):
    """`repair --draft`: a number that is missing is neither right nor wrong, and the sheet that is written has every number."""
    no_score, passed = WORD.replace(" +16 16", " +18"), WORD.replace(" +16 16", "") + ">A: -\n>A: - +0 16\n"
    alone = "illegal line 1: WrongScore 16\nnumbers to go by: 1 of 2, the others are missing\nwith only the numbers corrected it is a game\n"
    too_many = "line 1: it should not be there\n  0 of 0 numbers right\n"
    both = alone + "  0 of 1 numbers right\n  line 1: score 18, should be 16\n" + too_many
    other = "illegal line 4: NotYourTurn\nnumbers to go by: 2 of 6, the others are missing\nline 4: B's line, not A's\n  2 of 2 numbers right\n"
    named = "#player1 A\n#player2 B\n"
    for draft, status, out, kept in [
        (WORD.replace(" +16 16", ""), 0, "legal unfinished\n", "not written: there is nothing to repair\n"),
        (WORD, 0, "legal unfinished\n", None),
        (no_score, 1, both, "not written: correcting only the numbers is as likely as the first repair, or nearly so\n"),
        (named + passed, 1, other, named + WORD + ">B: - +0 0\n>A: - +0 16\n"),
        *[(text, 3, f"bad record line 1: Fields\n{why}\n", None) for text, why in AMISS.items()],
    ]:
        Path(run.folder, "draft").write_text(draft)
        run.row(["repair", "--draft", *files], status, out)
        Path(run.folder, "out").write_bytes(b"as it was")
        if kept and kept.startswith("not written"):
            run.row(["repair", "--draft", "--repaired", "out", *files], status, out + kept, wrote=b"as it was")
        elif kept:
            run.row(
                ["repair", "--draft", "--repaired", "out", *files], status, out + "written: the sheet with the first repair\n", wrote=kept.encode()
            )
    Path(run.folder, "draft").write_text(no_score)
    said = json.loads(subprocess.run([run.program, "repair", "--json", "--draft", *files], cwd=run.folder, capture_output=True, check=False).stdout)
    told = {"numbers": 1, "numbers_right": 0, "wrong": [{"wrong": "score", "line": 1, "written": 18, "right": 16}], "unlisted": []}
    run.expect(
        "the numbers of a draft to go by", [said["to_go_by"], said["numbers_alone"], said["repairs"][0]["evidence"]["numbers"]] == [1, told, 0]
    )
    served = subprocess.run(
        [run.program, "serve", *files[:2]],
        cwd=run.folder,
        input=json.dumps({"do": "repair", "draft": True, "game": no_score}).encode(),
        capture_output=True,
        check=False,
    )
    run.expect("a draft is repaired for a request", json.loads(served.stdout.split(b"\n")[1]) == {"id": None, "status": 1, "answer": said})
    Path(run.folder, "draft").write_text(WORD)
    said = json.loads(subprocess.run([run.program, "repair", "--json", *files], cwd=run.folder, capture_output=True, check=False).stdout)
    run.expect("nothing is said of numbers to go by of a record", "to_go_by" not in said)


def drafts_compared(run, bare):
    """`compare --draft`: what one sheet lacks is no difference, and what only one has counts for itself."""
    told, legal = ["compare", "--draft", "word", "word.gad"], "legal unfinished\n"
    ahead, merged = legal + "A is ahead by 16\n", "#player1 A\n" + WORD.replace("DORWAAE", "AADEORW")
    refused = "the first; with the second, line 1 | line 1 is refused: MissesCentre\n" + ahead
    stuck = "none of 2 choices of the lines is known to be a game\nfirst goes furthest: line 1 | line 1 is refused: MissesCentre\n"
    both = "both stand\n1 other choice of the lines would stand as well\n"
    no_game, rival = "not written: no choice of the lines is known to be a game\n", "not written: another choice of the lines would stand as well\n"
    done, no_play = "written: the merged record\n", "#player1 A\n>A: AADEORW - +0 0\n"
    for first, second, status, out, kept in [
        (bare, bare, 0, ahead, merged),
        (bare, WORD, 0, ahead, merged),
        (WORD, bare, 0, ahead, merged),
        (WORD, WORD, 0, ahead, merged),
        (
            f"{bare} +18 18\n",
            bare,
            1,
            legal + "total of A: 18 | none: the rules give 16\nA is ahead by 16; by the first sheet A is ahead by 18\n",
            merged,
        ),
        (f"{bare} +18\n", bare, 1, ahead, merged),
        (f"{bare} +16\n", f"{bare} +18\n", 1, f"line 1 | line 1: 8E WORD +16 | 8E WORD +18: the rules give 16\n{ahead}", merged),
        (bare, bare.replace("8E", "8D"), 1, f"line 1 | line 1: 8E WORD | 8D WORD: {refused}", merged),
        (WORD, bare.replace("8E", "8D"), 1, f"line 1 | line 1: 8E WORD +16 16 | 8D WORD: {refused}", merged),
        # a number that only one sheet has says which line it was
        (bare, ">A: -\n", 1, f"line 1 | line 1: 8E WORD | -: {both}{ahead}", rival),
        (
            bare,
            ">A: - +0\n",
            1,
            f"line 1 | line 1: 8E WORD | - +0: the second; the first leaves more wrong\n{legal}both have the same total\n",
            no_play,
        ),
        # no change is looked for where a number is missing
        (bare.replace("8E", "8D"), bare.replace("8E", "8C"), 1, f"line 1 | line 1: 8D WORD | 8C WORD\n{stuck}", no_game),
        (
            WORD.replace("8E", "8D"),
            WORD.replace("8E", "8C"),
            1,
            f"line 1 | line 1: 8D WORD +16 16 | 8C WORD +16 16\n{stuck}first is a game with one more change: line 1: WORD at 8E, not at 8D\n{ahead}",
            merged,
        ),
    ]:
        Path(run.folder, "one").write_text(first)
        Path(run.folder, "two").write_text(second)
        run.row([*told, "one", "two"], status, out)
        Path(run.folder, "out").write_bytes(b"as it was")
        written = kept.startswith("#")
        run.row(
            [told[0], "--merged", "out", *told[1:], "one", "two"],
            status,
            out + (done if written else kept),
            wrote=kept.encode() if written else b"as it was",
        )
    for text, why in AMISS.items():
        Path(run.folder, "one").write_text(text)
        for sheets in (["one", "line"], ["line", "one"]):
            run.row([*told, *sheets], 3, f"bad record line 1: Fields\n{why}\n", error="")
    for sheets in (["nothing", "line"], ["line", "nothing"]):
        run.row([*told, *sheets], 3, "no game\n", error=NO_EVENT["nothing"])
    Path(run.folder, "one").write_text(f"{bare} +18\n")
    Path(run.folder, "two").write_text(bare)
    ran = subprocess.run([run.program, told[0], "--json", *told[1:], "one", "two"], cwd=run.folder, capture_output=True, check=False)
    said, best = json.loads(ran.stdout), {"choice": {"lines": [], "racks": []}, "cost": 5, "unlisted": 0}
    totals = [{"player": 1, "first": None, "second": None, "right": 16}, {"player": 2, "first": None, "second": None, "right": None}]
    wanted = comparison("differ", [], merged=merged, totals=totals, ahead_by_first=None, ahead_by_second=None) | {"best": best}
    run.expect(f"drafts are compared: {said}", ran.returncode == 1 and said == wanted and list(said) == list(wanted))
    asked = {"do": "compare", "draft": True, "first": f"{bare} +18\n", "second": bare}
    served = subprocess.run([run.program, "serve", *told[2:]], cwd=run.folder, input=json.dumps(asked).encode(), capture_output=True, check=False)
    run.expect("drafts are compared for a request", json.loads(served.stdout.split(b"\n")[1]) == {"id": None, "status": 1, "answer": said})


def on_drafts_in_json(run, bare, files):
    """The same as objects, and as answers to requests: the line that is explained is that of the draft."""

    def told(words, asked, status):
        ran = subprocess.run([run.program, *words], cwd=run.folder, capture_output=True, check=False)
        run.expect(f"the status of {words}", ran.returncode == status)
        served = subprocess.run(
            [run.program, "serve", "word", "word.gad"], cwd=run.folder, input=json.dumps(asked).encode(), capture_output=True, check=False
        )
        said = json.loads(served.stdout.split(b"\n")[1])
        run.expect(f"{asked} is answered with {said}", said == {"id": None, "status": status, "answer": json.loads(ran.stdout)})
        return json.loads(ran.stdout)

    Path(run.folder, "draft").write_text(f"{bare} +18\n")
    said = told(["explain", "--json", "--draft", *files], {"do": "explain", "draft": True, "game": f"{bare} +18\n"}, 1)
    run.expect("the line of a draft", [said["text"], said["fault"], said["likely"]] == [f"{bare} +18", {"name": "WrongScore", "expected": 16}, None])
    run.expect("no fact of a missing total", said["facts"] == [{"name": "PlayScore", "right": 16, "written": 18}])
    said = told(["board", "--json", "--draft", "draft"], {"do": "board", "draft": True, "game": f"{bare} +18\n"}, 0)
    run.expect("the totals of a board of a draft", [it["total"] for it in said["players"]] == [16, 0])
    for text, name in ((">A: 8E\n", "no word"), (">A: AB\n", "no event"), (">A: (challenge)\n", "no score"), (">A: - 1 2 3\n", "too many")):
        Path(run.folder, "draft").write_text(text)
        for do, words in (("explain", files), ("board", ["draft"])):
            said = told([do, "--json", "--draft", *words], {"do": do, "draft": True, "game": text}, 3)
            run.expect(
                "a text that is no draft", json.dumps(said, separators=(",", ":")) + "\n" == refusal("bad record", 1, {"name": "Fields"}, amiss=name)
            )


def helped(run):
    """Help and the version, on standard output. The text of help is not fixed, but there is some."""
    run.row(["--version"], 0, "referee 1.2.0\nrecords: GCG\nword lists: one word a line\nlexicons: GAD1, GAD2\n")
    run.row(["-V"], 0, "referee 1.2.0\n")
    run.row(["rules"], 0, ENGLISH_RULES)
    for words in (["help"], ["--help"], ["-h"], ["judge", "--help"], ["judge", "-h"], ["help", "help"]):
        run.row(words, 0, None)
    for command in (
        "judge",
        "archive",
        "audit",
        "fill",
        "explain",
        "repair",
        "page",
        "board",
        "build",
        "check",
        "word",
        "convert",
        "top",
        "tidy",
        "serve",
        "rules",
    ):
        run.row(["help", command], 0, None)
        run.row([command, "--help"], 0, None)
    if os.path.exists("/dev/full"):
        for words in (["--version"], ["help"], ["help", "judge"], ["rules"]):
            run.row(words, 4, error="referee: write failed: standard output: no space left, error 28 of the system", stdout="/dev/full")


def misused(run):
    """Status 64: no request. The text is not fixed, but there is some, and nothing on standard output."""
    for words in ([], ["top"], ["Judge", "at", "at.gad", "line"], ["help", "version"], ["version"], ["judge", "--version"], ["-v"]):
        run.row(words, 64, error=None)
    for words in ([], ["--names"], ["--names", "names", "line"], ["--progress", "--quiet", "line"], ["--loud", "line"], ["--json", "--json", "line"]):
        run.row(["archive", "word", "word.gad", *words], 64, error=None)
    run.row(["archive", "word"], 64, error=None)
    run.row(["archive", "--settle", "word", "word.gad", "line"], 64, error=None)
    for command, count in [
        ("judge", 3),
        ("build", 2),
        ("check", 2),
        ("convert", 3),
        ("top", 4),
        ("tidy", 1),
        ("board", 1),
        ("audit", 3),
        ("page", 4),
    ]:
        for names in range(count):
            run.row([command, *["at"] * names], 64, error=None)
        run.row([command, *["at"] * (count + 1)], 64, error=None)
    for names in range(3):
        run.row(["explain", *["at"] * names], 64, error=None)
    run.row(["rules", "at"], 64, error=None)
    run.row(["tidy", b"\xff\xfe"], 64, error=None)
    run.row(["tidy", "--loud", "line"], 64, error=None)


def main():
    with tempfile.TemporaryDirectory() as folder:
        files(folder)
        run = Runner(os.path.abspath(sys.argv[1]), folder)
        for part in (
            judged,
            settled,
            built_and_checked,
            converted,
            topped,
            topped_before,
            ruled,
            tidied,
            boarded,
            widest,
            from_standard_input,
            fielded,
            skipped,
            words_ruled,
            archived,
            served,
            audited,
            filled,
            on_drafts,
            repairs_listed,
            left_open,
            compared,
            choices_left_open,
            explained,
            explain_rows,
            paged,
            annotated,
            kept_bests,
            counted_points,
            on_a_terminal,
            in_json,
            lines_unread,
            put_out,
            overwritten,
            hinted,
            misordered,
            broken,
            helped,
            misused,
        ):
            part(run)
        if sys.argv[2:] == ["large"]:
            converted_large(run)
    print(f"{run.rows} command lines, {run.failures} not as they have to be")
    sys.exit(run.failures > 0)


main()
