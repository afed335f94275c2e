"""Holds the sentences that docs/FAULTS.md shows against what `explain` prints: sentences PROGRAM

Each row of the table under "What `explain` says" has a fault and what is said of its example. A record of that fault is made here, and the program
has to print the fault and, after the line, the sentences. Every fault of the tables for records, rules and racks has to have a row.
"""
import re
import subprocess
import sys
import tempfile
from collections import Counter
from dataclasses import replace
from pathlib import Path

from lexicons import build
from rules import ENGLISH
from rules_texts import text_of

ROOT = Path(__file__).resolve().parents[2]
PAGE = ROOT / "docs" / "FAULTS.md"
TABLES = ("Faults of a record", "Faults of the rules", "Racks that cannot be dealt")
WORD, WORDS = ">A: 8E WORD +16 16\n", "AT DT RA WORD"
ON_WORD, IDLE = WORD + ">B: 9G AT +9 9\n", "".join(f">{'AB'[k % 2]}: - +0 0\n" for k in range(5))
GAME = (ROOT / "examples" / "game.gcg").read_text()
# Three tiles are in the bag, and an exchange is allowed with them.
SPARE = replace(ENGLISH, tiles=Counter("AADEEINOOOORRSTTW"), exchange_min=3)


def before(line):
    """The example game before a line."""
    return GAME[: GAME.index(line)]


# The records of each fault: the words of the list, None for those of examples/, and the rules, where they are not the English ones.
RECORDS = {
    "TooLong": [("\n" * 1_048_577, WORDS)],
    "TooManyEvents": [(">A: - +0 0\n" * 1_001, WORDS)],
    "NoColon": [(">Ann Lee: 8E WORD +16 16\n", WORDS)],
    "ThirdPlayer": [
        ("#player1 Ann\n#player2 Ann\n", WORDS),
        (">A: - +0 0\n>B: - +0 0\n>C: - +0 0\n", WORDS),
        (">A: - +0 0\n>B: - +0 0\n>>A: - +0 0\n", WORDS),
    ],
    "Fields": [(">Ann: 8E\n", WORDS), (">Ann: AEINRST 8D RETAINS +66 66 a bingo\n", WORDS)],
    "Rack": [(">Ann: AEINRSTU - +0 0\n", WORDS)],
    "Position": [(">Ann: 16A AT +4 4\n", WORDS)],
    "Word": [(">Ann: 8E W0RD +16 16\n", WORDS)],
    "Code": [(f">Ann: {code}\n", WORDS) for code in ("-8 +0 0", "AEINRST 8D +66 66", "AEINRST RETAINS +66 66", "(i) +2 2")],
    "Number": [(">Ann: - +1234567 0\n", WORDS), (">Ann: - +0 1,234\n", WORDS)],
    "NotYourTurn": [
        (WORD + ">B: - +0 0\n>B: - +0 0\n", WORDS),
        (before(">Bob: (RR)") + ">Ann: (RR) +4 331\n", None),
        (WORD + ">A: - +0 16\n>B: 9G AT +9 9\n", WORDS),
        (WORD + ">A: - +0 16\n>B: - +0 9\n", WORDS),
        (WORD + ">A: - +0 16\n>B: 9G AT +9 9\n>A: - +0 17\n", WORDS),
        (WORD + ">A: 9G AT +9 9\n>A: - +0 16\n>B: - +0 9\n", WORDS),
    ],
    "OffBoard": [(">A: 8N ABC +0 0\n", WORDS)],
    "Mismatch": [(WORD + ">B: 8D QUA +0 0\n", WORDS), (">A: 8E WO.D +16 16\n", WORDS)],
    "NoNewTile": [(WORD + ">B: 8E .... +0 0\n", WORDS)],
    "TooManyTiles": [(WORD + ">B: 1A ABCDEFGH +0 0\n", WORDS)],
    "NotWhole": [(WORD + ">B: 8D S +0 0\n", WORDS)],
    "MissesCentre": [(">A: 8D WORD +16 16\n", WORDS)],
    "TooShort": [(">A: 8H A +0 0\n", WORDS)],
    "Apart": [(WORD + ">B: 1A AT +0 0\n", WORDS)],
    "TooManyUsed": [(before(">Bob: IV E1") + ">Bob: J1 VIA +0 0\n", None)],
    "WrongScore": [
        (">A: 8E WORD +18 18\n", WORDS),
        (WORD + ">B: 9F AT +9 9\n", WORDS),
        (WORD + ">B: 9F AT +9 8\n", WORDS),
        (">A: 8E WORD +8 8\n", WORDS),
        (">A: 8E wORD +16 16\n", WORDS),
        (">A: AADEORW 8E XORD +16 16\n", WORDS),
    ],
    "WrongTotal": [(">A: 8E WORD +16 17\n", WORDS), (WORD + ">B: - +0 0\n>A: - +0 0\n", WORDS)],
    "NothingToWithdraw": [(">A: -- +0 0\n", WORDS), (WORD + ">B: -- -16 -16\n", WORDS)],
    "WithdrawnValid": [(ON_WORD + ">B: -- -9 0\n", WORDS)],
    "BonusOnPhony": [(WORD + ">A: (challenge) +5 21\n", "AT")],
    "BadBonus": [(">A: (challenge) +5 5\n", WORDS), (ON_WORD + ">B: (challenge) +20 29\n", WORDS)],
    "ExchangeRefused": [(before(">Bob: IIOOV J12") + ">Bob: -IV +0 327\n", None)],
    "ExchangeSize": [(">A: -5 +0 0\n", WORDS, SPARE)],
    "GameOver": [(GAME + ">Ann: - +0 322\n", None), (before(">Bob: (RR)") + ">Ann: - +0 327\n>Ann: - +0 327\n", None)],
    "NotOver": [(IDLE + ">B: AEINRST (AEINRST) -7 -7\n", WORDS)],
    "LastRackSize": [(before(">Bob: (RR)") + ">Bob: (R) +2 354\n", None)],
    "BadTime": [(">A: (time) -7 -7\n", WORDS), (">A: (time) -5 -5\n>B: - +0 0\n>A: (time) -5 -10\n", WORDS)],
    "RackTooBig": [(">A: AEINRST 8H AT +4 4\n>B: - +0 0\n>A: AAABCDE - +0 4\n", WORDS), (">A: AADEORW 8E XORD +24 24\n", WORDS)],
    "NoDeal": [(">A: AEINRST -1 +0 0\n>B: - +0 0\n>A: BCDFGHJ - +0 0\n", WORDS), (">A: Q -Q +0 0\n>B: - +0 0\n>A: Q -Q +0 0\n", WORDS)],
    "TilesShort": [(">A: ?? - +0 0\n>B: ? - +0 0\n", WORDS)],
}


def rows_of(title):
    """The rows of the table of a section of the page."""
    part = PAGE.read_text().split(f"\n## {title}\n")[1].split("\n## ")[0]
    table = re.search(r"(?:^\|.*\n)+", part, re.M)[0].splitlines()[2:]
    return [[cell.strip() for cell in line.strip("|").split("|")] for line in table]


def explained(program, game, words, rules=ENGLISH):
    """What the program prints of a record."""
    words = words or (ROOT / "examples" / "words.txt").read_text().upper()
    with tempfile.TemporaryDirectory() as folder:
        inputs = {"words": "\n".join(words.split()).encode(), "lexicon": build(set(words.split())), "game": game.encode(), "rules": text_of(rules)}
        for name, data in inputs.items():
            Path(folder, name).write_bytes(data)
        ran = subprocess.run(
            [program, "explain", "--rules", "rules", "words", "lexicon", "game"], cwd=folder, capture_output=True, check=False, timeout=600
        )
        return ran.stdout.decode()


def main():
    program, faults, tried = str(Path(sys.argv[1]).resolve()), [], 0
    said = {}
    for fault, sentences in rows_of("What `explain` says"):
        said.setdefault(fault, []).append(sentences.replace("<br>", "\n"))
    named = {row[0].split(" ")[0] for title in TABLES for row in rows_of(title)}
    if named != set(said) or named != set(RECORDS):
        faults.append(f"faults without a row or a record: {sorted(named ^ set(said) | named ^ set(RECORDS))}")
    for fault in sorted(named & set(said) & set(RECORDS)):
        told = [explained(program, *record) for record in RECORDS[fault]]
        for sentences in said[fault]:
            tried += 1
            if not any(re.match(rf".*: {fault}\b", text) and f"\n{sentences}\n" in text for text in told):
                faults.append(f"{fault}: {sentences!r} is not in {told}")
    for fault in faults:
        print(fault)
    print(f"{tried} sentences of docs/FAULTS.md, {len(faults)} not as they have to be")
    sys.exit(bool(faults))


if __name__ == "__main__":
    main()
