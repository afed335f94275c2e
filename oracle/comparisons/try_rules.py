"""Tries the second reading of rules texts on worked rows, on random rules, and on games by them: try_rules CASES SEED

Each text of random rules has to mean these; and of a game that was dealt for real by them no event may be refused, the deal has
to fit and no bound may refuse it.
"""
import random
import sys
from collections import Counter
from dataclasses import replace

from answers import judged, topped
from dealing import Dealer
from deals import course, decide, fits
from lexicons import build
from rules import ENGLISH
from rules_texts import Fault, read, text_of
from ruling import another_text, damaged_text, random_rules

PARAMETERS = b"bonus 50\nexchange_min 7\nzero_limit 6\nchallenge_unit 5\ntime_step 5\n"
# Lines of the English rules by hand.
LINES = [b"tile A 9 1", b"tile Z 1 10", b"tile ? 2 0", b"row 1 T..d...T...d..T", b"row 8 T..d...D...d..T", b"row 9 ..d...d.d...d.."]
TEXT = text_of(ENGLISH)
TWO_SETS = text_of(replace(ENGLISH, tiles=Counter({kind: 2 * count for kind, count in ENGLISH.tiles.items()})))
FOURTEEN = text_of(replace(ENGLISH, tiles=Counter("AADEEINORRSTTW")))
NAMED = TEXT.replace(b"tile A 9 1\n", b"")
LONG = TEXT + b"#" * (65_536 - len(TEXT))

# Texts, and the line of their first fault, None where they mean the English rules; by hand.
ROWS = [
    (TEXT, None),
    (TEXT[:-1], None),
    (b"\xef\xbb\xbf" + TEXT, None),
    (TEXT.replace(b"\n", b" \t\r\n"), None),
    (TEXT.replace(b" ", b"\t "), None),
    (b"# English\n\n \t\n" + TEXT, None),
    (TEXT.replace(b"row 8 ", b"row 08 ").replace(b"tile A 9 1", b" tile A 009 01"), None),
    (TEXT.replace(b"tile ? 2 0", b"tile ? 2 000"), None),
    (LONG, None),
    (LONG + b"#", "bad rules: TooLong"),
    (b"x\n" * 32_769, "bad rules: TooLong"),
    (b"", "bad rules: Missing"),
    (TEXT.replace(b"row 8 T..d...D...d..T\n", b""), "bad rules: Missing"),
    (b"tile ? 2 1\n" + TEXT, "bad rules line 1: Number"),
    (TEXT + b"bonus 50", "bad rules line 48: Twice"),
    (TEXT + b"row 01 T..d...T...d..T", "bad rules line 48: Twice"),
    (TEXT + b"tile A 9 1", "bad rules line 48: Twice"),
    (b"tiles A 9 1\n", "bad rules line 1: Unknown"),
    (b" # remark\n" + TEXT, "bad rules line 1: Unknown"),
    (b"\r\r\n" + TEXT, "bad rules line 1: Unknown"),
    (b"Bonus\n" + TEXT, "bad rules line 1: Unknown"),
    (b"tile AA x\n" + TEXT, "bad rules line 1: Fields"),
    (b"tile A 9 1 # many\n", "bad rules line 1: Fields"),
    (b"bonus\n", "bad rules line 1: Fields"),
    (b"row 16\n", "bad rules line 1: Fields"),
    (b"tile a 9 x\n", "bad rules line 1: Name"),
    (b"tile AA 9 1\n", "bad rules line 1: Name"),
    (b"row 0 T..d...T...d..T\n", "bad rules line 1: Name"),
    (b"row 16 T..d...T...d..T\n", "bad rules line 1: Name"),
    (b"row 008 T..d...T...d..T\n", "bad rules line 1: Name"),
    (b"row 1 T..d...T...d..\n", "bad rules line 1: Name"),
    (b"row 1 T..d...T...d..x\n", "bad rules line 1: Name"),
    (b"tile A 1000 1\n", "bad rules line 1: Number"),
    (b"tile A 9 -1\n", "bad rules line 1: Number"),
    (b"bonus +50\n", "bad rules line 1: Number"),
    (b"bonus 0050\n", "bad rules line 1: Number"),
    (b"bonus 50\nbonus x\n", "bad rules line 2: Number"),
    (b"bonus 50\nbonus 50\nnothing\n", "bad rules line 2: Twice"),
    (NAMED + b"tile A 999 999\n", "bad rules: Limits"),
    (NAMED + b"tile A 109 1\n", None),  # 200 tiles, of which no row says that they are English: see below
    (NAMED + b"tile A 110 1\n", "bad rules: Limits"),
    (NAMED + b"tile A 9 100\n", "bad rules: Limits"),
    (TEXT.replace(b"time_step 5", b"time_step 0"), "bad rules: Limits"),
    (TEXT.replace(b"zero_limit 6", b"zero_limit 100"), "bad rules: Limits"),
    (TEXT.replace(b"zero_limit 6\n", b"").replace(b"A 9 1", b"A 999 1"), "bad rules: Missing"),
    (FOURTEEN.replace(b"tile A 2 1", b"tile A 1 1"), "bad rules: Limits"),
    (TWO_SETS.replace(b"tile A 18 1", b"tile A 19 1"), "bad rules: Limits"),
]
BLANKS = b">A: ?? - +0 0\n>B: ? - +0 0\n"
OUT = b">A: AEINRST 8D RETAINS +66 66\n>A: (ADEORTW) +22 88\n"
# Games by a rules text: the text, the list, the record, and the report; by hand.
GAMES = [
    (TWO_SETS, "AT", BLANKS, b"legal unfinished\n1 A - +0 0 best -\n2 B - +0 0 best -\n"),
    (TWO_SETS, "AT", BLANKS.replace(b": ? ", b": ??? "), b"illegal line 2: TilesShort ?\n"),
    (TEXT, "AT", BLANKS, b"illegal line 2: TilesShort ?\n"),
    (TEXT, "WORD", b">A: DORWAAE 8E WORD +16 16\n", b"legal unfinished\n1 A 8E WORD +16 16 best 8E WORD 16\n"),
    (FOURTEEN, "RETAINS", OUT, b"legal complete\n1 A 8D RETAINS +66 66 best 8B RETAINS 66\n2 A (ADEORTW) +22 88\n"),
    (FOURTEEN, "RETAINS", OUT.replace(b"W) +22 88", b"T) +16 82"), b"illegal line 2: TilesShort T\n"),
]


def fault_of(text):
    """The line of the first fault of a text, None where it has none."""
    try:
        read(text)
    except Fault as fault:
        return fault.text().decode().strip()
    return None


def rows():
    """The worked rows."""
    english = TEXT.splitlines()
    assert len(english) == 47 and all(line in english for line in LINES) and TEXT.endswith(PARAMETERS)
    for text, wanted in ROWS:
        told = fault_of(text)
        assert told == wanted, (text, told, wanted)
        assert wanted or read(text) == ENGLISH or b"A 109 1" in text, text
    for text, words, game, wanted in GAMES:
        listed = set(words.split())
        told = judged("\n".join(listed).encode(), build(listed), game, text)
        assert told == wanted, (text, game, told, wanted)
    told = topped(b"AT", build({"AT"}), b"", "?A", TEXT)
    assert told == b"8G At 2\n8H At 2\nH7 At 2\nH8 At 2\n", told
    assert topped(b"A", b"", b"", "A1", b"x") == b"bad rack\n"
    assert topped(b"A", b"", b"", "A", b"x") == b"bad rules line 1: Unknown\n"
    print(f"{len(ROWS)} rules texts and {len(GAMES)} games by them, by hand")


def texts(cases):
    """Random rules and their texts, and how often damaged ones have which fault."""
    seen = Counter()
    for _ in range(cases):
        rules = random_rules()
        assert read(another_text(rules)) == rules == read(text_of(rules)), rules
        try:
            read(damaged_text(rules))
            seen["none"] += 1
        except Fault as fault:
            seen[fault.why] += 1
    print(f"{cases} rules; damaged: {', '.join(f'{why} {times}' for why, times in sorted(seen.items()))}")


def dealt(cases):
    """Games that were dealt for real by random rules."""
    seen = Counter()
    for _ in range(cases):
        rules = random_rules()
        events, deal, listed = Dealer(rules, random.choice([4, 12, 40]), random.choice([(), ("known",), ("unknown",)])).game()
        verdict = decide(events, listed, rules)[0]
        assert verdict.startswith("legal") or (verdict == "unsettled\n" and any(it.kind in ("exchange", "unknown") for it in events))
        assert fits(course(events, listed, rules), rules.tiles, deal), (rules, events)
        seen[verdict.strip()] += 1
        seen["seven tiles"] += any(it.kind == "play" and len(it.word.replace(".", "")) == 7 for it in events)
    print(f"{cases} games by them: {', '.join(f'{what} {times}' for what, times in sorted(seen.items()))}")


if __name__ == "__main__":
    rows()
    random.seed(int(sys.argv[2]))
    texts(int(sys.argv[1]))
    dealt(int(sys.argv[1]) // 4)
