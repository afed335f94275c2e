"""Checks the second judge's repairs on records that were made by hand and whose first repair is known: repair_rows CASES SEED

Then as many random games as CASES says, with and without a wrong rack: they must be refused at the line whose bound `deals.py` finds exceeded.
"""
import random
import sys
from collections import Counter
from dataclasses import replace

from compare_changes import line_of
from dealing import Dealer, spoiled
from deals import bound, course, events_of
from games import go_through
from pairs import pairs
from repair_texts import repair_text
from repairs import Front, lines, repairs
from rules import ENGLISH

SMALL = replace(ENGLISH, tiles=Counter("AADEEINORRSTTW"))
WORDS = "WORD AT RA DT EAT OE"
WORD, AT, EAT = ">A: AADEORW 8E WORD +16 16\n", ">B: AT 9G AT +9 9\n", ">A: E 9F E.. +5 21\n"
RETAINS, REST = ">A: AEINRST 8D RETAINS +66 66\n", ">A: (ADEORTW) +22 88\n"
ZA = ">A: AEINRSZ 8G ZA +22 22\n"
THREE_PLAYS = replace(ENGLISH, tiles=Counter("AAADEEINORRSTTTW"))
DOWN, SAT_OUT = ">B: ADEORTW D6 WO.D +8 8\n", ">A: AT J8 .AT +5 71\n>A: (AERT) +8 79\n"

# Records with one slip: the rules, the words, the record, and of the first repair the cost, the line and what it puts there.
ROWS = [
    (ENGLISH, WORDS, WORD + ">B: AT 9H AT +9 9\n" + EAT, 2, 2, AT),
    (ENGLISH, WORDS, ">A: AADEORW E8 WORD +16 16\n" + AT + EAT, 2, 1, WORD),
    (ENGLISH, WORDS, ">A: AADEOW? 8E WORD +14 14\n>B: AT 9G AT +8 8\n", 2, 1, ">A: AADEOW? 8E WOrD +14 14\n"),
    (ENGLISH, WORDS, WORD + AT + ">A: E 9F E. +5 21\n", 2, 3, EAT),
    (ENGLISH, WORDS, WORD + AT + ">A: E 9F EET +5 21\n", 2, 3, ">A: E 9F E.T +5 21\n"),
    (ENGLISH, WORDS, WORD + ">A: AT 9G AT +9 25\n", 2, 2, ">B: - +0 0\n"),
    (ENGLISH, WORDS, WORD + AT + AT + EAT, 1, 3, ""),
    (ENGLISH, WORDS, WORD + EAT + AT, 2, 2, AT + EAT),
    (ENGLISH, WORDS, WORD + ">A: AT 9G AT +9 9\n" + EAT, 2, 2, AT),
    (ENGLISH, "AT", WORD + ">A: - -16 0\n>B: AT 8G AT +4 4\n", 2, 2, ">A: -- -16 0\n"),
    (ENGLISH, WORDS, WORD + AT + ">B: (challenge) +40 14\n", 2, 3, ">B: (challenge) +5 14\n"),
    (ENGLISH, WORDS, WORD + AT + ">A: E 9F E.. +5 26\n", 3, 2, ">A: (challenge) +5 21\n"),
    (ENGLISH, WORDS, WORD + AT + ">A: - +0 16\n" + EAT, 2, 3, ""),
    (ENGLISH, WORDS, ">A: AABCDDT -AAX +0 0\n", 2, 1, ">A: AABCDDT -AA +0 0\n"),
    (ENGLISH, WORDS, ">A: AABCDDT -X +0 0\n", 3, 1, ">A: AABCDDT -A +0 0\n"),
    (ENGLISH, WORDS, ">A: AADEXRW 8E WXRD +16 16\n" + AT + EAT, 4, 1, WORD),
    (ENGLISH, "ZA", ZA + ">B: AABCDDZ -AZ +0 0\n>A: - +0 22\n", 4, 2, ">B: AAABCDD -AA +0 0\n"),
    (ENGLISH, "RETAINS", ">A: AEINRSS 8D RETAINS +66 66\n", 3, 1, RETAINS),
    (SMALL, "RETAINS", RETAINS + ">A: (ADEORTT) +22 88\n", 2, 2, REST),
    (SMALL, "RETAINS", RETAINS + ">A: (EEEEEEE) +22 88\n", 3, 2, REST),
    (THREE_PLAYS, "RETAINS WORD SAT", RETAINS + SAT_OUT, 4, 2, ">B: D6 WO.D +8 8\n"),
    (THREE_PLAYS, "RETAINS WORD SAT", RETAINS + ">B: ADEORTW 1A TEA +8 8\n" + SAT_OUT, 6, 2, DOWN),
    (ENGLISH, WORDS, WORD + ">B: AT 1A TEA +9 9\n" + EAT, 6, 2, AT),
]

# Records without a single repair: two legal ones, and one with two slips.
NONE = [
    (ENGLISH, WORDS, WORD + AT + EAT),
    (ENGLISH, "WORD", WORD + AT + EAT),
    (ENGLISH, WORDS, WORD + ">B: AT 9H AT +9 10\n>A: E 9F E.. +15 21\n>B: A1 AT +4 13\n"),
]

# Records with two slips: the rules, the words, the record, what the first pair costs, and what each of its changes puts there.
TWICE_AT = WORD + AT + AT
TWO = [
    (ENGLISH, WORDS, ">A: AADEORW E8 WORD +16 16\n>B: AT 9H AT +9 9\n" + EAT, 4, (WORD, AT)),
    (ENGLISH, WORDS, TWICE_AT + ">A: E 9E E.. +5 21\n", 3, ("", EAT)),
    (ENGLISH, WORDS, WORD + ">A: AT 9H AT +9 25\n", 4, (">B: - +0 0\n", ">A: AADEORW 8F WORD +16 16\n")),
    (ENGLISH, WORDS, ">A: AADEORW E8 WORD +16 16\n" + AT + AT + EAT, 3, (WORD, "")),
    (ENGLISH, "AT RA DT", TWICE_AT + EAT, 6, ("", ">A: -- -5 16\n")),
]

# Records with three slips: the rules, the words, the record, and what each change of the chain puts there.
CHAINS = [(ENGLISH, WORDS, ">A: AADEORW E8 WORD +16 16\n>B: AT 9A AT +9 9\n>A: E 1F E.. +5 21\n", [WORD, AT, EAT])]

# Records with one slip and with more unlisted words than come from slips: no pair is looked for.
PHONIES = [(ENGLISH, "WORD AT", TWICE_AT + EAT), (ENGLISH, "", TWICE_AT + EAT)]

# Repairs that are on one line: the rules, the words, the record, how many repairs the first line has.
LINES = [
    (ENGLISH, WORDS, ">A: AABCDDT -AAX +0 0\n", 1),
    (ENGLISH, WORDS, ">A: AABCDDT -X +0 0\n", 5),
    (SMALL, "RETAINS", RETAINS + ">A: (ADEORTT) +22 88\n", 1),
    (ENGLISH, WORDS, ">A: AADEXRW 8E WXRD +16 16\n" + AT + EAT, 1),
    (ENGLISH, "ZA", ZA + ">B: AABCDDZ -AZ +0 0\n>A: - +0 22\n", 26),
]

# A game that nobody can have dealt, although no search shows it: A has Q and Z and throws one tile, so one of them stays with A, but B has both, one
# after the other. B throws the Q and draws seven other tiles before it has the Z, so whichever kinds are counted together, no place has more of them
# than it may.
NOT_DEALT = ">A: QZ -1 +0 0\n>B: -7 +0 0\n>A: 8G JX +32 32\n>B: Q -7 +0 0\n>A: - +0 32\n>B: -7 +0 0\n>A: - +0 32\n>B: Z - +0 0\n"
SHORT_OF = NOT_DEALT.replace("+32 32", "+16 16").replace("+0 32", "+0 16")
OPEN_ALONE = "with only the numbers corrected it may be a game: no deal was found\n"

# Such a game with one slip: the record, and all that is said of it. No change is known to make it a game, though some may.
OPEN = [
    # The J or the X is a blank.
    (
        SHORT_OF,
        OPEN_ALONE + "  15 of 16 numbers right\n  line 3: score 16, should be 32\n"
        "none of 871 single changes is known to leave fewer errors\nwith 2 more changes every event stands, but no deal was found\n",
    ),
    # The last line is one too many.
    (
        NOT_DEALT + ">A: - +0 33\n",
        OPEN_ALONE + "  17 of 18 numbers right\n  line 9: sum 33, should be 32\n"
        "none of 939 single changes is known to leave fewer errors\nwith 1 more change every event stands, but no deal was found\n",
    ),
    (
        NOT_DEALT + ">B: -- +0 0\n",
        "none of 876 single changes is known to make it a game\nwith 1 more change every event stands, but no deal was found\n",
    ),
    # No change makes up for a total that is 5 too high, since no play was challenged.
    (
        NOT_DEALT.replace("+32 32", "+32 37").replace("+0 32", "+0 37"),
        OPEN_ALONE + "  15 of 16 numbers right\n  line 3: sum 37, should be 32\n" "none of 871 single changes leaves fewer errors\n",
    ),
    # The > of a line is missing.
    (
        NOT_DEALT.replace(">A: - +0 32", "A: - +0 32", 1),
        "line 5: > is missing (no deal was found)\n  16 of 16 numbers right\n"
        "before line 6: A exchanges 1 tile (or with 2, 3, 4, 5, 6, 7)\n  14 of 14 numbers right\n"
        "line 4: it should not be there\n  12 of 12 numbers right\n"
        "all lines from line 6 on have the name of the other player (no deal was found)\n  12 of 14 numbers right\n"
        "  line 6: sum 0, should be 32\n  line 7: sum 32, should be 0\n"
        "with 1 more change every event stands, but no deal was found\n",
    ),
]


def first(rules, words, record):
    """The first repair of a record: its cost, its line, and what it puts there, with right numbers; None if there is none."""
    found = repairs(events_of(record), set(words.split()), rules)
    if not found:
        return None
    repair, place = found[0], found[0].change.place
    there = repair.right()[place : place + len(repair.change.there)]
    return repair.cost, place + 1, "".join(map(line_of, there))


def first_pair(rules, words, record):
    """The first pair of changes of a record: its cost, and what each change puts there."""
    found, _ = pairs(events_of(record), set(words.split()), rules)
    return (found[0].cost, puts(found[0])) if found else None


def puts(pair):
    """What each of two changes puts there: the first with the numbers of the sheet, the second with right ones."""
    one, other = pair.head.change, pair.then.change
    there = pair.head.made[one.place : one.place + len(one.there)], pair.then.right()[other.place : other.place + len(other.there)]
    return tuple("".join(map(line_of, events)) for events in there)


def rows():
    for rules, words, record, *wanted in ROWS:
        told = first(rules, words, record)
        assert told == tuple(wanted), f"{record}told {told} for {wanted}"
    for rules, words, record in NONE:
        assert first(rules, words, record) is None, (record, first(rules, words, record))
    for rules, words, record, wanted in LINES:
        events = events_of(record)
        told = len(lines(repairs(events, set(words.split()), rules), events)[0])
        assert told == wanted, f"{record}told {told} for {wanted}"
    for rules, words, record, *wanted in TWO:
        told = first_pair(rules, words, record)
        assert told == tuple(wanted), f"{record}told {told} for {wanted}"
    for rules, words, record in PHONIES:
        assert first(rules, words, record) and first_pair(rules, words, record) is None, record
    for record, wanted in OPEN:
        told = repair_text(events_of(record), {"JX"}, game=record.encode())
        assert told == wanted, f"{record}told {told} for {wanted}"
    many = f"{len(ROWS)} records with a repair, {len(NONE)} without, {len(TWO)} with two slips, {len(PHONIES)} with phonies, {len(LINES)} with lines"
    many += f", {len(OPEN)} left open"
    print(many, flush=True)


def bounds(cases):
    """Random games: how far they go has to be how far no bound is exceeded."""
    seen = Counter()
    for _ in range(cases):
        kinds = random.choice([(), ("known",), ("unknown",), ("known", "unknown")])
        events, _, listed = Dealer(ENGLISH, random.choice([6, 24, 60]), kinds, random.choice(["whole", "mixed", "one"])).game()
        record = random.choice([events, spoiled(events) or events])
        if go_through(record, listed)[0].startswith("illegal"):
            continue
        exceeded = bound(course(record, listed), ENGLISH.tiles)
        told = len(Front(ENGLISH, record, listed).taken)
        assert told == (exceeded[0] - 1 if exceeded else len(record)), (exceeded, told, record)
        seen[exceeded[1].split(" ")[0] if exceeded else "none"] += 1
    print(f"bounds exceeded: {', '.join(f'{name} {times}' for name, times in sorted(seen.items()))}")


if __name__ == "__main__":
    rows()
    random.seed(int(sys.argv[2]))
    bounds(int(sys.argv[1]))
