"""Compares the tables of docs/PROGRAM.md with the definitions of the objects: object_tables CRATES

CRATES is the folder of the crates. The keys of each object are those that its definition in specs/ gives it, in the same order: a table of PROGRAM.md
names each of them once, and no other, and each row of it names keys in the order of the object. The type of an answer in python/ has an attribute for
each key of the objects of answers, and no other. The last line is 'N objects, M differ'.
"""
import ast
import re
import sys
from pathlib import Path

ROOT = Path(__file__).resolve().parents[2]
COMMON = ("verdict", "line", "fault")
# The words before a table, the definition of the object's fields, and the keys that are told elsewhere on the page.
TABLES = [
    ("The object of `judge` goes on with", "game_json/specs/Games.antt", "judged_fields", COMMON),
    ("An event has what its line says", "game_json/specs/Events.antt", "event_fields", ()),
    ("The object of `audit` goes on with", "sheet_json/specs/Audits.antt", "audit_fields", (*COMMON, "unread_lines")),
    ("A wrong number has these", "sheet_json/specs/Audits.antt", "wrong_fields", ()),
    ("The object of `fill` goes on after that of `audit`", "draft_json/specs/Fills.antt", "more_fields", ()),
    ("object of `fill --next`:", "draft_json/specs/Nexts.antt", "next_fields", ()),
    ("The object of `repair` goes on with these if", "repair_json/specs/Answers.antt", "faulty_fields", (*COMMON, "unread_lines")),
    ("The object of `repair` goes on with these if", "repair_json/specs/Answers.antt", "sound_fields", (*COMMON, "unread_lines")),
    ("A repair has these keys", "repair_json/specs/Changes.antt", "repair_fields", ()),
    ("A repair has these keys", "repair_json/specs/Sheets.antt", "whole_fields", ()),
    ("A slip of the whole sheet has these keys", "repair_json/specs/Sheets.antt", "sheet_fields", ()),
    ("The object of `repair` for a `bad record`", "repair_json/specs/BadRecords.antt", "slip_fields", ()),
    ("A pair has these keys", "repair_json/specs/Pairs.antt", "pair_fields", ()),
    ("A chain has these keys", "repair_json/specs/Chains.antt", "chain_fields", ()),
    ("The object of `compare` goes on with", "compare_json/specs/Answers.antt", "comparison_fields", COMMON),
    ("`second`, and the `fault` has its name. A difference has these keys", "compare_json/specs/Differences.antt", "difference_fields", ()),
    ("The object of `explain` goes on with", "explain_json/specs/Explained.antt", "explained_fields", (*COMMON, "unread_lines")),
    ("The object of `top` goes on", "game_json/specs/Plays.antt", "plays_fields", COMMON),
    ("The object of `board` goes on", "sheet_json/specs/Boards.antt", "board_fields", (*COMMON, "unread_lines")),
]

# The definitions of the fields that the objects of answers have.
ANSWERS = [
    ("json_base/specs/Refusals.antt", ("checked_fields", "trouble_fields", "no_game_fields")),
    ("game_json/specs/Games.antt", ("judged_fields",)),
    ("game_json/specs/Plays.antt", ("plays_fields",)),
    ("sheet_json/specs/Audits.antt", ("audit_fields",)),
    ("sheet_json/specs/Boards.antt", ("board_fields",)),
    ("sheet_json/specs/Rulings.antt", ("ruling_fields",)),
    ("draft_json/specs/Faults.antt", ("bad_fields",)),
    ("draft_json/specs/Fills.antt", ("more_fields",)),
    ("draft_json/specs/Nexts.antt", ("next_fields",)),
    ("repair_json/specs/Answers.antt", ("faulty_fields", "sound_fields")),
    ("repair_json/specs/BadRecords.antt", ("bad_fields",)),
    ("compare_json/specs/Answers.antt", ("comparison_fields",)),
    ("explain_json/specs/Explained.antt", ("explained_fields",)),
]


def defined(text, name):
    """The keys that a definition gives an object, in their order."""
    found = re.search(rf"^{name}\b[^\n]*=\n((?:    .*\n)+)|^{name}\b[^\n]*= (.*)$", text, re.MULTILINE)
    return re.findall(r'codes "([a-z_]+)"(?:, |\) \()', found[1] or found[2]) if found else []


def told(page, words):
    """The keys of the first table after some words, row by row."""
    rows = page[page.index(words) :].split("\n\n| key | what it has |\n|---|---|\n", 1)[1].split("\n\n")[0]
    return [re.findall(r"`([a-z_]+)`", row.split(" | ")[0]) for row in rows.splitlines()]


def in_order(keys, of):
    """Whether these are keys of an object, in its order."""
    places = [of.index(key) for key in keys if key in of]
    return len(places) == len(keys) and places == sorted(places)


def keys_of_answers(crates):
    """The keys that the objects of answers have."""
    return {key for path, names in ANSWERS for name in names for key in defined((crates / path).read_text(encoding="utf-8"), name)}


def attributes():
    """The attributes of the type of an answer in python/. The text of an answer is not one of its keys."""
    parsed = ast.parse((ROOT / "python/referee/__init__.py").read_text(encoding="utf-8"))
    answer = next(it for it in parsed.body if isinstance(it, ast.ClassDef) and it.name == "Answer")
    return {it.target.id for it in answer.body if isinstance(it, ast.AnnAssign)} - {"status"}


def main(crates):
    page = (ROOT / "docs/PROGRAM.md").read_text(encoding="utf-8")
    differ = 0
    for words, path, name, elsewhere in TABLES:
        keys = defined((crates / path).read_text(encoding="utf-8"), name)
        rows = told(page, words)
        flat = [key for row in rows for key in row]
        if not keys or sorted([*flat, *elsewhere]) != sorted(keys) or not all(in_order(row, keys) for row in rows):
            print(f"{path}: {name}: {keys}; the page has {rows}")
            differ += 1
    other = keys_of_answers(crates) ^ attributes()
    if other:
        print(f"python/referee: Answer: {sorted(other)}")
        differ += 1
    print(f"{len(TABLES)} objects, {differ} differ")
    return differ


if __name__ == "__main__":
    sys.exit(min(main(Path(sys.argv[1])), 1))
