"""Says which edits that must fail cannot be applied: edits FOLDER

FOLDER has the crates. Each file of must-fail/ and more-must-fail/ names a file of its crate, and then pairs of lines: a text that has to be in that
file exactly once, and the different text that takes its place. Nothing is proved here: rt ci tries the edits of must-fail/, and extra/edits.sh the
others, which nothing else in the gate reads. A name is used only once in a crate. must-fail/ has at most ten edits, and more-must-fail/ at most
twenty.
"""
import sys
from pathlib import Path

# How many edits a folder may have.
MOST = {"must-fail": 10, "more-must-fail": 20}


def applied(edit, crate):
    """The texts of the files that an edit changes, or a ValueError that says why it cannot be applied."""
    path, old, texts = None, None, {}
    for line in edit.read_text(encoding="utf-8").splitlines():
        kind, _, text = ("new", "", "") if line == "new:" else line.partition(": ")
        if kind == "file" and (crate / text).is_file():
            path = crate / text
            texts.setdefault(path, path.read_text(encoding="utf-8"))
        elif kind == "old" and path and not old:
            old = text
        elif kind == "new" and old and text != old:
            if texts[path].count(old) != 1:
                raise ValueError(f"its text is {texts[path].count(old)} times in {path.name}: {old}")
            texts[path], old = texts[path].replace(old, text), None
        else:
            raise ValueError(f"this line is out of place: {line}")
    if old or not texts:
        raise ValueError("it has no pair of an old and a new text")
    return texts


def faults_of(crate):
    """What is wrong with the edits of a crate, a line each, and how many edits it has."""
    folders = {folder: sorted((crate / folder).glob("*")) for folder in MOST}
    edits = [edit for folder in folders.values() for edit in folder]
    faults = [f"{crate.name}: {folder} has {len(some)} edits" for folder, some in folders.items() if len(some) > MOST[folder]]
    if len({edit.name for edit in edits}) < len(edits):
        faults.append(f"{crate.name}: an edit has the name of another")
    for edit in edits:
        try:
            applied(edit, crate)
        except ValueError as fault:
            faults.append(f"{edit}: {fault}")
    return faults, len(edits)


def main():
    found = [faults_of(crate) for crate in sorted(Path(sys.argv[1]).iterdir()) if crate.is_dir()]
    faults = [fault for some, _ in found for fault in some]
    for fault in faults:
        print(fault)
    edits = sum(number for _, number in found)
    print(f"{edits} edits, {len(faults)} faults")
    sys.exit(1 if faults or not edits else 0)


main()
