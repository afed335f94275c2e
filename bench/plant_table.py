#!/usr/bin/env python3
"""Makes a table of what `rt plant` says of crates, a row for each: plant_table.py [--bodies] OUTPUT...

Each OUTPUT is a file with what `rt plant NAME --all` printed; the date of a row is that of its last file. Several of one crate, as of runs with
`--only`, make one row: a body that is in more than one of them is counted as the last one says. *Let through* are the bodies that were proved, also
those that are right after all: read them, and take those out. With `--bodies` the bodies that were let through or not judged follow the table.
"""
import argparse
import re
from collections import Counter
from dataclasses import dataclass, field
from datetime import datetime
from pathlib import Path

BODY = re.compile(r"(proves|same|refused|elsewhere|not-judged|not-source|not-run) +(\S+?):\d+ (.+?): (\{ .*\}|\{ \})(  \(.*\))?$")
BARE = re.compile(r"(untested|no-ensures) +\S+?:\d+ (.+)\(\)$")
LAST = re.compile(r"plants crate=(\S+) (.*)$")


@dataclass
class Crate:
    """What the runs for a crate say: of each body, by its file, its function, its text and which of such it is, its kind; and the functions of which
    no body could be judged, or that have no `ensures`."""

    date: str = ""
    bodies: dict = field(default_factory=dict)
    untested: dict = field(default_factory=dict)
    bare: dict = field(default_factory=dict)

    def counts(self):
        return Counter(self.bodies.values())

    def functions(self, kind):
        """The functions that have bodies of a kind, in order."""
        return list(dict.fromkeys(function for (_, function, *_), it in self.bodies.items() if it == kind))


def read(path, crates):
    """Adds an output to its crate."""
    lines = path.read_text().splitlines()
    last = next((LAST.match(line) for line in reversed(lines) if LAST.match(line)), None)
    if not last:
        raise SystemExit(f"{path} has no last line of rt plant, so the run did not end")
    stated = {key: int(count) for key, count in re.findall(r"(\S+)=(\d+)", last[2])}
    bodies, alike = {}, Counter()
    for line in lines:
        if found := BODY.match(line):
            alike[found.group(2, 3, 4)] += 1
            bodies[*found.group(2, 3, 4), alike[found.group(2, 3, 4)]] = found[1]
    counts = Counter(bodies.values())
    wrong = {kind: counts[kind] for kind in ("proves", "refused", "not-judged") if counts[kind] != stated[kind]}
    if wrong:
        raise SystemExit(f"{path} counts {last[2]}, and its rows {wrong}: was it made with --all?")
    crate = crates.setdefault(last[1], Crate())
    crate.date = datetime.fromtimestamp(path.stat().st_mtime).date().isoformat()
    crate.bodies |= bodies
    for line in lines:
        if found := BARE.match(line):
            (crate.untested if found[1] == "untested" else crate.bare)[found[2]] = True


def names(functions):
    return ", ".join(f"`{it}`" for it in functions)


def bodies(count):
    return "1 body" if count == 1 else f"{count} bodies"


def remarks(crate):
    """What the row says of a crate in addition to its counts."""
    counts, said = crate.counts(), [f"of {crate.date}"]
    if counts["proves"]:
        said.append(f"let through: bodies of {names(crate.functions('proves'))}")
    if counts["not-judged"]:
        said.append(f"not judged: bodies of {names(crate.functions('not-judged'))}")
    if crate.untested:
        said.append(f"no body that gives up could be judged of {names(crate.untested)}")
    if crate.bare:
        said.append(f"no `ensures`: {names(crate.bare)}")
    if counts["elsewhere"]:
        said.append(f"{bodies(counts['elsewhere'])} failed only at a `requires` of a call")
    if counts["not-source"]:
        said.append(f"{bodies(counts['not-source'])} did not compile")
    if counts["not-run"]:
        said.append(f"{bodies(counts['not-run'])} not reached in time")
    return "; ".join(said)


def main():
    known = argparse.ArgumentParser(description=__doc__, formatter_class=argparse.RawDescriptionHelpFormatter)
    known.add_argument("--bodies", action="store_true")
    known.add_argument("outputs", nargs="+", type=Path, metavar="OUTPUT")
    asked = known.parse_args()
    crates = {}
    for path in sorted(asked.outputs, key=lambda it: it.stat().st_mtime):
        read(path, crates)
    print("| crate | refused | let through | not judged | remarks |\n|---|---|---|---|---|")
    for name, crate in crates.items():
        counts = crate.counts()
        print(f"| `{name}` | {counts['refused']} | {counts['proves']} | {counts['not-judged']} | {remarks(crate)} |")
    for name, crate in crates.items() if asked.bodies else ():
        for (path, function, body, _), kind in crate.bodies.items():
            if kind in ("proves", "not-judged"):
                print(f"\n{name}, {path}, {function}, {'let through' if kind == 'proves' else 'not judged'}:\n    {body}", end="")
    print(end="\n" if asked.bodies else "")


if __name__ == "__main__":
    main()
