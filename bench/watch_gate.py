#!/usr/bin/env python3
"""What the gate costs, crate by crate, in seconds of processor time (user and system), beside the number of functions and edits.

  watch_gate.py [COMMAND..]         runs the command, `.ci/run` where none is named, watches it and prints the table
  watch_gate.py --watch-only END    watches all runs of rt on the machine until the process of number END has ended or the file END exists
  watch_gate.py --table             prints the table, in Markdown
All keep what they saw in --into FILE and add to what it holds, so a gate may run in pieces. One watcher at a time writes to a file.
--of FOLDER, which may be repeated, makes the table of runs in these folders alone. Where several runs did a part of a crate, the dearest
counts: the others were cut short or began with what was kept. The rest is what other processes below rt and oracle/gate.sh took.
"""
import argparse
import contextlib
import json
import os
import re
import subprocess
import time
from collections import defaultdict
from pathlib import Path

TOP = Path(__file__).resolve().parent.parent
TICKS = os.sysconf("SC_CLK_TCK")
FUNCTION = re.compile(r"^\s*(?:pub(?:\([a-z]+\))? )?(?:const )?(?:unsafe )?fn \w+", re.M)


def all_processes():
    """Of each process its key, which no later one has, its parent, its processor time so far, its command line and its folder."""
    found = {}
    for process in Path("/proc").glob("[0-9]*"):
        with contextlib.suppress(OSError):
            fields = (process / "stat").read_text().rpartition(")")[2].split()
            words = (process / "cmdline").read_bytes().decode(errors="replace").split("\0")
            folder = os.readlink(process / "cwd")
            if "/rt-copy-" in folder:  # `rt ci NAME..` works in a copy of the folder that it was started in
                folder = re.search(r"\0PWD=([^\0]*)|$", "\0" + (process / "environ").read_text(errors="replace"))[1] or folder
            found[process.name] = f"{process.name} {fields[19]}", fields[1], sum(map(int, fields[11:13])) / TICKS, words, folder
    return found


def run_above(pid, processes):
    """The run of rt or oracle/gate.sh that a process is or is below, and the folder of that run; none of other processes."""
    while pid in processes:
        key, parent, _, words, folder = processes[pid]
        if any(re.search(r"(^|/)(rt|oracle/gate\.sh)$", word) for word in words[:3]):
            return key, folder
        pid = parent
    return None


def part_of(words, folder):
    """The crate that a process works on, and which part of its gate."""
    if not words[0].endswith("/rattle") or "--crate-name" not in words or "--only" in words:
        return "", "rest"
    part = "edits" if re.search(r"/rt-edit-[^/]*$", folder) else "tests" if "--test" in words else "proof"
    return words[words.index("--crate-name") + 1], part


def look(seen):
    """Looks at all processes once. One that is counted as the rest may still become one of the prover."""
    processes = all_processes()
    for pid, (key, _, seconds, words, folder) in processes.items():
        if key not in seen or seen[key][3] == "rest":
            if run := run_above(pid, processes):
                seen[key] = [*run, *part_of(words, folder), 0]
        if key in seen:
            seen[key][4] = seconds


def watch(seen, into, has_ended):
    """Looks five times a second until the end has come, and writes what was seen every ten seconds and at the end."""
    looks, ended = 0, False
    while not ended:
        ended, looks = has_ended(), looks + 1
        look(seen)
        if ended or looks % 50 == 1:
            into.with_suffix(".new").write_text(json.dumps(seen))
            into.with_suffix(".new").replace(into)
        time.sleep(0.2)


def functions(crate):
    """How many functions a crate has."""
    return sum(len(FUNCTION.findall(it.read_text())) for it in TOP.glob(f"crates/{crate}/src/**/*.rt"))


def table(seen, folders):
    """Prints the table, and what the whole comes to."""
    spent = defaultdict(lambda: {part: defaultdict(float) for part in ("proof", "tests", "edits")})
    asked = [it for it in seen.values() if not folders or any(Path(it[1]).is_relative_to(folder) for folder in folders)]
    rest = sum(seconds for _, _, crate, _, seconds in asked if not crate)
    for run, _, crate, part, seconds in (it for it in asked if it[2]):
        spent[crate][part][run] += seconds
    rows = {crate: [max(it.values(), default=0) for it in parts.values()] for crate, parts in sorted(spent.items())}
    rows = dict(sorted(rows.items(), key=lambda it: -it[1][0]))
    rows = {crate: [*row, functions(crate), len(list(TOP.glob(f"crates/{crate}/must-fail/*.edit")))] for crate, row in rows.items()}
    sums = [sum(column) for column in zip(*rows.values())] or [0] * 5
    print("| crate | proof | tests | edits | number of functions | number of edits |\n|---|---|---|---|---|---|")
    for crate, row in [*((f"`{crate}`", row) for crate, row in rows.items()), ("together", sums)]:
        print(f"| {crate} | {' | '.join(f'{it:.0f}' for it in row)} |")
    program = {"referee"}
    below = {line.partition(":")[0]: line.split()[1:] for line in (TOP / "crates.txt").read_text().splitlines()}
    while more := {library for crate in program for library in below.get(crate, ())} - program:
        program |= more
    whole, proof = sum(sums[:3]) + rest, sum(row[0] for crate, row in rows.items() if crate in program)
    print(f"\nThe rest: {rest:.0f} s. All of it: {whole:.0f} s, {whole / (proof or 1):.1f} times the proof of the program, {proof:.0f} s.")


def main():
    known = argparse.ArgumentParser(description=__doc__, formatter_class=argparse.RawDescriptionHelpFormatter)
    known.add_argument("--into", type=Path, default=Path(os.environ.get("TMPDIR", "/tmp"), "gate-times.json"), metavar="FILE")
    known.add_argument("--of", type=lambda it: Path(it).resolve(), action="append", default=[], metavar="FOLDER")
    known.add_argument("--watch-only", dest="end", metavar="END")
    known.add_argument("--table", action="store_true")
    known.add_argument("command", nargs=argparse.REMAINDER)
    asked = known.parse_args()
    seen = json.loads(asked.into.read_text()) if asked.into.exists() else {}
    if asked.end:
        return watch(seen, asked.into, lambda: asked.end not in all_processes() if asked.end.isdigit() else Path(asked.end).exists())
    gate = None if asked.table else subprocess.Popen(asked.command or [".ci/run"], stdin=subprocess.DEVNULL, cwd=TOP)
    if gate:
        watch(seen, asked.into, lambda: gate.poll() is not None)
    table(seen, asked.of)
    return gate and gate.returncode


if __name__ == "__main__":
    raise SystemExit(main())
