"""Compares extra/rt with the `rt` that it starts: sums FOLDER

The toolchains are made up here: one whose `rt` makes the sum of a crate, and the list of the crates below it, again for each path to it, one that
keeps both itself, and one that is not a script in Python. With each of them extra/rt has to print the same and to end with the same status, and with
the first it has to read the file of each crate once for each sum that is asked for, and to make each list once. A file that changes between two sums
has to change the second. If the machine has a toolchain that makes sums and lists like the first, those of crates of FOLDER, which has a crates.txt,
are compared too. Nothing is proved here.
"""
import os
import shutil
import subprocess
import sys
import tempfile
from importlib.machinery import SourceFileLoader
from importlib.util import module_from_spec, spec_from_loader
from pathlib import Path

STARTER = [sys.executable, str(Path(__file__).resolve().parents[2] / "extra" / "rt")]
LOADED = """
import os, sys
from importlib.machinery import SourceFileLoader
from importlib.util import module_from_spec, spec_from_loader
loader = SourceFileLoader("rtlib", os.path.dirname(os.path.realpath(__file__)) + "/rtlib.py")
rtlib = module_from_spec(spec_from_loader("rtlib", loader))
loader.exec_module(rtlib)
"""
LIBRARY = """
import functools
read, listed = [], []
class Crate:
    def __init__(self, file, *deps):
        self.file, self.deps = file, deps
    KEPT
    def stamp(self):
        read.append(self.file)
        with open(self.file) as it:
            return f"{it.read()}({' '.join([dep.stamp() for dep in self.deps])})"
    KEPT
    def below(self):
        listed.append(self.file)
        found = []
        for dep in self.deps:
            found += [it for it in [*dep.below(), dep] if it not in found]
        return found
"""
# d is reached by three paths from a; a changes after its first sum, and d after the second.
MAIN = """
def main(words):
    d = rtlib.Crate("d")
    b, c = rtlib.Crate("b", d), rtlib.Crate("c", d)
    a = rtlib.Crate("a", b, c, d)
    for changed in ("a", "d", None):
        below = a.below()
        print(a.stamp(), c.stamp(), *[it.file for it in below], *words)
        print(len(rtlib.read), len(rtlib.listed), file=sys.stderr)
        below.clear()
        if changed:
            with open(changed, "a") as it:
                it.write("!")
    return 7
if __name__ == "__main__":
    sys.exit(main(sys.argv[1:]))
"""
SHELL = '#!/bin/sh\necho "$0" "$@"\nexit 9\n'


def made(folder, **files):
    """A folder with files, the first of which can be run."""
    folder.mkdir()
    for name, text in files.items():
        Path(folder, name).write_text(text)
    Path(folder, "rt").chmod(0o755)
    return folder


def run(command, toolchain, folder):
    """What a command prints and its status, with only a toolchain on the PATH, in a new folder with the files of four crates."""
    folder.mkdir()
    for name in "abcd":
        Path(folder, name).write_text(name)
    env = {**os.environ, "PATH": str(toolchain)}
    ran = subprocess.run([*command, "one", "two words"], cwd=folder, env=env, capture_output=True, text=True, check=False)
    return ran.returncode, ran.stdout, ran.stderr


def faults_of_made_up(room):
    """What is not as it has to be with toolchains that are made up."""
    rt = f"#!{sys.executable}{LOADED}{MAIN}"
    library = LIBRARY.replace("KEPT", "")
    keeping = LIBRARY.replace("KEPT", "@functools.lru_cache(maxsize=None)")
    toolchains = {
        "anew": made(room / "anew", rt=rt, **{"rtlib.py": library}),
        "kept": made(room / "kept", rt=rt, **{"rtlib.py": keeping}),
        "shell": made(room / "shell", rt=SHELL),
    }
    for name, toolchain in toolchains.items():
        plain = run([toolchain / "rt"], toolchain, room / f"{name}-plain")
        status, printed, said = run(STARTER, toolchain, room / f"{name}-once")
        if (status, printed) != plain[:2]:
            yield f"{name}: {status} {printed!r}, and not {plain[:2]}"
        if name == "anew" and (plain[2].splitlines(), said.splitlines()) != (["8 6", "16 12", "24 18"], ["6 4", "12 4", "18 4"]):
            yield f"{name}: files were read and lists made {plain[2]!r} and {said!r} times"
        if name != "anew" and said != plain[2]:
            yield f"{name}: {said!r}, and not {plain[2]!r}"
    if run(STARTER, room / "nowhere", room / "without")[0] != 2:
        yield "a machine without rt"


def faults_of_this_one(folder):
    """What is not as it has to be with the toolchain of this machine, for the crates of a repository that depend on few others."""
    loader = SourceFileLoader("starting", STARTER[1])
    starting = module_from_spec(spec_from_loader(loader.name, loader))
    loader.exec_module(starting)
    rt = starting.loaded(os.path.realpath(shutil.which("rt") or "rt"))
    crate = rt.rtlib.Crate
    if not starting.repeats(crate.stamp) or not starting.repeats(crate.below):
        print("left out: the sums of the repository, which need a toolchain that makes sums and lists again for each path")
        return
    below, crate.below = crate.below, starting.kept_while_same(crate.below)
    crates = [it for it in rt.rtlib.crates_below(os.path.abspath(folder)) if len(it.below()) < 12]
    lists = [it.below() for it in crates]
    crate.below = below
    if lists != [it.below() for it in crates]:
        yield "the lists of crates"
    plain = [it.stamp() for it in crates]
    crate.stamp = starting.kept_for_one_sum(crate.stamp)
    if plain != [it.stamp() for it in crates] or len({*plain}) < len(crates):
        yield "the sums of the repository"


def main():
    sys.dont_write_bytecode = True
    with tempfile.TemporaryDirectory() as room:
        faults = [*faults_of_made_up(Path(room)), *faults_of_this_one(sys.argv[1])]
    for fault in faults:
        print(fault)
    print(f"sums of crates, {len(faults)} not as they have to be")
    sys.exit(bool(faults))


main()
