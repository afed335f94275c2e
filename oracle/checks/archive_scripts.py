"""Runs the scripts of docs/ARCHIVE.md, and compares what they leave with the second judge: archive_scripts PROGRAM [GAMES [SEED]]

GNU parallel is used where it is installed; else its script is left out, and that is said.
"""
import os
import random
import re
import shutil
import subprocess
import sys
import tempfile
from pathlib import Path

from archive_lines import read_tab_line, tab_line, ways
from dealing import Dealer, line, spoiled
from lexicons import build
from rules import ENGLISH

DOCUMENT = Path(__file__).resolve().parents[2] / "docs" / "ARCHIVE.md"


def scripts():
    """The scripts of the document, by the headings that they are under."""
    found = {}
    for section in re.split("^## ", DOCUMENT.read_text(), flags=re.M)[1:]:
        found[section.split("\n")[0]] = re.findall("^```sh\n(.*?)^```$", section, flags=re.M | re.S)
    return found


def make_archive(folder, count):
    """Games with a list, and with them files that are none. Gives what has to be said of each name."""
    games, listed, phonies = [], set(), set()
    while len(games) < count:
        dealer = Dealer(ENGLISH, random.choice([8, 25, 40]), random.choice([(), ("known", "unknown")]), "one")
        events, _, words = dealer.game()
        games.append("".join(map(line, events)).encode())
        games.append("".join(map(line, spoiled(events) or events)).encode())
        listed |= words
        phonies |= dealer.phonies
    listed = {word for word in listed - phonies if 2 <= len(word) <= 15}
    (folder / "words.txt").write_text("\n".join(sorted(listed)))
    (folder / "words.gad").write_bytes(build(listed))
    (folder / "games").mkdir()
    files = {f"games/{number:05}.gcg": game for number, game in enumerate(games)}
    files |= {
        "games/a\ttab": games[0],
        "games/back\\slash\\t": games[1],
        "games/empty.gcg": b"",
        "games/page.html": b"<html>\n",
        "games/-": games[0],
        "games/formulas.gcg": b">=A: - +0 0\n>+B: - +0 0\n",
        "games/unread.gcg": games[0] + b"A: (time) -5 100\n",
    }
    wanted = {}
    for name, game in files.items():
        (folder / name).write_bytes(game)
        wanted[name] = ways(name, game, listed)
    return wanted


class Scripts:
    """A folder with an archive, where scripts are run that find the program by its name."""

    def __init__(self, program, folder, wanted):
        self.folder, self.wanted, self.failures, self.scripts = folder, wanted, 0, scripts()
        (folder / "bin").mkdir()
        (folder / "bin" / "referee").symlink_to(Path(program).resolve())
        self.lines = folder / "lines.tsv"

    def run(self, heading, number=0, error=""):
        """Runs a script of a section, which says nothing on standard error unless that is given, and gives what it printed."""
        more = {**os.environ, "PATH": f"{self.folder}/bin:{os.environ['PATH']}"}
        words = ["bash", "-c", self.scripts[heading][number]]
        ran = subprocess.run(words, cwd=self.folder, env=more, capture_output=True, text=True, check=False, timeout=600)
        self.expect(ran.stderr == error, heading, ran.stderr)
        return ran.stdout

    def expect(self, good, *what):
        if not good:
            self.failures += 1
            print(*what, sep="\n  ")

    def compare(self, heading):
        """Every name has one line, which says what has to be said of it."""
        said = [read_tab_line(text) for text in self.lines.read_text().split("\n")[:-1]]
        self.expect(sorted(it["name"] for it in said) == sorted(self.wanted), heading, "names", len(said), len(self.wanted))
        for it in said:
            self.expect(it in self.wanted.get(it["name"], []), heading, it)
        return said

    def all(self):
        told = self.run("The first run")
        first = self.compare("The first run")
        self.expect(told == "status 3\n", told)
        self.expect(sum(int(it.split()[0]) for it in self.run("The first run", 1).splitlines()) == len(first), "counts")
        self.run("The first run", 2)
        fields = [it for text in (self.folder / "sheet.tsv").read_text().splitlines() for it in text.split("\t")]
        self.expect(not [it for it in fields if it[:1] in "=+@-" and it != "-" and it], "formulas")
        self.expect(
            [it.removeprefix("'") for it in fields] == [it for text in self.lines.read_text().splitlines() for it in text.split("\t")], "fields"
        )
        whole = self.lines.read_bytes()
        for cut in (0, 1, len(whole) // 2, len(whole) - 1, len(whole), whole.index(b"back") + 10):
            self.lines.write_bytes(whole[:cut])
            self.go_on()
            self.compare(f"Going on after a stop at {cut}")
        self.lines.unlink()
        self.run("All cores of one machine")
        self.compare("All cores of one machine")
        self.lines.unlink()
        self.several_machines()
        self.lines.write_bytes(whole)
        self.run("What to admit")
        admitted = (self.folder / "admitted.txt").read_text().splitlines()
        wanted = [it for it in first if (it["verdict"], it["ending"], it["unlisted"], it["unread_lines"]) == ("legal", "complete", 0, 0)]
        self.expect(admitted == [tab_line(it).split("\t")[0] for it in wanted], "admitted", admitted)
        left = (self.folder / "left_out.tsv").read_text().splitlines()
        self.expect(len(admitted) + len(left) == len(first), "left out", len(left))

    def go_on(self):
        """Goes on after a stop: where the last line is a part, the program says so and leaves it, and it is dropped first."""
        left = self.lines.read_bytes()
        if left and not left.endswith(b"\n"):
            number = left.count(b"\n") + 1
            self.run("Going on after a stop", error=f"referee: lines.tsv ends with part of line {number}: drop that part, and run this again\n")
            self.expect(self.lines.read_bytes() == left, "lines behind a part")
            self.run("Going on after a stop", 1)
        self.run("Going on after a stop")

    def several_machines(self):
        if shutil.which("parallel") is None:
            print("left out: several machines, which needs GNU parallel")
            return
        (self.folder / "machines.txt").write_text("4/:\n")
        self.run("Several machines")
        self.compare("Several machines")


def main():
    games, seed = map(int, sys.argv[2:] + ["60", "1"][len(sys.argv) - 2 :])
    random.seed(seed)
    with tempfile.TemporaryDirectory() as folder:
        wanted = make_archive(Path(folder), games)
        scripts_run = Scripts(sys.argv[1], Path(folder), wanted)
        scripts_run.all()
    print(f"{len(wanted)} games by each script of docs/ARCHIVE.md, {scripts_run.failures} not as they have to be")
    sys.exit(scripts_run.failures > 0)


main()
