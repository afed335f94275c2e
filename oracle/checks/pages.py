"""Runs the commands that README.md and docs/*.md show, and compares what they print with the page: pages PROGRAM

Blocks of a page are run from its top to its end in one copy of examples/, which is called `examples` there too:

- In a block marked `console` a line that begins with `$ ` is a command, and what follows is what it prints, on standard error too. A line
  `...` stands for any lines. `$ cat FILE` of a file that is not there makes it of the lines that follow.
- A block marked `sh` is a script, which has to end with status 0.
- A block with `->` shows records of one line each, judged by a list that stands below, and the answer of each.
- A block marked `rust` whose first line is `// FILE` is an excerpt, whose lines have to follow each other in that file; `// ..` is for lines that
  are left out.
- Commands within the text have to end with status 0, where they name files and none in capitals; else they have to be known.

A block whose first line begins with `# not run:` is left out, and so is one that needs a program that is not installed. The program stands where
`extra/prove.sh` leaves it, too. The picture of README.md is drawn again (`picture.py`). A page has no command of the program in a block of another
kind, except its usage, with names in capitals.
"""
import os
import re
import shutil
import subprocess
import sys
import tempfile
from pathlib import Path

from picture import PICTURE, picture_of

ROOT = Path(__file__).resolve().parents[2]
PAGES = [ROOT / "README.md", *sorted((ROOT / "docs").glob("*.md"))]
LISTS = {"README.md": ["WORD"], "PLAYER.md": ["QI", "RETAINS", "WORD"]}


def blocks_of(text):
    """The blocks of a page with their kinds and the numbers of their first lines; an indented one has the kind `indented`."""
    lines, kind, block, found = text.split("\n"), None, [], []
    for number, line in enumerate(lines, 1):
        if kind in (None, "indented") and line.startswith("    "):
            kind, block = "indented", [*block, (number, line[4:])]
        elif kind in (None, "indented"):
            if kind and line.strip():
                found.append((kind, block))
                kind, block = None, []
            if line.startswith("```"):
                kind, block = line[3:], []
            elif kind:
                block.append((number, ""))
        elif line == "```":
            found.append((kind, block))
            kind, block = None, []
        else:
            block.append((number, line))
    return [(kind, block[0][0], "\n".join(line for _, line in block).rstrip().split("\n")) for kind, block in found if block]


def commands_of(lines):
    """The commands of a console and the lines after each."""
    found = []
    for line in lines:
        if line.startswith("$ "):
            found.append((line[2:], []))
        else:
            found[-1][1].append(line)
    return found


def matches(shown, printed):
    """Whether lines are those that are shown, where `...` stands for any."""
    pattern = "".join("(?:.*\n)*" if line == "..." else re.escape(f"{line}\n") for line in shown)
    return re.fullmatch(pattern, printed) is not None


class Pages:
    """A folder for each page, in which its blocks are run."""

    def __init__(self, program):
        self.program, self.faults, self.counts = program, [], dict.fromkeys(("commands", "scripts", "answers", "excerpts", "left out"), 0)

    def fault(self, what, text):
        """Something that a page shows and that is not so."""
        self.faults.append(f"{self.page}:{self.line}: {what}\n{text}")

    def run(self, script):
        """What a script prints, and its status."""
        ran = subprocess.run(
            ["bash", "-c", script],
            cwd=self.folder,
            env=self.env,
            stdout=subprocess.PIPE,
            stderr=subprocess.STDOUT,
            stdin=subprocess.DEVNULL,
            check=False,
            timeout=60,
        )
        return ran.stdout.decode(), ran.returncode

    def take_page(self, page, folder):
        """Runs the blocks of a page."""
        self.page, self.folder = page.name, Path(folder, "room")
        shutil.copytree(ROOT / "examples", self.folder)
        Path(self.folder, "examples").symlink_to(".")
        left = Path(self.folder, "crates", "referee", "out")
        left.mkdir(parents=True)
        Path(self.folder, "games").mkdir()
        for name in ("final.gcg", "round3.gcg"):
            shutil.copy(ROOT / "examples" / "game.gcg", self.folder / "games" / name)
        Path(self.folder, "machines.txt").write_text("4/:\n")
        programs = Path(folder, "bin")
        programs.mkdir()
        for at in (programs, left):
            (at / "referee").symlink_to(self.program)
        self.env = {**os.environ, "PATH": f"{programs}:{os.environ['PATH']}", "LC_ALL": "C"}
        for kind, self.line, lines in blocks_of(page.read_text()):
            self.take_block(kind, lines)
        self.take_text(page.read_text())

    def take_block(self, kind, lines):
        """Runs one block by its kind."""
        if lines[0].startswith("# not run:") or (kind == "sh" and not shutil.which(lines[0].split()[0], path=self.env["PATH"])):
            self.counts["left out"] += 1
        elif kind == "console":
            for command, shown in commands_of(lines):
                self.take_command(command, shown)
        elif kind == "sh":
            self.counts["scripts"] += 1
            printed, status = self.run("\n".join(lines))
            if status:
                self.fault(f"a script ends with {status}", printed)
        elif kind == "rust" and lines[0].startswith("// crates/"):
            self.take_excerpt(lines[0].removeprefix("// "), "\n".join(lines[1:]).split("\n// ..\n"))
        elif any("->" in line for line in lines):
            self.take_answers(lines)
        else:
            for line in lines:
                if re.match(r"(\$ )?(\S+=\S+ )*(referee|rt|extra/|oracle/|bench/|\.ci/)\b", line) and not re.search(r"\b[A-Z]{4,}\b", line):
                    self.fault("a command in a block that is not run", line)

    def take_command(self, command, shown):
        """Runs a command of a console."""
        self.counts["commands"] += 1
        name = command.removeprefix("cat ")
        if command == f"cat {name}" and not Path(self.folder, name).exists():
            Path(self.folder, name).write_text("".join(f"{line}\n" for line in shown))
            return
        printed, _ = self.run(command)
        if not matches(shown, printed):
            self.fault(f"{command} prints", printed)

    def take_excerpt(self, name, parts):
        """Looks for the parts of an excerpt in a file, each after the one before it."""
        self.counts["excerpts"] += 1
        left = f"\n{(ROOT / name).read_text()}" if (ROOT / name).is_file() else ""
        for part in parts:
            _, found, left = left.partition(f"\n{part}\n")
            if not found:
                self.fault(f"{name} does not have these lines, or not after the others", part)
                return
            left = f"\n{left}"

    def take_answers(self, lines):
        """Judges records of one line each, and compares the answers. A line without a record goes on with the answer before it."""
        if self.page not in LISTS:
            self.fault("answers without a list", "\n".join(lines))
            return
        Path(self.folder, "list.txt").write_text("".join(f"{word}\n" for word in LISTS[self.page]))
        self.run("referee build list.txt list.gad")
        rows = []
        for line in lines:
            record, arrow, answer = line.partition("->")
            if arrow:
                rows.append((record.strip(), [answer.strip()]))
            else:
                rows[-1][1].append(line.strip())
        for record, answer in rows:
            self.counts["answers"] += 1
            Path(self.folder, "record.gcg").write_text(f"{record}\n")
            printed, _ = self.run("referee judge list.txt list.gad record.gcg")
            if printed.splitlines()[-len(answer) :] != answer or len(printed.splitlines()) > len(answer) + 1:
                self.fault(f"{record} has the answer", printed)

    def take_text(self, text):
        """Runs the commands within the text, or asks for the help of one that names no files, or files in capitals."""
        prose = re.sub(r"^```.*?^```$", "", text, flags=re.M | re.S)
        for command in re.findall(r"`(referee [a-z][^`]*)`", prose):
            self.counts["commands"] += 1
            words = command.split()
            is_whole = len(words) > 2 and not re.search(r"\b[A-Z]{4,}\b|\.\.", command)
            printed, status = self.run(command if is_whole else f"referee help {words[1]}")
            if status:
                self.fault(f"{command} ends with {status}", printed)


def main():
    pages = Pages(Path(sys.argv[1]).resolve())
    for page in PAGES:
        with tempfile.TemporaryDirectory() as folder:
            pages.take_page(page, folder)
    if picture_of(pages.program) != PICTURE.read_text():
        pages.faults.append(f"{PICTURE.name} is not the board of the example game: oracle/run picture PROGRAM write")
    for fault in pages.faults:
        print(fault)
    counted = ", ".join(f"{count} {what}" for what, count in pages.counts.items())
    print(f"{len(PAGES)} pages: {counted}, {len(pages.faults)} not as shown")
    sys.exit(bool(pages.faults))


main()
