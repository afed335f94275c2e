"""A night's archive, and what may happen to it: archive_faults PROGRAM [RECORDS [SEED [KILLS]]]

RECORDS names, 2,000 unless it is said, are judged in one run with a page of each: records of dealt games, damaged ones, web pages, folders,
files that are not there or break while they are read, and names with an LF, quotes, a hyphen in front, bytes that are not UTF-8, and 4,000
characters. Then the same is done with faults, and what is there afterwards is compared with that run:

- killed at KILLS random moments, 20 unless it is said, and each time gone on with `--skip`: each name has one line, no line and no page is torn, and
  the lines and pages are the same bytes at the end;
- a full disk, for the lines and for the pages; pages in a folder that cannot be written; an output that is closed, is /dev/full, or is read by
  `head`; names from an input that is closed; the signal TERM: the status, the reason on standard error, and whole lines, the first ones;
- `index` of all lines: a row for each name, and each link leads to a page.

A full disk is a small one in memory, which needs an administrator's shell; without it that is left out and said.
"""
import html
import os
import random
import re
import shutil
import signal
import subprocess
import sys
import tempfile
import time
from pathlib import Path

from dealing import Dealer, line, spoiled
from fuzz import TEXT_DAMAGES, damaged
from lexicons import build
from rules import ENGLISH


def dealt_texts(count):
    """Games that were dealt, and the same with a rack spoiled; and the words of a list for them."""
    texts, listed, phonies = [], set(), set()
    while len(texts) < count:
        dealer = Dealer(ENGLISH, random.choice([8, 25, 40]), (), "one")
        events, _, words = dealer.game()
        for it in (events, spoiled(events) or events):
            texts.append("".join(map(line, it)).encode())
        listed |= words
        phonies |= dealer.phonies
    return texts, {word for word in listed - phonies if 2 <= len(word) <= 15}


def name_of(number):
    """The name of a record, as bytes."""
    plain = b"games/%05d.gcg" % number
    deep = b"games/" + b"/".join([b"d" * 200] * 19) + b"/%05d.gcg" % number
    odd = [b"games/a\nb %d.gcg" % number, b"games/\"quoted' %d.gcg" % number, b"-%d.gcg" % number, b"games/\xff\xfe %d.gcg" % number, deep]
    return odd[number // 40 % len(odd)] if number % 40 == 7 else plain


def write_record(folder, name, content):
    """A record under a name that may be longer than a path of the system, or a folder, or nothing."""
    if content is None:
        return
    path = os.path.join(os.fsencode(folder), name)
    os.makedirs(os.path.dirname(path), exist_ok=True)
    if content == "folder":
        os.makedirs(path, exist_ok=True)
    elif content == "breaks":
        os.symlink(b"/proc/self/mem", path)
    else:
        with open(path, "wb") as file:
            file.write(content)


def content_of(number, texts):
    """What is under the name of a record."""
    kind = number % 20
    if kind == 3:
        return damaged(random.choice(texts), TEXT_DAMAGES, 2)
    if kind == 5:
        return b"<!DOCTYPE html>\n<html><body>page not found</body></html>\n"
    if kind == 11:
        return random.choice(["folder", "breaks", None, b""])
    return random.choice(texts)


class Night:
    """A folder with an archive, and how its program ended."""

    def __init__(self, program, folder, records):
        self.program, self.folder, self.runs, self.wrong = program, folder, 0, 0
        texts, listed = dealt_texts(60)
        (folder / "words.txt").write_text("\n".join(sorted(listed)))
        (folder / "words.gad").write_bytes(build(listed))
        self.names = [name_of(number) for number in range(records)]
        for number, name in enumerate(self.names):
            write_record(folder, name, content_of(number, texts))
        (folder / "names").write_bytes(b"".join(name + b"\0" for name in self.names))

    def expect(self, good, *what):
        """Says what is not as it has to be."""
        if not good:
            self.wrong += 1
            print("WRONG:", *(str(it)[:300] for it in what), sep="\n  ")

    def words(self, pages, *more):
        """The command line."""
        return [self.program, "archive", "--quiet", "-0", "--names", "names", *(["--pages", pages] if pages else []), *more, "words.txt", "words.gad"]

    def run(self, words, **how):
        """A run to its end."""
        self.runs += 1
        how = {"stdin": subprocess.DEVNULL, "stdout": subprocess.PIPE, **how}
        return subprocess.run(words, cwd=self.folder, stderr=subprocess.PIPE, check=False, timeout=900, **how)

    def pages(self, folder):
        """The pages in a folder, without the index."""
        return {it.relative_to(folder): it.read_bytes() for it in folder.rglob("*") if it.is_file() and it != folder / "index.html"}

    def whole(self):
        """The run to which the others are compared."""
        start = time.monotonic()
        ran = self.run(self.words("pages"))
        self.lasts = time.monotonic() - start
        self.lines = ran.stdout.splitlines(keepends=True)
        self.made = self.pages(self.folder / "pages")
        self.expect(ran.returncode == 4 and ran.stderr == b"", "status", ran.returncode, ran.stderr)
        self.expect(len(self.lines) == len(self.names) and all(it.endswith(b"\n") for it in self.lines), "lines", len(self.lines))
        self.expect(all(len(it.split(b"\t")) == 13 for it in self.lines), "fields", {len(it.split(b"\t")) for it in self.lines})
        self.expect(not list((self.folder / "pages").rglob(".referee-*")), "files that were left")

    def killed(self, kills):
        """Runs that are killed, and go on."""
        lines, pages = self.folder / "killed.tsv", self.folder / "killed"
        lines.write_bytes(b"")
        for left in range(kills, -1, -1):
            with open(lines, "ab") as out, subprocess.Popen(
                self.words("killed", "--skip", "killed.tsv"), cwd=self.folder, stdin=subprocess.DEVNULL, stdout=out, stderr=subprocess.PIPE
            ) as process:
                self.runs += 1
                if left:
                    time.sleep(random.uniform(0, 2 * self.lasts / kills))
                    process.kill()
                error = process.communicate()[1]
            self.expect(
                error == b"" and process.returncode in ({-signal.SIGKILL, 0, 1, 2, 3, 4} if left else {0, 1, 2, 3, 4}),
                "killed",
                process.returncode,
                error,
            )
            now = lines.read_bytes()
            self.expect(not now or now.endswith(b"\n"), "a torn line", now[-100:])
            self.expect(now.splitlines(keepends=True) == self.lines[: now.count(b"\n")], "other lines after a kill", now.count(b"\n"))
            torn = [path for path, page in self.pages(pages).items() if self.made.get(path) != page and not path.name.startswith(".referee-")]
            self.expect(not torn, "pages that are torn or others", torn[:5])
        self.expect(lines.read_bytes() == b"".join(self.lines), "other lines at the end")
        self.expect({path for path in self.pages(pages) if not path.name.startswith(".referee-")} == set(self.made), "other pages at the end")

    def is_start(self, told, most=None):
        """Whether some lines are the first ones, the last of which may be torn if the disk was full."""
        return b"".join(self.lines).startswith(told) and (most is None or len(told) <= most)

    def outputs(self):
        """Outputs that fail."""
        with open("/dev/full", "wb") as full:
            ran = self.run(self.words(None), stdout=full)
        self.expect(ran.returncode == 4 and b"no space left" in ran.stderr, "/dev/full", ran.returncode, ran.stderr)
        plain = self.run(self.words(None)).stdout
        for command, wanted in (
            ('"$@" | head -n 5', plain.splitlines(keepends=True)[:5]),
            ('"$@" >&-', []),
            ('"$@" | dd bs=1 count=3 status=none', None),
        ):
            ran = self.run(["bash", "-c", f"{command}; echo ${{PIPESTATUS[0]}} >&2", "bash", *self.words(None)])
            status = ran.stderr.split()[-1:]
            self.expect(status in ([b"4"], [b"141"]), command, ran.stderr)
            if wanted is not None:
                self.expect(ran.stdout.splitlines(keepends=True) == wanted, command, ran.stdout)
        closed = [it if it != "names" else "-" for it in self.words(None)]
        ran = self.run(["bash", "-c", '"$@" <&-', "bash", *closed])
        # An input that is closed is an empty one, as /dev/null is: there is no name.
        self.expect((ran.returncode, ran.stdout, ran.stderr) == (0, b"", b""), "a closed input", ran.returncode, ran.stdout[:50], ran.stderr)

    def ended(self):
        """A run that is told to end."""
        with subprocess.Popen(self.words(None), cwd=self.folder, stdin=subprocess.DEVNULL, stdout=subprocess.PIPE, stderr=subprocess.PIPE) as process:
            self.runs += 1
            time.sleep(self.lasts / 4)
            process.terminate()
            told = process.communicate()[0]
        self.expect(process.returncode in (-signal.SIGTERM, 4) and told.endswith(b"\n") or not told, "TERM", process.returncode, told[-100:])

    def small_disk(self):
        """Lines and pages on a disk that is full before the end."""
        disk = self.folder / "disk"
        disk.mkdir()
        if os.geteuid() != 0 or not mounted(disk, 4):
            print("left out: a full disk, which needs an administrator's shell")
            return
        try:
            with open(disk / "lines", "wb") as out:
                ran = self.run(self.words(None), stdout=out)
            self.expect(ran.returncode == 4 and b"no space left" in ran.stderr, "lines on a full disk", ran.returncode, ran.stderr)
            plain = self.run(self.words(None)).stdout
            self.expect(plain.startswith((disk / "lines").read_bytes()), "lines on a full disk")
        finally:
            subprocess.run(["umount", disk], check=False)
        if not mounted(disk, 64):
            return
        try:
            ran = self.run(self.words("disk/pages"))
            lines = ran.stdout.splitlines(keepends=True)
            unwritten = [it for it in lines if it.split(b"\t")[11] == b"cannot write"]
            self.expect(ran.returncode == 4 and len(lines) == len(self.lines) and unwritten, "pages on a full disk", ran.returncode, len(lines))
            kept = [it.replace(b"\tcannot write\t", b"\t", 1) for it in lines]
            others = [one for one, wanted in zip(lines, self.lines) if one not in unwritten and one != wanted]
            self.expect(len(kept) == len(self.lines) and not others, "other lines with pages on a full disk", others[:2])
            torn = [path for path, page in self.pages(disk / "pages").items() if self.made.get(path) != page]
            self.expect(not torn, "torn pages on a full disk", torn[:5])
        finally:
            subprocess.run(["umount", disk], check=False)

    def no_folder(self):
        """Pages in a folder that cannot be made."""
        (self.folder / "file").write_bytes(b"x")
        ran = self.run(self.words("file/pages"))
        lines = ran.stdout.splitlines()
        good = all(it.split(b"\t")[11] in (b"cannot write", b"-") for it in lines) and len(lines) == len(self.lines)
        self.expect(
            ran.returncode == 4 and (good or not lines) and (lines or ran.stderr),
            "a folder that cannot be made",
            ran.returncode,
            lines[:2],
            ran.stderr,
        )

    def index(self):
        """The index of all lines."""
        (self.folder / "lines.tsv").write_bytes(b"".join(self.lines))
        ran = self.run([self.program, "index", "lines.tsv", "pages/index.html"])
        self.expect(ran.returncode == 0 and ran.stderr == b"", "index", ran.returncode, ran.stderr)
        page = (self.folder / "pages" / "index.html").read_text()
        links = [html.unescape(it) for it in re.findall('<td class="gm"><a href="([^"]*)"', page)]
        self.expect(page.count("<tr") - 1 == len(self.names), "rows", page.count("<tr"), len(self.names))
        lost = [it for it in links if not (self.folder / "pages" / unquoted(it)).is_file()]
        self.expect(links and not lost, "links that lead nowhere", len(links), lost[:3])


def mounted(folder, kilobytes):
    """Whether a disk in memory of this size could be put there."""
    return not subprocess.run(["mount", "-t", "tmpfs", "-o", f"size={kilobytes}k", "none", folder], capture_output=True, check=False).returncode


def unquoted(link):
    """The path to which a link leads."""
    return os.fsdecode(re.sub(rb"%([0-9A-Fa-f]{2})", lambda it: bytes([int(it[1], 16)]), link.encode()))


def main():
    program = str(Path(sys.argv[1]).resolve())
    records = int(sys.argv[2]) if len(sys.argv) > 2 else 2000
    random.seed(int(sys.argv[3]) if len(sys.argv) > 3 else 1)
    kills = int(sys.argv[4]) if len(sys.argv) > 4 else 20
    folder = Path(tempfile.mkdtemp())
    try:
        night = Night(program, folder, records)
        night.whole()
        for part in (lambda: night.killed(kills), night.outputs, night.ended, night.small_disk, night.no_folder, night.index):
            part()
    finally:
        shutil.rmtree(folder, ignore_errors=True)
    print(f"{records} names, {kills} kills, {night.runs} runs, {night.wrong} not as they have to be")
    sys.exit(night.wrong > 0)


main()
