"""Refuses each request for memory in turn, until a run meets no refusal: refuse_memory TESTS [PROGRAM]

TESTS is crates/test_hostile/out/test_hostile_tests, which `rt test` makes in that crate, or crates/test_deals/out/test_deals_tests; `-`
stands for no tests. Each of its tests with `refused` in its name is run alone, its first request refused, then its second, and so on: the
test itself says whether what came of it may come. PROGRAM is crates/referee/out/referee: its commands are run on worked rows in the
same way, and each run has to end with the row's output or with the status 4, `no memory` on standard error and no output; a run of `archive`
may also say of one game that there was no memory for it, and go on.

A library that is loaded in front of the C library refuses the request, by malloc or realloc, that the variable REFUSE numbers.
"""
import os
import re
import subprocess
import sys
import tempfile
from pathlib import Path

REFUSING = r"""
#define _GNU_SOURCE
#include <dlfcn.h>
#include <fcntl.h>
#include <stdlib.h>
#include <unistd.h>

static long count, wanted = -1;

static int refuses(void) {
    if (wanted < 0) {
        const char *number = getenv("REFUSE");
        wanted = number ? atol(number) : 0;
    }
    if (++count != wanted) return 0;
    close(open(getenv("REFUSED"), O_CREAT | O_WRONLY, 0600));
    return 1;
}

void *malloc(size_t size) {
    static void *(*next)(size_t);
    if (!next) next = (void *(*)(size_t))dlsym(RTLD_NEXT, "malloc");
    return refuses() ? NULL : next(size);
}

void *realloc(void *old, size_t size) {
    static void *(*next)(void *, size_t);
    if (!next) next = (void *(*)(void *, size_t))dlsym(RTLD_NEXT, "realloc");
    return refuses() ? NULL : next(old, size);
}
"""
WORD, ON_WORD = ">A: DORWAAE 8E WORD +16 16\n", "WORD\nAT\nRA\n"
TURNS = WORD + ">B: AT 9G AT +9 9\n>B: AT -- -9 0\n>A: AT 9G AT +9 25\n"
UNTIDY = "\ufeff#player1 A  Ann Lee\r\n#note x\n>A:\tDORWAAE  8e WORD 16 16\r\n"
ROWS = [  # the command, the words, the record
    (["judge", "words", "lexicon", "game"], "WORD\n", WORD),
    (["judge", "words", "lexicon", "game"], ON_WORD, TURNS),
    (["judge", "words", "lexicon", "game"], "WORD\n", ">A: Q -Q +0 0\n>B: - +0 0\n>A: Q - +0 0\n"),
    (["judge", "words", "lexicon", "game"], "AT\n", ">A: AEI -5 +0 0\n>B: QU - +0 0\n>A: SX - +0 0\n"),
    (["explain", "words", "lexicon", "game"], "WORD\n", WORD.replace("16 16", "18 18")),
    (["explain", "words", "lexicon", "game"], "AT\n", ">A: ?? - +0 0\n>B: ? - +0 0\n"),
    (["explain", "words", "lexicon", "game"], "AT\n", ">A: - +0 0\n>B: - +0 0\n>C: - +0 0\n"),
    (["page", "words", "lexicon", "game", "out"], ON_WORD, TURNS),
    (["page", "words", "lexicon", "game", "out"], "WORD\n", "#player1 A <b>\xe9\n" + WORD.replace("16 16", "18 18")),
    (["fill", "words", "lexicon", "game", "out"], ON_WORD, TURNS.replace(" +9 9", "").replace(" -9 0", "").replace(" 25", "")),
    (["fill", "--next", "words", "lexicon", "game"], ON_WORD, TURNS.replace(" +9 9", "")),
    (["build", "words", "out"], "AT\n", ""),
    (["check", "words", "lexicon"], "AT\n", ""),
    (["convert", "gad2", "lexicon", "out"], "AT\n", ""),
    (["top", "words", "lexicon", "game", "?A"], "AT\n", ""),
    (["tidy", "game"], "", UNTIDY),
    (["archive", "words", "lexicon", "game", "nowhere", "game"], ON_WORD, TURNS),
    (["archive", "--json", "--names", "names", "words", "lexicon"], "AT\n", ">A: Q -Q +0 0\n>B: - +0 0\n>A: Q - +0 0\n"),
    (["archive", "--pages", "pages", "words", "lexicon", "game", "nowhere", "game"], ON_WORD, TURNS),
]


def unnumbered(line):
    """A line of an archive without the number in the name of its page: a page that there was no memory for takes no name."""
    return re.sub(rb"(-\d+)?\.html$", b".html", line)


def is_archive(ran, row):
    """Whether lines are those of a row but for one game for which, or for whose page, there was no memory; or those of the first games, where
    there was none for a line at all, or of all games, where there was none for the index."""
    told, wanted = ([unnumbered(it) for it in lines.splitlines()] for lines in (ran.stdout, row.stdout))
    if (ran.returncode, ran.stderr) == (4, b"referee: no memory\n"):
        return told == wanted[: len(told)]
    changed = [it for it, want in zip(told, wanted) if it != want]
    return (ran.returncode, ran.stderr, len(told)) == (4, b"", len(wanted)) and len(changed) == 1 and b"no memory" in changed[0]


class Refuser:
    """Runs a command in a folder with one request refused."""

    def __init__(self, folder):
        self.folder, self.mark = folder, Path(folder, "refused")
        Path(folder, "refusing.c").write_text(REFUSING)
        words = ["cc", "-shared", "-fPIC", "-O2", "-o", "refusing.so", "refusing.c", "-ldl"]
        subprocess.run(words, cwd=folder, check=True)

    def run(self, words, number):
        """The run, and whether it met the refusal."""
        self.mark.unlink(missing_ok=True)
        more = {"LD_PRELOAD": f"{self.folder}/refusing.so", "REFUSE": str(number), "REFUSED": str(self.mark)}
        ran = subprocess.run(words, cwd=self.folder, env={**os.environ, **more}, capture_output=True, timeout=60, check=False)
        return ran, self.mark.exists()

    def each(self, words, is_good):
        """Refuses each request in turn. Gives how many there were, and the numbers of those that were answered wrongly."""
        wrong = []
        for number in range(1, 1_000_000):
            ran, refused = self.run(words, number)
            if not is_good(ran, refused):
                wrong.append(number)
            if not refused:
                return number - 1, wrong


def tell(name, requests, wrong):
    print(f"{requests:6} requests refused  {name}{f'  WRONG: {wrong}' if wrong else ''}")
    return requests, len(wrong)


def try_tests(refuser, tests):
    """Each test of refusals."""
    listed = subprocess.run([tests, "--list"], capture_output=True, text=True, check=True).stdout
    for name in (it.removesuffix(": test") for it in listed.splitlines() if "refused" in it):
        yield tell(name, *refuser.each([tests, name], lambda ran, _: ran.returncode == 0 and b"test result: ok" in ran.stdout))


def try_program(refuser, program):
    """Each row of the program, after a run without refusals that says what is to come."""
    for words, listed, game in ROWS:
        Path(refuser.folder, "words").write_text(listed)
        Path(refuser.folder, "game").write_bytes(game.encode())
        Path(refuser.folder, "names").write_text("game\nnowhere\ngame\n")
        subprocess.run([program, "build", "words", "lexicon"], cwd=refuser.folder, check=True)
        out = Path(refuser.folder, "out")
        row = refuser.run([program, *words], 0)[0]
        makes_out = words[-1] == "out"
        wrote = out.read_bytes() if makes_out else b""
        out.unlink(missing_ok=True)

        def is_good(ran, refused, row=row, wrote=wrote, makes_out=makes_out, words=words):
            # What an earlier run left in OUT is gone before the next one, which may end before it opens OUT.
            now = out.read_bytes() if makes_out and out.exists() else b""
            out.unlink(missing_ok=True)
            if (ran.returncode, ran.stdout, ran.stderr, now) == (row.returncode, row.stdout, row.stderr, wrote):
                return True
            if words[0] == "archive":
                return refused and is_archive(ran, row)
            return refused and (ran.returncode, ran.stdout, ran.stderr, now) == (4, b"", b"referee: no memory\n", b"")

        yield tell(f"referee {words[0]}: {game.splitlines()[-1] if game else listed.strip()}", *refuser.each([program, *words], is_good))


def main():
    found = []
    with tempfile.TemporaryDirectory() as folder:
        refuser = Refuser(folder)
        if sys.argv[1] != "-":
            found += try_tests(refuser, str(Path(sys.argv[1]).resolve()))
        if len(sys.argv) > 2:
            found += try_program(refuser, str(Path(sys.argv[2]).resolve()))
    wrong = sum(it[1] for it in found)
    print(f"{len(found)} rows, {sum(it[0] for it in found)} refusals, {wrong} answered wrongly")
    sys.exit(wrong > 0 or not found)


main()
