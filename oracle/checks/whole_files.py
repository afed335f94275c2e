"""Breaks the program while it writes a file, and looks at what is there then: whole_files PROGRAM KILLS SEED

Every command that writes a file is run over a file that is there and over none, as often as it makes calls of the system that write: each of
these calls fails in turn, with a device that has no space left or one that is broken, or takes half of its bytes before it does. Then it is
run with a limit on the length of files, and killed at KILLS random moments, half of them while each such call takes some milliseconds. What
the name of the file leads to has to be what was there before or what the command writes, whole; and a run that was not killed leaves no other
file. Where nothing fails, the status and the output are the same as ever.

A library that is loaded in front of the C library refuses the call that the variable REFUSE numbers, with the error ERRNO.
"""
import os
import random
import resource
import signal
import subprocess
import sys
import tempfile
import time
from pathlib import Path

REFUSING = r"""
#define _GNU_SOURCE
#include <dlfcn.h>
#include <errno.h>
#include <fcntl.h>
#include <stdarg.h>
#include <stdlib.h>
#include <sys/stat.h>
#include <sys/types.h>
#include <time.h>
#include <unistd.h>

static long count, wanted = -1, why, half, slow;

/* Whether this call is the one that is refused; 2 where it is a later one of a device that had room for half a call. */
static int refuses(void) {
    if (wanted < 0) {
        const char *number = getenv("REFUSE"), *error = getenv("ERRNO");
        why = error ? atol(error) : EIO;
        half = getenv("HALF") != NULL;
        slow = getenv("SLOW") != NULL;
        wanted = number ? atol(number) : 0;
    }
    if (slow) {
        struct timespec some = {0, 3000000};
        nanosleep(&some, NULL);
    }
    ++count;
    if (wanted == 0 || count < wanted || (count > wanted && !half)) return 0;
    if (count == wanted) {
        int mark = syscall(257, AT_FDCWD, getenv("REFUSED"), O_CREAT | O_WRONLY, 0600);
        if (mark >= 0) close(mark);
        return 1;
    }
    return 2;
}

ssize_t write(int fd, const void *bytes, size_t length) {
    static ssize_t (*next)(int, const void *, size_t);
    if (!next) next = (ssize_t(*)(int, const void *, size_t))dlsym(RTLD_NEXT, "write");
    int refused = refuses();
    if (refused == 1 && half && length > 1) return next(fd, bytes, length / 2);
    if (refused) { errno = why; return -1; }
    return next(fd, bytes, length);
}

int fsync(int fd) {
    static int (*next)(int);
    if (!next) next = (int (*)(int))dlsym(RTLD_NEXT, "fsync");
    if (refuses() == 1) { errno = why; return -1; }
    return next(fd);
}

int rename(const char *from, const char *to) {
    static int (*next)(const char *, const char *);
    if (!next) next = (int (*)(const char *, const char *))dlsym(RTLD_NEXT, "rename");
    if (refuses() == 1) { errno = why; return -1; }
    return next(from, to);
}

int fchmod(int fd, mode_t mode) {
    static int (*next)(int, mode_t);
    if (!next) next = (int (*)(int, mode_t))dlsym(RTLD_NEXT, "fchmod");
    if (refuses() == 1) { errno = why; return -1; }
    return next(fd, mode);
}

int open(const char *path, int flags, ...) {
    static int (*next)(const char *, int, ...);
    if (!next) next = (int (*)(const char *, int, ...))dlsym(RTLD_NEXT, "open");
    va_list more;
    va_start(more, flags);
    int mode = flags & O_CREAT ? va_arg(more, int) : 0;
    va_end(more);
    if ((flags & O_ACCMODE) != O_RDONLY && refuses() == 1) { errno = why; return -1; }
    return next(path, flags, mode);
}
"""
EIO, ENOSPC = 5, 28
MEMORY = "/dev/shm"  # a folder in memory, where a sync takes no time
BEFORE = b"as it was, \x00 and not a text\n" * 9
OTHER_SUM = ">A: DORWAAE 8E WORD +18 18\r\n#note by hand\r\n>B: AT 9G AT 9 9\r\n"
INDEX = "pages/index.html"
COMMANDS = {  # the command line, and the files that it writes
    "build": (["build", "words", "out"], ["out"]),
    "build of a bad list": (["build", "digit", "out"], ["out"]),
    "convert": (["convert", "gad2", "lexicon", "out"], ["out"]),
    "page": (["page", "words", "lexicon", "game", "out"], ["out"]),
    "audit": (["audit", "--corrected", "out", "words", "lexicon", "sheet"], ["out"]),
    "fill": (["fill", "words", "lexicon", "sheet", "out"], ["out"]),
    "archive": (["archive", "--pages", "pages", "words", "lexicon", "game", "sheet"], ["pages/game%.html", "pages/sheet%.html", INDEX]),
}
KILLED = ("build", "page", "archive", "audit")


class Breaker:
    """A program, a folder for its files, and what was not as it has to be."""

    def __init__(self, program, folder):
        self.program, self.folder, self.runs, self.wrong = program, Path(folder), 0, 0
        self.mark = Path(folder, "..", "refused").resolve()
        library = self.folder.parent / "refusing.so"
        library.with_suffix(".c").write_text(REFUSING)
        subprocess.run(["cc", "-shared", "-fPIC", "-O2", "-w", "-o", library, library.with_suffix(".c"), "-ldl"], check=True)
        self.loaded = {"LD_PRELOAD": str(library), "REFUSED": str(self.mark)}

    def files(self):
        """Writes the inputs."""
        listed = {"WORD", "AT", "RA", "DT"} | {"".join(random.choices("AEINRSTOLD", k=random.randint(2, 9))) for _ in range(1500)}
        for name, text in {
            "words": "".join(f"{word}\n" for word in sorted(listed)),
            "digit": "AT\nA1\n",
            "game": ">A: DORWAAE 8E WORD +16 16\n>B: AT 9G AT +9 9\n",
            "sheet": OTHER_SUM,
        }.items():
            (self.folder / name).write_bytes(text.encode())
        (self.folder / "pages").mkdir()
        subprocess.run([self.program, "build", "words", "lexicon"], cwd=self.folder, check=True)

    def prepare(self, outs, there):
        """Puts the files that a command writes in the state that they have before it."""
        for name in outs:
            (self.folder / name).unlink(missing_ok=True)
            if there:
                (self.folder / name).write_bytes(BEFORE)

    def found(self, outs):
        """What the files have, None for one that is not there."""
        return [(self.folder / it).read_bytes() if (self.folder / it).exists() else None for it in outs]

    def left(self):
        """Removes the files that a run left next to those that it writes, and gives their names."""
        names = list(self.folder.glob("**/.referee-*"))
        for it in names:
            it.unlink()
        return [it.name for it in names]

    def run(self, words, more, limit=None):
        """One run, and whether it met the refusal."""
        self.mark.unlink(missing_ok=True)
        self.runs += 1
        ran = subprocess.run(
            [self.program, *words],
            cwd=self.folder,
            env={**os.environ, **self.loaded, **more},
            capture_output=True,
            timeout=60,
            check=False,
            preexec_fn=limit,
        )
        return (ran.returncode, ran.stdout, ran.stderr), self.mark.exists()

    def expect(self, good, *what):
        """Says what is not as it has to be."""
        if not good:
            self.wrong += 1
            print(*(str(it)[:300] for it in what), sep="\n  ")

    def whole(self, outs, found, there, new):
        """Whether each file is as it was or as the command writes it. An index has no link of a page that could not be written."""
        old = BEFORE if there else None
        return all(
            it in (old, made) or it and out == INDEX and it.startswith(made[:99]) and it.endswith(made[-99:])
            for out, it, made in zip(outs, found, new)
        )

    def refuse(self, name, words, outs, there, ends, new):
        """Refuses each call of a command in turn, in several ways."""
        calls = 0
        for more in ({"ERRNO": str(EIO)}, {"ERRNO": str(ENOSPC)}, {"ERRNO": str(ENOSPC), "HALF": "1"}):
            for number in range(1, 1000):
                self.prepare(outs, there)
                ended, refused = self.run(words, {**more, "REFUSE": str(number)})
                found, left = self.found(outs), self.left()
                what = (name, more, number, ended, found)
                self.expect(self.whole(outs, found, there, new), *what)
                self.expect(not left, *what, left)
                self.expect(ended == ends and found == new or refused and (ended[0] == 4 or ended[:2] == ends[:2]), *what)
                if not refused:
                    break
                calls += 1
        print(f"{calls:6} calls refused  {name}, {'over a file' if there else 'over none'}")

    def limit(self, name, words, outs, there, new):
        """Runs a command with a limit on the length of files, which stops it or fails its writes."""
        for length in {0, 1, *(len(it) - 1 for it in new)}:
            for ignores in (False, True):

                def limited(length=length, ignores=ignores):
                    resource.setrlimit(resource.RLIMIT_FSIZE, (length, length))
                    signal.signal(signal.SIGXFSZ, signal.SIG_IGN if ignores else signal.SIG_DFL)

                self.prepare(outs, there)
                ended, _ = self.run(words, {}, limited)
                found, left = self.found(outs), self.left()
                self.expect(self.whole(outs, found, there, new) and not (ignores and left), name, "limit", length, ended, found, left)
                self.expect(ended[0] == 4 if ignores else ended[0] in (-signal.SIGXFSZ, 4), name, "limit", length, ended)

    def kill(self, name, words, outs, there, new, kills):
        """Kills a command at random moments."""
        middle = 0
        for slow in (False, True):
            more = {**self.loaded, "SLOW": "1"} if slow else {}
            start = time.monotonic()
            self.prepare(outs, there)
            subprocess.run([self.program, *words], cwd=self.folder, env={**os.environ, **more}, capture_output=True, check=False)
            lasts = time.monotonic() - start
            for _ in range(kills // 2):
                self.prepare(outs, there)
                self.runs += 1
                with subprocess.Popen(
                    [self.program, *words], cwd=self.folder, env={**os.environ, **more}, stdout=subprocess.DEVNULL, stderr=subprocess.DEVNULL
                ) as process:
                    time.sleep(random.uniform(0, lasts))
                    process.kill()
                found, left = self.found(outs), self.left()
                middle += bool(left)
                self.expect(self.whole(outs, found, there, new), name, "killed", found)
        print(f"{kills:6} kills  {name}, {middle} of them while it wrote a file")

    def command(self, name, words, outs, kills):
        """A command, over files that are there and over none."""
        ends, new = None, None
        for there in (True, False):
            self.prepare(outs, there)
            ended, _ = self.run(words, {})
            found = self.found(outs)
            self.expect(ends is None or (ended, found) == (ends, new), name, "over none", ended)
            self.expect(None not in found and BEFORE not in found and not self.left(), name, ended, found)
            ends, new = ended, found
            self.refuse(name, words, outs, there, ends, new)
            self.limit(name, words, outs, there, new)
        if name in KILLED:
            self.kill(name, words, outs, True, new, kills)


def main():
    program, kills = str(Path(sys.argv[1]).resolve()), int(sys.argv[2])
    random.seed(int(sys.argv[3]))
    with tempfile.TemporaryDirectory(dir=MEMORY if os.access(MEMORY, os.W_OK) else None) as folder:
        inner = Path(folder, "files")
        inner.mkdir()
        breaker = Breaker(program, inner)
        breaker.files()
        for name, (words, outs) in COMMANDS.items():
            breaker.command(name, words, outs, kills)
    print(f"{breaker.runs} runs, {breaker.wrong} not as they have to be")
    sys.exit(breaker.wrong > 0)


main()
