"""Compares `referee build`, `referee check` and `referee convert` with the second builder, checker and converter on random lists, and
on their files in both formats with changes: compare_lexicons PROGRAM CASES SEED"""
import random
import struct
import subprocess
import sys
from collections import Counter
from pathlib import Path

from answers import checked, converted, status_of
from comparing import compared
from hints import beside
from lexicons import GAD1, GAD2, MARK, build, convert

LETTERS = "ABEINRSTZ"


def random_words():
    """Words of few letters, often with a front, a back or the reverse of another."""
    words = set()
    for _ in range(random.choice([0, 1, 1, 2, 3, 5, 8, 20])):
        word = "".join(random.choices(LETTERS[: random.randint(1, 9)], k=random.choice([2, 2, 3, 4, 5, 9, 15])))
        if words and random.random() < 0.5:
            other = random.choice(sorted(words))
            word = random.choice([other[::-1], other + word, word + other, other[:-1], other[1:]])
        if 2 <= len(word) <= 15:
            words.add(word)
    return words


def changed(data):
    """A file with a change, often one that keeps its form."""
    data = bytearray(data)
    kind, count = random.randrange(10), (len(data) - 16) // 4
    if kind == 0:
        return bytes(data[: random.randrange(len(data) + 1)])
    if kind == 1:
        return bytes(data) + bytes(random.randint(1, 5))
    if kind == 2:
        data[random.randrange(16)] ^= 1 << random.randrange(8)
    elif kind == 3:
        struct.pack_into("<I", data, 12, random.randrange(9))
    elif kind == 4 and count:
        struct.pack_into("<I", data, 8, random.randint(0, count + 1))
    elif count:
        at = 16 + 4 * random.randrange(count)
        word = struct.unpack_from("<I", data, at)[0]
        change = changed_arc if data[:4] == GAD1 else changed_mask
        struct.pack_into("<I", data, at, change(word, count) & 0xFFFFFFFF)
    return bytes(data)


def changed_arc(word, count):
    """A word of the first format with a bit, its mark of acceptance, its label or its target changed."""
    labels, targets = word & ~31 | random.randrange(28), word & 127 | random.randint(0, count) << 7
    return random.choice([word ^ 1 << random.randrange(32), word ^ 32, word ^ 32, labels, targets])


def changed_mask(word, count):
    """A word of the second format with a bit or its mark changed, or another word."""
    few = 1 << random.randrange(27) | 1 << random.randrange(27)
    return random.choice([word ^ 1 << random.randrange(32), word ^ MARK, random.randint(0, count), word | few, word & ~few, MARK | few])


def other_list(words):
    """The words, one more or one less."""
    words = set(words)
    if words and random.random() < 0.5:
        words.remove(random.choice(sorted(words)))
    else:
        words.add("".join(random.choices(LETTERS, k=random.randint(2, 6))))
    return words


class Lexicons:
    """A program, a folder for its files, and what was compared so far."""

    def __init__(self, program, folder):
        self.program, self.seen = program, Counter()
        self.words, self.out, self.lexicon = (Path(folder, name) for name in ("words", "out", "lexicon"))

    def run(self, words, expected, status, wrote=False):
        """Runs a command and stops where it does not give the answer that is expected: on standard output, or in its file."""
        ran = subprocess.run([self.program, *words], capture_output=True, check=False)
        told, printed = (self.out.read_bytes(), ran.stdout) if wrote else (ran.stdout, b"")
        if (ran.returncode, told, printed, ran.stderr) != (status, expected, b"", beside(words, expected) if status else b""):
            print(*words, self.words.read_text(), self.lexicon.read_bytes().hex(), sep="\n")
            print("expected", status, expected, "got", ran, told, sep="\n")
            sys.exit(1)
        first = expected.split(b"\n")[0].decode("latin-1") if status else "done"
        self.seen[f"{words[0]}: {' '.join(first.split()[:3])}"] += 1

    def build(self, words):
        """Compares the file of a list, whose words are written in either case and in any order."""
        lines = [word if random.random() < 0.8 else word.lower() for word in words]
        random.shuffle(lines)
        self.words.write_text("".join(line + "\n" for line in lines))
        self.lexicon.write_bytes(b"")
        self.run(["build", self.words, self.out], build(words), 0, wrote=True)

    def check(self, words, data):
        """Compares what is said of a list and a file, and the file in both formats."""
        text = "".join(word + "\n" for word in words)
        self.words.write_text(text)
        self.lexicon.write_bytes(data)
        answer = checked(text.encode(), data)
        self.run(["check", self.words, self.lexicon], answer, status_of(answer))
        for form in ("gad1", "gad2"):
            answer = converted(data, form)
            self.run(["convert", form, self.lexicon, self.out], answer, status_of(answer), wrote=True)


def compare(lexicons, cases):
    """Compares random lists, and files of them with changes."""
    for _ in range(cases):
        words = random_words()
        lexicons.build(words)
        for form in (GAD1, GAD2) * 2:
            words_now = words if random.random() < 0.7 else other_list(words)
            data = convert(build(words), form)
            for _ in range(random.choice([0, 1, 1, 1, 2])):
                data = changed(data) if len(data) >= 16 else data
            lexicons.check(words_now, data)


def main():
    lexicons, cases = compared(Lexicons, compare)
    print(f"{cases} lists, no difference")
    for answer, times in sorted(lexicons.seen.items()):
        print(f"{times:8} {answer}")


if __name__ == "__main__":
    main()
