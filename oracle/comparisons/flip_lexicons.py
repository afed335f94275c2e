"""Compares `referee check` with the second checker on the files of random lists of up to 50 words, in both formats, with one bit
changed, or none, with the list, a word more or a word less: flip_lexicons PROGRAM CASES SEED"""
import random
import subprocess
import sys
import tempfile
from collections import Counter
from concurrent.futures import ThreadPoolExecutor
from pathlib import Path

from answers import checked, status_of
from compare_lexicons import LETTERS, other_list
from hints import beside
from lexicons import GAD1, GAD2, build, convert

WORKERS = 2


def random_words():
    """Up to 50 words, often some letters of another one and others after them."""
    words = set()
    for _ in range(random.randint(0, 50)):
        word = "".join(random.choices(LETTERS[: random.randint(2, 9)], k=random.choice([2, 2, 3, 4, 5, 7, 15])))
        if words and random.random() < 0.5:
            other = random.choice(sorted(words))
            word = (other[: random.randint(1, len(other))] + word)[:15]
        words.add(word)
    return words


def flipped(data):
    """A file with one bit changed, most often after the header."""
    first = 16 if len(data) > 16 and random.random() < 0.95 else 0
    at = random.randrange(first, len(data))
    return data[:at] + bytes([data[at] ^ 1 << random.randrange(8)]) + data[at + 1 :]


def cases(count):
    """Word lists and files: most often that of the list with a bit changed."""
    words, files = set(), ()
    for number in range(count):
        if number % 40 == 0:
            words = random_words()
            files = [convert(build(words), form) for form in (GAD1, GAD2)]
        data = random.choice(files)
        kind = random.random()
        yield (other_list(words), data) if kind < 0.05 else (words, data if kind < 0.1 else flipped(data))


def told(program, folder, number, words, data):
    """What the program says of a list and a file, and how it ends."""
    listed, lexicon = (Path(folder, f"{name}{number % (8 * WORKERS)}") for name in ("words", "lexicon"))
    listed.write_text("".join(word + "\n" for word in words))
    lexicon.write_bytes(data)
    ran = subprocess.run([program, "check", listed, lexicon], capture_output=True, check=False)
    return ran.returncode, ran.stdout, ran.stderr == (beside(["check", listed, lexicon], ran.stdout) if ran.returncode else b"")


def main():
    program, count = sys.argv[1], int(sys.argv[2])
    random.seed(int(sys.argv[3]))
    seen, differences, batch = Counter(), 0, []
    with tempfile.TemporaryDirectory() as folder, ThreadPoolExecutor(WORKERS) as pool:
        for number, case in enumerate(cases(count)):
            batch.append((number, case, pool.submit(told, program, folder, number, *case)))
            if len(batch) < 4 * WORKERS and number + 1 < count:
                continue
            for _, (words, data), ran in batch:
                answer = checked("".join(word + "\n" for word in words).encode(), data)
                seen[" ".join(answer.decode().split()[:3])] += 1
                if ran.result() != (status_of(answer), answer, True):
                    differences += 1
                    print(*sorted(words), data.hex(), answer, ran.result(), sep="\n")
            batch = []
    print(f"{count} files, {differences} differences")
    for answer, times in seen.most_common(20):
        print(f"{times:8} {answer}")
    sys.exit(differences > 0)


if __name__ == "__main__":
    main()
