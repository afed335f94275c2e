"""What comparisons of the program with the second judge have in common: how cases are counted and differences printed, and records that
are judged by both."""
import random
import subprocess
import sys
import tempfile
from collections import Counter
from pathlib import Path

from best import kinds_told
from deals import judge_deal, legal_report, settled_ways
from lexicons import build

NOT_WRITTEN = "not written: either the bonus or penalty after Or: is missing, or the number is wrong"


class Differences:
    """A program, a folder for its inputs, how many differences were printed, and what was seen how often."""

    def __init__(self, program, folder):
        self.program, self.folder, self.differences, self.seen = program, Path(folder), 0, Counter()

    def put(self, name, data):
        """Writes a file of the folder, and gives its bytes back."""
        (self.folder / name).write_bytes(data)
        return data

    def run(self, *words):
        """Runs the program in the folder."""
        return subprocess.run([self.program, *words], cwd=self.folder, capture_output=True, check=False, timeout=600)

    def expect(self, good, *what):
        """Prints a difference, if there is one."""
        if not good:
            self.differences += 1
            print(*what, sep="\n  ")

    def end(self, cases, counted="cases"):
        """Says what was compared; the exit status is 1 where anything differs."""
        print(f"{cases} {counted}, {self.differences} differences", dict(sorted(self.seen.items())))
        sys.exit(self.differences > 0)


def without_lead(printed, leads):
    """What `explain` prints of a record, without the line that says who is ahead by the right numbers; whether that is one of these, or nothing if
    the record has a likely repair."""
    if b"\nLikely: " in printed:
        return printed, True
    lead = max((it for it in leads if printed.endswith(b"\n" + it)), key=len, default=None)
    return printed.removesuffix(lead or b""), lead is not None and (lead != b"" or b"" in leads)


def suggestion(printed):
    """What `explain` prints up to the likely repair or to a bonus or a penalty, the word before that, and what follows."""
    for word in (b"Likely: ", b"Or: "):
        said, found, rest = printed.partition(b"\n" + word)
        if found:
            return said + b"\n", word, rest
    return printed, b"", b""


def without_amount(lines):
    """The lines of an audit without what is said of a bonus or a penalty that would explain its numbers, and that."""
    first = next((k for k, text in enumerate(lines) if text.startswith("Or: ")), len(lines))
    last = next((k for k in range(first + 1, len(lines)) if not lines[k].startswith("  ")), len(lines))
    return [it for it in lines[:first] + lines[last:] if it != NOT_WRITTEN], lines[first:last]


def compared(make, compare):
    """What `make` made of the program that the command line names and a folder for its inputs, after `compare(made, cases)` with the number
    of cases there and from its seed on; and that number."""
    program, cases = str(Path(sys.argv[1]).resolve()), int(sys.argv[2])
    random.seed(int(sys.argv[3]))
    with tempfile.TemporaryDirectory() as folder:
        made = make(program, folder)
        compare(made, cases)
    return made, cases


def compare_cases(make, case):
    """Compares as many cases as the command line says: `case(made, number)`."""
    made, cases = compared(make, lambda made, cases: [case(made, number) for number in range(cases)])
    made.end(cases)


class Comparison:
    """A program, a folder for its inputs, and what was printed so far."""

    def __init__(self, program, folder):
        self.program, self.differences, self.verdicts, self.kinds, self.settled = program, 0, Counter(), Counter(), Counter()
        self.words, self.lexicon, self.game = (Path(folder, name) for name in ("words", "lexicon", "game"))

    def judge(self, events, text, listed, dealt=False):
        """Compares the whole reports of a record: its events for the second judge, its text for the program. One that was dealt for real
        has to be legal once it is settled."""
        self.words.write_text("\n".join(sorted(listed)))
        self.lexicon.write_bytes(build(listed))
        self.game.write_text(text)
        words = [self.program, "judge", self.words, self.lexicon, self.game]
        told = subprocess.run(words, capture_output=True, check=False).stdout.decode()
        expected = judge_deal(events, listed)
        verdict = expected.split("\n")[0]
        self.verdicts[verdict.split(": ")[-1].split(" ")[0] if verdict.startswith("illegal") else verdict] += 1
        self.kinds += kinds_told(expected)
        if told != expected:
            self.differences += 1
            print(text, "listed", *sorted(listed), "program", told, "second judge", expected, sep="\n")
        ways = [legal_report(events, listed)] if dealt else settled_ways(events, listed)
        words.insert(2, "--settle")
        settled = subprocess.run(words, capture_output=True, check=False).stdout.decode()
        self.settled[settled.split("\n")[0].split(": ")[-1] if settled.startswith("illegal") else settled.split("\n")[0]] += expected == "unsettled\n"
        if settled not in ways:
            self.differences += 1
            print(text, "listed", *sorted(listed), "settled", settled, "second judge", ways[0], sep="\n")

    def end(self):
        """Says what was compared; the exit status is 1 where anything differs."""
        print(f"{self.verdicts.total()} games, {self.differences} differences", dict(sorted(self.verdicts.items())))
        print("settled of those left open:", ", ".join(f"{kind} {times}" for kind, times in sorted(self.settled.items()) if times))
        print("best plays:", ", ".join(f"{kind} {times}" for kind, times in sorted(self.kinds.items())))
        sys.exit(self.differences > 0)
