"""Damages word lists, lexicon files, records and rules texts at random, and compares the program with the second judge on what comes
of it: fuzz PROGRAM SECONDS SEED

Each round makes a game that was dealt for real, its list and its lexicon in either format, damages some of them, and runs `judge`,
`audit`, `explain`, `page`, `annotate`, `check`, `build`, `convert`, `tidy`, `top` and `board` on them; some rounds judge by a rules text, which may
be damaged too. Statuses, outputs and the files of `build` and `convert` have to be those of the second judge.
"""
import random
import subprocess
import sys
import tempfile
import time
from collections import Counter
from pathlib import Path

import web
from annotations import annotated
from answers import (
    NO_GAME,
    audit_status,
    audited,
    boarded,
    built,
    checked,
    converted,
    error_of,
    explained,
    first_fields,
    judged,
    lead_of,
    settled,
    status_of,
    topped,
    words_of,
)
from comparing import suggestion, without_amount, without_lead
from dealing import Dealer, likely, line, words_in_reach
from lexicons import GAD2, build, convert
from mistakes import with_unread_line
from records import tidy
from rules import ENGLISH
from ruling import another_text, damaged_text, random_rules

choose = random.choice
sys.setrecursionlimit(100_000)
BOM = b"\xef\xbb\xbf"
TOKENS = [b"-", b"--", b"(challenge)", b"(time)", b"(A?)", b"-7", b"-AE", b"-8", b"8H", b"h8", b"15O", b"16A", b"?", b"???????"]
TOKENS += [b"AEINRST", b"+0", b"-0", b"+5", b"-999999", b"+1000000", b"AT", b"a.T", b"(AT)", b"()", b"A" * 15, b"A" * 16]
PARTS = [b"\n", b"\r\n", b"\r", b" ", b"\t", b":", b">", b"#player1 A\n", b"#player2 B\n", b">A: - +0 0\n", b">B: -- +0 0\n", BOM]
PARTS += [b"\0", b"\xff", b"A", b"z", b"QI\n", b"A\n", b"+", b"(", b")", b"."]


def with_bit(data):
    at = random.randrange(len(data))
    return data[:at] + bytes([data[at] ^ 1 << random.randrange(8)]) + data[at + 1 :]


def with_part(data):
    at, gone = random.randint(0, len(data)), choose([0, 0, 1, 3])
    return data[:at] + choose(PARTS) + data[at + gone :]


def cut(data):
    first, last = sorted(random.randint(0, len(data)) for _ in range(2))
    return choose([data[:last], data[first:], data[:first] + data[last:]])


def with_lines_moved(data):
    lines = data.splitlines(keepends=True)
    first, last = random.randrange(len(lines)), random.randrange(len(lines))
    if likely(0.3):
        lines.insert(first, lines[last])
    elif likely(0.5):
        del lines[first]
    else:
        lines[first], lines[last] = lines[last], lines[first]
    return b"".join(lines)


def with_token(data):
    lines = data.split(b"\n")
    at = random.randrange(len(lines))
    fields = lines[at].split(b" ")
    fields[random.randrange(len(fields))] = choose(TOKENS)
    lines[at] = b" ".join(fields)
    return b"\n".join(lines)


def with_word(data):
    """A file with one of its words of four bytes changed: a label, a mark, a target, or the whole of it."""
    at = random.randrange(max(1, len(data) // 4)) * 4
    word = int.from_bytes(data[at : at + 4], "little")
    word = choose([word ^ 32, word ^ 64, word & ~31 | random.randrange(28), word & 127 | random.randint(0, len(data) // 4) << 7])
    return data[:at] + (choose([word, word, random.getrandbits(32)]) % 2**32).to_bytes(4, "little") + data[at + 4 :]


TEXT_DAMAGES = [with_bit, with_part, with_part, cut, with_lines_moved, with_token, with_token, with_unread_line]


def damaged(data, ways, most):
    """Bytes with a few changes of some ways."""
    for _ in range(random.randint(min(1, most), most)):
        if data:
            data = choose(ways)(data)
    return data


class Fuzzer:
    """Runs the program in a folder, and counts what it says otherwise than the second judge."""

    def __init__(self, program, folder):
        self.program, self.seen, self.differences = program, Counter(), 0
        self.words, self.lexicon, self.game, self.out = (Path(folder, it) for it in ("words", "lexicon", "game", "out"))
        self.rules = Path(folder, "rules")
        self.fielded = []

    def compare(self, words, expected, status, wrote=None, name=None):
        ran = subprocess.run([self.program, *words], capture_output=True, check=False, timeout=60)
        told = ran.stdout if wrote is None else wrote.read_bytes()
        self.seen[f"{name or words[0]} {status}"] += 1
        if told != expected or ran.returncode != status or ran.stderr != error_of(words, expected, self.game):
            self.differences += 1
            print(*words, "status", ran.returncode, "for", status, ran.stderr)
            print(" ", told, "  for", expected, sep="\n  ")
            for it in (self.words, self.lexicon, self.game, self.rules):
                print(" ", it.name, it.read_bytes())

    def settle(self, by, ways):
        """`judge --settle` has to print one of some answers."""
        words = ["judge", "--settle", *by, self.words, self.lexicon, self.game]
        ran = subprocess.run([self.program, *words], capture_output=True, check=False, timeout=60)
        self.seen[f"judge --settle {ran.returncode}"] += 1
        if (
            ran.stdout not in ways
            or ran.returncode != status_of(ran.stdout)
            or ran.stderr != error_of(words, b"" if ran.stdout == b"unsettled\n" else ran.stdout, self.game)
        ):
            self.differences += 1
            print(*words, "status", ran.returncode, ran.stdout, ran.stderr, "for", ways[:2], self.game.read_bytes(), sep="\n  ")

    def audit(self, by, ways):
        """`audit` has to print one of some answers, and to write a record exactly where the events are allowed."""
        self.out.unlink(missing_ok=True)
        words = ["audit", *by, "--corrected", self.out, self.words, self.lexicon, self.game]
        ran = subprocess.run([self.program, *words], capture_output=True, check=False, timeout=60)
        self.seen[f"audit {ran.returncode}"] += 1
        rest, amount = without_amount(ran.stdout.decode("latin-1").split("\n"))
        said = "\n".join(rest).encode("latin-1")
        wrote = self.out.exists() == (any(it.startswith(("legal", "unsettled")) for it in rest) and not amount)
        if said not in ways or ran.returncode != audit_status(said) or ran.stderr != error_of(words, said, self.game) or not wrote:
            self.differences += 1
            print(*words, "status", ran.returncode, ran.stdout, ran.stderr, "for", ways[:2], self.game.read_bytes(), sep="\n  ")

    def explain(self, by, words, lexicon, game, text):
        """`explain`, of the verdict or of a line: after the verdict line, of which one of some has to come, each byte is known up to the likely
        repair."""
        asked = choose([None, None, random.randint(0, game.count(b"\n") + 2)])
        named = [] if asked is None else [str(asked)]
        line_ = [self.program, "explain", *by, self.words, self.lexicon, self.game, *named]
        printed = subprocess.run(line_, capture_output=True, check=False, timeout=60).stdout
        bare, good = without_lead(printed, lead_of(words, lexicon, game, text)) if asked is None else (printed, True)
        said, word, repair = suggestion(bare)
        told = explained(words, lexicon, game, asked, said, text)
        self.compare(line_[1:], told + word + repair + printed[len(bare) :] if good else b"who is ahead", status_of(told))

    def page(self, by, ways):
        """`page` has to print the verdict line of one of some answers, and to write a page that can be read exactly where there is a record."""
        self.out.unlink(missing_ok=True)
        words = ["page", *by, self.words, self.lexicon, self.game, self.out]
        ran = subprocess.run([self.program, *words], capture_output=True, check=False, timeout=60)
        self.seen[f"page {ran.returncode}"] += 1
        ways = [NO_GAME] if ways == [b"legal unfinished\n"] else ways
        good = (
            ran.stdout in {it.split(b"\n")[0] + b"\n" for it in ways}
            and ran.returncode == status_of(ran.stdout)
            and ran.stderr == error_of(words, ran.stdout, self.game)
        )
        if self.out.exists():
            web.read(self.out.read_bytes())
        if not good or self.out.exists() != (ran.returncode in (0, 1, 2)):
            self.differences += 1
            print(*words, "status", ran.returncode, ran.stdout, ran.stderr, "for", ways[:2], self.game.read_bytes(), sep="\n  ")

    def annotate(self, by, ways, *inputs):
        """`annotate` has to print the verdict line of one of some answers, and to write the record with its notes where there is one."""
        self.out.unlink(missing_ok=True)
        number = choose([1, 1, 3])
        words = ["annotate", *by, "--top", str(number), self.words, self.lexicon, self.game, self.out]
        ran = subprocess.run([self.program, *words], capture_output=True, check=False, timeout=60)
        self.seen[f"annotate {ran.returncode}"] += 1
        ways = [NO_GAME] if ways == [b"legal unfinished\n"] else ways
        good = (
            ran.stdout in {it.split(b"\n")[0] + b"\n" for it in ways}
            and ran.returncode == status_of(ran.stdout)
            and ran.stderr == error_of(words, ran.stdout, self.game)
        )
        told = self.out.read_bytes() if self.out.exists() else None
        wanted = annotated(*inputs, ran.stdout.decode("latin-1").removesuffix("\n"), number, (told or b"").decode("latin-1")) if good else None
        if not good or told != wanted:
            self.differences += 1
            print(*words, "status", ran.returncode, ran.stdout, ran.stderr, told, "for", ways[:2], wanted, self.game.read_bytes(), sep="\n  ")

    def round(self, words, lexicon, game, text):
        """One run of each command; a text is that of the rules to play by, None for none."""
        self.fielded = ["--first-field"] if likely(0.3) else []
        if self.fielded:
            words = with_more(words)
        for it, data in ((self.words, words), (self.lexicon, lexicon), (self.game, game), (self.rules, text or b"")):
            it.write_bytes(data)
        words = first_fields(words) if self.fielded else words
        ruled = ["--rules", self.rules] if text is not None else []
        by = [*self.fielded, *ruled]
        report = judged(words, lexicon, game, text)
        self.compare(["judge", *by, self.words, self.lexicon, self.game], report, status_of(report))
        settlings = settled(words, lexicon, game, text)
        self.settle(by, settlings)
        self.page(by, settlings)
        self.annotate(by, settlings, words, lexicon, game, text)
        self.audit(by, audited(words, lexicon, game, text))
        self.explain(by, words, lexicon, game, text)
        rack = choose(["A", "?E", "AEINRST"])
        plays = topped(words, lexicon, game, rack, text)
        self.compare(["top", *by, self.words, self.lexicon, self.game, rack], plays, status_of(plays))
        self.top_before(by, words, lexicon, game, text)
        self.board(ruled, game, text)
        self.files(words, lexicon, game)

    def top_before(self, by, words, lexicon, game, text):
        """`top` before a line, with the rack of the line or another one."""
        before, number = random.randint(0, game.count(b"\n") + 2), choose([1, 10, 12, 100])
        rack = choose([None, None, "?E", "AEINRST"])
        plays = topped(words, lexicon, game, rack, text, number, before)
        named = ["--before", str(before), "--number", str(number)]
        self.compare(
            ["top", *by, *named, self.words, self.lexicon, self.game, *([rack] if rack else [])], plays, status_of(plays), name="top --before"
        )

    def board(self, ruled, game, text):
        """`board`, after the last event and before a line."""
        for before in (None, random.randint(0, game.count(b"\n") + 2)):
            named = [] if before is None else ["--before", str(before)]
            shown = boarded(game, before, text)
            self.compare(["board", *ruled, *named, self.game], shown, status_of(shown))

    def files(self, words, lexicon, game):
        """The commands that judge no game."""
        line_ = checked(words, lexicon)
        self.compare(["check", *self.fielded, self.words, self.lexicon], line_, status_of(line_))
        file = built(words)
        self.compare(["build", *self.fielded, self.words, self.out], file, status_of(file), wrote=self.out)
        form = choose(["gad1", "gad2"])
        other = converted(lexicon, form)
        self.compare(["convert", form, self.lexicon, self.out], other, status_of(other), wrote=self.out)
        normal = tidy(game)
        self.compare(["tidy", self.game], normal, 3 if normal.startswith(b"bad record") else 0)


def with_more(words):
    """A list with more after its words, and remarks among them."""
    more = [b"", b" 4", b"\ta word # of a list", b" \t", b" 4\r", b"\n# a remark", b"\n#", b"\n\t4"]
    return b"\n".join(text + (choose(more) if likely(0.5) else b"") for text in words.split(b"\n"))


def sample(rules):
    """A game that was dealt for real by some rules and the words of its list."""
    dealer = Dealer(rules, choose([1, 3, 8, 20]), choose([(), ("known",), ("unknown",)]), choose(["whole", "part", "mixed"]))
    events, _, _ = dealer.game()
    listed = set(dealer.listed)
    for _ in range(choose([0, 0, 1])):
        listed |= words_in_reach(dealer.board, list("AEINRST"), 5)
    return "".join(map(line, events)).encode(), {word for word in listed - dealer.phonies if 2 <= len(word) <= 15}


def damages():
    """How often the list, the lexicon and the game of a round are damaged, at the most, and whether its rules text is."""
    return choose([(1, 0, 0, 0), (0, 2, 0, 0), (0, 0, 1, 0), (0, 0, 1, 0), (0, 0, 2, 0), (0, 0, 5, 0), (1, 1, 1, 1), (0, 0, 0, 1), (0, 0, 0, 0)])


def lexicon_of(listed):
    """The lexicon of words, in either format."""
    return choose([build(listed), convert(build(listed), GAD2)])


def damaged_round(fuzzer, rules, game, listed):
    """A round with some of its inputs damaged."""
    bad = damages()
    texts = TEXT_DAMAGES
    words = damaged("".join(f"{word}\n" for word in sorted(listed)).encode(), texts[:5], bad[0])
    # mostly the lexicon of the damaged list, so that more than its first fault is tried
    read_now = words_of(words)
    file = lexicon_of(read_now if not isinstance(read_now, str) and likely(0.7) else listed)
    text = None
    if rules != ENGLISH or likely(0.2):
        text = damaged(damaged_text(rules), texts[:5], 1) if bad[3] else another_text(rules)
    lexicon = damaged(file, [with_bit, with_part, cut, with_word, with_word], bad[1])
    fuzzer.round(words, lexicon, damaged(game, texts, bad[2]), text)


def main():
    program, seconds, seed = sys.argv[1], float(sys.argv[2]), int(sys.argv[3])
    random.seed(seed)
    rounds, end = 0, time.monotonic() + seconds
    with tempfile.TemporaryDirectory() as folder:
        fuzzer = Fuzzer(program, folder)
        while time.monotonic() < end:
            rules = ENGLISH if likely(0.7) else random_rules()
            game, listed = sample(rules)
            for _ in range(4):
                damaged_round(fuzzer, rules, game, listed)
                rounds += 1
    print(f"seed {seed}: {rounds} rounds, {fuzzer.seen.total()} runs, {fuzzer.differences} differences")
    print(", ".join(f"{what} {times}" for what, times in sorted(fuzzer.seen.items())))
    sys.exit(fuzzer.differences > 0)


if __name__ == "__main__":
    main()
