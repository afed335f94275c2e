"""Compares `referee tidy` with the second reading on random records: compare_records PROGRAM CASES SEED"""
import random
import subprocess
import sys
import tempfile
from pathlib import Path

from records import tidy

choose = random.choice
NICKS = [b"A", b"B", b"C", b"Ann", b"A\r", b"\x00", b"#x", b">"]
NUMBERS = [b"+16", b"0", b"+0", b"-0", b"-7", b"000012", b"1234567", b"+", b"x", b"-999999"]
POSITIONS = [b"8E", b"08e", b"E8", b"15O", b"16A", b"0A", b"A0", b"h08", b"8P", b"88", b"HH"]
WORDS = [b"WORD", b"WO(R)D", b"w.rD", b"()", b"A" * 15, b"A" * 16, b"(A)" * 15, b"W0RD", b".", b"A-B"]
CODES = [b"-", b"--", b"-8", b"-0", b"-5", b"-AE?", b"-aE", b"(challenge)", b"(time)", b"(AB?)", b"(AB", b"()"]
CODES += [b"(ABCDEFGH)", b"(TIME)", b"---", b"x", b"-AEINRSTU", b"(-)", b"(A))"]
NAMES = [b"", b" ", b"  Ann Lee", b" \tL  x ", b" a:b", b"\t\t"]


def likely(share):
    return random.random() < share


def rack():
    return bytes(choose(b"AEINRST?QZa1" if likely(0.1) else b"AEINRST?QZ") for _ in range(choose([1, 2, 3, 5, 7, 7, 8])))


def event_line():
    fields = [rack()] if likely(0.5) else []
    if likely(0.5):
        fields += [choose(POSITIONS) if likely(0.4) else b"8E", choose(WORDS) if likely(0.5) else b"WORD"]
    else:
        fields.append(choose(CODES))
    fields += [choose(NUMBERS) if likely(0.3) else b"%+d" % random.randint(-50, 200) for _ in range(2)]
    if likely(0.06):
        fields.pop()
    if likely(0.04):
        fields.append(b"9")
    nick = choose(NICKS[:2]) if likely(0.9) else choose(NICKS)
    head = b">" + choose([b"", b" "]) + nick + choose([b"", b" ", b"\t"]) + (b":" if likely(0.98) else b"")
    text = b"".join(choose([b" ", b"  ", b"\t", b" \t "]) + field for field in fields)
    return head + text.lstrip(choose([b"", b" \t"])) + choose([b"", b" ", b" \t", b"\r"])


def pragma():
    return b"#player" + choose([b"1", b"2", b"3", b"1x"]) + choose([b"", b" ", b"\t"]) + choose(NICKS + [b"", b"A:b"]) + choose(NAMES)


def record():
    makers = [event_line, event_line, event_line, pragma, lambda: choose([b"", b"note", b"#note x", b"\r"])]
    lines = [choose(makers)() for _ in range(random.randint(0, 5))]
    return choose([b"", b"\xef\xbb\xbf"]) + choose([b"\n", b"\r\n"]).join(lines) + choose([b"", b"\n", b"\r", b"\r\n"])


def main():
    program, cases, seed = sys.argv[1], int(sys.argv[2]), int(sys.argv[3])
    random.seed(seed)
    differences = 0
    with tempfile.TemporaryDirectory() as folder:
        game = Path(folder, "game")
        for _ in range(cases):
            text = record()
            game.write_bytes(text)
            told = subprocess.run([program, "tidy", game], capture_output=True, check=False).stdout
            if told != tidy(text):
                differences += 1
                print("record", text, "program", told, "second reading", tidy(text), sep="\n  ")
    print(f"{cases} records, {differences} differences")
    sys.exit(differences > 0)


main()
