"""Asks `serve` random lines: fuzz_serve PROGRAM LINES SEED

The lines are requests that were damaged, cut, doubled or joined: broken JSON, deep nesting, huge numbers, NUL, bytes that are no UTF-8, long lines,
and an end without an LF. Each has to get an answer of the right form, in its order, none lost and none doubled, and one that is no request by the
second judge the status 64, and no other.
"""
import json
import random
import subprocess
import sys
import tempfile
import threading
from collections import Counter
from pathlib import Path

from lexicons import build
from served import NoRequest, check_members, parsed, request_of

GAMES = [
    "",
    ">A: DORWAAE 8E WORD +16 16\n",
    ">A: AT 8H AT +4 4\n>B: - +0 0\n",
    "x",
    ">A: DORWAAE 8E WORD +18 18\n",
    "\0\n>",
    "#player1 A Ann\n>A: ? 8H aT +2 2\n",
]
PIECES = [
    b"\0",
    b"\xff",
    b"\xc3",
    b"[",
    b"]",
    b"{",
    b"}",
    b'"',
    b"\\",
    b",",
    b":",
    b"1e999",
    b"-",
    b"0",
    b"99999999999999999999",
    b"\\u0000",
    b"\\ud800",
    b"\\ud83d\\ude00",
    b"null",
    b"true",
]
PIECES += [
    b"\t",
    b"\r",
    b" ",
    b'"do":',
    b'"id":',
    b"\xef\xbb\xbf",
    b"NaN",
    b"1.5",
    b"\\n",
    b"\x7f",
    b"\x01",
    b"[" * 200,
    b"{" * 130,
    b'{"a":' * 127,
    b"[" * 127 + b"]" * 127,
]
VALUES = ["", "x", 0, 1, -1, 1.5, 10**30, True, False, None, [], {}, [[]], ["AT"], ["AT", "QI"], "AT", 2**32 - 1, 2**32, 100, 101]


def some_request():
    """A request as a client may write it."""
    do = random.choice(
        ["judge", "explain", "audit", "board", "top", "word", "check", "tidy", "page", "repair", "compare", "annotate", "fill", "next", "judged"]
    )
    asked = {"id": random.choice([1, "a", 2**64 - 1, -(2**63), 1e300, None]), "do": do, "game": random.choice(GAMES)}
    if do == "word":
        asked = {"do": do, "words": random.choice([["AT"], ["at", "QI"], ["A"]])}
    if do == "check":
        asked = {"do": do}
    if do == "compare":
        asked = {"id": random.choice([1, "a", None]), "do": do, "first": random.choice(GAMES), "second": random.choice(GAMES)}
    if do == "compare" and random.random() < 0.4:
        bare = [*GAMES, ">A: 8E WORD\n", ">A: DORWAAE 8E WORD +18\n>B: -\n", ">A: DORWAAE 8E\n"]
        asked |= {"draft": True, "first": random.choice(bare), "second": random.choice(bare)}
    if do in ("explain", "board", "repair"):
        asked |= random.choice(
            [{}, {"draft": True}, {"draft": True, "game": random.choice([">A: 8E WORD\n", ">A: DORWAAE 8E\n", ">A: DORWAAE 8E WORD +18\n>B: -\n"])}]
        )
    if do in ("fill", "next"):
        asked = {"id": random.choice([1, "a", None]), "do": do, "draft": random.choice([*GAMES, ">A: 8E WORD\n", ">A: DORWAAE 8E\n"])}
    for key in random.sample(
        [
            "first",
            "second",
            "merged",
            "repaired",
            "draft",
            "filled",
            "number",
            "line",
            "rack",
            "number",
            "settle",
            "best",
            "corrected",
            "likely",
            "words",
            "id",
            "do",
            "game",
            "other",
        ],
        random.choice([0, 0, 0, 1, 2]),
    ):
        asked[key] = random.choice(VALUES)
    return json.dumps(asked, ensure_ascii=random.random() < 0.5).encode()


def damaged(line):
    """A line with something else in some place."""
    at, end = sorted(random.randint(0, len(line)) for _ in range(2))
    return random.choice(
        [
            line[:at],
            line[at:],
            line[:at] + line[end:],
            line[:at] + random.choice(PIECES) + line[at:],
            line[:at] + random.choice(PIECES) + line[end:],
            line + line,
        ]
    )


def some_line():
    """A line without an LF."""
    line = some_request()
    for _ in range(random.choice([0, 0, 0, 1, 1, 2, 4])):
        line = damaged(line)
    return line.replace(b"\n", b" ")


def is_request(line):
    """Whether a line is a request, by the second judge; and the id of its answer."""
    try:
        id, do, said = request_of(parsed(line))
        check_members(id, do, said)
    except NoRequest as none:
        return False, none.id
    return True, id


def same(one, other):
    """Whether two ids are the same; true is not 1."""
    return one == other and isinstance(one, str) == isinstance(other, str) and (one is None) == (other is None)


def main():
    program, many = str(Path(sys.argv[1]).resolve()), int(sys.argv[2])
    random.seed(int(sys.argv[3]))
    lines = [some_line() for _ in range(many)]
    for place in random.sample(range(many), min(3, many)):
        lines[place] = b'{"id": 1, "do": "tidy", "game": "' + b"x" * random.choice([(4 << 20) - 35, (4 << 20) - 34, 4 << 20, 9 << 20]) + b'"}'
    if not lines[-1]:
        lines[-1] = b"{"
    seen, differences = Counter(), 0
    with tempfile.TemporaryDirectory() as folder:
        Path(folder, "words").write_text("AT\nWORD\n")
        Path(folder, "lexicon").write_bytes(build({"AT", "WORD"}))
        with subprocess.Popen([program, "serve", "words", "lexicon"], cwd=folder, stdin=subprocess.PIPE, stdout=subprocess.PIPE) as ran:
            threading.Thread(target=lambda: (ran.stdin.write(b"\n".join(lines)), ran.stdin.close())).start()
            told = ran.stdout.read().split(b"\n")
    assert told.pop() == b"" and json.loads(told.pop(0)) == {"ready": True, "words": 2, "version": "1.2.0"} and ran.returncode == 0, (
        told[-1],
        ran.returncode,
    )
    if len(told) != many:
        print(f"{len(told)} answers to {many} lines")
        differences += 1
    for line, text in zip(lines, told):
        answer, (good, id) = json.loads(text), is_request(line)
        seen[f"status {answer['status']}"] += 1
        form = ["id", "status", "error"] if answer["status"] == 64 else ["id", "status", "answer"] if "answer" in answer else ["id", "status", "text"]
        form += ["text"] * ("answer" in answer and "text" in answer)
        if list(answer) != form or (answer["status"] == 64) == good or not same(answer["id"], id) or answer["status"] not in (0, 1, 2, 3, 64):
            differences += 1
            print(line[:300], text[:300], good, id, sep="\n  ")
    print(f"{many} lines, {differences} differences", dict(sorted(seen.items())))
    sys.exit(differences > 0)


if __name__ == "__main__":
    main()
