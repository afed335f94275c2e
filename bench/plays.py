"""Measures best plays by two programs in turn with each other: plays.py OLD NEW [RUNS [hostile]]

Each line tells the processor time of both, the least of so many runs, and how many times faster the second is. A turn is the difference
of a record with racks to the same record without, over its number of turns, so that reading and checking the lexicon do not count. The
records have passes of one player with a rack, after the first 21 events of the example game or on an empty board, by rules with four
blanks. `top` is the difference to the check of its list and lexicon. With the word `hostile` as the last one, 500 full racks with two blanks by
both lists of `hostile.py` come last, the time of the whole process.

It stops where a run ends with an error, since a record that is refused has no best plays, and where the programs write what differs. A
line is marked where the difference of either program is below a tenth of what it was taken from: the machine is then too noisy for it.
"""
import subprocess
import sys
import tempfile
from pathlib import Path

from hostile import padded, turns
from running import run

HERE = Path(__file__).parent
RACKS = (("AEINRST", 480), ("AEINRS?", 100), ("AEINR??", 40))


def least(folder, programs, runs, cases):
    """The least processor time of each program in each of some cases, all in turn. Both write the same, and no error."""
    times = [[1e9] * len(programs) for _ in cases]
    for _ in range(runs):
        for case, words in enumerate(cases):
            told = []
            for it, program in enumerate(programs):
                ran = run(folder, [program, *words])
                if ran.status:
                    sys.exit(f"{program} {' '.join(words)} ended with {ran.status}: {ran.said[:200]!r}")
                told.append(ran.said)
                times[case][it] = min(times[case][it], ran.processor)
            if told[0] != told[1]:
                sys.exit(f"{' '.join(words)} is answered in two ways")
    return times


def tell(what, times, bases, number):
    """One line of the table."""
    old, new = ((time - base) / number * 1000 for time, base in zip(times, bases))
    noisy = any(time - base < base / 10 for time, base in zip(times, bases))
    times_faster = "too noisy to tell" if noisy else f"{old / new:6.2f} times faster"
    print(f"{what:58} {old:9.2f} ms {new:9.2f} ms {times_faster}", flush=True)


def without_racks(record):
    """A record whose lines state no racks."""
    fields = (line.split(" ") for line in record.splitlines(True))
    return "".join(" ".join(it if it[0].startswith("#") or it[1].startswith("(") else it[:1] + it[2:]) for it in fields)


def four_blanks():
    """The English rules with four blanks."""
    text = (HERE / "../crates/ref_tiles/src/english_text.rt").read_text()
    lines = [line.removesuffix("\\n\\").removesuffix('\\n";') for line in text.splitlines() if line.endswith(("\\n\\", '\\n";'))]
    return "".join(line.replace("tile ? 2 0", "tile ? 4 0") + "\n" for line in lines)


def passes(head, totals, number, rack):
    """A record with so many passes of each player after it, the first of whom has a rack."""
    pair = f">Ann: {rack}- +0 {totals[0]}\n>Bob: - +0 {totals[1]}\n"
    return head + pair * number


def main():
    programs, runs = [str(Path(it).resolve()) for it in sys.argv[1:3]], int((sys.argv + ["3"] * 4)[3])
    with tempfile.TemporaryDirectory() as folder:

        def put(name, data):
            return Path(folder, name).write_bytes(data if isinstance(data, bytes) else data.encode())

        def made(script):
            return subprocess.run(["awk", "-f", HERE / script], check=True, capture_output=True).stdout.splitlines(True)

        def build(words, file):
            return subprocess.run([programs[1], "build", words, file], cwd=folder, check=True)

        def measured(*cases):
            return least(folder, programs, runs, cases)

        game, examples = (HERE / "../examples/game.gcg").read_text(), (HERE / "../examples/words.txt").read_bytes().splitlines(True)
        language, random = made("dictionary.awk"), made("inputs.awk")
        put("words", b"".join(sorted({*examples, *(word for at, word in enumerate(language, 1) if at % 150)})))
        build("words", "built")
        put("rules", four_blanks())
        put("none", "")
        put("game", game)
        put("bare", without_racks(game))
        players = "".join(game.splitlines(True)[:3])
        heads = (("in the middle of a game", without_racks("".join(game.splitlines(True)[:24])), (198, 207)), ("on an empty board", players, (0, 0)))
        check, judge = ["check", "words", "built"], ["judge", "words", "built"]
        checked, played, bare = measured(check, [*judge, "game"], [*judge, "bare"])
        print(f"judge of the example game takes {played[0] / checked[0]:.3f} and {played[1] / checked[1]:.3f} times check", flush=True)
        tell("a turn of the example game", played, bare, 41)
        for where, head, totals in heads:
            for rack, number in RACKS:
                put("with", passes(head, totals, number, rack + " "))
                put("without", passes(head, totals, number, ""))
                ruled = ["judge", "--rules", "rules", "words", "built"]
                tell(f"a turn of {rack} {where}", *measured([*ruled, "with"], [*ruled, "without"]), number)
        put("half", heads[0][1])
        for where, file in (("on an empty board", "none"), ("in the middle of a game", "half")):
            tell(f"top of seven blanks {where}", *measured(["top", "words", "built", file, "???????"], check), 1)
        if "hostile" in sys.argv:
            put("two-blanks", turns(1000, ["AEINR?? ", ""]))
            for name, listed in (("400,000 words as of a language", language), ("400,000 random words", random)):
                put("words", b"".join(listed))
                build("words", "built")
                put("padded", padded(Path(folder, "built").read_bytes()))
                (took,) = measured(["judge", "words", "padded", "two-blanks"])
                tell(f"500 racks of two blanks, {name}", took, (0, 0), 1)


if __name__ == "__main__":
    main()
