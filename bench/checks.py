"""Measures `check` and `judge` of two programs in turn with each other: checks.py OLD NEW [RUNS [hostile]]

Each line has the least and the median processor time of so many runs of both, what the second takes of the first, the peak memory of
both, and whether both wrote the same. The lists are the first 50,000 to 400,000 words of a language, and random words. The wrong files
are a lexicon with one bit of an arc changed, a label, a target or the mark of acceptance; with one path too few or too many; and the
lexicons of lists with a word more or less. Each is in both formats. With the word `hostile` after RUNS, the largest files of
`hostile.py` come last.
"""
import subprocess
import sys
import tempfile
from array import array
from pathlib import Path
from statistics import median

from running import apart, run

HERE = Path(__file__).parent
SIZES = (50_000, 100_000, 200_000, 400_000)
SHARES = (0.1, 0.3, 0.5, 0.7, 0.9)
LAST, ACCEPTS = 64, 32


def compare(folder, programs, runs, what, words):
    """Runs both programs in turn, and prints the least and the median times."""
    told, times, memory = [None, None], [[], []], [0, 0]
    for _ in range(runs):
        for it, program in enumerate(programs):
            ran = run(folder, [program, *words])
            told[it] = ran.status, ran.said
            times[it].append(ran.processor)
            memory[it] = max(memory[it], ran.memory)
    columns = ((pick(times[0]), pick(times[1])) for pick in (min, median))
    shares = "  ".join(f"{old:6.3f} s {new:6.3f} s {new / old:5.2f}" for old, new in columns)
    same = f"the same: {told[0][1][:24].decode()!r}" if told[0] == told[1] else f"DIFFERENT: {told}"
    print(f"{what:52} {shares}  {memory[0]:5.0f} MB {memory[1]:5.0f} MB  {same}", flush=True)


# ---- what makes inputs, in the folder


def words_of(script):
    """The lines that an awk script prints."""
    return subprocess.run(["awk", "-f", HERE / script], check=True, capture_output=True).stdout.splitlines(keepends=True)


def make_lists(folder):
    """Lists of words, and records of games."""
    language = words_of("dictionary.awk")

    def put(name, lines):
        return Path(folder, name).write_bytes(b"".join(lines))

    for size in SIZES:
        put(f"words-{size}", language[:size])
    put("words", language)
    put("sorted", sorted(language))
    put("less", language[:200_000] + language[200_001:])
    put("random", words_of("inputs.awk"))
    examples = HERE / "../examples"
    game_words = (examples / "words.txt").read_bytes().splitlines(keepends=True)
    put("merged", sorted({*game_words, *(line for at, line in enumerate(language, 1) if at % 150)}))
    put("game", [(examples / "game.gcg").read_bytes()])
    put("at", [b"AT\n"])


def make_hostile(folder):
    """The largest files."""
    from hostile import all_labels, padded, two_labels

    Path(folder, "27").write_bytes(all_labels(1))
    Path(folder, "two").write_bytes(two_labels(1))
    Path(folder, "padded").write_bytes(padded(Path(folder, "words.gad1").read_bytes()))


def with_label(arcs, at):
    """The label of the next last arc with an even one, which is not the greatest, is one more."""
    while not (arcs[at] & LAST and arcs[at] & 31 < 26 and arcs[at] & 1 == 0):
        at += 1
    arcs[at] ^= 1


def with_target(arcs, at):
    """The target of the next arc that can lead to another node by one bit does so."""
    own = {1, *(place + 2 for place, arc in enumerate(arcs[: at - 64]) if arc & LAST)}
    while True:
        for bit in range(25):
            if arcs[at] >> 7 and (arcs[at] >> 7 ^ 1 << bit) in own:
                arcs[at] ^= 1 << bit + 7
                return
        at += 1


def with_acceptance(arcs, at):
    """The next arc that leads to a node accepts where it did not, or the other way round."""
    while arcs[at] >> 7 == 0:
        at += 1
    arcs[at] ^= ACCEPTS


def node_at(arcs, first):
    """The places of the arcs of a node."""
    place = first - 1
    while not arcs[place] & LAST:
        place += 1
    return range(first - 1, place + 1)


def root_of(arcs, data):
    return node_at(arcs, int.from_bytes(data[8:12], "little"))


def make_wrong(folder, name, change, share):
    """A lexicon in which a bit of an arc is changed, in both formats."""
    data = Path(folder, "words.gad1").read_bytes()
    arcs = array("I", data[16:])
    change(arcs, data, share)
    Path(folder, f"{name}.gad1").write_bytes(data[:16] + arcs.tobytes())


def one_bit(change):
    """A change of an arc after a share of all."""
    return lambda arcs, data, share: change(arcs, int(len(arcs) * share))


def one_path_more(arcs, data, share):
    """The string of one label of the root, which is no path, is one."""
    root = root_of(arcs, data)
    arcs[root[int(len(root) * share)]] ^= ACCEPTS


def one_path_less(arcs, data, share):
    """A string of two letters, which is a path, is none."""
    root = root_of(arcs, data)
    paths = [place for arc in root for place in node_at(arcs, arcs[arc] >> 7) if arcs[place] & ACCEPTS]
    arcs[paths[int(len(paths) * share)]] ^= ACCEPTS


WRONG = (
    ("a bit of a label", "label", one_bit(with_label)),
    ("a bit of a target", "target", one_bit(with_target)),
    ("an arc accepts or not", "acceptance", one_bit(with_acceptance)),
    ("one path too many", "more", one_path_more),
    ("one path too few", "fewer", one_path_less),
)


def main():
    programs, runs = [str(Path(it).resolve()) for it in sys.argv[1:3]], int((sys.argv + ["5"] * 4)[3])
    with tempfile.TemporaryDirectory() as folder:

        def ask(what, *words):
            return compare(folder, programs, runs, what, words)

        def use(*words):
            return subprocess.run([programs[0], *words], cwd=folder, check=True)

        def both(what, words, file):
            return [ask(f"{what}, {form}", "check", words, f"{file}.{form}") for form in ("gad1", "gad2")]

        apart(make_lists, folder)
        print(f"{'':52} {'the least of both':24}  {'the median of both':24}  {'the peak memory':17}")
        for size in SIZES:
            use("build", f"words-{size}", "built")
            ask(f"check of {size:,} words of a language", "check", f"words-{size}", "built")
        for name in ("words", "random", "less"):
            use("build", name, f"{name}.gad1")
            use("convert", "gad2", f"{name}.gad1", f"{name}.gad2")
        both("check of 400,000 words of a language", "words", "words")
        both("the same, the list in order", "sorted", "words")
        both("check of 400,000 random words", "random", "random")
        use("build", "merged", "merged.gad1")
        ask("check of the list with the words of a game", "check", "merged", "merged.gad1")
        ask("judge of the example game by it", "judge", "merged", "merged.gad1", "game")
        for what, name, change in WRONG:
            for share in SHARES:
                apart(make_wrong, folder, name, change, share)
                use("convert", "gad2", f"{name}.gad1", f"{name}.gad2")
                both(f"check, {what}, at {share}", "words", name)
        both("check, the list has a word less", "less", "words")
        both("check, the list has a word more", "words", "less")
        if "hostile" in sys.argv:
            apart(make_hostile, folder)
            for what, words, file in (("27 labels", "at", "27"), ("A and B", "at", "two"), ("400,000 words, padded", "words", "padded")):
                ask(f"check of {what}", "check", words, file)


if __name__ == "__main__":
    main()
