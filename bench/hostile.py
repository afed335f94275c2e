"""Measures the program on the largest inputs that it takes, made to cost as much as they can: hostile.py [PROGRAM]

The program is crates/referee/out/referee unless another is named. It prints the table of docs/BENCH.md: the time of the whole process, its peak
memory, and the first line that it wrote. The lexicon files have 134,217,740 bytes, the most of the first format: 33,554,431 arcs.
"""
import subprocess
import sys
import tempfile
from array import array
from datetime import date
from pathlib import Path

from running import apart, run

HERE = Path(__file__).parent
ARCS = 33_554_431
LAST, ACCEPTS = 64, 32


def file_of(arcs, root, words):
    """The bytes of a lexicon file."""
    header = array("I", [len(arcs), root, words])
    return b"GAD1" + header.tobytes() + arcs.tobytes()


def all_labels(words):
    """Nodes of all 27 labels, each arc to the node before: every string of a length is spelt."""
    arcs, node = array("I"), 0
    while len(arcs) + 27 <= ARCS:
        first, target = len(arcs) + 1, node << 7
        accepts = 0 if node else ACCEPTS
        arcs.extend(label | accepts | target | (LAST if label == 26 else 0) for label in range(27))
        node = first
    rest = ARCS - len(arcs)
    arcs.extend(label | node << 7 | (LAST if label == rest - 1 else 0) for label in range(rest))
    return file_of(arcs, ARCS - rest + 1 if rest else node, words)


def two_labels(words):
    """Nodes of the labels A and B, each arc to the node before."""
    arcs = array("I", [1 | ACCEPTS | LAST, 1 | ACCEPTS, 2 | ACCEPTS | LAST])
    pairs = range(4, ARCS, 2)
    arcs.extend(label | (first - 2) << 7 | (LAST if label == 2 else 0) for first in pairs for label in (1, 2))
    return file_of(arcs, len(arcs) - 1, words)


def padded(built):
    """A lexicon, and after it nodes that no walk reaches."""
    arcs = array("I", built[16:])
    root, words = array("I", built[8:16])
    arcs.extend([1 | ACCEPTS | LAST] * (ARCS - len(arcs)))
    return file_of(arcs, root, words)


def turns(number, racks):
    """A record of passes that state racks."""
    return "".join(f">{'AB'[k % 2]}: {racks[k % 2]}- +0 0\n" for k in range(number))


def measure(folder, what, words):
    """Runs the program, and prints a row of the table."""
    ran = run(folder, words)
    first = ran.said.decode(errors="replace").split("\n")[0]
    shown = first if len(first) < 40 else f"{first[:36]}..."
    print(f"| {what} | {ran.seconds:.2f} s | {ran.memory:.0f} MB | `{shown}` |", flush=True)


def put(folder, name, data):
    """Writes an input."""
    Path(folder, name).write_bytes(data if isinstance(data, bytes) else data.encode())


def make(folder):
    """The lists, the records, and the files of lexicons in which every string of a length is spelt."""
    put(folder, "none", "")
    put(folder, "at", "AT\n")
    for name, script in (("words", "dictionary.awk"), ("random", "inputs.awk")):
        put(folder, name, subprocess.run(["awk", "-f", HERE / script], check=True, capture_output=True).stdout)
    put(folder, "all-labels", all_labels(1))
    put(folder, "two-labels", two_labels(1))
    put(folder, "blanks", turns(1000, ["??????? ", "??????? "]))
    put(folder, "two-blanks", turns(1000, ["AEINR?? ", ""]))
    put(folder, "full", turns(1000, ["AEINRST ", "DGLOTUW "]))


def pad(folder, program, listed):
    """The padded lexicon of a list."""
    subprocess.run([program, "build", listed, "built"], cwd=folder, check=True)
    put(folder, "padded", padded(Path(folder, "built").read_bytes()))


def main():
    program = str(Path(sys.argv[1] if len(sys.argv) > 1 else HERE / "../crates/referee/out/referee").resolve())
    with tempfile.TemporaryDirectory() as folder:
        apart(make, folder)
        print(f"{run(folder, [program, '-V']).said.decode().strip()}, on {date.today()}:\n")
        print("| what | time | memory | the first line of the answer |\n|---|---|---|---|")
        measure(folder, "`check` of AT, and a file of every string of 27 labels", [program, "check", "at", "all-labels"])
        measure(folder, "`check` of AT, and a file of every string of A and B", [program, "check", "at", "two-labels"])
        measure(folder, "`judge` of 1,000 racks of seven blanks by the same", [program, "judge", "at", "two-labels", "blanks"])
        for name, listed in (("400,000 words like those of a language", "words"), ("400,000 words of random letters", "random")):
            apart(pad, folder, program, listed)
            measure(folder, f"`check` of {name}, padded", [program, "check", listed, "padded"])
            measure(folder, "`judge` of 1,000 racks of seven blanks by the same", [program, "judge", listed, "padded", "blanks"])
            measure(folder, "`judge` of 1,000 full racks by the same", [program, "judge", listed, "padded", "full"])
            measure(folder, "`top` of seven blanks by the same", [program, "top", listed, "padded", "none", "???????"])
            measure(folder, "`judge` of 500 full racks with two blanks by the same", [program, "judge", listed, "padded", "two-blanks"])


if __name__ == "__main__":
    main()
