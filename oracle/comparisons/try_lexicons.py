"""Tries the second judge of lexicons on worked rows, on each bit of two files, and on random lists: try_lexicons CASES SEED

The file of a list has no fault in either format, and is that of the list; there and back gives the same bytes; and the strings of
a file with a change that leaves no fault are those of its conversion.
"""
import random
import struct
import sys
from collections import Counter

from lexicons import GAD1, GAD2, build, check, convert, fault, strings

AT = bytes.fromhex("47414431 05000000 04000000 01000000 74000000 c0000000 61000000 01010000 d4010000")
AT_IT = bytes.fromhex("47414431 07000000 05000000 02000000 74000000 c0000000 21000000 69000000 01010000 09010000 d4010000")
AT_MASKS = bytes.fromhex(
    "47414432 0d000000 0a000000 01000000 00001080 00001000 00000000 01000080 00000000 01000000"
    "02000080 02000000 00000000 02001080 00000000 04000000 07000000"
)
EMPTY = bytes(12)
# Each node of two arcs leads to the one before: 2 to the 25 strings, of which none is to be gone through.
FAN = GAD1 + struct.pack("<53I", 50, 49, 1, 33, 98, *(word for j in range(3, 50, 2) for word in (1 | j - 2 << 7, 66 | j - 2 << 7)))


def with_word(data, number, text):
    """A file with a word of its body changed."""
    return data[: 12 + 4 * number] + bytes.fromhex(text) + data[16 + 4 * number :]


def with_root(data, root):
    return data[:8] + struct.pack("<I", root) + data[12:]


# The list, the file, and what `check` prints; by hand.
ROWS = [
    ("AT", AT, "ok 1"),
    ("AT IT", AT_IT, "ok 2"),
    ("AT", AT_IT, "bad lexicon: Extra I"),
    ("AT IT", AT, "bad lexicon: Missing I+T"),
    ("AT", b"\x48" + AT[1:], "bad lexicon: Magic"),
    ("AT", AT[:12] + b"\2" + AT[13:], "bad lexicon: WordCount"),
    ("", GAD1 + EMPTY, "ok 0"),
    ("AT", FAN, "bad lexicon: Missing A+T"),
    ("AT", AT_MASKS, "ok 1"),
    ("AT", AT_MASKS[:12] + b"\2" + AT_MASKS[13:], "bad lexicon: WordCount"),
    ("", GAD2 + EMPTY, "ok 0"),
    ("", GAD2 + bytes(4) + b"\1" + bytes(7), "bad lexicon: Root"),
    ("", GAD2 + b"\1" + bytes(11), "bad lexicon: Length"),
    ("", b"GAD3" + EMPTY, "bad lexicon: Magic"),
]
# For each of the two files of AT: other roots, and then other words of the body by their numbers, each with its fault.
OTHER_ROOTS = [(AT, [5, 0]), (AT_MASKS, [11, 0, 14])]
OTHER_WORDS = [
    (AT, "1 7b000000 Label, 5 c1010000 Order, 2 40010000 Target, 1 54000000 DeadArc, 5 94010000 OpenRun, 4 21010000 Extra A"),
    (
        AT_MASKS,
        "1 00001088 Mask, 1 00000080 Mask, 4 01000000 NoMark, 5 02000000 Accept, 6 04000000 Target, 6 02000000 Target, "
        "2 00000000 DeadArc, 10 06001080 OpenRun, 11 02000000 Extra A",
    ),
]
for file, roots in OTHER_ROOTS:
    ROWS += [("AT", with_root(file, root), "bad lexicon: Root") for root in roots]
for file, changes in OTHER_WORDS:
    for number, word, wanted in (change.split(" ", 2) for change in changes.split(", ")):
        ROWS.append(("AT", with_word(file, int(number), word), f"bad lexicon: {wanted}"))
# What `convert` makes of a file.
CONVERTED = [
    (AT, GAD2, AT_MASKS),
    (AT_MASKS, GAD1, AT),
    (AT, GAD1, AT),
    (AT_MASKS, GAD2, AT_MASKS),
    (GAD1 + EMPTY, GAD2, GAD2 + EMPTY),
    (GAD2 + EMPTY, GAD1, GAD1 + EMPTY),
    (AT[:12] + b"\7" + AT[13:], GAD2, AT_MASKS[:12] + b"\7" + AT_MASKS[13:]),
    (with_root(AT, 1), GAD2, with_root(AT_MASKS, 1)),
    (AT[:20], GAD2, b"bad lexicon: Length\n"),
    (b"GAD0" + EMPTY, GAD1, b"bad lexicon: Magic\n"),
]


def rows():
    """The worked rows, and each change of one bit and each front of the two files of AT, which are all refused."""
    for words, file, wanted in ROWS:
        told = check(set(words.split()), file).strip()
        assert told == wanted, (words, file.hex(), told, wanted)
    assert build({"AT"}) == AT and build({"AT", "IT"}) == AT_IT and build(set()) == GAD1 + EMPTY
    for file, form, wanted in CONVERTED:
        assert convert(file, form) == wanted, (file.hex(), form, convert(file, form).hex())
    for file, bits in ((AT, 288), (AT_MASKS, 544)):
        changed = [file[:k] + bytes([file[k] ^ 1 << bit]) + file[k + 1 :] for k in range(len(file)) for bit in range(8)]
        fronts = [file[:size] for size in range(len(file))]
        assert len(changed) == bits and all(check({"AT"}, it).startswith("bad lexicon: ") for it in changed + fronts)
    print(f"{len(ROWS)} files and {len(CONVERTED)} conversions by hand, and each bit of two files")


def random_list():
    words = {"".join(random.choices("ABEST", k=random.choice([2, 3, 3, 4, 6]))) for _ in range(random.choice([0, 1, 2, 5, 20]))}
    return words | {word[::-1] for word in words if random.random() < 0.3}


def small(cases):
    """Random lists, and their files with a change."""
    seen = Counter()
    for _ in range(cases):
        words = random_list()
        file = build(words)
        masks = convert(file, GAD2)
        assert check(words, file) == check(words, masks) == f"ok {len(words)}\n", words
        assert convert(masks, GAD1) == file and convert(masks, GAD2) == masks and convert(file, GAD1) == file, words
        for form, other in ((file, GAD2), (masks, GAD1)):
            at = random.randrange(16, len(form)) if len(form) > 16 else 12
            changed = form[:at] + bytes([form[at] ^ 1 << random.randrange(8)]) + form[at + 1 :]
            wrong = fault(changed)
            seen[wrong or "none"] += 1
            if not wrong:
                there = convert(changed, other)
                assert list(strings(changed)) == list(strings(there)) and there[12:16] == changed[12:16], (changed, there)
                assert convert(there, form[:4]) == changed, changed
    print(f"{cases} lists; with a bit changed: {', '.join(f'{wrong} {times}' for wrong, times in sorted(seen.items()))}")


if __name__ == "__main__":
    rows()
    random.seed(int(sys.argv[2]))
    small(int(sys.argv[1]))
