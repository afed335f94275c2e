"""Compiled lexicons, from the rules of their formats alone: the rotated paths of words, the file of a list, the first fault of a file,
the same lexicon in the other format, and the first difference of a file and a list.

A lexicon is read as its nodes, by the numbers that the file names them by and in the file's order. A node is its labels in rising
order, each with whether a string ends there and with the number of the node after it, 0 for none.
"""
import struct

GAD1, GAD2 = b"GAD1", b"GAD2"
MOST_ARCS, MOST_WORDS = 33_554_431, 67_108_863
FILE_LIMIT = 16 + 4 * MOST_WORDS
MARK = 1 << 31


def path(front, back):
    labels = [ord(letter) - 64 for letter in reversed(front)]
    return tuple(labels + [0] + [ord(letter) - 64 for letter in back]) if back else tuple(labels)


def paths(words):
    return {path(word[:k], word[k:]) for word in words for k in range(1, len(word) + 1)}


def text(string):
    return "".join("+" if label == 0 else chr(label + 64) for label in string)


def build(words):
    """The bytes of the file: labels in rising order, a node after all its targets, equal nodes once."""
    nodes, known, places = {}, {}, 1

    def node(tails):
        nonlocal places
        arcs = []
        for label in sorted({tail[0] for tail in tails}):
            behind = {tail[1:] for tail in tails if tail[0] == label}
            longer = behind - {()}
            arcs.append((label, () in behind, node(longer) if longer else 0))
        key = tuple(arcs)
        if key not in known:
            known[key] = places
            nodes[places] = arcs
            places += len(arcs)
        return known[key]

    root = node(paths(words)) if words else 0
    return written(nodes, root, len(words), GAD1)


# ---- the file of nodes


def arc_words(arcs, places):
    """A node in the first format: a word for each label."""
    words = [label | 32 * accepts | places[target] << 7 for label, accepts, target in arcs]
    words[-1] |= 64
    return words


def mask_words(arcs, places):
    """A node in the second format: its labels, those at which a string ends, and the targets."""
    labels, ends = sum(1 << label for label, _, _ in arcs), sum(1 << label for label, accepts, _ in arcs if accepts)
    return [MARK | labels, ends, *(places[target] for _, _, target in arcs)]


def written(nodes, root, count, form):
    """The file of a lexicon in a format, its nodes in their order. None where they are too many for the format."""
    body, places = [], {0: 0}
    for name, arcs in nodes.items():
        places[name] = len(body) + 1
        body += (arc_words if form == GAD1 else mask_words)(arcs, places)
    if len(body) > (MOST_ARCS if form == GAD1 else MOST_WORDS):
        return None
    return form + struct.pack(f"<{3 + len(body)}I", len(body), places[root], count, *body)


def convert(data, form):
    """What `referee convert` is to write."""
    wrong = fault(data)
    if wrong:
        return f"bad lexicon: {wrong}\n".encode()
    _, root, count = struct.unpack_from("<3I", data, 4)
    file = written(nodes_of(data), root, count, form)
    return b"bad lexicon: TooManyArcs\n" if file is None else file


# ---- faults


def fault(data):
    """The first fault of a file, or None."""
    if len(data) > FILE_LIMIT:
        return "Length"
    if len(data) < 16:
        return "Short"
    if data[:4] not in (GAD1, GAD2):
        return "Magic"
    count, root = struct.unpack_from("<2I", data, 4)
    most, body_fault = (MOST_ARCS, arcs_fault) if data[:4] == GAD1 else (MOST_WORDS, masks_fault)
    if count > most or len(data) != 16 + 4 * count:
        return "Length"
    return body_fault(root, [None, *struct.unpack_from(f"<{count}I", data, 16)])


def arcs_fault(root, arcs):
    """The first fault of the arcs of the first format, numbered from 1."""
    firsts = {n for n in range(1, len(arcs)) if n == 1 or arcs[n - 1] & 64}
    if root not in (firsts or {0}):
        return "Root"
    own = 1
    for n in range(1, len(arcs)):
        word = arcs[n]
        own = n if n in firsts else own
        if word & 31 > 26:
            return "Label"
        if n != own and word & 31 <= arcs[n - 1] & 31:
            return "Order"
        if word >> 7 and not (word >> 7 in firsts and word >> 7 < own):
            return "Target"
        if not word & 32 and not word >> 7:
            return "DeadArc"
    if arcs[1:] and not arcs[-1] & 64:
        return "OpenRun"
    return None


def labels_of(mask):
    return [label for label in range(27) if mask >> label & 1]


def masks_fault(root, words):
    """The first fault of the words of the second format, numbered from 1."""
    if not words[1:]:
        return "Root" if root else None
    if not (1 <= root < len(words) and words[root] & MARK):
        return "Root"
    at = 1
    while at < len(words):
        labels = labels_of(words[at])
        if not words[at] & MARK:
            return "NoMark"
        if words[at] >> 27 & 15 or not labels:
            return "Mask"
        if at + 1 + len(labels) >= len(words):
            return "OpenRun"
        if words[at + 1] & ~(words[at] & ~MARK):
            return "Accept"
        for place, label in enumerate(labels):
            target = words[at + 2 + place]
            if target and not (target < at and words[target] & MARK):
                return "Target"
            if not target and not words[at + 1] >> label & 1:
                return "DeadArc"
        at += 2 + len(labels)
    return None


# ---- what a file holds


def nodes_of(data):
    """The nodes of a file that has no fault."""
    words = [0, *struct.unpack_from(f"<{(len(data) - 16) // 4}I", data, 16)]
    nodes, at = {}, 1
    while at < len(words):
        if data[:4] == GAD1:
            last = next(n for n in range(at, len(words)) if words[n] & 64)
            nodes[at] = [(word & 31, bool(word & 32), word >> 7) for word in words[at : last + 1]]
            at = last + 1
        else:
            labels, ends = labels_of(words[at]), words[at + 1]
            targets = words[at + 2 : at + 2 + len(labels)]
            nodes[at] = [(label, bool(ends >> label & 1), target) for label, target in zip(labels, targets)]
            at += 2 + len(labels)
    return nodes


def strings(data):
    """The strings of a file that has no fault, in order."""
    nodes, root = nodes_of(data), struct.unpack_from("<I", data, 8)[0]

    def of_node(node, front):
        for label, accepts, target in nodes.get(node, []):
            string = (*front, label)
            if accepts:
                yield string
            yield from of_node(target, string)

    return of_node(root, ())


def check(words, data):
    """What `referee check` prints."""
    wrong = fault(data)
    if wrong:
        return f"bad lexicon: {wrong}\n"
    listed = sorted(paths(words))
    begun = {string[:k] for string in listed for k in range(1, len(string) + 1)}
    rest = iter(listed)
    for string in strings(data):
        wanted = next(rest, None)
        if string == wanted:
            continue
        if wanted is not None and wanted < string:
            return f"bad lexicon: Missing {text(wanted)}\n"
        known = max(k for k in range(len(string) + 1) if k == 0 or string[:k] in begun)
        return f"bad lexicon: Extra {text(string[:min(known + 1, len(string))])}\n"
    wanted = next(rest, None)
    if wanted is not None:
        return f"bad lexicon: Missing {text(wanted)}\n"
    if struct.unpack_from("<I", data, 12)[0] != len(words):
        return "bad lexicon: WordCount\n"
    return f"ok {len(words)}\n"
