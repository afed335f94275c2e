"""A slow second reading of game records: the GCG profile of docs/FAULTS.md, and the normal form.

It shares nothing with the program, and serves to compare what both say of the same bytes.
"""
import re

BLANKS = b" \t"
MOST_BYTES = 1_048_576
MOST_EVENTS = 1_000


class Fault(Exception):
    """The first fault of a record: its line, 0 for none, and its name."""

    def __init__(self, line, why):
        super().__init__(line, why)
        self.line = line
        self.why = why

    def text(self):
        where = f" line {self.line}" if self.line else ""
        return f"bad record{where}: {self.why}\n".encode()


def tiles(field):
    """The tiles of a rack, A to Z and then blanks; None where it is no rack."""
    if not re.fullmatch(rb"[A-Z?]{1,7}", field):
        return None
    return bytes(sorted(field, key=lambda tile: (tile == ord("?"), tile)))


def position(field):
    """A position in its normal form; None where it is none."""
    across = re.fullmatch(rb"([0-9]{1,2})([A-Oa-o])", field)
    if across and 1 <= int(across[1]) <= 15:
        return b"%d" % int(across[1]) + across[2].upper()
    down = re.fullmatch(rb"([A-Oa-o])([0-9]{1,2})", field)
    if down and 1 <= int(down[2]) <= 15:
        return down[1].upper() + b"%d" % int(down[2])
    return None


def word(field):
    """The text of a play without its brackets; None where it is none."""
    bare = field.replace(b"(", b"").replace(b")", b"")
    return bare if re.fullmatch(rb"[A-Za-z.]{1,15}", bare) else None


def code(field):
    """A code in its normal form; None where it is none."""
    if field in (b"-", b"--", b"(challenge)", b"(time)"):
        return field
    if field.startswith(b"-"):
        known = tiles(field[1:])
        if known:
            return b"-" + known
        return field if re.fullmatch(rb"-[1-7]", field) else None
    if len(field) > 1 and field.startswith(b"(") and field.endswith(b")"):
        rack = tiles(field[1:-1])
        return b"(" + rack + b")" if rack else None
    return None


def number(field):
    return int(field) if re.fullmatch(rb"[+-]?[0-9]{1,6}", field) else None


def event(line, fields):
    """The rack, the event, the score and the total that the fields of a line say."""
    if len(fields) not in (3, 4, 5):
        raise Fault(line, "Fields")
    is_play = len(fields) == 5 or (len(fields) == 4 and re.search(rb"[0-9]", fields[0]))
    rack = None
    if len(fields) == (5 if is_play else 4):
        rack = tiles(fields[0])
        if rack is None:
            raise Fault(line, "Rack")
        fields = fields[1:]
    if is_play:
        square, text = position(fields[0]), word(fields[1])
        if square is None or text is None:
            raise Fault(line, "Position" if square is None else "Word")
        what = square + b" " + text
    else:
        what = code(fields[0])
        if what is None:
            raise Fault(line, "Code")
    score, total = number(fields[-2]), number(fields[-1])
    if score is None or total is None:
        raise Fault(line, "Number")
    return rack, what, score, total


def name_players(line, text, players, has_events):
    """Reads a pragma, after its '#'."""
    pragma = re.match(rb"player([12])[ \t]", text)
    names = re.match(rb"([^ \t]+)[ \t]*(.*)", text[8:].strip(BLANKS), re.DOTALL) if pragma else None
    if not names:
        return
    seat, nick, full = int(pragma[1]) - 1, names[1], names[2]
    if has_events or players[seat] or b":" in nick:
        return
    if players[1 - seat] and players[1 - seat][0] == nick:
        raise Fault(line, "ThirdPlayer")
    players[seat] = (nick, full)


def seat_of(line, nick, players):
    """The seat of a nickname: of who has it, else of the first who has none."""
    for seat in (0, 1):
        if players[seat] and players[seat][0] == nick:
            return seat
    for seat in (0, 1):
        if not players[seat]:
            return seat
    raise Fault(line, "ThirdPlayer")


def read_event(line, text, players, events):
    """Reads an event line, after its '>'."""
    if len(events) >= MOST_EVENTS:
        raise Fault(line, "TooManyEvents")
    nick, colon, rest = text.partition(b":")
    nick = nick.strip(BLANKS)
    if not colon or not nick or any(blank in nick for blank in BLANKS):
        raise Fault(line, "NoColon")
    seat = seat_of(line, nick, players)
    fields = [field for field in re.split(rb"[ \t]+", rest) if field]
    said = event(line, fields)
    players[seat] = players[seat] or (nick, b"")
    events.append((seat, *said))


def read(record):
    """The players and the events of a record, or its first fault."""
    if len(record) > MOST_BYTES:
        raise Fault(0, "TooLong")
    players, events = [None, None], []
    for line, text in enumerate(record.removeprefix(b"\xef\xbb\xbf").split(b"\n"), 1):
        text = text.removesuffix(b"\r")
        if text.startswith(b"#"):
            name_players(line, text[1:], players, bool(events))
        elif text.startswith(b">"):
            read_event(line, text[1:], players, events)
    return players, events


def tidy(record):
    """What `referee tidy` is to write."""
    try:
        players, events = read(record)
    except Fault as fault:
        return fault.text()
    lines = []
    for seat in (0, 1):
        if players[seat]:
            nick, full = players[seat]
            lines.append(b"#player%d " % (seat + 1) + nick + (b" " + full if full else b""))
    for seat, rack, what, score, total in events:
        stated = rack + b" " if rack else b""
        lines.append(b">" + players[seat][0] + b": " + stated + what + b" %+d %d" % (score, total))
    return b"".join(line + b"\n" for line in lines)
