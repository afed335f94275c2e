"""What `explain` prints, by the second judge: of a verdict and a record, the sentences about a line, the words of its play and the board."""
import re
from collections import Counter

import clashes
from boards import ACROSS, Refused, place, runs, score_of
from deals import course, epoch, gone, low
from games import Game, step
from records import BLANKS, Fault, number, position, read, word
from rules import ENGLISH, KINDS, RACK, SIDE
from sheets import lay, square_text
from slips import fits, notes_of, order_of, slips_of, stands_at
from unread import MOST_NAMED, more_text, others, time_racks, unread_text

BOM = b"\xef\xbb\xbf"
PREMIUMS = {"DL": ", double letter", "TL": ", triple letter", "DW": ", double word", "TW": ", triple word"}
FACTORS = {"DL": 2, "TL": 3, "DW": 2, "TW": 3}
COLUMNS = "ABCDEFGHIJKLMNO"
LEGEND = "= triple word, - double word, \" triple letter, ' double letter\nsmall letters are blanks\n"
OTHER_LIST = "Perhaps the game was played with another word list.\n"


def count(many, noun):
    return f"{many} {noun}{'' if many == 1 else 's'}"


def square_name(square):
    return f"{square[0] + 1}{COLUMNS[square[1]]}"


def spot_name(at, direction):
    """Where a play begins, as `8H across` or `H8 down`."""
    return f"{square_name(at)} across" if direction == ACROSS else f"{COLUMNS[at[1]]}{at[0] + 1} down"


def tiles_text(tiles):
    """Tiles of a multiset, A to Z and then blanks."""
    return "".join(sorted(tiles.elements(), key=lambda tile: (tile == "?", tile))) or "no tile"


def squares_of(event):
    """The squares of the text of a play, those past the edge too."""
    return [(event.at[0] + event.direction[0] * k, event.at[1] + event.direction[1] * k) for k in range(len(event.word))]


# ---- the words of a play, and the board


def word_lines(run, after, new, listed, rules):
    """A word with its squares and its sum."""
    letters = "".join(after[square] for square in run).upper()
    shown = "".join(letter if square in new else f"({letter})" for square, letter in zip(run, letters)).replace(")(", "")
    told, points, factor = [shown + ("" if letters in listed else ", which is not in the word list")], 0, 1
    for square in run:
        worth, premium = rules.points.get(after[square], 0), rules.premiums.get(square) if square in new else None
        times = FACTORS[premium] if premium in ("DL", "TL") else 1
        factor *= FACTORS[premium] if premium in ("DW", "TW") else 1
        points += worth * times
        sum_ = f" x {times} = {worth * times}" if times > 1 else ""
        old = "" if square in new else ", already on the board"
        told.append(f"  {square_name(square)} {after[square]} {worth}{sum_}{PREMIUMS.get(premium, '')}{old}")
    return [*told, f"  sum {points} x {factor} = {points * factor}" if factor > 1 else f"  sum {points}"]


def words_text(board, event, listed, rules):
    """The words of a play with their squares and sums, the bonus and the score; nothing where the play cannot be laid."""
    try:
        new, after = place(board, event.at, event.direction, event.word)
    except Refused:
        return ""
    found = runs(after, new, event.direction) + runs(after, new, event.direction[::-1])
    told = [line for run in found for line in word_lines(run, after, new, listed, rules)]
    if len(new) == RACK:
        told.append(f"bonus for seven tiles: {rules.bonus}")
    return "\n".join([*told, f"score of the play: {score_of(after, new, found, rules)}", ""])


def row_text(board, rules, row, marked):
    told, before = f"{row + 1:2}", False
    for column in range(SIDE):
        here = (row, column) in marked
        told += (" " if here == before else "[" if here else "]") + square_text(board, rules, (row, column))
        before = here
    return told + ("]\n" if before else "\n")


def board_text(board, event, line, rules):
    marked = squares_of(event) if event.kind == "play" else []
    heading = f"board before line {line}{', the squares of the play in brackets' if marked else ''}\n"
    rows = "".join(row_text(board, rules, row, marked) for row in range(SIDE))
    return f"{heading}   {' '.join(COLUMNS)}\n{rows}{LEGEND}"


# ---- faults of the rules


class Scene:
    """An event with the game before it, the events before it with their lines, and how the players are called."""

    def __init__(self, game, events, lines, at, listed, nicks):
        self.game, self.past, self.lines, self.event, self.listed, self.nicks = game, events[:at], lines, events[at], listed, nicks
        self.at, self.later = at, events[at + 1 :]
        self.nick, self.other = nicks[self.event.player], nicks[1 - self.event.player]

    def play_before(self):
        return self.past[-1] if self.past and self.past[-1].kind == "play" else None

    def words_before(self):
        """The words of the play before."""
        board = lay(self.past, len(self.past) - 1)[0]
        play = self.past[-1]
        new, after = place(board, play.at, play.direction, play.word)
        found = runs(after, new, play.direction) + runs(after, new, play.direction[::-1])
        return ["".join(after[square] for square in run).upper() for run in found]


def in_words(items, last="and"):
    return f" {last} ".join([", ".join(items[:-1]), items[-1]] if len(items) > 1 else items)


def spots_text(scene):
    """Where the text of a play has the written score and the record stands with it to its end: the places at which each word is in the list, where
    there is one, and else all; three are named at the most."""
    event, found, listed = scene.event, [], []
    for direction in (ACROSS, ACROSS[::-1]):
        for at in [(row, column) for row in range(SIDE) for column in range(SIDE)]:
            try:
                new, after = place(scene.game.board, at, direction, event.word)
            except Refused:
                continue
            formed = runs(after, new, direction) + runs(after, new, direction[::-1])
            if score_of(after, new, formed, scene.game.rules) == event.score and stands_at(scene, at, direction):
                found.append(spot_name(at, direction))
                words = ["".join(after[square] for square in run).upper() for run in formed]
                listed += found[-1:] if all(word in scene.listed for word in words) else []
    if not found:
        return ""
    found = listed or found
    where = in_words(found) if len(found) <= 3 else f"{', '.join(found[:3])} and {count(len(found) - 3, 'other place')}"
    return f"The same letters score {event.score} at {where}.\n"


def tile_name(letter, blank):
    return blank if letter.islower() else letter


def tile_count(kind, many):
    if kind == "?":
        return "A blank is" if many == 1 else f"{many} blanks are"
    return f"{kind} is" if many == 1 else f"{many} tiles {kind} are"


def slips_text(scene, is_wrong):
    """Which tiles are not on the rack, what may have been misread, and what may be a blank."""
    slips, written, told = slips_of(scene, is_wrong), scene.event.score, ""
    rack = "".join(sorted(scene.event.rack, key=lambda tile: (tile == "?", tile)))
    for kind, played, has in slips.missing:
        told += f"{tile_count(kind, played)} played, but the rack {rack} has {f'only {has}' if has else 'none'}.\n"
    for it in slips.readings:
        tiles = f"{tile_name(it.read, 'a blank')} for {tile_name(it.letter, 'the blank')}"
        score = f"{it.score}, as is written" if it.score == written else f"{it.score}, but {written} is written"
        told += f"With {tiles} on {square_name(it.square)} the play makes {in_words(it.words)}, and scores {score}.\n"
    for it in slips.blanks:
        what = "as a letter and not a blank" if it.letter.islower() else "as a blank"
        told += f"With the {it.letter.upper()} on {square_name(it.square)} {what} the play scores {it.score}, as is written.\n"
    return told


def missing_text(scene, points):
    """What line is missing: without points it is a pass or an exchange."""
    return f"A line of {scene.other} with +{points}" if points else f"A pass or an exchange of {scene.other}"


def order_text(scene):
    """What seems to be wrong with the order of the lines."""
    name, points = order_of(scene)
    lines, at = scene.lines, scene.at
    return {
        None: lambda: "",
        "StandsTwice": lambda: f"This line says the same as line {lines[at - 1]}; it may have been written twice by mistake.\n",
        "WrongWay": lambda: f"With lines {lines[at]} and {lines[at + 1]} the other way round the rules allow both.\n",
        "Missing": lambda: f"{missing_text(scene, points)} seems to be missing between lines {lines[at - 1]} and {lines[at]}.\n",
        "AllowedFor": lambda: f"If this is a line of {scene.other}, the rules allow it.\n",
    }[name]()


def off_board(scene):
    event = scene.event
    place_ = event.at[1] if event.direction == ACROSS else event.at[0]
    line, room = ("row" if event.direction == ACROSS else "column"), SIDE - place_
    return (
        f"The play leaves the board: it covers {len(event.word)} squares, and from {square_name(event.at)} to the end of the {line} "
        f"there {'is' if room == 1 else 'are'} only {room}.\n"
    )


def mismatch(scene):
    board = scene.game.board
    for square, symbol in zip(squares_of(scene.event), scene.event.word):
        if symbol == "." and square not in board:
            return f"The play has a dot on {square_name(square)}, as if a tile were there, but the square is empty.\n"
        if symbol != "." and board.get(square, symbol).upper() != symbol.upper():
            return f"The play has {symbol} on {square_name(square)}, but the tile there shows {board[square].upper()}.\n"
    raise AssertionError("no misfit")


def not_whole(scene):
    event, board, told = scene.event, scene.game.board, ""
    first, last, (down, right) = event.at, squares_of(event)[-1], event.direction
    for square, side in (((first[0] - down, first[1] - right), "before"), ((last[0] + down, last[1] + right), "after")):
        if square in board:
            told += f"The tile {board[square].upper()} on {square_name(square)} is directly {side} the play.\n"
    return told + "The line has to name the whole word.\n"


def new_tiles(scene):
    return sum(symbol != "." and square not in scene.game.board for square, symbol in zip(squares_of(scene.event), scene.event.word))


PLAY_FAULTS = {
    "OffBoard": off_board,
    "Mismatch": mismatch,
    "NoNewTile": lambda scene: "Every square of the play already has a tile, so no tile is new.\n",
    "TooManyTiles": lambda scene: f"The play puts down {new_tiles(scene)} tiles, and a rack has 7 at most.\n",
    "NotWhole": not_whole,
    "MissesCentre": lambda scene: "The first play of a game has to cover 8H, and this one does not.\n",
    "TooShort": lambda scene: "The play makes no word of two letters or more.\n",
    "Apart": lambda scene: "No tile of the play touches a tile that is already on the board.\n",
}


def wrong_score(scene, right):
    event, written = scene.event, f"{right}, but {scene.event.score} is written.\n"
    if event.kind == "play":
        total = f"With {right} the total is {event.total}, as is written.\n" if fits(scene, right) else ""
        return f"The play scores {written}{slips_text(scene, True)}{spots_text(scene) or total}"
    if event.kind == "rack":
        what = "gets twice" if scene.game.out is not None else "loses"
        return f"{scene.nick} {what} the points of the rack {event.tiles}: the score is {written}"
    front = {"pass": "A pass scores", "withdraw": "A withdrawal takes the points of the play off again: it scores"}
    return f"{front.get(event.kind, 'An exchange scores')} {written}"


def latest_of(scene):
    """The line and the score of the player's latest event: no total after it holds the score. None where there is no such event."""
    own = [(line, before.score) for line, before in zip(scene.lines, scene.past) if before.player == scene.event.player]
    return own[-1] if own else (None, None)


def wrong_total(scene, right):
    event = scene.event
    told = (
        f"{scene.nick} had {scene.game.totals[event.player]} and scores {event.score} on this line, "
        f"which makes {right}, but {event.total} is written.\n"
    )
    short = right - event.total
    if event.score == short:
        return told + "The written total leaves out the score of this line.\n"
    line, score = latest_of(scene)
    return told + (f"The written total leaves out line {line}, which scores {short}.\n" if score == short else "")


def nothing_to_withdraw(scene):
    play = scene.play_before()
    if play and play.player != scene.event.player:
        return f"The play on line {scene.lines[len(scene.past) - 1]} is {scene.other}'s, so {scene.nick} cannot take it back.\n"
    what = "The event before this one is not a play" if scene.past else "This is the first event"
    return f"{what}, so there is nothing to take back.\n"


def bad_bonus(scene):
    play, rules = scene.play_before(), scene.game.rules
    if not play:
        what = "The event before this one is not a play" if scene.past else "This is the first event"
        return f"{what}, so there is nothing to challenge.\n"
    if play.player != scene.event.player:
        return f"The play on line {scene.lines[len(scene.past) - 1]} is {scene.other}'s, so its bonus cannot go to {scene.nick}.\n"
    listed = sum(word in scene.listed for word in scene.words_before())
    amounts = in_words([str(rules.challenge_unit * k) for k in range(1, listed + 1)], "or")
    are = "word of the play is" if listed == 1 else "words of the play are"
    front = f"A bonus is {rules.challenge_unit} points for each challenged word that is in the word list."
    return f"{front} {listed} {are}, so the bonus can be {amounts}, but {scene.event.score} is written.\n"


def due_text(what, player, nicks):
    """Which last rack is missing."""
    if what == "Out":
        return (
            f"{nicks[player]} is out, so there are no more turns. What is missing is {nicks[1 - player]}'s last rack, on a line of {nicks[player]}.\n"
        )
    return f"{nicks[player]} has lost the points of a rack, so there are no more turns. What is missing is {nicks[1 - player]}'s last rack.\n"


def game_over(scene):
    game, nicks = scene.game, scene.nicks
    if game.complete:
        return "The game is complete: the last racks are in.\n"
    if game.out is not None:
        return due_text("Out", game.out, nicks)
    return due_text("RackLost", scene.event.player if game.ended[scene.event.player] else 1 - scene.event.player, nicks)


def not_over(scene):
    turns, limit = scene.game.idle_turns, scene.game.rules.zero_limit
    return (
        f"No last rack is due. No player is out, and a game ends after {limit} turns in a row without a play that stands; "
        f"before this line there {'was' if turns == 1 else 'were'} {turns}.\n"
    )


def last_rack_size(scene):
    holder = scene.event.player if scene.game.out is None else 1 - scene.game.out
    return f"The last rack shows {count(len(scene.event.tiles), 'tile')}, but {scene.nicks[holder]} has {scene.game.racks[holder]}.\n"


def bad_time(scene):
    player = scene.event.player
    if scene.game.timed[player]:
        line = next(line for line, it in zip(scene.lines, scene.past) if it.kind == "time" and it.player == player)
        return f"{scene.nick} already has a penalty for time, on line {line}, and a player has one at most.\n"
    return f"A penalty for time is a negative multiple of {scene.game.rules.time_step}, but {scene.event.score} is written.\n"


def not_your_turn(scene):
    if scene.event.kind == "rack":
        return f"{scene.other} is out, so {scene.nick}'s last rack has to be on a line of {scene.other}, who gets the points.\n{order_text(scene)}"
    return f"It is {scene.other}'s turn, not {scene.nick}'s.\n{order_text(scene)}"


def exchange_refused(scene):
    return f"The bag has {count(scene.game.bag, 'tile')}, but an exchange is allowed only while it has {scene.game.rules.exchange_min} or more.\n"


def exchange_size(scene):
    has = scene.game.racks[scene.event.player]
    return f"{count(scene.event.size, 'tile')} cannot be exchanged: {scene.nick} has {has}, and the bag has {scene.game.bag}.\n"


def too_many_used(scene):
    return f"The play uses {count(new_tiles(scene), 'tile')}, but {scene.nick} has only {scene.game.racks[scene.event.player]} left.\n"


def withdrawn_valid(scene):
    line, words = scene.lines[len(scene.past) - 1], in_words(scene.words_before())
    return f"The play on line {line} stands, since each of its words is in the word list: {words}.\n{OTHER_LIST}"


def bonus_on_phony(scene):
    line, words = scene.lines[len(scene.past) - 1], in_words(scene.words_before())
    return f"The challenge of the play on line {line} succeeds, since none of its words is in the word list: {words}.\n{OTHER_LIST}"


RULE_FAULTS = {
    "NotYourTurn": not_your_turn,
    "NothingToWithdraw": nothing_to_withdraw,
    "WithdrawnValid": withdrawn_valid,
    "BonusOnPhony": bonus_on_phony,
    "BadBonus": bad_bonus,
    "ExchangeRefused": exchange_refused,
    "ExchangeSize": exchange_size,
    "GameOver": game_over,
    "NotOver": not_over,
    "LastRackSize": last_rack_size,
    "BadTime": bad_time,
    "TooManyUsed": too_many_used,
}


def rule_text(scene, fault):
    name, _, right = fault.partition(" ")
    if name == "WrongScore":
        return wrong_score(scene, int(right))
    if name == "WrongTotal":
        return wrong_total(scene, int(right))
    if name in PLAY_FAULTS:
        return PLAY_FAULTS[name](scene) + spots_text(scene)
    return RULE_FAULTS[name](scene)


# ---- racks


def must_have(places, player, now):
    """What a player's rack has to have at a place, by what the lines show."""
    return low(places, player, now) - gone(places, player, now)


def left_over(places, now):
    """If the line of a place shows a whole rack, and fewer tiles of a kind than the lines before it leave there: the last of these lines, what is
    left, the kind, and how many the line shows of it."""
    holder, latest, left = places[now].holder, None, Counter()
    for k in range(epoch(places, holder, now), now):
        if places[k].holder == holder and places[k].need.total():
            latest, left = k, (left | places[k].need) - Counter(places[k].leaves(holder))
    if latest is None or places[now].need.total() != places[now].racks[holder]:
        return None
    kind = next((it for it in KINDS if places[now].need[it] < left[it]), None)
    return kind and (latest, left, kind, places[now].need[kind])


def left_text(places, now, lines):
    """What the lines before leave on a rack that a line shows without it."""
    found = left_over(places, now)
    if not found:
        return []
    latest, left, kind, has = found
    return [f"After line {lines[latest]} {tiles_text(left)} is left, but line {lines[now]} has {f'only {has}' if has else 'no'} {kind}."]


def rack_too_big(places, now, lines, nicks):
    holder = places[now].holder
    must, size = must_have(places, holder, now), places[now].racks[holder]
    told = left_text(places, now, lines)
    told += [
        f"{nicks[holder]} has {count(size, 'tile')} here, but by the lines below the rack would have to hold {must.total()}: {tiles_text(must)}."
    ]
    for k in range(epoch(places, holder, now), now + 1):
        it = places[k]
        if it.holder == holder and it.need.total():
            plays = f" and plays {tiles_text(it.used)}" if it.stands else ""
            throws = f" and exchanges {tiles_text(it.throws())}" if it.event.kind == "exchange" else ""
            told.append(f"  line {lines[k]} shows {tiles_text(it.need)}{plays}{throws}")
    return told


def tiles_short(places, now, lines, nicks, kind, rules):
    laid = sum(it.used[kind] for it in places[:now] if it.stands)
    first, second = (must_have(places, player, now)[kind] for player in (0, 1))
    told = [
        f"The game has {rules.tiles[kind]} of the tile {kind}, but by what the lines up to this one show "
        f"there would have to be {laid + first + second}: {laid} on the board, {first} on {nicks[0]}'s rack and {second} on {nicks[1]}'s."
    ]
    for k, it in enumerate(places[: now + 1]):
        if it.holder is None or not it.need[kind]:
            continue
        played = it.used[kind] if it.stands else 0
        if played or k >= epoch(places, it.holder, now):
            plays = f" and plays {played}" if played else ""
            told.append(f"  line {lines[k]} shows {it.need[kind]} on {nicks[it.holder]}'s rack{plays}")
    return told


def clash_text(places, lines, nicks, tiles, printed):
    """Which tiles and lines already cannot be together, as was printed, where that is right."""
    clash = clashes.told_in(printed)
    if clash is None or not clashes.is_clash(places, lines, tiles, clash):
        return [f"{clash} is no clash"]
    if not clash:
        return [clashes.NOTHING]
    holders = {line: place.holder for line, place in zip(lines, places)}
    return [clashes.ALONE, *(f"  line {line} shows {tiles_text(Counter(shown))} on {nicks[holders[line]]}'s rack" for line, shown in clash)]


def no_deal(places, now, lines, nicks, tiles, printed):
    told = ["No deal of the tiles gives the players the racks that the lines up to this one show, though no single line shows too much."]
    told += [*clash_text(places[: now + 1], lines[: now + 1], nicks, tiles, printed), clashes.BEHIND]
    for k, it in enumerate(places[: now + 1]):
        if it.event.kind in ("exchange", "unknown"):
            told.append(f"  line {lines[k]}: {nicks[it.event.player]} exchanges {count(it.event.size, 'tile')}")
    return told + (
        [f"Up to line {lines[now - 1]} a deal of the tiles gives the players every rack that is shown."] if "Up to line " in printed and now else []
    )


def rack_text(events, listed, rules, now, lines, nicks, fault, printed):
    places = course(events, listed, rules)
    name, _, kind = fault.partition(" ")
    if name == "RackTooBig":
        told = rack_too_big(places, now, lines, nicks)
    elif name == "TilesShort":
        told = tiles_short(places, now, lines, nicks, kind, rules)
    else:
        told = no_deal(places, now, lines, nicks, rules.tiles, printed)
    return "".join(line + "\n" for line in told)


# ---- records


def field_text(written, why):
    """What is wrong with a field of an event line."""
    fields = [it for it in re.split(b"[ \t]+", written.partition(b":")[2].strip(BLANKS)) if it]
    if why == "Fields":
        many = f"is {len(fields)} field" if len(fields) == 1 else "are more than 5 fields" if len(fields) > 5 else f"are {len(fields)} fields"
        return f"There {many} after the colon, but an event has 3 to 5.\n".encode()
    if why == "Rack":
        return fields[0] + b" is not a rack: a rack is 1 to 7 tiles, each A to Z or ?.\n"
    if why == "Position":
        return fields[-4] + b" is not a position: a position is a row from 1 to 15 and a column from A to O, in either order.\n"
    if why == "Word":
        return fields[-3] + b" cannot be the word of a play: a word is 1 to 15 letters and dots.\n"
    if why == "Code":
        what = b"a play with its position, word, score and total, or one of the codes -, --, -TILES, -NUMBER, (challenge), (time) and (TILES)"
        return fields[-3] + b" is not an event: an event is " + what + b".\n"
    bad = -2 if number(fields[-2]) is None else -1
    what = b"score" if bad == -2 else b"total"
    return b"The " + what + b" " + fields[bad] + b" is not a number of 1 to 6 digits, with or without a sign.\n"


def bare_fields(text):
    return [it for it in re.split(b"[ \t]+", text) if it]


def missing(written, why):
    """What a line lacks that is no line of a record."""
    if why == "NoColon":
        nick, colon, _ = written[1:].partition(b":")
        names = bare_fields(nick)
        return b" Write " + b"_".join(names) + b"." if colon and len(names) > 1 else b""
    if why == "ThirdPlayer":
        return b" The line begins with more than one >." if written.startswith(b">") and written[1:].lstrip(BLANKS).startswith(b">") else b""
    fields = bare_fields(written.partition(b":")[2])
    if why == "Number":
        return b" Numbers are written without commas and full stops." if re.search(rb"[,.]", b"".join(fields[-2:])) else b""
    if why == "Fields" and len(fields) > 5:
        return behind_text([number(field) is not None for field in fields])
    if why == "Code" and len(fields) > 2 and number(fields[-1]) is not None and number(fields[-2]) is not None:
        return code_text(fields[-3])
    if why not in ("Fields", "Rack", "Position", "Word", "Code") or not 1 <= len(fields) <= 5:
        return b""
    if number(fields[-1]) is None:
        return b" The score and the total are missing."
    if len(fields) == 1 or number(fields[-2]) is None:
        return b" The score or the total is missing: an event ends with both."
    return b" The play or the code before the score is missing." if len(fields) == 2 else b""


def behind_text(numbers):
    """Where a note stands, if the fields of a line go on after two numbers."""
    goes_on = any(numbers[k] and numbers[k + 1] for k in (1, 2, 3))
    return b" What comes after the total belongs on a line of its own that begins with #note." if goes_on else b""


def code_text(code):
    """What is missing of an event whose code is none, or how the code is written."""
    if position(code):
        return b" The word of the play is missing."
    if code.startswith(b"(") and code.endswith(b")"):
        return b" The codes (time) and (challenge) are written in small letters, and a last rack in capitals."
    return b" The position of the play is missing." if word(code) else b""


def third_player(game, line, written):
    if not written.startswith(b">"):
        return b"This line gives a player the nickname that the other player already has.\n"
    players, _ = read(b"\n".join(game.split(b"\n")[: line - 1]) + b"\n")
    nick = written[1:].partition(b":")[0].strip(BLANKS)
    return nick + b" is a third nickname: the players are " + players[0][0] + b" and " + players[1][0] + b".\n"


def record_text(game, fault):
    """What is said of a text that is no record."""
    if fault.why == "TooLong":
        return b"The file has more than 1,048,576 bytes, and no game record may be that long. Is it the wrong file?\n"
    written = line_of(game, fault.line)
    if fault.why == "TooManyEvents":
        return b"This is event 1,001, and a record has 1,000 at most.\n"
    if fault.why == "ThirdPlayer":
        return third_player(game, fault.line, written)
    if fault.why != "NoColon":
        return field_text(written, fault.why)
    head, colon, _ = written[1:].partition(b":")
    if not colon:
        return b"An event begins with >, a nickname and a colon, but this line has no colon.\n"
    inside = b"There is a space or a tab inside the nickname before the colon.\n"
    return inside if head.strip(BLANKS) else b"There is no nickname before the colon.\n"


# ---- all of it


def line_of(game, line):
    """A line of a record as it is, without its end."""
    return game.removeprefix(BOM).split(b"\n")[line - 1].removesuffix(b"\r")


def judged_text(events, lines, at, listed, rules, nicks, verdict, printed=""):
    """What is said of the event at a place: that it is allowed, what is wrong with it, or that it was not judged. Where no deal gives the racks, what
    was `printed` says what was found of them."""
    game = Game(rules)
    for k in range(at):
        try:
            step(game, events[k], events[k + 1], listed)
        except Refused:
            return f"The rules do not allow line {lines[k]}, so this line was not judged.\n"
    told = re.fullmatch(rf"illegal line {lines[at]}: (.*)", verdict)
    if not told:
        return "The rules allow this event.\n"
    fault = told[1]
    scene = Scene(game, events, lines, at, listed, nicks)
    if fault.split(" ")[0] in ("RackTooBig", "TilesShort", "NoDeal"):
        return slips_text(scene, False) + rack_text(events, listed, rules, at, lines, nicks, fault, printed)
    return rule_text(scene, fault)


def notes_text(events, lines, listed, rules, nicks):
    """Which plays stand with words that are not in the list, which turns show no rack or a part of it, and which last rack is missing."""
    notes = notes_of(events, lines, listed, rules)
    told = "" if notes.plays else "Each word of every play that stands is in the word list.\n"
    for line, player, words in notes.plays:
        told += (
            f"Line {line}: {nicks[player]}'s play stands with {in_words(words)}, which {'is' if len(words) == 1 else 'are'} not in the word list.\n"
        )
    told += OTHER_LIST if notes.is_other_list() else ""
    told += racks_text(notes)
    return told + (due_text(*notes.due, nicks) if notes.due else "")


def racks_text(notes):
    """Which turns show no rack, and which a part of it."""
    told = "".join(f"Line {line} shows {shown} of {count(has, 'tile')}.\n" for line, _, shown, has in notes.parts)
    if not notes.hidden:
        if not notes.parts:
            return "Every turn shows its rack.\n" if notes.turns else ""
        return told + ("Every other turn shows its rack.\n" if len(notes.parts) < len(notes.turns) else "")
    if len(notes.hidden) == len(notes.turns):
        return told + "No turn shows its rack.\n"
    which = f"line{'' if len(notes.hidden) == 1 else 's'} {in_words([str(it) for it in notes.hidden])}"
    return f"{told}No rack is shown on {count(len(notes.hidden), 'turn')}: {which}.\n"


def whole_text(verdict, events, lines, listed, rules, nicks):
    if not events:
        return "The record has no event. Is it a game record?\n"
    notes = notes_text(events, lines, listed, rules, nicks)
    if verdict.startswith("legal"):
        return f"The rules allow every event, and a deal of the tiles gives the players every rack that is shown.\n{notes}"
    return (
        "The rules allow every event. Neither a deal of the tiles that gives the players every rack that is shown was found, "
        f"nor a proof that there is none.\n{notes}"
    )


def explained(verdict, game, players, events, lines, listed, rules=ENGLISH, asked=None, printed=""):
    """What is to be printed of a record with this settled verdict line, or of the event on a line or after it."""
    illegal = re.match("illegal line ([0-9]+):", verdict)
    wanted = asked if asked is not None else int(illegal[1]) if illegal else None
    nicks = [player[0].decode("latin-1") if player else "the other player" for player in players]
    passed_over = unread_text(game) + time_racks(game)
    if wanted is None:
        return f"{verdict}\n{passed_over}{whole_text(verdict, events, lines, listed, rules, nicks)}".encode("latin-1")
    at = next((k for k, line in enumerate(lines) if line >= wanted), None)
    if at is None:
        return b"bad line: no event is on it or after it\n" + passed_over.encode()
    told = f"{verdict}\nline {lines[at]}: ".encode("latin-1") + line_of(game, lines[at]) + b"\n" + passed_over.encode()
    told += judged_text(events, lines, at, listed, rules, nicks, verdict, printed).encode("latin-1")
    board, end, _ = lay(events, at)
    if end < at:
        return told + f"The board before this line is not known, since the play on line {lines[end]} cannot be laid.\n".encode()
    words = words_text(board, events[at], listed, rules) if events[at].kind == "play" else ""
    return told + (words + board_text(board, events[at], lines[at], rules)).encode()


def explained_fault(game, fault: Fault):
    """What is to be printed of a text that is no record."""
    more = others(game, fault)
    told = b"".join(fault_text(game, it) for it in [fault, *more[:MOST_NAMED]])
    left = more_text(len(more), "begins with > and is not an event", "begin with > and are not events")
    return fault.text() + told + (left + unread_text(game)).encode()


def fault_text(game, fault):
    """A line that is no event, and what is wrong with it."""
    line = f"line {fault.line}: ".encode() + line_of(game, fault.line) + b"\n" if fault.line else b""
    lacks = missing(line_of(game, fault.line), fault.why).removeprefix(b" ") if fault.line else b""
    return line + record_text(game, fault) + (lacks + b"\n" if lacks else b"")
