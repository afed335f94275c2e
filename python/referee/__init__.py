"""A client of `referee serve`: verdicts from a program that has read its word list once.

    from referee import Referee

    with Referee("words.txt", "words.gad") as referee:
        answer = referee.judge(open("game.gcg", "rb").read())
        print(answer.verdict, answer.line, answer.fault)

A game is the text of a record, or its bytes. An answer is a dictionary whose keys are attributes too, and has the exit status of the command as
`status`. If the status is 3, 4 or 64, an exception is raised instead: `BadInput`, `Broken` or `BadRequest`. Several threads may ask one client;
they are answered one after the other. To use many processors, start many clients.
"""
from __future__ import annotations

import itertools
import json
import os
import re
import selectors
import subprocess
import threading
import time
from types import TracebackType
from typing import Any, Dict, List, Optional, Union

__all__ = ["Answer", "BadInput", "BadRequest", "Broken", "Referee", "RefereeError", "TimedOut", "text_of"]

Game = Union[str, bytes]
Path = Union[str, "os.PathLike[str]"]
Object = Dict[str, Any]
Objects = List[Object]


class Answer(dict[str, Any]):
    """The object of an answer. Its keys are attributes too: those that the object of the command has."""

    status: int = 0
    text: Optional[str] = None

    # all
    verdict: str
    line: Optional[int]
    fault: Optional[Object]
    unread_lines: Objects
    ending: Optional[str]
    players: Objects
    # judge, top, board, word and check
    events: Objects
    rack: Optional[str]
    plays: Objects
    before: Optional[int]
    rows: list[str]
    off_board: Object
    words: Any
    # audit and fill
    wrong: Objects
    ahead: Optional[Object]
    ahead_by_sheet: Optional[Object]
    amount: Optional[Object]
    put_in: Object
    lines: Objects
    amiss: Optional[str]
    complete: bool
    turn: Optional[int]
    out: Optional[int]
    bag: int
    # explain
    explained: Optional[int]
    facts: Objects
    play: Optional[Object]
    board: Any
    unknown_since: Optional[int]
    likely: Optional[Object]
    # repair
    numbers_alone: Optional[Object]
    repairs: Objects
    pairs: Objects
    chain: Optional[Object]
    left: Any
    tried: Any
    untried: Optional[int]
    numbers_alone_settled: Optional[bool]
    sheet_slips: Objects
    line_slips: Objects
    to_go_by: int
    # compare
    differences: Objects
    not_varied: int
    choices: int
    best: Optional[Object]
    rivals: Objects
    furthest: Optional[Object]
    best_repair: Any
    totals: Any
    ahead_by_first: Optional[Object]
    ahead_by_second: Optional[Object]
    merged: Optional[str]
    not_merged: Optional[str]
    # no memory
    file: Optional[str]

    def __getattr__(self, key: str) -> Any:
        try:
            return self[key]
        except KeyError:
            raise AttributeError(key) from None


class RefereeError(Exception):
    """A request got no answer of the usual kind. `answer` is the object that says why, if there is one."""

    status: Optional[int] = None

    def __init__(self, text: object, answer: Optional[Answer] = None) -> None:
        super().__init__(text)
        self.answer = answer


class BadInput(RefereeError):
    """The record, the rack, the line or a word is bad; or, when the program starts, the word list, the lexicon or the rules text is."""

    status = 3


class Broken(RefereeError):
    """There was no memory for the answer, or the program ended."""

    status = 4


class Died(Broken):
    """The program ended before it answered."""


class Garbled(Broken):
    """What came back is not an answer: half a line, or no object. The program was ended."""


class OutOfTurn(Broken):
    """The answer to another request came back. The program was ended."""


class TimedOut(Broken, TimeoutError):
    """There was no answer in time. The program was ended."""


class BadRequest(RefereeError):
    """What was sent is not a request."""

    status = 64


FAILURES: dict[int, type[RefereeError]] = {3: BadInput, 4: Broken, 64: BadRequest}


def text_of(game: Game) -> str:
    """The text of a record that is given as bytes. If they state ISO-8859-1, the text states UTF-8, which is what the program gets."""
    if isinstance(game, str):
        return game
    states = re.compile(rb"^(#character-encoding[ \t]+)iso-8859-1(?![^ \t\r\n])", re.IGNORECASE | re.MULTILINE)
    try:
        if not states.search(game):
            return game.decode()
    except UnicodeDecodeError:
        pass
    return states.sub(rb"\1UTF-8", game).decode("latin-1")


class Referee:
    """A program that answers requests. It is started at once, and ended by `close` or at the end of a `with`.

    A program that ended, or was ended since it did not answer as it should, is started again, and asked once more unless it took too long. With
    `restart=False` it is not: the failure is raised, and so is one for each later request.
    """

    def __init__(
        self,
        words: Path,
        lexicon: Path,
        *,
        rules: Optional[Path] = None,
        first_field: bool = False,
        skip_others: bool = False,
        program: Path = "referee",
        timeout: float = 60.0,
        restart: bool = True,
    ) -> None:
        options = [option for option, wanted in (("--first-field", first_field), ("--skip-others", skip_others)) if wanted]
        by = [] if rules is None else ["--rules", os.fspath(rules)]
        self._command = [os.fspath(program), "serve", *options, *by, os.fspath(words), os.fspath(lexicon)]
        self._lock, self._numbers, self._is_open = threading.Lock(), itertools.count(1), True
        self._process: Optional[subprocess.Popen[bytes]] = None
        self.timeout, self._restart = timeout, restart
        self.words: int = 0
        self.version: str = ""
        self._start()

    def __enter__(self) -> Referee:
        return self

    def __exit__(self, kind: Optional[type[BaseException]], error: Optional[BaseException], trace: Optional[TracebackType]) -> None:
        self.close()

    def close(self) -> None:
        """Ends the program."""
        with self._lock:
            self._is_open = False
            self._end()

    def judge(self, game: Game, *, settle: bool = False, best: bool = True) -> Answer:
        """Judges a game, with `settle` by a search for a deal. Without `best` no best plays are looked for."""
        return self.ask("judge", game=text_of(game), settle=settle, best=best)

    def explain(self, game: Game, line: Optional[int] = None, *, likely: bool = True, draft: bool = False) -> Answer:
        """Explains the verdict on a game, or one of its lines. Without `likely` no likely repair of an illegal record is looked for. With `draft` the
        text is that of a draft."""
        return self.ask("explain", game=text_of(game), line=line, likely=likely, draft=draft)

    def audit(self, game: Game, *, corrected: bool = False) -> Answer:
        """Audits a sheet. If `corrected` is true and the corrected record stands, it is the `text` of the answer."""
        return self.ask("audit", game=text_of(game), corrected=corrected)

    def board(self, game: Game, line: Optional[int] = None, *, draft: bool = False) -> Answer:
        """The board after the last event of a record, or before one of its lines. With `draft` the text is that of a draft."""
        return self.ask("board", game=text_of(game), line=line, draft=draft)

    def top(self, game: Game, rack: Optional[str] = None, *, line: Optional[int] = None, number: Optional[int] = None) -> Answer:
        """The best plays by a rack, or by the one that the line shows: ten, or `number` of them."""
        return self.ask("top", game=text_of(game), rack=rack, line=line, number=number)

    def word(self, *words: str) -> Answer:
        """Whether words are acceptable."""
        return self.ask("word", words=words)

    def check(self) -> Answer:
        """That the file is the lexicon of the list, and how many words the list has."""
        return self.ask("check")

    def tidy(self, game: Game) -> str:
        """The normal form of a record."""
        return self.ask("tidy", game=text_of(game)).text or ""

    def page(self, game: Game, *, likely: bool = True) -> str:
        """The page of a game, as HTML. Without `likely` it does not show the likely repair of an illegal record."""
        return self.ask("page", game=text_of(game), likely=likely).text or ""

    def repair(self, game: Game, *, number: Optional[int] = None, repaired: bool = False, draft: bool = False) -> Answer:
        """What repairs an illegal record, or a text that is not one, in ten lines, or in `number` lines. If `repaired` is true and one repair is to
        be chosen, the repaired sheet is the `text` of the answer. A text that is not a record is a `BadInput`, whose `answer` has the repairs and the
        text. If `draft` is true, the text is that of a draft, and only the numbers that are written count."""
        return self.ask("repair", game=text_of(game), number=number, repaired=repaired, draft=draft)

    def compare(self, first: Game, second: Game, *, merged: bool = False, draft: bool = False) -> Answer:
        """Compares two sheets of one game, or two drafts if `draft` is true. If `merged` is true and there is a merged record, it is the `text` of
        the answer."""
        return self.ask("compare", first=text_of(first), second=text_of(second), merged=merged, draft=draft)

    def annotate(self, game: Game, *, number: Optional[int] = None) -> str:
        """A sheet with notes: after each turn its best play, or the `number` best; and after the line that is refused, why it is."""
        return self.ask("annotate", game=text_of(game), number=number).text or ""

    def fill(self, draft: Game, *, filled: bool = False) -> Answer:
        """Puts into a draft the scores and totals that it lacks. If `filled` is true and the record is to be written, it is the `text` of the
        answer."""
        return self.ask("fill", draft=text_of(draft), filled=filled)

    def next(self, draft: Game) -> Answer:
        """What the next line of a draft is about: whose turn it is, the totals, and the tiles on the racks and in the bag."""
        return self.ask("next", draft=text_of(draft))

    def ask(self, do: str, *, timeout: Optional[float] = None, **members: Any) -> Answer:
        """The answer to a request with these members; one that is None is left out. With `timeout` the program has that many seconds for this
        request."""
        with self._lock:
            number = next(self._numbers)
            asked = {"id": number, "do": do} | {key: value for key, value in members.items() if value is not None}
            response = self._answered(json.dumps(asked).encode() + b"\n", self.timeout if timeout is None else timeout)
            if response.get("id") not in (number, None):
                self._end()
                raise OutOfTurn(f"the answer to {response.get('id')} in place of that to {number}")
        answer = Answer(response.get("answer") or {})
        answer.status, answer.text = response["status"], response.get("text")
        if answer.status in FAILURES:
            raise FAILURES[answer.status](response.get("error") or answer.get("verdict"), answer)
        return answer

    def _answered(self, line: bytes, timeout: float) -> dict[str, Any]:
        """The answer to a line. A program that has ended is started again and asked again, once: no answer depends on an earlier one."""
        if not self._is_open:
            raise Broken("the client is closed")
        if self._process is None and not self._restart:
            raise Died("the program ended, and is not started again")
        failure = Broken("the program did not answer")
        for _ in range(2 if self._restart else 1):
            process = self._process or self._start()
            try:
                return _object(_exchange(process, line, timeout))
            except TimedOut:
                self._end()
                if self._restart:
                    self._start()
                raise
            except ValueError as error:
                failure = Garbled(f"not an answer: {error}")
            except (OSError, EOFError) as error:
                failure = Died(f"the program ended: {error}")
            self._end()
        raise failure

    def _start(self) -> subprocess.Popen[bytes]:
        """Starts the program, and waits until it is ready."""
        process = subprocess.Popen(self._command, stdin=subprocess.PIPE, stdout=subprocess.PIPE, bufsize=0)
        self._process = process
        for pipe in (process.stdin, process.stdout):
            assert pipe is not None
            os.set_blocking(pipe.fileno(), False)
        try:
            response = _object(_exchange(process, b"", self.timeout))
        except (OSError, EOFError, ValueError) as error:
            self._end()
            raise error if isinstance(error, TimedOut) else Broken(f"the program did not start: {error}") from error
        if response.get("ready") is not True:
            self._end()
            failure = Broken if response.get("verdict") in ("cannot open", "read failed", "no memory") else BadInput
            raise failure(response.get("verdict"), Answer(response))
        self.words, self.version = response["words"], response["version"]
        return process

    def _end(self) -> None:
        """Ends the program, by force if it does not end by itself."""
        process, self._process = self._process, None
        if process is None:
            return
        assert process.stdin is not None and process.stdout is not None
        process.stdin.close()
        try:
            process.wait(0.2 if self._is_open else 5)
        except subprocess.TimeoutExpired:
            process.kill()
            process.wait()
        process.stdout.close()


def _object(line: bytes) -> dict[str, Any]:
    """The JSON object of a line."""
    response = json.loads(line)
    if not isinstance(response, dict):
        raise ValueError("the line is not an object")
    return response


def _exchange(process: subprocess.Popen[bytes], line: bytes, timeout: float) -> bytes:
    """Writes a line to a program, and reads one."""
    until, left, got = time.monotonic() + timeout, memoryview(line), bytearray()
    assert process.stdin is not None and process.stdout is not None
    with selectors.DefaultSelector() as selector:
        selector.register(process.stdout, selectors.EVENT_READ)
        if left:
            selector.register(process.stdin, selectors.EVENT_WRITE)
        while not got.endswith(b"\n"):
            ready = selector.select(max(0.0, until - time.monotonic()))
            if not ready:
                raise TimedOut(f"no answer in {timeout} s")
            for key, _ in ready:
                if key.fileobj is process.stdout:
                    piece = os.read(key.fd, 1 << 16)
                    if not piece and got:
                        raise ValueError(f"half a line, {bytes(got[:80])!r}")
                    if not piece:
                        raise EOFError(f"end of its output, status {process.poll()}")
                    got += piece
                else:
                    left = left[os.write(key.fd, left[: 1 << 16]) :]
                    if not left:
                        selector.unregister(process.stdin)
    return bytes(got)
