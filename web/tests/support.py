"""What the tests share: the example game, a page that is started on a free port, and a plain client."""
from __future__ import annotations

import atexit
import html
import http.client
import os
import re
import shutil
import signal
import socket
import subprocess
import tempfile
import time
from pathlib import Path
from typing import Iterator, Optional
from urllib.parse import urlencode

ROOT = Path(__file__).resolve().parents[2]
EXAMPLES = ROOT / "examples"
GAME = (EXAMPLES / "game.gcg").read_text()
PROGRAM = os.environ.get("REFEREE") or str(ROOT / "crates" / "referee" / "out" / "referee")
PICTURES = os.environ.get("TABLE_PICTURES")
ENTERED = GAME.replace("#player2 Bob Bob Ray\n", "#player2 Bob Bob Ray\n#lexicon words\n")
WRONG_PLACE = GAME.replace("10F NOD", "10G NOD")
WRONG_SCORE = GAME.replace("+28 28", "+29 28", 1)
EVENT = re.compile(r"^>(\w+): (?:([A-Z?]+) )?(.*) ([+-]\d+) (-?\d+)$")


def events() -> Iterator[dict[str, str]]:
    """The events of the example game, as somebody types them: without their totals, and only a challenge and a penalty with its points."""
    kinds = {"-": "pass", "--": "withdraw", "(challenge)": "challenge", "(time)": "time"}
    for line in GAME.splitlines():
        found = EVENT.match(line)
        if found:
            player, rack, move, score, _ = found.groups()
            kind = kinds.get(move) or ("exchange" if move.startswith("-") else "last" if move.startswith("(") else "play")
            yield {
                "line": line,
                "player": player,
                "rack": rack or "",
                "kind": kind,
                "move": move if kind == "play" else "",
                "tiles": move.strip("-()") if kind in ("exchange", "last") else "",
                "points": score.lstrip("+-") if kind in ("challenge", "time") else "",
            }


def free_port() -> int:
    """A port that nobody listens to."""
    with socket.socket() as it:
        it.bind(("127.0.0.1", 0))
        return int(it.getsockname()[1])


def slow_program(do: str, seconds: int) -> Path:
    """The program, but that its `serve` waits for some seconds before it answers a request of one kind."""
    folder = Path(tempfile.mkdtemp(prefix="slow-"))
    atexit.register(shutil.rmtree, folder, ignore_errors=True)
    program = folder / "referee"
    program.write_text(
        f"""#!/usr/bin/python3
import subprocess, sys, time

program = subprocess.Popen([{PROGRAM!r}, *sys.argv[1:]], stdin=subprocess.PIPE if "serve" in sys.argv else None)
for line in sys.stdin.buffer if program.stdin else ():
    if b'"do": "{do}"' in line:
        time.sleep({seconds})
    program.stdin.write(line)
    program.stdin.flush()
if program.stdin:
    program.stdin.close()
sys.exit(program.wait())
"""
    )
    program.chmod(0o755)
    return program


class Page:
    """A page that start.sh has started, with the words of the example game, or others."""

    def __init__(self, words: Optional[Path] = None, workers: int = 2, options: tuple[str, ...] = (), **settings: str) -> None:
        self.folder = Path(tempfile.mkdtemp(prefix="table-"))
        self.words = words or Path(shutil.copy(EXAMPLES / "words.txt", self.folder))
        self.port = free_port()
        self.url = f"http://127.0.0.1:{self.port}"
        command = [str(ROOT / "web" / "start.sh"), "--port", str(self.port), "--workers", str(workers), *options, str(self.words)]
        environment = os.environ | {"REFEREE": PROGRAM} | settings
        self.log = open(self.folder / "log", "w+")
        self.process = subprocess.Popen(command, stdout=self.log, stderr=subprocess.STDOUT, env=environment)
        atexit.register(self.close)
        self.wait()

    def wait(self) -> None:
        """Waits until the page answers."""
        for _ in range(3000):
            if self.process.poll() is not None:
                break
            try:
                if Client(self).get("/")[0] == 200:
                    return
            except OSError:
                time.sleep(0.1)
        raise RuntimeError(f"the page did not start: {self.said()}")

    def said(self) -> str:
        """What the server wrote."""
        self.log.flush()
        return Path(self.log.name).read_text()

    def close(self) -> None:
        """Ends the page."""
        if self.process.poll() is None:
            self.process.send_signal(signal.SIGTERM)
            try:
                self.process.wait(15)
            except subprocess.TimeoutExpired:
                self.process.kill()
                self.process.wait()
        self.log.close()
        shutil.rmtree(self.folder, ignore_errors=True)


_shared: list[Page] = []


def shared_page() -> Page:
    """A page that several tests use, with time for long searches on a machine that does something else."""
    if not _shared:
        _shared.append(Page(TABLE_SECONDS="60"))
    return _shared[0]


class Client:
    """Somebody with a browser that keeps one cookie and sends forms."""

    def __init__(self, page: Page) -> None:
        self.page, self.cookie, self.token, self.address, self.headers = page, "", "", "", http.client.HTTPMessage()

    def ask(self, method: str, path: str, body: bytes | str | None = None, **headers: str) -> tuple[int, str]:
        """A request and its answer."""
        asked = http.client.HTTPConnection("127.0.0.1", self.page.port, timeout=60)
        sent = {name.replace("_", "-"): text for name, text in headers.items()}
        if self.cookie:
            sent.setdefault("Cookie", self.cookie)
        asked.request(method, path, body, sent)
        answer = asked.getresponse()
        text = answer.read().decode()
        self.headers = answer.headers
        if cookie := answer.getheader("Set-Cookie"):
            self.cookie = cookie.split(";")[0]
        if found := re.search(r'name="token" value="([^"]*)"', text):
            self.token = found[1]
        asked.close()
        return answer.status, text

    def get(self, path: str, **headers: str) -> tuple[int, str]:
        """A page."""
        return self.ask("GET", path, **headers)

    def post(self, path: str, fields: dict[str, str], **headers: str) -> tuple[int, str]:
        """A form that is sent, and the page to which it leads. The first one fetches a token."""
        status, text = self.send(path, fields, **headers)
        self.address = self.headers.get("Location", "")
        return self.get(self.address, **headers) if status == 303 else (status, text)

    def send(self, path: str, fields: dict[str, str], **headers: str) -> tuple[int, str]:
        """A form that is sent, and its own answer."""
        if not self.token:
            self.get("/game")
        body = urlencode({"token": self.token} | fields)
        return self.ask("POST", path, body, Content_Type="application/x-www-form-urlencoded", **headers)


def draft_in(text: str) -> str:
    """The text of the record that a page has."""
    found = re.search(r'<textarea id="draft"[^>]*>\n(.*?)</textarea>', text, re.DOTALL)
    assert found, text
    return html.unescape(found[1])


def words_in(text: str) -> str:
    """What a page says, without its markup."""
    main = text.split("<main", 1)[1].split("</main>", 1)[0]
    return html.unescape(" ".join(re.sub(r"<[^>]*>", " ", main).split()))
