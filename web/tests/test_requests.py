"""The page as a program asks it: what it says, and what it refuses."""
from __future__ import annotations

import base64
import html
import random
import re
import socket
import subprocess
import tempfile
import threading
import time
import unittest
from pathlib import Path

from support import ENTERED, EXAMPLES, GAME, PROGRAM, WRONG_PLACE, WRONG_SCORE, Client, Page, draft_in, events, shared_page, slow_program, words_in

MIB = 1 << 20


def drafted(game: str) -> str:
    """A record without its numbers, but with the points of challenges and penalties."""
    return "".join(
        re.sub(r" -?\d+\n$", "\n", line)
        if "(challenge)" in line or "(time)" in line
        else re.sub(r" [+-]\d+ -?\d+\n$", "\n", line)
        if line.startswith(">")
        else line
        for line in game.splitlines(True)
    )


class Asking(unittest.TestCase):
    """A page with somebody who asks it."""

    def _formatMessage(self, msg: object, standardMsg: str) -> str:
        """What a failure says, without the whole page."""
        return f"{standardMsg[:400]} .. {standardMsg[-200:]} : {str(msg)[:600]}"

    def setUp(self) -> None:
        self.page = shared_page()
        self.client = Client(self.page)

    def post(self, path: str, **fields: str) -> str:
        """The answer to a form."""
        status, text = self.client.post(path, {name.replace("_", "-"): value for name, value in fields.items()})
        self.assertEqual(status, 200, words_in(text)[:300])
        return text


class Entering(Asking):
    """A game that is entered line by line."""

    def started(self) -> str:
        return draft_in(self.post("/game", do="start", first="Ann Lee", second="Bob  Ray "))

    def added(self, draft: str, **fields: str) -> tuple[str, str]:
        text = self.post("/game", do="add", draft=draft.replace("\n", "\r\n"), **fields)
        return draft_in(text), text

    def test_whole_game(self) -> None:
        """What comes out is the example game, byte for byte, and in the normal form."""
        draft, known = self.started(), []
        for number, event in enumerate(events()):
            fields = {key: event[key] for key in ("rack", "kind", "move", "tiles", "points")}
            who = event["player"] if number == 0 or event["kind"] == "time" else ""
            draft, text = self.added(draft, player=who, **fields)
            known.append(event["line"])
            self.assertEqual([line for line in draft.splitlines() if line.startswith(">")], known, words_in(text))
        self.assertEqual(draft, ENTERED)
        self.assertIn("The game is complete", words_in(text))
        self.assertEqual(len(known), 45)
        status, kept = self.client.post("/game", {"do": "keep", "draft": draft})
        self.assertEqual((status, kept), (200, ENTERED))
        self.assertIn('attachment; filename="ann-bob.gcg"', self.client.headers["Content-Disposition"])

    def test_codes(self) -> None:
        """Codes may be typed where a play is, and whole lines."""
        draft = self.started()
        for event in events():
            number = event["line"].split()[-2] if event["points"] else ""
            typed = re.sub(r" [+-]\d+ -?\d+$", "", event["line"]).partition(": ")[2].removeprefix(event["rack"]).strip()
            draft, text = self.added(draft, player=event["player"], kind="play", move=f"{typed} {number}".strip(), rack=event["rack"])
            self.assertIn(event["line"], draft, words_in(text))
        self.assertEqual(draft, ENTERED)

    def test_bonus(self) -> None:
        """The points of a challenge may be left open if the rules allow only one number."""
        draft, text = self.added(self.started() + ">Ann: 8E GAZE\n", kind="challenge")
        self.assertIn(">Ann: (challenge) +5 33\n", draft, words_in(text)[:300])
        at = GAME.index(">Bob: CNORTUU (challenge)")
        draft, text = self.added(GAME[:at], kind="challenge", rack="CNORTUU")
        self.assertEqual(draft, GAME[:at])
        self.assertIn("The points are missing. The bonus is 5 or 10.", words_in(text))
        self.assertNotIn("0 is written", words_in(text))

    def test_mistakes(self) -> None:
        """What is wrong is said, and the line is not taken."""
        start = self.started()
        cases = [
            ("", dict(move="8E GAZE"), "Whose line is it"),
            ("", dict(move="", player="Ann"), "Type a place and a word"),
            ("", dict(move="8A GAZE", player="Ann"), "has to cover 8H"),
            ("", dict(move="GAZE", player="Ann"), "The position of the play is missing"),
            ("", dict(move="8E GA-ZE", player="Ann"), "letters and dots"),
            ("", dict(move="16A GAZE", player="Ann"), "is not a position"),
            ("", dict(move="8E GAZE", rack="AEGXYWV", player="Ann"), "the rack AEGVWXY has none"),
            ("", dict(move="8E GAZE", rack="ABCDEFGH", player="Ann"), "is not a rack"),
            ("", dict(kind="exchange", player="Ann"), "Which tiles are exchanged"),
            (">Ann: 8E GAZE +28 28\n", dict(move="9G ONCE", player="Ann"), "It is Bob's turn"),
            (">Ann: 8E GAZE +28 28\n", dict(move="8D X"), "not whole|stands before|directly|tile"),
            (">Ann: 8E GAZE +28 28\n", dict(kind="challenge", points="7"), "7"),
            (">Ann: 8E GAZE +28 28\n", dict(kind="withdraw"), "word list"),
            (">Ann: 8E GAZE +28 28\n", dict(kind="last", tiles="RR"), "No last rack is due"),
            (">Ann: 8E GAZE +28 28\n", dict(kind="time", points="7", player="Ann"), "7"),
        ]
        for before, fields, said in cases:
            draft, text = self.added(start + before, **({"kind": "play"} | fields))
            alert = re.search(r'role="alert".*?</section>', text, re.DOTALL)
            alerted = html.unescape(" ".join(re.sub(r"<[^>]*>", " ", alert[0]).split())) if alert else ""
            with self.subTest(fields=fields, alerted=alerted):
                self.assertEqual(draft, start + before)
                self.assertRegex(alerted, said)
                self.assertIn(fields.get("move", ""), text)

    def test_undo(self) -> None:
        """The last line is taken back, and is in the form again."""
        at = GAME.index(">Ann: ADLNORS 10F NOD")
        text = self.post("/game", do="undo", draft=GAME[: GAME.index(">Bob: AFHLOTW")])
        self.assertEqual(draft_in(text), GAME[:at])
        self.assertIn('value="10F NOD"', text)
        self.assertIn('value="ADLNORS"', text)
        for code, kind in (
            ("-- -20 0", "withdraw"),
            ("-AEI +0 0", "exchange"),
            ("(challenge) +5 5", "challenge"),
            ("- +0 0", "pass"),
            ("(AB) +4 4", "last"),
        ):
            text = self.post("/game", do="undo", draft=f">Ann: {code}\n")
            self.assertRegex(text, rf'id="kind-{kind}" value="{kind}" checked')

    def test_squares(self) -> None:
        """A square fills the place, and turns it, without a script."""
        text = self.post("/game", do="square-8E", draft=self.started(), kind="play", move="WORD")
        self.assertIn('value="8E WORD"', text)
        text = self.post("/game", do="square-8E", draft=self.started(), kind="pass", move="")
        self.assertIn('value="8E "', text)
        text = self.post("/game", do="square-8E", draft=self.started(), kind="play", move="8E WORD")
        self.assertIn('value="E8 WORD"', text)
        text = self.post("/game", do="square-9F", draft=self.started(), kind="play", move="E8 WORD")
        self.assertIn('value="9F WORD"', text)

    def test_small_letters(self) -> None:
        """A word of small letters is one that was typed without capitals; two small letters are blanks."""
        draft, _ = self.added(self.started(), player="Ann", kind="play", move="8e gaze", rack="adegorz")
        self.assertIn(">Ann: ADEGORZ 8E GAZE +28 28\n", draft)
        draft, _ = self.added(self.started(), player="Ann", kind="play", move="8h at", rack="??AEGORZ"[:7])
        self.assertIn(" 8H at ", draft)

    def test_listed(self) -> None:
        """Words that are not in the list are named only if somebody wants to know."""
        line = dict(player="Bob", kind="play", move="8D CELON")
        self.assertNotIn("not in the word list", self.added(self.started(), **line)[1])
        self.assertIn("CELON is not in the word list", self.added(self.started(), listed="1", **line)[1])

    def test_draft(self) -> None:
        """A draft gets its numbers, and a faulty one is named, up to the line that is refused."""
        text = self.post("/game", do="open", game=drafted(GAME))
        self.assertEqual(draft_in(text), GAME)
        bad = drafted(GAME).replace(" 10F NOD", " 10F NOX")
        text = self.post("/game", do="read", draft=bad)
        self.assertIn(">Bob: CELNOOT 9G ONCE +24 24\n>Ann: ADLNORS 10F NOX\n>Bob: AFHLOTW 10J FLOAT\n", draft_in(text))
        self.assertIn("Line 8 does not stand", words_in(text))
        self.assertIn("Correct line 8", words_in(text))
        self.assertNotIn("Take line", words_in(text))
        text = self.post("/game", do="cut-8", draft=draft_in(text))
        self.assertNotIn("NOX", draft_in(text))
        self.assertIn("It is Ann's turn, not Bob's", words_in(text))

    def test_empty(self) -> None:
        """Nothing and nonsense end in a page too."""
        status, _ = self.client.send("/game", {"do": "open", "game": " "})
        self.assertEqual(status, 303)
        for draft in (
            "",
            "x",
            ">",
            ">:",
            ">Ann:",
            ">Ann: (",
            "#player1",
            ">A: 8E",
            "\0",
            ">Ann: 8E W 1 2 3",
            "é\n>Ann: 8E é\n",
            ">Ann: (challenge)\n",
            ">Ann: -8 +9999999 1\n",
        ):
            for do in ("read", "undo", "add", "cut-1", "cut-99", "square-8E", "square-zz", "what", "keep"):
                status, text = self.client.post("/game", {"do": do, "draft": draft, "move": "8E GAZE", "player": "Ann"})
                self.assertEqual(status, 200, (draft, do, text))

    def test_names(self) -> None:
        """Names are shown as they are, and are no markup."""
        text = self.post("/game", do="start", first="<b>Ann</b> & Co", second="<b>Ann</b>: \"O'Neil\"")
        self.assertNotIn("<b>Ann", text)
        self.assertIn("#player1 <b>Ann</b> <b>Ann</b> & Co\n#player2 <b>Ann</b>2 ", draft_in(text))


class Checking(Asking):
    """Sheets that are checked, repaired, compared and shown."""

    def test_right(self) -> None:
        text = words_in(self.post("/sheet", game=GAME))
        self.assertIn("The game stands, and it is complete.", text)
        self.assertIn("Bob Ray won by 34", text)
        self.assertNotIn("Wrong numbers", text)

    def test_numbers(self) -> None:
        """Wrong numbers, and the corrected sheet to keep; its own line ends stay."""
        text = self.post("/sheet", game=WRONG_SCORE)
        self.assertIn("1 number is wrong. With the right one the game stands.", words_in(text))
        self.assertRegex(words_in(text), r"6 Ann 8E GAZE score 29 28")
        self.assertEqual(self.kept(text, "corrected"), GAME)
        body = (
            b'--x\r\nContent-Disposition: form-data; name="token"\r\n\r\n%s\r\n'
            b'--x\r\nContent-Disposition: form-data; name="game-file"; filename="g.gcg"\r\n\r\n%s\r\n--x--\r\n'
        )
        sent = body % (self.client.token.encode(), WRONG_SCORE.replace("\n", "\r\n").encode())
        status, _ = self.client.ask("POST", "/sheet", sent, Content_Type="multipart/form-data; boundary=x")
        self.assertEqual(status, 303)
        text = self.client.get(self.client.headers["Location"])[1]
        self.assertEqual(self.kept(text, "corrected"), GAME.replace("\n", "\r\n"))

    def kept(self, text: str, what: str) -> str:
        """The file that a button of a page keeps."""
        found = re.search(rf'name="game-kept" value="([^"]*)">\s*<input type="hidden" name="what" value="{what}">', text)
        assert found, text
        status, kept = self.client.post("/keep", {"game-kept": found[1], "what": what})
        self.assertEqual(status, 200)
        self.assertIn("attachment", self.client.headers["Content-Disposition"])
        return kept

    def test_draft(self) -> None:
        text = self.post("/sheet", game=drafted(GAME))
        self.assertIn("88 numbers were missing and are put in.", words_in(text))
        self.assertEqual(self.kept(text, "sheet"), GAME)
        text = words_in(self.post("/sheet", game=drafted(GAME).replace("10F NOD", "10F NOX")))
        self.assertIn("Line 8 does not stand.", text)
        self.assertIn("From this line on no number is put in", text)

    def test_repairs(self) -> None:
        """The button of the likely repair gives the sheet with it."""
        cases = {
            WRONG_PLACE: "one square off",
            GAME.replace(">Bob: CELNOOT -- -20 0\n", ""): "withdrawal missing",
            GAME.replace(" 10F NOD", " NOD"): "no place",
            GAME.replace(">Bob: AFHLOTW", "Bob: AFHLOTW"): "line not read",
            WRONG_PLACE.replace(">Bob: CELNOOT -- -20 0\n", ""): "withdrawal missing",
            GAME.replace(" 8E GAZE", " E8 GAZE").replace(" M2 OE", " 2M OE").replace(" H1 COURT", " 1H COURT"): "other direction",
            re.sub(r" (?:(\d+)([A-O])|([A-O])(\d+)) ", r" \2\1\4\3 ", GAME): "rows and columns interchanged",
        }
        for sheet, slip in cases.items():
            text = self.post("/sheet", game=sheet, look="1")
            self.assertIn("Take this change", words_in(text), slip)
            self.assertIn(slip, words_in(text))
            found = re.search(r'id="repairs".*?name="game-kept" value="([^"]*)"', text, re.DOTALL)
            assert found
            repaired = self.post("/sheet", game_kept=found[1], taken="1")
            self.assertIn("The game stands, and it is complete.", words_in(repaired), slip)
            if "other" not in slip and slip != "withdrawal missing" and slip:
                self.assertEqual(base64.b64decode(found[1]).decode(), GAME, slip)

    def test_no_game(self) -> None:
        for text, said in (("<html>", "HTML"), ("aa\nab\n", "word list"), (">Ann Lee: 8E X +1 1\n", "Write Ann_Lee"), ("#player1 A\n", "no event")):
            self.assertIn(said, words_in(self.post("/sheet", game=text)), text)
        self.assertIn("There is no game yet", words_in(self.post("/sheet", game="  ")))

    def test_two(self) -> None:
        text = self.post("/two", first=WRONG_PLACE, second=GAME)
        said = words_in(text)
        self.assertIn("The sheets differ.", said)
        self.assertIn("10G NOD +22 50", said)
        self.assertIn("The second; with the first", said)
        self.assertEqual(self.kept(text, "merged"), GAME.replace("#character-encoding UTF-8\n", ""))
        self.assertIn("The sheets agree.", words_in(self.post("/two", first=GAME, second=GAME)))
        self.assertIn("The sheets agree.", words_in(self.post("/two", first=drafted(GAME), second=GAME)))
        self.assertIn("Two sheets are needed", words_in(self.post("/two", first=GAME, second="")))
        self.assertIn("The second sheet has no game that can be read.", words_in(self.post("/two", first=GAME, second=">Ann Lee: x\n")))

    def test_challenge(self) -> None:
        self.assertRegex(words_in(self.post("/challenge", words="nod, Zoo end")), r"^.*✓ Acceptable NOD, ZOO, END by the list words: 2,077 words")
        text = words_in(self.post("/challenge", words="nod zyx"))
        self.assertIn("✗ Not acceptable NOD, ZYX", text)
        self.assertNotIn("NOD acceptable", text)
        self.assertIn("NOD acceptable ZYX not acceptable", words_in(self.post("/challenge", words="nod zyx", each="1")))
        self.assertIn("Which words are challenged?", words_in(self.post("/challenge", words=" , ")))

    def test_view(self) -> None:
        """The page of a game is in a frame that may do nothing, and is the page of the command."""
        text = self.post("/view", game=GAME)
        found = re.search(r'<iframe class="page" title="[^"]*" sandbox="" src="data:text/html;charset=utf-8;base64,([^"]*)"', text)
        assert found
        with tempfile.TemporaryDirectory() as folder:
            pair = [str(EXAMPLES / name) for name in ("words.txt", "words.gad")]
            subprocess.run([PROGRAM, "page", *pair, str(EXAMPLES / "game.gcg"), f"{folder}/page"], check=True, stdout=subprocess.DEVNULL)
            page = Path(folder, "page").read_text()
        self.assertEqual(base64.b64decode(found[1]).decode(), page)
        self.assertEqual(self.client.post("/keep", {"what": "page", "game": GAME})[1], page)
        self.assertIn("'sha256-", self.client.get("/view")[1] and self.post("/view", game=GAME) and self.client.headers["Content-Security-Policy"])
        text = words_in(self.post("/view", game=GAME, rack="aeinrs?", line="20"))
        self.assertRegex(text, r"With A E I N R S \? 6I ASIdE 15")
        self.assertIn("A rack is 1 to 7 letters", words_in(self.post("/view", game=GAME, rack="A1")))
        self.assertIn("There is no event on that line", words_in(self.post("/view", game=GAME, rack="AB", line="99")))
        self.assertIn("cannot be read", words_in(self.post("/view", game=">Ann Lee: x\n")))
        self.assertIn("#note best 8E COLT 12, 12 more", self.client.post("/keep", {"what": "annotated", "game": GAME})[1])

    def test_markup(self) -> None:
        """Nothing of a record becomes markup."""
        bad = '#player1 A <script>alert(1)</script>\n>A: 8E <img/src=x> +1 1\n"><b>'
        for path, fields in (
            ("/sheet", {"game": bad}),
            ("/view", {"game": bad}),
            ("/two", {"first": bad, "second": bad}),
            ("/game", {"do": "open", "game": bad}),
            ("/challenge", {"words": "<img/src=x>"}),
        ):
            text = self.post(path, **fields)
            self.assertNotIn("<script>", text)
            self.assertNotIn("<img", text)


class Keeping(Asking):
    """What keeps the page to its own."""

    def test_headers(self) -> None:
        for path in ("/", "/game", "/sheet", "/two", "/challenge", "/view", "/static/table.css", "/none"):
            self.client.get(path)
            policy = self.client.headers["Content-Security-Policy"]
            for part in (
                "default-src 'none'",
                "script-src 'self'",
                "style-src 'self'",
                "form-action 'self'",
                "base-uri 'none'",
                "frame-ancestors 'none'",
            ):
                self.assertIn(part, policy.split("; "), path)
            self.assertEqual(self.client.headers["X-Frame-Options"], "DENY")
            self.assertEqual(self.client.headers["X-Content-Type-Options"], "nosniff")
            self.assertEqual(self.client.headers["Cache-Control"], "no-cache" if "static" in path else "private, max-age=0")
        self.client = Client(self.page)
        self.client.get("/sheet")
        self.assertRegex(self.client.headers["Set-Cookie"], r"table=[\w-]+; HttpOnly; Path=/; SameSite=Strict")

    def test_scripts(self) -> None:
        """No page has a script or a style of its own."""
        for path in ("/", "/game", "/sheet", "/two", "/challenge", "/view"):
            text = self.client.get(path)[1]
            self.assertEqual(re.findall(r"<script[^>]*>", text), ['<script src="/static/table.js" defer>'])
            self.assertNotRegex(text, r"<style|\son\w+=|\sstyle=|javascript:")

    def test_hosts(self) -> None:
        for host in ("example.org", "127.0.0.1.example.org", "localhost.example.org:80", "", "[", "127.0.0.2"):
            self.assertNotEqual(self.client.get("/", Host=host)[0], 200, host)
        for host in ("127.0.0.1", "localhost:1", "LOCALHOST", "[::1]:80"):
            self.assertEqual(self.client.get("/", Host=host)[0], 200, host)

    def test_other_sites(self) -> None:
        for headers in (
            {"Origin": "http://example.org"},
            {"Origin": "null"},
            {"Sec_Fetch_Site": "cross-site"},
            {"Sec_Fetch_Site": "same-site"},
            {"Host": "example.org"},
        ):
            self.assertEqual(self.client.post("/sheet", {"game": GAME}, **headers)[0], 403, headers)
        own = {"Origin": self.page.url, "Sec_Fetch_Site": "same-origin"}
        self.assertEqual(self.client.post("/sheet", {"game": GAME}, **own)[0], 200)

    def test_token(self) -> None:
        """A form without the token is shown again, with all that was typed, and nothing is answered."""
        self.client.get("/game")
        for token in ("", "x", "é", "0" * 64):
            status, text = self.client.post("/sheet", {"token": token, "game": "#player1 A <b>\n" + GAME})
            self.assertEqual(status, 403)
            self.assertIn("Once more", text)
            self.assertNotIn("The game stands", text)
            self.assertIn("#player1 A &lt;b&gt;\n", text)
        other = Client(self.page)
        other.get("/game")
        self.assertEqual(self.client.post("/sheet", {"token": other.token, "game": GAME})[0], 403)
        self.assertEqual(self.client.post("/sheet", {"game": GAME})[0], 200)

    def test_lengths(self) -> None:
        self.client.get("/game")
        status, text = self.client.post("/sheet", {"game": "x" * (MIB - 200)})
        self.assertEqual(status, 200)
        # The server refuses by the length that is said, and waits for no body.
        kind = "application/x-www-form-urlencoded"
        self.assertEqual(self.client.ask("POST", "/sheet", b"", Content_Type=kind, Content_Length=str(MIB + 1))[0], 413)
        self.assertIn("no more than 1 MiB", self.client.ask("POST", "/sheet", b"", Content_Type=kind, Content_Length=str(MIB + 1))[1])
        with socket.create_connection(("127.0.0.1", self.page.port), timeout=20) as it:
            it.sendall(
                b"POST /sheet HTTP/1.1\r\nHost: localhost\r\nTransfer-Encoding: chunked\r\nContent-Type: "
                + kind.encode()
                + b"\r\n\r\n5\r\ngame=\r\n0\r\n\r\n"
            )
            self.assertIn(b" 411 ", it.recv(200))

    def test_methods(self) -> None:
        for method, path in (
            ("PUT", "/sheet"),
            ("DELETE", "/"),
            ("GET", "/keep"),
            ("GET", "/etc/passwd"),
            ("GET", "/static/../settings.py"),
            ("GET", "/static/%2e%2e/settings.py"),
            ("TRACE", "/"),
        ):
            self.assertIn(self.client.ask(method, path)[0], (404, 405), (method, path))

    def test_odd_forms(self) -> None:
        """A form that no page sends ends in a page too."""
        self.client.get("/game")
        for fields in (
            {"game-kept": "$"},
            {"game-kept": "/w=="},
            {"what": "x"},
            {"line": "9" * 30, "game": GAME},
            {"words": "a" * 5000},
            {"game": "\ud7ff\U0010ffff\0"},
        ):
            for path in ("/sheet", "/view", "/keep", "/two", "/challenge", "/game"):
                self.assertIn(self.client.post(path, fields)[0], (200, 303, 400), (path, fields))

    def test_silence(self) -> None:
        """Nothing of a game is in what the server writes, and nothing is stored."""
        self.client.post("/sheet", {"game": GAME.replace("Ann Lee", "Secretname")})
        self.client.post("/challenge", {"words": "secretword"})
        self.client.get("/secretpath")
        said = self.page.said()
        self.assertNotIn("ecret", said)
        self.assertNotIn("Traceback", said)


class Limits(unittest.TestCase):
    """Requests that take long, and idle connections."""

    def test_too_long(self) -> None:
        """A search that takes longer than the limit ends, and its answer says so."""
        page = Page(workers=1, TABLE_SECONDS="1", REFEREE=str(slow_program("repair", 60)))
        self.addCleanup(page.close)
        status, text = Client(page).post("/sheet", {"game": WRONG_PLACE})
        self.assertEqual(status, 200)
        self.assertIn("What explains it takes longer to find. Go on looking", words_in(text))
        self.assertIn("Line 8 does not stand.", words_in(text))
        status, text = Client(page).post("/sheet", {"game": WRONG_PLACE, "look": "1"})
        self.assertIn("What explains it was not found in time", words_in(text))
        self.assertNotIn("referee repair", words_in(text))

    def test_others_go_on(self) -> None:
        """While one person's request is slow, another one is answered by the same worker."""
        page = Page(workers=1, REFEREE=str(slow_program("repair", 60)))
        self.addCleanup(page.close)
        slow, quick = Client(page), Client(page)
        slow.get("/game")
        quick.get("/game")
        thread = threading.Thread(target=lambda: slow.post("/sheet", {"game": WRONG_PLACE}))
        thread.start()
        time.sleep(0.5)
        status, _ = quick.post("/game", {"do": "open", "game": GAME})
        self.assertEqual(status, 200)
        self.assertTrue(thread.is_alive())
        thread.join()

    def test_idle_connections(self) -> None:
        """Browsers that connect and say nothing do not hold the page up."""
        page = Page(workers=1)
        self.addCleanup(page.close)
        idle = [socket.create_connection(("127.0.0.1", page.port)) for _ in range(10)]
        self.assertEqual(Client(page).get("/")[0], 200)
        for it in idle:
            it.close()

    def test_large_list(self) -> None:
        """The example game is entered with a list of 400,000 words. How long a line takes is printed."""
        random.seed(7)
        words = set((EXAMPLES / "words.txt").read_text().split())
        while len(words) < 400_000:
            words.add("".join(random.choices("EEEEEEAAAAAIIIIIOOOONNNRRRTTTLLSSUUDDGGBCMPFHVWYKJXQZ", k=random.randint(4, 13))))
        with tempfile.TemporaryDirectory() as folder:
            words_file = Path(folder, "words.txt")
            words_file.write_text("\n".join(sorted(words)) + "\n")
            page = Page(words=words_file)
            self.addCleanup(page.close)
            client, draft, times = Client(page), "", []
            draft = draft_in(client.post("/game", {"do": "start", "first": "Ann Lee", "second": "Bob Ray"})[1])
            for event in events():
                if event["kind"] == "withdraw":
                    words.discard("CELON")
                fields = {key: event[key] for key in ("player", "rack", "kind", "move", "tiles", "points")}
                start = time.monotonic()
                status, text = client.post("/game", {"do": "add", "draft": draft, **fields})
                times.append(time.monotonic() - start)
                draft = draft_in(text)
            self.assertEqual(draft, ENTERED)
            print(f"400,000 words: a line is answered in {1000 * sum(times) / len(times):.0f} ms on average, {1000 * max(times):.0f} ms at most")


if __name__ == "__main__":
    unittest.main()
