"""Lines as people type them, lines that are corrected, and what the page offers and says of them, as a program asks it."""
from __future__ import annotations

import base64
import http.client
import io
import re
import unittest
import zipfile
import zlib
from urllib.parse import urlencode

from support import GAME, draft_in, words_in
from test_requests import Asking

HEAD = "#player1 Ann Ann Lee\n#player2 Bob Bob Ray\n"
THREE = HEAD + ">Ann: 8E GAZE +28 28\n>Bob: 9G ONCE +24 24\n>Ann: 10F NOD +22 50\n"
UP_TO_NOD = GAME[: GAME.index(">Bob: AFHLOTW")]
PHONY = GAME[: GAME.index(">Bob: CELNOOT --")]


def shown_in(text: str, name: str) -> str:
    """What a section of a page says."""
    found = re.search(rf'id="{name}".*?</(section|article|details)>', text, re.DOTALL)
    return words_in(f"<main {found[0]}</main>") if found else ""


class Travelling(Asking):
    """The state is in the address of the page."""

    def test_redirect(self) -> None:
        """Each form leads to a page that a GET gives, and that can be opened again."""
        forms = [
            ("/game", {"do": "start", "first": "Ann", "second": "Bob"}),
            ("/game", {"do": "add", "draft": THREE, "kind": "pass"}),
            ("/game", {"do": "add", "draft": THREE, "kind": "play", "move": "A8 XX"}),
            ("/game", {"do": "undo", "draft": THREE}),
            ("/game", {"do": "mend-3", "draft": THREE}),
            ("/game", {"do": "rule", "draft": THREE, "words": "nod"}),
            ("/sheet", {"game": THREE}),
            ("/two", {"first": THREE, "second": GAME}),
            ("/view", {"game": THREE}),
            ("/challenge", {"words": "nod"}),
        ]
        for path, fields in forms:
            with self.subTest(fields=fields):
                status, _ = self.client.send(path, fields)
                self.assertEqual(status, 303)
                address = self.client.headers["Location"]
                self.assertTrue(address.startswith(path + "?"), address)
                again = [self.client.get(address) for _ in range(2)]
                self.assertEqual([status for status, _ in again], [200, 200])
                self.assertEqual(again[0][1], again[1][1])
                self.assertEqual(self.client.headers["Cache-Control"], "private, max-age=0")

    def test_long(self) -> None:
        """A record that no address can have is answered at once."""
        notes = "".join(f"#note {zlib.crc32(str(number).encode()):x}\n" for number in range(3000))
        status, text = self.client.send("/game", {"do": "open", "game": THREE + notes})
        self.assertEqual(status, 200)
        self.assertIn("#note", draft_in(text))

    def test_bad_address(self) -> None:
        """An address that was cut off, or that would unpack to too much, is refused in a page."""
        bomb = base64.urlsafe_b64encode(zlib.compress(bytes(1 << 23), 9)).decode()[:8000]
        for state in ("x", "eJw", "", base64.urlsafe_b64encode(zlib.compress(b"\xff")).decode(), bomb):
            status, text = self.client.get(f"/game?g={state}")
            self.assertEqual(status, 400, state[:20])
            self.assertIn("That is not possible", words_in(text))

    def test_other_sites(self) -> None:
        """A link of another site brings no game."""
        self.client.send("/game", {"do": "open", "game": THREE})
        address = self.client.headers["Location"]
        self.assertEqual(self.client.get(address, Sec_Fetch_Site="cross-site")[0], 403)
        self.assertEqual(self.client.get("/game", Sec_Fetch_Site="cross-site")[0], 200)
        self.assertEqual(self.client.get(address, Sec_Fetch_Site="none")[0], 200)


class Correcting(Asking):
    """A line far up is corrected in its place."""

    def mended(self, number: int, game: str = THREE, do: str = "mended", **fields: str) -> tuple[str, str]:
        text = self.post("/game", do=f"{do}-{number}", draft=game, **fields)
        return draft_in(text).replace(HEAD, ""), text

    def test_later_totals(self) -> None:
        """GAZE one column further: it scores 28 there as well, ONCE makes AO, ZN and EC now and scores 31, and NOD still scores 22."""
        draft, text = self.mended(3, player="Ann", move="8F GAZE")
        self.assertEqual(draft, ">Ann: 8F GAZE +28 28\n>Bob: 9G ONCE +31 31\n>Ann: 10F NOD +22 50\n")
        self.assertIn("Line 3 is corrected, and what comes after it is filled in again.", words_in(text))

    def test_later_line(self) -> None:
        """GAZE down column H has its A where ONCE has its N: line 4 no longer stands, and the page leads to it."""
        draft, text = self.mended(3, player="Ann", move="H8 GAZE")
        self.assertEqual(draft, ">Ann: H8 GAZE +28 28\n>Bob: 9G ONCE\n>Ann: 10F NOD\n")
        said = shown_in(text, "refused")
        self.assertIn("Line 4 no longer stands.", said)
        self.assertIn("The play has N on 9H, but the tile there shows A.", said)
        self.assertIn("Correct line 4", said)
        self.assertNotIn("written", said)

    def test_later_rack(self) -> None:
        """If AI on line 17 was AN, Bob keeps IORUU and cannot show CNORTUU on line 19. That is said, and no number that nobody wrote."""
        text = self.post("/game", do="mended-17", draft=GAME, player="Bob", move="G5 AN", rack="AINORUU")
        said = shown_in(text, "refused")
        self.assertIn("Line 19 no longer stands.", said)
        self.assertIn("IORUU", said)
        self.assertNotIn("written", said)

    def test_refused(self) -> None:
        """A correction that does not stand is not taken, and stays in its field."""
        draft, text = self.mended(3, player="Ann", move="8A GAZE", rack="AEGZ")
        self.assertEqual(HEAD + draft, THREE)
        self.assertIn("has to cover 8H", words_in(text))
        self.assertRegex(text, r'id="mend-move" name="move" value="8A GAZE"')
        self.assertRegex(text, r'id="mend-rack" name="rack" value="AEGZ"')

    def test_opened(self) -> None:
        """A line opens with what it says, without its numbers; a challenge and a penalty with their points."""
        text = self.post("/game", do="mend-4", draft=THREE)
        self.assertRegex(text, r'id="mend-move" name="move" value="9G ONCE"')
        self.assertRegex(text, r'value="Bob" required checked')
        line = GAME[: GAME.index(">Bob: CNORTUU (challenge)")].count("\n") + 1
        text = self.post("/game", do=f"mend-{line}", draft=GAME)
        self.assertIn('name="move" value="(challenge) +5"', text)
        self.assertIn('name="rack" value="CNORTUU"', text)
        draft, _ = self.mended(line, GAME, player="Bob", move="(challenge) +10", rack="CNORTUU")
        self.assertIn("(challenge) +10 178\n", draft)
        self.assertIn("(RR) +4 361\n", draft)

    def test_inserted(self) -> None:
        """A line that is missing is put before another one; a line that was never played is taken out."""
        draft, _ = self.mended(5, HEAD + ">Ann: 8E GAZE\n>Bob: 9G ONCE\n>Bob: - \n", do="inserted", player="Ann", move="10F NOD")
        self.assertEqual(draft, ">Ann: 8E GAZE +28 28\n>Bob: 9G ONCE +24 24\n>Ann: 10F NOD +22 50\n>Bob: - +0 24\n")
        draft, text = self.mended(4, HEAD + ">Ann: 8E GAZE\n>Bob: -\n>Bob: 9G ONCE\n", do="cut")
        self.assertEqual(draft, ">Ann: 8E GAZE +28 28\n>Bob: 9G ONCE +24 24\n")

    def test_only_a_sum(self) -> None:
        """Where only a sum is wrong, no line is taken out: the right numbers are offered."""
        wrong = THREE.replace("+22 50", "+22 51")
        text = self.post("/game", do="open", game=wrong)
        self.assertIn("Put the right numbers in", shown_in(text, "refused"))
        for page in (text, self.post("/game", do="mend-5", draft=wrong)):
            self.assertNotIn("cut-", page)
            self.assertNotIn("out", re.findall(r"<button[^>]*>([^<]*)", page))
        self.assertEqual(draft_in(self.post("/game", do="righten", draft=wrong)), THREE)

    def test_undo_names_its_line(self) -> None:
        text = self.post("/game", do="open", game=THREE)
        self.assertIn("Undo line 5: 10F NOD", words_in(text))
        self.assertIn("Taken back: >Ann: 10F NOD +22 50", words_in(self.post("/game", do="undo", draft=THREE)))

    def test_refused_text_stays(self) -> None:
        """What is refused stays in its fields, as it was typed."""
        for fields, name in (
            (dict(kind="play", move="8a gaze"), "move"),
            (dict(kind="play", move="-AB9"), "move"),
            (dict(kind="exchange", tiles="A?1"), "tiles"),
            (dict(kind="challenge", points="7"), "points"),
            (dict(kind="time", points="7", player="Ann"), "points"),
            (dict(kind="play", move="A8 XX", rack="XXAB"), "rack"),
        ):
            text = self.post("/game", do="add", draft=THREE, **fields)
            self.assertIn(f'name="{name}" value="{fields[name]}"', text, fields)
            self.assertIn('role="alert"', text)


class Typing(Asking):
    """A play as people type it."""

    def line(self, move: str, rack: str = "", game: str = HEAD, do: str = "add") -> str:
        """The last line after a play is entered."""
        self.text = self.post("/game", do=do, draft=game, kind="play", player="Ann" if game == HEAD else "", move=move, rack=rack)
        return draft_in(self.text).splitlines()[-1]

    def test_small_words(self) -> None:
        """Small letters alone are capitals, unless the rack has blanks for all of them."""
        self.assertEqual(self.line("8g qi"), ">Ann: 8G QI +22 22")
        self.assertEqual(self.line("8g qi", "AEIQRS?"), ">Ann: AEIQRS? 8G QI +22 22")
        self.assertEqual(self.line("8g qi", "AERST??"), ">Ann: AERST?? 8G qi +0 0")
        self.assertEqual(self.line("8g Qi", "AEQST??"), ">Ann: AEQST?? 8G Qi +20 20")

    def test_asked_once(self) -> None:
        """Where both may be meant, the page asks, and takes the answer."""
        self.assertFalse(self.line("8g qi", "IQRST??").startswith(">"))
        self.assertIn("Are the small letters blanks? 8g qi No, capitals Yes, blanks", words_in(self.text))
        self.assertEqual(self.line("8g qi", "IQRST??", do="add-large"), ">Ann: IQRST?? 8G QI +22 22")
        self.assertEqual(self.line("8g qi", "IQRST??", do="add-small"), ">Ann: IQRST?? 8G qi +0 0")

    def test_split(self) -> None:
        """The place may stand next to the word, in two parts, or after it."""
        for typed in ("8DCELON", "8 D CELON", "CELON 8D", "celon 8d", "8dcelon"):
            self.assertEqual(self.line(typed), ">Ann: 8D CELON +20 20", typed)
        before = GAME[: GAME.index(">Bob: AENQRW?")]
        for typed in ("F 6 Qu.", "F6Qu.", "Qu. F6", "f6 Qu."):
            self.assertEqual(self.line(typed, "AENQRW?", before), ">Bob: AENQRW? F6 Qu. +31 109", typed)
        self.line("QU F6", "", HEAD)
        self.assertIn(">Ann: F6 QU", words_in(self.text))

    def test_typed_score(self) -> None:
        """A score that is typed is kept with its plus."""
        self.assertEqual(self.line("8E GAZE +28"), ">Ann: 8E GAZE +28 28")

    def test_refusals(self) -> None:
        """A refusal quotes nothing that nobody wrote."""
        self.line("8E GAZE", "AEGXYWV")
        said = shown_in(self.text, "refused")
        self.assertIn("Z", said)
        self.assertNotIn("AEGVWXYZ", said)
        for fields in (
            dict(kind="challenge"),
            dict(kind="time", player="Ann"),
            dict(kind="play", move="8D X"),
            dict(kind="play", move="10F NOX"),
            dict(kind="play", move="GAZE"),
        ):
            text = self.post(
                "/game", do="add", draft=GAME[: GAME.index(">Bob: CNORTUU (challenge)")] if fields["kind"] == "challenge" else THREE, **fields
            )
            said = shown_in(text, "refused")
            self.assertGreater(len(said), 20, fields)
            self.assertNotIn("is written", said, fields)
        text = self.post("/game", do="add", draft=THREE, kind="time", player="Ann")
        self.assertIn("The points of the penalty are missing.", shown_in(text, "refused"))


class Offering(Asking):
    """What is offered for a sheet that does not stand, and a challenge."""

    def test_number_first(self) -> None:
        """One wrong total: the number comes first, and the play is not taken out."""
        text = self.post("/sheet", game=UP_TO_NOD.replace("+22 50", "+22 72"), look="1")
        self.assertIn("One number would explain it", words_in(text))
        self.assertNotIn("line too many", words_in(text))
        found = re.search(r'id="numbers".*?name="game-kept" value="([^"]*)"', text, re.DOTALL)
        assert found
        self.assertEqual(base64.b64decode(found[1]).decode(), UP_TO_NOD)

    def test_other_amount(self) -> None:
        """Ten for five of a bonus is offered as that, and first."""
        for sheet, right in (
            (HEAD + ">Ann: 8E GAZE +28 28\n>Ann: (challenge) +10 38\n>Bob: 9G ONCE +24 24\n", ">Ann: (challenge) +5 33"),
            (GAME.replace("(challenge) +5 173", "(challenge) +10 173"), ">Bob: CNORTUU (challenge) +5 173"),
        ):
            text = self.post("/sheet", game=sheet, look="1")
            self.assertNotIn("line too many", words_in(text))
            self.assertNotIn("would explain it", words_in(text))
            first = text.split('class="card repair"')[1]
            self.assertIn("other amount", first)
            self.assertIn(right[1:], first)
            self.assertIn('<button class="main">Take this change', first)

    def test_no_game(self) -> None:
        """Where there is no game, none is shown."""
        for text in (self.post("/sheet", game=">Ann Lee: x\n"), self.post("/sheet", game="#player1 A\n")):
            self.assertNotIn("Show the game", words_in(text))
        self.assertIn("Show the game", words_in(self.post("/sheet", game=THREE)))

    def test_two(self) -> None:
        """Which of two sheets has no game; and no sentence has the name of a fault."""
        self.assertIn("The first sheet has no game", words_in(self.post("/two", first="#player1 Ann\n", second=THREE)))
        self.assertIn("The second sheet has no game", words_in(self.post("/two", first=THREE, second="word\n")))
        self.assertIn("The first and second sheets have no game", words_in(self.post("/two", first="a", second="b")))
        text = words_in(self.post("/two", first=THREE.replace("10F NOD", "A1 NOD"), second=THREE))
        self.assertIn("does not stand", text)
        self.assertNotRegex(text, r"\([A-Z][a-z]+([A-Z][a-z]+)*\)")

    def test_drafts_compared(self) -> None:
        """A number that only one sheet has is no difference."""
        self.assertIn("The sheets agree.", words_in(self.post("/two", first=re.sub(r" [+-]\d+ \d+$", "", THREE, flags=re.M), second=THREE)))

    def test_unread_words(self) -> None:
        """What cannot be read is never ruled on; a stray stop is no part of a word."""
        for words, unread in (
            ("8E WORD", "8E"),
            ("W0RD", "W0RD"),
            ("a", "A"),
            ("nod qi-", "QI-"),
            ("é nod", "É"),
            ("ABCDEFGHIJKLMNOP", "ABCDEFGHIJKLMNOP"),
        ):
            text = self.post("/challenge", words=words)
            self.assertIn(f"{unread} cannot be read So there is no ruling.", words_in(text))
            self.assertNotIn('class="ruling', text)
            self.assertNotIn("cceptable", words_in(text))
        for words in ("NOD.", "nod, zoo.", "“nod”"):
            self.assertIn("✓ Acceptable NOD", words_in(self.post("/challenge", words=words)))
        self.assertIn("Which words are challenged?", words_in(self.post("/challenge", words=". ,")))

    def test_challenged_off(self) -> None:
        """A play that is challenged off is taken back by one button, if the rules allow it."""
        text = self.post("/game", do="open", game=PHONY)
        self.assertIn("Challenged off", words_in(text))
        self.assertIn(">Bob: CELNOOT -- -20 0\n", draft_in(self.post("/game", do="off", draft=PHONY)))
        text = self.post("/game", do="off", draft=THREE)
        self.assertEqual(draft_in(text), THREE)
        self.assertIn("NOD", shown_in(text, "refused"))

    def test_beside(self) -> None:
        """A challenge is ruled on beside the game, which stays."""
        text = self.post("/game", do="rule", draft=PHONY, words="celon.")
        self.assertIn("✗ Not acceptable CELON by the list words: 2,077 words", words_in(text))
        self.assertEqual(draft_in(text), PHONY)
        self.assertIn("Challenged off: take 8D CELON back", words_in(text))
        text = self.post("/game", do="rule", draft=THREE, words="nod")
        self.assertIn("✓ Acceptable", words_in(text))
        self.assertIn('name="words" required value="NOD ZOO END"', self.post("/game", do="open", game=THREE))
        self.assertNotIn('class="ruling', self.post("/game", do="rule", draft=THREE, words="8E NOD"))

    def test_complete(self) -> None:
        """A complete game says who won by how much, and has its record to keep on top."""
        text = self.post("/game", do="open", game=GAME)
        said = words_in(text)
        self.assertIn("Bob Ray won by 34", said)
        self.assertNotIn("on turn", said)
        self.assertNotIn("The next line", said)
        self.assertLess(said.index("Keep the record"), said.index("The sheet"))

    def test_best_plays(self) -> None:
        """Plays that differ only in which tile is the blank are one."""
        text = words_in(self.post("/view", game=THREE, rack="AE?"))
        found = re.findall(r"\b(\d{1,2}[A-O]|[A-O]\d{1,2}) ([A-Za-z.]+) (\d+)", text.split("With")[1].split("Keep the page")[0])
        self.assertGreater(len(found), 3)
        self.assertEqual(len({(place, word.upper()) for place, word, _ in found}), len(found))


class Naming(Asking):
    """The list, the rules, and what else is known of a game."""

    def test_list(self) -> None:
        for path in ("/", "/game", "/sheet", "/two", "/challenge", "/view", "/help", "/blank"):
            self.assertIn("with the list <b>words: 2,077 words</b>", self.client.get(path)[1])
        self.assertIn("#lexicon words\n", draft_in(self.post("/game", do="start", first="Ann", second="Bob")))

    def test_about(self) -> None:
        """Event, round, table and date are in the record and in the name of its file."""
        text = self.post("/game", do="start", first="Ann Lee", second="Bob", event="Spring  Cup", round="3", table="2", date="2026-03-14")
        draft = draft_in(text)
        self.assertIn("#event Spring Cup\n#round 3\n#table 2\n#date 2026-03-14\n", draft)
        self.assertIn("The sheet: Spring Cup, round 3, table 2, 2026-03-14", words_in(text))
        self.client.post("/game", {"do": "keep", "draft": draft})
        self.assertIn('filename="ann-bob-spring-cup-round-3-table-2-2026-03-14.gcg"', self.client.headers["Content-Disposition"])

    def test_evening(self) -> None:
        """The games of an evening as one archive, each with a name of its own, and their results."""
        body = urlencode([("token", self.token()), ("what", "archive"), *(("games", game) for game in (GAME, THREE, THREE, "nonsense"))])
        connection = http.client.HTTPConnection("127.0.0.1", self.page.port, timeout=60)
        connection.request("POST", "/evening", body, {"Cookie": self.client.cookie, "Content-Type": "application/x-www-form-urlencoded"})
        with zipfile.ZipFile(io.BytesIO(connection.getresponse().read())) as archive:
            self.assertEqual(archive.namelist(), ["ann-bob.gcg", "ann-bob-2.gcg", "ann-bob-3.gcg", "game.gcg", "results.csv"])
            self.assertEqual(archive.read("ann-bob.gcg").decode(), GAME)
            rows = archive.read("results.csv").decode().splitlines()
        self.assertEqual(rows[1], '"","Ann Lee","322","Bob Ray","356","Bob Ray won by 34"')
        self.assertEqual(rows[2], '"","Ann Lee","50","Bob Ray","24","Ann Lee is ahead by 26"')
        text = self.client.ask(
            "POST", "/evening", urlencode([("token", self.client.token), ("games", THREE)]), Content_Type="application/x-www-form-urlencoded"
        )[1]
        self.assertIn("Ann Lee 50 Bob Ray 24 Ann Lee is ahead by 26", words_in(text))
        formula = THREE.replace("Ann Lee", "=1+1")
        self.assertIn(
            "=1+1",
            words_in(
                self.client.ask(
                    "POST",
                    "/evening",
                    urlencode([("token", self.client.token), ("games", formula)]),
                    Content_Type="application/x-www-form-urlencoded",
                )[1]
            ),
        )

    def token(self) -> str:
        """The token of a form."""
        self.client.get("/game")
        return self.client.token

    def test_pages(self) -> None:
        """The help beside the field has a whole example, which is read; and there is a sheet to print."""
        text = self.client.get("/help")[1]
        example = re.search(r'<pre class="record">(.*?)</pre>', text, re.DOTALL)
        assert example
        game = example[1].replace("&gt;", ">") + "\n"
        self.assertIn("The game stands so far.", words_in(self.post("/sheet", game=game)))
        self.assertIn('href="/help" target="_blank"', self.post("/game", do="open", game=THREE))
        for size in ("", "?size=letter"):
            self.assertIn("A score sheet to print", words_in(self.client.get("/blank" + size)[1]))


if __name__ == "__main__":
    unittest.main()
