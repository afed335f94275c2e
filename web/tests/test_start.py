"""How the page is started: what start.sh says when something is wrong, what it leaves, and several lists and rules."""
from __future__ import annotations

import os
import shutil
import subprocess
import tempfile
import time
import unittest
from pathlib import Path

from support import EXAMPLES, PROGRAM, ROOT, Client, Page, draft_in, free_port, slow_program, words_in


class Starting(unittest.TestCase):
    """start.sh, as somebody runs it."""

    def setUp(self) -> None:
        self.folder = Path(tempfile.mkdtemp(prefix="start-"))
        self.addCleanup(shutil.rmtree, self.folder, ignore_errors=True)

    def list(self, name: str, *words: str) -> str:
        """A word list."""
        path = self.folder / name
        path.write_text("".join(f"{word}\n" for word in words))
        return str(path)

    def run_it(self, *options: str, **settings: str) -> tuple[int, str]:
        """How start.sh ends, and what it says. It is ended after a while."""
        command = [str(ROOT / "web" / "start.sh"), "--port", str(free_port()), *options]
        ran = subprocess.run(["timeout", "60", *command], capture_output=True, text=True, env=os.environ | {"REFEREE": PROGRAM} | settings)
        return ran.returncode, ran.stdout + ran.stderr

    def test_bad_list(self) -> None:
        """A list with a bad line leaves no lexicon, so that the second start says the same."""
        words = self.list("bad.txt", "AA", "A-B", "AC")
        for _ in range(2):
            status, said = self.run_it(words)
            self.assertEqual(status, 3, said)
            self.assertIn("line 2", said)
            self.assertIn("is not a word list", said)
            self.assertNotIn("is not the lexicon", said)
            self.assertEqual([path.name for path in self.folder.iterdir()], ["bad.txt"])

    def test_empty_lexicon(self) -> None:
        """What an earlier start may have left is no lexicon, and one that is not of this list is named."""
        words = self.list("some.txt", "AA", "AB")
        (self.folder / "some.gad").write_bytes(b"x" * 32)
        status, said = self.run_it(words)
        self.assertEqual(status, 3)
        self.assertIn("is not the lexicon of", said)

    def test_options(self) -> None:
        """What is wrong with the command is said in plain words."""
        words = self.list("some.txt", "AA", "AB")
        cases = [
            (("--host", "203.0.113.9", words), "203.0.113.9 is no address of this machine"),
            (("--host", "no.such.invalid", words), "no.such.invalid is neither an address nor a name of this machine"),
            ((words, "--port", "9000"), "the option --port stands after WORDS"),
            (("--port", "http", words), "http is not a port"),
            (("--port", "99999", words), "99999 is not a port"),
            (("--prot", "80", words), "there is no option --prot"),
            (("--list", "x", words), "--list needs NAME=WORDS"),
            ((str(self.folder / "none.txt"),), "there is no file"),
            ((words, words, words), "more words than WORDS and LEXICON"),
        ]
        for options, wanted in cases:
            status, said = self.run_it(*options)
            self.assertIn(status, (2, 64), options)
            self.assertIn(wanted, said, options)
            self.assertNotIn("Traceback", said)

    def test_taken_port(self) -> None:
        page = Page(workers=1)
        self.addCleanup(page.close)
        status, said = self.run_it("--port", str(page.port), self.list("some.txt", "AA"))
        self.assertEqual(status, 2)
        self.assertIn("is taken", said)

    def test_told_once_it_answers(self) -> None:
        """The address is said only once the page answers."""
        program = self.folder / "late"
        program.write_text(f'#!/bin/sh\n[ "$1" != serve ] || sleep 4\nexec {PROGRAM} "$@"\n')
        program.chmod(0o755)
        port = free_port()
        words = self.list("some.txt", "AA", "AB")
        log = open(self.folder / "log", "w+")
        process = subprocess.Popen(
            [str(ROOT / "web" / "start.sh"), "--port", str(port), "--workers", "1", words],
            stdout=log,
            stderr=log,
            env=os.environ | {"REFEREE": str(program)},
        )
        try:
            said, began = "", time.monotonic()
            while "the table is at" not in said and time.monotonic() - began < 60:
                time.sleep(0.1)
                said = Path(log.name).read_text()
            self.assertIn(f"the table is at http://127.0.0.1:{port}/", said)
            self.assertIn("building the lexicon", said)
            self.assertGreater(time.monotonic() - began, 4)
        finally:
            process.terminate()
            process.wait(20)
            log.close()

    def test_no_traceback(self) -> None:
        """A program that does not start is named in a line."""
        program = self.folder / "broken"
        program.write_text(f'#!/bin/sh\n[ "$1" != serve ] || exit 4\nexec {PROGRAM} "$@"\n')
        program.chmod(0o755)
        _, said = self.run_it(self.list("some.txt", "AA", "AB"), REFEREE=str(program))
        self.assertIn("the table: the program did not start", said)
        self.assertNotIn("Traceback", said)

    def test_too_long(self) -> None:
        """A request that takes too long ends in a page, and in no traceback."""
        page = Page(workers=1, TABLE_SECONDS="1", REFEREE=str(slow_program("compare", 30)))
        self.addCleanup(page.close)
        status, text = Client(page).post("/two", {"first": ">A: 8E WORD +16 16\n", "second": ">A: 8E WORD +16 16\n"})
        self.assertEqual(status, 503)
        self.assertIn("That takes too long", words_in(text))
        self.assertNotIn("run the command", words_in(text))
        self.assertNotIn("Traceback", page.said())

    def test_code(self) -> None:
        """Where others can open the page, its address is a code to scan too, if the system can make one."""
        code = (
            "import sys; sys.path.insert(0, sys.argv[1]); from table.place import told; print(told('192.0.2.7:8080')); print(told('127.0.0.1:8080'))"
        )
        said = subprocess.run(
            ["/usr/bin/python3", "-c", code, str(ROOT / "web")],
            capture_output=True,
            text=True,
            check=True,
            env=os.environ | {"PYTHONPATH": str(ROOT / "python")},
        ).stdout
        self.assertIn("the table is at http://192.0.2.7:8080/\n", said)
        self.assertTrue(said.endswith("the table is at http://127.0.0.1:8080/\n"))
        try:
            import qrcode  # noqa: F401
        except ImportError:
            return
        self.assertIn("█", said)


class Choosing(unittest.TestCase):
    """Two lists and two rules."""

    @classmethod
    def setUpClass(cls) -> None:
        cls.folder = Path(tempfile.mkdtemp(prefix="lists-"))
        cls.addClassCleanup(shutil.rmtree, cls.folder, ignore_errors=True)
        (cls.folder / "small.txt").write_text("QI\nZA\n")
        options = ("--list-name", "Example words", "--list", f"Small={cls.folder / 'small.txt'}", "--rules", f"Club={EXAMPLES / 'club.rules'}")
        cls.page = Page(workers=1, options=options)
        cls.addClassCleanup(cls.page.close)

    def setUp(self) -> None:
        self.client = Client(self.page)

    def post(self, path: str, **fields: str) -> str:
        status, text = self.client.post(path, fields)
        self.assertEqual(status, 200, words_in(text)[:300])
        return text

    def test_lists(self) -> None:
        """A game is judged by the list that is chosen when it begins, and says so on each page."""
        start = self.client.get("/game")[1]
        self.assertIn("<option selected>Example words</option><option>Small</option>", start)
        self.assertIn("<option selected>English</option><option>Club</option>", start)
        text = self.post("/game", do="start", first="Ann", second="Bob", list="Small", rules="Club")
        self.assertIn("#lexicon Small\n", draft_in(text))
        self.assertIn("Small: 2 words, rules Club", text)
        self.assertIn('<input type="hidden" name="list" value="Small">', text)
        self.assertIn("list=Small", self.client.address)
        self.assertIn("✗ Not acceptable NOD by the list Small", words_in(self.post("/challenge", words="nod", list="Small")))
        self.assertIn("✓ Acceptable NOD by the list Example words", words_in(self.post("/challenge", words="nod")))

    def test_record(self) -> None:
        """A record that names a list is judged by it, unless another one is chosen."""
        text = self.post("/sheet", game="#lexicon Small\n>A: 8G QI +22 22\n")
        self.assertIn("Small: 2 words", text)
        text = self.post("/sheet", game="#lexicon Unknown\n>A: 8G QI +22 22\n")
        self.assertIn("Example words: 2,077 words", text)


if __name__ == "__main__":
    unittest.main()
