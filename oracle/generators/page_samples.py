"""Pages to be looked at and checked: of the example game, of games with a fault, with notes and hostile names, of one event and of many, and
their index."""
import shutil
import subprocess
from pathlib import Path

ROOT = Path(__file__).resolve().parents[2]
HOSTILE = [
    b"#player1 Ann <script>alert(1)</script> \"A\" &amp; 'B' <b>",
    b"#player2 Bob Zo\xc3\xab \xff Ray --> ]]> </title> " + b"long" * 40,
    b"#title <b>Final</b> & more", b"#event Club night", b"#lexicon Another list", b"#note Before the game",
]  # fmt: skip
NOTE = b"#note " + b"A long note about the play, with <b>signs</b> & more. " * 5
ONE = b"#player1 Ann Ann Lee\n>Ann: CELNOOT 8D CELON +20 20\n"


def samples():
    """The games by name."""
    game = (ROOT / "examples" / "game.gcg").read_bytes()
    lines = [line for line in game.split(b"\n") if not line.startswith(b"#player")]
    return {
        "game": game,
        "fault": game.replace(b"10F NOD", b"10G NOD"),
        "hostile": b"\n".join([*HOSTILE, *lines[:6], NOTE, *lines[6:]]),
        "one": ONE,
        "a-game-with-a-very-long-name-" + "of-many-parts-" * 12: game,
        "no-record": b"#player1 Ann\n#player2 Ann\n>Ann: - +0 0\n",
        "no-game": b"nothing\n",
    }


def make_pages(program, folder, more=None):
    """Makes the pages of the samples and of more games in a folder, and gives their names and that of the index."""
    for name in ("words.txt", "words.gad"):
        shutil.copy(ROOT / "examples" / name, folder)
    games = samples() | (more or {})
    for name, game in games.items():
        (folder / f"{name}.gcg").write_bytes(game)
    names = [f"{name}.gcg" for name in games]
    ran = subprocess.run(
        [program, "archive", "--pages", ".", "words.txt", "words.gad", *names, "nowhere.gcg"], cwd=folder, capture_output=True, check=False
    )
    assert ran.returncode == 4, ran
    return [name for name in [*games, "index"] if (folder / f"{name}.html").exists()]
