"""Draws the picture of README.md, docs/board.svg: the board of the example game as `referee board` prints it: picture PROGRAM [write]

It says whether the picture is that board; with `write` it writes it.
"""
import subprocess
import sys
from pathlib import Path

from rules import ENGLISH

ROOT = Path(__file__).resolve().parents[2]
PICTURE = ROOT / "docs" / "board.svg"
SIDE, EDGE = 30, 24
PREMIUMS = {"=": "#e8a598", "-": "#f5d5ce", '"': "#8ab4d8", "'": "#cfe2f1", ".": "#f3f0e6"}
FONT = "font-family='sans-serif' text-anchor='middle'"


def text_at(left, top, size, text, more=""):
    return f"<text x='{left}' y='{top}' font-size='{size}' {FONT}{more}>{text}</text>"


def square(mark, row, column):
    """A square with its tile, or with the colour of its premium."""
    left, top = EDGE + SIDE * column, EDGE + SIDE * row
    box = f"<rect x='{left}' y='{top}' width='{SIDE - 1}' height='{SIDE - 1}' rx='3' fill='{PREMIUMS.get(mark, '#d9b77e')}'/>"
    if not mark.isalpha():
        return box
    points = "" if mark.islower() else ENGLISH.points[mark]
    letter = text_at(left + 13, top + 21, 18, mark.upper(), " fill='#a02020'" if mark.islower() else " fill='#202020'")
    return box + letter + text_at(left + 24, top + 26, 8, points, " fill='#202020'")


def drawn(board):
    """The picture of a board, from its rows as `referee board` prints them."""
    rows = [line[3:].split(" ") for line in board.split("\n")[2:17]]
    whole = EDGE + SIDE * len(rows) + 2
    names = [text_at(EDGE + SIDE * k + 15, 17, 12, "ABCDEFGHIJKLMNO"[k], " fill='#808080'") for k in range(15)]
    names += [text_at(11, EDGE + SIDE * k + 19, 12, k + 1, " fill='#808080'") for k in range(15)]
    squares = [square(mark, row, column) for row, marks in enumerate(rows) for column, mark in enumerate(marks)]
    head = f"<svg xmlns='http://www.w3.org/2000/svg' width='{whole}' height='{whole}' viewBox='0 0 {whole} {whole}'>"
    return "\n".join([head, "<title>The board of the example game after its last event</title>", *names, *squares, "</svg>", ""])


def picture_of(program):
    ran = subprocess.run([program, "board", ROOT / "examples" / "game.gcg"], capture_output=True, check=True)
    return drawn(ran.stdout.decode())


def main():
    picture = picture_of(sys.argv[1])
    if sys.argv[2:] == ["write"]:
        PICTURE.write_text(picture)
    elif PICTURE.read_text() != picture:
        sys.exit(f"{PICTURE} is not the board of the example game")


if __name__ == "__main__":
    main()
