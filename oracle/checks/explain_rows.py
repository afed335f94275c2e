"""What `explain` says, row by row: a word list, a record, and the text up to the board that follows it.

The texts were made by hand from the rules of the game. `oracle/checks/program.py` runs the program through them.
"""
import subprocess
from collections import Counter
from dataclasses import replace
from pathlib import Path

from answers import lead_of
from lexicons import build
from rules import ENGLISH
from rules_texts import text_of

# What is wrong with the text or the placement of a play.
PLAYS = [
    (
        "WORD",
        ">A: 8N ABC +0 0\n",
        "illegal line 1: OffBoard\n"
        "line 1: >A: 8N ABC +0 0\n"
        "The play leaves the board: it covers 3 squares, and from 8N to the end of the row there are only 2.\n",
    ),
    (
        "WORD",
        ">A: DORWAAE 8E WORD +16 16\n" ">B: O15 AB +0 0\n",
        "illegal line 2: OffBoard\n"
        "line 2: >B: O15 AB +0 0\n"
        "The play leaves the board: it covers 2 squares, and from 15O to the end of the column there is only 1.\n",
    ),
    (
        "WORD",
        ">A: 8E WO.D +16 16\n",
        "illegal line 1: Mismatch\n" "line 1: >A: 8E WO.D +16 16\n" "The play has a dot on 8G, as if a tile were there, but the square is empty.\n",
    ),
    (
        "WORD",
        ">A: DORWAAE 8E WORD +16 16\n" ">B: 8D QUA +0 0\n",
        "illegal line 2: Mismatch\n" "line 2: >B: 8D QUA +0 0\n" "The play has U on 8E, but the tile there shows W.\n",
    ),
    (
        "WORD",
        ">A: DORWAAE 8E WORD +16 16\n" ">B: 8E .... +0 0\n",
        "illegal line 2: NoNewTile\n" "line 2: >B: 8E .... +0 0\n" "Every square of the play already has a tile, so no tile is new.\n",
    ),
    (
        "WORD",
        ">A: DORWAAE 8E WORD +16 16\n" ">B: 1A ABCDEFGH +0 0\n",
        "illegal line 2: TooManyTiles\n" "line 2: >B: 1A ABCDEFGH +0 0\n" "The play puts down 8 tiles, and a rack has 7 at most.\n",
    ),
    (
        "WORD",
        ">A: DORWAAE 8E WORD +16 16\n" ">B: 8D S +0 0\n",
        "illegal line 2: NotWhole\n"
        "line 2: >B: 8D S +0 0\n"
        "The tile W on 8E is directly after the play.\n"
        "The line has to name the whole word.\n",
    ),
    (
        "WORD",
        ">A: DORWAAE 8E WORD +16 16\n" ">B: 8I S +0 0\n",
        "illegal line 2: NotWhole\n"
        "line 2: >B: 8I S +0 0\n"
        "The tile D on 8H is directly before the play.\n"
        "The line has to name the whole word.\n",
    ),
    (
        "WORD",
        ">A: 8D WORD +16 16\n",
        "illegal line 1: MissesCentre\n"
        "line 1: >A: 8D WORD +16 16\n"
        "The first play of a game has to cover 8H, and this one does not.\n"
        "The same letters score 16 at 8E across, 8F across, 8G across and 5 other places.\n",
    ),
    ("WORD", ">A: 8H A +0 0\n", "illegal line 1: TooShort\n" "line 1: >A: 8H A +0 0\n" "The play makes no word of two letters or more.\n"),
    (
        "WORD",
        ">A: DORWAAE 8E WORD +16 16\n" ">B: 1A AT +0 0\n",
        "illegal line 2: Apart\n" "line 2: >B: 1A AT +0 0\n" "No tile of the play touches a tile that is already on the board.\n",
    ),
]

# Scores that are not the right ones, and places where they would be right.
SCORES = [
    (
        "WORD",
        ">A: 8E WORD +18 18\n",
        "illegal line 1: WrongScore 16\n"
        "line 1: >A: 8E WORD +18 18\n"
        "The play scores 16, but 18 is written.\n"
        "WORD\n"
        "  8E W 4\n"
        "  8F O 1\n"
        "  8G R 1\n"
        "  8H D 2, double word\n"
        "  sum 8 x 2 = 16\n"
        "score of the play: 16\n",
    ),
    (
        "WORD\nAT\nRA\nDT",
        ">A: DORWAAE 8E WORD +16 16\n" ">B: 9F AT +9 9\n",
        "illegal line 2: WrongScore 8\n"
        "line 2: >B: 9F AT +9 9\n"
        "The play scores 8, but 9 is written.\n"
        "The same letters score 9 at 9G across.\n"
        "AT\n"
        "  9F A 1\n"
        "  9G T 1 x 2 = 2, double letter\n"
        "  sum 3\n"
        "(O)A, which is not in the word list\n"
        "  8F O 1, already on the board\n"
        "  9F A 1\n"
        "  sum 2\n"
        "(R)T, which is not in the word list\n"
        "  8G R 1, already on the board\n"
        "  9G T 1 x 2 = 2, double letter\n"
        "  sum 3\n"
        "score of the play: 8\n",
    ),
    (
        "WORD\nAT\nRA\nDT",
        ">A: DORWAAE 8E WORD +16 16\n" ">B: G9 AT +9 9\n",
        "illegal line 2: NotWhole\n"
        "line 2: >B: G9 AT +9 9\n"
        "The tile R on 8G is directly before the play.\n"
        "The line has to name the whole word.\n"
        "The same letters score 9 at 9G across.\n",
    ),
    (
        "ALOES",
        ">A: 8F ALOES +12 12\n",
        "illegal line 1: WrongScore 10\n"
        "line 1: >A: 8F ALOES +12 12\n"
        "The play scores 10, but 12 is written.\n"
        "The same letters score 12 at 8D across, 8H across, H4 down and 1 other place.\n"
        "ALOES\n"
        "  8F A 1\n"
        "  8G L 1\n"
        "  8H O 1, double word\n"
        "  8I E 1\n"
        "  8J S 1\n"
        "  sum 5 x 2 = 10\n"
        "score of the play: 10\n",
    ),
    (
        "RETAINS",
        ">A: 8E rETAINS +64 64\n",
        "illegal line 1: WrongScore 62\n"
        "line 1: >A: 8E rETAINS +64 64\n"
        "The play scores 62, but 64 is written.\n"
        "With the R on 8E as a letter and not a blank the play scores 64, as is written.\n"
        "The same letters score 64 at 8B across, 8C across, 8F across and 7 other places.\n"
        "RETAINS\n"
        "  8E r 0\n"
        "  8F E 1\n"
        "  8G T 1\n"
        "  8H A 1, double word\n"
        "  8I I 1\n"
        "  8J N 1\n"
        "  8K S 1\n"
        "  sum 6 x 2 = 12\n"
        "bonus for seven tiles: 50\n"
        "score of the play: 62\n",
    ),
    ("WORD", ">A: - +5 5\n", "illegal line 1: WrongScore 0\n" "line 1: >A: - +5 5\n" "A pass scores 0, but 5 is written.\n"),
    ("WORD", ">A: -AB +5 5\n", "illegal line 1: WrongScore 0\n" "line 1: >A: -AB +5 5\n" "An exchange scores 0, but 5 is written.\n"),
    (
        "AT",
        ">A: 8E WORD +16 16\n" ">A: -- -18 -2\n",
        "illegal line 2: WrongScore -16\n"
        "line 2: >A: -- -18 -2\n"
        "A withdrawal takes the points of the play off again: it scores -16, but -18 is written.\n",
    ),
    (
        "AT",
        ">A: - +0 0\n" ">B: - +0 0\n" ">A: - +0 0\n" ">B: - +0 0\n" ">A: - +0 0\n" ">B: - +0 0\n" ">A: (AEINRST) +7 7\n",
        "illegal line 7: WrongScore -7\n"
        "line 7: >A: (AEINRST) +7 7\n"
        "A loses the points of the rack AEINRST: the score is -7, but 7 is written.\n",
    ),
]

# Totals that are not the right ones, and the turn that they leave out.
TOTALS = [
    (
        "WORD",
        ">A: 8E WORD +16 17\n",
        "illegal line 1: WrongTotal 16\n"
        "line 1: >A: 8E WORD +16 17\n"
        "A had 0 and scores 16 on this line, which makes 16, but 17 is written.\n"
        "WORD\n"
        "  8E W 4\n"
        "  8F O 1\n"
        "  8G R 1\n"
        "  8H D 2, double word\n"
        "  sum 8 x 2 = 16\n"
        "score of the play: 16\n",
    ),
    (
        "WORD",
        ">A: DORWAAE 8E WORD +16 16\n" ">B: - +0 0\n" ">A: - +0 0\n",
        "illegal line 3: WrongTotal 16\n"
        "line 3: >A: - +0 0\n"
        "A had 16 and scores 0 on this line, which makes 16, but 0 is written.\n"
        "The written total leaves out line 1, which scores 16.\n",
    ),
    (
        "WORD",
        ">A: DORWAAE 8E WORD +16 16\n" ">B: - +0 0\n" ">A: - +0 16\n" ">B: - +0 0\n" ">A: - +0 0\n",
        "illegal line 5: WrongTotal 16\n" "line 5: >A: - +0 0\n" "A had 16 and scores 0 on this line, which makes 16, but 0 is written.\n",
    ),
    (
        "WORD",
        ">A: DORWAAE 8E WORD +16 16\n" ">B: - +0 0\n" ">A: (time) -5 16\n",
        "illegal line 3: WrongTotal 11\n"
        "line 3: >A: (time) -5 16\n"
        "A had 16 and scores -5 on this line, which makes 11, but 16 is written.\n"
        "The written total leaves out the score of this line.\n",
    ),
]

# Turns, the end of a game, and penalties for time.
TURNS = [
    (
        "WORD",
        ">A: DORWAAE 8E WORD +16 16\n" ">A: - +0 16\n",
        "illegal line 2: NotYourTurn\n" "line 2: >A: - +0 16\n" "It is the other player's turn, not A's.\n",
    ),
    (
        "WORD",
        ">A: DORWAAE 8E WORD +16 16\n" ">B: - +0 0\n" ">B: - +0 0\n",
        "illegal line 3: NotYourTurn\n"
        "line 3: >B: - +0 0\n"
        "It is A's turn, not B's.\n"
        "This line says the same as line 2; it may have been written twice by mistake.\n",
    ),
    (
        "AT",
        ">A: - +0 0\n" ">B: - +0 0\n" ">A: - +0 0\n" ">B: - +0 0\n" ">A: - +0 0\n" ">B: - +0 0\n" ">A: (AEINRST) -7 -7\n" ">B: - +0 0\n",
        "illegal line 8: GameOver\n"
        "line 8: >B: - +0 0\n"
        "A has lost the points of a rack, so there are no more turns. What is missing is B's last rack.\n",
    ),
    (
        "AT",
        ">A: - +0 0\n"
        ">B: - +0 0\n"
        ">A: - +0 0\n"
        ">B: - +0 0\n"
        ">A: - +0 0\n"
        ">B: - +0 0\n"
        ">A: (AEINRST) -7 -7\n"
        ">A: (AEINRST) -7 -14\n"
        ">B: - +0 0\n",
        "illegal line 8: GameOver\n"
        "line 8: >A: (AEINRST) -7 -14\n"
        "A has lost the points of a rack, so there are no more turns. What is missing is B's last rack.\n",
    ),
    (
        "AT",
        ">A: - +0 0\n"
        ">B: - +0 0\n"
        ">A: - +0 0\n"
        ">B: - +0 0\n"
        ">A: - +0 0\n"
        ">B: - +0 0\n"
        ">A: (AEINRST) -7 -7\n"
        ">B: (AEINRST) -7 -7\n"
        ">B: - +0 -7\n",
        "illegal line 9: GameOver\n" "line 9: >B: - +0 -7\n" "The game is complete: the last racks are in.\n",
    ),
    (
        "AT",
        ">A: AEINRST (AEINRST) -7 -7\n",
        "illegal line 1: NotOver\n"
        "line 1: >A: AEINRST (AEINRST) -7 -7\n"
        "No last rack is due. No player is out, and a game ends after 6 turns in a row without a play that stands; before this line there were 0.\n",
    ),
    (
        "AT",
        ">A: - +0 0\n" ">B: (AEINRST) -7 -7\n",
        "illegal line 2: NotOver\n"
        "line 2: >B: (AEINRST) -7 -7\n"
        "No last rack is due. No player is out, and a game ends after 6 turns in a row without a play that stands; before this line there was 1.\n",
    ),
    (
        "AT",
        ">A: - +0 0\n" ">B: - +0 0\n" ">A: - +0 0\n" ">B: - +0 0\n" ">A: - +0 0\n" ">B: AEINRST (AEINRST) -7 -7\n",
        "illegal line 6: NotOver\n"
        "line 6: >B: AEINRST (AEINRST) -7 -7\n"
        "No last rack is due. No player is out, and a game ends after 6 turns in a row without a play that stands; before this line there were 5.\n",
    ),
    (
        "AT",
        ">A: - +0 0\n" ">B: - +0 0\n" ">A: - +0 0\n" ">B: - +0 0\n" ">A: - +0 0\n" ">B: - +0 0\n" ">A: (AB) -4 -4\n",
        "illegal line 7: LastRackSize\n" "line 7: >A: (AB) -4 -4\n" "The last rack shows 2 tiles, but A has 7.\n",
    ),
    (
        "AT",
        ">A: (time) -7 -7\n",
        "illegal line 1: BadTime\n" "line 1: >A: (time) -7 -7\n" "A penalty for time is a negative multiple of 5, but -7 is written.\n",
    ),
    (
        "AT",
        ">A: (time) -5 -5\n" ">B: - +0 0\n" ">A: (time) -5 -10\n",
        "illegal line 3: BadTime\n" "line 3: >A: (time) -5 -10\n" "A already has a penalty for time, on line 1, and a player has one at most.\n",
    ),
]

# Plays that are taken back or challenged.
CHALLENGES = [
    (
        "WORD",
        ">A: -- +0 0\n",
        "illegal line 1: NothingToWithdraw\n" "line 1: >A: -- +0 0\n" "This is the first event, so there is nothing to take back.\n",
    ),
    (
        "WORD",
        ">A: - +0 0\n" ">A: -- +0 0\n",
        "illegal line 2: NothingToWithdraw\n" "line 2: >A: -- +0 0\n" "The event before this one is not a play, so there is nothing to take back.\n",
    ),
    (
        "AT",
        ">A: DORWAAE 8E WORD +16 16\n" ">B: -- -16 -16\n",
        "illegal line 2: NothingToWithdraw\n" "line 2: >B: -- -16 -16\n" "The play on line 1 is A's, so B cannot take it back.\n",
    ),
    (
        "WORD\nAT\nRA\nDT",
        ">A: DORWAAE 8E WORD +16 16\n" ">B: 9G AT +9 9\n" ">B: -- -9 0\n",
        "illegal line 3: WithdrawnValid\n"
        "line 3: >B: -- -9 0\n"
        "The play on line 2 stands, since each of its words is in the word list: AT, RA and DT.\n"
        "Perhaps the game was played with another word list.\n",
    ),
    (
        "AT",
        ">A: DORWAAE 8E WORD +16 16\n" ">A: (challenge) +5 21\n",
        "illegal line 2: BonusOnPhony\n"
        "line 2: >A: (challenge) +5 21\n"
        "The challenge of the play on line 1 succeeds, since none of its words is in the word list: WORD.\n"
        "Perhaps the game was played with another word list.\n",
    ),
    (
        "AT",
        ">A: (challenge) +5 5\n",
        "illegal line 1: BadBonus\n" "line 1: >A: (challenge) +5 5\n" "This is the first event, so there is nothing to challenge.\n",
    ),
    (
        "AT",
        ">A: - +0 0\n" ">A: (challenge) +5 5\n",
        "illegal line 2: BadBonus\n" "line 2: >A: (challenge) +5 5\n" "The event before this one is not a play, so there is nothing to challenge.\n",
    ),
    (
        "WORD",
        ">A: DORWAAE 8E WORD +16 16\n" ">B: (challenge) +5 5\n",
        "illegal line 2: BadBonus\n" "line 2: >B: (challenge) +5 5\n" "The play on line 1 is A's, so its bonus cannot go to B.\n",
    ),
    (
        "WORD\nAT\nRA\nDT",
        ">A: DORWAAE 8E WORD +16 16\n" ">B: 9G AT +9 9\n" ">B: (challenge) +20 29\n",
        "illegal line 3: BadBonus\n"
        "line 3: >B: (challenge) +20 29\n"
        "A bonus is 5 points for each challenged word that is in the word list. "
        "3 words of the play are, so the bonus can be 5, 10 or 15, but 20 is written.\n",
    ),
    (
        "WORD",
        ">A: DORWAAE 8E WORD +16 16\n" ">A: (challenge) +7 23\n",
        "illegal line 2: BadBonus\n"
        "line 2: >A: (challenge) +7 23\n"
        "A bonus is 5 points for each challenged word that is in the word list. 1 word of the play is, so the bonus can be 5, but 7 is written.\n",
    ),
]

# Racks that cannot be dealt.
RACKS = [
    (
        "AT",
        ">A: AEINRST 8H AT +4 4\n" ">B: - +0 0\n" ">A: AAABCDE - +0 4\n",
        "illegal line 3: RackTooBig\n"
        "line 3: >A: AAABCDE - +0 4\n"
        "After line 1 EINRS is left, but line 3 has no I.\n"
        "A has 7 tiles here, but by the lines below the rack would have to hold 11: AAABCDEINRS.\n"
        "  line 1 shows AEINRST and plays AT\n"
        "  line 3 shows AAABCDE\n",
    ),
    (
        "AT",
        ">A: AEINRST -1 +0 0\n" ">B: - +0 0\n" ">A: BCDFGHJ - +0 0\n",
        "illegal line 3: NoDeal\n"
        "line 3: >A: BCDFGHJ - +0 0\n"
        "No deal of the tiles gives the players the racks that the lines up to this one show, though no single line shows too much.\n"
        "Even if only these tiles were shown, no deal would give them:\n"
        "  line 1 shows AEINRST on A's rack\n"
        "  line 3 shows BCDFGHJ on A's rack\n"
        "Compare the racks with the exchanges:\n"
        "  line 1: A exchanges 1 tile\n"
        "Up to line 2 a deal of the tiles gives the players every rack that is shown.\n",
    ),
    (
        "AT",
        ">A: DORWAAE 8E WORD +16 16\n" ">B: AEINRST -2 +0 0\n" ">A: - +0 16\n" ">B: AEBCDFG - +0 0\n",
        "illegal line 4: NoDeal\n"
        "line 4: >B: AEBCDFG - +0 0\n"
        "No deal of the tiles gives the players the racks that the lines up to this one show, though no single line shows too much.\n"
        "Even if only these tiles were shown, no deal would give them:\n"
        "  line 2 shows INRST on B's rack\n"
        "  line 4 shows ABCDEFG on B's rack\n"
        "Compare the racks with the exchanges:\n"
        "  line 2: B exchanges 2 tiles\n"
        "Up to line 3 a deal of the tiles gives the players every rack that is shown.\n",
    ),
    (
        "AT",
        ">A: Q -Q +0 0\n" ">B: - +0 0\n" ">A: Q - +0 0\n",
        "illegal line 3: NoDeal\n"
        "line 3: >A: Q - +0 0\n"
        "No deal of the tiles gives the players the racks that the lines up to this one show, though no single line shows too much.\n"
        "Even if only these tiles were shown, no deal would give them:\n"
        "  line 3 shows Q on A's rack\n"
        "Compare the racks with the exchanges:\n"
        "  line 1: A exchanges 1 tile\n"
        "Up to line 2 a deal of the tiles gives the players every rack that is shown.\n",
    ),
    (
        "AT",
        ">A: Q -Q +0 0\n" ">B: - +0 0\n" ">A: Q -Q +0 0\n",
        "illegal line 3: NoDeal\n"
        "line 3: >A: Q -Q +0 0\n"
        "No deal of the tiles gives the players the racks that the lines up to this one show, though no single line shows too much.\n"
        "Even if no rack were shown, no deal would give the plays and the exchanges.\n"
        "Compare the racks with the exchanges:\n"
        "  line 1: A exchanges 1 tile\n"
        "  line 3: A exchanges 1 tile\n"
        "Up to line 2 a deal of the tiles gives the players every rack that is shown.\n",
    ),
    (
        "AT",
        ">A: ?? - +0 0\n" ">B: ? - +0 0\n",
        "illegal line 2: TilesShort ?\n"
        "line 2: >B: ? - +0 0\n"
        "The game has 2 of the tile ?, but by what the lines up to this one show there would have to be 3: "
        "0 on the board, 2 on A's rack and 1 on B's.\n"
        "  line 1 shows 2 on A's rack\n"
        "  line 2 shows 1 on B's rack\n",
    ),
    (
        "QAT",
        ">A: Q 8F QAT +24 24\n" ">B: AE -2 +0 0\n" ">A: - +0 24\n" ">B: Q - +0 0\n",
        "illegal line 4: TilesShort Q\n"
        "line 4: >B: Q - +0 0\n"
        "The game has 1 of the tile Q, but by what the lines up to this one show there would have to be 2: "
        "1 on the board, 0 on A's rack and 1 on B's.\n"
        "  line 1 shows 1 on A's rack and plays 1\n"
        "  line 4 shows 1 on B's rack\n",
    ),
    (
        "AT",
        ">A: AEI -AEI +0 0\n" ">B: - +0 0\n" ">A: BCDFGHJ -BC +0 0\n" ">B: - +0 0\n" ">A: KLMNOPQ - +0 0\n",
        "illegal line 5: RackTooBig\n"
        "line 5: >A: KLMNOPQ - +0 0\n"
        "After line 3 DFGHJ is left, but line 5 has no D.\n"
        "A has 7 tiles here, but by the lines below the rack would have to hold 12: DFGHJKLMNOPQ.\n"
        "  line 1 shows AEI and exchanges AEI\n"
        "  line 3 shows BCDFGHJ and exchanges BC\n"
        "  line 5 shows KLMNOPQ\n",
    ),
]

# Tiles that are not on the rack, tiles that were read as others, and blanks: how the text begins.
SLIPS = [
    (
        "WORD\nAT",
        ">A: AADEORW 8E XORD +24 24\n",
        "illegal line 1: RackTooBig\n"
        "line 1: >A: AADEORW 8E XORD +24 24\n"
        "X is played, but the rack AADEORW has none.\n"
        "With W for X on 8E the play makes WORD, and scores 16, but 24 is written.\n"
        "A has 7 tiles here, but by the lines below the rack would have to hold 8: AADEORWX.\n"
        "  line 1 shows AADEORWX and plays DORX\n",
    ),
    (
        "WORD\nAT",
        ">A: AADEORW 8E XORD +16 16\n",
        "illegal line 1: WrongScore 24\n"
        "line 1: >A: AADEORW 8E XORD +16 16\n"
        "The play scores 24, but 16 is written.\n"
        "X is played, but the rack AADEORW has none.\n"
        "With W for X on 8E the play makes WORD, and scores 16, as is written.\n",
    ),
    (
        "WORD\nAT",
        ">A: AADEOR? 8E WORD +16 16\n",
        "illegal line 1: RackTooBig\n"
        "line 1: >A: AADEOR? 8E WORD +16 16\n"
        "W is played, but the rack AADEOR? has none.\n"
        "With a blank for W on 8E the play makes WORD, and scores 8, but 16 is written.\n",
    ),
    (
        "WORD\nAT",
        ">A: AADEORW 8E wORD +8 8\n",
        "illegal line 1: RackTooBig\n"
        "line 1: >A: AADEORW 8E wORD +8 8\n"
        "A blank is played, but the rack AADEORW has none.\n"
        "With W for the blank on 8E the play makes WORD, and scores 16, but 8 is written.\n",
    ),
    (
        "WOOD",
        ">A: AADEOTW 8E WOOD +16 16\n",
        "illegal line 1: RackTooBig\n"
        "line 1: >A: AADEOTW 8E WOOD +16 16\n"
        "2 tiles O are played, but the rack AADEOTW has only 1.\n"
        "A has 7 tiles here, but by the lines below the rack would have to hold 8: AADEOOTW.\n",
    ),
    (
        "AT\nET\nOT",
        ">A: AEOTTTT 8H UT +4 4\n",
        "illegal line 1: RackTooBig\n"
        "line 1: >A: AEOTTTT 8H UT +4 4\n"
        "U is played, but the rack AEOTTTT has none.\n"
        "With A for U on 8H the play makes AT, and scores 4, as is written.\n"
        "With E for U on 8H the play makes ET, and scores 4, as is written.\n"
        "With O for U on 8H the play makes OT, and scores 4, as is written.\n",
    ),
    (
        "WORD",
        ">A: 8E WORD +8 8\n",
        "illegal line 1: WrongScore 16\n"
        "line 1: >A: 8E WORD +8 8\n"
        "The play scores 16, but 8 is written.\n"
        "With the W on 8E as a blank the play scores 8, as is written.\n",
    ),
    (
        "WORD",
        ">A: 8E wORD +16 16\n",
        "illegal line 1: WrongScore 8\n"
        "line 1: >A: 8E wORD +16 16\n"
        "The play scores 8, but 16 is written.\n"
        "With the W on 8E as a letter and not a blank the play scores 16, as is written.\n",
    ),
    (
        "WORD",
        ">A: AADEORW 8E WORD +8 8\n",
        "illegal line 1: WrongScore 16\n" "line 1: >A: AADEORW 8E WORD +8 8\n" "The play scores 16, but 8 is written.\n" "WORD\n",
    ),
]

# A wrong score, if the record stands with the play nowhere else: how the text begins.
NOWHERE = [
    (
        "WORD\nAT\nRA\nDT",
        ">A: DORWAAE 8E WORD +16 16\n" ">B: 9F AT +9 8\n",
        "illegal line 2: WrongScore 8\n"
        "line 2: >B: 9F AT +9 8\n"
        "The play scores 8, but 9 is written.\n"
        "With 8 the total is 8, as is written.\n"
        "AT\n",
    ),
    (
        "WORD\nAT\nRA\nDT",
        ">A: DORWAAE 8E WORD +16 16\n" ">B: 9F AT +9 9\n" ">A: - +0 17\n",
        "illegal line 2: WrongScore 8\n" "line 2: >B: 9F AT +9 9\n" "The play scores 8, but 9 is written.\n" "AT\n",
    ),
]

# Lines that stand twice, in the wrong order or under the wrong name, and lines that are missing: how the text begins.
ORDERS = [
    (
        "AT",
        ">A: 8E WORD +16 16\n" ">A: 8E WORD +16 16\n" ">B: - +0 0\n",
        "illegal line 2: NotYourTurn\n"
        "line 2: >A: 8E WORD +16 16\n"
        "It is B's turn, not A's.\n"
        "This line says the same as line 1; it may have been written twice by mistake.\n",
    ),
    (
        "AT",
        ">A: 8E WORD +16 16\n" ">A: - +0 16\n" "#note\n" ">B: 9G AT +9 9\n",
        "illegal line 2: NotYourTurn\n"
        "line 2: >A: - +0 16\n"
        "It is B's turn, not A's.\n"
        "With lines 2 and 4 the other way round the rules allow both.\n",
    ),
    (
        "AT",
        ">A: 8E WORD +16 16\n" ">A: - +0 16\n" ">B: - +0 9\n",
        "illegal line 2: NotYourTurn\n"
        "line 2: >A: - +0 16\n"
        "It is B's turn, not A's.\n"
        "A line of B with +9 seems to be missing between lines 1 and 2.\n",
    ),
    (
        "AT",
        ">A: 8E WORD +16 16\n" ">A: 9G AT +9 25\n" ">B: F10 TO +4 4\n",
        "illegal line 2: NotYourTurn\n"
        "line 2: >A: 9G AT +9 25\n"
        "It is B's turn, not A's.\n"
        "A pass or an exchange of B seems to be missing between lines 1 and 2.\n",
    ),
    (
        "AT",
        ">A: 8E WORD +16 16\n" ">A: - +0 16\n" ">B: 9G AT +9 9\n" ">A: - +0 17\n",
        "illegal line 2: NotYourTurn\n"
        "line 2: >A: - +0 16\n"
        "It is B's turn, not A's.\n"
        "A pass or an exchange of B seems to be missing between lines 1 and 2.\n",
    ),
    (
        "AT",
        ">A: 8E WORD +16 16\n" ">A: 9G AT +9 9\n" ">A: - +0 16\n" ">B: - +0 9\n",
        "illegal line 2: NotYourTurn\n" "line 2: >A: 9G AT +9 9\n" "It is B's turn, not A's.\n" "If this is a line of B, the rules allow it.\n",
    ),
    (
        "AT",
        ">A: 8E WORD +16 16\n" ">A: 9G AT +9 20\n" ">B: - +0 9\n",
        "illegal line 2: NotYourTurn\n" "line 2: >A: 9G AT +9 20\n" "It is B's turn, not A's.\n" "AT\n",
    ),
]

# Records whose events the rules allow: plays that stand with words that are not in the list, turns without a rack or with a part of it, and a last
# rack that is missing.
NOTES = [
    (
        "AT\nRA",
        ">A: DORWAAE 8E WORD +16 16\n" ">B: 9G AT +9 9\n",
        "legal unfinished\n"
        "The rules allow every event, and a deal of the tiles gives the players every rack that is shown.\n"
        "Line 1: A's play stands with WORD, which is not in the word list.\n"
        "Line 2: B's play stands with DT, which is not in the word list.\n"
        "No rack is shown on 1 turn: line 2.\n",
    ),
    (
        "WORD\nAT",
        ">A: 8E WORD +16 16\n" ">B: 9G AT +9 9\n" ">B: -- -9 0\n" ">A: DOR - +0 16\n",
        "legal unfinished\n"
        "The rules allow every event, and a deal of the tiles gives the players every rack that is shown.\n"
        "Each word of every play that stands is in the word list.\n"
        "Line 4 shows 3 of 7 tiles.\n"
        "No rack is shown on 2 turns: lines 1 and 2.\n",
    ),
    (
        "WORD\nAT\nRA\nDT",
        ">A: DORWAAE 8E WORD +16 16\n" ">B: AT 9G AT +9 9\n",
        "legal unfinished\n"
        "The rules allow every event, and a deal of the tiles gives the players every rack that is shown.\n"
        "Each word of every play that stands is in the word list.\n"
        "Line 2 shows 2 of 7 tiles.\n"
        "Every other turn shows its rack.\n",
    ),
    (
        "AT",
        ">A: - +0 0\n" ">B: - +0 0\n" ">A: - +0 0\n" ">B: - +0 0\n" ">A: - +0 0\n" ">B: - +0 0\n" ">A: (AEINRST) -7 -7\n",
        "legal unfinished\n"
        "The rules allow every event, and a deal of the tiles gives the players every rack that is shown.\n"
        "Each word of every play that stands is in the word list.\n"
        "No turn shows its rack.\n"
        "A has lost the points of a rack, so there are no more turns. What is missing is B's last rack.\n",
    ),
    (
        "QI",
        ">A: 8E WORD +16 16\n" ">B: 9G AT +9 9\n" ">A: 10G ES +9 25\n" ">B: 11G AT +11 20\n",
        "legal unfinished\n"
        "The rules allow every event, and a deal of the tiles gives the players every rack that is shown.\n"
        "Line 1: A's play stands with WORD, which is not in the word list.\n"
        "Line 2: B's play stands with AT, RA and DT, which are not in the word list.\n"
        "Line 3: A's play stands with ES, RAE and DTS, which are not in the word list.\n"
        "Line 4: B's play stands with AT, RAEA and DTST, which are not in the word list.\n"
        "Perhaps the game was played with another word list.\n"
        "No turn shows its rack.\n",
    ),
    (
        "AT",
        ">A: 8E WORD +16 16\n" ">B: 9G AT +9 9\n" ">A: - +0 16\n",
        "legal unfinished\n"
        "The rules allow every event, and a deal of the tiles gives the players every rack that is shown.\n"
        "Line 1: A's play stands with WORD, which is not in the word list.\n"
        "Line 2: B's play stands with RA and DT, which are not in the word list.\n"
        "No turn shows its rack.\n",
    ),
]

# Lines that are not lines of a record.
RECORDS = [
    (
        "AT",
        ">A 8E WORD +16 16\n",
        "bad record line 1: NoColon\n" "line 1: >A 8E WORD +16 16\n" "An event begins with >, a nickname and a colon, but this line has no colon.\n",
    ),
    (
        "AT",
        ">Ann Lee: 8E WORD +16 16\n",
        "bad record line 1: NoColon\n"
        "line 1: >Ann Lee: 8E WORD +16 16\n"
        "There is a space or a tab inside the nickname before the colon.\n"
        "Write Ann_Lee.\n",
    ),
    ("AT", "> : 8E WORD +16 16\n", "bad record line 1: NoColon\n" "line 1: > : 8E WORD +16 16\n" "There is no nickname before the colon.\n"),
    (
        "AT",
        ">A: - +0 0\n" ">B: - +0 0\n" ">C: - +0 0\n",
        "bad record line 3: ThirdPlayer\n" "line 3: >C: - +0 0\n" "C is a third nickname: the players are A and B.\n",
    ),
    (
        "AT",
        "#player1 A\n" "#player2 A\n",
        "bad record line 2: ThirdPlayer\n" "line 2: #player2 A\n" "This line gives a player the nickname that the other player already has.\n",
    ),
    (
        "AT",
        ">A: 8E\n",
        "bad record line 1: Fields\n"
        "line 1: >A: 8E\n"
        "There is 1 field after the colon, but an event has 3 to 5.\n"
        "The score and the total are missing.\n",
    ),
    (
        "AT",
        ">A: 8E WORD\n",
        "bad record line 1: Fields\n"
        "line 1: >A: 8E WORD\n"
        "There are 2 fields after the colon, but an event has 3 to 5.\n"
        "The score and the total are missing.\n",
    ),
    (
        "AT",
        ">A: A 8E WORD +1 1 1\n",
        "bad record line 1: Fields\n"
        "line 1: >A: A 8E WORD +1 1 1\n"
        "There are more than 5 fields after the colon, but an event has 3 to 5.\n"
        "What comes after the total belongs on a line of its own that begins with #note.\n",
    ),
    (
        "AT",
        ">Ann: AEINRSTU - +0 0\n",
        "bad record line 1: Rack\n" "line 1: >Ann: AEINRSTU - +0 0\n" "AEINRSTU is not a rack: a rack is 1 to 7 tiles, each A to Z or ?.\n",
    ),
    (
        "AT",
        ">Ann: 16A AT +4 4\n",
        "bad record line 1: Position\n"
        "line 1: >Ann: 16A AT +4 4\n"
        "16A is not a position: a position is a row from 1 to 15 and a column from A to O, in either order.\n",
    ),
    (
        "AT",
        ">Ann: AT 16A AT +4 4\n",
        "bad record line 1: Position\n"
        "line 1: >Ann: AT 16A AT +4 4\n"
        "16A is not a position: a position is a row from 1 to 15 and a column from A to O, in either order.\n",
    ),
    (
        "AT",
        ">Ann: 8E W0RD +16 16\n",
        "bad record line 1: Word\n" "line 1: >Ann: 8E W0RD +16 16\n" "W0RD cannot be the word of a play: a word is 1 to 15 letters and dots.\n",
    ),
    (
        "AT",
        ">Ann: -8 +0 0\n",
        "bad record line 1: Code\n"
        "line 1: >Ann: -8 +0 0\n"
        "-8 is not an event: an event is a play with its position, word, score and total, "
        "or one of the codes -, --, -TILES, -NUMBER, (challenge), (time) and (TILES).\n",
    ),
    (
        "AT",
        ">Ann: AT -8 +0 0\n",
        "bad record line 1: Code\n"
        "line 1: >Ann: AT -8 +0 0\n"
        "-8 is not an event: an event is a play with its position, word, score and total, "
        "or one of the codes -, --, -TILES, -NUMBER, (challenge), (time) and (TILES).\n",
    ),
    (
        "AT",
        ">Ann: 8E WORD +16\n",
        "bad record line 1: Code\n"
        "line 1: >Ann: 8E WORD +16\n"
        "8E is not an event: an event is a play with its position, word, score and total, "
        "or one of the codes -, --, -TILES, -NUMBER, (challenge), (time) and (TILES).\n"
        "The score or the total is missing: an event ends with both.\n",
    ),
    (
        "AT",
        ">Ann: - +1234567 0\n",
        "bad record line 1: Number\n" "line 1: >Ann: - +1234567 0\n" "The score +1234567 is not a number of 1 to 6 digits, with or without a sign.\n",
    ),
    (
        "AT",
        ">Ann: 8H AT +0 0x\n",
        "bad record line 1: Number\n" "line 1: >Ann: 8H AT +0 0x\n" "The total 0x is not a number of 1 to 6 digits, with or without a sign.\n",
    ),
    (
        "AT",
        "#note\r\n" ">Ann: - +0\r\n",
        "bad record line 2: Fields\n"
        "line 2: >Ann: - +0\n"
        "There are 2 fields after the colon, but an event has 3 to 5.\n"
        "The score or the total is missing: an event ends with both.\n",
    ),
]

# Racks and bags that are too small, and a player who is out. With 14 tiles the bag is empty from the start.
LAST_RACKS = [
    (
        "WORD\nAT\nRA\nDT",
        ">A: DORWAAE 8E WORD +16 16\n" ">B: - +0 0\n" ">A: AAET 9G AT +9 25\n",
        "illegal line 3: RackTooBig\n"
        "line 3: >A: AAET 9G AT +9 25\n"
        "A has 3 tiles here, but by the lines below the rack would have to hold 4: AAET.\n"
        "  line 1 shows AADEORW and plays DORW\n"
        "  line 3 shows AAET and plays AT\n"
        "AT\n"
        "  9G A 1 x 2 = 2, double letter\n"
        "  9H T 1\n"
        "  sum 3\n"
        "(R)A\n"
        "  8G R 1, already on the board\n"
        "  9G A 1 x 2 = 2, double letter\n"
        "  sum 3\n"
        "(D)T\n"
        "  8H D 2, already on the board\n"
        "  9H T 1\n"
        "  sum 3\n"
        "score of the play: 9\n",
    ),
    (
        "WORD",
        ">A: 8E WORD +16 16\n" ">B: - +0 0\n" ">A: H8 DATER +0 16\n",
        "illegal line 3: TooManyUsed\n"
        "line 3: >A: H8 DATER +0 16\n"
        "The play uses 4 tiles, but A has only 3 left.\n"
        "(D)ATER, which is not in the word list\n"
        "  8H D 2, already on the board\n"
        "  9H A 1\n"
        "  10H T 1\n"
        "  11H E 1\n"
        "  12H R 1 x 2 = 2, double letter\n"
        "  sum 7\n"
        "score of the play: 7\n",
    ),
    (
        "AT",
        ">A: -AT +0 0\n",
        "illegal line 1: ExchangeRefused\n" "line 1: >A: -AT +0 0\n" "The bag has 0 tiles, but an exchange is allowed only while it has 7 or more.\n",
    ),
    (
        "RETAINS",
        ">A: 8E RETAINS +64 64\n" ">B: - +0 0\n" ">B: - +0 0\n",
        "illegal line 3: GameOver\n"
        "line 3: >B: - +0 0\n"
        "A is out, so there are no more turns. What is missing is B's last rack, on a line of A.\n",
    ),
    (
        "RETAINS",
        ">A: 8E RETAINS +64 64\n" ">B: (AT) +4 4\n",
        "illegal line 2: NotYourTurn\n" "line 2: >B: (AT) +4 4\n" "A is out, so B's last rack has to be on a line of A, who gets the points.\n",
    ),
    (
        "RETAINS",
        ">A: 8E RETAINS +64 64\n" ">B: - +0 0\n" ">A: (R) +2 66\n",
        "illegal line 3: LastRackSize\n" "line 3: >A: (R) +2 66\n" "The last rack shows 1 tile, but B has 7.\n",
    ),
    (
        "RETAINS",
        ">A: 8E RETAINS +64 64\n" ">A: (ADEEORT) +8 72\n",
        "illegal line 2: WrongScore 16\n"
        "line 2: >A: (ADEEORT) +8 72\n"
        "A gets twice the points of the rack ADEEORT: the score is 16, but 8 is written.\n",
    ),
    (
        "RETAINS",
        ">A: 8E RETAINS +64 64\n" ">A: (ADEEORT) +16 80\n" ">B: - +0 0\n",
        "illegal line 3: GameOver\n" "line 3: >B: - +0 0\n" "The game is complete: the last racks are in.\n",
    ),
]

# An exchange of more tiles than there are in the bag, which has three.
EXCHANGES = [
    ("AT", ">A: -5 +0 0\n", "illegal line 1: ExchangeSize\n" "line 1: >A: -5 +0 0\n" "5 tiles cannot be exchanged: A has 7, and the bag has 3.\n")
]

# Lines that are asked for: the status, the line, and a row.
ASKED = [
    (
        0,
        None,
        "WORD",
        ">A: DORWAAE 8E WORD +16 16\n",
        "legal unfinished\n"
        "The rules allow every event, and a deal of the tiles gives the players every rack that is shown.\n"
        "Each word of every play that stands is in the word list.\n"
        "Every turn shows its rack.\n",
    ),
    (
        0,
        2,
        "WORD\nAT\nRA\nDT",
        ">A: DORWAAE 8E WORD +16 16\n" ">B: 9G AT +9 9\n",
        "legal unfinished\n"
        "line 2: >B: 9G AT +9 9\n"
        "The rules allow this event.\n"
        "AT\n"
        "  9G A 1 x 2 = 2, double letter\n"
        "  9H T 1\n"
        "  sum 3\n"
        "(R)A\n"
        "  8G R 1, already on the board\n"
        "  9G A 1 x 2 = 2, double letter\n"
        "  sum 3\n"
        "(D)T\n"
        "  8H D 2, already on the board\n"
        "  9H T 1\n"
        "  sum 3\n"
        "score of the play: 9\n",
    ),
    (
        0,
        2,
        "WORD",
        ">A: DORWAAE 8E WORD +16 16\n" "#note\n" ">B: - +0 0\n",
        "legal unfinished\n" "line 3: >B: - +0 0\n" "The rules allow this event.\n",
    ),
    (
        1,
        2,
        "WORD\nAT\nRA\nDT",
        ">A: 8E WORD +18 18\n" ">B: 9G AT +9 9\n",
        "illegal line 1: WrongScore 16\n"
        "line 2: >B: 9G AT +9 9\n"
        "The rules do not allow line 1, so this line was not judged.\n"
        "AT\n"
        "  9G A 1 x 2 = 2, double letter\n"
        "  9H T 1\n"
        "  sum 3\n"
        "(R)A\n"
        "  8G R 1, already on the board\n"
        "  9G A 1 x 2 = 2, double letter\n"
        "  sum 3\n"
        "(D)T\n"
        "  8H D 2, already on the board\n"
        "  9H T 1\n"
        "  sum 3\n"
        "score of the play: 9\n",
    ),
    (
        1,
        2,
        "WORD\nAT\nRA\nDT",
        ">A: 8D WORD +18 18\n" ">B: 9G AT +9 9\n",
        "illegal line 1: MissesCentre\n"
        "line 2: >B: 9G AT +9 9\n"
        "The rules do not allow line 1, so this line was not judged.\n"
        "The board before this line is not known, since the play on line 1 cannot be laid.\n",
    ),
    (
        1,
        0,
        "WORD",
        ">A: 8E WORD +18 18\n",
        "illegal line 1: WrongScore 16\n"
        "line 1: >A: 8E WORD +18 18\n"
        "The play scores 16, but 18 is written.\n"
        "WORD\n"
        "  8E W 4\n"
        "  8F O 1\n"
        "  8G R 1\n"
        "  8H D 2, double word\n"
        "  sum 8 x 2 = 16\n"
        "score of the play: 16\n",
    ),
    (3, 2, "WORD", ">A: DORWAAE 8E WORD +16 16\n", "bad line: no event is on it or after it\n"),
    (
        3,
        7,
        "AT",
        ">A: - +0\n",
        "bad record line 1: Fields\n"
        "line 1: >A: - +0\n"
        "There are 2 fields after the colon, but an event has 3 to 5.\n"
        "The score or the total is missing: an event ends with both.\n",
    ),
]

# Too many events: the line, and how often the record has it.
TOO_MANY = (
    ">A: (time) -5 0\n",
    1001,
    "bad record line 1001: TooManyEvents\n" "line 1001: >A: (time) -5 0\n" "This is event 1,001, and a record has 1,000 at most.\n",
)
FOURTEEN, SEVENTEEN = "AADEEINORRSTTW", "AADEEINOOOORRSTTW"


def rules_with(tiles, exchange_min):
    """The English rules with other tiles, as a text."""
    return text_of(replace(ENGLISH, tiles=Counter(tiles), exchange_min=exchange_min))


def explain(run, status, words, record, text, line=None, rules=None, begins=False):
    """One row: `explain` prints the text, and then at most the board and who is ahead by the right numbers; or it begins with the text."""
    folder, listed = Path(run.folder), words.split()
    (folder / "explain-list").write_text(words)
    (folder / "explain-list.gad").write_bytes(build(set(listed)))
    (folder / "explain-game").write_text(record)
    given = []
    if rules:
        (folder / "explain-rules").write_bytes(rules)
        given = ["--rules", "explain-rules"]
    asked = [] if line is None else [str(line)]
    told = [run.program, "explain", *given, "explain-list", "explain-list.gad", "explain-game", *asked]
    ran = subprocess.run(told, cwd=folder, capture_output=True, check=False, timeout=run.patience)
    said = ran.stdout.decode()
    rest = said.removeprefix(text)
    leads = lead_of(words.encode(), (folder / "explain-list.gad").read_bytes(), record.encode(), rules) if line is None else [b""]
    good = said.startswith(text) and (begins or not rest or rest.startswith("board before line ") or rest.encode() in leads)
    run.expect(f"explain of {record[:200]!r}, status {ran.returncode} for {status}:\n{said}", good and ran.returncode == status)


def explain_rows(run):
    """Runs the program through all rows."""
    for words, record, text in [*PLAYS, *SCORES, *TOTALS, *TURNS, *CHALLENGES, *RACKS]:
        explain(run, 1, words, record, text)
    for words, record, text in [*SLIPS, *NOWHERE, *ORDERS]:
        explain(run, 1, words, record, text, begins=True)
    for words, record, text in NOTES:
        explain(run, 0, words, record, text)
    for words, record, text in RECORDS:
        explain(run, 3, words, record, text)
    for words, record, text in LAST_RACKS:
        explain(run, 1, words, record, text, rules=rules_with(FOURTEEN, 7))
    for words, record, text in EXCHANGES:
        explain(run, 1, words, record, text, rules=rules_with(SEVENTEEN, 3))
    for status, line, words, record, text in ASKED:
        explain(run, status, words, record, text, line=line)
    line, times, text = TOO_MANY
    explain(run, 3, "WORD", line * times, text)
