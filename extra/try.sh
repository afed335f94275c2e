#!/usr/bin/env bash
# Judges a game with the program as its sources are, without any proof, in one to two minutes: extra/try.sh GAME [WORDS LEXICON]
#
# WORDS and LEXICON are those of examples/ unless others are named. Nothing is kept, and the last line says that nothing was proved.
set -eu
if [ $# != 1 ] && [ $# != 3 ]; then
    echo "usage: extra/try.sh GAME [WORDS LEXICON]" >&2
    exit 64
fi
root=$(cd "$(dirname "$0")/.." && pwd)
game=$(realpath "$1")
words=$(realpath "${2:-$root/examples/words.txt}")
lexicon=$(realpath "${3:-$root/examples/words.gad}")
cd "$root/crates/referee"
exec rt try --data words.txt="$words" --data words.gad="$lexicon" --data game.gcg="$game" -- judge --settle words.txt words.gad game.gcg
