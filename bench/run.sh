#!/bin/sh
# shellcheck disable=SC2016,SC2094 # a name in Markdown is not a command
# Measures the program together with `cat` and `sort`, on inputs that it makes, and prints the tables of docs/BENCH.md, in a few minutes:
#     sh bench/run.sh [PROGRAM [CROSSES]] > tables
# The program is crates/referee/out/referee, which `extra/prove.sh` leaves, and what measures cross-sets crates/tool_crosses/out/tool_crosses,
# unless others are named. Without the second there is no table of cross-sets. Standard error has each row as it is measured. If a command does
# not end with the status that it has to have, its row says so, and the status is 1.
set -eu
here=$(cd "$(dirname "$0")" && pwd)
program=$(realpath "${1:-$here/../crates/referee/out/referee}")
crosses=${2:-$here/../crates/tool_crosses/out/tool_crosses}
work=$(mktemp -d)
trap 'rm -rf "$work"' EXIT
export LC_ALL=C PYTHONDONTWRITEBYTECODE=1
begun=$(date +%s)
: > "$work/rows"

# Measures a row of the table: the best mean time of some batches of RUNS runs, and the peak memory of one run.
#     measure NAME STATUS ANCHOR LESS RUNS WHAT COMMAND...
# STATUS is the exit status that the command has to have, or `-` for a verdict, 0 to 2. ANCHOR is the name of the row that the time is
# divided by, or `-`. LESS is the name of a row with less input, and how many times as much this one has, as `half:2`, or `-`.
# The command reads $input as its standard input, and its output is thrown away.
batches=5
input=/dev/null
faults=0
measure() {
    name=$1 status=$2 anchor=$3 less=$4 runs=$5 what=$6
    shift 6
    ended=0
    /usr/bin/time -o "$work/time" -f '%M' "$@" < "$input" > /dev/null 2> "$work/said" || ended=$?
    if [ "$ended" != "$status" ] && { [ "$status" != - ] || [ "$ended" -gt 2 ]; }; then
        echo "run.sh: status $ended, and not $status, of $*: $(head -n 1 "$work/said")" >&2
        what="$what (ended with $ended)" faults=$((faults + 1))
    fi
    best=
    for _ in $(seq "$batches"); do
        start=$(date +%s%N)
        for _ in $(seq "$runs"); do "$@" < "$input" > /dev/null 2> /dev/null || true; done
        end=$(date +%s%N)
        mean=$(((end - start) / runs))
        if [ -z "$best" ] || [ "$mean" -lt "$best" ]; then best=$mean; fi
    done
    printf '%s\t%s\t%s\t%s\t%s\t%s\n' "$name" "$anchor" "$less" "$best" "$(tail -n 1 "$work/time")" "$what" >> "$work/rows"
    echo "$what: $((best / 1000)) us" >&2
}

# ---- Records: a list without words and its lexicon, so that nothing but the record counts.

: > "$work/empty"
"$program" build "$work/empty" "$work/none"

# A record of so many events: plays of WORD, each taken back at once. The last total of a wrong one is 1 and not 0.
record() {
    awk -v events="$1" -v last="${2:-0}" 'BEGIN {
        for (i = 0; i < events; i += 2) {
            player = (i % 4) ? "B" : "A"
            printf ">%s: 8E WORD +16 16\n>%s: -- -16 %d\n", player, player, (i + 2 < events) ? 0 : last
        }
    }'
}
# 1,000 turns with full racks: an exchange, whose text is given for either player, or a pass.
turns() {
    awk -v first="$1" -v second="$2" 'BEGIN {
        for (i = 0; i < 1000; i++) printf ">%s: %s -%s +0 0\n", (i % 2) ? "B" : "A", (i % 2) ? "DGLOTUW" : "AEINRST", (i % 2) ? second : first
    }'
}
record 500 > "$work/right-500"
record 1000 > "$work/right-1000"
record 500 1 > "$work/wrong-500"
record 1000 1 > "$work/wrong-1000"
# The same without their numbers, as drafts.
for events in 500 1000; do sed 's/ [^ ]* [^ ]*$//' "$work/right-$events" > "$work/draft-$events"; done
turns 7 7 > "$work/numbers"
turns AEI DGL > "$work/tiles"
turns '' '' > "$work/passes"
# The 1,000 events in 1 MiB, between lines that are read over.
awk '{ print; for (i = 0; i < 1031; i++) printf "x"; print "" }' "$work/right-1000" > "$work/long"
head -c $((1048576 - $(wc -c < "$work/long"))) /dev/zero | tr '\0' y >> "$work/long"

measure cat 0 - - 50 '`cat` of a record of 1 MiB' cat "$work/long"
measure start 0 cat - 50 '`tidy` of an empty record: the start of the program' "$program" tidy "$work/empty"
measure tidy 0 cat - 50 '`tidy` of the record of 1 MiB, which has 1,000 events' "$program" tidy "$work/long"
# A command, with the status that it has to have, the number of runs, and a record of 500 and of 1,000 events, with a word about them.
both() {
    command=$1 ends=$2 runs=$3 which=$4 kind=$5
    shift 5
    measure "$command-500" "$ends" cat - "$runs" "\`$command\` of 500 events$kind" \
        "$program" "$command" "$work/empty" "$work/none" "$work/$which-500" "$@"
    measure "$command-1000" "$ends" cat "$command-500:2" "$runs" "\`$command\` of 1,000 events$kind" \
        "$program" "$command" "$work/empty" "$work/none" "$work/$which-1000" "$@"
}
both judge 0 20 right ''
both audit 1 20 wrong ', the last total wrong'
both fill 0 20 draft ', all numbers missing' "$work/filled.gcg"
both page 0 20 right '' "$work/page.html"
batches=3
both explain 1 1 wrong ', the last total wrong'
batches=5
measure numbers - cat - 20 '`judge` of 1,000 exchanges that state the number of tiles, with full racks' \
    "$program" judge "$work/empty" "$work/none" "$work/numbers"
measure tiles - cat - 20 '`judge` of 1,000 exchanges that state the tiles, with full racks' \
    "$program" judge "$work/empty" "$work/none" "$work/tiles"
measure passes - cat - 20 '`judge` of 1,000 passes with full racks' "$program" judge "$work/empty" "$work/none" "$work/passes"

# Games that were dealt for real. The first that `judge` calls unsettled is settled.
mkdir "$work/games"
python3 "$here/dealt.py" "$work/games"
"$program" build "$work/games/words" "$work/games/lexicon"
"$program" build "$work/games/crowded.words" "$work/games/crowded"
unsettled=
while read -r game && [ -z "$unsettled" ]; do
    ended=0
    "$program" judge "$work/games/words" "$work/games/lexicon" "$game" > /dev/null 2> /dev/null || ended=$?
    if [ "$ended" = 2 ]; then unsettled=$game; fi
done < "$work/games/names"
measure unsettled 2 cat - 20 '`judge` of a game of 25 events that it calls unsettled' \
    "$program" judge "$work/games/words" "$work/games/lexicon" "$unsettled"
measure settled 0 cat - 20 '`judge --settle` of that game, which it calls legal' \
    "$program" judge --settle "$work/games/words" "$work/games/lexicon" "$unsettled"
measure crowded 0 cat - 5 '`judge --settle` of 1,000 events with a set of 200 tiles, nine in ten of them exchanges' \
    "$program" judge --settle --rules "$work/games/crowded.rules" "$work/games/crowded.words" "$work/games/crowded" "$work/games/crowded.gcg"
sed 's/ D12 CRT / D13 CRT /' "$work/games/crowded.gcg" > "$work/games/crowded.slip"
batches=1
measure repair-crowded 1 cat - 1 '`repair` of that record with its last play one square off' \
    "$program" repair --rules "$work/games/crowded.rules" "$work/games/crowded.words" "$work/games/crowded" "$work/games/crowded.slip"

# ---- Word lists: an empty file is not a lexicon, so nothing but the list counts.

batches=3
awk -f "$here/inputs.awk" > "$work/random"
sort "$work/random" > "$work/sorted"
measure sort-u 0 - - 3 '`sort -u` of 400,000 words in no order, 4.1 MB' sort -u --parallel=1 "$work/random"
measure list 3 sort-u - 3 '`judge` with these words, and a file that is not a lexicon' "$program" judge "$work/random" "$work/empty" "$work/empty"
measure sort-u-sorted 0 - - 3 '`sort -u` of the same words in order' sort -u --parallel=1 "$work/sorted"
measure list-sorted 3 sort-u-sorted - 3 '`judge` with these words, and a file that is not a lexicon' \
    "$program" judge "$work/sorted" "$work/empty" "$work/empty"

# ---- Lexicons: of 400,000 words that are built as those of a language are, in both formats.

awk -f "$here/dictionary.awk" > "$work/words"
awk -f "$here/paths.awk" "$work/words" > "$work/paths"
measure sort 0 - - 1 "\`sort\` of the rotated paths of 400,000 words like those of a language" sort --parallel=1 "$work/paths"
head -n 100000 "$work/words" > "$work/words-100"
head -n 200000 "$work/words" > "$work/words-200"
"$program" build "$work/words-100" "$work/lexicon-100"
measure build-200 0 - - 1 '`build` of the first 200,000 of these words' "$program" build "$work/words-200" "$work/lexicon-200"
measure build-400 0 sort build-200:2 1 '`build` of all' "$program" build "$work/words" "$work/lexicon"
measure check-100 0 - - 1 '`check` of the lexicon of 100,000 of these words' "$program" check "$work/words-100" "$work/lexicon-100"
measure check-200 0 - check-100:2 1 '`check` of that of 200,000' "$program" check "$work/words-200" "$work/lexicon-200"
measure check-400 0 sort check-200:2 1 '`check` of that of all' "$program" check "$work/words" "$work/lexicon"
measure gad2 0 sort - 1 '`convert` of it into GAD2' "$program" convert gad2 "$work/lexicon" "$work/nodes"
measure gad1 0 sort - 1 '`convert` of that into GAD1' "$program" convert gad1 "$work/nodes" "$work/arcs"
cmp "$work/arcs" "$work/lexicon"
measure check-gad2 0 sort - 1 '`check` of the lexicon in GAD2' "$program" check "$work/words" "$work/nodes"

# Of words of random letters, which have next to nothing in common.
batches=1
awk -f "$here/paths.awk" "$work/random" > "$work/random-paths"
measure sort-random 0 - - 1 '`sort` of the rotated paths of 400,000 words of random letters' sort --parallel=1 "$work/random-paths"
measure build-random 0 sort-random - 1 '`build` of these words' "$program" build "$work/random" "$work/random-lexicon"
batches=3
measure check-random 0 sort-random - 1 '`check` of their lexicon' "$program" check "$work/random" "$work/random-lexicon"

# ---- Games by a whole list: words like those of a language, with those of the example game among them.

game=$here/../examples/game.gcg
{ cat "$here/../examples/words.txt"; awk 'NR % 150' "$work/words"; } | sort -u > "$work/merged"
"$program" build "$work/merged" "$work/merged-lexicon"
head -n 24 "$game" > "$work/half"
sed 's/10F NOD/10F NOB/' "$game" > "$work/slip"
set -- "$work/merged" "$work/merged-lexicon"
measure check 0 sort - 1 '`check` of about 399,000 words, those of the example game among them' "$program" check "$@"
measure game 0 check - 1 '`judge` of the example game by these: 45 events, 41 best plays' "$program" judge "$@" "$game"
measure explain-slip 1 check - 1 '`explain` of that game with one letter wrong' "$program" explain "$@" "$work/slip"
measure repair-slip 1 check - 1 '`repair` of the same' "$program" repair "$@" "$work/slip"
measure top 0 check - 1 '`top` of AEINRST in the middle of that game' "$program" top "$@" "$work/half" AEINRST
measure top-1 0 check - 1 '`top` of AEINRS? there' "$program" top "$@" "$work/half" 'AEINRS?'
measure top-2 0 check - 1 '`top` of AEINR?? there' "$program" top "$@" "$work/half" 'AEINR??'
measure archive-500 - check - 1 '`archive` of 500 games of 25 events, without best plays' "$program" archive --quiet --names "$work/games/half" "$@"
measure archive-1000 - check archive-500:2 1 '`archive` of 1,000 games' "$program" archive --quiet --names "$work/games/names" "$@"
measure archive-10000 - check archive-1000:10 1 '`archive` of 10,000 games' "$program" archive --quiet --names "$work/games/ten" "$@"
# Requests for the example game.
requests() {
    awk -v number="$1" -v best="$2" '{ gsub(/"/, "\\\""); text = text $0 "\\n" }
        END { for (i = 1; i <= number; i++) printf "{\"id\": %d, \"do\": \"judge\", \"best\": %s, \"game\": \"%s\"}\n", i, best, text }' "$game"
}
batches=1
for number in 500 1000; do
    requests "$number" true > "$work/best-$number"
    requests "$number" false > "$work/plain-$number"
done
requests 10000 true > "$work/best-10000"
requests 10000 false > "$work/plain-10000"
input=$work/best-500
measure best-500 0 check - 1 '`serve`, 500 requests to judge the example game' "$program" serve "$@"
input=$work/best-1000
measure best-1000 0 check best-500:2 1 '`serve`, 1,000 such requests' "$program" serve "$@"
input=$work/best-10000
measure best-10000 0 check best-1000:10 1 '`serve`, 10,000 such requests' "$program" serve "$@"
batches=3
input=$work/plain-500
measure plain-500 0 check - 1 '`serve`, 500 requests to judge it without best plays' "$program" serve "$@"
input=$work/plain-1000
measure plain-1000 0 check plain-500:2 1 '`serve`, 1,000 such requests' "$program" serve "$@"
input=$work/plain-10000
measure plain-10000 0 check plain-1000:10 1 '`serve`, 10,000 such requests' "$program" serve "$@"

# ---- The tables, in Markdown.

if [ -x "$crosses" ] && ! "$crosses" "$work/merged-lexicon" "$game" > "$work/crosses"; then faults=$((faults + 1)); fi
machine=$(awk -F ': ' '/^model name/ { print $2; exit }' /proc/cpuinfo)
echo "$("$program" -V), on $(date -u +%F), on a machine with $(nproc) processors (${machine:-$(uname -m)}), in a run of $(($(date +%s) - begun)) s:"
echo
awk -F '\t' '
    function number(x) { return x < 10 ? sprintf("%.2f", x) : x < 100 ? sprintf("%.1f", x) : sprintf("%.0f", x) }
    BEGIN {
        print "| what | time | memory | times its anchor | with more input |\n|---|---|---|---|---|"
        shown["sort-u-sorted"] = "sort -u"; shown["sort-u"] = "sort -u"; shown["sort-random"] = "sort"
    }
    {
        time[$1] = $4
        took = $4 < 1e9 ? number($4 / 1e6) " ms" : number($4 / 1e9) " s"
        beside = $2 == "-" ? "" : number($4 / time[$2]) " `" ($2 in shown ? shown[$2] : $2) "`"
        grown = ""
        if (split($3, less, ":") == 2) grown = number($4 / time[less[1]]) " for " less[2] " times as much"
        printf "| %s | %s | %s MB | %s | %s |\n", $6, took, number($5 * 1024 / 1e6), beside, grown
    }' "$work/rows"
size() {
    wc -c < "$1" | awk '{ printf "%.1f MB", $1 / 1e6 }'
}
echo
echo "The lexicon of the 400,000 words like those of a language has $(size "$work/lexicon"), and $(size "$work/nodes") in GAD2;" \
    "that of the words of random letters has $(size "$work/random-lexicon")."
if [ -s "$work/crosses" ]; then
    echo
    awk -F ': ' '
        BEGIN { print "| tiles | made afresh | brought up once for the play | tile by tile | once, of afresh |\n|---|---|---|---|---|" }
        { gsub(/ ns.*/, "", $2) }
        $1 == "tiles" { tiles = $2 }
        $1 == "scratch" { afresh = $2 }
        $1 == "after_play" { once = $2; plays++; all += afresh; ups += once }
        $1 == "after_put of each" {
            printf "| %d | %.1f µs | %.1f µs | %.1f µs | %.2f |\n", tiles, afresh / 1e3, once / 1e3, $2 / 1e3, once / afresh
            plays = all = ups = 0
        }
        END { if (plays) printf "| the %d plays of the example game, in the mean | %.1f µs | %.1f µs | | %.2f |\n", plays, all / plays / 1e3, ups / plays / 1e3, ups / all }
    ' "$work/crosses"
fi
[ "$faults" = 0 ]
