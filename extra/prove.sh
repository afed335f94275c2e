#!/usr/bin/env bash
# Proves the program and leaves it as crates/referee/out/referee: extra/prove.sh [PROCESSORS [CRATE]]
#
# It copies the program's crates, without the edits that must fail, and has `rt ci` prove the copy: PROCESSORS crates at a time, or as many as
# there are processors, each after those that it depends on, and prints a line for each that is proved, with about how long the others take: by the
# table of bench/gate.md and the time that the crates before took here. The gate, `.ci/run`, runs the tests and tries the edits. If the script is stopped, as
# by Ctrl-C, start it again: if `rt ci` keeps what it proved (docs/GATE.md), it goes on from there. If a crate is not proved, the script prints
# what the prover said about it, and the status is 1. With CRATE only that crate is proved, and those that it depends on: `engine` has the theorem.
set -u
cd "$(dirname "$0")/.." || exit 2
root=$PWD
processors=${1:-$(nproc)}
top=${2:-referee}
if [ $# -gt 2 ] || ! [[ $processors =~ ^[1-9][0-9]*$ ]] || ! [ -d "crates/$top" ]; then
    echo "usage: extra/prove.sh [PROCESSORS [CRATE]]" >&2
    exit 64
fi
extra/rt version > /dev/null || exit 2

# shellcheck source=extra/crates.sh
. extra/crates.sh
want "$top"
room=$(mktemp -d) || exit 2
trap 'rm -rf "$room"' EXIT
trap 'echo "extra/prove.sh: stopped after $((SECONDS / 60)) min. Start it again to go on: crates that are proved are not proved again, if rt keeps them." >&2; exit 130' INT TERM
copy_wanted "$room/copy"

# What each crate took when the table was made, in seconds of processor time, and about a minute for one that is not there.
declare -A takes=()
# shellcheck disable=SC2016 # the backquotes are those of the table
while read -r name seconds; do
    takes[$name]=$seconds
done < <(sed -nE 's/^\| `([a-z_]+)` \| ([0-9]+) \|.*/\1 \2/p' bench/gate.md)
all=0
for name in "${!wanted[@]}"; do
    all=$((all + ${takes[$name]:=60}))
done
echo "${#wanted[@]} crates are to be proved, $processors at a time"
# Prints a line for each crate that is proved, and keeps everything that was said.
show() {
    local line done=0 kept=0 spent=0 left
    while IFS= read -r line; do
        echo "$line" >> "$room/said"
        [[ $line =~ ^rt:\ ([a-z_]+)\ (proved|is\ kept) ]] || continue
        done=$((done + 1))
        if [ "${BASH_REMATCH[2]}" = proved ]; then
            spent=$((spent + ${takes[${BASH_REMATCH[1]}]:-0}))
        else
            kept=$((kept + ${takes[${BASH_REMATCH[1]}]:-0}))
        fi
        # The first crates are too small to tell how fast this machine is.
        left=''
        [ "$spent" -lt 600 ] || left=", about $((SECONDS * (all - kept - spent) / spent / 60)) min left"
        echo "${BASH_REMATCH[1]} ${BASH_REMATCH[2]}, $done of ${#wanted[@]}, after $((SECONDS / 60)) min$left"
        [ "${BASH_REMATCH[1]}" != engine ] || echo "the theorem of \`judge\` is proved: the contract of \`run\`, the call that the program makes"
    done
}
(cd "$room/copy" && RT_JOBS=$processors exec "$root/extra/rt" ci) 2>&1 | show
if [ "${PIPESTATUS[0]}" != 0 ]; then
    echo "extra/prove.sh: not everything is proved. The last messages of the prover:" >&2
    grep -vE '^statements |: proved|modules loaded|^rt: .* (proved|is kept)|^empty contracts' "$room/said" | tail -n 60 >&2
    exit 1
fi
if [ "$top" = referee ]; then
    mkdir -p crates/referee/out
    cp "$room/copy/crates/referee/out/referee" crates/referee/out/referee || exit 1
    echo "crates/referee/out/referee is proved and built, after $((SECONDS / 60)) min"
fi
echo "left out: the tests (extra/test.sh), the edits that must fail, and the second judge, all of which the gate tries (.ci/run)"
