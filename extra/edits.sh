#!/usr/bin/env bash
# Tries the edits that the gate leaves out: extra/edits.sh [PROCESSORS [CRATE..]]
#
# Each file crates/NAME/more-must-fail/*.edit makes the code of a crate wrong, and the prover must refuse it, as it must refuse those of
# must-fail/, which the gate tries. This script copies the crates that are named, or all that have such edits, and those that they depend on,
# and has `rt ci` prove the copy and try the edits, PROCESSORS at a time, or as many as there are processors. It prints what came of each edit;
# the last line is 'N of M edits refused', and the status is 0 if all were. If `rt ci` keeps what it proved (docs/GATE.md), run it after the gate.
set -u
cd "$(dirname "$0")/.." || exit 2
root=$PWD
processors=${1:-$(nproc)}
shift
tops=("$@")
if [ ${#tops[@]} = 0 ]; then
    for folder in crates/*/more-must-fail; do
        tops+=("$(basename "$(dirname "$folder")")")
    done
fi
for top in "${tops[@]}"; do
    if ! [[ $processors =~ ^[1-9][0-9]*$ ]] || ! [ -d "crates/$top/more-must-fail" ]; then
        echo "usage: extra/edits.sh [PROCESSORS [CRATE..]], where each CRATE has a folder more-must-fail" >&2
        exit 64
    fi
done
extra/rt version > /dev/null || exit 2

# shellcheck source=extra/crates.sh
. extra/crates.sh
room=$(mktemp -d) || exit 2
trap 'rm -rf "$room"' EXIT
for top in "${tops[@]}"; do
    want "$top"
done
copy_wanted "$room/copy"
for top in "${tops[@]}"; do
    cp -r "crates/$top/more-must-fail" "$room/copy/crates/$top/must-fail"
done
edits=$(find "$room/copy" -name '*.edit' | wc -l)
echo "$edits edits are to be tried, $processors at a time, once ${#wanted[@]} crates are proved"
(cd "$room/copy" && RT_JOBS=$processors exec "$root/extra/rt" ci) > "$room/said" 2>&1
status=$?
grep -E '^rt: must-fail ' "$room/said"
refused=$(grep -cE '^rt: must-fail [^:]*: refused' "$room/said")
if [ "$status" != 0 ] || [ "$refused" != "$edits" ]; then
    tail -n 20 "$room/said" >&2
    echo "$refused of $edits edits refused"
    exit 1
fi
echo "$refused of $edits edits refused"
