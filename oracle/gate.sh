#!/usr/bin/env bash
# Compares the program with the second judge: oracle/gate.sh [PROGRAM [TESTS [PROBE [CHANGES]]]]
#
# PROGRAM is crates/referee/out/referee, TESTS is crates/test_hostile/out/test_hostile_tests, PROBE, which shows what settles a record,
# is crates/tool_settle/out/tool_settle, and CHANGES, which shows the single changes of a record, is crates/tool_changes/out/tool_changes,
# all as `rt ci` leaves them, unless others are named. Each part is stopped after twenty minutes, and has failed then; if a part fails, the end of what
# it said follows its line. Beside other work all parts took half an hour. Random inputs are drawn from the date, so that each day tries others; with
# SEED=20270131 in front they are those of that day.
# The last line is 'N passed, M failed', and the exit status is 0 if nothing failed.
set -u
cd "$(dirname "$0")/.." || exit 2
program=$(realpath -m "${1:-crates/referee/out/referee}")
tests=$(realpath -m "${2:-crates/test_hostile/out/test_hostile_tests}")
probe=$(realpath -m "${3:-crates/tool_settle/out/tool_settle}")
changes=$(realpath -m "${4:-crates/tool_changes/out/tool_changes}")
seed=${SEED:-$(date -u +%Y%m%d)}
said=$(mktemp)
trap 'rm -f "$said"' EXIT
export PYTHONDONTWRITEBYTECODE=1
passed=0
failed=0

# Runs a script of oracle/run, given with its arguments, as one part.
part() {
    local start=$SECONDS status=0
    timeout -k 10 1200 oracle/run "$@" > "$said" 2>&1 < /dev/null || status=$?
    if [ "$status" = 0 ]; then
        passed=$((passed + 1))
        echo "passed in $((SECONDS - start)) s: $*"
        tail -n 2 "$said"
    else
        failed=$((failed + 1))
        echo "FAILED in $((SECONDS - start)) s with status $status: $*"
        tail -n 40 "$said"
    fi
}

part edits crates
part sums .
if [ -x "$program" ]; then
    for script in program manual pages sentences releases; do
        part "$script" "$program"
    done
    while read -r script cases; do
        part "$script" "$program" "$cases" "$seed"
    done <<'END'
compare_records 1000
compare_games 200
compare_deals 40
compare_lexicons 100
flip_lexicons 2000
compare_tops 50
compare_rules 20
compare_archive 60
archive_faults 300
archive_scripts 30
compare_audits 30
compare_drafts 60
compare_objects 30
compare_explains 60
compare_repairs 3
compare_sheets 12
compare_pages 40
compare_annotations 40
compare_serve 20
fuzz_serve 5000
client 60
fuzz 60
END
else
    failed=$((failed + 1))
    echo "FAILED: there is no program $program"
fi
if [ -x "$probe" ]; then
    part compare_settlings "$probe" 5 "$seed"
else
    failed=$((failed + 1))
    echo "FAILED: there is no program $probe"
fi
if [ -x "$changes" ]; then
    part compare_changes "$changes" 30 "$seed"
else
    failed=$((failed + 1))
    echo "FAILED: there is no program $changes"
fi
while read -r script cases; do
    part "$script" "$cases" "$seed"
done <<'END'
try_best 10
try_deals 10
try_lexicons 200
try_rules 100
repair_rows 20
END
if command -v cc > /dev/null; then
    [ ! -x "$program" ] || part whole_files "$program" 200 "$seed"
    [ ! -x "$program" ] || part refuse_memory - "$program"
    [ ! -x "$tests" ] || part refuse_memory "$tests"
else
    echo "left out: whole files and refused memory, which need a C compiler"
fi
echo "$passed passed, $failed failed"
[ "$failed" = 0 ]
