#!/usr/bin/env bash
# Runs the tests on the sources as they are, without any proof, in a few minutes: extra/test.sh [PROCESSORS [CRATE..]]
#
# Each crate with tests is compiled and run by itself, on all processors or on so many at once. Each has a line when its tests have run; what was
# said of a crate whose tests failed follows its line. The last line is 'N passed, M failed', and the status is 0 if nothing failed.
set -u
cd "$(dirname "$0")/.." || exit 2
processors=${1:-$(nproc)}
shift
crates=("$@")
if [ ${#crates[@]} = 0 ]; then
    # The largest first, so that none is left running by itself for long.
    mapfile -t crates < <(grep -lrF '#[test]' crates/*/src | cut -d / -f 2 | sort -u | xargs -I @ du -s crates/@/src | sort -rn | cut -d / -f 2)
fi
for crate in "${crates[@]}"; do
    if ! [[ $processors =~ ^[1-9][0-9]*$ ]] || ! grep -qrF '#[test]' "crates/$crate/src"; then
        echo "usage: extra/test.sh [PROCESSORS [CRATE..]], where each CRATE has tests" >&2
        exit 64
    fi
done
extra/rt version > /dev/null || exit 2
room=$(mktemp -d) || exit 2
trap 'rm -rf "$room"' EXIT

# Runs the tests of a crate, and keeps how many passed and failed. A crate that does not come to a result has failed.
run_tests() {
    local start=$SECONDS said=$2/$1.said counts
    (cd "crates/$1" && rt try --test --seconds 600) > "$said" 2>&1 < /dev/null
    counts=$(sed -nE 's/^test result: .* ([0-9]+) passed; ([0-9]+) failed;.*/\1 \2/p' "$said")
    if ! [[ $counts =~ \ [1-9] ]] && ! { [[ $counts == *" 0" ]] && grep -q '^run=ended status=0 ' "$said"; }; then
        counts="0 1"
    fi
    echo "$counts" > "$2/$1.counts"
    echo "$1: ${counts/ / passed, } failed, in $((SECONDS - start)) s"
    [[ $counts == *" 0" ]] || tail -n 40 "$said"
}
export -f run_tests
# shellcheck disable=SC2016 # the inner bash expands it
printf '%s\n' "${crates[@]}" | xargs -P "$processors" -I @ bash -c 'run_tests @ "$0"' "$room"
echo "nothing was proved"
cat "$room"/*.counts | awk -v crates=${#crates[@]} '{ passed += $1; failed += $2 } END { failed += crates - NR; print passed " passed, " failed " failed"; exit failed > 0 }'
