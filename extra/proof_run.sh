#!/usr/bin/env bash
# Says how a program was proved: extra/proof_run.sh PROGRAM GATE EDITS
#
# Prints PROOF-RUN.txt of a release: the commit, the toolchain, the machine and the date, the last lines of what the gate and extra/edits.sh printed, which are
# the files GATE and EDITS, or - if they were not run, the sums of the program and of the sources of each crate, and how to do it again.
set -eu
if [ $# != 3 ]; then
    echo "usage: extra/proof_run.sh PROGRAM GATE EDITS" >&2
    exit 64
fi
program=$(realpath "$1")
gate=$2
edits=$3
[ "$gate" = - ] || gate=$(realpath "$gate")
[ "$edits" = - ] || edits=$(realpath "$edits")
cd "$(dirname "$0")/.."
commit=$(git rev-parse HEAD 2> /dev/null || echo "not known, since these files are no clone")
[ -z "$(git status --porcelain --untracked-files=no 2> /dev/null)" ] || commit="$commit, with changes that are not committed"

# The last lines of what a run printed.
ending() {
    local file=$1 name=$2
    echo
    if [ "$file" = - ]; then
        echo "$name was not run when this was written."
    else
        echo "The last lines of $name:"
        echo
        tail -n 6 "$file" | sed 's/^/    /'
    fi
}

# The sum of the files of a folder that git knows: of their names and sums, in the order of their names.
sum_of() {
    (cd "$1" && { git ls-files -z . 2> /dev/null || find . -type f ! -path './out/*' -printf '%P\0'; } | LC_ALL=C sort -z | xargs -0 sha256sum | sha256sum | cut -d ' ' -f 1)
}

cat << END
How the program of this release was proved

    version     $("$program" -V | cut -d ' ' -f 2)
    commit      $commit
    toolchain   $(rt version)
    machine     $(uname -sr), $(nproc) processors, $(sed -n 's/^model name\s*: //p' /proc/cpuinfo | head -n 1), $(awk '/^MemTotal/ { print int($2 / 1048576) }' /proc/meminfo) GiB of memory
    date        $(date -u +%Y-%m-%d)
    program     $(sha256sum < "$program" | cut -d ' ' -f 1), $(stat -c %s "$program") bytes
END
ending "$gate" "the proof, rt ci --anew"
ending "$edits" "extra/edits.sh, which tries the edits that the gate leaves out"
cat << 'END'

To do it again, check out the commit, and run

    extra/release.sh FOLDER

with the toolchain above. The program depends on the sources and on the toolchain, and on nothing else of the machine: no time, no path and no name
goes into it, so that the sum above comes out again. The archive and the package have the time of the commit, the owner 0 and sorted names, so that they are the same
bytes too if this file is the same. It names the machine and the day, so another run writes another one.

The sources of each crate have these sums. In the folder of a crate, this makes its sum:

    git ls-files -z . | LC_ALL=C sort -z | xargs -0 sha256sum | sha256sum

END
for folder in crates/*/; do
    echo "    $(sum_of "$folder")  $(basename "$folder")"
done
