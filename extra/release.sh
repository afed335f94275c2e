#!/usr/bin/env bash
# Packs a release: extra/release.sh FOLDER [PROGRAM [GATE EDITS]]
#
# Writes to FOLDER, with SHA256SUMS, which has the sums of these files:
#   referee-VERSION.tar.gz        the program, its manual page, the completions for bash, zsh and fish, the client in Python, the table, README and what it links
#                                 to, PROOF-RUN.txt, which says how the program was proved, and a SHA256SUMS of its own
#   referee_VERSION_amd64.deb     the same as a package for Debian (extra/package.sh)
#   referee_VERSION_amd64.debug   the symbols of the program in the package
# Without PROGRAM the program is first proved and built from nothing by the toolchain's own `rt ci --anew`: it starts no extra/rt and takes no proof that an
# earlier run kept. It also tries the edits that the gate tries, and extra/edits.sh tries the others. That takes some hours. PROGRAM is a program that was
# proved already, as the gate leaves it in crates/referee/out/referee; GATE and EDITS are files with what the gate and extra/edits.sh printed then.
# The gate also tries the package (extra/try_package.sh).
set -eu
case $# in
    1 | 2 | 4) ;;
    *)
        echo "usage: extra/release.sh FOLDER [PROGRAM [GATE EDITS]]" >&2
        exit 64
        ;;
esac
mkdir -p "$1"
folder=$(realpath "$1")
room=$(mktemp -d)
trap 'rm -rf "$room"' EXIT
gate=- edits=-
[ $# = 1 ] || program=$(realpath "$2")
[ $# != 4 ] || gate=$(realpath "$3") edits=$(realpath "$4")
cd "$(dirname "$0")/.."
if [ $# = 1 ]; then
    gate=$room/gate edits=$room/edits
    rt ci --anew 2>&1 | tee "$gate" >&2
    [ "${PIPESTATUS[0]}" = 0 ] || exit 1
    extra/edits.sh 2>&1 | tee "$edits" >&2
    [ "${PIPESTATUS[0]}" = 0 ] || exit 1
    program=$PWD/crates/referee/out/referee
fi
version=$("$program" -V | cut -d ' ' -f 2)
if ! grep -q "^## $version\$" CHANGELOG.md; then
    echo "CHANGELOG.md does not have the version $version" >&2
    exit 1
fi
extra/proof_run.sh "$program" "$gate" "$edits" > "$room/PROOF-RUN.txt"

name=referee-$version
mkdir "$room/$name"
cp "$program" "$room/$name/referee"
cp -r README.md CHANGELOG.md docs examples extra/referee.1 extra/referee.bash extra/_referee extra/referee.fish python web "$room/PROOF-RUN.txt" "$room/$name"
find "$room/$name" -name __pycache__ -prune -exec rm -r {} +
(cd "$room/$name" && find . -type f -printf '%P\n' | LC_ALL=C sort | xargs sha256sum > "$room/sums" && mv "$room/sums" SHA256SUMS)
# The same files make the same archive.
tar -C "$room" --sort=name --mtime=@0 --owner=0 --group=0 --numeric-owner --mode=u=rwX,go=rX -cf - "$name" | gzip -n > "$folder/$name.tar.gz"
extra/package.sh "$folder" "$program" "$room/PROOF-RUN.txt" > /dev/null
(cd "$folder" && sha256sum "$name.tar.gz" "referee_${version}_amd64.deb" "referee_${version}_amd64.debug" > "$room/sums" && mv "$room/sums" SHA256SUMS)
ls "$folder"/*"$version"* "$folder/SHA256SUMS"
