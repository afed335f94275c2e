#!/usr/bin/env bash
# Packs the Debian package: extra/package.sh FOLDER PROGRAM [PROOF-RUN [VERSION]]
#
# Writes FOLDER/referee_VERSION_amd64.deb, with the program, its manual page, the completions for bash, zsh and fish, the client in Python, the table with a
# unit for systemd, and the pages that users read; and FOLDER/referee_VERSION_amd64.debug, which has the symbols of the program, for a debugger.
# PROGRAM is the program that was proved, as the gate leaves it in crates/referee/out/referee; PROOF-RUN is the file that says how, as
# extra/release.sh writes it, or - for none. VERSION is that of PROGRAM unless it is named. It needs dpkg-deb and binutils, and no network.
# One commit and one program give the same bytes each time: the times of all files are that of the commit.
set -eu
if [ $# -lt 2 ] || [ $# -gt 4 ]; then
    echo "usage: extra/package.sh FOLDER PROGRAM [PROOF-RUN [VERSION]]" >&2
    exit 64
fi
mkdir -p "$1"
folder=$(realpath "$1")
program=$(realpath "$2")
proof_run=${3:--}
[ "$proof_run" = - ] || proof_run=$(realpath "$proof_run")
cd "$(dirname "$0")/.."
version=${4:-$("$program" -V | cut -d ' ' -f 2)}
SOURCE_DATE_EPOCH=$(git log -1 --format=%ct 2> /dev/null || stat -c %Y CHANGELOG.md)
export SOURCE_DATE_EPOCH
umask 022
room=$(mktemp -d)
trap 'rm -rf "$room"' EXIT
to=$room/package
name=referee_${version}_amd64

# Copies files to a folder of the package, with the mode that they need.
put() {
    local mode=$1 place=$to/$2
    shift 2
    mkdir -p "$place"
    install -m "$mode" "$@" "$place"
}

# The program, without its symbols.
mkdir -p "$to/usr/bin"
install -m 755 "$program" "$to/usr/bin/referee"
objcopy --only-keep-debug "$to/usr/bin/referee" "$room/$name.debug"
strip --strip-all "$to/usr/bin/referee"
put 644 usr/share/man/man1 extra/referee.1 extra/package/referee-table.1
gzip -9n "$to"/usr/share/man/man1/*
put 644 usr/share/zsh/vendor-completions extra/_referee
put 644 usr/share/fish/vendor_completions.d extra/referee.fish
mkdir -p "$to/usr/share/bash-completion/completions"
install -m 644 extra/referee.bash "$to/usr/share/bash-completion/completions/referee"

# The client, and the table with its unit.
put 644 usr/lib/python3/dist-packages/referee python/referee/*
put 644 usr/share/referee-table web/gunicorn.conf.py web/place.py
put 755 usr/share/referee-table web/start.sh
(cd web && find table -type f ! -path '*/__pycache__/*' -exec install -D -m 644 {} "$to/usr/share/referee-table/{}" \;)
ln -s ../share/referee-table/start.sh "$to/usr/bin/referee-table"
put 644 usr/lib/systemd/system extra/package/referee-table.service
mkdir -p "$to/etc/default"
install -m 644 extra/package/referee-table.default "$to/etc/default/referee-table"

# The pages that users read. What only developers of the program need stays in the repository.
put 644 usr/share/doc/referee README.md extra/package/copyright
put 644 usr/share/doc/referee/docs docs/*.png docs/*.svg docs/{ARCHIVE,BENCH,CLUB,DEFINITIONS,DIRECTOR,EXAMPLES,FAULTS,LEXICON,PLAYER,PROGRAM,PROOF,RULES}.md
put 644 usr/share/doc/referee/examples examples/*.*
gzip -9nc CHANGELOG.md > "$to/usr/share/doc/referee/CHANGELOG.md.gz"
printf 'referee (%s) unstable; urgency=medium\n\n  * CHANGELOG.md has what changed.\n\n -- %s  %s\n' "$version" \
    "$(sed -n 's/^Maintainer: //p' extra/package/control)" "$(LC_ALL=C date -u -R -d "@$SOURCE_DATE_EPOCH")" | gzip -9n > "$to/usr/share/doc/referee/changelog.gz"
[ "$proof_run" = - ] || install -m 644 "$proof_run" "$to/usr/share/doc/referee/PROOF-RUN.txt"

# What the installer reads.
mkdir "$to/DEBIAN"
install -m 755 extra/package/{postinst,prerm,postrm} "$to/DEBIAN"
echo /etc/default/referee-table > "$to/DEBIAN/conffiles"
sed "s/@VERSION@/$version/; s/@SIZE@/$(du -sk --apparent-size "$to" | cut -f 1)/" extra/package/control > "$to/DEBIAN/control"
(cd "$to" && find usr etc -type f -print0 | LC_ALL=C sort -z | xargs -0 md5sum > DEBIAN/md5sums)
find "$to" -exec touch -h -d "@$SOURCE_DATE_EPOCH" {} +
dpkg-deb --root-owner-group --threads-max=1 -Zxz --build "$to" "$room/$name.deb" > /dev/null
mv "$room/$name.deb" "$room/$name.debug" "$folder"
echo "$folder/$name.deb"
