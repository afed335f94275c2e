#!/usr/bin/env bash
# Tries the Debian package: extra/try_package.sh [PROGRAM]
#
# PROGRAM is crates/referee/out/referee unless it is named. The package is packed twice, which has to give the same bytes, and looked at by lintian. Then it is
# installed in a new Debian in a folder, made by debootstrap, which has no toolchain; used there, upgraded, removed and purged. That needs the network and an
# administrator's shell. If debootstrap or lintian is missing, it is installed first where that may be done; what cannot be tried is left out,
# and that is said. The last line is 'N passed, M failed', and the status is 0 if nothing failed.
#
# shellcheck disable=SC2016,SC2317 # shells inside the new Debian expand what is quoted, and `try` and the trap run the functions
set -u
cd "$(dirname "$0")/.." || exit 2
program=$(realpath -m "${1:-crates/referee/out/referee}")
passed=0
failed=0
room=$(mktemp -d) || exit 2
inside=$room/debian
trap 'leave' EXIT

leave() {
    if [ -d "$inside" ]; then
        umount -q "$inside/proc" "$inside/dev" 2> /dev/null
        mountpoint -q "$inside/proc" || mountpoint -q "$inside/dev" || rm -rf --one-file-system "$inside"
    fi
    [ -d "$inside" ] || rm -rf "$room"
}

# Tries one thing. What it prints is shown if it fails.
try() {
    local name=$1
    shift
    if "$@" > "$room/said" 2>&1; then
        passed=$((passed + 1))
        echo "passed: $name"
    else
        failed=$((failed + 1))
        echo "FAILED: $name"
        tail -n 30 "$room/said"
    fi
}

left_out() {
    echo "########################################################################"
    echo "# LEFT OUT: $1"
    echo "########################################################################"
}

ends() {
    echo "$passed passed, $failed failed"
    [ "$failed" = 0 ]
    exit
}

within() { chroot "$inside" env -i PATH=/usr/sbin:/usr/bin:/sbin:/bin HOME=/root LC_ALL=C.UTF-8 DEBIAN_FRONTEND=noninteractive "$@"; }
packed_twice() {
    extra/package.sh "$room/one" "$program" && sleep 1 && extra/package.sh "$room/two" "$program" && diff -r "$room/one" "$room/two"
}
without_errors() {
    lintian --fail-on error "$package"
}
judges() {
    within sh -c 'cd /tmp && cp /usr/share/doc/referee/examples/* . && rm words.gad && referee build words.txt words.gad && referee check words.txt words.gad &&
        referee judge words.txt words.gad game.gcg > said && head -n 1 said && [ "$(head -n 1 said)" = "legal complete" ]'
}
has_manual() { within sh -c 'test -s /usr/share/man/man1/referee.1.gz && test -s /usr/share/man/man1/referee-table.1.gz && zcat /usr/share/doc/referee/changelog.gz | head -n 1'; }
has_completions() {
    within bash -c '. /usr/share/bash-completion/completions/referee && complete -p referee && test -s /usr/share/zsh/vendor-completions/_referee &&
        test -s /usr/share/fish/vendor_completions.d/referee.fish'
}
asks_by_client() {
    within python3 -c '
from referee import Referee
with Referee("/tmp/words.txt", "/tmp/words.gad") as it:
    answer = it.judge(open("/tmp/game.gcg", "rb").read())
assert (answer.verdict, answer.ending) == ("legal", "complete"), answer'
}
serves_table() {
    within sh -c 'cd /tmp && referee-table --port 18080 words.txt > table.out 2>&1 & it=$!
        for second in $(seq 60); do
            sleep 0.5
            python3 -c "
import urllib.request
page = urllib.request.urlopen(\"http://127.0.0.1:18080/\").read().decode()
assert \"Enter a game\" in page" 2> /dev/null && { kill $it; exit 0; }
        done
        cat /tmp/table.out; kill $it; exit 1'
}
is_not_started() {
    within sh -c 'test -f /usr/lib/systemd/system/referee-table.service && test -f /etc/default/referee-table && ! test -e /etc/systemd/system/multi-user.target.wants/referee-table.service'
}
reads_unit() { within systemd-analyze verify /usr/lib/systemd/system/referee-table.service; }
upgrades() {
    local version
    version=$(within dpkg-query -W -f '${Version}' referee) || return 1
    echo "TABLE_WORDS=/srv/club.txt" >> "$inside/etc/default/referee-table"
    extra/package.sh "$room/later" "$program" - "$version+later" && cp "$room"/later/*.deb "$inside/tmp/later.deb" &&
        within dpkg -i --force-confold /tmp/later.deb && [ "$(within dpkg-query -W -f '${Version}' referee)" = "$version+later" ] &&
        grep -q /srv/club.txt "$inside/etc/default/referee-table" && judges
}
removes() {
    within dpkg -r referee && ! test -e "$inside/usr/bin/referee" && ! test -e "$inside/usr/bin/referee-table" && test -f "$inside/etc/default/referee-table" &&
        ! test -e "$inside/usr/lib/python3/dist-packages/referee"
}
purges() {
    within dpkg -P referee && ! test -e "$inside/etc/default/referee-table" &&
        ! find "$inside/usr" "$inside/etc" "$inside/var" -iname '*referee*' | grep .
}
makes_debian() {
    # shellcheck source=/dev/null
    timeout 900 debootstrap --variant=minbase --include=python3,python3-flask,gunicorn "$(. /etc/os-release && echo "$VERSION_CODENAME")" "$inside" &&
        mount -t proc proc "$inside/proc" && mount --bind /dev "$inside/dev"
}

if [ ! -x "$program" ]; then
    echo "FAILED: there is no program $program"
    echo "0 passed, 1 failed"
    exit 1
fi
if ! command -v dpkg-deb > /dev/null || ! command -v strip > /dev/null; then
    left_out "the package: this system has no dpkg-deb or no binutils"
    ends
fi
if [ "$(id -u)" = 0 ] && ! { command -v debootstrap && command -v lintian; } > /dev/null; then
    echo "installing debootstrap lintian"
    timeout 120 apt-get -qq update > /dev/null 2>&1
    DEBIAN_FRONTEND=noninteractive timeout 480 apt-get -qq install -y --no-install-recommends debootstrap lintian > /dev/null 2>&1
fi
try "packed twice, to the same bytes" packed_twice
[ "$failed" = 0 ] || ends
package=$(echo "$room"/one/*.deb)
if command -v lintian > /dev/null; then
    try "lintian without errors" without_errors
else
    left_out "lintian, which is not there"
fi
if [ "$(id -u)" != 0 ] || ! command -v debootstrap > /dev/null; then
    left_out "the package in a new Debian, which needs debootstrap and an administrator's shell"
    ends
fi
if ! makes_debian > "$room/debootstrap" 2>&1; then
    tail -n 5 "$room/debootstrap"
    left_out "the package in a new Debian, which could not be made, as above"
    ends
fi
cp "$package" "$inside/tmp/first.deb"
try "installed" within dpkg -i /tmp/first.deb
try "judges a game" judges
try "manual pages and changes" has_manual
try "completions" has_completions
try "the client for Python" asks_by_client
try "the table" serves_table
try "the service is there, and not started by itself" is_not_started
! command -v "$inside/usr/bin/systemd-analyze" > /dev/null || try "systemd reads the unit" reads_unit
try "upgraded, with what was changed in /etc" upgrades
try "removed" removes
try "purged, and nothing is left" purges
ends
