#!/usr/bin/env bash
# Tests the table, a web page: web/test.sh [PROGRAM [NAME]..]
#
# PROGRAM is crates/referee/out/referee unless it is named; NAME is a file of tests/, or a test in it, such as test_requests or
# test_browser.WithScripts.test_whole_game. The tests need Flask, gunicorn, Selenium and Chromium, the system's. If they are missing and this is an
# administrator's shell of a system with apt-get, they are installed first; if they cannot be, the tests are skipped, loudly. With
# TABLE_PICTURES=FOLDER pictures of all pages are written there. The last line is 'N passed, M failed', and the status is 0 if nothing failed.
set -u
cd "$(dirname "$0")/.." || exit 2
REFEREE=$(realpath -m "${1:-crates/referee/out/referee}")
[ $# = 0 ] || shift
export REFEREE PYTHONDONTWRITEBYTECODE=1 PYTHONPATH=python:web/tests
packages=(python3-flask gunicorn python3-selenium chromium chromium-driver)

# Whether all is there that the tests need.
is_complete() {
    [ -x /usr/bin/python3 ] && /usr/bin/python3 -c 'import flask, gunicorn, selenium' 2> /dev/null && command -v chromedriver > /dev/null && command -v chromium > /dev/null
}

if [ ! -x "$REFEREE" ]; then
    echo "FAILED: there is no program $REFEREE"
    echo "0 passed, 1 failed"
    exit 1
fi
if ! is_complete && [ "$(id -u)" = 0 ] && command -v apt-get > /dev/null; then
    echo "installing ${packages[*]}"
    timeout 120 apt-get -qq update > /dev/null 2>&1
    DEBIAN_FRONTEND=noninteractive timeout 480 apt-get -qq install -y --no-install-recommends "${packages[@]}" > /dev/null 2>&1
fi
if ! is_complete; then
    echo "########################################################################"
    echo "# SKIPPED: the tests of the table, the web page, were not run.         #"
    echo "# They need ${packages[*]} #"
    echo "########################################################################"
    echo "0 passed, 0 failed"
    exit 0
fi
/usr/bin/python3 web/tests/run.py "$@"
