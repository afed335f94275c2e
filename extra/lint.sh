#!/usr/bin/env bash
# Looks for mistakes in the Python and shell files without running them: extra/lint.sh
#
# flake8 and mypy read the Python, by .flake8 and mypy.ini, and shellcheck the scripts; tried with the versions of Debian 12. mypy is strict with what is
# shipped, and needs Flask for its types. web/tests is left to flake8, since half of Selenium's calls have no types. If a tool is missing and this is
# an administrator's shell of a system with apt-get, the tools are installed first; one that is still missing is left out, loudly. The last line is
# 'N passed, M failed', and the status is 0 if nothing failed.
set -u
cd "$(dirname "$0")/.." || exit 2
packages=(flake8 mypy shellcheck python3-flask)
passed=0
failed=0

has() { command -v "$1" > /dev/null; }
has_flask() { [ -x /usr/bin/python3 ] && /usr/bin/python3 -c 'import flask' 2> /dev/null; }
is_complete() { has flake8 && has mypy && has shellcheck && has_flask; }

left_out() {
    echo "########################################################################"
    echo "# LEFT OUT: $1"
    echo "########################################################################"
}

# Runs a tool over some files. What it finds is printed.
look() {
    local name=$1
    shift
    if "$@"; then
        passed=$((passed + 1))
        echo "passed: $name"
    else
        failed=$((failed + 1))
        echo "FAILED: $name"
    fi
}

if ! is_complete && [ "$(id -u)" = 0 ] && has apt-get; then
    echo "installing ${packages[*]}"
    timeout 120 apt-get -qq update > /dev/null 2>&1
    DEBIAN_FRONTEND=noninteractive timeout 480 apt-get -qq install -y --no-install-recommends "${packages[@]}" > /dev/null 2>&1
fi
if has flake8; then
    look "flake8" flake8 web python oracle bench extra oracle/run extra/rt
else
    left_out "flake8, which is not there"
fi
if has mypy; then
    if has_flask; then
        look "mypy of the client and the table" mypy --strict --python-executable /usr/bin/python3 python/referee web/table
    else
        left_out "mypy of the client and the table, since Flask is not there"
    fi
    look "mypy of the second judge and the scripts" mypy oracle oracle/run bench extra extra/rt
else
    left_out "mypy, which is not there"
fi
if has shellcheck; then
    look "shellcheck" shellcheck .ci/run bench/*.sh extra/*.sh oracle/*.sh web/*.sh extra/package/{postinst,postrm,prerm} extra/referee.bash
else
    left_out "shellcheck, which is not there"
fi
echo "$passed passed, $failed failed"
[ "$failed" = 0 ]
