#!/usr/bin/env bash
# Starts the table, a web page for games of Scrabble: web/start.sh [OPTION].. WORDS [LEXICON]
# The package installs it as the command referee-table.
#
#   --port PORT         the port, 8080 unless it is said
#   --host ADDRESS      the address, 127.0.0.1 unless it is said: only this machine can open the page then
#   --name NAME         a further name by which browsers call this machine, such as club.example; may be said again
#   --workers N         how many processes answer, as many as processors, up to 4, unless it is said
#   --list-name NAME    the name of the list of WORDS, which is that of its file unless it is said
#   --list NAME=WORDS   one more list, chosen when a game begins; may be said again, and then WORDS may be left out
#   --rules FILE        other rules than the English ones
#   --rules NAME=FILE   other rules beside the English ones, chosen when a game begins; may be said again
#   --first-field, --skip-others    how the lists are read
#
# LEXICON is WORDS with .gad in place of its suffix, unless it is named; it is built if there is none. The program is $REFEREE, or else the one that
# extra/prove.sh leaves, or the command `referee`. The page needs Flask; with gunicorn it has workers, and without it one process.
set -eu
web=$(dirname "$(readlink -f "$0")")
command=referee-table
[ "$(basename "$0")" = "$command" ] || command=web/start.sh
usage() {
    [ $# = 0 ] || echo "$command: $1" >&2
    sed -n "2,/^set/{/^# The package/d; s|web/start.sh|$command|; /^#/s/^# \{0,1\}//p}" "$0" >&2
    exit 64
}
stop() {
    echo "$command: $1" >&2
    exit "${2:-2}"
}
# A file that has to be there, by its whole name.
file() {
    if [ ! -f "$1" ] || [ ! -r "$1" ]; then stop "there is no file $1 that can be read"; fi
    realpath "$1"
}
tab=$'\t'
port=8080 host=127.0.0.1 names='' workers='' list_name='' lists=() options=()
export TABLE_RULES='' TABLE_FIRST_FIELD='' TABLE_SKIP_OTHERS=''
while [ $# -gt 0 ]; do
    case $1 in
        --port | --host | --name | --workers | --list-name | --list | --rules)
            [ $# -gt 1 ] || usage "$1 needs a value"
            case $1 in
                --port) port=$2 ;;
                --host) host=$2 ;;
                --name) names="$names $2" ;;
                --workers) workers=$2 ;;
                --list-name) list_name=$2 ;;
                --list)
                    [[ $2 == ?*=?* ]] || usage "--list needs NAME=WORDS"
                    it=$(file "${2#*=}")
                    lists+=("${2%%=*}$tab$it$tab${it%.*}.gad")
                    ;;
                --rules)
                    name=${2%%=*}
                    if [[ $2 == ?*=?* ]] && [[ $name != */* ]]; then
                        [ -n "$TABLE_RULES" ] || TABLE_RULES="English$tab"
                        it=$(file "${2#*=}")
                    else
                        it=$(file "$2")
                        name=$(basename "${2%.*}")
                    fi
                    TABLE_RULES=${TABLE_RULES:+$TABLE_RULES$'\n'}$name$tab$it
                    ;;
            esac
            shift 2
            ;;
        --first-field) TABLE_FIRST_FIELD=1 && options+=("$1") && shift ;;
        --skip-others) TABLE_SKIP_OTHERS=1 && options+=("$1") && shift ;;
        -h | --help) usage ;;
        -*) usage "there is no option $1" ;;
        *) break ;;
    esac
done
for it in "$@"; do
    [[ $it != --* ]] || stop "the option $it stands after WORDS: options come before it" 64
done
[ $# -le 2 ] || usage "there are more words than WORDS and LEXICON"
[ $# -gt 0 ] || [ ${#lists[@]} -gt 0 ] || usage
[[ $port =~ ^[0-9]{1,5}$ ]] || stop "$port is not a port: that is a number, such as 8080" 64
if [ $# -gt 0 ]; then
    it=$(file "$1")
    lists=("${list_name:-$(basename "${1%.*}")}$tab$it$tab$(realpath -m "${2:-${1%.*}.gad}")" ${lists[@]+"${lists[@]}"})
fi
TABLE_PROGRAM=${REFEREE:-$web/../crates/referee/out/referee}
[ -x "$TABLE_PROGRAM" ] || TABLE_PROGRAM=$(command -v referee) ||
    stop "there is no program referee: extra/prove.sh makes it, or name it, as in REFEREE=/usr/local/bin/referee"
python=''
for it in /usr/bin/python3 python3; do
    if [ -z "$python" ] && "$it" -c 'import flask' 2> /dev/null; then
        python=$it
    fi
done
[ -n "$python" ] || stop "Python has no Flask: install it, as by apt-get install python3-flask gunicorn"
"$python" "$web/place.py" "$command" "$host" "$port" || exit 2

# A lexicon is built beside its place, and takes it once it is whole.
built=''
trap '[ -z "$built" ] || rm -f "$built"' EXIT
build() {
    built=$(mktemp "$2.XXXXXX") || stop "the folder of $2 cannot be written"
    rm -f "$built"
    echo "building the lexicon $2 of $(wc -l < "$1") lines: some seconds, for 400,000 words up to a minute" >&2
    SECONDS=0
    "$TABLE_PROGRAM" build ${options[@]+"${options[@]}"} "$1" "$built" || {
        echo "$command: $1 is not a word list: the line above says where." >&2
        echo "A list has one word a line, A to Z; --first-field and --skip-others read others." >&2
        exit 3
    }
    mv "$built" "$2"
    built=''
    echo "built in $SECONDS s" >&2
}
for list in "${lists[@]}"; do
    IFS=$tab read -r _ words lexicon <<< "$list"
    [ -s "$lexicon" ] || build "$words" "$lexicon"
    "$TABLE_PROGRAM" check ${options[@]+"${options[@]}"} "$words" "$lexicon" > /dev/null || {
        echo "$command: $lexicon is not the lexicon of $words. If the list is right, delete the lexicon, and it is built anew." >&2
        exit 3
    }
done
trap - EXIT
TABLE_LISTS=$(printf '%s\n' "${lists[@]}")
[ -n "$workers" ] || workers=$(($(nproc) < 4 ? $(nproc) : 4))
TABLE_SECRET=$("$python" -c 'import secrets; print(secrets.token_hex(32))')
TABLE_NAMES="$names $host" TABLE_BIND=$host:$port TABLE_WORKERS=$workers
[[ $host != *:* ]] || TABLE_BIND="[$host]:$port"
PYTHONPATH=$web PYTHONDONTWRITEBYTECODE=1
[ ! -d "$web/../python/referee" ] || PYTHONPATH=$web:$web/../python
export TABLE_LISTS TABLE_PROGRAM TABLE_SECRET TABLE_NAMES TABLE_BIND TABLE_WORKERS PYTHONPATH PYTHONDONTWRITEBYTECODE
if "$python" -c 'import gunicorn' 2> /dev/null; then
    exec "$python" -m gunicorn --config "$web/gunicorn.conf.py"
fi
exec "$python" -m table "$port" "$host"
