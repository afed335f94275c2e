"""Compares the manual page and the completions with what the program knows: manual PROGRAM

Commands, arguments, options and possible values are taken from the program's own help, by extra/completions.py. The manual page and the completions
have to be those that it makes; README's table of commands has to have the lines of the page; and bash, zsh and fish, which run the completions, have
to offer the same. A shell that is not installed is left out, and that is said. The example in the help of each command has to end with status 0 in a
copy of examples/, and the statuses in it have to be among those of the page.
"""
import os
import pty
import re
import shutil
import subprocess
import sys
import tempfile
import threading
import time
from pathlib import Path

import completions

ROOT = Path(__file__).resolve().parents[2]
EXTRA = ROOT / "extra"

# What zsh runs before it is asked: a tab writes each word that is offered to OFFERED, and then a line `end`, and so does the prompt once it takes
# keys.
IN_ZSH = """PROMPT= RPROMPT=
fpath=($EXTRA $fpath)
autoload -Uz compinit && compinit -u -D
offered() {
    compadd() {
        local -a found
        if [[ " $* " != *" -"[OAD]" "* ]]; then
            builtin compadd -O found "$@"
            print -rl -- $found >> $OFFERED
        fi
        builtin compadd "$@"
    }
    _main_complete
    print end >> $OFFERED
}
zle -C offered list-choices offered
bindkey "^I" offered
zle-line-init() { print end >> $OFFERED }
zle -N zle-line-init
"""


def known(program):
    """What the program knows: the options of its own, and for each command its arguments, options and possible values, and its help."""
    own, commands = completions.known(program)
    told = {
        name: (list(map(completions.shown, it.arguments)), named(it.options), [value for one in it.arguments for value in one.values], it.text)
        for name, it in commands.items()
    }
    return named(own.options), told


def named(options):
    """The names of options, with the name of the value of each that has one."""
    return {name: it.value for it in options for name in it.names}


def compare_page(program, commands, failed):
    """README's table of commands, which has the lines of the manual page, and the values of arguments, which the page names. Gives the statuses of
    the page."""
    text = completions.files(program)["referee.1"]
    sections = re.findall(r"^\.SS ([a-z]+)(.*)\n((?s:.*?))(?=^\.S[SH] )", text, re.M)
    for name, _, body in sections:
        if name != "help" and not all(re.search(rf"^\.B {value}$", body, re.M) for value in commands[name][2]):
            failed(f"referee.1 does not name {commands[name][2]} of {name}")
    table = [
        line.replace("\\|", "|")
        for line in re.findall(
            r"^\| `([a-z]+(?: [^`]*)?)` \|", (ROOT / "README.md").read_text().split("## The commands\n")[1].split("\n## ")[0], re.M
        )
    ]
    wanted = [(name + line).replace("\\-", "-") for name, line, _ in sections if name != "help"]
    if sorted(table) != sorted(wanted):
        failed(f"README.md has the commands\n  {sorted(table)}\nfor\n  {sorted(wanted)}")
    return set(re.findall(r"^\.B (\d+)$", text.split(".SH EXIT STATUS\n")[1], re.M))


def in_bash(rows):
    """What bash offers for the last of some words, for each row of words."""
    line = 'source "$1"; shift; COMP_WORDS=("$@"); COMP_CWORD=$(($# - 1)); _referee; printf "%s\\n" "${COMPREPLY[@]}"'
    for words in rows:
        ran = ["bash", "-c", line, "bash", EXTRA / "referee.bash", "referee", *words]
        yield subprocess.run(ran, capture_output=True, check=True, text=True, cwd="/").stdout.split()


def in_fish(rows):
    """What fish offers."""
    line = 'source $argv[1]; for line in $argv[2..-1]; complete -C "$line"; echo end; end'
    ran = ["fish", "--no-config", "-c", line, "--", EXTRA / "referee.fish", *(" ".join(("referee", *words)) for words in rows)]
    told = subprocess.run(ran, capture_output=True, check=True, text=True, cwd="/").stdout
    for one in told.removesuffix("end\n").split("end\n"):
        yield [it.split("\t")[0] for it in one.splitlines()]


def in_zsh(rows):
    """What zsh offers, which completes only at a terminal."""
    with tempfile.TemporaryDirectory() as folder:
        (start := Path(folder, "start")).write_text(IN_ZSH)
        (offered := Path(folder, "offered")).touch()
        terminal, its = pty.openpty()
        where = {"cwd": "/", "env": {**os.environ, "EXTRA": str(EXTRA), "OFFERED": str(offered), "TERM": "dumb"}, "start_new_session": True}
        with subprocess.Popen(["zsh", "-f", "-i"], stdin=its, stdout=its, stderr=its, **where) as zsh:
            threading.Thread(target=drain, args=(terminal,), daemon=True).start()
            try:
                os.write(terminal, f"source {start}\n".encode())
                told_after(offered, "")
                for words in rows:
                    before = offered.read_text()
                    os.write(terminal, " ".join(("referee", *words)).encode() + b"\t\x15")
                    yield told_after(offered, before)
            finally:
                zsh.kill()


def drain(terminal):
    """Reads what a terminal shows, until it is closed."""
    try:
        while os.read(terminal, 65536):
            pass
    except OSError:
        pass


def told_after(offered, before):
    """The words that were written to a file after what was in it, up to a line `end`."""
    start = time.monotonic()
    while time.monotonic() < start + 60:
        told = offered.read_text()[len(before) :]
        if told.endswith("end\n"):
            return told.split()[:-1]
        time.sleep(0.02)
    raise TimeoutError("zsh offers nothing in a minute")


SHELLS = {"bash": (in_bash, "referee.bash"), "zsh": (in_zsh, "_referee"), "fish": (in_fish, "referee.fish")}


def rows_of(own, commands):
    """Words of command lines, the last of which is being written, with what has to be offered: commands, options, the values of an argument, none for
    a number, and files."""
    rows = [((word,), names) for word, names in (("", commands), ("-", own), ("--v", ["--version"]), ("j", ["judge"]))]
    rows += [((name, "-"), commands[name][1]) for name in commands]
    rows += [((name, "x", "--"), [it for it in commands[name][1] if it.startswith("--")]) for name in commands if commands[name][0]]
    rows += [((name, ""), commands[name][2]) for name in commands if commands[name][2]]
    rows += [((name, option, ""), []) for name in commands for option, value in commands[name][1].items() if value in completions.NOTHING]
    return rows + [(("judge", "/et"), ["/etc"]), (("judge", "--rules", "/et"), ["/etc"]), (("archive", "--pages", "/et"), ["/etc"])]


def compare_completions(program, own, commands, failed):
    """The files of completions, and what each shell that is installed offers."""
    for name in completions.outdated(program):
        failed(f"{name} is not what the help of the program makes of it: extra/completions.py PROGRAM")
    rows, shells = rows_of(own, commands), []
    for shell, (ask, name) in SHELLS.items():
        if not shutil.which(shell):
            print(f"left out: {shell}, which is not installed")
            continue
        shells.append(shell)
        for (words, names), told in zip(rows, ask([words for words, _ in rows]), strict=True):
            told = sorted({it.strip("/") if it.startswith("/") or "/et" in words else it for it in told})
            if told != sorted(it.strip("/") for it in names):
                failed(f"{name} offers {told} after {words} for {sorted(names)}")
    return f"{len(rows)} completions in {' and '.join(shells)}"


def try_examples(program, commands, statuses, failed):
    """The example of each command but `help`, and the statuses that its help names."""
    with tempfile.TemporaryDirectory() as folder:
        shutil.copytree(ROOT / "examples", folder, dirs_exist_ok=True)
        shutil.copy(program, Path(folder, "referee"))
        for sheet in ("anna.gcg", "ben.gcg"):
            shutil.copy(Path(folder, "game.gcg"), Path(folder, sheet))
        Path(folder, "names.txt").write_text("game.gcg\n")
        Path(folder, "lines.tsv").write_text("game.gcg\tlegal\tcomplete\t-\t-\t45\tAnn\t322\tBob\t356\t0\tgame.html\n")
        for name, (_, _, _, text) in commands.items():
            if name == "help":
                continue
            told = {line.split()[0] for title in re.findall(r"^(Exit status.*):$", text, re.M) for line in completions.part_of(text, title)}
            if not told or not told <= statuses or "64" not in told:
                failed(f"the help of {name} has the statuses {sorted(told)}, the page {sorted(statuses)}")
            lines = completions.part_of(text, "Example")
            where = {"cwd": folder, "env": {**os.environ, "PATH": f"{folder}:{os.environ['PATH']}"}}
            ran = [subprocess.run(line.split(), capture_output=True, check=False, **where).returncode for line in lines]
            if not ran or any(ran) or any(line.split()[:2] != ["referee", name] for line in lines):
                failed(f"the examples {lines} of {name} end with {ran}")


def main():
    program = os.path.abspath(sys.argv[1])
    faults = []
    own, commands = known(program)
    statuses = compare_page(program, commands, faults.append)
    offered = compare_completions(program, own, commands, faults.append)
    try_examples(program, commands, statuses, faults.append)
    for fault in faults:
        print(fault)
    print(f"{len(commands)} commands, {offered}, {len(faults)} not as they have to be")
    sys.exit(bool(faults))


main()
