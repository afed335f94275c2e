#!/usr/bin/env python3
"""Writes the completions for bash, zsh and fish and the manual page from what a program says in its help: extra/completions.py PROGRAM [--check]

The commands, their arguments and their options are in one table, crates/cli_args/src/commands.rt. The program prints it as help, and this
script makes extra/referee.bash, extra/_referee and extra/referee.fish of it. In extra/referee.1 it puts the version, and for each command its line
and its options; what the page says of them stays, and what it says nothing of gets the words of help. With `--check` it writes nothing, and says
which of the files is out of date; the exit status is then 1.
"""
import re
import subprocess
import sys
from dataclasses import dataclass
from pathlib import Path

EXTRA = Path(__file__).resolve().parent
NOTHING = ("N", "LINE", "RACK", "WORD")  # values and arguments of which a shell knows no possible ones
FOLDERS = ("FOLDER",)  # those that are folders; all others are files
MADE = "extra/completions.py makes this file of the program's help. Do not change it by hand."


@dataclass
class Option:
    """An option: its names, the short one first, the name of its value if it has one, and what help says of it."""

    names: list
    value: str | None
    said: str


@dataclass
class Argument:
    """An argument: its name, whether it may be left out, whether any number of words may follow, its possible values, and what help says."""

    name: str
    optional: bool
    several: bool
    values: list
    said: str


@dataclass
class Command:
    """A command, or the program itself: what help says of it, its arguments, its options, and the whole help."""

    said: str
    arguments: list
    options: list
    text: str


def helped(program, *words):
    """The help of the program or of a command."""
    return subprocess.run([program, "help", *words], capture_output=True, check=True, text=True).stdout


def part_of(text, title):
    """The lines of one part of a help, without their indent."""
    lines = text.split(f"\n{title}:\n")[1].split("\n\n")[0] if f"\n{title}:\n" in text else ""
    return [line.strip() for line in lines.splitlines() if line.strip()]


def option_of(line):
    """The option of a line of help."""
    names, value, said = re.match(r"((?:-\w, )?--[\w-]+)(?: <(\w+)>)?\s+(.*)", line).groups()
    return Option(names.split(", "), value, said)


def argument_of(line):
    """The argument of a line of help."""
    name, said = line.split(None, 1)
    values = re.search(r" ?\[possible values: (.*?)\]", said)
    said = said.replace(values[0], "") if values else said
    return Argument(re.sub(r"\W", "", name), name.startswith("["), name.endswith("..."), values[1].split(", ") if values else [], said)


def command_of(text):
    """What a help says."""
    return Command(
        text.splitlines()[0], [argument_of(it) for it in part_of(text, "Arguments")], [option_of(it) for it in part_of(text, "Options")], text
    )


def known(program):
    """The program, and its commands by their names in the order of its help. The names of commands are what `help` takes."""
    own = command_of(helped(program))
    commands = {line.split()[0]: command_of(helped(program, line.split()[0])) for line in part_of(own.text, "Commands")}
    commands["help"].arguments[0].values = list(commands)
    return own, commands


def names_of(options):
    """The names of options as one text, the long ones with help last, as the files have them."""
    return " ".join(name for option in options for name in option.names)


def valued(commands, kinds):
    """The names of the options whose values are of some kinds, over all commands."""
    options = [it for command in commands.values() for it in command.options if it.value in kinds]
    return list(dict.fromkeys(name for it in options for name in it.names))


def bash(own, commands):
    """The completions for bash."""
    lines = []
    for name, command in commands.items():
        options = f'options="{names_of(command.options)}"' if command.options else ""
        if name == "help":
            options = f'values="{" ".join(commands)}"'
        lines.append(f"        {name}) {options} ;;")
    firsts = [(name, it.arguments[0].values) for name, it in commands.items() if name != "help" and it.arguments and it.arguments[0].values]
    asked = [f'    [[ $command != {name} || ${{COMP_WORDS[COMP_CWORD - 1]}} != {name} ]] || values="{" ".join(values)}"' for name, values in firsts]
    return f"""# Completions of referee for bash: source this file, or put it into the folder of bash-completion under the name `referee`.
# {MADE}
_referee() {{
    local word=${{COMP_WORDS[COMP_CWORD]}} command="" options="" values="" i
    for ((i = 1; i < COMP_CWORD; i++)); do
        if [[ ${{COMP_WORDS[i]}} != -* ]]; then
            command=${{COMP_WORDS[i]}}
            break
        fi
    done
    case $command in
        "") options="{names_of(own.options)}" values="{" ".join(commands)}" ;;
{chr(10).join(lines)}
    esac
{chr(10).join(asked)}
    if [[ $word == -* ]]; then
        mapfile -t COMPREPLY < <(compgen -W "$options" -- "$word")
    elif [[ -n $values ]]; then
        mapfile -t COMPREPLY < <(compgen -W "$values" -- "$word")
    else
        case ${{COMP_WORDS[COMP_CWORD - 1]}} in
            {" | ".join(valued(commands, NOTHING))}) COMPREPLY=() ;;
            {" | ".join(valued(commands, FOLDERS))}) mapfile -t COMPREPLY < <(compgen -d -- "$word") ;;
            *) mapfile -t COMPREPLY < <(compgen -f -- "$word") ;;
        esac
    fi
}}
complete -o filenames -F _referee referee
"""


def quoted(text):
    """A text in single quotes of a shell."""
    return "'" + text.replace("'", "'\\''") + "'"


def in_zsh(text):
    """A text within a specification of zsh, in which some signs mean something."""
    return re.sub(r"([\[\]:\\])", r"\\\1", text)


def zsh_action(name, values=()):
    """What zsh offers for a value or an argument."""
    return f"({' '.join(values)})" if values else " " if name in NOTHING else "_files -/" if name in FOLDERS else "_files"


def zsh_specification(option):
    """The specification of an option for `_arguments`, as one or more words of zsh. Help ends a command line."""
    value = f":{option.value}:{zsh_action(option.value)}" if option.value else ""
    only = "(- *)" if option.names[-1] in ("--help", "--version") else f"({' '.join(option.names)})" if len(option.names) > 1 else ""
    names = "{" + ",".join(option.names) + "}" if len(option.names) > 1 else ""
    text = f"[{in_zsh(option.said)}]{value}"
    return f"{quoted(only)}{names}{quoted(text)}" if names else quoted(option.names[0] + text)


def zsh_arguments(command):
    """The specifications of the arguments of a command."""
    for number, it in enumerate(command.arguments, 1):
        place = "*" if it.several else f"{number}:" if it.optional else number
        yield quoted(f"{place}:{it.name}, {in_zsh(it.said)}:{zsh_action(it.name, it.values)}")


def zsh(own, commands):
    """The completions for zsh."""
    rows = []
    for name, command in commands.items():
        specifications = [zsh_specification(it) for it in command.options] + list(zsh_arguments(command))
        rows.append(
            f"        {name})\n            _arguments \\\n"
            + " \\\n".join(f"                {it}" for it in specifications)
            + " && found=0\n            ;;"
        )
    told = "\n".join(f"        {quoted(name + ':' + in_zsh(command.said))}" for name, command in commands.items())
    options = " \\\n".join(f"        {zsh_specification(it)}" for it in own.options)
    return f"""#compdef referee
# Completions of referee for zsh: put this file into a folder of fpath under the name `_referee`.
# {MADE}
_referee() {{
    local curcontext=$curcontext state line found=1
    local -a commands
    local -A opt_args
    commands=(
{told}
    )
    _arguments -C \\
{options} \\
        '1:command:->command' \\
        '*::argument:->argument' && found=0
    if [[ $state == command ]]; then
        _describe -t commands command commands && found=0
        return $found
    fi
    case $words[1] in
{chr(10).join(rows)}
    esac
    return $found
}}
_referee "$@"
"""


def fish_options(command, when):
    """The lines of fish for options."""
    for option in command.options:
        names = " ".join(f"-l {it[2:]}" if it.startswith("--") else f"-s {it[1:]}" for it in option.names)
        value = (
            ""
            if not option.value
            else " -x"
            if option.value in NOTHING
            else " -x -a '(__fish_complete_directories)'"
            if option.value in FOLDERS
            else " -r -F"
        )
        yield f"complete -c referee -n {quoted(when)} {names}{value} -d {quoted(option.said)}"


def fish_values(name, command):
    """The lines of fish for the arguments of a command that are not files."""
    if not command.arguments:
        yield f"complete -c referee -n '__referee_command {name}' -f"
    for number, it in enumerate(command.arguments, 1):
        several = " more" if it.several else ""
        values = f" -a {quoted(' '.join(it.values))}" if it.values else ""
        if it.values or it.name in NOTHING:
            yield f"complete -c referee -n '__referee_argument {name} {number}{several}' -f{values} -d {quoted(it.name)}"


def fish(own, commands):
    """The completions for fish."""
    lines = [f"complete -c referee -n __referee_none -f -a {name} -d {quoted(it.said)}" for name, it in commands.items()]
    lines += fish_options(own, "__referee_none")
    for name, command in commands.items():
        lines += fish_options(command, f"__referee_command {name}")
        lines += fish_values(name, command)
    with_value = [name for it in commands.values() for option in it.options if option.value for name in option.names]
    return f"""# Completions of referee for fish: put this file into ~/.config/fish/completions under its name.
# {MADE}

# The words of the command line that are neither options nor their values, without the name of the program.
function __referee_words
    set -l passed
    for word in (commandline -opc)[2..-1]
        if test -n "$passed"
            set passed
        else if contains -- $word {" ".join(dict.fromkeys(with_value))}
            set passed yes
        else if not string match -qr -- '^-.' $word
            echo $word
        end
    end
end

# Whether no command is named yet.
function __referee_none
    test (count (__referee_words)) -eq 0
end

# Whether a command is this one.
function __referee_command
    set -l words (__referee_words)
    test "$words[1]" = $argv[1]
end

# Whether the word at the cursor is an argument of a command by its number, or one of more from there on.
function __referee_argument
    set -l number (count (__referee_words))
    __referee_command $argv[1]; and begin
        test $number -eq $argv[2]; or test -n "$argv[3]" -a $number -gt $argv[2]
    end
end

{chr(10).join(lines)}
"""


def in_roff(text):
    """A text of help in the manual page."""
    return text.replace("-", "\\-")


def tag_of(option):
    """The line of the manual page that names an option."""
    *short, name = map(in_roff, option.names)
    return f'.BI {name} " {option.value}"' if option.value else f'.BR {short[0]} ", " {name}' if short else f".B {name}"


def explained(text, options):
    """A part of the manual page with these options, each in the words of the part; in those of help if it has none."""
    about, *said = text.split(".TP\n")
    said = dict(it.split("\n", 1) for it in said)
    wanted = {tag_of(it): in_roff(f"{it.said[0].upper()}{it.said[1:]}.\n") for it in options}
    tags = [it for it in said if it in wanted]
    tags[-1:-1] = [it for it in wanted if it not in said]  # help is the last
    return about + "".join(f".TP\n{it}\n{said.get(it, wanted[it])}" for it in tags)


def shown(argument):
    """An argument on the line of a command: `WORDS`, `[RACK]`, `[GAME]...` or `WORD...`."""
    name = f"[{argument.name}]" if argument.optional else argument.name
    return name + ("..." if argument.several else "")


def parted(options):
    """The options in brackets, in no order; those of which only one may be there are in one pair."""
    return sorted(re.split(r"[][|]+", "".join(options)))


def section(name, command, page):
    """The section of a command in the manual page. Its line has the options in the order of the page."""
    found = re.search(rf"^\.SS {name}\b(.*)\n((?s:.*?))(?=^\.S[SH] )", page, re.M)
    line, text = found.groups() if found else ("", in_roff(f"{command.said}.\n"))
    had = re.findall(r"\[\\-[^]]*\]", line)
    wanted = [in_roff(f"[{'|'.join(it.names)}{' ' * bool(it.value)}{it.value or ''}]") for it in command.options if it.names[-1] != "--help"]
    options = had if parted(had) == parted(wanted) else wanted
    return f".SS {' '.join([name, *options, *map(shown, command.arguments)])}\n{explained(text, command.options)}"


def manual(program, own, commands):
    """The manual page."""
    page = (EXTRA / "referee.1").read_text()
    version = subprocess.run([program, "-V"], capture_output=True, check=True, text=True).stdout.split()[1]
    first, parts = re.sub(r'"referee [\d.]+"', f'"referee {version}"', page, count=1).split(".SH COMMANDS\n")
    _, options, rest = re.split(r"(?<=\n)\.SH OPTIONS\n((?s:.*?))(?=\.SH )", parts)
    sections = "".join(section(name, it, page) for name, it in commands.items())
    return f"{first}.SH COMMANDS\n{sections}.SH OPTIONS\n{explained(options, own.options)}{rest}"


def files(program):
    """The text of each file."""
    own, commands = known(program)
    return {
        "referee.bash": bash(own, commands),
        "_referee": zsh(own, commands),
        "referee.fish": fish(own, commands),
        "referee.1": manual(program, own, commands),
    }


def outdated(program):
    """The files that are not what the help of a program makes of them."""
    return [name for name, text in files(program).items() if not (EXTRA / name).exists() or (EXTRA / name).read_text() != text]


def main():
    if len(sys.argv) < 2 or sys.argv[2:] not in ([], ["--check"]):
        print(__doc__.strip(), file=sys.stderr)
        sys.exit(64)
    program = Path(sys.argv[1]).resolve()
    if sys.argv[2:]:
        late = outdated(program)
        print("\n".join(f"extra/{name} is out of date: extra/completions.py PROGRAM" for name in late) or "completions are up to date")
        sys.exit(bool(late))
    for name, text in files(program).items():
        (EXTRA / name).write_text(text)


if __name__ == "__main__":
    main()
