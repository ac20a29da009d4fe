#!/usr/bin/env python3
"""Writes the completions of a shell, from the help of the program.
usage: completions.py bash|zsh|fish PROGRAM"""
import re
import sys

sys.dont_write_bytecode = True
from helps import Helps  # noqa: E402

# Options of `record` that may be given several times; the others are given once.
RECORD_OFTEN = ("--omci", "--into", "--out-of", "--tpid", "--skew")


def longs(said):
    return " ".join(option.long for option in said.options)


def bash(helps):
    commands = " ".join(helps.commands)
    valued = {option.long: None for said in helps.all().values() for option in said.options if option.value and not option.takes_file()}
    yield from (
        "# Completions of onuctl for bash.",
        "_onuctl() {",
        "    local word=${COMP_WORDS[COMP_CWORD]} before=${COMP_WORDS[COMP_CWORD - 1]} words=",
        "    if [[ $COMP_CWORD -eq 1 ]]; then",
        f'        words="{commands} {longs(helps.program)}"',
        "    else",
        "        case ${COMP_WORDS[1]} in",
    )
    yield from (f'        {name}) words="{longs(said)}" ;;' for name, said in helps.commands.items() if said.options)
    yield from (
        f'        help) words="{" ".join([commands, *helps.topics])}" ;;',
        "        esac",
        "    fi",
        "    case $before in",
        f"    {' | '.join(valued)}) COMPREPLY=() ;;",
        "    *)",
        "        if [[ $word == -* || $COMP_CWORD -eq 1 || ${COMP_WORDS[1]} == help ]]; then",
        '            mapfile -t COMPREPLY < <(compgen -W "$words" -- "$word")',
        "        else",
        '            mapfile -t COMPREPLY < <(compgen -f -- "$word")',
        "        fi",
        "        ;;",
        "    esac",
        "}",
        "complete -o filenames -F _onuctl onuctl",
    )


def zsh_quoted(text):
    return re.sub(r"[\[\]:]", r"\\\g<0>", text.replace("'", r"'\''"))


def zsh_option(name, option):
    action = f":{option.value.lower()}:" + ("_files" if option.takes_file() else " ") if option.value else ""
    is_repeated = option.value.endswith("=FILE") or name == "record" and option.long in RECORD_OFTEN
    return f" \\\n            '{'*' if is_repeated else ''}{option.long}[{zsh_quoted(option.help)}]{action}'"


def zsh_argument(place, argument):
    action = "_files" if argument.takes_file() else " "
    return f" \\\n            '{'*' if argument.is_repeated() else place}:{argument.value().lower()}:{action}'"


def zsh_words(name, said):
    """What stands behind `_arguments`."""
    arguments = "" if name == "help" else "".join(zsh_argument(place, argument) for place, argument in enumerate(said.arguments, 1))
    return arguments + "".join(zsh_option(name, option) for option in said.options)


def zsh(helps):
    yield from ("#compdef onuctl", "# Completions of onuctl for zsh.", "_onuctl() {", "    local -a commands topics", "    commands=(")
    yield from (f"        '{name}:{zsh_quoted(about)}'" for name, about in helps.program.commands.items())
    yield from ("    )", "    topics=(")
    yield from (f"        '{name}:{zsh_quoted(topic.about)}'" for name, topic in helps.topics.items())
    yield from (
        "    )",
        "    if (( CURRENT == 2 )); then",
        "        _describe command commands",
        f"        _arguments{zsh_words('', helps.program)}",
        "        return",
        "    fi",
        "    local command=$words[2]",
        "    shift words",
        "    (( CURRENT-- ))",
        "    case $command in",
    )
    for name, said in helps.commands.items():
        if zsh_words(name, said):
            yield from (f"    {name})", f"        _arguments{zsh_words(name, said)}", "        ;;")
    yield from (
        "    help)",
        "        _describe command commands",
        "        _describe topic topics",
        "        ;;",
        "    esac",
        "}",
        '_onuctl "$@"',
    )


def fish_quoted(text):
    return "'" + text.replace("\\", "\\\\").replace("'", "\\'") + "'"


def behind(name):
    """When a completion is offered: behind a command, or before there is one."""
    return f"complete -c onuctl -n '__fish_seen_subcommand_from {name}'" if name else "complete -c onuctl -n __fish_use_subcommand"


def fish_words(name, said):
    for argument in said.arguments:
        if argument.takes_file():
            yield f"{behind(name)} -F"
    for option in said.options:
        takes = "" if not option.value else " -r -F" if option.takes_file() else " -x"
        yield f"{behind(name)} -l {option.long[2:]}{takes} -d {fish_quoted(option.help)}"


def fish(helps):
    yield from ("# Completions of onuctl for fish.", "complete -c onuctl -f")
    for name, about in helps.program.commands.items():
        yield f"{behind('')} -a {name} -d {fish_quoted(about)}"
        yield f"{behind('help')} -a {name} -d {fish_quoted(about)}"
    for name, said in helps.all().items():
        yield from fish_words(name, said)
    for name, topic in helps.topics.items():
        yield f"{behind('help')} -a {name} -d {fish_quoted(topic.about)}"


SHELLS = {"bash": bash, "zsh": zsh, "fish": fish}


def completions(shell, helps):
    """The completions of a shell."""
    return "\n".join(SHELLS[shell](helps)) + "\n"


def main(words):
    if len(words) != 2:
        sys.exit(__doc__)
    if words[0] not in SHELLS:
        print(f"completions: bash, zsh or fish, not {words[0]}", file=sys.stderr)
        return 2
    sys.stdout.write(completions(words[0], Helps(words[1])))
    return 0


if __name__ == "__main__":
    sys.exit(main(sys.argv[1:]))
