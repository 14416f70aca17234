#!/usr/bin/env python3
"""completions.py [--check]

Writes the completions of three shells (packaging/completions/) from the program's table of options,
crates/sd_command/src/options.rt. With --check it writes nothing, and fails if a file is stale; the last line is
then 'N passed, M failed'. tests/program/completions.py compares the files with the program's help.
"""
import argparse
import pathlib
import re
import sys
from typing import Dict, Iterable, List, NamedTuple, Optional, Tuple

HERE = pathlib.Path(__file__).resolve().parent
FOLDER = HERE / "completions"
# The table from which the program takes its options and their help.
TABLE = (HERE.parent / "crates/sd_command/src/options.rt").read_text(encoding="utf-8")
ROW = re.compile(r'OptionName::(\w+) => (optional|required|flag)!\(((?:\s*"[^"]*",?)+)\s*\)')
LIST = re.compile(r"const (\w+)_OPTIONS: .*?= \[(.*?)\];", re.DOTALL)
# The values of an option, by what they are called, where they are few.
VALUES = {
    "FORM": ("hex", "base64", "sddl"),
    "TYPE": ("file", "key", "ds"),
    "KIND": ("file", "container"),
    "NUMBER": ("4096", "8192", "8448", "12288", "16384"),
}


class Option(NamedTuple):
    name: str
    what: str
    value: Optional[str] = None  # what the value is called
    words: Tuple[str, ...] = ()  # the values, where they are few


def option_of(kind: str, texts: str) -> Option:
    """The option of a row, which has a name, what its value is called, and help. A flag has no value."""
    name, *value, what = re.findall(r'"([^"]*)"', texts)
    if len(value) != (kind != "flag"):
        sys.exit(f"completions: {name} is a row that does not read")
    return Option(name, what, *value, *(VALUES.get(called, ()) for called in value))


ROWS = {variant: option_of(kind, texts) for variant, kind, texts in ROW.findall(TABLE)}
# The options of each command.
OWN = {command.lower(): [ROWS[variant] for variant in re.findall(r"OptionName::(\w+)", listed)]
       for command, listed in LIST.findall(TABLE)}
OPTIONS = {option.name: option for options in OWN.values() for option in options}
# Each command, and what it does.
COMMANDS = {
    "convert": "convert descriptors between hex, base64 and SDDL",
    "explain": "explain descriptors line by line",
    "check": "say what descriptors grant to a token",
    "derive": "say what a new file or folder inherits",
}
HELP, SHOWS_HELP = "help", "show help"


def quoted(text: str, quote: str) -> str:
    """A text in single quotes, in which a shell writes a quote so."""
    return "'" + text.replace("'", quote) + "'"


def dashed(options: Iterable[Option]) -> List[str]:
    return [f"--{option.name}" for option in options]


def bash() -> str:
    def offer(words: str) -> str:
        return f'mapfile -t COMPREPLY < <(compgen -W {words} -- "$current")'

    few: Dict[Tuple[str, ...], List[Option]] = {}
    for option in OPTIONS.values():
        if option.words:
            few.setdefault(option.words, []).append(option)
    values = [f"        {' | '.join(dashed(options))}) {offer(repr(' '.join(words)))}; return ;;"
              for words, options in few.items()]
    free = [option for option in OPTIONS.values() if option.value and not option.words]
    values.append(f"        {' | '.join(dashed(free))}) return ;;")
    own = [f"        {command}) options='{' '.join(dashed(OWN[command]))} --{HELP}' ;;" for command in COMMANDS]
    own.append(f"        {HELP}) ((COMP_CWORD == 2)) && options='{' '.join(COMMANDS)}' ;;")
    return "\n".join((
        "# Completion of sdtool for bash.",
        "_sdtool() {",
        "    local current=${COMP_WORDS[COMP_CWORD]} previous=${COMP_WORDS[COMP_CWORD - 1]} command=${COMP_WORDS[1]}",
        "    COMPREPLY=()",
        "    if ((COMP_CWORD == 1)); then",
        f"        {offer(repr(' '.join((*COMMANDS, HELP, f'--{HELP}'))))}",
        "        return",
        "    fi",
        "    case $previous in",
        *values,
        "    esac",
        "    local options=''",
        "    case $command in",
        *own,
        "    esac",
        f"    {offer(chr(34) + '$options' + chr(34))}",
        "}",
        "complete -F _sdtool sdtool",
    ))


def zsh() -> str:
    def spec(option: Option) -> str:
        value = f":{option.value}:{'(' + ' '.join(option.words) + ')' if option.words else ''}" if option.value else ""
        return quoted(f"--{option.name}[{option.what}]{value}", "'\\''")

    def block(command: str) -> List[str]:
        own = [spec(option) for option in OWN[command] if option not in common]
        return [f"    {command})", " \\\n            ".join(("        _arguments $common", *own)), "        ;;"]

    common = [option for option in OPTIONS.values() if all(option in OWN[command] for command in COMMANDS)]
    return "\n".join((
        "#compdef sdtool",
        "# Completion of sdtool for zsh.",
        "",
        "local -a commands common",
        "commands=(",
        *(f"    '{command}:{what}'" for command, what in COMMANDS.items()),
        f"    '{HELP}:{SHOWS_HELP}'",
        ")",
        "common=(",
        *(f"    {spec(option)}" for option in (*common, Option(HELP, SHOWS_HELP))),
        ")",
        "",
        "if ((CURRENT == 2)); then",
        "    _describe command commands",
        "    return",
        "fi",
        "",
        "# The options of a command are those of its own word.",
        "local command=$words[2]",
        "shift words",
        "((CURRENT--))",
        "",
        "case $command in",
        *(line for command in COMMANDS for line in block(command)),
        f"    {HELP})",
        "        ((CURRENT == 2)) && _describe command commands",
        "        ;;",
        "esac",
    ))


def fish() -> str:
    def row(option: Option) -> str:
        having = [command for command in COMMANDS if option in OWN[command]]
        value = f" -x{' -a ' + repr(' '.join(option.words)) if option.words else ''}" if option.value else ""
        condition = f"__fish_seen_subcommand_from {' '.join(having)}"
        return f"complete -c sdtool -n '{condition}' -l {option.name}{value} -d " + quoted(option.what, "\\'")

    commands = [*COMMANDS.items(), (HELP, SHOWS_HELP)]
    return "\n".join((
        "# Completion of sdtool for fish.",
        "complete -c sdtool -f",
        *(f"complete -c sdtool -n __fish_use_subcommand -a {command} -d '{what}'" for command, what in commands),
        f"complete -c sdtool -l {HELP} -d '{SHOWS_HELP}'",
        *map(row, OPTIONS.values()),
    ))


FILES = {"sdtool.bash": bash, "_sdtool": zsh, "sdtool.fish": fish}


def main() -> int:
    parser = argparse.ArgumentParser(description="Writes the completions of three shells.")
    parser.add_argument("--check", action="store_true", help="writes nothing, and fails if a file is stale")
    checks, stale = parser.parse_args().check, 0
    for name, text in FILES.items():
        if not checks:
            (FOLDER / name).write_text(text() + "\n", encoding="utf-8")
        elif (FOLDER / name).read_text(encoding="utf-8") != text() + "\n":
            stale += 1
            print(f"FAIL packaging/completions/{name} is stale: run make figures")
    if checks:
        print(f"{len(FILES) - stale} passed, {stale} failed")
    return 1 if stale else 0


if __name__ == "__main__":
    sys.exit(main())
