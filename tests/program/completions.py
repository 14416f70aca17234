"""Compares the completions of packaging/completions/ with the program's help: each shell's file offers for each command
exactly the options that the command's help lists, with a value exactly if help names one, and exactly the commands that
help lists.
"""
import pathlib
import re
import subprocess

import preload

FOLDER = pathlib.Path(__file__).resolve().parents[2] / "packaging/completions"
SECONDS = 1200
OPTION = re.compile(r"--([a-z][a-z-]*)")


def help_of(program, *words):
    ended = subprocess.run([program, "help", *words], stdout=subprocess.PIPE, timeout=SECONDS, check=True)
    return ended.stdout.decode()


def commands_of(program):
    """The names in the list of commands, each the first word of its line."""
    _, _, listed = help_of(program).partition("Commands:\n")
    return re.findall(r"^  ([a-z]+)\b", listed.partition("\n\n")[0], re.M)


def marked(name, has_value):
    """An option's name, with a sign if it has a value."""
    return f"{name}=" if has_value else name


def options_of(program, command):
    _, _, listed = help_of(program, command).partition("Options:\n")
    return {marked(*found) for found in re.findall(r"^ +(?:-\w, )?--([a-z][a-z-]*)( <)?", listed, re.M)}


def of_bash(command):
    """The options of a command, from the one line that sets them. Those after which a value comes are words of a
    case."""
    text = (FOLDER / "sdtool.bash").read_text(encoding="utf-8")
    found = re.search(rf"^ +{command}\) options='([^']*)'", text, re.M)
    valued = OPTION.findall(" ".join(re.findall(r"^ +(--[^)]*)\)", text, re.M)))
    return {marked(name, name in valued) for name in OPTION.findall(found[1])} if found else set()


def of_zsh(command):
    """The options of a command, and those that each has."""
    text = (FOLDER / "_sdtool").read_text(encoding="utf-8")
    common = re.search(r"^common=\(\n(.*?)^\)", text, re.M | re.S)[1]
    own = re.search(rf"^    {command}\)\n(.*?)^        ;;", text, re.M | re.S)
    rows = re.findall(r"^ +'--([a-z-]+)\[[^]]*\](:?)", common + (own[1] if own else ""), re.M)
    return {marked(*row) for row in rows}


def of_fish(command):
    """The options whose condition names the command, or which have none."""
    text = (FOLDER / "sdtool.fish").read_text(encoding="utf-8")
    options = set()
    for row in text.splitlines():
        option, condition = re.search(r" -l ([a-z-]+)", row), re.search(r"from ([a-z ]+)'", row)
        if row.startswith("complete") and option and (condition is None or command in condition[1].split()):
            options.add(marked(option[1], " -x" in row))
    return options


def main(count: preload.Count, given: preload.Given) -> None:
    program = given.program
    commands = commands_of(program)
    count.add(len(commands) >= 4, f"the commands of help: {commands}")
    for command in commands:
        for name in ("sdtool.bash", "_sdtool", "sdtool.fish"):
            text = (FOLDER / name).read_text(encoding="utf-8")
            count.add(re.search(rf"\b{command}\b", text), f"{name}: no {command}")
        if command == "help":
            continue
        wanted = options_of(program, command)
        count.add(len(wanted) > 2, f"the options of {command}: {sorted(wanted)}")
        for name, found in (("bash", of_bash), ("zsh", of_zsh), ("fish", of_fish)):
            offered = found(command)
            count.add(offered == wanted, f"{name}, {command}: {sorted(offered ^ wanted)} on one side alone")
