#!/usr/bin/env python3
"""Writes the man page and the completions of shells from the help texts of the program: helpers.py PROGRAM FOLDER

FOLDER gets ttx.1, ttx.bash, _ttx (zsh) and ttx.fish.
"""
import pathlib
import re
import subprocess
import sys
from dataclasses import dataclass, field


@dataclass
class Option:
    name: str
    value: str
    text: str
    values: list


@dataclass
class Command:
    name: str
    text: str
    usage: str = ""
    arguments: list = field(default_factory=list)
    options: list = field(default_factory=list)
    rest: list = field(default_factory=list)


def help_of(program, words):
    told = subprocess.run([program, *words, "--help"], stdout=subprocess.PIPE, stderr=subprocess.PIPE, text=True, check=False)
    if told.returncode != 2 or told.stderr or not told.stdout:
        sys.exit(f"{program} {' '.join(words)} --help: status {told.returncode}: {told.stderr}")
    return told.stdout.splitlines()


def joined(lines):
    """The same lines, the usage, each argument and each option on one line."""
    told, listed = [], False
    for line in lines:
        if line and not line.startswith(" "):
            listed = line in ("Arguments:", "Options:") or line.startswith("Usage: ")
        if listed and line.startswith(" " * 10):
            told[-1] += " " + line.strip()
        else:
            told.append(line)
    return told


def option_of(line):
    found = re.match(r"\s+(?:-h, )?--([a-z-]+)(?: <(.+?)>)?\s{2,}(.*)", line)
    values = re.search(r"\[possible values: (.*?)\]", found[3])
    return Option(found[1], found[2] or "", found[3], values[1].split(", ") if values else [])


def command_of(program, name, text):
    command, part = Command(name, text), None
    for line in joined(help_of(program, [name])[1:]):
        if line.startswith("Usage: "):
            command.usage = line.removeprefix("Usage: ")
        elif line in ("Arguments:", "Options:"):
            part = line
        elif part == "Arguments:" and (found := re.match(r"\s+[<\[](\w+)[>\]]\s+(.*)", line)):
            command.arguments.append((found[1], found[2]))
        elif part == "Options:" and re.match(r"\s+-", line):
            command.options.append(option_of(line))
        elif part == "Options:":
            part, command.rest = "rest", command.rest + [line]
        elif part == "rest":
            command.rest.append(line)
    return command


def read(program):
    lines = help_of(program, [])
    end = lines.index("Options:")
    listed = [found.groups() for line in lines[:end] if (found := re.match(r"  ([a-z]+) {2,}(.+)", line))]
    commands = [command_of(program, name, said) for name, said in listed if name != "help"]
    after = lines.index("", end) + 1
    return lines[0], commands, lines[after:]


def roff(text):
    text = text.replace("\\", "\\e").replace("-", "\\-")
    return "\\&" + text if text.startswith((".", "'")) else text


def formatted(lines):
    """Paragraphs, and lists: an item stands two columns in, its text two or more columns behind it or farther in on the next lines."""
    out, listed = [], False
    for line in lines:
        if item := re.match(r"  (\S.*?)(?: {2,}(.*))?$", line):
            out += [".TP", roff(item[1])] + ([roff(item[2])] if item[2] else [])
        elif line.startswith(" "):
            out.append(roff(line.strip()))
        else:
            out += [".PP"] if listed or not line else []
            out += [roff(line)] if line else []
        listed = line.startswith(" ")
    return out


def preformatted(lines):
    return [".nf", *[roff(line) for line in lines], ".fi"]


def without_example(lines):
    """The lines of the help without those of its example, and those."""
    begin = lines.index("Example:")
    end = lines.index("", begin)
    return lines[:begin] + lines[end + 1 :], lines[begin + 1 : end]


def man(text, commands, rest):
    out = ['.TH TTX 1', '.SH NAME', f'ttx \\- {roff(text[0].lower() + text[1:])}', '.SH SYNOPSIS']
    for command in commands:
        out += [roff(command.usage), ".br"]
    rest, example = without_example(rest)
    out += [".SH DESCRIPTION", roff(text) + ".", ".PP", *formatted(rest)]
    for command in commands:
        out += [f".SH {command.name.upper()}", roff(command.usage), ".PP", roff(command.text) + "."]
        for name, said in command.arguments:
            out += [".TP", f".I {name}", roff(said)]
        for option in command.options:
            value = f" \\fI{roff(option.value)}\\fR" if option.value else ""
            out += [".TP", f"\\fB\\-\\-{option.name}\\fR{value}", roff(option.text)]
        out += [".PP", *formatted(command.rest)]
    out += [".SH EXAMPLES", *preformatted(example)]
    return "\n".join(out) + "\n"


def bash(commands):
    options = "\n".join(f"        {c.name}) words='{' '.join('--' + o.name for o in c.options)}' ;;" for c in commands)
    valued = {(c.name, o.name): o.values for c in commands for o in c.options if o.values}
    values = "\n".join(f"        {c}:--{o}) words='{' '.join(v)}' ;;" for (c, o), v in valued.items())
    return f"""_ttx() {{
    local current=${{COMP_WORDS[COMP_CWORD]}} before=${{COMP_WORDS[COMP_CWORD-1]}} words=
    if [ "$COMP_CWORD" = 1 ]; then
        words='{' '.join(c.name for c in commands)} help --help --version'
        COMPREPLY=($(compgen -W "$words" -- "$current"))
        return
    fi
    case ${{COMP_WORDS[1]}}:$before in
{values}
    esac
    if [ -z "$words" ]; then
        case $current in -*)
        case ${{COMP_WORDS[1]}} in
{options}
        esac ;; esac
    fi
    if [ -n "$words" ]; then
        COMPREPLY=($(compgen -W "$words" -- "$current"))
    else
        compopt -o filenames
        COMPREPLY=($(compgen -f -- "$current"))
    fi
}}
complete -F _ttx ttx
"""


def quoted(text):
    return "'" + text.replace("'", "'\\''") + "'"


def plain(text):
    return re.sub(r"[\[\]:]", " ", text)


def zsh_option(option):
    if not option.value:
        return quoted(f"--{option.name}[{plain(option.text)}]")
    action = f"({' '.join(option.values)})" if option.values else "_files" if option.value == "OUT" else " "
    return quoted(f"--{option.name}[{plain(option.text)}]:{plain(option.value)}:{action}")


def zsh(commands):
    names = " ".join(quoted(f"{c.name}:{plain(c.text)}") for c in commands)
    cases = "\n".join(
        f"        {c.name}) _arguments {' '.join(zsh_option(o) for o in c.options)} '*:file:_files' ;;" for c in commands
    )
    return f"""#compdef ttx
_ttx() {{
    local -a commands
    commands=({names})
    if (( CURRENT == 2 )); then
        _describe command commands
        return
    fi
    local name=$words[2]
    shift words
    (( CURRENT-- ))
    case $name in
{cases}
    esac
}}
_ttx "$@"
"""


def fish(commands):
    names = " ".join(c.name for c in commands)
    out = []
    for command in commands:
        out.append(f"complete -c ttx -f -n 'not __fish_seen_subcommand_from {names}' -a {command.name} -d {quoted(command.text)}")
        seen = f"'__fish_seen_subcommand_from {command.name}'"
        for option in command.options:
            takes = " -r" if option.value else ""
            values = f" -f -a '{' '.join(option.values)}'" if option.values else ""
            out.append(f"complete -c ttx -n {seen} -l {option.name}{takes}{values} -d {quoted(option.text)}")
    return "\n".join(out) + "\n"


def main():
    program, folder = sys.argv[1], pathlib.Path(sys.argv[2])
    text, commands, rest = read(program)
    folder.mkdir(parents=True, exist_ok=True)
    (folder / "ttx.1").write_text(man(text, commands, rest))
    (folder / "ttx.bash").write_text(bash(commands))
    (folder / "_ttx").write_text(zsh(commands))
    (folder / "ttx.fish").write_text(fish(commands))


if __name__ == "__main__":
    main()
