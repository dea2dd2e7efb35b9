#!/usr/bin/env python3
"""Makes the completion of the commands in Python for bash, zsh and fish, of their parsers: complete.py FOLDER

In the folder COMMAND.bash, _COMMAND and COMMAND.fish. Wants the modules libmvt and mvt_tools."""

import importlib
import re
import sys
from pathlib import Path

COMMANDS = {
    "mvt-audit": "mvt_tools.audit.main",
    "mvt-geojson": "mvt_tools.geojson",
    "mvt-page": "mvt_tools.page.main",
    "mvt-tile": "mvt_tools.tile",
}

BASH = """\
# Completion of {command} for bash.
_{function}() {{
  local word=${{COMP_WORDS[COMP_CWORD]}}
  COMPREPLY=()
  case ${{COMP_WORDS[COMP_CWORD - 1]}} in
{cases}  esac
  if [[ $word == -* ]]; then
    mapfile -t COMPREPLY < <(compgen -W "{options}" -- "$word")
  else
    mapfile -t COMPREPLY < <(compgen -f -- "$word")
  fi
}}
complete -o filenames -F _{function} {command}
"""


class Option:
    """An option of a command: its name, what it does, and what follows it, which is None, "folder", words or anything."""

    def __init__(self, action):
        self.name = action.option_strings[-1]
        self.letter = next((word for word in action.option_strings if len(word) == 2), None)
        self.told = re.sub(r"\s+", " ", action.help or "")
        self.takes = action.nargs != 0
        self.words = list(action.choices or [])
        self.is_folder = action.metavar == "FOLDER"


def options_of(module):
    parser = importlib.import_module(module)._parser()
    return [Option(action) for action in parser._actions if action.option_strings]


def bash(command, options):
    cases = ""
    for option in (option for option in options if option.takes):
        reply = 'mapfile -t COMPREPLY < <(compgen -d -- "$word")\n      ' if option.is_folder else ""
        if option.words:
            reply = f'mapfile -t COMPREPLY < <(compgen -W "{" ".join(option.words)}" -- "$word")\n      '
        cases += f"    {option.name})\n      {reply}return\n      ;;\n"
    names = " ".join(option.name for option in options)
    return BASH.format(command=command, function=command.replace("-", "_"), cases=cases, options=names)


def _quoted(text):
    return text.replace("'", "'\\''")


def zsh(command, options):
    lines = [f"#compdef {command}", f"# Completion of {command} for zsh.", "_arguments \\"]
    for option in options:
        told = re.sub(r"([\[\]:])", r"\\\1", option.told)
        follows = f":{option.name[2:]}:" if option.takes else ""
        if option.takes:
            follows += "_files -/" if option.is_folder else f"({' '.join(option.words)})" if option.words else ""
        names = f"'{{{option.letter},{option.name}}}'" if option.letter else option.name
        lines.append(f"  '{names}[{_quoted(told)}]{follows}' \\")
    return "\n".join([*lines, "  '*:what:_files'", ""])


def fish(command, options):
    lines = [f"# Completion of {command} for fish."]
    for option in options:
        letter = f" -s {option.letter[1:]}" if option.letter else ""
        takes = " -x" if option.takes else ""
        if option.is_folder or option.words:
            takes += f" -a '{'(__fish_complete_directories)' if option.is_folder else ' '.join(option.words)}'"
        lines.append(f"complete -c {command}{letter} -l {option.name[2:]}{takes} -d '{_quoted(option.told)}'")
    return "\n".join([*lines, ""])


def main():
    folder = Path(sys.argv[1])
    folder.mkdir(parents=True, exist_ok=True)
    for command, module in COMMANDS.items():
        options = options_of(module)
        (folder / f"{command}.bash").write_text(bash(command, options))
        (folder / f"_{command}").write_text(zsh(command, options))
        (folder / f"{command}.fish").write_text(fish(command, options))


main()
