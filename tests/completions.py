#!/usr/bin/env python3
"""Prints docs/nova.bash, the completions of bash for nova, made from the help of the built program.

usage: tests/completions.py [PROGRAM] > docs/nova.bash

tests/readme.sh compares that file with what this prints.
"""

import re
import subprocess
import sys
from pathlib import Path

HERE = Path(__file__).resolve().parent.parent
PROGRAM = sys.argv[1] if len(sys.argv) > 1 else str(HERE / "crates/nova/out/nova")

HEAD = """\
# Completions of bash for nova; source this file. tests/completions.py makes it from the help of the program.
_nova() {
    local word=${COMP_WORDS[COMP_CWORD]} before=${COMP_WORDS[COMP_CWORD - 1]} words=
    COMPREPLY=()
"""


def said(*words):
    return subprocess.run([PROGRAM, *words], stderr=subprocess.PIPE, text=True, check=False).stderr


def commands():
    listed = re.search(r"^Commands:\n((?:  .*\n)+)", said("--help"), re.MULTILINE)[1]
    return re.findall(r"^  (\w+)", listed, re.MULTILINE)


def options(command):
    """The options of a command, and those of them whose value is a number, a size or a version."""
    found = re.findall(r"^ +(?:-\w, )?(--[a-z-]+)(?: <[a-z-]+>)? +(.*)", said(command, "--help"), re.MULTILINE)
    return [name for name, _ in found], [name for name, text in found if text.startswith(("The number", "The size", "The version"))]


def main():
    names = commands()
    print(HEAD, end="")
    print('    if [ "$COMP_CWORD" -eq 1 ]; then')
    print(f'        words="{" ".join(names)} --help --version"')
    print("    else")
    print("        case ${COMP_WORDS[1]} in")
    numbers = set()
    for name in names:
        if name == "help":
            print(f'            help) words="{" ".join(it for it in names if it != "help")}" ;;')
            continue
        taken, counted = options(name)
        numbers.update(counted)
        classes = said("explain", "none").split("the classes are ")[1].split() if name == "explain" else []
        print(f'            {name}) words="{" ".join(classes + taken)}" ;;')
    print("        esac")
    print("    fi")
    print("    # A number is written by hand, and everything else may be a file.")
    print("    case $before in")
    print(f"        {' | '.join(sorted(numbers))}) return ;;")
    print("    esac")
    print('    mapfile -t COMPREPLY < <(compgen -W "$words" -- "$word")')
    print('    if [ "$COMP_CWORD" -gt 1 ]; then')
    print('        mapfile -t -O "${#COMPREPLY[@]}" COMPREPLY < <(compgen -f -- "$word")')
    print("    fi")
    print("}")
    print("complete -o filenames -F _nova nova ./nova")


main()
