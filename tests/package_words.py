#!/usr/bin/env python3
"""Holds a shell's completions, or the manual page, of the bench command to what its --help says.

    tests/package_words.py BENCH bash|zsh|fish|page FILE

Every command is named in FILE, and for it every option. The page is the text that groff makes of it. A fault is a line; exits with 1 if there is one."""
import re
import subprocess
import sys

LEAST_COMMANDS, LEAST_OPTIONS = 15, 60  # fewer were not understood


def output(*words):
    return subprocess.run(words, check=True, capture_output=True, text=True).stdout


def told(bench, *words):
    """Each command, as its words, with its options and the names of the commands below it."""
    help_text = output(bench, *words, "--help")
    below = re.search(r"^Commands:\n(.*?)\n\n", help_text, re.S | re.M)
    inner = re.findall(r"^  ([a-z]+)", below.group(1), re.M) if below else []
    yield words, re.findall(r"^ +(?:-\w, )?(--[a-z-]+)", help_text, re.M), inner
    for name in inner:
        yield from told(bench, *words, name)


COMPLETE = 'source "$1"; shift; COMP_WORDS=("$@"); COMP_CWORD=$(($# - 1)); _bench bench "${COMP_WORDS[$COMP_CWORD]}"; printf "%s\\n" "${COMPREPLY[@]}"'


def bash(path, words, options, inner):
    offered = output("bash", "-c", COMPLETE, "-", path, "bench", *words, "--").split()
    offered += output("bash", "-c", COMPLETE, "-", path, "bench", *words, "").split()
    return [word for word in options + inner if word not in offered]


def zsh(path, words, options, inner):
    text = read(path)
    head = rf"\({words[-1]}\)\n" if words else r"state line\n *"
    part = re.search(head + r"_arguments(.*?)&& ret=0", text, re.S)
    missing = [word for word in options if not part or not re.search(rf"['*)]{word}=?\[", part.group(1))]
    listed = re.search(rf"_{'__'.join(('bench',) + words)}_commands\(\) \{{(.*?)\}}", text, re.S)
    return missing + [name for name in inner if not listed or f"'{name}:" not in listed.group(1)]


def fish(path, words, options, inner):
    seen = "; and ".join(f"__fish_seen_subcommand_from {word}" for word in words) or "__fish_use_subcommand"
    lines = [line for line in read(path).split("\n") if f'-n "{seen}"' in line or f'-n "{seen}; and not' in line]
    return ([word for word in options if not any(f" -l {word[2:]} " in line for line in lines)]
            + [name for name in inner if not any(f'-a "{name}"' in line for line in lines)])


def page(path, words, options, inner):
    """Commands that have others below them have no part of their own; --help and --version are every command's."""
    if inner:
        return []
    part = re.search(rf"^   bench {' '.join(words)}\b(.*?)(?=^   ?\S|^\S|\Z)", read(path), re.S | re.M)
    return [word for word in options if not part or not re.search(rf"^ +(?:-\w, )?{word}( |$)", part.group(1), re.M)]


def read(path):
    with open(path, encoding="utf-8") as file:
        return file.read()


def main():
    bench, kind, path = sys.argv[1:]
    commands = list(told(bench))
    count = sum(len(options) for _, options, _ in commands)
    faults = [] if len(commands) > LEAST_COMMANDS and count > LEAST_OPTIONS else [f"only {len(commands)} commands and {count} options were found"]
    for words, options, inner in commands:
        faults += [f"{kind}: no '{missing}' for '{' '.join(('bench',) + words)}'" for missing in globals()[kind](path, words, options, inner)]
    print("\n".join(faults) or f"{len(commands)} commands, {count} options")
    sys.exit(1 if faults else 0)


main()
