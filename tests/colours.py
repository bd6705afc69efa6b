#!/usr/bin/env python3
"""Where the bench command paints: on a terminal and never in a pipe, and never what a program reads. tests/colours.py BENCH, at the repository's root.

Each command runs in a pipe and on a pseudo terminal, as it is, with NO_COLOR, on a dumb terminal and with each --color; painted text without its colours is
the text of the pipe. One line for each check, `ok NAME` or `FAIL NAME`; exits with 1 where a check failed."""
import os
import pty
import re
import subprocess
import sys
import tempfile

BENCH = os.path.abspath(sys.argv[1])
ESCAPE = b"\x1b"
IMAGE, BOARD, START = "examples/interlock_image.hex", "examples/interlock_small.map", "examples/interlock_small.hex"
SHELF = ["shelf", "SHELF", "--board", BOARD, "--with", START]
RUN = ["run", "--map", BOARD, START, IMAGE]

# What a person reads, by name: painted on a terminal.
PEOPLE = {
    "a run": RUN,
    "a trace": [*RUN, "--trace", "--steps", "400"],
    "an explanation": ["explain", "STATE"],
    "a fit": ["fit", BOARD, "examples/interlock_image.img"],
    "a good sheet": ["sheet", "check", BOARD],
    "a shelf": SHELF,
    "a listing": ["list", IMAGE],
    "a reach": ["reach", "--map", BOARD, "--at", "0x20000100", "--never", "interlock:w", START, IMAGE],
    "a refusal": ["run", "--size", "1", IMAGE],
    "a message": ["run", "no-such-file"],
    "a usage": ["run", "--no-such-option"],
    "a help": ["run", "--help"],
}
# What a program reads: never painted.
PROGRAMS = {
    "JSON of a run": [*RUN, "--json"],
    "JSON of a reach": ["reach", "--json", "--map", BOARD, START, IMAGE],
    "JSON of a fit": ["fit", "--json", BOARD, "LABELLED"],
    "JSON of a shelf": [*SHELF, "--json"],
    "CSV": [*SHELF, "--csv"],
    "a plain listing": ["list", "--plain", IMAGE],
    "bytes": ["assemble", "PLAIN"],
    "completions": ["completions", "bash"],
    "the manual page": ["manual"],
}
failed = []


def report(name, good, note=b""):
    print(("ok " if good else "FAIL ") + "colours: " + name + ("" if good else f": {note!r}"[:300]), flush=True)
    if not good:
        failed.append(name)


def environment(extra):
    plain = {name: value for name, value in os.environ.items() if name != "NO_COLOR"}
    given = {**plain, "TERM": "xterm", **extra}
    return {name: value for name, value in given.items() if value is not None}


def piped(words, **extra):
    return subprocess.run([BENCH, *words], env=environment(extra), stdout=subprocess.PIPE, stderr=subprocess.STDOUT).stdout


def on_terminal(words, **extra):
    """What a command writes to a terminal, with the line ends of a file."""
    master, slave = pty.openpty()
    child = subprocess.Popen([BENCH, *words], env=environment(extra), stdin=slave, stdout=slave, stderr=slave)
    os.close(slave)
    said = b""
    while True:
        try:
            part = os.read(master, 65536)
        except OSError:  # how Linux tells that nobody writes any more
            break
        if not part:
            break
        said += part
    child.wait()
    os.close(master)
    return said.replace(b"\r\n", b"\n")


def bare(said):
    return re.sub(rb"\x1b\[[0-9;]*[A-Za-z]|\x1b\(B|\r", b"", said)


def people(name, words):
    plain, painted = piped(words), on_terminal(words)
    report(f"{name} in a pipe has none", plain and ESCAPE not in plain, plain)
    report(f"{name} on a terminal has some", ESCAPE in painted, painted)
    if "shelf" not in words:  # on a terminal a shelf also draws a bar
        report(f"{name} reads the same", bare(painted) == plain, bare(painted))
    for how, said in {"NO_COLOR": on_terminal(words, NO_COLOR="1"), "--color never": on_terminal([*words, "--color", "never"])}.items():
        report(f"{name} with {how} has none", said and b"m" not in re.findall(rb"\x1b\[[0-9;]*([A-Za-z])", said), said)
    report(f"{name} with --color always has some", ESCAPE in piped([*words, "--color=always"]))


def terminals(shelf):
    """Terminals that do not say what they are, or which letters they have."""
    for how, term in {"dumb": "dumb", "nameless": None, "empty": ""}.items():
        for words in (RUN, shelf):
            said = on_terminal(words, TERM=term)
            report(f"a {how} terminal gets none of {words[0]}", said and ESCAPE not in said, said)
    for locale, letters in {"C": False, "C.UTF-8": True}.items():
        said = on_terminal(shelf, LC_ALL=locale, LANG="en_GB.UTF-8")
        report(f"a bar with LC_ALL={locale}", b" images, " in said and said.isascii() != letters, said)


def main():
    with tempfile.TemporaryDirectory() as folder:
        places = {"STATE": f"{folder}/state", "PLAIN": f"{folder}/plain", "SHELF": f"{folder}/shelf",
                  "LABELLED": f"{folder}/this does not fit.img"}  # a name that would be painted in a report
        os.mkdir(places["SHELF"])
        os.symlink(os.path.abspath(IMAGE), f"{places['SHELF']}/image.hex")
        subprocess.run(["cp", IMAGE, f"{places['SHELF']}/other.hex"], check=True)
        subprocess.run(["cp", "examples/interlock_image.img", places["LABELLED"]], check=True)
        piped([*RUN, "--save", places["STATE"]])
        with open(places["PLAIN"], "wb") as file:
            file.write(piped(["list", "--plain", IMAGE]))
        placed = {name: [places.get(word, word) for word in words] for name, words in {**PEOPLE, **PROGRAMS}.items()}
        for name in PEOPLE:
            people(name, placed[name])
        for name in PROGRAMS:
            words = [*placed[name], "--color", "always"]
            said = subprocess.run([BENCH, *words], stdout=subprocess.PIPE, stderr=subprocess.DEVNULL).stdout
            report(f"{name} never has one", said and ESCAPE not in said, said)
        terminals(placed["a shelf"])
    sys.exit(1 if failed else 0)


main()
