#!/usr/bin/env python3
"""Map sheets and images through the bench command, beside code that is in neither program: Python's regular expressions for the form of
a line, and sort, uniq and cut for a comparison. The rules are document 02's, 7 and 12. Prints 'ok NAME' or 'FAIL NAME' for each check."""
import os
import random
import re
import subprocess
import sys
import tempfile

ROOT = os.path.dirname(os.path.dirname(os.path.abspath(__file__)))
BENCH = os.path.join(ROOT, "host/bench/target/release/bench")
LINE = re.compile(rb"region\t([a-z]{1,16})\t([0-9a-f]{8})\t([0-9a-f]{8})\t(r?w?x?)(?<!\t)\n")
SHEETS, PAIRS, IMAGES = 800, 300, 500
TELLING = b"\n\t\r \x00/09:`abfgrwxz{AFRX\x80\xff"
rng = random.Random(1)


def regions(text):
    """The regions of a sheet as (name, start, end, rights), or its first bad line."""
    found = []
    for number, line in enumerate(re.findall(rb"[^\n]*\n|[^\n]+\Z", text), 1):
        match = LINE.fullmatch(line)
        if not match or number > 64:
            return number
        name, start, length = match[1], int(match[2], 16), int(match[3], 16)
        end = start + length
        clash = any(name == other or (start < to and at < end) for other, at, to, _ in found)
        if length == 0 or end > 1 << 32 or clash:
            return number
        found.append((name, start, end, set(match[4])))
    return found or 1


def label(image):
    """The same of an image's sheet, which the first empty line ends."""
    sheet, empty, _ = image.partition(b"\n\n")
    found = regions(sheet + b"\n" if empty else image)
    return found if empty or isinstance(found, int) else len(found) + 1


def good_lines():
    """Lines of a good sheet: names at random, places one after another, often touching."""
    count = rng.choice([1, 2, 3, 4, 8, 63, 64])
    names = set()
    while len(names) < count:
        names.add(bytes(rng.choice(b"abz") for _ in range(rng.randint(1, 16))))
    at, lines = rng.choice([0, 0x20000000]), []
    for name in names:
        at += rng.choice([0, 0, 1, 4096])
        length = rng.choice([1, 16, 4096])
        rights = rng.choice([b"r", b"w", b"x", b"rw", b"rx", b"wx", b"rwx"])
        lines.append(b"region\t%s\t%08x\t%08x\t%s\n" % (name, at, length, rights))
        at += length
    rng.shuffle(lines)
    return lines


def damaged(text):
    """The text with nothing, or a byte, a line or a number wrong."""
    kind, place, byte = rng.randrange(7), rng.randrange(len(text)), bytes([rng.choice(TELLING)])
    if kind == 0:
        return text
    if kind in (1, 2):
        return text[:place] + byte + text[place + (kind == 1):]
    if kind == 3:
        return text[:place] + text[place + 1:]
    lines = text.splitlines(keepends=True)
    line = rng.randrange(len(lines))
    if kind == 4:
        return b"".join(lines + [lines[line]])
    fields = lines[line].split(b"\t")
    numbers = [0, 1, 0xffffffff, int(fields[2], 16), int(fields[3], 16) + rng.choice([-1, 1])]
    fields[rng.choice([2, 3])] = b"%08x" % (rng.choice(numbers) % (1 << 32))
    lines[line] = b"\t".join(fields)
    return b"".join(lines)


def asking(lines):
    """Some of a board's lines, or one of them asking for a byte or a right more."""
    chosen = rng.sample(lines, min(rng.choice([1, 3]), len(lines)))
    fields = chosen[0].split(b"\t")
    if rng.random() < 0.3:
        fields[3] = b"%08x" % (int(fields[3], 16) + 1)
    elif rng.random() < 0.4:
        fields[4] = b"rwx\n"
    return b"".join([b"\t".join(fields)] + chosen[1:])


def said(*words):
    """The exit status and what the command says, on standard output and on standard error."""
    ran = subprocess.run([BENCH, *words], capture_output=True, text=True)
    return ran.returncode, ran.stdout, ran.stderr


def put(name, text):
    with open(name, "wb") as file:
        file.write(text)
    return name


def checks():
    """Good and damaged sheets: whether each is good, and else its first bad line."""
    answers = {0: 0, 2: 0}
    for _ in range(SHEETS):
        text = damaged(b"".join(good_lines()))
        right = regions(text)
        status, out, err = said("sheet", "check", put("sheet", text))
        if isinstance(right, int):
            assert status == 2 and err.startswith(f"bench: sheet: line {right}: "), (text, right, err)
        else:
            assert status == 0 and out.startswith("sheet: a good sheet, %d region" % len(right)), (text, out, err)
        answers[status] += 1
    assert min(answers.values()) > SHEETS // 8, answers


def compares():
    """Two good sheets: the names of the lines that stand in one alone, by sort, uniq and cut."""
    pipe = "LC_ALL=C; export LC_ALL; cat one two | sort | uniq -u | cut -f 2 | sort -u"
    differing = 0
    for _ in range(PAIRS):
        lines = good_lines()
        other = [line.replace(b"\trw\n", b"\tr\n") if rng.random() < 0.3 else line for line in lines if rng.random() < 0.9]
        rng.shuffle(other)
        put("one", b"".join(lines)), put("two", b"".join(other or lines))
        right = subprocess.run(["sh", "-c", pipe], capture_output=True, text=True, check=True).stdout.split()
        status, out, err = said("sheet", "compare", "one", "two")
        names = [line.split()[0] for line in out.splitlines() if line.startswith("  ")]
        assert (status, names, err) == (1 if right else 0, right, ""), (right, out, err)
        differing += bool(right)
    assert PAIRS > differing > PAIRS // 2, differing


def holds(board, image):
    return all(any(at <= start and end <= to and rights <= has for _, at, to, has in board) for _, start, end, rights in image)


def loads(image, own, board):
    """Whether each byte of a payload, raw from its label's first region on, lies in a region of the label and in one of the board."""
    payload, start = image.partition(b"\n\n")[2], own[0][1]
    inside = lambda sheet, address: any(at <= address < to for _, at, to, _ in sheet)
    return all(inside(own, start + place) and inside(board, start + place) for place in range(len(payload)))


def fits():
    """Two images on a board: which fits, the first bad sheet, or neither."""
    answers = dict.fromkeys(["first", "second", "neither", "bad"], 0)
    for _ in range(IMAGES):
        lines = good_lines()
        board = damaged(b"".join(lines)) if rng.random() < 0.1 else b"".join(lines)
        texts = [asking(lines), asking(lines)]
        texts = [damaged(text) if rng.random() < 0.2 else text for text in texts]
        payloads = [rng.choice([b"", b"\n", b"payload\n\n"]) for _ in range(2)]
        one, two = (text + rng.choice([b"\n"] * 9 + [b""]) + payload for text, payload in zip(texts, payloads))
        put("board", board), put("one", one), put("two", two)
        judged = [regions(board), label(one), label(two)]
        status, out, err = said("fit", "board", "one", "two")
        bad = next((place for place in range(3) if isinstance(judged[place], int)), None)
        if bad is not None:
            name = ["board", "one", "two"][bad]
            assert status == 2 and err.startswith(f"bench: {name}: line {judged[bad]}: "), (board, one, two, judged, err)
            answers["bad"] += 1
            continue
        first, second = (holds(judged[0], own) and loads(image, own, judged[0]) for image, own in zip((one, two), judged[1:]))
        right = "Image 1 fits" if first else "Image 2 fits" if second else "Neither image fits"
        assert status == (0 if first or second else 1) and out.startswith(right), (board, one, two, out, err)
        answers["first" if first else "second" if second else "neither"] += 1
    assert min(answers.values()) > IMAGES // 20, answers


def main():
    bad = 0
    with tempfile.TemporaryDirectory() as folder:
        os.chdir(folder)
        for check in (checks, compares, fits):
            try:
                check()
                print(f"ok sheets: {check.__doc__}")
            except AssertionError as wrong:
                print(f"{wrong}\nFAIL sheets: {check.__doc__}")
                bad = 1
    sys.exit(bad)


main()
