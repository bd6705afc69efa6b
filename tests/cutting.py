#!/usr/bin/env python3
"""Runs the cutting program and the label station's C program, and compares what they write with an expectation that is
computed here from document 01 alone. From the repository's root: python3 tests/cutting.py

One line for each check, `ok NAME` or `FAIL NAME`; exits with 1 where a check failed. Needs the kit, gcc and python3."""
import os
import random
import re
import subprocess
import sys
import threading
import time

ROOT = os.path.dirname(os.path.dirname(os.path.abspath(__file__)))
LIBRARIES = os.environ.get("ODDERSNOW_STATICLIB")  # where they lie, if they are built
CUT = "target/bin/cut"
STATION = "target/label_station"
NUMBERS = "target/label_numbers"
LEAST_SPEED = 20.0  # megabytes of input a second
failed = []


def report(name, good, note=""):
    print(("ok " if good else "FAIL ") + name + (": " + note if note else ""), flush=True)
    if not good:
        failed.append(name)


# ---- document 01, "Capability word" and "Cutting bounds"

def bounds(address, e, top, base):
    mid = address // 2**e % 512
    up = address // 2**(e + 9)
    h = 1 if mid < base else 0
    t = 1 if top < base else 0
    low = ((up - h) * 2**(e + 9) + base * 2**e) % 2**32
    high = ((up + t - h) * 2**(e + 9) + top * 2**e) % 2**33
    return low, high


def word_bounds(address, metadata):
    field = metadata // 2**18 % 16
    return bounds(address, 24 if field == 15 else field, metadata // 2**9 % 512, metadata % 512)


def cut(base, length):
    """(low, high, exact), or None for refusal 6."""
    end = base + length
    if end > 2**32:
        return None
    for e in [*range(15), 24]:
        unit = 2**e
        down = base // unit * unit
        up = (end + unit - 1) // unit * unit
        if up - down <= 511 * unit:
            break
    low, high = bounds(base, e, up // unit % 512, down // unit % 512)
    return low, high, low == base and high == end


# ---- document 01, "Cases": the cutting program's text

HEADER = b"cut\tlow\thigh\texact\n"
WELL_FORMED = re.compile(rb"[0-9a-f]{8}\t[0-9a-f]{8}")


def answer(number, line):
    if not WELL_FORMED.fullmatch(line):
        return b"%d\tbad\tline\n" % number
    made = cut(int(line[:8], 16), int(line[9:], 16))
    if made is None:
        return b"%d\tbad\t6\n" % number
    low, high, exact = made
    return b"%d\t%08x\t%09x\t%s\n" % (number, low, high, b"yes" if exact else b"no")


def expected(data):
    lines = data.split(b"\n")
    if lines[-1] == b"":
        lines.pop()
    return HEADER + b"".join(answer(n, line) for n, line in enumerate(lines, 1))


# ---- running

def run(program, data, sizes=None, slow=0.0):
    """What the program writes, fed through a pipe: at once, or in writes of the sizes that `sizes` yields; read with pauses of `slow`."""
    child = subprocess.Popen([program], stdin=subprocess.PIPE, stdout=subprocess.PIPE, stderr=subprocess.PIPE, bufsize=0)

    def feed():
        view, at = memoryview(data), 0
        while at < len(view):
            size = 1 << 20 if sizes is None else next(sizes)
            at += os.write(child.stdin.fileno(), view[at:at + size])
        child.stdin.close()

    feeder = threading.Thread(target=feed)
    feeder.start()
    out = []
    while piece := os.read(child.stdout.fileno(), 1 << 20 if not slow else 1000):
        out.append(piece)
        if slow:
            time.sleep(slow)
    feeder.join()
    said = child.stderr.read()
    if child.wait() != 0 or said:
        return b"ended with %d, said %r" % (child.returncode, said)
    return b"".join(out)


def compare(name, data, **how):
    want = expected(data)
    for program in (CUT, STATION):
        got = run(program, data, **how)
        report("%s (%s)" % (name, os.path.basename(program)), got == want, "" if got == want else difference(got, want))


def difference(got, want):
    at = next((i for i, (a, b) in enumerate(zip(got, want)) if a != b), min(len(got), len(want)))
    return "at byte %d: %r, expected %r" % (at, got[at:at + 60], want[at:at + 60])


def command(*words):
    done = subprocess.run(words, cwd=ROOT, stdout=subprocess.PIPE, stderr=subprocess.STDOUT)
    name = " ".join(words[:3])
    report(name, done.returncode == 0, "" if done.returncode == 0 else done.stdout.decode(errors="replace")[-2000:])
    return done.returncode == 0


def compiled(source, program):
    library = os.path.join(LIBRARIES or "target/staticlib", "liblabel.a")
    return command("gcc", "-std=c11", "-O2", "-Wall", "-Wextra", "-Werror", "-Iinclude", source, library, "-o", program)


# ---- inputs

def some_request(rng):
    """Base and length, of every size, at the ends of the address space and at the limits of the exponents."""
    base = rng.choice([rng.getrandbits(32), rng.getrandbits(rng.randint(0, 32)), 2**32 - 1 - rng.getrandbits(rng.randint(0, 12))])
    length = rng.choice([rng.getrandbits(rng.randint(0, 32)), (511 << rng.randint(0, 23)) + rng.randint(-2, 2), 2**32 - base + rng.randint(-2, 2)])
    return base % 2**32, max(0, length) % 2**32


def request_lines(rng, count):
    return b"".join(b"%08x\t%08x\n" % some_request(rng) for _ in range(count))


def odd_lines(rng, count):
    """Lines that are nearly well-formed, and lines of any bytes."""
    lines = []
    for _ in range(count):
        line = bytearray(b"%08x\t%08x" % some_request(rng))
        kind = rng.randrange(6)
        if kind == 0:
            line[rng.randrange(len(line))] = rng.choice(b"\x00\xff\r\t gG/:`AFaf09-+x\x80")
        elif kind == 1:
            line = line[:rng.randrange(len(line) + 1)]
        elif kind == 2:
            line += bytes(rng.choice(b"0\t\r \x00f\xff") for _ in range(rng.randint(1, 40)))
        elif kind == 3:
            line = bytes(rng.choice(b"0123456789abcdef\t") for _ in range(17))
        elif kind == 4:
            line = bytes(b for b in rng.randbytes(rng.randint(0, 40)) if b != 10)
        lines.append(bytes(line))
    return b"\n".join(lines)


def checks():
    rng = random.Random(1)
    example = b"20000001\t00000200\nffffffff\t00000002"
    told = HEADER + b"1\t20000000\t020000202\tno\n2\tbad\t6\n"
    report("the expectation has document 01's example", expected(example) == told)
    compare("document 01's example", example + b"\n")
    compare("a last line without a newline", example)
    compare("empty input", b"")
    compare("a newline alone", b"\n")
    compare("newlines alone", b"\n" * 200_000)
    compare("zero length", b"".join(b"%08x\t00000000\n" % base for base in (0, 1, 511, 2**31, 2**32 - 1)))
    compare("the end of the address space", b"".join(b"%08x\t%08x\n" % (2**32 - n, n + d) for n in (1, 511, 512, 2**20, 2**31) for d in (-1, 0, 1)))
    odd = [b"\x00" * 17, b"\xff" * 17, b"20000001\t00000200\r", b"2000000A\t00000200", b"20000001\t0000020F", b"20000001 00000200", b" 20000001\t00000200",
           b"20000001\t00000200 ", b"20000001\t\t0000200", b"20000001\t0000020", b"2000001\t000000200", b"\t", b"0x000001\t00000200", b"+2000001\t00000200",
           b"2000000\x00\t00000200", b"20000001\t00000200" + b"\x00", b"20000001\t00000200"]
    compare("odd bytes", b"\n".join(odd))
    compare("odd lines", odd_lines(rng, 100_000))
    compare("lines of a megabyte", b"f" * 1_000_003 + b"\n" + example + b"\n" + b"\x00" * 3_000_000 + b"\n20000001\t00000200\n" + b"0" * 1_048_576)
    requests = request_lines(rng, 300_000)
    compare("%.1f MB of requests" % (len(requests) / 1e6), requests)
    for lead in (65518, 65527, 65535):
        compare("a line across a block's end, %d" % lead, b"x" * lead + b"\n" + requests[:200_000])
    part = requests[:9_000] + odd_lines(rng, 500)
    compare("writes of 1 to 7 bytes", part, sizes=iter(lambda: rng.randint(1, 7), 0))
    compare("writes of 1 to 70,000 bytes", requests[:1_000_000], sizes=iter(lambda: rng.randint(1, 70_000), 0))
    compare("a slow reader", requests[:100_000], slow=0.0002)
    numbers(rng)
    speed(requests)


def numbers(rng):
    """The six functions of the library, one by one."""
    pairs = [some_request(rng) for _ in range(50_000)] + [(rng.getrandbits(32), rng.getrandbits(32)) for _ in range(50_000)]
    pairs += [(address, 0x7E3E0000) for address in (0, 2**32 - 1)]
    got = run(NUMBERS, b"".join(b"%x %x\n" % pair for pair in pairs))
    want = []
    for a, b in pairs:
        made = cut(a, b)
        number, (low, high, exact) = (6, (0, 0, 0)) if made is None else (0, made)
        want.append(b"%d %x %x %d %x %x\n" % (number, low, high, exact, *word_bounds(a, b)))
    want = b"".join(want)
    report("the library's six functions", got == want, "" if got == want else difference(got, want))


def speed(requests):
    data = requests * (60_000_000 // len(requests))
    best = 0.0
    for _ in range(3):
        began = time.perf_counter()
        run(CUT, data)
        best = max(best, len(data) / 1e6 / (time.perf_counter() - began))
    report("speed through pipes", best >= LEAST_SPEED, "%.0f MB/s, at least %.0f" % (best, LEAST_SPEED))


def main():
    os.chdir(ROOT)
    if command("packaging/proved", "cut") and (LIBRARIES or command("packaging/proved", "label")):
        if compiled("examples/label_station.c", STATION) and compiled("tests/label_numbers.c", NUMBERS):
            checks()
    print("%d failed" % len(failed) if failed else "all passed")
    sys.exit(1 if failed else 0)


if __name__ == "__main__":
    main()
