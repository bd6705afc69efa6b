#!/usr/bin/env python3
"""Checks of the bench's pages, for tests/page.sh and tests/shelf.sh: python3 tests/page.py WHAT ARGUMENTS..

    alone PAGE..                no page loads or runs anything: no script, no frame, no address but a page beside it or a part of itself
    same PAGE PAGE              two pages have the same elements with the same attributes in the same order; their texts may differ
    says FILE TEXT..            each text stands in what a page shows
    pixels PNG COLOUR COUNT ..  a picture has at least so many pixels of a colour, six digits each
    links INDEX                 every link of a page leads to a file beside it, which is a page; prints how many
    elf OUT NAME                an ELF image at 20000000 that stops at once, with a function of that name

Exits with 1, and says why, where that is not so."""
import html.parser
import os
import re
import struct
import sys
import zlib

VOID = {"meta", "br", "hr", "img", "input", "link"}
# What an element may have that is an address, or could be one.
ADDRESSES = {"src", "href", "xlink:href", "action", "data", "srcset", "poster", "background", "formaction", "style"}


class Page(html.parser.HTMLParser):
    """The elements of a page in order, and its text."""

    def __init__(self, path):
        super().__init__(convert_charrefs=True)
        self.elements, self.texts, self.open = [], [], []
        with open(path, encoding="utf-8") as file:
            self.source = file.read()
        self.feed(self.source)
        self.close()

    def handle_starttag(self, tag, attrs):
        self.elements.append((tag, tuple(attrs)))
        if tag not in VOID:
            self.open.append(tag)

    def handle_startendtag(self, tag, attrs):
        self.elements.append((tag, tuple(attrs)))

    def handle_endtag(self, tag):
        assert self.open and self.open[-1] == tag, f"</{tag}> closes {self.open[-1:]}"
        self.open.pop()

    def handle_data(self, data):
        if self.open[-1:] != ["style"]:
            self.texts.append(data)

    def handle_comment(self, data):
        raise AssertionError(f"a comment: {data}")


def alone(*paths):
    for path in paths:
        page = Page(path)
        assert not page.open, f"{path}: not closed: {page.open}"
        tags = {tag for tag, _ in page.elements}
        bad = tags & {"script", "iframe", "object", "embed", "link", "img", "base", "form", "foreignobject", "use", "image", "animate"}
        assert not bad, f"{path}: {bad}"
        for tag, attrs in page.elements:
            for name, value in attrs:
                assert not name.startswith("on"), f"{path}: {tag} {name}"
                plain = name == "href" and re.fullmatch(r"[A-Za-z0-9._-]+\.html", value)
                assert name not in ADDRESSES or plain, f"{path}: {tag} {name}={value}"
        urls = re.findall(r"url\(([^)]*)\)|@import", page.source)
        assert set(urls) <= {"#hatch"}, f"{path}: {urls}"
        assert ("meta", (("http-equiv", "Content-Security-Policy"), ("content", "default-src 'none'; style-src 'unsafe-inline'"))) in page.elements, path
        odd = [letter for letter in page.source if letter != "\n" and not letter.isprintable()]
        assert not odd, f"{path}: {odd[:5]}"


def same(first, second):
    first, second = Page(first), Page(second)
    for number, (one, two) in enumerate(zip(first.elements, second.elements)):
        assert one == two, f"element {number}: {one} and {two}"
    assert len(first.elements) == len(second.elements) > 100, (len(first.elements), len(second.elements))


def says(path, *texts):
    # Spaces are left out: a table has none between its cells.
    shown = "".join("".join(Page(path).texts).split())
    for text in texts:
        assert "".join(text.split()) in shown, f"no '{text}' in {path}: {shown[-3000:]}"


def picture(path):
    """The rows of a PNG of 8 bits a channel, three or four channels, each as bytes of three channels."""
    with open(path, "rb") as file:
        data = file.read()
    assert data[:8] == b"\x89PNG\r\n\x1a\n", "no PNG"
    at, packed, head = 8, b"", None
    while at < len(data):
        length, kind = struct.unpack(">I4s", data[at:at + 8])
        body = data[at + 8:at + 8 + length]
        head = struct.unpack(">IIBBBBB", body) if kind == b"IHDR" else head
        packed += body if kind == b"IDAT" else b""
        at += 12 + length
    width, height, depth, colour, _, _, interlaced = head
    assert (depth, interlaced) == (8, 0) and colour in (2, 6), head
    step = 3 if colour == 2 else 4
    raw, before = zlib.decompress(packed), bytearray(step * width)
    for y in range(height):
        start = y * (step * width + 1)
        row = unfiltered(raw[start], bytearray(raw[start + 1:start + 1 + step * width]), before, step)
        before = row
        yield row if step == 3 else bytes(b for x in range(width) for b in row[4 * x:4 * x + 3])


def unfiltered(kind, row, before, step):
    for i in range(len(row)):
        left = row[i - step] if i >= step else 0
        corner = before[i - step] if i >= step else 0
        if kind == 1:
            row[i] = row[i] + left & 255
        elif kind == 2:
            row[i] = row[i] + before[i] & 255
        elif kind == 3:
            row[i] = row[i] + (left + before[i]) // 2 & 255
        elif kind == 4:
            row[i] = row[i] + paeth(left, before[i], corner) & 255
    return row


def paeth(left, above, corner):
    guess = left + above - corner
    return min((left, above, corner), key=lambda value: abs(guess - value))


def pixels(path, *wanted):
    counts = {}
    for row in picture(path):
        for x in range(0, len(row), 3):
            key = bytes(row[x:x + 3])
            counts[key] = counts.get(key, 0) + 1
    for colour, least in zip(wanted[::2], wanted[1::2]):
        found = counts.get(bytes.fromhex(colour), 0)
        assert found >= int(least), f"{found} pixels of {colour}, not {least}"


def links(index):
    folder = os.path.dirname(index)
    targets = [dict(attrs)["href"] for tag, attrs in Page(index).elements if tag == "a"]
    for target in targets:
        with open(os.path.join(folder, target), encoding="utf-8") as file:
            assert file.read(15) == "<!DOCTYPE html>", target
    assert len(set(targets)) == len(targets)
    print(len(targets))


def elf(out, name):
    """Headers, one loaded segment with EBREAK, a symbol table of one function, its names."""
    name = name.encode()
    code, strings = struct.pack("<I", 0x100073), b"\0" + name + b"\0"
    header, program = 52, 32
    code_at = header + program
    symbols_at = code_at + len(code)
    symbols = bytes(16) + struct.pack("<IIIBBH", 1, 0x20000000, 4, 0x12, 0, 1)
    strings_at = symbols_at + len(symbols)
    sections_at = -(-(strings_at + len(strings)) // 4) * 4
    section = struct.Struct("<10I")
    sections = [section.pack(*[0] * 10),
                section.pack(0, 1, 6, 0x20000000, code_at, 4, 0, 0, 4, 0),
                section.pack(0, 2, 0, 0, symbols_at, len(symbols), 3, 1, 4, 16),
                section.pack(0, 3, 0, 0, strings_at, len(strings), 0, 0, 1, 0)]
    ident = b"\x7fELF\x01\x01\x01" + bytes(9)
    head = ident + struct.pack("<HHIIIIIHHHHHH", 2, 243, 1, 0x20000000, header, sections_at, 0, header, program, 1, 40, 4, 3)
    load = struct.pack("<8I", 1, code_at, 0x20000000, 0x20000000, 4, 4, 5, 4)
    body = head + load + code + symbols + strings
    with open(out, "wb") as file:
        file.write(body + bytes(sections_at - len(body)) + b"".join(sections))


if __name__ == "__main__":
    try:
        {"alone": alone, "same": same, "says": says, "pixels": pixels, "links": links, "elf": elf}[sys.argv[1]](*sys.argv[2:])
    except AssertionError as error:
        sys.exit(f"{' '.join(sys.argv[1:3])}: {error}")
