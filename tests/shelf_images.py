#!/usr/bin/env python3
"""Images for a shelf, made from the demonstration's: python3 tests/shelf_images.py FOLDER COUNT

Image n plans n % 400 floors, a frame of 32 bytes for each and one more, on a stack of 7,040 bytes: those of 220 floors and
more trap. Of each hundred, by n % 100: 90 to 93 want a stack that the large board has not, 94 and 95 have no label, 96 and 97
have a damaged one, 98 has no whole word, 99 never ends. `expected` says what must come of each on the large board."""
import os
import struct
import sys

ROOT = os.path.dirname(os.path.dirname(os.path.abspath(__file__)))
SHEET = "region\tcode\t20000100\t00000300\trx\nregion\tdoors\t20000400\t00000080\tr\nregion\tstack\t20000480\t%08x\trw\n"
STACK = 0x1B80
FRAME = 32


def code():
    """The words of the demonstration's image, from its HEX file's data records."""
    with open(os.path.join(ROOT, "examples/interlock_image.hex"), encoding="ascii") as file:
        records = [bytes.fromhex(line[1:].strip()) for line in file]
    return b"".join(record[4:-1] for record in records if record[3] == 0)


def floors_of(n):
    return n % 400


def expected(n):
    """What comes of image n on the large board, with enough steps: its label, its run and its bytes of stack."""
    kind, floors = n % 100, floors_of(n)
    if kind in (90, 91, 92, 93):
        return "misfit", "no", None
    if kind in (96, 97):
        return "bad", "no", None
    if kind == 98:
        return "fits", "trapped", 0
    if kind == 99:
        return "fits", "running", 0
    label = "none" if kind in (94, 95) else "fits"
    used = FRAME * (floors + 1)
    # The mark stands at the lowest store of a frame, the floor's, 16 bytes above its end; a frame that has no room stores nothing.
    return (label, "trapped", STACK - 16) if used > STACK else (label, "ended", used - 16)


def image(n, body):
    kind = n % 100
    # addi x10, x0, floors
    payload = struct.pack("<I", floors_of(n) << 20 | 0x513) + body[4:]
    sheet = SHEET % (STACK + 16 if kind in (90, 91, 92, 93) else STACK)
    if kind in (94, 95):
        return hexed(payload)
    if kind in (96, 97):
        sheet = sheet.replace("\trx", "\txr")
    if kind == 98:
        payload = b"\xff\xff\xff\xff" + struct.pack("<I", n)
    if kind == 99:
        # addi x10, x10, 1; jal x0, -4
        payload = struct.pack("<III", 0x150513, 0xFFDFF06F, n)
    return sheet.encode() + b"\n" + payload


def hexed(payload):
    """Intel HEX of bytes at 20000100."""
    def record(offset, kind, data):
        body = bytes([len(data), offset >> 8, offset & 255, kind]) + data
        return b":" + (body + bytes([-sum(body) & 255])).hex().upper().encode() + b"\n"
    rows = [record(0x100 + at, 0, payload[at:at + 16]) for at in range(0, len(payload), 16)]
    return record(0, 4, b"\x20\x00") + b"".join(rows) + record(0, 1, b"")


def main():
    folder, count = sys.argv[1], int(sys.argv[2])
    os.makedirs(folder, exist_ok=True)
    body = code()
    for n in range(count):
        with open(os.path.join(folder, f"image-{n:05}.img"), "wb") as file:
            file.write(image(n, body))


if __name__ == "__main__":
    main()
