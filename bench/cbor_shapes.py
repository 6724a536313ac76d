"""Writes inputs of about 1 MiB of each shape as SHAPE.frames: four bytes of length, then the body."""
import random
import struct
import sys

MIB = 1 << 20


def head(major, n):
    if n < 24:
        return bytes([32 * major + n])
    for info, width in ((24, 1), (25, 2), (26, 4), (27, 8)):
        if n < 1 << 8 * width:
            return bytes([32 * major + info]) + n.to_bytes(width, "big")


def mapping(keys):
    return head(5, len(keys)) + b"".join(k + b"\x00" for k in keys)


def nested():
    count = MIB // 15
    return head(4, count) + (b"\x81" * 14 + b"\x00") * count


def wide_keys():
    body = mapping([head(0, n) for n in range(2000)])
    for _ in range(14):
        body = head(5, 1) + body + b"\x00"
    return body


def main(folder):
    mixed = list(range(200_000))
    random.Random(8949).shuffle(mixed)
    shapes = {
        "array": head(4, MIB) + bytes(MIB),
        "nested": nested(),
        "map": mapping([head(0, n) for n in range(200_000)]),
        "map_mixed": mapping([head(0, n) for n in mixed]),
        "chunks": b"\x5f" + b"\x47abcdefg" * (MIB // 8) + b"\xff",
        "string": head(2, MIB) + bytes(MIB),
        "keys16": wide_keys(),
    }
    for name, body in shapes.items():
        with open(f"{folder}/{name}.frames", "wb") as out:
            out.write(struct.pack(">I", len(body)) + body)


main(sys.argv[1])
