#!/usr/bin/env python3
"""Prints lines `cbor INPUT: WIRE: DET`, from a reader of its own.

INPUT is bytes in hexadecimal, `-` for none. WIRE is the answer of reading any well-formed spelling of a CBOR data item
(RFC 8949, section 3), DET that of reading its core deterministic encoding alone (section 4.2.1): `Ok N HEX`, with the
number of bytes taken and the item's deterministic encoding, or the first fault and its place.

Faults count in reading order, and a place is the offset of the first byte of the head at which the fault stands. Of
one head's own faults the order is:

  Truncated         the head, or the content of a string of definite length, passes the end of the input. Where the
                    head is wholly absent the place is the input's length.
  Malformed         additional information 28 to 30; 31 for major types 0, 1 and 6; a simple value below 32 in a byte
                    of its own; text that is not UTF-8; a break that ends nothing: no item is open, or the innermost
                    open item is of definite length, a tag, or a map that waits for a value; inside a string of
                    indefinite length anything but a break and a string of definite length of its own major type, each
                    chunk of text being UTF-8 by itself.
  Float             major type 7 with additional information 25, 26 or 27.
  TooDeep           an item at depth 17. The outermost item has depth 1, and elements, keys, values and what is tagged
                    are one deeper than what holds them. Chunks and breaks have no depth.
  NotDeterministic  in DET alone: an argument that is not the shortest, or an indefinite length.

A key is compared with the keys before it once it is wholly read, by its deterministic encoding, and the place is its
head's: Duplicate where it equals one of them, and else, in DET alone, NotDeterministic where it is below the key just
before it in the bytewise lexicographic order.
"""


class Fault(Exception):
    def __init__(self, kind, place):
        super().__init__(kind, place)
        self.text = f"{kind} {place}"


# ---- reading: an item is a tuple of its major type and what it holds


class Head:
    def __init__(self, major, info, argument, size):
        self.major, self.info, self.argument, self.size = major, info, argument, size

    def is_open(self):
        return self.info == 31

    def is_shortest(self):
        limits = {24: 24, 25: 1 << 8, 26: 1 << 16, 27: 1 << 32}
        return self.info not in limits or self.argument >= limits[self.info]


class Reader:
    def __init__(self, data, strict):
        self.data, self.strict, self.at = data, strict, 0

    def head(self):
        """The head at the place where the reader stands, which may be cut; it is not yet taken."""
        data, at = self.data, self.at
        if at == len(data):
            raise Fault("Truncated", at)
        major, info = data[at] >> 5, data[at] & 31
        wide = {24: 1, 25: 2, 26: 4, 27: 8}.get(info, 0)
        if at + 1 + wide > len(data):
            raise Fault("Truncated", at)
        argument = int.from_bytes(data[at + 1 : at + 1 + wide], "big") if wide else info
        if major in (2, 3) and info < 28 and at + 1 + wide + argument > len(data):
            raise Fault("Truncated", at)
        return Head(major, info, argument, 1 + wide)

    def string(self, head):
        """The content of a string of definite length, which is taken."""
        place = self.at
        start = place + head.size
        content = self.data[start : start + head.argument]
        if head.major == 3:
            try:
                content.decode("utf-8", "strict")
            except UnicodeDecodeError:
                raise Fault("Malformed", place)
        self.at = start + head.argument
        return content

    def chunks(self, major):
        joined = b""
        while True:
            head = self.head()
            if (head.major, head.info) == (7, 31):
                self.at += 1
                return joined
            if head.major != major or head.info > 27:
                raise Fault("Malformed", self.at)
            joined += self.string(head)

    def refuse(self, head, depth):
        """The head's own faults but those of a string's content, which is looked at before TooDeep."""
        place, major, info = self.at, head.major, head.info
        if info in (28, 29, 30) or (info == 31 and major in (0, 1, 6, 7)):
            raise Fault("Malformed", place)
        if major == 7 and info == 24 and head.argument < 32:
            raise Fault("Malformed", place)
        if major == 7 and info in (25, 26, 27):
            raise Fault("Float", place)
        if major in (2, 3) and info != 31:
            self.string(head)
            self.at = place
        if depth > 16:
            raise Fault("TooDeep", place)
        if self.strict and (head.is_open() or (major != 7 and not head.is_shortest())):
            raise Fault("NotDeterministic", place)

    def row(self, head):
        """Yields once for each element or pair that is to come."""
        if head.is_open():
            while self.at == len(self.data) or self.data[self.at] != 255:
                yield
            self.at += 1
        else:
            for _ in range(head.argument):
                yield

    def item(self, depth=1):
        head = self.head()
        self.refuse(head, depth)
        major = head.major
        if major in (2, 3) and not head.is_open():
            return (major, self.string(head))
        self.at += head.size
        if major in (2, 3):
            return (major, self.chunks(major))
        if major == 4:
            return (4, [self.item(depth + 1) for _ in self.row(head)])
        if major == 5:
            return (5, self.pairs(head, depth + 1))
        if major == 6:
            return (6, (head.argument, self.item(depth + 1)))
        return (major, head.argument)

    def pairs(self, head, depth):
        pairs, spellings = [], []
        for _ in self.row(head):
            place = self.at
            key = self.item(depth)
            spelling = encode(key)
            if spelling in spellings:
                raise Fault("Duplicate", place)
            if self.strict and spellings and spelling < spellings[-1]:
                raise Fault("NotDeterministic", place)
            spellings.append(spelling)
            pairs.append((key, self.item(depth)))
        return pairs


# ---- the deterministic encoding


def shortest(major, n):
    if n < 24:
        return bytes([32 * major + n])
    for info, wide in ((24, 1), (25, 2), (26, 4), (27, 8)):
        if n < 1 << (8 * wide):
            return bytes([32 * major + info]) + n.to_bytes(wide, "big")


def encode(item):
    major, held = item
    if major in (2, 3):
        return shortest(major, len(held)) + held
    if major == 4:
        return shortest(4, len(held)) + b"".join(map(encode, held))
    if major == 5:
        pairs = sorted((encode(key), encode(value)) for key, value in held)
        return shortest(5, len(held)) + b"".join(key + value for key, value in pairs)
    if major == 6:
        return shortest(6, held[0]) + encode(held[1])
    return shortest(major, held)


def answer(data, strict):
    reader = Reader(data, strict)
    try:
        item = reader.item()
    except Fault as fault:
        return fault.text
    return f"Ok {reader.at} {encode(item).hex()}"


# ---- inputs


def wide(major, info, n):
    return bytes([32 * major + info]) + n.to_bytes({24: 1, 25: 2, 26: 4, 27: 8}[info], "big")


def holders():
    """Ways to hold an item, each with what may follow it."""
    zero, end = b"\x00", b"\xff"
    return [
        (b"", b""),
        (b"", zero),
        (b"\x81", b""),
        (b"\x82\x00", b""),
        (b"\x82", zero),
        (b"\x9f", end),
        (b"\x9f\x00", zero + end),
        (b"\xa1", zero),
        (b"\xa1\x00", b""),
        (b"\xa2\x00\x00", zero),
        (b"\xbf", zero + end),
        (b"\xbf\x00", end),
        (b"\xc1", b""),
        (b"\x9f\xc1", end),
        (b"\x9f\x81", end),
        (b"\x81\x9f", end),
        (b"\xa1\x9f", end + zero),
        (b"\x5f", end),
        (b"\x5f\x41\x00", end),
        (b"\x7f", end),
        (b"\x7f\x61\x61", end),
    ]


def cut_heads():
    for major in range(8):
        for info in (24, 25, 26, 27):
            whole = wide(major, info, 0x20)
            for size in range(len(whole)):
                yield whole[:size]
                yield b"\x82\x00" + whole[:size]
    for front, _ in holders():
        for major in (0, 3, 7):
            for size in (0, 1, 4):
                yield front + wide(major, 26, 0x20)[:size]
    for major in (2, 3):
        for n, spelled in ((1, shortest(major, 1)), (3, wide(major, 25, 3)), (24, shortest(major, 24))):
            for front, _ in holders():
                yield front + spelled + b"a" * (n - 1)


def wrong_heads():
    """Each first byte, and what is Malformed or Float, wherever it may stand."""
    for first in range(256):
        yield bytes([first])
        yield bytes([first]) + bytes(9)
    for major in range(8):
        for info in (28, 31):
            for front, after in holders():
                yield front + bytes([32 * major + info]) + after
    for info, size in ((24, 1), (25, 2), (26, 4), (27, 8)):
        for front, after in holders():
            yield front + bytes([224 + info]) + b"\x1f" * size + after


def breaks():
    for front, after in holders():
        for more in (b"", b"\xff", b"\xff\xff", b"\x00\xff", b"\xff\x00"):
            yield front + b"\xff" + more
            yield front + b"\xff" + after + more
            yield front + b"\x00" + after + more
    for opened in (b"\x5f", b"\x7f", b"\x9f", b"\xbf"):
        for inner in (b"", b"\x5f", b"\x7f", b"\x9f", b"\xbf", b"\x80", b"\xa0", b"\xc1", b"\x40", b"\x60"):
            for count in range(4):
                yield opened + inner + b"\xff" * count
                yield opened + inner + b"\x00" * count + b"\xff\xff"


def widths():
    values = [0, 1, 23, 24, 255, 256, 65535, 65536, (1 << 32) - 1, 1 << 32, 1 << 60, (1 << 64) - 1]
    bodies = {
        2: lambda n: b"\x07" * n,
        3: lambda n: b"a" * n,
        4: lambda n: b"\x00" * n,
        5: lambda n: b"".join(shortest(0, i) + b"\x00" for i in range(n)),
    }
    for major in range(7):
        for n in values:
            for info, size in ((24, 1), (25, 2), (26, 4), (27, 8)):
                if n >= 1 << (8 * size):
                    continue
                head = wide(major, info, n)
                if major in bodies:
                    yield head + (bodies[major](n) if n <= 24 else b"")
                    yield head + b"\x00"
                else:
                    yield head + b"\x00"
                    yield b"\x82" + head + b"\x00\x00"
                    yield b"\xa1" + head + b"\x00\x00"


def keys():
    spelled = [
        [b"\x00", b"\x18\x00", b"\x19\x00\x00", b"\x1a\x00\x00\x00\x00", b"\x1b" + bytes(8)],
        [b"\x0a", b"\x18\x0a"],
        [b"\x18\x64", b"\x19\x00\x64"],
        [b"\x20", b"\x38\x00"],
        [b"\x40", b"\x5f\xff", b"\x58\x00", b"\x5f\x40\xff"],
        [b"\x41\x61", b"\x5f\x41\x61\xff", b"\x5f\x40\x41\x61\xff"],
        [b"\x61\x61", b"\x7f\x61\x61\xff", b"\x78\x01\x61"],
        [b"\x62\x61\x61", b"\x7f\x61\x61\x61\x61\xff"],
        [b"\x61\x62"],
        [b"\x80", b"\x9f\xff", b"\x98\x00"],
        [b"\x81\x00", b"\x9f\x00\xff", b"\x81\x18\x00"],
        [b"\xa0", b"\xbf\xff"],
        [b"\xa2\x00\x00\x01\x00", b"\xa2\x01\x00\x00\x00", b"\xbf\x01\x00\x00\x00\xff"],
        [b"\xc1\x00", b"\xd8\x01\x00"],
        [b"\xf4"],
        [b"\xf8\x20"],
    ]
    firsts = [group[0] for group in spelled]
    for group in spelled:
        for a in group:
            for b in group + [firsts[-1]]:
                yield b"\xa2" + a + b"\x00" + b + b"\x00"
    for a in firsts:
        for b in firsts:
            yield b"\xa2" + a + b"\x00" + b + b"\x00"
    for a in firsts[::3]:
        for b in firsts[1::3]:
            for group in spelled[::4]:
                yield b"\xa3" + a + b"\x00" + b + b"\x00" + group[-1] + b"\x00"
                yield b"\xbf" + b + b"\x00" + group[0] + b"\x00" + a + b"\x00" + group[-1] + b"\x00\xff"
    for order in ((0, 1, 2, 1), (0, 2, 1, 2), (2, 1, 0, 2), (0, 1, 2, 0), (1, 2, 3, 0), (3, 2, 1, 0), (0, 3, 2, 2)):
        yield b"\xa4" + b"".join(bytes([n, 0]) for n in order)
        yield b"\xbf" + b"".join(bytes([n, 0]) for n in order) + b"\xff"
        yield b"\x81\xa1\x00\xa4" + b"".join(bytes([n, 0]) for n in order)


def faults():
    return [
        b"",
        b"\x18",
        b"\x42\x00",
        b"\x62\x61",
        b"\x1c",
        b"\x1f",
        b"\xff",
        b"\xf8\x1f",
        b"\x61\xff",
        b"\x5f\x00",
        b"\x5f\x61\x00",
        b"\x7f\x61\xc3",
        b"\xf9\x00\x00",
        b"\xfb" + bytes(8),
        b"\x81" * 16 + b"\x00",
        b"\xa2\x00\x00\x00\x00",
        b"\xa2\x01\x00\x00\x00",
        b"\x18\x00",
        b"\x9f\xff",
    ]


def inside_keys():
    """A fault inside a key comes before what the whole key would make, and a fault of the value after it."""
    for fault in faults():
        yield b"\xa2\x00\x00" + fault
        yield b"\xa2\x00" + fault
        yield b"\xa2\x00\x00\x00" + fault
        yield b"\xa2\x01\x00\x00" + fault
        yield b"\xa2\x82\x00\x00\x00\x82\x00" + fault
        yield b"\xa2\x82\x00\x00\x00\x82\x00" + fault + b"\x00\x00"
        yield b"\xa2\x82\x01\x00\x00\x82\x00" + fault
        yield b"\xbf\x81\x00\x00\x9f\x00" + fault
        yield b"\xbf\x00\x00\x18\x00" + fault
        yield b"\xa3\x00\x00\x01\x00\x00" + fault
        yield b"\xa1\xa2\x00\x00\x00" + fault
        yield b"\xc1" + fault
        yield b"\x82\x00" + fault
        yield b"\x9f" + fault


def depths():
    kinds = {
        "array": (b"\x81", b""),
        "open array": (b"\x9f", b"\xff"),
        "value": (b"\xa1\x00", b""),
        "key": (b"\xa1", b"\x00"),
        "open value": (b"\xbf\x00", b"\xff"),
        "open key": (b"\xbf", b"\x00\xff"),
        "tag": (b"\xc1", b""),
        "second": (b"\x82\x00", b""),
    }
    leaves = [b"\x00", b"\x18\x00", b"\x40", b"\x41\x00", b"\x42\x00", b"\x61\xff", b"\x60", b"\x5f\xff", b"\x5f\x41\x00\xff", b"\x7f\xff",
              b"\x7f\x00", b"\x80", b"\x9f\xff", b"\xa0", b"\xbf\xff", b"\xc1\x00", b"\xf4", b"\xf8\x20", b"\xf8\x1f", b"\xf9\x00\x00",
              b"\x1c", b"\x1f", b"\xff", b"", b"\x5f", b"\x18", b"\x58\x01", b"\x81"]
    for front, after in kinds.values():
        for count in (14, 15, 16, 17):
            for leaf in leaves if count in (15, 16) and front[0] != 0x82 else leaves[:1]:
                yield front * count + leaf + after * count
    for a in kinds.values():
        for b in kinds.values():
            yield (a[0] + b[0]) * 8 + b"\x00" + (b[1] + a[1]) * 8
            yield a[0] + (a[0] + b[0]) * 7 + b"\x00" + (b[1] + a[1]) * 7 + a[1]


def utf8():
    def text(content):
        return shortest(3, len(content)) + content

    good = ["a", "\u007f", "\u0080", "\u07ff", "\u0800", "\ud7ff", "\ue000", "\uffff", "\U00010000", "\U0010ffff", "a\u00e9b", "\u20ac\u00e9"]
    for char in good:
        whole = char.encode()
        yield text(whole)
        for cut in range(len(whole) + 1):
            a, b = whole[:cut], whole[cut:]
            yield b"\x7f" + text(a) + text(b) + b"\xff"
            yield text(a)
            yield text(b)
            yield b"\x5f" + shortest(2, len(a)) + a + shortest(2, len(b)) + b + b"\xff"
            yield b"\x82" + text(b) + text(a)
            yield b"\xa1" + text(a) + text(b)
    bad = ["80", "bf", "c0af", "c080", "c1bf", "c3", "c328", "e08080", "e09fbf", "e28228", "e282", "eda080", "edbfbf", "f0808080", "f08fbfbf",
           "f0909080", "f4908080", "f5808080", "f8888080", "fe", "ff", "f09f98", "61c3", "c3a9c3", "e282ac80"]
    for digits in bad:
        content = bytes.fromhex(digits)
        yield text(content)
        yield b"\x7f" + text(content) + b"\xff"
        yield b"\x7f\x61\x61" + text(content) + b"\xff"
        yield b"\x7f" + text(content) + text(content) + b"\xff"
        yield b"\x81" + text(content)
        yield b"\xa1" + text(content) + b"\x00"
        yield b"\x41" + content[:1]


def simples():
    for n in range(256):
        yield bytes([0xF8, n])
        yield b"\x82" + bytes([0xF8, n, 0x00])
    for n in range(24):
        yield bytes([0xE0 + n])
        yield b"\xa1" + bytes([0xE0 + n, 0xE0 + n])


def mixed(count):
    """Items made by a generator of numbers, whole and with one byte changed, left out or put in."""
    state = 1

    def draw(below):
        nonlocal state
        state = (state * 6364136223846793005 + 1442695040888963407) % (1 << 64)
        return (state >> 33) % below

    def spelled(major, n):
        fitting = [info for info, size in ((24, 1), (25, 2), (26, 4), (27, 8)) if n < 1 << (8 * size)]
        return shortest(major, n) if draw(4) else wide(major, fitting[draw(len(fitting))], n)

    def make(levels):
        kind = draw(9 if levels else 5)
        if kind < 2:
            return spelled(kind, [draw(24), draw(300), draw(1 << 17), draw(1 << 31) << draw(33)][draw(4)])
        if kind == 2:
            return spelled(2, 2) + bytes([draw(256), draw(256)])
        if kind == 3:
            content = ["", "a", "\u00e9", "\u20ac", "\U0001f600"][draw(5)].encode()
            return spelled(3, len(content)) + content
        if kind == 4:
            return [bytes([0xE0 + draw(24)]), bytes([0xF8, 32 + draw(224)])][draw(2)]
        n = draw(4)
        if kind == 5:
            inner = b"".join(make(levels - 1) for _ in range(n))
            return spelled(4, n) + inner if draw(3) else b"\x9f" + inner + b"\xff"
        if kind in (6, 7):
            inner = b"".join(make(min(levels - 1, 1)) + make(levels - 1) for _ in range(n))
            return spelled(5, n) + inner if draw(3) else b"\xbf" + inner + b"\xff"
        return spelled(6, draw(30)) + make(levels - 1)

    for _ in range(count):
        item = make(4)
        if len(item) > 60:
            continue
        yield item
        if item:
            at = draw(len(item))
            yield item[:at] + bytes([draw(256)]) + item[at + 1 :]
            yield item[:at] + item[at + 1 :]
            yield item[:at] + [b"\xff", b"\x00", bytes([draw(256)])][draw(3)] + item[at:]


def main():
    print("# Made by make_cbor.py. cbor INPUT (hex, - for none): read_wire: read_det. "
          "Ok N HEX: N bytes taken, HEX the deterministic spelling of the item")
    known = set()
    for inputs in (cut_heads(), wrong_heads(), breaks(), widths(), keys(), inside_keys(), depths(), utf8(), simples(), mixed(180)):
        for data in inputs:
            if data not in known:
                known.add(data)
                print(f"cbor {data.hex() or '-'}: {answer(data, False)}: {answer(data, True)}")


if __name__ == "__main__":
    main()
