#!/usr/bin/env python3
"""Prints lines `KIND INPUT: ANSWER` for the readers of bodies, from a reader of its own.

KIND is a message type of FIDO Device Onboard 1.1 and INPUT a body in hexadecimal, `-` for none. ANSWER is `Ok HEX`,
with the deterministic encoding (RFC 8949, section 4.2.1) of what the body says, or `Body` and the place of its first
fault: the offset of

  1. the head at which the CBOR itself has its first fault in reading order, else
  2. the first head by offset of a part that is not of the body's form, else
  3. the first byte after the item.

An array of another length, and a map that lacks a label, have the place of their own head; a number that is not known
(the type or the encoding of a key, the kind of a hash) has the place of that number; a byte string of a wrong length
that of its head. Any well-formed spelling is read. A type that no message has is at fault at 0. The types whose bodies
stand on vouchers, on envelopes or on ServiceInfo have their cases in make_signed.py.
"""

from make_cbor import encode, shortest


class Fault(Exception):
    def __init__(self, place):
        super().__init__(place)
        self.place = place


# ---- CBOR: a part is its major type, what it holds, and the offset of its head


class Part:
    def __init__(self, major, held, place):
        self.major, self.held, self.place = major, held, place

    # as an item without its place
    def __iter__(self):
        return iter((self.major, self.held))


class Reader:
    def __init__(self, data):
        self.data, self.at = data, 0

    def head(self):
        data, at = self.data, self.at
        if at == len(data):
            raise Fault(at)
        major, info = data[at] >> 5, data[at] & 31
        wide = {24: 1, 25: 2, 26: 4, 27: 8}.get(info, 0)
        if at + 1 + wide > len(data):
            raise Fault(at)
        argument = int.from_bytes(data[at + 1 : at + 1 + wide], "big") if wide else info
        if info in (28, 29, 30) or (info == 31 and major in (0, 1, 6)):
            raise Fault(at)
        if major == 7 and (info in (25, 26, 27) or (info == 24 and argument < 32)):
            raise Fault(at)
        self.at = at + 1 + wide
        return major, info == 31, argument, at

    def content(self, major, length, place):
        if self.at + length > len(self.data):
            raise Fault(place)
        content = self.data[self.at : self.at + length]
        if major == 3:
            try:
                content.decode("utf-8")
            except UnicodeDecodeError:
                raise Fault(place)
        self.at += length
        return content

    def chunks(self, major):
        joined = b""
        while True:
            found, is_open, length, place = self.head()
            if (found, is_open) == (7, True):
                return joined
            if found != major or is_open:
                raise Fault(place)
            joined += self.content(major, length, place)

    def turns(self, is_open, count):
        """Yields once for each element or pair that is to come."""
        if not is_open:
            yield from range(count)
            return
        while self.at == len(self.data) or self.data[self.at] != 255:
            yield
        self.at += 1

    def item(self, depth=1):
        major, is_open, argument, place = self.head()
        if (major, is_open) == (7, True):
            raise Fault(place)
        if major in (2, 3) and not is_open:
            held = self.content(major, argument, place)
        if depth > 16:
            raise Fault(place)
        if major in (2, 3) and is_open:
            held = self.chunks(major)
        elif major == 4:
            held = [self.item(depth + 1) for _ in self.turns(is_open, argument)]
        elif major == 5:
            held = self.pairs(is_open, argument, depth + 1)
        elif major == 6:
            held = (argument, self.item(depth + 1))
        elif major in (0, 1, 7):
            held = argument
        return Part(major, held, place)

    def pairs(self, is_open, count, depth):
        pairs, seen = [], set()
        for _ in self.turns(is_open, count):
            key = self.item(depth)
            if encode(key) in seen:
                raise Fault(key.place)
            seen.add(encode(key))
            pairs.append((key, self.item(depth)))
        return pairs


# ---- parts of bodies: each reads a part and gives its deterministic encoding, or has its fault


def number(most):
    def read(part):
        if part.major != 0 or part.held > most:
            raise Fault(part.place)
        return encode(part)

    return read


def integer_of(part):
    if part.major not in (0, 1) or part.held >= 1 << 63:
        raise Fault(part.place)
    return part.held if part.major == 0 else -1 - part.held


def integer(part):
    integer_of(part)
    return encode(part)


def string(major, length=None):
    def read(part):
        if part.major != major or (length is not None and len(part.held) != length):
            raise Fault(part.place)
        return encode(part)

    return read


def anything(part):
    return encode(part)


def or_null(read):
    return lambda part: encode(part) if (part.major, part.held) == (7, 22) else read(part)


def parts_of(part, count):
    if part.major != 4 or len(part.held) != count:
        raise Fault(part.place)
    return part.held


def array(*reads):
    def read(part):
        parts = parts_of(part, len(reads))
        return shortest(4, len(parts)) + b"".join(read(part) for read, part in zip(reads, parts))

    return read


def known(part, values):
    value = integer_of(part)
    if value not in values:
        raise Fault(part.place)
    return value


LENGTHS = {-16: 32, -43: 48, 5: 32, 6: 48}


def hash_value(part):
    kind, content = parts_of(part, 2)
    length = LENGTHS[known(kind, LENGTHS)]
    return shortest(4, 2) + encode(kind) + string(2, length)(content)


KEY_TYPES = (1, 5, 6, 10, 11, 200, 201)


def key_body(encoding, part):
    if encoding in (0, 1):
        return string(2)(part)
    if encoding == 2:
        if part.major == 2:
            return shortest(4, 1) + encode(part)
        if part.major != 4 or not part.held:
            raise Fault(part.place)
        return shortest(4, len(part.held)) + b"".join(map(string(2), part.held))
    return cose_key(part)


def cose_key(part):
    labels = {b"\x01": (2,), b"\x20": (1, 2), b"\x21": None, b"\x22": None}
    if part.major != 5:
        raise Fault(part.place)
    found = {encode(key): value for key, value in part.held if encode(key) in labels}
    if len(found) < 4:
        raise Fault(part.place)
    for key, value in part.held:
        values = labels.get(encode(key), ())
        if values is None:
            string(2)(value)
        elif values:
            known(value, values)
    return shortest(5, 4) + b"".join(label + encode(found[label]) for label in sorted(labels))


def mfg_info(part):
    parts = parts_of(part, 5)
    known(parts[0], KEY_TYPES)
    encoding = known(parts[1], (0, 1, 2, 3))
    front = b"".join(encode(parts[i]) for i in (0, 1)) + string(3)(parts[2]) + string(3)(parts[3])
    return shortest(4, 5) + front + key_body(encoding, parts[4])


SIZE = number((1 << 16) - 1)
SIXTEEN = string(2, 16)
SIG_INFO = array(integer, string(2))
BODIES = {
    10: array(mfg_info),
    11: array(string(2)),
    12: array(hash_value),
    13: array(),
    20: array(),
    21: array(SIXTEEN),
    23: array(number((1 << 32) - 1)),
    30: array(SIXTEEN, SIG_INFO),
    31: array(SIXTEEN, SIG_INFO),
    60: array(SIZE, SIXTEEN, SIXTEEN, string(3), integer, SIG_INFO),
    62: array(number(255)),
    66: array(or_null(hash_value), or_null(SIZE)),
    67: array(or_null(SIZE)),
    70: array(SIXTEEN),
    71: array(SIXTEEN),
    255: array(number((1 << 16) - 1), number((1 << 64) - 1), string(3), anything, anything),
}


def answer(kind, body):
    if kind not in BODIES:
        return "Body 0"
    reader = Reader(body)
    try:
        said = BODIES[kind](reader.item())
        if reader.at != len(body):
            raise Fault(reader.at)
    except Fault as fault:
        return f"Body {fault.place}"
    return f"Ok {said.hex()}"


# ---- bodies: spelled parts, each with other spellings and with what cannot stand in its place


def wide(major, n, width):
    info = {1: 24, 2: 25, 4: 26, 8: 27}[width]
    return bytes([32 * major + info]) + n.to_bytes(width, "big")


def chunked(major, content, size):
    """A string of indefinite length, in chunks of a size, with an empty one between."""
    cut = [content[i : i + size] for i in range(0, len(content), size)]
    chunks = [shortest(major, len(chunk)) + chunk for chunk in cut]
    return bytes([32 * major + 31]) + bytes([32 * major]).join(chunks) + b"\xff"


def of(major, content):
    return shortest(major, len(content)) + content


def row(*parts):
    return shortest(4, len(parts)) + b"".join(parts)


# one of each type: a number, one below zero, bytes, text, an array, a map, a tag, false, null, undefined, a simple value
TYPES = [b"\x00", b"\x20", b"\x41\x00", b"\x61a", b"\x80", b"\xa0", b"\xc1\x00", b"\xf4", b"\xf6", b"\xf7", b"\xf8\x20"]
# items that are no item: cut, not well-formed, a float, a repeated key, text that is not UTF-8, too deep
NO_ITEMS = [b"", b"\x18", b"\x42\x00", b"\x1c", b"\xff", b"\xf9\x00\x00", b"\xf8\x1f", b"\x5f\x61a\xff", b"\xa2\x00\x00\x18\x00\x00", b"\x61\xc3"]

GUID = bytes(range(16))
NONCE = bytes(range(16, 32))
HASH = bytes(range(32))
LONG_HASH = bytes(range(48))


class Slot:
    """One part of a body: how it stands, other spellings of it, and others in its place, of the form or not."""

    def __init__(self, plain, others=(), more=()):
        self.plain, self.others, self.more = plain, list(others), list(more)

    def all(self):
        return self.others + self.more + TYPES + NO_ITEMS


def number_slot(n, most, more=()):
    spelled = [wide(0, n, width) for width in (1, 2, 4, 8) if n < 1 << (8 * width)]
    around = [shortest(0, m) for m in (0, 23, 24, 255, 256, most - 1, most, most + 1) if m < 1 << 64]
    return Slot(shortest(0, n), spelled, around + [wide(0, (1 << 64) - 1, 8)] + list(more))


def integer_slot(major, n, more=()):
    spelled = [wide(major, n, width) for width in (1, 2, 4, 8) if n < 1 << (8 * width)]
    around = [wide(m, bound, 8) for m in (0, 1) for bound in ((1 << 63) - 1, 1 << 63, (1 << 64) - 1)]
    return Slot(shortest(major, n), spelled, around + list(more))


def string_slot(major, content, lengths=(), more=()):
    spelled = [wide(major, len(content), width) + content for width in (1, 2, 4, 8)]
    spelled += [chunked(major, content, size) for size in (1, 7, 16)] + [chunked(major, content, 5)[:-1] + of(major, b"") + b"\xff"]
    return Slot(of(major, content), spelled, [of(major, (content * 4)[:length]) for length in lengths] + list(more))


SIXTEENS = dict(lengths=(0, 15, 17, 32), more=[chunked(2, GUID[:15], 4), wide(2, 17, 1) + bytes(17), b"\x5f\xff"])


def hash_slots(kind, content):
    major, n = (0, kind) if kind >= 0 else (1, -1 - kind)
    unknown = [b"\x00", b"\x04", b"\x07", b"\x2e", b"\x30", b"\x2f", b"\x38\x2a", b"\x38\x2b", b"\x05", b"\x06"]
    return [integer_slot(major, n, unknown), string_slot(2, content, (0, 16, 31, 32, 33, 47, 48, 49))]


SIG_SLOTS = [integer_slot(1, 65536), string_slot(2, b"ab", (0, 1, 24))]


def cose(*pairs):
    return shortest(5, len(pairs)) + b"".join(pairs)


ONE, CURVE, X, Y = b"\x01\x02", b"\x20\x01", b"\x21\x41x", b"\x22\x42yy"
COSE_BODIES = [
    cose(ONE, CURVE, X, Y),
    cose(Y, X, CURVE, ONE),
    cose(ONE, b"\x20\x02", X, Y),
    b"\xbf\x18\x01\x18\x02\x38\x00\x19\x00\x01\x39\x00\x01\x5f\x41x\xff\x22\x58\x02yy\xff",
    cose(b"\x02\x80", ONE, CURVE, X, b"\x61a\xf6", Y, b"\x23\x00"),
    cose(b"\x02\x80", ONE, CURVE, X, b"\x61a\xf6", b"\x22\x60", b"\x23\x00"),
    *(cose(*(pair for pair in (ONE, CURVE, X, Y) if pair != missing)) for missing in (ONE, CURVE, X, Y)),
    *(cose(first, CURVE, X, Y) for first in (b"\x01\x01", b"\x01\x03", b"\x01\x21", b"\x01\x41\x02", b"\x01\xf6")),
    *(cose(ONE, curve, X, Y) for curve in (b"\x20\x00", b"\x20\x03", b"\x20\x20", b"\x20\x61a", b"\x20\x18\x02")),
    *(cose(ONE, CURVE, x, Y) for x in (b"\x21\x00", b"\x21\x61x", b"\x21\xf6", b"\x21\x81\x41x", b"\x21\x40")),
    *(cose(ONE, CURVE, X, y) for y in (b"\x22\x00", b"\x22\x60", b"\x22\x5f\xff")),
    cose(b"\x22\x60", b"\x01\x01", CURVE, X),
    cose(Y, b"\x21\x00", CURVE, b"\x01\x01"),
    cose(ONE, CURVE, X, Y, ONE),
    cose(ONE, CURVE, X, Y, b"\x18\x01\x00"),
]
CHAIN_BODIES = [row(b"\x41a"), row(b"\x41a", b"\x40"), b"\x9f\x41a\x5f\x41b\x41c\xff\xff", b"\x41a", b"\x5f\x41a\xff", row(b"\x41a", b"\x61b"), row(b"\x60"),
                row(b"\x41a", b"\xf6", b"\x00"), row(row(b"\x41a")), wide(4, 1, 8) + b"\x41a"]
BYTES_BODIES = [b"\x40", b"\x5f\x41a\x41b\xff", wide(2, 2, 4) + b"ab", row(b"\x41a"), b"\x60"]


def mfg_slots(encoding, bodies):
    types = [shortest(0, n) for n in (1, 2, 4, 5, 6, 7, 9, 10, 11, 12, 199, 200, 201, 202)]
    encodings = [b"\x00", b"\x01", b"\x02", b"\x03", b"\x04", b"\x18\xff", b"\x22"]
    return [
        integer_slot(0, 10, types),
        integer_slot(0, encoding, encodings),
        string_slot(3, b"S1", (0,)),
        string_slot(3, "\u00e9\u20ac".encode()),
        Slot(bodies[0], bodies[1:]),
    ]


# ---- each body: its slots, all at the top or within a part


class Form:
    def __init__(self, kind, slots, within=None, front=(), back=()):
        self.kind, self.slots, self.front, self.back, self.within = kind, slots, list(front), list(back), within

    def spell(self, parts, inner=row, outer=row):
        if self.within is None:
            return outer(*self.front, *parts, *self.back)
        return outer(*self.front, inner(*parts), *self.back)


def forms():
    hmac, null, size, sixteen = row(b"\x05", of(2, HASH)), b"\xf6", number_slot(1300, 65535), string_slot(2, GUID, **SIXTEENS)
    sig, hello = row(b"\x26", b"\x40"), [b"\x19\xff\xff", of(2, GUID), of(2, NONCE), b"\x65LAB32", b"\x3a\x00\x01\x00\x01"]
    seconds = number_slot(3600, (1 << 32) - 1)
    yield Form(10, mfg_slots(3, COSE_BODIES), "key")
    yield Form(10, mfg_slots(2, CHAIN_BODIES), "key")
    yield Form(10, mfg_slots(0, BYTES_BODIES), "key")
    yield Form(10, mfg_slots(1, BYTES_BODIES), "key")
    for kind, content in ((5, HASH), (6, LONG_HASH), (-16, HASH), (-43, LONG_HASH)):
        yield Form(12, hash_slots(kind, content), "hash")
    yield Form(13, [])
    yield Form(20, [])
    for kind in (21, 70, 71):
        yield Form(kind, [sixteen])
    yield Form(23, [seconds])
    for kind in (30, 31):
        yield Form(kind, [sixteen, Slot(sig)])
        yield Form(kind, SIG_SLOTS, "sig", front=[of(2, GUID)])
    yield Form(60, [number_slot(1300, 65535), sixteen, sixteen, string_slot(3, b"LAB32", (0, 5)), integer_slot(1, 65537), Slot(sig)])
    yield Form(60, SIG_SLOTS, "sig", front=hello)
    yield Form(62, [number_slot(7, 255)])
    yield Form(66, [Slot(null, [hmac, row(b"\x2f", of(2, HASH))]), size])
    yield Form(66, [Slot(hmac), Slot(null)])
    yield Form(66, hash_slots(6, LONG_HASH), "hash", back=[null])
    yield Form(67, [Slot(null, size.all())])
    unsorted = [b"\xa3\x61\x61\x01\x20\x02\x00\x03", b"\x81\xa2\x01\x00\x00\x00", b"\xc1\xa2\x41\x61\x00\x40\x00", b"\xa1\xa2\x01\x00\x00\x00\xf6"]
    text, stamp = string_slot(3, b"not found", (0,)), Slot(null, [b"\x3b" + b"\xff" * 8, b"\xbf\x01\x00\x00\x01\xff", b"\xa2\x01\x00\x00\x01"] + unsorted)
    code, ident = number_slot(6, 65535), Slot(b"\x00", [b"\xd8\x20\x9f\x5f\xff\xff", b"\x82" * 14 + b"\x80" * 15])
    yield Form(255, [code, number_slot(30, (1 << 64) - 1), text, stamp, ident])


def wide_row(width):
    return lambda *parts: wide(4, len(parts), width) + b"".join(parts)


def open_row(*parts):
    return b"\x9f" + b"".join(parts) + b"\xff"


def long_row(*parts):
    return shortest(4, len(parts) + 1) + b"".join(parts)


def tagged(*parts):
    return b"\xc1" + row(*parts)


ROWS = [open_row, wide_row(1), wide_row(2), wide_row(8), long_row, tagged]


def bodies_of(form):
    plain = [slot.plain for slot in form.slots]
    whole = form.spell(plain)
    yield whole
    for after in (b"\x00", b"\xff", b"\x80\x80"):
        yield whole + after
    yield whole[:-1]
    for rows in ROWS:
        yield form.spell(plain, outer=rows)
        yield form.spell(plain, inner=rows)
    yield form.spell(plain + [b"\x00"])
    yield form.spell([b"\x00"] + plain)
    yield form.spell(plain[:-1])
    yield form.spell(plain[1:])
    for i, slot in enumerate(form.slots):
        for part in slot.all():
            yield form.spell(plain[:i] + [part] + plain[i + 1 :])
    for i in range(len(plain) - 1):
        yield form.spell(plain[:i] + [b"\xf4", b"\xf4"] + plain[i + 2 :]) + b"\x00"
    if form.within:
        for part in TYPES + NO_ITEMS:
            yield row(*form.front, part, *form.back)


# the header of a voucher (section 3.4.2), which DI.SetCredentials (11) has in a byte string
HEADER = row(
    b"\x18\x65", of(2, GUID), b"\x80", of(3, b"lab"), row(b"\x18\xc8", b"\x00", b"\x41\x01"), row(b"\x2f", of(2, HASH))
)


def credentials():
    string = of(2, HEADER)
    yield from (row(string), row(wide(2, len(HEADER), 4) + HEADER), open_row(chunked(2, HEADER, 9)), wide_row(8)(string))
    yield from (row(string) + b"\x00", row(string, b"\x00"), row(), string, tagged(string))
    for part in TYPES[:2] + TYPES[3:] + NO_ITEMS:
        yield row(part)


def cases():
    for body in (b"", *TYPES, *NO_ITEMS, b"\x80", b"\x9f\xff", b"\x81" * 16 + b"\x80", b"\x81" * 15 + b"\x80"):
        for kind in BODIES:
            yield kind, body
    yield 1, b"\x80"
    yield 0, b"\x80"
    for body in credentials():
        yield 11, body
    for form in forms():
        for body in bodies_of(form):
            yield form.kind, body


def main():
    print("# KIND INPUT (hex, - for none): read_body, Ok HEX with what write_body gives of the message. Made by make_bodies.py")
    seen = set()
    for kind, body in sorted(cases(), key=lambda case: case[0]):
        if (kind, body) not in seen:
            seen.add((kind, body))
            print(f"{kind} {body.hex() or '-'}: {answer(kind, body)}")


if __name__ == "__main__":
    main()
