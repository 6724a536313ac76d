#!/usr/bin/env python3
"""Prints lines `KIND INPUT: ANSWER` for the readers of envelopes, from the reader in vouchers.py.

KIND is sign1, mac0 or encrypt0 and INPUT the bytes in hexadecimal, `-` for none. vouchers.py tells what ANSWER is.
"""

from damage import INSIDE, mutations
from vouchers import TAGS, answer, make, of, row, shown

wide, chunked = make.wide, make.chunked
KINDS = ("sign1", "mac0", "encrypt0")
TAG = {kind: bytes([192 + TAGS[kind]]) for kind in KINDS}
IV = bytes(range(1, 13))
PROTECTED = of(2, b"\xa1\x01\x26")
PARTS = {
    "sign1": [PROTECTED, b"\xa0", of(2, b"payload"), of(2, b"sig")],
    "mac0": [of(2, b"\xa1\x01\x05"), b"\xa0", of(2, b"payload"), of(2, b"tag")],
    "encrypt0": [of(2, b"\xa1\x01\x03"), b"\xa1\x05" + of(2, IV), of(2, b"sealed")],
}


def plain(kind):
    return TAG[kind] + row(*PARTS[kind])


def with_part(kind, at, part, rows=row):
    parts = list(PARTS[kind])
    parts[at] = part
    return TAG[kind] + rows(*parts)


def protecting(kind, inner):
    return with_part(kind, 0, of(2, inner))


def unprotecting(inner):
    return with_part("encrypt0", 1, inner)


# ---- groups chosen by hand: a comment, and pairs of a kind and an input


def good():
    for kind in KINDS:
        array = row(*PARTS[kind])
        yield from ((kind, plain(kind)), (kind, array), (kind, wide(6, TAGS[kind], 1) + array),
            (kind, wide(6, TAGS[kind], 8) + array))
        for rows in (make.open_row, make.wide_row(1), make.wide_row(8)):
            yield kind, TAG[kind] + rows(*PARTS[kind])
        for at, part in enumerate(PARTS[kind]):
            if part[0] >> 5 == 2:
                yield from ((kind, with_part(kind, at, chunked(2, part[1:], 2))),
                    (kind, with_part(kind, at, wide(2, len(part) - 1, 4) + part[1:])))
            if at > 1:
                yield from ((kind, with_part(kind, at, b"\x40")), (kind, with_part(kind, at, b"\x5f\xff")))


def other_types():
    for kind in KINDS:
        for at in range(len(PARTS[kind])):
            for part in make.TYPES:
                yield kind, with_part(kind, at, part)


def no_items():
    for kind in KINDS:
        for at in range(len(PARTS[kind])):
            for part in make.NO_ITEMS:
                yield kind, with_part(kind, at, part)


def other_lengths():
    for kind in KINDS:
        parts = PARTS[kind]
        for others in ([], parts[:1], parts[:-1], parts[1:], parts + [b"\x40"], parts + [b"\x00"], [b"\x00"] + parts,
                parts + parts):
            yield kind, TAG[kind] + row(*others)
            yield kind, row(*others)
        yield kind, TAG[kind] + make.open_row(*parts[:-1])
        yield kind, TAG[kind] + make.long_row(*parts)


def no_arrays():
    for kind in KINDS:
        yield kind, b""
        for part in make.TYPES + make.NO_ITEMS:
            yield from ((kind, part), (kind, TAG[kind] + part))


def tags():
    for kind in KINDS:
        array = row(*PARTS[kind])
        for tag in (b"\xc0", b"\xcf", b"\xd0", b"\xd1", b"\xd2", b"\xd3", b"\xd8\x60", b"\xd8\x61", b"\xd8\x62",
                b"\xd9\x00\x12", b"\xdb\x00\x00\x00\x01\x00\x00\x00\x12"):
            yield kind, tag + array
            yield kind, TAG[kind] + tag + array
        yield kind, wide(6, TAGS[kind], 2) + TAG[kind] + array
        yield kind, TAG[kind] + row(TAG[kind] + PARTS[kind][0], *PARTS[kind][1:])
        yield kind, with_part(kind, 1, TAG[kind] + PARTS[kind][1])


def other_envelopes():
    for kind in KINDS:
        for other in KINDS:
            if other != kind:
                yield from ((kind, plain(other)), (kind, row(*PARTS[other])), (kind, TAG[kind] + row(*PARTS[other])))


def nested():
    for kind in KINDS:
        whole = plain(kind)
        for around in (row(whole), of(2, whole), of(3, b"envelope"), row(whole, whole), b"\xa1\x01" + whole,
                b"\xd8\x18" + of(2, whole)):
            yield kind, around
        yield kind, with_part(kind, 2, whole)
        yield kind, with_part(kind, 2, of(2, whole))
        yield kind, with_part(kind, 0, of(2, PARTS[kind][0]))
        yield kind, with_part(kind, 0, row(PARTS[kind][0]))


ALGORITHMS = [
    b"\xa0",
    b"\xbf\xff",
    b"\xa1\x01\x65ES256",
    b"\xa1\x01\xf6",
    b"\xa1\x01\x41\x26",
    b"\xa1\x01\x81\x26",
    b"\xa1\x01\xc1\x26",
    b"\xa1\x01" + wide(0, (1 << 63) - 1, 8),
    b"\xa1\x01" + wide(0, 1 << 63, 8),
    b"\xa1\x01" + wide(0, (1 << 64) - 1, 8),
    b"\xa1\x01" + wide(1, (1 << 63) - 1, 8),
    b"\xa1\x01" + wide(1, 1 << 63, 8),
    b"\xa1\x01" + wide(1, (1 << 64) - 1, 8),
    b"\xa1\x01\x00",
    b"\xa1\x01\x20",
    b"\xa1\x18\x01\x38\x06",
    b"\xa1\x1b" + bytes(7) + b"\x01\x26",
    b"\xbf\x01\x26\xff",
    b"\xb9\x00\x01\x01\x26",
    b"\xa1\x21\x26",
    b"\xa1\x20\x26",
    b"\xa1\x02\x26",
    b"\xa1\x61\x31\x26",
    b"\xa1\x41\x01\x26",
    b"\xa1\x81\x01\x26",
    b"\xa2\x04\x41k\x01\x26",
    b"\xa2\x01\x26\x04\x41k",
    b"\xa2\x01\x26\x01\x26",
    b"\xa2\x01\x26\x18\x01\x26",
    b"\xa3\x02\x81\x01\x01\x26\x61a\xa0",
    b"\xa3\x02\x81\x01\x01\x26\x02\xa0",
]
PROTECTEDS = [
    b"",
    b"\x26",
    b"\x80",
    b"\x82\x01\x26",
    b"\x61a",
    b"\x43\xa1\x01\x26",
    b"\xd2\xa1\x01\x26",
    b"\xf6",
    b"\xf7",
    b"\xa1",
    b"\xa1\x01",
    b"\xa1\x01\x38",
    b"\xa1\x01\x19\x00",
    b"\xa2\x01\x26",
    b"\xbf\x01\x26",
    b"\xbf\x01\xff",
    b"\xa1\x01\x26\x00",
    b"\xa1\x01\x26\xff",
    b"\xa1\x01\x26\xa0",
    b"\xa1\x01\x26\xa1\x01\x26",
    b"\xa0\xa1\x01\x26",
    b"\xa1\x01\x1c",
    b"\xa1\x01\xf9\x00\x00",
    b"\xff",
    b"\xa1\x01\xf8\x1f",
    b"\xa2\x01\x26\x02\x61\xc3",
    b"\xa2\x01\x26\x02" + b"\x81" * 14 + b"\x00",
    b"\xa2\x01\x26\x02" + b"\x81" * 15 + b"\x00",
]


def algorithms():
    for kind in KINDS:
        for inner in ALGORITHMS:
            yield kind, protecting(kind, inner)
    yield "sign1", TAG["sign1"] + row(b"\x41\xa0", b"\xa1\x01\x26", *PARTS["sign1"][2:])
    yield "sign1", with_part("sign1", 1, b"\xa1\x01\x65ES256")


def protected():
    for kind in KINDS:
        for inner in PROTECTEDS:
            yield kind, protecting(kind, inner)
    yield "sign1", with_part("sign1", 0, b"\x5f\x42\xa1\x01\x41\x26\xff")
    yield "sign1", with_part("sign1", 0, b"\x5f\x42\xa1\x01\x42\x26\x00\xff")
    yield "sign1", with_part("sign1", 0, b"\x58\x02\xa1\x01")
    yield "sign1", with_part("sign1", 0, b"\xa1\x01\x26")


def ivs():
    for size in (0, 1, 7, 8, 11, 12, 13, 16, 24):
        yield "encrypt0", unprotecting(b"\xa1\x05" + of(2, (IV + IV)[:size]))
        yield "encrypt0", unprotecting(b"\xa1\x05" + chunked(2, (IV + IV)[:size], 5))
    for value in make.TYPES + [of(3, b"a" * 12), row(of(2, IV)), b"\xc2" + of(2, IV), of(2, of(2, IV[1:]))]:
        yield "encrypt0", unprotecting(b"\xa1\x05" + value)
    good_iv = b"\x05" + of(2, IV)
    for inner in (b"\xa0", b"\xbf\xff", b"\xa1\x04" + of(2, IV), b"\xa1\x06" + of(2, IV), b"\xa1\x24" + of(2, IV),
            b"\xa1\x65" + b"12345" + of(2, IV), b"\xa1\x41\x05" + of(2, IV), of(2, b"\xa1" + good_iv),
            row(b"\x05", of(2, IV))):
        yield "encrypt0", unprotecting(inner)
    for inner in (b"\xa2\x01\x26" + good_iv, b"\xa2" + good_iv + b"\x01\x65ES256", b"\xa1\x18\x05" + of(2, IV),
            b"\xbf" + good_iv + b"\xff", b"\xa2" + good_iv + good_iv, b"\xa2" + good_iv + b"\x19\x00\x05" + of(2, IV),
            b"\xa3\x00\x80" + good_iv + b"\x00\xf6"):
        yield "encrypt0", unprotecting(inner)
    yield "encrypt0", TAG["encrypt0"] + row(of(2, b"\xa2\x01\x03" + good_iv), b"\xa0", of(2, b"sealed"))
    for kind in ("sign1", "mac0"):
        for inner in (b"\xa1" + good_iv, b"\xa1\x05\x00", b"\xa1\x05\x41\x00", b"\xa1\x01\x65ES256",
                b"\xa2\x05\x00\x01\xf6"):
            yield kind, with_part(kind, 1, inner)


def unprotected():
    maps = (b"\xa2\x01\x00\x01\x00", b"\xa2\x01\x00\x18\x01\x00", b"\xa3\x03\x00\x02\x00\x03\x00",
        b"\xa2\x61a\x00\x78\x01a\x01", b"\xa1\x19\x01\x00\x41n", b"\xbf\x02\x00\x01\x00\xff",
        b"\xa2\x19\x01\x01\x80\x03\x00", b"\xa1\xa1\x00\x00\x00", b"\xa1\x00", b"\xbf\x00\xff",
        b"\xb8\x02\x20\xf4\x00\xf8\x20", b"\xa2\x41b\x00\x41a\x7f\x61c\x61d\xff", b"\xa1\x01\xf5")
    for kind in ("sign1", "mac0"):
        for inner in maps:
            yield kind, with_part(kind, 1, inner)
        for depth in (12, 13, 14):
            for front in (b"\x81", b"\xc1", b"\xa1\x00"):
                yield kind, with_part(kind, 1, b"\xa1\x00" + front * depth + b"\x00")
                yield kind, with_part(kind, 1, b"\xa1\x00" + front * depth + b"\x00")[1:]


def after():
    for kind in KINDS:
        for more in (b"\x00", b"\xff", b"\x40", b"\xf6", b"\x18", plain(kind)):
            yield from ((kind, plain(kind) + more), (kind, row(*PARTS[kind]) + more))


def both():
    for kind in KINDS:
        parts = PARTS[kind]
        yield kind, TAG[kind] + row(parts[0], b"\x80", b"\x00", *parts[3:])
        yield kind, TAG[kind] + row(b"\x41\xa0", b"\x80", *parts[2:]) + b"\x00"
        yield kind, TAG[kind] + row(b"\x41\xa0", parts[1], b"\x60", *parts[3:]) + b"\x00"
        yield kind, with_part(kind, 0, b"\x40") + b"\xff"
        yield kind, with_part(kind, 0, b"\x40")[:-1]
        yield kind, with_part(kind, 0, b"\x40", make.long_row) + b"\xff"
        yield kind, with_part(kind, 2, b"\x60") + b"\x00"
        yield kind, with_part(kind, 1, b"\x80", make.open_row)[:-1]
        yield kind, TAG[kind] + row(b"\x00", b"\x00", b"\x00") + b"\x00"
    yield "encrypt0", unprotecting(b"\xa1\x05\x40") + b"\x00"
    yield "encrypt0", unprotecting(b"\xa2\x05\x40\x05\x40")
    yield "encrypt0", unprotecting(b"\xa2\x00\x18\x05\x40")


def prefixes():
    for kind in KINDS:
        for size in range(len(plain(kind))):
            yield kind, plain(kind)[:size]


GROUPS = [
    ("of the form: with and without the tag, and in other spellings", good),
    ("each part of another type", other_types),
    ("in the place of each part what is no item", no_items),
    ("a part less and a part more", other_lengths),
    ("no array", no_arrays),
    ("other tags, the tag twice, and a tag within", tags),
    ("an envelope of another kind", other_envelopes),
    ("an envelope within something else, and something else within it", nested),
    ("algorithms: lacking, no number, past 64 bits with a sign, and labels in other spellings and orders", algorithms),
    ("protected bytes: none, no map, cut, with a byte after, and faults and depth inside", protected),
    ("IVs: of another length, lacking, no bytes, in another place, twice", ivs),
    ("unprotected maps: other labels, a label twice, depth 16 and 17", unprotected),
    ("bytes after the item", after),
    ("two faults", both),
    ("each proper prefix", prefixes),
]


# ---- changes of good ones


def trees():
    """A few of each kind, with its name."""
    labels = (5, [(0, 1), (1, 6), (0, 4), (2, b"k1")])
    algorithm_5 = (INSIDE, (5, [(0, 1), (0, 5)]))
    sign = [(INSIDE, (5, [(0, 1), (1, 34)])), (5, [(0, 256), (2, b"nonce"), (1, 258), (4, [(0, 7)])]), (2, b"pay"),
        (2, b"s")]
    seal = [(INSIDE, (5, [(0, 1), (0, 1)])), (5, [(0, 4), (3, b"a"), (0, 5), (2, IV)]), (2, b"sealed")]
    small = [(INSIDE, (5, [(0, 1), (1, 65537)])), (5, [(0, 5), (2, IV)]), (2, b"")]
    yield "sign1", [(6, [18, (4, sign)]), (4, sign), (6, [18, (4, [(INSIDE, labels), (5, []), (2, b""), (2, b"")])])]
    yield "mac0", [(6, [17, (4, [algorithm_5, (5, []), (2, b"pay"), (2, b"tag")])]),
        (4, [algorithm_5, labels, (2, b""), (2, b"t")])]
    yield "encrypt0", [(6, [16, (4, seal)]), (4, seal), (6, [16, (4, small)])]


COUNTS = {"sign1": 600, "mac0": 400, "encrypt0": 500}


def main():
    print("# KIND INPUT (hex, - for none): ANSWER. place N: no such envelope, with the place of its first fault.")
    print("# ok PROTECTED ALGORITHM PAYLOAD SIGNATURE WRITTEN for sign1, PAYLOAD TAG for mac0, IV SEALED for encrypt0.")
    print("# Made by make_envelopes.py")
    known = set()
    for comment, group in GROUPS:
        print(f"# {comment}")
        print_lines(group(), known)
    print("# changes of good ones, drawn from a generator of numbers")
    for kind, good_ones in trees():
        print_lines(((kind, data) for data in mutations(good_ones, COUNTS[kind], 18)), known)


def print_lines(pairs, known):
    for kind, data in pairs:
        if (kind, data) not in known:
            known.add((kind, data))
            print(f"{kind} {shown(data)}: {answer(kind, data)}")


if __name__ == "__main__":
    main()
