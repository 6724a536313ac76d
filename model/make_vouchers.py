#!/usr/bin/env python3
"""Prints lines `KIND INPUT: ANSWER` for the readers of vouchers, from the reader in vouchers.py.

KIND is voucher, header or entry and INPUT the bytes in hexadecimal, `-` for none. vouchers.py tells what ANSWER is. The
vouchers here are of the form of FIDO Device Onboard 1.1, section 3.4, but nothing is signed.
"""

from damage import INSIDE, mutations
from vouchers import answer, make, of, row, shown

wide = make.wide
GUID = of(2, make.GUID)
KEY = row(b"\x18\xc8", b"\x00", b"\x41\x01")
HASH = row(b"\x2f", of(2, make.HASH))
LONG_HASH = row(b"\x38\x2a", of(2, make.LONG_HASH))
HMAC = row(b"\x05", of(2, make.HASH))
LONG_HMAC = row(b"\x06", of(2, make.LONG_HASH))
NULL = b"\xf6"
PROTECTED = of(2, b"\xa1\x01\x26")
NUMBERS = [b"\x18\x64", b"\x18\x66", b"\x00", b"\x01", b"\x18\x18", b"\x38\x64", b"\x19\x01\x65", b"\x41\x65",
    wide(0, 101, 2), wide(0, 101, 8)]


def header(version=b"\x18\x65", guid=GUID, rv=b"\x80", info=b"\x63lab", key=KEY, chain_hash=NULL, rows=row):
    return rows(version, guid, rv, info, key, chain_hash)


def payload(prev=HASH, info=HASH, extra=NULL, key=KEY, rows=row):
    return rows(prev, info, extra, key)


def entry(inner=None, protected=PROTECTED, unprotected=b"\xa0", sig=b"\x41s", front=b"\xd2", rows=row):
    return front + rows(protected, unprotected, of(2, payload() if inner is None else inner), sig)


def voucher(entries=(), version=b"\x18\x65", inner=None, hmac=HMAC, chain=NULL, rows=row):
    return rows(version, of(2, header() if inner is None else inner), hmac, chain, row(*entries))


ENTRY = entry()

# ---- parts with others in their place


def keys():
    """Keys of each type and encoding, and what is none."""
    for number in (1, 5, 6, 10, 11, 200, 201, 0, 2, 7, 9, 12, 199, 202, 255):
        yield row(make.shortest(0, number), b"\x00", b"\x41\x01")
    for encoding in (b"\x00", b"\x01", b"\x02", b"\x03", b"\x04", b"\x18\x01", b"\x20", wide(0, 1 << 63, 8)):
        yield row(b"\x0a", encoding, b"\x41\x01")
    for encoding, bodies in ((0, make.BYTES_BODIES), (1, make.BYTES_BODIES), (2, make.CHAIN_BODIES),
            (3, make.COSE_BODIES)):
        for body in bodies:
            yield row(b"\x0a", bytes([encoding]), body)
    for kind in (b"\xf6", b"\x61a", b"\x20", wide(0, (1 << 64) - 1, 8), wide(0, 200, 4)):
        yield row(kind, b"\x00", b"\x41\x01")
    yield from (row(), row(b"\x18\xc8", b"\x00"), row(b"\x18\xc8", b"\x00", b"\x41\x01", b"\x00"),
        make.open_row(b"\x18\xc8", b"\x00", b"\x41\x01"))
    yield from (row(b"\x09", b"\x04", b"\x00"), row(b"\x09", b"\x00", b"\x41\x01") + b"",
        row(b"\x0a", b"\x01", of(2, bytes(91))))


def hashes():
    for kind, size in ((b"\x2f", 32), (b"\x38\x2a", 48), (b"\x05", 32), (b"\x06", 48)):
        for other in (size, 0, size - 1, size + 1, 32, 48):
            yield row(kind, of(2, (make.LONG_HASH + b"x")[:other]))
        yield row(kind, make.chunked(2, make.LONG_HASH[:size], 7))
        yield row(kind, of(3, b"a" * size))
    for kind in (b"\x04", b"\x07", b"\x00", b"\x2e", b"\x30", b"\x38\x29", b"\x38\x2b", b"\xf6", b"\x61a",
            b"\x39\x00\x0f", wide(0, 5, 8), wide(1, 1 << 63, 8)):
        yield row(kind, of(2, make.HASH))
    yield from (row(), row(b"\x2f"), row(b"\x2f", of(2, make.HASH), b"\x00"), row(of(2, make.HASH), b"\x2f"),
        row(b"\x07", b"\x00"))
    yield from (of(2, make.HASH), make.open_row(b"\x2f", of(2, make.HASH)), make.open_row(b"\x05", of(2, make.HASH)))


def rv_infos():
    value = row(b"\x05", b"\x44name")
    for directives in ([], [row()], [row(value)], [row(row(b"\x00"))],
            [row(value, row(b"\x01")), row(), row(row(b"\x18\xff", b"\x40"))]):
        yield row(*directives)
        yield make.open_row(*directives)
    for inner in (row(), row(b"\x00", b"\x40", b"\x00"), row(b"\x20"), row(b"\x61a"), row(b"\x00", NULL),
            row(b"\x00", b"\x60"), row(b"\x00", b"\x00"), row(wide(0, (1 << 64) - 1, 8)),
            row(b"\x00", make.chunked(2, b"ab", 1)), row(NULL), b"\x00", NULL, b"\xa0", b"\x41\x00",
            row(row(b"\x00"))):
        yield row(row(inner))
        yield row(row(value), row(value, inner))
    yield from (row(NULL), row(b"\x00"), row(value), row(row(value), b"\x40"), b"\xa0", of(2, row()))


def infos():
    yield from (b"\x60", b"\x61\x01", b"\x63\xe2\x82\xac", b"\x7f\x61a\x61b\xff", b"\x63\xe2\x82", b"\x61\xff",
        wide(3, 3, 8) + b"lab", of(3, b"a" * 60), of(3, b"\xc3\xa9\x7f\x1f\x00"))


def bytes_parts():
    yield from (b"\x40", b"\x41\x00", b"\x5f\xff", make.chunked(2, b"abc", 2), wide(2, 1, 8) + b"a", b"\x41", NULL)


def chains():
    yield from (row(), make.open_row(), row(b"\x40"), row(b"\x41a", b"\x41b"),
        make.open_row(b"\x41a", make.chunked(2, b"bc", 1)), b"\x41a", row(NULL), row(b"\x41a", NULL), row(b"\x61a"),
        row(b"\x41a", b"\x60", b"\x00"), row(row(b"\x41a")), b"\xf7", b"\xf4", wide(4, 1, 8) + b"\x41a")


def guids():
    for size in (0, 1, 15, 16, 17, 32):
        yield of(2, (make.GUID * 2)[:size])
    yield from (make.chunked(2, make.GUID, 5), make.chunked(2, make.GUID[1:], 5), wide(2, 16, 4) + make.GUID,
        of(3, b"a" * 16), wide(2, 16, 4) + make.GUID[1:])


# ---- groups of headers


def headers():
    for inner in (header(), header(chain_hash=HASH), header(rows=make.open_row), header(rows=make.wide_row(8)),
            header(key=row(b"\x0b", b"\x03", make.COSE_BODIES[2]), info=b"\x60", chain_hash=LONG_HASH)):
        yield inner
    for name, others in (("version", NUMBERS), ("guid", guids()), ("rv", rv_infos()), ("info", infos()),
            ("key", keys()), ("chain_hash", hashes())):
        for part in [*others, *make.TYPES, *make.NO_ITEMS]:
            yield header(**{name: part})


def header_lengths():
    parts = [b"\x18\x65", GUID, b"\x80", b"\x63lab", KEY, HASH]
    for others in (parts[:-1], parts[1:], parts + [NULL], parts + [b"\x1c"], [], [b"\x18\x65"], [NULL] + parts,
            parts + parts):
        yield from (row(*others), make.open_row(*others))
    yield from (make.long_row(*parts), b"\xd2" + row(*parts), of(2, row(*parts)), row(row(*parts)), b"", b"\x00", NULL,
        b"\xa0", b"\xff")
    for more in (b"\x00", b"\xff", b"\xf6", b"\x18", header()):
        yield header() + more
        yield header(chain_hash=b"\x00") + more
    yield header(guid=b"\x40", key=NULL) + b"\x00"
    yield header(rv=row(row(row())), info=b"\x61\xff")


# ---- groups of entries


def entries():
    for whole in (ENTRY, ENTRY[1:], entry(front=wide(6, 18, 1)), entry(rows=make.open_row),
            entry(rows=make.wide_row(2)), entry(payload(rows=make.open_row)),
            entry(payload(LONG_HASH, LONG_HASH, b"\x41x"))):
        yield whole
    for name, others in (("prev", list(hashes())), ("info", list(hashes())[::3]), ("extra", bytes_parts()),
            ("key", keys())):
        for part in [*others, *make.TYPES, *make.NO_ITEMS]:
            yield entry(payload(**{name: part}))
    for inner in (row(), row(HASH, HASH, NULL), row(HASH, HASH, KEY), row(HASH, HASH, NULL, KEY, NULL),
            payload() + b"\x00", payload()[:-1], b"", b"\xd2" + payload(), of(2, payload()), NULL,
            make.long_row(HASH, HASH, NULL, KEY)):
        yield entry(inner)


def entry_parts():
    for front in (b"\xd1", b"\xd0", b"\xd2\xd2", b"\xc1", b"\xd8\x13", b"\x81", b"\xa1\x00"):
        yield entry(front=front)
    for name, others in (("protected",
            [b"\x40", b"\x41\xa0", b"\x43\xa1\x01\xf6", b"\x44\xa1\x01\x26\x00", b"\x42\xa1\x01"]),
            ("unprotected", [b"\xa1\x01\xf6", b"\xa2\x00\x00\x00\x00", b"\xbf\xff"]), ("sig", bytes_parts())):
        for part in [*others, *make.TYPES, *make.NO_ITEMS]:
            yield entry(**{name: part})
    parts = [PROTECTED, b"\xa0", of(2, payload()), b"\x41s"]
    for at in range(4):
        yield b"\xd2" + row(*parts[:at], *parts[at + 1 :])
    for part in make.TYPES + [payload(), make.chunked(2, payload(), 20), of(3, b"a")]:
        yield b"\xd2" + row(PROTECTED, b"\xa0", part, b"\x41s")
    for more in (b"\x00", b"\xff", ENTRY):
        yield ENTRY + more
    yield entry(b"\x80", protected=b"\x40", sig=b"\x60")
    yield entry(b"\x80", unprotected=b"\x80")
    yield entry(b"\x80", sig=NULL) + b"\x00"
    yield entry(b"\x80")[:-1]


# ---- groups of vouchers


def vouchers():
    for count in range(4):
        yield from (voucher([ENTRY] * count), voucher([ENTRY[1:]] * count),
            voucher([ENTRY] * count, hmac=LONG_HMAC, chain=row(b"\x41a", b"\x42bc"),
            inner=header(chain_hash=LONG_HASH)))
        yield voucher([entry(front=wide(6, 18, 8), rows=make.open_row)] * count, rows=make.open_row)
        yield voucher([ENTRY] * count, rows=make.wide_row(4))
    for name, others in (("version", NUMBERS), ("hmac", list(hashes())), ("chain", chains())):
        for part in [*others, *make.TYPES, *make.NO_ITEMS]:
            yield voucher([ENTRY], **{name: part})


def voucher_headers():
    """A fault within the header's string has the place of the string."""
    damaged = [header()[:-1], header() + b"\x00", b"", b"\x00", header(version=b"\x00"), header(guid=b"\x40"),
        header(rv=NULL), header(info=b"\x40"), header(info=b"\x61\xff"), header(key=NULL),
        header(key=row(b"\x09", b"\x00", b"\x40")), header(key=row(b"\x0a", b"\x03", b"\xa2\x01\x02\x01\x02")),
        header(chain_hash=b"\x00"), header(chain_hash=HMAC), header(rv=b"\x81" * 15), of(2, header())]
    for inner in damaged:
        yield voucher(inner=inner)
    parts = [b"\x18\x65", of(2, header()), HMAC, NULL, b"\x80"]
    for part in (header(), make.chunked(2, header(), 11), wide(2, len(header()), 4) + header(),
            make.chunked(2, header()[:-1], 11), of(3, b"a"), *make.TYPES, *make.NO_ITEMS):
        yield row(parts[0], part, *parts[2:])


def voucher_lengths():
    parts = [b"\x18\x65", of(2, header()), HMAC, NULL, row(ENTRY)]
    for others in (parts[:-1], parts[1:], parts + [NULL], parts + [b"\x1c"], [], [b"\x18\x65"], [NULL] + parts,
            parts[:3] + parts[4:]):
        yield from (row(*others), make.open_row(*others))
    yield from (make.long_row(*parts), b"\xd2" + row(*parts), of(2, row(*parts)), row(row(*parts)), b"", b"\x00", NULL,
        b"\xff")
    for part in (*make.TYPES, *make.NO_ITEMS, make.open_row(ENTRY), make.open_row(), b"\x81" + ENTRY + ENTRY,
            b"\x82" + ENTRY, of(2, row(ENTRY)), ENTRY, row(row(ENTRY)), row(of(2, ENTRY)), row(ENTRY, NULL),
            row(NULL, ENTRY)):
        yield row(*parts[:4], part)
    for more in (b"\x00", b"\xff", NULL, b"\x18", voucher()):
        yield voucher() + more
        yield voucher(hmac=HASH) + more


def voucher_entries():
    """Each damaged entry as the first, the middle and the last of three, and two damaged ones."""
    damaged = [entry(front=b"\xd1"), entry(front=b"\xd2\xd2"), entry(b"\x80"), entry(payload(prev=NULL)),
        entry(payload(key=KEY[:-1])), entry(payload() + b"\x00"), entry(protected=b"\x40"),
        entry(protected=b"\x41\xa0"),
        entry(unprotected=b"\x80"), entry(unprotected=b"\xa2\x00\x00\x00\x00"), entry(sig=NULL),
        b"\xd2" + row(PROTECTED, b"\xa0", of(2, payload())), NULL, b"\x1c"]
    for bad in damaged:
        for whole in ([bad, ENTRY, ENTRY], [ENTRY, bad, ENTRY], [ENTRY, ENTRY, bad]):
            yield voucher(whole)
        yield voucher([bad, entry(payload(info=NULL))])
        yield voucher([entry(payload(info=NULL)), bad])
    yield voucher([entry(sig=NULL)], hmac=HASH)
    yield voucher([entry(sig=NULL)], hmac=HASH, chain=row()) + b"\x00"


def voucher_depths():
    """Depth 15 stands, depth 16 is not of the form, depth 17 is a fault of the CBOR; also beside another fault."""
    fronts = (b"\x81", b"\x9f", b"\xc1", b"\xa1\x00", b"\xa1", b"\xd2")
    for front in fronts:
        back = {b"\x9f": b"\xff", b"\xa1": b"\x00"}.get(front, b"")
        for count in (8, 9, 10, 11):
            for leaf in (b"\x00", b"\x40", b"\x5f\x41a\xff", b"\xf6"):
                inner = b"\xa1\x00" + front * count + leaf + back * count
                yield "voucher", voucher([entry(unprotected=inner)])
                yield "voucher", voucher([ENTRY, entry(unprotected=inner, front=b"")])
        for count in (12, 13, 14):
            inner = b"\xa1\x00" + front * count + b"\x00" + back * count
            yield "entry", entry(unprotected=inner)
            yield "entry", entry(unprotected=inner, front=b"")
    deep, good = b"\xa1\x00" + b"\x81" * 10 + b"\x00", b"\xa1\x00" + b"\x81" * 9 + b"\x00"
    for first, second in ((deep, deep), (deep, good), (good, deep)):
        yield "voucher", voucher([entry(unprotected=first), entry(unprotected=second)])
        yield "voucher", voucher([entry(unprotected=first), entry(unprotected=second)]) + b"\x00"
    for other in (entry(payload(info=NULL)), entry(protected=b"\x40"), entry(sig=NULL), NULL):
        yield "voucher", voucher([other, entry(unprotected=deep)])
        yield "voucher", voucher([entry(unprotected=deep), other])
    yield "voucher", voucher([entry(unprotected=deep, protected=b"\x40")])
    yield "voucher", voucher([entry(unprotected=deep, sig=NULL)])
    yield "voucher", voucher([entry(unprotected=deep)], hmac=HASH)
    yield "voucher", voucher([b"\x81" * 13 + b"\x00"])
    yield "voucher", voucher(hmac=b"\x81" * 14 + b"\x00")
    yield from voucher_inner_depths()


def voucher_inner_depths():
    """Items within byte strings have 16 levels of their own."""
    for count in (13, 14, 15, 16):
        protected = b"\xa2\x01\x26\x00" + b"\x81" * (count - 1) + b"\x00"
        yield "voucher", voucher([entry(protected=of(2, protected))])
        yield "entry", entry(protected=of(2, protected))
        yield "voucher", voucher([entry(payload(extra=b"\x81" * count + b"\x00"))])
        yield "voucher", voucher([entry(payload(key=row(b"\x0a", b"\x03",
            make.cose(b"\x00" + b"\x81" * (count - 3) + b"\x00", make.ONE, make.CURVE, make.X, make.Y))))])
        yield "header", header(key=row(b"\x0a", b"\x03",
            make.cose(b"\x00" + b"\x81" * (count - 2) + b"\x00", make.ONE, make.CURVE, make.X, make.Y)))


def many():
    short = entry(sig=b"\x40")
    yield voucher([short] * 255)
    yield voucher([short] * 256)
    yield voucher([short] * 255 + [entry(sig=NULL)])


def prefixes():
    whole = voucher([ENTRY, ENTRY[1:]], chain=row(b"\x41a"), inner=header(chain_hash=HASH))
    return (whole[:size] for size in range(len(whole)))


GROUPS = [
    ("headers: each part with others in its place", "header", headers),
    ("headers: other lengths, other items, bytes after", "header", header_lengths),
    ("entries: each part of the payload with others in its place", "entry", entries),
    ("entries: each part of the envelope with others in its place", "entry", entry_parts),
    ("vouchers: of 0 to 3 entries, and each part with others in its place", "voucher", vouchers),
    ("vouchers: the header's string and what is within", "voucher", voucher_headers),
    ("vouchers: other lengths, other items, bytes after", "voucher", voucher_lengths),
    ("vouchers: a damaged entry at each place, and two faults", "voucher", voucher_entries),
    ("depths", None, voucher_depths),
    ("255 and 256 entries", "voucher", many),
    ("each proper prefix of a voucher of 2 entries", "voucher", prefixes),
]


# ---- changes of good ones


def key_trees():
    cose = [(0, 1), (0, 2), (1, 0), (0, 1), (1, 1), (2, b"x"), (1, 2), (2, b"y"), (3, b"a"), (7, 21)]
    return [(4, [(0, 200), (0, 0), (2, b"\x01")]), (4, [(0, 10), (0, 3), (5, cose)]),
        (4, [(0, 5), (0, 2), (4, [(2, b"a"), (2, b"")])]), (4, [(0, 11), (0, 1), (2, b"spki")])]


def header_trees():
    rv = [(4, []), (4, [(4, [(4, [(0, 5), (2, b"\x61n")]), (4, [(0, 14)])]), (4, [])])]
    ends = [(7, 22), (4, [(1, 15), (2, make.HASH)])]
    for at, key in enumerate(key_trees()):
        yield (4, [(0, 101), (2, make.GUID), rv[at % 2], (3, b"lab"), key, ends[at // 2]])


def entry_trees():
    hashes = [(4, [(1, 15), (2, make.HASH)]), (4, [(1, 42), (2, make.LONG_HASH)])]
    protected = (INSIDE, (5, [(0, 1), (1, 65536)]))
    for at, key in enumerate(key_trees()):
        inner = (4, [hashes[at // 3], hashes[0], [(7, 22), (2, b"x")][at % 2], key])
        array = (4, [protected, [(5, []), (5, [(0, 4), (4, [(0, 1)])])][at % 2], (INSIDE, inner), (2, b"sg")])
        yield (6, [18, array]) if at < 3 else array


def voucher_trees():
    hmacs = [(4, [(0, 5), (2, make.HASH)]), (4, [(0, 6), (2, make.LONG_HASH)])]
    chains = [(7, 22), (4, [(2, b"c"), (2, b"d")])]
    entries = list(entry_trees())
    for at, inner in enumerate(header_trees()):
        for count in (0, 1) if at else (0, 1, 2, 3):
            yield (4, [(0, 101), (INSIDE, inner), hmacs[at % 2], chains[at // 2],
                (4, (entries[at:] + entries)[:count])])


TREES = [("header", header_trees, 450), ("entry", entry_trees, 450), ("voucher", voucher_trees, 700)]


def print_lines(kind, inputs, known):
    for given in inputs:
        case = given if kind is None else (kind, given)
        if case not in known:
            known.add(case)
            print(f"{case[0]} {shown(case[1])}: {answer(*case)}")


def main():
    print("# KIND INPUT (hex, - for none): ANSWER. place N: no such value, with the place of its first fault. toolong:")
    print("# more than 255 entries. ok, and for a voucher the number of its entries. Made by make_vouchers.py")
    known = set()
    for comment, kind, group in GROUPS:
        print(f"# {comment}")
        print_lines(kind, group(), known)
    print("# changes of good ones, drawn from a generator of numbers")
    for kind, trees, count in TREES:
        print_lines(kind, mutations(list(trees()), count, 19), known)


if __name__ == "__main__":
    main()
