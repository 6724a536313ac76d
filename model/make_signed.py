#!/usr/bin/env python3
"""Prints lines `KIND INPUT: ANSWER` for the readers of bodies, as make_bodies.py does, for the types that stand on vouchers,
on envelopes and on ServiceInfo: 11, 22, 32, 33, 61, 63, 64, 65, 68 and 69.

What stands inside a byte string (a header, to0d, a payload, a value of ServiceInfo) is read to its end, and a fault in it
has the place of the string's head. What is kept as received (a header, to0d, to1d, an entry, the protected header and the
payload of an envelope) is written so.
"""

import make_bodies as make
import make_vouchers as made
import vouchers as read
from make_bodies import GUID, HASH, NO_ITEMS, NONCE, TYPES, Fault, Slot, encode, of, row, shortest, string, wide

SIXTEEN = string(2, 16)


# ---- readers: each reads a part and gives its encoding, or has its fault


def in_string(form):
    """A byte string, kept as received, that holds an item of a form."""

    def take(part):
        read.inside(part, form)
        return of(2, part.held)

    return take


def as_received(form):
    def take(part):
        form(part)
        return part.raw

    return take


def address(part):
    parts = make.parts_of(part, 4)
    make.or_null(string(2))(parts[0])
    make.or_null(string(3))(parts[1])
    make.number(65535)(parts[2])
    make.number(65535)(parts[3])


def addresses(part):
    for each in read.elements(part):
        address(each)


def redirect(part):
    parts = make.parts_of(part, 2)
    addresses(parts[0])
    read.any_hash(parts[1])


def ueid(part):
    if read.content(part, 17)[0] != 1:
        raise Fault(part.place)


def proof(part):
    SIXTEEN(read.label(part, b"\x0a"))
    ueid(read.label(part, b"\x19\x01\x00"))


def device_proof(part):
    proof(part)
    read.content(make.parts_of(read.label(part, b"\x39\x01\x00"), 1)[0])


def shown(part):
    parts = make.parts_of(part, 8)
    read.inside(parts[0], read.header)
    reads = (make.number(255), read.any_hash, SIXTEEN, make.SIG_INFO, read.content, read.any_hash, make.SIZE)
    for form, each in zip(reads, parts[1:]):
        form(each)


def setup(part):
    parts = make.parts_of(part, 4)
    read.rv_info(parts[0])
    SIXTEEN(parts[1])
    SIXTEEN(parts[2])
    read.public_key(parts[3])


def labels(forms):
    """Values of the unprotected header by their labels; of two at fault the first by offset counts."""

    def take(part):
        places = []
        for label, form in forms.items():
            try:
                form(read.label(part, label))
            except Fault as fault:
                places.append(fault.place)
        if places:
            raise Fault(min(places))

    return take


def signed(payload, unprotected):
    def take(part):
        held = part.held[1] if part.major == 6 and part.held[0] == 18 else part
        parts = make.parts_of(held, 4)
        read.inside(parts[0], read.algorithm)
        if parts[1].major != 5:
            raise Fault(parts[1].place)
        unprotected(parts[1])
        read.inside(parts[2], payload)
        read.content(parts[3])
        return read.written("sign1", read.envelope("sign1")(part))

    return take


def flag(part):
    if (part.major, part.held) not in ((7, 20), (7, 21)):
        raise Fault(part.place)
    return encode(part)


def pair(part):
    key, value = make.parts_of(part, 2)
    return row(string(3)(key), in_string(lambda item: None)(value))


def pairs(part):
    return row(*(pair(each) for each in read.elements(part)))


def to0d_voucher(part):
    read.read_whole(part.raw, read.voucher, is_bounded=True)


def to0d(part):
    parts = make.parts_of(part, 3)
    to0d_voucher(parts[0])
    make.number((1 << 32) - 1)(parts[1])
    SIXTEEN(parts[2])


NO_CLAIMS = labels({})
TO1D = as_received(signed(redirect, NO_CLAIMS))
BODIES = {
    11: make.array(in_string(read.header)),
    22: make.array(in_string(to0d), TO1D),
    32: signed(proof, NO_CLAIMS),
    33: TO1D,
    61: signed(shown, labels({b"\x19\x01\x00": SIXTEEN, b"\x19\x01\x01": read.public_key})),
    63: make.array(make.number(255), as_received(read.entry)),
    64: signed(device_proof, labels({b"\x39\x01\x02": SIXTEEN})),
    65: signed(setup, NO_CLAIMS),
    68: make.array(flag, pairs),
    69: make.array(flag, flag, pairs),
}


def answer(kind, body):
    reader = read.Spanned(body)
    try:
        said = BODIES[kind](reader.item())
        if reader.at != len(body):
            raise Fault(reader.at)
    except Fault as fault:
        return f"Body {fault.place}"
    return f"Ok {said.hex()}"


# ---- bodies


def one_changed(slots, spell):
    """The body whose parts stand plain, and each with one part in another spelling or of another form."""
    plain = [slot.plain for slot in slots]
    yield spell(plain)
    for i, slot in enumerate(slots):
        for other in slot.all():
            yield spell(plain[:i] + [other] + plain[i + 1 :])
    for parts in (plain[:-1], plain[1:], plain + [b"\x00"]):
        yield spell(parts)


def around(body):
    yield body
    for after in (b"\x00", b"\xff", b"\x80"):
        yield body + after
    yield body[:-1]


PROTECTED = Slot(
    of(2, b"\xa1\x01\x26"),
    [of(2, b"\xbf\x18\x01\x38\x06\xff"), of(2, b"\xa2\x05\x00\x01\x3a\x00\x01\x00\x00")],
    [of(2, text) for text in (b"", b"\xa0", b"\xa1\x01\x60", b"\xa1\x01\x26\x00", b"\x80", b"\xa1\x01\x1b" + b"\xff" * 8)],
)
SIGNATURE = Slot(of(2, b"signature"), [b"\x40", make.chunked(2, b"signature", 4)])
EMPTY = Slot(b"\xa0", [b"\xbf\xff", b"\xa1\x00\x00", b"\xa2\x20\x00\x00\x00"], [b"\xa2\x00\x00\x00\x00"])
KEY = row(b"\x18\xc8", b"\x00", b"\x41\x01")
KEYS = Slot(KEY, [row(wide(0, 200, 2), b"\x00", b"\x41\x02")], [row(b"\x02", b"\x00", b"\x40"), row(b"\x0a", b"\x04", b"\x40"), row(KEY), row(b"\x0a", b"\x03", b"\xa0")])
NONCES = make.string_slot(2, NONCE, **make.SIXTEENS)
GUIDS = make.string_slot(2, GUID, **make.SIXTEENS)
HASHES = Slot(row(b"\x2f", of(2, HASH)), [row(b"\x05", of(2, HASH)), make.open_row(b"\x38\x2a", of(2, make.LONG_HASH))], [row(b"\x2f", of(2, HASH[1:])), row(b"\x00", of(2, HASH))])
UEIDS = Slot(of(2, b"\x01" + GUID), [wide(2, 17, 4) + b"\x01" + GUID], [of(2, b"\x02" + GUID), of(2, GUID), of(2, b"\x01" + GUID + b"\x00"), b"\x40"])
SIGS = Slot(row(b"\x26", b"\x40"), [make.open_row(b"\x38\x06", b"\x41a")], [row(b"\x26"), row(b"\x40", b"\x26")])
HEADERS = Slot(of(2, make.HEADER), [wide(2, len(make.HEADER), 4) + make.HEADER], [of(2, make.HEADER + b"\x00"), of(2, make.HEADER[:-1]), of(2, b"\x80"), b"\x40"])


def claims(*entries):
    return lambda values: shortest(5, len(values)) + b"".join(label + value for label, value in zip(entries, values))


def signed_bodies(slots, unprotected, spell, more=()):
    """Bodies of an envelope: each part of the envelope changed, then each of the payload's."""
    plain = spell([slot.plain for slot in slots])
    payloads = Slot(of(2, plain), [make.chunked(2, plain, 31)], [of(2, plain + b"\x00"), of(2, plain[:-1]), b"\x40", *more])
    envelope = [PROTECTED, unprotected, payloads, SIGNATURE]
    for rows in (row, lambda *parts: b"\xd2" + row(*parts), lambda *parts: b"\xd3" + row(*parts), lambda *parts: b"\xd2\xd2" + row(*parts), make.open_row):
        yield from around(rows(*(slot.plain for slot in envelope)))
    yield from one_changed(envelope, lambda parts: b"\xd2" + row(*parts))
    for text in one_changed(slots, spell):
        yield b"\xd2" + row(PROTECTED.plain, unprotected.plain, of(2, text), SIGNATURE.plain)
    # two faults, of which the first is told
    yield b"\xd2" + row(b"\x40", b"\x80", b"\x40", b"\x60")
    yield b"\xd2" + row(PROTECTED.plain, unprotected.plain, b"\x40", b"\x60")


def addresses_slot():
    one = row(of(2, bytes([127, 0, 0, 1])), of(3, b"o"), b"\x19\x1f\x68", b"\x03")
    parts = [
        Slot(of(2, bytes(16)), [b"\xf6", b"\x40", of(2, bytes(5))]),
        Slot(of(3, b"o"), [b"\xf6", b"\x60"]),
        make.number_slot(8040, 65535),
        make.number_slot(3, 65535),
    ]
    rows = [row(text) for text in one_changed(parts, lambda values: row(*values))]
    return Slot(row(one), [row(one, one), make.open_row(one)], [row(), *rows, row(one, b"\x00")])


REDIRECT = [addresses_slot(), HASHES]


def to1d():
    return b"\xd2" + row(PROTECTED.plain, EMPTY.plain, of(2, row(*(slot.plain for slot in REDIRECT))), SIGNATURE.plain)


def to0d_slot():
    chained = made.voucher()
    grown = made.voucher([made.entry(), made.entry()])
    parts = [Slot(chained, [grown], [chained[:-1], row(chained)]), make.number_slot(3600, (1 << 32) - 1), NONCES]
    texts = list(one_changed(parts, lambda values: row(*values)))
    texts += [texts[0] + b"\x00", texts[0][:-1], make.open_row(*(part.plain for part in parts))]
    return Slot(of(2, texts[0]), [of(2, text) for text in texts[1:]])


def owner_claims():
    both = claims(b"\x19\x01\x00", b"\x19\x01\x01")
    texts = list(one_changed([NONCES, KEYS], both))
    turned = claims(b"\x19\x01\x01", b"\x19\x01\x00")
    texts += [turned([KEYS.plain, NONCES.plain]), turned([b"\x60", b"\x60"]), both([b"\x60", b"\x60"]), both([b"\x60"])]
    return Slot(texts[0], texts[1:])


def device_claims():
    one = claims(b"\x39\x01\x02")
    texts = list(one_changed([NONCES], one))
    return Slot(texts[0], [*texts[1:], b"\xa2\x00\x00" + texts[0][1:], b"\xa1\x19\x01\x02" + NONCES.plain])


def pairs_slot():
    def spell(parts):
        return row(row(*parts))

    values = Slot(of(2, b"\xf5"), [b"\x41\x00", make.chunked(2, b"\x82\x01\x02", 1), of(2, b"\x18\x00")], [b"\x40", of(2, b"\x00\x00"), of(2, b"\x18"), of(2, b"\xf9\x00\x00")])
    keys = make.string_slot(3, b"devmod:active", (0,))
    texts = list(one_changed([keys, values], spell))
    two = [row(keys.plain, values.plain), row(of(3, b"fdo.download:name"), of(2, b"\x61a"))]
    more = [row(*two), make.open_row(*two), row(two[0], b"\x00"), row(two[0], row(keys.plain, b"\x40")), row(keys.plain, values.plain)]
    return Slot(b"\x80", [b"\x9f\xff", *texts, *more])


def cases():
    for body in (b"", *TYPES, *NO_ITEMS, b"\x80", b"\x9f\xff", b"\x81" * 16 + b"\x80"):
        for kind in BODIES:
            yield kind, body
    for body in one_changed([HEADERS], lambda parts: row(*parts)):
        yield 11, body
    for text in make.NO_ITEMS:
        yield 11, row(of(2, make.HEADER[:-1] + text))
    for body in one_changed([to0d_slot(), Slot(to1d(), signed_bodies(REDIRECT, EMPTY, lambda parts: row(*parts)))], lambda parts: row(*parts)):
        yield 22, body
    for body in around(row(to0d_slot().plain, to1d())):
        yield 22, body
    label, ueid_label, fdo_label = b"\x0a", b"\x19\x01\x00", b"\x39\x01\x00"
    other = [of(2, claims(ueid_label, b"\x00", label)([UEIDS.plain, b"\x00", of(2, NONCE)])), of(2, claims(label, b"\x19\x01\x01")([of(2, NONCE), UEIDS.plain]))]
    for body in signed_bodies([NONCES, UEIDS], EMPTY, claims(label, ueid_label), other):
        yield 32, body
    for body in signed_bodies(REDIRECT, EMPTY, lambda parts: row(*parts)):
        yield 33, body
    header = [HEADERS, make.number_slot(7, 255), HASHES, NONCES, SIGS, Slot(b"\x42xa"), HASHES, make.number_slot(1300, 65535)]
    for body in signed_bodies(header, owner_claims(), lambda parts: row(*parts)):
        yield 61, body
    entries = [made.entry(rows=rows) for rows in (row, make.open_row)] + [made.entry(inner=text) for text in (b"\x80", b"", made.payload()[:-1])]
    for body in one_changed([make.number_slot(7, 255), Slot(made.entry(), entries)], lambda parts: row(*parts)):
        yield 63, body
    xbs = Slot(b"\x81\x42xb", [b"\x9f\x40\xff"], [b"\x80", b"\x82\x40\x40", b"\x81\x60", b"\x42xb"])
    for body in signed_bodies([NONCES, UEIDS, xbs], device_claims(), claims(label, ueid_label, fdo_label)):
        yield 64, body
    rvs = Slot(b"\x80", [b"\x9f\xff", row(row(row(b"\x03", of(2, b"\x19\x1f\x68"))))], [row(row(b"\x03")), row(b"\x80", b"\x00")])
    for body in signed_bodies([rvs, GUIDS, NONCES, KEYS], EMPTY, lambda parts: row(*parts)):
        yield 65, body
    flags = Slot(b"\xf4", [b"\xf5", b"\xf8\x20"])
    for kind, slots in ((68, [flags]), (69, [flags, flags])):
        for body in one_changed([*slots, pairs_slot()], lambda parts: row(*parts)):
            yield kind, body
        for body in around(row(*(slot.plain for slot in slots), b"\x80")):
            yield kind, body


def main():
    print("# KIND INPUT (hex, - for none): read_body, Ok HEX with what write_body gives of the message. Made by make_signed.py")
    seen = set()
    for kind, body in sorted(cases(), key=lambda case: case[0]):
        if (kind, body) not in seen:
            seen.add((kind, body))
            print(f"{kind} {body.hex() or '-'}: {answer(kind, body)}")


if __name__ == "__main__":
    main()
