#!/usr/bin/env python3
"""Reads the envelopes of RFC 9052 (COSE_Sign1, COSE_Mac0, COSE_Encrypt0) and the voucher of FIDO Device Onboard 1.1.

    vouchers.py KIND HEX

KIND is sign1, mac0, encrypt0, header, entry or voucher. What is printed is the answer of `answer`:

  place N   the input, to its end, is none of that kind. N is the place of its first fault.
  toolong   a voucher of more than 255 entries, all of whose parts are of their form.
  ok ...    for an envelope its protected bytes, its algorithm, for an Encrypt0 its IV, its payload (or what is sealed),
            for a Sign1 its signature and for a Mac0 its tag, all but the algorithm in hexadecimal, `-` for no bytes,
            and then the envelope as it is written anew; for a voucher the number of its entries; for a header or an
            entry nothing more.

The first fault is, as in make_bodies.py, the CBOR's own first one, else the least offset of a part that is not of its
form, else the first byte after the item. What else is told here:

  - A byte string that holds an item (the protected bytes, the payload of an entry, the header of a voucher) is read as
    an input of its own, with 16 levels of depth, to its end. A fault in it has the place of the string's head, of the
    outermost such string.
  - An envelope may lack its tag. Where another tag stands in its place, or a second tag within it, an array is lacking
    there, so the place is that tag's head.
  - The protected bytes hold a map with label 1, a number of 64 bits with its sign; the unprotected map of an Encrypt0
    has label 5, a string of 12 bytes. Other labels are read over, and so are these two elsewhere.
  - In a voucher an item at depth 16, counted from the voucher, is not of its form.
"""

import sys
from types import SimpleNamespace

import make_bodies as make

Fault, encode, known, of = make.Fault, make.encode, make.known, make.of
parts_of, row, shortest, string = make.parts_of, make.row, make.shortest, make.string


# ---- inputs: an item to the input's end


class Spanned(make.Reader):
    """A reader that keeps each item's bytes as received, and the place of the first head at depth 16."""

    def __init__(self, data):
        super().__init__(data)
        self.deep = None

    def item(self, depth=1):
        if depth == 16 and self.deep is None:
            self.deep = self.at
        part = super().item(depth)
        part.raw = self.data[part.place : self.at]
        return part


def read_whole(data, form, is_bounded=False):
    reader = Spanned(data)
    part = reader.item()
    places, value = [], None
    try:
        value = form(part)
    except Fault as fault:
        places.append(fault.place)
    if is_bounded and reader.deep is not None:
        places.append(reader.deep)
    if reader.at < len(data):
        places.append(reader.at)
    if places:
        raise Fault(min(places))
    return value


def content(part, length=None):
    string(2, length)(part)
    return part.held


def inside(part, form):
    """What the item within a byte string says."""
    try:
        return read_whole(content(part), form)
    except Fault:
        raise Fault(part.place)


def is_null(part):
    return (part.major, part.held) == (7, 22)


def elements(part):
    if part.major != 4:
        raise Fault(part.place)
    return part.held


def label(part, spelling):
    """The value of a label of a map, the label by its deterministic spelling."""
    if part.major != 5:
        raise Fault(part.place)
    for key, value in part.held:
        if encode(key) == spelling:
            return value
    raise Fault(part.place)


# ---- envelopes

TAGS = {"encrypt0": 16, "mac0": 17, "sign1": 18}


def algorithm(part):
    return make.integer_of(label(part, b"\x01"))


def envelope(kind):
    def read(part):
        if part.major == 6 and part.held[0] == TAGS[kind]:
            part = part.held[1]
        parts = parts_of(part, 3 if kind == "encrypt0" else 4)
        number = inside(parts[0], algorithm)
        if parts[1].major != 5:
            raise Fault(parts[1].place)
        strings = [content(label(parts[1], b"\x05"), 12)] if kind == "encrypt0" else []
        strings += [content(part) for part in parts[2:]]
        return SimpleNamespace(protected=parts[0].held, alg=number, unprotected=parts[1], strings=strings)

    return read


def written(kind, value):
    """An envelope with its tag, in the deterministic encoding. Only a Sign1 keeps its unprotected map."""
    strings = list(value.strings)
    if kind == "sign1":
        unprotected = encode(value.unprotected)
    elif kind == "mac0":
        unprotected = b"\xa0"
    else:
        unprotected = b"\xa1\x05" + of(2, strings.pop(0))
    return shortest(6, TAGS[kind]) + row(of(2, value.protected), unprotected, *(of(2, text) for text in strings))


# ---- the values of a voucher


def hash_of(kinds):
    def read(part):
        kind, bytes_of = parts_of(part, 2)
        number = known(kind, kinds)
        return SimpleNamespace(kind=number, bytes=content(bytes_of, make.LENGTHS[number]), raw=part.raw)

    return read


any_hash = hash_of(make.LENGTHS)


def public_key(part):
    kind, encoding, body = parts_of(part, 3)
    kind_number, encoding_number = known(kind, make.KEY_TYPES), known(encoding, (0, 1, 2, 3))
    spelled = row(encode(kind), encode(encoding), make.key_body(encoding_number, body))
    size = len(body.held) if encoding_number in (0, 1) else 0
    return SimpleNamespace(kind=kind_number, encoding=encoding_number, size=size, written=spelled, raw=part.raw)


def instruction(part):
    parts = elements(part)
    if len(parts) not in (1, 2):
        raise Fault(part.place)
    make.number((1 << 64) - 1)(parts[0])
    return parts[0].held, content(parts[1]) if len(parts) == 2 else None


def rv_info(part):
    return [[instruction(inner) for inner in elements(directive)] for directive in elements(part)]


def version(part):
    if (part.major, part.held) != (0, 101):
        raise Fault(part.place)


def header(part):
    parts = parts_of(part, 6)
    version(parts[0])
    guid, rv = content(parts[1], 16), rv_info(parts[2])
    string(3)(parts[3])
    key = public_key(parts[4])
    chain_hash = None if is_null(parts[5]) else any_hash(parts[5])
    return SimpleNamespace(guid=guid, rv=rv, info=parts[3].held, key=key, chain_hash=chain_hash, raw=part.raw)


def entry_payload(part):
    parts = parts_of(part, 4)
    prev, info = any_hash(parts[0]), any_hash(parts[1])
    extra = None if is_null(parts[2]) else content(parts[2])
    return SimpleNamespace(prev=prev, info=info, extra=extra, key=public_key(parts[3]))


def entry(part):
    """An entry is read as an envelope whose payload is of a form, so of two faults the first by offset counts."""
    places, values = [], []
    for form in (envelope("sign1"), payload_of):
        try:
            values.append(form(part))
        except Fault as fault:
            places.append(fault.place)
    if places:
        raise Fault(min(places))
    sign, payload = values
    return SimpleNamespace(raw=part.raw, sign=sign, **vars(payload))


def payload_of(part):
    if part.major == 6 and part.held[0] == TAGS["sign1"]:
        part = part.held[1]
    return inside(parts_of(part, 4)[2], entry_payload)


def chain(part):
    if is_null(part):
        return None
    if not elements(part):
        raise Fault(part.place)
    return [content(certificate) for certificate in part.held]


def voucher(part):
    parts = parts_of(part, 5)
    version(parts[0])
    inner = inside(parts[1], header)
    hmac = hash_of((5, 6))(parts[2])
    certificates = chain(parts[3])
    entries = [entry(each) for each in elements(parts[4])]
    return SimpleNamespace(header=inner, hmac=hmac, chain=certificates, entries=entries, string=parts[1].held)


# ---- answers

MOST_ENTRIES = 255


def read_voucher(data):
    return read_whole(data, voucher, is_bounded=True)


def shown(data):
    return data.hex() or "-"


def said(kind, data):
    if kind == "voucher":
        count = len(read_voucher(data).entries)
        return f"ok {count}" if count <= MOST_ENTRIES else "toolong"
    if kind in ("header", "entry"):
        read_whole(data, {"header": header, "entry": entry}[kind])
        return "ok"
    value = read_whole(data, envelope(kind))
    strings = " ".join(map(shown, value.strings))
    return f"ok {shown(value.protected)} {value.alg} {strings} {written(kind, value).hex()}"


def answer(kind, data):
    try:
        return said(kind, data)
    except Fault as fault:
        return f"place {fault.place}"


if __name__ == "__main__":
    print(answer(sys.argv[1], bytes.fromhex(sys.argv[2])))
