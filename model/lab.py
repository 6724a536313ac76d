"""Makes vouchers (FIDO Device Onboard 1.1, section 3.4) whose keys are those of the laboratory suite.

A laboratory key [200, 0, bytes] has 1 to 32 bytes, and whoever knows them can sign: the signature number -65537 is the
SHA-256 of "FDO-LAB-SIG", the key's encoding and the text. A certificate is "FDO-LAB-CERT" and the encoding of the
device's key.
Hashes are of SHA-384 (kind -43, HMAC kind 6) where the header's key is of type 11 or a laboratory key of more than 16
bytes, else of SHA-256 (kind -16, HMAC kind 5).
"""

import hashlib
import hmac as hmac_code

from vouchers import make, of, row, shortest

GUID = bytes(range(16))
ALGORITHM = -65537
SHA256, SHA384, HMAC256, HMAC384 = -16, -43, 5, 6
HASHES = {SHA256: hashlib.sha256, SHA384: hashlib.sha384}


def number(n):
    return shortest(0, n) if n >= 0 else shortest(1, -1 - n)


def digest(kind, *parts):
    return HASHES[kind](b"".join(parts)).digest()


def hash_item(kind, *parts):
    return row(number(kind), of(2, digest(kind, *parts)))


def lab_key(private, encoding=0):
    return row(b"\x18\xc8", number(encoding), of(2, private))


def certificate(private):
    return b"FDO-LAB-CERT" + lab_key(private)


def signature_text(protected, payload):
    return row(of(3, b"Signature1"), of(2, protected), b"\x40", of(2, payload))


def signature(key, protected, payload):
    return digest(SHA256, b"FDO-LAB-SIG", key, signature_text(protected, payload))


def flipped(data):
    return data[:-1] + bytes([data[-1] ^ 1])


# ---- the parts of a voucher


class Header:
    def __init__(self, key, guid=GUID, rv=b"\x80", info=b"lab", chain_hash=b"\xf6", spell=row):
        self.guid, self.info, self.key = guid, info, key
        self.bytes = spell(b"\x18\x65", of(2, guid), rv, of(3, info), key, chain_hash)


def hmac_item(kind, header):
    code = hmac_code.new(b"laboratory", header.bytes, {HMAC256: "sha256", HMAC384: "sha384"}[kind])
    return row(number(kind), of(2, code.digest()))


def protected_of(algorithm):
    return b"\xa1\x01" + number(algorithm)


def entry(header, kind, signer, key, before, change):
    """One entry; `change` has what differs from a right one: a part's bytes, or for `sig` a function of it."""
    prev = change.get("prev", hash_item(kind, before))
    info = change.get("info", hash_item(kind, header.guid, header.info))
    payload = row(prev, info, change.get("extra", b"\xf6"), key)
    protected = change.get("protected", protected_of(ALGORITHM))
    sig = change.get("sig", lambda made: made)(signature(change.get("signer", signer), protected, payload))
    front = change.get("front", b"\xd2")
    return front + row(of(2, protected), change.get("unprotected", b"\xa0"), of(2, payload), of(2, sig))


def entries(header, kind, hmac, keys, changes=None):
    """An entry for each key but the first, each signed by the key before it."""
    made, before = [], header.bytes + hmac
    for i, (signer, key) in enumerate(zip(keys, keys[1:])):
        change = (changes or {}).get(i, {})
        made.append(entry(header, kind, signer, change.get("key", key), before, change))
        before = made[-1]
    return made


def voucher(header, hmac, certificates, made, spell=row):
    chain = b"\xf6" if certificates is None else row(*(of(2, each) for each in certificates))
    return spell(b"\x18\x65", of(2, header.bytes), hmac, chain, row(*made))


# ---- whole vouchers


def kinds(private):
    return (SHA384, HMAC384) if len(private) > 16 else (SHA256, HMAC256)


def lab(privates, changes=None, rv=b"\x80", info=b"lab", device=b"\x03"):
    """A voucher for the private keys of the header and of each entry in turn, with a chain of one certificate."""
    keys = [lab_key(private) for private in privates]
    kind, hmac_kind = kinds(privates[0])
    header = Header(keys[0], rv=rv, info=info, chain_hash=hash_item(kind, certificate(device)))
    hmac = hmac_item(hmac_kind, header)
    return voucher(header, hmac, [certificate(device)], entries(header, kind, hmac, keys, changes))


def owners(count):
    """The private keys of a voucher of that many entries: 01, 02, 04, 05, 01 and so on."""
    return [bytes([(1, 2, 4, 5)[i % 4]]) for i in range(count + 1)]


def stream(label, size):
    """Bytes that look drawn, the same at each run."""
    blocks = [digest(SHA256, label, i.to_bytes(4, "big")) for i in range(size // 32 + 1)]
    return b"".join(blocks)[:size]


SPKI = bytes.fromhex("3059301306072a8648ce3d020106082a8648ce3d03010703420004")


def p256_key(name):
    """A key of type SECP256R1 as an X509 SubjectPublicKeyInfo (RFC 5480). Its point is drawn, so nobody can sign."""
    return row(b"\x0a", b"\x01", of(2, SPKI + stream(b"point " + name, 64)))


def der(label, size):
    return b"\x30\x82" + (size - 4).to_bytes(2, "big") + stream(label, size - 4)


P256_RV = [[(5, b"\x6arv.example"), (3, b"\x19\x1f\x69"), (12, b"\x01")],
    [(2, b"\x44\xc0\x00\x02\x0a"), (4, b"\x18\x50"), (1, None)]]


def rv_bytes(directives):
    return row(*(row(*(row(number(n), *([] if value is None else [of(2, value)])) for n,
        value in each)) for each in directives))


def p256(count=3):
    """A voucher of a usual size for a device with a P-256 key: two certificates, X509 owner keys, ES256 signatures."""
    keys = [p256_key(b"owner %d" % i) for i in range(count + 1)]
    certificates = [der(b"leaf", 1040), der(b"authority", 972)]
    header = Header(keys[0], GUID[::-1], rv_bytes(P256_RV), b"gateway 7", hash_item(SHA256, *certificates))
    hmac = hmac_item(HMAC256, header)
    change = {i: {"protected": protected_of(-7), "sig": lambda _: stream(b"signature", 64)} for i in range(count)}
    return voucher(header, hmac, certificates, entries(header, SHA256, hmac, keys, change))


# ---- what is too long to be stored, by its name


def made(name):
    """`lab N`, a voucher of N entries; `lab N CLAUSE I`, the same with entry I broken; `zeros N`, so many bytes 00."""
    what, count, *more = name.split()
    if what == "zeros":
        return bytes(int(count))
    return lab(owners(int(count)), {int(more[1]): BREAKS[more[0]]} if more else None)


BREAKS = {
    "prev": {"prev": hash_item(SHA256, b"other")},
    "info": {"info": hash_item(SHA256, b"other")},
    "sig": {"sig": flipped},
    "form": {"unprotected": b"\x80"},
}
