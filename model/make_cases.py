#!/usr/bin/env python3
"""Prints cases of the `voucher` commands, the lines of lines/cases.txt, and writes the vouchers in examples/.

A case has a line `case NAME`; a line `word TEXT` for each word; `input HEX`, with `-` for none, or `input made NAME`,
where lab.py makes it by that name; `line TEXT` for each line that is to be written, or `bytes HEX` or `bytes made NAME`
for all of it; and last `status N`. What is to be written comes from commands.py. Where a case here has an answer of its
own, chosen by hand, it has to be the same one.
"""

from pathlib import Path

import lab
from commands import VARIABLES, run
from lab import BREAKS, GUID, HMAC256, HMAC384, SHA256, SHA384, flipped, hash_item, hmac_item, lab_key, number, row
from vouchers import make, of

HERE = Path(__file__).resolve().parent
KEY = lab_key(b"\x05").hex()
ONE = lab.lab(lab.owners(1))
THREE = lab.lab(lab.owners(3))
LONG = [b"\x01" * 24, b"\x02" * 32, b"\x04" * 17, b"\x05" * 24]


class Case:
    """Words and an input, or the name of a made one; `answer` is the one wanted, where it is chosen by hand."""

    def __init__(self, name, words, data, answer=None, output=None):
        self.name, self.words, self.data, self.answer, self.output = name, words.split(" "), data, answer, output

    def lines(self):
        is_made = isinstance(self.data, str)
        status, written = run(self.words, lab.made(self.data) if is_made else self.data)
        if self.answer is not None and written != (self.answer + "\n").encode():
            raise SystemExit(f"{self.name}: {written!r}, and not {self.answer!r}")
        yield f"case {self.name}"
        yield from (f"word {word}" for word in self.words)
        yield f"input made {self.data}" if is_made else f"input {self.data.hex() or '-'}"
        if self.output is not None:
            if lab.made(self.output) != written:
                raise SystemExit(f"{self.name}: not {self.output}")
            yield f"bytes made {self.output}"
        elif status == 0 and self.words[1] == "extend":
            yield f"bytes {written.hex()}"
        else:
            yield from (f"line {line}" for line in written.decode().split("\n")[:-1])
        yield f"status {status}"


def check(name, data, answer=None):
    return Case(name, "voucher check", data, answer)


def show(name, data, answer=None):
    return Case(name, "voucher show", data, answer)


def extend(name, data, private="01", key=KEY, answer=None, output=None):
    return Case(name, f"voucher extend {key} {private}", data, answer, output)


# ---- whole vouchers


def all_three(name, data, private):
    yield show(f"{name} show", data)
    yield check(f"{name} check", data)
    yield extend(f"{name} extend", data, private.hex())


def laboratory():
    for count in (0, 1, 3):
        yield from all_three(f"sha256, {count} entries:", lab.lab(lab.owners(count)), lab.owners(count)[-1])
        yield from all_three(f"sha384, {count} entries:", lab.lab(LONG[: count + 1]), LONG[count])
    for size in (1, 16, 17, 32):
        yield from all_three(f"a header's key of {size} bytes:", lab.lab([b"\x07" * size, b"\x02"]), b"\x02")
    yield from all_three("a header's key of 1 byte, an owner's of 32:", lab.lab([b"\x01", b"\x02" * 32]), b"\x02" * 32)


def standard_keys():
    """Keys of no laboratory: no signature can be checked, and nobody here holds the owner's key."""
    whole = lab.p256()
    yield show("p256: show", whole)
    yield check("p256: check", whole, "refused noalgorithm 0")
    yield extend("p256: extend", whole, answer="refused badsignature 3")
    yield check("p256, no entries: check", lab.p256(0))
    yield show("p256, no entries: show", lab.p256(0))
    yield extend("p256, no entries: extend", lab.p256(0), answer="refused badsignature 0")
    keys = [row(b"\x0b", b"\x01", of(2, b"p384")), row(b"\x0a", b"\x01", of(2, b"p256" * 9)),
        row(b"\x05", b"\x00", of(2, b"rsa")), row(b"\x01", b"\x02", row(b"\x41c")), lab_key(b"\x01" * 24, 1)]
    keys += [row(b"\x18\xc8", b"\x02", row(of(2, b"c" * 40))), row(b"\x0a", b"\x03", make.COSE_BODIES[4]),
        row(b"\x19\x00\x0a", b"\x18\x03", make.COSE_BODIES[3]), row(b"\x06", b"\x02", of(2, b"one"))]
    for i, key in enumerate(keys):
        header = lab.Header(key)
        hmac = hmac_item(HMAC256, header)
        made = lab.entries(header, SHA256, hmac, [key, lab_key(b"\x02"), key][: 2 + i % 2])
        whole = lab.voucher(header, hmac, None, made)
        yield from all_three(f"header's key {i}:", whole, b"\x02")
        yield check(f"header's key {i}, no entries: check", lab.voucher(header, hmac, None, []))


# ---- broken chains

PLACES = (0, 2, 4)
CLAUSES = {
    "another hash before": ({"prev": hash_item(SHA256, b"other")}, "badprevhash"),
    "a hash before of another kind": ({"prev": hash_item(SHA384, b"other")}, "badprevhash"),
    "an unknown kind of the hash before": ({"prev": row(b"\x05", of(2, bytes(32)))}, "noalgorithm"),
    "another hash of the device": ({"info": hash_item(SHA256, GUID, b"other")}, "badinfohash"),
    "an unknown kind of the hash of the device": ({"info": row(b"\x06", of(2, bytes(48)))}, "noalgorithm"),
    "another algorithm": ({"protected": lab.protected_of(-7)}, "noalgorithm"),
    "another signature": ({"sig": flipped}, "badsignature"),
    "another signer": ({"signer": lab_key(b"\x09")}, "badsignature"),
    "a shorter signature": ({"sig": lambda made: made[:-1]}, "badsignature"),
    "no signature": ({"sig": lambda made: b""}, "badsignature"),
}


def broken():
    owners = lab.owners(5)
    for name, (change, word) in CLAUSES.items():
        for i in PLACES:
            yield check(f"5 entries, {name} at {i}", lab.lab(owners, {i: change}), f"refused {word} {i}")
    for i in PLACES:
        key = {"key": lab.p256_key(b"other")}
        answer = f"refused noalgorithm {i + 1}" if i < 4 else None
        yield check(f"5 entries, a key of no laboratory at {i}", lab.lab(owners, {i: key}), answer)
        right = {"prev": hash_item(SHA384, b"other"), "info": hash_item(SHA384, GUID, b"lab")}
        yield check(f"5 entries, a right hash of the device of another kind at {i}",
            lab.lab(owners, {i: {"info": right["info"]}}))
        yield check(f"5 entries, both hashes of another kind at {i}", lab.lab(owners, {i: right}),
            f"refused badprevhash {i}")
        yield show(f"5 entries, all wrong at {i}: show", lab.lab(owners, {i: merged(*CLAUSES)}))


def merged(*names):
    change = {}
    for name in names:
        for part, value in CLAUSES[name][0].items():
            change.setdefault(part, value)
    return change


def two_broken():
    """Of two broken clauses the first counts, and of two entries the first, whatever its clause is."""
    owners, names = lab.owners(5), list(CLAUSES)
    parts = ("prev", "prev", "prev", "info", "info", "protected", "sig", "signer", "sig", "sig")
    for a, first in enumerate(names):
        for b, second in enumerate(names):
            if a < b and parts[a] != parts[b]:
                i = PLACES[(a + b) % 3]
                data = lab.lab(owners, {i: merged(first, second)})
                yield check(f"5 entries, {first} and {second} at {i}", data, f"refused {CLAUSES[first][1]} {i}")
            change = {1: CLAUSES[second][0], 3: CLAUSES[first][0]}
            if (a + b) % 3 == 0:
                yield check(f"5 entries, {second} at 1 and {first} at 3", lab.lab(owners, change),
                    f"refused {CLAUSES[second][1]} 1")


def with_chain(chain_hash, certificates, changes=None, count=5):
    keys = [lab_key(private) for private in lab.owners(count)]
    header = lab.Header(keys[0], chain_hash=chain_hash)
    hmac = hmac_item(HMAC256, header)
    return lab.voucher(header, hmac, certificates, lab.entries(header, SHA256, hmac, keys, changes))


def chains():
    one, two = [b"leaf"], [b"leaf", b"authority"]
    good = {"none": (b"\xf6", None), "one": (hash_item(SHA256, *one), one), "two": (hash_item(SHA256, *two), two),
        "two under sha384": (hash_item(SHA384, *two), two)}
    good["one, empty"] = (hash_item(SHA256, b""), [b""])
    good["two with another cut"] = (hash_item(SHA256, *two), [b"leafauth", b"ority"])
    for name, (chain_hash, certificates) in good.items():
        yield check(f"certificates: {name}: check", with_chain(chain_hash, certificates))
        yield show(f"certificates: {name}: show", with_chain(chain_hash, certificates))
        yield extend(f"certificates: {name}: extend", with_chain(chain_hash, certificates, count=1), "02")
    bad = {"a hash and no certificates": (hash_item(SHA256), None), "certificates and no hash": (b"\xf6", one),
        "one less": (hash_item(SHA256, *two), one), "another order": (hash_item(SHA256, *two), two[::-1])}
    bad["an HMAC's kind"] = (row(b"\x05", of(2, lab.digest(SHA256, *one))), one)
    bad["an HMAC's kind of sha384"] = (row(b"\x06", of(2, lab.digest(SHA384, *one))), one)
    bad["a changed byte"] = (flipped(hash_item(SHA256, *one)), one)
    for name, (chain_hash, certificates) in bad.items():
        yield check(f"certificates: {name}", with_chain(chain_hash, certificates), "refused badcerthash")
        yield show(f"certificates: {name}: show", with_chain(chain_hash, certificates, count=0))
        yield extend(f"certificates: {name}: extend", with_chain(chain_hash, certificates, count=0))
    for i in PLACES:
        for name, (change, _) in CLAUSES.items():
            yield check(f"certificates and no hash, and {name} at {i}", with_chain(b"\xf6", one, {i: change}),
                "refused badcerthash")
            if i == 0:
                yield check(f"no certificates, and {name} at {i}", with_chain(b"\xf6", None, {i: change}),
                    f"refused {CLAUSES[name][1]} {i}")


# ---- spellings


def over_shortest(header, keys, hmac, front):
    """Entry 0 with another head, and entry 1 with the hash of entry 0 in its shortest form."""
    whole = lab.entries(header, SHA256, hmac, keys, {0: {"front": front}})
    shortest_0 = lab.entries(header, SHA256, hmac, keys[:2])[0]
    return lab.entries(header, SHA256, hmac, keys,
        {0: {"front": front}, 1: {"prev": hash_item(SHA256, shortest_0)}}), whole


def spellings():
    """Hashes and signatures are taken over the bytes as received."""
    keys = [lab_key(private) for private in lab.owners(3)]
    header = lab.Header(keys[0])
    hmac = hmac_item(HMAC256, header)
    for name, front in (("a wide tag head", b"\xd8\x12"), ("a tag head of 8 bytes", make.wide(6, 18, 8)),
            ("no tag", b"")):
        changed, whole = over_shortest(header, keys, hmac, front)
        yield check(f"entry 0 with {name}, hashed as it stands", lab.voucher(header, hmac, None, whole))
        yield check(f"entry 0 with {name}, hashed in its shortest form", lab.voucher(header, hmac, None, changed),
            "refused badprevhash 1")
        yield extend(f"entry 0 with {name}: extend", lab.voucher(header, hmac, None, whole), "05",
            lab_key(b"\x01").hex())
        last = lab.entries(header, SHA256, hmac, keys, {2: {"front": front}})
        yield extend(f"the last entry with {name}: extend", lab.voucher(header, hmac, None, last), "05",
            lab_key(b"\x01").hex())
    wide_hmac = make.wide_row(4)(b"\x18\x05", make.chunked(2, hmac[-32:], 9))
    chunked = make.chunked(2, header.bytes, 7)
    for name, spell in (("open", make.open_row), ("wide", make.wide_row(8))):
        made = lab.entries(header, SHA256, wide_hmac, keys)
        data = spell(make.wide(0, 101, 4), chunked, wide_hmac, make.open_row(make.chunked(2, b"leaf", 3)),
            make.open_row(*made))
        yield from all_three(f"an {name} array and a chunked header:", data, b"\x05")
        other = spell(make.wide(0, 101, 4), chunked, wide_hmac, b"\xf6", make.wide_row(2)(*made))
        yield from all_three(f"an {name} array, no certificates:", other, b"\x05")
        yield check(f"an {name} array, hashed over the shortest HMAC",
            spell(b"\x18\x65", chunked, wide_hmac, b"\xf6", row(*lab.entries(header, SHA256, hmac, keys))),
            "refused badprevhash 0")
    yield from wide_keys()


def wide_keys():
    wide = make.open_row(make.wide(0, 200, 4), b"\x18\x00", make.chunked(2, b"\x01", 1))
    for name, spell in (("shortest", row), ("open", make.open_row)):
        header = lab.Header(wide, info=b"caf\xc3\xa9", spell=spell)
        hmac = hmac_item(HMAC256, header)
        keys = [lab_key(b"\x01"), lab_key(b"\x02"), lab_key(b"\x04")]
        made = lab.entries(header, SHA256, hmac, keys,
            {1: {"key": make.wide_row(1)(b"\x18\xc8", b"\x00", make.wide(2, 1, 4) + b"\x04")}})
        yield from all_three(f"keys in other spellings, an {name} header:", lab.voucher(header, hmac, None, made),
            b"\x04")
        yield from all_three(f"keys in other spellings, an {name} header, no entries:",
            lab.voucher(header, hmac, None, []), b"\x01")
    change = {0: {"unprotected": b"\xa2\x04\x41k\x61a\x81\x00", "extra": b"\x43abc",
        "protected": b"\xbf\x04\x41k\x18\x01" + number(-65537) + b"\xff"}}
    yield from all_three("other labels and extra bytes:", lab.lab(lab.owners(2), change), b"\x04")


# ---- texts


def infos():
    texts = [b"", b" ", b"lab", bytes(range(32)), b"a\x7fb\x1fc\nd\re\tf\x00", "caf\u00e9 \u20ac \U0001f600".encode(),
        "\u0080\u0085\u009f\u00a0\u2028".encode(), b"x" * 300, b"# line", b"guid \\ \"'"]
    for i, info in enumerate(texts):
        data = lab.lab(lab.owners(1), info=info)
        yield from (show(f"DeviceInfo {i}: show", data), check(f"DeviceInfo {i}: check", data))
    keys = [lab_key(private) for private in lab.owners(1)]
    header = lab.Header(keys[0])
    header.bytes = row(b"\x18\x65", of(2, GUID), b"\x80", b"\x7f\x61l\x60\x62ab\xff", keys[0], b"\xf6")
    hmac = hmac_item(HMAC256, header)
    yield from all_three("DeviceInfo in chunks:",
        lab.voucher(header, hmac, None, lab.entries(header, SHA256, hmac, keys)), b"\x02")


def rv_infos():
    known = [[(n, b"\x01")] for n in range(16)]
    lists = {
        "each variable": known,
        "each variable in one directive": [[(n, bytes([n])) for n in range(16)]],
        "each variable without a value": [[(n, None) for n in range(16)]],
        "each variable with an empty value": [[(n, b"")] for n in range(16)],
        "unknown variables": [[(16, b"\x01"), (17, None), (255, b""), (256, b"\xff" * 40)],
        [((1 << 64) - 1, b"\x00"), (1 << 32, None)]],
        "empty directives": [[], [(5, b"\x61n")], [], [(5, None), (5, b"")]],
        "one empty directive": [[]],
        "12 directives": [[(3, b"\x19\x1f\x69")] * 11] * 12,
        "a value that is no item": [[(2, b"\xff"), (5, b"rv.example")]],
    }
    for name, directives in lists.items():
        yield show(f"rv: {name}", lab.lab(lab.owners(0), rv=lab.rv_bytes(directives)))
    spelled = b"\x9f\x9f\x82\x18\x05\x5f\x41a\x42bc\xff\x9f\x19\x00\x0e\xff\xff\x9f\xff\xff"
    yield show("rv: other spellings", lab.lab(lab.owners(1), rv=spelled))
    yield extend("rv: other spellings: extend", lab.lab(lab.owners(1), rv=spelled), "02")
    assert len(VARIABLES) == 16


# ---- extend

WIDE_KEY = make.open_row(make.wide(0, 200, 8), make.wide(0, 0, 2), make.chunked(2, b"\x05\x06", 1))
KEYS = {
    "a wide spelling": WIDE_KEY,
    "24 bytes": lab_key(b"\x05" * 24),
    "no bytes": lab_key(b""),
    "40 bytes": lab_key(b"\x05" * 40),
    "one certificate without an array": row(b"\x0a", b"\x02", b"\x43abc"),
    "two certificates": row(b"\x0a", b"\x02", row(b"\x43abc", b"\x40")),
    "a COSE key with other labels": row(b"\x0a", b"\x03", make.COSE_BODIES[4]),
    "a COSE key in another order": row(b"\x0b", b"\x03", make.COSE_BODIES[1]),
    "an open COSE key": row(b"\x0b", b"\x03", make.COSE_BODIES[3]),
    "an X509 key": lab.p256_key(b"next"),
    "type 1": row(b"\x01", b"\x00", b"\x41r"),
    "type 5": row(b"\x05", b"\x00", b"\x41r"),
    "type 6": row(b"\x06", b"\x01", b"\x41r"),
    "type 11": row(b"\x0b", b"\x00", b"\x41r"),
}


def extensions():
    for name, key in KEYS.items():
        yield extend(f"extend by a key: {name}", ONE, "02", key.hex())
    yield extend("extend by a key in capitals, a private key in capitals", lab.lab([b"\x01", b"\xab"]), "AB",
        KEY.upper())
    yield extend("extend by the owner's own key", ONE, "02", lab_key(b"\x02").hex())
    for count in (0, 1, 3):
        yield extend(f"extend by another private key at {count}", lab.lab(lab.owners(count)), "09",
            answer=f"refused badsignature {count}")
    for private in ("0200", "0002", "01", "02" * 32):
        yield extend(f"extend by the private key {private}", ONE, private, answer="refused badsignature 1")
    yield extend("extend where the owner's key has another encoding",
        lab.lab([b"\x01", b"\x02"], {0: {"key": lab_key(b"\x02", 1)}}), "02", answer="refused badsignature 1")
    yield extend("extend of a broken chain", lab.lab(lab.owners(3), {1: {"sig": flipped}}), "05")
    yield extend("extend where nothing holds", lab.lab(lab.owners(1), {0: merged(*CLAUSES)}), "02")
    yield extend("extend with SHA-384 keys", lab.lab(LONG[:3]), LONG[2].hex(), lab_key(b"\x05").hex())
    yield extend("extend with a SHA-384 owner and a SHA-256 header", lab.lab([b"\x01", LONG[1]]), LONG[1].hex(),
        lab_key(b"\x05" * 24).hex())
    yield extend("extend with a SHA-256 owner and a SHA-384 header", lab.lab([LONG[0], b"\x02"]), "02",
        lab_key(b"\x05" * 24).hex())
    header = lab.Header(lab_key(b"\x01"))
    yield extend("extend with an HMAC of SHA-384 and a SHA-256 header",
        lab.voucher(header, hmac_item(HMAC384, header), None, []))
    yield check("check with an HMAC of SHA-384 and a SHA-256 header",
        lab.voucher(header, hmac_item(HMAC384, header), None, []))
    yield show("show with an HMAC of SHA-384 and a SHA-256 header",
        lab.voucher(header, hmac_item(HMAC384, header), None, []))


def many():
    """Up to 255 entries; lab.py makes these vouchers when the cases are run."""
    for count in (254, 255):
        yield check(f"{count} entries: check", f"lab {count}")
        yield check(f"{count} entries, the last signature wrong", f"lab {count} sig {count - 1}",
            f"refused badsignature {count - 1}")
    yield show("255 entries: show", "lab 255")
    for clause, word in (("prev", "badprevhash"), ("info", "badinfohash"), ("sig", "badsignature")):
        for i in (0, 127, 254):
            yield check(f"255 entries, {clause} broken at {i}", f"lab 255 {clause} {i}", f"refused {word} {i}")
    last = lab.owners(255)[254:]
    yield extend("254 entries: extend", "lab 254", last[0].hex(), lab_key(last[1]).hex(), output="lab 255")
    yield extend("255 entries: extend", "lab 255", last[1].hex(), answer="refused toolong")
    yield extend("255 entries: extend by another private key", "lab 255", "09", answer="refused badsignature 255")
    yield check("256 entries: check", "lab 256", "refused toolong")
    yield show("256 entries: show", "lab 256", "fault input 0")
    yield extend("256 entries: extend", "lab 256", lab.owners(256)[-1].hex(), answer="refused toolong")
    yield extend("256 entries: extend by another private key", "lab 256", "09", answer="refused toolong")
    yield check("256 entries, broken: check", "lab 256 sig 0", "refused toolong")
    for command in (check, show, extend):
        yield command(f"256 entries, the last of no form: {command.__name__}", "lab 256 form 255")
    for command in (check, show, extend):
        yield command(f"an input of 16777217 bytes: {command.__name__}", "zeros 16777217", answer="fault limit")
    yield check("an input of 16777216 bytes", "zeros 16777216", "fault input 0")


# ---- wrong words and wrong inputs


def words():
    for line in ("voucher", "voucher ", "voucher frob", "voucher Show", "Voucher show", "voucher show show",
            "voucher check -", "voucher show ", " voucher show", "show", "check", "voucher extend", "voucher audit"):
        yield Case(f"words: {line!r}", line, THREE, "fault words")
    for line in (KEY, f"{KEY} 05 05", f"{KEY} ", f" {KEY} 05", f"{KEY} 5", f"{KEY} 0x05", f"{KEY} 0g",
            f"{KEY} {'05' * 33}", f"05 {KEY}", " 05", f"{KEY[:-1]} 05", f"{KEY[:-2]} 05", f"{KEY}00 05", f"{KEY}f6 05",
            f"{KEY} -"):
        yield Case(f"words: extend {line[:60]!r}", f"voucher extend {line}", THREE, "fault words")
    bad = [row(b"\x09", b"\x00", b"\x41\x01"), row(b"\x18\xc8", b"\x04", b"\x41\x01"), row(b"\x18\xc8", b"\x00"),
        row(b"\x18\xc8", b"\x00", b"\x61a"), row(b"\x0a", b"\x02", row()), row(b"\x0a", b"\x03", b"\xa0"),
        row(b"\x61a", b"\x00", b"\x40")]
    bad += [b"\xd2" + lab_key(b"\x05"), of(2, lab_key(b"\x05")), b"\x00", b"\xff", b"\xf6", b"\xfb" + bytes(8),
        row(b"\x18\xc8", b"\x00", b"\x41\x01", b"\x00"), row(make.wide(0, 1 << 63, 8), b"\x00", b"\x40")]
    bad += [row(b"\x0a", b"\x03", make.cose(make.ONE, make.ONE, make.CURVE, make.X, make.Y)),
        row(b"\x18\xc8", b"\x20", b"\x41\x01")]
    for i, key in enumerate(bad):
        yield extend(f"words: extend by what is no key, {i}", THREE, "05", key.hex(), "fault words")
    yield extend("words before the input", b"", "5", answer="fault words")
    yield Case("words before the input: show", "voucher show show", b"\xff", "fault words")
    yield Case("words before the input's length", "voucher frob", "zeros 16777217", "fault words")


def inputs():
    small = with_chain(b"\xf6", None, count=1)
    for size in range(len(small)):
        yield check(f"the first {size} bytes: check", small[:size])
    for size in (0, 1, 3, 4, 80, len(small) - 1):
        yield show(f"the first {size} bytes: show", small[:size])
        yield extend(f"the first {size} bytes: extend", small[:size], "02")
        yield extend(f"the first {size} bytes: extend by another private key", small[:size], "09")
    for more in (b"\x00", b"\xff", b"\n", small):
        for command in (check, show, extend):
            yield command(f"{len(more)} more, {more[:1].hex()}: {command.__name__}", small + more,
                answer=f"fault input {len(small)}")
    for i in range(0, len(small), 3):
        yield check(f"byte {i} with its last bit changed", small[:i] + bytes([small[i] ^ 1]) + small[i + 1 :])
        yield show(f"byte {i} with its first bit changed: show", small[:i] + bytes([small[i] ^ 128]) + small[i + 1 :])
    for depth in (9, 10, 11):
        deep = {0: {"unprotected": b"\xa1\x00" + b"\x81" * depth + b"\x00"}}
        yield check(f"an item at depth {depth + 6}", lab.lab(lab.owners(1), deep))


GROUPS = [
    ("laboratory vouchers of 0, 1 and 3 entries", laboratory),
    ("keys of no laboratory", standard_keys),
    ("chains of 5 entries with one clause broken", broken),
    ("chains of 5 entries with two clauses broken", two_broken),
    ("certificates and their hash", chains),
    ("other spellings", spellings),
    ("DeviceInfo", infos),
    ("RendezvousInfo", rv_infos),
    ("extend", extensions),
    ("up to 256 entries, and long inputs", many),
    ("wrong words", words),
    ("wrong inputs", inputs),
]


def main():
    names = set()
    print("# The voucher commands: words, input, what is to be written, status. Made by make_cases.py")
    for comment, group in GROUPS:
        print(f"# {comment}")
        for case in group():
            assert case.name not in names and "\n" not in case.name, case.name
            names.add(case.name)
            print("\n".join(case.lines()))
    examples = HERE.parent / "examples"
    examples.mkdir(exist_ok=True)
    for name, data in (("lab0", lab.lab(lab.owners(0))), ("lab3", THREE), ("p256", lab.p256())):
        (examples / f"{name}.voucher").write_bytes(data)


if __name__ == "__main__":
    main()
