"""What `voucher show`, `voucher check` and `voucher extend` answer: the status and all that is written.

It is made from the form of a voucher (FIDO Device Onboard 1.1, section 3.4) and from what the program says of its
commands, and shares no code with it. The words are looked at first, then the input's length, then its form, and last
what the command itself refuses.
"""

import re
import uuid

from lab import ALGORITHM, HASHES, SHA256, SHA384, digest, hash_item, lab_key, protected_of, signature, signature_text
from vouchers import MOST_ENTRIES, Fault, of, public_key, read_voucher, read_whole, row

VARIABLES = (
    "RVDevOnly RVOwnerOnly RVIPAddress RVDevPort RVOwnerPort RVDns RVSvCertHash RVClCertHash "
    "RVUserInput RVWifiSsid RVWifiPw RVMedium RVProtocol RVDelaysec RVBypass RVExtRV"
).split()
LIMIT = 16777216
LAB = 200
P384 = 11


class Refused(Exception):
    pass


# ---- show


def key_words(key):
    return f"{key.kind} {key.encoding} {digest(SHA256, key.raw).hex()}"


def name_of(variable):
    return VARIABLES[variable] if variable < len(VARIABLES) else str(variable)


def show(voucher):
    """The lines of a voucher; directives, instructions and entries are counted from 0."""
    header = voucher.header
    device = "".join("?" if ord(char) < 32 or ord(char) == 127 else char for char in header.info.decode())
    lines = ["version 101", f"guid {uuid.UUID(bytes=header.guid)}", f"device {device}", f"key {key_words(header.key)}"]
    lines.append(f"hmac {'sha256' if voucher.hmac.kind == 5 else 'sha384'} {voucher.hmac.bytes.hex()}")
    lines.append(f"chain {'none' if voucher.chain is None else len(voucher.chain)}")
    for d, directive in enumerate(header.rv):
        for i, (variable, value) in enumerate(directive):
            lines.append(f"rv {d} {i} {name_of(variable)} {'-' if value is None else value.hex()}")
    lines.append(f"entries {len(voucher.entries)}")
    lines += [f"entry {i} key {key_words(each.key)}" for i, each in enumerate(voucher.entries)]
    return lines


# ---- check


def check_certificates(voucher):
    wanted, certificates = voucher.header.chain_hash, voucher.chain
    if (wanted is None) != (certificates is None):
        raise Refused("badcerthash")
    if wanted is not None and (wanted.kind not in HASHES or digest(wanted.kind, *certificates) != wanted.bytes):
        raise Refused("badcerthash")


def check_hash(found, i, word, *parts):
    """The kind that stands in the hash tells how it is checked; an HMAC's kind is none of a hash."""
    if found.kind not in HASHES:
        raise Refused(f"noalgorithm {i}")
    if digest(found.kind, *parts) != found.bytes:
        raise Refused(f"{word} {i}")


def check_entry(header, entry, i, signer, before):
    check_hash(entry.prev, i, "badprevhash", before)
    check_hash(entry.info, i, "badinfohash", header.guid, header.info)
    if signer.kind != LAB or entry.sign.alg != ALGORITHM:
        raise Refused(f"noalgorithm {i}")
    payload, sig = entry.sign.strings
    text = signature_text(entry.sign.protected, payload)
    if digest(SHA256, b"FDO-LAB-SIG", signer.written, text) != sig:
        raise Refused(f"badsignature {i}")


def owner_of(voucher):
    return voucher.entries[-1].key if voucher.entries else voucher.header.key


def check(voucher):
    check_certificates(voucher)
    signer, before = voucher.header.key, voucher.string + voucher.hmac.raw
    for i, each in enumerate(voucher.entries):
        check_entry(voucher.header, each, i, signer, before)
        signer, before = each.key, each.raw
    return [f"ok {len(voucher.entries)} owner {digest(SHA256, owner_of(voucher).raw).hex()}"]


# ---- extend


def hash_kind(key):
    return SHA384 if key.kind == P384 or (key.kind == LAB and key.size > 16) else SHA256


def extend(voucher, key, private):
    """One more entry; the entries before it and the HMAC stay as received, the rest is written in the shortest form."""
    owner, count = owner_of(voucher), len(voucher.entries)
    if owner.written != lab_key(private):
        raise Refused(f"badsignature {count}")
    if count == MOST_ENTRIES:
        raise Refused("toolong")
    header, kind = voucher.header, hash_kind(voucher.header.key)
    before = [voucher.entries[-1].raw] if voucher.entries else [voucher.string, voucher.hmac.raw]
    payload = row(hash_item(kind, *before), hash_item(kind, header.guid, header.info), b"\xf6", key.written)
    protected = protected_of(ALGORITHM)
    last = b"\xd2" + row(of(2, protected), b"\xa0", of(2, payload), of(2, signature(owner.written, protected, payload)))
    chain = b"\xf6" if voucher.chain is None else row(*(of(2, each) for each in voucher.chain))
    made = [each.raw for each in voucher.entries] + [last]
    return row(b"\x18\x65", of(2, voucher.string), voucher.hmac.raw, chain, row(*made))


# ---- the commands


def hex_word(word):
    if not re.fullmatch("(?:[0-9a-fA-F]{2})+", word):
        raise ValueError
    return bytes.fromhex(word)


def read_words(words):
    """The command's name with the key and the private bytes of its words; ValueError or Fault where they are none."""
    if words in (["voucher", "show"], ["voucher", "check"]):
        return words[1], None, None
    if len(words) != 4 or words[:2] != ["voucher", "extend"]:
        raise ValueError
    key, private = read_whole(hex_word(words[2]), public_key), hex_word(words[3])
    if len(private) > 32:
        raise ValueError
    return "extend", key, private


def written(lines):
    return "".join(line + "\n" for line in lines).encode()


def run(words, data):
    try:
        command, key, private = read_words(words)
    except (ValueError, Fault):
        return 2, b"fault words\n"
    if len(data) > LIMIT:
        return 8, b"fault limit\n"
    try:
        voucher = read_voucher(data)
    except Fault as fault:
        return 3, b"fault input %d\n" % fault.place
    if len(voucher.entries) > MOST_ENTRIES:
        return (3, b"fault input 0\n") if command == "show" else (9, b"refused toolong\n")
    try:
        if command == "extend":
            return 0, extend(voucher, key, private)
        return 0, written(show(voucher) if command == "show" else check(voucher))
    except Refused as refused:
        return 9, written([f"refused {refused}"])
