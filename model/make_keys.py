#!/usr/bin/env python3
"""What the readers of keys, hashes and signature information have to answer, written from the rules alone.

    make_keys.py          prints the lines of keys.txt
    make_keys.py FILE     compares those of FILE, which may lack the word key, and ends with 1 where one differs

A line is `key ITEM: key: hash: signature information`, each of the three `Ok HEX` with the deterministic spelling of what
was read, or the fault. ITEM is the item at the front of its bytes.

The rules (FIDO Device Onboard 1.1, "Public Key", "Hash / HMac" and "SigInfo"; RFC 9052, section 7; RFC 9053, section
7.1; RFC 8949, section 4.2.1):
- A number is an unsigned one below 2^63, or a negative -1 - n with n below 2^63. Any other is not of its shape.
- A key is [type, encoding, body]. Types are 1, 5, 6, 10, 11, 200 and 201. By encodings 0 and 1 the body is a byte
  string; by 2 an array of at least one byte string, or one byte string, which counts as an array of one; by 3 a map in
  which label 1 has 2, -1 has 1 or 2, and -2 and -3 have byte strings. Other labels are read over. The faults come in
  this order: the shape of the array and its two numbers, the type, the encoding, the shape of the body.
- A hash is [kind, bytes], with 32 bytes for -16 and 5, 48 for -43 and 6. The order: the shape, the kind, the length.
- Signature information is [number, bytes].
"""
import sys

from make_cbor import shortest as head

# An item is (name, value): uint, nint (the n of -1 - n), bytes, text, array, map (pairs), tag (number, item), simple.


def spell(item):
    """The spelling with shortest heads; a map's pairs stay in their order."""
    name, value = item
    if name in ('uint', 'nint'):
        return head(('uint', 'nint').index(name), value)
    if name in ('bytes', 'text'):
        return head(2 if name == 'bytes' else 3, len(value)) + value
    if name == 'array':
        return head(4, len(value)) + b''.join(map(spell, value))
    if name == 'map':
        return head(5, len(value)) + b''.join(spell(k) + spell(v) for k, v in value)
    if name == 'tag':
        return head(6, value[0]) + spell(value[1])
    return head(7, value)


def parse(data, at=0):
    """An item of definite lengths, and the offset behind it."""
    major, low = divmod(data[at], 32)
    at += 1
    n = low
    if low >= 24:
        size = 1 << (low - 24)
        n = int.from_bytes(data[at:at + size], 'big')
        at += size
    if major < 2:
        return (('uint', 'nint')[major], n), at
    if major < 4:
        return (('bytes', 'text')[major - 2], data[at:at + n]), at + n
    if major == 4:
        items = []
        for _ in range(n):
            item, at = parse(data, at)
            items.append(item)
        return ('array', items), at
    if major == 5:
        pairs = []
        for _ in range(n):
            key, at = parse(data, at)
            value, at = parse(data, at)
            pairs.append((key, value))
        return ('map', pairs), at
    if major == 6:
        item, at = parse(data, at)
        return ('tag', (n, item)), at
    return ('simple', n), at


class Fault(Exception):
    pass


def shape(condition):
    if not condition:
        raise Fault('BadShape')


def number(item):
    shape(item[0] in ('uint', 'nint') and item[1] < 2 ** 63)
    return item[1] if item[0] == 'uint' else -1 - item[1]


def string(item):
    shape(item[0] == 'bytes')
    return item[1]


def array(item, length):
    shape(item[0] == 'array' and len(item[1]) == length)
    return item[1]


def num(n):
    return ('uint', n) if n >= 0 else ('nint', -1 - n)


def labelled(pairs, label):
    values = [v for k, v in pairs if k == num(label)]
    shape(values)
    return values[0]


def body(encoding, item):
    if encoding in (0, 1):
        return ('bytes', string(item))
    if encoding == 2:
        if item[0] == 'bytes':
            return ('array', [item])
        shape(item[0] == 'array' and item[1])
        return ('array', [('bytes', string(x)) for x in item[1]])
    shape(item[0] == 'map')
    pairs = item[1]
    shape(labelled(pairs, 1) == num(2))
    curve = labelled(pairs, -1)
    shape(curve in (num(1), num(2)))
    x, y = labelled(pairs, -2), labelled(pairs, -3)
    string(x)
    string(y)
    # in the bytewise order of the spelled labels: 01, 20, 21, 22
    return ('map', [(num(1), num(2)), (num(-1), curve), (num(-2), x), (num(-3), y)])


def read_key(item):
    kind, encoding, content = array(item, 3)
    kind, encoding = number(kind), number(encoding)
    if kind not in (1, 5, 6, 10, 11, 200, 201):
        raise Fault('BadType %d' % kind)
    if encoding not in (0, 1, 2, 3):
        raise Fault('BadEncoding %d' % encoding)
    return ('array', [num(kind), num(encoding), body(encoding, content)])


def read_hash(item):
    kind, content = array(item, 2)
    kind, content = number(kind), string(content)
    lengths = {-16: 32, 5: 32, -43: 48, 6: 48}
    if kind not in lengths:
        raise Fault('BadType %d' % kind)
    if len(content) != lengths[kind]:
        raise Fault('BadLength %d' % len(content))
    return ('array', [num(kind), ('bytes', content)])


def read_sig_info(item):
    kind, content = array(item, 2)
    return ('array', [num(number(kind)), ('bytes', string(content))])


def answer(read, item):
    try:
        return 'Ok ' + spell(read(item)).hex()
    except Fault as fault:
        return str(fault)


def line(data):
    item, _ = parse(data)
    answers = [answer(read, item) for read in (read_key, read_hash, read_sig_info)]
    return ': '.join(['key ' + data.hex()] + answers)


def b(n, byte=0x11):
    return ('bytes', bytes([byte]) * n)


def arr(*items):
    return ('array', list(items))


def cose(*pairs):
    return ('map', list(pairs))


X, Y = b(3, 0x22), b(2, 0x33)
POINT = [(num(1), num(2)), (num(-1), num(1)), (num(-2), X), (num(-3), Y)]
OTHERS = [num(1), num(-1), b(1), ('text', b'a'), arr(), arr(b(1)), ('map', []), ('tag', (18, b(1))), ('simple', 22), ('simple', 20), ('simple', 32)]
EDGES = [('uint', 2 ** 63 - 1), ('uint', 2 ** 63), ('uint', 2 ** 64 - 1), ('nint', 2 ** 63 - 1), ('nint', 2 ** 63), ('nint', 2 ** 64 - 1),
         ('uint', 2 ** 32), ('nint', 2 ** 32)]


def cases():
    yield '# every type, and every encoding with a body of bytes, certificates and a point'
    for kind in list(range(13)) + list(range(199, 203)) + [-1, -2, -10, 256]:
        yield arr(num(kind), num(0), b(2))
    for encoding in range(-1, 5):
        for content in (b(0), arr(b(1), b(0)), cose(*POINT)):
            yield arr(num(10), num(encoding), content)
    yield '# the order of faults'
    for kind, encoding, content in ((9, 7, ('simple', 22)), (9, 0, ('simple', 22)), (10, 7, ('simple', 22)), (10, 0, ('simple', 22)), (9, 3, cose())):
        yield arr(num(kind), num(encoding), content)
    yield arr(num(9), ('text', b'x'), b(1))
    yield arr(num(9), ('uint', 2 ** 63), b(1))
    yield arr(('uint', 2 ** 63), num(7), b(1))
    yield '# each part of another kind'
    for item in OTHERS:
        yield item
        yield arr(item, num(0), b(1))
        yield arr(num(10), item, b(1))
        for encoding in (0, 1, 2, 3):
            yield arr(num(10), num(encoding), item)
        yield arr(item, b(32))
        yield arr(num(-16), item)
    yield '# a part less or more'
    for parts in ([], [num(10)], [num(10), num(0)], [num(10), num(0), b(1), b(1)], [num(-16), b(32), b(32)], [num(-16)], [b(32)]):
        yield arr(*parts)
    yield '# numbers at the edges of 64 bits with a sign'
    for edge in EDGES:
        yield arr(edge, num(0), b(1))
        yield arr(num(10), edge, b(1))
        yield arr(edge, b(32))
        yield arr(num(11), num(3), cose((num(1), edge), *POINT[1:]))
        yield arr(num(11), num(3), cose((edge, b(1)), *POINT))
    yield '# chains'
    for blobs in ([], [b(0)], [b(1)], [b(1), b(2)], [b(1), b(300), b(0)], [b(1), ('text', b'a')], [('text', b'a'), b(1)], [arr(b(1))]):
        yield arr(num(5), num(2), arr(*blobs))
    yield '# COSE keys: a label missing, twice, wrong or in another place, and other labels'
    for at in range(4):
        yield arr(num(10), num(3), cose(*(POINT[:at] + POINT[at + 1:])))
        for wrong in (num(0), num(1), num(3), num(-2), b(1), ('text', b'2'), ('simple', 22), arr(num(2)), ('tag', (1, POINT[at][1]))):
            yield arr(num(10), num(3), cose(*(POINT[:at] + [(POINT[at][0], wrong)] + POINT[at + 1:])))
    for order in ((3, 2, 1, 0), (1, 0, 3, 2), (2, 0, 3, 1), (0, 2, 1, 3)):
        yield arr(num(10), num(3), cose(*[POINT[i] for i in order]))
    for curve in (1, 2):
        for kind in (1, 10, 11, 200, 201):
            yield arr(num(kind), num(3), cose(POINT[0], (num(-1), num(curve)), *POINT[2:]))
    for label in (num(0), num(2), num(3), num(4), num(-4), num(-5), b(1), ('text', b'1'), arr(), ('map', []), ('tag', (1, num(1))), ('simple', 22), ('uint', 2 ** 64 - 1), ('nint', 2 ** 64 - 1)):
        yield arr(num(10), num(3), cose((label, ('simple', 22)), *POINT))
        yield arr(num(10), num(3), cose(*(POINT + [(label, num(9))])))
    yield arr(num(10), num(3), cose((num(1), num(2)), (num(-1), num(1)), (num(-2), b(0)), (num(-3), b(0))))
    yield '# hashes'
    for kind in (-16, 5, -43, 6, 0, 1, -1, -7, -15, -17, -42, -44, 4, 7):
        for length in (0, 31, 32, 33, 47, 48, 49):
            yield arr(num(kind), b(length))


def spellings():
    """Spellings that are not the deterministic ones."""
    yield '# heads longer than they need be'
    for text in ('83 180a 1800 4101', '98 03 0a 00 4101', '83 0a 02 8158 01 01', '83 1b000000000000000a 00 40', '83 0a 03 a4 1801 02 3800 01 3801 40 22 40',
                 '82 380f 5820' + ' 00' * 32, '82 3b000000000000000f 5820' + ' 00' * 32, '82 1805 590020' + ' 07' * 32):
        yield bytes.fromhex(text)


def lines():
    yield '# key ITEM (hex): read_key: read_hash: read_sig_info. Ok HEX: the deterministic spelling of what was read'
    seen = set()
    for case in list(cases()) + list(spellings()):
        if isinstance(case, str):
            yield case
            continue
        data = case if isinstance(case, bytes) else spell(case)
        if data not in seen:
            seen.add(data)
            yield line(data)


def main(words):
    if not words:
        print('\n'.join(lines()))
        return 0
    differ = 0
    for text in open(words[0]).read().splitlines():
        kind, _, item = text.split(':')[0].rpartition(' ')
        if item and kind in ('', 'key') and not text.startswith('#'):
            wanted = line(bytes.fromhex(item))
            if wanted not in (text, 'key ' + text):
                differ += 1
                print('wanted', wanted, '\nfound ', text)
    return 1 if differ else 0


if __name__ == '__main__':
    sys.exit(main(sys.argv[1:]))
