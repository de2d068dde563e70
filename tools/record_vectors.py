#!/usr/bin/env python3
"""Writes the vectors of the query record: crates/record_vectors/data/{records,full} and stdout.

What each vector should give is worked out here from the record's rules, field by field, and not by running the reader.
"""
import os

HERE = os.path.join(os.path.dirname(os.path.abspath(__file__)), '..', 'crates', 'record_vectors')
GOOD_VALUES, GOOD_REQUESTERS = [b'h', b'i'], [b'a']


def counted(b):
    return len(b).to_bytes(2, 'big') + b


def record(values=GOOD_VALUES, requesters=GOOD_REQUESTERS, attributes=(), assertions=()):
    out = bytes([1, len(values)]) + b''.join(counted(v) for v in values)
    out += bytes([len(requesters)]) + b''.join(counted(r) for r in requesters)
    out += bytes([len(attributes)]) + b''.join(counted(n) + counted(v) for n, v in attributes)
    return out + bytes([len(assertions)]) + b''.join(bytes([s]) + counted(t) for s, t in assertions)


def refused(number, place):
    return 'refused %d at %d' % (number, place)


vectors = []


def vector(name, bytes_, expected):
    vectors.append((name, bytes_, expected))


def hexed(name, text, expected):
    vector(name, bytes.fromhex(text), expected)


# Two values, one requester: the attributes' count byte lies at 12, the first name's length at 13.
HEAD = '01 02 00 01 68 00 01 69 01 00 01 61'

# The rulings on the record.
hexed('ruling-1', '01 02 00 01 68 00 01 68', refused(7, 7))
hexed('ruling-2', HEAD + ' 02 00 01 78 00 00 00 01 78', refused(7, 20))
hexed('ruling-3', '01', refused(3, 1))
hexed('ruling-4', '01 02 00', refused(3, 2))
hexed('ruling-5', '01 02 00 01', refused(3, 4))
hexed('ruling-6', '01 02 00 02 00', refused(3, 4))
hexed('ruling-7', '01 02 00 01 68 00 01 69', refused(3, 8))
hexed('ruling-8', HEAD + ' 01 00 01 5f', refused(6, 15))
hexed('ruling-9', HEAD + ' 01 00 01 78 00', refused(3, 16))
hexed('ruling-10', HEAD + ' 01 00 01 78 00 00', refused(3, 18))
hexed('ruling-11', HEAD + ' 00 01 03', refused(8, 14))
hexed('ruling-12', HEAD + ' 00 01 02 00 00', refused(5, 15))
hexed('ruling-13', HEAD + ' 00 00', 'accepted')
hexed('ruling-14', HEAD + ' 00 00 00', refused(3, 14))
hexed('ruling-15', HEAD + ' 21', refused(4, 12))
hexed('ruling-16', '01 01', refused(4, 1))
hexed('ruling-17', '02', refused(2, 0))
hexed('ruling-18', '', refused(2, 0))
hexed('ruling-19', HEAD + ' 01 00 02 78 e9 00 00 00', refused(6, 16))
hexed('ruling-20', HEAD + ' 01 00 02 5a 39 00 00 00', 'accepted')
hexed('ruling-21', '00 02 00 01 68 00 01 69 01 00 01 61 00 00', refused(2, 0))
policy = b'Authorizer:"POLICY"\nLicensees:"b"||"c"\nConditions:'
vector('ruling-22', record([b'h', b'i'], [b'a'], (), [(1, policy)]), 'accepted')
first = b'Authorizer: "POLICY"\nLicensees: "a"'
vector('first-ruling', record([b'hold', b'immediate'], [b'a'], (), [(1, first)]), 'accepted')

# Counts: the last good and the first bad value on each side.
many = [bytes([65 + i]) for i in range(32)]
vector('values-2', record(many[:2]), 'accepted')
vector('values-1', record(many[:1]), refused(4, 1))
vector('values-0', record([]), refused(4, 1))
vector('values-16', record(many[:16]), 'accepted')
vector('values-17', record(many[:17]), refused(4, 1))
vector('requesters-1', record(requesters=many[:1]), 'accepted')
vector('requesters-0', record(requesters=[]), refused(4, 8))
vector('requesters-8', record(requesters=many[:8]), 'accepted')
vector('requesters-9', record(requesters=many[:9]), refused(4, 8))
names = [(b'n%d' % i, b'') for i in range(33)]
vector('attributes-32', record(attributes=names[:32]), 'accepted')
vector('attributes-33', record(attributes=names), refused(4, 12))
texts = [(1, b'x')] * 201
vector('assertions-200', record(assertions=texts[:200]), 'accepted')
vector('assertions-201', record(assertions=texts), refused(4, 13))
vector('count-255', record()[:1] + b'\xff', refused(4, 1))

# Lengths: the last good and the first bad value on each side.
vector('value-64', record([b'v' * 64, b'i']), 'accepted')
vector('value-65', record([b'v' * 65, b'i']), refused(5, 2))
vector('value-0', record([b'', b'i']), refused(5, 2))
vector('last-value-65', record(many[:15] + [b'v' * 65]), refused(5, 47))
vector('requester-256', record(requesters=[b'r' * 256]), 'accepted')
vector('requester-257', record(requesters=[b'r' * 257]), refused(5, 9))
vector('requester-0', record(requesters=[b'']), refused(5, 9))
vector('name-2048', record(attributes=[(b'n' * 2048, b'')]), 'accepted')
vector('name-2049', record(attributes=[(b'n' * 2049, b'')]), refused(5, 13))
vector('name-0', record(attributes=[(b'', b'')]), refused(5, 13))
vector('setting-2048', record(attributes=[(b'n', b'v' * 2048)]), 'accepted')
vector('setting-2049', record(attributes=[(b'n', b'v' * 2049)]), refused(5, 16))
vector('text-8192', record(assertions=[(1, b't' * 8192)]), 'accepted')
vector('text-8193', record(assertions=[(1, b't' * 8193)]), refused(5, 15))
vector('text-0', record(assertions=[(1, b'')]), refused(5, 15))
vector('length-65535', bytes.fromhex('01 02 ff ff'), refused(5, 2))

# Bytes: what may stand in each kind of string, and where the first fault is told.
vector('value-first-0', record([b'\0h', b'i']), refused(6, 4))
vector('value-last-0', record([b'h' * 63 + b'\0', b'i']), refused(6, 67))
vector('value-any', record([bytes(range(1, 65)), bytes(range(192, 256))]), 'accepted')
vector('requester-0-byte', record(requesters=[b'ab\0']), refused(6, 13))
vector('setting-0-byte', record(attributes=[(b'n', b'v\0')]), refused(6, 19))
vector('text-0-byte', record(assertions=[(1, b'\0')]), 'accepted')
for b in range(256):
    if not (chr(b).isalpha() and b < 128):
        vector('name-starts-%d' % b, record(attributes=[(bytes([b]), b'')]), refused(6, 15))
    if not ((chr(b).isalnum() and b < 128) or b == 95):
        vector('name-goes-on-%d' % b, record(attributes=[(b'n' + bytes([b]), b'')]), refused(6, 16))
word = bytes(b for b in range(128) if chr(b).isalnum() or b == 95)
vector('name-all', record(attributes=[(b'a' + word, b'')]), 'accepted')
letters = [(bytes([b]), b'') for b in word if chr(b).isalpha()]
vector('name-letters-1', record(attributes=letters[:26]), 'accepted')
vector('name-letters-2', record(attributes=letters[26:]), 'accepted')
vector('fault-before-repeat', record([b'h', b'h\0']), refused(6, 8))

# Repetition.
vector('values-repeat-last', record(many[:15] + [many[0]]), refused(7, 49))
vector('values-prefix', record([b'h', b'hh']), 'accepted')
vector('requesters-repeat', record(requesters=[b'a', b'a']), 'accepted')
vector('requester-policy', record(requesters=[b'POLICY']), refused(10, 11))
vector('requester-policy-last', record(requesters=[b'a', b'POLICY']), refused(10, 14))
vector('requester-policy-cut', record(requesters=[b'POLICY'])[:16], refused(3, 11))
vector('requester-policy-behind-0', record(requesters=[b'a\0', b'POLICY']), refused(6, 12))
vector('requester-policy-before-0', record(requesters=[b'POLICY', b'a\0']), refused(10, 11))
vector('requester-small-policy', record(requesters=[b'policy', b'POLICY:', b'POLIC', b'POLICYa', b'oPOLICY']), 'accepted')
vector('names-repeat-last', record(attributes=names[:31] + [names[0]]), refused(7, 13 + 10 * 6 + 21 * 7 + 2))
vector('names-case', record(attributes=[(b'x', b''), (b'X', b'')]), 'accepted')
vector('settings-repeat', record(attributes=[(b'x', b'v'), (b'y', b'v')]), 'accepted')
vector('repeat-before-setting', record(attributes=[(b'x', b''), (b'x', b'\0')]), refused(7, 20))

# Standings.
for s in range(256):
    vector('standing-%d' % s, record(assertions=[(s, b't')]), 'accepted' if s <= 2 else refused(8, 14))
vector('standing-before-text', record()[:-1] + bytes.fromhex('01 03 00 00'), refused(8, 14))
vector('standing-last', record(assertions=texts[:31] + [(3, b't')]), refused(8, 14 + 31 * 4))

# The whole length, and bytes left over.
room = 65535 - len(record(assertions=[(1, b't' * 8192)] * 7))
whole = record(assertions=[(1, b't' * 8192)] * 7 + [(2, b't' * (room - 3))])
assert len(whole) == 65535
vector('record-65535', whole, 'accepted')
vector('record-65536', whole + b'x', refused(1, 0))
vector('record-65536-version', b'\2' + whole, refused(1, 0))
vector('left-over-last', record(assertions=[(1, b't' * 8192)] * 7) + b'x' * room, refused(3, 65535 - room))
vector('left-over-one', record() + b'x', refused(3, 14))

# The last place that each number can stand at: attributes or texts fill the record up to it.
def filled(end):
    """The start of a record with up to 32 attributes whose last one ends at `end`, and how many attributes there are."""
    items, at = [], 13
    while end - at > 4000:
        items.append((b'f%d' % len(items) + b'x' * 1000 if items else b'f', b'v' * 2048))
        at += 4 + len(items[-1][0]) + 2048
    left = end - at
    for size in (left // 2, left - left // 2):
        items.append((b'g%d' % len(items), b'v' * (size - 4 - len('g%d' % len(items)))))
    out = record(attributes=items)[:-1]
    assert len(out) == end
    return out, len(items)


def with_count(start, n):
    return start[:12] + bytes([n]) + start[13:]


start, n = filled(65534)
vector('last-count', start + b'\xc9', refused(4, 65534))
start, n = filled(65531)
vector('last-length', start + bytes([1, 1, 0, 0]), refused(5, 65533))
start, n = filled(65533)
vector('last-standing', start + bytes([1, 3]), refused(8, 65534))
start, n = filled(65532)
vector('last-name', with_count(start, n + 1) + b'\0\1_', refused(6, 65534))
vector('last-repeated', with_count(start, n + 1) + b'\0\1f', refused(7, 65534))
start, n = filled(65535)
vector('last-missing', start, refused(3, 65535))

# The fronts of a record with every group full.
full = record([b'v%02d' % i for i in range(16)], [b'requester %d' % i for i in range(8)],
              [(b'name_%d' % i, b'setting %d' % i) for i in range(32)], [(i % 3, b'text %d' % i) for i in range(200)])


def fields(q):
    """The start and the length of each field of a good record, in order."""
    at = 1
    for group in range(4):
        n = q[at]
        yield at, 1
        at += 1
        for _ in range(n):
            if group == 3:
                yield at, 1
                at += 1
            for _ in range(2 if group == 2 else 1):
                size = int.from_bytes(q[at:at + 2], 'big')
                yield at, 2
                yield at + 2, size
                at += 2 + size
    assert at == len(q)


def front(q, n):
    """What the first n bytes of a good record give."""
    if n == 0:
        return refused(2, 0)
    for start, size in fields(q):
        if n < start + size:
            return refused(3, start)
    return 'accepted'


lines, before = [], 'accepted'
for n in range(len(full) + 1):
    now = front(full, n)
    if now != before:
        lines.append('front %d %s' % (n, now))
    before = now

os.makedirs(os.path.join(HERE, 'data'), exist_ok=True)
with open(os.path.join(HERE, 'data', 'records'), 'wb') as f:
    for name, bytes_, _ in vectors:
        f.write(bytes([len(name)]) + name.encode() + len(bytes_).to_bytes(4, 'big') + bytes_)
with open(os.path.join(HERE, 'data', 'full'), 'wb') as f:
    f.write(full)
with open(os.path.join(HERE, 'stdout'), 'w') as f:
    f.write(''.join('%s %s\n' % (name, expected) for name, _, expected in vectors))
    f.write(''.join(line + '\n' for line in lines))
