#!/usr/bin/env python3
"""An independent account of the directory and data node of documents 01 and 02 (g, k), and the vectors that the proved ones are held to.

    reference.py FOLDER    writes FOLDER/stdin (calls, in binary) and FOLDER/stdout (what each must print)

Written from document 01, with the tags of messages and the node's room from docs/DECISIONS.md (21, 31), by the hand that wrote the definitions;
the numbers of an update's damaged record, 4, 11 and 12, are from document 02 (g) alone, and 14 is from (k) alone. It shares no code or text with the
definitions. A table of 65,536 bytes, at first `poison`, is kept from call to call. A call in stdin, high bytes first: kind (1 byte), whether the
table after it is kept (1), m n k t F and a number (2 each), the length lent of the table and of a room filled with `poison` (4 each), a place of the
table (4) and what its byte is changed by (1; exclusive or), the message's length (2) and bytes. A line of stdout: the kind, the refusal's number or
the bytes answered, and the sums of table and room after the call."""
import random
import struct
import sys


class Broken(Exception):
    """The bytes break their form."""


class Refused(Exception):
    def __init__(self, number):
        self.number = number


class Measures:
    def __init__(self, m, n, k, t, f):
        self.m, self.n, self.k, self.t, self.f = m, n, k, t, f

    def proper(self):
        return (1 <= self.m <= 8 and 1 <= self.n <= 16 and 1 <= self.k and 2 * self.t + self.k <= self.n
                and 1 <= self.f <= 4096 and self.k * self.f >= 4)

    def row(self):
        return 1 + (self.m + 1) * (7 + 32 * (self.t + self.k)) + 4 * self.m + 4

    def directory(self):
        return self.m * self.row()

    def places(self):
        return 2 * self.m * self.m

    def place(self):
        return 7 + self.f

    def table(self):
        return 2 + self.places() * self.place()


class Input:
    """Bytes read from the front."""

    def __init__(self, data):
        self.data, self.at = data, 0

    def take(self, n):
        if self.at + n > len(self.data):
            raise Broken
        self.at += n
        return self.data[self.at - n:self.at]

    def number(self, n):
        return int.from_bytes(self.take(n), 'big')

    def end(self):
        if self.at != len(self.data):
            raise Broken


NONE = (0, 255, 0, [])


def take_pointer(i):
    """By its length alone: the node map says how many digests there are, whatever else is wrong with it."""
    sequence, client, nodes = i.number(4), i.number(1), i.number(2)
    return (sequence, client, nodes, [i.take(32) for _ in range(bin(nodes).count('1'))])


def keeps_rule(s, p):
    sequence, client, nodes, digests = p
    return p == NONE or (sequence >= 1 and client < s.m and len(digests) == s.t + s.k and nodes >> s.n == 0)


def read_pointer(s, i):
    p = take_pointer(i)
    if not keeps_rule(s, p):
        raise Broken
    return p


def write_pointer(p):
    return struct.pack('>IBH', p[0], p[1], p[2]) + b''.join(p[3])


def take_fields(s, i, bits):
    """By their lengths alone."""
    fields = [None] * 4
    if bits & 1:
        fields[0] = [take_pointer(i)]
    if bits & 2:
        fields[1] = [take_pointer(i) for _ in range(s.m)]
    if bits & 4:
        fields[2] = [i.number(4) for _ in range(s.m)]
    if bits & 8:
        fields[3] = [i.number(4)]
    return fields


def keep_rules(s, fields):
    return all(keeps_rule(s, p) for pointers in fields[:2] for p in pointers or [])


def belong(fields, own):
    """Each pointer is none or this client's."""
    return all(p == NONE or p[1] == own for pointers in fields[:2] for p in pointers or [])


def parts_of(fields):
    """A record's map, pointers and indices, one after the other."""
    bits = sum(1 << b for b in range(4) if fields[b] is not None)
    return [bytes([bits])] + [write_pointer(x) if b < 2 else struct.pack('>I', x) for b in range(4) for x in fields[b] or []]


def write_fields(fields):
    return b''.join(parts_of(fields))


def read_row(s, data):
    i = Input(data)
    if i.number(1) != 15:
        raise Broken
    fields = take_fields(s, i, 15)
    if not keep_rules(s, fields) or any(data[i.at:]):
        raise Broken
    return fields


def write_row(s, fields):
    return write_fields(fields).ljust(s.row(), b'\0')


def read_rows(s, table):
    return [read_row(s, table[p * s.row():(p + 1) * s.row()]) for p in range(s.m)]


def all_belong(rows):
    return all(belong(row, p) for p, row in enumerate(rows))


def fresh_row(s):
    return [[NONE], [NONE] * s.m, [0] * s.m, [0]]


def fresh_directory(s, own, table, message, room):
    if not s.proper():
        raise Refused(1)
    if len(table) < s.directory():
        raise Refused(2)
    return 0, write_row(s, fresh_row(s)) * s.m + table[s.directory():], room


def read_record(s, record):
    """The fields of an update: first its map is looked at, then all lengths, and the rules of pointers only when these fit."""
    if record and record[0] > 15:
        raise Refused(4)
    try:
        i = Input(record)
        fields = take_fields(s, i, i.number(1))
        i.end()
    except Broken:
        raise Refused(11)
    if not keep_rules(s, fields):
        raise Refused(12)
    return fields


def update(s, own, table, message, room):
    if not s.proper():
        raise Refused(1)
    if len(table) < s.directory():
        raise Refused(2)
    if own >= s.m:
        raise Refused(3)
    try:
        rows = read_rows(s, table)
    except Broken:
        raise Refused(4)
    new = read_record(s, message)
    if not belong(new, own) or not all_belong(rows):
        raise Refused(14)
    rows[own] = [new[b] if new[b] is not None else rows[own][b] for b in range(4)]
    return 0, b''.join(write_row(s, r) for r in rows) + table[s.directory():], room


def scan(s, own, table, message, room):
    if not s.proper():
        raise Refused(1)
    if len(table) < s.directory() or len(room) < s.directory():
        raise Refused(2)
    try:
        rows = read_rows(s, table)
    except Broken:
        raise Refused(4)
    if not all_belong(rows):
        raise Refused(14)
    return s.directory(), table, table[:s.directory()] + room[s.directory():]


def read_version(s, i):
    v = (i.number(4), i.number(1))
    if v[0] == 0 or v[1] >= s.m:
        raise Broken
    return v


def read_table(s, table):
    i = Input(table[:s.table()])
    count = i.number(2)
    if count > s.places():
        raise Broken
    held = []
    for _ in range(count):
        version = read_version(s, i)
        length = i.number(2)
        if not 1 <= length <= s.f or (held and held[-1][0] >= version):
            raise Broken
        held.append((version, i.take(length)))
        if any(i.take(s.f - length)):
            raise Broken
    if any(i.data[i.at:]):
        raise Broken
    return held


def write_table(s, held):
    out = struct.pack('>H', len(held))
    for (q, c), piece in held:
        out += struct.pack('>IBH', q, c, len(piece)) + piece.ljust(s.f, b'\0')
    return out.ljust(s.table(), b'\0')


def fresh_table(s, own, table, message, room):
    if not s.proper():
        raise Refused(1)
    if len(table) < s.table():
        raise Refused(2)
    return 0, bytes(s.table()) + table[s.table():], room


def node(s, own, table, message, room):
    if not s.proper():
        raise Refused(1)
    if len(table) < s.table() or len(room) < 7 + s.f:
        raise Refused(2)
    if not 1 <= own <= s.n:
        raise Refused(3)
    try:
        held = dict(read_table(s, table))
        i = Input(message)
        kind = i.number(1)
        if kind == 1:
            version, piece = read_version(s, i), i.data[i.at:]
            if not 1 <= len(piece) <= s.f:
                raise Broken
        elif kind == 2:
            version = read_version(s, i)
            i.end()
        elif kind == 3:
            versions = []
            while i.at < len(i.data):
                versions.append(read_version(s, i))
            if any(a >= b for a, b in zip(versions, versions[1:])):
                raise Broken
        else:
            raise Broken
    except Broken:
        raise Refused(4)
    if kind == 1:
        if version not in held and len(held) == s.places():
            raise Refused(8)
        held[version] = piece
        answer = b'\4' + struct.pack('>IB', *version)
    elif kind == 2:
        answer = b'\6' + struct.pack('>IB', *version) + (b'\1' + held[version] if version in held else b'\0')
    else:
        for v in versions:
            held.pop(v, None)
        answer = b'\5'
    return len(answer), write_table(s, sorted(held.items())) + table[s.table():], answer + room[len(answer):]


CALLS = {1: fresh_directory, 2: update, 3: scan, 4: fresh_table, 5: node}


def checksum(data):
    h = 0
    for b in data:
        h = (h * 257 + b + 1) % 2 ** 32
    return h


def poison(n):
    return bytes((i % 256 * 13 + 170) % 256 for i in range(n))


class Vectors:
    def __init__(self):
        self.calls, self.lines, self.table = [], [], poison(65536)

    def add(self, kind, s, own, length, message=b'', room=0, damage=(0, 0), keep=False):
        """Gives the refusal's number, or 0."""
        self.calls.append(struct.pack('>BB6HIIIBH', kind, keep, s.m, s.n, s.k, s.t, s.f, own, length, room, damage[0], damage[1], len(message)) + message)
        at, change = damage
        whole = self.table[:at] + bytes([self.table[at] ^ change]) + self.table[at + 1:]
        table, room = whole[:length], poison(room)
        try:
            answer, table, room = CALLS[kind](s, own, table, message, room)
            what, number = 'served %d' % answer, 0
        except Refused as r:
            what, number = 'refused %d' % r.number, r.number
        self.lines.append('%d %s %d %d' % (kind, what, checksum(table), checksum(room)))
        if keep:
            self.table = table + whole[length:]
        return number


def some_pointer(s, r, none=0.3):
    if r.random() < none:
        return NONE
    nodes = sum(1 << (i - 1) for i in r.sample(range(1, s.n + 1), s.t + s.k))
    return (r.choice([1, 2, 255, 256, 65536, 2 ** 32 - 1]), r.randrange(s.m), nodes, [r.randbytes(32) for _ in range(s.t + s.k)])


def owned(p, own):
    """The same as this client's."""
    return p if p == NONE else (p[0], own, *p[2:])


def some_fields(s, r, own):
    pointers = [owned(some_pointer(s, r), own) for _ in range(s.m + 1)]
    return [pointers[:1], pointers[1:], [r.choice([0, 1, 2 ** 32 - 1]) for _ in range(s.m)], [r.randrange(2 ** 32)]]


def damages(r, length, count):
    """A place and a change of its byte: at the ends, in the first bytes, and anywhere."""
    places = [0, 1, 2, 3, 4, 5, 6, 7, 8, length - 1] + [r.randrange(length) for _ in range(count)]
    return [(p, x) for p in places if p < length for x in (1, 255)]


def spoiled(data, damage):
    at, change = damage
    return data[:at] + bytes([data[at] ^ change]) + data[at + 1:]


def directory_vectors(v, r):
    for s in [Measures(3, 4, 2, 1, 8), Measures(1, 1, 1, 0, 4), Measures(8, 16, 8, 4, 4096), Measures(2, 16, 16, 0, 1), Measures(8, 5, 1, 2, 4)]:
        size = s.directory()
        for n in (size - 1, size, size + 3):
            v.add(1, s, 0, n)
        v.add(1, s, 0, size + 2, keep=True)
        v.add(3, s, 0, size, room=size - 1)
        v.add(3, s, 0, size - 1, room=size)
        v.add(3, s, 0, size, room=size + 5)
        v.add(2, s, s.m, size, b'\0')
        v.add(2, s, 65535, size, b'\x10')
        v.add(2, s, 0, size - 1, b'\x10')
        # every map, from what the last one left; pointers become none and others, so that rows get shorter and longer
        for bits in list(range(17)) + [0x20, 0x40, 0x80, 0xFF]:
            for own in sorted({0, s.m - 1} if s.m < 8 else {r.randrange(s.m)}):
                fields = some_fields(s, r, own)
                data = write_fields([fields[b] if bits >> b & 1 else None for b in range(4)])
                if bits > 15:
                    data = bytes([bits]) + data[1:]
                v.add(2, s, own, size + 1, data, keep=True)
        v.add(3, s, 0, size + 2, room=size + 5)
        full = write_fields(some_fields(s, r, s.m - 1))
        v.add(2, s, s.m - 1, size, b'')
        v.add(2, s, s.m - 1, size, full + b'\0')
        v.add(2, s, s.m - 1, size, full[:-1])
        if s.m <= 3:
            for d in damages(r, len(full), 20):
                v.add(2, s, s.m - 1, size, spoiled(full, d))
            for d in damages(r, size, 120):
                v.add(2, s, s.m - 1, size, b'\0', damage=d)
                v.add(3, s, 0, size, room=size, damage=d)
    for m, n, k, t, f in [(0, 4, 2, 1, 8), (9, 4, 2, 1, 8), (3, 0, 2, 1, 8), (3, 17, 2, 1, 8), (3, 4, 0, 1, 8), (3, 3, 2, 1, 8), (3, 4, 2, 1, 0),
                          (3, 4, 2, 1, 4097), (3, 4, 3, 0, 1), (65535, 65535, 65535, 65535, 65535), (3, 16, 1, 8, 8), (3, 4, 2, 65535, 8)]:
        for kind in (1, 2, 3):
            v.add(kind, Measures(m, n, k, t, f), 9, 0, b'\x10')


def version_list(versions):
    return b''.join(struct.pack('>IB', *x) for x in versions)


def store(q, c, piece):
    return b'\1' + struct.pack('>IB', q, c) + piece


def node_vectors(v, r):
    for s in [Measures(1, 1, 1, 0, 4), Measures(2, 4, 2, 1, 8), Measures(3, 5, 1, 2, 20), Measures(2, 16, 2, 7, 300), Measures(8, 16, 8, 4, 400)]:
        size, room = s.table(), 7 + s.f + 3
        for n in (size - 1, size, size + 3):
            v.add(4, s, 0, n)
        v.add(4, s, 0, size + 2, keep=True)
        for own in (0, 1, s.n, s.n + 1, 65535):
            v.add(5, s, own, size, b'\3', room)
        v.add(5, s, 1, size, b'\3', 6 + s.f)
        v.add(5, s, 0, size - 1, b'\7', room)
        v.add(5, s, 0, size, b'\7', room)
        # a table filled to its end in some order: before the first, between, after the last
        sequences = (1, 2, 255, 256, 65536, 2 ** 24, 2 ** 32 - 2, 2 ** 32 - 1, 7, 8, 9, 10, 11, 12, 13, 14)
        versions = [(q, c) for q in sequences for c in range(s.m)][:s.places()]
        r.shuffle(versions)
        for q, c in versions:
            v.add(5, s, 1, size + 2, store(q, c, r.randbytes(r.choice([1, s.f, r.randint(1, s.f)]))), room, keep=True)
            v.add(5, s, 1, size, b'\2' + struct.pack('>IB', q, c), room)
        v.add(5, s, 1, size, store(3, 0, b'x'), room)
        v.add(5, s, 1, size, b'\2' + struct.pack('>IB', 3, 0), room)
        # dropped: none, absent ones, the first, the last, one between, every second one, all
        order = sorted(versions)
        for l in [[], [(3, 0)], [(3, 0), (4, 0)], order[:1], order[-1:], order[len(order) // 2:len(order) // 2 + 1], order[::2], order[1::2], order,
                  order[:-1], order[1:], sorted(order[::3] + [(3, 0), (5, 0)])]:
            v.add(5, s, s.n, size + 1, b'\3' + version_list(l), room)
        # overwritten by a shorter and by a longer piece, at a full table
        for q, c in versions[:4]:
            for n in (1, s.f, (s.f + 1) // 2):
                v.add(5, s, 1, size, store(q, c, r.randbytes(n)), room, keep=True)
        # broken messages
        good = [store(5, 0, b'abc'[:s.f]), b'\2' + struct.pack('>IB', 5, 0), b'\3' + version_list([(5, 0), (6, 0)])]
        for message in [b'', b'\0', b'\4', b'\5', b'\6', b'\1', b'\2', store(5, 0, b''), store(5, 0, bytes(s.f + 1)), store(5, 0, bytes(s.f)), store(0, 0, b'x'),
                        store(5, s.m, b'x'), b'\3' + version_list([(5, 0), (5, 0)]), b'\3' + version_list([(6, 0), (5, 0)]), b'\3' + version_list([(5, s.m)]),
                        b'\2' + struct.pack('>IB', 5, 0) + b'\0', b'\2' + struct.pack('>IB', 5, s.m)] + [g[:-1] for g in good]:
            v.add(5, s, 1, size, message, room)
        # sequence 0, and nothing else that is wrong; the last two have it at none's version
        for c in (0, s.m - 1):
            for message in [store(0, c, b'x'), b'\2' + struct.pack('>IB', 0, c), b'\3' + version_list([(0, c)]), b'\3' + version_list([(0, c), (5, 0)])]:
                v.add(5, s, 1, size, message, room)
        v.add(5, s, 1, size, b'\2' + struct.pack('>IB', 0, 255), room)
        v.add(5, s, 1, size, b'\3' + version_list([(0, 255)]), room)
        for g in good:
            for d in damages(r, len(g), 5):
                v.add(5, s, 1, size, spoiled(g, d), room)
        # damaged tables, a false count among them: full, then half full
        for d in damages(r, size, 80):
            v.add(5, s, 1, size, b'\3', room, damage=d)
        v.add(5, s, 1, size, b'\3' + version_list(order[::2]), room, keep=True)
        for d in damages(r, size, 120):
            v.add(5, s, 1, size, b'\3', room, damage=d)
        for q, c in order:
            v.add(5, s, 1, size, b'\2' + struct.pack('>IB', q, c), room)
    for m, n, k, t, f in [(0, 4, 2, 1, 8), (9, 4, 2, 1, 8), (3, 17, 2, 1, 8), (3, 3, 2, 1, 8), (3, 4, 2, 1, 0), (3, 4, 2, 1, 4097)]:
        v.add(4, Measures(m, n, k, t, f), 0, 0)
        v.add(5, Measures(m, n, k, t, f), 99, 0)


def pointer(r, sequence, client, nodes):
    return (sequence, client, sum(1 << (i - 1) for i in nodes), [r.randbytes(32) for _ in nodes])


def pointer_vectors(v, r):
    """Each clause of a pointer's form is broken alone: in an update's record, then in the rows."""
    for s in [Measures(3, 4, 2, 1, 8), Measures(2, 12, 3, 2, 4), Measures(1, 15, 1, 0, 4)]:
        size, bits = s.directory(), s.t + s.k

        # all pointers of all rows name the highest nodes
        named = range(s.n - bits + 1, s.n + 1)
        good = [[pointer(r, own + 1, own, named)] + [pointer(r, own + 2, own, named) for _ in range(s.m)] for own in range(s.m)]
        v.add(1, s, 0, size, keep=True)
        for own in range(s.m):
            v.add(2, s, own, size, write_fields([good[own][:1], good[own][1:], [0] * s.m, [0]]), keep=True)
        lowest = list(range(1, bits))
        heads = [(7, 0, lowest + [i]) for i in range(bits, 17)]
        heads += [(0, 0, named), (0, 255, named), (7, s.m, named), (7, 255, named), (7, 0, lowest), (7, 0, lowest + [s.n - 1, s.n]), (7, 0, []),
                  (0, 0, []), (7, 255, []), (0, 255, [])]
        for p in [pointer(r, *head) for head in heads]:
            for at in range(s.m + 1):
                pointers = [p if i == at else x for i, x in enumerate(good[0])]
                v.add(2, s, 0, size, write_fields([pointers[:1], pointers[1:], None, None]))
        # in a row node n is exchanged for another that the same byte can name, below it or above
        byte = range(1, 9) if s.n < 9 else range(9, 17)
        for own in range(s.m):
            for at in range(s.m + 1):
                place = own * s.row() + 1 + at * (7 + 32 * bits) + (6 if s.n < 9 else 5)
                for i in byte:
                    if i not in named:
                        change = (1 << (s.n - byte[0])) ^ (1 << (i - byte[0]))
                        v.add(2, s, s.m - 1, size, b'\0', damage=(place, change))
                        v.add(3, s, 0, size, room=size, damage=(place, change))


# Damaged records of updates


ANY, SERVED, MAP, LENGTH, RULE = (0, 4, 11, 12), (0,), (4,), (11,), (12,)


def tried(v, s, own, record, numbers, **more):
    """An update with this record gives one of these numbers; 0 is served."""
    assert v.add(2, s, own, more.pop('length', s.directory()), record, **more) in numbers


def some_parts(s, r, bits, own, none=0.2):
    """Those of a sound record of this client."""
    pointers, indices = [owned(some_pointer(s, r, none), own) for _ in range(s.m + 1)], [r.randrange(2 ** 32) for _ in range(s.m + 1)]
    fields = [pointers[:1], pointers[1:], indices[:-1], indices[-1:]]
    return parts_of([fields[b] if bits >> b & 1 else None for b in range(4)])


def pointer_places(s, bits):
    """Where the pointers stand among the parts."""
    return range(1, 1 + (bits & 1) + (bits >> 1 & 1) * s.m)


def with_part(parts, at, part):
    return b''.join(parts[:at] + [part] + parts[at + 1:])


def improper(s, r, own):
    """Pointers of this client that break their rule, each with a digest for each of its bits and then with fewer or more."""
    due = s.t + s.k
    named = list(range(1, due + 1))
    counts = [count for count in sorted({0, 1, due - 1, due + 1, 16}) if count <= 16 and count != due]
    tries = [(7, own, range(1, count + 1), due) for count in counts] + [(7, own, range(17 - count, 17), due) for count in counts if 0 < count < 16]
    tries += [(7, own, named[:-1] + [i], due - 1) for i in range(s.n + 1, 17)] + [(7, own, named + [i], due) for i in range(s.n + 1, 17)[:1]]
    tries += [(0, 255, [i], 0) for i in range(1, 17)] + [(0, 255, named, 0)]
    tries += [(q, c, named, due - 1) for q, c in ((0, own), (0, s.m - 1), (0, s.m), (1, s.m), (1, 254), (1, 255), (2 ** 32 - 1, 255))]
    tries += [(q, c, [], due) for q, c in ((0, own), (0, 254), (0, s.m), (1, 255), (256, 255), (65536, 255), (2 ** 24, 255), (2 ** 32 - 1, own))]
    fitting = [write_pointer(pointer(r, *three)) for *three, _ in tries]
    return [(p, p[:7] + r.randbytes(32 * count)) for p, (_, _, _, count) in zip(fitting, tries)]


def bad_maps(v, r, s):
    """With any length, and with improper pointers."""
    for bad in [0x20, 0x40, 0x80, 0xFF] + list(range(0x10, 0x20)):
        bits, own = bad & 15 or 15, r.randrange(s.m)
        parts, wrong = some_parts(s, r, bits, own), improper(s, r, own)
        whole = b''.join(parts)
        records = [whole[:1], whole, whole[:-1], whole + b'\0', whole + bytes(32)]
        for at in pointer_places(s, bits):
            records += [with_part(parts, at, p) for p in r.choice(wrong)]
        for record in records:
            tried(v, s, own, bytes([bad]) + record[1:], MAP)


def wrong_lengths(v, r, s, maps=range(16)):
    """A byte less and a byte more at the end of each part, cuts there and in its middle, bytes after the last; then the record itself."""
    for bits in maps:
        own = r.randrange(s.m)
        parts = some_parts(s, r, bits, own)
        whole = b''.join(parts)
        for at, part in enumerate(parts):
            # under one map lengths differ by multiples of 32: one byte less or more can only fit where it changes the map
            tried(v, s, own, with_part(parts, at, part[:-1]), LENGTH if at else ANY)
            tried(v, s, own, with_part(parts, at, part + r.randbytes(1)), LENGTH)
            tried(v, s, own, b''.join(parts[:at]) + part[:len(part) // 2], LENGTH)
            if at + 1 < len(parts):
                tried(v, s, own, b''.join(parts[:at + 1]), LENGTH)
        for more in (1, 2, 31, 32, 33):
            tried(v, s, own, whole + r.choice([bytes(more), r.randbytes(more)]), LENGTH)
        tried(v, s, own, whole, SERVED, keep=bits % 3 == 0)


def every_length(v, r, s):
    """A cut at every byte, every byte left out, and a byte put in before it."""
    for bits in (3, 5, 10, 12, 15):
        own = r.randrange(s.m)
        whole = b''.join(some_parts(s, r, bits, own))
        for at in range(len(whole)):
            tried(v, s, own, whole[:at], LENGTH)
            tried(v, s, own, whole[:at] + whole[at + 1:], LENGTH if at else ANY)
            tried(v, s, own, whole[:at] + r.randbytes(1) + whole[at:], LENGTH if at else ANY)


def other_maps(v, r, s):
    """Each map in the place of each, and in front of it."""
    for bits in range(16):
        for other in range(16):
            own = r.randrange(s.m)
            whole = b''.join(some_parts(s, r, bits, own, none=0.5))
            tried(v, s, own, bytes([other]) + whole[1:], SERVED if other == bits else ANY)
            tried(v, s, own, bytes([other]) + whole, ANY)


def wrong_pointers(v, r, s, places, many=None):
    """Each, or so many, at each of these places, where 0 is the written pointer's; the others are sound."""
    for at in places:
        own = r.randrange(s.m)
        wrong = improper(s, r, own)
        for fitting, other in r.sample(wrong, many or len(wrong)):
            bits = r.choice([b for b in range(16) if b >> (at > 0) & 1])
            parts, among = some_parts(s, r, bits, own), pointer_places(s, bits)
            place = among[at if bits & 1 else at - 1]
            tried(v, s, own, with_part(parts, place, fitting), RULE)
            # bytes that are then taken for the next pointer may fit by chance
            tried(v, s, own, with_part(parts, place, other), LENGTH if place == among[-1] else LENGTH + RULE)


def wrong_counts(v, r, s):
    """Pointers with all 16 bits; one bit too few beside one too many, which have the length of two sound pointers."""
    due = s.t + s.k
    less, more, every = (write_pointer(pointer(r, 7, 0, range(1, count + 1))) for count in (due - 1, due + 1, 16))
    for bits in (1, 2, 3, 15):
        parts, places = some_parts(s, r, bits, 0), pointer_places(s, bits)
        tried(v, s, 0, b''.join(parts[:1] + [every] * len(places) + parts[1 + len(places):]), RULE)
        firsts = places[:-1]
        for at in sorted({*firsts[:1], *firsts[-1:]}):
            tried(v, s, 0, b''.join(parts[:at] + [less, more] + parts[at + 2:]), RULE)
            tried(v, s, 0, b''.join(parts[:at] + [more, less] + parts[at + 2:]), RULE)


def two_damages(v, r, s):
    """A pointer breaks its rule; beside it the map, a length before or after it, or another pointer is wrong."""
    for bits in (1, 2, 3, 5, 10, 15):
        own = r.randrange(s.m)
        sound, places, wrong = some_parts(s, r, bits, own), pointer_places(s, bits), improper(s, r, own)
        for at in places:
            parts = sound[:at] + [r.choice(wrong)[0]] + sound[at + 1:]
            whole = b''.join(parts)
            for place, part in enumerate(parts):
                if place:
                    tried(v, s, own, with_part(parts, place, part[:-1]), LENGTH)
                tried(v, s, own, with_part(parts, place, part + b'\0'), LENGTH)
            for record in (whole[:1], whole[:7], whole[:-4], whole + bytes(32)):
                tried(v, s, own, record, LENGTH)
            for record in (whole, whole[:-1], whole + b'\0'):
                tried(v, s, own, bytes([16 | bits]) + record[1:], MAP)
            for second in places:
                if second != at:
                    fitting, other = r.choice(wrong)
                    tried(v, s, own, with_part(parts, second, fitting), RULE)
                    tried(v, s, own, with_part(parts, second, other), LENGTH if second == places[-1] else LENGTH + RULE)


def head(sequence, client, count):
    """A pointer's first seven bytes, with the lowest nodes."""
    return struct.pack('>IBH', sequence, client, (1 << count) - 1)


def shifted(v, r, s, bits):
    """The last pointer but one lacks digests or has more, and the bytes that are then taken for the last one have its form, or nearly."""
    due, at, own = s.t + s.k, pointer_places(s, bits)[-2], r.randrange(s.m)
    sound, none = head(7, own, due), head(0, 255, 0)

    def gives(numbers, first, last):
        parts = some_parts(s, r, bits, own)
        tried(v, s, own, b''.join(parts[:at] + [first, last] + parts[at + 2:]), numbers, keep=numbers == SERVED)

    # it lacks all: the last pointer is taken for them, up to the end of its digests
    for end, numbers in ((none, SERVED), (head(0, own, 0), RULE), (head(1, 255, 0), RULE), (head(1, own, 0), RULE), (head(1, own, 1), LENGTH)):
        gives(numbers, sound, sound + r.randbytes(32 * due - 7) + end)
    # it lacks one: the last pointer is taken for it, up to the end of its first digest
    for end, numbers in ((sound, LENGTH), (head(7, own, due - 1), RULE), (head(0, 255, due - 1), SERVED if due == 1 else RULE)):
        gives(numbers, sound + r.randbytes(32 * (due - 1)), sound + r.randbytes(25) + end + r.randbytes(32 * (due - 1)))
    # it has more, and the last one is none
    for count in sorted({1, due}):
        for start, numbers in ((head(7, own, count), SERVED if count == due else RULE), (head(7, s.m, count), RULE), (head(0, own, count), RULE),
                               (none, LENGTH)):
            gives(numbers, sound + r.randbytes(32 * due) + start + r.randbytes(32 * count - 7), none)


def map_left_out(v):
    """Of one client's two indices: the bytes that are left are a record of one pointer that is none, or nearly."""
    end = 255 * 2 ** 16
    for index, reading, numbers in ((2 ** 24, end, SERVED), (2 ** 25, end, SERVED), (2 ** 24, 0, RULE), (2 ** 24 + 1, end, RULE),
                                    (2 ** 24, end + 1, LENGTH), (3 * 2 ** 24, end, LENGTH), (2 ** 28, end, MAP)):
        tried(v, Measures(1, 1, 1, 0, 4), 0, write_fields([None, None, [index], [reading]])[1:], numbers)


def some_records(s, r, own):
    """Sound ones of this client and a few of each kind of damage, with their numbers."""
    wrong, parts = improper(s, r, own), some_parts(s, r, 15, own)
    whole, written, frozen = b''.join(parts), with_part(parts, 1, r.choice(wrong)[0]), with_part(parts, s.m + 1, r.choice(wrong)[0])
    return [(b'\0', SERVED), (whole, SERVED), (b'\x10', MAP), (b'\x1f' + whole[1:-1], MAP), (b'', LENGTH), (b'\0\0', LENGTH), (whole[:-1], LENGTH),
            (whole + b'\0', LENGTH), (written[:-1], LENGTH), (written, RULE), (frozen, RULE), (b'\1' + r.choice(wrong)[0], RULE)]


def before_records(v, r, s):
    """What is refused before a record is looked at, with each kind of record."""
    size, records = s.directory(), [some_records(s, r, own) for own in range(s.m)]
    # each row has spare bytes, as its first frozen pointer is none
    for own in range(s.m):
        pointers = [owned(some_pointer(s, r, 0), own) for _ in range(s.m)]
        tried(v, s, own, write_fields([pointers[:1], [NONE] + pointers[1:], [0] * s.m, [own]]), SERVED, keep=True)
    written, frozen = 1, 8 + 32 * (s.t + s.k)
    damage = [(0, 1), (0, 16), (written + 4, 128), (written + 5, 255), (frozen + 4, 1), (s.row() - 1, 1)]
    for kind in range(len(records[0])):
        own = kind % s.m
        record, numbers = records[own][kind]
        tried(v, s, own, record, numbers)
        # what is lent beyond the rows is not looked at
        tried(v, s, own, record, numbers, length=size + 1, damage=(size, 255))
        for row in sorted({0, own, s.m - 1}):
            for place, change in damage:
                tried(v, s, own, record, (4,), damage=(row * s.row() + place, change))
        for number in (s.m, 65535):
            tried(v, s, number, record, (3,))
            tried(v, s, number, record, (3,), damage=(0, 1))
            tried(v, s, number, record, (2,), length=size - 1)
        tried(v, s, own, record, (2,), length=size - 1)
        for m, n, k, t, f in ((0, s.n, s.k, s.t, s.f), (9, s.n, s.k, s.t, s.f), (s.m, 17, s.k, s.t, s.f), (s.m, s.n, 0, s.t, s.f),
                              (s.m, s.n, s.k, s.n, s.f), (s.m, s.n, s.k, s.t, 0), (s.m, s.n, s.k, s.t, 4097)):
            tried(v, Measures(m, n, k, t, f), own, record, (1,))


def damage_vectors(v, r):
    """The numbers of an update's record, document 02 (g): 4 for its map, 11 for its length, 12 for a pointer."""
    small = [Measures(1, 1, 1, 0, 4), Measures(3, 4, 2, 1, 8), Measures(2, 12, 3, 2, 4), Measures(1, 15, 1, 0, 4)]
    for s in small:
        v.add(1, s, 0, s.directory(), keep=True)
        tried(v, s, 0, b'', LENGTH)
        wrong_lengths(v, r, s)
        wrong_pointers(v, r, s, range(s.m + 1))
        wrong_counts(v, r, s)
        two_damages(v, r, s)
        for bits in (3, 15) if s.m == 1 else (2, 3, 15):
            shifted(v, r, s, bits)
        v.add(3, s, 0, s.directory(), room=s.directory())
    for s in small[:3]:
        v.add(1, s, 0, s.directory(), keep=True)
        before_records(v, r, s)
        bad_maps(v, r, s)
    v.add(1, small[0], 0, small[0].directory(), keep=True)
    map_left_out(v)
    every_length(v, r, small[0])
    other_maps(v, r, small[0])
    # the largest table, and the largest pointers
    for s in [Measures(8, 16, 8, 4, 4096), Measures(2, 16, 16, 0, 1)]:
        v.add(1, s, 0, s.directory(), keep=True)
        for bits in range(16):
            own = r.randrange(s.m)
            tried(v, s, own, b''.join(some_parts(s, r, bits, own)), SERVED, keep=True)
        wrong_lengths(v, r, s, (5, 12))
        wrong_pointers(v, r, s, (0, 1, s.m), 6)
        if s.t + s.k < 16:
            wrong_counts(v, r, s)
        shifted(v, r, s, 3)
        v.add(3, s, 0, s.directory(), room=s.directory())
    # the longest that a call can have
    tried(v, s, 0, b'\1' + bytes(65534), LENGTH)


# Pointers of another client than their row's


OWNER = (14,)


def others(s, own):
    """Other clients: the next ones, the first and the last."""
    return sorted({c for c in (0, own - 1, own + 1, s.m - 1) if 0 <= c < s.m} - {own})


def part_of(s, r, sequence, client):
    """A pointer that keeps its rule if there is this client."""
    return write_pointer((sequence, client, *some_pointer(s, r, 0)[2:]))


def scanned(v, s, numbers, **more):
    """A scan gives one of these numbers."""
    size = s.directory()
    assert v.add(3, s, 0, more.pop('length', size), room=more.pop('room', size), **more) in numbers


def foreign_records(v, r, s, owners, maps):
    """At each place a pointer of each other client, of one that there is not, of the owner, and none; the others are sound."""
    for own in owners:
        for bits in maps:
            for at in pointer_places(s, bits):
                def gives(numbers, part):
                    tried(v, s, own, with_part(some_parts(s, r, bits, own, r.choice([0, 0.5, 1])), at, part), numbers)

                for c in others(s, own):
                    gives(OWNER, part_of(s, r, 1, c))
                    gives(OWNER, part_of(s, r, 2 ** 32 - 1, c))
                gives(RULE, part_of(s, r, 1, s.m))
                gives(SERVED, part_of(s, r, 2 ** 32 - 1, own))
                gives(SERVED, write_pointer(NONE))


def other_rows(v, r, s):
    """A whole row of another client's; it can be this one's too if all of its pointers are none."""
    for own in range(s.m):
        for c in others(s, own):
            tried(v, s, own, b''.join(some_parts(s, r, 15, c, none=0)), OWNER)
            tried(v, s, own, b''.join(some_parts(s, r, 15, c, none=1)), SERVED)


def before_owners(v, r, s, maps):
    """A pointer of another client; beside it the map, a length or another pointer of the record is wrong, or what comes before a record."""
    size = s.directory()
    for own in range(s.m):
        for bits in maps:
            sound, places = some_parts(s, r, bits, own), pointer_places(s, bits)
            for at in places:
                c = r.choice(others(s, own))
                parts = sound[:at] + [part_of(s, r, 7, c)] + sound[at + 1:]
                whole, wrong = b''.join(parts), improper(s, r, own)
                tried(v, s, own, whole, OWNER)
                for record in (whole[:1], whole, whole[:-1]):
                    tried(v, s, own, bytes([16 | bits]) + record[1:], MAP)
                for record in (whole[:1], whole[:7], whole[:-1], whole + b'\0'):
                    tried(v, s, own, record, LENGTH)
                # it breaks its rule itself, or another one does
                tried(v, s, own, with_part(sound, at, r.choice(improper(s, r, c))[0]), RULE)
                for second in places:
                    if second != at:
                        tried(v, s, own, with_part(parts, second, r.choice(wrong)[0]), RULE)
                        tried(v, s, own, with_part(parts, second, part_of(s, r, 8, c)), OWNER)
                tried(v, s, own, whole, (4,), damage=(r.randrange(s.m) * s.row(), 1))
                tried(v, s, s.m, whole, (3,))
                tried(v, s, own, whole, (2,), length=size - 1)
                tried(v, Measures(s.m, s.n, 0, s.t, s.f), own, whole, (1,))


def clients_of(s, rows):
    """Of rows that are given as parts: each pointer's row, and where its client stands in the table. None is left out."""
    return [(own, own * s.row() + len(b''.join(parts[:at])) + 4) for own, parts in rows.items()
            for at in pointer_places(s, 15) if parts[at] != write_pointer(NONE)]


def foreign_tables(v, r, s, owners, none):
    """A pointer of the table gets another client by a changed byte, as no update can do it; one that would replace it is refused as well."""
    size, rows = s.directory(), {own: some_parts(s, r, 15, own, none) for own in owners}
    for own, parts in rows.items():
        tried(v, s, own, b''.join(parts), SERVED, keep=True)
    scanned(v, s, SERVED)
    for own, place in clients_of(s, rows):
        for c in others(s, own):
            damage = (place, own ^ c)
            scanned(v, s, OWNER, damage=damage)
            for writer in (own, c):
                tried(v, s, writer, b'\0', OWNER, damage=damage)
            tried(v, s, own, b''.join(rows[own]), OWNER, damage=damage)
        tried(v, s, s.m, b'\0', (3,), damage=damage)
        tried(v, s, own, b'\0', (2,), damage=damage, length=size - 1)
        scanned(v, s, (2,), damage=damage, length=size - 1)
        scanned(v, s, (2,), damage=damage, room=size - 1)
        for kind in (2, 3):
            assert v.add(kind, Measures(s.m, s.n, s.k, s.n, s.f), own, size, b'\0', size, damage) == 1


def records_at_foreign_tables(v, r, s):
    """A record's own numbers come first, whoever sends it."""
    rows = {own: some_parts(s, r, 15, own) for own in range(s.m)}
    for own, parts in rows.items():
        tried(v, s, own, b''.join(parts), SERVED, keep=True)
    for own, place in clients_of(s, rows):
        writer, c = r.randrange(s.m), r.choice(others(s, own))
        foreign = part_of(s, r, 7, r.choice(others(s, writer)))
        for record, numbers in some_records(s, r, writer) + [(b'\1' + foreign, OWNER)]:
            tried(v, s, writer, record, OWNER if numbers == SERVED else numbers, damage=(place, own ^ c))


def lay(v, data):
    """Any rows come to the table as a node's first piece: count, version and length before it become the front of row 0, all but its map."""
    s = Measures(1, 1, 1, 0, len(data) - 9)
    v.add(4, s, 0, s.table(), keep=True)
    v.add(5, s, 1, s.table(), store(int.from_bytes(data[2:6], 'big'), 0, data[9:]), 7 + s.f, keep=True)
    assert v.table[1:len(data)] == data[1:]


def broken_tables(v, r):
    """Rows with a pointer of another client and with a broken form, before it and after."""
    s = Measures(3, 1, 1, 0, 4)
    breaks = [lambda p: bytes(4) + p[4:], lambda p: p[:4] + bytes([s.m]) + p[5:], lambda p: p[:5] + b'\0\2' + p[7:], lambda p: write_pointer(NONE)]

    def gives(numbers, rows):
        # where a pointer is none the bytes left over are not zero
        lay(v, b''.join(b''.join(row).ljust(s.row(), b'\1') for row in rows))
        own = r.randrange(s.m)
        # the changed byte is the map of row 0; without the change it is broken as well
        scanned(v, s, numbers, damage=(0, 15))
        tried(v, s, own, b'\0', numbers, damage=(0, 15))
        if numbers == OWNER:
            scanned(v, s, (4,))
            tried(v, s, own, b'\0', (4,))

    def changed(rows, row, at, part):
        return rows[:row] + [rows[row][:at] + [part] + rows[row][at + 1:]] + rows[row + 1:]

    sound = [some_parts(s, r, 15, own, none=0) for own in range(s.m)]
    sound = changed(sound, 0, 1, head(2 ** 24 + 7, 0, 1) + b'\xfe' + r.randbytes(31))
    gives(SERVED, sound)
    gives(OWNER, [sound[0], sound[2], sound[1]])
    places = [(row, at) for row in range(s.m) for at in pointer_places(s, 15)]
    for row, at in places:
        foreign = changed(sound, row, at, spoiled(sound[row][at], (4, row ^ r.choice(others(s, row)))))
        gives(OWNER, foreign)
        for other in range(s.m):
            # the first pointer's sequence and map are not free
            second = r.choice([i for o, i in places if o == other and (o, i) not in ((row, at), (0, 1))])
            gives((4,), changed(foreign, other, second, r.choice(breaks)(sound[other][second])))


def owner_vectors(v, r):
    """14, document 02 (k): a pointer of another client, in an update's record or in the table."""
    one, two, three = Measures(1, 1, 1, 0, 4), Measures(2, 1, 1, 0, 4), Measures(3, 1, 1, 0, 4)
    # one client has no other: what is not its own breaks the rule
    v.add(1, one, 0, one.directory(), keep=True)
    foreign_records(v, r, one, [0], (1, 2, 3, 15))
    for s, maps in ((two, (1, 15)), (three, (3,))):
        v.add(1, s, 0, s.directory(), keep=True)
        foreign_records(v, r, s, range(s.m), (1, 2, 15))
        other_rows(v, r, s)
        before_owners(v, r, s, maps)
        for none in (0, 0.5):
            foreign_tables(v, r, s, range(s.m), none)
        records_at_foreign_tables(v, r, s)
    broken_tables(v, r)
    # digests of several nodes, then the largest table
    s = Measures(3, 4, 2, 1, 8)
    v.add(1, s, 0, s.directory(), keep=True)
    foreign_records(v, r, s, range(s.m), (1,))
    foreign_tables(v, r, s, [2], 0)
    s = Measures(8, 16, 8, 4, 4096)
    v.add(1, s, 0, s.directory(), keep=True)
    foreign_records(v, r, s, (0, 3, 7), (1,))
    tried(v, s, 5, b''.join(some_parts(s, r, 15, 4, none=0)), OWNER)
    foreign_tables(v, r, s, [0, 7], 0.8)
    last = some_parts(s, r, 15, 7, none=0)
    tried(v, s, 7, b''.join(last), SERVED, keep=True)
    damage = (clients_of(s, {7: last})[-1][1], 7 ^ 6)
    tried(v, s, 0, b'\0', OWNER, damage=damage)
    scanned(v, s, OWNER, damage=damage)


def main(folder):
    v, r = Vectors(), random.Random(1)
    directory_vectors(v, r)
    node_vectors(v, r)
    pointer_vectors(v, random.Random(2))
    damage_vectors(v, random.Random(3))
    owner_vectors(v, random.Random(4))
    open(folder + '/stdin', 'wb').write(b''.join(v.calls))
    open(folder + '/stdout', 'w').write('\n'.join(v.lines) + '\n')
    kinds = {}
    for line in v.lines:
        key = ' '.join(line.split()[:3]) if 'refused' in line else line.split()[0] + ' served'
        kinds[key] = kinds.get(key, 0) + 1
    for key in sorted(kinds):
        print(kinds[key], key)
    # update and scan are met with each of their numbers; a damaged record is none of a scan's
    assert {key for key in kinds if key[0] == '2'} == {'2 served'} | {'2 refused %d' % number for number in (1, 2, 3, 4, 11, 12, 14)}
    assert {key for key in kinds if key[0] == '3'} == {'3 served'} | {'3 refused %d' % number for number in (1, 2, 4, 14)}


if __name__ == '__main__':
    main(sys.argv[1])
