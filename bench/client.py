#!/usr/bin/env python3
"""An independent account of the client of documents 01 and 02 (i), (k), and the vectors that the proved one is held to.

    client.py FOLDER    writes FOLDER/stdin (calls, in binary) and FOLDER/stdout (what each must print)

Written from document 01 and the source's Algorithms 1 and 2, with the bytes of records, messages and rooms from docs/DECISIONS.md (21 to 33) and the
record's layout from crates/parties/specs/protocol/Client.antt. It shares no code with the definitions or the proved client, joins pieces by Lagrange's form
and takes SHA-256 from Python; directory and nodes are reference.py's.
By document 02 (i) a digest is taken over version, node and piece, in deposits and in readings; one over the piece alone, as before, never matches.
Eight records of 71,680 bytes, at first `poison`, are kept from call to call: step (1 byte), reading index (4), then the area. A call in stdin, high
bytes first: kind (1 byte), whether the record after it is kept (1), the record's number (1), m n k t F, the client's and the node's number (2 each),
the lengths lent of the area, of a room and of an output filled with `poison` (4 each), a place of the record (4) and what its byte is changed by (1;
exclusive or), the data's length (4) and bytes: a page, rows or a message. Kinds: 1 a fresh record, 2 a deposit starts, 3 a reading starts, 4 an
update's answer, 5 a scan's answer, 6 a message, 7 the data becomes the record's front and nothing is called. A line of stdout: the kind, the answer,
step and reading index after the call, and the sums of area, room and output after it."""
import functools
import hashlib
import random
import struct
import sys

import reference
from reference import NONE, Broken, Input, Measures, Refused, all_belong, others, owned, read_pointer, read_rows, read_version, some_pointer, \
    spoiled, write_fields, write_pointer, write_row

checksum, poison = functools.lru_cache(9999)(reference.checksum), functools.lru_cache(None)(reference.poison)
SLOT = 71680
LAST = 2 ** 32 - 1
IDLE, SCANNING, STORING, UPDATING, FREEZING, RAISING, PICKING, FETCHING = range(8)


def pointer_size(s):
    return 7 + 32 * (s.t + s.k)


def work_size(s):
    return pointer_size(s) + 4 + s.n * (34 + s.f)


def area_size(s):
    return (s.m + 1) * pointer_size(s) + 9 * s.m + work_size(s)


def room_size(s):
    return s.row() + 6 + s.n * s.f


def longest(s):
    return s.k * s.f - 4


# Pieces


def times(a, b):
    """The product of polynomials, and its remainder by hex 11D."""
    p = 0
    for i in range(8):
        if b >> i & 1:
            p ^= a << i
    for i in range(14, 7, -1):
        if p >> i & 1:
            p ^= 0x11D << i - 8
    return p


@functools.lru_cache(None)
def multiples(a):
    return bytes(times(a, b) for b in range(256))


@functools.lru_cache(None)
def power(a, r):
    return 1 if r == 0 else times(a, power(a, r - 1))


def weighed(weights, rows):
    """The sum of rows of bytes, each times its weight."""
    total = 0
    for w, row in zip(weights, rows):
        total ^= int.from_bytes(row.translate(multiples(w)), 'big')
    return total.to_bytes(len(rows[0]), 'big')


def cut(s, page):
    frame = struct.pack('>I', len(page)) + page
    frame += bytes(-len(frame) % s.k)
    columns = [frame[r::s.k] for r in range(s.k)]
    return [weighed([power(i, r) for r in range(s.k)], columns) for i in range(1, s.n + 1)]


def lagrange(nodes, i):
    """Coefficients, lowest first, of the polynomial that is 1 at node i and 0 at the others."""
    p, scale = [1], 1
    for x in nodes:
        if x != i:
            p = [times(a, x) ^ b for a, b in zip(p + [0], [0] + p)]
            scale = times(scale, i ^ x)
    return [times(a, power(scale, 254)) for a in p]


def join(s, pieces):
    """The page of pieces at k nodes; they or their frame may be broken."""
    nodes = sorted(pieces)
    length = len(pieces[nodes[0]])
    if any(len(p) != length for p in pieces.values()) or not 1 <= length <= s.f:
        raise Broken
    weights = [lagrange(nodes, i) for i in nodes]
    columns = [weighed([w[r] for w in weights], [pieces[i] for i in nodes]) for r in range(s.k)]
    frame = bytes(c[j] for j in range(length) for c in columns)
    if len(frame) < 4:
        raise Broken
    size = int.from_bytes(frame[:4], 'big')
    filling = frame[4 + size:]
    if 4 + size > len(frame) or len(filling) >= s.k or any(filling):
        raise Broken
    return frame[4:4 + size]


def digest(version, node, piece):
    """Of a piece in its place: the version (5 bytes), the node (1), the piece."""
    return hashlib.sha256(struct.pack('>IBB', *version, node) + piece).digest()


# The record


class Client:
    """`work` goes by the step: a page; version, acknowledged and digests; a pointer; pointer, counted, matching and pieces. Maps are sets of nodes."""

    def __init__(self, step, reading, written, frozen, reserved, indices, work=None):
        self.step, self.reading, self.work = step, reading, work
        self.written, self.frozen, self.reserved, self.indices = written, frozen, reserved, indices


def fresh(s):
    return Client(IDLE, 0, NONE, [NONE] * s.m, [NONE[:2]] * s.m, [0] * s.m)


def read_map(i):
    bits = i.number(2)
    return {node for node in range(1, 17) if bits >> node - 1 & 1}


def write_map(nodes):
    return struct.pack('>H', sum(1 << node - 1 for node in nodes))


def write_version(v):
    return struct.pack('>IB', *v)


def read_area(i, size, read):
    part = Input(i.take(size))
    x = read(part)
    if any(part.data[part.at:]):
        raise Broken
    return x


def read_reserved(s, i):
    if i.data[i.at:i.at + 5] == write_version(NONE[:2]):
        i.take(5)
        return NONE[:2]
    return read_version(s, i)


def read_work(s, step, i):
    if step in (IDLE, RAISING, PICKING):
        return None
    if step == SCANNING:
        n = i.number(4)
        if n > longest(s):
            raise Broken
        return i.take(n)
    if step == STORING:
        version, acknowledged = read_version(s, i), read_map(i)
        if len(acknowledged) >= s.t + s.k or any(node > s.n for node in acknowledged):
            raise Broken
        return [version, acknowledged, [i.take(32) for _ in range(s.n)]]
    if step not in (UPDATING, FREEZING, FETCHING):
        raise Broken
    pointer = read_pointer(s, i)
    if pointer == NONE:
        raise Broken
    if step != FETCHING:
        return pointer
    counted, matching = read_map(i), read_map(i)
    if len(matching) >= s.k or any(node > s.n for node in matching):
        raise Broken
    sizes = [i.number(2) for _ in range(s.n)]
    if any(size > s.f for size in sizes):
        raise Broken
    return [pointer, counted, matching, [read_area(i, s.f, lambda j: j.take(size)) for size in sizes]]


def write_work(s, step, work):
    if step in (IDLE, RAISING, PICKING):
        return b''
    if step == SCANNING:
        return struct.pack('>I', len(work)) + work
    if step == STORING:
        return write_version(work[0]) + write_map(work[1]) + b''.join(work[2])
    if step != FETCHING:
        return write_pointer(work)
    pointer, counted, matching, pieces = work
    return (write_pointer(pointer) + write_map(counted) + write_map(matching) + b''.join(struct.pack('>H', len(p)) for p in pieces)
            + b''.join(p.ljust(s.f, b'\0') for p in pieces))


def read_client(s, record):
    i = Input(record[:5 + area_size(s)])
    step, reading = i.number(1), i.number(4)
    pointers = [read_area(i, pointer_size(s), lambda j: read_pointer(s, j)) for _ in range(s.m + 1)]
    reserved = [read_reserved(s, i) for _ in range(s.m)]
    indices = [i.number(4) for _ in range(s.m)]
    return Client(step, reading, pointers[0], pointers[1:], reserved, indices, read_area(i, work_size(s), lambda j: read_work(s, step, j)))


def write_client(s, c):
    out = struct.pack('>BI', c.step, c.reading)
    for p in [c.written] + c.frozen:
        out += write_pointer(p).ljust(pointer_size(s), b'\0')
    out += b''.join(write_version(v) for v in c.reserved) + b''.join(struct.pack('>I', x) for x in c.indices)
    return out + write_work(s, c.step, c.work).ljust(work_size(s), b'\0')


# Events: each gives the answer, the record, the room and the output


def shown(version):
    return '%d.%d' % version


def front(data, new):
    return new + data[len(new):]


def admitted(s, record, slices, numbers):
    if not s.proper():
        raise Refused(1)
    if len(record) < 5 + area_size(s) or any(len(x) < size for x, size in slices):
        raise Refused(2)
    if not numbers:
        raise Refused(3)
    try:
        return read_client(s, record)
    except Broken:
        raise Refused(4)


def fresh_client(s, own, node, record, data, room, out):
    if not s.proper():
        raise Refused(1)
    if len(record) < 5 + area_size(s):
        raise Refused(2)
    return 'waits', front(record, write_client(s, fresh(s))), room, out


def start_deposit(s, own, node, record, page, room, out):
    c = admitted(s, record, [], own < s.m)
    if c.step != IDLE:
        raise Refused(5)
    if len(page) > longest(s):
        raise Refused(6)
    c.step, c.work = SCANNING, page
    return 'scan', front(record, write_client(s, c)), room, out


def start_reading(s, own, node, record, data, room, out):
    c = admitted(s, record, [(room, room_size(s))], own < s.m)
    if c.step != IDLE:
        raise Refused(5)
    if c.reading == LAST:
        raise Refused(7)
    c.step, c.reading = RAISING, c.reading + 1
    update = write_fields([None, None, None, [c.reading]])
    return 'update %d' % len(update), front(record, write_client(s, c)), front(room, update), out


def update_answer(s, own, node, record, data, room, out):
    c = admitted(s, record, [(room, room_size(s))], own < s.m)
    if c.step not in (UPDATING, RAISING):
        raise Refused(5)
    c.step += 1
    return 'scan', front(record, write_client(s, c)), room, out


def draw(s, own, c, rows, room):
    """A deposit's first scan."""
    highest = max(written[0] for (written,), _, _, _ in rows)
    page, c.step, c.work = c.work, IDLE, None
    if highest == LAST:
        return 'spent', room
    version, pieces = (highest + 1, own), cut(s, page)
    c.step, c.work = STORING, [version, set(), [digest(version, i, p) for i, p in enumerate(pieces, 1)]]
    room = front(room, b'\1' + write_version(version))
    for i, p in enumerate(pieces):
        at = 6 + i * s.f
        room = room[:at] + p + room[at + len(p):]
    return 'stores %s %d' % (shown(version), len(pieces[0])), room


def freeze(s, own, c, rows, room):
    """A deposit's second scan, at which it ends."""
    pointer, previous = c.work, c.written
    free = {previous[:2]}
    for p, (_, _, _, (reading,)) in enumerate(rows):
        if p != own and reading > c.indices[p]:
            free |= {c.frozen[p][:2], c.reserved[p]}
            c.frozen[p], c.reserved[p], c.indices[p] = pointer, previous[:2], reading
    free -= {p[:2] for p in c.frozen} | set(c.reserved) | {NONE[:2]}
    message = b'\3' + b''.join(write_version(x) for x in sorted(free))
    c.step, c.work, c.written = IDLE, None, pointer
    return 'deposited %s %d' % (shown(pointer[:2]), len(message)), front(room, message)


def pick(s, own, c, rows, room):
    """A reading's scan."""
    best = NONE
    for (written,), frozen, indices, _ in rows:
        p = written if c.reading > indices[own] else frozen[own]
        if p != NONE and (best == NONE or p[:2] > best[:2]):
            best = p
    if best == NONE:
        c.step = IDLE
        return 'empty', room
    c.step, c.work = FETCHING, [best, set(), set(), [b''] * s.n]
    return 'requests %s %d' % (shown(best[:2]), best[2]), front(room, b'\2' + write_version(best[:2]))


def scan_answer(s, own, node, record, data, room, out):
    c = admitted(s, record, [(data, s.directory()), (room, room_size(s))], own < s.m)
    try:
        rows = read_rows(s, data)
    except Broken:
        raise Refused(4)
    if not all_belong(rows):
        raise Refused(14)
    steps = {SCANNING: draw, FREEZING: freeze, PICKING: pick}
    if c.step not in steps:
        raise Refused(5)
    what, room = steps[c.step](s, own, c, rows, room)
    return what, front(record, write_client(s, c)), room, out


def acknowledge(s, node, c, version, room):
    drawn, acknowledged, digests = c.work
    if version != drawn or node in acknowledged:
        return 'waits', room
    acknowledged.add(node)
    if len(acknowledged) < s.t + s.k:
        return 'waits', room
    nodes = sorted(acknowledged)
    pointer = (*drawn, sum(1 << i - 1 for i in nodes), [digests[i - 1] for i in nodes])
    c.step, c.work = UPDATING, pointer
    update = write_fields([[pointer], c.frozen, c.indices, None])
    return 'update %d' % len(update), front(room, update)


def reply(s, node, c, version, piece, out):
    pointer, counted, matching, pieces = c.work
    named = read_map(Input(struct.pack('>H', pointer[2])))
    if version != pointer[:2] or node not in named or node in counted:
        return 'waits', out
    counted.add(node)
    if piece is not None and 1 <= len(piece) <= s.f and digest(version, node, piece) == pointer[3][sorted(named).index(node)]:
        matching.add(node)
        pieces[node - 1] = piece
        if len(matching) == s.k:
            try:
                page = join(s, {i: pieces[i - 1] for i in matching})
            except Broken:
                raise Refused(4)
            c.step, c.work = IDLE, None
            return 'page %s %d' % (shown(version), len(page)), front(out, page)
    if named <= counted:
        c.step, c.work = IDLE, None
        return 'failed', out
    return 'waits', out


def read_answer(s, data):
    i = Input(data)
    kind, version, piece = i.number(1), None, None
    if kind == 4:
        version = read_version(s, i)
    elif kind == 6:
        version, held = read_version(s, i), i.number(1)
        if held > 1:
            raise Broken
        if held:
            piece = i.take(len(data) - i.at)
    elif kind != 5:
        raise Broken
    i.end()
    return kind, version, piece


def message(s, own, node, record, data, room, out):
    c = admitted(s, record, [(room, room_size(s)), (out, longest(s))], own < s.m and 1 <= node <= s.n)
    try:
        kind, version, piece = read_answer(s, data)
    except Broken:
        raise Refused(4)
    what = 'waits'
    if kind == 4 and c.step == STORING:
        what, room = acknowledge(s, node, c, version, room)
    if kind == 6 and c.step == FETCHING:
        what, out = reply(s, node, c, version, piece, out)
    return what, front(record, write_client(s, c)), room, out


FRESH, DEPOSIT, READING, UPDATED, SCANNED, MESSAGE, PUT = range(1, 8)
CALLS = {FRESH: fresh_client, DEPOSIT: start_deposit, READING: start_reading, UPDATED: update_answer, SCANNED: scan_answer, MESSAGE: message}


class Vectors:
    def __init__(self):
        self.calls, self.lines, self.records = [], [], [poison(SLOT)] * 8

    def add(self, kind, s, own, data=b'', node=1, keep=False, record=None, damage=(0, 0), short=(0, 0, 0)):
        """The answer; `short` says by how much each of area, room and output is shorter than needed. What was lent after it is in `room` and `out`."""
        number = min(own, 7) if record is None else record
        sizes = [area_size(s), room_size(s) if kind > DEPOSIT else 0, longest(s) if kind == MESSAGE else 0]
        area, room, out = (max(size - less, 0) for size, less in zip(sizes, short))
        self.calls.append(struct.pack('>BBB7H4IBI', kind, keep, number, s.m, s.n, s.k, s.t, s.f, own, node, area, room, out, *damage, len(data)) + data)
        whole = spoiled(self.records[number], damage)
        before, self.room, self.out = whole[:5 + area], poison(room), poison(out)
        try:
            what, after, self.room, self.out = CALLS[kind](s, own, node, before, data, self.room, self.out)
        except Refused as r:
            what, after = 'refused %d' % r.number, before
        step, reading = struct.unpack('>BI', after[:5])
        self.lines.append('%d %s %d %d %d %d %d' % (kind, what, step, reading, checksum(after[5:]), checksum(self.room), checksum(self.out)))
        if keep:
            self.records[number] = after + whole[5 + area:]
        return what

    def put(self, s, number, data):
        self.calls.append(struct.pack('>BBB7H4IBI', PUT, 1, number, s.m, s.n, s.k, s.t, s.f, 0, 0, 0, 0, 0, 0, 0, len(data)) + data)
        self.records[number] = front(self.records[number], data)

    def step(self, c):
        return self.records[c][0]


def stored(version):
    return b'\4' + write_version(version)


def replied(version, piece):
    return b'\6' + write_version(version) + (b'\0' if piece is None else b'\1' + piece)


def rows_of(s, rows):
    return b''.join(write_row(s, row) for row in rows)


# Whole operations


class Stand:
    """Clients with their directory and nodes. Messages to a node keep their order; `under_way` has the nodes' answers."""

    def __init__(self, v, r, s, liars=()):
        self.v, self.r, self.s, self.liars = v, r, s, liars
        self.directory = reference.fresh_directory(s, 0, poison(s.directory()), b'', b'')[1]
        self.tables = {i: reference.fresh_table(s, 0, poison(s.table()), b'', b'')[1] for i in range(1, s.n + 1)}
        self.queues = {(c, i): [] for c in range(s.m) for i in range(1, s.n + 1)}
        self.under_way, self.past, self.calls, self.pages, self.open, self.results = [], [], {}, {}, {}, []
        for c in range(s.m):
            v.add(FRESH, s, c, keep=True, short=(-3, -1, -1))

    def after(self, c, what):
        """Sends what a client's event has in its room."""
        words, room = what.split(), self.v.room
        if words[0] == 'scan':
            self.calls[c] = None
        elif words[0] == 'update':
            self.calls[c] = room[:int(words[1])]
        elif words[0] == 'stores':
            self.pages[words[1]] = self.open[c]
            for i in range(1, self.s.n + 1):
                at = 6 + (i - 1) * self.s.f
                self.queues[c, i].append(room[:6] + room[at:at + int(words[2])])
        elif words[0] == 'requests':
            for i in range(1, self.s.n + 1):
                if int(words[2]) >> i - 1 & 1:
                    self.queues[c, i].append(room[:6])
        elif words[0] == 'deposited':
            for i in range(1, self.s.n + 1):
                self.queues[c, i].append(room[:int(words[2])])
        elif words[0] == 'page':
            assert self.v.out[:int(words[2])] == self.pages[words[1]]
        if words[0] in ('deposited', 'page', 'empty', 'failed', 'spent'):
            self.results.append(what)
        return what

    def deposit(self, c, page):
        self.open[c] = page
        return self.after(c, self.v.add(DEPOSIT, self.s, c, page, keep=True))

    def reading(self, c):
        return self.after(c, self.v.add(READING, self.s, c, keep=True))

    def answer(self, c):
        """The directory carries out the call of client c, and its answer is handed over."""
        update = self.calls.pop(c)
        if update is None:
            return self.after(c, self.v.add(SCANNED, self.s, c, self.directory, keep=True))
        self.directory = reference.update(self.s, c, self.directory, update, b'')[1]
        return self.after(c, self.v.add(UPDATED, self.s, c, keep=True))

    def serve(self, c, i):
        """Node i takes a message of client c."""
        got = self.queues[c, i].pop(0)
        if i in self.liars:
            self.under_way.append((c, i, self.lie(got)))
            return
        n, self.tables[i], room = reference.node(self.s, i, self.tables[i], got, bytes(7 + self.s.f))
        self.under_way.append((c, i, room[:n]))

    def lie(self, got):
        if got[0] != 2:
            return stored(read_version(self.s, Input(got[1:]))) if got[0] == 1 else b'\5'
        version = read_version(self.s, Input(got[1:]))
        return replied(version, self.r.choice([None, b'', self.r.randbytes(self.s.f), bytes(self.s.f + 1), self.r.randbytes(1)]))

    def serve_all(self, c, nodes=None):
        for i in nodes or range(1, self.s.n + 1):
            while self.queues[c, i]:
                self.serve(c, i)

    def hand(self, at):
        c, i, data = self.under_way.pop(at)
        self.past.append((c, i, data))
        return self.after(c, self.v.add(MESSAGE, self.s, c, data, i, keep=True))

    def hand_while(self, c, step, nodes=None):
        """Answers under way to client c, in the order of these nodes, as long as it stands at this step."""
        for i in nodes or range(1, self.s.n + 1):
            at = 0
            while at < len(self.under_way):
                if self.under_way[at][:2] == (c, i) and self.v.step(c) == step:
                    self.hand(at)
                else:
                    at += 1

    def order(self):
        return self.r.sample(range(1, self.s.n + 1), self.s.n)

    def all_of_deposit(self, c, page):
        assert self.deposit(c, page) == 'scan'
        self.answer(c)
        self.serve_all(c)
        self.hand_while(c, STORING, self.order())
        assert self.answer(c) == 'scan'
        what = self.answer(c)
        self.serve_all(c)
        self.hand_while(c, IDLE)
        return what

    def rest_of_reading(self, c):
        what = self.answer(c)
        if what != 'empty':
            self.serve_all(c)
            self.hand_while(c, FETCHING, self.order())
            self.hand_while(c, IDLE)
        return what

    def all_of_reading(self, c):
        self.reading(c)
        self.answer(c)
        return self.rest_of_reading(c)


def some_page(s, r):
    return r.randbytes(r.choice([0, min(1, longest(s)), longest(s), r.randint(0, longest(s))]))


def wander(v, r, s, turns, liars=()):
    """Operations of all clients at once, in any order, with answers repeated and handed to others."""
    w = Stand(v, r, s, liars)
    for _ in range(turns):
        c = r.randrange(s.m)
        queued = [key for key, messages in w.queues.items() if messages]
        x = r.random()
        if x < 0.05 and w.past:
            d, i, data = r.choice(w.past)
            if x < 0.025:
                v.add(MESSAGE, s, r.randrange(s.m), data, r.randint(1, s.n))
            elif r.random() < 0.5 and v.step(d) != FETCHING:
                w.after(d, v.add(MESSAGE, s, d, data, i, keep=True))
        elif x < 0.07:
            v.add(r.choice([DEPOSIT, READING, UPDATED]), s, c, keep=False)
        elif x < 0.4 and queued:
            w.serve(*r.choice(queued))
        elif x < 0.7 and w.under_way:
            d, i, _ = r.choice(w.under_way)
            w.hand(next(at for at, m in enumerate(w.under_way) if m[:2] == (d, i)))
        elif c in w.calls:
            w.answer(c)
        elif v.step(c) == IDLE and r.random() < 0.5:
            w.deposit(c, some_page(s, r))
        elif v.step(c) == IDLE:
            w.reading(c)
    if len(liars) <= s.t:
        assert 'failed' not in w.results
    return w


# Probes: calls at one record, which stays as it is


def messages_about(s, r, record):
    """Well-formed messages: of the version that the record is about and others, from the expected bytes to none."""
    versions = [(1, 0), (2, 0), (LAST, s.m - 1), (5, s.m - 1)]
    work = read_client(s, record).work
    if record[0] in (UPDATING, FREEZING):
        versions.append(work[:2])
    if record[0] == STORING:
        versions.append(work[0])
    if record[0] == FETCHING:
        versions.append(work[0][:2])
    out = [b'\5']
    for version in versions:
        out += [stored(version), replied(version, None), replied(version, b''), replied(version, r.randbytes(s.f)), replied(version, bytes(s.f + 1))]
    return out


BROKEN = [b'', b'\0', b'\1', b'\1\0\0\0\1\0x', b'\2\0\0\0\1\0', b'\3', b'\4', b'\4\0\0\0\1', b'\4\0\0\0\0\0', b'\4\0\0\0\1\xff', b'\4\0\0\0\0\xff',
          b'\4\0\0\0\1\0\0', b'\5\0', b'\6', b'\6\0\0\0\1\0', b'\6\0\0\0\1', b'\6\0\0\0\1\0\2', b'\6\0\0\0\1\0\0\0', b'\6\0\0\0\0\0\0',
          b'\6\0\0\0\1\x08\1x', b'\6\0\0\0\1\0\xffx', b'\7', b'\xff']


def known_places(s, r):
    """Places of the record: of each kind of field its first, inner and last bytes, and the spare ones."""
    p, w = pointer_size(s), 5 + area_size(s) - work_size(s)
    out = [0, 1, 4]
    for at in [5, 5 + p, 5 + s.m * p, w]:
        out += [at, at + 3, at + 4, at + 5, at + 6, at + 7, at + p - 1]
    for at in (5 + (s.m + 1) * p, 5 + (s.m + 1) * p + 5 * (s.m - 1)):
        out += [at, at + 3, at + 4]
    out += [w - 1, w - 4, w + 8, w + p, w + p + 1, w + p + 2, w + p + 3, w + p + 4, w + p + 5, w + p + 4 + 2 * s.n, 4 + area_size(s)]
    return sorted(set(out + [r.randrange(5 + area_size(s)) for _ in range(12)]))


def expected(step):
    """The kind of event that a record at this step awaits."""
    return {IDLE: READING, SCANNING: SCANNED, UPDATING: UPDATED, FREEZING: SCANNED, RAISING: UPDATED, PICKING: SCANNED}.get(step, MESSAGE)


def probe_turns(v, r, s, c, rows):
    """Each event at this step, short slices, numbers out of bounds, and all of them together with damage: the lowest number."""
    record = v.records[c][:5 + area_size(s)]
    data = {DEPOSIT: b'', SCANNED: rows, MESSAGE: b'\5'}
    for n in (0, longest(s), longest(s) + 1):
        v.add(DEPOSIT, s, c, r.randbytes(n))
    for kind in (READING, UPDATED, SCANNED):
        v.add(kind, s, c, data.get(kind, b''), short=(-2, -3, -1))
    for m in messages_about(s, r, record):
        for node in sorted({1, s.n}):
            v.add(MESSAGE, s, c, m, node, short=r.choice([(0, 0, 0), (-1, -1, -1)]))
    for m in BROKEN:
        v.add(MESSAGE, s, c, m)
    broken = (5, 255)
    for kind in range(DEPOSIT, PUT):
        d = data.get(kind, b'')
        for own in (s.m, 255, 65535):
            v.add(kind, s, own, d, record=c, damage=broken)
        for i in range(3):
            if (kind > DEPOSIT or i == 0) and (kind == MESSAGE and longest(s) or i < 2):
                v.add(kind, s, s.m, d, record=c, node=0, short=[int(i == j) for j in range(3)])
                v.add(kind, s, c, d, short=[int(i == j) for j in range(3)], keep=True)
        v.add(kind, Measures(s.m, s.n, s.k, s.n, s.f), s.m, d, record=c, short=(10 ** 6,) * 3)
    v.add(SCANNED, s, c, rows[:-1])
    v.add(SCANNED, s, s.m, rows[:-1], record=c)
    v.add(SCANNED, s, c, rows + b'\xff')
    v.add(SCANNED, s, c, spoiled(rows, (0, 16)))
    v.add(DEPOSIT, s, c, bytes(longest(s) + 1), damage=broken)
    for node in (0, s.n + 1, 65535):
        v.add(MESSAGE, s, c, b'\0', node, damage=broken)


def probe_damage(v, r, s, c, rows, stride):
    """A damaged record, and rows that are damaged."""
    kind = expected(v.step(c))
    data = {SCANNED: rows, MESSAGE: b'\5'}.get(kind, b'')
    places = known_places(s, r)
    for place in places if len(data) < 1000 else r.sample(places, 12):
        v.add(kind, s, c, data, damage=(place, r.choice([1, 2, 16, 128, 255])))
    for place in sorted({*places, *range(r.randrange(stride), 5 + area_size(s), stride)}):
        v.add(MESSAGE, s, c, b'\5', damage=(place, r.choice([1, 4, 64, 255])))
    for step in range(1, 9):
        v.add(MESSAGE, s, c, b'\5', damage=(0, step))
    v.add(DEPOSIT, s, c, damage=(5 + area_size(s) - 1, 1))
    if kind == SCANNED:
        row, p = s.row(), pointer_size(s)
        places = {0, 1, 4, 5, 6, 7, 8, p, p + 1, p + 5, 1 + 7 * (s.m + 1), row - 1, row - 8, row, row + 5, s.directory() - 1, s.directory() - 9}
        for place in sorted(places | {r.randrange(len(rows)) for _ in range(6)}):
            if place < len(rows):
                v.add(SCANNED, s, c, spoiled(rows, (place, r.choice([1, 8, 255]))))


def probed(v, r, s, stride):
    """One client's operations, looked at from all sides at each step."""
    w = Stand(v, r, s)
    c, other = 0, s.m - 1

    def look():
        if s.n < 5 or v.step(c) in (STORING, PICKING, FETCHING):
            probe_turns(v, r, s, c, w.directory)
            probe_damage(v, r, s, c, w.directory, stride)
        for d, i, data in w.under_way[:3]:
            for place in range(len(data)):
                v.add(MESSAGE, s, d, spoiled(data, (place, r.choice([1, 2, 255]))), i)

    w.all_of_deposit(c, b'')
    w.all_of_reading(other)
    look()
    w.deposit(c, r.randbytes(longest(s)))
    look()
    w.answer(c)
    w.serve_all(c)
    if s.t + s.k > 1:
        w.hand_while(c, STORING, [1])
    look()
    w.hand_while(c, STORING, w.order())
    look()
    w.answer(c)
    look()
    if other != c:
        w.reading(other)
        w.answer(other)
    w.answer(c)
    w.serve_all(c)
    w.hand_while(c, IDLE)
    if other != c:
        w.rest_of_reading(other)
    w.reading(c)
    look()
    w.answer(c)
    look()
    w.answer(c)
    w.serve_all(c)
    if s.k > 1:
        w.hand(0)
    look()
    w.hand_while(c, FETCHING)


# Cases put together by hand


def pointer_to(s, version, nodes, pieces):
    """Pieces go by node."""
    return (*version, sum(1 << i - 1 for i in nodes), [digest(version, i, pieces[i]) for i in sorted(nodes)])


def reading_at(v, s, c, pointer):
    """Client c, fresh, reads and picks this pointer."""
    v.add(FRESH, s, c, keep=True)
    v.add(READING, s, c, keep=True)
    v.add(UPDATED, s, c, keep=True)
    rows = [reference.fresh_row(s) for _ in range(s.m)]
    rows[pointer[1]][0] = [pointer]
    assert v.add(SCANNED, s, c, rows_of(s, rows), keep=True).startswith('requests')


def replies(v, s, c, version, pairs):
    what = None
    for i, piece in pairs:
        what = v.add(MESSAGE, s, c, replied(version, piece), i, keep=True)
    return what


def framed(s, frame):
    """Pieces of bytes that are no sound frame, of a length that k divides."""
    columns = [frame[r::s.k] for r in range(s.k)]
    return {i: weighed([power(i, r) for r in range(s.k)], columns) for i in range(1, s.n + 1)}


def failing(v, r, s):
    """9: every named node's reply counts, and fewer than k match."""
    version = (7, 0)
    pieces = dict(enumerate(cut(s, r.randbytes(min(5, longest(s)))), 1))
    nodes = sorted(r.sample(range(1, s.n + 1), s.t + s.k))
    wrong = [lambda i: None, lambda i: b'', lambda i: bytes(s.f + 1), lambda i: bytes(300), lambda i: spoiled(pieces[i], (0, 1)),
             lambda i: pieces[i][:-1], lambda i: pieces[i] + b'\0', lambda i: pieces[i % s.n + 1]]
    for turn in range(len(wrong) + 4):
        reading_at(v, s, 0, pointer_to(s, version, nodes, pieces))
        good = set(r.sample(nodes, s.k - 1 if turn % 2 else 0))
        pairs = []
        for i in r.sample(nodes, len(nodes)):
            piece = pieces[i] if i in good else (wrong[turn] if turn < len(wrong) else r.choice(wrong))(i)
            pairs.append((i, piece if i in good or piece != pieces[i] else None))
        last = pairs[-1][0]
        for i, piece in pairs[:-1]:
            replies(v, s, 0, version, [(i, piece)])
            v.add(MESSAGE, s, 0, replied(version, pieces[i]), i)
        v.add(MESSAGE, s, 0, replied((8, 0), pieces[last]), last)
        v.add(MESSAGE, s, 0, replied((7, s.m - 1), pieces[last]), last)
        for i in set(range(1, s.n + 1)) - set(nodes):
            v.add(MESSAGE, s, 0, replied(version, pieces[i]), i)
        v.add(MESSAGE, s, 0, replied(version, pieces[last]), last)
        assert replies(v, s, 0, version, pairs[-1:]) == 'failed'
        v.add(MESSAGE, s, 0, replied(version, pieces[last]), last)


def outside(v, r, s):
    """Pieces of 0 or over F bytes whose digests are the pointer's: no match."""
    version, nodes = (6, s.m - 1), r.sample(range(1, s.n + 1), s.t + s.k)
    good = dict(enumerate(cut(s, r.randbytes(min(2, longest(s)))), 1))
    for piece in (b'', bytes(s.f + 1), r.randbytes(s.f + 1), r.randbytes(s.f + 20)):
        for many in (s.t, s.t + 1, s.t + s.k):
            pieces = {**good, **{i: piece for i in nodes[:many]}}
            reading_at(v, s, 0, pointer_to(s, version, nodes, pieces))
            what = replies(v, s, 0, version, [(i, pieces[i]) for i in nodes])
            assert what == 'failed' if many > s.t else what.startswith('page')


def broken_frames(s, r):
    """Frames of kL bytes that are not sound, as many as there are kinds of them at these measures."""
    length = max(s.f // 2, 1)
    room = s.k * length - 4
    out = [r.randbytes(s.k * length)]
    if s.k < 4:
        out.append(bytes(s.k))
    if room >= 0:
        out.append(struct.pack('>I', room + 1) + bytes(room))
        out.append(b'\xff' * 4 + bytes(room))
    if room >= s.k:
        out.append(struct.pack('>I', room - s.k) + bytes(room))
    if room >= 1 and s.k >= 2:
        out.append(struct.pack('>I', room - 1) + bytes(room - 1) + b'\1')
    return out


def not_joined(v, r, s):
    """The k-th match gives 4 and is not counted: the reading stays open, until 9 or a good piece ends it."""
    version, nodes = (9, 0), r.sample(range(1, s.n + 1), s.t + s.k)
    front_ones, rest = nodes[:s.k - 1], nodes[s.k - 1:]

    def refused(pieces, those):
        reading_at(v, s, 0, pointer_to(s, version, nodes, pieces))
        replies(v, s, 0, version, [(i, pieces[i]) for i in front_ones])
        for i in those:
            assert replies(v, s, 0, version, [(i, pieces[i])]) == 'refused 4'

    for frame in broken_frames(s, r):
        refused(framed(s, frame), rest)
        assert replies(v, s, 0, version, [(i, None) for i in rest]) == 'failed'
    good = dict(enumerate(cut(s, r.randbytes(min(3, longest(s)))), 1))
    for wrong in (lambda p: p[:-1], lambda p: p + b'\0', lambda p: spoiled(p, (0, 1))):
        pieces = {**good, **{i: wrong(good[i]) for i in rest[:-1]}}
        if s.t and all(1 <= len(p) <= s.f for p in pieces.values()):
            refused(pieces, rest[:-1])
            assert replies(v, s, 0, version, [(rest[-1], good[rest[-1]])]).startswith('page')
            v.add(MESSAGE, s, 0, replied(version, good[rest[-1]]), rest[-1])


def some_pointers(s, r, own):
    """The two fields of a sound row."""
    return [[owned(some_pointer(s, r), own) for _ in range(many)] for many in (1, s.m)]


def ties(v, r, s):
    """Equal highest sequences in two rows; frozen and written ones, by the index."""
    for turn in range(12 if s.n < 16 else 4):
        rows = [[*some_pointers(s, r, own), [r.choice([0, 1, 2, LAST]) for _ in range(s.m)], [r.randrange(3)]] for own in range(s.m)]
        if turn % 2:
            version = (r.choice([2, LAST]), r.randrange(s.m))
            for own, row in enumerate(rows):
                for field in row[:2]:
                    for i, p in enumerate(field):
                        if p != NONE and r.random() < 0.8:
                            # where the version is equal too, it is one row's and another client's in the others
                            field[i] = (*version, *p[2:]) if turn % 4 == 1 else (version[0], own, *p[2:])
        if turn % 6 == 0:
            for row in rows:
                row[0] = [NONE]
        for c in range(s.m):
            client = fresh(s)
            client.step, client.reading = PICKING, r.choice([1, 1, 2, LAST])
            v.put(s, c, write_client(s, client))
            v.add(SCANNED, s, c, rows_of(s, rows))


def last_numbers(v, r, s):
    """7, and the numbers before it."""
    for reading in (LAST - 1, LAST):
        client = fresh(s)
        client.reading, client.written = reading, some_pointer(s, r, 0)
        v.put(s, 0, write_client(s, client))
        v.add(READING, s, 0, keep=True)
        v.add(READING, s, 0)
        v.add(DEPOSIT, s, 0)
        v.add(UPDATED, s, 0, keep=True)
    for sequence in (LAST - 1, LAST):
        for row in range(s.m):
            for field in (0, 1):
                rows = [reference.fresh_row(s) for _ in range(s.m)]
                rows[0][0] = [(3, 0, *some_pointer(s, r, 0)[2:])]
                rows[row][field] = [(sequence, row, *some_pointer(s, r, 0)[2:])] * len(rows[row][field])
                client = some_client(s, r, IDLE)
                v.put(s, 0, write_client(s, client))
                v.add(DEPOSIT, s, 0, some_page(s, r), keep=True)
                v.add(SCANNED, s, 0, rows_of(s, rows), keep=True)
                v.add(DEPOSIT, s, 0)


def some_version(s, r):
    return r.choice([NONE[:2], (r.choice([1, 2, 3, 256, LAST]), r.randrange(s.m))])


def some_client(s, r, step):
    """Any record of its form at a step; the maps need not be ones that an operation comes to."""
    few = [some_pointer(s, r) for _ in range(3)]
    c = Client(step, r.choice([0, 1, 2, LAST]), r.choice(few), [r.choice(few + [some_pointer(s, r)]) for _ in range(s.m)],
               [r.choice([p[:2] for p in few] + [some_version(s, r)]) for _ in range(s.m)], [r.choice([0, 1, 2, LAST - 1, LAST]) for _ in range(s.m)])
    if step == SCANNING:
        c.work = some_page(s, r)
    if step == STORING:
        acknowledged = set(r.sample(range(1, s.n + 1), r.choice([s.t + s.k - 1, r.randrange(s.t + s.k)])))
        c.work = [(r.choice([1, 255, LAST]), r.randrange(s.m)), acknowledged, [r.randbytes(32) for _ in range(s.n)]]
    if step in (UPDATING, FREEZING):
        c.work = some_pointer(s, r, 0)
    if step == FETCHING:
        version = (r.choice([1, 256, LAST]), r.randrange(s.m))
        pieces = dict(enumerate(cut(s, some_page(s, r)), 1))
        nodes = r.sample(range(1, s.n + 1), s.t + s.k)
        matching = set(r.sample(range(1, s.n + 1), r.choice([s.k - 1, r.randrange(s.k)])))
        counted = {i for i in range(1, 17) if r.random() < 0.4} | (matching if r.random() < 0.8 else set())
        kept = [pieces[i] if i in matching and r.random() < 0.95 else r.choice([b'', pieces[i], r.randbytes(s.f)]) for i in range(1, s.n + 1)]
        c.work = [pointer_to(s, version, nodes, pieces), counted, matching, kept]
        c.pieces = pieces
    return c


def edges_of_form(v, r, s):
    """Records at the edges of their form: on one side 4, on the other none."""
    def look(step, field, value, at=None):
        c = some_client(s, r, step)
        if at is None:
            setattr(c, field, value)
        else:
            getattr(c, field)[at] = value
        v.put(s, 0, write_client(s, c))
        v.add(UPDATED, s, 0)
        v.add(MESSAGE, s, 0, b'\5')

    def first(n):
        return set(range(1, n + 1))

    many, beyond = s.t + s.k, s.n + 1
    bits, digests = (1 << many) - 1, [r.randbytes(32) for _ in range(many)]
    for p in [(0, 0, 0, []), (1, 255, 0, []), (0, 255, 1, []), (0, 0, bits, digests), (0, 255, bits, digests), (1, s.m, bits, digests), (1, 255, bits, digests),
              (1, 0, bits >> 1, digests[1:]), (1, 0, bits << 1 | 1, digests), (1, 0, bits >> 1 | 1 << s.n, digests), (1, 0, 0, []), (1, 0, bits, digests),
              (LAST, s.m - 1, bits << s.n - many, digests), NONE]:
        look(IDLE, 'written', p)
        look(IDLE, 'frozen', p, s.m - 1)
        for step in (UPDATING, FREEZING):
            look(step, 'work', p)
        look(FETCHING, 'work', p, 0)
    for version in [NONE[:2], (0, 0), (0, s.m - 1), (1, s.m), (1, 254), (1, 255), (1, s.m - 1), (LAST, 0)]:
        look(IDLE, 'reserved', version, s.m - 1)
        look(STORING, 'work', version, 0)
    for nodes in (first(many), first(many - 1), {beyond}, {16}, {beyond} | first(many - 2), set(range(s.n - many + 2, s.n + 1))):
        look(STORING, 'work', nodes, 1)
    for nodes in (first(s.k), first(s.k - 1), {beyond}, {16}, {beyond} | first(s.k - 2), set(range(s.n - s.k + 2, s.n + 1))):
        look(FETCHING, 'work', nodes, 2)
    for nodes in (set(), first(16), {beyond}):
        look(FETCHING, 'work', nodes, 1)
    for size in (0, 1, s.f, s.f + 1):
        look(FETCHING, 'work', [b''] * (s.n - 1) + [bytes(size)], 3)
    for size in (0, longest(s), longest(s) + 1):
        look(SCANNING, 'work', bytes(size))


def some_rows(s, r, c):
    """Rows of any kind, with reading indices about those that a client keeps."""
    return [[*some_pointers(s, r, p), [r.choice([0, 1, LAST]) for _ in range(s.m)],
             [r.choice([0, 1, LAST, min(LAST, c.indices[p] + r.randrange(2))])]] for p in range(s.m)]


def any_records(v, r, s, turns):
    """Each step from records of any kind."""
    for _ in range(turns):
        for step in range(8):
            own = r.randrange(s.m)
            c = some_client(s, r, step)
            v.put(s, own, write_client(s, c))
            kind = expected(step)
            if kind in (READING, UPDATED):
                v.add(kind, s, own, keep=True)
            elif kind == SCANNED:
                v.add(kind, s, own, rows_of(s, some_rows(s, r, c)), keep=True)
                v.add(DEPOSIT, s, own, some_page(s, r))
            elif step == STORING:
                for i in r.sample(range(1, s.n + 1), min(s.n, 6)):
                    v.add(MESSAGE, s, own, stored(c.work[0]), i)
                for i in r.sample(range(1, s.n + 1), s.n):
                    v.add(MESSAGE, s, own, stored(c.work[0]), i, keep=True)
            else:
                for i in r.sample(range(1, s.n + 1), s.n):
                    v.add(MESSAGE, s, own, replied(c.work[0][:2], r.choice([c.pieces[i]] * 4 + [None])), i, keep=True)


def free_lists(v, r, s, turns):
    """The second scan's list: of several clients, with repeats, all of it still frozen or reserved, empty, and the longest."""
    def second_scan(c, readings, own):
        rows = [reference.fresh_row(s) for _ in range(s.m)]
        for p in range(s.m):
            rows[p][3] = [readings[p]]
        v.put(s, own, write_client(s, c))
        return v.add(SCANNED, s, own, rows_of(s, rows), keep=True)

    def with_all(own, frozen, reserved, written, indices):
        new = (1000, own, *some_pointer(s, r, 0)[2:])
        pointers = [NONE if x == none else (*x, *some_pointer(s, r, 0)[2:]) for x in [written] + frozen]
        return Client(FREEZING, 1, pointers[0], pointers[1:], reserved, indices, new)

    none, ones = NONE[:2], [1] * s.m
    distinct = [(1 + r.randrange(900), r.randrange(s.m)) for _ in range(400)]
    distinct = list(dict.fromkeys(distinct))
    for own in sorted({0, s.m - 1}):
        for later in (2, LAST):
            assert second_scan(with_all(own, distinct[:s.m], distinct[20:20 + s.m], distinct[50], ones), [later] * s.m, own) \
                == 'deposited 1000.%d %d' % (own, 1 + 5 * (2 * s.m - 2))
        second_scan(with_all(own, distinct[:s.m], distinct[20:20 + s.m], distinct[50], ones), ones, own)
        assert second_scan(with_all(own, [none] * s.m, [none] * s.m, none, ones), [2] * s.m, own).endswith(' 1')
        second_scan(with_all(own, [none] * s.m, [none] * s.m, distinct[0], ones), [2] * s.m, own)
        second_scan(with_all(own, [none] * s.m, [none] * s.m, distinct[0], ones), [0] * s.m, own)
        second_scan(with_all(own, [distinct[0]] * s.m, [distinct[1]] * s.m, distinct[2], ones), [2] * s.m, own)
        second_scan(with_all(own, [distinct[0]] * s.m, [distinct[1]] * s.m, distinct[0], ones), [2 - p % 2 for p in range(s.m)], own)
    for _ in range(turns):
        few = r.sample(distinct, 4) + [none]
        own = r.randrange(s.m)
        c = with_all(own, [r.choice(few) for _ in range(s.m)], [r.choice(few) for _ in range(s.m)], r.choice(few), [r.choice([0, 1, 2]) for _ in range(s.m)])
        second_scan(c, [r.choice([0, 1, 2, 3]) for _ in range(s.m)], own)


def frozen_reading(v, r, s):
    """A slow reader, whose index a deposit keeps before two more come; its pointer is the frozen one."""
    w = Stand(v, r, s)
    writer, reader = 0, s.m - 1
    pages = [some_page(s, r) for _ in range(5)]
    w.all_of_deposit(writer, pages[0])
    w.reading(reader)
    w.answer(reader)
    for page in pages[1:4]:
        w.all_of_deposit(writer, page)
    assert w.rest_of_reading(reader).startswith('requests 2.')
    w.all_of_reading(reader)
    # the index is published, and kept between a deposit's update and its second scan
    w.deposit(writer, pages[4])
    w.answer(writer)
    w.serve_all(writer)
    w.hand_while(writer, STORING, w.order())
    w.answer(writer)
    w.reading(reader)
    w.answer(reader)
    w.answer(writer)
    assert w.rest_of_reading(reader).startswith('requests 5.')
    return w


def lives(v, r, s, turns):
    """Deposits of two or more writers and readings between them, one after another."""
    w = Stand(v, r, s)
    w.all_of_reading(0)
    for turn in range(turns):
        w.all_of_deposit(turn % s.m, [b'', r.randbytes(longest(s)), some_page(s, r)][turn % 3])
        v.add(DEPOSIT, s, turn % s.m, bytes(longest(s) + 1), keep=True)
        w.all_of_reading((turn + 1) % s.m)
        w.all_of_reading(turn % s.m)


# Rows with a pointer of another client


def with_pointer(rows, p, at, new):
    """Another pointer in row p, where place 0 is the written one's."""
    rows = [[list(field) for field in row] for row in rows]
    rows[p][min(at, 1)][max(at - 1, 0)] = new
    return rows


def places(s):
    """Of all pointers in rows."""
    return [(p, at) for p in range(s.m) for at in range(s.m + 1)]


def another(s, r, p):
    """A pointer that is not row p's."""
    return owned(some_pointer(s, r, 0), r.choice(others(s, p)))


def handed(v, s, own, rows, answer, **more):
    """Rows are handed over, and this comes of it."""
    what = v.add(SCANNED, s, own, rows_of(s, rows), **more)
    assert what.startswith(answer)
    return what


def at_each_step(v, r, s, owners, those, steps=range(8)):
    """14 for each pointer at these places, whether rows are awaited or not; the sound rows are then taken where they are."""
    for step in steps:
        for own in owners:
            c = some_client(s, r, step)
            rows = some_rows(s, r, c)
            v.put(s, own, write_client(s, c))
            for p, at in those:
                handed(v, s, own, with_pointer(rows, p, at, another(s, r, p)), 'refused 14', keep=True)
            assert (handed(v, s, own, rows, '', keep=True) == 'refused 5') == (expected(step) != SCANNED)


def of_no_client(v, r, s):
    """One client has no other: what is not its own breaks the rule."""
    for step in range(8):
        c = some_client(s, r, step)
        rows = some_rows(s, r, c)
        v.put(s, 0, write_client(s, c))
        for p, at in places(s):
            handed(v, s, 0, with_pointer(rows, p, at, owned(some_pointer(s, r, 0), s.m)), 'refused 4', keep=True)
        handed(v, s, 0, rows, '', keep=True)


def before_owners(v, r, s, step):
    """Beside the pointer of another client one breaks its rule, before it or after; then a row's map is wrong, or what comes before rows."""
    own, c = r.randrange(s.m), some_client(s, r, step)
    rows, order = some_rows(s, r, c), places(s)
    v.put(s, own, write_client(s, c))
    for i, (p, at) in enumerate(order):
        foreign = with_pointer(rows, p, at, another(s, r, p))
        for side in (order[:i], order[i + 1:]):
            if side:
                (q, other), good = r.choice(side), some_pointer(s, r, 0)
                wrong = r.choice([(0, q, *good[2:]), (5, s.m, *good[2:]), (0, 255, *good[2:]), (5, q, 0, []), (5, 255, 0, [])])
                handed(v, s, own, with_pointer(foreign, q, other, wrong), 'refused 4')
    data = rows_of(s, foreign)
    for row in range(s.m):
        assert v.add(SCANNED, s, own, spoiled(data, (row * s.row(), 16))) == 'refused 4'
    handed(v, s, own, foreign, 'refused 4', damage=(0, 8))
    handed(v, s, s.m, foreign, 'refused 3', record=own)
    for short in ((1, 0, 0), (0, 1, 0)):
        handed(v, s, own, foreign, 'refused 2', short=short)
    assert v.add(SCANNED, s, own, data[:-1]) == 'refused 2'
    assert v.add(SCANNED, Measures(s.m, s.n, s.k, s.n, s.f), own, data) == 'refused 1'
    handed(v, s, own, foreign, 'refused 14')


def spent_by_others(v, r, s):
    """The last sequence is in use, and a pointer is another client's, that one or another: 14. With the owners' pointers it is 7."""
    fresh_rows = [reference.fresh_row(s) for _ in range(s.m)]
    for p in range(s.m):
        v.put(s, p, write_client(s, some_client(s, r, IDLE)))
        v.add(DEPOSIT, s, p, some_page(s, r), keep=True)
        last = (LAST, p, *some_pointer(s, r, 0)[2:])
        rows = with_pointer(fresh_rows, p, 0, last)
        for c in others(s, p):
            handed(v, s, p, with_pointer(fresh_rows, p, 0, owned(last, c)), 'refused 14', keep=True)
            handed(v, s, p, with_pointer(fresh_rows, p, s.m, owned(last, c)), 'refused 14', keep=True)
            handed(v, s, p, with_pointer(rows, c, r.randrange(s.m + 1), last), 'refused 14', keep=True)
        handed(v, s, p, rows, 'spent', keep=True)
        v.add(DEPOSIT, s, p)


def picked_of_others(v, r, s, own):
    """The highest version is in another client's row, as written pointer or frozen, where it would be picked and where not."""
    for p in range(s.m):
        for index, at in ((0, 0), (1, 1 + own)):
            rows = [[[(2, q, *some_pointer(s, r, 0)[2:])], [(1, q, *some_pointer(s, r, 0)[2:]) for _ in range(s.m)], [index] * s.m, [0]]
                    for q in range(s.m)]
            client, high = fresh(s), (9, p, *some_pointer(s, r, 0)[2:])
            client.step, client.reading = PICKING, 1
            v.put(s, own, write_client(s, client))
            for c in others(s, p):
                handed(v, s, own, with_pointer(rows, p, at, owned(high, c)), 'refused 14', keep=True)
                handed(v, s, own, with_pointer(rows, p, 0 if at else 1 + own, owned(high, c)), 'refused 14', keep=True)
            handed(v, s, own, with_pointer(rows, p, at, high), 'requests 9.%d ' % p, keep=True)


class Mistaken(Stand):
    """Each answer of a scan comes with a pointer of another client first."""

    def answer(self, c):
        if self.calls[c] is None:
            rows, (p, at) = read_rows(self.s, self.directory), self.r.choice(places(self.s))
            handed(self.v, self.s, c, with_pointer(rows, p, at, another(self.s, self.r, p)), 'refused 14', keep=True)
        return super().answer(c)


def owner_vectors(v, r):
    """14, document 02 (k): rows with a pointer of another client."""
    of_no_client(v, r, Measures(1, 1, 1, 0, 4))
    two, three, eight = Measures(2, 1, 1, 0, 4), Measures(3, 1, 1, 0, 4), Measures(8, 2, 1, 0, 4)
    at_each_step(v, r, two, range(2), places(two))
    at_each_step(v, r, three, [1], places(three))
    at_each_step(v, r, eight, [6], [(0, 0), (7, 8)], (IDLE, SCANNING, FREEZING, PICKING))
    for step in range(8):
        before_owners(v, r, two, step)
    for step in (FREEZING, PICKING):
        before_owners(v, r, three, step)
    for s in (two, three):
        spent_by_others(v, r, s)
        picked_of_others(v, r, s, s.m - 1)
    w = Mistaken(v, r, Measures(2, 4, 2, 1, 8))
    for c in (0, 1, 0):
        assert w.all_of_deposit(c, some_page(w.s, r)).startswith('deposited')
        assert w.all_of_reading(1).startswith('requests')
    # the largest rows
    w = Mistaken(v, r, Measures(8, 16, 8, 4, 4096))
    w.reading(5)
    w.answer(5)
    assert w.answer(5) == 'empty'


# Digests that know their place


def place(version, i):
    """What stands before node i's piece where its digest is taken."""
    sequence, c = version
    return bytes([sequence >> 24, sequence >> 16 & 255, sequence >> 8 & 255, sequence & 255, c, i])


def taken(string):
    return hashlib.sha256(string).digest()


def pointed(version, digests):
    """Digests go by node."""
    return (*version, sum(1 << i - 1 for i in digests), [digests[i] for i in sorted(digests)])


def sound(version, nodes, pieces):
    """The digests that a deposit of these pieces takes."""
    return {i: taken(place(version, i) + pieces[i]) for i in nodes}


def other_ways(s, version, own, i, piece):
    """What else a digest of node i's piece might be taken over, in a reading of client own, by what is done otherwise."""
    (sequence, c), right = version, place(version, i)
    number, writer, node = right[:4], right[4:5], right[5:]
    return {
        'the piece alone': piece,
        'without the version': node + piece,
        'without the node': number + writer + piece,
        'without the sequence': writer + node + piece,
        'without the client': number + node + piece,
        'without the piece': right,
        'node before version': node + number + writer + piece,
        'client before sequence': writer + number + node + piece,
        'client and node exchanged': number + node + writer + piece,
        'node after the piece': number + writer + piece + node,
        'all after the piece': piece + right,
        'low byte first': number[::-1] + writer + node + piece,
        'the sequence before': place((sequence - 1, c), i) + piece,
        'the sequence after': place(((sequence + 1) % 2 ** 32, c), i) + piece,
        'the version none': place(NONE[:2], i) + piece,
        'another client': place((sequence, (c + 1) % 8), i) + piece,
        'the reader': place((sequence, own), i) + piece,
        'another node': place(version, i % 16 + 1) + piece,
        'nodes from 0': place(version, i - 1) + piece,
        'a node of two bytes': number + writer + b'\0' + node + piece,
        'the length as well': right + struct.pack('>H', len(piece)) + piece,
        'the whole area': right + piece.ljust(s.f, b'\0'),
        'a digest of the piece': right + taken(piece),
        'the message': replied(version, piece)}


def fetching(v, s, own, pointer):
    """A client that picked this pointer; no reply has come."""
    c = fresh(s)
    c.step, c.reading, c.work = FETCHING, 1, [pointer, set(), set(), [b''] * s.n]
    v.put(s, own, write_client(s, c))


def comes(v, s, own, version, pairs, page=None):
    """Pieces come under this version: all are awaited but the last, which ends the reading with the page, or at 9 if there is none."""
    what = [replies(v, s, own, version, [pair]) for pair in pairs]
    assert what[:-1] == ['waits'] * (len(pairs) - 1) and v.step(own) == IDLE
    assert what[-1] == ('failed' if page is None else 'page %s %d' % (shown(version), len(page)))
    assert page is None or v.out[:len(page)] == page


def of_each(nodes, pieces):
    return [(i, pieces[i]) for i in nodes]


def some_place(s, r, version, size=None):
    """A page, its pieces, and nodes to name, the writer's number not among them if they can do without."""
    page = r.randbytes(min(3, longest(s)) if size is None else size)
    apart = [i for i in range(1, s.n + 1) if i != version[1]]
    return page, dict(enumerate(cut(s, page), 1)), r.sample(apart if len(apart) >= s.t + s.k else range(1, s.n + 1), s.t + s.k)


def taken_otherwise(v, r, s, version, own):
    """The digests in the pointer are taken in another way, and the sound pieces come: none matches, and the last reply brings 9. Where only t nodes'
    are, the others make the page, and so they do where none is. Answers what was done otherwise; at these numbers it may be no other string."""
    page, pieces, nodes = some_place(s, r, version)
    right, met = sound(version, nodes, pieces), set()
    ways = {i: other_ways(s, version, own, i, pieces[i]) for i in nodes}
    for way in ways[nodes[0]]:
        if any(ways[i][way] == place(version, i) + pieces[i] for i in nodes):
            continue
        met.add(way)
        wrong = {i: taken(ways[i][way]) for i in nodes}
        fetching(v, s, own, pointed(version, wrong))
        comes(v, s, own, version, of_each(nodes, pieces))
        if s.t:
            fetching(v, s, own, pointed(version, {**wrong, **{i: right[i] for i in nodes[s.t:]}}))
            comes(v, s, own, version, of_each(nodes, pieces), page)
    fetching(v, s, own, pointed(version, right))
    comes(v, s, own, version, of_each(nodes[:s.k], pieces), page)
    return met


def exchanged(v, r, s, version, own):
    """The digests of two named nodes are exchanged: a sound piece of either does not match, come from the one or from the other, though all pieces
    are equal if k is 1. The others match. Then each named node has the digest of the next, and none matches."""
    page, pieces, nodes = some_place(s, r, version)
    right, (a, b) = sound(version, nodes, pieces), nodes[:2]
    assert (pieces[a] == pieces[b]) == (s.k == 1)
    rest = of_each(nodes[2:2 + s.k], pieces)
    for first in [[(a, pieces[a]), (b, pieces[b])], [(a, pieces[b]), (b, pieces[a])]][:1 if s.k == 1 else 2]:
        fetching(v, s, own, pointed(version, {**right, a: right[b], b: right[a]}))
        comes(v, s, own, version, first + rest, page if s.t > 1 else None)
    fetching(v, s, own, pointed(version, dict(zip(nodes, [right[i] for i in nodes[1:] + nodes[:1]]))))
    comes(v, s, own, version, of_each(nodes, pieces))
    fetching(v, s, own, pointed(version, right))
    comes(v, s, own, version, of_each(nodes[-s.k:], pieces), page)


def out_of_place(v, r, s, version, own):
    """The digests are the deposit's. A named node's sound piece is passed over under another version, and so it is from a node that is not named. Under
    this version a piece of another node, and of another page, is counted and does not match: the node has had its turn. Then k others make the page.
    If k is 1 another node's piece has the same bytes, and is this node's too."""
    page, pieces, nodes = some_place(s, r, version)
    old, right = dict(enumerate(cut(s, spoiled(page, (0, 1))), 1)), pointed(version, sound(version, nodes, pieces))
    (a, b), unnamed = nodes[:2], [i for i in range(1, s.n + 1) if i not in nodes]
    sequence, c = version
    fetching(v, s, own, right)
    before = v.records[own]
    for number in [(x, c) for x in (sequence - 1, sequence + 1) if x] + [(sequence, d) for d in others(s, c)]:
        assert replies(v, s, own, number, [(a, pieces[a])]) == 'waits'
    for i in unnamed:
        assert replies(v, s, own, version, [(i, pieces[a])]) == 'waits'
    assert v.records[own] == before
    for piece in dict.fromkeys([pieces[b], pieces[unnamed[0]], old[a], old[b]]):
        fetching(v, s, own, right)
        if piece == pieces[a]:
            assert s.k == 1
            comes(v, s, own, version, [(a, piece)], page)
            continue
        assert replies(v, s, own, version, [(a, piece)]) == 'waits' and read_client(s, v.records[own]).work[1:3] == [{a}, set()]
        comes(v, s, own, version, of_each(nodes[:1 + s.k], pieces), page)


def drawn(v, r, s, own, sequence, size=None):
    """A deposit that draws this sequence: the digests that it keeps, those in its pointer, and a reading with them."""
    version, rows, client = (sequence, own), [reference.fresh_row(s) for _ in range(s.m)], fresh(s)
    page, _, nodes = some_place(s, r, version, size)
    if sequence > 1:
        rows[0][0] = [(sequence - 1, 0, *some_pointer(s, r, 0)[2:])]
    client.step, client.work = SCANNING, page
    v.put(s, own, write_client(s, client))
    what = handed(v, s, own, rows, 'stores ' + shown(version), keep=True)
    pieces = {i: v.room[6 + (i - 1) * s.f:][:int(what.split()[2])] for i in range(1, s.n + 1)}
    assert read_client(s, v.records[own]).work[2] == list(sound(version, pieces, pieces).values())
    what = [v.add(MESSAGE, s, own, stored(version), i, keep=True) for i in nodes]
    pointer = write_pointer(pointed(version, sound(version, nodes, pieces)))
    assert what[-1].startswith('update') and v.room[1:1 + len(pointer)] == pointer
    fetching(v, s, own, read_pointer(s, Input(pointer)))
    comes(v, s, own, version, of_each(nodes[-s.k:], pieces), page)


def place_vectors(v, r):
    """Document 02 (i): digests over version, node and piece."""
    one, two, three = Measures(3, 3, 1, 1, 8), Measures(3, 4, 2, 1, 8), Measures(2, 5, 3, 1, 4)
    far, met = 0x01020304, set()
    for s, version, own in [(one, (far, 2), 1), (two, (far, 1), 0), (three, (far, 0), 1), (Measures(3, 2, 2, 0, 8), (1, 0), 2),
                            (Measures(1, 1, 1, 0, 8), (LAST, 0), 0), (Measures(8, 16, 1, 1, 8), (256, 7), 6)]:
        met |= taken_otherwise(v, r, s, version, own)
    assert met == set(other_ways(one, (1, 0), 0, 1, b'x'))
    for s in (one, two, three, Measures(3, 5, 1, 2, 8), Measures(2, 6, 2, 2, 6), Measures(2, 7, 3, 2, 4)):
        for version in ((far, s.m - 1), (1, 0)):
            exchanged(v, r, s, version, r.randrange(s.m))
            out_of_place(v, r, s, version, r.randrange(s.m))
        for sequence in (1, far, LAST):
            drawn(v, r, s, r.randrange(s.m), sequence)
    drawn(v, r, Measures(8, 16, 1, 1, 8), 7, far + 1)
    # where blocks of the digest end
    for size in (48, 49, 50, 51, 57, 58, 59, 113, 114, 121, 122, 123):
        drawn(v, r, Measures(1, 2, 1, 0, 128), 0, far, size - 4)


SMALL = [Measures(3, 4, 2, 1, 8), Measures(1, 1, 1, 0, 4), Measures(2, 16, 16, 0, 1), Measures(2, 5, 1, 2, 20)]
IMPROPER = [(0, 4, 2, 1, 8), (9, 4, 2, 1, 8), (3, 0, 2, 1, 8), (3, 17, 2, 1, 8), (3, 4, 0, 1, 8), (3, 3, 2, 1, 8), (3, 4, 2, 1, 0), (3, 4, 2, 1, 4097),
            (3, 4, 3, 0, 1), (65535, 65535, 65535, 65535, 65535), (3, 16, 1, 8, 8), (3, 4, 2, 65535, 8)]


def vectors(v, r):
    for s in SMALL:
        v.add(MESSAGE, s, 0, b'\5')
        for less in (1, 0, -5):
            v.add(FRESH, s, 0, short=(less, 0, 0))
        probed(v, r, s, {1: 1, 4: 3, 5: 9, 16: 30}[s.n])
        lives(v, r, s, 5)
        if s.m > 1:
            frozen_reading(v, r, s)
        wander(v, r, s, 600, r.sample(range(1, s.n + 1), s.t))
        failing(v, r, s)
        outside(v, r, s)
        not_joined(v, r, s)
        ties(v, r, s)
        last_numbers(v, r, s)
        if s.n < 5:
            edges_of_form(v, r, s)
        any_records(v, r, s, 8 if s.n < 16 else 3)
    # more nodes lie than are allowed, so that readings fail
    wander(v, r, Measures(3, 4, 2, 1, 8), 400, [1, 2, 3])
    free_lists(v, r, Measures(8, 2, 1, 0, 4), 16)
    free_lists(v, r, Measures(3, 4, 2, 1, 8), 16)
    wander(v, r, Measures(8, 2, 1, 0, 6), 250)
    for m, n, k, t, f in IMPROPER:
        for kind in range(FRESH, PUT):
            v.add(kind, Measures(m, n, k, t, f), 9, b'\0', 0, record=0, short=(10 ** 20,) * 3)
    large = Measures(8, 16, 8, 4, 4096)
    w = Stand(v, r, large, [2, 5, 11, 16])
    w.all_of_deposit(0, r.randbytes(longest(large)))
    w.all_of_reading(7)
    w.all_of_deposit(7, r.randbytes(12345))
    w.all_of_reading(0)
    v.add(DEPOSIT, large, 3, bytes(longest(large) + 1), keep=True)
    for short in ((1, 0, 0), (0, 1, 0), (0, 0, 1)):
        v.add(MESSAGE, large, 3, b'\5', short=short)
    largest = Measures(8, 16, 16, 0, 4096)
    w = Stand(v, r, largest)
    w.all_of_deposit(6, r.randbytes(longest(largest)))
    w.all_of_reading(7)


def main(folder):
    v, r = Vectors(), random.Random(1)
    vectors(v, r)
    owner_vectors(v, random.Random(2))
    place_vectors(v, random.Random(3))
    open(folder + '/stdin', 'wb').write(b''.join(v.calls))
    open(folder + '/stdout', 'w').write('\n'.join(v.lines) + '\n')
    kinds = {}
    for line in v.lines:
        words = line.split()
        key = ' '.join(words[:3] if words[1] == 'refused' else words[:2])
        kinds[key] = kinds.get(key, 0) + 1
    for key in sorted(kinds):
        print(kinds[key], key)
    # rows are met with each of their numbers; 7 is said otherwise
    assert {key for key in kinds if key.startswith('5 refused')} == {'5 refused %d' % number for number in (1, 2, 3, 4, 5, 14)}


if __name__ == '__main__':
    main(sys.argv[1])
