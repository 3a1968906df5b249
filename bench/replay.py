#!/usr/bin/env python3
"""An independent account of the program `replay`, which carries out a script of single events, and the scripts that the proved one is held to.

    replay.py FOLDER            writes FOLDER/stdin (all scripts, one after the other) and FOLDER/stdout (what they must print)
    replay.py SCRIPT.txt ...    writes beside each script, as SCRIPT.out, what it must print
    replay.py --wrong FAULT SCRIPT.txt    prints what the script would print with a fault in the clean-up: `unscanned` or `unfrozen`

Directory and node are reference.py's, the client is client.py's, lines are read as in stand.py; here stands what is under way: each client's calls
and their answers, and the messages between each client and each node, oldest first. What document 01 promises of a run is asserted as it goes: a
reading gives its deposit's page, versions differ and follow the order of operations, the pieces that an open reading's pointer names are held, and
no node holds over 2m pieces of one writer. A config begins a run anew; one that is refused stands before each script, so that none is left."""
import os
import random
import re
import sys

import client
import reference
import stand
from client import BROKEN, DEPOSIT, FETCHING, MESSAGE, READING, SCANNED, STORING, UPDATED, cut, longest, read_client, replied, shown, stored
from reference import NONE, Broken, Input, Refused, read_table, read_version
from stand import hexed, lines, number, page

MANY = 1100

# The account


def version_of(word):
    return tuple(map(int, word.split('.')))


def nodes_of(bits):
    return [i for i in range(1, 17) if bits >> i - 1 & 1]


def oldest(queues, key, act):
    """What is refused stays under way. A queue that is not there has a number out of bounds."""
    if key not in queues:
        return 'refused 3'
    if not queues[key]:
        return 'nothing under way'
    what = act(queues[key][0])
    if not what.startswith('refused'):
        queues[key].pop(0)
    return what


class Run:
    def __init__(self, s):
        self.s, self.liars, self.begun = s, set(), False
        self.directory = reference.fresh_directory(s, 0, bytes(s.directory()), b'', b'')[1]
        self.tables = {i: reference.fresh_table(s, 0, bytes(s.table()), b'', b'')[1] for i in range(1, s.n + 1)}
        self.records = [client.write_client(s, client.fresh(s)) for _ in range(s.m)]
        self.calls, self.answers = {c: [] for c in range(s.m)}, {c: [] for c in range(s.m)}
        self.to_node = {(c, i): [] for c in range(s.m) for i in self.tables}
        self.to_client = {(i, c): [] for c in range(s.m) for i in self.tables}
        self.handed, self.pages, self.pieces, self.borne, self.floor, self.highest = {}, {}, {}, {}, {}, NONE[:2]

    # Events

    def liar(self, i):
        if self.begun:
            return 'error: liars come before the first event'
        if i not in self.tables:
            return 'liar %d: refused 3' % i
        if len(self.liars | {i}) > self.s.t:
            return 'error: no more than t liars'
        self.liars.add(i)
        return 'liar %d: set' % i

    def deposit(self, c, data):
        what = self.at_client(DEPOSIT, c, data)
        if what == 'calls scan':
            self.handed[c], self.floor[c] = data, self.highest
        return 'deposit %d: %s' % (c, what)

    def read(self, c):
        what = self.at_client(READING, c)
        if not what.startswith('refused'):
            self.floor[c] = self.highest
        return 'read %d: %s' % (c, what)

    def carry(self, c):
        return 'carry %d: %s' % (c, oldest(self.calls, c, lambda call: self.carried(c, call)))

    def hand(self, c):
        return 'hand %d: %s' % (c, oldest(self.answers, c, lambda rows: self.at_client(UPDATED if rows is None else SCANNED, c, rows or b'')))

    def bring(self, c, i):
        return 'bring %d %d: %s' % (c, i, oldest(self.to_node, (c, i), lambda data: self.at_node(c, i, data)))

    def deliver(self, i, c):
        return 'deliver %d %d: %s' % (i, c, oldest(self.to_client, (i, c), lambda data: self.at_client(MESSAGE, c, data, i)))

    def lie(self, i, c, data):
        if i not in self.liars:
            return 'error: node %d is no liar' % i
        if len(data) >= MANY:
            return 'error: too many bytes'
        return 'lie %d %d: %s' % (i, c, self.at_client(MESSAGE, c, data, i))

    def show(self, i):
        if i not in self.tables:
            return 'show %d: refused 3' % i
        held = ['%s %s' % (shown(version), hexed(piece)) for version, piece in self.held(i)]
        return 'node %d holds %s' % (i, ', '.join(held) or 'nothing')

    # At the directory, a node, a client

    def carried(self, c, call):
        try:
            if call is None:
                n, _, rows = reference.scan(self.s, c, self.directory, b'', bytes(self.s.directory()))
                self.answers[c].append(rows[:n])
                return 'rows of %d bytes' % n
            self.directory = reference.update(self.s, c, self.directory, call, b'')[1]
        except Refused as r:
            return 'refused %d' % r.number
        self.answers[c].append(None)
        return 'updated'

    def at_node(self, c, i, data):
        if i in self.liars:
            return 'taken by a liar'
        try:
            n, self.tables[i], room = reference.node(self.s, i, self.tables[i], data, bytes(7 + self.s.f))
        except Refused as r:
            return 'refused %d' % r.number
        self.to_client[i, c].append(room[:n])
        self.kept(i)
        kind, version, piece = client.read_answer(self.s, room[:n])
        if kind == 5:
            return 'answers freed'
        if kind == 4:
            return 'answers stored ' + shown(version)
        return 'answers %s %s' % (shown(version), 'not held' if piece is None else hexed(piece))

    def at_client(self, kind, c, data=b'', node=1):
        record = self.records[c if c < self.s.m else 0]
        try:
            what, record, room, out = client.CALLS[kind](self.s, c, node, record, data, bytes(client.room_size(self.s)), bytes(longest(self.s)))
        except Refused as r:
            return 'refused %d' % r.number
        self.records[c] = record
        name, *words = what.split()
        return self.SAYS[name](self, c, words, room, out)

    # What a client's answer sends and says

    def waits(self, c, words, room, out):
        return 'waits'

    def scan(self, c, words, room, out):
        self.calls[c].append(None)
        return 'calls scan'

    def update(self, c, words, room, out):
        self.calls[c].append(room[:int(words[0])])
        return 'calls update of %s bytes' % words[0]

    def stores(self, c, words, room, out):
        size = int(words[1])
        for i in self.tables:
            at = 6 + (i - 1) * self.s.f
            self.to_node[c, i].append(room[:6] + room[at:at + size])
        self.bears(c, version_of(words[0]), True)
        return 'draws %s, sends %d pieces of %d bytes' % (words[0], self.s.n, size)

    def requests(self, c, words, room, out):
        nodes = nodes_of(int(words[1]))
        for i in nodes:
            self.to_node[c, i].append(room[:6])
        self.bears(c, version_of(words[0]), False)
        for i in nodes:
            self.kept(i)
        return 'picks %s, asks %s' % (words[0], ' '.join(map(str, nodes)))

    def empty(self, c, words, room, out):
        self.bears(c, NONE[:2], False)
        return 'picks none, ends empty'

    def deposited(self, c, words, room, out):
        message = room[:int(words[1])]
        for i in self.tables:
            self.to_node[c, i].append(message)
        self.ends(c, version_of(words[0]))
        free = Input(message[1:])
        versions = [shown(read_version(self.s, free)) for _ in range(len(message) // 5)]
        return 'ends with %s, frees %s' % (words[0], ' '.join(versions) or 'none')

    def gave(self, c, words, room, out):
        data = out[:int(words[1])]
        assert data == self.pages[version_of(words[0])]
        self.ends(c, version_of(words[0]))
        return 'ends with %s, page %s' % (words[0], hexed(data))

    def spent(self, c, words, room, out):
        return 'ends, refused 7'

    def failed(self, c, words, room, out):
        return 'ends, refused 9'

    SAYS = {'waits': waits, 'scan': scan, 'update': update, 'stores': stores, 'requests': requests, 'empty': empty, 'deposited': deposited,
            'page': gave, 'spent': spent, 'failed': failed}

    # What is promised

    def held(self, i):
        return read_table(self.s, self.tables[i])

    def bears(self, c, version, new):
        assert version > self.floor[c] if new else version >= self.floor[c]
        assert (version in self.pages) == (not new and version != NONE[:2])
        if new:
            self.pages[version], self.pieces[version] = self.handed[c], cut(self.s, self.handed[c])
        self.borne[c] = version

    def ends(self, c, version):
        assert self.borne[c] == version
        self.highest = max(self.highest, version)

    def kept(self, i):
        """Of an honest node: no open reading's piece is missing, and no writer has too many."""
        if i in self.liars:
            return
        held = dict(self.held(i))
        assert all(sum(v[1] == c for v in held) <= 2 * self.s.m for c in range(self.s.m))
        for record in self.records:
            if record[0] == FETCHING:
                pointer = read_client(self.s, record).work[0]
                assert not pointer[2] >> i - 1 & 1 or held[pointer[:2]] == self.pieces[pointer[:2]][i - 1]


# Scripts


FORMS = {b'config': [number] * 5, b'liar': [number], b'deposit': [number, page], b'read': [number], b'carry': [number], b'hand': [number],
         b'bring': [number] * 2, b'deliver': [number] * 2, b'lie': [number, number, page], b'show': [number]}
EVENTS = {b'deposit': Run.deposit, b'read': Run.read, b'carry': Run.carry, b'hand': Run.hand, b'bring': Run.bring, b'deliver': Run.deliver,
          b'lie': Run.lie}


class Script:
    def __init__(self):
        self.run = None

    def line(self, line):
        """What a line prints, or none."""
        if line in (b'', b'#') or line.startswith(b'# '):
            return None
        try:
            name, values = stand.read_line(line, FORMS)
        except Broken:
            return 'error: not a line of a script'
        if name == b'config':
            return self.config(values)
        if self.run is None:
            return 'error: config comes first'
        if name == b'liar':
            return self.run.liar(*values)
        if name == b'show':
            return self.run.show(*values)
        what = EVENTS[name](self.run, *values)
        if not what.startswith('error:'):
            self.run.begun = True
        return what

    def config(self, values):
        self.run = None
        try:
            s = stand.small(values)
        except Refused as r:
            return 'config: refused %d' % r.number
        self.run = Run(s)
        return 'AWE %d %d %d %d %d' % (s.m, s.n, s.k, s.t, s.f)


def answer(script):
    s = Script()
    said = [s.line(line) for line in lines(script)]
    return ''.join(what + '\n' for what in said if what is not None).encode()


# Wrong clean-ups


def wrong_freeze(fault):
    """A deposit's second scan. `unscanned` drops the version before by what was known before this scan, `unfrozen` without regard to frozen pointers."""

    def freeze(s, own, c, rows, room):
        pointer, before, free = c.work, c.written[:2], {c.written[:2]}
        early = free - {p[:2] for p in c.frozen} - set(c.reserved)
        for p, (_, _, _, (reading,)) in enumerate(rows):
            if p != own and reading > c.indices[p]:
                free |= {c.frozen[p][:2], c.reserved[p]}
                c.frozen[p], c.reserved[p], c.indices[p] = pointer, before, reading
        free -= set(c.reserved)
        if fault == 'unscanned':
            free = free - {p[:2] for p in c.frozen} | early
        message = b'\3' + b''.join(client.write_version(x) for x in sorted(free - {NONE[:2]}))
        c.step, c.work, c.written = client.IDLE, None, pointer
        return 'deposited %s %d' % (shown(pointer[:2]), len(message)), client.front(room, message)

    return freeze


def go_wrong(fault):
    """What honest nodes then lack is not asserted any more."""
    assert fault in ('unscanned', 'unfrozen')
    client.freeze, Run.kept = wrong_freeze(fault), lambda self, i: None


# Walks


class Walk:
    """A script that grows by random lines; `pace` says how readily each client, and each line between a client and a node, moves."""

    def __init__(self, r, s, liars=(), slow=()):
        self.r, self.script, self.lines, self.most = r, Script(), [], 0
        self.say(b'config %d %d %d %d %d' % (s.m, s.n, s.k, s.t, s.f))
        for i in liars:
            self.say(b'liar %d' % i)
        self.s, self.run, self.taken = s, self.script.run, []
        self.pace = {c: r.choice([1, 1, 0.2]) for c in range(s.m)} | {key: r.choice([1, 1, 1, 0.3, 0.02]) for key in self.run.to_node}
        self.pace |= {c: 0.03 for c in slow}

    def say(self, line):
        self.lines.append(line)
        what = self.script.line(line)
        self.most = max(self.most, self.load())
        return what

    def text(self):
        return stand.joined(self.lines)

    def load(self):
        run = self.script.run
        return sum(len(q) for queues in (run.to_node, run.to_client) for q in queues.values())

    def step(self, c):
        return self.run.records[c][0]

    def moves(self, c):
        """What can be done next for client c, each with its weight."""
        run, out = self.run, []
        if run.calls[c]:
            out.append((self.pace[c], b'carry %d' % c))
        if run.answers[c]:
            out.append((self.pace[c], b'hand %d' % c))
        for i in run.tables:
            if run.to_node[c, i]:
                out.append((self.pace[c, i], b'bring %d %d' % (c, i)))
            if run.to_client[i, c]:
                out.append((self.pace[c, i] * self.pace[c], b'deliver %d %d' % (i, c)))
        return out

    def move(self, moves):
        line = self.r.choices([line for _, line in moves], [weight for weight, _ in moves])[0]
        words = line.split()
        if words[0] == b'bring' and int(words[2]) in self.run.liars:
            c, i = int(words[1]), int(words[2])
            self.taken.append((c, i, self.run.to_node[c, i][0]))
        return self.say(line)

    def start(self, c, deposits=0.5):
        if self.r.random() < deposits:
            return self.say(stand.deposit(c, client.some_page(self.s, self.r)))
        return self.say(b'read %d' % c)

    def turn(self, c):
        """One thing more for client c."""
        ready = [x for x in self.moves(c) if self.r.random() < x[0]]
        if self.step(c) == client.IDLE and self.load() < 160 and (not ready or self.r.random() < 0.3):
            return self.start(c)
        return self.move(ready) if ready else None

    def lie(self):
        """A liar's answer to something that it was sent, or to nothing."""
        r, s, i = self.r, self.s, self.r.choice(sorted(self.run.liars))
        c, version = r.randrange(s.m), self.r.choice([(1, 0), (2 ** 32 - 1, s.m - 1)] + sorted(self.run.pages))
        asked = [(d, data) for d, j, data in self.taken if j == i]
        if asked and r.random() < 0.8:
            c, data = r.choice(asked[-4:])
            if data[0] != 3:
                version = read_version(s, Input(data[1:6]))
            if data[0] == 1 and r.random() < 0.8:
                return self.say(b'lie %d %d %s' % (i, c, stored(version).hex().encode()))
        if self.step(c) == FETCHING and r.random() < 0.8:
            version = read_client(s, self.run.records[c]).work[0][:2]
        if self.step(c) == STORING and r.random() < 0.3:
            version = read_client(s, self.run.records[c]).work[0]
        return self.say(b'lie %d %d %s' % (i, c, self.false(i, version).hex().encode() or b'empty'))

    def false(self, i, version):
        r, s, own = self.r, self.s, b''
        pieces = list(self.run.pieces.values()) or [[b'?'] * s.n]
        if version in self.run.pieces:
            own = self.run.pieces[version][i - 1]
        old, other = r.choice(pieces)[i - 1], r.choice(r.choice(pieces))
        x = r.random()
        if x < 0.12:
            return r.choice(BROKEN)
        if x < 0.2:
            return r.choice([stored(version), b'\5', b'\1' + client.write_version(version) + old, b'\2' + client.write_version(version), b'\3'])
        if x < 0.25:
            return client.spoiled(replied(version, own), (r.randrange(7), r.choice([1, 2, 128])))
        wrong = [None, b'', own + b'\0', own[:-1], bytes(s.f), r.randbytes(s.f), bytes(s.f + 1), r.randbytes(2)]
        return replied(version, r.choice([old, old, old, other, own, own, own] + wrong))

    def aside(self):
        """Lines that are refused or find nothing, and looks at nodes."""
        r, s = self.r, self.s
        c, i = r.choice([*range(s.m), s.m, 2 ** 32 - 1]), r.choice([*range(1, s.n + 1), 0, s.n + 1])
        broken, long = r.choice(BROKEN).hex().encode() or b'empty', b'00' * (longest(s) + 1)
        few = [b'show %d' % i, b'show %d' % i, b'liar %d' % i, b'config 2 4 2 1', b'# %d' % i, b'', b'stand', b'lie %d %d 05' % (i, c)]
        few += [b'lie %d %d %s' % (i, c, broken)]
        starts = [b'read %d' % c, b'deposit %d 4a' % c, b'deposit %d %s' % (c, long)]
        more = [b'carry %d' % c, b'hand %d' % c, b'bring %d %d' % (c, i), b'deliver %d %d' % (i, c)] + starts
        return self.say(r.choice(few + more if self.load() < 200 else few))

    def rest(self, stopped):
        """All that is under way to nodes and to clients that did not stop arrives, and nodes are looked at."""
        for c in range(self.s.m):
            while moves := [x for x in self.moves(c) if c not in stopped or x[1].startswith(b'bring')]:
                self.move(moves)
        for i in self.run.tables:
            self.say(b'show %d' % i)


def wander(r, s, turns, liars=(), slow=(), stops=0):
    """Bursts of one client's events. A client that stops does so in the middle of what it does; only a stray line concerns it then."""
    w, stopped = Walk(r, s, liars, slow), set()
    while len(w.lines) < turns:
        c, burst = r.randrange(s.m), r.choice([1, 2, 5, 12, 30])
        if r.random() > w.pace[c]:
            continue
        if r.random() < stops and len(stopped) < s.m - 1:
            stopped.add(c)
        for _ in range(burst):
            if w.run.liars and r.random() < 0.18:
                w.lie()
            elif r.random() < 0.04:
                w.aside()
            elif c not in stopped:
                w.turn(c)
            elif w.load() > 100:
                w.move([(1, b'bring %d %d' % key) for key in sorted(w.run.to_node) if w.run.to_node[key]] or [(1, b'show 1')])
    w.rest(stopped)
    assert w.most < 300
    return w.text()


def reading_among_deposits():
    """One writer, one node: the reader's three steps (its number published, its scan, its request) at every place among those of two deposits."""
    def one_deposit(byte):
        return [stores(0, bytes([byte]), [1]), [b'carry 0', b'hand 0'], [b'carry 0', b'hand 0', b'show 1'], frees(0, [1]) + [b'show 1']]

    reading = [[b'read 1', b'carry 1', b'hand 1'], [b'carry 1', b'hand 1'], [b'bring 1 1', b'deliver 1 1']]
    writer, out = one_deposit(2) + one_deposit(3), []
    for a in range(9):
        for b in range(a, 9):
            for c in range(b, 9):
                steps = one_deposit(1)
                for at in range(9):
                    steps += [x for place, x in zip((a, b, c), reading) if place == at] + writer[at:at + 1]
                out.append(stand.joined([b'config 2 1 1 0 8'] + sum(steps, [])))
    return out


WALKS = [(1, 1, 1, 0, 4), (2, 1, 1, 0, 8), (2, 2, 1, 0, 5), (3, 2, 2, 0, 4), (2, 3, 1, 1, 6), (3, 3, 1, 1, 8), (3, 3, 3, 0, 2), (2, 4, 2, 1, 8),
         (3, 4, 2, 1, 8), (3, 4, 2, 1, 64), (2, 5, 1, 2, 20), (3, 5, 3, 1, 3), (3, 6, 2, 2, 7), (3, 7, 3, 2, 2), (1, 7, 1, 3, 4), (2, 8, 8, 0, 1),
         (3, 9, 1, 4, 5), (2, 16, 16, 0, 1), (2, 16, 2, 7, 4), (3, 16, 8, 4, 8), (2, 16, 16, 0, 64), (3, 16, 1, 7, 64)]


def walks(r):
    out = []
    for measures in WALKS:
        s = reference.Measures(*measures)
        turns = 80 if s.n < 9 else 60
        for few in sorted({0, s.t // 2, s.t}):
            out.append(wander(r, s, turns, r.sample(range(1, s.n + 1), few)))
        if s.m > 1:
            liars = r.sample(range(1, s.n + 1), s.t)
            out += [wander(r, s, turns * 2, liars, [r.randrange(s.m)]), wander(r, s, turns, liars, [], 0.05)]
    small = reference.Measures(3, 4, 2, 1, 8)
    out += [wander(r, small, 220, [1 + at % 4], [2]) for at in range(8)]
    return out + [wander(r, small, 600, [3], [1]), wander(r, small, 600), wander(r, reference.Measures(3, 7, 3, 2, 6), 500, [1, 5], [0])]


# Lines and refusals


def stores(c, data, nodes=(1, 2, 3, 4)):
    """A deposit up to its update, which names the first of these nodes."""
    calls = [stand.deposit(c, data), b'carry %d' % c, b'hand %d' % c]
    return calls + [b'bring %d %d' % (c, i) for i in nodes] + [b'deliver %d %d' % (i, c) for i in nodes]


def twice(c):
    """A call carried out and its answer handed over, two times."""
    return [b'carry %d' % c, b'hand %d' % c] * 2


def frees(c, nodes=(1, 2, 3, 4)):
    return [b'bring %d %d' % (c, i) for i in nodes] + [b'deliver %d %d' % (i, c) for i in nodes]


def whole_deposit(c, data):
    return stores(c, data) + twice(c) + frees(c)


def asks(c):
    return [b'read %d' % c] + twice(c)


def replies(c, nodes):
    return [x for i in nodes for x in (b'bring %d %d' % (c, i), b'deliver %d %d' % (i, c))]


CONFIG = b'config 3 4 2 1 8'
SIMPLE = stores(0, b'A', (1, 2, 3)) + twice(0)
LINES = [CONFIG, b'liar 4', b'deposit 0 41', b'deposit 1 empty', b'read 1', b'carry 0', b'hand 0', b'bring 0 1', b'deliver 1 0', b'lie 4 0 05',
         b'lie 4 1 empty', b'lie 4 0 040000000100', b'show 1']
EVERY = [b'deposit 9 41', b'read 9', b'carry 9', b'hand 9', b'bring 9 9', b'deliver 9 9', b'lie 3 0 05', b'lie 9 9 05', b'lie 4 0 00', b'lie 4 9 05',
         b'deposit 0 41', b'read 0', b'carry 0', b'hand 0', b'bring 0 1', b'deliver 1 0', b'lie 4 0 05', b'lie 4 0 ' + b'05' * 1101]


def spoiled_scripts(r):
    out = []
    for line in LINES:
        few = r.sample([x for x in stand.spoiled_lines(line) if len(x) < 300], 200)
        if line == CONFIG:
            out += [stand.joined([x, b'show 1', b'read 0']) for x in few]
        else:
            out.append(stand.joined([CONFIG, b'liar 4'] + ([] if line.startswith(b'liar') else SIMPLE) + few))
    return out


def comments():
    passed = [b'#', b'# ', b'# #', b'# config 3 4 2 1 8', b'# \xff\0\t\r', b'', b'', b'#  two']
    wrong = [b'##', b'#x', b' #', b' # x', b'#\t', b'#\r', b'\t', b' ', b'\r', b'read 0 # x', b'\0']
    out = [b'', b'\n', b'\n\n\n', b'#', b'# no more', b'# no more\n', CONFIG, b'\n\n# x\n' + CONFIG + b'\n\nshow 1\n#', CONFIG + b'\r\n']
    long = [b'# ' + b'x' * 70001, b'carry %s1' % (b'0' * 70001)]
    return out + [stand.joined(passed + wrong + [CONFIG] + passed + wrong + [b'show 4'] + long + passed)]


def order_of_lines():
    """What comes before a config, after it, and after the first event."""
    configs = b'3 3 2 1 8,4 4 2 1 8,9 4 2 1 65,3 4 2 1 65,1 1 1 0 3,3 4 2 1,03 4 2 1 008,3 4 2 1 8,3 3 2 1 8,4 4 2 1 8'.split(b',')
    configs = [x for y in configs for x in (b'config ' + y, b'liar 4')]
    out = [stand.joined(LINES[1:] + configs + [b'show 1', b'read 0', CONFIG, b'liar 4', b'carry 0'])]
    for event in EVERY:
        out.append(stand.joined([CONFIG, b'liar 4', b'show 4', b'show 9', b'liar 0004', event, b'liar 4', b'liar 3', b'show 4']))
    for line in b'carry x,stand,show 1,show 0,liar 0,liar 5,# x,config 3 4 2 1 8,read 0 1,deposit 0 4,lie 4 0 5,carry 4294967296'.split(b','):
        out.append(stand.joined([CONFIG, line, b'liar 4', b'liar 4', b'liar 1', b'bring 0 4', b'liar 4']))
    out.append(stand.joined([b'config 3 4 2 0 8'] + [b'liar %d' % i for i in range(6)] + SIMPLE))
    liars = [b'liar %d' % i for i in (1, 16, 0, 17, 3, 4, 4, 5, 6, 2 ** 32 - 1, 7, 8, 9, 1, 16)]
    return out + [stand.joined([b'config 3 16 2 7 8'] + liars + [b'show 1', b'show 16'] + SIMPLE)]


def two_errors():
    """Lines that are wrong in two ways."""
    long = b'05' * 1101
    both = [[b'liar 9'], [b'liar 0'], [b'carry 0', b'liar 9'], [b'carry 0', b'liar 1'], [b'lie 4 9 00'], [b'lie 3 9 00'], [b'lie 3 0 ' + long],
            [b'lie 4 9 ' + long], [b'lie 3 9 ' + long], [b'lie 4 0 ' + long + b'0'], [b'read 0', b'deposit 3 ' + long, b'deposit 0 ' + long]]
    return [stand.joined([CONFIG, b'liar 4'] + x) for x in both]


def errors_change_nothing():
    """After a line that is answered by an error a liar may still be named; after an event, also one that is refused, none may."""
    begin, then = [b'config 3 5 1 2 8', b'liar 2'], [b'liar 3', b'lie 3 0 05', b'liar 3', b'show 3']
    wrong = [b'lie 1 0 05', b'lie 0 0 05', b'lie 9 9 05', b'lie 3 3 empty', b'lie 2 0 ' + b'05' * MANY, b'lie 2 9 ' + b'05' * (MANY + 1), b'stand',
             b'lie 2 0', b'config 3 5 1 2']
    out = [begin + [x] + then for x in wrong] + [begin + wrong * 2 + then]
    out += [begin + [b'liar 1'] + wrong + [b'liar 3'], begin + [b'lie 1 9 05', b'lie 2 9 05', b'liar 3', b'lie 1 9 05', b'liar 2']]
    return [stand.joined(x) for x in out]


def lengths(r):
    """Pages and liars' bytes at the edges of what fits and of what is taken."""
    out = []
    for measures in ((3, 4, 2, 1, 8), (3, 16, 14, 1, 64), (1, 16, 16, 0, 64), (1, 3, 1, 1, 4), (2, 6, 4, 1, 1)):
        s, parts = reference.Measures(*measures), [stand.config(*measures)] + [b'liar 2'] * measures[3]
        for size in sorted({0, 1, longest(s) - 1, longest(s), longest(s) + 1, MANY, MANY + 1}):
            if 0 <= size <= longest(s):
                parts += stores(0, r.randbytes(size), range(1, s.n + 1)) + [stand.deposit(0, bytes(size))] + twice(0)
            parts += [stand.deposit(s.m, bytes(size)), stand.deposit(0, bytes(size))] if size > longest(s) else [b'show 1', b'show %d' % s.n]
        for n in (MANY - 8, MANY - 7, MANY - 6):
            parts += [b'lie 2 0 ' + x.hex().encode() for x in (replied((1, 0), r.randbytes(n)), b'\5' * (n + 7)) if s.t]
        out.append(stand.joined(parts + [b'read 0', b'deposit 0 ' + b'00' * (MANY + 1)]))
    return out


def liars_bytes():
    """A reading that asks nodes 1, 2 and 3, of which 1 lies: every kind of answer, then the good ones; and what it says to a deposit."""
    begin, good = [CONFIG, b'liar 1'], cut(reference.Measures(3, 4, 2, 1, 8), b'A')
    done = begin + stores(0, b'A', (2, 3)) + [b'bring 0 1', b'lie 1 0 040000000100'] + twice(0)
    false = [replied((1, 0), x) for x in (None, b'', good[0], good[1], good[0] + b'\0', good[0][:2], bytes(8), bytes(9), bytes(1000))]
    false += [replied(x, good[0]) for x in ((1, 1), (2, 0), (2 ** 32 - 1, 2))] + [stored((1, 0)), stored((2, 1)), b'\5'] + BROKEN
    out = []
    for x in false:
        lie, to_writer = (b'lie 1 %d %s' % (c, x.hex().encode() or b'empty') for c in (1, 0))
        true = b'lie 1 1 ' + replied((1, 0), good[0]).hex().encode()
        out.append(stand.joined(done + asks(1) + [b'bring 1 1', lie, lie, true] + replies(1, (2, 3)) + [lie]))
        last = [b'deliver 2 0', to_writer, b'deliver 3 0', to_writer, b'deliver 4 0', to_writer, b'carry 0', to_writer, b'hand 0']
        out.append(stand.joined(begin + stores(0, b'A', (2, 3, 4))[:6] + [to_writer] * 2 + last))
    return out


def same_twice():
    """A start while an operation is open, at each of its steps; calls, answers and messages that are not there."""
    steps = whole_deposit(0, b'A') + asks(0) + replies(0, (1, 2, 3))
    probes = [b'deposit 0 42', b'read 0', b'deposit 0 ' + b'42' * 13, b'carry 1', b'hand 1', b'bring 1 1', b'deliver 1 1', b'bring 0 0', b'bring 0 5',
              b'bring 3 1', b'deliver 0 0', b'deliver 5 0', b'deliver 1 3', b'show 1']
    out = [[x for step in steps for x in (step, probe)] for probe in probes] + [[x for x in steps for _ in range(2)]]
    return [stand.joined([CONFIG] + x) for x in out]


def late_requests():
    """Requests that outlive their reading: the next reading of that version counts the reply; after the version was dropped, it is not held."""
    out = []
    for slow in (1, 2, 3):
        late, quick = replies(1, [slow]), asks(1) + replies(1, [i for i in (1, 2, 3) if i != slow])
        begin = [CONFIG] + whole_deposit(0, b'A') + quick
        b, c, d = (whole_deposit(0, x) for x in (b'B', b'C', b'D'))
        out.append(begin + asks(1) + late + quick[5:7] + late + quick)
        out.append(begin + b + c + asks(1) + late + quick[5:] + d + late * 3)
        out.append(begin + b + quick + c + asks(1) + late * 2 + quick[5:] + late)
        out.append(begin + whole_deposit(2, b'B') + quick + c + asks(1) + d + late * 2 + quick[5:])
    return [stand.joined(x + [b'show %d' % i for i in range(1, 5)]) for x in out]


def piled_up():
    """Half of the nodes hear nothing of fifteen deposits and two readings; then all of it arrives."""
    near, far = range(1, 9), range(9, 17)
    parts = [b'config 3 16 1 7 8']
    for turn in range(5):
        for c in range(3):
            parts += stores(c, bytes([turn, c]), near) + twice(c) + frees(c, near)
        if turn % 2:
            parts += asks(turn // 2) + replies(turn // 2, near)
    for c in (2, 0, 1):
        parts += [b'bring %d %d' % (c, i) for _ in range(10) for i in far] + [b'show %d' % i for i in far]
    parts += [b'deliver %d %d' % (i, c) for i in far for c in range(3) for _ in range(11)]
    return stand.joined(parts + [b'show %d' % i for i in range(1, 17)])


TOLD = [os.path.join(os.path.dirname(os.path.abspath(__file__)), '..', 'docs', 'replay', name) for name in ('slow-reader.txt', 'two-writers.txt', 'other-places.txt')]


def scripts():
    r = random.Random(1)
    out = [open(name, 'rb').read() for name in TOLD]
    out += order_of_lines() + two_errors() + errors_change_nothing() + comments() + same_twice() + late_requests() + reading_among_deposits() + liars_bytes()
    return out + [piled_up()] + lengths(r) + spoiled_scripts(r) + walks(r)


def all_scripts():
    """Each after a config that is refused; the last line lacks its line feed."""
    return b''.join(b'config 0 0 0 0 0\n' + x + b'\n' * (x[-1:] != b'\n') for x in scripts()) + b'show 1'


def kind(line):
    """A printed line without its numbers, but for a refusal's."""
    words = re.sub(r'[:,]', '', re.sub(r'refused (\d)', r'refused-\1', line)).split()
    return ' '.join(word for word in words if not re.fullmatch(r'[0-9A-F.]+', word))


def main(arguments):
    if arguments[0] == '--wrong':
        go_wrong(arguments[1])
        sys.stdout.buffer.write(answer(open(arguments[2], 'rb').read()))
        return
    if arguments[0].endswith('.txt'):
        for name in arguments:
            open(name[:-4] + '.out', 'wb').write(answer(open(name, 'rb').read()))
        return
    assert answer(stand.joined([CONFIG] + SIMPLE + [b'show 1'])).endswith(b'hand 0: ends with 1.0, frees none\nnode 1 holds 1.0 000141\n')
    script, kinds = all_scripts(), {}
    out = answer(script)
    open(arguments[0] + '/stdin', 'wb').write(script)
    open(arguments[0] + '/stdout', 'wb').write(out)
    for line in out.decode().splitlines():
        kinds[kind(line)] = kinds.get(kind(line), 0) + 1
    for key in sorted(kinds):
        print(kinds[key], key)


if __name__ == '__main__':
    main(sys.argv[1:])
