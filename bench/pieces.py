#!/usr/bin/env python3
"""An independent account of document 01's pieces, split and join, and of document 02's piece cut alone (d); the cases that `pieces_vectors` executes
and the lines that it is held to.

    pieces.py FOLDER    writes FOLDER/stdin, the cases, and FOLDER/stdout, their lines

Written from documents 01 and 02 and, for what 01 leaves open, docs/DECISIONS.md (1, 3, 5, 6, 8): products by shifts and reduction modulo hex 11D,
joining by Lagrange's form, no tables of powers and no grid; `cut` by Horner's rule, from the page without a frame. The authors of the account (the
field, frames, `split`, `join`; later `cut`) had not read the code or the definitions of split, join and cut; those who wrote the cases of split and
join as input, and the form of the lines, had. What input and lines mean stands at the top of `pieces_vectors`. A room or an output is at first
`poison`; an absent piece has a length that no piece may have."""
import itertools
import sys


# The field.

def times_two(a):
    a <<= 1
    return a ^ 0x11D if a & 0x100 else a


def product(a, b):
    p = 0
    while b:
        if b & 1:
            p ^= a
        a, b = times_two(a), b >> 1
    return p


TIMES = [[product(a, b) for b in range(256)] for a in range(256)]
INVERSE = [0] + [TIMES[a].index(1) for a in range(1, 256)]


# Pieces and frames.

def proper(n, k, f):
    return 1 <= n <= 16 and 1 <= k <= n and 1 <= f <= 4096 and k * f >= 4


def piece_of(k, frame, i):
    """Piece i of a frame of a multiple of k bytes."""
    powers = [1]
    while len(powers) < k:
        powers.append(product(powers[-1], i))
    piece = bytearray(len(frame) // k)
    for r, power in enumerate(powers):
        row = TIMES[power]
        for j in range(len(piece)):
            piece[j] ^= row[frame[j * k + r]]
    return bytes(piece)


def framed(k, page):
    frame = len(page).to_bytes(4, 'big') + page
    return frame + bytes(-len(frame) % k)


def frame_byte(page, at):
    """Of the length, of the page, or a zero behind it."""
    if at < 4:
        return len(page) >> 8 * (3 - at) & 255
    return page[at - 4] if at - 4 < len(page) else 0


def value(factors, x):
    """A polynomial at x, lowest power first."""
    result = 0
    for factor in reversed(factors):
        result = TIMES[x][result] ^ factor
    return result


def weights(nodes):
    """For each node the polynomial that is 1 there and 0 at the others, lowest power first."""
    found = []
    for x in nodes:
        polynomial, below = [1], 1
        for y in nodes:
            if y != x:
                higher = [0] + polynomial
                lower = [product(y, c) for c in polynomial] + [0]
                polynomial = [a ^ b for a, b in zip(higher, lower)]
                below = product(below, x ^ y)
        found.append([product(INVERSE[below], c) for c in polynomial])
    return found


def interpolated(nodes, pieces):
    """The frame that has these pieces at as many nodes."""
    k = len(nodes)
    frame = bytearray(k * len(pieces[0]))
    for polynomial, piece in zip(weights(nodes), pieces):
        for r in range(k):
            row = TIMES[polynomial[r]]
            for j, b in enumerate(piece):
                frame[j * k + r] ^= row[b]
    return bytes(frame)


def unframed(k, frame):
    """The page, or None if the frame has no true length, not the fewest zeros, or another filling."""
    if len(frame) < 4:
        return None
    length, rest = int.from_bytes(frame[:4], 'big'), frame[4:]
    if length > len(rest) or len(rest) - length >= k or any(rest[length:]):
        return None
    return rest[:length]


# The three calls: a refusal's number or 0, the length answered, and what was lent after the call.

def split(n, k, f, page, room):
    if not proper(n, k, f):
        return 1, 0, room
    if len(room) < n * f:
        return 2, 0, room
    if len(page) > k * f - 4:
        return 6, 0, room
    frame = framed(k, page)
    length = len(frame) // k
    for i in range(1, n + 1):
        at = (i - 1) * f
        room = room[:at] + piece_of(k, frame, i) + room[at + length:]
    return 0, length, room


def cut(n, k, f, i, page, room):
    if not proper(n, k, f):
        return 1, 0, room
    if len(room) < f:
        return 2, 0, room
    if not 1 <= i <= n:
        return 3, 0, room
    if len(page) > k * f - 4:
        return 6, 0, room
    columns = range(0, 4 + len(page), k)
    piece = bytes(value([frame_byte(page, at + r) for r in range(k)], i) for at in columns)
    return 0, len(piece), piece + room[len(piece):]


def join(n, k, f, nodes, room, lengths, out):
    if not proper(n, k, f):
        return 1, 0, out
    if len(room) < n * f or len(lengths) < n or len(out) < k * f - 4:
        return 2, 0, out
    present = [i for i in range(1, 17) if nodes >> (i - 1) & 1]
    if any(i > n for i in present):
        return 4, 0, out
    had = {lengths[i - 1] for i in present}
    if len(had) > 1 or any(not 1 <= l <= f for l in had):
        return 4, 0, out
    if len(present) < k:
        return 9, 0, out
    lowest, length = present[:k], had.pop()
    page = unframed(k, interpolated(lowest, [room[(i - 1) * f:(i - 1) * f + length] for i in lowest]))
    if page is None:
        return 4, 0, out
    return 0, len(page), page + out[len(page):]


# What the cases work on.

def checksum(data):
    h = 0
    for b in data:
        h = (h * 257 + b + 1) % 2 ** 32
    return h


def poison(n):
    return bytes((i % 256 * 13 + 170) % 256 for i in range(n))


def some_page(n):
    return bytes((i % 256 * 7 + i // 256 % 256 + 3) % 256 for i in range(n))


def spoiled(n, k, f, nodes, room):
    """Every byte is changed, but for those in the areas of the k lowest nodes of the map."""
    keep = [i for i in range(n) if nodes >> i & 1][:k]
    return bytes(b if at // f in keep or at // f >= n else b ^ 255 for at, b in enumerate(room))


def lengths_of(nodes, length):
    return [length if nodes >> i & 1 else 65535 for i in range(16)]


class Calls:
    """Calls as commands, and what they must print. Numbers and bytes that stand already are not given again."""

    def __init__(self):
        self.commands, self.text, self.sum = bytearray(), '', 0
        self.numbers, self.given = {}, bytes(65536)

    def command(self, what, number):
        self.commands += bytes([what]) + number.to_bytes(8, 'big')

    def number(self, what, number):
        if self.numbers.get(what, 0) != number:
            self.numbers[what] = number
            self.command(what, number)

    def give(self, data):
        other = [at for at, b in enumerate(data) if b != self.given[at]]
        while other:
            end = next((i for i in range(1, len(other)) if other[i] - other[i - 1] > 9), len(other))
            part = data[other[0]:other[end - 1] + 1]
            self.command(8, other[0] << 32 | len(part))
            self.commands += part
            other = other[end:]
        self.given = data + self.given[len(data):]

    def called(self, what, n, k, f, number, length, given, written, ends):
        """A line ends with a call of which all is printed; of those before it there is a digit."""
        self.command(what if ends else what + 3, k)
        for data in given, written:
            self.sum = (self.sum * 31 + checksum(data)) % 2 ** 32
        if not ends:
            self.text += '%d ' % number
            return
        arguments = n, k, f, self.numbers.get(3, 0), len(given), self.numbers.get(6, 0), len(written)
        few = ''.join(' ' + data.hex() for data in (given, written) if len(data) <= 20)
        self.text += {10: 'split', 11: 'join', 12: 'cut %d' % self.numbers.get(7, 0)}[what]
        self.text += ' %d %d %d %04x %d %d %d: ' % arguments
        self.text += '%d %d%s sum %d\n' % (number, 0 if number else length, few, self.sum)
        self.sum = 0

    def split(self, n, k, f, page, size, ends=True):
        for what, x in zip((1, 2, 4, 5), (n, f, len(page), size)):
            self.number(what, x)
        self.give(page)
        number, length, room = split(n, k, f, page, poison(size))
        self.called(10, n, k, f, number, length, page, room, ends)
        return room

    def join(self, n, k, f, nodes, room, lengths, size, ends=True):
        for what, x in zip((1, 2, 3, 4, 5, 6), (n, f, nodes, len(room), size, len(lengths))):
            self.number(what, x)
        for i, length in enumerate(lengths):
            self.number(16 + i, length)
        self.give(room)
        number, length, out = join(n, k, f, nodes, room, lengths, poison(size))
        self.called(11, n, k, f, number, length, room, out, ends)

    def cut(self, n, k, f, i, page, size, ends=True):
        for what, x in zip((1, 2, 4, 5, 7), (n, f, len(page), size, i)):
            self.number(what, x)
        self.give(page)
        number, length, room = cut(n, k, f, i, page, poison(size))
        if number == 0:
            # area i of the whole split
            _, whole, areas = split(n, k, f, page, poison(n * f))
            assert length == whole and room[:length] == areas[(i - 1) * f:][:length], (n, k, f, i)
        assert room[length:] == poison(size)[length:], (n, k, f, i)
        self.called(12, n, k, f, number, length, page, room, ends)

    def cuts(self, n, k, f, page, more=0):
        """The whole split, then each node's piece alone, in rooms that are so much longer than needed: a line."""
        self.split(n, k, f, page, n * f + more, False)
        for i in range(1, n + 1):
            self.cut(n, k, f, i, page, f + more, i == n)

    def rejoin(self, n, k, length, nodes):
        """Of the pieces of a page only those stay whole that are to be used."""
        _, size, room = split(n, k, 40, some_page(length), poison(n * 40))
        self.join(n, k, 40, nodes, spoiled(n, k, 40, nodes, room), lengths_of(nodes, size)[:n], k * 40 - 4)

    def joins(self, n, k, f, nodes, room, lengths):
        """Room, lengths and output as long as is needed, and each of them one shorter: a line."""
        for i in range(8):
            self.join(n, k, f, nodes, room[:less(n * f, i % 2)], lengths[:less(n, i // 2 % 2)], less(k * f - 4, i // 4), i == 7)


def less(x, yes):
    return max(x - yes, 0)


CODES = [(1, 1), (3, 1), (3, 2), (4, 2), (5, 3), (7, 4), (16, 8), (16, 16)]


def page_lengths(k):
    """Where a column, or a block of 16 columns, ends."""
    return [0, 1, k - 1, k, k + 1, 15, 16, 17, 33, 16 * k - 5, 16 * k - 4, 16 * k - 3, 32 * k - 4, 32 * k - 3]


def highest(n, k):
    return 2 ** n - 2 ** (n - k)


# Whose pieces are joined with a byte changed: n, k, F, the page's length, the map.
CHANGED = [(4, 2, 5, 5, 0x0005), (5, 3, 4, 7, 0x001C)]


# Document 01's edges, at n 4 and F 4: k and the page.
EDGES = [(2, '030a1118'), (2, '030a11181f'), (2, ''), (2, '41'), (3, '4142')]


def splits(v):
    for k, page in EDGES:
        v.split(4, k, 4, bytes.fromhex(page), 16)
    for n, k in CODES:
        for length in page_lengths(k):
            v.split(n, k, 40, some_page(length), n * 40)
        v.split(n, k, 5, some_page(k * 5 - 4), n * 5)
        v.split(n, k, 5, some_page(k * 5 - 3), n * 5)
        v.split(n, k, 7, some_page(3), n * 7 + 5)
    for n in range(1, 17):
        for k in range(1, n + 1):
            v.split(n, k, 40, some_page(29), n * 40)
    for n, k, f, length, _ in CHANGED:
        v.split(n, k, f, some_page(length), 20)


def cuts(v):
    for k, page in EDGES:
        for i in range(1, 5):
            v.cut(4, k, 4, i, bytes.fromhex(page), 4)
    for n, k in CODES:
        for length in page_lengths(k):
            v.cuts(n, k, 40, some_page(length))
        v.cuts(n, k, 5, some_page(k * 5 - 4))
        v.cuts(n, k, 5, some_page(k * 5 - 3))
        v.cuts(n, k, 7, some_page(3), 5)
    for n in range(1, 17):
        for k in range(1, n + 1):
            v.cuts(n, k, 40, some_page(29))


def joins(v):
    for n, k in [(3, 1), (4, 2), (5, 3)]:
        for nodes in range(2 ** n):
            v.rejoin(n, k, 17, nodes)
    for n, k, maps in [
            (7, 4, [0x0F, 0x78, 0x55, 0x36, 0x6B, 0x7F, 0x47]),
            (16, 8, [0x00FF, 0xFF00, 0x5555, 0xAAAA, 0x8F17, 0xFFFF, 0xF6D2]), (16, 16, [0xFFFF]), (1, 1, [0x0001]),
            # too few nodes, or one that is not there
            (7, 4, [0x07, 0x80, 0x8F, 0xFF0F]), (16, 8, [0x8000, 0x7F00]), (16, 16, [0x7FFF, 0xFFFE]), (1, 1, [0x0000, 0x8000])]:
        for nodes in maps:
            v.rejoin(n, k, 33, nodes)
    for n, k in CODES:
        for length in page_lengths(k):
            v.rejoin(n, k, length, highest(n, k))
    for n in range(1, 17):
        for k in range(1, n + 1):
            v.rejoin(n, k, 29, highest(n, k))
    # each byte of a room is changed in turn
    for at in range(20):
        for n, k, f, length, nodes in CHANGED:
            _, size, room = split(n, k, f, some_page(length), poison(20))
            v.join(n, k, f, nodes, room[:at] + bytes([room[at] ^ 0x5A]) + room[at + 1:], [size] * 16, 20)


# Numbers for n and k, and for F.
COUNTS = [0, 1, 2, 3, 4, 15, 16, 17, 2 ** 32, 2 ** 63, 2 ** 64 - 1]
WIDTHS = [0, 1, 2, 3, 4, 8, 4096, 4097, 2 ** 62, 2 ** 63, 2 ** 64 - 1]

# The bytes of page and room: a room too short for a page too long, a page too long, neither.
LENT = [(200, 0), (200, 128), (0, 128)]


def measures(v):
    """A line has every k."""
    every = [(n, k, f) for n in COUNTS for f in WIDTHS for k in COUNTS]
    for length, size in LENT:
        for n, k, f in every:
            v.split(n, k, f, some_page(length), size, k == COUNTS[-1])
    # slices too short for a wrong map, a wrong map, no piece
    for nodes, count, size in [(0xFFFF, 0, 0), (0xFFFF, 16, 128), (0, 16, 128)]:
        for n, k, f in every:
            v.join(n, k, f, nodes, bytes(128), [0] * count, size, k == COUNTS[-1])


def cut_measures(v):
    """A line has every k, for a node that there is and for one that there is not."""
    for (length, size), wrong in zip(LENT, (17, 2 ** 64 - 1, 0)):
        for n, f, i, k in itertools.product(COUNTS, WIDTHS, (1, wrong), COUNTS):
            v.cut(n, k, f, i, some_page(length), size, i == wrong and k == COUNTS[-1])


def cut_refusals(v):
    """Every order of the causes. A line has the fullest page and one byte more, in rooms longer than needed, of the needed length, one byte less and
    none."""
    for n, k, f in [(1, 1, 4), (2, 2, 2), (16, 16, 1), (16, 1, 9), (4, 2, 8), (5, 3, 3), (1, 1, 4096)]:
        sizes = sorted({f + 5, f, f - 1, 0}, reverse=True)
        # of two of these the low bits are a node's
        nodes = sorted({1, n, 0, n + 1, 17, 2 ** 8 + 1, 2 ** 32, 2 ** 32 + 1, 2 ** 63, 2 ** 64 - 1})
        for (count, parts), i in itertools.product([(n, k), (n, n + 1), (17, k)], nodes):
            for more, size in itertools.product((0, 1), sizes):
                v.cut(count, parts, f, i, some_page(k * f - 4 + more), size, more == 1 and size == 0)


def refusals(v):
    # the fullest page and one byte more, in a room of the needed length and in one byte less; then it is joined
    for n, k, f, nodes in [(1, 1, 4, 0x0001), (2, 2, 2, 0x0003), (16, 16, 1, 0xFFFF), (16, 1, 9, 0x8000), (4, 2, 8, 0x000F), (5, 3, 3, 0x0015),
                           (1, 1, 4096, 0x0001)]:
        for i in range(4):
            v.split(n, k, f, some_page(k * f - 4 + i % 2), less(n * f, i // 2), False)
        room = v.split(n, k, f, some_page(k * f - 4), 4100, False)
        v.joins(n, k, f, nodes, room, [f] * 16)
    # every order of the causes of a join's refusal, at pieces of 3 bytes: all lengths another, then one of them
    wrong = [[length] * 16 for length in (3, 0, 1, 2, 4, 8, 9, 65535)]
    for i in range(4):
        wrong += [[3] * i + [length] + [3] * (15 - i) for length in (0, 2, 4, 8, 9)]
    room = v.split(4, 3, 8, some_page(4), 4100, False)
    for nodes in (0x0007, 0x000E, 0x000F, 0x0000, 0x0001, 0x000A, 0x0010, 0x0013, 0x0017, 0x8007):
        for lengths in wrong:
            v.joins(4, 3, 8, nodes, room, lengths)


# Frames that no split makes, each with the k that its length in bytes is a multiple of.
FRAMES = [
    # the length: true, or more than there is
    (1, '00000002 4142'), (1, '00000003 4142'), (2, '00000004 41424344'), (2, '00000005 41424344'),
    (3, '00000005 4142434445'), (3, '00000006 4142434445'),
    # each byte of the length counts
    (1, '01000002 4142'), (1, '00010002 4142'), (1, '00000102 4142'), (1, 'ffffffff 4142'), (2, '80000004 41424344'),
    # fewer than k bytes of filling, all zero or not
    (2, '00000003 41424300'), (2, '00000003 41424301'), (2, '00000003 41424380'), (3, '00000004 4142434400'), (3, '00000004 4142434444'),
    (3, '00000003 4142430000'), (3, '00000003 4142430100'), (3, '00000003 4142430001'),
    # k bytes of filling, or more
    (1, '00000001 4100'), (1, '00000000 0000'), (2, '00000002 41420000'), (2, '00000001 41000000'), (3, '00000002 4142000000'),
    # the shortest, and those of fewer than 4 bytes
    (1, '00000000'), (1, '00000001'), (1, '000000'), (1, '00'), (2, '00000000'), (2, '00000001'), (2, '0000'),
    (3, '00000000 0000'), (3, '00000000 0100'), (3, '000000')]


def frames(v):
    for k, frame in FRAMES:
        # of three the lowest node is absent; what no piece fills is hex EE
        n, f, nodes = [(1, 6, [1]), (2, 4, [1, 2]), (4, 3, [2, 3, 4])][k - 1]
        frame = bytes.fromhex(frame)
        room = b''.join((piece_of(k, frame, i) if i in nodes else b'').ljust(f, b'\xee') for i in range(1, n + 1))
        v.join(n, k, f, sum(1 << (i - 1) for i in nodes), room, [len(frame) // k] * 16, 16)


def large(v):
    """The largest areas: 16 nodes and pieces of 4,096 bytes."""
    rooms = {k: v.split(16, k, 4096, some_page(k * 4096 - 4), 65536) for k in (16, 8)}
    for k, i in itertools.product((16, 8), (1, 7, 16)):
        v.cut(16, k, 4096, i, some_page(k * 4096 - 4), 4096)
    for k, nodes in [(16, 0xFFFF), (8, 0xFF00), (8, 0xFFFF), (8, 0xB5A6)]:
        room = spoiled(16, k, 4096, nodes, rooms[k]) if nodes == 0xB5A6 else rooms[k]
        v.join(16, k, 4096, nodes, room, [4096] * 16, 65532)


def main(folder):
    v = Calls()
    for part in (splits, cuts, cut_measures, cut_refusals, joins, measures, refusals, frames, large):
        part(v)
    open(folder + '/stdin', 'wb').write(v.commands)
    open(folder + '/stdout', 'w').write(v.text)


if __name__ == '__main__':
    main(sys.argv[1])
