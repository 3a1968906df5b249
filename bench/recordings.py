#!/usr/bin/env python3
"""An independent account of document 02's recordings by byte plane (l); the calls that `recordings_vectors` executes and the lines that it is held
to.

    recordings.py FOLDER    writes FOLDER/stdin, the calls, and FOLDER/stdout, their lines

Written from document 02 (l) and number 2, with the names and types of the four calls: the first byte of each sample in turn, then the second of
each, and so on; the way back takes a byte of each plane in turn. The author, who wrote `recordings_vectors` too, had not read the proved code or its
definitions. What input and lines mean stands at the top of that program. An output is at first `poison`."""
import itertools
import sys


def planes_of(width, data):
    """The first byte of each sample, then the second of each, and so on."""
    samples = [data[at:at + width] for at in range(0, len(data), width)]
    return bytes(sample[p] for p in range(width) for sample in samples)


def samples_of(width, data):
    """The first byte of each plane, then the second of each, and so on."""
    count = len(data) // width
    planes = [data[p * count:p * count + count] for p in range(width)]
    return bytes(plane[s] for s in range(count) for plane in planes)


# By hand: the width, samples, their planes.
EXAMPLES = [
    (3, b'', b''), (3, b'a1x', b'a1x'), (3, b'a1xb2y', b'ab12xy'), (3, b'a1xb2yc3zd4w', b'abcd1234xyzw'), (1, b'abcde', b'abcde'),
    (2, b'a1b2c3', b'abc123'), (8, b'abcdefghABCDEFGH', b'aAbBcCdDeEfFgGhH')]

# The calls; the last two take no width.
PLANES, SAMPLES, REARRANGE, RESTORE = range(4)
NAMES = ['planes', 'samples', 'rearrange', 'restore']


def called(way, width, data, out):
    """A refusal's number or 0, and the output after the call."""
    if len(out) < len(data):
        return 2, out
    if not 1 <= width <= 8 or len(data) % width != 0:
        return 15, out
    there, back = (planes_of, samples_of) if way in (PLANES, REARRANGE) else (samples_of, planes_of)
    found = there(width, data)
    assert back(width, found) == data and sorted(found) == sorted(data), (way, width, data)
    return 0, found + out[len(data):]


# What the calls work on.

def checksum(data):
    h = 0
    for b in data:
        h = (h * 257 + b + 1) % 2 ** 32
    return h


def poison(n):
    return bytes((i % 256 * 13 + 170) % 256 for i in range(n))


def arbitrary(n):
    found, x = bytearray(), 1
    for _ in range(n):
        x = (x * 1103515245 + 12345) % 2 ** 31
        found.append(x >> 16 & 255)
    return bytes(found)


MOST = arbitrary(65536)


def some_bytes(n, start=0):
    """All different where they can be."""
    return bytes((start * 5 + i * 7 + 3) % 256 for i in range(n)) if n <= 256 else MOST[:n]


class Calls:
    """Calls as input, and what they must print. Data that stand already are not given again."""

    def __init__(self):
        self.input, self.lines, self.stands = bytearray(), [], bytes(65536)

    def fresh(self, data):
        """The front of the data, up to the last byte that is another than stands."""
        n = len(data)
        while n > 0 and data[n - 1] == self.stands[n - 1]:
            n -= 1
        return data[:n]

    def call(self, way, width, data, size):
        number, out = called(way, width, data, poison(size))
        fresh = self.fresh(data)
        self.stands = fresh + self.stands[len(fresh):]
        takes = way in (PLANES, SAMPLES)
        self.input += bytes([way]) + (width if takes else 0).to_bytes(8, 'big')
        for length in len(fresh), len(data), size:
            self.input += length.to_bytes(4, 'big')
        self.input += fresh
        few = ''.join(' ' + part.hex() for part in (data, out) if len(part) <= 24)
        both = (checksum(data) * 31 + checksum(out)) % 2 ** 32
        name = NAMES[way] + (' %d' % width if takes else '')
        self.lines.append('%s %d %d: %d%s sum %d\n' % (name, len(data), size, number, few, both))

    def both(self, width, data, sizes):
        """To planes and to samples, with outputs of these lengths."""
        for way, size in itertools.product(to_planes(width) + to_samples(width), sizes):
            self.call(way, width, data, size)

    def back(self, width, data):
        """From what each way gives, the way back."""
        for found, ways in [(planes_of(width, data), to_samples(width)), (samples_of(width, data), to_planes(width))]:
            for way in ways:
                self.call(way, width, found, len(data))


def to_planes(width):
    return [PLANES, REARRANGE] if width == 3 else [PLANES]


def to_samples(width):
    return [SAMPLES, RESTORE] if width == 3 else [SAMPLES]


def longer(n):
    return n, n + 1, n + 7, n + 1000


WIDTHS = range(1, 9)
COUNTS = [0, 1, 2, 3, 5, 15, 16, 17, 31, 33, 255, 256, 257, 300, 511, 512, 513, 1000]


def examples(v):
    for width, samples, planes in EXAMPLES:
        assert planes_of(width, samples) == planes and samples_of(width, planes) == samples, (width, samples)
        v.both(width, samples, [len(samples)])
        v.back(width, samples)


def every_width(v):
    every = [(width, some_bytes(width * count, width)) for width in WIDTHS for count in COUNTS]
    for width, data in every:
        v.both(width, data, longer(len(data)))
    for width, data in every:
        v.back(width, data)


def three_bytes(v):
    for n in range(0, 213, 3):
        v.both(3, some_bytes(n, n), (n, n + 7))
        v.back(3, some_bytes(n, n))
    for count in 767, 768, 769, 1023, 1024, 1025, 4999, 5000, 5001:
        v.both(3, some_bytes(3 * count), longer(3 * count))
    for count in 768, 1024, 5000:
        v.back(3, some_bytes(3 * count))


def large(v):
    """As much as is lent at all."""
    for width in WIDTHS:
        n = 65536 // width * width
        v.both(width, MOST[:n], sorted({n, 65536}))
    v.both(3, MOST[:65535], (65534, 0))
    v.both(3, MOST, (65536, 65535))


def short(v):
    """The output is shorter: by a byte, by a sample, by half, by all."""
    for width, count in itertools.product(WIDTHS, [1, 2, 5, 33, 300]):
        n = width * count
        v.both(width, some_bytes(n, count), sorted({n - 1, n - width, n // 2, 0}))


def no_multiple(v):
    """At some widths. An output that is too short comes first all the same."""
    for n, width in itertools.product((1, 2, 3, 4, 5, 6, 7, 8, 9, 16, 17, 23, 25), WIDTHS):
        v.both(width, some_bytes(n, 7), sorted({n, n + -n % width, n - 1}))
    for count, width in itertools.product((16, 33, 256, 1000), WIDTHS):
        for n in width * count + 1, width * count - 1:
            v.both(width, some_bytes(n, 7), (n, n + 1, n - 1, 0))


# Among them are such whose low 3, 8, 16, 31, 32 or 63 bits are a proper width.
NO_WIDTHS = [0, 9, 10, 16, 24, 255, 256, 256 + 1, 256 + 3, 256 + 8, 2 ** 16 + 3, 2 ** 31 + 3, 2 ** 32, 2 ** 32 + 1, 2 ** 32 + 3, 2 ** 32 + 8,
             2 ** 63, 2 ** 63 + 3, 2 ** 64 - 8, 2 ** 64 - 1]


def no_widths(v):
    """Also of no bytes, and of as many as one or two samples of that width would have. Again a short output comes first."""
    for width in NO_WIDTHS:
        for n in sorted({0, 1, 3, 24} | {m * width for m in (1, 2) if m * width <= 600}):
            v.both(width, some_bytes(n, 7), sorted({n, n + 7, max(n - 1, 0), 0}))


def main(folder):
    v = Calls()
    for part in (examples, every_width, three_bytes, large, short, no_multiple, no_widths):
        part(v)
    open(folder + '/stdin', 'wb').write(v.input)
    open(folder + '/stdout', 'w').write(''.join(v.lines))


if __name__ == '__main__':
    main(sys.argv[1])
