#!/usr/bin/env python3
"""An independent account of document 01's program `stand`, and the sessions that the proved one is held to.

    stand.py FOLDER             writes FOLDER/stdin (sessions) and FOLDER/stdout (what each must print)
    stand.py --sample FOLDER    writes document 01's example as the program `stand` itself takes and prints it

Written from document 01's promise and not from its steps: all nodes are honest and each message is delivered at once, so that the page is one
register. A deposit draws the sequence one above the highest, a reading gives the last deposit. Of reference.py it takes the bounds of the measures.
A session in stdin is its length (4 bytes, high byte first) and its bytes; in stdout, what is printed for it and then a line `=` alone."""
import random
import re
import struct
import sys

from reference import Broken, Measures, Refused

# Lines


def lines(data):
    """A line ends with a line feed, which the last one may lack."""
    parts = data.split(b'\n')
    return parts if parts[-1] else parts[:-1]


def number(word):
    if not re.fullmatch(rb'[0-9]+', word):
        raise Broken
    significant = word.lstrip(b'0') or b'0'
    if len(significant) > 10 or int(significant) >= 2 ** 32:
        raise Broken
    return int(significant)


def page(word):
    if word == b'empty':
        return b''
    if not re.fullmatch(rb'[0-9A-Fa-f]+', word) or len(word) % 2:
        raise Broken
    return bytes.fromhex(word.decode())


def read_line(line, forms):
    """The first word and the values of the others."""
    name, *words = line.split(b' ')
    if name not in forms or len(words) != len(forms[name]):
        raise Broken
    return name, [read(word) for read, word in zip(forms[name], words)]


FORMS = {b'config': [number] * 5, b'deposit': [number, page], b'read': [number]}


def hexed(data):
    return data.hex().upper() or 'empty'


def small(values):
    """The measures that a program takes."""
    s = Measures(*values)
    if not s.proper():
        raise Refused(1)
    if s.m > 3 or s.f > 64:
        raise Refused(2)
    return s


# The program


class Page:
    def __init__(self, s):
        self.s, self.sequence, self.writer, self.bytes = s, 0, None, None

    def deposit(self, c, data):
        if c >= self.s.m:
            raise Refused(3)
        if len(data) > self.s.k * self.s.f - 4:
            raise Refused(6)
        self.sequence, self.writer, self.bytes = self.sequence + 1, c, data
        return 'DEPOSIT %d %d' % (c, self.sequence)

    def read(self, c):
        if c >= self.s.m:
            raise Refused(3)
        if self.writer is None:
            return 'READ %d 0 none -' % c
        return 'READ %d %d %d %s' % (c, self.sequence, self.writer, hexed(self.bytes))


def first(line):
    name, values = read_line(line, FORMS)
    if name != b'config':
        raise Broken
    s = small(values)
    return Page(s), 'AWE %d %d %d %d %d' % (s.m, s.n, s.k, s.t, s.f)


def later(p, line):
    name, values = read_line(line, FORMS)
    if name == b'config':
        raise Broken
    return p.deposit(*values) if name == b'deposit' else p.read(*values)


def answer(session):
    out, p = [], None
    for line in lines(session):
        try:
            if p is None:
                p, what = first(line)
            else:
                what = later(p, line)
        except Broken:
            what = 'REFUSED 4'
        except Refused as r:
            what = 'REFUSED %d' % r.number
        out.append(what + '\n')
        if p is None:
            break
    return ''.join(out).encode()


# Sessions


SAMPLE = b'config 2 4 2 1 8\nread 1\ndeposit 0 41\nread 1\n'
HUGE = [b'%d' % x for x in (2 ** 32 - 1, 2 ** 32, 2 ** 32 + 1, 2 ** 32 + 2, 2 ** 33, 10 ** 10 - 1, 10 ** 10, 10 * 2 ** 32, 2 ** 64 - 1, 2 ** 64,
                            2 ** 64 + 1, 2 ** 64 + 2, 10 ** 20 - 1, 2 ** 128 + 1)]
ODD = (b"+1 -1 -0 1.0 1e1 0x1 1h 1_0 1,0 1' \"1\" a A one none - 00 0 EMPTY Empty empt emptyy empty00 00empty e 4 414 0x41".split(b' ')
       + [b'aB', b'Ab', b'4G', b'g4', b'41h', b'#', b'', b'4 1', b'41 41', b'\xd9\xa1', b'\xb9'])


def joined(parts):
    return b''.join(part + b'\n' for part in parts)


def config(*measures):
    return b'config %d %d %d %d %d' % measures


def deposit(c, data):
    return b'deposit %d %s' % (c, data.hex().encode() or b'empty')


def every_byte(line):
    """A line with each byte replaced by every other, removed, doubled, and with a byte put before it or at the end."""
    out = []
    for at in range(len(line)):
        out += [line[:at] + bytes([b]) + line[at + 1:] for b in range(256) if b != line[at]]
        out += [line[:at] + line[at + 1:], line[:at] + line[at:at + 1] * 2 + line[at + 1:]]
    for at in range(len(line) + 1):
        out += [line[:at] + b + line[at:] for b in (b'\0', b'\t', b'\r', b' ', b'\x0b', b'\xa0', b'\xff', b'-', b'+', b'0', b'a')]
    return out


def packed_alike(line):
    """First words that a number of 64 bits or a shorter one could take for the right one."""
    name, rest = line.split(b' ', 1)
    padded = (b'\1' + name).rjust(8, b'\0')
    alike = [padded, b'x' + padded, b'\1' + name, b'\0' + name, name + b'\0', name + name, name.ljust(263, b'x'), b'x' * 256 + name]
    return [x + b' ' + rest for x in alike]


def respaced(line):
    words = line.split(b' ')
    out = [s.join(words) for s in (b'  ', b'   ', b'\t', b'', b',', b'\r', b'\0', b'\xa0', b'\xc2\xa0')]
    out += [b + line for b in (b' ', b'\t', b'\r', b'\xef\xbb\xbf')] + [line + b for b in (b' ', b'\t', b'\r', b'\0')] + [b' ' + line + b' ']
    for at in range(len(words) + 1):
        for extra in (b'', b'0', b'1', b'41', b'empty', words[0], b'#'):
            out.append(b' '.join(words[:at] + [extra] + words[at:]))
    for at in range(len(words)):
        out += [b' '.join(words[:at] + words[at + 1:]), b' '.join(words[:at])]
    out += [line + b' 1' * n for n in (1, 2, 3, 7, 8, 250, 256)]
    return out


def recased(line):
    name, rest = line.split(b' ', 1)
    return [x + b' ' + rest for x in (name.upper(), name.capitalize(), name[:-1] + name[-1:].upper())] + [line.upper()]


def renumbered(line):
    """Each word but the first replaced by numbers at the edges of 32 and 64 bits, with zeros in front, and by words that are none."""
    words, out = line.split(b' '), []
    for at in range(1, len(words)):
        for word in HUGE + ODD + [b'0' * n + words[at] for n in (1, 2, 9, 10, 11, 19, 20, 255, 256, 4999)]:
            out.append(b' '.join(words[:at] + [word] + words[at + 1:]))
        for word in HUGE[:2] + HUGE[-2:]:
            out.append(b' '.join(words[:at] + [b'0' * 3000 + word] + words[at + 1:]))
    return out


def spoiled_lines(line):
    return every_byte(line) + packed_alike(line) + respaced(line) + recased(line) + renumbered(line)


OTHERS = (b',#,# read 1,stand,quit,help,AWE 2 4 2 1 8,READ 1,write 0 41,config,deposit,read,deposit 0,deposit 41,read 0 41,read empty,'
          b'deposit empty 0,deposit 0 empty empty,config 2 4 2 1,config 2 4 2 1 8 0,config 2 4 2 1 8,config 9 9 9 9 9,config 4 4 2 1 8,'
          b'config 2 4 2 1 65,config x,carry 0,show 1,liar 1, '.split(b',') + [b'\0', b'\t', b'\r', b'\xff' * 9, bytes(range(11, 256))])


def spoiled_first():
    """First lines; a deposit and a reading after each show whether the run went on."""
    rest = b'deposit 0 4142\nread 0\n'
    line = b'config 2 4 2 1 8'
    out = [x + b'\n' + rest for x in spoiled_lines(line)]
    for x in OTHERS + [b'read 1', b'deposit 0 41', b'deposit 9 41', b'read 4294967296', b'deposit 0 4']:
        out += [x, x + b'\n', x + b'\n' + line + b'\n' + rest, x + b'\n' + rest, b'\n' + x, line + b'\n' + x, line + b'\n' + x + b'\n' + rest]
    return out


def spoiled_later():
    """All lines in one session, with readings between them; then a few of them as a session's last line without its line feed."""
    out = []
    for line in (b'deposit 0 41', b'deposit 1 aF09', b'deposit 1 empty', b'read 1', b'read 0'):
        spoiled = spoiled_lines(line)
        body = [x for at, bad in enumerate(spoiled) for x in ([bad, b'read 0'] if at % 7 == 0 else [bad])]
        out.append(joined([b'config 2 4 2 1 8', line] + body))
        out += [b'config 2 4 2 1 8\ndeposit 1 77\n' + x for x in spoiled[::31] + recased(line) + [line]]
    body = [x for other in OTHERS for x in (other, b'read 1', other, b'deposit 1 ' + bytes(other[:3]).hex().encode(), b'read 0')]
    return out + [joined([b'config 2 4 2 1 8'] + body)]


def crlf():
    return [SAMPLE.replace(b'\n', b'\r\n'), SAMPLE.replace(b'\n', b'\r'), SAMPLE.replace(b'\n', b'\n\r'), SAMPLE.replace(b'\n', b'\n\n'),
            SAMPLE.replace(b'read 1\n', b'read 1\r\n'), SAMPLE.replace(b' ', b'\t'), b'\r\n' + SAMPLE, *(SAMPLE + b for b in (b'\r', b'\0', b'\x1a'))]


def ends():
    """Input cut anywhere; line feeds at the ends."""
    out = [b'', b'\n', b'\n\n', b' ', b'\0', b'\r', b'\n' + SAMPLE, SAMPLE + b'\n', SAMPLE + b'\n\n\n', SAMPLE + SAMPLE]
    whole = b'config 2 4 2 1 8\ndeposit 0 41\nread 1\ndeposit 1 empty\nread 0\ndeposit 0 4142434445464748494a4b4c\nread 1\n'
    return out + [SAMPLE[:n] for n in range(len(SAMPLE))] + [whole[:n] for n in range(len(whole))]


def all_measures():
    for n in range(1, 17):
        for t in range(n // 2 + 1):
            for k in range(1, n - 2 * t + 1):
                yield n, k, t


def edges_of_measures():
    big = [2 ** 32 - 1, 2 ** 32, 2 ** 31, 2 ** 31 - 1, 65536, 65535, 2 ** 30, 10 ** 20 - 1]
    edges = [[0, 1, 2, 3, 4, 5, 7, 8, 9, 255, 256, 257, 258], [0, 1, 3, 4, 5, 15, 16, 17, 255, 256, 260, 272], [0, 1, 2, 3, 4, 5, 16, 17, 256, 258],
             [0, 1, 2, 3, 7, 8, 128, 255, 256, 257], [0, 1, 2, 3, 4, 5, 63, 64, 65, 255, 256, 264, 4095, 4096, 4097, 8192, 65544]]
    base, out = (2, 4, 2, 1, 8), []
    for at in range(5):
        out += [(*base[:at], x, *base[at + 1:]) for x in edges[at] + big]
    for n in range(0, 18):
        for t in range(0, 10):
            out += [(1, n, k, t, 4) for k in {0, 1, n - 2 * t - 1, n - 2 * t, n - 2 * t + 1, n, n + 1} if k >= 0]
    out += [(m, 16, k, 0, f) for m in (1, 3) for k in range(1, 17) for f in (0, 1, 2, 3, 4, 64)]
    out += [(m, 4, 2, 1, f) for m in (0, 1, 3, 4, 8, 9) for f in (0, 1, 2, 64, 65, 4096, 4097)]
    out += [(m, n, k, t, f) for m in (4, 9) for n, k, t in ((0, 0, 0), (4, 2, 1), (3, 2, 1), (16, 16, 0)) for f in (0, 1, 64, 65, 4096, 4097)]
    out += [(3, 16, k, t, 8) for k, t in ((2 ** 31 - 1, 2 ** 31 + 1), (2 ** 32 - 1, 1), (2, 2 ** 31 - 1), (2 ** 32 - 2, 1))]
    out += [(3, 16, k, t, 8) for k, t in ((16, 2 ** 31), (2, 2 ** 32 - 1), (1, 2 ** 31))]
    out += [(1, 1, 1, 0, f) for f in (1, 2, 3, 4, 5, 2 ** 30 + 1, 2 ** 32 - 4, 2 ** 32 - 1)] + [(1, 4, 4, 0, 2 ** 30), (1, 4, 4, 0, 2 ** 30 + 1)]
    out += [(3, 16, 16, 0, 64), (3, 16, 1, 7, 64), (3, 16, 2, 7, 64), (3, 16, 1, 8, 64), (3, 16, 2, 8, 64), (3, 1, 1, 0, 64)]
    out += [(x,) * 5 for x in (0, 1, 2 ** 32 - 1)]
    return [config(*x) + b'\nread 0\ndeposit 0 empty\nread 0\n' for x in out]


def lengths(r, m, n, k, t, f):
    """Pages at the edge of what fits; a client number out of bounds comes before a page that is too long."""
    longest = k * f - 4
    parts = [config(m, n, k, t, f), b'read %d' % (m - 1)]
    for size in sorted({0, 1, longest - 1, longest, longest + 1}):
        if size >= 0:
            c, data = r.randrange(m), r.randbytes(size)
            parts += [deposit(c, data), b'read %d' % r.randrange(m)]
    return joined(parts + [b'deposit %d %s' % (m, b'aa' * (longest + 1)), b'read 0'])


def page_lengths(r):
    out = []
    for at, (n, k, t) in enumerate(all_measures()):
        out.append(lengths(r, 1 + at % 3, n, k, t, 4 + at % 2))
        if at % 6 == 0:
            out.append(lengths(r, 1 + at // 6 % 3, n, k, t, 63 + at // 6 % 2))
    for f in range(1, 65):
        out.append(lengths(r, 1 + f % 3, 5, max(2, -(-4 // f)), 0, f))
    return out


def filled(r):
    """Pages of one byte value, of zeros, of what a length looks like; full and nearly full."""
    out = []
    for m, n, k, t, f in ((3, 4, 2, 1, 8), (2, 16, 16, 0, 64), (1, 1, 1, 0, 64), (3, 16, 8, 4, 5)):
        longest, parts = k * f - 4, [config(m, n, k, t, f)]
        for size in sorted({longest, longest - 1, max(longest - k, 0), min(4, longest), min(k, longest)}):
            for data in (bytes(size), b'\xff' * size, (b'\1' + bytes(size))[:size], bytes(size)[1:] + b'\1' * (size > 0), b'\n' * size, b'0' * size):
                parts += [deposit(r.randrange(m), data), b'read %d' % r.randrange(m)]
        out.append(joined(parts))
    return out


def long_lines():
    zeros, digits = b'0' * 100001, b'4a' * 50001
    parts = [b'read ' + zeros + b'2', b'deposit ' + zeros + b'0 7273', b'read ' + zeros + b'4294967296', b'read ' + zeros[:9000] + b'3']
    parts += [b'deposit 0 ' + x for x in (digits, digits + b'g', digits + b'0', digits[:9001], b'g' + digits[:9001], digits[:9000] + b' ')]
    parts += [b'read 0', b'deposit 3 ' + digits[:9000], b'deposit 4294967296 ' + digits[:9000], b'deposit 3 ' + digits[:9000] + b'x', b'x' * 70001]
    parts += [b'read 1' + b' 1' * 65536, b'read 0']
    out = [joined([b'config 3 4 2 1 8', b'deposit 1 7071'] + parts)]
    out += [joined([b'config %s3 4 2 1 %s8' % (zeros[:n], zeros[:9000]), b'deposit 1 7071', b'read 0']) for n in (0, 100001)]
    for s in ((3, 4, 2, 1, 8), (3, 16, 16, 0, 64)):
        body = []
        for n in (21, 1020, 1021, 1024, 1025, 1100, 1101, 4096):
            body += [b'deposit 0 ' + b'ab' * n, b'deposit 2 ' + b'ab' * n + b'z', b'deposit 0 a' + b'ab' * n, b'read 2']
        body += [b'deposit 0 ' + b'41' * n for n in (32769, 65537) if s[4] == 8]
        out.append(joined([config(*s), b'deposit 1 7071'] + body + [b'read 2']))
    return out


def some_case(r, data):
    return bytes(r.choice((b, ord(chr(b).upper()))) for b in data)


def life(r, m, n, k, t, f, turns, bad=0.05):
    """Deposits and readings of all clients, refused ones among them."""
    parts, longest = [config(m, n, k, t, f)], k * f - 4
    for _ in range(turns):
        c = b'0' * r.choice([0, 0, 0, 1, 5]) + b'%d' % (r.randrange(m) if r.random() > bad else r.choice([m, m + 1, 255, 256, 2 ** 32 - 1, 2 ** 32]))
        size = r.choice([0, 1, longest, r.randint(0, longest), r.randint(0, min(9, longest))]) if r.random() > bad else longest + r.randint(1, 9)
        data = some_case(r, r.randbytes(size).hex().encode()) or b'empty'
        line = b'deposit ' + c + b' ' + data if r.random() < 0.5 else b'read ' + c
        parts.append(r.choice(every_byte(line)) if r.random() < bad and len(line) < 60 else line)
    return joined(parts)


def some_measures(r):
    while True:
        s = (r.randint(1, 3), r.randint(1, 16), r.randint(1, 16), r.randint(0, 7), r.choice([1, 2, 4, 8, 64, r.randint(1, 64)]))
        if Measures(*s).proper():
            return s


def lives(r):
    out = [life(r, *s, turns) for s, turns in (((3, 4, 2, 1, 8), 900), ((3, 16, 16, 0, 64), 60), ((3, 16, 2, 7, 64), 150), ((1, 1, 1, 0, 4), 300),
                                               ((3, 7, 3, 2, 2), 700), ((1, 5, 1, 2, 20), 400), ((3, 16, 16, 0, 1), 500))]
    out += [life(r, 2, 4, 2, 1, 8, 600, 0), joined([b'config 3 5 3 1 9'] + [b'deposit 0 aa', b'read 1'] * 300)]
    readings = [b'read 0', b'read 1', b'read 2'] * 40
    out += [joined([b'config 3 5 3 1 9'] + readings + [b'deposit 2 empty'] + readings[::-1])]
    out += [joined([b'config 3 4 2 1 8'] + [b'deposit %d %02x' % (i % 3, i % 256) for i in range(600)] + [b'read 0'])]
    for _ in range(200):
        s = some_measures(r)
        out.append(life(r, *s, r.randint(0, 12 if s[4] < 20 else 4), r.choice([0, 0, 0.1, 0.3])))
    return out


def sessions():
    r = random.Random(1)
    out = [SAMPLE, SAMPLE[:-1], SAMPLE.replace(b'0 41', b'0 4A'), SAMPLE.replace(b'config', b'CONFIG')]
    out += [joined([b'config 3 4 2 1 8', b'deposit ' + x, b'read 0']) for x in (b'3 41', b'0 ' + b'41' * 13, b'3 ' + b'41' * 13, b'3 4', b'2 414243')]
    out += [joined([b'config 3 4 2 1 8', b'read ' + x, b'read 0']) for x in (b'3', b'03x', b'002')]
    for part in (ends(), crlf(), edges_of_measures(), spoiled_first(), spoiled_later(), page_lengths(r), filled(r), long_lines(), lives(r)):
        out += part
    return out


def write(folder, sessions, answer):
    """Both files; gives the answers."""
    answers = [answer(x) for x in sessions]
    open(folder + '/stdin', 'wb').write(b''.join(struct.pack('>I', len(x)) + x for x in sessions))
    open(folder + '/stdout', 'wb').write(b''.join(x + b'=\n' for x in answers))
    print(len(sessions), 'sessions of', sum(len(lines(x)) for x in sessions), 'lines and', sum(map(len, sessions)), 'bytes')
    return answers


def write_sample(folder):
    open(folder + '/stdin', 'wb').write(SAMPLE)
    open(folder + '/stdout', 'wb').write(answer(SAMPLE))


def write_sessions(folder):
    kinds = {}
    for out in write(folder, sessions(), answer):
        for line in out.decode().splitlines():
            key = line if line.startswith('REFUSED') else line.split()[0]
            kinds[key] = kinds.get(key, 0) + 1
    for key in sorted(kinds):
        print(kinds[key], key)


def main(arguments):
    # document 01's own output
    assert answer(SAMPLE) == b'AWE 2 4 2 1 8\nREAD 1 0 none -\nDEPOSIT 0 1\nREAD 1 1 0 41\n'
    if arguments[0] == '--sample':
        write_sample(arguments[1])
    else:
        write_sessions(arguments[0])


if __name__ == '__main__':
    main(sys.argv[1:])
