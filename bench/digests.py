#!/usr/bin/env python3
"""SHA-256 of the messages of `sha256_vectors`, by Python's hashlib.

    digests.py FOLDER    writes FOLDER/stdout, a line for each message: what it is, and its digest

Written from FIPS 180-4 and the digests that NIST publishes with it; its author had read the program that prints these lines, and no proof or
definition. A published digest that hashlib does not give stops it.
After these come pieces in their place, from document 02 (i) alone: `placed`, version (in hex), node, length and digest, which is taken over version,
node and piece; `swapped`, where the node stands before the version; `bare`, length and the digest of the piece alone. All digests of one length
must differ. A piece is the front of the pattern."""
import hashlib
import sys

EXAMPLES = [
    ('empty', b'', 'e3b0c44298fc1c149afbf4c8996fb92427ae41e4649b934ca495991b7852b855'),
    ('abc', b'abc', 'ba7816bf8f01cfea414140de5dae2223b00361a396177a9cb410ff61f20015ad'),
    ('56 letters', b'abcdbcdecdefdefgefghfghighijhijkijkljklmklmnlmnomnopnopq',
     '248d6a61d20638b8e5c026930c3e6039a33ce45964ff2167f6ecedd419db06c1'),
    ('112 letters', b'abcdefghbcdefghicdefghijdefghijkefghijklfghijklmghijklmnhijklmnoijklmnopjklmnopqklmnopqrlmnopqrsmnopqrstnopqrstu',
     'cf5b16a778af8380036ce59e7b0492370b249b11e8f07a51afac45037afee9d1')]
MILLION = ('a million times a', b'a' * 1000000, 'cdc76e5c9914fb9281a1c7e284d73e67f1809a48a497200e046d39ccc7112cd0')

# how many bytes of the pattern: about where one, two and more blocks end
PATTERN = bytes((i * 7 + 3) % 256 for i in range(5000))
FRONTS = [1, 55, 56, 57, 63, 64, 65, 119, 120, 128, 1000, 4096, 5000]

# lengths of pieces: about where blocks end with 6 bytes before the piece, and without
PIECES = [0, 1, 2, 48, 49, 50, 51, 57, 58, 59, 63, 64, 65, 112, 113, 114, 121, 122, 123, 127, 128, 1000, 4096]
FEW = [1, 57, 58, 59, 63, 64, 121, 122, 4096]
HERE = (1, 0, 1)
ELSEWHERE = [(1, 0, 2), (2, 0, 1), (1, 1, 1), (2 ** 32 - 1, 7, 16)]


def digest(message):
    return hashlib.sha256(message).hexdigest()


def published(example):
    name, message, known = example
    assert digest(message) == known, name
    return '%s %s' % (name, known)


def version(sequence, client):
    return sequence.to_bytes(4, 'big') + bytes([client])


def placed(sequence, client, node, n):
    v = version(sequence, client)
    return 'placed %s %d %d %s' % (v.hex(), node, n, digest(v + bytes([node]) + PATTERN[:n]))


def swapped(sequence, client, node, n):
    v = version(sequence, client)
    return 'swapped %s %d %d %s' % (v.hex(), node, n, digest(bytes([node]) + v + PATTERN[:n]))


def bare(n):
    return 'bare %d %s' % (n, digest(PATTERN[:n]))


def pieces():
    lines = [placed(*HERE, n) for n in PIECES]
    for n in FEW:
        others = [placed(*where, n) for where in ELSEWHERE] + [swapped(*HERE, n), bare(n)]
        assert len({line.split()[-1] for line in others + [placed(*HERE, n)]}) == len(others) + 1
        lines += others
    return lines


def main(folder):
    lines = [published(e) for e in EXAMPLES] + ['%d %s' % (n, digest(PATTERN[:n])) for n in FRONTS] + [published(MILLION)] + pieces()
    open(folder + '/stdout', 'w').write('\n'.join(lines) + '\n')


if __name__ == '__main__':
    main(sys.argv[1])
