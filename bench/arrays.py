#!/usr/bin/env python3
"""Which arrays splitting keeps: document 02 (d) allows none of more than 16 numbers.

    (cd crates/coding && rt lib) && python3 bench/arrays.py [FILE]

Reads the code of `coding` that is compiled once it is proved, as `rt lib` leaves it, and follows the calls from `split` and from `cut`.
Prints the functions that each reaches and how many numbers their arrays have, parameters, results and constants among them. Ends with 1
if one has more, is an array of arrays or has a length that is not written out, or if a function of another crate is reached that LIBRARY
does not name."""
import json
import os
import sys

LONGEST = 16
# Of the standard library: `to_be_bytes` has an array of 8 numbers, as its source in the kit says, and the others have none.
LIBRARY = {
    'core::int::usize::min',
    'core::int::usize::to_be_bytes',
    'core::option::Option::unwrap_or',
    'core::option::more::Option+ref+T::copied',
    'core::result::ResultFromResidualErrResidual::from_residual',
    'core::result::ResultTry::branch',
    'core::slice::edits::slice+T::copy_from_slice',
    'core::slice::slice+T::get',
}
HERE = os.path.dirname(os.path.abspath(__file__))
FILE = os.path.join(HERE, '../crates/coding/out/rlib/coding.rlib/toolchain/mir.json')


def parts(code, name):
    """What stands under a name, anywhere in the code."""
    if isinstance(code, dict):
        for key, value in code.items():
            if key == name:
                yield value
            yield from parts(value, name)
    elif isinstance(code, list):
        for value in code:
            yield from parts(value, name)


def functions(mir):
    """Of each function the lengths of its arrays, whether one is of arrays, and the functions that it calls."""
    found = {}
    for name, body in mir:
        arrays = list(parts(body, 'Array'))
        lengths = {size.get('Lit') for _, size in arrays} | {size.get('Lit') for _, size in parts(body, 'Repeat')}
        nested = any(True for element, _ in arrays for _ in parts(element, 'Array'))
        found[name] = lengths, nested, {called for called, _ in parts(body, 'Fn')}
    return found


def reached(found, name):
    seen, left = set(), [name]
    while left:
        name = left.pop()
        if name not in seen:
            seen.add(name)
            left += found[name][2] if name in found else ()
    return seen


def main():
    with open(sys.argv[1] if sys.argv[1:] else FILE, encoding='utf-8') as file:
        found, wrong = functions(json.load(file)), False
    for name in 'coding::split::split', 'coding::split::cut':
        names = reached(found, name)
        others = sorted(names - set(found) - LIBRARY)
        own = names & set(found)
        lengths = set().union(*(found[f][0] for f in own))
        nested = any(found[f][1] for f in own)
        print('%s reaches %d functions and %d of the library; numbers in an array: %s'
              % (name, len(own), len(names & LIBRARY), sorted(lengths, key=str)))
        print('   ', ' '.join(sorted(f.removeprefix('coding::') for f in names)))
        wrong = wrong or nested or None in lengths or max(lengths) > LONGEST or bool(others)
    sys.exit(wrong)


if __name__ == '__main__':
    main()
