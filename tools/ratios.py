#!/usr/bin/env python3
"""Ratios for the program `ratios`, and what it must write, by another program's division.

    ratios.py                    writes crates/ratios/stdin and crates/ratios/stdout: a ratio of each kind, and document 01's (g) to (j)
    ratios.py --check            says whether the two files are what this program makes
    ratios.py --compare PROGRAM  runs PROGRAM on all ratios made here, and compares every line

The float is Python's int / int, which rounds correctly. That it did so is looked at too (nearest_float.py), ratio by ratio, in exact
fractions: the float's two neighbours lie no nearer, and where one lies equally near, the float's last bit is 0. The sign of its side
(request A.10) comes from the float itself, compared with the ratio in exact fractions.
"""
import collections
import itertools
import pathlib
import random
import struct
import subprocess
import sys

from nearest_float import SIGNS, nearest_bits, side_sign

CRATE = pathlib.Path(__file__).resolve().parent.parent / 'crates' / 'ratios'
SEED = 20261116
LIMIT = 6 * 10**18
LEAST, MOST = -2**63, 2**63 - 1
AT_ONCE = 65536 // 16  # as many ratios as the program reads
REFUSED = 'refused 18'

# (g) to (j) of document 01, and their lines: the bits as it prints them or as its float has them, and the side found by hand
PRINTED = [
    (9007199254740993, 1, '4340000000000000<'),
    (9007199254740995, 1, '4340000000000002>'),
    (-1, 3, 'BFD5555555555555>'),
    (1, 10, '3FB999999999999A>'),
]
PRINTED_RATIOS = [(p, q) for p, q, _ in PRINTED]


# ---- what must be written

def line(p, q):
    """The line of a ratio: a refusal, or the bits of the float and the sign of its side."""
    if q < 1 or max(abs(p), q) > LIMIT:
        return REFUSED
    float_bits = nearest_bits(p, q)
    return f'{float_bits:016X}{side_sign(float_bits, p, q)}'


# ---- the ratios, kind by kind

def signed(rng, p):
    """The number with either sign."""
    return rng.choice((p, -p))


def any_size(rng):
    """A number of up to 63 binary digits."""
    return rng.getrandbits(rng.randint(1, 63))


def at_random(rng):
    """Of any two sizes; some are beyond the limit."""
    for _ in range(40000):
        yield signed(rng, any_size(rng)), any_size(rng)


def around(rng, p):
    """p over a power of 2, by numbers with a common factor, and the two ratios next to it."""
    common = rng.randint(1, LIMIT // p)
    power = 2**rng.randint(0, (LIMIT // common).bit_length() - 1)
    for off in (0, -1, 1):
        yield signed(rng, p * common + off), common * power


def digits_53(rng, edge):
    """A number of 53 binary digits, often one at the ends."""
    return rng.choice((2**52, 2**52 + 1, 2**53 - 2, 2**53 - 1)) if edge else rng.randint(2**52, 2**53 - 1)


def ties(rng):
    """Halfway between two floats, and next to it."""
    for count in range(18000):
        yield from around(rng, 2 * digits_53(rng, count % 6 == 0) + 1)


def exact(rng):
    """At a float, and next to it: below a power of 2 the gap is half of that above."""
    for count in range(4000):
        yield from around(rng, digits_53(rng, count % 4 == 0))


def wholes(rng):
    """Whole numbers of more than 53 digits, at a float, halfway between two and next to both: the division leaves no rest, so that the
    digits that are cut off alone decide the side."""
    for count in range(1500):
        gap = 2**rng.randint(1, 9)
        size = digits_53(rng, count % 4 == 0) * gap
        for off in (0, gap // 2):
            for p in (size + off - 1, size + off, size + off + 1):
                common = rng.randint(1, LIMIT // p)
                yield signed(rng, p * common), common


def powers(rng):
    """Powers of 2 and the numbers next to them."""
    for a in range(63):
        for b in range(63):
            off = rng.choice((-1, 0, 1))
            for p in (2**a - 1, 2**a, 2**a + 1):
                yield signed(rng, p), 2**b + off


def small(rng):
    """All small ratios."""
    for p in range(-60, 61):
        for q in range(1, 61):
            yield p, q


def coefficients(rng):
    """Of the sizes that an account's numerators and divisors have."""
    for _ in range(8000):
        weight, spread = rng.randint(1, 36288), rng.randint(1, 80640000000000)
        yield rng.randint(-LIMIT, LIMIT), weight * spread
        yield rng.randint(0, LIMIT), 2 * weight * spread


def limits(rng):
    """At the limits, one beyond them, and at the ends of the type."""
    sizes = [0, 1, LIMIT - 1, LIMIT, LIMIT + 1, MOST - 1, MOST]
    ends = sorted({s for size in sizes for s in (size, -size)} | {LEAST, LEAST + 1})
    for p in ends:
        for q in ends:
            yield p, q
    for _ in range(2000):
        end, other = rng.choice(ends), signed(rng, any_size(rng))
        yield end, other
        yield other, end


def refusals(rng):
    """A divisor below 1, p being 0 in some; a number beyond the limit."""
    for count in range(2000):
        p = 0 if count % 8 == 0 else signed(rng, any_size(rng))
        yield p, -any_size(rng)
        yield signed(rng, rng.randint(LIMIT + 1, MOST)), max(1, any_size(rng))
        yield p, rng.randint(LIMIT + 1, MOST)


def zeros(rng):
    """0 over any divisor."""
    for _ in range(1000):
        yield 0, max(1, any_size(rng))


KINDS = [at_random, ties, exact, wholes, powers, small, coefficients, limits, refusals, zeros]


def made(kind):
    """The ratios of a kind, but those beyond the ends of the type."""
    rng = random.Random(f'{SEED} {kind.__name__}')
    return [(p, q) for p, q in kind(rng) if LEAST <= p <= MOST and LEAST <= q <= MOST]


def packed(ratios):
    """The bytes of ratios, as the program reads them."""
    return b''.join(struct.pack('<qq', p, q) for p, q in ratios)


# ---- the sides that occur

def count_sides(ratios, lines):
    """How many ratios below 0 have each side, and how many others."""
    return collections.Counter((p < 0, written[-1]) for (p, _), written in zip(ratios, lines) if written != REFUSED)


def must_have_sides(counts, where):
    """Ends the run where a side does not occur below 0, or among the others, so that none goes uncompared."""
    for is_negative, sign in itertools.product((False, True), SIGNS):
        if counts[is_negative, sign] == 0:
            sys.exit(f'{where}: no ratio {"below 0" if is_negative else "of 0 or above"} has the side `{sign}`')


def told_of_sides(counts):
    """The counts in words."""
    return ', '.join(f'{counts[False, sign] + counts[True, sign]} `{sign}` of which {counts[True, sign]} below 0' for sign in SIGNS)


# ---- the kept files

def kept():
    """The two files by their names."""
    ratios = list(PRINTED_RATIOS)
    for kind in KINDS:
        ratios += random.Random(SEED).sample(made(kind), 16)
    ratios += [(LIMIT, 1), (-LIMIT, LIMIT), (1, LIMIT), (LIMIT + 1, 1), (-LIMIT - 1, 1), (1, LIMIT + 1), (1, 0), (0, 0), (0, -1),
               (LEAST, LEAST)]
    lines = [line(p, q) for p, q in ratios]
    for (p, q, wanted), found in zip(PRINTED, lines):
        if found != wanted:
            sys.exit(f'{p} / {q} gives {found}, and by document 01 and request A.10 it is {wanted}')
    must_have_sides(count_sides(ratios, lines), 'the kept ratios')
    return {'stdin': packed(ratios), 'stdout': ''.join(line + '\n' for line in lines).encode()}


def make():
    """Writes the two files."""
    for name, data in kept().items():
        (CRATE / name).write_bytes(data)


def check():
    """Whether the two files are what is made here."""
    for name, data in kept().items():
        if (CRATE / name).read_bytes() != data:
            sys.exit(f'crates/ratios/{name} is not what tools/ratios.py makes')
    print('the kept ratios are what tools/ratios.py makes')


# ---- the comparison

def run(program, given):
    """The lines that the program writes."""
    return subprocess.run([program], input=given, capture_output=True, check=True).stdout.decode().splitlines()


def compare(program):
    """Compares every line of all ratios, kind by kind, and of inputs that are cut off."""
    every, refused, sides = 0, 0, collections.Counter()
    for kind in KINDS:
        ratios = made(kind)
        wanted = [line(p, q) for p, q in ratios]
        found = []
        for i in range(0, len(ratios), AT_ONCE):
            found += run(program, packed(ratios[i:i + AT_ONCE]))
        if found != wanted:
            wrong = [(r, w, f) for r, w, f in zip(ratios, wanted, found) if w != f]
            sys.exit(f'{kind.__name__}: {len(wanted)} lines wanted, {len(found)} found; first that differ: {wrong[:3]}')
        every, refused, sides = every + len(wanted), refused + wanted.count(REFUSED), sides + count_sides(ratios, wanted)
        print(f'{kind.__name__:12} {len(wanted):6} ratios equal, {wanted.count(REFUSED)} of them refused')
    whole = packed(PRINTED_RATIOS)
    for length in range(len(whole)):
        if run(program, whole[:length]) != [line(p, q) for p, q in PRINTED_RATIOS[:length // 16]]:
            sys.exit(f'input cut off after {length} bytes: another number of lines than whole ratios')
    print(f'{every} ratios equal, {refused} of them refused; {len(whole)} inputs cut off, of which each whole ratio has its line')
    print(f'their sides: {told_of_sides(sides)}')
    must_have_sides(sides, 'all kinds together')
    if every < 100000:
        sys.exit('fewer than 100,000 ratios')


if __name__ == '__main__':
    if len(sys.argv) == 1:
        make()
    elif sys.argv[1:] == ['--check']:
        check()
    elif len(sys.argv) == 3 and sys.argv[1] == '--compare':
        compare(sys.argv[2])
    else:
        sys.exit(__doc__)
