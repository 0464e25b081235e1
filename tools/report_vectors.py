#!/usr/bin/env python3
"""Compares two report programs, on images that are whole and on damaged ones, and times them.

    report_vectors.py --compare PROGRAM OTHER  runs both on some thousands of images, a process for each, and compares every byte written;
                                               looks at the printed text by itself too, and at all that must have been reached
    report_vectors.py --time PROGRAM OTHER     runs both by turns on the largest image; fails where the ratio of the least times is
                                               above 1.5

OTHER is meant to be tools/independent_report.c, compiled with gcc -O2. What is looked at in a text: the form and the order of its lines,
its W as that of the joins that count, its n, S and M as those of the zones that these touch, the numerators and divisors by the numbers of
its first lines, a local line for each of these zones and no other, in hot-list order, that local numerators add up to P, classes to the
joins line, categories to W and the rank to the number of shuffles, that each float is the nearest to its ratio, and that its sign says
on which side of the ratio the printed float lies, both in exact fractions. That wrong signs, and local lines in another order, would be
seen is tried on the samples' reports.
Where zones are left out, the text must be that of the job of the kept zones alone, with the joins among them, but for the zone numbers;
where none is kept, the number must be 6, and where the kept values are equal, 7. An image whose number was found by hand must be refused
with that number, and that of a job that breaks no rule must be accepted; any other must be accepted, or refused with a number that the
reader can give.
"""
import collections
import functools
import itertools
import math
import os
import pathlib
import random
import re
import statistics
import subprocess
import sys
import tempfile
import time
from dataclasses import replace
from fractions import Fraction

from image_cases import (BAND, FAR, LONGEST, MARK_LAST, REPORT, any_bytes, by_hand, choices_of_kept, choices_of_marks, counting, drawn,
                         drawn_job, drawn_joins, drawn_kept, drawn_places, drawn_shuffles, drawn_values, every_byte, every_cut, image,
                         job_with_all, kept_of, largest, largest_job, left_out, marked, marked_at_times, marks_of, some_bytes, touching,
                         with_drawn_marks, with_marks, with_spread)
from job_image import NOT_RETURNED, Job, decode, encode, flat, sections_of
from nearest_float import SIGNS, nearest_bits, side_sign

SAMPLES = pathlib.Path(__file__).resolve().parent.parent / 'samples'
SEED = 20261121
RUNS, RATIO = 300, 1.5  # how often each program is timed, and how much longer the first one may take
NUMBERS = {1, 3, 4, 5, 6, 7, 8, 10, 11, 12, 13, 14, 15, 16, 17}  # every number that the reader can give
REFUSALS = {f'refused {number}\n': number for number in NUMBERS}  # what is written then; any other text is looked at as a report

WHOLE, ABOVE, NUMBER = '(?:0|[1-9][0-9]*)', '[1-9][0-9]*', '(?:0|-?[1-9][0-9]*)'
COEFFICIENT = f'[0-9A-F]{{16}}[{SIGNS}]'  # the float's bits and, unspaced, the sign of its side
FORMS = {
    'zones': f'{ABOVE} {NUMBER} {ABOVE}',
    'joins': f'{ABOVE} {NUMBER} {WHOLE}',
    'moran': f'{NUMBER} {ABOVE} {COEFFICIENT}',
    'geary': f'{WHOLE} {ABOVE} {COEFFICIENT}',
    'expected': f'-1 {ABOVE}',
    'local': f'{WHOLE} {NUMBER} {ABOVE} {COEFFICIENT}',
    'pair': f'[0-7] [0-7] {ABOVE}',
    'class': f'[0-8] {WHOLE} {NUMBER} {WHOLE} (?:{COEFFICIENT} {COEFFICIENT}|- -)',
    'rank': f'{WHOLE} {WHOLE} {WHOLE}',
}

# what a comparison must have come by: images that are accepted and have ...
PAIR, CLASS, RANK, WEIGHTLESS = 'pair lines', 'class lines', 'a rank line', '`-` in a class line'
NEGATIVE_P, NEGATIVE_L, TIES, NOUGHT = 'P below 0', 'some L below 0', 'equal L', 'P of 0'
EIGHT, BEYOND, THREE, TWO, MANY, LONG = ('8 bands', 'weight beyond the last band', 'less, equal and greater all above 0', '2 zones',
                                         '64 zones', '44,908 bytes')
DOWN, UP = 'a float halfway, rounded down', 'rounded up'
NO_ZONE, ONE, SEVERAL, FIRST, LAST, BUT_TWO = ('no zone left out', 'one left out', 'several', 'the first', 'the last', 'all but two')
ROW, COLUMN = 'a kept zone with weight in its row only', 'in its column only'
OUT_PAIR, OUT_CLASS, OUT_RANK = 'zones left out and pair lines', 'and class lines', 'and a rank of less, equal and greater'
RETURNED, MARK, MARKS, UNTOUCHED = 'all values returned', 'one not returned', 'several not returned', 'one of a zone without joins'
BY_ROW, BY_NUMBER, ROW_FIRST = 'equal L by row sum', 'by number', 'by row sum against the number'
COLUMNS, AS_LENT = 'against the column sum', 'against the row sum as listed'
LEAVES, FROM, TO = 'a neighbour that leaves with such a zone', 'a join from such a zone to a kept one', 'to such a zone'
LOST_PAIR, LOST_CLASS, LOST_RANK = ('joins that do not count, with pair lines', 'with class lines',
                                    'with a rank of less, equal and greater')
NAMES = MORAN, GEARY, LOCAL, CLASS_MORAN, CLASS_GEARY = 'moran', 'geary', 'local', 'class moran', 'class geary'
SIDES = {(name, is_negative, sign): f'{name}{" below 0" * is_negative} `{sign}`'  # Geary's c is never below 0
         for name, is_negative, sign in itertools.product(NAMES, (False, True), SIGNS) if 'geary' not in name or not is_negative}
REACHED = [PAIR, CLASS, RANK, WEIGHTLESS, NEGATIVE_P, NEGATIVE_L, TIES, NOUGHT, DOWN, UP, EIGHT, BEYOND, THREE, TWO, MANY, LONG, NO_ZONE,
           ONE, SEVERAL, FIRST, LAST, BUT_TWO, ROW, COLUMN, OUT_PAIR, OUT_CLASS, OUT_RANK, RETURNED, MARK, MARKS, UNTOUCHED, LEAVES, FROM,
           TO, LOST_PAIR, LOST_CLASS, LOST_RANK, BY_ROW, BY_NUMBER, ROW_FIRST, COLUMNS, AS_LENT, *SIDES.values()]


def must(holds, told):
    """Ends the run where something does not hold."""
    if not holds:
        sys.exit(told)


# ---- jobs of our own; each is a name and a job

def all_joins(n, weight):
    """A join for each ordered pair; `weight` gives its weight."""
    return [(*pair, weight()) for pair in itertools.permutations(range(n), 2)]


def corners(n):
    """So many places at the four corners and next to them."""
    ends = [(FAR - a, FAR - b) for a, b in itertools.product(range(4), repeat=2)]
    return [(x * across, y * up) for across, up in ends for x, y in ((-1, -1), (1, -1), (-1, 1), (1, 1))][:n]


def at_limits(rng):
    """The largest sums: values at their limits, all weights 9 or some drawn ones, places at the corners."""
    for n, high in itertools.product((2, 3, 8, 33, 63, 64), (1, 2, 3)):
        some = max(1, n * high // 4)
        blocks = [100000] * some + [-100000] * (n - some)
        near = [value - value // 100000 * (zone % 3) for zone, value in enumerate(blocks)]
        for word, values in (('blocks', blocks), ('mixed', rng.sample(blocks, n)), ('near', near)):
            for kind, joins in (('all', all_joins(n, lambda: 9)), ('some', drawn_joins(rng, drawn_kept(rng, n)))):
                job = Job(values, [7] * n, joins, corners(n), [1, 2, 20, 3 * FAR * FAR, BAND], drawn_shuffles(rng, n, 3))
                yield f'limits-{n}-{high}-{word}-{kind}', with_spread(job)


def rings(rng):
    """Rings of equal and alternating values: equal local numerators, and P below 0."""
    for n, weight in itertools.product((3, 4, 5, 6, 12, 64), (1, 9)):
        joins = sorted((i, (i + step) % n, weight) for i in range(n) for step in (1, n - 1))
        kinds = {'turns': [i % 2 for i in range(n)], 'thirds': [i % 3 - 1 for i in range(n)], 'one': [5] + [0] * (n - 1)}
        for word, values in kinds.items():
            yield f'ring-{n}-{weight}-{word}', Job(values, [i % 8 for i in range(n)], joins, [], [], [(*range(n),), (*range(n),)[::-1]])


def two_zones(rng):
    """The least jobs: one way or both, and a band below, at and above the distance."""
    ways = ([(0, 1, 1)], [(1, 0, 9)], [(0, 1, 2), (1, 0, 7)])
    rows = ([], [(0, 1)], [(1, 0)], [(1, 0), (0, 1), (1, 0)])
    drawn_from = ([0, 1], [7, -7], [-100000, 100000]), ways, rows, (None, -1, 0, 1)
    for k, (values, joins, shuffles, off) in enumerate(itertools.product(*drawn_from)):
        job = Job(list(values), rng.choice(([], [0, 0], [3, 7])), joins, [], [], shuffles)
        if off is not None:
            job.places, job.bands = [(-3, 5), (1, 2)], [25 + off]
        yield f'two-{k}', job


def banded(rng):
    """0 to 8 bands at the distances that there are, or next to them; few joins, so that classes lack weight."""
    for k, n in itertools.product(range(20), (3, 6, 11, 20)):
        places = drawn_places(rng, n)
        squares = sorted({(a - c) ** 2 + (b - d) ** 2 for (a, b), (c, d) in itertools.combinations(places, 2)})
        squares = [min(BAND, max(1, square + rng.choice((-1, 0, 0, 1)))) for square in squares]
        bands = sorted(set(rng.sample(squares, min(len(squares), rng.randint(0, 8)))))
        joins = drawn_joins(rng, drawn_kept(rng, n))
        job = with_spread(Job(drawn_values(rng, n), rng.choice(([], [1] * n)), joins, places, bands, []))
        yield f'banded-{n}-{k}', marked_at_times(rng, job)


def far_apart(rng):
    """Squared distances above every band, up to 7,200,000,000, and such as are a band when their upper bits are lost."""
    ends = [(-FAR, -FAR), (FAR, FAR), (FAR, -FAR), (-FAR, FAR), (0, 0), (-FAR, 0)]
    lost, one = 8 * FAR * FAR - 2 ** 32, FAR * FAR
    for k, bands in enumerate(([BAND], [1], [lost], [lost - 1, lost], [4 * one], [2 * one, 4 * one - 1, BAND], [one])):
        yield f'far-{k}', with_spread(Job(drawn_values(rng, 6), [], all_joins(6, lambda: rng.randint(1, 9)), ends, bands, []))


def ranked(rng):
    """Few different values, so that many shuffles have the same P."""
    for k, n in itertools.product(range(50), (2, 3, 5, 9)):
        joins = drawn_joins(rng, drawn_kept(rng, n))
        job = with_spread(Job(rng.choices((0, 1, 2), k=n), [], joins, [], [], drawn_shuffles(rng, n, 40)))
        yield f'ranked-{n}-{k}', marked_at_times(rng, job)


def few_kept(rng):
    """Zones left out in each way, with all parts."""
    for k, n in itertools.product(range(4), (3, 4, 5, 9, 33, 64)):
        for word, kept in choices_of_kept(rng, n).items():
            yield f'kept-{n}-{word}-{k}', job_with_all(rng, n, kept)


def with_ties(rng, job):
    """The job with its kept values at one number, but for as many below as above by one size: L is 0 at the first, whatever the joins."""
    values, kept = [*job.values], kept_of(job)
    mean, size, apart = rng.randint(-50000, 50000), rng.choice((1, 2, 1000, 50000)), rng.sample(kept, 2 * rng.randint(1, len(kept) // 2))
    for zone in kept:
        values[zone] = mean
    for below, above in zip(apart[::2], apart[1::2]):
        values[below], values[above] = mean - size, mean + size
    return replace(job, values=values)


def tied(rng):
    """Many equal L, and unequal ones; in one job of two some values are not returned."""
    for k, n in itertools.product(range(40), (4, 6, 9, 14)):
        job = job_with_all(rng, n, drawn_kept(rng, n))
        yield f'tied-{n}-{k}', with_ties(rng, with_drawn_marks(rng, job) if k % 2 else job)


def full(rng):
    """64 zones with all 4,032 joins and all 499 shuffles, with all but one of something, and without some part."""
    for k in range(4):
        yield f'full-{k}', largest_job(rng)
    job = largest_job(rng)
    for section in ('joins', 'bands', 'shuffles'):
        yield f'full-but-one-of-{section}', replace(job, **{section: getattr(job, section)[:-1]})
    for section in ('categories', 'bands', 'shuffles'):
        yield f'full-but-{section}', replace(job, **{section: []})


def not_returned(rng):
    """Values not returned in each way, with all parts; and in jobs at the limits with all joins, and in full ones."""
    for k, n in itertools.product(range(4), (3, 4, 5, 9, 33, 64)):
        job = job_with_all(rng, n, drawn_kept(rng, n))
        for word, zones in choices_of_marks(rng, job).items():
            yield f'not-returned-{n}-{word}-{k}', with_spread(with_marks(job, zones))
    for name, job in itertools.chain(at_limits(rng), full(rng)):
        if len(job.values) > 2 and not name.endswith('some'):
            yield f'not-returned-{name}', with_drawn_marks(rng, job)


def two_squares(total):
    """Two numbers up to 100,000 whose squares add up to a total, where there are such."""
    for one in range(100001):
        other = math.isqrt(max(0, total - one * one))
        if one * one + other * other == total and other <= 100000:
            return [one, other]
    return None


def values_of_spread(rng):
    """61 values with a spread of 2^44, which is 61 times the sum of their squares less 55 squared: 55, and 30 numbers with both signs."""
    while True:
        sizes = [rng.randint(60000, 78000) for _ in range(28)]
        last = two_squares((2 ** 44 - 60 * 55 ** 2) // 122 - sum(size * size for size in sizes))
        if last:
            return [55, *flat((size, -size) for size in sizes + last)]


def odd_part(p, q):
    """The odd number that p / q is but for a power of 2 and a sign, where it is so: of 54 binary digits, it lies between two floats."""
    ratio = Fraction(abs(p), q)
    size, divisor = ratio.numerator, ratio.denominator
    return size // (size & -size) if size and divisor & (divisor - 1) == 0 else 0


def halfway(rng):
    """Moran or Geary halfway between two floats, so that it is rounded down or up to the even one. Spread and W are powers of 2; zone 0, by
    which the spread is one, must not be left out, and among like or unlike values has a single pair."""
    values = values_of_spread(rng)
    d, every = [61 * value - 55 for value in values], list(itertools.permutations(range(61), 2))
    alike, unlike = ([(i, j) for i, j in every if j > 0 and (i > 0 or j < 3) and (i - j) % 2 == odd] for odd in (0, 1))
    for (word, pairs), last in itertools.product((('moran', alike), ('moran', unlike), ('geary', every)), (1, 3)):
        part, joins = 0, []
        while part.bit_length() != 54 or part % 4 != last or len(touching(joins)) < 61:
            joins = [(*pair, weight) for pair, weight in sorted(collections.Counter(rng.sample(pairs * 9, 8192)).items())]
            if word == 'moran':
                part = odd_part(sum(w * d[i] * d[j] for i, j, w in joins), 2 ** 57)
            else:
                part = odd_part(61 * 60 * sum(w * (values[i] - values[j]) ** 2 for i, j, w in joins), 2 ** 58)
        yield f'halfway-{word}-{len(pairs)}-{last}', Job(values, [], joins, [], [], [])


def whole(rng):
    """Drawn jobs that break no rule."""
    for k in range(1200):
        yield f'whole-{k}', drawn_job(rng, rng.choice((2, 2, 3, 4, 6, 9, 14)))
    for k in range(60):
        yield f'whole-large-{k}', drawn_job(rng, rng.choice((31, 32, 33, 63, 64)))


# ---- all cases; image_cases.py says what a case is

def unknown(word, images):
    """Cases of images of which no number is known."""
    return ((f'{word}-{k}', None, data) for k, data in enumerate(images))


def of_images(rng):
    """Those of image_cases.py: by hand, with bytes changed, cut, by chance, drawn and damaged, with zones left out and values not returned,
    and the largest."""
    yield from by_hand()
    yield from unknown('report-byte', rng.sample([*every_byte(REPORT)], 1200))
    yield from unknown('least-byte', rng.sample([*every_byte(encode(Job([0, 1], joins=[(0, 1, 1)])))], 400))
    yield from unknown('report-bytes', some_bytes(rng, REPORT, 300))
    yield from unknown('small-bytes', some_bytes(rng, image(), 200))
    yield from unknown('not-returned-bytes', some_bytes(rng, image(values=MARK_LAST), 200))
    yield from every_cut('report', REPORT)
    yield from every_cut('small', image())
    yield from every_cut('not-returned', image(values=MARK_LAST))
    yield from unknown('any', any_bytes(rng, 300))
    yield from drawn(rng, 400, (2, 3, 3, 5, 5, 7))
    yield from drawn(rng, 40, (16, 33, 63, 64))
    yield from left_out(rng, 40, (3, 4, 6, 9))
    yield from left_out(rng, 3, (33, 64))
    yield from marked(rng, 24, (3, 4, 6, 9))
    yield from marked(rng, 2, (33, 64))
    yield from largest(rng)


def beyond(rng):
    """Images with more bytes than a program looks at, damaged ones among them: what it does not look at must not change the number."""
    longest = encode(largest_job(rng))
    for k in range(100):
        damaged = bytearray(longest)
        damaged[rng.randrange(len(damaged))] ^= 1 << rng.randrange(8)
        yield f'beyond-largest-{k}', None, bytes(damaged) + rng.randbytes(rng.randrange(2, 9000))
    for name, number, data in drawn(rng, 200, (2, 3, 5, 64)):
        yield f'beyond-{name}', 17 if number == 0 else None, data + rng.randbytes(LONGEST + rng.randrange(2, 9000))


def cases():
    """The cases that are compared; the jobs of our own break no rule."""
    rng = random.Random(SEED)
    for kind in (at_limits, rings, two_zones, banded, far_apart, ranked, few_kept, tied, full, not_returned, halfway, whole):
        for name, job in kind(rng):
            yield name, 0, encode(job)
    yield from of_images(rng)
    yield from beyond(rng)


# ---- the printed text by itself

float_of = functools.lru_cache(maxsize=None)(lambda p, q: f'{nearest_bits(p, q):016X}')
sign_of = functools.lru_cache(maxsize=None)(lambda digits, p, q: side_sign(int(digits, 16), p, q))


def lines_by_word(text, job):
    """The lines' fields, by the first word; each line has its form, and the words their order."""
    must(text.endswith('\n'), 'the last line does not end')
    lines = text[:-1].split('\n')
    for line in lines:
        word, _, rest = line.partition(' ')
        must(word in FORMS and re.fullmatch(FORMS[word], rest), f'a line of no form: {line}')
    words = [line.split(' ')[0] for line in lines]
    local, pairs = words.count('local'), words.count('pair')
    must((pairs > 0) == bool(job.categories), 'pair lines where there are no categories, or none where there are')
    must(words == ['zones', 'joins', 'moran', 'geary', 'expected', *['local'] * local, *['pair'] * pairs,
                   *['class'] * (len(job.bands) + 1 if job.bands else 0), *['rank'] * bool(job.shuffles)], f'lines out of order: {words}')
    must(lines[0].split(' ')[1] == str(local), 'another number of local lines than of zones')
    return {word: [line.split(' ')[1:] for line in lines if line.startswith(word + ' ')] for word in FORMS}


def numbers(fields):
    """Fields as whole numbers."""
    return [int(field) for field in fields]


def ratios_of(n, m, w, p, g):
    """The ratios that Moran's I and Geary's c are, each a numerator and a divisor."""
    return (p, w * m), ((n - 1) * n * g, 2 * w * m)


def look_at_job(lines, job, kept):
    """The lines of the whole job, n, S and M being those of the kept zones; answers n, M, W, P and G."""
    (n, total, m), (w, p, g) = numbers(lines['zones'][0]), numbers(lines['joins'][0])
    values = [job.values[zone] for zone in kept]
    must((n, total) == (len(kept), sum(values)) and w == sum(weight for _, _, weight in counting(job)), 'another n, S or W')
    must(m == n * sum(value * value for value in values) - total * total, 'M is not n times the squares less S squared')
    moran, geary = ratios_of(n, m, w, p, g)
    must(numbers(lines['moran'][0][:2]) == [*moran], 'moran is not P over W M')
    must(numbers(lines['geary'][0][:2]) == [*geary], 'geary is not (n-1) n G over 2 W M')
    must(lines['expected'][0] == ['-1', str(n - 1)], 'expected is not -1 over n-1')
    return n, m, w, p, g


def weights_at(joins, end):
    """What the joins that have a zone at this end weigh together, by the zone: 0 is for row sums, 1 for column sums."""
    sums = collections.Counter()
    for join in joins:
        sums[join[end]] += join[2]
    return sums


def look_at_locals(lines, job, kept, m, p):
    """The local lines: every kept zone once and no other, by falling L, falling row sum of the joins that count and rising zone, adding up
    to P; answers the zones and their L."""
    rows, row_sums = [numbers(fields[:3]) for fields in lines['local']], weights_at(counting(job), 0)
    order = [(-l, -row_sums[zone], zone) for zone, l, _ in rows]
    must(sorted(zone for zone, _, _ in rows) == kept, 'a kept zone lacks, or there is another')
    must(order == sorted(order), 'the local lines are not in hot-list order')
    must(sum(l for _, l, _ in rows) == p, 'the local numerators do not add up to P')
    must(all(under == m for _, _, under in rows), 'a local divisor that is not M')
    return [(zone, l) for zone, l, _ in rows]


def look_at_pairs(lines, w):
    """The pair lines: strictly rising, adding up to W."""
    rows = [numbers(fields) for fields in lines['pair']]
    must(all(a[:2] < b[:2] for a, b in zip(rows, rows[1:])), 'the pair lines do not rise')
    must(not rows or sum(row[2] for row in rows) == w, 'the pair lines do not add up to W')


def look_at_classes(lines, sums):
    """The class lines: from 0 on, adding up to the joins line, `-` exactly where there is no weight; answers the W of each class."""
    rows = [numbers(fields[:4]) for fields in lines['class']]
    must([row[0] for row in rows] == list(range(len(rows))), 'the class lines do not rise from 0')
    must(not rows or [sum(column) for column in zip(*rows)][1:] == sums, 'the classes do not add up to the joins line')
    for (k, w, p, g), fields in zip(rows, lines['class']):
        must((w == 0) == (fields[4:] == ['-', '-']), f'class {k}: `-` with weight, or coefficients without')
        must(w or p == g == 0, f'class {k}: P or G without weight')
    return [row[1] for row in rows]


def coefficients_in(lines, n, m):
    """Every printed coefficient: its name, what is printed, and its ratio by its own line, which for a class has W, P and G alone."""
    for name in (MORAN, GEARY):
        over, under, printed = lines[name][0]
        yield name, printed, int(over), int(under)
    for _, over, under, printed in lines['local']:
        yield LOCAL, printed, int(over), int(under)
    for _, *sums, moran, geary in lines['class']:
        if moran != '-':
            of_moran, of_geary = ratios_of(n, m, *numbers(sums))
            yield CLASS_MORAN, moran, *of_moran
            yield CLASS_GEARY, geary, *of_geary


def look_at_coefficients(lines, n, m):
    """Each coefficient: its digits are the float nearest to its ratio, and its sign says on which side the float of these digits lies;
    answers the sides, each with the name of the coefficient and whether that is below 0."""
    sides = set()
    for name, printed, p, q in coefficients_in(lines, n, m):
        digits, sign = printed[:-1], printed[-1]
        must(digits == float_of(p, q), f'{name}: {digits} is not the nearest float of {p} / {q}')
        must(sign == sign_of(digits, p, q), f'{name}: `{sign}` is not how {digits} lies to {p} / {q}')
        sides.add((name, p < 0, sign))
    return sides


def shape(job, kept, lines):
    """What the zones that are kept and left out are like."""
    left = [zone for zone in range(len(job.values)) if zone not in kept]
    starts, ends = ({join[end] for join in counting(job)} for end in (0, 1))
    return {NO_ZONE: not left, ONE: len(left) == 1, SEVERAL: len(left) > 1, FIRST: 0 in left, LAST: len(job.values) - 1 in left,
            BUT_TWO: left and len(kept) == 2, ROW: starts - ends, COLUMN: ends - starts, OUT_PAIR: left and lines['pair'],
            OUT_CLASS: left and lines['class'], OUT_RANK: left and lines['rank'] and '0' not in lines['rank'][0]}


def shape_of_marks(job, kept, lines):
    """What the zones whose values are not returned are like, and the joins that do not count."""
    marks, joined = set(marks_of(job)), set(touching(job.joins))
    lost = [join[:2] for join in {*job.joins} - {*counting(job)}]
    return {RETURNED: not marks, MARK: len(marks) == 1, MARKS: len(marks) > 1, UNTOUCHED: marks - joined, LEAVES: joined - marks - {*kept},
            FROM: any(end in kept for _, end in lost), TO: any(start in kept for start, _ in lost), LOST_PAIR: lost and lines['pair'],
            LOST_CLASS: lost and lines['class'], LOST_RANK: lost and lines['rank'] and '0' not in lines['rank'][0]}


def shape_of_ties(job, local):
    """What zones of equal L, in their order, are ordered by, and what would order them otherwise."""
    rows, columns, listed = weights_at(counting(job), 0), weights_at(counting(job), 1), weights_at(job.joins, 0)
    pairs = [(a, b) for (a, l), (b, other) in itertools.combinations(local, 2) if l == other]
    by_row = [(a, b) for a, b in pairs if rows[a] > rows[b]]
    return {BY_ROW: by_row, BY_NUMBER: len(by_row) < len(pairs), ROW_FIRST: any(a > b for a, b in by_row),
            COLUMNS: any(columns[a] < columns[b] for a, b in pairs), AS_LENT: any(listed[a] < listed[b] for a, b in pairs)}


def look(text, data):
    """Looks at the text of an accepted image; answers what it has."""
    job = decode(data)
    must(encode(job) == data, 'accepted, and not a whole image')
    lines, kept = lines_by_word(text, job), kept_of(job)
    n, m, w, p, g = look_at_job(lines, job, kept)
    local = look_at_locals(lines, job, kept, m, p)
    look_at_pairs(lines, w)
    weights = look_at_classes(lines, [w, p, g])
    sides = look_at_coefficients(lines, n, m)
    rank = [numbers(fields) for fields in lines['rank']]
    must(all(sum(counts) == len(job.shuffles) for counts in rank), 'the rank does not add up to the number of shuffles')
    parts = [part % 4 for part in itertools.starmap(odd_part, ratios_of(n, m, w, p, g)) if part.bit_length() == 54]
    has = {PAIR: lines['pair'], CLASS: weights, RANK: rank, WEIGHTLESS: 0 in weights, NEGATIVE_P: p < 0, NEGATIVE_L: local[-1][1] < 0,
           TIES: len({l for _, l in local}) < n, NOUGHT: p == 0, DOWN: 1 in parts, UP: 3 in parts, EIGHT: len(weights) == 9,
           BEYOND: weights and weights[0] > 0, THREE: rank and min(rank[0]) > 0, TWO: len(job.values) == 2, MANY: n == 64,
           LONG: len(data) == LONGEST, **shape(job, kept, lines), **shape_of_marks(job, kept, lines), **shape_of_ties(job, local),
           **{told: side in sides for side, told in SIDES.items()}}
    return [word for word in REACHED if has[word]]


# ---- that a wrong sign and a wrong order would be seen

def with_wrong_signs(text):
    """A report with one sign wrong, or with one behind a `-`: another sign, none, two, and one apart from the digits."""
    for found in re.finditer(f'(?<=[0-9A-F]{{16}})[{SIGNS}]', text):
        for wrong in (*SIGNS.replace(found[0], ''), '', found[0] * 2, ' ' + found[0]):
            yield text[:found.start()] + wrong + text[found.end():]
    for found in re.finditer(r'(?<= )-(?=\s)', text):
        for wrong in SIGNS:
            yield text[:found.end()] + wrong + text[found.end():]


def with_wrong_order(text):
    """A report in which a local line has changed places with the one behind it, of another L or of the same."""
    for found in re.finditer('(?m)^(local .*\n)(?=(local .*\n))', text):
        yield text[:found.start()] + found[2] + found[1] + text[found.end(2):]


def is_seen(wrong, data):
    """Whether looking at the text of an image ends the run."""
    try:
        look(wrong, data)
    except SystemExit:
        return True
    return False


def look_at_samples():
    """The reports of the samples by themselves, and again with wrong signs and with local lines in a wrong order, each of which must be
    seen; answers how many of either."""
    signs, orders = 0, 0
    for path in sorted(SAMPLES.glob('*.image')):
        text, data = path.with_suffix('.report').read_text(), path.read_bytes()
        if text not in REFUSALS:
            look(text, data)
            wrong_signs, wrong_orders = [*with_wrong_signs(text)], [*with_wrong_order(text)]
            must(all(is_seen(wrong, data) for wrong in wrong_signs), f'{path.stem}: a wrong sign is not seen')
            must(all(is_seen(wrong, data) for wrong in wrong_orders), f'{path.stem}: a wrong order of local lines is not seen')
            signs, orders = signs + len(wrong_signs), orders + len(wrong_orders)
    return signs, orders


# ---- the comparison

def short(program):
    """The program's name alone."""
    return pathlib.Path(program).name


def output(program, given, name):
    """What a program writes, its standard input being an open file; it must end with status 0."""
    given.seek(0)
    done = subprocess.run([program], stdin=given, stdout=subprocess.PIPE)
    must(done.returncode == 0, f'{name}: {short(program)} ends with status {done.returncode}')
    return done.stdout


def output_in_pieces(program, data, size):
    """What a program writes, its input coming through a pipe, so many bytes at a time."""
    with subprocess.Popen([program], stdin=subprocess.PIPE, stdout=subprocess.PIPE, bufsize=0) as running:
        try:
            for place in range(0, len(data), size):
                running.stdin.write(data[place:place + size])
                time.sleep(0.002)
            running.stdin.close()
        except BrokenPipeError:
            pass  # a program need not read behind its 44,909th byte
        return running.stdout.read()


def must_be_equal(name, program, found, other, wanted):
    """Ends the run where two texts differ, with the first line that does."""
    if found != wanted:
        pairs = itertools.zip_longest(found.decode(errors='replace').splitlines(), wanted.decode(errors='replace').splitlines())
        line, pair = next(((k, pair) for k, pair in enumerate(pairs, 1) if pair[0] != pair[1]), ('end', ('', '')))
        sys.exit(f'{name}, line {line}\n{short(program)}: {pair[0]}\n{short(other)}: {pair[1]}')


def look_at_end(number, data):
    """Looks at an image that is refused with 6 or 7, all of it having been judged: no zone is kept, or the kept values are equal."""
    job = decode(data)
    kept = kept_of(job)
    must(encode(job) == data, 'refused by its end, and not a whole image')
    must(number == (7 if kept else 6) and len({job.values[zone] for zone in kept}) < 2, 'another number by the joins that count')


def look_at(case, text):
    """Looks at what was written on an image; answers the number of the refusal or 0, and what an accepted one has."""
    name, wanted, data = case
    number = REFUSALS.get(text, 0)
    try:
        must(wanted in (None, number), f'must be refused with {wanted}' if wanted else 'must be accepted')
        if number in (6, 7):
            look_at_end(number, data)
        return number, [] if number else look(text, data)
    except SystemExit as wrong:
        sys.exit(f'{name}: {wrong}\n{text}')


def kept_alone(job, kept):
    """The job of the kept zones alone, numbered from 0: their values, categories and places, the joins that count, and what shuffles name
    of them."""
    place_of = {zone: place for place, zone in enumerate(kept)}
    values, categories, places = ([items[zone] for zone in kept] if items else [] for items in (job.values, job.categories, job.places))
    joins = [(place_of[start], place_of[end], weight) for start, end, weight in counting(job)]
    shuffles = [tuple(place_of[zone] for zone in row if zone in place_of) for row in job.shuffles]
    return Job(values, categories, joins, places, job.bands, shuffles)


def with_numbers_of(kept, text):
    """The text with other zone numbers in its local lines: that of the zone at such a place among the kept ones."""
    return re.sub('(?m)^local ([0-9]+)', lambda found: f'local {kept[int(found[1])]}', text)


def compare_kept_alone(program, name, data, text):
    """What a program writes where zones are left out, and where they were never there; answers whether there are such zones."""
    job = decode(data)
    kept = kept_of(job)
    if len(kept) == len(job.values):
        return False
    with tempfile.TemporaryFile() as given:
        given.write(encode(kept_alone(job, kept)))
        given.flush()
        alone = with_numbers_of(kept, output(program, given, name).decode('ascii', 'replace'))
    must_be_equal(name, 'with zones left out', text.encode(), 'the kept zones alone', alone.encode())
    return True


def compare_samples(programs):
    """Both programs on the samples: every report as it is kept, and document 01's among them."""
    images = sorted(SAMPLES.glob('*.image'))
    must(SAMPLES / 'report.image' in images, "document 01's image lacks")
    for path, program in itertools.product(images, programs):
        kept = path.with_suffix('.report')
        with path.open('rb') as given:
            must_be_equal(path.name, program, output(program, given, path.name), kept.name, kept.read_bytes())
    return len(images)


def compare_pieces(programs):
    """Both programs on input that comes in pieces: a long image, one byte more, and many more; and a short one byte by byte."""
    made = encode(largest_job(random.Random(SEED)))
    tried = [('report', REPORT, 1), ('long', made, 4000), ('long-and-a-byte', made + b'\0', 7000),
             ('long-and-more', made + bytes(30000), 9000)]
    for (name, data, size), program in itertools.product(tried, programs):
        with tempfile.TemporaryFile() as given:
            given.write(data)
            must_be_equal(f'{name} in pieces', program, output_in_pieces(program, data, size), program, output(program, given, name))
    return len(tried)


def has_marks(data):
    """Whether a value is not returned, as far as the image has values."""
    _, _, values, _ = next(sections_of(data))
    return (NOT_RETURNED,) in values


def compare_all(program, other, made):
    """Both programs on every image; how many have each number, and of these how many values not returned; how many accepted ones have what
    must be reached, and how many zones left out."""
    numbers_given, numbers_marked, reached, with_left_out = *(collections.Counter() for _ in range(3)), 0
    for case in made:
        name, _, data = case
        with tempfile.TemporaryFile() as given:
            given.write(data)
            given.flush()
            found, wanted = output(program, given, name), output(other, given, name)
        must_be_equal(name, program, found, other, wanted)
        text = found.decode('ascii', 'replace')
        number, has = look_at(case, text)
        numbers_given[number] += 1
        numbers_marked[number] += has_marks(data)
        reached.update(has)
        with_left_out += number == 0 and compare_kept_alone(program, name, data, text)
    return numbers_given, +numbers_marked, reached, with_left_out


def compare(program, other):
    """Compares all images and prints what was compared."""
    begun, (signs, orders), made = time.monotonic(), look_at_samples(), list(cases())
    samples, pieces = compare_samples((program, other)), compare_pieces((program, other))
    given, marked_given, reached, with_left_out = compare_all(program, other, made)
    taken, marked_taken = given.pop(0), marked_given.pop(0)
    print(f'{taken} accepted, with', ', '.join(f'{word}: {reached[word]}' for word in REACHED))
    print(f'{len(made) - taken} refused,', ', '.join(f'{count} with {number}' for number, count in sorted(given.items())))
    must(set(given) == NUMBERS, 'every number that the reader can give must be reached, and no other')
    must(all(reached[word] for word in REACHED), 'something that must be reached was not')
    must(set(marked_given) >= NUMBERS - {1}, 'every number but 1 must be reached where values are not returned')
    must(len(made) >= 6000 and taken >= 2000, 'too few images')
    print(f"{samples} samples as they are kept, document 01's report among them; {pieces} inputs in pieces: equal")
    print(f'{signs} wrong signs and {orders} wrong orders in the reports of the samples, all seen')
    print(f'{with_left_out} accepted with zones left out, each as the job of its kept zones alone')
    print(f'{marked_taken + sum(marked_given.values())} with values not returned, {marked_taken} of them accepted, {marked_given[6]} refused '
          f'with 6 and {marked_given[7]} with 7')
    known, taken_for_sure = sum(bool(number) for _, number, _ in made), sum(number == 0 for _, number, _ in made)
    print(f'{known} with a number known beforehand, {taken_for_sure} that must be accepted, '
          f'{sum(len(data) > LONGEST + 1 for _, _, data in made)} longer than a program reads')
    print(f'compared {len(made)} images, {len(made) - taken} of them refused, every number reached: all equal, in '
          f'{time.monotonic() - begun:.0f} s')


# ---- the time

def run_time(program, given):
    """The milliseconds of one run, from its start to its end."""
    given.seek(0)
    actions = [(os.POSIX_SPAWN_DUP2, given.fileno(), 0), (os.POSIX_SPAWN_OPEN, 1, os.devnull, os.O_WRONLY, 0)]
    begun = time.perf_counter()
    process = os.posix_spawn(program, [program], os.environ, file_actions=actions)
    _, status = os.waitpid(process, 0)
    took = time.perf_counter() - begun
    must(status == 0, f'{short(program)} ends with status {status}')
    return 1000 * took


def times(programs, data):
    """The milliseconds of all runs of each program on some bytes, the programs by turns."""
    with tempfile.TemporaryFile() as given:
        given.write(data)
        given.flush()
        runs = [[run_time(program, given) for program in programs] for _ in range(RUNS)]
    return list(zip(*runs))


def compare_times(*programs):
    """The least and the median time of both programs on the largest image, and their ratio."""
    data = encode(largest_job(random.Random(SEED)))
    must(len(data) == LONGEST, 'not the largest image')
    taken, started = times(programs, data), times(programs, b'')
    print(f'{len(data):,} bytes, {RUNS} runs of each program, by turns')
    for program, runs, starts in zip(programs, taken, started):
        print(f'{short(program)}: least {min(runs):.2f} ms, median {statistics.median(runs):.2f} ms; on no bytes {min(starts):.2f} ms')
    first, second = taken
    medians = statistics.median(first) / statistics.median(second)
    work = [min(runs) - min(starts) for runs, starts in zip(taken, started)]
    ratio = min(first) / min(second)
    print(f'ratio of the least times {ratio:.2f}, at most {RATIO}; of the medians {medians:.2f};'
          f' of the least times less those on no bytes {work[0] / work[1]:.2f}')
    must(ratio <= RATIO, 'the first program takes too long')


if __name__ == '__main__':
    commands = {'--compare': compare, '--time': compare_times}
    if len(sys.argv) != 4 or sys.argv[1] not in commands:
        sys.exit(__doc__)
    commands[sys.argv[1]](*sys.argv[2:])
