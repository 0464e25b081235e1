"""Images for the tools: document 01's, those whose number was found by hand, and those that are drawn or damaged by chance.

A case is a name, a number and an image. The number is that of the refusal, 0 where the image must be accepted, and None where it is not
known.

By request A.6 a zone that touches nobody, with no join from it or to it, is left out. What it has is judged all the same; only 7 looks at
the kept zones alone. By request A.7 the joins of a zone whose value is not returned do not count, so that it is left out, and with it
every zone that has no other joins; all joins are judged as they are listed, but 6 looks at those that count.
"""
import copy
import itertools
from dataclasses import replace

from job_image import NOT_RETURNED, SECTIONS, Job, encode

LONGEST = 44908  # the bytes of the longest image
FAR, BAND = 30000, 2 ** 32 - 1  # the largest coordinate, and the largest band

# the image of document 01's report, put together by hand: a line for each section, its count first
REPORT = bytes.fromhex("""
    0400  01000000 01000000 03000000 03000000
    0400  00 00 01 01
    0400  000103 010003 010201 020101
    0400  00000000 00000000  01000000 00000000  03000000 00000000  09000000 09000000
    0200  01000000 04000000
    0200  00010203 02010003""")


def touching(joins):
    """The zones with a join from them or to them, rising."""
    return sorted({zone for join in joins for zone in join[:2]})


def marks_of(job):
    """The zones whose values are not returned, rising."""
    return [zone for zone, value in enumerate(job.values) if value == NOT_RETURNED]


def counting(job):
    """The joins that count: those of two zones whose values are returned."""
    returned = {zone for zone, value in enumerate(job.values) if value != NOT_RETURNED}
    return [join for join in job.joins if returned.issuperset(join[:2])]


def kept_of(job):
    """The zones that are kept, rising."""
    return touching(counting(job))


# ---- by hand: the smallest faults and what stands against what, each with the number that document 01 and requests A.6 and A.7 give it

def small():
    """A job of three zones that breaks no rule, to be changed in a place or two."""
    return Job([5, -2, 7], [0, 7, 3], [(0, 1, 1), (0, 2, 9), (1, 0, 2), (2, 1, 4)], [(0, 0), (4, 0), (1, -3)], [10, 17],
               [(0, 1, 2), (2, 0, 1)])


def image(cut=None, more=b'', counts=None, **parts):
    """The image of the small job with other parts or other counts, cut off at a place, with more bytes behind it."""
    return (encode(replace(small(), **parts), **(counts or {})) + more)[:cut]


def up_to(section, count):
    """The image that ends after the count of a section."""
    parts = {name: [] for name in SECTIONS[SECTIONS.index(section):]}
    return image(counts={section: count}, cut=-2 * (len(parts) - 1) or None, **parts)


EQUAL, NONE, MARK_LAST = [4, 4, 4], [], [5, -2, NOT_RETURNED]  # equal values; no joins; values of which the last is not returned


def limits():
    """Each rule of the items at its limit and beyond it."""
    for value, number in ((100000, 0), (-100000, 0), (100001, 3), (-100001, 3), (2 ** 31 - 1, 3), (NOT_RETURNED, 0),
                          *((NOT_RETURNED + 2 ** bit, 3) for bit in range(31))):
        yield f'value {value}', number, image(values=[5, -2, value])
    for category, number in ((7, 0), (8, 8), (255, 8)):
        yield f'category {category}', number, image(categories=[category, 0, 1])
    for weight, number in ((1, 0), (9, 0), (0, 4), (10, 4), (255, 4)):
        yield f'weight {weight}', number, image(joins=[(0, 1, 1), (1, 2, weight)])
    for far, number in ((FAR, 0), (-FAR, 0), (FAR + 1, 10), (-FAR - 1, 10), (2 ** 31 - 1, 10), (-2 ** 31, 10)):
        yield f'across {far}', number, image(places=[(0, 0), (far, 0), (1, 1)])
        yield f'up {far}', number, image(places=[(0, 0), (1, 1), (0, far)])
    for bands, number in (([1], 0), ([BAND], 0), ([*range(1, 9)], 0), ([*range(1, 10)], 12), ([0], 12), ([0, 1], 12), ([5, 5], 12),
                          ([1, 5, 4], 12), ([2 ** 31 - 1, 2 ** 31], 0), ([2 ** 31, 2 ** 31 - 1], 12), ([BAND, 1], 12), ([], 0)):
        yield '-'.join(['bands', *map(str, bands)]), number, image(bands=bands)
    for row, number in (((1, 2, 0), 0), ((0, 1, 1), 13), ((0, 1, 3), 13), ((0, 255, 2), 13)):
        yield '-'.join(['shuffle', *map(str, row)]), number, image(shuffles=[(0, 1, 2), row])
    for rows, number in ((499, 0), (500, 15)):
        yield f'{rows} shuffles', number, image(shuffles=[(1, 0, 2)] * rows)


def counts_alone():
    """Each count alone: not allowed, which is judged before its section is looked for, or its section not there."""
    for n, number in ((0, 1), (1, 1), (2, 14), (64, 14), (65, 1), (256, 1), (65535, 1)):
        yield f'{n} values and no more', number, up_to('values', n)
    for section in ('categories', 'places'):
        for count, number in ((0, 14), (1, 15), (2, 15), (3, 14), (4, 15), (259, 15), (65535, 15)):
            yield f'{count} {section} and no more', number, up_to(section, count)
    for count, number in ((4032, 14), (4033, 15), (65535, 15), (7, 14)):
        yield f'{count} joins and no more', number, up_to('joins', count)
    for count, number in ((8, 14), (9, 12), (256, 12), (65535, 12)):
        yield f'{count} bands and no more', number, up_to('bands', count)
    for count, number in ((0, 0), (499, 14), (500, 15), (65535, 15)):
        yield f'{count} shuffles and no more', number, up_to('shuffles', count)
    yield 'one value', 1, image(values=[5])
    yield '65 values', 1, encode(Job([*range(65)], joins=[(0, 1, 1)]))
    yield 'bands without places', 12, image(places=[])
    yield 'bands without places and no more', 12, image(places=[], shuffles=[], cut=-10)
    yield 'no places and no bands', 0, image(places=[], bands=[])
    yield 'neither categories nor shuffles', 0, image(categories=[], shuffles=[])
    yield '7 joins of 2 zones', 16, encode(Job([1, 2], joins=[(0, 1, 1), (1, 0, 1)] * 3 + [(0, 1, 1)]))


def joins_alone():
    """At one join 16 for its ends, 5, 16 for order, 4; and a join before the next."""
    first, last = (0, 1, 1), (2, 1, 4)
    for word, joins, number in (
            ('ends before 5', [(3, 3, 1)], 16), ('ends before 4', [(0, 3, 0)], 16), ('ends before all', [first, (255, 255, 0)], 16),
            ('5 before order', [last, (1, 1, 4)], 5), ('5 before 4', [(1, 1, 0)], 5), ('5 before both', [last, (0, 0, 10)], 5),
            ('order before 4', [last, (0, 1, 0)], 16), ('the same before 4', [first, (0, 1, 10)], 16), ('from falls', [last, first], 16),
            ('to falls', [(0, 2, 1), first], 16), ('twice', [first, first], 16), ('to falls where from rises', [(0, 2, 1), (1, 0, 1)], 0),
            ('4 before a later 16', [(0, 1, 0), (3, 0, 1)], 4), ('4 before a later 5', [(0, 1, 10), (1, 1, 1)], 4),
            ('16 before a later 4', [first, first, (1, 2, 0)], 16), ('from n', [(3, 0, 1)], 16), ('to n', [(0, 3, 1)], 16)):
        yield f'join {word}', number, image(joins=joins)


def places_alone():
    """At one place 10, then 11; and a place before the next."""
    far = FAR + 1
    for word, places, number in (
            ('11 before a later 10', [(0, 0), (0, 0), (far, 0)], 11), ('10 before 11', [(far, 0), (far, 0), (1, 1)], 10),
            ('10 before a later 11', [(far, 0), (1, 1), (1, 1)], 10), ('first and last', [(1, 2), (2, 1), (1, 2)], 11),
            ('last two', [(0, 0), (1, 2), (1, 2)], 11), ('turned round', [(1, 2), (2, 1), (0, 0)], 0)):
        yield f'places {word}', number, image(places=places)


def clashes():
    """A late fault of an early section against an early one of a late section; what is cut; and the end: 17, 6, 7."""
    beyond, above = [5, -2, 100001], [0, 7, 8]
    yield 'value before count of categories', 3, image(values=beyond, counts={'categories': 65535})
    yield 'category before count of joins', 8, image(categories=above, counts={'joins': 4033})
    yield 'join before count of places', 4, image(joins=[(0, 1, 1), (2, 1, 0)], counts={'places': 1})
    yield 'place before count of bands', 11, image(places=[(0, 0), (1, 0), (0, 0)], counts={'bands': 9})
    yield 'band before count of shuffles', 12, image(bands=[10, 10], counts={'shuffles': 500})
    yield 'shuffle before more bytes', 13, image(shuffles=[(0, 1, 2), (0, 0, 1)], more=b'\0')
    yield 'value before category', 3, image(values=beyond, categories=above)
    yield 'category before join', 8, image(categories=above, joins=[(0, 1, 0)])
    yield 'join before place', 16, image(joins=[(0, 3, 1)], places=[(FAR + 1, 0), (0, 0), (1, 1)])
    yield 'value in a cut section', 14, image(values=[100001, 0, 1], cut=13)
    yield 'category in a cut section', 14, image(categories=[8, 0, 1], cut=18)
    yield 'join in a cut section', 14, image(joins=[(0, 1, 0), (0, 2, 1)], cut=25)
    yield 'more bytes', 17, image(more=b'\0')
    yield 'more bytes before 6', 17, image(joins=NONE, more=b'\0')
    yield 'more bytes before 7', 17, image(values=EQUAL, more=b'\0\1\2')
    yield 'no joins', 6, image(joins=NONE)
    yield 'equal values', 7, image(values=EQUAL)
    yield '6 before 7', 6, image(values=EQUAL, joins=NONE)
    yield 'shuffle before 6', 13, image(joins=NONE, shuffles=[(0, 1, 2), (2, 2, 2)])
    yield 'no bytes', 14, b''
    yield 'one byte', 14, b'\3'


def faults_of_last():
    """What a zone left out is judged by like any other, it being the last of three: word, number and the other parts."""
    yield 'category 8', 8, {'categories': [0, 7, 8]}
    yield 'far', 10, {'places': [(0, 0), (4, 0), (FAR + 1, 0)]}
    yield 'at one place', 11, {'places': [(0, 0), (4, 0), (0, 0)]}
    yield 'not named', 13, {'shuffles': [(0, 1, 0)]}
    yield 'named twice', 13, {'shuffles': [(2, 1, 2)]}
    yield 'categories of the kept', 15, {'categories': [0, 7]}
    yield 'places of the kept', 15, {'places': [(0, 0), (4, 0)]}
    yield 'a shuffle of the kept', 14, {'shuffles': [(1, 0)]}
    yield 'whole', 0, {}


def left_out_by_hand():
    """A zone that touches nobody: 7 looks at the two others alone, every other number at all three; one join is enough to be kept."""
    last = [(0, 1, 1), (1, 0, 2)]  # the last of the three zones is left out
    for word, values, joins, number in (
            ('last, kept equal', [4, 4, 9], last, 7), ('first, kept equal', [9, 4, 4], [(1, 2, 1)], 7),
            ('middle, kept equal', [4, 9, 4], [(2, 0, 9)], 7), ('middle, kept not equal', [4, 4, 9], [(2, 0, 9)], 0),
            ('last, kept not equal', [4, 9, 4], last, 0), ('last, kept -1 and 1', [-1, 1, 0], last, 0), ('all equal', EQUAL, last, 7),
            ('none, a row only', [4, 4, 9], [(0, 1, 1), (2, 0, 1)], 0), ('none, a column only', [4, 4, 9], [(0, 1, 1), (0, 2, 1)], 0),
            ('all', [4, 4, 9], NONE, 6), ('last, 100000', [4, 5, 100000], last, 0), ('last, 100001', [4, 5, 100001], last, 3),
            ('first, -100001', [-100001, 4, 4], [(1, 2, 1)], 3), ('last, kept beyond', [4, -100001, 5], last, 3)):
        yield f'left out: {word}', number, image(values=values, joins=joins)
    yield 'left out: last, kept equal, a byte more', 17, image(values=[4, 4, 9], joins=last, more=b'\0')
    for word, number, parts in faults_of_last():
        yield f'left out: last, {word}', number, image(joins=last, **parts)


def not_returned_by_hand():
    """Values not returned of the small job's three zones: 3 passes over them, 7 looks at the others, and then the end: 17, 6, 7."""
    mark, none = NOT_RETURNED, [NOT_RETURNED] * 3
    for word, values, number in (
            ('first', [mark, -2, 7], 0), ('middle', [5, mark, 7], 0), ('two', [mark, 5, mark], 6), ('other two', [5, mark, mark], 6),
            ('all', none, 6), ('last, kept equal', [4, 4, mark], 7), ('first, kept equal', [mark, 4, 4], 7),
            ('middle, kept equal', [4, mark, 4], 7), ('and the next number', [mark, mark + 1, 7], 3),
            ('behind the next number', [mark + 1, 5, mark], 3), ('all but 100001', [mark, mark, 100001], 3)):
        yield f'not returned: {word}', number, image(values=values)
    yield 'not returned: all, in a cut section', 14, image(values=none, cut=13)
    yield 'not returned: all, shuffle before 6', 13, image(values=none, shuffles=[(0, 1, 2), (2, 2, 2)])
    yield 'not returned: all, more bytes before 6', 17, image(values=none, more=b'\0')
    yield 'not returned: kept equal, more bytes before 7', 17, image(values=[4, 4, mark], more=b'\0')
    for word, number, parts in faults_of_last():
        yield f'not returned: last, {word}', number, image(values=MARK_LAST, **parts)


def joins_not_returned():
    """Joins of a zone whose value is not returned: judged as listed, and then without weight; a neighbour of no other leaves with it."""
    first = (0, 1, 1)
    for word, joins, number in (
            ('only from it', [(2, 0, 9)], 6), ('only to it', [(0, 2, 9)], 6), ('only from and to it', [(0, 2, 1), (1, 2, 1), (2, 0, 1)], 6),
            ('one besides', [(0, 2, 1), (1, 0, 1), (2, 1, 1)], 0), ('weight 10 from it', [first, (2, 0, 10)], 4),
            ('weight 10 to it', [(0, 2, 10), (1, 0, 1)], 4), ('weight 0 from it', [first, (2, 1, 0)], 4),
            ('weight 0 to it', [(1, 2, 0)], 4), ('to itself', [first, (2, 2, 1)], 5), ('only to itself', [(2, 2, 9)], 5),
            ('twice', [first, (2, 0, 1), (2, 0, 1)], 16), ('to falls', [first, (2, 1, 1), (2, 0, 1)], 16),
            ('to n', [first, (2, 3, 1)], 16), ('none', NONE, 6)):
        yield f'not returned: last, {word}', number, image(values=MARK_LAST, joins=joins)
    apart, mark = [first, (3, 2, 1)], NOT_RETURNED
    for word, values, joins, number in (
            ('leaves', [4, 9, 5, mark], apart, 0), ('leaves, kept equal', [4, 4, 5, mark], apart, 7),
            ('leaves, 100001', [4, 9, 100001, mark], apart, 3), ('stays', [4, 4, 5, mark], [*apart[:1], (2, 0, 1), (3, 2, 1)], 0),
            ('leaves, first', [mark, 5, 4, 9], apart, 0), ('all leave', [4, mark, 9, mark], apart, 6),
            ('all leave one', [4, mark, 5, 9], [first, (1, 2, 3), (3, 1, 9)], 6)):
        yield f'not returned: neighbour {word}', number, encode(Job(values, joins=joins))


def by_hand():
    """Document 01's image, and all of the above."""
    yield 'report', 0, REPORT
    yield from limits()
    yield from counts_alone()
    yield from joins_alone()
    yield from places_alone()
    yield from clashes()
    yield from left_out_by_hand()
    yield from not_returned_by_hand()
    yield from joins_not_returned()


def every_cut(word, made):
    """An image that breaks no rule, cut off at each place, whole, and with a byte too many."""
    for length in range(len(made)):
        yield f'{word}-cut-{length}', 14, made[:length]
    yield f'{word}-whole', 0, made
    for byte in (0, 1, 255):
        yield f'{word}-and-{byte}', 17, made + bytes([byte])


# ---- by chance

def with_item(items, place, item):
    """A list with another item at a place."""
    return [*items[:place], item, *items[place + 1:]]


def drawn_values(rng, n):
    """Small and large values."""
    size = rng.choice((1, 9, 1000, 100000))
    return rng.choices((-size, size), k=n) if rng.random() < 0.2 else [rng.randint(-size, size) for _ in range(n)]


def with_spread(job):
    """The job; where its kept values are all equal, with another one."""
    kept = kept_of(job)
    value = job.values[kept[-1]]
    equal = all(job.values[zone] == value for zone in kept)
    return replace(job, values=with_item(job.values, kept[-1], value + (1 if value < 1 else -1))) if equal else job


def choices_of_kept(rng, n):
    """Ways to keep some of the zones, by a word: all, all but one, without the first, the last, both or several, and two alone."""
    zones = range(n)
    ways = {'all': zones, 'but-one': rng.sample(zones, n - 1), 'but-first': zones[1:], 'but-last': zones[:-1], 'but-both': zones[1:-1],
            'but-several': rng.sample(zones, rng.randint(2, max(2, n - 2))), 'two': rng.sample(zones, 2)}
    return {word: sorted(kept) for word, kept in ways.items() if len(kept) > 1}


def drawn_kept(rng, n):
    """The zones that are to be kept: as often as not all of them."""
    ways = choices_of_kept(rng, n)
    return ways['all'] if rng.random() < 0.5 else rng.choice(list(ways.values()))


def drawn_joins(rng, kept):
    """Dense and sparse joins of the zones that are to be kept: each has one from it or to it, and often no other."""
    dense = rng.choice((0, 0, 0.05, 0.3, 1))
    chosen = {pair for pair in itertools.permutations(kept, 2) if rng.random() < dense}
    for zone in kept:
        other = rng.choice([end for end in kept if end != zone])
        chosen.add(rng.choice(((zone, other), (other, zone))))
    return [(*pair, rng.randint(1, 9)) for pair in sorted(chosen)]


def drawn_places(rng, n):
    """Different places, few or many of them free."""
    size = rng.choice((5, 100, FAR))
    free = [(x, y) for x in range(-5, 6) for y in range(-5, 6)] if size == 5 else []
    return rng.sample(free, n) if free else list({(rng.randint(-size, size), rng.randint(-size, size)): 0 for _ in range(2 * n)})[:n]


def drawn_shuffles(rng, n, count):
    """So many rows of all zone numbers."""
    return [tuple(rng.sample(range(n), n)) for _ in range(count)]


def job_with_all(rng, n, kept):
    """A job that breaks no rule, with all parts, in which some of the zones are kept."""
    bands = sorted(rng.sample(range(1, rng.choice((10, 10 ** 6, BAND + 1))), rng.choice((1, 2, 5, 8))))
    return with_spread(Job(drawn_values(rng, n), [rng.randrange(8) for _ in range(n)], drawn_joins(rng, kept), drawn_places(rng, n), bands,
                           drawn_shuffles(rng, n, rng.choice((1, 2, 3, 20 if n < 16 else 5)))))


def with_marks(job, zones):
    """The job with the values of some zones not returned."""
    return replace(job, values=[NOT_RETURNED if zone in zones else value for zone, value in enumerate(job.values)])


def choices_of_marks(rng, job):
    """Ways to mark values as not returned so that a join of the job still counts, by a word: one zone, several, all but the ends of that
    join, all neighbours of a zone, which leaves with them, and the zones that touch nobody. A way that marks no zone is no way."""
    ends, touched, around = rng.choice(job.joins)[:2], touching(job.joins), {}
    for start, end, _ in job.joins:
        around.setdefault(start, set()).add(end)
        around.setdefault(end, set()).add(start)
    free = [zone for zone in range(len(job.values)) if zone not in ends]
    enclosed = [zones for zones in around.values() if zones.isdisjoint(ends)]
    ways = {'one': rng.sample(free, min(1, len(free))), 'several': rng.sample(free, rng.randint(min(2, len(free)), len(free))),
            'but-two': free, 'neighbours': rng.choice(enclosed or [[]]), 'alone': [zone for zone in free if zone not in touched]}
    return {word: sorted(zones) for word, zones in ways.items() if zones}


def with_drawn_marks(rng, job):
    """A job that breaks no rule, with some values not returned, so that it still breaks none; a job of two zones stays as it is."""
    return with_spread(with_marks(job, rng.choice([*choices_of_marks(rng, job).values()] or [[]])))


def marked_at_times(rng, job):
    """The job, in one case of four with some values not returned."""
    return with_drawn_marks(rng, job) if rng.random() < 0.25 else job


def drawn_job(rng, n):
    """A job that breaks no rule, with and without each part that need not be there."""
    job = marked_at_times(rng, job_with_all(rng, n, drawn_kept(rng, n)))
    for sections in (['categories'], ['places', 'bands'], ['bands'], ['shuffles']):
        if rng.random() < 0.25:
            job = replace(job, **{section: [] for section in sections})
    return job


# what is done to a job; where it lacks what is to be changed, nothing is

TOO_LARGE = 100001, -100001, 2 ** 31 - 1, NOT_RETURNED + 1  # values that are beyond 100,000 in size


def set_any(rng, items, entry):
    """Puts an entry at any place."""
    if items:
        items[rng.randrange(len(items))] = entry


def bad_value(rng, job):
    """3."""
    set_any(rng, job.values, rng.choice(TOO_LARGE))


def bad_category(rng, job):
    """8."""
    set_any(rng, job.categories, rng.choice((8, 9, 255)))


def bad_place(rng, job):
    """10."""
    set_any(rng, job.places, rng.choice(((FAR + 1, 0), (0, FAR + 1), (-FAR - 1, 1), (1, -2 ** 31), (2 ** 31 - 1, 2 ** 31 - 1))))


def one_place(rng, job):
    """11."""
    if job.places:
        set_any(rng, job.places, rng.choice(job.places))


def bad_band(rng, job):
    """12, in most cases."""
    set_any(rng, job.bands, rng.choice([0, 1, BAND, *job.bands]))


def bad_shuffle(rng, job):
    """13."""
    if job.shuffles:
        row = list(rng.choice(job.shuffles))
        set_any(rng, row, rng.choice((row[0], row[-1], len(row), 255)))
        set_any(rng, job.shuffles, tuple(row))


def no_joins(rng, job):
    """6."""
    job.joins.clear()


def no_values(rng, job):
    """6, 7 or nothing: some values not returned, or all."""
    for zone in rng.sample(range(len(job.values)), rng.randint(1, len(job.values))):
        job.values[zone] = NOT_RETURNED


def equal_values(rng, job):
    """7, or 6 where that value is not returned: all values, or those of the kept zones alone."""
    value = rng.choice(job.values)
    for zone in rng.choice((range(len(job.values)), kept_of(job))):
        job.values[zone] = value


def bad_join(rng, job):
    """16, 5, 16 or 4, or more than one of these at one join."""
    n = len(job.values)
    if job.joins:
        place = rng.randrange(len(job.joins))
        start, end, weight = job.joins[place]
        job.joins[place] = (rng.choice((start, start, end, n, 255)), rng.choice((end, start, n)), rng.choice((weight, weight, 0, 10, 255)))


def joins_turned(rng, job):
    """16: two joins in the other order, or one twice."""
    place = rng.randrange(len(job.joins)) if job.joins else 0
    job.joins[place:place + 2] = job.joins[place:place + 2][::-1] if rng.random() < 0.5 else job.joins[place:place + 1] * 2


FAULTS = [bad_value, bad_category, bad_place, bad_place, one_place, one_place, bad_band, bad_band, bad_shuffle, bad_shuffle, no_joins,
          no_values, no_values, equal_values, *[bad_join, joins_turned] * 3]


def damaged_image(rng, job):
    """An image with some faults: items, counts, bytes that lack, bytes too many."""
    job, counts = copy.deepcopy(job), {}
    for _ in range(rng.choice((1, 1, 2, 3))):
        rng.choice(FAULTS)(rng, job)
    if rng.random() < 0.3:
        name = rng.choice(SECTIONS)
        size = len(getattr(job, name))
        counts[name] = rng.choice((0, 1, size + 1, abs(size - 1), 9, 65, 500, 4033, 65535))
    made = encode(job, **counts)
    return made[:rng.randrange(len(made))] if rng.random() < 0.1 else made + bytes(rng.choice((0, 0, 0, 0, 1, 3)))


def drawn(rng, count, among):
    """Jobs of so many zones by chance, each as it is and twice with faults."""
    for k in range(count):
        job = drawn_job(rng, rng.choice(among))
        yield f'drawn-{k}', 0, encode(job)
        for word in ('a', 'b'):
            yield f'damaged-{k}-{word}', None, damaged_image(rng, job)


def equal_but(rng, job, zone):
    """The job's values, the kept ones made equal, that of a zone left out another; further ones left out are equal or as they were. What is
    not returned stays so."""
    kept = kept_of(job)
    value = job.values[rng.choice(kept)]
    equal = [value if place in kept or rng.random() < 0.5 else other for place, other in enumerate(job.values)]
    return with_marks(replace(job, values=with_item(equal, zone, -value or 1)), marks_of(job)).values


def faults_left_out(rng, job):
    """Faults of a job of all parts at a zone that is left out, and kept values that are equal: word, number and the other parts."""
    kept, rows = kept_of(job), job.shuffles
    zone = rng.choice([zone for zone in range(len(job.values)) if zone not in kept])
    other, row = rng.choice(kept), list(rng.choice(rows))
    yield 'equal', 7, {'values': equal_but(rng, job, zone)}
    yield 'value', 3, {'values': with_item(job.values, zone, rng.choice(TOO_LARGE))}
    yield 'category', 8, {'categories': with_item(job.categories, zone, rng.choice((8, 255)))}
    yield 'far', 10, {'places': with_item(job.places, zone, rng.choice(((FAR + 1, 0), (0, -FAR - 1))))}
    yield 'place', 11, {'places': with_item(job.places, zone, job.places[other])}
    yield 'not-named', 13, {'shuffles': [*rows, tuple(with_item(row, row.index(zone), other))]}
    yield 'named-twice', 13, {'shuffles': [*rows, tuple(with_item(row, row.index(other), zone))]}
    yield 'categories-of-kept', 15, {'categories': [job.categories[zone] for zone in kept]}
    yield 'places-of-kept', 15, {'places': [job.places[zone] for zone in kept]}
    yield 'shuffle-of-kept', 14, {'shuffles': [tuple(kept)]}


def with_faults(name, job, faults):
    """A job that breaks no rule as it is, and with faults whose numbers are known."""
    yield name, 0, encode(job)
    for word, number, parts in faults:
        yield f'{name}-{word}', number, encode(replace(job, **parts))


def left_out(rng, count, among):
    """Jobs of so many zones by chance, each kept in another way, as they are and with faults."""
    for k in range(count):
        n = rng.choice(among)
        kept = rng.choice([kept for kept in choices_of_kept(rng, n).values() if len(kept) < n])
        job = job_with_all(rng, n, kept)
        yield from with_faults(f'left-out-{n}-{k}', job, faults_left_out(rng, job))


def one_end_of_each(rng, joins):
    """Zones of which each join has one or both: without their values no join counts."""
    zones = set()
    for join in rng.sample(joins, len(joins)):
        if zones.isdisjoint(join[:2]):
            zones.add(rng.choice(join[:2]))
    return zones


def faults_at_marks(rng, job):
    """Faults at a zone whose value is not returned, in joins that do not count, and marks that leave none that counts: word, number and the
    other parts."""
    n, marks, counts = len(job.values), marks_of(job), {*counting(job)}
    place = rng.choice([place for place, join in enumerate(job.joins) if join not in counts])
    start, end, weight = join = job.joins[place]
    yield 'weight', 4, {'joins': with_item(job.joins, place, (start, end, rng.choice((0, 10, 255))))}
    yield 'itself', 5, {'joins': with_item(job.joins, place, (*[start if start in marks else end] * 2, weight))}
    yield 'twice', 16, {'joins': with_item(job.joins, abs(place - 1), join)}
    yield 'ends', 16, {'joins': with_item(job.joins, place, rng.choice(((start, n, weight), (n, end, weight))))}
    yield 'beside', 3, {'values': with_item(job.values, rng.choice(kept_of(job)), NOT_RETURNED + 1)}
    yield 'no-value', 6, {'values': [NOT_RETURNED] * n}
    yield 'no-join', 6, {'values': with_marks(job, one_end_of_each(rng, job.joins)).values}


def marked_job(rng, n):
    """A job of three zones or more that breaks no rule, with all parts, in which some joins do not count."""
    while True:
        job = with_drawn_marks(rng, job_with_all(rng, n, drawn_kept(rng, n)))
        if len(counting(job)) < len(job.joins):
            return job


def marked(rng, count, among):
    """Jobs of so many zones by chance, each with other values not returned, as they are and with faults."""
    for k in range(count):
        n = rng.choice(among)
        job = marked_job(rng, n)
        yield from with_faults(f'marked-{n}-{k}', job, itertools.chain(faults_left_out(rng, job), faults_at_marks(rng, job)))


def every_byte(made):
    """Every other byte at every place of an image."""
    for place, byte in itertools.product(range(len(made)), range(256)):
        if made[place] != byte:
            yield made[:place] + bytes([byte]) + made[place + 1:]


def some_bytes(rng, made, count):
    """Two or three other bytes, often small ones."""
    for _ in range(count):
        other = bytearray(made)
        for _ in range(rng.choice((2, 3))):
            other[rng.randrange(len(other))] = rng.choice((0, 1, 2, 3, 4, 5, 9, 10, rng.randrange(256)))
        yield bytes(other)


def any_bytes(rng, count):
    """Bytes by chance, behind a count of values that is allowed in most cases."""
    for _ in range(count):
        among, size = rng.choice((range(256), range(4), range(2), (0, 0, 0, 1, 2))), rng.randrange(90)
        begun = bytes([rng.choice((2, 2, 3, 3, 4, 64, 0, 1, 65)), 0]) if rng.random() < 0.9 else b''
        yield begun + bytes(rng.choices(among, k=size))


def largest_job(rng):
    """The job whose image is the longest."""
    places = list({(rng.randint(-FAR, FAR), rng.randint(-FAR, FAR)): 0 for _ in range(200)})[:64]
    joins = [(*pair, rng.randint(1, 9)) for pair in itertools.permutations(range(64), 2)]
    return with_spread(Job(drawn_values(rng, 64), rng.choices(range(8), k=64), joins, places, sorted(rng.sample(range(1, BAND), 8)),
                           drawn_shuffles(rng, 64, 499)))


def largest(rng):
    """The longest image, with a byte more and less, and with a fault far behind; each number is found by hand."""
    job = largest_job(rng)
    made = encode(job)
    assert len(made) == LONGEST
    yield 'longest', 0, made
    yield 'longest and a byte', 17, made + b'\0'
    yield 'longest and 20000 bytes', 17, made + bytes(20000)
    yield 'longest but a byte', 14, made[:-1]
    yield 'longest with a zone twice', 13, made[:-1] + made[-2:-1]
    yield 'longest with a band that falls', 12, encode(replace(job, bands=job.bands[:-1] + [job.bands[0]]))
    yield 'longest with 4033 joins', 15, encode(job, joins=4033)
    yield 'longest with 500 shuffles', 15, encode(job, shuffles=500) + made[-64:]
