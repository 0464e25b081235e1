#!/usr/bin/env python3
"""The samples: job images, each with the text that it is made of and the report that it must have.

    samples.py                  writes samples/*.txt, *.image and *.report
    samples.py --check          says whether the files are what this program makes
    samples.py --check PROGRAM  the same, and that PROGRAM writes each report on its image

`report` is document 01's worked report: the job that the document names, in the image put together by hand in image_cases.py, and its
text as requests A.6 and A.10 changed it. `island` is a job with all parts and of the largest number of zones. `lagoon` is a small one
with a district that touches nobody, which is left out. `atoll` is one with a value not returned (request A.7), so that this district is
left out, and with it the one that has no other neighbour. `delta` is one without the parts that need not be there, in which local
numerators are equal (request A.2). `refused` is a job with one plain mistake. The reports of island, lagoon, atoll and delta are those of
independent_report.c, which is compiled here with gcc; that program must write the other two reports as well, byte for byte. The reports
together show each side of a float, below 0 and above.
"""
import itertools
import pathlib
import re
import subprocess
import sys
import tempfile

from image_cases import REPORT
from job_image import Job, decode, encode
from job_text import SAMPLES, image_of, text_of
from nearest_float import SIGNS

SOURCE = pathlib.Path(__file__).resolve().parent / 'independent_report.c'
GCC = ['gcc', '-O2', '-Wall', '-Wextra', '-Werror', '-std=c17']
SEED = 20261120
ROWS = 8  # the island has as many rows of districts, and as many in a row
APART = 40  # how far two districts of a row lie from each other, about
NEAR = 64 * 64  # the squared distance up to which two districts have a boundary

# the job that document 01 names, and its report: zone 3 touches nobody, so the numbers are those that request A.6 gives, and every float
# equals its ratio, so that request A.10 puts `=` behind each
JOB_01 = Job([1, 1, 3, 3], [0, 0, 1, 1], [(0, 1, 3), (1, 0, 3), (1, 2, 1), (2, 1, 1)], [(0, 0), (1, 0), (3, 0), (9, 9)], [1, 4],
             [(0, 1, 2, 3), (2, 1, 0, 3)])
REPORT_01 = """\
zones 3 5 8
joins 8 8 8
moran 8 64 3FC0000000000000=
geary 48 128 3FD8000000000000=
expected -1 2
local 0 12 8 3FF8000000000000=
local 1 4 8 3FE0000000000000=
local 2 -8 8 BFF0000000000000=
pair 0 0 6
pair 0 1 1
pair 1 0 1
class 0 0 0 0 - -
class 1 6 24 0 3FE0000000000000= 0000000000000000=
class 2 2 -16 8 BFF0000000000000= 3FF8000000000000=
rank 1 1 0
"""

REPORT_NOTES = {'values': 'the job of the worked report of document 01; zone 3 has no join, so the report leaves it out'}

ISLAND_NOTES = {
    'values': 'an island of 64 districts: change in the number of households since the last count',
    'categories': 'main use: 0 harbour, 1 town, 2 suburb, 3 orchards, 4 fields, 5 pasture, 6 forest, 7 heath',
    'join': 'from, to, grade of the boundary; some are open one way only, and from 63 to 0 there is a ferry',
    'place': 'the middle of each district, in hundreds of metres across and up',
    'bands': 'squared distances; no boundary goes beyond the fourth, and the ferry beyond all',
    'shuffle': '499 shuffles',
}

LEFT_OUT = {'lagoon': {4}, 'atoll': {4, 5}}  # the districts that are left out of a sample's report
LAGOON = """\
# eight districts on a lagoon: dwellings that are empty in winter, of a thousand
# 0 harbour, 1 old town, 2 mill quarter, 3 north shore, 4 the islet, 5 salt works, 6 south shore, 7 lighthouse point
# district 4, the islet, has no boundary: it is left out of the number of zones, the mean and the spread, and has no local line
values 62 55 71 140 610 38 128 175
categories 0 0 0 1 1 2 1 1   # 0 town, 1 holiday homes, 2 works; the islet has its own all the same
# boundaries by their grade, both ways, round the lagoon
join 0 1 5
join 1 0 5
join 0 2 3
join 2 0 3
join 1 2 4
join 2 1 4
join 2 3 2
join 3 2 2
join 3 7 6
join 7 3 6
join 6 7 3
join 7 6 3
join 5 6 4
join 6 5 4
join 0 5 2
join 5 0 2
join 6 0 1   # a ferry, one way only; a boundary one way is enough not to be left out
# the middle of each district, in hundreds of metres across and up
place 0 -20
place -14 -12
place -18 4
place -6 21
place 2 1    # the islet
place 15 -15
place 22 -1
place 14 18
bands 300 600 900   # squared distances
# a shuffle names all eight districts; the islet is struck out, and the other seven, by rising number, take the values of those that remain
shuffle 7 6 5 4 3 2 1 0
shuffle 3 0 7 1 4 6 2 5
shuffle 0 1 2 3 5 6 7 4   # only the islet stands elsewhere: the seven stay as they are
shuffle 4 1 5 0 3 2 6 7
shuffle 1 0 2 7 6 5 3 4
"""

ATOLL = """\
# seven districts on an atoll: households with a rain tank, of a hundred
# 0 landing, 1 village, 2 school, 3 north reef, 4 palm point, 5 bird islet, 6 fish ponds
# district 4, palm point, sent nothing in this round, which is written `-`: its boundaries do not count, and it is left out
# district 5, bird islet, has no other boundary than that with palm point: it is left out too, though it sent a value
values 41 36 52 18 - 77 29
categories 0 0 0 1 1 1 2   # 0 town, 1 reef, 2 ponds; no boundary of two reef districts counts, so there is no line `pair 1 1`
# boundaries by their grade, both ways, round the atoll; those with palm point are listed all the same
join 0 1 6
join 1 0 6
join 1 2 4
join 2 1 4
join 2 3 3
join 3 2 3
join 3 4 5
join 4 3 5
join 4 5 7
join 5 4 7
join 4 6 2
join 6 4 2
join 6 0 3
join 0 6 3
join 3 6 1   # a boat across the water, one way only
# the middle of each district, in hundreds of metres across and up
place 0 -18
place -12 -14
place -17 -3
place -9 13
place 6 16   # palm point
place 11 21  # bird islet
place 16 -5
bands 150 320 500 900   # squared distances; between 500 and 900 there is only a boundary with palm point, so class 4 has no weight
# a shuffle names all seven districts; the two left out are struck, and the other five take the values of those that remain, in order
shuffle 6 5 4 3 2 1 0
shuffle 0 1 5 2 3 4 6   # only those left out stand elsewhere: the five stay as they are
shuffle 3 0 4 1 6 5 2
shuffle 1 0 2 6 4 3 5
shuffle 2 4 6 0 5 1 3
"""

DELTA = """\
# seven districts of a delta: dwellings that were built in a year
# 0 landing, 1 market, 2 mill, 3 east bank, 4 west bank, 5 polder, 6 dyke
# district 5, the polder, sent nothing; the mean of the others is 20, and a district that has 20 has the local numerator 0
# of equal local numerators the one with the larger row sum comes first: the grades of its boundaries to others that count. They are
# 5 at the landing, 7 at the market, 5 at the mill, 4 at the dyke; 5 on the east bank, 11 on the west bank; equal ones stay by number
values 20 20 20 24 16 - 20
# boundaries by their grade, both ways
join 0 1 2
join 1 0 2
join 0 3 3
join 3 0 3
join 1 2 1
join 2 1 1
join 1 4 4
join 4 1 4
join 2 6 4
join 6 2 4
join 3 4 2
join 4 3 2
join 2 5 9   # with the polder: listed all the same, but in no row sum
join 5 2 9
join 4 6 5   # down the river, one way only: it is in the row of the west bank, and not in that of the dyke
"""
TIED = [1, 0, 2, 6, 4, 3]  # the districts of the delta that are kept, as its notes order them

REFUSED = """\
# a job of six districts with one mistake: the program answers `refused 5`
values 12 15 -4 0 7 21
categories 0 0 1 1 2 2
join 0 1 4
join 1 0 4
join 1 2 2
join 2 1 2
join 2 3 6
join 3 2 6
join 3 3 1   # the mistake: district 3 is joined to itself
join 3 4 5
join 4 3 5
join 4 5 3
join 5 4 3
place 0 0
place 10 2
place 21 -1
place 30 5
place 38 14
place 52 11
bands 150 400
shuffle 5 4 3 2 1 0
shuffle 1 0 3 2 5 4
"""


# ---- the island

class Draw:
    """Numbers by chance that are the same everywhere: 16,807 times the one before, modulo 2^31 - 1."""

    def __init__(self, seed):
        """Begins at the seed."""
        self.state = seed

    def between(self, least, most):
        """One of the numbers from least to most."""
        self.state = self.state * 16807 % (2 ** 31 - 1)
        return least + self.state % (most - least + 1)

    def shuffled(self, n):
        """The numbers below n in another order."""
        row = list(range(n))
        for last in range(n - 1, 0, -1):
            other = self.between(0, last)
            row[last], row[other] = row[other], row[last]
        return tuple(row)


def squared(places, start, end):
    """The squared distance of two districts."""
    return sum((a - b) ** 2 for a, b in zip(places[start], places[end]))


def island_places(draw):
    """Rows of districts, each moved a little, the rows shorter at the two ends of the island."""
    places = []
    for row, column in itertools.product(range(ROWS), repeat=2):
        wide = APART - (2 * row - ROWS + 1) ** 2 // 8
        places.append(((2 * column - ROWS + 1) * wide // 2 + 5 * row + draw.between(-9, 9),
                       (ROWS - 1 - 2 * row) * APART // 2 + draw.between(-9, 9)))
    return places


def island_values(draw):
    """Households become more around the harbour town in the south-east, and fewer far from it, with much that is by chance."""
    return [120 - 5 * ((row - 5) ** 2 + (column - 6) ** 2) + draw.between(-400, 400)
            for row, column in itertools.product(range(ROWS), repeat=2)]


def island_categories(draw):
    """Use by the distance from the harbour town, and here and there another one."""
    rings = [(row - 5) ** 2 + (column - 6) ** 2 for row, column in itertools.product(range(ROWS), repeat=2)]
    uses = [sum(ring > end for end in (0, 2, 8, 13, 20, 32, 45)) for ring in rings]
    return [draw.between(2, 7) if draw.between(1, 9) == 1 else use for use in uses]


def grade_of(draw, distance):
    """The nearer two districts, the higher the grade; in one direction of five it is another, in one of sixteen there is no way."""
    if draw.between(1, 16) == 1:
        return 0
    grade = 9 - 8 * distance // NEAR + (draw.between(-2, 2) if draw.between(1, 5) == 1 else 0)
    return min(9, max(1, grade))


def island_joins(draw, places):
    """Joins of near districts; and a ferry round the island, one way only."""
    pairs = [pair for pair in itertools.permutations(range(len(places)), 2) if squared(places, *pair) <= NEAR]
    graded = [(*pair, grade_of(draw, squared(places, *pair))) for pair in pairs]
    return sorted([join for join in graded if join[2] > 0] + [(63, 0, 1)])


def island():
    """The job of the island."""
    draw = Draw(SEED)
    places = island_places(draw)
    bands = [far * far for far in (30, 40, 50, 64, 90, 130, 180, 240)]
    return Job(island_values(draw), island_categories(draw), island_joins(draw, places), places, bands,
               [draw.shuffled(len(places)) for _ in range(499)])


# ---- the files

def noted(text, notes):
    """The text with a note above the first line of each section."""
    lines, left = [], dict(notes)
    for line in text.splitlines():
        note = left.pop(line.split()[0], None)
        lines += [f'# {note}', line] if note else [line]
    return '\n'.join([*lines, ''])


def written(program, image):
    """What a program writes on an image."""
    return subprocess.run([program], input=image, capture_output=True, check=True).stdout


def reports(images):
    """What independent_report.c writes on each image."""
    with tempfile.TemporaryDirectory() as place:
        program = pathlib.Path(place) / 'independent_report'
        subprocess.run([*GCC, '-o', program, SOURCE], check=True)
        return {name: written(program, image) for name, image in images.items()}


def must(holds, told):
    """Ends the run where something does not hold."""
    if not holds:
        sys.exit(told)


def must_be_document_01(image):
    """An image must be that of document 01's job, taken apart and put together, and the one put together by hand."""
    must(decode(image) == JOB_01 and encode(JOB_01) == image == REPORT, "report.image is not the image of document 01's job")


def made():
    """The files by their names; document 01's image and the reports that are known beforehand must come out."""
    texts = {'report': noted(text_of(REPORT)[0], REPORT_NOTES), 'island': noted(text_of(encode(island()))[0], ISLAND_NOTES),
             'lagoon': LAGOON, 'atoll': ATOLL, 'delta': DELTA, 'refused': REFUSED}
    images = {name: image_of(text) for name, text in texts.items()}
    must_be_document_01(images['report'])
    printed = reports(images)
    must(printed['report'] == REPORT_01.encode(), "independent_report.c does not write document 01's report as A.6 and A.10 changed it")
    must(printed['refused'] == b'refused 5\n', 'independent_report.c does not refuse the job with the mistake')
    must_have_all(printed['island'].decode())
    for name, zones in LEFT_OUT.items():
        must_leave_out(name, zones, decode(images[name]), printed[name].decode())
    must_show_ties(printed['delta'].decode())
    must_show_sides(b''.join(printed.values()).decode())
    files = {f'{name}.txt': text.encode() for name, text in texts.items()}
    files |= {f'{name}.image': image for name, image in images.items()}
    return files | {f'{name}.report': report for name, report in printed.items()}


def must_have_all(report):
    """The island's report must have lines of all kinds, classes with and without weight, and shuffles on both sides of its rank."""
    lines = [line.split() for line in report.splitlines()]
    words = [line[0] for line in lines]
    must(words.count('local') == 64 and words.count('pair') > 8 and words.count('class') == 9, 'lines of some kind lack on the island')
    must({line[5] == '-' for line in lines if line[0] == 'class'} == {True, False}, 'all classes have weight, or none')
    must(lines[-1][0] == 'rank' and lines[-1][1] != '0' != lines[-1][3], 'no shuffles on both sides')


def must_leave_out(name, zones, job, report):
    """A report must be that of the other districts, by their number, their values, the weights among them and the local lines, and have
    lines of all kinds."""
    lines = [line.split() for line in report.splitlines()]
    kept = [zone for zone in range(len(job.values)) if zone not in zones]
    total, weight = sum(job.values[zone] for zone in kept), sum(join[2] for join in job.joins if zones.isdisjoint(join[:2]))
    must(lines[0][:3] == ['zones', str(len(kept)), str(total)] and lines[1][:2] == ['joins', str(weight)], f'{name}: another n, S or W')
    must(lines[4] == ['expected', '-1', str(len(kept) - 1)], f'{name}: a district left out is expected')
    must({line[1] for line in lines if line[0] == 'local'} == {str(zone) for zone in kept}, f'{name}: local lines of other districts')
    must({line[0] for line in lines} >= {'pair', 'class', 'rank'}, f'{name}: lines of some kind lack')
    must('0' not in lines[-1], f'{name}: no shuffles on each side of the rank')


def must_show_ties(report):
    """The local lines of the delta must have the order of its notes, four of them with the local numerator 0 and two with one below 0."""
    zones, local = zip(*(map(int, line.split()[1:3]) for line in report.splitlines() if line.startswith('local ')))
    must([*zones] == TIED, 'the delta has another order')
    must(local[:4] == (0,) * 4 and local[4] == local[5] < 0, 'the delta has no equal local numerators')


def must_show_sides(reports):
    """Of figures below 0 and of others there must be each side: a reader sees by them that the sign goes by value and not by size."""
    shown = {(int(bits, 16) >> 63, sign) for bits, sign in re.findall(f'([0-9A-F]{{16}})([{SIGNS}])', reports)}
    must(shown == {*itertools.product((0, 1), SIGNS)}, 'the reports do not show each side of floats below 0 and above')


def make():
    """Writes the files."""
    for name, data in made().items():
        (SAMPLES / name).write_bytes(data)


def check(program):
    """Whether the files are what is made here, and whether the program, where one is given, writes the reports."""
    files = made()
    for name, data in files.items():
        must((SAMPLES / name).read_bytes() == data, f'samples/{name} is not what samples.py makes')
    must({path.name for path in SAMPLES.iterdir()} == set(files), 'samples/ has other files than those that samples.py makes')
    images = [name for name in files if name.endswith('.image')]
    for name in images if program else ():
        kept = name.replace('.image', '.report')
        must(written(program, files[name]) == files[kept], f'on samples/{name} the program does not write samples/{kept}')
    print(f"the {len(files)} files of samples/ are what tools/samples.py makes, document 01's image and report among them" +
          (f'; on {len(images)} images the program writes the report that is kept' if program else ''))


if __name__ == '__main__':
    if len(sys.argv) == 1:
        make()
    elif sys.argv[1] == '--check' and len(sys.argv) < 4:
        check(sys.argv[2] if len(sys.argv) == 3 else None)
    else:
        sys.exit(__doc__)
