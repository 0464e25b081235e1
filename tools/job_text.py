#!/usr/bin/env python3
"""A job image from a text that a person can write, and an image printed as such a text.

    job_text.py image < job.txt > job.image   makes the image of a text
    job_text.py text < job.image > job.txt    prints an image as a text
    job_text.py --check                       tests both, there and back, on the samples and on drawn images, and some bad texts

A text has one thing a line; `#` begins a comment, and blank lines are skipped:

    values 1 1 - 3        one for each zone, from zone 0 on; `-` is a value not returned, which the image has as -2147483648
    categories 0 0 1 1    the same
    join 0 1 3            from zone 0 to zone 1 with weight 3; the other direction is a join of its own
    place 0 0             across, then up; a line for each zone, from zone 0 on
    bands 1 4             squared distances
    shuffle 0 1 2 3       as many zone numbers as there are values; a line for each shuffle

The lines may stand in any order. Values, categories and bands may go on in further lines that begin with the same word. A section without
a line is empty. JOINS ARE SORTED by from, then to, since an image must have them so; all else stays as it is written.

Nothing is judged but what must be known to put a number into its bytes: the report program judges the job. A text that cannot be put into
an image is refused with the number of its line, and no image is written. An image that ends early, or has bytes behind its end, is printed
as far as it goes, with a comment that says so, and the status is 1.
"""
import pathlib
import random
import re
import sys

from image_cases import REPORT, drawn_job, largest_job, some_bytes, up_to
from job_image import LISTS, NOT_RETURNED, SECTIONS, Job, decode, encode, sections_of

SAMPLES = pathlib.Path(__file__).resolve().parent.parent / 'samples'
WORDS = dict(zip(['values', 'categories', 'join', 'place', 'bands', 'shuffle'], SECTIONS))  # a line's first word, and its section
SIGNED, BYTE, UNSIGNED = (-2 ** 31, 2 ** 31 - 1), (0, 255), (0, 2 ** 32 - 1)
FITS = {'values': SIGNED, 'categories': BYTE, 'join': BYTE, 'place': SIGNED, 'bands': UNSIGNED, 'shuffle': BYTE}
SIZES = {'join': (3, 'from, to and weight'), 'place': (2, 'across and up')}
A_LINE = 16  # so many numbers of a list are printed in a line; a row has a line of its own
SEED = 20261121


class BadText(Exception):
    """A text that cannot be put into an image; it carries the message."""


# ---- from a text to an image

def number(word, written):
    """A number of a line, which must fit its bytes; among values `-` is one too."""
    if (word, written) == ('values', '-'):
        return NOT_RETURNED
    least, most = FITS[word]
    if not re.fullmatch('-?[0-9]+', written):
        raise BadText(f"'{written}' is not a whole number")
    if len(written) > 20 or not least <= int(written) <= most:
        raise BadText(f'{written} does not fit: a number after `{word}` is from {least:,} to {most:,}')
    return int(written)


def add_line(job, fields):
    """Puts a line's numbers into its section."""
    word, *written = fields
    if word not in WORDS:
        raise BadText(f"'{word}' is none of {', '.join(WORDS)}")
    numbers, items = [number(word, one) for one in written], getattr(job, WORDS[word])
    if word in SIZES and len(numbers) != SIZES[word][0]:
        raise BadText(f'`{word}` has {SIZES[word][1]}, and here are {len(numbers)} numbers')
    items.extend(numbers if word in LISTS else [tuple(numbers)])
    if len(items) > 65535:
        raise BadText(f'there are more than 65,535 {WORDS[word]}, which no count can say')


def must_fit_values(job, shuffle_lines):
    """Every shuffle must be as long as there are values, or the rows of the image would be others than those of the text."""
    for line, row in zip(shuffle_lines, job.shuffles):
        if len(row) != len(job.values):
            raise BadText(f'line {line}: a shuffle of {len(row)} zone numbers, and there are {len(job.values)} values')


def job_of(text):
    """The job of a text; joins are sorted."""
    job, shuffle_lines = Job(), []
    for line, written in enumerate(text.split('\n'), 1):
        fields = written.split('#')[0].split()
        try:
            if fields:
                add_line(job, fields)
        except BadText as bad:
            raise BadText(f'line {line}: {bad}') from None
        shuffle_lines += [line] if fields[:1] == ['shuffle'] else []
    must_fit_values(job, shuffle_lines)
    job.joins.sort(key=lambda join: join[:2])
    return job


def image_of(text):
    """The image of a text."""
    return encode(job_of(text))


# ---- from an image to a text

def spelled(word, entry):
    """A number as it is written behind a word."""
    return '-' if (word, entry) == ('values', NOT_RETURNED) else str(entry)


def lines_of(word, items):
    """The lines of a section."""
    if word in LISTS:
        items = [sum(items[place:place + A_LINE], ()) for place in range(0, len(items), A_LINE)]
    lines = [' '.join([word, *(spelled(word, entry) for entry in item)]) for item in items]
    if word == 'join' and any(a[:2] > b[:2] for a, b in zip(items, items[1:])):
        lines.append('# the joins of the image are not sorted; an image made of this text has them sorted')
    return lines


def told_of_end(image, section, count, items, end):
    """A comment for an image that ends early in its last section, or has bytes behind it; none for a whole one."""
    early = f'# the image ends early, after {len(image)} bytes: '
    if count is None:
        return [early + f'inside the count of {section}']
    if len(items) < count:
        return [early + f'{len(items)} of {count} {section} are there']
    return [f'# bytes left over behind the end of the image: {len(image) - end}'] if end < len(image) else []


def text_of(image):
    """The text of an image, and whether that is all of it."""
    sections, lines = list(sections_of(image)), []
    for word, (_, _, items, _) in zip(WORDS, sections):
        lines += lines_of(word, items)
    told = told_of_end(image, *sections[-1])
    return '\n'.join([*lines, *told, '']), not told


# ---- the test

BAD = [  # a text, and how the message about it must begin
    ('values 1 2\nvalue 3\n', "line 2: 'value' is none of"),
    ('values 1 2.5\n', "line 1: '2.5' is not a whole number"),
    ('values 1 2\n\n# a comment\ncategories 0 one\n', "line 4: 'one' is not a whole number"),
    ('values 2147483648\n', 'line 1: 2147483648 does not fit'),
    ('values 1 -\nvalues 2 -2147483649\n', 'line 2: -2147483649 does not fit'),
    ('values 1 --\n', "line 1: '--' is not a whole number"),
    ('values 1 -\ncategories 0 -\n', "line 2: '-' is not a whole number"),
    ('place 0 -\n', "line 1: '-' is not a whole number"),
    ('values 1 2\njoin 0 1 256 # too much\n', 'line 2: 256 does not fit'),
    ('values 1 2\njoin -1 1 2\n', 'line 2: -1 does not fit'),
    ('join 0 1\n', 'line 1: `join` has from, to and weight, and here are 2 numbers'),
    ('place 0 0\nplace 1 1 1\n', 'line 2: `place` has across and up, and here are 3 numbers'),
    ('bands 1 4294967296\n', 'line 1: 4294967296 does not fit'),
    ('bands ' + '9' * 5000 + '\n', 'line 1: 999'),
    ('shuffle 0 1\nvalues 5 6\nshuffle 0 1 1\n', 'line 3: a shuffle of 3 zone numbers, and there are 2 values'),
    ('join 0 1 1\n' * 65536, 'line 65536: there are more than 65,535 joins'),
]
FREE = """  # joins in any order, lists that go on, comments behind a line
shuffle 1 0 2
join 2 1 4   # sorted by the tool
join 0 1 3
bands 5 \t 9
values 1
values -2 -  # not returned
place 0 0
place 1 -1

place 2 2
"""


def must(holds, told):
    """Ends the run where something does not hold."""
    if not holds:
        sys.exit(told)


def must_return(name, image):
    """There and back: image, text and image again are the same, and so are text, image and text again."""
    text, is_all = text_of(image)
    must(is_all, f'{name}: not printed as a whole')
    must(image_of(text) == image, f'{name}: the image of its text is another')
    must(text_of(image_of(text)) == (text, True), f'{name}: the text of its image is another')


def check_samples():
    """Every sample there and back; and its text, comments and all, gives its image."""
    images = sorted(SAMPLES.glob('*.image'))
    for path in images:
        must_return(path.name, path.read_bytes())
        must(image_of(path.with_suffix('.txt').read_text()) == path.read_bytes(), f'{path.stem}.txt does not give {path.name}')
    must_return("document 01's image", REPORT)
    return len(images) + 1


def check_drawn():
    """Drawn jobs there and back, and damaged images whose joins are sorted."""
    rng, count, marked = random.Random(SEED), 0, 0
    for k in range(400):
        job = drawn_job(rng, rng.choice((2, 3, 5, 16, 33, 64)))
        must_return(f'drawn {k}', encode(job))
        marked += NOT_RETURNED in job.values
    must(marked >= 50, f'only {marked} drawn images have values not returned')
    must_return('the largest', encode(largest_job(rng)))
    must_return('no zones', bytes(12))
    must_return('the ends of the numbers', encode(Job([NOT_RETURNED, NOT_RETURNED + 1, 2 ** 31 - 1], [0, 255, 0], [(0, 255, 255)],
                                                      [(-2 ** 31, 2 ** 31 - 1)], [0, 2 ** 32 - 1], [(0, 255, 0)])))
    for k, image in enumerate(some_bytes(rng, REPORT, 400)):
        text, is_all = text_of(image)
        if is_all and 'not sorted' not in text:
            must_return(f'damaged {k}', image)
            count += 1
    must(count >= 100, f'only {count} damaged images came back')
    return 403 + count


def check_free():
    """A text as a person may write it."""
    job = Job([1, -2, NOT_RETURNED], [], [(0, 1, 3), (2, 1, 4)], [(0, 0), (1, -1), (2, 2)], [5, 9], [(1, 0, 2)])
    must(decode(image_of(FREE)) == job, 'a text with comments and joins in any order gives another job')
    must(text_of(encode(job))[0].startswith('values 1 -2 -\n'), 'a value not returned is not written as `-`')


def check_bad():
    """Texts that are refused, by the beginning of the message."""
    for text, told in BAD:
        try:
            image_of(text)
        except BadText as bad:
            must(str(bad).startswith(told), f'wanted: {told}\nfound: {bad}')
        else:
            sys.exit(f'not refused: {told}')
    return len(BAD)


def check_not_whole():
    """Images cut at each byte, and with bytes behind the end: printed as far as they go, and not as whole ones."""
    whole = text_of(REPORT)[0].splitlines()
    for length in range(len(REPORT)):
        text, is_all = text_of(REPORT[:length])
        must(not is_all and 'ends early' in text.splitlines()[-1], f'cut after {length} bytes, and not told')
        must(len(text.splitlines()) <= len(whole) + 1, f'cut after {length} bytes, and more lines than before')
    for more in (1, 3, 20000):
        text, is_all = text_of(REPORT + bytes(more))
        must(not is_all and text.splitlines() == [*whole, f'# bytes left over behind the end of the image: {more}'], f'{more} bytes more')
    must('3 of 4032 joins' in text_of(up_to('joins', 4032) + bytes(11))[0], 'a cut section is not shown as far as it goes')
    return len(REPORT) + 4


def check():
    """All tests, and what was tested."""
    samples, drawn, bad, cut = check_samples(), check_drawn(), check_bad(), check_not_whole()
    check_free()
    print(f'{samples} samples and {drawn} other images there and back: the same; {bad} bad texts refused by line; '
          f'{cut} images that are cut or too long told so')


# ---- the command line

def make_image():
    """The image of standard input's text; a bad text is told on standard error, and nothing is written."""
    try:
        sys.stdout.buffer.write(image_of(sys.stdin.buffer.read().decode('utf-8-sig', 'replace')))
    except BadText as bad:
        sys.exit(str(bad))


def print_text():
    """The text of standard input's image; the status says whether that is all of it."""
    text, is_all = text_of(sys.stdin.buffer.read())
    sys.stdout.write(text)
    sys.exit(0 if is_all else 1)


if __name__ == '__main__':
    commands = {'image': make_image, 'text': print_text, '--check': check}
    if len(sys.argv) != 2 or sys.argv[1] not in commands:
        sys.exit(__doc__)
    commands[sys.argv[1]]()
