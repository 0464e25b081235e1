"""Document 01's job image for the tools: a job put into its bytes, and bytes taken apart. Nothing is judged here."""
import itertools
import struct
from dataclasses import dataclass, field

FORMS = {'values': 'i', 'categories': 'B', 'joins': '3B', 'places': '2i', 'bands': 'I', 'shuffles': '{n}B'}  # of one item
SECTIONS = list(FORMS)
LISTS = ('values', 'categories', 'bands')  # whose items are single numbers; those of the others are rows
NOT_RETURNED = -2 ** 31  # stands for a value not returned, by request A.7


@dataclass
class Job:
    """The items of the six sections: joins are from, to and weight, places pairs, shuffles rows."""
    values: list = field(default_factory=list)
    categories: list = field(default_factory=list)
    joins: list = field(default_factory=list)
    places: list = field(default_factory=list)
    bands: list = field(default_factory=list)
    shuffles: list = field(default_factory=list)


def flat(rows):
    """The entries of rows, one after the other."""
    return list(itertools.chain.from_iterable(rows))


def encode(job, **counts):
    """Six sections, each after its count; some counts may be others than there are items."""
    made = b''
    for section, form in FORMS.items():
        items = getattr(job, section)
        entries = items if section in LISTS else flat(items)
        made += struct.pack(f'<H{len(entries)}{form[-1]}', counts.get(section, len(items)), *entries)
    return made


def items_of(image, at, form, count):
    """The items of a section that are wholly there, and the place behind them."""
    items, size = [], struct.calcsize('<' + form)
    while len(items) < count and at + size <= len(image):
        items.append(struct.unpack_from('<' + form, image, at))
        at += size
    return items, at


def sections_of(image):
    """The sections as far as the image goes: name, count (None where it is cut), the items wholly there, and the place behind them."""
    at, n = 0, 0
    for section, form in FORMS.items():
        if at + 2 > len(image):
            yield section, None, [], at
            return
        count = int.from_bytes(image[at:at + 2], 'little')
        n = count if section == 'values' else n
        items, at = items_of(image, at + 2, form.format(n=n), count)
        yield section, count, items, at
        if len(items) < count:
            return


def decode(image):
    """The job of an image; of one that is cut, what is there."""
    return Job(**{section: flat(items) if section in LISTS else items for section, _, items, _ in sections_of(image)})
