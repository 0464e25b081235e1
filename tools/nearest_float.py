"""The 64-bit float nearest to a ratio of whole numbers, and the side of it on which a float lies, for the programs that compare floats."""
import math
import struct
import sys
from fractions import Fraction

SIGNS = EQUAL, BELOW, ABOVE = '=<>'  # how a side is printed: that the float is the ratio, or lies below it or above it, by value


def bits(x):
    """The 64 bits of a float."""
    return struct.unpack('<Q', struct.pack('<d', x))[0]


def is_nearest(x, p, q):
    """Whether the float x has no neighbour nearer to p / q, nor one equally near with an even last bit where its own is odd."""
    far = abs(Fraction(x) - Fraction(p, q))
    for end in (-math.inf, math.inf):
        other = abs(Fraction(math.nextafter(x, end)) - Fraction(p, q))
        if other < far or (other == far and bits(x) % 2):
            return False
    return True


def nearest_bits(p, q):
    """The bits of p / q by Python's int / int, which rounds correctly; that it did so is looked at in exact fractions."""
    x = p / q
    if not is_nearest(x, p, q):
        sys.exit(f'the division of this program does not round {p} / {q} correctly')
    return bits(x)


def side_sign(float_bits, p, q):
    """The sign of the side on which the float of these bits, the nearest or not, lies of p / q: the two are compared as exact fractions."""
    away = Fraction(*struct.unpack('<d', struct.pack('<Q', float_bits))) - Fraction(p, q)
    return EQUAL if away == 0 else BELOW if away < 0 else ABOVE
