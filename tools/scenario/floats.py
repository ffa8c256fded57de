"""Floats of binary64: the one place where their text form is written and read, and operations that never raise."""

import math
import struct

INF = math.inf
NAN = math.nan
LARGEST = 1.7976931348623157e308
LEAST = 5e-324
LEAST_NORMAL = 2.2250738585072014e-308


def text(x):
    """The 16 hexadecimal digits of a float; every NaN alike."""
    if x != x:
        return "7ff8000000000000"
    return struct.pack(">d", x).hex()


def number(word):
    """The float of 16 hexadecimal digits."""
    return struct.unpack(">d", bytes.fromhex(word))[0]


def of_bits(bits):
    return struct.unpack(">d", struct.pack(">Q", bits))[0]


def up(x):
    """The next float above."""
    return math.nextafter(x, INF)


def down(x):
    """The next float below."""
    return math.nextafter(x, -INF)


def finite(x):
    return x - x == 0.0


def div(a, b):
    """IEEE 754 division, by zero too."""
    if b != 0.0:
        return a / b
    if a == 0.0 or a != a or b != b:
        return NAN
    return math.copysign(INF, a) * math.copysign(1.0, b)


def floor(x):
    if not finite(x) or x == 0.0 or abs(x) >= 4503599627370496.0:
        return x
    return float(math.floor(x))


def ceil(x):
    if not finite(x) or x == 0.0 or abs(x) >= 4503599627370496.0:
        return x
    return math.copysign(float(math.ceil(x)), x)
