"""make.py [--check]: writes crates/decimal_replay/data/floats and crates/decimal_replay/stdout, or says whether they are what it would write.

Each float stands with its shortest decimal digits as Python's repr has them. The same seed gives the same bytes.
The format is told in crates/decimal_replay/src/main.rt.
"""
import math
import random
import struct
import sys
from decimal import Decimal
from pathlib import Path

sys.dont_write_bytecode = True
sys.path.insert(0, str(Path(__file__).resolve().parents[1]))
from stored import bits_of, float_of, store  # noqa: E402

SEED = 20261115
PLACE = 326                     # a stored place is that of the lowest digit, and this more
FLOATS = 4000


def shortest(bits):
    """Digits, place and kind of the float with these bits."""
    x = float_of(bits)
    if math.isnan(x):
        return 0, 0, 4
    minus = bits >> 63
    if math.isinf(x):
        return 0, 0, 2 + minus
    _, digits, place = Decimal(repr(x)).as_tuple()
    number = int("".join(map(str, digits)))
    while number and number % 10 == 0:
        number //= 10
        place += 1
    return number, PLACE + (place if number else 0), minus


def edges():
    """Both zeros, the ends of the format, every power of two with its neighbours, powers of ten, numbers known to be hard, and what is no number."""
    yield from [0, 1, 2, 2**52 - 1, 2**52, 2**52 + 1, 0x7FEFFFFFFFFFFFFF, 0x7FF0000000000000, 0x7FF0000000000001, 0x7FF8000000000000, 0x7FFFFFFFFFFFFFFF]
    for field in range(1, 2047, 7):
        yield from [(field << 52) - 1, field << 52, (field << 52) + 1]
    for k in range(-323, 309, 4):
        yield bits_of(float("1e%d" % k))
    for x in [0.1, 0.2, 0.3, 1 / 3, 2 / 3, 5e-324, 9007199254740993.0, 2.0**63, 9.5367431640625e-07, 1e22, 1e23, 2.2250738585072011e-308, 1.7976931348623157e308, 123456789012345680.0]:
        yield bits_of(x)


def any_float(r):
    k = r.randrange(6)
    if k == 0:
        return r.getrandbits(64)
    if k == 1:
        return r.randrange(2047) << 52 | r.choice([0, 1, 2**51, 2**52 - 1])
    if k == 2:
        return r.getrandbits(r.randrange(1, 53))
    if k == 3:
        return bits_of(float(r.randint(1, 10 ** r.randint(1, 22))))
    if k == 4:
        return bits_of(r.randint(2**50, 2**53) / 4)
    return bits_of(r.randint(1, 10**9) / 10 ** r.randint(0, 12))


def made():
    r = random.Random(SEED)
    floats = list(edges())
    floats += [any_float(r) for _ in range(FLOATS - len(floats))]
    data = b""
    tally = {"up to 15 digits": 0, "16 digits": 0, "17 digits": 0, "infinite or NaN": 0}
    for b in floats:
        bits = b ^ r.getrandbits(1) << 63
        digits, place, kind = shortest(bits)
        name = "infinite or NaN" if kind > 1 else "17 digits" if digits >= 10**16 else "16 digits" if digits >= 10**15 else "up to 15 digits"
        tally[name] += 1
        data += struct.pack("<QQII", bits, digits, place, kind)
    return data, "".join(f"{k} {n}\n" for k, n in tally.items()) + "differ 0\n"


store("decimal_replay", "floats", *made())
