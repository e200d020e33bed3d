#!/usr/bin/env python3
"""The stored answers of exp, ln and sin, worked out apart from the Rattle code.

    answers.py OUT      write the list that crates/functions_replay replays (its data/answers.bin)
    answers.py          work the same list out, hold it against the bounds and print the figures

Each record is 32 bytes, four little-endian words: the function (1 exp, 2 ln, 3 sin), the input's bits,
the bits that the definitions of crates/functions/specs give (all ones: refused), and the bits of the
correctly rounded value. The definitions are written here a second time, over Python's whole numbers;
the bounds are checked with exact fractions; the correctly rounded values are mpmath's, at 400 bits and more.
"""
import random
import struct
import sys
from fractions import Fraction
from math import factorial, inf, isinf, isnan, nextafter

from mpmath import mp, mpf

ELL = 0xB17217F7D1CF79AC            # L * 2^64
QUARTER = 4 * 0x6487ED5110B4611A    # Q * 2^64
ONE = 1 << 62
NAN, REFUSED = 0x7FF8000000000000, 0xFFFFFFFFFFFFFFFF


def bits(x):
    return NAN if isnan(x) else struct.unpack('<Q', struct.pack('<d', x))[0]


def floating(b):
    return struct.unpack('<d', struct.pack('<Q', b))[0]


# ---- fixed point, as specs/Words.antt has it

def upper(a, b):
    return (a * b) >> 64


def horner(words, y):
    a = 0
    for c in reversed(words):
        a = c + upper(a, y)
    return a


def falling(words, y):
    a = 0
    for c in reversed(words):
        a = c - upper(a, y)
    return a


def packed(b, p):
    """The bits of p * 2^(b - 1085), rounded to 53 digits."""
    if p == 0:
        return 0
    z = 64 - p.bit_length()
    return ((b - z) << 52) + ((((p << z) >> 10) + 1) >> 1)


def reduction(modulus, x):
    """k and f of |x| (specs/Reduction.antt): k, the size of f as a fraction, its word, and whether |x| is below k times the modulus."""
    n, d = Fraction(abs(x)).as_integer_ratio()
    k = (2 * (n << 64) + modulus * d) // (2 * modulus * d)
    left = abs((n << 64) - k * modulus * d)
    return k, Fraction(left, d << 64), left // d, (n << 64) < k * modulus * d


def negative(x):
    return bits(x) >> 63 == 1


# ---- exp

EVEN = [ONE // factorial(i) for i in range(0, 13, 2)]
ODD = [ONE // factorial(i) for i in range(1, 14, 2)]


def exp_bits(x):
    if isnan(x):
        return NAN
    if x > 709:
        return bits(inf)
    if x < -708:
        return 0
    k, _, f, below = reduction(ELL, x)
    y = upper(f, f)
    even, odd = horner(EVEN, y), upper(f, horner(ODD, y))
    p = even - odd if negative(x) != below else even + odd
    return packed(1023 - k if negative(x) else 1023 + k, p)


def exp_error(x, r):
    """r / 2^k less the power sum of f to degree 13, for x from -708 to 709."""
    k, f, _, below = reduction(ELL, x)
    if negative(x):
        k, f = -k, -f
    if below:
        f = -f
    return Fraction(r) / Fraction(2) ** k - sum(f ** i / factorial(i) for i in range(14))


# ---- ln

LN = [ONE // i for i in range(1, 19, 2)] + [251578777698996783]


def ln_parts(x):
    """e and m with x = 2^e m and 3/4 <= m < 3/2."""
    m, e = Fraction(x), 0
    e = m.numerator.bit_length() - m.denominator.bit_length()
    m /= Fraction(2) ** e
    while m >= Fraction(3, 2):
        m, e = m / 2, e + 1
    while m < Fraction(3, 4):
        m, e = m * 2, e - 1
    return e, m


def ln_bits(x):
    if isnan(x) or x < 0:
        return NAN
    if x == 0:
        return bits(-inf)
    if isinf(x):
        return bits(inf)
    e, m = ln_parts(x)
    z = (m - 1) / (m + 1)
    f = 2 * int(abs(z) * 2 ** 63)
    w = upper(f, horner(LN, upper(f, f)))
    t = 4 if abs(e) < 12 else 10
    minus = e < 0 if e != 0 else m < 1
    size = (abs(e) * ELL >> t) + (w >> t - 3 if minus == (m < 1) else -(w >> t - 3))
    r = packed(1021 + t, size)
    return r | 1 << 63 if minus else r


def ln_error(x, r):
    e, m = ln_parts(x)
    z = (m - 1) / (m + 1)
    return Fraction(r) - (e * Fraction(ELL, 2 ** 64) + 2 * sum(z ** i / i for i in range(1, 20, 2)))


# ---- sin

SINE = [ONE // factorial(i) for i in range(1, 18, 2)]
COSINE = [ONE // factorial(i) for i in range(0, 17, 2)]


def sin_bits(x):
    if isnan(x) or isinf(x):
        return NAN
    if abs(x) > 2 ** 20:
        return REFUSED
    if abs(x) < 0.25:
        return sin_small_bits(x)
    k, _, f, below = reduction(QUARTER, x)
    y = upper(f, f)
    p = falling(COSINE, y) if k % 2 else upper(f, falling(SINE, y))
    turned = (k % 4 >= 2) != (below and k % 2 == 0)
    r = packed(1023, p)
    return r | 1 << 63 if negative(x) != turned else r


def sin_small_bits(x):
    size = Fraction(abs(x))
    c = int(size * 2 ** 1074).bit_length()
    if c <= 1010:
        return bits(x)
    f, digits = int(size * 2 ** 64), int(size * 2 ** (1138 - c))
    r = packed(c - 51, upper(digits, falling(SINE, upper(f, f))))
    return r | 1 << 63 if negative(x) else r


def sin_error(x, r):
    k, f, _, below = reduction(QUARTER, x)
    if below:
        f = -f
    if negative(x):
        k, f = -k, -f
    sine = sum((-1) ** (i // 2) * f ** i / factorial(i) for i in range(1, 18, 2))
    cosine = sum((-1) ** (i // 2) * f ** i / factorial(i) for i in range(0, 17, 2))
    return Fraction(r) - [sine, cosine, -sine, -cosine][k % 4]


# ---- the correctly rounded values

def nearest(v):
    """The bits of the float nearest to an mpf, subnormals and overflow too."""
    if v == 0:
        return 0
    s, man, exponent, _ = mpf(v)._mpf_
    q = Fraction(int(man)) * Fraction(2) ** exponent
    low = max(-1074, int(man).bit_length() + exponent - 53)
    t = q / Fraction(2) ** low
    n = t.numerator // t.denominator
    rest = t - n
    if rest > Fraction(1, 2) or (rest == Fraction(1, 2) and n % 2):
        n += 1
    value = Fraction(n) * Fraction(2) ** low
    if value >= Fraction(2) ** 1024:
        return bits(-inf if s else inf)
    return bits(-float(value) if s else float(value))


def rounded(which, x):
    if isnan(x):
        return NAN
    mp.prec = 400
    if which == 1:
        return bits(inf) if x == inf else 0 if x == -inf else nearest(mp.exp(mpf(x)))
    if which == 2:
        if x == 0:
            return bits(-inf)
        return NAN if x < 0 else bits(inf) if x == inf else nearest(mp.log(mpf(x)))
    if isinf(x):
        return NAN
    if x == 0:
        return bits(x)
    mp.prec = 1600
    return nearest(mp.sin(mpf(x)))


# ---- the inputs

def around(v, n=1):
    """The floats nearest to a fraction, n on each side."""
    x = float(v)
    out = [x]
    for way in (-inf, inf):
        y = x
        for _ in range(n):
            y = nextafter(y, way)
            out.append(y)
    return out


def exp_inputs(rnd):
    xs = [0.0, -0.0, floating(NAN), inf, -inf, 1.0, -1.0]
    for end in (709.0, -708.0, 709.782712893384, -745.1332191019412, 0.25, -0.25):
        xs += around(end, 3)
    xs += [s * floating(b) for b in (1, 2, 0xFFFFFFFFFFFFF, 0x10000000000000) for s in (1, -1)]
    xs += [s * 2.0 ** -i for i in range(1, 76, 2) for s in (1, -1)]
    for j in [-1021, -1, 0, 1022] + [rnd.randrange(-1021, 1022) for _ in range(180)]:
        xs += around(Fraction(2 * j + 1, 2) * Fraction(ELL, 2 ** 64))
    xs += [rnd.uniform(-708, 709) for _ in range(400)] + [rnd.uniform(-40, 40) for _ in range(400)]
    xs += [rnd.choice((1, -1)) * 2 ** rnd.uniform(-70, 9) for _ in range(200)]
    return xs


def ln_inputs(rnd):
    top = floating(0x7FEFFFFFFFFFFFFF)
    xs = [0.0, -0.0, floating(NAN), inf, -inf, -1.0, -5e-324, 1.0, 2.0, 0.5, top, floating(1), floating(0x10000000000000)]
    xs += around(1.0, 6)
    for e in [-1022, -1, 0, 1, 1023] + [rnd.randrange(-1022, 1023) for _ in range(100)]:
        for m in (0.75, 1.5):
            xs += [x for x in around(Fraction(m) * Fraction(2) ** e) if x < inf]
    xs += [floating(rnd.randrange(1, 1 << rnd.randrange(1, 53))) for _ in range(200)]
    xs += [floating(rnd.randrange(1, 0x7FF0000000000000)) for _ in range(400)]
    xs += [1 + rnd.choice((1, -0.5)) * 2 ** rnd.uniform(-52, -1) for _ in range(200)]
    xs += [2 ** rnd.uniform(-17, 17) for _ in range(400)]
    return xs


def sin_inputs(rnd):
    xs = [0.0, -0.0, floating(NAN), inf, -inf, 1e300, -1e300, 1.0, -1.0]
    for s in (1, -1):
        xs += [s * x for x in around(2.0 ** 20, 2) + around(0.25) + around(2.0 ** -27)]
        xs += [s * floating(b) for b in (1, 0xFFFFFFFFFFFFF, 0x10000000000000)]
        xs += [s * 2.0 ** -i for i in range(1, 76, 2)]
    q = Fraction(QUARTER, 2 ** 64)
    for j in [0, 1, 2, 3, 667543] + [rnd.randrange(0, 667543) for _ in range(90)]:
        xs += around((j + Fraction(1, 2)) * q) + around(j * q)
    xs += [rnd.uniform(-8, 8) for _ in range(300)] + [rnd.uniform(-1000, 1000) for _ in range(300)]
    xs += [rnd.uniform(-2 ** 20, 2 ** 20) for _ in range(200)]
    xs += [rnd.choice((1, -1)) * 2 ** rnd.uniform(-70, 20) for _ in range(200)]
    return [x for x in xs if isnan(x) or isinf(x) or abs(x) <= 2 ** 20 + 1 or abs(x) > 1e299]


# ---- the list, and what it shows

def apart(a, b):
    key = [(1 << 63) + c if c < 1 << 63 else (1 << 63) - (c - (1 << 63)) for c in (a, b)]
    return abs(key[0] - key[1])


def counts(which, x, r):
    """Whether the distance from the correctly rounded value is told: in exp's range, and where ln's answer is above 1/4, and for sin below 1000."""
    if which == 1:
        return -708 <= x <= 709
    if r in (NAN, REFUSED) or isinf(floating(r)):
        return False
    return abs(floating(r)) > 0.25 if which == 2 else abs(x) < 1000 and (abs(x) < 0.25 or abs(floating(r)) > 0.25)


def main():
    rnd = random.Random(20261115)
    out = bytearray()
    for which, name, inputs, answer, error in ((1, 'exp', exp_inputs, exp_bits, exp_error), (2, 'ln', ln_inputs, ln_bits, ln_error), (3, 'sin', sin_inputs, sin_bits, sin_error)):
        xs = inputs(rnd)
        far, off, worst = 0, 0, Fraction(0)
        for x in xs:
            r, right = answer(x), rounded(which, x)
            out += struct.pack('<4Q', which, bits(x), r, right)
            if counts(which, x, r):
                far = max(far, apart(r, right))
                off += r != right
            summed = {1: -708 <= x <= 709, 2: 0 < x < inf, 3: abs(x) <= 2 ** 20}[which]
            if summed:
                worst = max(worst, abs(error(x, floating(r))))
        assert worst <= Fraction(1, 2 ** 40), (name, float(worst))
        print(f'{name}: {len(xs)} inputs, within 2^{float(mp.log(mpf(worst.numerator) / worst.denominator, 2)):.2f} of the sum; not correctly rounded {off}, at most {far} units off')
    if len(sys.argv) > 1:
        with open(sys.argv[1], 'wb') as f:
            f.write(out)
        print(f'{len(out) // 32} records written')


if __name__ == '__main__':
    main()
