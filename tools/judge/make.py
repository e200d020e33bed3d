"""make.py [--check]: writes crates/judge_replay/data/systems and crates/judge_replay/stdout, or says whether they are what it would write.

Each system stands with its answer by exact fractions (exact.py). The same seed gives the same bytes.
The format is told in crates/judge_replay/src/main.rt.
"""
import math
import random
import struct
import sys
from collections import Counter
from fractions import Fraction
from pathlib import Path

sys.dont_write_bytecode = True
sys.path.insert(1, str(Path(__file__).resolve().parents[1]))
from exact import MOST, bits_of, float_of, judged, residual  # noqa: E402
from stored import store  # noqa: E402

SEED = 20261115

ZERO = 0
MINUS_ZERO = 1 << 63
ONE = bits_of(1.0)
LEAST = 1                       # 2^-1074
LAST_SUBNORMAL = (1 << 52) - 1
FIRST_NORMAL = 1 << 52
GREATEST = 0x7FEFFFFFFFFFFFFF
INFINITY = 0x7FF0000000000000
NAN = 0x7FF8000000000000
SIGN = 1 << 63


def exactly(value):
    """The bits of the float that is this fraction, or None."""
    try:
        x = float(value)
    except OverflowError:
        return None
    return bits_of(x) if math.isfinite(x) and Fraction(x) == value else None


def nearest_not_below(value):
    """The least float that is at least this fraction, of a fraction that is not negative."""
    try:
        b = bits_of(float(value)) & ~SIGN
    except OverflowError:
        return GREATEST
    while b < GREATEST and Fraction(float_of(b)) < value:
        b += 1
    while b > 0 and Fraction(float_of(b - 1)) >= value:
        b -= 1
    return min(b, GREATEST)


class Maker:
    def __init__(self):
        self.rng = random.Random(SEED)
        self.out = []

    def put(self, rows, system, vector, tolerances):
        self.out.append((rows, list(system), list(vector), list(tolerances)))

    # ---- numbers
    def plain(self):
        return bits_of(self.rng.uniform(-4, 4))

    def small_whole(self):
        return bits_of(float(self.rng.randint(-4, 4)))

    def any_finite(self):
        return self.rng.randrange(INFINITY) | self.rng.choice((0, SIGN))

    def subnormal(self):
        return self.rng.randint(0, LAST_SUBNORMAL) | self.rng.choice((0, SIGN))

    def edge(self):
        return self.rng.choice((ZERO, LEAST, LAST_SUBNORMAL, FIRST_NORMAL, ONE - 1, ONE, ONE + 1, GREATEST, GREATEST - 1)) | self.rng.choice((0, SIGN))

    # ---- systems
    def dense(self, n, number):
        return [number() for _ in range(n * (n + 1))], [number() for _ in range(n)]

    def around(self, n, system, vector, which):
        """Tolerances that every row just meets, but for one row, chosen by `which`: none, the next float below, zero."""
        width = n + 1
        needs = [nearest_not_below(abs(residual(system[i * width:(i + 1) * width], vector))) for i in range(n)]
        if which == "below":
            i = self.rng.randrange(n)
            needs[i] = max(needs[i] - 1, 0)
        elif which == "zero":
            needs[self.rng.randrange(n)] = self.rng.choice((ZERO, MINUS_ZERO))
        elif which == "above":
            needs = [min(t + 1, GREATEST) for t in needs]
        self.put(n, system, vector, needs)

    def ties(self, n, number):
        """The residual of one row is the tolerance itself, and then one unit of 2^-2148 to either side of it, of both signs."""
        i = self.rng.randrange(n)
        t = number() & ~SIGN
        for sign in (0, SIGN):
            for unit in (None, 0, SIGN):
                system = [ZERO] * (n * (n + 1))
                vector = [ZERO] * n
                tolerances = [ZERO] * n
                tolerances[i] = t
                a, b = self.rng.sample(range(n), 2) if n > 1 else (0, None)
                system[i * (n + 1) + a] = t | sign
                vector[a] = ONE
                if b is not None and unit is not None:
                    system[i * (n + 1) + b] = LEAST
                    vector[b] = LEAST | unit
                self.put(n, system, vector, tolerances)
                if unit is None:
                    # the same, with the right side in place of the coefficient
                    system = [ZERO] * (n * (n + 1))
                    system[i * (n + 1) + n] = t | sign
                    self.put(n, system, vector, tolerances)
                    if t > 0:
                        tolerances = list(tolerances)
                        tolerances[i] = t - 1
                        self.put(n, system, vector, tolerances)

    def giants(self, n):
        """Products that cancel down to one small number, in one row."""
        i = self.rng.randrange(n)
        places = self.rng.sample(range(n), n)
        vector = [self.rng.choice((ONE, ONE | SIGN)) for _ in range(n)]
        row = [ZERO] * (n + 1)
        for a, b in zip(places[0::2], places[1::2]):
            g = self.rng.choice((GREATEST, GREATEST - 1, bits_of(2.0 ** 1000), bits_of(2.0 ** 1023)))
            v = self.rng.choice((GREATEST, ONE, bits_of(2.0 ** -1000), LEAST))
            vector[a] = v
            vector[b] = v | SIGN
            row[a] = g
            row[b] = g
        left = self.rng.choice((LEAST, bits_of(2.0 ** -1000), ONE, GREATEST))
        if n % 2:
            row[places[-1]] = left
        else:
            row[n] = left
        system = [ZERO] * (n * (n + 1))
        system[i * (n + 1):(i + 1) * (n + 1)] = row
        size = nearest_not_below(abs(residual(row, vector)))
        for t in {size, max(size - 1, 0), ZERO, LEAST}:
            tolerances = [ZERO] * n
            tolerances[i] = t
            self.put(n, system, vector, tolerances)

    def several_rows(self, n):
        """Several rows are beyond; the first is named."""
        vector = [ONE] + [ZERO] * (n - 1)
        system = [ZERO] * (n * (n + 1))
        for i in self.rng.sample(range(n), self.rng.randint(1, n)):
            system[i * (n + 1)] = self.rng.choice((LEAST, ONE, GREATEST)) | self.rng.choice((0, SIGN))
        self.put(n, system, vector, [ZERO] * n)
        self.put(n, system, vector, [self.rng.choice((ZERO, MINUS_ZERO, ONE)) for _ in range(n)])

    def refusals(self):
        rng = self.rng
        for n in (0, MOST + 1, MOST + 2, 65535, 65536, 2 ** 32 - 1):
            self.put(n, [ONE] * 6, [ONE] * 2, [ZERO] * 2)
            self.put(n, [], [], [])
            self.put(n, [NAN], [NAN], [NAN])
        for n in (1, 2, 3, 5, MOST):
            size = n * (n + 1)
            zeros = [ZERO] * size
            for a, b, c in ((size, n, n), (size - 1, n, n), (size, n - 1, n), (size, n, n - 1), (size + 1, n + 1, n + 1), (0, 0, 0), (0, n, n), (size, 0, n), (size, n, 0)):
                if n == MOST and a == 0 < b:
                    continue
                self.put(n, [ZERO] * a, [ZERO] * b, [ZERO] * c)
            # what lies past the lengths does not count
            self.put(n, zeros + [NAN], [ZERO] * n + [INFINITY], [ZERO] * n + [ONE | SIGN])
            # a short slice comes before a number that is not finite
            self.put(n, [NAN] * (size - 1), [NAN] * n, [NAN] * n)
            for bad in (NAN, NAN | SIGN, INFINITY, INFINITY | SIGN, INFINITY + 1):
                for at in {0, n, size - 1}:
                    if n == MOST and bad not in (NAN, INFINITY):
                        continue
                    system = list(zeros)
                    system[at] = bad
                    self.put(n, system, [ZERO] * n, [ZERO] * n)
                if n == MOST:
                    continue
                for at in {0, n - 1}:
                    vector = [ZERO] * n
                    vector[at] = bad
                    self.put(n, zeros, vector, [ZERO] * n)
                    self.put(n, zeros, [ZERO] * n, vector)
            for t in (MINUS_ZERO, LEAST | SIGN, FIRST_NORMAL | SIGN, ONE | SIGN, GREATEST | SIGN):
                tolerances = [ZERO] * n
                tolerances[rng.randrange(n)] = t
                self.put(n, zeros, [ZERO] * n, tolerances)
            # greatest numbers all over
            self.put(n, [GREATEST] * size, [GREATEST] * n, [GREATEST] * n)

    def cases(self):
        """Cases k and l of the bench."""
        f = bits_of
        b = list(map(f, (0.0, 0.0, 0.0, 0.0, 0.0, 0.0, 1.0, -1.0, 1.0, 0.0, 0.0, -1.0, 2.0, 0.0, 0.0, 0.0, 1.0, 0.0, 0.0, 4.0)))
        self.put(4, b, list(map(f, (0.0, 4.0, 2.0, -2.0))), [ZERO] * 4)
        self.put(4, b, list(map(f, (0.0, 4.0, 2.0, -1.0))), [f(0.5)] * 4)
        self.put(4, b, list(map(f, (0.0, 4.0, 2.0, -1.0))), [f(1.0)] * 4)
        row = [ZERO, f(2.0 ** -1000), f(2.0 ** 1000), f(2.0 ** 1000), ZERO]
        self.put(4, [ZERO] * 5 + row + [ZERO] * 10, list(map(f, (0.0, 1.0, 1.0, -1.0))), [ZERO] * 4)

    def all(self):
        rng = self.rng
        self.cases()
        self.refusals()
        for n in [1, 2, 3, 4, 5, 6] * 8 + [7, 9, 12]:
            for number in (self.plain, self.any_finite, self.subnormal, self.edge):
                system, vector = self.dense(n, number)
                self.around(n, system, vector, rng.choice(("met", "below", "zero", "above")))
        for n in (1, 2, 2, 2, 3, 3, 4, 5, 6, 8):
            for number in (self.plain, self.any_finite, self.subnormal, self.edge):
                self.ties(n, number)
        for n in [2, 3, 4, 5, 6, 7] * 8 + [10, 16]:
            self.giants(n)
        for n in [1, 2, 3, 4, 5, 6] * 6 + [11, 20]:
            self.several_rows(n)
        for n in [1, 2, 3, 4] * 6:
            system, vector = self.dense(n, self.small_whole)
            self.around(n, system, vector, rng.choice(("met", "below", "zero", "above")))
        for n in (13, 17, 24, 31, 32, 33, 40, 47, 48, 48, 48):
            number = rng.choice((self.plain, self.any_finite))
            system, vector = self.dense(n, number)
            self.around(n, system, vector, rng.choice(("met", "below", "above")))
        system, vector = self.dense(MOST, self.subnormal)
        self.around(MOST, system, vector, "met")
        return self.out


def made():
    data, counts = bytearray(), Counter()
    for rows, system, vector, tolerances in Maker().all():
        refusal, row = judged(rows, system, vector, tolerances)
        counts["accepted" if not refusal and row == rows else "rejected" if not refusal else f"refused by {refusal}"] += 1
        data += struct.pack("<IHHHHI", rows, len(system), len(vector), len(tolerances), refusal, row)
        floats = system + vector + tolerances
        data += struct.pack(f"<{len(floats)}Q", *floats)
    names = ("accepted", "rejected", "refused by 1", "refused by 5", "refused by 11", "differ")
    return bytes(data), "".join(f"{name} {counts[name]}\n" for name in names)


store("judge_replay", "systems", *made())
