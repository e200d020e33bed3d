"""make.py [--check]: writes crates/mean_replay/data/sums and crates/mean_replay/stdout, or says whether they are what it would write.

Each sum stands with its mean by exact fractions, rounded twice over: by whole numbers here, and by Python's own division. The same seed gives the same bytes.
The format is told in crates/mean_replay/src/main.rt.
"""
import random
import struct
import sys
from fractions import Fraction
from pathlib import Path

sys.dont_write_bytecode = True
sys.path.insert(0, str(Path(__file__).resolve().parents[1]))
from stored import bits_of, float_of, store  # noqa: E402

SEED = 20261115
SIGN = 1 << 63
ONE = 0x3FF0000000000000
LEAST = 1
GREATEST = 0x7FEFFFFFFFFFFFFF
INFINITY = 0x7FF0000000000000
LIMBS = 66
COUNTS = 1 << 32


def fraction_of(bits):
    return Fraction(float_of(bits))


def rounded(value):
    """The bits of the float nearest to a fraction, of two the even one, by whole numbers alone."""
    sign, size = (SIGN, -value) if value < 0 else (0, value)
    units = size * 2**1074
    places = max(0, (units.numerator // units.denominator).bit_length() - 53)
    digits, rest = divmod(units / 2**places, 1)
    if rest > Fraction(1, 2) or rest == Fraction(1, 2) and digits % 2 == 1:
        digits += 1
    return sign | min(places * 2**52 + digits, INFINITY)


def by_division(value):
    """The same by Python's division of whole numbers."""
    try:
        x = value.numerator / value.denominator
    except OverflowError:
        x = float("inf") if value > 0 else float("-inf")
    if value < 0 and x == 0:
        x = -0.0
    return bits_of(x)


def mean(terms, count, limbs):
    if limbs != LIMBS or not 0 < count < COUNTS:
        return 0
    value = sum((fraction_of(a) * fraction_of(b) for a, b in terms), Fraction(0)) / count
    assert rounded(value) == by_division(value)
    return rounded(value)


class Maker:
    def __init__(self):
        self.rng = random.Random(SEED)
        self.out = []

    def put(self, terms, count, limbs=LIMBS):
        self.out.append((list(terms), count, limbs))

    def floats(self, floats, count=None):
        """The mean of floats, given by their bits."""
        floats = list(floats)
        self.put([(b, ONE) for b in floats], len(floats) if count is None else count)

    def finite(self, low=0, high=2046):
        """A finite float whose exponent's field is in a range, its digits few or many."""
        r = self.rng
        digits = r.choice([0, 1, 2**51, 2**52 - 1, r.getrandbits(52), r.getrandbits(52), r.getrandbits(r.randrange(1, 52))])
        return r.getrandbits(1) << 63 | r.randint(low, high) << 52 | digits

    def one_float(self):
        for b in [0, SIGN, LEAST, LEAST | SIGN, 2**52 - 1, 2**52, GREATEST, GREATEST | SIGN, ONE, bits_of(0.1)]:
            self.floats([b])
        for _ in range(60):
            self.floats([self.finite()])

    def random_sums(self):
        for _ in range(260):
            low = self.rng.randint(0, 2046)
            high = min(2046, low + self.rng.choice([0, 1, 3, 60, 2046]))
            self.floats(self.finite(low, high) for _ in range(self.rng.choice([2, 3, 4, 5, 7, 10, 16])))
        for count in [17, 31, 64, 100, 127, 128, 200, 255, 256]:
            self.floats(self.finite(1000, 1040) for _ in range(count))

    def counts(self):
        """One float over every count up to 256."""
        for count in range(1, 257):
            self.floats([self.finite(1, 2046)], count)

    def near_a_tie(self):
        """2 m + 1 halves of a step over a power of two, just so and beside it by the least that the rows hold."""
        for _ in range(70):
            r = self.rng
            count = r.choice([1, 2, 4, 8, 64, 256])
            field = r.randint(60, 1900)
            step = field << 52
            half = (field - 53) << 52
            digits = r.getrandbits(52)
            sign = r.getrandbits(1) << 63
            side = r.choice([None, 0, SIGN])
            terms = [(sign | step | digits, bits_of(float(count))), (sign | half, bits_of(float(count)))]
            if side is not None:
                terms.append((side | LEAST, LEAST))
            self.put(terms, count)

    def small(self):
        """Means at and below the least floats: ties, subnormals, and what rounds to zero."""
        for count in [1, 2, 3, 4, 5, 7, 8, 100, 256, COUNTS - 1]:
            for size in [1, 2, 3, 5, 6, 7, 255, 257, 2**52 - 1]:
                self.floats([size | self.rng.getrandbits(1) << 63], count)
        for _ in range(60):
            r = self.rng
            sizes = [r.getrandbits(r.randrange(1, 53)) | r.getrandbits(1) << 63 for _ in range(r.randint(2, 6))]
            self.floats(sizes)
            self.put([(b, self.finite(900, 1023)) for b in sizes], r.randint(1, 256))
        for exponent in [1, 2, 40, 500, 1022]:
            self.put([(LEAST, (1023 - exponent) << 52)], 1)
            self.put([(LEAST | SIGN, (1023 - exponent) << 52)], 1)
        self.put([(LEAST, LEAST)], 1)
        self.put([(LEAST, bits_of(0.5)), (LEAST, LEAST)], 1)
        self.put([(3, bits_of(0.5)), (LEAST | SIGN, LEAST)], 1)

    def cancelling(self):
        for _ in range(60):
            a, b = self.finite(), self.finite()
            self.floats([a, b, a ^ SIGN], self.rng.randint(1, 256))
            self.floats([a, a ^ SIGN])
        self.floats([GREATEST, GREATEST | SIGN, LEAST | SIGN], 1)

    def large(self):
        """Up to the largest float, and past it."""
        half_step = 970 + 1023 - 1
        for count in [1, 2, 3, 256]:
            times = bits_of(float(count))
            self.put([(GREATEST, times)], count)
            self.put([(GREATEST, times), (half_step << 52, times)], count)
            self.put([(GREATEST, times), (half_step << 52, times), (LEAST | SIGN, LEAST)], count)
            self.put([(GREATEST | SIGN, times), (half_step << 52 | SIGN, times)], count)
        for terms in [2, 3, 100, 256]:
            self.floats([GREATEST] * terms)
            self.floats([GREATEST] * terms, 1)
            self.floats([GREATEST | SIGN] * terms, terms - 1)
        for _ in range(40):
            self.put([(self.finite(1500, 2046), self.finite(1500, 2046)) for _ in range(3)], self.rng.randint(1, COUNTS - 1))
        for field in range(1023, 1056):
            self.put([(GREATEST, field << 52)], COUNTS - 1)

    def refused(self):
        """What has no mean: no count, a count too large, rows of another length."""
        for count in [0, COUNTS, COUNTS + 1, 2**63, 2**64 - 1]:
            self.floats([ONE], count)
        for limbs in [0, 1, 65]:
            self.put([(ONE, ONE)], 1, limbs)

    def made(self):
        self.floats([], 1)
        for part in [self.one_float, self.random_sums, self.counts, self.near_a_tie, self.small, self.cancelling, self.large, self.refused]:
            part()
        data, tally = b"", {"zero": 0, "subnormal": 0, "normal": 0, "infinite": 0}
        for terms, count, limbs in self.out:
            bits = mean(terms, count, limbs)
            size = bits & ~SIGN
            kind = "zero" if size == 0 else "subnormal" if size < 2**52 else "normal" if size < INFINITY else "infinite"
            tally[kind] += 1
            data += struct.pack("<QIIQ", count, len(terms), limbs, bits) + b"".join(struct.pack("<QQ", a, b) for a, b in terms)
        return data, "".join(f"{k} {n}\n" for k, n in tally.items()) + "differ 0\n"


store("mean_replay", "sums", *Maker().made())
