"""run.py PROGRAM FOLDER: makes dense systems of 48 rows, times PROGRAM (the proved judge and GMP) and Python's fractions on each, and prints a table."""
import random
import struct
import subprocess
import sys
import time
from fractions import Fraction

N = 48


def fractions_row(m, x, t):
    """The first row beyond its tolerance, N if none, by exact fractions."""
    for i in range(N):
        row = m[i * (N + 1):(i + 1) * (N + 1)]
        total = sum((Fraction(a) * Fraction(b) for a, b in zip(row, x)), Fraction(0)) - Fraction(row[N])
        if abs(total) > Fraction(t[i]):
            return i
    return N


def system(rng, spread):
    """A dense system whose right sides are the float sums, so that every row is judged to the end."""
    def number():
        return rng.uniform(-1, 1) * 2.0 ** rng.randint(-spread, spread)
    x = [number() for _ in range(N)]
    m = []
    for _ in range(N):
        row = [number() for _ in range(N)]
        m += row + [sum(a * b for a, b in zip(row, x))]
    return m, x, [2.0 ** (2 * spread) for _ in range(N)]


def main():
    program, folder = sys.argv[1:]
    rng = random.Random(1)
    print("us, least (median) | proved judge | GMP mpz | Python fractions | GMP / proved | Python / proved")
    for spread in (0, 30, 400):
        m, x, t = system(rng, spread)
        path = f"{folder}/system"
        with open(path, "wb") as f:
            f.write(struct.pack(f"<Q{len(m) + 2 * N}d", N, *m, *x, *t))
        out = subprocess.run([program, path], capture_output=True, text=True, check=True).stdout
        proved, proved_mid, gmp, gmp_mid, row, gmp_row = map(int, out.split())
        times = []
        for _ in range(5):
            a = time.perf_counter_ns()
            expected = fractions_row(m, x, t)
            times.append(time.perf_counter_ns() - a)
        times.sort()
        assert row == gmp_row == expected, (row, gmp_row, expected)
        print(f"entries over 2^{-spread}..2^{spread} | {proved / 1e3:.1f} ({proved_mid / 1e3:.1f}) | {gmp / 1e3:.1f} ({gmp_mid / 1e3:.1f})"
              f" | {times[0] / 1e3:.0f} ({times[2] / 1e3:.0f}) | {gmp / proved:.2f} ({gmp_mid / proved_mid:.2f}) | {times[0] / proved:.0f} ({times[2] / proved_mid:.0f})")


main()
