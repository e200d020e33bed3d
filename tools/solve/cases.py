#!/usr/bin/env python3
# Writes crates/solve_cases/specs/Laws/Cases.antt: systems of 1 to 8 rows with the bits that Python's doubles give for them, worked on lists of rows as document 01 says it.
# usage: tools/solve/cases.py > crates/solve_cases/specs/Laws/Cases.antt; then `rt fmt` in that crate
import math
import random
import struct

NAN, INF = float('nan'), float('inf')


def bits(x):
    return 0x7FF8000000000000 if math.isnan(x) else struct.unpack('<Q', struct.pack('<d', x))[0]


def divide(a, b):
    if b != 0.0:
        return a / b
    if a == 0.0 or math.isnan(a):
        return NAN
    return math.copysign(1.0, a) * math.copysign(1.0, b) * INF


def solve(m, n):
    m = [row[:] for row in m]
    for c in range(1, n - 1):
        best, size = c, 0.0
        for r in range(c, n):
            if abs(m[r][c]) > size:
                best, size = r, abs(m[r][c])
        if m[best][c] == 0.0:
            break
        m[best], m[c] = m[c], m[best]
        for r in range(c + 1, n):
            if m[r][c] == 0.0:
                continue
            ratio = divide(m[r][c], m[c][c])
            for k in range(c, n + 1):
                m[r][k] = m[r][k] - m[c][k] * ratio
    x = [0.0] * n
    x[n - 1] = divide(m[n - 1][n], m[n - 1][n - 1])
    if not math.isfinite(x[n - 1]):
        x[n - 1] = 0.0
    for i in range(n - 2, 0, -1):
        s = 0.0
        for j in range(i + 1, n):
            s = s + m[i][j] * x[j]
        x[i] = divide(m[i][n] - s, m[i][i])
    return m, x


def dense(seed, n, ground=True):
    r = random.Random(seed)
    m = [[r.uniform(-2, 2) for _ in range(n + 1)] for _ in range(n)]
    if ground:
        m[0] = [0.0] * (n + 1)
        for row in m:
            row[0] = 0.0
    return m


def tridiagonal(seed, n):
    m = dense(seed, n)
    for r in range(1, n):
        for c in range(1, n):
            if abs(r - c) > 1:
                m[r][c] = 0.0
    return m


def picked(seed, n, choice):
    r = random.Random(seed)
    return [[r.choice(choice) for _ in range(n + 1)] for _ in range(n)]


def column(m, c, values):
    for row, v in zip(m[1:], values):
        row[c] = v
    return m


Z = -0.0
TINY = 5e-324
SYSTEMS = [
    ('one row', [[4.0, 10.0]]),
    ('one row of zeros: the last unknown becomes 0.0', [[0.0, 0.0]]),
    ('two rows: no column is eliminated', [[1.0, 2.0, 3.0], [4.0, 8.0, 2.0]]),
    ('two rows, an infinite last unknown', [[0.0, 0.0, 0.0], [0.0, 0.0, 5.0]]),
    ('three rows, dense', dense(3, 3, False)),
    ('case b of the bench: 4 V over two resistors of 1', [[0.0, 0.0, 0.0, 0.0, 0.0], [0.0, 1.0, -1.0, 1.0, 0.0], [0.0, -1.0, 2.0, 0.0, 0.0], [0.0, 1.0, 0.0, 0.0, 4.0]]),
    ('tied pivots of both signs: the earliest is taken', [[0.0] * 5, [0.0, 1.0, 2.0, 3.0, 4.0], [0.0, -3.0, 1.0, 0.5, 1.0], [0.0, 3.0, -1.0, 2.0, 2.0]]),
    ('a column of zeros of both signs stops elimination', column(dense(5, 5), 2, [0.0, Z, 0.0, Z])),
    ('a column of NaN: its own row is taken', column(dense(6, 5), 1, [NAN, NAN, NAN, NAN])),
    ('a NaN over a number: the number is taken', column(dense(7, 5), 1, [NAN, 0.25, NAN, -0.5])),
    ('infinities', picked(8, 6, [0.0, 1.0, -2.0, INF, -INF, 0.5])),
    ('subnormals', [[x * TINY for x in row] for row in picked(9, 6, [1.0, 3.0, -7.0, 2.0 ** 40, 0.0])]),
    ('seven rows, dense', dense(10, 7)),
    ('eight rows, dense', dense(11, 8)),
    ('eight rows, three diagonals and a full right side', tridiagonal(12, 8)),
    ('eight rows, sparse, zeros of both signs and ties', picked(13, 8, [0.0, Z, 0.0, 1.0, -1.0, 2.0, 0.0])),
    ('eight rows, everything', picked(14, 8, [0.0, Z, 1.0, -1.0, 3.0, INF, NAN, TINY, 1e308])),
]


def words(xs):
    return ' ∷ '.join(hex(bits(x)) for x in xs) + ' ∷ []'


print('''-- Systems of 1 to 8 rows with the matrix and the vector that solving leaves, as bits, from an outside computation: one computed statement. tools/solve/cases.py writes this file.
use Rattle.std.specs.Prelude.{ℕ, ◌+◌, ◌*◌, ◌≡◌, refl, List, [], ◌∷◌, map, replicate, Float}
use Rattle.std.specs.Float.{binary64}
use Rattle.std.specs.Float.Ieee.{of_bits, to_bits, add, sub, mul, div, lt, eq}
use Rattle.num.specs.Floats.{nought, absolute_of}
use Rattle.num.specs.Literals.{one}
use Rattle.solve.specs.Solve.{Solved, solve_of, index_of_next_abs, swapped, less_scaled, reduced, cleared, column, eliminated, dot, unknown, last_unknown, substituted, solution}

pub record Case : Type 0 where
  pub rows : ℕ
  pub given : List ℕ
  pub matrix : List ℕ
  pub vector : List ℕ

-- the system's bits in, both buffers' bits out, the vector being full of ones before
answer : Case → ℕ × List ℕ × List ℕ
answer c =
    let s = solve_of c.rows (map (of_bits binary64) c.given) (replicate c.rows one) in
    (s.refusal, map (to_bits binary64) s.matrix, map (to_bits binary64) s.vector)

expected : Case → ℕ × List ℕ × List ℕ
expected c = (0, c.matrix, c.vector)
''')
names = []
for i, (what, m) in enumerate(SYSTEMS):
    n = len(m)
    e, x = solve(m, n)
    flat = [v for row in m for v in row]
    gone = [v for row in e for v in row]
    name = f'case{i + 1}'
    names.append(name)
    print(f'-- {what}\n{name} : Case\n{name} =\n    record {{\n      rows = {n};\n      given = {words(flat)};\n      matrix = {words(gone)};\n      vector = {words(x)};\n    }}\n')
print(f'''cases : List Case
cases = {' ∷ '.join(names)} ∷ []

all_right : map answer cases ≡ map expected cases
unfolding cases {' '.join(names)} answer expected solve_of index_of_next_abs swapped less_scaled reduced cleared column eliminated dot unknown last_unknown substituted solution absolute_of of_bits to_bits add sub mul div lt eq
all_right = refl''')
