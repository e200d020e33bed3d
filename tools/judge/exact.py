"""The judge by exact fractions, outside the proved code: what document 01 asks for, in the plainest words Python has.

A float is handled as its 64 bits, so that NaN, infinities and both zeros come through unchanged.
"""
import struct
from fractions import Fraction

MOST = 48


def float_of(bits):
    return struct.unpack("<d", struct.pack("<Q", bits))[0]


def bits_of(x):
    return struct.unpack("<Q", struct.pack("<d", x))[0]


def finite(bits):
    return bits >> 52 & 2047 != 2047


def below_zero(bits):
    """Of a finite number: -0.0 is not below zero."""
    return float_of(bits) < 0


def residual(row, vector):
    """The coefficients times the vector, less the right side, with no rounding."""
    total = Fraction(0)
    for a, x in zip(row[:-1], vector):
        total += Fraction(float_of(a)) * Fraction(float_of(x))
    return total - Fraction(float_of(row[-1]))


def judged(rows, system, vector, tolerances):
    """The refusal (0 if none) and the first row beyond its tolerance (`rows` if there is none, 0 if the call is refused)."""
    if rows == 0 or rows > MOST:
        return 1, 0
    width = rows + 1
    if len(system) < rows * width or len(vector) < rows or len(tolerances) < rows:
        return 5, 0
    system, vector, tolerances = system[:rows * width], vector[:rows], tolerances[:rows]
    if not all(map(finite, system + vector + tolerances)) or any(map(below_zero, tolerances)):
        return 11, 0
    for i in range(rows):
        if abs(residual(system[i * width:(i + 1) * width], vector)) > Fraction(float_of(tolerances[i])):
            return 0, i
    return 0, rows
