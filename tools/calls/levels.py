"""What a pattern's level is and when, written out from document 01, from the request for the option pattern_first, and from the order of a transient's steps: the nodes of files.py's ramps are held against it.

tools/program is the caller. A job here is one ohm across a pattern, so that its node has the level to the bit; one that is no number is hidden there by the last unknown, and the node has 0.
"""
import math

from files import LEVELS


def over(a, b):
    """a / b as IEEE 754 has it."""
    if b != 0.0:
        return a / b
    return math.nan if a == 0.0 or a != a else math.copysign(math.inf, a) * math.copysign(1.0, b)


def cycle(t, length):
    return math.nan if length == 0.0 or math.isinf(t) else math.fmod(t, length)


def as_before(points, delay, repeat, t):
    """Document 01's rule."""
    if not points:
        return 0.0
    last_time, last_level = points[-1]
    if repeat < 0.0 and t > delay + last_time:
        return last_level
    at = cycle(t - delay, last_time)
    if at < 0.0:
        return 0.0
    below = [p for k, p in enumerate(points) if all(q[0] < at for q in points[:k + 1])]
    t1, v1 = below[-1] if below else (0.0, 0.0)
    t2, v2 = points[len(below)] if len(below) < len(points) else (0.0, 0.0)
    slope = over(v2 - v1, t2 - t1)
    return (0.0 if slope != slope else slope) * (at - t1) + v1


def first_level(points, delay, repeat, t):
    """The request's order, word by word."""
    if not points or t < delay:
        return 0.0
    if repeat < 0.0 and t >= delay + points[-1][0]:
        return points[-1][1]
    if len(points) == 1:
        return points[0][1]
    if not cycle(t - delay, points[-1][0]) > points[0][0]:
        return points[0][1]
    return as_before(points, delay, repeat, t)


def level(shape, on, t):
    """The level of one of files.py's patterns, as its node has it."""
    start, count, delay, repeat = shape
    x = (first_level if on else as_before)(LEVELS[start:start + count], delay, repeat, t)
    return x if math.isfinite(x) else 0.0


def rows(shape, on, step, stop):
    """The time and the level of each row of a transient with steps of one length: each step is solved at its end, and one that ends past the stop has its row there."""
    made, t = [(0.0, level(shape, on, 0.0))], 0.0
    while t <= stop:
        t += step
        made.append((min(t, stop), level(shape, on, t)))
    return made
