"""The diode's limiting rule in Python, as docs/DIODE.md tells it: five situations in the order in which they are asked for, each with its condition and its formula. The scripts beside this one hold shipped answers against it."""
import math
import sys
from collections import namedtuple

# what is asked of a diode: its thermal and its critical voltage, the voltage asked for and the one that it remembers
Asked = namedtuple('Asked', 'thermal critical asked memory')
# its name in the code and in words, when it holds, the voltage taken, the formula in words and with its numbers
Situation = namedtuple('Situation', 'name words holds taken formula numbers')

# how far a shipped answer may be from Python's, in units in the last place: the two logarithms are not the same
ULPS = 4


def ln(x):
    """The logarithm with the engine's answers where Python has none."""
    return math.log(x) if x > 0 else -math.inf if x == 0 else math.nan


def argument(a): return 1.0 + (a.asked - a.memory) / a.thermal


SITUATIONS = [
    Situation('SmallStep', 'small step', lambda a: abs(a.asked - a.memory) <= 2.0 * a.thermal, lambda a: a.asked, 'asked', lambda a: 'as asked'),
    Situation('BelowCritical', 'below critical', lambda a: a.asked < a.critical, lambda a: a.asked, 'asked', lambda a: 'as asked'),
    Situation('TurnOn', 'turn-on', lambda a: a.memory <= 0.0, lambda a: a.thermal * ln(a.asked / a.thermal), 'vt ln(asked / vt)',
              lambda a: f'{a.thermal:.7f} ln({a.asked:.5f} / {a.thermal:.7f})'),
    Situation('FallBack', 'fall back', lambda a: argument(a) <= 0.0, lambda a: a.critical, 'vcrit', lambda a: f'vcrit = {a.critical:.5f}'),
    Situation('Climb', 'climb', lambda a: True, lambda a: a.memory + a.thermal * ln(argument(a)), 'memory + vt ln(1 + (asked - memory) / vt)',
              lambda a: f'{a.memory:.5f} + {a.thermal:.7f} ln(1 + {a.asked - a.memory:.5f} / {a.thermal:.7f})'),
]


def situation_of(a):
    """The first that holds."""
    return next(s for s in SITUATIONS if s.holds(a))


def checked(a, verdict, taken):
    """The situation, once the shipped answer is what its formula gives. Where that is no number the verdict must be 22, and the memory must stay."""
    s = situation_of(a)
    expected = s.taken(a)
    if math.isfinite(expected):
        right = verdict == 0 and abs(taken - expected) <= ULPS * math.ulp(expected)
    else:
        right = verdict == 22 and taken == a.memory
    if not right:
        sys.exit(f'differs: from a memory of {a.memory!r} V, asked for {a.asked!r} V: {s.name} takes {expected!r} V; the shipped code answers verdict {verdict} and {taken!r} V')
    return s


def all_seen(seen, where):
    """Ends the script where one of the five has no sample: nothing would have been checked of it."""
    for s in SITUATIONS:
        if s not in seen:
            sys.exit(f'differs: {where} has no {s.name}')
