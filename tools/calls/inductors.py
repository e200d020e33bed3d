"""What the rows of an inductor are, step by step, written out from the request's sentences: its conductance is the step over its henries, and an accepted step's current is that times the new voltage plus the old current. The jobs are those of files.py.

tools/program is the caller. A row here is the unknowns without the time: ground, the nodes, the inductor's own unknown, and the current of the source. Row 0 is DC, where the source is still at 0.
"""
from fractions import Fraction

from files import CHOKE_OHM, CHOKE_STEPS, CHOKE_VOLT

# the source's current at DC: 0.0 less 0.0 times a conductance, or the last unknown of a system in which it is free
DC_BEHIND_OHMS, DC_ACROSS = -0.0, 0.0


def behind_ohms(henry, step):
    """Behind a resistor: (volts - ohms i') = v and i' = g v + i, solved for i' in fractions; with files.py's numbers each of them is a float."""
    volt, ohm, g, i = Fraction(CHOKE_VOLT), Fraction(CHOKE_OHM), Fraction(step) / Fraction(henry), Fraction(0)
    made = [[0.0, 0.0, 0.0, 0.0, DC_BEHIND_OHMS]]
    for _ in range(CHOKE_STEPS):
        i = (i + g * volt) / (1 + g * ohm)
        made.append([0.0, float(volt), float(volt - ohm * i), 0.0, float(-i)])
        assert [Fraction(x) for x in made[-1]] == [0, volt, volt - ohm * i, 0, -i]
    return made


def across(henry, step):
    """Across the source alone: its voltage is the source's, and each step's product and sum are rounded."""
    i, g = 0.0, step / henry
    made = [[0.0, 0.0, 0.0, DC_ACROSS]]
    for _ in range(CHOKE_STEPS):
        i = g * CHOKE_VOLT + i
        made.append([0.0, CHOKE_VOLT, 0.0, -i])
    return made
