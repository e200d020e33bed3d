#!/usr/bin/env python3
"""Step responses of an inductor, each at five steps, to be held against the closed form (docs/INDUCTORS.md, docs/FORMATS.md).

    python3 examples/inductor.py            writes examples/inductor.jobs, which ./savrunte runs
    python3 examples/inductor.py --table    runs these jobs by ./savrunte and prints a table for a plot: what the rows say and what the closed form says, at each time

RL: 1 V comes on at time 0 across 2 ohm and 10 mH in series. RLC: the same across 60 ohm, 10 mH and 1 uF, which is underdamped.

Nodes: 0 ground, 1 the volt, 2 between resistor and inductor, 3 between inductor and capacitor. Sources: 0 the inductor, 1 the volt. In a transient an inductor's own unknown is 0.0; its current is read here as that of the volt, turned
round. With ITL3 0 no step is doubled, so that all steps of a job are of one length; TSTOP is half a step before the last one's end. The last row is labelled TSTOP and gets here the time that it was solved for.
"""
import json
import math
import os
import struct
import subprocess
import sys
from collections import namedtuple

from front_end import capacitor, inductor, job, options_of, pattern, resistor, write

TOP = os.path.dirname(os.path.dirname(os.path.abspath(__file__)))
JOBS = os.path.join(TOP, 'examples', 'inductor.jobs')
VOLT, HENRY, FARAD = 1.0, 1e-2, 1e-6
# the volt is there after a hundredth of the shortest step: at the end of each job's first step, and not yet at time 0
POINTS = [(0.0, 0.0), (1e-8, VOLT), (1.0, VOLT)]
HALVINGS = 5

# a circuit: its name, its ohms, its nodes, its longest step and how many of these it runs for
Circuit = namedtuple('Circuit', 'name ohm nodes step steps')
CIRCUITS = [Circuit('RL', 2.0, 3, 1e-3, 20), Circuit('RLC', 60.0, 4, 1.6e-5, 100)]
SOURCES = 2

# one time of one job: amperes through the inductor and volts, of the capacitor or else of the inductor; both by the closed form; and all unknowns of the row
Moment = namedtuple('Moment', 'time current volts exact_current exact_volts unknowns')


def records(circuit):
    """The sheet's records; with a capacitor where there is a fourth node."""
    end = circuit.nodes - 1 if circuit.nodes == 4 else 0
    made = [pattern(1, 0, 1, 0, len(POINTS), 0.0, -1.0), resistor(1, 2, circuit.ohm), inductor(2, end, 0, HENRY)]
    return made + [capacitor(end, 0, FARAD)] * (end != 0)


def jobs():
    """Each circuit at its longest step, at half of it, and so on, with its step and the number of steps."""
    for circuit in CIRCUITS:
        for k in range(HALVINGS):
            yield circuit, circuit.step / 2**k, circuit.steps * 2**k


def exact(circuit, t):
    """The current and the volts at time t by the closed form."""
    damping = circuit.ohm / HENRY
    if circuit.nodes == 3:
        return VOLT / circuit.ohm * -math.expm1(-t * damping), VOLT * math.exp(-t * damping)
    a = damping / 2
    w = math.sqrt(1 / (HENRY * FARAD) - a * a)
    wave = VOLT * math.exp(-a * t)
    return wave / (w * HENRY) * math.sin(w * t), VOLT - wave * (math.cos(w * t) + a / w * math.sin(w * t))


def moments(circuit, step, rows):
    """A job's rows, each as the program has it: its time and its unknowns."""
    rows[-1] = rows[-2][0] + step, rows[-1][1]
    return [Moment(time, 0.0 - values[-1], values[circuit.nodes - 1], *exact(circuit, time), values) for time, values in rows]


def answers():
    """Of each job its circuit, its step and its moments, from ./savrunte."""
    said = json.loads(subprocess.run([os.path.join(TOP, 'savrunte'), '--json', JOBS], stdout=subprocess.PIPE, check=True).stdout)
    for k, (circuit, step, steps) in enumerate(jobs()):
        rows = [(record['time'], record['values']) for record in said if record['kind'] == 'row' and record['job'] == k]
        ended = next(record for record in said if record['kind'] == 'ended' and record['job'] == k)
        if (ended['verdict'], ended['dc_verdict'], len(rows)) != (0, 0, steps + 1):
            sys.exit(f'job {k} ended otherwise: {ended}')
        yield circuit, step, moments(circuit, step, rows)


def main():
    if sys.argv[1:] == ['--table']:
        print('#circuit', 'step', *Moment._fields[:-1], sep='\t')
        for circuit, step, all_moments in answers():
            for moment in all_moments:
                print(circuit.name, step, *moment[:-1], sep='\t')
        return
    points = b''.join(struct.pack('<2d', *p) for p in POINTS)
    write('inductor.jobs', [job(b''.join(records(c)), transient=1, rows=steps + 1, itl3=0, options=options_of(0.0, (steps - 0.5) * step, step, fs=1.0), points=points, nodes=c.nodes, sources=SOURCES)
                            for c, step, steps in jobs()])


if __name__ == '__main__':
    main()
