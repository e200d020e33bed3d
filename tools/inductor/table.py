#!/usr/bin/env python3
"""Makes the tables of docs/INDUCTORS.md from the shipped program: tools/inductor/table.py [--write]

The first has the jobs of examples/inductor.jobs, held against their closed forms; the other two have small circuits, loops at DC and odd henries, that are run here. Says whether the page has them and ends with 1 where it has not, where an
inductor's own unknown is not 0.0 in a row behind the first, or where an error does not fall by about a half with the step; --write puts them there.
"""
import struct
import sys
import tempfile

sys.dont_write_bytecode = True
from runs import DOCUMENT, circuits, seconds, short  # noqa: E402
from front_end import current, inductor, job, options_of, pattern, resistor, voltage  # noqa: E402
from pages import compare_table, lines_of, records, table  # noqa: E402

# how an error may fall when the step is halved: backward Euler is of first order, and the error's next term is not yet gone at the longest steps
HALF = 1.8, 2.05
OFF = ['circuit', 'step', 'steps', 'the current is off by up to, A', 'falls by', 'the capacitor is off by up to, V', 'falls by']
LOOPS = ['at DC', 'nodes, sources', 'verdict', 'volts at node 1', 'currents, source 0 first', 'the judge']
HENRIES = ['henries', 'volts across it, row after row', 'verdict', 'the judge']

TOLERANCE = 1e-6  # of every row, for the judge

# circuits that have no one answer at DC, and two that have a short too many: in words, nodes, sources, records
ODD_AT_DC = [
    ('V 5 at 1 with number 0, L 1 from 1 to 0 with number 1', 2, 2, [voltage(1, 0, 0, 5.0), inductor(1, 0, 1, 1.0)]),
    ('the same with the numbers exchanged', 2, 2, [voltage(1, 0, 1, 5.0), inductor(1, 0, 0, 1.0)]),
    ('I 1 from 0 to 1, two L 1 from 1 to 0', 2, 2, [current(0, 1, 1.0), inductor(1, 0, 0, 1.0), inductor(1, 0, 1, 1.0)]),
    ('.. three L 1', 2, 3, [current(0, 1, 1.0)] + [inductor(1, 0, k, 1.0) for k in range(3)]),
    ('V 1 at 1 with number 0, R 1 from 1 to 0, L 1 from 0 to 0 with number 1', 2, 2, [voltage(1, 0, 0, 1.0), resistor(1, 0, 1.0), inductor(0, 0, 1, 1.0)]),
    ('the same with the numbers exchanged', 2, 2, [voltage(1, 0, 1, 1.0), resistor(1, 0, 1.0), inductor(0, 0, 0, 1.0)]),
    ('I 1 from 0 to 1, R 1 from 1 to 0, L 1 from 1 to 1', 2, 1, [current(0, 1, 1.0), resistor(1, 0, 1.0), inductor(1, 1, 0, 1.0)]),
]

# 8 V come on in the first second, through half an ohm into so many henries
POINTS = [(0.0, 0.0), (1.0, 8.0), (100.0, 8.0)]
ODD_HENRIES = {'0.5': 0.5, '0': 0.0, '-1': -1.0, 'infinite': float('inf'), 'NaN': float('nan')}


def farthest(moments):
    """How far the current and the capacitor's voltage are from the closed form where they are farthest."""
    return max(abs(m.current - m.exact_current) for m in moments), max(abs(m.volts - m.exact_volts) for m in moments)


def errors():
    """The table of errors, and what is wrong with the rows."""
    rows, before, wrong = [], {}, []
    for circuit, step, moments in circuits.answers():
        off = farthest(moments)[:circuit.nodes - 2]
        ratios = [x / y for x, y in zip(before.get(circuit, ()), off)]
        before[circuit] = off
        wrong += [f'{circuit.name} at {seconds(step)}: the error falls by {ratio:.3f}' for ratio in ratios if not HALF[0] <= ratio <= HALF[1]]
        wrong += [f'{circuit.name} at {seconds(step)}: at {m.time!r} s the inductor has {m.unknowns[circuit.nodes]!r} for its own unknown' for m in moments[1:]
                  if repr(m.unknowns[circuit.nodes]) != '0.0']
        cells = [cell for k, x in enumerate(off) for cell in (short(x), f'{ratios[k]:.2f}' if ratios else '-')]
        rows.append([circuit.name, seconds(step), str(len(moments) - 1), *cells, *['-'] * (4 - len(cells))])
    return table(OFF, rows), wrong


def answered(all_jobs):
    """Of each job the records that the program writes of it, by their kind."""
    with tempfile.NamedTemporaryFile(suffix='.jobs') as f:
        f.write(b'SAVJOBS2' + struct.pack('<3Q', len(all_jobs), max(map(len, all_jobs)), 0) + b''.join(all_jobs))
        f.flush()
        said = records(lines_of('savrunte', '--tsv', f.name))
    for k in range(len(all_jobs)):
        yield {kind: [r for r in said.get(kind, []) if r['job'] == str(k)] for kind in ('ended', 'unknown', 'row', 'judged')}


def judged(said):
    """What the judge says, in words."""
    r = said['judged'][0]
    return {'accepted': 'accepts', 'rejected': f'rejects row {r["row"]}', 'refused': f'refuses by {r["number"]}'}[r['answer']]


def loops():
    """The table of odd circuits at DC."""
    made = [job(b''.join(sheet), nodes=nodes, sources=sources, points=b'', tolerances=[TOLERANCE] * (nodes + sources)) for _, nodes, sources, sheet in ODD_AT_DC]
    rows = []
    for (words, nodes, sources, _), said in zip(ODD_AT_DC, answered(made)):
        values = [r['value'] for r in said['unknown']]
        rows.append([words, f'{nodes}, {sources}', said['ended'][0]['verdict'], values[1], ', '.join(values[nodes:]), judged(said)])
    return table(LOOPS, rows)


def odd_henries():
    """The table of odd henries, step by step."""
    points = b''.join(struct.pack('<2d', *p) for p in POINTS)
    shared = dict(transient=1, rows=4, itl3=0, options=options_of(0.0, 2.0, 1.0, fs=1.0), points=points, nodes=3, sources=2, tolerances=[TOLERANCE] * 5)
    made = [job(pattern(1, 0, 1, 0, len(POINTS), 0.0, -1.0) + resistor(1, 2, 0.5) + inductor(2, 0, 0, henry), **shared) for henry in ODD_HENRIES.values()]
    rows = []
    for words, said in zip(ODD_HENRIES, answered(made)):
        volts = ', '.join(r['values'].split(' ')[2] for r in said['row'])
        rows.append([words, volts, said['ended'][0]['verdict'], judged(said)])
    return table(HENRIES, rows)


def main():
    made, wrong = errors()
    for line in wrong:
        print('differs: ' + line)
    return max(int(wrong != []), *(compare_table(DOCUMENT, t) for t in (made, loops(), odd_henries())))


if __name__ == '__main__':
    sys.exit(main())
