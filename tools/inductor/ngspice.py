#!/usr/bin/env python3
"""Holds the jobs of examples/inductor.jobs against ngspice, step by step: tools/inductor/ngspice.py [--write]. It wants Debian's package ngspice.

Each job becomes a netlist with the same parts. ngspice is told to use backward Euler (gear of order 1), a longest step that is the job's own, and no control by the truncation error. Its first steps are shorter all the same, and it cuts steps
where a pattern has a corner. So the volt comes on late, by a source that ngspice does not look ahead at: by then all steps are of one length, nothing has moved before, and the steps from there on are the job's. That they are of one
length, and that the volt comes on between two of them, is checked. The status is 1 where that is not so, where a voltage is farther from ngspice's than the limit below, or where docs/INDUCTORS.md has another table; --write puts it there.
"""
import shutil
import subprocess
import sys
import tempfile
from pathlib import Path

sys.dont_write_bytecode = True
from runs import DOCUMENT, circuits, seconds  # noqa: E402
from pages import compare_table, table  # noqa: E402

# how far a voltage may be from ngspice's: some units in the last place of a volt
LIMIT = 1e-12
HEAD = ['circuit', 'steps of', 'steps compared', 'voltages, farthest apart, V', 'current, farthest apart, A']
OPTIONS = '.options method=gear maxord=1 trtol=1e12 chgtol=1e-30 reltol=1e-10 vntol=1e-15 abstol=1e-18 gmin=1e-20'
# the volt comes on after so many steps of full length
LATE = 20


def netlist(circuit, step, steps, out):
    """The job for ngspice, which writes time, the volt, the nodes behind it and the current to a file."""
    nodes = range(2, circuit.nodes)
    parts = [f'b1 1 0 v = time > {(LATE + 0.5) * step!r} ? {circuits.VOLT!r} : 0', f'r1 1 2 {circuit.ohm!r}', f'l1 2 {nodes[-1] if len(nodes) > 1 else 0} {circuits.HENRY!r}']
    parts += [f'c1 3 0 {circuits.FARAD!r}'] * (len(nodes) > 1)
    asked = ' '.join(f'v({k})' for k in nodes)
    control = ['set numdgt=17', 'set wr_singlescale', f'tran {step!r} {(LATE + steps + 20) * step!r} 0 {step!r}', f'wrdata {out} v(1) {asked} i(l1)', 'version', 'quit']
    return '\n'.join(['* ' + circuit.name, *parts, OPTIONS, '.control', *control, '.endc', '.end', ''])


def theirs(circuit, step, steps):
    """The steps of ngspice from the volt on: the nodes behind it and the current; and its version."""
    with tempfile.TemporaryDirectory() as folder:
        source, out = Path(folder) / 'net.cir', Path(folder) / 'out'
        source.write_text(netlist(circuit, step, steps, out))
        said = subprocess.run(['ngspice', '-b', source], stdin=subprocess.DEVNULL, capture_output=True, text=True).stdout
        rows = [[float(x) for x in line.split()] for line in out.read_text().splitlines()]
    first = next(k for k, row in enumerate(rows) if row[1] != 0.0)
    lengths = [after[0] - before[0] for before, after in zip(rows[first - 2:], rows[first - 1:first + steps])]
    if any(abs(length - step) > 1e-9 * step for length in lengths) or any(x != 0.0 for row in rows[:first] for x in row[1:]):
        sys.exit(f'differs: the steps of ngspice are not those of {circuit.name} at {seconds(step)}: {min(lengths)!r} to {max(lengths)!r}')
    return [row[2:] for row in rows[first:first + steps]], next(word for word in said.split() if word.startswith('ngspice-'))


def apart(x):
    """A difference; where the last digits of a float are all that differs, it is only said to be below."""
    return 'below 1e-12' if x < 1e-12 else f'{x:.1e}'


def main():
    if shutil.which('ngspice') is None:
        sys.exit('ngspice.py: ngspice is wanted, on Debian by apt-get install ngspice')
    compared, wrong = {circuit: [] for circuit in circuits.CIRCUITS}, []
    for circuit, step, moments in circuits.answers():
        ours = moments[1:]
        there, version = theirs(circuit, step, len(ours))
        volts = max(abs(x - y) for m, row in zip(ours, there) for x, y in zip(m.unknowns[2:circuit.nodes], row))
        current = max(abs(m.current - row[-1]) for m, row in zip(ours, there))
        print(f'{version}, {circuit.name} at {seconds(step)}: {volts:.1e} V and {current:.1e} A apart')
        if not max(volts, current) <= LIMIT:
            wrong.append(f'{circuit.name} at {seconds(step)}: too far apart')
        compared[circuit].append((seconds(step), len(there), volts, current))
    rows = []
    for circuit, runs in compared.items():
        lengths, counts, volts, currents = zip(*runs)
        rows.append([circuit.name, ', '.join(lengths), str(sum(counts)), apart(max(volts)), apart(max(currents))])
    for line in wrong:
        print('differs: ' + line)
    return max(int(wrong != []), compare_table(DOCUMENT, table(HEAD, rows)))


if __name__ == '__main__':
    sys.exit(main())
