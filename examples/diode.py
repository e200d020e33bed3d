#!/usr/bin/env python3
"""A diode that meets all five situations of its limiting rule, one after the other: writes examples/diode.jobs, which ./savrunte runs (docs/DIODE.md, docs/FORMATS.md).

12 V through 20 ohm to node 2, and from there two diodes at 27 C: one of 1e-12 A to a supply of 2 V, one of 1e-14 A to ground. Both are pulled up at first, and the first one begins to carry the current.
Then the second one does: node 2 falls, and the first diode is off in the end.

Nodes: 0 ground, 1 the 12 V, 2 where the diodes meet, 3 the 2 V. Sources: 0 the 12 V, 1 the 2 V. The first diode is the first record, so that it is the one that the program names where both are behind.

Jobs: 0 to 8 end after 1 to 9 passes (ITL1 is one less) and show what that pass left; 9 runs until it settles.
"""
from front_end import diode, job, resistor, voltage, write

PASSES = 9
NODES, SOURCES = 4, 2
RECORDS = [diode(2, 3, 1e-12, 27.0), diode(2, 0, 1e-14, 27.0), resistor(1, 2, 20.0), voltage(1, 0, 0, 12.0), voltage(3, 0, 1, 2.0)]


def main():
    # the options of the front end: tolerances so small that no pass before the last settles
    shared = dict(sheet=b''.join(RECORDS), points=b'', nodes=NODES, sources=SOURCES)
    write('diode.jobs', [job(**shared, itl1=k) for k in range(PASSES)] + [job(**shared)])


if __name__ == '__main__':
    main()
