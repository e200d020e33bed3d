#!/usr/bin/env python3
"""The 212 spreads of the detector amplifier (examples/front_end.py) at DC: writes examples/spreads.jobs, which ./savrunte spreads runs (docs/FORMATS.md).

Every part of every sheet lies within its tolerance, by a fixed seed. Among them, as in a real batch, stand sheets that cannot be trusted: a few that need
more passes than are given, an infinite saturation current, a resistor of no ohm, and three records with a damaged byte. The chosen unknown is the output.
"""
import os
import random
import struct
import subprocess

import front_end

JOBS = 212
PASSES = 10


def spread(rng):
    return front_end.records(lambda value, tolerance: value * (1.0 + tolerance * rng.uniform(-1.0, 1.0)))


def damaged(record, at, byte):
    return record[:at] + bytes([byte]) + record[at + 1:]


def sheets():
    rng = random.Random(212)
    made = [spread(rng) for _ in range(JOBS)]
    made[38][3] = front_end.diode(3, 4, float('inf'), 27.0)
    made[77][20] = front_end.resistor(8, 6, 0.0)
    made[90][26] = damaged(made[90][26], 0, 14)
    made[131][12] = damaged(made[131][12], 4, 13)
    made[174][1] = damaged(made[174][1], 14, 7)
    return [b''.join(records) for records in made]


def main():
    all_sheets = b''.join(sheets())
    points = front_end.POINT_BYTES
    head = b'SAVSPRD1' + struct.pack('<3Q', JOBS, front_end.NODES, front_end.SOURCES) + front_end.OPTIONS
    head += struct.pack('<4Q', PASSES - 1, 8, 20, 10000) + struct.pack('<3Q', len(all_sheets), len(points), front_end.OUTPUT)
    path = os.path.join(front_end.HERE, 'spreads.jobs')
    with open(path, 'wb') as f:
        f.write(head + all_sheets + points)
    subprocess.run([os.path.join(os.path.dirname(front_end.HERE), 'tools', 'twice'), '--write'], check=True)


if __name__ == '__main__':
    main()
