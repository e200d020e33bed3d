#!/usr/bin/env python3
"""A detector amplifier's front end as numbers: writes examples/front_end.jobs, which ./savrunte runs (docs/FORMATS.md).

A photodiode at zero bias feeds a transimpedance amplifier; a coupling capacitor and a second stage shape its pulse.

Nodes: 0 ground, 1 the 5 V supply, 2 the light on the detector, 3 the bias string's top and 4 its middle, 5 the reference,
6 the summing node, 7 inside the amplifier, 8 its output, 9 behind the coupling capacitor, 10 the second stage, 11 the output.
Sources: 0 the supply, 1 the light, 2 the reference's buffer, 3 the amplifier's buffer.

Jobs: 0 the DC operating point and 1 the transient, both judged; 2 is DC with too few passes, 3 has a record with a node that is not there.
4 is a transient, judged, while the supply ramps from 4 V to 5 V and the bias with it: with the option pattern_first the DC point is that of 4 V, the
supply's rows follow the ramp, each with the level at the time for which its step was solved (docs/DIFFERENCES.md, "A row's time is not the time solved"),
while the capacitors fill from empty, and the last ones have 5 V to the bit. 5 is the same job without the option: at time 0 the ramp's level is no number,
DC ends with 21 (convergence error) and the transient with 22 in its first pass.
6 and 7 are jobs 0 and 1 of the front end with a choke, both judged: its supply goes through an inductor with its resistance to node 1, where a capacitor holds it. The supply itself is node 12 there,
and node 13 is between the choke's inductor and its resistance; source 4 is the inductor. At DC it is a short, and source 4 is its current. In the transient the capacitor begins empty, and the supply comes
up through the choke before the first row after 0 is written; source 4 is 0 in these rows, and the choke's current is that of source 0 turned round (docs/INDUCTORS.md).
"""
import os
import struct
import subprocess

HERE = os.path.dirname(os.path.abspath(__file__))
NODES, SOURCES, OUTPUT = 12, 4, 11


def record(kind, p, n, controls=(0, 0), source=0, points=(0, 0), floats=()):
    values = list(floats) + [0.0] * (3 - len(floats))
    return struct.pack('<BBHHHHHHH3d', kind, 0, p, n, *controls, source, *points, *values)


def resistor(p, n, ohm): return record(1, p, n, floats=[ohm])
def current(p, n, ampere): return record(2, p, n, floats=[ampere])
def voltage(p, n, source, volt): return record(3, p, n, source=source, floats=[volt])
def diode(p, n, i_sat, celsius): return record(4, p, n, floats=[i_sat, celsius])
def sine_current(p, n, offset, amplitude, hertz): return record(5, p, n, floats=[offset, amplitude, hertz])
def pattern(p, n, source, first, count, delay, repeat): return record(7, p, n, source=source, points=(first, count), floats=[delay, repeat])
def capacitor(p, n, farad): return record(8, p, n, floats=[farad])
def vcvs(p, n, cp, cn, source, gain): return record(9, p, n, controls=(cp, cn), source=source, floats=[gain])
def vccs(p, n, cp, cn, siemens): return record(10, p, n, controls=(cp, cn), floats=[siemens])
def inductor(p, n, source, henry): return record(11, p, n, source=source, floats=[henry])


# the light: a flash with a quick rise and a slow fall
POINTS = [(0.0, 0.0), (1e-7, 1.0), (5e-7, 0.6), (1.5e-6, 0.1), (3e-6, 0.0), (1e-3, 0.0)]


# the ramp of the supply, behind them
RAMP = [(0.0, 4.0), (6e-6, 5.0)]


def records(part):
    """The front end's records; part(value, tolerance) is the value that a part has in place of its nominal one."""
    return [
        voltage(1, 0, 0, part(5.0, 0.02)),
        pattern(2, 0, 1, 0, len(POINTS), 1e-5, -1.0),
        # the bias: two conducting diodes under a resistor, held by a buffer
        resistor(1, 3, part(22e3, 0.01)),
        diode(3, 4, part(1e-14, 0.3), 27.0),
        diode(4, 0, part(1e-14, 0.3), 27.0),
        capacitor(3, 0, part(1e-10, 0.1)),
        vcvs(5, 0, 3, 0, 2, part(1.0, 0.001)),
        # the detector: photocurrent, dark current, junction and its capacitance, shunt; a diode that protects the other way; pickup of a converter
        vccs(6, 5, 2, 0, part(3e-7, 0.1)),
        current(6, 5, part(2e-9, 0.5)),
        diode(5, 6, part(1e-11, 0.5), 27.0),
        capacitor(6, 5, part(1e-11, 0.1)),
        resistor(6, 5, part(1e9, 0.2)),
        diode(6, 5, part(1e-14, 0.3), 27.0),
        sine_current(6, 5, 0.0, 1e-9, 2.5e5),
        # the transimpedance amplifier: a stage with its pole, kept between ground and supply by diodes, a buffer, and the feedback
        vccs(5, 7, 5, 6, part(1e-2, 0.2)),
        resistor(7, 5, part(1e5, 0.05)),
        capacitor(7, 5, part(1.6e-11, 0.1)),
        diode(7, 1, part(1e-14, 0.3), 27.0),
        diode(0, 7, part(1e-14, 0.3), 27.0),
        vcvs(8, 0, 7, 0, 3, 1.0),
        resistor(8, 6, part(1e6, 0.01)),
        capacitor(8, 6, part(5e-13, 0.1)),
        # the second stage behind a coupling capacitor, with its clamps, and the output's filter
        capacitor(8, 9, part(1e-10, 0.05)),
        resistor(9, 5, part(1e5, 0.01)),
        vccs(5, 10, 9, 5, part(2e-3, 0.02)),
        resistor(10, 5, part(5e3, 0.01)),
        diode(10, 1, part(1e-14, 0.3), 27.0),
        diode(0, 10, part(1e-14, 0.3), 27.0),
        resistor(10, 11, part(1e3, 0.01)),
        capacitor(11, 0, part(1e-10, 0.05)),
        resistor(11, 0, part(1e5, 0.01)),
    ]


def ramped(nominal):
    """The same front end with the ramp for its supply."""
    return [pattern(1, 0, 0, len(POINTS), len(RAMP), 0.0, -1.0)] + nominal[1:]


def choked(nominal):
    """The same front end with a choke in its supply. Its resistance damps it: with 10 uH and 100 nF, 20 ohm let the supply come up without going over."""
    return [voltage(12, 0, 0, 5.0)] + nominal[1:] + [inductor(12, 13, 4, 1e-5), resistor(13, 1, 20.0), capacitor(1, 0, 1e-7)]


# RELTOL, VNTOL, ABSTOL, TSTART, TSTOP, TSTEP, FS, FT, RMIN, RMAX, GMIN, BOLTZMANN, CHARGE. RELTOL is small because with 1e-3 the bias string settles
# falsely at 5 V (docs/DIFFERENCES.md, "False settling").
def options_of(tstart, tstop, tstep, fs=0.5): return struct.pack('<13d', 1e-9, 1e-9, 1e-12, tstart, tstop, tstep, fs, 0.25, 1e-3, 2.0, 1e-12, 1.3806488e-23, 1.603e-19)


# rows begin when the empty capacitors have filled
OPTIONS = options_of(9e-6, 1.8e-5, 1e-7)
# through the ramp, which is over before the flash: every row, also while the capacitors, which begin empty, fill
RAMP_OPTIONS = options_of(0.0, 9e-6, 5e-7)
POINT_BYTES, RAMP_BYTES = (b''.join(struct.pack('<dd', *p) for p in points) for points in (POINTS, RAMP))
# row 0 is empty; amperes at the nodes, volts at the sources
def tolerances_of(nodes, sources): return [0.0] + [1e-12] * (nodes - 1) + [1e-9] * sources


TOLERANCES = tolerances_of(NODES, SOURCES)
# with the choke: two nodes more, and its inductor among the sources
CHOKED = dict(nodes=NODES + 2, sources=SOURCES + 1, tolerances=tolerances_of(NODES + 2, SOURCES + 1))


def job(sheet, transient=0, rows=0, itl1=50, itl3=8, tolerances=(), options=OPTIONS, points=POINT_BYTES, pattern_first=0, nodes=NODES, sources=SOURCES):
    """A job of form 2; its last two words are the options catchup, which stays off, and pattern_first."""
    n = nodes + sources
    lent = [n * (n + 1)] * 3 + [n, len(sheet) // 40, rows * (n + 1)]
    body = struct.pack('<4Q', 32, transient, nodes, sources) + options + struct.pack('<4Q', itl1, itl3, 20, 10000)
    body += struct.pack('<2Q', len(sheet), len(points)) + struct.pack('<6Q', *lent) + struct.pack('<2Q', 0, pattern_first)
    body += sheet + points + struct.pack('<%dd' % len(tolerances), *tolerances)
    return struct.pack('<Q', len(body) + 8) + body


def write(name, jobs):
    """A file of jobs beside this script."""
    path = os.path.join(HERE, name)
    with open(path, 'wb') as f:
        f.write(b'SAVJOBS2' + struct.pack('<3Q', len(jobs), max(map(len, jobs)), 0) + b''.join(jobs))


def main():
    nominal = records(lambda value, tolerance: value)
    sheet = b''.join(nominal)
    damaged = b''.join(nominal[:8] + [current(NODES, 5, 2e-9)] + nominal[9:])
    ramp = dict(sheet=b''.join(ramped(nominal)), transient=1, rows=40, tolerances=TOLERANCES, options=RAMP_OPTIONS, points=POINT_BYTES + RAMP_BYTES)
    jobs = [job(sheet, tolerances=TOLERANCES), job(sheet, transient=1, rows=400, tolerances=TOLERANCES), job(sheet, itl1=4), job(damaged)]
    jobs += [job(**ramp, pattern_first=1), job(**ramp)]
    choke = b''.join(choked(nominal))
    jobs += [job(choke, **CHOKED), job(choke, transient=1, rows=400, **CHOKED)]
    write('front_end.jobs', jobs)
    subprocess.run([os.path.join(os.path.dirname(HERE), 'tools', 'twice'), '--write'], check=True)


if __name__ == '__main__':
    main()
