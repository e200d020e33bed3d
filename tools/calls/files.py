"""The files that tools/program hands to the program, good and bad, in tables: what each holds, what its runs say, the status that it makes, and its fault (docs/FORMATS.md)."""
import os
import struct
import sys
from collections import namedtuple

sys.path.insert(0, os.path.join(os.path.dirname(os.path.abspath(__file__)), '../../examples'))
from front_end import capacitor, current, diode, inductor, pattern, record, resistor, sine_current, vcvs, voltage  # noqa: E402

NAN, INF = float('nan'), float('inf')

OPTIONS = {'reltol': 1e-3, 'vntol': 1e-6, 'abstol': 1e-6, 'tstart': 0.0, 'tstop': 2.0, 'tstep': 1.0, 'fs': 1.0, 'ft': 0.25, 'rmin': 0.1, 'rmax': 2.0,
           'gmin': 1e-12, 'boltzmann': 1.3806488e-23, 'charge': 1.603e-19}
# words of a head of form 1: how many a job and a file of spreads have, and the places of some; in form 2 they stand one place further on, behind their number
JOB_HEAD, SPREADS_HEAD = 29, 24
BYTES, ANALYSIS, JOBS, NODES, SOURCES, SHEET, POINTS = 0, 1, 1, 2, 3, 21, 22
NUMBER_2, ANALYSIS_2, TOLERANCES_2, PATTERN_FIRST_2, KNOWN_2 = 1, 2, 25, 31, 32


def words(*all):
    return struct.pack(f'<{len(all)}Q', *all)


def filled(b):
    return b + bytes(-len(b) % 8)


def put(b, place, word):
    """The word at this place changed."""
    return b[:8 * place] + words(word) + b[8 * place + 8:]


def options(itl, budget, changed):
    return struct.pack('<13d', *{**OPTIONS, **changed}.values()) + words(*itl, budget)


def job(records, nodes=2, sources=0, transient=False, points=b'', tolerances=(), rows=0, itl=(10, 0, 10), budget=10000, lent=None, **changed):
    """A job of form 1; its sheet may end inside a record."""
    sheet, n = b''.join(records), nodes + sources
    if lent is None:
        lent = [n * (n + 1)] * 3 + [n, len(records), rows * (n + 1)]
    body = words(int(transient), nodes, sources) + options(itl, budget, changed) + words(len(sheet), len(points), *lent)
    body += filled(sheet) + filled(points) + struct.pack(f'<{len(tolerances)}d', *tolerances)
    return words(len(body) + 8) + body


def form2(b, old, size=None, more=(), first=None):
    """What begins with a head of form 1 of `old` words, with a head of form 2: more words at its end, or only the first ones."""
    kept = (list(struct.unpack_from(f'<{old}Q', b)) + list(more))[1:]
    kept = kept[:size - 2] if size else kept
    rest = b[8 * old:]
    return (first or words(8 * (len(kept) + 2) + len(rest))) + words(len(kept) + 2, *kept) + rest


def jobs(*all, form=1, count=None):
    return b'SAVJOBS%d' % form + words(len(all) if count is None else count, max(map(len, all)), 0) + b''.join(all)


def spreads(*sheets, nodes=2, sources=0, unknown=1, points=b'', itl=(10, 0, 10), budget=10000, **changed):
    """A file of spreads of form 1."""
    all_sheets = b''.join(sheets)
    head = words(len(sheets), nodes, sources) + options(itl, budget, changed) + words(len(all_sheets), len(points), unknown)
    return b'SAVSPRD1' + head + filled(all_sheets) + filled(points)


def spreads2(b, **how):
    return form2(b, SPREADS_HEAD, first=b'SAVSPRD2', **how)


def waiting(b, catchup=1):
    """A job of form 1 as one of form 2 with the option catchup."""
    return form2(b, JOB_HEAD, more=[catchup])


def first(b, pattern_first=1, catchup=0):
    """A job of form 1 as one of form 2 with the option pattern_first."""
    return form2(b, JOB_HEAD, more=[catchup, pattern_first])


def judged_spreads(b, tolerances, catchup=0, *later):
    """A file of spreads of form 1 as one of form 2 with tolerances, the option catchup, and those whose words stand behind it."""
    return spreads2(b, more=[len(tolerances), 0, 0, 0, 0, catchup, *later]) + struct.pack(f'<{len(tolerances)}d', *tolerances)


# circuits: document 01's cases a (one volt), b (a divider), c (a source from ground to ground) and j (a capacitor); a node that hangs on a capacitor alone; a diode that is never finite; one that is held back
ONE_VOLT = [current(0, 1, 2.0), resistor(1, 0, 0.5)]
DIVIDER = [voltage(1, 0, 0, 4.0), resistor(1, 2, 1.0), resistor(2, 0, 1.0)]
CONTRADICTION = [voltage(0, 0, 0, 5.0)]
LOADED = [resistor(1, 0, 1.0), capacitor(1, 0, 1.0), current(0, 1, 1.0)]
HANGING = [capacitor(1, 0, 1.0), resistor(2, 0, 1.0), current(0, 2, 1.0)]
HOT = [diode(1, 0, INF, 27.0)]


def rectifier(volts):
    """A diode behind a resistor. From 5 V on the first passes agree while the limiting still holds the diode back."""
    return [voltage(1, 0, 0, volts), resistor(1, 2, 1000.0), diode(2, 0, 1e-12, 27.0)]


POINT = struct.pack('<2d', 1.0, 1.0)

# points of document 01's cases g and h, and a pattern whose first point stands after time 0
LEVELS = [(0.0, 0.0), (1.0, 4.0), (0.0, 3.0), (1.0, 4.0), (0.5, 3.0), (1.0, 4.0)]
LEVEL_BYTES = b''.join(struct.pack('<2d', *p) for p in LEVELS)
# patterns of them: the first point and how many, the delay, and whether it repeats (not below zero)
CASE_H = (2, 2, 0.0, -1.0)
PATTERNS = [(0, 2, 0.0, -1.0), CASE_H, (2, 2, 0.5, -1.0), (2, 2, -0.25, -1.0), (2, 2, 0.0, 0.0), (2, 2, 0.5, 1.0), (4, 2, 0.0, -1.0), (4, 2, 0.25, 1.0), (3, 1, 0.0, -1.0), (3, 1, 0.5, 1.0),
            (2, 1, 0.0, -1.0), (2, 1, 0.0, 1.0), (1, 5, 0.0, -1.0), (0, 0, 0.0, -1.0)]
MOVING = dict(transient=True, rows=12, tstep=0.25, tstop=2.0)


def driven(shape, *more):
    """The records of one ohm across a pattern: with levels such as these its node has the pattern's level to the bit."""
    return [pattern(1, 0, 0, *shape), resistor(1, 0, 1.0), *more]


def ramp(shape, **how):
    return job(driven(shape), sources=1, points=LEVEL_BYTES, **how)


def beside(shape, **how):
    """The same beside another source: here a level that is no number is not hidden by the last unknown."""
    return job(driven(shape, voltage(2, 0, 1, 1.0)), nodes=3, sources=2, points=LEVEL_BYTES, **how)


# an inductor across a resistor, and the same beside a source, which has the last number and hides nothing of the inductor
SHORT = [current(0, 1, 1.0), resistor(1, 0, 5.0), inductor(1, 0, 0, 3.0)]
SHORT_BESIDE = SHORT + [voltage(2, 0, 1, 1.0)]
# henries and steps: behind half an ohm, where every number of a step is a float; across a source, where that is never so
CHOKES = [(0.5, 1.0), (0.5, 3.0), (0.25, 3.5)]
ACROSS = [(49.0, 3.0), (7.0, 0.5), (0.3, 0.1)]
CHOKE_OHM, CHOKE_VOLT, CHOKE_STEPS = 0.5, 8.0, 5


def choke(henry, step, ohm=CHOKE_OHM, rise=None, **how):
    """A voltage that comes on in the first step, or in another time, across an inductor behind a resistor or, with no ohm, across the inductor alone."""
    points = struct.pack('<6d', 0.0, 0.0, rise or step, CHOKE_VOLT, 1e6, CHOKE_VOLT)
    records = [pattern(1, 0, 1, 0, 3, 0.0, -1.0)] + ([resistor(1, 2, ohm), inductor(2, 0, 0, henry)] if ohm else [inductor(1, 0, 0, henry)])
    moves = dict(nodes=3 if ohm else 2, sources=2, transient=True, rows=CHOKE_STEPS + 1, tstep=step, tstop=(CHOKE_STEPS - 0.5) * step)
    return job(records, points=points, **{**moves, **how})


def divider(**how):
    return job(DIVIDER, nodes=3, sources=1, **how)


def moving(**how):
    return job(LOADED, **{'transient': True, 'rows': 9, **how})


# values that must come out as they went in
VALUES = [5e-324, -5e-324, 1e-310, 2.2250738585072009e-308, 2.2250738585072014e-308, 1e-5, 9.999999999999999e-5, 1e-4, 1.0000000000000002e-4, 0.1, 0.30000000000000004, 1.0, 123456.789,
          2.0**53, 2.0**53 + 2, 1e15, 9999999999999998.0, 1e16, 1.0000000000000002e16, 1e21, 1e22, 1e23, -1.5e300, 1.7976931348623157e308]

# what the shell gets without --strict and with it
SURE, DOUBT, FAULT = (0, 0), (0, 1), (2, 2)

# A file: its name, what it holds, its bytes (None: it is not written), what its runs say, the two statuses, its fault
File = namedtuple('File', 'name holds content says status fault')

NO_BYTE = 'is empty, is a directory or cannot be read'
NO_JOBS = 'is no file of jobs: it does not begin with SAVJOBS1 or SAVJOBS2 (a file of spreads has the word spreads before it)'
NO_SPREADS = 'is no file of spreads: it does not begin with SAVSPRD1 or SAVSPRD2'
IN_FIRST = 'ends inside its first 32 bytes'
IN_NUMBERS = 'ends inside its numbers'
IN_SHEETS = 'ends inside its sheets or its points, or they are larger than any that run'
IN_TOLERANCES = 'ends inside its tolerances, or they are larger than any that run'
GOES_ON = 'goes on after its last job'
GOES_ON_POINTS = 'goes on after its points'
GOES_ON_TOLERANCES = 'goes on after its tolerances'
UNKNOWN_HEAD = 'a head with a number of words that no head has, or asks for what this program does not know'


def in_head(k): return f'ends inside job {k}'
def in_job(k): return f'ends inside job {k}, or that job is larger than any that runs'
def unknown_head(k): return f'job {k} has {UNKNOWN_HEAD}'
def not_as_long(k): return f'job {k} is not as long as its parts'


def runs_of_jobs():
    """Files of jobs that can be read: how their runs end."""
    def one(name, says, status, *jobs_in): return File(name, 'jobs', jobs(*jobs_in), says, status, None)
    c = dict(records=CONTRADICTION, nodes=1, sources=1)
    yield one('good', 'ended 0', SURE, job(ONE_VOLT))
    yield one('two', 'ended 0; ended 0, accepted', SURE, job(ONE_VOLT), divider(tolerances=[0.0] * 4))
    yield one('judged', 'ended 0, accepted', SURE, job(**c, tolerances=[0.0, 5.0]))
    yield one('rejected', 'ended 0, rejected 1', DOUBT, job(**c, tolerances=[0.0, 4.9]))
    yield one('judge-5', 'ended 0, refused 5', DOUBT, job(**c, tolerances=[0.0] * 3))
    yield one('judge-11', 'ended 0, refused 11', DOUBT, job(**c, tolerances=[0.0, -1.0]))
    yield one('judge-nan', 'ended 0, refused 11', DOUBT, job(**c, tolerances=[0.0, NAN]))
    yield one('judge-few', 'ended 0, refused 5', DOUBT, job(**c, tolerances=[5.0]))
    yield one('judge-many', 'ended 0, refused 5', DOUBT, job(**c, tolerances=[0.0] * 64))
    yield one('judged-20', 'ended 20, accepted', DOUBT, job(ONE_VOLT, itl=(0, 0, 0), tolerances=[0.0, 0.0]))
    yield one('dc-20', 'ended 20', DOUBT, job(ONE_VOLT, itl=(0, 0, 0)))
    yield one('dc-21', 'ended 21', DOUBT, job(HANGING, nodes=3))
    yield one('dc-22', 'ended 22', DOUBT, job(HOT))
    yield one('dc-24', 'ended 24', DOUBT, job(ONE_VOLT, budget=1))
    yield one('moving', 'ended 0 dc 0 rows 4', SURE, moving())
    yield one('moving-judged', 'ended 0 dc 0 rows 4, accepted', SURE, moving(tolerances=[0.0, 0.0]))
    yield one('after-20', 'ended 0 dc 20 rows 4', DOUBT, moving(itl=(0, 0, 10)))
    yield one('after-21', 'ended 0 dc 21 rows 4', DOUBT, job(HANGING, nodes=3, transient=True, rows=9))
    yield one('many-rows', 'ended 0 dc 0 rows 1002', SURE, moving(rows=1100, tstop=1000.0))
    yield one('wide', 'ended 0 dc 0 rows 4, accepted', SURE, job(LOADED + [resistor(i, 0, 3.0) for i in range(2, 48)], nodes=48, transient=True, rows=9, tolerances=[1e-9] * 48))
    yield one('moving-22', 'ended 22 dc 22 rows 0', DOUBT, job(HOT, transient=True, rows=9))
    yield one('moving-23', 'ended 23 dc 0 rows 1', DOUBT, moving(itl=(10, 0, 1), ft=0.05))
    yield one('moving-24', 'ended 24 dc 0 rows 1', DOUBT, moving(budget=3))
    yield one('moving-25', 'ended 25 dc 0 rows 1', DOUBT, moving(rows=1))
    yield one('moving-26', 'ended 26 dc 0 rows 1', DOUBT, job([resistor(1, 0, 1.0), sine_current(0, 1, 0.0, 1.0, 1e9)], transient=True, rows=9))
    yield one('endless', 'ended 25 dc 0 rows 5', DOUBT, moving(rows=5, tstop=INF, tstep=1e308, rmax=1e10))
    yield one('order', 'refused 1 at 0; refused 1 at 0; refused 1 at 0', DOUBT, job([], nodes=0), job([], nodes=49), job([], nodes=1, sources=48))
    huge = [2**53 - 1, 2**53, 2**53 + 1, 2**63, 2**64 - 1]
    yield one('huge', '; '.join(['refused 1 at 0'] * 10), DOUBT, *[put(job([]), NODES, n) for n in huge], *[put(job([]), SOURCES, n) for n in huge])
    yield one('sheet', 'refused 2 at 0; refused 2 at 0', DOUBT, job([b'\1' * 41]), job([resistor(1, 0, 1.0)] * 257))
    yield one('largest-sheet', 'refused 2 at 0', DOUBT, job([bytes(10480)]))
    yield one('points', 'refused 3 at 0; refused 3 at 0', DOUBT, job(ONE_VOLT, points=bytes(7)), job(ONE_VOLT, points=bytes(16 * 1025)))
    yield one('largest-points', 'refused 3 at 0', DOUBT, job(ONE_VOLT, points=bytes(16640)))
    yield one('limits', 'refused 4 at 0; refused 4 at 0; refused 4 at 0', DOUBT, job(ONE_VOLT, itl=(10001, 0, 0)), job(ONE_VOLT, budget=0), job(ONE_VOLT, budget=1000001))
    yield one('room', 'refused 5 at 0; refused 5 at 0', DOUBT, job(ONE_VOLT, lent=[6, 6, 6, 1, 2, 0]), moving(rows=0))
    yield one('lent-more', 'ended 0', SURE, job(ONE_VOLT, lent=[2**64 - 1] * 6))
    bad = {
        'kind': ('6 at 2', record(13, 1, 0)),
        'unused': ('7 at 2', b'\1\1' + resistor(1, 0, 1.0)[2:]),
        'node': ('8 at 2', resistor(2, 0, 1.0)),
        'source': ('9 at 2', voltage(1, 0, 0, 1.0)),
        'range': ('10 at 2', pattern(1, 0, 0, 0, 2, 0.0, -1.0)),
    }
    for name, (says, r) in bad.items():
        damaged = job(ONE_VOLT + [r], sources=int(name == 'range'), points=POINT)
        yield one(name, 'refused ' + says, DOUBT, damaged)
    yield one('among-others', 'ended 0; refused 6 at 0; ended 0', DOUBT, job(ONE_VOLT), job([bytes(40)]), job(ONE_VOLT))
    yield one('numbers', '; '.join(['ended 0'] * len(VALUES)), SURE, *[job([voltage(1, 0, 0, x), resistor(1, 0, 1.0)], sources=1) for x in VALUES])
    beyond = [job([current(0, 1, x), resistor(1, 0, 1.0), resistor(2, 0, 1.0)], nodes=3) for x in (INF, -INF, NAN)]
    yield one('beyond-numbers', 'ended 21; ended 21; ended 21', DOUBT, *beyond)
    yield one('minus-zero', 'ended 0', SURE, job([resistor(1, 0, -1.0)]))
    held = dict(nodes=3, sources=1, itl=(100, 0, 10))
    yield one('behind', 'ended 0 behind 3', DOUBT, job(rectifier(5.0), **held))
    yield one('behind-judged', 'ended 0 behind 3, accepted', DOUBT, job(rectifier(5.0), tolerances=[1e-6] * 4, **held))
    yield one('behind-second', 'ended 0; ended 0 behind 4', DOUBT, job(rectifier(0.1), **held), job([resistor(2, 0, 1e6)] + rectifier(5.0), **held))
    yield one('behind-20', 'ended 20 behind 3', DOUBT, job(rectifier(5.0), nodes=3, sources=1, itl=(0, 0, 10)))
    yield one('behind-24', 'ended 24 behind 3', DOUBT, job(rectifier(5.0), budget=1, **held))
    yield one('behind-nan', 'ended 0 behind 3', DOUBT, job(rectifier(5.0), vntol=NAN, **held))
    yield one('no-diode-behind', 'ended 0', SURE, job(DIVIDER, nodes=3, sources=1, vntol=0.0))
    yield one('moving-caught-up', 'ended 0 dc 0 rows 4', SURE, job(rectifier(5.0), transient=True, rows=9, **held))
    yield one('moving-behind', 'ended 24 dc 0 rows 1 behind 3', DOUBT, job(rectifier(5.0), transient=True, rows=9, budget=3, **held))
    yield from runs_of_inductors(one)
    yield from sharing_inductors(one)


def runs_of_inductors(one):
    """Inductors at DC and through a transient: every verdict that a run with one can have of its own."""
    moves = dict(transient=True, rows=9)
    yield one('inductor', 'ended 0; ended 0, accepted', SURE, job(SHORT, sources=1), job(SHORT, sources=1, tolerances=[0.0] * 3))
    yield one('inductor-20', 'ended 20', DOUBT, job(SHORT, sources=1, itl=(0, 0, 10)))
    yield one('inductor-24', 'ended 24', DOUBT, job(SHORT, sources=1, budget=1))
    yield one('inductor-after-20', 'ended 0 dc 20 rows 4', DOUBT, job(SHORT_BESIDE, nodes=3, sources=2, itl=(0, 0, 10), **moves))
    yield one('chokes', '; '.join([f'ended 0 dc 0 rows {CHOKE_STEPS + 1}'] * len(CHOKES)), SURE, *[choke(*shape) for shape in CHOKES])
    yield one('inductors-across', '; '.join([f'ended 0 dc 0 rows {CHOKE_STEPS + 1}'] * len(ACROSS)), SURE, *[choke(*shape, ohm=0) for shape in ACROSS])
    yield one('choke-judged', f'ended 0 dc 0 rows {CHOKE_STEPS + 1}, accepted', SURE, choke(0.5, 1.0, tolerances=[0.0] * 5))
    yield one('choke-23', 'ended 23 dc 0 rows 1', DOUBT, choke(0.5, 1.0, itl=(10, 0, 1), ft=0.05))
    yield one('choke-24', 'ended 24 dc 0 rows 2', DOUBT, choke(0.5, 1.0, budget=4))
    yield one('choke-25', 'ended 25 dc 0 rows 2', DOUBT, choke(0.5, 1.0, rows=2))
    # an infinite conductance: a short in the first step, then a current that is no number; a NaN is hidden by the last unknown, and its judge refuses
    yield one('choke-of-0', 'ended 21 dc 0 rows 2, refused 11', DOUBT, choke(0.0, 1.0, tolerances=[1.0] * 5))
    yield one('choke-of-nan', f'ended 0 dc 0 rows {CHOKE_STEPS + 1}, refused 11', DOUBT, choke(NAN, 1.0, tolerances=[1.0] * 5))
    yield one('choke-of-others', '; '.join([f'ended 0 dc 0 rows {CHOKE_STEPS + 1}'] * 3), SURE, *[choke(henry, 1.0) for henry in (-1.0, INF, 1e300)])
    # loops at DC: a source and an inductor contradict each other, and the one with the last number gives way; two inductors leave it open
    loop = [voltage(1, 0, 0, 5.0), inductor(1, 0, 1, 1.0)], [voltage(1, 0, 1, 5.0), inductor(1, 0, 0, 1.0)], [current(0, 1, 1.0), inductor(1, 0, 0, 1.0), inductor(1, 0, 1, 1.0)]
    yield one('inductor-loops', 'ended 0, rejected 3; ended 0, rejected 3; ended 0, accepted', DOUBT, *[job(records, sources=2, tolerances=[1e-6] * 4) for records in loop])
    ground = dict(records=[voltage(1, 0, 1, 1.0), resistor(1, 0, 1.0), inductor(0, 0, 0, 1.0)], sources=2)
    yield one('inductor-of-ground', 'ended 21; ended 0 dc 21 rows 4', DOUBT, job(**ground), job(**ground, **moves))
    # what an inductor remembers is no voltage: the diode behind it is the one that is named
    before_diode = [inductor(1, 3, 0, 1.0), voltage(1, 0, 1, 5.0), resistor(3, 2, 1000.0), diode(2, 0, 1e-12, 27.0)]
    yield one('inductor-before-diode', 'ended 0 behind 4; ended 0 dc 0 rows 4', DOUBT, *[job(before_diode, nodes=4, sources=2, itl=(100, 0, 100), **how) for how in ({}, moves)])


def sharing_inductors(one):
    """Source numbers that an inductor shares, and what is told before and behind that; bytes that an inductor does not use, and kinds that are none."""
    def numbered(s): return [voltage(1, 0, s, 1.0), record(6, 1, 0, source=s, floats=[0.0, 1.0, 1.0]), pattern(1, 0, s, 0, 1, 0.0, -1.0), vcvs(1, 0, 1, 0, s, 2.0), inductor(1, 0, s, 1.0)]
    def refused(name, says, *sheets): return one(name, '; '.join(f'refused {k}' for k in says), DOUBT, *[job(sheet, sources=2, points=POINT) for sheet in sheets])
    *others, inductor_record = numbered(0)
    v, ohm = others[0], resistor(1, 0, 1.0)
    yield refused('inductor-shares', ['9 at 1'] * 9, *[[r, inductor_record] for r in others], *[[inductor_record, r] for r in others], [inductor_record, inductor_record])
    yield one('inductor-alone', 'ended 0', SURE, job([v, v, numbered(1)[-1]], sources=2))
    yield refused('inductor-shares-later', ['9 at 2', '9 at 3', '9 at 2', '9 at 1'], [v, v, inductor_record], [inductor_record, ohm, ohm, v], [numbered(1)[-1], inductor_record, inductor_record], [inductor_record, inductor_record, v])
    far, beyond = resistor(2, 0, 1.0), pattern(1, 0, 0, 0, 2, 0.0, -1.0)
    yield refused('inductor-shares-order', ['6 at 1', '7 at 1', '8 at 1', '9 at 1', '8 at 1', '9 at 0'], [inductor_record, b'\0' + v[1:]], [inductor_record, b'\3\1' + v[2:]], [inductor_record, voltage(2, 0, 0, 1.0)], [inductor_record, beyond], [inductor_record, far, inductor_record],
                  [numbered(2)[-1], inductor_record, inductor_record])
    unused = [1, *range(6, 10), *range(12, 16), *range(24, 40)]
    yield refused('inductor-unused', ['7 at 0'] * len(unused), *[[inductor_record[:at] + b'\1' + inductor_record[at + 1:]] for at in unused])
    yield refused('inductor-numbers', ['8 at 0', '8 at 0', '9 at 0', '9 at 0'], [inductor(2, 0, 0, 1.0)], [inductor(0, 2, 0, 1.0)], [numbered(2)[-1]], [numbered(256)[-1]])
    yield refused('kinds', ['6 at 1'] * 5, *[[ohm, record(kind, 1, 0)] for kind in (0, 12, 13, 128, 255)])


def heads_of_jobs():
    """Form 2, and heads that are known or not."""
    good, judged = job(ONE_VOLT), divider(tolerances=[0.0] * 4)
    def two(name, says, status, fault, *jobs_in): return File(name, 'jobs', jobs(*jobs_in, form=2), says, status, fault)
    yield two('two-2', 'ended 0; ended 0, accepted', SURE, None, form2(good, JOB_HEAD), form2(judged, JOB_HEAD))
    yield two('long-head', 'ended 0, accepted', SURE, None, form2(judged, JOB_HEAD, more=[0] * 34))
    yield two('short-head', 'refused 1 at 0', DOUBT, None, form2(job([], nodes=0), JOB_HEAD, size=2))
    yield two('head-without-rows', 'ended 0', SURE, None, form2(good, JOB_HEAD, size=29))
    yield two('unknown-word', 'ended 0', FAULT, unknown_head(1), form2(good, JOB_HEAD), form2(good, JOB_HEAD, more=[0, 0, 1]), form2(good, JOB_HEAD))
    held = job(rectifier(5.0), nodes=3, sources=1, itl=(100, 0, 10))
    yield two('caught-up', 'ended 0; ended 0 behind 3; ended 0', DOUBT, None, waiting(held), waiting(held, 0), waiting(held, 2**64 - 1))
    yield two('caught-up-alone', 'ended 0', SURE, None, waiting(held))
    yield two('caught-up-long-head', 'ended 0', SURE, None, form2(held, JOB_HEAD, more=[1] + [0] * 33))
    yield two('caught-late', 'ended 20 behind 3', DOUBT, None, waiting(job(rectifier(5.0), nodes=3, sources=1, itl=(3, 0, 10))))
    yield two('moving-waiting', 'ended 0 dc 0 rows 4', SURE, None, waiting(job(rectifier(5.0), nodes=3, sources=1, itl=(100, 0, 10), transient=True, rows=9)))
    yield two('waiting-without-diode', 'ended 0', SURE, None, waiting(good))
    yield from heads_of_patterns(two, good)
    yield two('unknown-last-word', '', FAULT, unknown_head(0), form2(good, JOB_HEAD, more=[0] * 33 + [1]))
    for n in (0, 1, 65, 2**32 + 30, 2**64 - 1):
        yield two(f'head-of-{n}', '', FAULT, unknown_head(0), put(form2(good, JOB_HEAD), NUMBER_2, n) + bytes(600))
    for n in (2, 256, 2**64 - 1):
        yield File(f'analysis-{n}', 'jobs', jobs(good, put(good, ANALYSIS, n), good), 'ended 0', FAULT, unknown_head(1))
        yield two(f'analysis-{n}-2', '', FAULT, unknown_head(0), put(form2(good, JOB_HEAD), ANALYSIS_2, n))


def heads_of_patterns(two, good):
    """The option pattern_first: at DC and through a transient, with every word that is on and every head that has it off; and damaged heads of that length."""
    all_ramps = [ramp(shape, **how) for shape in PATTERNS for how in ({}, MOVING)]
    says = '; '.join(['ended 0', 'ended 0 dc 0 rows 10'] * len(PATTERNS))
    for name, switch in ('', 1), ('-huge', 2**63), ('-all-ones', 2**64 - 1), ('-0', 0):
        yield two('ramps' + name, says, SURE, None, *[first(j, switch) for j in all_ramps])
    yield two('ramps-30', says, SURE, None, *[form2(j, JOB_HEAD) for j in all_ramps])
    yield two('ramps-31', says, SURE, None, *[waiting(j) for j in all_ramps])
    yield two('ramps-64', says, SURE, None, *[form2(j, JOB_HEAD, more=[0, 1] + [0] * 32) for j in all_ramps])
    yield two('ramps-waiting', says, SURE, None, *[first(j, catchup=1) for j in all_ramps])
    judged = beside(CASE_H, tolerances=[0.0] * 5)
    yield two('ramp-judged', 'ended 0, accepted', SURE, None, first(judged))
    yield two('ramp-21', 'ended 21, refused 11; ended 21, refused 11; ended 0, accepted', DOUBT, None, first(judged, 0), waiting(judged), first(judged))
    yield two('no-pattern', 'ended 0; ended 0, accepted', SURE, None, first(good), first(divider(tolerances=[0.0] * 4)))
    for n in range(8 * PATTERN_FIRST_2, 8 * KNOWN_2):
        yield File(f'cut-in-word-31-{n}', 'jobs', jobs(first(good), first(good), form=2)[:32 + len(first(good)) + n], 'ended 0', FAULT, in_head(1))
    for place in KNOWN_2, KNOWN_2 + 1, 63:
        yield two(f'unknown-word-{place}', '', FAULT, unknown_head(0), put(form2(good, JOB_HEAD, more=[0, 1] + [0] * 32), place, 2**63))
    # a number of words that is one too small: word 31 is taken for the sheet's beginning, and what is left at the end for a tolerance; and one too large
    yield two('head-one-less', 'refused 7 at 0', DOUBT, None, put(first(good, 2), NUMBER_2, 31))
    yield two('head-one-more', '', FAULT, unknown_head(0), put(first(good), NUMBER_2, 33))


def faults_of_jobs():
    """Files of jobs that cannot be read to their end."""
    good, judged = job(ONE_VOLT), divider(tolerances=[0.0] * 4)
    def bad(name, says, fault, content): return File(name, 'jobs', content, says, FAULT, fault)
    yield bad('empty', '', NO_BYTE, b'')
    yield bad('text', '', NO_JOBS, b'R1 1 0 1k\n')
    yield bad('one-byte', '', NO_JOBS, b'S')
    yield bad('form-3', '', NO_JOBS, jobs(good).replace(b'SAVJOBS1', b'SAVJOBS3'))
    yield bad('answers', '', NO_JOBS, b'SAVANSW1' + jobs(good)[8:])
    yield bad('calls', '', NO_JOBS, b'SAVCALL1' + jobs(good)[8:])
    yield bad('spreads-as-jobs', '', NO_JOBS, spreads(b''.join(ONE_VOLT)))
    yield bad('zeros', '', NO_JOBS, bytes(4096))
    yield bad('no-job', '', 'holds no job', jobs(good, count=0))
    yield bad('no-job-short', '', 'holds no job', jobs(good, count=0)[:32])
    yield bad('too-many', 'ended 0', in_head(1), jobs(good, count=2))
    yield bad('far-too-many', 'ended 0; ended 0', in_head(2), jobs(good, good, count=2**64 - 1))
    yield bad('too-few', 'ended 0', GOES_ON, jobs(good, good, count=1))
    for n in (1, 8, 1000):
        yield bad(f'goes-on-{n}', 'ended 0; ended 0, accepted', GOES_ON, jobs(good, judged) + bytes(n))
    yield bad('goes-on-doubtful', 'ended 20', GOES_ON, jobs(job(ONE_VOLT, itl=(0, 0, 0))) + b'x')
    for less in (8, 16, len(good)):
        yield bad(f'size-less-{less}', 'ended 0', not_as_long(1), jobs(good, put(good, BYTES, len(good) - less)))
    for more in (1, 4, 7, -1):
        yield bad(f'size-odd-{more}', 'ended 0', not_as_long(1), jobs(good, put(good, BYTES, len(good) + more) + bytes(8)))
    yield bad('size-more', '', in_job(0), jobs(put(good, BYTES, len(good) + 8)))
    yield bad('size-huge', '', in_job(0), jobs(put(good, BYTES, 2**64 - 8)))
    yield bad('sheet-too-large', 'ended 0', in_job(1), jobs(good, job([bytes(10488)]), good))
    yield bad('points-too-large', 'ended 0', in_job(1), jobs(good, job(ONE_VOLT, points=bytes(16648)), good))
    yield bad('tolerances-too-large', 'ended 0', in_job(1), jobs(good, job(ONE_VOLT, tolerances=[0.0] * 65), good))
    yield bad('no-filling', 'ended 0', in_job(1), jobs(good, job([b'\1' * 41]))[:-1])


def sizes_of_jobs():
    """A good job, then one whose parts are larger than any that runs and than the job: either may be told. The last one's parts add up to its size modulo 2^64."""
    good = job(ONE_VOLT)
    for n in (2**31, 2**63, 2**64 - 232, 2**64 - 8, 2**64 - 1):
        yield jobs(good, put(good, SHEET, n))
        yield jobs(good, put(good, POINTS, n))
    yield jobs(good, put(put(good, SHEET, 2**64 - 16), POINTS, len(good) - 8 * JOB_HEAD + 16), good)


def runs_of_spreads():
    """Files of spreads that can be read."""
    def one(name, says, status, content): return File(name, 'spreads', content, says, status, None)
    good, late, damaged = (b''.join(r) for r in (ONE_VOLT, HANGING[1:] + HOT, ONE_VOLT[:1] + [bytes(40)]))
    three = b''.join([resistor(1, 0, 1.0), resistor(2, 0, 1.0), current(0, 1, 1.0)])
    yield one('spread', '2 of 0', SURE, spreads(good, good))
    yield one('spread-2', '2 of 0', SURE, spreads2(spreads(good, good)))
    yield one('spread-long-head', '1 of 0', SURE, spreads2(spreads(good), more=[0] * 39))
    yield one('spread-source', '1 of 0', SURE, spreads(b''.join(DIVIDER), nodes=3, sources=1, unknown=3))
    yield one('spread-doubtful', '1 of 0; 1 of 6', DOUBT, spreads(good, damaged))
    yield one('spread-none', '2 of 20', DOUBT, spreads(good, good, itl=(0, 0, 0)))
    yield one('spread-mixed', '2 of 0; 1 of 8; 1 of 22', DOUBT, spreads(three, late, three, three[:-40] + resistor(3, 0, 1.0), nodes=3, unknown=2))
    yield one('spread-24', '1 of 24', DOUBT, spreads(good, budget=1))
    yield one('spread-empty-sheets', '2 of 0', SURE, spreads(b'', b''))
    yield one('spread-values', f'{len(VALUES)} of 0', SURE, spreads(*[voltage(1, 0, 0, x) + resistor(1, 0, 1.0) for x in VALUES], sources=1))
    yield one('spread-largest', '256 of 6', DOUBT, spreads(*[bytes(40 * 256)] * 256))
    short, other = b''.join(SHORT), b''.join(SHORT[:2] + [inductor(0, 1, 0, 1e-9)])
    yield one('spread-inductors', '3 of 0', SURE, spreads(short, other, short, sources=1, unknown=2))
    yield one('spread-inductors-sharing', '1 of 0; 1 of 6; 2 of 9', DOUBT, spreads(short, short[:-40] + bytes(40), short[:40] + 2 * short[80:], inductor(1, 0, 0, 1.0) + short[:40] + voltage(1, 0, 0, 1.0), sources=1))
    yield from judged_calls(one, good)
    refused = {
        '13': [put(spreads(good), JOBS, 0), put(spreads(good), JOBS, 257), spreads(good, unknown=2), put(spreads(good), JOBS, 2**64 - 1), spreads(good, unknown=2**64 - 1),
               spreads2(spreads(b''), size=2)],
        '1': [spreads(good, nodes=0, sources=2), spreads(good, nodes=49), spreads(good, nodes=2**53 + 1)],
        '2': [spreads(good, good[:-8]), spreads(good + b'x'), spreads(*[bytes(40 * 257)])],
        '3': [spreads(good, points=bytes(8)), spreads(good, points=bytes(16640))],
        '4': [spreads(good, itl=(10001, 0, 0)), spreads(good, budget=0), spreads(good, budget=1000001)],
    }
    for number, contents in refused.items():
        for i, content in enumerate(contents):
            yield File(f'call-refused-{number}-{i}', 'spreads', content, f'call refused {number}', FAULT, f'the whole call is refused by {number}')


def judged_calls(one, good):
    """Calls of spreads with tolerances, and with the option catchup: every cause, in the order in which they are asked."""
    source, held, low, broken = (b''.join(r) for r in (CONTRADICTION, rectifier(5.0), rectifier(0.1), rectifier(0.1)[:2] + [bytes(40)]))
    def sources(tolerances, **how): return judged_spreads(spreads(source, source, nodes=1, sources=1, unknown=0), tolerances, **how)
    def ramps(): return spreads(*[resistor(1, 0, 1.0) + pattern(1, 0, 0, 0, 2, 0.0, -1.0)] * 2, nodes=2, sources=1, points=struct.pack('<4d', 0.0, 3.0, 1.0, 4.0))
    def diodes(*sheets): return spreads(*sheets, nodes=3, sources=1, unknown=2, itl=(100, 0, 10))
    yield one('spread-judged', '2 of 0', SURE, judged_spreads(spreads(good, good), [0.0, 0.0]))
    yield one('spread-not-judged', '2 of 0', SURE, judged_spreads(spreads(good, good), []))
    yield one('spread-accepted', '2 of 0', SURE, sources([0.0, 5.0]))
    yield one('spread-rejected', '2 of 28', DOUBT, sources([0.0, 4.9]))
    yield one('spread-judge-11', '2 of 11', DOUBT, sources([0.0, -1.0]))
    yield one('spread-judge-nan', '2 of 11', DOUBT, sources([NAN, 5.0]))
    # a level that is NaN is hidden by the last unknown's 0.0: settled, zeros; the judge refuses its system
    yield one('spread-nan-level', '2 of 0', SURE, judged_spreads(ramps(), []))
    yield one('spread-nan-level-judged', '2 of 11', DOUBT, judged_spreads(ramps(), [1e300] * 3))
    for switch in 1, 2**63:
        yield one(f'spread-first-level-{switch}', '2 of 0', SURE, judged_spreads(ramps(), [0.0] * 3, 0, switch))
    yield one('spread-first-level-not-judged', '2 of 0', SURE, judged_spreads(ramps(), [], 1, 1))
    yield one('spread-first-level-off', '2 of 11', DOUBT, judged_spreads(ramps(), [0.0] * 3, 0, 0))
    yield one('spread-first-level-long-head', '2 of 0', SURE, judged_spreads(ramps(), [0.0] * 3, 0, 1, *[0] * 32))
    yield one('spread-patterns', f'{len(PATTERNS)} of 0', SURE, judged_spreads(spreads(*[b''.join(driven(shape)) for shape in PATTERNS], sources=1, points=LEVEL_BYTES), [0.0] * 3, 0, 1))
    yield one('spread-judge-more', '2 of 0', SURE, sources([0.0, 5.0, -1.0]))
    yield one('spread-judge-most', '2 of 0', SURE, sources([0.0] + [5.0] * 63))
    yield one('spread-behind', '1 of 0; 2 of 27', DOUBT, diodes(held, low, held))
    yield one('spread-all-behind', '2 of 27', DOUBT, diodes(held, held))
    yield one('spread-caught-up', '3 of 0', SURE, judged_spreads(diodes(held, low, held), [], catchup=1))
    yield one('spread-caught-up-judged', '3 of 0', SURE, judged_spreads(diodes(held, low, held), [1e-3] * 4, catchup=2**64 - 1))
    yield one('spread-behind-judged', '1 of 0; 1 of 6; 2 of 27', DOUBT, judged_spreads(diodes(held, broken, low, held), [1e-3] * 4))
    yield one('spread-behind-first', '1 of 11; 1 of 27', DOUBT, judged_spreads(diodes(held, low), [-1.0] * 4))
    yield one('spread-verdict-first', '1 of 6; 2 of 20', DOUBT, judged_spreads(spreads(held, broken, low, nodes=3, sources=1, unknown=2, itl=(0, 0, 0)), [-1.0] * 4))
    for i, (tolerances, catchup) in enumerate([([5.0], 0), ([5.0], 1)]):
        yield File(f'call-refused-5-{i}', 'spreads', sources(tolerances, catchup=catchup), 'call refused 5', FAULT, 'the whole call is refused by 5')


def faults_of_spreads():
    """Files of spreads that cannot be read to their end."""
    good = spreads(b''.join(ONE_VOLT), points=POINT)
    def bad(name, fault, content): return File(name, 'spreads', content, '', FAULT, fault)
    yield bad('spread-empty', NO_BYTE, b'')
    yield bad('spread-text', NO_SPREADS, b'R1 1 0 1k\n')
    yield bad('spread-form-3', NO_SPREADS, b'SAVSPRD3' + good[8:])
    yield bad('jobs-as-spreads', NO_SPREADS, jobs(job(ONE_VOLT)))
    yield bad('spread-answers', NO_SPREADS, b'SAVANSW1' + jobs(job(ONE_VOLT))[8:])
    for place in (26, 27, 28, 29, KNOWN_2, KNOWN_2 + 1, 63):
        for word in (1, 2**64 - 1):
            yield bad(f'spread-unknown-word-{place}-{word}', 'has ' + UNKNOWN_HEAD, put(spreads2(good, more=[0] * 39), place, word))
    judged = judged_spreads(good, [0.0, 0.0])
    yield bad('spread-no-tolerances', IN_TOLERANCES, spreads2(good, more=[1]))
    for n in (3, 64, 65, 2**31, 2**61, 2**61 + 2, 2**63, 2**64 - 1):
        yield bad(f'spread-tolerances-of-{n}', IN_TOLERANCES, put(judged, TOLERANCES_2, n))
    yield bad('spread-tolerances-too-large', IN_TOLERANCES, judged_spreads(good, [0.0] * 65))
    yield bad('spread-tolerances-of-0', GOES_ON_POINTS, put(judged, TOLERANCES_2, 0))
    yield bad('spread-tolerances-of-1', GOES_ON_TOLERANCES, put(judged, TOLERANCES_2, 1))
    for n in (1, 8, 1000):
        yield bad(f'spread-goes-on-judged-{n}', GOES_ON_TOLERANCES, judged + bytes(n))
    for n in (0, 1, 65, 2**32 + 25, 2**64 - 1):
        yield bad(f'spread-head-of-{n}', 'has ' + UNKNOWN_HEAD, put(spreads2(good), NUMBER_2, n) + bytes(600))
    for n in (1, 8, 1000):
        yield bad(f'spread-goes-on-{n}', GOES_ON_POINTS, good + bytes(n))
        yield bad(f'spread-goes-on-{n}-2', GOES_ON_POINTS, spreads2(good) + bytes(n))
    yield bad('spread-sheets-too-large', IN_SHEETS, spreads(bytes(2621448)))
    yield bad('spread-points-too-large', IN_SHEETS, spreads(b''.join(ONE_VOLT), points=bytes(16648)))
    for n in (2**31, 2**63, 2**64 - 8, 2**64 - 1):
        yield bad(f'spread-sheets-of-{n}', IN_SHEETS, put(good, SHEET, n))
        yield bad(f'spread-points-of-{n}', IN_SHEETS, put(good, POINTS, n))
    yield bad('spread-no-filling', IN_SHEETS, spreads(b''.join(ONE_VOLT), points=bytes(9))[:-1])


def cuts_of_jobs(form):
    """Each cut of a small file of jobs, with its fault and how many of its jobs are whole."""
    small = [job(ONE_VOLT, points=POINT), divider(tolerances=[0.0] * 4)]
    if form == 2:
        small = [first(j) for j in small]
    head, content = 8 * (KNOWN_2 if form == 2 else JOB_HEAD), jobs(*small, form=form)
    for n in range(len(content)):
        fault, whole = (NO_BYTE if n == 0 else NO_JOBS if n < 8 else IN_FIRST), 0
        start = 32
        for k, j in enumerate(small):
            if start <= n < start + len(j):
                fault, whole = (in_head(k) if n < start + head else in_job(k)), k
            start += len(j)
        yield content[:n], fault, ['', 'ended 0'][whole]


def cuts_of_spreads(form):
    """Each cut of a small file of spreads, in form 2 one with tolerances, with its fault."""
    content = spreads(b''.join(ONE_VOLT), points=POINT)
    head, points = 8 * SPREADS_HEAD, len(content)
    if form == 2:
        head, points = 8 * KNOWN_2, 8 * KNOWN_2 + points - head
        content = judged_spreads(content, [0.0, 0.0], 0, 1)
    for n in range(len(content)):
        fault = NO_BYTE if n == 0 else NO_SPREADS if n < 8 else IN_NUMBERS if n < head else IN_SHEETS if n < points else IN_TOLERANCES
        yield content[:n], fault, ''


def slow(budget, n, nodes=22):
    """n transients that never end and spend their budget of passes: a mesh, no time to stop at, and no row after the first."""
    mesh = [resistor(i, j, 1.0 + i) for i in range(nodes) for j in range(i)] + [current(0, 1, 1.0)]
    return jobs(*[job(mesh, nodes=nodes, transient=True, rows=2, tstart=1e300, tstop=NAN, budget=budget)] * n)
