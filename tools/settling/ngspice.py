#!/usr/bin/env python3
"""Holds the spreads of examples/spreads.jobs against ngspice, job by job and by their means: tools/settling/ngspice.py [--write]. It wants Debian's package ngspice.

Every spread becomes a netlist of its own. A diode gets its saturation current and the temperature at which ngspice has our thermal voltage, by ngspice's own constants, and nothing else.
ngspice's tolerances are far below any of ours, and so is the conductance that it puts beside each diode. Spreads that do not settle with the option on (refused, or without an operating point) are
left out and counted. The status is 1 where a mean with the option on is farther from ngspice's than the limits below, where the jobs that are far from ngspice are not just those that are named behind, or
where docs/SETTLING.md has another table; --write puts the table there.
"""
import shutil
import struct
import subprocess
import sys
import tempfile
from math import fsum

sys.dont_write_bytecode = True
from runs import BEHIND, DOCUMENT, SETS, SOUND, Report, Spreads  # noqa: E402
from pages import compare_table, table  # noqa: E402

# how far the means may be apart with the option on, at the loosest tolerances and at the tightest
LOOSEST, TIGHTEST = 1e-5, 1e-6
# a job is far from ngspice beyond this many volts: far above what tolerances do, far below what a diode left behind does
FAR = 0.01
HEAD = ['RELTOL', 'VNTOL', 'ABSTOL', '`catchup`', 'mean here, V', 'mean of ngspice, V', 'means apart, V', 'sound jobs', 'the farthest, V', 'jobs behind', 'the nearest, V']
OPTIONS = '.options reltol=1e-10 vntol=1e-12 abstol=1e-16 gmin=1e-20 itl1=1000'


def spice(text):
    """What ngspice says to a netlist."""
    with tempfile.NamedTemporaryFile('w', suffix='.cir') as f:
        f.write(text)
        f.flush()
        return subprocess.run(['ngspice', '-b', f.name], stdin=subprocess.DEVNULL, capture_output=True, text=True).stdout


def number(said, name):
    """The number that ngspice has printed under this name."""
    return float(next(line for line in said.splitlines() if line.startswith(name + ' = ')).split(' = ')[1])


def scale():
    """Kelvin for each volt of thermal voltage, and the Celsius scale's zero, by ngspice's constants; and its version."""
    said = spice('* constants\n.control\nset numdgt=17\nprint const.boltz const.echarge const.kelvin\nversion\nquit\n.endc\n.end\n')
    version = next(word for word in said.split() if word.startswith('ngspice-'))
    return number(said, 'const.echarge') / number(said, 'const.boltz'), number(said, 'const.kelvin'), version


def card(k, record, celsius):
    """Record k as ngspice has it; celsius(tdegc) is the temperature of a diode there."""
    kind, _, p, n, cp, cn, _, _, _, x, y, _ = struct.unpack('<BBHHHHHHH3d', record)
    if kind == 4:
        return f'd{k} {p} {n} m{k} temp={celsius(y)!r}\n.model m{k} d(is={x!r} tnom={celsius(y)!r})\n'
    if kind == 7:
        # at time 0, before its delay, a pattern is at 0
        assert x > 0.0
        return f'v{k} {p} {n} 0\n'
    letter = {1: 'r', 2: 'i', 3: 'v', 5: 'i', 6: 'v', 8: 'c', 9: 'e', 10: 'g', 11: 'l'}[kind]
    controls = f' {cp} {cn}' if kind in (9, 10) else ''
    return f'{letter}{k} {p} {n}{controls} {x!r}\n'


def output(sheet, node, celsius):
    """The voltage that ngspice has for this node of this spread."""
    cards = ''.join(card(k, sheet[40 * k:40 * k + 40], celsius) for k in range(len(sheet) // 40))
    return number(spice(f'* a spread\n{cards}{OPTIONS}\n.control\nset numdgt=17\nop\nprint v({node})\nquit\n.endc\n.end\n'), f'v({node})')


def apart(volts):
    """A difference in volts, if there is one; where ngspice's own digits end it is only said to be below."""
    return '-' if volts is None else 'below 1e-12' if volts < 1e-12 else f'{volts:.1e}'.replace('e-0', 'e-') if volts < 0.01 else f'{volts:.3f}'


def row(tolerances, on, theirs):
    """The row of these tolerances, and what is wrong with it. theirs: ngspice's outputs by job."""
    jobs = Report(spreads.written(tolerances, on)).jobs
    mean, mean_there = fsum(jobs[k].value for k in theirs) / len(theirs), fsum(theirs.values()) / len(theirs)
    away = {cause: [abs(jobs[k].value - theirs[k]) for k in theirs if jobs[k].cause == cause] for cause in (SOUND, BEHIND)}
    farthest, nearest = max(away[SOUND]), min(away[BEHIND], default=None)
    wrong = ''
    if len(away[SOUND]) + len(away[BEHIND]) != len(theirs):
        wrong = 'a job has neither settled nor been left out'
    elif not (farthest <= FAR and (nearest is None or nearest > FAR)):
        wrong = 'the jobs far from ngspice are not those named behind'
    elif on and not abs(mean - mean_there) <= (TIGHTEST if tolerances == SETS[-1] else LOOSEST):
        wrong = 'the means are too far apart'
    cells = [f'{mean:.7f}', f'{mean_there:.7f}', apart(abs(mean - mean_there)), str(len(away[SOUND])), apart(farthest), str(len(away[BEHIND])), apart(nearest)]
    return [*tolerances, 'on' if on else 'off', *cells], wrong


def main():
    if shutil.which('ngspice') is None:
        sys.exit('ngspice.py: ngspice is wanted, on Debian by apt-get install ngspice')
    kelvin, zero, version = scale()
    final = Report(spreads.written(SETS[-1], True)).jobs
    theirs = {k: output(spreads.sheets[k], spreads.unknown, lambda tdegc: spreads.boltzmann * (363.0 + tdegc) / spreads.charge * kelvin + zero)
              for k, job in enumerate(final) if job.cause == SOUND}
    print(f'{version}: {len(theirs)} jobs of {spreads.jobs}; left out: ' + ', '.join(f'job {k} ({job.cause})' for k, job in enumerate(final) if job.cause != SOUND))
    rows = [row(tolerances, on, theirs) for tolerances in SETS for on in (False, True)]
    status = compare_table(DOCUMENT, table(HEAD, [cells for cells, _ in rows]))
    for cells, wrong in rows:
        if wrong:
            print(*cells[:4], wrong, sep=', ')
    return max(status, *(wrong != '' for _, wrong in rows))


if __name__ == '__main__':
    spreads = Spreads()
    sys.exit(main())
