#!/usr/bin/env python3
"""Makes the table of the spreads in docs/SETTLING.md from the shipped program, and the part of a sheet there: tools/settling/table.py [--write]

Runs examples/spreads.jobs at five sets of tolerances with the option off and on, prints the table and ends with 1 where the document has another; --write puts it there. The sheet is that of the first run.
"""
import sys

sys.dont_write_bytecode = True
from runs import BEHIND, DOCUMENT, SETS, SOUND, Report, Spreads, program  # noqa: E402
from pages import compare_lines, compare_table, table  # noqa: E402

HEAD = ['RELTOL', 'VNTOL', 'ABSTOL', '`catchup`', 'settled', 'of these behind', 'mean over the sound, V', 'mean over the settled, V', 'passes a run']


def row(tolerances, on):
    report = Report(spreads.written(tolerances, on))
    settled = [job for job in report.jobs if job.cause in (SOUND, BEHIND)]
    behind = sum(job.cause == BEHIND for job in settled)
    assert (len(settled), len(settled) - behind) == (report.settled, report.sound)
    passes = sum(job.passes for job in settled) / len(settled)
    return [*tolerances, 'on' if on else 'off', str(len(settled)), str(behind), f'{report.sound_mean:.7f}', f'{report.mean:.7f}', f'{passes:.2f}']


def sheet():
    """What a person reads at the loosest tolerances, shortened: that runs are not sound, the first of them, and the means."""
    lines = program(content=spreads.written(SETS[0], False))
    loud = next(k for k, line in enumerate(lines) if line.startswith('NOT SOUND'))
    shown = [*lines[loud:loud + 2], '..', *(line for line in lines[loud:] if line.startswith('mean'))]
    return ''.join(f'    {line}\n' for line in shown)


spreads = Spreads()
status = compare_table(DOCUMENT, table(HEAD, [row(tolerances, on) for tolerances in SETS for on in (False, True)]))
sys.exit(max(status, compare_lines(DOCUMENT, sheet(), r'    NOT SOUND.*\n(    .*\n)*')))
