#!/usr/bin/env python3
"""Makes the tables of docs/DIODE.md and the part of a sheet there: tools/diode/page.py [--write]

The diode's numbers come from examples/diode.c over the C door; the five situations from the comments in crates/models/src/diode.rt, with the formulas of rule.py; the worked example from ./savrunte on
examples/diode.jobs, each pass checked by rule.py. Says whether the page has them and ends with 1 where it has not, or where a pass is not what its situation gives; --write puts them there.
"""
import re
import sys
from pathlib import Path

sys.dont_write_bytecode = True
sys.path.insert(0, str(Path(__file__).resolve().parents[1]))
from pages import TOP, compare_lines, compare_table, example, lines_of, records, table  # noqa: E402
from rule import SITUATIONS, Asked, all_seen, checked  # noqa: E402

DOCUMENT = TOP / 'docs' / 'DIODE.md'
CODE = TOP / 'crates' / 'models' / 'src' / 'diode.rt'
JOBS = 'examples/diode.jobs'
SHOWN = 5, 6, 9  # jobs whose sheet is on the page: before the fall back, after it, and the end


def numbers(answer):
    """The two voltages of the diode, and what it does at the critical one: the answer must be one that was taken there."""
    thermal, critical, g, i = (float(answer[name]) for name in ('thermal', 'critical', 'g', 'i'))
    rows = [('thermal voltage, vt', f'{thermal!r} V'), ('critical voltage, vcrit', f'{critical!r} V')]
    rows += [('current at vcrit', f'{i + g * critical:.5f} A'), ('slope of the curve at vcrit', f'{g:.5f} A for a volt')]
    return table(['a diode of 1e-12 A at 27 C', ''], rows)


def situations():
    """The variants in the code, each with the sentence and the Rust's condition above it; the formulas are those that the picture is checked by."""
    body = re.search(r'pub enum Situation \{\n(.*?)\n\}', CODE.read_text(), re.S)[1]
    found = re.findall(r'((?:    // (?!Rust: ).*\n)+)    // Rust: (.*)\n    (\w+)', body)
    if [name for _, _, name in found] != [s.name for s in SITUATIONS]:
        sys.exit(f'differs: {CODE.relative_to(TOP)} has other situations than rule.py, or in another order')
    said = [' '.join(line.strip(' /') for line in sentence.splitlines()) for sentence, _, _ in found]
    return table(['', 'in the code', 'it holds when', 'the Rust’s condition', 'voltage taken'],
                 [[s.words, f'`{s.name}`', sentence, f'`{rust}`', f'`{s.formula}`'] for s, sentence, (_, rust, _) in zip(SITUATIONS, said, found)])


def passes(thermal, critical):
    """The worked example: a pass is asked for the voltage that the pass before left across the diode, remembers the one that it left as limited, and leaves its own."""
    left, seen, rows = ('0.0', '0.0'), [], []
    for behind in records(lines_of('savrunte', '--tsv', JOBS))['behind']:
        assert (behind['job'], behind['place']) == (str(len(rows)), '0')
        (asked, memory), taken = left, behind['limited']
        a = Asked(thermal, critical, float(asked), float(memory))
        seen.append(checked(a, 0, float(taken)))
        rows.append([str(len(seen)), asked, memory, f'{a.asked - a.memory:.5f}', seen[-1].words, seen[-1].numbers(a), taken])
        left = behind['across'], behind['limited']
    all_seen(seen, JOBS)
    return table(['pass', 'asked, V', 'memory, V', 'step, V', 'situation', 'formula', 'taken, V'], rows)


def sheet():
    """What a person reads of some of the jobs: the heading, how it ended, and the line BEHIND; of the last one the voltage of node 2."""
    jobs = re.split(r'(?m)^(?=Job )', '\n'.join(lines_of('savrunte', JOBS)))[1:]
    shown = ['\n'.join(line for line in jobs[k].splitlines() if re.match('Job|verdict|BEHIND' + ('|node 2' if k == SHOWN[-1] else ''), line)) for k in SHOWN]
    return ''.join(f'    {line}\n' for line in '\n..\n'.join(shown).splitlines())


def main():
    at_critical = next(a for a in example('diode') if a['taken'] == a['critical'])
    thermal, critical = float(at_critical['thermal']), float(at_critical['critical'])
    tables = numbers(at_critical), situations(), passes(thermal, critical)
    return max(*(compare_table(DOCUMENT, made) for made in tables), compare_lines(DOCUMENT, sheet(), r'    Job .*\n(    .*\n)*'))


if __name__ == '__main__':
    sys.exit(main())
