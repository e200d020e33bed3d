#!/usr/bin/env python3
"""Holds what the program says of a file of spreads against the same jobs run one by one: python3 tools/spreads/check.py [FILE], at the repository's top.

Each sheet is written as a job of its own into a file that ./savrunte --tsv runs; what its records say of the counts, the causes, the smallest, the largest and the means (by exact fractions), the runs
that are not sound with their voltages or rows, and those that did not settle (tools/calls/alone.py) is compared, record by record, with ./savrunte --tsv spreads.
"""
import os
import subprocess
import sys
import tempfile

sys.dont_write_bytecode = True
sys.path.insert(0, os.path.join(os.path.dirname(os.path.abspath(__file__)), '../calls'))
from alone import bare, expected, jobs_of, read  # noqa: E402

path = sys.argv[1] if len(sys.argv) > 1 else 'examples/spreads.jobs'
with open(path, 'rb') as file:
    call = read(file.read())


def records(*arguments):
    """The records that the program writes, each with its kind and its fields by their names."""
    lines = subprocess.run(['./savrunte', '--tsv', *arguments], capture_output=True, text=True, check=True).stdout.splitlines()
    fields = {kind: names for kind, *names in (line[1:].split('\t') for line in lines if line.startswith('#'))}
    return [dict(zip(['kind', *fields[kind]], [kind, *values])) for kind, *values in (line.split('\t') for line in lines if not line.startswith('#'))]


with tempfile.NamedTemporaryFile(suffix='.jobs') as f:
    f.write(jobs_of(call))
    f.flush()
    wanted = expected(call, records(f.name))
given = [bare(record) for record in records('spreads', path) if record['kind'] not in ('format', 'file', 'status')]
for record in [record for record in wanted if record not in given] + [record for record in given if record not in wanted]:
    print('differs:', record)
assert given == wanted
count = {record['kind']: record for record in wanted}
print('%s jobs, %s settled, %s sound: the same records as one by one' % (call.jobs, count['mean']['settled'] if 'mean' in count else 0, count['sound']['sound']))
