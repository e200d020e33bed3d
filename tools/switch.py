#!/usr/bin/env python3
"""Switches options in a file of jobs or of spreads: tools/switch.py OPTION=NUMBER .. FROM TO, where OPTION is catchup or pattern_first, and NUMBER is 0 for off and anything else for on.

TO gets the same jobs with these options, in form 2 whatever form FROM has (docs/FORMATS.md). Nothing else in a job changes.
"""
import struct
import sys

JOB, SPREADS = 29, 24  # words of the heads of form 1
OPTIONS = {'catchup': 30, 'pattern_first': 31}  # their words in a head of form 2
KNOWN = 32


def with_head(data, form, old, changed, first=None):
    """What begins with a head of this form, which has `old` words in form 1, with a head of form 2 that has these words."""
    count = old if form == 1 else struct.unpack_from('<Q', data, 8)[0]
    words, rest = struct.unpack_from(f'<{count}Q', data)[form:], data[8 * count:]
    head = [0, KNOWN, *words] + [0] * (KNOWN - 2 - len(words))
    if any(head[KNOWN:]):
        sys.exit('switch.py: a head has a word that is not known')
    for place, word in changed.items():
        head[place] = word
    return (first or struct.pack('<Q', 8 * KNOWN + len(rest))) + struct.pack(f'<{KNOWN - 1}Q', *head[1:KNOWN]) + rest


def switched(data, **options):
    """The file's bytes with these options."""
    changed = {OPTIONS[name]: int(word) for name, word in options.items()}
    holds, form = data[:7], {b'1': 1, b'2': 2}.get(data[7:8])
    if form and holds == b'SAVSPRD':
        return with_head(data, form, SPREADS, changed, first=b'SAVSPRD2')
    if not form or holds != b'SAVJOBS':
        sys.exit('switch.py: this is no file of jobs or of spreads')
    at, jobs = 32, []
    for _ in range(struct.unpack_from('<Q', data, 8)[0]):
        size = struct.unpack_from('<Q', data, at)[0]
        jobs.append(with_head(data[at:at + size], form, JOB, changed))
        at += size
    return b'SAVJOBS2' + struct.pack('<3Q', len(jobs), max(map(len, jobs), default=0), 0) + b''.join(jobs)


if __name__ == '__main__':
    *asked, source, target = sys.argv[1:] if len(sys.argv) > 3 else sys.exit(__doc__)
    pairs = dict(word.partition('=')[::2] for word in asked)
    if not pairs.keys() <= OPTIONS.keys() or not all(word.isdigit() and int(word) < 2**64 for word in pairs.values()):
        sys.exit(__doc__)
    with open(source, 'rb') as f:
        made = switched(f.read(), **pairs)
    with open(target, 'wb') as f:
        f.write(made)
