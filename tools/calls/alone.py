"""A file of spreads held against the same jobs run one by one (docs/FORMATS.md): the file of jobs that has them, and what the records of that file say the records of the spreads must be.

tools/program and tools/spreads/check.py are the callers. Counts, smallest, largest and mean (by exact fractions), causes, the two voltages of a diode that is behind and the judge's rows are worked out here.
"""
import struct
from collections import namedtuple
from fractions import Fraction

OF_DC = [0, 6, 7, 8, 9, 10, 20, 21, 22, 24]  # the numbers that a DC job can have of its own
REFUSED, BEHIND, REJECTED = 11, 27, 28  # the causes of a settled run that is not sound
HEAD, WORDS = 32, 64  # the words of a head that are known, and the most that there can be

Call = namedtuple('Call', 'jobs nodes sources options sheets points unknown tolerances catchup pattern_first')
Run = namedtuple('Run', 'number place passes cause cause_place value volts')


def filled(b):
    return b + bytes(-len(b) % 8)


def read(content):
    """A file of spreads that can be read."""
    if content[:8] == b'SAVSPRD1':
        head, at = [0, 25, *struct.unpack_from('<23Q', content, 8)], 192
    else:
        n = struct.unpack_from('<Q', content, 8)[0]
        head, at = list(struct.unpack_from(f'<{n}Q', content, 0)), 8 * n
    head += [0] * (WORDS - len(head))
    parts = []
    for size in head[22], head[23], 8 * head[25]:
        parts.append(content[at:at + size])
        at += len(filled(parts[-1]))
    return Call(head[2], head[3], head[4], struct.pack('<17Q', *head[5:22]), parts[0], parts[1], head[24], parts[2], *head[30:32])


def jobs_of(call):
    """The file of jobs with the same sheets, one by one, and a tolerance for each unknown where there are tolerances."""
    n, size = call.nodes + call.sources, len(call.sheets) // call.jobs
    all_jobs = []
    for i in range(call.jobs):
        sheet = call.sheets[i * size:(i + 1) * size]
        lent = struct.pack('<6Q', *[n * (n + 1)] * 3, n, size // 40, 0)
        body = struct.pack('<4Q', HEAD, 0, call.nodes, call.sources) + call.options + struct.pack('<2Q', size, len(call.points)) + lent
        body += struct.pack('<2Q', call.catchup, call.pattern_first) + filled(sheet) + filled(call.points) + call.tolerances[:8 * n]
        all_jobs.append(struct.pack('<Q', len(body) + 8) + body)
    return b'SAVJOBS2' + struct.pack('<3Q', call.jobs, max(map(len, all_jobs)), 0) + b''.join(all_jobs)


def cause_of(ended, judged):
    """The first that holds of a run that was not refused: its verdict, a diode that is behind, what the judge says."""
    if ended['verdict'] != '0':
        return int(ended['verdict']), 0
    if ended['behind'] != '0':
        return BEHIND, int(ended['behind']) - 1
    if judged and judged['answer'] == 'refused':
        return int(judged['number']), 0
    if judged and judged['answer'] == 'rejected':
        return REJECTED, int(judged['row'])
    return 0, 0


def runs_of(call, records):
    """What each job is by itself, from the records of the file of jobs."""
    of, index = ('node', call.unknown) if call.unknown < call.nodes else ('source', call.unknown - call.nodes)
    for k in range(call.jobs):
        mine = {r['kind']: r for r in records if r.get('job') == str(k) and r['kind'] != 'unknown'}
        if 'refused' in mine:
            number, place = int(mine['refused']['number']), int(mine['refused']['place'])
            yield Run(number, place, 0, number, place, '0' * 16, None)
            continue
        ended = mine['ended']
        value = next(r['value_bits'] for r in records if r['kind'] == 'unknown' and (r['job'], r['of'], r['index']) == (str(k), of, str(index)))
        yield Run(int(ended['verdict']), 0, int(ended['passes']), *cause_of(ended, mine.get('judged')), value, mine.get('behind'))


def over(prefix, what, runs):
    """Smallest, largest and mean over these runs, each with its place."""
    if not runs:
        return []
    values = [(struct.unpack('>d', bytes.fromhex(r.value))[0], k) for k, r in runs]
    smallest, largest = min(values, key=lambda v: v[0]), max(values, key=lambda v: v[0])
    mean = float(sum(Fraction(x) for x, _ in values) / len(values))
    found = [{'kind': prefix + name, 'value_bits': struct.pack('>d', x).hex(), 'job': k} for name, (x, k) in (('smallest', smallest), ('largest', largest))]
    return found + [{'kind': prefix + 'mean', 'value_bits': struct.pack('>d', mean).hex(), what: len(values)}]


def expected(call, records):
    """The records of the spreads, by the records of its jobs one by one. What is compared (`bare`): no file's number, no words, and of a float its bits alone."""
    runs = list(runs_of(call, records))
    of, index = ('node', call.unknown) if call.unknown < call.nodes else ('source', call.unknown - call.nodes)
    tolerances = len(call.tolerances) // 8
    found = [{'kind': 'spreads', 'jobs': call.jobs, 'nodes': call.nodes, 'sources': call.sources, 'of': of, 'index': index, 'tolerances': tolerances, 'catchup': call.catchup, 'pattern_first': call.pattern_first}]
    found += [{'kind': 'count', 'number': k, 'jobs': sum(r.number == k for r in runs)} for k in OF_DC]
    found += [{'kind': 'total', 'runs': len(runs), 'jobs': call.jobs}, {'kind': 'sound', 'sound': sum(r.cause == 0 for r in runs), 'jobs': call.jobs}]
    causes = OF_DC + [BEHIND] + [REFUSED, REJECTED] * bool(tolerances)
    found += [{'kind': 'cause', 'cause': k, 'jobs': sum(r.cause == k for r in runs)} for k in sorted(causes)]
    for k, r in enumerate(runs):
        if r.cause in (REFUSED, BEHIND, REJECTED):
            volts = [r.volts['across_bits'], r.volts['limited_bits']] if r.cause == BEHIND else ['0' * 16] * 2
            place, row = (r.cause_place if r.cause == kind else 0 for kind in (BEHIND, REJECTED))
            found.append({'kind': 'not_sound', 'job': k, 'cause': r.cause, 'place': place, 'across_bits': volts[0], 'limited_bits': volts[1], 'row': row})
    found += over('sound_', 'sound', [(k, r) for k, r in enumerate(runs) if r.cause == 0]) + over('', 'settled', [(k, r) for k, r in enumerate(runs) if r.number == 0])
    found += [{'kind': 'not_settled', 'job': k, 'number': r.number, 'place': r.place, 'passes': r.passes} for k, r in enumerate(runs) if r.number != 0]
    found += [{'kind': 'run', 'job': k, 'number': r.number, 'passes': r.passes, 'cause': r.cause, 'place': r.cause_place, 'value_bits': r.value} for k, r in enumerate(runs)]
    return [{name: str(value) for name, value in record.items()} for record in found]


def bare(record):
    return {name: text for name, text in record.items() if name not in ('file', 'meaning') and name + '_bits' not in record}
