"""Diodes that are behind (docs/FORMATS.md), held against the file of jobs: the record is a diode, the voltage across it is that of the vector in the records, and it is not within tolerance of the last limited one.

tools/program is the caller. The memory of a run is in no record, so that a job without a diode behind is not looked at here.
"""
import struct

DIODE = 4


def jobs_in(content):
    """(RELTOL, VNTOL, sheet) of each job of a file that can be read."""
    form, count, at = int(content[7:8]), struct.unpack_from('<Q', content, 8)[0], 32
    for _ in range(count):
        size = struct.unpack_from('<Q', content, at)[0]
        words = struct.unpack_from('<Q', content, at + 8)[0] if form == 2 else 29
        head = list(struct.unpack_from(f'<{words}Q', content, at))
        head = head if form == 2 else head[:1] + [30] + head[1:]
        head += [0] * (64 - len(head))
        reltol, vntol = struct.unpack('<2d', struct.pack('<2Q', *head[5:7]))
        yield reltol, vntol, content[at + 8 * words:at + 8 * words + head[22]]
        at += size


def behind(v, y, reltol, vntol):
    """Whether a diode with the voltage v across it is behind the last limited one: asked by "not at most", so that a NaN is."""
    return not abs(v - y) <= abs(v) * reltol + vntol


def told_wrong(content, part):
    """Of the records of a file of jobs, what is said of diodes that is not so."""
    def float_of(bits): return struct.unpack('>d', bytes.fromhex(bits))[0]
    jobs = list(jobs_in(content))
    for r in (r for r in part if r['kind'] == 'behind'):
        reltol, vntol, sheet = jobs[int(r['job'])]
        kind, _, p, n = struct.unpack_from('<2B2H', sheet, 40 * int(r['place']))
        vector = [float_of(u['value_bits']) for u in part if u['kind'] == 'unknown' and u['job'] == r['job']]
        across, limited = float_of(r['across_bits']), float_of(r['limited_bits'])
        if kind != DIODE:
            yield f'{r}: record of kind {kind}'
        elif struct.pack('>d', vector[p] - vector[n]) != struct.pack('>d', across) and across == across:
            yield f'{r}: {vector[p] - vector[n]} across the diode'
        elif not behind(across, limited, reltol, vntol):
            yield f'{r}: it has caught up'
