#!/usr/bin/env python3
"""Makes the jobs and answers that crates/sheet_replay replays: make_jobs.py OUT

Sheets sound and damaged, with the refusal and the place that the rules give for each. The answers come from the rules' text alone
(the element sheet; refusals 2, 3 and 6 to 10) and from nothing of the proved code. No random numbers: the same file each time. Jobs with
inductors stand at the end, but for the two that try every kind byte.

Format, all numbers little-endian: a 32-bit count of jobs; for each job six 32-bit numbers (bytes in the sheet, nodes, sources, bytes in
the points, refusal or 0, place or 0) and the sheet's bytes.
"""
import itertools
import struct
import sys

RECORD, MOST_RECORDS, POINT, MOST_POINTS = 40, 256, 16, 1024
INDUCTOR = 11

# kind: floats, control nodes?, source number?, points?
KINDS = {
    1: (1, False, False, False),   # R value
    2: (1, False, False, False),   # I value
    3: (1, False, True, False),    # V value, source
    4: (2, False, False, False),   # D i_sat, tdegc
    5: (3, False, False, False),   # Isin vo, va, freq
    6: (3, False, True, False),    # Vsin the same, source
    7: (2, False, True, True),     # Vpwl t_delay, repeat, points, source
    8: (1, False, False, False),   # C value
    9: (1, True, True, False),     # Vcvs k, controls, source
    10: (1, True, False, False),   # Vccs k, controls
    11: (1, False, True, False),   # L henries, source
}
SOURCED = [kind for kind in KINDS if KINDS[kind][2]]
WITHOUT = [kind for kind in KINDS if kind != INDUCTOR]
UNKNOWN = 13


def used_bytes(kind):
    """The places that a kind uses: its kind byte, two nodes, and what its line of the list names."""
    floats, controls, source, points = KINDS[kind]
    used = {0, 2, 3, 4, 5}
    used.update(range(6, 10) if controls else ())
    used.update(range(10, 12) if source else ())
    used.update(range(12, 16) if points else ())
    used.update(range(16, 16 + 8 * floats))
    return used


def record_refusal(r, nodes, sources, points, inductors, numbers):
    """The lowest of 6 to 10 that a record meets, or 0; of the records before it, the inductors' source numbers and all source numbers."""
    kind = r[0]
    if kind not in KINDS:
        return 6
    if any(r[at] for at in range(RECORD) if at not in used_bytes(kind)):
        return 7
    _, controls, source, has_points = KINDS[kind]
    first, second, control1, control2, number, start, count = struct.unpack_from('<7H', r, 2)
    if any(node >= nodes for node in (first, second) + ((control1, control2) if controls else ())):
        return 8
    if source and (number >= sources or number in inductors or kind == INDUCTOR and number in numbers):
        return 9
    if has_points and start + count > points:
        return 10
    return 0


def refusal(sheet, nodes, sources, points_bytes):
    """Refusals 2, 3 and 6 to 10 in their order: number and place."""
    if len(sheet) % RECORD or len(sheet) // RECORD > MOST_RECORDS:
        return 2, 0
    if points_bytes % POINT or points_bytes // POINT > MOST_POINTS:
        return 3, 0
    inductors, numbers = set(), set()
    for place in range(len(sheet) // RECORD):
        r = sheet[RECORD * place:RECORD * (place + 1)]
        number = record_refusal(r, nodes, sources, points_bytes // POINT, inductors, numbers)
        if number:
            return number, place
        if r[0] in SOURCED:
            numbers.add(struct.unpack_from('<H', r, 10)[0])
        if r[0] == INDUCTOR:
            inductors.add(struct.unpack_from('<H', r, 10)[0])
    return 0, 0


def record(kind, first=0, second=0, control1=0, control2=0, source=0, start=0, count=0, floats=(1.0, 2.0, 3.0)):
    """A record with the fields that its kind uses; an unknown kind gets every field."""
    n, controls, sourced, points = KINDS.get(kind, (3, True, True, True))
    if not controls:
        control1 = control2 = 0
    if not sourced:
        source = 0
    if not points:
        start = count = 0
    words = struct.pack('<BB7H', kind, 0, first, second, control1, control2, source, start, count)
    return words + b''.join(struct.pack('<d', x) for x in floats[:n]) + bytes(8 * (3 - n))


def put(r, at, value):
    return r[:at] + bytes([value]) + r[at + 1:]


WIDE = (70000, 70000, POINT * MOST_POINTS)   # counts that no 16-bit number reaches
FAULTS = {6: record(UNKNOWN), 7: put(record(1), 1, 1), 8: record(1, 9), 9: record(3, source=9), 10: record(7, count=9)}
GOOD = record(2, 1, 2)


def odd_floats(kind):
    """Floats of odd bits, wherever the kind has one."""
    for bits in (0, 1, 0x8000000000000000, 0x7ff0000000000000, 0x7ff0000000000001, 0x7ff8000000000000, 0xffffffffffffffff):
        yield record(kind, 1, 2)[:16] + struct.pack('<Q', bits) * KINDS[kind][0] + bytes(8 * (3 - KINDS[kind][0])), 3, 1 if KINDS[kind][2] else 0, 0


def one_byte(kind):
    """Every byte of a kind, one at a time."""
    for at in range(1, RECORD):
        for value in (1, 0x80):
            yield put(record(kind, floats=(0.0, 0.0, 0.0)), at, value), *WIDE


def node_edges(kind):
    """Every node of a kind at the edge, for counts from none to many."""
    for name in ('first', 'second', 'control1', 'control2'):
        for nodes in (0, 1, 2, 48, 256, 65535, 65536):
            for node in sorted({max(nodes - 1, 0), min(nodes, 65535), 65535}):
                yield record(kind, **{name: node}), nodes, 1, 0


def source_edges(kind):
    """The source number of a kind at the edge."""
    for sources in (0, 1, 2, 47, 256, 65535, 65536):
        for source in sorted({max(sources - 1, 0), min(sources, 65535), 65535}):
            yield record(kind, source=source), 1, sources, 0


def fault_sets(kind):
    """The order within a record: every set of faults that a kind can have."""
    for dirty, node, control, source, points in itertools.product((False, True), repeat=5):
        r = record(kind, first=9 * node, control2=9 * control, source=9 * source, count=9 * points)
        yield (put(r, 1, 1) if dirty else r), 9, 9, 8 * POINT


def jobs():
    # sound: each kind alone, all of them together, none at all, floats of odd bits
    for kind in WITHOUT:
        yield record(kind), 1, 1, 0
        yield record(kind, 1, 2, 3, 4, 5, 6, 7), 5, 6, 13 * POINT
    yield b''.join(record(kind, 1, 2, 1, 2, 3, 4, 5) for kind in WITHOUT), 3, 4, 9 * POINT
    yield b'', 0, 0, 0
    yield b'', 48, 0, 16
    yield from odd_floats(5)
    # every kind byte, with the rest clean and with the rest dirty
    for kind in range(256):
        yield put(record(1), 0, kind), 1, 1, 0
        yield bytes([kind]) + b'\xff' * 39, 1, 1, 0
    # every byte, node and source number of every kind
    for kind in WITHOUT:
        yield from one_byte(kind)
    for kind in WITHOUT:
        yield from node_edges(kind)
    for kind in WITHOUT:
        yield from source_edges(kind)
    # ranges of points at the edge; sums beyond 16 bits
    for points in (0, 1, 2, 1023, 1024):
        for start in sorted({0, 1, max(points - 1, 0), points, points + 1, 65535}):
            for count in sorted({0, 1, max(points - start, 0), max(points - start, 0) + 1, 65536 - max(start, 1), 65535}):
                yield record(7, start=start, count=count), 1, 1, points * POINT
    # the order within a record
    for kind in WITHOUT + [0, UNKNOWN, 255]:
        yield from fault_sets(kind)
    # the first faulty record: two faults in one sheet, and a fault in the last place
    for a, b in itertools.product(FAULTS.values(), repeat=2):
        yield GOOD + a + b + GOOD, 9, 9, 8 * POINT
        yield a + GOOD + GOOD + b, 9, 9, 8 * POINT
    for r in FAULTS.values():
        yield GOOD * 6 + r, 9, 9, 8 * POINT
    # lengths about each boundary
    for size in (1, 2, 39, 40, 41, 79, 80, 81, 119, 120):
        yield (GOOD * 3)[:size], 9, 9, 0
        yield bytes(size), 9, 9, 0
    for size in (RECORD * MOST_RECORDS - 1, RECORD * MOST_RECORDS, RECORD * MOST_RECORDS + 1, RECORD * (MOST_RECORDS + 1) - 1, RECORD * (MOST_RECORDS + 1)):
        yield (GOOD * (MOST_RECORDS + 1))[:size], 9, 9, 0
    yield GOOD * (MOST_RECORDS - 1) + FAULTS[8], 9, 9, 0
    yield GOOD * MOST_RECORDS + FAULTS[6], 9, 9, 0
    yield FAULTS[6] + GOOD * MOST_RECORDS, 9, 9, 0
    for size in (1, 8, 15, 16, 17, 24, 31, 32, 33, POINT * MOST_POINTS - 1, POINT * MOST_POINTS, POINT * MOST_POINTS + 1, POINT * (MOST_POINTS + 1)):
        yield GOOD, 9, 9, size
        yield FAULTS[10], 9, 9, size
        yield GOOD[:39], 9, 9, size
    yield from inductor_jobs()


def inductor_jobs():
    """Inductors by themselves, and the source numbers that they share."""
    yield record(INDUCTOR), 1, 1, 0
    yield record(INDUCTOR, 1, 2, source=5), 3, 6, 0
    yield b''.join(record(kind, 1, 2, 1, 2, 2 if kind == INDUCTOR else 3, 4, 5) for kind in KINDS), 3, 4, 9 * POINT
    for part in (odd_floats, one_byte, node_edges, source_edges, fault_sets):
        yield from part(INDUCTOR)
    # two records of every two kinds, with the same source number and with two
    for a, b in itertools.product(KINDS, repeat=2):
        for s, t in itertools.product((0, 1), repeat=2):
            yield record(a, 1, 2, 1, 2, s) + record(b, 2, 1, 2, 1, t), 3, 2, 0
    # three records: who shares with whom, and which of them is an inductor
    three = [record(INDUCTOR, 1, 2, source=0), record(INDUCTOR, 1, 2, source=1), record(3, 1, 2, source=0), record(3, 2, 1, source=1), record(9, 1, 2, 2, 1, 0), record(1, 1, 2)]
    for sheet in itertools.product(three, repeat=3):
        yield b''.join(sheet), 3, 2, 0
    # source numbers that agree in one byte only
    for s, t in itertools.product((0, 1, 255, 256, 257, 65280, 65535), repeat=2):
        yield record(INDUCTOR, source=s) + record(6, source=t), *WIDE
        yield record(7, source=s) + record(INDUCTOR, source=t), *WIDE
    # the order within a record that shares: every set of faults beside it, with a source number of its own, the inductor's, and one too high
    for kind in SOURCED:
        _, controls, _, points = KINDS[kind]
        for dirty, node, control, point in itertools.product((False, True), (False, True), (False, True)[:1 + controls], (False, True)[:1 + points]):
            for source in (1, 2, 9):
                r = record(kind, first=9 * node, control2=9 * control, source=source, count=9 * point)
                yield record(INDUCTOR, source=2) + GOOD + (put(r, 1, 1) if dirty else r), 9, 9, 8 * POINT
    for source in (2, 9):
        for fault in (record(INDUCTOR, source=source), record(INDUCTOR, 9, source=source), put(record(INDUCTOR, source=source), 1, 1)):
            yield record(3, source=2) + GOOD + fault, 9, 9, 0
    # a faulty record before two that share, between them and after them
    first, second = record(INDUCTOR, source=2), record(3, source=2)
    for r in FAULTS.values():
        yield r + first + second, 9, 9, 8 * POINT
        yield first + r + second, 9, 9, 8 * POINT
        yield first + second + r, 9, 9, 8 * POINT
    # many inductors, and one record more that shares with one of them
    many = [record(INDUCTOR, 1, 2, source=n) for n in range(47)]
    yield b''.join(many), 3, 47, 0
    yield b''.join(reversed(many)), 3, 47, 0
    for kind, n in itertools.product(SOURCED, (0, 6, 12)):
        yield b''.join(many[:13]) + record(kind, source=n), 3, 47, 0
        yield b''.join(many[:n] + many[n + 1:13]) + record(kind, source=n), 3, 47, 0
    # sources that share, and an inductor after them or among them
    yield second * 40 + first, 9, 9, 0
    yield second * 40 + record(INDUCTOR, source=3) + second * 40, 9, 9, 0
    yield second * 40 + record(INDUCTOR, source=3) + second * 40 + record(6, source=3), 9, 9, 0
    # records far apart
    far = GOOD * (MOST_RECORDS - 2)
    yield first + far + second, 9, 9, 0
    yield second + far + first, 9, 9, 0
    yield first + far + record(3, source=1), 9, 9, 0
    yield b''.join(record(INDUCTOR, source=n) for n in range(MOST_RECORDS)), *WIDE
    yield b''.join(record(INDUCTOR, source=n % (MOST_RECORDS - 1)) for n in range(MOST_RECORDS)), *WIDE


def main():
    out = [(job, refusal(*job)) for job in jobs()]
    with open(sys.argv[1], 'wb') as f:
        f.write(struct.pack('<I', len(out)))
        for (sheet, nodes, sources, points), (number, place) in out:
            f.write(struct.pack('<6I', len(sheet), nodes, sources, points, number, place) + sheet)
    counts = {}
    for _, (number, _) in out:
        counts[number] = counts.get(number, 0) + 1
    print(len(out), 'jobs;', ', '.join(f'{k}: {v}' for k, v in sorted(counts.items())))


main()
