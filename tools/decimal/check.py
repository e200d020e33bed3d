#!/usr/bin/env python3
"""Compares the program's decimal text with Python's shortest repr and with the bits beside it: tools/decimal/check.py [SEED [JOBS]].

Each job has 23 voltage sources of random bits (every exponent, subnormals, ties, whole numbers) to ground, so that every unknown is such a float.
"""
import os, random, struct, subprocess, sys, tempfile

top = os.path.dirname(os.path.dirname(os.path.dirname(os.path.abspath(__file__))))
random.seed(int(sys.argv[1]) if len(sys.argv) > 1 else 1)
jobs = int(sys.argv[2]) if len(sys.argv) > 2 else 80


def any_float():
    k = random.randrange(6)
    if k == 0: bits = random.getrandbits(64)
    elif k == 1: bits = random.randrange(2047) << 52 | random.choice([0, 1, 2**51, 2**52 - 1])
    elif k == 2: bits = random.getrandbits(random.randrange(1, 53))
    elif k == 3: return float(random.randint(1, 10 ** random.randint(1, 22)))
    elif k == 4: return random.randint(2**50, 2**53) / 4
    else: return random.randint(1, 10**9) / 10 ** random.randint(0, 12)
    x = struct.unpack('<d', struct.pack('<Q', bits))[0]
    return x if x == x and abs(x) != float('inf') else 0.1


def job():
    nodes = sources = 24
    n = nodes + sources
    sheet = b''.join(struct.pack('<BBHHHHHHH3d', 3, 0, k + 1, 0, 0, 0, k, 0, 0, any_float(), 0.0, 0.0) for k in range(23))
    body = struct.pack('<QQQ', 0, nodes, sources) + struct.pack('<13d', *[1e-3, 1e-6, 1e-6] + [1.0] * 10)
    body += struct.pack('<4Q', 0, 0, 0, 10) + struct.pack('<2Q', len(sheet), 0)
    body += struct.pack('<6Q', n * (n + 1), n * (n + 1), n * (n + 1), n, 23, 0) + sheet
    return struct.pack('<Q', len(body) + 8) + body


def expected(x):
    r = repr(x)
    if r == 'nan': return 'NaN'
    if 'e' in r:
        digits, power = r.split('e')
        return '%se%d' % (digits, int(power))
    return r


with tempfile.NamedTemporaryFile(suffix='.jobs') as f:
    all_jobs = [job() for _ in range(jobs)]
    f.write(b'SAVJOBS1' + struct.pack('<3Q', jobs, max(map(len, all_jobs)), 0) + b''.join(all_jobs))
    f.flush()
    lines = subprocess.run([os.path.join(top, 'savrunte'), '--tsv', f.name], stdout=subprocess.PIPE, check=True).stdout.decode().splitlines()
fields = next(line for line in lines if line.startswith('#unknown\t')).split('\t')
count = wrong = 0
seen = set()
for line in lines:
    record = dict(zip(fields, line.split('\t')))
    if record['#unknown'] != 'unknown': continue
    text, bits = record['value'], int(record['value_bits'], 16)
    x = struct.unpack('<d', struct.pack('<Q', bits))[0]
    count += 1
    seen.add(bits)
    if text != expected(x):
        wrong += 1
        print('differs:', text, expected(x), hex(bits))
print(count, 'floats,', len(seen), 'of them different;', wrong, 'texts differ from the shortest that reads back')
sys.exit(1 if wrong or not count else 0)
