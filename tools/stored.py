"""What a replay program is fed with and should print: its file in data/ and its stdout. A tool writes them, or with --check says whether they are what it would write.

A float is handled as its 64 bits, so that NaN, infinities and both zeros come through unchanged.
"""
import struct
import sys
from pathlib import Path

CRATES = Path(__file__).resolve().parents[1] / "crates"


def float_of(bits):
    return struct.unpack("<d", struct.pack("<Q", bits))[0]


def bits_of(x):
    return struct.unpack("<Q", struct.pack("<d", x))[0]


def store(crate, name, data, stdout):
    top = CRATES / crate
    files = {top / "data" / name: data, top / "stdout": stdout.encode()}
    if sys.argv[1:] == ["--check"]:
        same = all(p.exists() and p.read_bytes() == b for p, b in files.items())
        print("same" if same else "differs")
        sys.exit(0 if same else 1)
    for p, b in files.items():
        p.parent.mkdir(parents=True, exist_ok=True)
        p.write_bytes(b)
    print(stdout, end="")
