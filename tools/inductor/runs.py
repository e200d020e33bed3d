"""What the scripts beside this one share: examples/inductor.py with its circuits and closed forms, the page that they write, and how a step and a small number are written."""
import sys
from pathlib import Path

sys.path[:0] = [str(Path(__file__).resolve().parents[1]), str(Path(__file__).resolve().parents[2] / 'examples')]
import inductor as circuits  # noqa: E402,F401
from pages import TOP  # noqa: E402

DOCUMENT = TOP / 'docs' / 'INDUCTORS.md'


def seconds(step):
    """A step in the unit that makes it a short number."""
    return f'{step * 1e3:g} ms' if step > 5e-5 else f'{step * 1e6:g} us'


def short(x, digits=2):
    """A small number, with its exponent as it is written by hand."""
    mantissa, exponent = f'{x:.{digits}e}'.split('e')
    return f'{mantissa}e{int(exponent)}'
