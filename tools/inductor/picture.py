#!/usr/bin/env python3
"""Draws docs/inductor.svg, the two step responses of examples/inductor.c at a long and at a shorter step beside their closed forms, from the shipped code's answers: tools/inductor/picture.py [--write]

The numbers come from examples/inductor.c over the C door, the closed forms from examples/inductor.py. Says whether docs/inductor.svg is this picture and ends with 1 where it is not, or where the current in an inductor's memory is not the one
through its resistor; --write puts it there.
"""
import sys
from pathlib import Path

sys.dont_write_bytecode = True
sys.path.insert(0, str(Path(__file__).resolve().parents[1]))
from pages import TOP, compare, example  # noqa: E402
from runs import circuits, seconds  # noqa: E402
from svg import FAINT, INK, circle, line, picture, polyline, text  # noqa: E402

WIDTH, HEIGHT = 900, 420
TOP_EDGE, BOTTOM_EDGE = 92.5, 350
PANEL_WIDTH = 366
LONG, SHORT = '#c4500b', '#0b5fa5'
FINE = 200  # points of a closed form
# how far the memory may be from the current of the volt: both are rounded, each in its own way
ROUNDED = 1e-15


class Panel:
    """A field with its axes from 0 on."""

    def __init__(self, left, x_end, y_end):
        self.left, self.x_end, self.y_end = left, x_end, y_end

    def at(self, x, y): return self.left + PANEL_WIDTH * x / self.x_end, BOTTOM_EDGE + (TOP_EDGE - BOTTOM_EDGE) * y / self.y_end

    def axes(self, title, more, x_name, x_marks, x_unit, y_name, y_marks):
        yield text(self.left - 40, 24, title, size=15, weight='bold')
        yield text(self.left - 40, 44, more)
        for value in y_marks:
            _, y = self.at(0, value)
            yield line(self.left, y, self.left + PANEL_WIDTH, y, FAINT)
            yield text(self.left - 8, y + 4.5, f'{value:g}', 'end')
        for value in x_marks:
            x, _ = self.at(value * x_unit, 0)
            yield line(x, TOP_EDGE, x, BOTTOM_EDGE, FAINT)
            yield text(x, BOTTOM_EDGE + 20, f'{value:g}', 'middle')
        yield text(self.left - 40, TOP_EDGE - 16, y_name)
        yield text(self.left + PANEL_WIDTH / 2, BOTTOM_EDGE + 44, x_name, 'middle')

    def curve(self, points, stroke, dots, words, x, y):
        """Points, joined, each with a dot where it is a step to be seen; the words for it at this place, behind a piece of the same."""
        left, low = self.at(x, y)
        shown = [self.at(*point) for point in points]
        yield polyline(shown, stroke, width=1 if dots else 1.5) + line(left - 38, low - 4.5, left - 8, low - 4.5, stroke, ' stroke-width="1.5"')
        for place in [*shown, (left - 23, low - 4.5)] * dots:
            yield circle(*place, stroke, 2.5)
        yield text(left, low, words, fill=stroke)

    def curves(self, circuit, which, field, of_runs, x, y, between):
        """The closed form, then the runs: the longest step with its dots. Their words stand from this place down."""
        times = [self.x_end * k / FINE for k in range(FINE + 1)]
        yield from self.curve([(t, circuits.exact(circuit, t)[which]) for t in times], INK, False, 'closed form', x, y - 2 * between)
        for k, (of_run, stroke) in reversed(list(enumerate(zip(of_runs, (LONG, SHORT))))):
            yield from self.curve([(0, 0)] + [(r['time'], r[field]) for r in of_run], stroke, k == 0, f'steps of {seconds(of_run[0]["step"])}', x, y - k * between)


def runs():
    """Of each circuit its runs, the longest step first, each a list of answers. The memory must be the current of the volt."""
    found = {}
    for row in example('inductor'):
        numbers = {name: float(x) for name, x in row.items() if name != 'circuit'}
        if not abs(numbers['memory'] - numbers['current']) <= ROUNDED:
            sys.exit(f'differs: {row}: the memory is not the current')
        found.setdefault((row['circuit'], numbers['step']), []).append(numbers)
    for circuit in circuits.CIRCUITS:
        yield circuit, [found[key] for key in sorted(found, key=lambda key: -key[1]) if key[0] == circuit.name]


def drawn():
    (rl, rl_runs), (rlc, rlc_runs) = runs()
    p = Panel(62, 0.02, 0.55)
    yield from p.axes('The current of an inductor', f'1 V comes on across {rl.ohm:g} ohm and {circuits.HENRY * 1e3:g} mH', 'time, ms', range(0, 21, 5), 1e-3, 'current in its memory, A', [k / 10 for k in range(6)])
    yield from p.curves(rl, 0, 'memory', rl_runs, 0.0125, 0.16, 0.04)
    p = Panel(508, 1.6e-3, 1.65)
    yield from p.axes('The capacitor behind it', f'1 V comes on across {rlc.ohm:g} ohm, {circuits.HENRY * 1e3:g} mH and {circuits.FARAD * 1e6:g} uF', 'time, ms', [0, 0.4, 0.8, 1.2, 1.6], 1e-3, 'voltage, V', [0, 0.5, 1, 1.5])
    yield from p.curves(rlc, 1, 'volts', rlc_runs, 1e-3, 0.48, 0.12)


def main():
    title = 'Step responses of an inductor with a resistor and with a capacitor, at two steps each, beside the closed form'
    return compare(TOP / 'docs' / 'inductor.svg', picture(WIDTH, HEIGHT, title, drawn()))


if __name__ == '__main__':
    sys.exit(main())
