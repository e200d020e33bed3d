#!/usr/bin/env python3
"""Draws docs/settling.svg, one diode pass by pass without and with the option, from the shipped code's answers: tools/settling/picture.py [--write]

The numbers come from examples/one_diode.c over the C door. Says whether docs/settling.svg is this picture and ends with 1 where it is not; --write puts it there.
"""
import sys
from pathlib import Path

sys.dont_write_bytecode = True
sys.path.insert(0, str(Path(__file__).resolve().parents[1]))
from pages import TOP, compare, example  # noqa: E402
from svg import FAINT, INK, arrow_head, circle, line, picture, polyline, square, text  # noqa: E402

WIDTH, HEIGHT = 900, 430
TOP_EDGE, BOTTOM_EDGE = 112, 370  # of both panels: 5 V and 0 V
PANELS = [(62, 'Option off: the run ends after pass %d'), (502, 'Option on: the run ends after pass %d')]  # left edges, titles
PANEL_WIDTH, PASSES, VOLTS = 366, 7, 5
ACROSS, LIMITED = '#0b5fa5', '#c4500b'


def runs():
    """For the option off and on: (voltage across, limited voltage) after each pass, and whether the diode is behind in the end."""
    rows = example('one_diode')
    for catchup in '01':
        of_run = [row for row in rows if row['catchup'] == catchup]
        assert [row['verdict'] for row in of_run] == ['20'] * (len(of_run) - 1) + ['0']
        yield [(float(row['across']), float(row['limited'])) for row in of_run], of_run[-1]['behind'] != '0'


class Panel:
    """Volts over passes."""

    def __init__(self, left):
        self.left = left

    def x(self, number): return self.left + PANEL_WIDTH * (number - 0.5) / PASSES
    def y(self, volts): return BOTTOM_EDGE + (TOP_EDGE - BOTTOM_EDGE) * volts / VOLTS

    def axes(self, title):
        yield text(self.left, TOP_EDGE - 26, title, size=15, weight='bold')
        for volts in range(VOLTS + 1):
            yield line(self.left, self.y(volts), self.left + PANEL_WIDTH, self.y(volts), FAINT)
            yield text(self.left - 8, self.y(volts) + 4.5, f'{volts} V', 'end')
        for number in range(1, PASSES + 1):
            yield text(self.x(number), BOTTOM_EDGE + 32, str(number), 'middle')
        yield text(self.left + PANEL_WIDTH / 2, BOTTOM_EDGE + 50, 'pass', 'middle')

    def curve(self, values, stroke, mark, below, dash=''):
        """Points, joined, with their values so far below them; beside them where the curve comes down steeply."""
        at = [(self.x(i + 1), self.y(v)) for i, v in enumerate(values)]
        yield polyline(at, stroke, dash)
        before = values[0]
        for (x, y), volts in zip(at, values):
            steep = before - volts > 1
            yield text(x + 7 * steep, y + below - 6 * steep, f'{volts:.3f}', 'start' if steep else 'middle', stroke, 12)
            yield mark(x, y, stroke)
            before = volts

    def gap(self, number, across, limited):
        """An arrow with two heads from the limited voltage to the one across."""
        x, low, high = self.x(number), self.y(limited) - 8, self.y(across) + 8
        yield line(x, low, x, high, INK, ' stroke-width="1.5" stroke-dasharray="2 3"')
        for tip, back in (high, 8), (low, -8):
            yield arrow_head(x, tip, 0, back)

    def words(self, x, y, lines):
        for k, (words, weight) in enumerate(lines):
            yield text(x, y + 17 * k, words, size=14, weight=weight)


def legend():
    yield text(62, 30, '5 V through 1 kOhm into a diode, pass by pass. RELTOL 1e-3, VNTOL = ABSTOL = 1e-6.', size=15)
    yield line(62, 53, 92, 53, ACROSS, ' stroke-width="2"') + circle(77, 53, ACROSS)
    yield text(100, 57.5, 'voltage across the diode, in the vector just solved', fill=ACROSS)
    yield line(502, 53, 532, 53, LIMITED, ' stroke-width="2" stroke-dasharray="6 4"') + square(517, 53, LIMITED)
    yield text(540, 57.5, 'limited voltage, for which the diode was computed', fill=LIMITED)


def drawn(off, on):
    yield from legend()
    for (left, title), (values, behind) in zip(PANELS, (off, on)):
        panel, last = Panel(left), len(values)
        across, limited = values[-1]
        yield from panel.axes(title % last)
        yield from panel.curve([v for v, _ in values], ACROSS, circle, -9)
        yield from panel.curve([v for _, v in values], LIMITED, square, 19, ' stroke-dasharray="6 4"')
        says = [('Ends as settled', 'bold'), (f'at {across:.5f} V.', 'bold')]
        if behind:
            yield from panel.gap(last, across, limited)
            says += [('The last two vectors agree.', 'normal'), ('But the diode was computed', 'normal'), (f'for {limited:.3f} V: it is behind.', 'normal')]
            yield from panel.words(panel.x(last) + 18, panel.y(3) - 40, says)
        else:
            says += [('The run goes on while', 'normal'), ('the diode is behind.', 'normal'), ('Here it has caught up.', 'normal')]
            yield from panel.words(panel.left + 8, panel.y(3) - 40, says)


if __name__ == '__main__':
    title = 'One diode, pass by pass: without the option the run ends while the diode is behind'
    sys.exit(compare(TOP / 'docs' / 'settling.svg', picture(WIDTH, HEIGHT, title, drawn(*runs()))))
