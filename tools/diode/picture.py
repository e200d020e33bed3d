#!/usr/bin/env python3
"""Draws docs/diode.svg, the diode's curve and the voltage asked for against the voltage taken, from the shipped code's answers: tools/diode/picture.py [--write]

The numbers come from examples/diode.c over the C door. Each answer's situation is worked out anew (rule.py), and its formula must give the voltage that the shipped code took, up to
the last bits of a logarithm: so a wrong colour shows, but for a small step beside below critical, which take the same voltage. Says whether docs/diode.svg is this picture and ends with 1 where it is not, or where an answer is not what its situation gives; --write puts it there.
"""
import sys
from collections import Counter, namedtuple
from itertools import groupby
from pathlib import Path

sys.dont_write_bytecode = True
sys.path.insert(0, str(Path(__file__).resolve().parents[1]))
from pages import TOP, compare, example  # noqa: E402
from rule import SITUATIONS, Asked, all_seen, checked  # noqa: E402
from svg import FAINT, INK, arrow_head, circle, line, picture, polyline, text  # noqa: E402

WIDTH, HEIGHT = 900, 440
TOP_EDGE, BOTTOM_EDGE = 93.5, 368
PANEL_WIDTH = 366
USUAL = 1e-12  # the saturation current of the diode that is drawn
STEP = 0.84, 1.1  # memory and voltage asked of the step on the diode's curve
MEMORIES = 0.0, 1.2  # of the panel on the right
GREY, BOLD = '#6b6b6b', {'weight': 'bold'}

# a colour and a dash for each situation, in their order: the palette of Okabe and Ito, which colour-blind readers can tell
LOOKS = dict(zip(SITUATIONS, [('#e69f00', ''), ('#0072b2', ''), ('#d55e00', ' stroke-dasharray="9 3"'), ('#cc79a7', ' stroke-dasharray="3 2"'), ('#009e73', ' stroke-dasharray="12 3 3 3"')]))

# one answer of the shipped code, with its situation; the current is the one at the voltage taken
Answer = namedtuple('Answer', 'i_sat thermal critical memory asked taken current situation')


def answers():
    """Those with a model, each checked."""
    for row in example('diode'):
        verdict = int(row.pop('verdict'))
        i_sat, thermal, critical, memory, asked, taken, g, i = map(float, row.values())
        situation = checked(Asked(thermal, critical, asked, memory), verdict, taken)
        if verdict == 0:
            yield Answer(i_sat, thermal, critical, memory, asked, taken, i + g * taken, situation)


class Panel:
    """A field with its axes, from the lowest to the highest of either."""

    def __init__(self, left, x_range, y_range):
        self.left, self.x_range, self.y_range = left, x_range, y_range

    def x(self, value): return self.left + PANEL_WIDTH * (value - self.x_range[0]) / (self.x_range[1] - self.x_range[0])
    def y(self, value): return BOTTOM_EDGE + (TOP_EDGE - BOTTOM_EDGE) * (value - self.y_range[0]) / (self.y_range[1] - self.y_range[0])
    def at(self, x, y): return self.x(x), self.y(y)

    def axes(self, title, more, x_name, x_marks, y_name, y_marks):
        yield text(self.left - 40, 24, title, size=15, weight='bold')
        yield text(self.left - 40, 44, more)
        for value in y_marks:
            yield line(self.left, self.y(value), self.left + PANEL_WIDTH, self.y(value), FAINT)
            yield text(self.left - 8, self.y(value) + 4.5, f'{value:g}', 'end')
        for value in x_marks:
            yield line(self.x(value), TOP_EDGE, self.x(value), BOTTOM_EDGE, FAINT)
            yield text(self.x(value), BOTTOM_EDGE + 20, f'{value:g}', 'middle')
        yield text(self.left - 40, TOP_EDGE - 16, y_name)
        yield text(self.left + PANEL_WIDTH / 2, BOTTOM_EDGE + 44, x_name, 'middle')

    def dotted(self, x, low, high):
        return line(self.x(x), self.y(low), self.x(x), self.y(high), GREY, ' stroke-dasharray="2 3"')

    def words(self, x, y, lines, anchor='start', **more):
        """Lines of words, the first at this place."""
        for k, words in enumerate(lines):
            yield text(self.x(x), self.y(y) + 16 * k, words, anchor, **more)


def diode_curve(of_diode):
    """Current over voltage, one ampere as long as one volt, with one limited step."""
    p = Panel(62, (0.0, 1.4), (0.0, 1.05))
    fifths = [k / 5 for k in range(8)]
    yield from p.axes('The diode’s curve, and one limited step', '1e-12 A at 27 C; one ampere is as long as one volt', 'voltage, V', fifths, 'current, A', fifths[:6])
    points = sorted({(a.taken, a.current) for a in of_diode if a.taken >= 0 and a.current <= p.y_range[1]})
    yield polyline([p.at(*point) for point in points], INK)
    yield from limited_step(p, {(a.memory, a.asked): a for a in of_diode})
    edge = next(a for a in of_diode if a.taken == a.critical)
    yield circle(*p.at(edge.taken, edge.current), GREY)
    yield from p.words(0.77, 0.03, [f'critical: {edge.taken:.3f} V, {edge.current:.3f} A'], 'end', fill=GREY)


def limited_step(p, by_question):
    """From the memory to the voltage asked for, and back to the one taken; and one thermal voltage up from the memory."""
    memory, asked = STEP
    stands, goes, would = by_question[memory, memory], by_question[STEP], by_question[asked, asked]
    up = by_question[memory, memory + stands.thermal]
    (x, y), x_asked = p.at(goes.taken, goes.current), p.x(asked)
    yield p.dotted(asked, 0, goes.current)
    yield line(x + 8, y, x_asked, y, INK, ' stroke-width="1.5"') + arrow_head(x + 8, y, 8, 0)
    yield polyline([p.at(stands.taken, stands.current), p.at(up.taken, stands.current), p.at(up.taken, up.current)], GREY, width=1.5)
    yield circle(*p.at(stands.taken, stands.current), INK) + circle(x, y, LOOKS[goes.situation][0])
    yield from p.words(0.8, 0.12, [f'memory: {memory:.2f} V, {stands.current:.3f} A'], 'end')
    yield from p.words(0.83, 0.36, ['one thermal voltage', f'up, {1000 * stands.thermal:.1f} mV:', f'{up.current / stands.current:.2f} times the current'], 'end')
    yield from p.words(0.88, goes.current + 0.015, [f'taken, by a {goes.situation.words}:', f'{goes.taken:.3f} V, {goes.current:.2f} A'], 'end', **BOLD)
    yield from p.words(0.98, goes.current + 0.18, [f'asked: {asked:.2f} V;', 'there it would', f'carry {would.current:.0f} A'], **BOLD)


def asked_and_taken(of_diode):
    """The five stretches, from a diode that was off and from one that conducts well."""
    p = Panel(508, (-0.5, 2.5), (-0.5, 1.5))
    halves = [k / 2 for k in range(-1, 6)]
    yield from p.axes('Voltage asked for against voltage taken', 'from a memory of 0 V and from one of 1.2 V (the black dots)', 'voltage asked for, V', halves, 'voltage taken, V', halves[:5])
    yield line(*p.at(-0.5, -0.5), *p.at(1.5, 1.5), GREY, ' stroke-dasharray="1 4"')
    critical = of_diode[0].critical
    yield p.dotted(critical, -0.5, 1.5)
    yield from stretches(p, of_diode)
    for memory in MEMORIES:
        yield circle(*p.at(memory, memory), INK, 3.5)
    for x, y, lines, more in [
            (critical + 0.06, -0.3, [f'critical voltage, {critical:.3f} V'], dict(fill=GREY)), (1.57, 1.42, ['passes as asked'], dict(fill=GREY)),
            (0.1, -0.06, ['small step'], BOLD), (1.08, 1.22, ['small step'], BOLD | dict(anchor='end')), (0.3, 0.42, ['below critical'], BOLD | dict(anchor='end')),
            (1.22, 0.77, ['fall back from 1.2 V'], BOLD), (1.5, 1.14, ['climb from 1.2 V'], BOLD), (1.3, 0.2, ['turn-on from 0 V'], BOLD)]:
        yield from p.words(x, y, lines, **more)


def stretches(p, of_diode):
    """Neighbours in the same situation, joined, and the jumps between them, for each memory; the one of 0 V last, since its small step lies where the other is below critical."""
    for memory in sorted(MEMORIES, reverse=True):
        of_memory = sorted((a for a in of_diode if a.memory == memory), key=lambda a: a.asked)
        before = []
        for situation, run in groupby(of_memory, key=lambda a: a.situation):
            points = [p.at(a.asked, a.taken) for a in run]
            yield polyline(before[-1:] + points[:1], GREY, width=1)
            yield polyline(points, *LOOKS[situation], width=4)
            before = points


def main():
    all_answers = list(answers())
    counts = Counter(a.situation for a in all_answers)
    all_seen(counts, 'examples/diode.c')
    print('checked: ' + ', '.join(f'{counts[s]} {s.name}' for s in SITUATIONS))
    of_diode = [a for a in all_answers if a.i_sat == USUAL]
    title = 'A diode: its curve with one limited step, and the voltage asked for against the voltage taken in the five situations'
    return compare(TOP / 'docs' / 'diode.svg', picture(WIDTH, HEIGHT, title, [*diode_curve(of_diode), *asked_and_taken(of_diode)]))


if __name__ == '__main__':
    sys.exit(main())
