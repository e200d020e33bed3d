"""The strokes of the pictures under docs: words and lines as SVG, and the sheet that they stand on."""

INK, FAINT = '#1c1c1c', '#d5d5d5'


def text(x, y, words, anchor='start', fill=INK, size=13, weight='normal'):
    """Words, with a white edge that keeps lines off them."""
    return f'<text x="{x:.1f}" y="{y:.1f}" text-anchor="{anchor}" fill="{fill}" font-size="{size}" font-weight="{weight}" stroke="#ffffff" stroke-width="4" paint-order="stroke">{words}</text>'


def line(x1, y1, x2, y2, stroke, more=''):
    return f'<line x1="{x1:.1f}" y1="{y1:.1f}" x2="{x2:.1f}" y2="{y2:.1f}" stroke="{stroke}"{more}/>'


def polyline(points, stroke, more='', width=2):
    joined = ' '.join(f'{x:.1f},{y:.1f}' for x, y in points)
    return f'<polyline points="{joined}" fill="none" stroke="{stroke}" stroke-width="{width}"{more}/>'


def arrow_head(x, y, back_x, back_y):
    """The head of an arrow whose tip is here and whose shaft comes from there, along an axis."""
    side_x, side_y = abs(back_y) / 2, abs(back_x) / 2
    return f'<path d="M {x + back_x - side_x:.1f} {y + back_y - side_y:.1f} L {x:.1f} {y:.1f} L {x + back_x + side_x:.1f} {y + back_y + side_y:.1f}" fill="none" stroke="{INK}" stroke-width="1.5"/>'


def circle(x, y, fill, r=4.5): return f'<circle cx="{x:.1f}" cy="{y:.1f}" r="{r}" fill="{fill}"/>'
def square(x, y, fill): return f'<rect x="{x - 4:.1f}" y="{y - 4:.1f}" width="8" height="8" fill="{fill}"/>'


def picture(width, height, title, strokes):
    """The strokes on a white sheet, as the text of a file."""
    head = [f'<svg xmlns="http://www.w3.org/2000/svg" viewBox="0 0 {width} {height}" width="{width}" height="{height}" font-family="Helvetica, Arial, sans-serif">',
            f'<title>{title}</title>', f'<rect width="{width}" height="{height}" fill="#ffffff"/>']
    return '\n'.join([*head, *strokes, '</svg>']) + '\n'
