"""Plots as SVG, with nothing but text: points and lines over two axes, or bars."""
import math
from xml.sax.saxutils import escape

COLOURS = ["#1b6ca8", "#d1495b", "#2e8b57", "#8a5a9e", "#e08e0b", "#555555", "#17a2a2", "#9c6b30"]
MARKS = ["circle", "square", "diamond", "triangle", "cross", "circle", "square", "diamond"]
WIDTH, HEIGHT, LEFT, RIGHT, TOP, BOTTOM = 820, 420, 80, 240, 44, 56


def nice(value):
    return f"{value:,.0f}" if value >= 100 or value == int(value) else f"{value:g}"


class Axis:
    """From values to pixels, linear from 0 or by powers of ten."""

    def __init__(self, values, low, high, powers=False):
        self.powers, self.low, self.high = powers, low, high
        top = max(values) or 1
        if powers:
            self.first = math.floor(math.log10(min(value for value in values if value > 0)))
            self.last = max(math.ceil(math.log10(top)), self.first + 1)
            self.ticks = [10.0**power for power in range(self.first, self.last + 1)]
        else:
            step = 10 ** math.floor(math.log10(top / 4))
            step *= next(factor for factor in (1, 2, 2.5, 5, 10) if top / (step * factor) <= 6)
            self.first, self.last = 0, step * math.ceil(top / step)
            self.ticks = [step * at for at in range(round(self.last / step) + 1)]

    def __call__(self, value):
        if self.powers:
            value = math.log10(max(value, 10.0**self.first))
        return self.low + (value - self.first) / (self.last - self.first) * (self.high - self.low)


def mark(shape, x, y, colour):
    if shape == "circle":
        return f'<circle cx="{x:.1f}" cy="{y:.1f}" r="4.5" fill="{colour}"/>'
    paths = {
        "square": f"M{x - 4:.1f},{y - 4:.1f}h8v8h-8z",
        "diamond": f"M{x:.1f},{y - 6:.1f}l6,6l-6,6l-6,-6z",
        "triangle": f"M{x:.1f},{y - 6:.1f}l6,10h-12z",
        "cross": f"M{x - 5:.1f},{y - 5:.1f}l10,10m0,-10l-10,10",
    }
    return f'<path d="{paths[shape]}" fill="{colour}" stroke="{colour}" stroke-width="1.5"/>'


def text(x, y, words, anchor="middle", size=12, more=""):
    return f'<text x="{x:.1f}" y="{y:.1f}" text-anchor="{anchor}" font-size="{size}" {more}>{escape(words)}</text>'


def frame(title, x_name, y_name, x_axis, y_axis, x_labels=None):
    """The picture without its data."""
    bottom, right = HEIGHT - BOTTOM, WIDTH - RIGHT
    parts = [
        f'<svg xmlns="http://www.w3.org/2000/svg" viewBox="0 0 {WIDTH} {HEIGHT}" font-family="sans-serif">',
        f'<rect width="{WIDTH}" height="{HEIGHT}" fill="white"/>',
        text(LEFT, 24, title, "start", 15),
    ]
    for tick in y_axis.ticks:
        parts.append(f'<path d="M{LEFT},{y_axis(tick):.1f}H{right}" stroke="#dddddd"/>')
        parts.append(text(LEFT - 8, y_axis(tick) + 4, nice(tick), "end"))
    for place, tick in enumerate(x_axis.ticks if x_axis else []):
        parts.append(f'<path d="M{x_axis(tick):.1f},{TOP}V{bottom}" stroke="#eeeeee"/>')
        parts.append(text(x_axis(tick), bottom + 18, x_labels[place] if x_labels else nice(tick)))
    parts.append(f'<path d="M{LEFT},{TOP}V{bottom}H{right}" fill="none" stroke="#333333"/>')
    parts.append(text((LEFT + right) / 2, HEIGHT - 14, x_name))
    middle = (TOP + bottom) / 2
    parts.append(text(18, middle, y_name, more=f'transform="rotate(-90 18 {middle:.0f})"'))
    return parts


def legend(parts, names, shapes=True):
    for place, name in enumerate(names):
        y = TOP + 8 + 20 * place
        shape = MARKS[place % len(MARKS)] if shapes else "square"
        parts.append(mark(shape, WIDTH - RIGHT + 18, y, COLOURS[place % len(COLOURS)]))
        parts.append(text(WIDTH - RIGHT + 30, y + 4, name, "start", 11))


def lines(path, title, x_name, y_name, series, x_powers=False, y_powers=False, joined=True):
    """`series` is a list of a name and its points; they are joined in the order given."""
    xs = [x for _, points in series for x, _ in points]
    ys = [y for _, points in series for _, y in points]
    x_axis = Axis(xs, LEFT, WIDTH - RIGHT, x_powers)
    y_axis = Axis(ys, HEIGHT - BOTTOM, TOP, y_powers)
    parts = frame(title, x_name, y_name, x_axis, y_axis)
    for place, (_, points) in enumerate(series):
        colour = COLOURS[place % len(COLOURS)]
        at = [(x_axis(x), y_axis(y)) for x, y in points]
        if joined and len(at) > 1:
            way = "L".join(f"{x:.1f},{y:.1f}" for x, y in at)
            parts.append(f'<path d="M{way}" fill="none" stroke="{colour}" stroke-width="1.5"/>')
        parts.extend(mark(MARKS[place % len(MARKS)], x, y, colour) for x, y in at)
    legend(parts, [name for name, _ in series])
    write(path, parts)


def bars(path, title, y_name, groups, names):
    """`groups` is a list of a label and as many values as there are names."""
    y_axis = Axis([value for _, values in groups for value in values], HEIGHT - BOTTOM, TOP)
    parts = frame(title, "", y_name, None, y_axis)
    wide = (WIDTH - RIGHT - LEFT) / len(groups)
    each = wide * 0.8 / len(names)
    for place, (label, values) in enumerate(groups):
        start = LEFT + wide * (place + 0.1)
        parts.append(text(start + wide * 0.4, HEIGHT - BOTTOM + 18, label, size=11))
        for at, value in enumerate(values):
            y = y_axis(value)
            colour = COLOURS[at % len(COLOURS)]
            parts.append(
                f'<rect x="{start + each * at:.1f}" y="{y:.1f}" width="{each * 0.92:.1f}" '
                f'height="{HEIGHT - BOTTOM - y:.1f}" fill="{colour}"/>'
            )
    legend(parts, names, shapes=False)
    write(path, parts)


def write(path, parts):
    with open(path, "w", encoding="utf-8") as file:
        file.write("\n".join(parts + ["</svg>"]) + "\n")
