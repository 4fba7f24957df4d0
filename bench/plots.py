"""Plots as SVG, by logarithmic axes."""

import math

WIDTH, HEIGHT, LEFT, RIGHT, TOP, BOTTOM = 640, 420, 70, 150, 40, 50
COLOURS = ("#1f5fa8", "#c0392b", "#2e8b57", "#8e6bb0", "#d98a1f", "#2aa3a3", "#7a7a7a", "#b0487f")


def escape(text):
    return text.replace("&", "&amp;").replace("<", "&lt;").replace(">", "&gt;")


def slope(points):
    """The exponent of the power of x that y goes with, by least squares over the logarithms, or None of one place alone."""
    xs, ys = [math.log(point[0]) for point in points], [math.log(point[1]) for point in points]
    if not xs or max(xs) == min(xs):
        return None
    x, y = sum(xs) / len(xs), sum(ys) / len(ys)
    return sum((a - x) * (b - y) for a, b in zip(xs, ys)) / sum((a - x) ** 2 for a in xs)


def with_slopes(series):
    """The series by names that have their slopes, without those of no point."""
    named = []
    for name, points in series:
        of_one = slope(points)
        if points:
            named.append((name if of_one is None else "%s: %.2f" % (name, of_one), points))
    return named


class Axis:
    """Decades from the least to the greatest value, laid between two places."""

    def __init__(self, values, begin, end):
        self.least = math.floor(math.log10(min(values)))
        self.greatest = max(self.least + 1, math.ceil(math.log10(max(values))))
        self.begin, self.end = begin, end

    def place(self, value):
        return self.begin + (math.log10(value) - self.least) / (self.greatest - self.least) * (self.end - self.begin)

    def ticks(self):
        return [10.0 ** power for power in range(self.least, self.greatest + 1)]


def amount(value, unit):
    """A power of ten as it stands at an axis."""
    if unit == "B":
        for step, name in ((1e9, "GB"), (1e6, "MB"), (1e3, "kB")):
            if value >= step:
                return "%g %s" % (value / step, name)
        return "%g B" % value
    if unit == "s" and value < 1:
        return "%g ms" % (value * 1000) if value >= 1e-3 else "%g us" % (value * 1e6)
    return "%g %s" % (value, unit) if unit else "%g" % value


def plot(title, across, upwards, series, line=None):
    """The text of a plot. An axis is a name and a unit, a series a name and its points; a line is drawn at one height."""
    points = [point for _, of_one in series for point in of_one]
    if not points:
        return None
    x = Axis([point[0] for point in points], LEFT, WIDTH - RIGHT)
    y = Axis([point[1] for point in points] + ([line] if line else []), HEIGHT - BOTTOM, TOP)
    out = ['<svg xmlns="http://www.w3.org/2000/svg" viewBox="0 0 %d %d" width="%d" height="%d" font-family="sans-serif" font-size="12">'
           % (WIDTH, HEIGHT, WIDTH, HEIGHT),
           '<rect width="100%" height="100%" fill="white"/>',
           '<text x="%d" y="22" font-size="15">%s</text>' % (LEFT, escape(title))]
    for tick in x.ticks():
        at = x.place(tick)
        out.append('<line x1="%.1f" y1="%d" x2="%.1f" y2="%d" stroke="#ddd"/>' % (at, TOP, at, HEIGHT - BOTTOM))
        out.append('<text x="%.1f" y="%d" text-anchor="middle">%s</text>' % (at, HEIGHT - BOTTOM + 16, amount(tick, across[1])))
    for tick in y.ticks():
        at = y.place(tick)
        out.append('<line x1="%d" y1="%.1f" x2="%d" y2="%.1f" stroke="#ddd"/>' % (LEFT, at, WIDTH - RIGHT, at))
        out.append('<text x="%d" y="%.1f" text-anchor="end">%s</text>' % (LEFT - 6, at + 4, amount(tick, upwards[1])))
    if line:
        at = y.place(line)
        out.append('<line x1="%d" y1="%.1f" x2="%d" y2="%.1f" stroke="#888" stroke-dasharray="4 3"/>' % (LEFT, at, WIDTH - RIGHT, at))
    out.append('<text x="%d" y="%d" text-anchor="middle">%s</text>' % ((LEFT + WIDTH - RIGHT) // 2, HEIGHT - 12, escape(across[0])))
    out.append('<text transform="translate(16 %d) rotate(-90)" text-anchor="middle">%s</text>' % ((TOP + HEIGHT - BOTTOM) // 2, escape(upwards[0])))
    for number, (name, of_one) in enumerate(series):
        colour = COLOURS[number % len(COLOURS)]
        for point in of_one:
            out.append('<circle cx="%.1f" cy="%.1f" r="4" fill="%s" fill-opacity="0.75"><title>%s</title></circle>'
                       % (x.place(point[0]), y.place(point[1]), colour, escape(point[2])))
        high = TOP + 14 + 20 * number
        out.append('<circle cx="%d" cy="%d" r="4" fill="%s"/>' % (WIDTH - RIGHT + 18, high - 4, colour))
        out.append('<text x="%d" y="%d">%s</text>' % (WIDTH - RIGHT + 28, high, escape(name)))
    return "\n".join(out + ["</svg>"]) + "\n"
