"""Plain SVG pictures of a table: lines over an axis, and bars by groups. They have axes with units, a legend, a title
and a description for a screen reader, and are told apart without colour: by dashes and marks, and by hatches.
"""
import html
import os

from running import Ending, UNWRITTEN

WIDTH, HEIGHT = 720, 400
LEFT, RIGHT, TOP, BOTTOM = 84, 24, 56, 58
DASHES = ("", "9 4", "2 4", "12 4 2 4", "5 3 1 3", "16 6")
# Marks by their number: a full circle, an empty square, a full triangle, a cross, an empty circle, a full square.
MARKS = ('<circle cx="{x}" cy="{y}" r="4" fill="#000"/>',
         '<rect x="{x0}" y="{y0}" width="8" height="8" fill="#fff" stroke="#000" stroke-width="1.5"/>',
         '<path d="M{x} {y0}l5 9h-10z" fill="#000"/>',
         '<path d="M{x0} {y0}l8 8m0 -8l-8 8" stroke="#000" stroke-width="2"/>',
         '<circle cx="{x}" cy="{y}" r="4" fill="#fff" stroke="#000" stroke-width="1.5"/>',
         '<rect x="{x0}" y="{y0}" width="8" height="8" fill="#000"/>')
HATCHES = ("#000", "#fff", "url(#slant)", "url(#dots)", "url(#back)", "url(#grid)")
STYLE = "text{font:13px system-ui,sans-serif;fill:#000}.head{font-weight:600}.small{font-size:12px}"
PATTERNS = (
    '<pattern id="slant" width="7" height="7" patternUnits="userSpaceOnUse"><rect width="7" height="7" fill="#fff"/>'
    '<path d="M0 7L7 0" stroke="#000" stroke-width="1.5"/></pattern>'
    '<pattern id="dots" width="6" height="6" patternUnits="userSpaceOnUse"><rect width="6" height="6" fill="#fff"/>'
    '<circle cx="3" cy="3" r="1.4"/></pattern>'
    '<pattern id="back" width="7" height="7" patternUnits="userSpaceOnUse"><rect width="7" height="7" fill="#ccc"/>'
    '<path d="M0 0L7 7" stroke="#000"/></pattern>'
    '<pattern id="grid" width="6" height="6" patternUnits="userSpaceOnUse"><rect width="6" height="6" fill="#fff"/>'
    '<path d="M0 3H6M3 0V6" stroke="#000"/></pattern>')


def number(value):
    """A number as it is read: with commas, and no more digits than it has."""
    text = f"{value:,.2f}".rstrip("0").rstrip(".")
    return text or "0"


def steps(most):
    """Marks of an axis from 0 to at least `most`: some five, 1, 2 or 5 times a power of ten apart."""
    step, power = 1.0, 0
    while most / step > 6:
        power += 1
        step = (1, 2, 5)[power % 3] * 10.0 ** (power // 3)
    while most and most / step < 1.5:
        step /= 2
    count = 1
    while count * step < most:
        count += 1
    return [step * at for at in range(count + 1)]


def words_at(x, y, words, kind="", anchor="start", more=""):
    kind = f' class="{kind}"' if kind else ""
    return f'<text x="{x:g}" y="{y:g}"{kind} text-anchor="{anchor}"{more}>{html.escape(words)}</text>'


def mark(at, x, y):
    return MARKS[at % len(MARKS)].format(x=f"{x:.1f}", y=f"{y:.1f}", x0=f"{x - 4:.1f}", y0=f"{y - 4:.1f}")


class Frame:
    """The ground of a picture: its words, both axes and the legend."""

    def __init__(self, title, desc, y_label, most, rows):
        self.ticks = steps(most)
        self.height = HEIGHT + 20 * rows
        self.low = HEIGHT - BOTTOM
        self.parts = [
            f'<svg xmlns="http://www.w3.org/2000/svg" viewBox="0 0 {WIDTH} {self.height}" width="{WIDTH}" '
            f'height="{self.height}" role="img" aria-labelledby="t d">',
            f'<title id="t">{html.escape(title)}</title>', f'<desc id="d">{html.escape(desc)}</desc>',
            f"<style>{STYLE}</style><defs>{PATTERNS}</defs>", f'<rect width="{WIDTH}" height="{self.height}" fill="#fff"/>',
            words_at(LEFT - 60, 24, title, "head"), words_at(LEFT - 60, 44, y_label, "small")]
        for tick in self.ticks:
            y = self.y(tick)
            self.parts += [f'<path d="M{LEFT} {y:.1f}H{WIDTH - RIGHT}" stroke="#bbb"/>',
                           words_at(LEFT - 8, y + 4, number(tick), "small", "end")]
        self.parts.append(f'<path d="M{LEFT} {TOP}V{self.low}H{WIDTH - RIGHT}" stroke="#000" fill="none"/>')

    def y(self, value):
        return self.low - (self.low - TOP) * value / self.ticks[-1]

    def text(self):
        return "\n".join(self.parts + ["</svg>"]) + "\n"


def told(title, x_label, y_label, names, points):
    """What a screen reader says: each row of the picture with its numbers."""
    rows = [f"{name}: " + ", ".join(row) for name, row in zip(names, points)]
    return f"{title}. {x_label} against {y_label}. " + ". ".join(rows) + "."


def lines(title, x_label, y_label, series):
    """Series are pairs of a name and points; x is a number."""
    most = max((y for _, points in series for _, y in points), default=1) or 1
    xs = [x for _, points in series for x, _ in points]
    first, last = min(xs), max(xs)
    few = [(name, points if len(points) <= 12 else points[::max(1, len(points) // 10)]) for name, points in series]
    desc = told(title, x_label, y_label, [it[0] for it in series],
                [[f"{number(y)} at {number(x)}" for x, y in points] for _, points in few])
    frame = Frame(title, desc, y_label, most, len(series))

    def x_of(x):
        return LEFT + 12 + (WIDTH - RIGHT - LEFT - 24) * (x - first) / ((last - first) or 1)

    marks = sorted(set(xs)) if len(set(xs)) <= 8 else [first + it * (last - first) / 5 for it in range(6)]
    frame.parts += [words_at(x_of(x), frame.low + 18, number(round(x)), "small", "middle") for x in marks]
    frame.parts.append(words_at((LEFT + WIDTH - RIGHT) / 2, frame.low + 40, x_label, "small", "middle"))
    for at, (name, points) in enumerate(series):
        path = "L".join(f"{x_of(x):.1f} {frame.y(y):.1f}" for x, y in points)
        dash = f' stroke-dasharray="{DASHES[at % len(DASHES)]}"' if DASHES[at % len(DASHES)] else ""
        frame.parts.append(f'<path d="M{path}" fill="none" stroke="#000" stroke-width="1.8"{dash}/>')
        frame.parts += [mark(at, x_of(x), frame.y(y)) for x, y in few[at][1]]
        y = HEIGHT + 20 * at
        frame.parts += [f'<path d="M{LEFT} {y}H{LEFT + 48}" stroke="#000" stroke-width="1.8"{dash}/>',
                        mark(at, LEFT + 24, y), words_at(LEFT + 60, y + 4, name)]
    return frame.text()


def bars(title, x_label, y_label, groups, parts):
    """Groups are pairs of a name and a number for each part; the numbers of a group stand on one another."""
    most = max((sum(values) for _, values in groups), default=1) or 1
    desc = told(title, x_label, y_label, [name for name, _ in groups],
                [[f"{part} {number(value)}" for part, value in zip(parts, values)] for _, values in groups])
    frame = Frame(title, desc, y_label, most, len(parts))
    room = (WIDTH - RIGHT - LEFT) / len(groups)
    width = min(90, room * 0.6)
    for at, (name, values) in enumerate(groups):
        x, below = LEFT + room * (at + 0.5), 0
        for hatch, value in enumerate(values):
            y, low = frame.y(below + value), frame.y(below)
            if value:
                frame.parts.append(f'<rect x="{x - width / 2:.1f}" y="{y:.1f}" width="{width:.1f}" height="{low - y:.1f}" '
                                   f'fill="{HATCHES[hatch % len(HATCHES)]}" stroke="#000"/>')
            below += value
        frame.parts += [words_at(x, frame.y(below) - 5, number(below), "small", "middle"),
                        words_at(x, frame.low + 18, name, "small", "middle")]
    frame.parts.append(words_at((LEFT + WIDTH - RIGHT) / 2, frame.low + 40, x_label, "small", "middle"))
    for at, part in enumerate(parts):
        y = HEIGHT + 20 * at
        frame.parts += [f'<rect x="{LEFT}" y="{y - 8}" width="24" height="14" fill="{HATCHES[at % len(HATCHES)]}" stroke="#000"/>',
                        words_at(LEFT + 36, y + 4, part)]
    return frame.text()


def save(path, text):
    """Writes a picture, whole or not at all."""
    try:
        with open(path + ".new", "w", encoding="utf-8") as file:
            file.write(text)
        os.replace(path + ".new", path)
    except OSError as error:
        raise Ending(f"{path} can't be written: {error.strerror}", UNWRITTEN) from None
