"""picture.py: docs/using/performance.svg: for each text the time of `canon` for that of libyaml's parser, and its peak memory."""
from .page import TEXTS

WIDTH, LEFT, GAP, TOP, STEP, BAR = 330, 330, 60, 52, 30, 16
TIME, MEMORY, LINE = "#0b62a4", "#1b9e77", "#444"


def scale(most):
    """The end of an axis, and the distance of its marks."""
    step = next(it for it in (0.1, 0.25, 0.5, 1, 2, 5, 10, 20, 50, 100, 1000) if most / it <= 8)
    return step * (int(most / step) + 1), step


class Panel:
    """Bars with an axis of their own, from 0 on."""

    def __init__(self, left, title, colour, most):
        self.left, self.title, self.colour = left, title, colour
        self.end, self.step = scale(most)

    def x(self, value):
        return self.left + WIDTH * value / self.end

    def axis(self, bottom):
        yield f'<text x="{self.left}" y="22" font-weight="bold">{self.title}</text>'
        for number in range(round(self.end / self.step) + 1):
            value = number * self.step
            yield f'<line x1="{self.x(value):.1f}" y1="{TOP - 8}" x2="{self.x(value):.1f}" y2="{bottom}" stroke="#ddd"/>'
            yield f'<text x="{self.x(value):.1f}" y="{TOP - 14}" text-anchor="middle" fill="#666">{value:g}</text>'

    def bar(self, y, value, span):
        yield f'<rect x="{self.left}" y="{y}" width="{self.x(value) - self.left:.1f}" height="{BAR}" fill="{self.colour}"/>'
        if span:
            low, high = map(self.x, span)
            marks = f"M{low:.1f} {y + 4}v{BAR - 8}M{low:.1f} {y + BAR / 2}H{high:.1f}M{high:.1f} {y + 4}v{BAR - 8}"
            yield f'<path d="{marks}" stroke="{LINE}" fill="none"/>'


def picture(results):
    """The picture's text, or nothing where no speed was measured."""
    rows = [
        (shown, results.value(f"speed/{name}/time"), results.range(f"speed/{name}/time"), results.value(f"speed/{name}/memory"))
        for name, shown in TEXTS.items()
        if results.value(f"speed/{name}/time") is not None
    ]
    if not rows:
        return ""
    most = max(max(row[1], row[2][1] if row[2] else 0) for row in rows)
    panels = Panel(LEFT, "time of canon / time of libyaml's parser", TIME, max(1, most)), Panel(
        LEFT + WIDTH + GAP, "peak memory / size of the text", MEMORY, max(row[3] or 0 for row in rows)
    )
    height, width = TOP + STEP * len(rows) + 10, LEFT + 2 * WIDTH + GAP + 30
    lines = [
        f'<svg xmlns="http://www.w3.org/2000/svg" viewBox="0 0 {width} {height}" font-family="sans-serif" font-size="12">',
        f'<rect width="{width}" height="{height}" fill="white"/>',
        *(line for panel in panels for line in panel.axis(height - 10)),
    ]
    for at, (shown, time, span, memory) in enumerate(rows):
        y = TOP + STEP * at
        lines += [f'<text x="{LEFT - 8}" y="{y + 12}" text-anchor="end">{shown}</text>', *panels[0].bar(y, time, span)]
        lines += panels[1].bar(y, memory, None) if memory is not None else []
    one = panels[0].x(1)
    lines.append(f'<line x1="{one:.1f}" y1="{TOP - 8}" x2="{one:.1f}" y2="{height - 10}" stroke="{LINE}" stroke-dasharray="4 3"/>')
    return "\n".join([*lines, "</svg>"]) + "\n"
