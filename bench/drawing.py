"""What bench/plots draws with: the parts of a picture as SVG, scales, and panels of two scales."""
import html, math, textwrap

# Widths and places are in units of the drawing, which is WIDTH wide: as many pixels if not scaled.
WIDTH, MARGIN, TEXT, SMALL = 700, 16, 14, 13
STYLE = """
text { font-family: sans-serif; fill: #1b1f24; }
.page { fill: #ffffff; }
.soft { fill: #4d5660; }
.grid { stroke: #d0d7de; stroke-width: 1; }
.band { fill: #f3f5f7; }
.ours { color: #0b5cad; }
.theirs { color: #59636e; }
.line { stroke: currentColor; stroke-width: 2.5; fill: none; }
.lead { stroke: currentColor; stroke-width: 0.75; }
.solid { stroke: currentColor; stroke-width: 2; fill: currentColor; }
.open { stroke: currentColor; stroke-width: 2; fill: #ffffff; }
.dots { stroke: currentColor; stroke-width: 3; stroke-linecap: round; fill: none; }
@media (prefers-color-scheme: dark) {
text { fill: #e6edf3; }
.page { fill: #0d1117; }
.soft { fill: #a9b4c0; }
.grid { stroke: #3a424c; }
.band { fill: #161c24; }
.ours { color: #79b8ff; }
.theirs { color: #aab4bf; }
.open { fill: #0d1117; }
}
"""


class Picture:
    """The parts of a drawing, and what its description tells. No colour alone says anything."""

    def __init__(self, title):
        self.title, self.parts, self.told, self.end = title, [], [], 36
        self.text(MARGIN, 32, title, size=19, is_bold=True)

    def put(self, name, kind, inner=None, **more):
        more = {"class": kind, **more} if kind else more
        parts = [f' {key.replace("_", "-")}="{shown(value)}"' for key, value in more.items()]
        end = "/>" if inner is None else f">{html.escape(inner, quote=False)}</{name}>"
        self.parts.append(f"<{name}{''.join(parts)}{end}")

    def text(self, x, y, words, size=TEXT, kind="", anchor="start", is_bold=False):
        more = {"font_weight": "bold"} if is_bold else {}
        self.put("text", kind, words, x=x, y=y, font_size=size, text_anchor=anchor, **more)

    def paragraph(self, words, kind="", size=TEXT):
        """Words over the whole width, below all that is drawn."""
        for line in textwrap.wrap(words, int((WIDTH - 2 * MARGIN) / (0.54 * size))):
            self.end += size + 5
            self.text(MARGIN, self.end, line, size, kind)

    def line(self, x1, y1, x2, y2, kind="grid", dashes=""):
        more = {"stroke_dasharray": dashes} if dashes else {}
        self.put("line", kind, x1=x1, y1=y1, x2=x2, y2=y2, **more)

    def mark(self, shape, x, y, whose):
        """An open circle or triangle, a filled square, or else an open diamond."""
        if shape == "triangle":
            self.put("path", f"{whose} open", d=f"M{shown(x - 5)} {shown(y + 4)}h10l-5 -9z")
        elif shape == "circle":
            self.put("circle", f"{whose} open", cx=x, cy=y, r=4.5)
        elif shape == "square":
            self.put("rect", f"{whose} solid", x=x - 4, y=y - 4, width=8, height=8)
        else:
            self.put("path", f"{whose} open", d=f"M{shown(x - 6)} {shown(y)}l6 -6 6 6 -6 6z")

    def dots(self, places, whose):
        """A dot at each place, all in one path."""
        path = "".join(f"M{shown(x)} {shown(y)}h0" for x, y in places)
        self.put("path", f"{whose} dots", d=path)

    def made(self, name):
        """The whole text of the file."""
        told = "\n".join(html.escape(line, quote=False) for line in self.told)
        height = self.end + MARGIN
        return "\n".join([
            f'<svg xmlns="http://www.w3.org/2000/svg" width="{WIDTH}" height="{height}" '
            f'viewBox="0 0 {WIDTH} {height}" role="img" '
            f'aria-labelledby="{name}-title {name}-desc">',
            "<!-- bench/plots draws this from bench/RESULTS.md -->",
            f'<title id="{name}-title">{html.escape(self.title, quote=False)}</title>',
            f'<desc id="{name}-desc">{told}</desc>',
            f"<style>{STYLE}</style>",
            f'<rect class="page" width="{WIDTH}" height="{height}"/>',
            *self.parts, "</svg>", ""])


def shown(value):
    """A place with one decimal at most, so that each machine writes the same."""
    return value if isinstance(value, str) else f"{value:.1f}".removesuffix(".0")


class Scale:
    """A scale of so many units that has all of some figures: its ticks, and each figure's place."""

    def __init__(self, values, size, is_log=False):
        self.size, self.is_log = size, is_log
        if is_log:
            steps = [step * 10.0**power for power in range(-6, 9) for step in (1, 3)]
            low = max(step for step in steps if step <= min(values))
            high = min(step for step in steps if step >= max(values))
            self.ticks = [step for step in steps if low <= step <= high]
        else:
            steps = [step * 10.0**power for power in range(-3, 9) for step in (1, 2, 5)]
            step = min(step for step in steps if max(values) <= 6 * step)
            self.ticks = [step * count for count in range(math.ceil(max(values) / step) + 1)]

    def at(self, value):
        low, high = self.ticks[0], self.ticks[-1]
        if self.is_log:
            low, high, value = math.log(low), math.log(high), math.log(value)
        return (value - low) / (high - low) * self.size


class Panel:
    """A panel with two scales: the place of a point, and what is drawn on it. The ticks across are
    pairs of a value and its name, or those of the scale; those up have names if HAS_NAMES."""

    def __init__(self, picture, left, top, title, across, up, ticks=None, has_names=True):
        self.picture, self.left, self.top, self.across, self.up = picture, left, top, across, up
        self.bottom = top + up.size
        picture.text(left, top - 12, title, 15, is_bold=True)
        for tick in up.ticks:
            y = self.bottom - up.at(tick)
            picture.line(left, y, left + across.size, y)
            if has_names:
                picture.text(left - 7, y + 4, f"{tick:g}", SMALL, "soft", "end")
        for tick, words in ticks or [(tick, f"{tick:g}") for tick in across.ticks]:
            x = left + across.at(tick)
            picture.line(x, self.bottom, x, self.bottom + 4)
            picture.text(x, self.bottom + 18, words, SMALL, "soft", "middle")

    def place(self, across, up):
        return self.left + self.across.at(across), self.bottom - self.up.at(up)

    def series(self, points, mark, dashes, who):
        places = [self.place(*point) for point in points]
        for start, end in zip(places, places[1:]):
            self.picture.line(*start, *end, f"{who} line", dashes)
        for x, y in places:
            self.picture.mark(mark, x, y, who)
        return places

    def labels(self, ends):
        """Names beside the last points, none over another: pairs of the point and the name."""
        ends = sorted(ends, key=lambda end: end[0][1])
        heights = spread([place[1] for place, _ in ends], 15)
        for ((x, y), name), height in zip(ends, heights):
            self.picture.line(x + 7, y, x + 15, height, "theirs lead")
            self.picture.text(x + 18, height + 4, name, SMALL, is_bold=name.startswith("rheap"))


def spread(heights, least):
    """Heights in order, moved apart so that each is at least so far from the next."""
    moved = sorted(heights)
    for _ in range(200):
        for at in range(len(moved) - 1):
            lack = least - (moved[at + 1] - moved[at])
            if lack > 0.01:
                moved[at] -= lack / 2
                moved[at + 1] += lack / 2
    return moved
