"""Charts as SVG: axes, lines, dots and words that can be read in light and in dark."""
import math

STYLE = '''<style>
text { font: 12px system-ui, sans-serif; fill: #57606a }
.title { font-size: 14px; font-weight: 600; fill: #1f2328 }
.grid { stroke: #8b949e; stroke-opacity: .28; fill: none }
.bound { stroke: #cf222e; stroke-dasharray: 6 4; fill: none }
.shape { stroke: #8b949e; stroke-opacity: .45; stroke-width: 1.5; fill: none }
.line { fill: none; stroke-width: 1.4; stroke-opacity: .7 }
.bar { fill: #0969da; fill-opacity: .8; stroke: none }
.dots { fill: none; stroke-width: 4; stroke-linecap: round }
.a { stroke: #0969da } .b { stroke: #bc4c00 } .c { stroke: #1a7f37 }
text.a { fill: #0969da; stroke: none } text.b { fill: #bc4c00; stroke: none } text.c { fill: #1a7f37; stroke: none }
text.bound { fill: #cf222e; stroke: none }
@media (prefers-color-scheme: dark) {
text { fill: #9198a1 } .title { fill: #f0f6fc } .bar { fill: #58a6ff }
.a { stroke: #58a6ff } .b { stroke: #f0883e } .c { stroke: #3fb950 } .bound { stroke: #ff7b72 }
text.a { fill: #58a6ff } text.b { fill: #f0883e } text.c { fill: #3fb950 } text.bound { fill: #ff7b72 }
}
</style>'''


def document(width, height, title, parts):
    return '\n'.join([f'<svg xmlns="http://www.w3.org/2000/svg" viewBox="0 0 {width} {height}" role="img">',
                      f'<title>{title}</title>', STYLE, *parts, '</svg>', ''])


def text(x, y, words, kind='', anchor='start'):
    attributes = (f' class="{kind}"' if kind else '') + (f' text-anchor="{anchor}"' if anchor != 'start' else '')
    return f'<text x="{x:g}" y="{y:g}"{attributes}>{words}</text>'


def power_of_two(exponent):
    return f'2<tspan dy="-4" font-size="9">{exponent}</tspan><tspan dy="4"> </tspan>'


class Plot:
    """A rectangle of the drawing over which two scales lie; the scale across may be logarithmic."""

    def __init__(self, left, top, width, height, across, up, logarithmic=False):
        self.left, self.top, self.width, self.height = left, top, width, height
        self.scale = math.log10 if logarithmic else float
        self.across = [self.scale(end) for end in across]
        self.up = up

    def place(self, x, y):
        (west, east), (south, north) = self.across, self.up
        return (self.left + self.width * (self.scale(x) - west) / (east - west),
                self.top + self.height * (north - y) / (north - south))

    def holds(self, point):
        return self.up[0] <= point[1] <= self.up[1]

    def grid(self, across, up):
        """Lines of the grid, with words at the ends of those that have any: pairs of a number and its words."""
        lines, words = [], []
        for x, label in across:
            at, _ = self.place(x, self.up[0])
            lines.append(f'M{at:.1f} {self.top:g}v{self.height:g}')
            words += [text(round(at, 1), self.top + self.height + 16, label, anchor='middle')] if label else []
        for y, label in up:
            _, at = self.place(10 ** self.across[0] if self.scale is math.log10 else self.across[0], y)
            lines.append(f'M{self.left:g} {at:.1f}h{self.width:g}')
            words += [text(self.left - 6, round(at + 4, 1), label, anchor='end')] if label else []
        return [f'<path class="grid" d="{"".join(lines)}"/>', *words]

    def line(self, points, kind):
        """A line through the points, cut where it leaves the plot."""
        places = [self.place(x, y) for x, y in points]
        path, before = [], None
        for start, end in zip(places, places[1:]):
            cut = cut_to(start, end, self.top, self.top + self.height)
            if cut:
                first, last = (f'{x:.1f} {y:.1f}' for x, y in cut)
                path.append(f' {last}' if first == before else f'M{first} {last}')
                before = last
        return f'<path class="{kind}" d="{"".join(path)}"/>'

    def dots(self, points, kind):
        places = [self.place(x, y) for x, y in filter(self.holds, points)]
        return f'<path class="{kind}" d="' + ''.join(f'M{x:.1f} {y:.1f}h0' for x, y in places) + '"/>'


def cut_to(start, end, top, bottom):
    """The part of a stretch that lies between top and bottom, if any."""
    (x, y), (across, down) = start, (end[0] - start[0], end[1] - start[1])
    bounds = sorted(((top - y) / down, (bottom - y) / down)) if down else (0, 1) if top <= y <= bottom else (1, 0)
    first, last = max(bounds[0], 0), min(bounds[1], 1)
    return first < last and [(x + share * across, y + share * down) for share in (first, last)]
