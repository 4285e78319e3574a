"""The picture of a trace: where all of it stands, as shapes of SVG."""

import math
import re
import shlex
import sys
from html import escape
from itertools import chain

from timeline_parts.items import COLOURS, FADING, LEGEND, MARKS, items_of, name_of
from timeline_parts.traces import TICKS_OF_A_MILLISECOND

STYLE = """<style>
text { font: 12px ui-monospace, SFMono-Regular, Menlo, Consolas, "DejaVu Sans Mono", monospace; fill: #24292f }
.heading { font-size: 15px; font-weight: bold } .small { font-size: 11px; fill: #57606a }
.inside { font-size: 11px; fill: #ffffff } .middle { text-anchor: middle } .right { text-anchor: end }
.band { fill: #f3f5f7 } .guide { stroke: #d0d7de } .axis { stroke: #57606a } .end { stroke: #24292f; stroke-width: 2 }
.due, .stub { stroke: #24292f } .refused, .unlisted { stroke: #a0003c; stroke-width: 2.5 }
</style>"""

# Lengths in pixels: of a row, a bar, the margins, a letter, and one of the heading.
ROW, BAR, LEFT, RIGHT, LETTER, HEADING_LETTER = 28, 16, 144, 40, 6.7, 9.1

# How opaque a bar that fades is at its ends, in percent.
SHADES = 90, 8


def written(text):
    """A text as it is written into XML, which has no word for some characters."""
    return escape(re.sub("[^\t\n -~\xa0-\ud7ff\ue000-\ufffd\U00010000-\U0010ffff]", "\ufffd", text))


def text_at(x, y, text, style, more=""):
    return f'<text x="{x:.1f}" y="{y:.1f}" class="{style}"{more}>{written(text)}</text>'


def stroke(x, top, bottom, style):
    return f'<path d="M{x:.1f} {top}V{bottom}" class="{style}"/>'


def scale(first, last, most):
    """Round numbers from first to last, at most `most` + 1, as a range."""
    step = next(n for power in range(30) for n in (10**power, 2 * 10**power, 5 * 10**power) if last - first <= n * most)
    return range(-(-first // step) * step, last + 1, step)


def shades(ends, seen):
    """How opaque a fading bar is where what is seen of it begins and ends."""
    length, (first, last) = ends[1] - ends[0] or 1, SHADES
    return tuple(math.floor(first - (first - last) * (place - ends[0]) / length) for place in seen)


class Picture:
    """A picture of the lines `first` to `last` of a trace: along the clock from tick to tick, or by lines."""

    def __init__(self, lines, first, last, ticks, width):
        self.lines, self.first, self.last, self.ticks, self.width = lines, first, last, ticks, width
        self.step = (width - LEFT - RIGHT) / (last - first + 1)
        self.items = [item for item in items_of(lines) if item.first <= last and item.last >= first]
        self.rows = sorted({item.row for item in self.items})
        self.gradients = set()
        self.legend = list(self.places_of_legend())
        self.top = (self.legend[-1][1] if self.legend else 62) + 44
        self.bottom = self.top + ROW * len(self.rows)

    def x_of_tick(self, tick):
        first, last = self.ticks
        return LEFT + (self.width - LEFT - RIGHT) * (tick - first) / (last - first)

    def x(self, place):
        """Where a line of the trace stands; one that is not chosen stands outside."""
        return self.x_of_tick(self.lines[place].tick) if self.ticks else LEFT + self.step * (place - self.first + 0.5)

    def inside(self, x):
        return min(max(x, LEFT), self.width - RIGHT)

    def fill(self, kind, opaque):
        """The colour of a bar or a mark, or the name of the gradient of one that fades."""
        if kind not in FADING:
            return COLOURS[kind]
        self.gradients.add((kind, *opaque))
        return "url(#{}-{}-{})".format(kind, *opaque)

    def shape(self, kind, x, end, y, title, opaque=SHADES):
        """A bar or a mark whose middle is at y. A fading bar has an edge where it begins."""
        place = f'rect x="{x:.1f}" y="{y - BAR / 2}" width="{max(end - x, 1):.1f}" height="{BAR}"'
        if kind in MARKS:
            place = f'path d="M{x:.1f} {y}{MARKS[kind]}"'
        fill = self.fill(kind, opaque)
        yield f'<{place} fill="{fill}" class="{kind}"><title>{written(title)}</title></{place[:4]}>'
        if kind in FADING and opaque[0] == SHADES[0]:
            yield f'<path d="M{x + 0.5:.1f} {y - BAR / 2}v{BAR}" stroke="{COLOURS[kind]}"/>'

    def draw_heading(self, heading):
        """What is drawn: the name of the trace, and which lines of it."""
        first, last = self.lines[self.first], self.lines[self.last]
        wide = "" if self.ticks else ", drawn equally wide"
        lines = f"lines {self.first + 1:,} to {self.last + 1:,} of {len(self.lines):,}{wide}"
        ticks = f"ticks {first.tick:,} to {last.text if last.kind == 'end' else format(last.tick, ',')}"
        room = int((self.width - 204) / HEADING_LETTER)
        yield text_at(16, 24, heading if len(heading) <= room else f"\u2026{heading[1 - room:]}", "heading")
        yield text_at(self.width - 16, 24, f"{TICKS_OF_A_MILLISECOND:,} ticks are 1 ms", "small right")
        yield text_at(16, 42, f"{lines}, {ticks}", "small")

    def places_of_legend(self):
        """Where each kind that occurs stands in the legend."""
        x, y, kinds = 16, 62, {item.kind for item in self.items}
        for kind, text in [(kind, text) for kind, text in LEGEND.items() if kind in kinds]:
            if x + 30 + LETTER * len(text) > self.width:
                x, y = 16, y + 20
            yield x, y, kind, text
            x += 46 + LETTER * len(text)

    def draw_legend(self):
        for x, y, kind, text in self.legend:
            yield from self.shape(kind, x + 10 if kind in MARKS else x, x + 20, y, text)
            yield text_at(x + 26, y + 4, text, "small")

    def draw_row(self, number):
        """The name of a row, every other one on a band."""
        y = self.top + ROW * number
        if number % 2 == 0:
            yield f'<rect y="{y}" width="{self.width}" height="{ROW}" class="band"/>'
        yield text_at(LEFT - 14, y + 18, name_of(self.rows[number]), "right")

    def draw_items(self):
        """Bars, then marks. Those of one kind that fall on the same pixels are one."""
        groups = {}
        for item in sorted(self.items, key=lambda item: item.kind in MARKS):
            ends = [round(self.inside(self.x(place))) for place in (item.first, item.last)]
            groups.setdefault((item.row, item.kind, *ends), []).append(item)
        for group in groups.values():
            more = [f"and {len(group) - 3} more"] if len(group) > 3 else []
            title = "\n".join([item.title for item in group[:3]] + more)
            yield from self.draw_item(group[0]._replace(last=group[-1].last, title=title))

    def is_free(self, row, x, end):
        """Whether no bar or mark of the row stands between two places."""
        return not any(item.row == row and self.x(item.first) < end and self.x(item.last) > x for item in self.items)

    def draw_item(self, item):
        """What is seen of a bar, with an ellipsis where it goes on outside, or a mark. Its label, if there is room."""
        y = self.top + ROW * self.rows.index(item.row) + ROW // 2
        ends = self.x(item.first), self.x(item.last)
        x, end = seen = [self.inside(place) for place in ends]
        yield from self.shape(item.kind, x, end, y, item.title, shades(ends, seen))
        for place, edge, way in zip(ends, seen, (-1, 1)):
            if place != edge:
                yield text_at(edge + 8 * way, y + 2, "\u2026", "middle")
        length = LETTER * len(item.label)
        if item.label and item.kind in MARKS and self.is_free(item.row, x + 5, x + 15 + length):
            yield text_at(x + 9, y + 4, item.label, "small")
        elif item.label and item.kind not in MARKS and end - x > length + 8:
            yield text_at(x + 5, y + 4, item.label, "inside")

    def draw_scale(self, unit, places, y, mark):
        """Texts at their places, as far as there is room; the same one only once in a row. A stroke marks each."""
        free, before = LEFT - 40, ""
        yield text_at(LEFT - 46, y, unit, "small right")
        for x, label in places:
            half = LETTER * len(label) / 2
            if label != before and x - half >= free and x + half <= self.width:
                yield text_at(x, y, label, "small middle")
                yield stroke(x, mark, mark + 6, "axis")
                free, before = x + half + 12, label

    def draw_clock(self):
        """Both scales along the clock."""
        millionth, most = TICKS_OF_A_MILLISECOND / 10**6, self.width // 120
        marks = scale(*(int(tick / millionth) for tick in self.ticks), most)
        decimals = max(0, 7 - len(str(marks.step)))
        times = [(self.x_of_tick(mark * millionth), f"{mark / 10**6:,.{decimals}f}") for mark in marks]
        yield from self.draw_scale("ms", times, self.top - 11, self.top - 6)
        ticks = [(self.x_of_tick(tick), f"{tick:,}") for tick in scale(*self.ticks, most)]
        yield from self.draw_scale("ticks", ticks, self.bottom + 19, self.bottom)

    def columns(self):
        """The lines of the trace that there is room for below their columns, and how they are written there."""
        shown = range(self.first, self.last + 1, math.ceil(16 / self.step))
        return [(n, re.sub(" ok .*", " ok", self.lines[n].text)) for n in shown]

    def draw_columns(self):
        """The upper scale, and the lines of the trace below their columns."""
        columns = self.columns()
        times = [(self.x(n), f"{self.lines[n].tick / TICKS_OF_A_MILLISECOND:,.2f}") for n, _ in columns]
        yield from self.draw_scale("ms", times, self.top - 11, self.top - 6)
        for n, label in columns:
            x, y = self.x(n) + 4, self.bottom + 16
            yield stroke(x - 4, self.top, self.bottom + 6, "guide")
            yield text_at(x, y, label, "small right", f' transform="rotate(-45 {x:.1f} {y})"')

    def draw_plot(self):
        """The scales, the bars and marks, and where the run ended."""
        yield from self.draw_clock() if self.ticks else self.draw_columns()
        yield from self.draw_items()
        if self.lines[self.last].kind == "end":
            yield stroke(self.x(self.last), self.top, self.bottom, "end")

    @property
    def height(self):
        if self.ticks:
            return self.bottom + 32
        return math.ceil(self.bottom + 24 + 0.72 * LETTER * max(len(label) for _, label in self.columns()))

    def sheet(self):
        """The command that drew the picture, the gradients of the bars that were drawn, and the white below them."""
        yield f"<desc>tools/timeline {written(shlex.join(sys.argv[1:]))}</desc>{STYLE}"
        for kind, first, last in sorted(self.gradients):
            stop = f'stop-color="{COLOURS[kind]}" stop-opacity'
            stops = f'<stop {stop}="{first / 100}"/><stop offset="1" {stop}="{last / 100}"/>'
            yield f'<linearGradient id="{kind}-{first}-{last}">{stops}</linearGradient>'
        yield f'<rect width="{self.width}" height="{self.height}" rx="6" fill="#ffffff"/>'


def start_of_svg(picture, more=""):
    size = f'width="{picture.width}" height="{picture.height}" viewBox="0 0 {picture.width} {picture.height}"'
    return f'<svg xmlns="http://www.w3.org/2000/svg" {size}{more}>'


def svg(picture, heading):
    """The lines of a picture as a file of its own."""
    rows = chain.from_iterable(map(picture.draw_row, range(len(picture.rows))))
    shapes = [*picture.draw_heading(heading), *picture.draw_legend(), *rows, *picture.draw_plot()]
    return [start_of_svg(picture), *picture.sheet(), *shapes, "</svg>"]
