"""The interactive page of a trace: the picture, and what its script wants to know, in one file of HTML."""

import json
import os
from base64 import b64encode
from hashlib import sha256

from timeline_parts.items import COLOURS, FADING, LEGEND, MARKS, absences, name_of
from timeline_parts.picture import BAR, LEFT, LETTER, RIGHT, ROW, SHADES, start_of_svg, written
from timeline_parts.traces import TICKS_OF_A_MILLISECOND

# The page, with the places of its parts. Nothing is loaded from anywhere, and no other script is executed.
PAGE = """<!DOCTYPE html>
<html lang="en">
<head>
<meta charset="utf-8">
<meta name="viewport" content="width=device-width, initial-scale=1">
<meta http-equiv="Content-Security-Policy" content="default-src 'none'; style-src 'unsafe-inline'; script-src '{hash}'">
<title>{title}</title>
<style>
{style}</style>
</head>
<body>
<header>
<h1>Trace</h1>
<noscript><p>The script of this page does not run. The picture is whole, and titles tell of its bars and marks; but it
does not zoom or move, and the states of a row are not listed.</p></noscript>
<div id="tools" role="toolbar" aria-label="what is shown" hidden>
<button type="button" id="nearer" title="key +">+</button>
<button type="button" id="farther" title="key -">\u2212</button>
<button type="button" id="whole" title="key 0">whole</button>
<output id="shown"></output>
<p>Wheel, <kbd>+</kbd> <kbd>-</kbd> zoom; drag, <kbd>\u2190</kbd> <kbd>\u2192</kbd> move; <kbd>0</kbd> the whole. A
row's name lists its states; again, or <kbd>Esc</kbd>, closes the list.</p>
</div>
</header>
<main>
<figure>
{picture}
</figure>
<section id="states" aria-labelledby="listed" tabindex="0" hidden>
<h2 id="listed"></h2>
<table>
<thead><tr><th scope="col">ms</th><th scope="col">tick</th><th scope="col">line</th><th scope="col">state</th>
<th scope="col">for ticks</th></tr></thead>
<tbody></tbody>
</table>
</section>
</main>
<p id="told" role="tooltip" hidden></p>
<script type="application/json" id="trace">{trace}</script>
<script type="module">
{script}</script>
</body>
</html>"""


def part(name):
    """The text of a file of this folder."""
    with open(os.path.join(os.path.dirname(__file__), name), encoding="utf-8") as file:
        return file.read()


def group(words, shapes):
    return ["<g " + words + ">", *shapes, "</g>"]


def row_of(picture, number):
    """A row's name, as what is pressed to list its states."""
    y, name = picture.top + ROW * number, written(name_of(picture.rows[number]))
    words = f'class="row" data-row="{number}" tabindex="0" role="button" aria-expanded="false" aria-controls="states"'
    pressed = f'<rect x="2" y="{y + 2}" width="{LEFT - 14}" height="{ROW - 4}" rx="4" class="name"/>'
    return group(f'{words} aria-label="{name}"', [*picture.draw_row(number), pressed])


def picture_of(picture, heading):
    """The lines of the picture, with its parts in groups."""
    rows = [shape for number in range(len(picture.rows)) for shape in row_of(picture, number)]
    heads = group('class="head"', [*picture.draw_heading(heading), *picture.draw_legend()])
    shapes = [*heads, *rows, *group('class="plot"', picture.draw_plot())]
    words = ' role="group" aria-label="the trace as a picture"'
    return [start_of_svg(picture, words), *picture.sheet(), *shapes, "</svg>"]


def known_of(picture):
    """What the script wants to know. Ticks are texts: they may be greater than its numbers."""
    lines, rows = picture.lines, {row: number for number, row in enumerate(picture.rows)}
    items = sorted([*picture.items, *absences(lines, picture.items)], key=lambda item: item.first)
    return {
        "lines": [[str(line.tick), line.words, line.place] for line in lines],
        "items": [[rows[item.row], item.kind, item.first, item.last, item.label] for item in items],
        "rows": [name_of(row) for row in picture.rows],
        "byLine": not picture.ticks,
        "whole": picture.ticks or (picture.first, picture.last + 1),
        "ticksOfAMillisecond": TICKS_OF_A_MILLISECOND,
        "legend": {**LEGEND, "away": "thread does not run"},
        "colours": COLOURS, "marks": MARKS, "fading": FADING, "shades": SHADES,
        "left": LEFT, "right": RIGHT, "row": ROW, "bar": BAR, "letter": LETTER,
        "width": picture.width, "height": picture.height, "top": picture.top, "bottom": picture.bottom,
    }


def page(picture, heading):
    """The lines of the page."""
    script = part("plot.js") + part("page.js")
    digest = b64encode(sha256(f"\n{script}".encode()).digest()).decode()
    # (within a script only `<` could be taken for its end)
    known = json.dumps(known_of(picture), separators=(",", ":")).replace("<", r"\u003c")
    return [PAGE.format(hash=f"sha256-{digest}", title=written(heading), style=part("page.css"), trace=known,
                        picture="\n".join(picture_of(picture, heading)), script=script)]
