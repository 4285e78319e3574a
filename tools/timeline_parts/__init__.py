"""What tools/timeline is made of.

    traces.py      reads a trace, and tells what stands at the addresses in it
    items.py       the rows, and the bars and marks in them
    picture.py     the picture: where all of it stands, as shapes of SVG
    page.py        the interactive page: the same picture, with what its script wants to know
    page.css       how the page looks
    plot.js        draws bars, marks and scales for the part of the clock that is shown
    page.js        what wheel, pointer and keys do, what is told of a bar, and the list of a row

What stands at an address is told by tools/moments.
"""
