"""The pictures of a page: a drawing with its labels in sight, and the same in pieces for paper."""

import xml.etree.ElementTree as ET

from .forms import LINE, MARGIN, Form, picture_of

HELD = '<p class="count">A number is the reservation that holds the unit from there on, up to the end of its bar.</p>\n'
# The columns of a piece.
PIECE = 40


def text_of(root: ET.Element) -> str:
    """A picture as a part of a page."""
    return ET.tostring(root, encoding="unicode")


def pair(form: Form, said: str) -> str:
    """A picture, and before it its labels once more, which stay in sight while it is scrolled; and the pieces."""
    labels, root = picture_of(form.left, form.height), picture_of(form.width, form.height)
    root.attrib.update({"role": "img", "aria-label": said, "viewBox": f"0 0 {form.width} {form.height}"})
    for row in form.labels:
        form.add_label(labels, row)
        form.add_label(root, row)
        form.add_row(root, row)
    drawn = f'<div class="labels" aria-hidden="true">{text_of(labels)}</div>\n{text_of(root)}'
    return f'<div class="pair">{drawn}</div>\n{pieces(form)}'


def pieces(form: Form) -> str:
    """The picture for paper: a piece for every 40 columns, with the rows that have something there."""
    count = len(form.events)
    drawn = "".join(text_of(piece(form, range(begin, min(begin + PIECE, count)))) for begin in range(0, count, PIECE))
    return f'<div class="pieces" aria-hidden="true">{drawn}</div>\n'


def piece(form: Form, columns: range) -> ET.Element:
    """The picture of some columns."""
    rows = form.rows_in(columns)
    width, height = form.left + form.column * len(columns) + MARGIN, LINE * len(rows) + MARGIN
    root = picture_of(width, height)
    root.set("viewBox", f"0 0 {width} {height}")
    for at, row in enumerate(rows, 1):
        form.add_label(root, row, LINE * at)
        form.add_row(root, row, LINE * at, columns)
    return root


def units(form: Form, name: str = "") -> str:
    """The picture with a row for each unit, by itself or of the session with this name."""
    axis = "minor cycle" if form.is_timed else "event"
    return pair(form, f"The units{' of ' * bool(name)}{name}, a column for each {axis}")
