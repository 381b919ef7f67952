"""Pieces of an SVG page: A4 across, in millimetres, dark on light so that it can be printed."""
from dataclasses import dataclass
from math import floor, log10
from xml.sax.saxutils import escape, quoteattr

WIDTH, HEIGHT = 297.0, 210.0
MARGIN = 12.0
CHARACTER = 0.62
LEAST_FONT, MOST_FONT = 2.1, 4.2
INK, GREY, ALARM = "#222222", "#666666", "#b00020"
FILLS = ("#cfe3f5", "#fbe0c3", "#d5ecd0", "#f7d4dc", "#e4dcf1", "#fdf3c0", "#cdeeea", "#ead9c9",
         "#e3e9c6", "#d9dee6")


def number(value):
    """A coordinate on paper, with as few digits as it needs."""
    return f"{float(value):.3f}".rstrip("0").rstrip(".")


def shown(value):
    """A length as people write it: at most three decimals."""
    return f"{float(value):.3f}".rstrip("0").rstrip(".") if value != int(value) else str(int(value))


def legal(words):
    """Words without the characters that XML doesn't allow."""
    return "".join(it for it in words if it in "\t\n" or " " <= it <= "\ud7ff" or "\ue000" <= it <= "\ufffd"
                   or it > "\uffff")


def element(tag, content="", **attributes):
    """An element; `_` in names of attributes stands for `-`. Content is markup already."""
    parts = []
    for name, it in attributes.items():
        if it is not None:
            value = quoteattr(legal(it) if isinstance(it, str) else number(it))
            parts.append(f" {name.strip('_').replace('_', '-')}={value}")
    return f"<{tag}{''.join(parts)}>{content}</{tag}>" if content else f"<{tag}{''.join(parts)}/>"


def text(x, y, words, size, anchor="middle", colour=INK, turned=False, weight=None):
    """A line of text whose baseline begins, ends or is centred at a point."""
    how = f"rotate(-90 {number(x)} {number(y)})" if turned else None
    return element("text", escape(legal(words)), x=x, y=y, font_size=size, text_anchor=anchor, fill=colour,
                   font_weight=weight, transform=how)


def line(x1, y1, x2, y2, width=0.25, colour=INK):
    """A straight line."""
    return element("line", x1=x1, y1=y1, x2=x2, y2=y2, stroke=colour, stroke_width=width)


def page(content, title, number_of_page=1):
    """A whole SVG of one page."""
    hatch = element("pattern", line(0, 0, 0, 3, 0.25, "#c4c4c4"), id=f"waste{number_of_page}",
                    width=3, height=3, patternUnits="userSpaceOnUse", patternTransform="rotate(45)")
    body = (element("title", escape(legal(title))) + element("defs", hatch)
            + element("rect", width=WIDTH, height=HEIGHT, fill="#ffffff") + content)
    return element("svg", body, xmlns="http://www.w3.org/2000/svg", width=f"{number(WIDTH)}mm",
                   height=f"{number(HEIGHT)}mm", viewBox=f"0 0 {number(WIDTH)} {number(HEIGHT)}",
                   font_family="DejaVu Sans, Helvetica, Arial, sans-serif") + "\n"


def heading(title, subtitle, footer):
    """The title and the line below it at the top, and a small line at the foot of a page."""
    return (text(MARGIN, 16, title, 6, "start", weight="bold") + text(MARGIN, 22.5, subtitle, 3.5, "start")
            + text(WIDTH - MARGIN, HEIGHT - 6, footer, 2.6, "end", GREY))


def round_length(length):
    """The greatest of 1, 2 and 5 times a power of ten that is at most a length."""
    power = 10.0 ** floor(log10(length))
    return next(it * power for it in (5, 2, 1) if it * power <= length * 1.0000001)


@dataclass(frozen=True)
class Label:
    """Lines of text for a tile, their size, and whether they run upwards."""

    lines: tuple
    size: float
    turned: bool = False


def fit_label(lines, width, height):
    """The label that is read best in a tile: all lines, below one another or in a row; else the first.

    None where even that is too small to read.
    """
    for forms in ((tuple(lines), (" · ".join(lines),)), (tuple(lines[:1]),)):
        found = [label_of(form, width, height, turned) for form in forms for turned in (False, True)]
        best = max(found, key=lambda it: it.size)
        if best.size >= LEAST_FONT:
            return best
    return None


def label_of(lines, width, height, turned):
    """The label with these lines, as large as the tile allows."""
    along, across = (height, width) if turned else (width, height)
    longest = max(map(len, lines))
    size = min(MOST_FONT, (along - 1.4) / (CHARACTER * (longest + 0.7)), (across - 0.8) / (1.25 * len(lines)))
    return Label(lines, size, turned)


def draw_label(label, x, y):
    """A label centred at a point."""
    drawn, count = [], len(label.lines)
    for at, words in enumerate(label.lines):
        shift = (at - (count - 1) / 2) * 1.25 * label.size + 0.36 * label.size
        size = label.size if at == 0 else label.size * 0.92
        place = (x + shift, y) if label.turned else (x, y + shift)
        drawn.append(text(*place, words, size, turned=label.turned))
    return "".join(drawn)
