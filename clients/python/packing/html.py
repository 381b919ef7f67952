"""One HTML page with all pictures, a page of paper each, and the list of all placements."""
from xml.sax.saxutils import escape

from .paper import legal

STYLE = """@page { size: A4 landscape; margin: 0 }
body { font-family: sans-serif; margin: 1.5em; color: #222 }
svg { display: block; width: 100%; max-width: 297mm; height: auto; border: 1px solid #ccc; margin: 1em 0 }
table { border-collapse: collapse; margin: 1em 0 }
th, td { border: 1px solid #999; padding: 0.2em 0.6em; text-align: right }
td:first-child, th:first-child { text-align: left }
.warning { color: #b00020 }
@media print { body { margin: 0 } svg { border: 0; margin: 0; break-after: page; width: 297mm }
header, section { padding: 12mm } }"""


def cells(row):
    """The cells of a row of the table."""
    return "".join(f"<td>{escape(legal(str(it)))}</td>" for it in row)


def html_page(title, sentences, warnings, pages, header, rows):
    """The page: what was answered in sentences, the pictures, and the rows of the placements."""
    said = "".join(f"<p>{escape(it)}</p>" for it in sentences)
    said += "".join(f'<p class="warning">{escape(it)}</p>' for it in warnings)
    head = "".join(f"<th>{escape(it)}</th>" for it in header)
    body = "".join(f"<tr>{cells(row)}</tr>\n" for row in rows)
    return (f'<!DOCTYPE html>\n<html lang="en"><head><meta charset="utf-8"/><title>{escape(title)}</title>'
            f"<style>{STYLE}</style></head>\n<body><header><h1>{escape(title)}</h1>{said}</header>\n"
            f"{''.join(pages)}<section><h2>All boxes</h2><table><tr>{head}</tr>\n{body}</table></section>"
            "</body></html>\n")
