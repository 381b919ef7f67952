"""Writes what a command made: pictures, tables, JSON, documents. `-` is standard output."""
import csv
import io
import os
import sys

from .errors import WriteFault


def write_text(path, content):
    """Writes a text to a file, or to standard output."""
    try:
        if path == "-":
            sys.stdout.write(content)
            sys.stdout.flush()
        else:
            with open(path, "w", encoding="utf-8", newline="") as it:
                it.write(content)
    except OSError as fault:
        raise WriteFault(f"{path} can't be written ({fault.strerror})",
                         "name a file in a folder that you may write to") from fault


def csv_text(header, rows):
    """Rows as CSV, with commas and line feeds."""
    out = io.StringIO()
    writer = csv.writer(out, lineterminator="\n")
    writer.writerow(header)
    writer.writerows(rows)
    return out.getvalue()


def write_pages(path, pages):
    """Writes one SVG a page: to `plan.svg`, or of several to `plan-1.svg` and on. The paths."""
    if len(pages) == 1 or path == "-":
        write_text(path, "".join(pages))
        return [path]
    base, ending = os.path.splitext(path)
    paths = [f"{base}-{at}{ending or '.svg'}" for at in range(1, len(pages) + 1)]
    for one, content in zip(paths, pages):
        write_text(one, content)
    return paths
