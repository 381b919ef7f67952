"""Reads tables of boxes: CSV as spreadsheets and editors write it.

Separators are `;`, `,` or tab, decimals have a point or a comma, fields may be quoted; a byte order
mark, CR LF and blank lines are skipped. The first line names the columns, in any order and case.
"""
import csv
import io
from decimal import Decimal, InvalidOperation

from .errors import ReadFault, TableRefused
from .question import Box

NAMES = ("name", "part", "label", "item", "article", "id", "job", "box", "carton", "description")
COUNTS = ("quantity", "qty", "count", "number", "pieces", "pcs", "n", "times", "amount")
VALUES = ("value", "worth", "price", "profit")
FIRST = ("length", "l", "x", "long", "side 1", "side1")
SECOND = ("width", "w", "y", "wide", "side 2", "side2")
THIRD = ("height", "h", "z", "high", "side 3", "side3")
MAX_BYTES = 1 << 20


def read_table(path, sides, optional=()):
    """The boxes of a CSV file. `sides` has, for each side, the column names that it may have.

    `optional` has the numbers of the sides that are 1 where their column is missing.
    """
    return parse_table(read_text(path), path, sides, optional)


def read_text(path):
    """The text of a file, without a byte order mark; bytes that aren't UTF-8 are read as Latin-1."""
    try:
        with open(path, "rb") as it:
            raw = it.read(MAX_BYTES + 1)
    except OSError as fault:
        raise ReadFault(f"{path} can't be read ({fault.strerror})", "name a file that exists") from fault
    if len(raw) > MAX_BYTES:
        raise TableRefused(f"{path} is longer than 1 MiB", "name the table of boxes")
    if raw.startswith((b"\xff\xfe", b"\xfe\xff")):
        return raw.decode("utf-16", "replace")
    try:
        return raw.decode("utf-8-sig")
    except UnicodeDecodeError:
        return raw.decode("latin-1")


def parse_table(text, path, sides, optional=()):
    """The boxes of a CSV text; `path` is its name in messages."""
    rows = rows_of(text)
    if not rows:
        raise TableRefused(f"{path} is empty", "give a line of column names and a line for each box")
    columns = columns_of(rows[0][1], path, sides, optional)
    boxes = [box_of(row, f"{path}, line {number}", columns, len(sides)) for number, row in rows[1:]]
    if not boxes:
        raise TableRefused(f"{path} has no box", "give a line for each box below the column names")
    return boxes


def separator_of(line):
    """The separator that the line of column names has most often; `,` where it has none."""
    return max(",;\t", key=line.count)


def rows_of(text):
    """The rows that aren't blank, each with the number of its line."""
    lines = text.lstrip("\ufeff").replace("\r\n", "\n").replace("\r", "\n")
    head = next((it for it in lines.split("\n") if it.strip()), "")
    reader = csv.reader(io.StringIO(lines), delimiter=separator_of(head), skipinitialspace=True)
    rows = []
    for row in reader:
        fields = [it.strip().replace("\u00a0", " ") for it in row]
        if any(fields):
            rows.append((reader.line_num, fields))
    return rows


def columns_of(header, path, sides, optional):
    """The position of each column that is known: sides by number, `name`, `quantity`, `value`."""
    named = {it.lower().split("(")[0].split("[")[0].strip(): at
             for at, it in reversed(list(enumerate(header)))}
    columns, missing = {}, []
    wanted = [(at, names) for at, names in enumerate(sides)]
    for key, names in [*wanted, ("name", NAMES), ("quantity", COUNTS), ("value", VALUES)]:
        at = next((named[it] for it in names if it in named), None)
        if at is not None:
            columns[key] = at
        elif key not in ("name", "quantity", "value") and key not in optional:
            missing.append(names[0])
    if missing:
        example = ",".join(["name", *(it[0] for it in sides), "quantity"])
        raise TableRefused(f"{path} has no column {' and no column '.join(missing)} "
                           f"(its first line is {' | '.join(header)})",
                           f"name the columns in the first line, as in {example}")
    return columns


def box_of(row, where, columns, dims):
    """The box of one row."""
    def field(key):
        at = columns.get(key)
        return row[at] if at is not None and at < len(row) else ""

    sides = []
    for at in range(dims):
        text = field(at) if at in columns else "1"
        sides.append(positive(text, f"{where}: side {at + 1}"))
    return Box(tuple(sides), field("name"), whole(field("value"), f"{where}: value", 0),
               whole(field("quantity"), f"{where}: quantity", 1))


def decimal_of(text, what):
    """A decimal with a point or a comma. Marks for thousands are refused, since they may be either."""
    cleaned = text.strip().strip("'").replace(" ", "")
    if cleaned.count(",") + cleaned.count(".") > 1:
        raise TableRefused(f"{what} is {text!r}", "write it with one decimal mark, as 1200.5 or 1200,5")
    try:
        value = Decimal(cleaned.replace(",", "."))
    except InvalidOperation:
        value = None
    if value is None or not value.is_finite():
        cause = f"{what} is {text!r}" if text else f"{what} is missing"
        raise TableRefused(cause, "give a number without its unit")
    return value


def positive(text, what):
    """A decimal greater than 0."""
    value = decimal_of(text, what)
    if value <= 0:
        raise TableRefused(f"{what} is {text}", "give a number greater than 0")
    return value


def whole(text, what, least):
    """A whole number; 1 where the field is empty."""
    if not text:
        return 1
    value = decimal_of(text, what)
    if value != value.to_integral_value() or value < least:
        raise TableRefused(f"{what} is {text}", f"give a whole number from {least} on")
    return int(value)


def parse_sides(text, counts, what):
    """The sides in `2800x2070`, with `x`, `*` or `×` between them; as many as one of `counts`."""
    parts = text.lower().replace("×", "x").replace("*", "x").split("x")
    if len(parts) not in counts:
        wanted = " or ".join(map(str, counts))
        raise TableRefused(f"{what} is {text!r}", f"give {wanted} sides, as in 2800x2070")
    return tuple(positive(it, what) for it in parts)


def thousands_notes(boxes):
    """A note where a side has three decimals: a comma may have been meant for thousands."""
    odd = [f"{side}" for box in boxes for side in box.sides
           if Decimal(side).as_tuple().exponent == -3]
    if not odd:
        return ()
    return (f"a side was read as {odd[0]}: a comma or a point is a decimal mark here",)
