"""Reads published text forms of packing instances.

Known are the instance texts of `pack`; JSON with a list of items (`Items` with `Length`, `Height`,
`Demand`, `Value`, and `Objects` with `Length`, `Height`, or their common other names); and columns of
numbers: the count of items, the sides of the container (one of a strip), then a line for each item.
Words after the numbers of a line are skipped. A file may hold several problems, if it begins with
their count.

Columns of an item: `w h`; `w h value`; `number w h`; `w h most value`; `number w h demand`;
`w h least most value`; `number w h demand most value`. A knapsack takes the most copies of an item,
every other job its demand.
"""
import re
from dataclasses import dataclass
from typing import Optional

from .errors import QuestionRefused
from .exchange import read_json
from .instance import MAX_BOXES, Instance, first_word, parse_instance
from .question import JOBS


@dataclass(frozen=True)
class Problem:
    """One instance with its name, and the job of its name or form, if either has one."""

    name: str
    job: Optional[str]
    instance: Instance


@dataclass(frozen=True)
class Item:
    """An item of a published form: how many are wanted, and how many may be taken at most."""

    sides: tuple
    demand: int = 1
    most: int = 1
    value: int = 1

    def count(self, job):
        """How many of it the job has."""
        return self.most if job == "knapsack" else self.demand or self.most


@dataclass(frozen=True)
class Draft:
    """What a published form has: the job that it looks like, the container, the items."""

    name: str
    job: str
    container: tuple
    items: tuple

    def problem(self, job):
        """The problem for this job, else for the one in the name, else for the one that it looks like."""
        job = job or job_of_name(self.name) or self.job
        return Problem(self.name, job, make_instance(job, self.container, self.items, self.name))


def read_problems(text, name, job=None):
    """The problems in the text of a file. `job` overrides the job of name and form."""
    if first_word(text) == "format":
        return [Problem(name, job or job_of_name(name), parse_instance(text))]
    if text.lstrip("\ufeff \r\n\t").startswith("{"):
        drafts = [draft_of_json(read_json(text, name), name)]
    else:
        drafts = drafts_of_columns(number_lines(text), name)
    return [it.problem(job) for it in drafts]


def job_of_name(name):
    """The job that stands in a file name as a word between marks."""
    words = re.split(r"[^a-z]+", name.lower())
    return next((it for it in JOBS if it in words), None)


def make_instance(job, container, items, name):
    """An instance of items. A strip's last container side isn't looked at, and may be missing."""
    count = sum(it.count(job) for it in items)
    if not 1 <= count <= MAX_BOXES:
        raise QuestionRefused(f"{name} has {count} boxes", f"1 to {MAX_BOXES} can be asked")
    is_open = len(container) < len(items[0].sides)
    if is_open and job != "strip":
        raise QuestionRefused(f"{name} has a container of one side", f"ask strip of it, and not {job}")
    sides = (*container, 1) if is_open else tuple(container)
    boxes = [it.sides for it in items for _ in range(it.count(job))]
    values = [it.value for it in items for _ in range(it.count(job))]
    return Instance(sides, (0,) * len(sides), tuple(boxes), tuple(values))


# JSON

WIDE = ("length", "width", "w", "l")
HIGH = ("height", "h", "width")
DEEP = ("depth", "d")
VALUE = ("value", "profit")


def folded(found):
    """An object with its keys in small letters."""
    return {key.lower(): it for key, it in found.items()} if isinstance(found, dict) else {}


def first_of(found, names, default=None):
    """The first of these entries that is there and isn't null."""
    return next((found[it] for it in names if found.get(it) is not None), default)


def sides_of(found, name):
    """The sides of an item or an object: two, or three with a depth."""
    wide = next((it for it in WIDE if found.get(it) is not None), None)
    high = next((it for it in HIGH if it != wide and found.get(it) is not None), None)
    deep = next((it for it in DEEP if found.get(it) is not None), None)
    keys = [it for it in (wide, high, deep) if it]
    if wide is None:
        raise QuestionRefused(f"{name} has an item without sides", "give Length and Height")
    return tuple(int(found[it]) for it in keys)


def draft_of_json(found, name):
    """The draft of a JSON object with items and objects."""
    top = folded(found)
    items = first_of(top, ("items", "pieces", "boxes", "rectangles"))
    objects = first_of(top, ("objects", "bins", "bin", "container", "strip", "object"))
    if not isinstance(items, list) or not items or not objects:
        raise QuestionRefused(f"{name} isn't a published form", "it needs lists of Items and Objects")
    container = sides_of(folded(objects[0] if isinstance(objects, list) else objects), name)
    rows = tuple(item_of_json(folded(it), name) for it in items)
    has_values = any(first_of(folded(it), VALUE) is not None for it in items)
    is_strip = len(container) < len(rows[0].sides)
    return Draft(name, "strip" if is_strip else "knapsack" if has_values else "bins", container, rows)


def item_of_json(found, name):
    """An item of a JSON object."""
    demand = int(first_of(found, ("demand", "quantity"), 1))
    most = int(first_of(found, ("demandmax", "copies"), demand))
    return Item(sides_of(found, name), demand, most, int(first_of(found, VALUE, 1)))


# Columns

def number_lines(text):
    """The leading numbers of each line that begins with one."""
    lines = []
    for line in text.split("\n"):
        found = re.match(r"\s*((?:-?\d+(?:\.\d+)?[\s,;]+)*-?\d+(?:\.\d+)?)(?=[\s,;]|$)", line)
        if found:
            lines.append([int(float(it)) for it in re.split(r"[\s,;]+", found[1].strip())])
    return lines


def drafts_of_columns(lines, name):
    """One draft, or several after their count."""
    whole = one_draft(lines, 0, name)
    if whole and whole[1] == len(lines):
        return [whole[0]]
    if lines and len(lines[0]) == 1:
        found, at = [], 1
        for count in range(1, lines[0][0] + 1):
            one = one_draft(lines, at, f"{name}-{count}")
            if not one:
                break
            found.append(one[0])
            at = one[1]
        if len(found) == lines[0][0] and at == len(lines):
            return found
    raise QuestionRefused(f"{name} isn't a known form of columns",
                          "the count of items, the sides of the container, a line for each item")


def one_draft(lines, at, name):
    """The draft that begins at a line, and the line after it. None where none does."""
    if at + 1 >= len(lines) or len(lines[at]) != 1 or len(lines[at + 1]) > 2:
        return None
    count, container = lines[at][0], lines[at + 1]
    rows = lines[at + 2:at + 2 + count]
    if count < 1 or len(rows) < count or len({len(it) for it in rows}) != 1:
        return None
    items = items_of_columns(rows)
    if items is None:
        return None
    has_values = any(it.value != 1 for it in items)
    job = "strip" if len(container) == 1 else "knapsack" if has_values else "bins"
    return Draft(name, job, tuple(container), tuple(items)), at + 2 + count


def items_of_columns(rows):
    """The items of rows of equal length; None where the length isn't known."""
    is_numbered = [it[0] for it in rows] in (list(range(len(rows))), list(range(1, len(rows) + 1)))
    width = len(rows[0])
    if width == 2:
        return [Item((w, h)) for w, h in rows]
    if width == 3 and is_numbered:
        return [Item((w, h)) for _, w, h in rows]
    if width == 3:
        return [Item((w, h), value=v) for w, h, v in rows]
    if width == 4 and is_numbered:
        return [Item((w, h), n, n) for _, w, h, n in rows]
    if width == 4:
        return [Item((w, h), n, n, v) for w, h, n, v in rows]
    if width == 5:
        return [Item((w, h), least, most, v) for w, h, least, most, v in rows]
    if width == 6 and is_numbered:
        return [Item((w, h), demand, most, v) for _, w, h, demand, most, v in rows]
    return None
