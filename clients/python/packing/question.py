"""Questions: the user's boxes with names, quantities and decimals, and the instance made of them."""
from dataclasses import dataclass, field, replace
from decimal import Decimal
from typing import Optional, Tuple

from .errors import QuestionRefused
from .instance import MAX_BOXES, MAX_VALUE, Instance
from .units import Scale, choose_scale, fits_range, plain, to_decimal

JOBS = ("fit", "strip", "bins", "knapsack")


@dataclass(frozen=True)
class Box:
    """Boxes of one kind: sides in the user's unit, a name, what each is worth, how many there are."""

    sides: Tuple
    name: str = ""
    value: int = 1
    quantity: int = 1


@dataclass(frozen=True)
class Question:
    """A job, its single boxes in the user's unit, and the instance in whole numbers.

    `notes` has in words what the answer depends on, such as a rounding.
    """

    job: str
    container: Tuple
    kerf: Tuple
    boxes: Tuple[Box, ...]
    scales: Tuple[Scale, ...]
    instance: Instance
    notes: Tuple[str, ...] = field(default=())

    def is_rounded(self):
        """Whether a side was rounded."""
        return any(it.is_rounded for it in self.scales)


def refuse(cause, cure):
    """Raises a refusal of the question."""
    raise QuestionRefused(cause, cure)


def ask(job, container, boxes, kerf=None, names=None, quantities=None, values=None, turnable=False):
    """The question of these boxes: sequences of sides, or `Box`. Lists go box by box."""
    if job not in JOBS:
        refuse(f"the job is {job!r}", f"one of {', '.join(JOBS)}")
    kinds = box_kinds(boxes, names, quantities, values)
    dims = len(kinds[0].sides)
    container = side_tuple(container, "a side of the container")
    if len(container) == dims - 1 and job == "strip":
        container = (*container, Decimal(1))
    if len(container) != dims or not 2 <= dims <= 4:
        refuse(f"the container has {len(container)} sides and the first box {dims}",
               "give 2 to 4 sides, as many of each (a strip may leave out its last)")
    return make_question(job, container, kerf_tuple(kerf, dims), single_boxes(kinds), turnable)


def box_kinds(boxes, names, quantities, values):
    """The boxes as `Box`, with the entries of the lists that stand beside them."""
    boxes = list(boxes)
    if not boxes:
        refuse("there is no box", "give at least one")
    for label, listed in (("names", names), ("quantities", quantities), ("values", values)):
        if listed is not None and len(listed) != len(boxes):
            refuse(f"{len(listed)} {label} for {len(boxes)} boxes", "give one for each box, or none")
    kinds = []
    for at, it in enumerate(boxes):
        box = it if isinstance(it, Box) else Box(tuple(it))
        box = replace(box, sides=side_tuple(box.sides, f"a side of box {at + 1}"))
        for label, listed in (("name", names), ("quantity", quantities), ("value", values)):
            if listed is not None:
                box = replace(box, **{label: listed[at]})
        kinds.append(checked_kind(box, at, len(kinds[0].sides) if kinds else len(box.sides)))
    return kinds


def checked_kind(box, at, dims):
    """The box, if its numbers are in range."""
    what = f"box {at + 1}" + (f" ({box.name})" if box.name else "")
    if len(box.sides) != dims:
        refuse(f"{what} has {len(box.sides)} sides, and the first box {dims}", "give the same number")
    if not is_whole(box.quantity) or box.quantity < 1:
        refuse(f"{what} has the quantity {box.quantity!r}", "give a whole number from 1 on")
    if not is_whole(box.value) or not 0 <= box.value <= MAX_VALUE:
        refuse(f"{what} has the value {box.value!r}", f"give a whole number from 0 to {MAX_VALUE:,}")
    return replace(box, name=str(box.name or f"box {at + 1}"))


def is_whole(number):
    """Whether it is an int, and no bool."""
    return isinstance(number, int) and not isinstance(number, bool)


def side_tuple(sides, what):
    """Positive decimals."""
    found = tuple(to_decimal(it, what) for it in sides)
    for it in found:
        if it <= 0:
            refuse(f"{what} is {plain(it)}", "give a side greater than 0")
    return found


def kerf_tuple(kerf, dims):
    """The kerf in each dimension; one number stands for all."""
    given = kerf if isinstance(kerf, (list, tuple)) else [kerf or 0] * dims
    if len(given) != dims:
        refuse(f"{len(given)} kerfs for {dims} dimensions", "give one for each, or one number for all")
    found = tuple(to_decimal(it, "the kerf") for it in given)
    if any(it < 0 for it in found):
        refuse("a kerf is less than 0", "give 0 or more")
    return found


def single_boxes(kinds):
    """Each box once, as often as its quantity says."""
    count = sum(it.quantity for it in kinds)
    if count > MAX_BOXES:
        refuse(f"{count} boxes are more than {MAX_BOXES}",
               "split the list, or treat several equal boxes as one")
    return tuple(replace(it, quantity=1) for it in kinds for _ in range(it.quantity))


def make_question(job, container, kerf, boxes, turnable=False):
    """Chooses the units and makes the instance. Turnable boxes need one unit for sides 1 and 2."""
    open_sides = 1 if job == "strip" else 0
    scales = choose_scales(container[:len(container) - open_sides], kerf, boxes, turnable)
    whole = [it.down(side) for it, side in zip(scales, container)]
    if open_sides:
        whole[-1] = 1
    if min(whole) < 1:
        refuse("the container is less than one unit wide", "give a greater container")
    instance = Instance(tuple(whole), tuple(it.up(k) for it, k in zip(scales, kerf)),
                        tuple(tuple(it.up(s) for it, s in zip(scales, box.sides)) for box in boxes),
                        tuple(it.value for it in boxes))
    return Question(job, tuple(map(plain, container)), tuple(map(plain, kerf)),
                    tuple(replace(it, sides=tuple(map(plain, it.sides))) for it in boxes),
                    scales, instance, rounding_notes(scales))


def choose_scales(container, kerf, boxes, turnable):
    """The scale of each dimension; `container` has the sides that aren't open.

    All dimensions share the finest unit where that is possible without rounding.
    """
    given = []
    for at in range(len(kerf)):
        axes = (0, 1) if turnable and at < 2 else (at,)
        lengths = [it.sides[axis] for it in boxes for axis in axes]
        sides = [container[axis] for axis in axes if axis < len(container)]
        given.append((lengths, sides, max(kerf[axis] for axis in axes)))
    scales = tuple(choose_scale(*it) for it in given)
    finest = min(scales, key=lambda it: it.unit)
    is_common = finest.unit <= 1 and not any(it.is_rounded for it in scales)
    if is_common and all(fits_range(finest.unit, *it) for it in given):
        return (finest,) * len(scales)
    return scales


def rounding_notes(scales):
    """What was rounded, in words."""
    return tuple(f"side {at} of all boxes is rounded up to multiples of {plain(it.unit)}, and of the "
                 "container down: a packing holds, a bound is one of the rounded sides"
                 for at, it in enumerate(scales, 1) if it.is_rounded)


def lengths_back(question, numbers):
    """Whole numbers of units in each dimension, in the user's unit."""
    return tuple(scale.back(it) for scale, it in zip(question.scales, numbers))


def level_back(question, level) -> Optional[object]:
    """A level in the user's unit: of a strip a length, else the number itself."""
    if level is None or question.job != "strip":
        return level
    return question.scales[-1].back(level)
