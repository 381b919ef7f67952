"""What a load needs beside lying apart: boxes let down, and how much of each bottom is held."""
from dataclasses import replace

from .answer import answer_of
from .document import parse_document, with_spots
from .errors import TimeIsUp
from .program import verify_text


def let_down(answer, axis, seconds):
    """The answer with its boxes let down, verified again; as it is where there is no time for that."""
    if not answer.placements:
        return answer
    document = parse_document(answer.document)
    text = with_spots(document, drop_spots(document.instance, document.spots, axis))
    try:
        verdict = verify_text(text, seconds)
    except TimeIsUp:
        return replace(answer, notes=(*answer.notes, "boxes weren't let down, for want of time"))
    settled = answer_of(answer.question, text, verdict)
    turned = {it.box: it.turned for it in answer.placements}
    placements = tuple(replace(it, turned=turned[it.box]) for it in settled.placements)
    return replace(answer, document=text, verdict=verdict, placements=placements)


def drop_spots(instance, spots, axis):
    """The spots with each box let down along a dimension until it meets a box or the floor.

    Boxes go in the order of their height, so a box meets those below it where they came to rest. The
    kerf is kept in each dimension. The result is a packing again; a checker is to verify it.
    """
    rested = []
    for spot in sorted(spots, key=lambda it: (it.corner[axis], it.box)):
        floor = 0
        for below in rested:
            if below.container == spot.container and is_over(instance, below, spot, axis):
                top = below.corner[axis] + instance.boxes[below.box - 1][axis] + instance.kerf[axis]
                floor = max(floor, top)
        corner = [*spot.corner]
        corner[axis] = min(floor, corner[axis])
        rested.append(replace(spot, corner=tuple(corner)))
    return tuple(sorted(rested, key=lambda it: it.box))


def is_over(instance, one, other, axis):
    """Whether two spots, with their kerfs, overlap in all dimensions but one."""
    for i in range(len(instance.container)):
        first = one.corner[i] + instance.boxes[one.box - 1][i] + instance.kerf[i]
        second = other.corner[i] + instance.boxes[other.box - 1][i] + instance.kerf[i]
        if i != axis and (first <= other.corner[i] or second <= one.corner[i]):
            return False
    return True


def support_of(placement, placements):
    """The part of a box's bottom, from 0 to 1, that lies on the floor or on boxes below it."""
    if placement.corner[2] == 0:
        return 1.0
    held = 0
    for other in placements:
        is_below = other.container == placement.container and other.box != placement.box
        if is_below and other.corner[2] + other.sides[2] == placement.corner[2]:
            held += shared(placement, other, 0) * shared(placement, other, 1)
    return float(held) / float(placement.sides[0] * placement.sides[1])


def shared(one, other, i):
    """The length that two placements share in one dimension."""
    end = min(one.corner[i] + one.sides[i], other.corner[i] + other.sides[i])
    return max(0, end - max(one.corner[i], other.corner[i]))


def supports(placements):
    """The support of each placement, by the number of its box."""
    return {it.box: support_of(it, placements) for it in placements}
