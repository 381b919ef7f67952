#!/usr/bin/env python3
"""A second checker of the documents of `pack`, written from docs/FORMATS.md and docs/DEFINITIONS.md.

  clients/check.py check < DOCUMENT     prints the line of `pack check`, and ends with its status
  clients/check.py audit < DOCUMENT     prints the line of `pack audit`, and ends with its status

It shares no code with `pack` and needs Python 3.9 or later alone. Boxes, dimensions and bins are counted
from 0 in the code, and from 1 in documents.
"""
import re
import sys
from bisect import bisect_right
from dataclasses import dataclass
from functools import partial, reduce
from itertools import accumulate, combinations
from math import prod
from operator import and_, or_

LIMITS = {"check": 1_099_511_627_776, "audit": 16_777_216}
MAX_BOXES, MAX_SIDE, MAX_KERF, MAX_VALUE = 128, 1_000_000, 100_000, 1_000_000_000
MAX_HEIGHT, MAX_LEVEL, MAX_PARAMETER = MAX_BOXES * MAX_SIDE, MAX_BOXES * MAX_VALUE + 1, 4_294_967_295


class Refused(Exception):
    """The verdict on a line that can't stand in its place: its number, and the reason in one word or more."""


class Stopped(Exception):
    """Why no verdict was reached: the message, and the status."""


# Lines, words and numbers


@dataclass(frozen=True)
class Line:
    """A line that isn't blank: its number and its words, or `None` for the words if it has a bad byte."""

    number: int
    words: "list[str] | None"

    def need(self, test, reason):
        """Refuses the line for this reason unless the test holds."""
        if not test:
            raise Refused(self.number, reason)

    def numbers(self, words, low=0, high=MAX_PARAMETER):
        """The values of words: `form` unless each is a number, `range` unless each is from `low` to `high`."""
        self.need(all(map(is_number, words)), "form")
        values = [int(word) for word in words]
        self.need(all(low <= value <= high for value in values), "range")
        return values


def is_number(word):
    return len(word) <= 20 and word.isdigit()


class Lines:
    """The lines of a stream of bytes that aren't blank, read one at a time and up to `limit` bytes in all."""

    def __init__(self, stream, limit):
        self.stream, self.left, self.number = stream, limit, 0

    def next_if_any(self):
        """The next line that isn't blank, or `None` at the end of the input."""
        while True:
            raw = self.stream.readline(self.left + 1)
            if len(raw) > self.left:
                raise Stopped("pack: input too long", 2)
            if not raw:
                return None
            self.left -= len(raw)
            self.number += 1
            content = raw.removesuffix(b"\n").removesuffix(b"\r").partition(b"#")[0]
            if re.search(rb"[^\t -~]", content):
                return Line(self.number, None)
            if words := content.decode("ascii").split():
                return Line(self.number, words)

    def next(self):
        """The next line, which must not be missing: the end of the input is `short`, one past the last line."""
        line = self.next_if_any()
        if line is None:
            raise Refused(self.number + 1, "short")
        return line

    def wanted(self):
        """The next line, which must not have a bad byte."""
        line = self.next()
        line.need(line.words is not None, "form")
        return line

    def of_tree(self):
        """The next line, which belongs to a tree: `end` comes too early there."""
        line = self.wanted()
        line.need(line.words != ["end"], "short")
        return line

    def finish(self, is_after=lambda words: False):
        """Reads the line `end`, and only blank lines behind it.

        `is_after` tests whether the words of another line belong to the tree that is whole.
        """
        line = self.wanted()
        line.need(not is_after(line.words), "after")
        line.need(line.words == ["end"], "form")
        if line := self.next_if_any():
            raise Refused(line.number, "after")


# The text of an instance


@dataclass(frozen=True)
class Instance:
    """Written sides, kerfs and values. `boxes` has the written sides of each box."""

    container: tuple
    kerf: tuple
    boxes: list
    values: list

    def problem(self, *last):
        """The working sides in the container whose last written sides are replaced by these."""
        container = self.container[: len(self.container) - len(last)] + last
        widths = [[box[i] + kerf for box in self.boxes] for i, kerf in enumerate(self.kerf)]
        return Problem([side + kerf for side, kerf in zip(container, self.kerf)], widths)


class InstanceText:
    """The lines of an instance text so far. A faulty line is refused with `text` and its code."""

    def __init__(self):
        self.format, self.container, self.kerf, self.boxes, self.values = None, None, None, [], []

    def take(self, line):
        line.need(line.words is not None, "text 8")
        word, count = line.words[0], len(line.words)
        line.need(word in ("format", "container", "box") or (word == "kerf" and self.format == 2), "text 1")
        line.need(word == "format" or self.format, "text 5")
        line.need(word in ("format", "container") or self.container, "text 5")
        line.need(word != "kerf" or not self.boxes, "text 5")
        line.need(word == "box" or getattr(self, word) is None, "text 6")
        line.need(word != "box" or len(self.boxes) < MAX_BOXES, "text 9")
        line.need(count in self.counts(word), "text 2")
        getattr(self, "take_" + word)(line, line.words[1:])

    def counts(self, word):
        """How many words a line with this first word may have."""
        sides = len(self.container or ()) + 1
        boxes = (sides, sides + 2, sides + 4)[: 3 if self.format == 2 else 2]
        return {"format": (2,), "container": (3, 4, 5), "kerf": (sides,), "box": boxes}[word]

    @staticmethod
    def number(line, word, low, high):
        line.need(is_number(word), "text 3")
        line.need(low <= int(word) <= high, "text 4")
        return int(word)

    def take_format(self, line, words):
        self.format = self.number(line, words[0], 1, 2)

    def take_container(self, line, words):
        self.container = tuple(self.number(line, word, 1, MAX_SIDE) for word in words)

    def take_kerf(self, line, words):
        highest = [min(MAX_KERF, MAX_SIDE - side) for side in self.container]
        self.kerf = tuple(self.number(line, word, 0, high) for word, high in zip(words, highest))

    def take_box(self, line, words):
        dims = len(self.container)
        kerf = self.kerf or (0,) * dims
        sides = tuple(self.number(line, word, 1, MAX_SIDE - k) for word, k in zip(words, kerf))
        names = {"value"} if self.format == 1 or len(words) == dims + 4 else {"value", "times"}
        value, times = 1, 1
        for name, word in zip(words[dims::2], words[dims + 1 :: 2]):
            line.need(name in names, "text 1")
            if name == "value":
                value = self.number(line, word, 0, MAX_VALUE)
            else:
                times = self.number(line, word, 1, MAX_BOXES)
                line.need(len(self.boxes) + times <= MAX_BOXES, "text 9")
            names = {"times"}
        self.boxes += [sides] * times
        self.values += [value] * times

    def end(self, line):
        """The instance, whose text ends before this line."""
        line.need(self.format and self.container, "text 7")
        line.need(self.boxes, "text 10")
        return Instance(self.container, self.kerf or (0,) * len(self.container), self.boxes, self.values)


def read_instance(lines):
    """The instance, and the result line behind it."""
    text = InstanceText()
    while (line := lines.next()).words is None or line.words[0] != "result":
        text.take(line)
    return text.end(line), line


def read_claim(result, counts):
    """The word of the claim and its numbers, of which there must be as many as `counts` says of the word."""
    word, *numbers = result.words[1:] or [None]
    result.need(counts.get(word) == len(numbers), "form")
    return word, result.numbers(numbers, high=MAX_LEVEL)


def spell(heading, word, numbers):
    return " ".join([heading, word, *map(str, numbers)])


# Places


def test_places(line, instance, container, groups):
    """Refuses the line unless the boxes of each group are a packing of a container of its own.

    A group is a list of a box and its coordinates. Every box is tested for leaving its container before
    any pair is tested for being apart.
    """
    for box, at in (it for group in groups for it in group):
        for i, (start, side, most) in enumerate(zip(at, instance.boxes[box], container)):
            line.need(start + side <= most, f"outside {box + 1} {i + 1}")
    for one, two in (pair for group in groups for pair in combinations(group, 2)):
        line.need(are_apart(instance, *one, *two), f"overlap {one[0] + 1} {two[0] + 1}")


def are_apart(instance, u, at_u, v, at_v):
    """Whether in some dimension one box ends at least the kerf before the start of the other."""
    sides = zip(at_u, instance.boxes[u], at_v, instance.boxes[v], instance.kerf)
    return any(x + a + kerf <= y or y + b + kerf <= x for x, a, y, b, kerf in sides)


def read_places(lines, instance, container, bins=None):
    """Reads a place for each box and tests them at the last one. With `bins` each has a bin number up to that."""
    groups = [[] for _ in range(bins or 1)]
    for box in range(len(instance.boxes)):
        line = lines.wanted()
        line.need(line.words[0] == "place", "form")
        line.need(len(line.words) == 1 + len(container) + bool(bins), "form")
        numbers = line.numbers(line.words[1:])
        number = numbers.pop(0) if bins else 1
        line.need(1 <= number <= len(groups), "range")
        groups[number - 1].append((box, numbers))
    test_places(line, instance, container, groups)


def read_taken(lines, instance, worth):
    """Reads the places of taken boxes, and at the line `proof` tests them and that they are worth enough."""
    taken = []
    while (line := lines.wanted()).words != ["proof"]:
        line.need(line.words[0] == "take" and len(line.words) == 2 + len(instance.container), "form")
        number, *at = line.numbers(line.words[1:])
        line.need((taken[-1][0] + 1 if taken else 0) < number <= len(instance.boxes), "range")
        taken.append((number - 1, at))
    test_places(line, instance, instance.container, [taken])
    line.need(sum(instance.values[box] for box, _ in taken) >= worth, "worth")


def read_proof(lines):
    line = lines.wanted()
    line.need(line.words == ["proof"], "form")


# Problems and conservative scales


@dataclass(frozen=True)
class Problem:
    """What a tree refutes: working sides, the container's `wholes[i]` and each box's `widths[i][box]`."""

    wholes: list
    widths: list

    def subset(self, boxes):
        return Problem(self.wholes, [[widths[box] for box in boxes] for widths in self.widths])

    @property
    def count(self):
        return len(self.widths[0])

    def has_long_side(self, i, box):
        return self.widths[i][box] > self.wholes[i]

    def weighs_too_much(self, i, boxes):
        """Whether the boxes are longer than the container where they stand in a row."""
        return sum(self.widths[i][box] for box in boxes) > self.wholes[i]


def is_legal(name, parameter, whole):
    if name == "step":
        return 1 <= parameter <= 16 and whole >= 1
    return name == "id" or (parameter >= 1 and 2 * parameter <= whole)


def scaled(name, parameter, whole):
    """The whole of a legal function, and the function that gives the image of a width."""
    if name == "id":
        return whole, lambda x: x
    if name == "step":
        k = parameter
        return k * whole, lambda x: k * x if (k + 1) * x % whole == 0 else (k + 1) * x // whole * whole
    if name == "cut":
        return whole, lambda x: 0 if x < parameter else x if x <= whole - parameter else whole
    full = whole // parameter
    return full, lambda x: 0 if x < parameter else 1 if 2 * x <= whole else full - (whole - x) // parameter


def test_excess(line, problem, functions, copies):
    """Refuses the line unless its tuple shows that so many containers don't hold the boxes."""
    line.need(all(is_legal(*it, whole) for it, whole in zip(functions, problem.wholes)), "range")
    line.need(all(max(row) <= whole for row, whole in zip(problem.widths, problem.wholes)), "excess")
    wholes, images = zip(*(scaled(*it, whole) for it, whole in zip(functions, problem.wholes)))
    volumes = (prod(image(side) for image, side in zip(images, sides)) for sides in zip(*problem.widths))
    line.need(sum(volumes) > copies * prod(wholes), "excess")


SHARES = 10**9  # the shares of the whole container


def test_price(line, problem, choice, goal, weights, functions):
    """Refuses the line unless what is in can't reach the goal with undecided boxes, priced by their shares.

    `choice` has the values of all boxes, the set of those that are in and the set of those that are out."""
    values, inside, outside = choice
    on_value, on_share = weights
    line.need(all(is_legal(*it, whole) for it, whole in zip(functions, problem.wholes)), "range")
    dims = range(len(problem.wholes))
    fitting = {box for box in range(problem.count) if not any(problem.has_long_side(i, box) for i in dims)}
    line.need(inside <= fitting, "excess")
    wholes, images = zip(*(scaled(*it, whole) for it, whole in zip(functions, problem.wholes)))
    whole = prod(wholes)
    volumes = {box: prod(image(row[box]) for image, row in zip(images, problem.widths)) for box in fitting}
    shares = {box: SHARES * volume // whole if whole else 0 for box, volume in volumes.items()}
    gains = (max(0, on_value * values[box] - on_share * shares[box]) for box in fitting - inside - outside)
    supply = on_value * sum(values[box] for box in inside) + on_share * SHARES + sum(gains)
    line.need(supply < on_value * goal + on_share * sum(shares[box] for box in inside), "excess")


def test_exchange(line, problem, choice, numbers):
    """Refuses the line unless its first box is out, its second is in, and the first comes before the second."""
    values, inside, outside = choice
    line.need(all(1 <= number <= problem.count for number in numbers), "range")
    u, v = (number - 1 for number in numbers)
    line.need(u in outside and v in inside and comes_before(problem, values, u, v), "choice")


def comes_before(problem, values, u, v):
    """Whether no side of box `u` is longer than that of `v` and its value no less; of equal boxes the first comes first."""

    def replaces(one, other):
        return values[one] >= values[other] and all(row[one] <= row[other] for row in problem.widths)

    return replaces(u, v) and (u < v or not replaces(v, u))


# Token lines

TOKENS = {"a": (3,), "d": (3,), "x": (0,), "t": (2,), "b": (1,), "c": (1,), "s": (0, 1), "w": (0,)}
BOUNDED = {**TOKENS, "e": (2,), "u": ()}  # `token_of` reads the weights and the tuple of `u`
FAMILIES = {**TOKENS, "k": range(2, 11)}  # a dimension, and 1 to 9 boxes
STEPS = {"pair": 2, "apart": 2, "triple": 3, "compose": 3, "cycle": 4, "order": 4}
EXPLAINED = {"a": (3,), "d": (3,), "x": (3,), "t": (2,), "chain": (3,), "on": (1,)}
EXPLAINED.update((name, (1 + boxes,)) for name, boxes in STEPS.items())


def token_of(words, kinds, dims):
    """The kind of a token line with its numbers or functions, or `None` if the words are no line of these kinds."""
    kind, rest = words[0], words[1:]
    if kind == "v" or (kind == "g" and kinds is not EXPLAINED):
        functions = functions_of(rest)
        return (kind, functions) if functions and len(functions) == dims else None
    if kind == "u" and kind in kinds:
        weights, functions = rest[:2], functions_of(rest[2:])
        are_all = all(map(is_parameter, weights)) and functions and len(functions) == dims
        return (kind, ([int(word) for word in weights], functions)) if are_all else None
    are_parameters = all(map(is_parameter, rest))
    return (kind, [int(word) for word in rest]) if len(rest) in kinds.get(kind, ()) and are_parameters else None


def is_parameter(word):
    return is_number(word) and int(word) <= MAX_PARAMETER


def functions_of(words):
    """The functions that the words name, each with its parameter, or `None`."""
    functions, rest = [], iter(words)
    for name in rest:
        parameter = "0" if name == "id" else next(rest, "")
        if name not in ("id", "step", "cut", "count") or not is_parameter(parameter):
            return None
        functions.append((name, int(parameter)))
    return functions


def read_token(lines, kinds, dims):
    """The next line of a tree with its token, and `form` if it has none."""
    line = lines.of_tree()
    token = token_of(line.words, kinds, dims)
    line.need(token, "form")
    return line, *token


def is_token(kinds, dims):
    """The test whether words are a token line, for what stands behind a whole tree."""
    return lambda words: token_of(words, kinds, dims) is not None


def test_long_side(line, problem, box, i, dims):
    """Refuses a line `t` unless side `i` of the box, both counted from 1, exceeds the container's."""
    line.need(1 <= box <= problem.count and 1 <= i <= dims, "range")
    line.need(problem.has_long_side(i - 1, box - 1), "side")


def edge_of(line, problem, i, u, v):
    """The dimension and the boxes of a line, counted from 0: `range` unless they exist and `u` is the lower one."""
    line.need(1 <= i <= len(problem.wholes) and 1 <= u < v <= problem.count, "range")
    return i - 1, u - 1, v - 1


# Relations

OVERLAP, BEFORE, AFTER = 1, 2, 4
ANY = OVERLAP | BEFORE | AFTER
MIRROR = {OVERLAP: OVERLAP, BEFORE: AFTER, AFTER: BEFORE}
PARTS = [[r for r in MIRROR if r & relations] for relations in range(ANY + 1)]  # the relations of each set
JOINED, APART = BEFORE | AFTER, OVERLAP
SURELY_BEFORE, SURELY_AFTER = OVERLAP | AFTER, OVERLAP | BEFORE
SPLITS = {"a": (APART, JOINED), "d": (AFTER, BEFORE)}


def bits(row):
    """The numbers whose bits are set in a row, rising."""
    while row:
        low = row & -row
        yield low.bit_length() - 1
        row ^= low


class Relations:
    """The relations that are excluded at a node.

    `out[r][i][u]` is a row of bits: bit `v` says that relation `r` of boxes `u`, `v` is excluded in
    dimension `i`. An exclusion always stands at its mirror too. `changed` collects the rows that grew.
    """

    def __init__(self, problem):
        self.problem, self.boxes, self.has_conflict = problem, range(problem.count), False
        self.out = {r: [[0] * problem.count for _ in problem.wholes] for r in MIRROR}
        self.changed = set()

    def with_exclusion(self, i, u, v, relations):
        """A copy in which these relations of the two boxes are excluded too."""
        copy = object.__new__(type(self))
        copy.__dict__.update(self.__dict__, changed=set())
        copy.out = {r: [row[:] for row in rows] for r, rows in self.out.items()}
        copy.exclude(i, u, 1 << v, relations)
        return copy

    def exclude(self, i, u, others, relations):
        """Excludes the relations between box `u` and each box of the row `others` but itself."""
        others &= ~(1 << u)
        for r in PARTS[relations]:
            if new := others & ~self.out[r][i][u]:
                self.out[r][i][u] |= new
                self.changed.add((i, u))
                for v in bits(new):
                    self.out[MIRROR[r]][i][v] |= 1 << u
                    self.changed.add((i, v))
                self.has_conflict = self.has_conflict or self.row(i, u, ANY) != 0

    def row(self, i, u, relations):
        """The boxes to which `u` has none of these relations."""
        row = -1
        for r in PARTS[relations]:
            row &= self.out[r][i][u]
        return row

    def is_out(self, i, u, v, relations):
        return bool(self.row(i, u, relations) >> v & 1)

    def mask(self, i, u, v):
        """The relations that aren't excluded."""
        return sum(r for r in MIRROR if not self.is_out(i, u, v, r))

    def may_split(self, kind, i, u, v):
        """Whether the mask is one that a split `a` or `d` takes apart."""
        mask = self.mask(i, u, v)
        return mask == BEFORE | AFTER if kind == "d" else bool(mask & OVERLAP) and mask != OVERLAP


# The closure under the seven rules


class Closure(Relations):
    """The closure of exclusions under the seven rules, up to the first conflict.

    PAIR depends on sides alone and comes first. The rows that grew are a worklist: for each, every rule
    but CHAIN is applied with its box in each part whose premises stand in that row. CHAIN waits until
    no other rule adds anything: then the pairs that are surely before are a partial order.
    """

    def __init__(self, problem, facts):
        super().__init__(problem)
        self.order = [sorted(self.boxes, key=widths.__getitem__) for widths in problem.widths]
        self.sorted = [sorted(widths) for widths in problem.widths]
        self.wider = [[0, *accumulate((1 << box for box in reversed(it)), or_)] for it in self.order]
        for i, whole in enumerate(problem.wholes):
            for u in self.boxes:
                self.exclude(i, u, self.wider_than(i, whole - problem.widths[i][u]), JOINED)  # PAIR
        for i, u, v, relations in facts:
            self.exclude(i, u, 1 << v, relations)
        self.close()

    def child(self, i, u, v, relations):
        copy = self.with_exclusion(i, u, v, relations)
        copy.close()
        return copy

    def wider_than(self, i, width):
        """The row of the boxes that are wider than this."""
        return self.wider[i][len(self.boxes) - bisect_right(self.sorted[i], width)]

    def close(self):
        while self.changed and not self.has_conflict:
            chains = set()
            while self.changed and not self.has_conflict:
                i, u = self.changed.pop()
                chains.add(i)
                self.apply_apart(i, u)
                self.apply_triple(i, u)
                self.apply_compose(i, u)
                self.apply_cycle(i, u)
                self.apply_order(i, u)
            for i in chains if not self.has_conflict else ():
                self.apply_chain(i)

    def apply_apart(self, changed, u):
        joined = [self.row(k, u, JOINED) for k in range(len(self.problem.wholes))]
        for i in range(len(joined)):
            if i != changed:
                self.exclude(i, u, reduce(and_, joined[:i] + joined[i + 1 :]), OVERLAP)

    def apply_triple(self, i, x):
        apart, widths = self.row(i, x, APART), self.problem.widths[i]
        for u in bits(apart):
            self.exclude(i, u, apart & self.wider_than(i, self.problem.wholes[i] - widths[u] - widths[x]), JOINED)

    def apply_compose(self, i, v):
        """COMPOSE over `v`, for whole rows of `x`.

        `u` isn't before `x` if it isn't before `v`, nor `v` before `x`, and `u`, `v` or `v`, `x` are apart.
        `u` and `x` are apart if `x` is surely before `v`, and `v` before `u`.
        """
        after, not_before = self.row(i, v, SURELY_BEFORE), self.row(i, v, BEFORE)
        before = self.row(i, v, SURELY_AFTER)
        for u in bits(self.row(i, v, AFTER)):
            if after >> u & 1:
                self.exclude(i, u, not_before, BEFORE)
                self.exclude(i, u, before, OVERLAP)
            else:
                self.exclude(i, u, before, BEFORE)

    def apply_cycle(self, i, a):
        for c in bits(self.row(i, a, APART)):
            both = self.row(i, a, JOINED) & self.row(i, c, JOINED)
            for b in bits(both):
                self.exclude(i, b, both, JOINED)

    def apply_order(self, i, u):
        """ORDER for whole rows of `b` and `d`, with `u` as its box `a` and then as its box `c`."""
        before, not_before = self.row(i, u, SURELY_BEFORE), self.row(i, u, BEFORE)
        for v in self.boxes:
            if self.row(i, v, SURELY_BEFORE) & not_before:
                self.exclude(i, v, before, SURELY_BEFORE)
            if self.row(i, v, BEFORE) & before:
                self.exclude(i, u, self.row(i, v, SURELY_BEFORE), SURELY_BEFORE)

    def apply_chain(self, i):
        ends = self.heaviest_chains(i, SURELY_AFTER)
        starts = self.heaviest_chains(i, SURELY_BEFORE)
        for u in self.boxes:
            long = sum(1 << v for v in self.boxes if ends[u] + starts[v] > self.problem.wholes[i])
            self.exclude(i, u, long, BEFORE)

    def heaviest_chains(self, i, way):
        """The weight of the heaviest chain from each box, over the boxes to which it has this order."""
        rows, weights = [self.row(i, u, way) for u in self.boxes], {}
        for u in sorted(self.boxes, key=lambda u: bin(rows[u]).count("1")):
            weights[u] = self.problem.widths[i][u] + max((weights[v] for v in bits(rows[u])), default=0)
        return weights


# Trees of `fit`


def symmetry_facts(instance):
    """The exclusions from which reduced trees begin: each is of AFTER, with the lower box first."""
    boxes, working = instance.boxes, instance.problem()
    twins = [pair for pair in combinations(range(len(boxes)), 2) if boxes[pair[0]] == boxes[pair[1]]]
    by_rank = sorted(range(len(boxes)), key=lambda box: -prod(widths[box] for widths in working.widths))
    single = [box for box in by_rank if boxes.count(boxes[box]) == 1]
    facts = [(0, *pair) for pair in [*twins, sorted(single[:2])] if len(pair) == 2]
    facts += [(i, *sorted(by_rank[:2])) for i in range(1, len(working.wholes)) if len(boxes) > 1]
    return [(*fact, AFTER) for fact in facts]


def read_tree(lines, problem, facts=(), kinds=TOKENS):
    """Reads a tree that refutes the problem.

    `open_nodes` has a call for each open node, the next one last, that gives the node's closure. So a
    closure is taken only where a token asks for it, and it starts from that of the parent.
    """
    open_nodes, dims = [partial(Closure, problem, facts)], len(problem.wholes)
    while open_nodes:
        closure_of = open_nodes.pop()
        line, kind, numbers = read_token(lines, kinds, dims)
        if kind in SPLITS:
            edge = edge_of(line, problem, *numbers)
            closure = closure_of()
            line.need(not closure.has_conflict and closure.may_split(kind, *edge), "choice")
            first, second = SPLITS[kind]
            open_nodes += [partial(closure.child, *edge, second), partial(closure.child, *edge, first)]
        elif kind == "x":
            line.need(closure_of().has_conflict, "conflict")
        elif kind == "t":
            test_long_side(line, problem, *numbers, dims)
        elif kind == "k":
            read_family(lines, line, closure_of, numbers)
        else:
            line.need(kind == "v", "form")
            test_excess(line, problem, numbers, 1)


def read_family(lines, line, closure_of, numbers):
    """Reads a family from its first line on, up to the one with which it is longer than the container."""
    dim, closure, family = numbers[0], None, []
    while True:
        line.need(numbers[0] == dim, "form")
        closure = closure or closure_of()
        problem, i, joining = closure.problem, dim - 1, [box - 1 for box in numbers[1:]]
        line.need(0 <= i < len(problem.wholes) and all(0 <= box < problem.count for box in joining), "range")
        line.need(not closure.has_conflict, "choice")
        for box in joining:
            line.need(all(box != other and closure.is_out(i, other, box, APART) for other in family), "choice")
            family.append(box)
        if problem.weighs_too_much(i, family):
            return
        line, kind, numbers = read_token(lines, FAMILIES, len(problem.wholes))
        line.need(kind == "k", "form")


# Trees of bins and values


def read_bin_tree(lines, problem, goal):
    """Reads a tree that refutes so many bins. A node is the tuple of the used bins, each the tuple of its boxes."""
    open_nodes = [()]
    while open_nodes:
        bins = open_nodes.pop()
        line, kind, numbers = read_token(lines, TOKENS, len(problem.wholes))
        if kind == "b":
            line.need(1 <= numbers[0] <= problem.count, "range")
            box = numbers[0] - 1
            line.need(all(box not in it for it in bins), "choice")
            children = [bins[:k] + (it + (box,),) + bins[k + 1 :] for k, it in enumerate(bins)]
            children += [bins + ((box,),)] if len(bins) < goal else []
            open_nodes += reversed(children)
        elif kind == "g":
            test_excess(line, problem, numbers, goal)
        else:
            line.need(kind == "s" and len(numbers) == 1, "form")
            line.need(1 <= numbers[0] <= len(bins), "set")
            read_tree(lines, problem.subset(sorted(bins[numbers[0] - 1])))


def read_value_tree(lines, problem, values, goal, kinds):
    """Reads a tree that refutes a value. A node is the set of boxes that are in and the set of those that are out."""
    open_nodes = [(frozenset(), frozenset())]
    while open_nodes:
        inside, outside = open_nodes.pop()
        line, kind, numbers = read_token(lines, kinds, len(problem.wholes))
        if kind == "c":
            line.need(1 <= numbers[0] <= problem.count, "range")
            box = {numbers[0] - 1}
            line.need(not box & (inside | outside), "choice")
            open_nodes += [(inside, outside | box), (inside | box, outside)]
        elif kind == "w":
            line.need(sum(value for box, value in enumerate(values) if box not in outside) < goal, "value")
        elif kind == "u":
            test_price(line, problem, (values, inside, outside), goal, *numbers)
        elif kind == "e":
            test_exchange(line, problem, (values, inside, outside), numbers)
        else:
            line.need(kind == "s" and not numbers, "form")
            line.need(inside, "set")
            read_tree(lines, problem.subset(sorted(inside)))


# Explained trees

COMPOSITIONS = {  # the relations that `u`, `x` may have, by that of `u`, `v` and that of `v`, `x`
    BEFORE: {BEFORE: BEFORE, OVERLAP: BEFORE | OVERLAP, AFTER: ANY},
    OVERLAP: {BEFORE: BEFORE | OVERLAP, OVERLAP: ANY, AFTER: OVERLAP | AFTER},
    AFTER: {BEFORE: ANY, OVERLAP: OVERLAP | AFTER, AFTER: AFTER},
}


def composed(one, two):
    """The relations that `u`, `x` may have, by the masks of `u`, `v` and of `v`, `x`."""
    return reduce(or_, (COMPOSITIONS[r][s] for r in MIRROR if r & one for s in MIRROR if s & two), 0)


def conclusion(node, kind, i, boxes):
    """The pair that a step speaks of, whether its premises hold at the node, and the relations that it leaves."""
    is_out, problem = partial(node.is_out, i), node.problem
    if kind == "pair":
        return boxes, problem.weighs_too_much(i, boxes), OVERLAP
    if kind == "apart":
        others = [k for k in range(len(problem.wholes)) if k != i]
        return boxes, all(node.is_out(k, *boxes, JOINED) for k in others), BEFORE | AFTER
    if kind == "triple":
        u, v, x = boxes
        are_apart_from_x = is_out(u, x, APART) and is_out(v, x, APART)
        return (u, v), are_apart_from_x and problem.weighs_too_much(i, boxes), OVERLAP
    if kind == "compose":
        u, v, x = boxes
        return (u, x), True, composed(node.mask(i, u, v), node.mask(i, v, x))
    a, b, c, d = boxes
    if kind == "cycle":
        ring = ((a, b), (b, c), (c, d), (d, a))
        return (b, d), all(is_out(*pair, JOINED) for pair in ring) and is_out(a, c, APART), OVERLAP
    are_before = is_out(a, b, SURELY_BEFORE) and is_out(c, d, SURELY_BEFORE)
    return (c, b), are_before and is_out(a, d, BEFORE), BEFORE


def take_step(line, node, kind, i, boxes):
    """Adds what a step concludes to the node, or refuses the line if it changes no mask."""
    (u, v), holds, left = conclusion(node, kind, i, boxes)
    line.need(holds and node.mask(i, u, v) & ~left, "step")
    node.exclude(i, u, 1 << v, ANY & ~left)


def take_chain(lines, node, i, lengths):
    """Reads the boxes of two chains, and adds that the last of the first isn't before the first of the second."""
    chains = []
    for length in lengths:
        chain = []
        for _ in range(length):
            line, kind, (number, *_) = read_token(lines, EXPLAINED, len(node.problem.wholes))
            line.need(kind == "on", "form")
            line.need(1 <= number <= node.problem.count, "range")
            chain.append(number - 1)
            line.need(chain.count(number - 1) == 1, "step")
            line.need(len(chain) == 1 or node.is_out(i, *chain[-2:], SURELY_BEFORE), "step")
        chains.append(chain)
    u, v = chains[0][-1], chains[1][0]
    line.need(u != v and node.problem.weighs_too_much(i, chains[0] + chains[1]), "step")
    line.need(node.mask(i, u, v) & BEFORE, "step")
    node.exclude(i, u, 1 << v, BEFORE)


def read_explained_tree(lines, problem):
    """Reads an explained tree. A node is what its splits and steps exclude: no closure is taken."""
    open_nodes, dims = [Relations(problem)], len(problem.wholes)
    while open_nodes:
        line, kind, numbers = read_token(lines, EXPLAINED, dims)
        node = open_nodes[-1]
        if kind == "chain":
            i, *lengths = numbers
            line.need(1 <= i <= dims and all(1 <= length <= problem.count for length in lengths), "range")
            take_chain(lines, node, i - 1, lengths)
        elif kind in STEPS:
            i, *boxes = numbers
            line.need(1 <= i <= dims and all(1 <= box <= problem.count for box in boxes), "range")
            line.need(len(set(boxes)) == len(boxes), "range")
            take_step(line, node, kind, i - 1, [box - 1 for box in boxes])
        elif kind in SPLITS:
            edge = edge_of(line, problem, *numbers)
            line.need(node.may_split(kind, *edge), "choice")
            open_nodes[-1:] = [node.with_exclusion(*edge, relations) for relations in reversed(SPLITS[kind])]
        else:
            line.need(kind != "on", "form")
            test_explained_leaf(line, node, kind, numbers)
            open_nodes.pop()


def test_explained_leaf(line, node, kind, numbers):
    if kind == "x":
        line.need(node.mask(*edge_of(line, node.problem, *numbers)) == 0, "conflict")
    elif kind == "t":
        test_long_side(line, node.problem, *numbers, len(node.problem.wholes))
    else:
        test_excess(line, node.problem, numbers, 1)


# Fronts


def read_front(lines):
    instance, result = read_instance(lines)
    result.need(len(instance.container) == 2, "form")
    claim, (count,) = read_claim(result, {"front": 1, "partial": 1})
    result.need(count <= MAX_SIDE, "range")
    width, height = 0, instance.container[1] + 1  # the point before, of which the first has none
    for number in range(count):
        width, height = read_point(lines, instance, width, height, number == 0)
    last = instance.container[0] if claim == "front" else width
    if height == 1 or last == 0:
        lines.finish()
    else:
        read_corner(lines, lines.wanted(), instance, last, last, height - 1)
        lines.finish(is_token(TOKENS, 2))
    return f"front partial {count}" if claim == "partial" else f"front {count}"


def read_point(lines, instance, width, height, is_first):
    """Reads a corner, the point behind it and its places; the width and height of the point before are given.

    Only the first point has no corner where its width is 1.
    """
    line, corner = lines.wanted(), 0
    if not (is_first and line.words[0] == "point"):
        corner = read_corner(lines, line, instance, max(width, 1), instance.container[0] - 1, height - 1)
        line = lines.wanted()
        line.need(not is_token(TOKENS, 2)(line.words), "after")
    line.need(line.words[0] == "point" and len(line.words) == 3, "form")
    point = line.numbers(line.words[1:])
    line.need(point[0] == corner + 1 and 1 <= point[1] < height, "range")
    read_places(lines, instance, point)
    return point


def read_corner(lines, line, instance, low, high, height):
    """Reads the tree of the corner on a line, whose width must be from `low` to `high`. Returns the width."""
    line.need(line.words[0] == "corner" and len(line.words) == 3, "form")
    sides = line.numbers(line.words[1:])
    line.need(low <= sides[0] <= high and sides[1] == height, "range")
    read_tree(lines, instance.problem(*sides))
    return sides[0]


# Documents


def no_facts(instance):
    return ()


def read_fit(lines, facts_of=no_facts):
    instance, result = read_instance(lines)
    claim, _ = read_claim(result, {"yes": 0, "no": 0, "undecided": 0})
    result.need(claim != "undecided", "claim")
    if claim == "yes":
        read_places(lines, instance, instance.container)
        lines.finish()
    else:
        read_tree(lines, instance.problem(), facts_of(instance))
        lines.finish(is_token(TOKENS, len(instance.container)))
    return spell("fit", claim, ())


def read_levels(result, highest):
    """The claim about a strip or bins, its numbers, and the refuted and the placed level unless it is `none`."""
    claim, numbers = read_claim(result, {"least": 1, "between": 2, "none": 0})
    if claim == "none":
        return claim, numbers, None, None
    refuted, placed = numbers if claim == "between" else (numbers[0] - 1, numbers[0])
    result.need(0 <= refuted < placed <= highest, "range")
    return claim, numbers, refuted, placed


def read_none(lines, problem, dims):
    """Reads the `t` line of `result none`, whose dimension is one of the first `dims`."""
    line, kind, numbers = read_token(lines, TOKENS, len(problem.wholes))
    line.need(kind == "t", "form")
    test_long_side(line, problem, *numbers, dims)


def read_strip(lines, facts_of=no_facts, kinds=TOKENS):
    instance, result = read_instance(lines)
    claim, numbers, refuted, placed = read_levels(result, MAX_HEIGHT)
    dims = len(instance.container)
    if claim == "none":
        read_none(lines, instance.problem(), dims - 1)
    else:
        read_places(lines, instance, instance.container[:-1] + (placed,))
        read_proof(lines)
        read_tree(lines, instance.problem(refuted), facts_of(instance), kinds)
    lines.finish(is_token(TOKENS if claim == "none" else kinds, dims))
    return spell("strip", claim, numbers)


def read_bins(lines):
    instance, result = read_instance(lines)
    claim, numbers, refuted, placed = read_levels(result, len(instance.boxes))
    dims = len(instance.container)
    if claim == "none":
        read_none(lines, instance.problem(), dims)
    else:
        read_places(lines, instance, instance.container, placed)
        read_proof(lines)
        read_bin_tree(lines, instance.problem(), refuted)
    lines.finish(is_token(TOKENS, dims))
    return spell("bins", claim, numbers)


def read_knapsack(lines, kinds=TOKENS):
    instance, result = read_instance(lines)
    claim, numbers = read_claim(result, {"greatest": 1, "between": 2})
    placed, refuted = numbers if claim == "between" else (numbers[0], numbers[0] + 1)
    result.need(placed < refuted, "range")
    read_taken(lines, instance, placed)
    read_value_tree(lines, instance.problem(), instance.values, refuted, kinds)
    lines.finish(is_token(kinds, len(instance.container)))
    return spell("knapsack", claim, numbers)


def read_bounded(read, kinds):
    return lambda lines: "bounded " + read(lines, kinds=kinds)


def read_explained(lines):
    instance, result = read_instance(lines)
    result.need(result.words == ["result", "no"], "form")
    read_explained_tree(lines, instance.problem())
    lines.finish(is_token(EXPLAINED, len(instance.container)))
    return "explained fit no"


def read_reduced(read):
    return lambda lines: "reduced " + read(lines, symmetry_facts)


DOCUMENTS = {
    "check": {
        "answer fit": read_fit,
        "answer strip": read_strip,
        "answer bins": read_bins,
        "answer knapsack": read_knapsack,
    },
    "audit": {
        "reduced fit": read_reduced(read_fit),
        "reduced strip": read_reduced(read_strip),
        "bounded knapsack": read_bounded(read_knapsack, BOUNDED),
        "bounded strip": read_bounded(read_strip, FAMILIES),
        "explained fit": read_explained,
        "front": read_front,
    },
}


def answer(command, stream):
    """The line of `check` or `audit` on a stream of bytes, and its status. What stops it raises `Stopped`."""
    lines = Lines(stream, LIMITS[command])
    is_held = command == "audit"  # then the input is read to its end before any line is refused
    try:
        line = lines.wanted()
        name = " ".join(line.words)
        read = DOCUMENTS[command].get(name)
        line.need(read, "form")
        if line.words[0] == "bounded":  # which `audit` reads as `check` reads an answer
            is_held = False
            lines.left += LIMITS["check"] - LIMITS["audit"]
        return "verified " + read(lines), 0
    except Refused as refusal:
        while is_held and lines.next_if_any():
            pass
        return "refused {} {}".format(*refusal.args), 1


def main(words):
    if len(words) != 1 or words[0] not in DOCUMENTS:
        raise Stopped("usage: clients/check.py check|audit < DOCUMENT", 2)
    try:
        if sys.stdin is None:
            raise OSError("standard input is closed")
        line, status = answer(words[0], sys.stdin.buffer)
    except OSError:
        raise Stopped("pack: read fault", 4)
    except MemoryError:
        raise Stopped("pack: out of memory", 6)
    try:
        if sys.stdout is None:
            raise OSError("standard output is closed")
        print(line, flush=True)
    except OSError:
        sys.stdout = None  # so that its buffer isn't written again at the end
        raise Stopped("pack: write fault", 5)
    return status


if __name__ == "__main__":
    try:
        sys.exit(main(sys.argv[1:]))
    except Stopped as stop:
        print(stop.args[0], file=sys.stderr)
        sys.exit(stop.args[1])
