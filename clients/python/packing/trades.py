"""The commands of three trades: `cut` for sheets and rolls, `load` for spaces, `plan` for time."""
from dataclasses import replace
from functools import partial

from .errors import QuestionRefused
from .layers import HANGS_BELOW, load_pages
from .loading import let_down, supports
from .pictures import Panel, Tile, sheet_page, size_words
from .question import ask
from .report import Report, answer_question, groups_of, permute, publish
from .tables import FIRST, SECOND, THIRD, parse_sides, positive, read_table, thousands_notes

TIMES = ("time", "duration", "hours", "minutes", "days", "length", "span")
SIZES = ("size", "memory", "gigabytes", "machines", "width", "need")


def read_boxes(options, sides, optional=()):
    """The boxes of the table, and notes on how it was read."""
    boxes = read_table(options.table, sides, optional)
    return boxes, thousands_notes(boxes)


def with_notes(answer, notes):
    """The answer with further notes."""
    return replace(answer, notes=(*answer.notes, *notes))


def in_order(boxes, order):
    """The boxes with their sides in another order."""
    return [replace(it, sides=tuple(it.sides[i] for i in order)) for it in boxes]


def positive_or_zero(text, what):
    """A decimal of 0 or more."""
    return 0 if not text or not text.strip("0.,") else positive(text, what)


def level_words(answer, unit, one):
    """What is said of a length."""
    if answer.level is None:
        return answer.words(one)
    return f"length {answer.words()}" + (f" ({unit})" if unit else "")


# Pictures

def tile(placement, right=0, up=1):
    """A placement as a tile, with one dimension to the right and one upwards."""
    return Tile(placement.box, placement.name, placement.corner[right], placement.corner[up],
                placement.sides[right], placement.sides[up],
                size_words((placement.sides[right], placement.sides[up]), placement.turned))


def draw_sheets(report, unit, right=0, up=1, axes=("", "")):
    """A page for each container that is used."""
    groups, pages, colours = groups_of(report.answer.placements), [], {}
    for at, (number, some) in enumerate(groups.items(), 1):
        panel = Panel(report.container[right], report.container[up],
                      tuple(tile(it, right, up) for it in some), "", axes)
        title = report.title if report.is_single else f"{report.one.capitalize()} {number} of {len(groups)}"
        pages.append(sheet_page(panel, title, f"{report.size(unit)} · {report.use(some)}", report.said(),
                                unit, at, colours))
    return pages


def draw_load(report, unit):
    """The pages of all loaded containers."""
    groups, pages = groups_of(report.answer.placements), []
    for number, some in groups.items():
        pages += load_pages(some, report.container, f"Container {number} of {len(groups)}",
                            f"{report.size(unit)} · {report.use(some)}", report.said(), unit,
                            len(pages) + 1)
    return pages


# Cutting

def cut(options):
    """Cuts parts from sheets (`--sheet`), or from a roll of one width (`--roll`)."""
    if bool(options.sheet) == bool(options.roll):
        raise QuestionRefused("one of --sheet and --roll is needed", "give --sheet 2800x2070 or --roll 330")
    boxes, notes = read_boxes(options, (FIRST, SECOND))
    if options.roll:
        job, container, boxes = "strip", (positive(options.roll, "--roll"),), in_order(boxes, (1, 0))
    else:
        job, container = "knapsack" if options.take else "bins", parse_sides(options.sheet, (2,), "--sheet")
    question = ask(job, container, boxes, positive_or_zero(options.kerf, "--kerf"), turnable=options.turn)
    answer = with_notes(answer_question(question, options), notes)
    report = roll_report(answer, options.unit) if options.roll else sheet_report(answer)
    return publish(report, options)


def sheet_report(answer):
    """The report of sheets."""
    return Report(answer, "Cutting plan", answer.words("sheet", "sheets"), answer.question.container,
                  ("length", "width"), "sheet", draw_sheets, things=("part", "parts"), rest="waste")


def roll_report(answer, unit):
    """The report of a roll, which is drawn with its length to the right."""
    return Report(answer, "Roll", level_words(answer, unit, "roll"),
                  (answer.question.container[0], answer.level), ("width", "length"), "roll",
                  partial(draw_sheets, right=1, up=0),
                  things=("part", "parts"), rest="waste", is_named=True, is_single=True)


# Loading

def load(options):
    """Loads boxes into a space of three dimensions; of two for a single layer."""
    space = parse_sides(options.space, (2, 3), "--space")
    dims = len(space)
    boxes, notes = read_boxes(options, (FIRST, SECOND, THIRD)[:dims])
    if dims == 3 and options.length and options.turn:
        raise QuestionRefused("--turn and --length don't go together", "leave one of them out")
    job = "strip" if options.length else "knapsack" if options.take else "bins"
    order = (*range(1, dims), 0) if options.length else tuple(range(dims))
    gap = positive_or_zero(options.gap, "--gap")
    gaps = (gap, gap, 0)[:dims]
    question = ask(job, [space[i] for i in order], in_order(boxes, order), [gaps[i] for i in order],
                   turnable=options.turn)
    answer = answer_question(question, options)
    if dims == 3:
        answer = let_down(answer, order.index(2), max(0.4, options.seconds - answer.seconds))
    answer = with_notes(permute(answer, tuple(order.index(i) for i in range(dims))), notes)
    if job == "strip" and answer.level is not None:
        space = (answer.level, *space[1:])
    make = load_report if dims == 3 else layer_report
    return publish(make(answer, options.unit, space), options)


def load_words(answer, unit, one, many):
    """What is said of a load."""
    return level_words(answer, unit, one) if answer.question.job == "strip" else answer.words(one, many)


def load_report(answer, unit, space):
    """The report of a load, with the support of each box."""
    held = {}
    for some in groups_of(answer.placements).values():
        held.update(supports(some))
    warnings = tuple(f"{it.name} (box {it.box}): only {int(held[it.box] * 100)} % of its bottom is held"
                     for it in answer.placements if held[it.box] < HANGS_BELOW)
    return Report(answer, "Load", load_words(answer, unit, "container", "containers"), space,
                  ("length", "width", "height"), "container", draw_load, warnings, ("held %",),
                  lambda it: (f"{100 * held[it.box]:.0f}",))


def layer_report(answer, unit, space):
    """The report of layers, as on pallets."""
    return Report(answer, "Layer", load_words(answer, unit, "layer", "layers"), space,
                  ("length", "width"), "layer", draw_sheets)


# Planning

def plan(options):
    """Plans jobs on machines or memory: time runs along one side."""
    if not options.capacity and not options.until:
        raise QuestionRefused("--capacity or --until is needed",
                              "give the machines or the memory, the time, or both")
    boxes, notes = read_boxes(options, (TIMES, SIZES), (1,))
    capacity = options.capacity and positive(options.capacity, "--capacity")
    until = options.until and positive(options.until, "--until")
    if capacity and until:
        answer = answer_question(ask("bins", (until, capacity), boxes), options)
        sides, said, one = answer.question.container, answer.words("machine", "machines"), "machine"
    elif capacity:
        question = ask("strip", (capacity,), in_order(boxes, (1, 0)))
        answer = permute(answer_question(question, options), (1, 0))
        sides, said = (answer.level, question.container[0]), strip_words(answer, "end", "capacity")
        one = "plan"
    else:
        answer = answer_question(ask("strip", (until,), boxes), options)
        sides, said = (answer.question.container[0], answer.level), strip_words(answer, "capacity", "time")
        one = "plan"
    axes = (f"time ({options.unit})" if options.unit else "time", "machines or memory")
    report = Report(with_notes(answer, notes), "Plan", said, sides, ("time", "size"), one,
                    partial(draw_sheets, axes=axes), things=("job", "jobs"), is_named=True,
                    is_single=one == "plan")
    return publish(report, options)


def strip_words(answer, what, given):
    """What is said of the end of a plan or of the capacity that it needs, where the other is given."""
    return answer.words(given) if answer.level is None else f"the {what}: {answer.words()}"
