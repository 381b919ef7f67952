"""What the commands of the trades have in common: limits, sentences, pictures and files."""
from dataclasses import dataclass, replace
from typing import Callable, Tuple

from .answer import Answer
from .exchange import answer_as_json, json_text
from .html import html_page
from .outputs import csv_text, write_pages, write_text
from .pictures import percent, used_share
from .paper import shown
from .solving import checked_effort, solve_question
from .turning import solve_turned


@dataclass(frozen=True)
class Report:
    """An answer with the words and pictures of a trade. Placements are in the order of its sides.

    `draw` makes the pages of the report in a unit. `columns` and `cells` are further columns of the
    table. With `is_named` sizes are written with the names of the sides, with `is_single` there is one container.
    """

    answer: Answer
    title: str
    sentence: str
    container: Tuple
    sides: Tuple[str, ...]
    one: str
    draw: Callable
    warnings: Tuple[str, ...] = ()
    columns: Tuple[str, ...] = ()
    cells: Callable = None
    things: Tuple[str, str] = ("box", "boxes")
    rest: str = "free"
    is_named: bool = False
    is_single: bool = False

    def said(self):
        """The answer with the line that verifies it."""
        return f"{self.sentence} ({self.answer.verdict})" if self.answer.verdict else self.sentence

    def size(self, unit):
        """The sides of a container in words."""
        if self.is_named:
            units = (unit, "" if self.sides[0] == "time" else unit)
            return ", ".join(f"{side} {shown(it)} {one}".rstrip()
                             for side, it, one in zip(self.sides, self.container, units))
        return " × ".join(map(shown, self.container)) + f" {unit}".rstrip()

    def use(self, placements):
        """How many boxes there are in a container, and what part of it they take."""
        return use_words(placements, self.container, self.things, self.rest)


def answer_question(question, options):
    """The answer under the options of the command line."""
    effort = checked_effort(question.job, options.budget, options.workers, options.seconds,
                            not options.no_proposals, getattr(options, "bounds", False))
    if getattr(options, "turn", False):
        return solve_turned(question, effort.seconds)
    return solve_question(question, effort)


def permute(answer, order):
    """The answer with the dimensions of its placements in another order."""
    return replace(answer, placements=tuple(
        replace(it, corner=tuple(it.corner[i] for i in order), sides=tuple(it.sides[i] for i in order))
        for it in answer.placements))


def groups_of(placements):
    """The placements of each container that is used, by its number."""
    found = {}
    for it in placements:
        found.setdefault(it.container, []).append(it)
    return dict(sorted(found.items()))


def use_words(placements, container, things=("box", "boxes"), rest="free"):
    """How many boxes there are, and what part of the container they take."""
    share = used_share(placements, container)
    return (f"{len(placements)} {things[len(placements) != 1]}, {percent(share)} used, "
            f"{percent(1 - share)} {rest}")


def placement_rows(report):
    """The header and the rows of the table of placements."""
    header = [report.one, "box", "name", *(f"at {it}" for it in report.sides), *report.sides, "turned",
              *report.columns]
    rows = []
    for it in sorted(report.answer.placements, key=lambda it: (it.container, it.box)):
        more = report.cells(it) if report.cells else ()
        rows.append([it.container, it.box, it.name, *map(shown, it.corner), *map(shown, it.sides),
                     "yes" if it.turned else "no", *more])
    return header, rows


def say(report):
    """Prints the answer, each container, the notes and the warnings."""
    answer = report.answer
    print(report.said())
    for number, some in groups_of(answer.placements).items():
        print(f"{report.one if report.is_single else f'{report.one} {number}'}: {report.use(some)}")
    for it in answer.notes:
        print(f"note: {it}")
    for it in report.warnings:
        print(f"warning: {it}")


def publish(report, options):
    """Writes the files that were asked for, and prints the answer. The exit status."""
    answer = report.answer
    header, rows = placement_rows(report)
    pages = report.draw(report, options.unit) if answer.placements and (options.svg or options.html) else []
    paths = write_pages(options.svg, pages) if options.svg and pages else []
    texts = (
        (options.html, lambda: html_page(report.title, (report.sentence, answer.verdict, *answer.notes),
                                         report.warnings, pages, header, rows)),
        (options.out, lambda: csv_text(header, rows)),
        (options.json, lambda: json_text(answer_as_json(answer))),
        (options.document, lambda: answer.document),
    )
    for path, make in texts:
        if path:
            write_text(path, make())
    written = [*paths, *(path for path, _ in texts if path)]
    if "-" not in written:
        say(report)
        if written:
            print(f"written: {', '.join(written)}", flush=True)
    return answer.exit_status
