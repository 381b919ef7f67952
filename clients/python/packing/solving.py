"""`solve`: a question in the user's units, its verified answer."""
from .answer import Answer, answer_of
from .errors import QuestionRefused
from .question import ask
from .search import BOUNDED_JOBS, Effort, Search
from .ways import go


def solve(job, container, boxes, kerf=None, names=None, quantities=None, values=None, budget=None,
          workers=None, seconds=None, proposals=True, bounds=False):
    """Solves one question and returns its verified `Answer`.

    `job` is fit, strip, bins or knapsack; `boxes` are sequences of sides or `Box`, and `names`,
    `quantities`, `values` go box by box. A strip's last container side isn't looked at, and may be
    left out. With `seconds` budgets rise until then, and the best verified document is returned;
    without, the program runs once with `budget`. With `bounds`, for strip and knapsack, heights are
    refuted also by boxes of which no two stand side by side, and values by the volume that is left;
    `audit` verifies the document. Errors are subclasses of `PackingError`.
    """
    question = ask(job, container, boxes, kerf, names, quantities, values)
    return solve_question(question, checked_effort(job, budget, workers, seconds, proposals, bounds))


def checked_effort(job, budget=None, workers=None, seconds=None, proposals=True, bounds=False):
    """The effort, if its numbers are in range and `bounds` is for the job."""
    for what, number, least, most in (("budget", budget, 0, 10_000_000), ("workers", workers, 1, 64)):
        if number is not None and not (isinstance(number, int) and least <= number <= most):
            raise QuestionRefused(f"{what} is {number!r}", f"give a number from {least} to {most:,}")
    if seconds is not None and not seconds > 0:
        raise QuestionRefused(f"seconds is {seconds!r}", "give a number greater than 0")
    if bounds and job not in BOUNDED_JOBS:
        raise QuestionRefused(f"bounds is given for {job}", "give it for strip or knapsack")
    return Effort(budget, workers, seconds, bool(proposals), bool(bounds))


def solve_question(question, effort, progress=None):
    """The verified answer of a question that `ask` made."""
    search = go(Search(question, effort, progress))
    found = search.found
    if found is None and question.job != "fit":
        raise search.fault
    spent = {"notes": question.notes, "seconds": search.clock.spent(), "mib": search.mib,
             "processor_seconds": search.seconds, "tried": tuple(search.tried)}
    if found is None:
        return Answer(question, "undecided", **spent)
    return answer_of(question, found.text, found.verdict, **spent)
