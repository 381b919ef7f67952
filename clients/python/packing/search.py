"""The state of a search: runs of the program, and the best levels that were verified so far.

The best refuted and the best placed level are kept, whichever runs they come from, in one composed
document. Composing is no proof: a level counts only once `check` or `audit` has verified the document
that has it.
"""
from dataclasses import dataclass
from typing import Optional, Tuple

from .document import Spot, compose, parse_document
from .errors import InputTooLong, NotVerified, OutOfMemory, TimeIsUp
from .program import Clock, run_pack, verify_text
from .progress import Progress

MOST_RESERVE = 0.15


# The jobs that take `--bounds yes`.
BOUNDED_JOBS = ("strip", "knapsack")


@dataclass(frozen=True)
class Effort:
    """How much a search may spend. Without seconds it is one run of the program."""

    budget: Optional[int] = None
    workers: Optional[int] = None
    seconds: Optional[float] = None
    proposals: bool = True
    bounds: bool = False


@dataclass(frozen=True)
class Level:
    """A placed level with its spots, or a refuted one with its heading and token lines."""

    number: int
    spots: Tuple[Spot, ...] = ()
    heading: str = "answer"
    proof: str = ""


@dataclass(frozen=True)
class Found:
    """A verified document, and the levels in it."""

    text: str
    verdict: str
    is_decided: bool
    placed: Optional[Level] = None
    refuted: Optional[Level] = None


class Search:
    """The search for the answer of one question. `found` is the best verified document, or None."""

    def __init__(self, question, effort, progress=None):
        self.job = question.job
        self.instance = question.instance
        self.effort = effort
        self.clock = Clock(effort.seconds)
        self.reserve = min(MOST_RESERVE, 0.1 * (effort.seconds or 0))
        self.progress = progress or Progress()
        self.found = None
        self.seconds, self.mib = 0.0, 0.0
        self.tried = []
        self.fault = TimeIsUp("no verified document within the time limit", "give more seconds")

    def limit(self, share=1.0):
        """Seconds that the next child may take: a share of those that are left. None for any."""
        left = self.clock.left()
        return None if left is None else max(0.01, (left - self.reserve) * share)

    def words(self, job, budget, proposals=False):
        """The words of a run."""
        words = [job]
        if budget is not None:
            words += ["--budget", str(budget)]
        if self.effort.workers:
            words += ["--workers", str(self.effort.workers)]
        words += ["--proposals", "yes"] if proposals else []
        return words + (["--bounds", "yes"] if self.effort.bounds and job in BOUNDED_JOBS else [])

    def run(self, words, instance, share):
        """The document of a run of the program. None where it was killed, or out of memory under a limit."""
        self.tried.append(" ".join(words))
        self.report(" ".join(words))
        output = None
        try:
            ran = run_pack(words, instance.text(), self.limit(share))
            output = ran.output
        except TimeIsUp as fault:
            ran = fault
        except OutOfMemory as fault:
            self.set_aside(fault)
            return None
        self.seconds += ran.seconds
        self.mib = max(self.mib, ran.mib)
        return output

    def verified(self, text):
        """The verdict on a document; None where there is no time for it, or it can't count."""
        self.report("verifying")
        try:
            return verify_text(text, self.limit())
        except TimeIsUp:
            return None
        except (InputTooLong, NotVerified, OutOfMemory) as fault:
            self.set_aside(fault)
            return None

    def set_aside(self, fault):
        """Keeps a fault of one run among several, which counts if nothing is found; else raises it."""
        if self.effort.seconds is None:
            raise fault
        self.fault = fault

    def report(self, what):
        """Shows the bounds, what runs and the time, if standard error is a terminal."""
        bounds = "nothing yet"
        if self.found and self.found.placed:
            bounds = f"placed {self.found.placed.number}, refuted {self.found.refuted.number}"
        self.progress.report(f"packing: {bounds}; {what}; {self.clock.spent():.1f} s")

    def is_decided(self):
        """Whether the question is decided, and verified."""
        return bool(self.found and self.found.is_decided)

    def is_over(self):
        """Whether it is decided, or nothing more can be done in time."""
        left = self.clock.left()
        return self.is_decided() or (left is not None and left < 2 * self.reserve)

    def take(self, text):
        """Keeps what a document of the job shows, once it is verified."""
        document = parse_document(text)
        result = document.result[0]
        if result == "undecided":
            return
        if document.job == "fit" or result == "none":
            verdict = self.verified(text)
            if verdict:
                self.found = Found(text, verdict, True)
            return
        self.improve(placed_level(document), refuted_level(document))

    def improve(self, placed=None, refuted=None):
        """Composes the best levels known into one document, and keeps it if it is verified."""
        if self.found:
            old_placed, old_refuted = self.found.placed, self.found.refuted
            if placed is None or not self.is_higher(placed, old_placed, self.job == "knapsack"):
                placed = old_placed
            if refuted is None or not self.is_higher(refuted, old_refuted, self.job != "knapsack"):
                refuted = old_refuted
            if placed is old_placed and refuted is old_refuted:
                return
        text = compose(self.job, self.instance, refuted.heading, placed.number, placed.spots,
                       refuted.number, refuted.proof)
        verdict = self.verified(text)
        if verdict:
            is_decided = abs(placed.number - refuted.number) == 1
            self.found = Found(text, verdict, is_decided, placed, refuted)
            self.report("verified")

    @staticmethod
    def is_higher(one, other, upwards):
        """Whether a level is above another, or below it."""
        return one.number > other.number if upwards else one.number < other.number


def placed_level(document):
    """The placed level of a document; of a strip the height that its places really take."""
    numbers = document.numbers()
    is_upper = document.result[0] == "between" and document.job != "knapsack"
    number = numbers[1] if is_upper else numbers[0]
    if document.job == "strip":
        number = min(number, document.height())
    return Level(number, document.spots)


def refuted_level(document):
    """The refuted level of a document, with its token lines."""
    numbers = document.numbers()
    if document.result[0] == "between":
        number = numbers[1] if document.job == "knapsack" else numbers[0]
    else:
        number = numbers[0] + (1 if document.job == "knapsack" else -1)
    return Level(number, (), document.heading, document.proof)
