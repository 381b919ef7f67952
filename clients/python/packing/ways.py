"""Ways to search under a time limit, and the schedule that shares the time among them.

Each way has a budget that rises from run to run. The way that will have spent least after its next
run goes next, so none of them takes the time of the others. For bins proposals go first. For fit and
strip they join in once the plain ways have had a part of the time: if they find nothing they take
seconds.
"""
from dataclasses import replace

from .document import parse_document
from .search import Level

FIRST_BUDGET = 1_000
MAX_BUDGET = 10_000_000
HEAD_STARTS = {"fit": 0.05, "strip": 0.2}


class Way:
    """One job under rising budgets."""

    def __init__(self, search, job, proposals=False):
        self.search = search
        self.job = job
        self.proposals = proposals
        self.most = search.effort.budget if search.effort.budget is not None else MAX_BUDGET
        self.budget = min(0 if proposals else FIRST_BUDGET, self.most)
        self.spent = HEAD_STARTS.get(job, 0.0) * search.effort.seconds if proposals else 0.0
        self.expected = 0.0
        self.share = 0.6 if proposals and job != "strip" else 0.35
        self.is_open = True

    def is_ready(self):
        """Whether it can run now."""
        return self.is_open

    def advance(self, share):
        """One run, with this share of the time that is left."""
        begin = self.search.clock.spent()
        text = self.search.run(self.words(), self.search.instance, share)
        if text is None:
            self.is_open = False
        else:
            self.search.take(text)
            self.raise_budget(self.search.clock.spent() - begin)
        self.spent += self.search.clock.spent() - begin

    def words(self):
        """The words of the next run."""
        return self.search.words(self.job, self.budget, self.proposals)

    def raise_budget(self, seconds):
        """Raises the budget so that the next run may end in time; closes the way if it can't."""
        left = self.search.clock.left() - self.search.reserve
        factor = min(10.0, 0.8 * self.share * left / max(seconds, 0.001))
        if self.budget < FIRST_BUDGET:
            grown = min(self.most, FIRST_BUDGET if factor > 1 else 0)
        else:
            grown = min(self.most, int(self.budget * factor))
        self.is_open = grown > 1.5 * self.budget
        self.expected = seconds * grown / max(self.budget, FIRST_BUDGET)
        self.budget = max(grown, self.budget)


class ByFit(Way):
    """Single heights of a strip, decided by fit: bisects around the heights that stay undecided.

    It goes below and above these in turn; first below, and with proposals first above.
    """

    def __init__(self, search, proposals=False):
        super().__init__(search, "fit", proposals)
        self.low, self.high = None, None
        self.longest = 0.0
        self.goes_low = proposals

    def is_ready(self):
        """Whether there are levels to narrow."""
        return self.is_open and self.search.found is not None

    def advance(self, share):
        """Decides one height, or raises the budget where all that is left was undecided."""
        begin = self.search.clock.spent()
        height = self.next_height()
        if height is None:
            self.low, self.high = None, None
            self.raise_budget(self.longest)
        else:
            self.decide(height, share)
        took = self.search.clock.spent() - begin
        self.longest = max(self.longest, took)
        self.spent += took

    def next_height(self):
        """An open height below or above the undecided ones, in turn. None where none is left."""
        refuted, placed = self.search.found.refuted.number, self.search.found.placed.number
        if self.low is None or not refuted < self.low <= self.high < placed:
            self.low, self.high = None, None
            return (refuted + placed) // 2 if placed - refuted > 1 else None
        below, above = self.low - refuted > 1, placed - self.high > 1
        self.goes_low = below and not (above and self.goes_low)
        if self.goes_low:
            return (refuted + self.low) // 2
        return (self.high + placed + 1) // 2 if above else None

    def decide(self, height, share):
        """Decides one height, and keeps it as undecided where that is past the budget."""
        instance = self.search.instance.with_last_side(height)
        job = "reduced" if self.goes_low and not self.proposals else "fit"
        text = self.search.run(self.search.words(job, self.budget, self.proposals), instance, share)
        document = text and parse_document(text)
        before = self.search.found
        if document and document.result[0] == "yes":
            self.search.improve(placed=Level(document.height(), document.spots))
        elif document and document.result[0] == "no":
            self.search.improve(refuted=Level(height, (), document.heading, document.proof))
        if self.search.found is before:
            self.low = height if self.low is None else min(self.low, height)
            self.high = height if self.high is None else max(self.high, height)


class ByBins(Way):
    """A first choice for a knapsack: of the containers that `bins` fills, the one that is worth most."""

    def is_ready(self):
        """Whether there is a document to compose it with, and it wasn't run yet."""
        return self.is_open and self.search.found is not None

    def advance(self, share):
        """Fills containers once, and keeps the best as a placed level."""
        begin = self.search.clock.spent()
        self.is_open = False
        text = self.search.run(self.search.words("bins", 0, True), self.search.instance, share)
        document = text and parse_document(text)
        if document and document.spots:
            self.search.improve(placed=best_container(document))
        self.spent += self.search.clock.spent() - begin


def best_container(document):
    """The boxes of the container that is worth most, as a placed level of a knapsack."""
    worth = {}
    for it in document.spots:
        worth[it.container] = worth.get(it.container, 0) + document.instance.values[it.box - 1]
    best = max(worth, key=lambda it: (worth[it], -it))
    spots = tuple(replace(it, container=1) for it in document.spots if it.container == best)
    return Level(worth[best], spots)


def ways_of(search):
    """The ways for the job of this search; of those that have spent the same the first goes next."""
    proposed = [Way(search, search.job, True)] if search.effort.proposals else []
    plain = [Way(search, search.job)]
    if search.job == "fit":
        return [*plain, *proposed, Way(search, "reduced")]
    if search.job == "strip":
        by_fit = [ByFit(search, it) for it in ((False, True) if proposed else (False,))]
        return [*plain, *by_fit, *proposed]
    if search.job == "knapsack" and proposed:
        return [*plain, ByBins(search, "bins"), *proposed]
    return [*proposed, *plain]


def rise(search):
    """Searches until the question is decided, time is up, or no way is left."""
    ways = ways_of(search)
    while not search.is_over():
        ready = [it for it in ways if it.is_ready()]
        if not ready:
            return
        way = min(ready, key=lambda it: it.spent + it.expected)
        way.advance(0.7 if len(ready) == 1 else way.share)


def once(search):
    """One run of the program, with the given budget."""
    effort = search.effort
    text = search.run(search.words(search.job, effort.budget, effort.proposals), search.instance, 1)
    search.take(text)


def go(search):
    """Runs the search under its effort, and returns it."""
    try:
        if search.effort.seconds is None:
            once(search)
        else:
            rise(search)
    finally:
        search.progress.clear()
    return search
