"""Answers compared with the plain program, and under time limits."""
import io
import random
import time
import unittest

import packing
from packing.document import parse_document
from packing.instance import parse_instance
from packing.program import run_pack
from packing.progress import Progress
from packing.question import ask
from packing.search import Effort
from packing.solving import solve_question
from packing.turning import solve_turned
from tests.helpers import EXAMPLES

JOBS = ("fit", "strip", "bins", "knapsack")
COUNT = 300


def random_question(source):
    """A small question: its job, container, boxes, kerf and values."""
    dims = source.choice((2, 2, 2, 3))
    container = [source.randint(4, 12) for _ in range(dims)]
    boxes = [tuple(source.randint(1, max(1, side * 2 // 3)) for side in container)
             for _ in range(source.randint(2, 7 if dims == 2 else 5))]
    kerf = [source.choice((0, 0, 1)) for _ in range(dims)]
    values = [source.randint(0, 9) for _ in boxes]
    return source.choice(JOBS), container, boxes, kerf, values


class AgreesWithTheProgram(unittest.TestCase):
    """The same status and level as one plain run of the program."""

    def test_random_questions(self):
        source = random.Random(61)
        for at in range(COUNT):
            job, container, boxes, kerf, values = random_question(source)
            with self.subTest(at=at, job=job, container=container, boxes=boxes, kerf=kerf):
                instance = ask(job, container, boxes, kerf, values=values).instance
                plain = parse_document(run_pack([job], instance.text()).output)
                answer = packing.solve(job, container, boxes, kerf, values=values,
                                       seconds=(None, 5.0)[at % 2], proposals=at % 3 > 0,
                                       bounds=job == "knapsack" and at % 5 > 1)
                self.assertEqual(answer.status, plain.result[0])
                self.assertTrue(answer.is_proved)
                self.assertTrue(answer.verdict.startswith("verified "))
                if job == "knapsack":
                    self.assertEqual((answer.lower, answer.upper), (plain.numbers()[0], plain.numbers()[0] + 1))
                elif answer.upper is not None:
                    self.assertEqual((answer.lower, answer.upper), (plain.numbers()[0] - 1, plain.numbers()[0]))
                self.apart(answer, container, kerf)

    def apart(self, answer, container, kerf):
        """Each placed box is within its container, and each two are apart by the kerf."""
        for at, one in enumerate(answer.placements):
            for i, (corner, side, most) in enumerate(zip(one.corner, one.sides, container)):
                is_open = answer.question.job == "strip" and i == len(container) - 1
                self.assertLessEqual(corner + side, answer.upper if is_open else most)
            for other in answer.placements[at + 1:]:
                self.assertTrue(one.container != other.container or any(
                    a + s + k <= b or b + t + k <= a for a, s, b, t, k in
                    zip(one.corner, one.sides, other.corner, other.sides, kerf)))


class KeepsTimeLimits(unittest.TestCase):
    """The answer comes within the limit plus one second, and is verified."""

    def hard_question(self, job, count=40):
        """A question that isn't decided in a second."""
        source = random.Random(5)
        boxes = [(source.randint(20, 95), source.randint(20, 95)) for _ in range(count)]
        values = [w * h + source.randint(0, 500) for w, h in boxes]
        return packing.solve, (job, (100, 250) if job == "knapsack" else (100, 100), boxes), values

    def test_limits(self):
        for job in ("strip", "bins", "knapsack", "fit"):
            for seconds in (0.3, 2.0):
                with self.subTest(job=job, seconds=seconds):
                    call, given, values = self.hard_question(job)
                    begin = time.monotonic()
                    answer = call(*given, values=values, seconds=seconds)
                    self.assertLess(time.monotonic() - begin, seconds + 1)
                    if answer.status == "between":
                        self.assertLess(answer.lower, answer.upper)
                        self.assertTrue(answer.verdict.startswith("verified "))
                        self.assertIn("between", answer.document)

    def test_more_time_is_no_worse(self):
        call, given, _ = self.hard_question("strip", 18)
        short, long = call(*given, seconds=0.5), call(*given, seconds=2)
        self.assertLessEqual(short.lower, long.upper - 1)
        self.assertLessEqual(long.lower, short.upper - 1)

    def test_the_budget_bounds_the_rising_ones(self):
        answer = packing.solve("bins", (100, 100), [(30, 40)] * 9, budget=2000, seconds=3)
        for it in answer.tried:
            self.assertLessEqual(int(it.split("--budget ")[1].split()[0]), 2000)

    def test_words(self):
        answer = packing.solve("bins", (10, 10), [(10, 10)], quantities=[4])
        self.assertEqual(answer.words("sheet", "sheets"), "4 sheets, and no fewer")
        answer = packing.solve("strip", (1400,), [(700, 300)] * 3, budget=0, proposals=False)
        self.assertEqual(answer.words().split()[0], str(answer.upper))
        answer = packing.solve("bins", (10, 10), [(11, 1)])
        self.assertEqual((answer.status, answer.exit_status), ("none", 1))

    def test_between_in_words(self):
        text = (EXAMPLES / "thirty_plates.txt").read_text()
        it = parse_instance(text)
        answer = packing.solve("bins", it.container, it.boxes, list(it.kerf), budget=10000, proposals=False)
        self.assertEqual((answer.status, answer.lower, answer.upper), ("between", 0, 30))
        self.assertEqual(answer.words("sheet", "sheets"), "between 1 and 30 sheets")
        self.assertEqual(answer.exit_status, 3)


class BoundsValues(unittest.TestCase):
    """With `bounds` a knapsack or a strip has a bounded document, which `audit` verifies; fit and bins refuse it."""

    EIGHT = ("knapsack", (23, 10), [(3, 6)] * 8)

    def test_the_document_is_bounded(self):
        for effort in ({"budget": 0}, {"seconds": 5.0}, {}):
            with self.subTest(effort=effort):
                answer = packing.solve(*self.EIGHT, bounds=True, **effort)
                self.assertEqual((answer.status, answer.lower), ("greatest", 7))
                self.assertEqual(answer.verdict, "verified bounded knapsack greatest 7")
                self.assertTrue(answer.document.startswith("bounded knapsack\n"))
                self.assertEqual(run_pack(["audit"], answer.document).output.strip(), answer.verdict)
                self.assertTrue(all("--bounds yes" in it for it in answer.tried if it.startswith("knapsack")))

    def test_bounds_under_a_small_budget(self):
        answer = packing.solve(*self.EIGHT, budget=0, proposals=False, bounds=True)
        self.assertTrue(answer.lower <= 7 < answer.upper)
        self.assertIn("\nu ", answer.document)

    def test_without_bounds_the_document_is_plain(self):
        answer = packing.solve(*self.EIGHT)
        self.assertEqual(answer.verdict, "verified knapsack greatest 7")

    def test_the_document_of_a_strip_is_bounded(self):
        for effort in ({"budget": 0, "proposals": False}, {"seconds": 2.0}, {}):
            with self.subTest(effort=effort):
                answer = packing.solve("strip", (10, 1), [(6, 2)] * 4, bounds=True, **effort)
                self.assertEqual((answer.status, answer.upper), ("least", 8))
                self.assertEqual(answer.verdict, "verified bounded strip least 8")
                self.assertTrue(any("strip" in it and "--bounds yes" in it for it in answer.tried))

    def test_other_jobs_refuse_it(self):
        for job in ("fit", "bins"):
            said = f"bounds is given for {job}"
            with self.subTest(job=job), self.assertRaisesRegex(packing.QuestionRefused, said):
                packing.solve(job, (23, 10), [(3, 6)] * 8, bounds=True)


class TurnsBoxes(unittest.TestCase):
    """Which boxes are turned is searched; only the bound by areas is claimed."""

    def turned(self, job, container, boxes, seconds=4, **named):
        """The answer with turnable boxes."""
        return solve_turned(ask(job, container, boxes, turnable=True, **named), seconds)

    def test_fit_needs_two_turned(self):
        answer = self.turned("fit", (10, 10), [(6, 4)], quantities=[4])
        self.assertEqual(answer.status, "yes")
        self.assertEqual(sum(it.turned for it in answer.placements), 2)
        for it in answer.placements:
            self.assertEqual(it.sides, (4, 6) if it.turned else (6, 4))

    def test_refuted_by_areas_or_left_open(self):
        answer = self.turned("fit", (10, 10), [(6, 4)], quantities=[5])
        self.assertEqual((answer.status, answer.verdict), ("no", "verified fit no"))
        answer = self.turned("fit", (10, 10), [(6, 6)], quantities=[2])
        self.assertEqual((answer.status, answer.exit_status), ("undecided", 3))

    def test_bins_by_areas(self):
        answer = self.turned("bins", (10, 10), [(10, 5), (5, 10)], quantities=[3, 3])
        self.assertEqual((answer.status, answer.upper), ("least", 3))
        answer = self.turned("bins", (10, 10), [(6, 6)], quantities=[4])
        self.assertEqual((answer.status, answer.lower, answer.upper), ("between", 1, 4))

    def test_boxes_that_must_be_turned(self):
        answer = self.turned("strip", (10,), [(12, 3)], quantities=[2])
        self.assertEqual((answer.status, answer.upper), ("between", 12))
        self.assertTrue(all(it.turned for it in answer.placements))
        self.assertEqual(self.turned("bins", (10, 10), [(12, 11)]).status, "none")

    def test_the_time_limit_holds(self):
        source = random.Random(2)
        boxes = [(source.randint(10, 60), source.randint(10, 60)) for _ in range(60)]
        begin = time.monotonic()
        answer = self.turned("strip", (100,), boxes, seconds=1)
        self.assertLess(time.monotonic() - begin, 2)
        self.assertTrue(answer.verdict)

    def test_what_cannot_be_turned(self):
        for job, kerf in (("knapsack", 0), ("fit", (1, 2))):
            with self.assertRaises(packing.QuestionRefused):
                self.turned(job, (10, 10), [(6, 4)], kerf=kerf)


class Terminal(io.StringIO):
    """A stream that says it is a terminal."""

    def isatty(self):
        """Yes."""
        return True


class TellsProgress(unittest.TestCase):
    """One line on a terminal, nothing elsewhere."""

    def test_progress(self):
        shown, hidden = Terminal(), io.StringIO()
        for stream in (shown, hidden):
            question = ask("strip", (10,), [(6, 4), (5, 5), (4, 4), (3, 7)])
            solve_question(question, Effort(seconds=3.0), Progress(stream))
        self.assertEqual(hidden.getvalue(), "")
        self.assertIn("placed", shown.getvalue())
        self.assertTrue(shown.getvalue().endswith("\r\033[K"))
