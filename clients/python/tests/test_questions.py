"""Questions: limits, units, rounding."""
import unittest
from decimal import Decimal

import packing
from packing import Box, QuestionRefused
from packing.question import ask
from packing.units import choose_scale


class ChoosesUnits(unittest.TestCase):
    """Sides become whole numbers; what is rounded is named, boxes up and the container down."""

    def test_whole_sides_stay(self):
        question = ask("fit", (10, 20), [(3, 4)])
        self.assertEqual(question.instance.boxes, ((3, 4),))
        self.assertFalse(question.is_rounded())

    def test_decimals_choose_the_finest_unit(self):
        question = ask("fit", ("10.5", 20), [("3.25", 4)])
        self.assertEqual((question.instance.container, question.instance.boxes), ((1050, 2000), ((325, 400),)))
        self.assertEqual(question.notes, ())

    def test_dimensions_of_other_ranges_have_their_own_units(self):
        question = ask("fit", ("10.5", 900_000), [("3.25", 4)])
        self.assertEqual((question.instance.container, question.instance.boxes), ((1050, 900_000), ((325, 4),)))

    def test_large_numbers_with_a_common_factor_are_exact(self):
        question = ask("fit", (1 << 33, 10), [(1 << 30, 4), (3 << 30, 2)])
        self.assertEqual(question.instance.container, (8, 10))
        self.assertFalse(question.is_rounded())

    def test_rounding_covers_boxes_and_is_named(self):
        question = ask("fit", ("2000.00055", 5), [("1000.00011", 5)], kerf=("0.00001", 0))
        scale = question.scales[0]
        self.assertTrue(scale.is_rounded)
        self.assertGreaterEqual(question.instance.boxes[0][0] * scale.unit, Decimal("1000.00011"))
        self.assertLessEqual(question.instance.container[0] * scale.unit, Decimal("2000.00055"))
        self.assertGreaterEqual(question.instance.kerf[0] * scale.unit, Decimal("0.00001"))
        self.assertIn("rounded up", question.notes[0])

    def test_bounds_of_rounded_sides_are_not_proved(self):
        answer = packing.solve("bins", ("1000001.5", 10), [("999999.7", 6)], quantities=[2])
        self.assertIn("rounded sides", answer.words())
        self.assertFalse(answer.is_proved)
        self.assertEqual(answer.exit_status, 3)

    def test_floats_are_read_as_they_are_written(self):
        self.assertEqual(choose_scale([Decimal(str(0.1))], [Decimal(1)], Decimal(0)).unit, Decimal("0.1"))

    def test_turnable_sides_share_a_unit(self):
        question = ask("fit", (10, 10), [("2.5", 4)], turnable=True)
        self.assertEqual(question.instance.boxes, ((25, 40),))


class RefusesQuestions(unittest.TestCase):
    """Each limit, with its cause and cure."""

    def refused(self, words, *given, **named):
        """Expects a refusal with these words, before the program is asked."""
        with self.assertRaises(QuestionRefused) as held:
            packing.solve(*given, **named)
        self.assertIn(words, str(held.exception))
        self.assertTrue(held.exception.cause and held.exception.cure)

    def test_limits(self):
        self.refused("129 boxes", "fit", (10, 10), [(1, 1)], quantities=[129])
        self.refused("there is no box", "fit", (10, 10), [])
        self.refused("isn't a number", "fit", (10, 10), [("6cm", 1)])
        self.refused("out of range", "fit", (10, 10), [("1e999999", 1)])
        self.refused("greater than 0", "fit", (10, 10), [(0, 1)])
        self.refused("greater than 0", "fit", (10, -10), [(1, 1)])
        self.refused("the job is", "pile", (10, 10), [(1, 1)])
        self.refused("the value", "fit", (10, 10), [(1, 1)], values=[-1])
        self.refused("the quantity", "fit", (10, 10), [(1, 1)], quantities=[0])
        self.refused("2 names for 1", "fit", (10, 10), [(1, 1)], names=["a", "b"])
        self.refused("sides, and the first box", "fit", (10, 10), [(1, 1), (1, 1, 1)])
        self.refused("The container".lower(), "fit", (10, 10, 10), [(1, 1)])
        self.refused("a kerf is less", "fit", (10, 10), [(1, 1)], kerf=-1)
        self.refused("kerfs for 2", "fit", (10, 10), [(1, 1)], kerf=(1, 1, 1))
        self.refused("workers", "fit", (10, 10), [(1, 1)], workers=65)
        self.refused("budget", "fit", (10, 10), [(1, 1)], budget=-1)
        self.refused("seconds", "fit", (10, 10), [(1, 1)], seconds=0)

    def test_names_go_to_the_placements(self):
        answer = packing.solve("fit", (10, 10), [Box((5, 5), "a", 1, 2), (5, 10)])
        self.assertEqual([it.name for it in answer.placements], ["a", "a", "box 2"])
