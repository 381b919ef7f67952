"""Tables as spreadsheets write them, and what is said of those that can't be read."""
import unittest
from decimal import Decimal

from packing import TableRefused
from packing.tables import (FIRST, SECOND, THIRD, parse_sides, parse_table, read_table,
                            thousands_notes)
from tests.helpers import FolderCase

SIDES = (FIRST, SECOND)


def read(text, sides=SIDES, optional=()):
    """The boxes of a text."""
    return parse_table(text, "parts.csv", sides, optional)


class ReadsOddTables(FolderCase):
    """Each oddity that spreadsheets and editors make."""

    def test_quantities_names_and_values(self):
        boxes = read("name,length,width,quantity,value\nshelf,600,400,3,7\n,10,20,,\n")
        self.assertEqual([(it.name, it.quantity, it.value) for it in boxes], [("shelf", 3, 7), ("", 1, 1)])
        self.assertEqual(boxes[0].sides, (Decimal(600), Decimal(400)))

    def test_separators_and_decimal_marks(self):
        for text in ("length,width\n60.5,40\n", "length;width\n60,5;40\n", "length\twidth\n60,5\t40\n",
                     'length,width\n"60,5",40\n', "length;width\n60.5;40,0\n"):
            with self.subTest(text=text):
                self.assertEqual(read(text)[0].sides, (Decimal("60.5"), Decimal(40)))

    def test_quotes_keep_separators_and_marks(self):
        boxes = read('name;length;width\n"back; ""thin""";10;20\n')
        self.assertEqual(boxes[0].name, 'back; "thin"')

    def test_byte_order_marks_and_line_ends(self):
        for raw in (b"\xef\xbb\xbflength,width\r\n10,20\r\n\r\n", b"length,width\r10,20\r",
                    "length,width\n10,20\n".encode("utf-16"), b"length,width\n\n  ,\n10,20"):
            with self.subTest(raw=raw):
                boxes = read_table(self.file("t.csv", raw), SIDES)
                self.assertEqual([it.sides for it in boxes], [(Decimal(10), Decimal(20))])

    def test_names_in_latin_1(self):
        boxes = read_table(self.file("t.csv", "name,length,width\nTür,10,20\n".encode("latin-1")), SIDES)
        self.assertEqual(boxes[0].name, "Tür")

    def test_columns_in_any_order_case_and_with_units(self):
        boxes = read("Qty;Width (mm);Part;Length [mm]\n2;20;door;10\n")
        self.assertEqual((boxes[0].sides, boxes[0].quantity), ((Decimal(10), Decimal(20)), 2))

    def test_optional_side_is_one(self):
        boxes = read("name,hours\na,5\n", (("hours",), ("memory",)), (1,))
        self.assertEqual(boxes[0].sides, (Decimal(5), Decimal(1)))

    def test_three_decimals_are_noted(self):
        boxes = read("length;width\n1,200;800\n")
        self.assertIn("1.200", thousands_notes(boxes)[0])
        self.assertEqual(thousands_notes(read("length;width\n1,2;800\n")), ())


class RefusesFaultyTables(unittest.TestCase):
    """The message names the file, the line, the cause and the cure."""

    def refused(self, text, *words, sides=SIDES):
        """Expects a refusal whose line has these words."""
        with self.assertRaises(TableRefused) as held:
            read(text, sides)
        for it in words:
            self.assertIn(it, str(held.exception))
        self.assertTrue(held.exception.cure)

    def test_missing_columns(self):
        self.refused("name,length\na,10\n", "no column width", "name,length,width,quantity")
        self.refused("10,20\n30,40\n", "no column length and no column width")
        self.refused("length,width\n1,2\n", "no column height", sides=(FIRST, SECOND, THIRD))

    def test_empty_tables(self):
        self.refused("", "is empty")
        self.refused("length,width\n", "has no box")

    def test_negative_zero_and_missing_sides(self):
        self.refused("length,width\n10,20\n-5,20\n", "line 3", "side 1 is -5", "greater than 0")
        self.refused("length,width\n10,0\n", "line 2", "side 2 is 0")
        self.refused("length,width\n10\n", "line 2", "side 2 is missing")

    def test_words_and_units_in_numbers(self):
        self.refused("length,width\n10mm,20\n", "'10mm'", "without its unit")
        self.refused("length;width\n1.200,5;20\n", "one decimal mark")
        self.refused("length,width\nnan,20\n", "'nan'")

    def test_quantities_and_values(self):
        self.refused("length,width,quantity\n10,20,0\n", "quantity is 0", "from 1 on")
        self.refused("length,width,quantity\n10,20,1.5\n", "quantity is 1.5")
        self.refused("length,width,value\n10,20,-1\n", "value is -1", "from 0 on")

    def test_sides_of_containers(self):
        self.assertEqual(parse_sides("2800,5×2070", (2,), "--sheet"), (Decimal("2800.5"), Decimal(2070)))
        for text in ("2800", "2800x", "2800x0", "axb", "1x2x3"):
            with self.subTest(text=text), self.assertRaises(TableRefused):
                parse_sides(text, (2,), "--sheet")
