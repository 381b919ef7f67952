"""A stranger's document: verified, refused, or about another question."""
import json

from packing.verify import meaning_of
from tests.helpers import EXAMPLES, ROOT, FolderCase
from tests.running import run_main


class VerifiesDocuments(FolderCase):
    """Status 0 decided, 3 bounds alone, 1 refused or another question."""

    def verify(self, document, *words):
        """Runs `verify`."""
        return run_main("verify", document, *words)

    def test_each_kind_of_document(self):
        for name, status, words in (
                ("five_cartons.fit", 0, "that there is no packing is shown"),
                ("pallet_layer.fit", 0, "a packing is shown"),
                ("label_roll.strip", 0, "a proved optimum: height 507"),
                ("cut_parts.strip", 3, "bounds alone: more than 1,022, at most 2,045"),
                ("panels.bins", 0, "2 containers, and no fewer"),
                ("values.knapsack", 0, "worth 8, and no choice"),
                ("long_beam.bins", 0, "no number of containers"),
                ("eight_in_a_row.reduced", 0, "that there is no packing"),
                ("carton_sheets.front", 0, "the whole front: 5 points"),
                ("equal_boards.strip", 0, "height 12")):
            with self.subTest(name=name):
                found, out, _ = self.verify(EXAMPLES / f"{name}.document")
                self.assertEqual(found, status)
                self.assertIn(words, out)

    def test_a_bounded_document(self):
        document = EXAMPLES / "three_squares.bounded"
        status, out, _ = self.verify(document, "--question", document, "--second")
        self.assertEqual(status, 0)
        self.assertIn("verified bounded knapsack greatest 5\na proved optimum: worth 5, and no choice", out)
        self.assertIn("the question is that of", out)
        question = document.read_text().split("result")[0].split("\n", 1)[1].replace("value 5", "value 6")
        status, out, _ = self.verify(document, "--question", self.file("q.txt", question))
        self.assertEqual(status, 1)
        self.assertIn("another question", out)

    def test_bounds_of_knapsack_in_words(self):
        self.assertEqual(meaning_of("verified knapsack between 5 9"),
                         ("bounds alone: worth at least 5, and none is worth 9 or more", True))
        self.assertTrue(meaning_of("verified front partial 2")[1])
        self.assertTrue(meaning_of("verified reduced strip between 1 5")[1])
        self.assertEqual(meaning_of("verified bounded knapsack between 5 9"),
                         meaning_of("verified knapsack between 5 9"))

    def test_its_own_question_in_other_spellings(self):
        document = EXAMPLES / "panels.bins.document"
        text = (EXAMPLES / "panels.txt").read_text()
        for name, content in (("as it is", text),
                              ("spaced", "# mine\r\n" + text.replace("box ", "box\t 0").replace("\n", "\r\n")),
                              ("the document", document.read_text())):
            with self.subTest(name=name):
                status, out, _ = self.verify(document, "--question", self.file("q.txt", content))
                self.assertEqual(status, 0, out)
                self.assertIn("the question is that of", out)

    def test_format_1_without_kerf_is_format_2_with_kerf_0(self):
        question = "format 2\ncontainer 10 10\nkerf 0 0\nbox 6 4\nbox 6 6 # second\n"
        self.assertEqual(self.verify(EXAMPLES / "two_boxes.fit.document", "--question",
                                     self.file("q.txt", question))[0], 0)
        found = {"job": "fit", "container": [10, 10], "boxes": [{"sides": [6, 4]}, {"sides": [6, 6]}]}
        self.assertEqual(self.verify(EXAMPLES / "two_boxes.fit.document", "--question",
                                     self.file("q.json", json.dumps(found)))[0], 0)

    def test_another_question_is_refused(self):
        for question, words in (("format 1\ncontainer 10 11\nbox 6 4\nbox 6 6\n", "its container"),
                                ("format 2\ncontainer 10 10\nkerf 1 0\nbox 6 4\nbox 6 6\n", "its kerf"),
                                ("format 1\ncontainer 10 10\nbox 6 4\n", "box (6, 6) isn't in the question"),
                                ("format 2\ncontainer 10 10\nbox 6 6 times 2\n", "box (6, 6) is missing"),
                                ("format 1\ncontainer 10 10 1\nbox 6 4 1\n", "2 dimensions")):
            with self.subTest(question=question):
                status, out, _ = self.verify(EXAMPLES / "two_boxes.fit.document", "--question",
                                             self.file("q.txt", question))
                self.assertEqual(status, 1)
                self.assertIn("another question", out)
                self.assertIn(words, out)

    def test_questions_that_cannot_be_read(self):
        for question in ("box 1 1\n", "format 2\ncontainer 9 9\nbox 1 1 times 999999999999\n", "{}", "",
                         "format 1\ncontainer 9 9\nbox a 1\n", "hello\n"):
            with self.subTest(question=question):
                status, _, err = self.verify(EXAMPLES / "two_boxes.fit.document", "--question",
                                             self.file("q.txt", question))
                self.assertEqual(status, 2)
                self.assertTrue(err.startswith("packing: "))

    def test_order_and_values_are_remarks(self):
        question = "format 1\ncontainer 10 10\nbox 6 6 value 9\nbox 6 4\n"
        status, out, _ = self.verify(EXAMPLES / "two_boxes.fit.document", "--question",
                                     self.file("q.txt", question))
        self.assertEqual(status, 0)
        self.assertIn("another order", out)
        self.assertIn("its values differ", out)

    def test_the_last_side_of_a_strip_is_free(self):
        document = (EXAMPLES / "label_roll.strip.document").read_text()
        text = (EXAMPLES / "label_roll.txt").read_text().replace("container 330 1", "container 330 999")
        self.assertEqual(self.verify(self.file("d", document), "--question", self.file("q", text))[0], 0)

    def test_refused_documents(self):
        changed = (EXAMPLES / "two_boxes.fit.document").read_text().replace("place 0 4", "place 0 3")
        status, out, err = self.verify(self.file("d", changed))
        self.assertEqual((status, out), (1, ""))
        self.assertIn("refused 8 overlap 1 2", err)
        for content in ("", "hello\n", "format 1\n", b"\xff\xfe\x00"):
            self.assertEqual(self.verify(self.file("d", content))[0], 1)
        status, _, err = self.verify(self.file("d", "answer fit\nformat 1\ncontainer 5 5\nbox 1 1\n"
                                                    "result undecided\nend\n"))
        self.assertEqual(status, 1)
        self.assertIn("claim", err)

    def test_input_and_time_are_bounded(self):
        document = self.file("d", (EXAMPLES / "panels.bins.document").read_text())
        status, _, err = self.verify(document, "--most-bytes", "20")
        self.assertEqual(status, 2)
        self.assertIn("longer than 20 bytes", err)
        self.assertEqual(self.verify(self.path("missing"))[0], 4)
        with self.fake_program("sleep 20"):
            status, _, err = self.verify(document, "--seconds", "0.3")
        self.assertEqual(status, 7)
        self.assertIn("nothing is known of it", err)

    def test_the_second_checker(self):
        status, out, _ = self.verify(EXAMPLES / "panels.bins.document", "--second")
        self.assertEqual(status, 0)
        if (ROOT / "clients" / "check.py").is_file():
            self.assertIn("second checker: verified bins least 2", out)
        else:
            self.assertIn("skipped", out)
