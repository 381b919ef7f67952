"""The commands of the trades and `bench`, from their files to their files."""
import csv
import io
import json
import time
from xml.etree import ElementTree

from packing.published import job_of_name, read_problems
from packing import QuestionRefused
from tests.helpers import EXAMPLES, FolderCase
from tests.running import run_main

PARTS = ("Name;Length;Width;Quantity\r\nside;1800;580;4\r\nshelf;764;560;8\r\nplinth;764;80,5;4\r\n"
         '"top; oak";800;600;2\r\n')


class Cuts(FolderCase):
    """`cut` and `stock`."""

    def test_from_a_list_to_a_plan(self):
        status, out, err = run_main("cut", self.file("parts.csv", PARTS), "--sheet", "2800x2070", "--kerf", 4,
                                    "--svg", self.path("plan.svg"), "--out", self.path("plan.csv"),
                                    "--html", self.path("plan.html"), "--json", self.path("plan.json"),
                                    "--document", self.path("plan.document"), "--unit", "mm")
        self.assertEqual((status, err), (0, ""))
        count = int(out.split()[0])
        self.assertTrue(out.startswith(f"{count} sheets, and no fewer (verified bins least {count})"))
        rows = list(csv.DictReader(io.StringIO((self.folder / "plan.csv").read_text())))
        self.assertEqual(len(rows), 18)
        self.assertIn("top; oak", {it["name"] for it in rows})
        answer = json.loads((self.folder / "plan.json").read_text())
        self.assertEqual(len(answer["placements"]), 18)
        pages = sorted(self.folder.glob("plan-*.svg"))
        self.assertEqual(len(pages), count)
        html = (self.folder / "plan.html").read_text().replace("<!DOCTYPE html>\n", "")
        tree = ElementTree.fromstring(html)
        self.assertEqual(len(list(tree.iter("{http://www.w3.org/2000/svg}svg"))), count)
        self.assertEqual(len(list(tree.iter("tr"))), 19)
        self.assertEqual(run_main("verify", self.path("plan.document"))[0], 0)

    def test_bounds_in_words_and_status(self):
        rows = "".join(f"p{at},{30 + at * 7 % 40},{25 + at * 11 % 45},2\n" for at in range(20))
        table = self.file("parts.csv", "name,length,width,quantity\n" + rows)
        status, out, _ = run_main("cut", table, "--sheet", "100x100", "--seconds", 0.7)
        first = out.split("\n")[0]
        if status == 3:
            self.assertRegex(first, r"^between \d+ and \d+ sheets \(verified bins between \d+ \d+\)$")
        else:
            self.assertRegex(first, r"^\d+ sheets, and no fewer \(verified bins least \d+\)$")

    def test_a_roll_and_one_sheet(self):
        table = self.file("parts.csv", "name,length,width,quantity,value\na,120,80,3,5\nb,100,60,2,4\n")
        status, out, _ = run_main("cut", table, "--roll", 330)
        self.assertEqual(status, 0)
        self.assertIn("and no less (verified", out)
        status, out, _ = run_main("cut", table, "--sheet", "200x100", "--take", "--svg", "-")
        self.assertEqual(status, 0)
        ElementTree.fromstring(out)

    def test_bounds_of_one_sheet(self):
        table = self.file("parts.csv", "name,length,width,quantity,value\na,120,80,3,5\nb,100,60,2,4\n")
        status, out, _ = run_main("cut", table, "--sheet", "200x100", "--take", "--bounds")
        self.assertEqual(status, 0)
        self.assertIn("(verified bounded knapsack greatest ", out)
        status, _, err = run_main("cut", table, "--sheet", "200x100", "--bounds")
        self.assertEqual(status, 2)
        self.assertIn("bounds is given for bins", err)

    def test_turned_parts_say_what_is_proved(self):
        table = self.file("parts.csv", "name,length,width,quantity\na,6,4,4\n")
        status, out, _ = run_main("cut", table, "--sheet", "10x10", "--turn", "--seconds", 5)
        self.assertEqual(status, 0)
        self.assertIn("1 sheet, and no fewer", out)
        self.assertIn("only the bound by areas holds", out)
        table = self.file("parts.csv", "name,length,width,quantity\na,6,6,2\n")
        status, out, _ = run_main("cut", table, "--sheet", "10x10", "--turn", "--seconds", 5)
        self.assertEqual(status, 3)
        self.assertIn("between 1 and 2 sheets", out)

    def test_stock_claims_no_optimum(self):
        status, out, _ = run_main("stock", self.file("parts.csv", PARTS), "--sheet", "2800x2070:1",
                                  "--sheet", "2500x1250", "--kerf", 4, "--out", self.path("s.csv"))
        self.assertEqual(status, 3)
        self.assertIn("no optimum is claimed", out)
        rows = list(csv.DictReader(io.StringIO((self.folder / "s.csv").read_text())))
        self.assertEqual(sorted(int(it["box"]) for it in rows), list(range(1, 19)))
        self.assertEqual(len({it["sheet"] for it in rows if it["size"] == "2800 × 2070"}), 1)
        status, out, _ = run_main("stock", self.file("p.csv", "length,width\n50,50\n5,5\n"), "--sheet", "10x10")
        self.assertEqual(status, 1)
        self.assertIn("left: box 1 (50 × 50)", out)

    def test_a_part_that_is_too_long_is_named(self):
        table = self.file("parts.csv", "name,length,width\nrail,12,1\nshelf,5,5\n")
        for words, said in ((("--sheet", "10x10"), "none: rail is too long for the sheet (verified bins none)"),
                            (("--sheet", "10x10", "--turn"), "none: rail is too long for the sheet"),
                            (("--roll", "4"), "none: shelf is too long for the roll (verified strip none)")):
            status, out, _ = run_main("cut", table, *words)
            self.assertEqual((status, out.split("\n")[0]), (1, said))

    def test_refusals(self):
        table = self.file("parts.csv", "name,length\na,5\n")
        for words, status in ((("cut", table, "--sheet", "10x10"), 2), (("cut", table), 2),
                              (("cut", self.path("none.csv"), "--sheet", "10x10"), 4)):
            found, out, err = run_main(*words)
            self.assertEqual((found, out), (status, ""))
            self.assertRegex(err, r"^packing: .+: .+\n$")
        table = self.file("parts.csv", "length,width\n5,5\n")
        status, _, err = run_main("cut", table, "--sheet", "9x9", "--out", "/nowhere/plan.csv")
        self.assertEqual(status, 5)
        self.assertIn("can't be written", err)


class LoadsAndPlans(FolderCase):
    """`load` and `plan`."""

    CARTONS = "name,length,width,height,quantity\nA,60,40,30,8\nB,40,30,50,4\n"

    def test_a_load_has_layers_and_support(self):
        status, out, _ = run_main("load", self.file("c.csv", self.CARTONS), "--space", "120x80x110",
                                  "--svg", self.path("load.svg"), "--out", self.path("load.csv"))
        self.assertEqual(status, 0)
        self.assertIn("1 container, and no fewer", out)
        rows = list(csv.DictReader(io.StringIO((self.folder / "load.csv").read_text())))
        self.assertTrue(all(0 <= float(it["held %"]) <= 100 for it in rows))
        self.assertTrue(all(it["held %"] == "100" for it in rows if it["at height"] == "0"))
        low = [it["name"] for it in rows if float(it["held %"]) < 70]
        self.assertEqual(len(low), out.count("warning:"))

    def test_a_gap_is_between_boxes_side_by_side(self):
        table = self.file("c.csv", "name,length,width,height,quantity\nA,5,5,5,4\n")
        status, out, _ = run_main("load", table, "--space", "11x5x10", "--gap", 1, "--out", self.path("o.csv"))
        self.assertEqual(status, 0)
        self.assertIn("1 container, and no fewer", out)
        rows = list(csv.DictReader(io.StringIO((self.folder / "o.csv").read_text())))
        self.assertEqual({it["held %"] for it in rows}, {"100"})

    def test_length_of_a_load_and_a_layer(self):
        table = self.file("c.csv", self.CARTONS)
        status, out, _ = run_main("load", table, "--space", "1360x80x60", "--length", "--seconds", 3)
        self.assertIn(status, (0, 3))
        self.assertRegex(out, r"^length \d+")
        status, out, _ = run_main("load", table, "--space", "120x80", "--seconds", 3)
        self.assertIn("layers", out)

    def test_plans(self):
        table = self.file("j.csv", "job,hours,gigabytes\na,6,24\nb,14,48\nc,5,16\nd,9,32\n")
        for words, said in ((("--capacity", 64), "the end: 23, and no less"),
                            (("--capacity", 64, "--until", 24), "1 machine, and no fewer"),
                            (("--until", 24), "the capacity: 64, and no less")):
            status, out, _ = run_main("plan", table, *words, "--svg", self.path("p.svg"))
            self.assertEqual(status, 0)
            self.assertIn(said, out)
            ElementTree.parse(self.path("p.svg"))
        machines = self.file("m.csv", "job,hours\na,3\nb,4\nc,5\n")
        self.assertIn("the end: 7, and no less", run_main("plan", machines, "--capacity", 2)[1])
        self.assertEqual(run_main("plan", machines)[0], 2)


class Benches(FolderCase):
    """`bench`, and the published forms."""

    def test_a_folder(self):
        for name in ("planks", "values", "two_boxes"):
            job = {"planks": "bins", "values": "knapsack", "two_boxes": "fit"}[name]
            self.file(f"{name}-{job}.txt", (EXAMPLES / f"{name}.txt").read_text())
        self.file("other.md", "no instance\n")
        begin = time.monotonic()
        status, out, _ = run_main("bench", self.folder, "--seconds", 5, "--jobs", 2,
                                  "--out", self.path("r.csv"), "--svg", self.path("r.svg"))
        self.assertLess(time.monotonic() - begin, 16)
        self.assertEqual(status, 0)
        self.assertIn("all: 3 of 3 solved", out)
        self.assertIn("skipped: other.md", out)
        rows = list(csv.DictReader(io.StringIO((self.folder / "r.csv").read_text())))
        self.assertEqual([(it["job"], it["status"], it["lower"], it["upper"]) for it in rows],
                         [("bins", "least", "1", "2"), ("fit", "yes", "", ""), ("knapsack", "greatest", "8", "9")])
        ElementTree.parse(self.path("r.svg"))
        status, out, _ = run_main("bench", self.path("r.csv"), self.path("r.csv"))
        self.assertIn("all: 6 of 6 solved", out)
        status, out, _ = run_main("bench", self.folder, "--once", "--match", "planks")
        self.assertIn("bins: 1 of 1 solved", out)
        for more in ((), ("--once",)):
            status, out, _ = run_main("bench", self.folder, "--bounds", "--seconds", 5,
                                      "--out", self.path("b.csv"), *more)
            self.assertIn("all: 3 of 3 solved", out)
            rows = list(csv.DictReader(io.StringIO((self.folder / "b.csv").read_text())))
            self.assertIn("verified bounded knapsack greatest 8", [it["verdict"] for it in rows])

    def test_json_with_items_and_objects(self):
        text = json.dumps({"Name": "x", "Objects": [{"Length": 10, "Height": 8, "Stock": None, "Cost": 80}],
                           "Items": [{"Length": 5, "Height": 4, "Demand": 2, "DemandMax": 3, "Value": 7},
                                     {"Length": 2, "Height": 3, "Demand": 1, "DemandMax": None, "Value": 6}]})
        it = read_problems(text, "x")[0]
        self.assertEqual((it.job, it.instance.container), ("knapsack", (10, 8)))
        self.assertEqual(it.instance.boxes, ((5, 4), (5, 4), (5, 4), (2, 3)))
        self.assertEqual(it.instance.values, (7, 7, 7, 6))
        text = json.dumps({"bin": {"width": 10, "height": 8}, "items": [{"width": 5, "height": 4}]})
        it = read_problems(text, "x")[0]
        self.assertEqual((it.job, it.instance.container, it.instance.boxes), ("bins", (10, 8), ((5, 4),)))

    def test_columns(self):
        for text, job, container, boxes, values in (
                ("3\n10\n3 4\n5 6\n2 2\n", "strip", (10, 1), ((3, 4), (5, 6), (2, 2)), (1, 1, 1)),
                ("2\n10 8\n1 3 4\n2 5 6\n", "bins", (10, 8), ((3, 4), (5, 6)), (1, 1)),
                ("2\n10 8\n3 4 12\n5 6 30\n", "knapsack", (10, 8), ((3, 4), (5, 6)), (12, 30)),
                ("1\n10 8\n3 4 0 2 12\n", "knapsack", (10, 8), ((3, 4), (3, 4)), (12, 12)),
                ("2\n10 8\n1 3 4 2\n2 5 6 1\n", "bins", (10, 8), ((3, 4), (3, 4), (5, 6)), (1, 1, 1)),
                ("1\n10 8\n1 3 4 1 2 9\n", "knapsack", (10, 8), ((3, 4), (3, 4)), (9, 9)),
                ("2  N. OF ITEMS\n10 8 HBIN,WBIN\n3 4 H(I),W(I),I=1,...,N\n5 6\n", "bins", (10, 8),
                 ((3, 4), (5, 6)), (1, 1))):
            with self.subTest(text=text):
                it = read_problems(text, "name")[0]
                self.assertEqual((it.job, it.instance.container, it.instance.boxes, it.instance.values),
                                 (job, container, boxes, values))

    def test_a_knapsack_takes_copies_and_other_jobs_the_demand(self):
        text = "2\n10 8\n1 3 4 1 3 9\n2 2 2 2 2 5\n"
        self.assertEqual(len(read_problems(text, "x")[0].instance.boxes), 5)
        self.assertEqual(len(read_problems(text, "x", "bins")[0].instance.boxes), 3)
        self.assertEqual(read_problems(text, "x", "strip")[0].job, "strip")

    def test_several_problems_in_a_file(self):
        found = read_problems("2\n1\n10 8\n3 4 0 1 5\n2\n6 6\n1 1 0 1 2\n2 2 0 1 3\n", "ngcut")
        self.assertEqual([it.name for it in found], ["ngcut-1", "ngcut-2"])
        self.assertEqual([len(it.instance.boxes) for it in found], [1, 2])

    def test_names_tell_the_job(self):
        self.assertEqual(job_of_name("bw-strip-c05-n14"), "strip")
        self.assertIsNone(job_of_name("cabins"))

    def test_unknown_forms_are_refused(self):
        for text in ("hello\n", "5\n10 10\n1 1\n", "{\"a\": 1}", "1\n10 10\n1 2 3 4 5 6 7\n"):
            with self.subTest(text=text), self.assertRaises(QuestionRefused):
                read_problems(text, "x")
