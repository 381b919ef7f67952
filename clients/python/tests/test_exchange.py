"""JSON in and out, held to the schema beside it."""
import json
from pathlib import Path

import packing
from packing.exchange import answer_as_json, read_json, solve_json
from tests.helpers import FolderCase
from tests.running import run_main

SCHEMA = json.loads((Path(packing.__file__).parent / "schema.json").read_text())
TYPES = {"object": dict, "array": list, "string": str, "boolean": bool, "integer": int,
         "number": (int, float), "null": type(None)}


def faults(value, schema, where="it"):
    """What of a value is against a schema: the keywords that our schema uses."""
    if "$ref" in schema:
        return faults(value, SCHEMA["$defs"][schema["$ref"].split("/")[-1]], where)
    found = []
    if "anyOf" in schema and all(faults(value, it, where) for it in schema["anyOf"]):
        found.append(f"{where} is none of anyOf")
    if "enum" in schema and value not in schema["enum"]:
        found.append(f"{where} isn't one of {schema['enum']}")
    if "type" in schema:
        kinds = schema["type"] if isinstance(schema["type"], list) else [schema["type"]]
        if not any(isinstance(value, TYPES[it]) and (it == "boolean" or not isinstance(value, bool))
                   for it in kinds):
            return [*found, f"{where} isn't {kinds}"]
    if isinstance(value, dict):
        found += [f"{where} has no {it}" for it in schema.get("required", ()) if it not in value]
        known = schema.get("properties", {})
        found += [f"{where} has {it}" for it in value if it not in known and "properties" in schema]
        for key, it in value.items():
            found += faults(it, known.get(key, {}), f"{where}.{key}")
    if isinstance(value, list):
        for at, it in enumerate(value):
            found += faults(it, schema.get("items", {}), f"{where}[{at}]")
    return found


class SpeaksJson(FolderCase):
    """Questions in, answers out."""

    QUESTION = {"job": "bins", "container": ["2800.5", 2070], "kerf": 4, "seconds": 5,
                "boxes": [{"sides": [800, 600.25], "name": "door", "quantity": 6}, {"sides": [700, 400]}]}

    def test_answers_and_questions_hold_to_the_schema(self):
        self.assertEqual(faults(self.QUESTION, {"$ref": "#/$defs/question"}), [])
        for change in ({}, {"turn": True}, {"job": "strip"}, {"job": "knapsack"}, {"job": "fit"}):
            answer = solve_json(json.dumps({**self.QUESTION, **change}))
            found = json.loads(json.dumps(answer_as_json(answer)))
            self.assertEqual(faults(found, {"$ref": "#/$defs/answer"}), [], change)

    def test_the_schema_is_held_by_the_test(self):
        self.assertTrue(faults({**self.QUESTION, "job": "pile"}, {"$ref": "#/$defs/question"}))
        self.assertTrue(faults({"job": "fit"}, {"$ref": "#/$defs/question"}))

    def test_a_pipeline(self):
        status, out, err = run_main("solve", self.file("q.json", json.dumps(self.QUESTION)))
        self.assertEqual((status, err), (0, ""))
        found = json.loads(out)
        self.assertEqual((found["status"], found["lower"], found["upper"]), ("least", 0, 1))
        self.assertEqual(found["placements"][0]["name"], "door")
        self.assertEqual(found["placements"][0]["sides"], [800, 600.25])
        self.assertTrue(found["document"].startswith("answer bins\n"))

    def test_bounds_of_a_knapsack(self):
        question = {**self.QUESTION, "job": "knapsack", "bounds": True}
        self.assertEqual(faults(question, {"$ref": "#/$defs/question"}), [])
        status, out, _ = run_main("solve", self.file("q.json", json.dumps(question)))
        self.assertEqual(status, 0)
        self.assertTrue(json.loads(out)["verdict"].startswith("verified bounded knapsack greatest "))
        for change in ({}, {"turn": True}):
            other = json.dumps({**question, "job": "fit", **change})
            status, _, err = run_main("solve", self.file("q.json", other))
            self.assertEqual(status, 2)
            self.assertIn("bounds is given for fit", err)

    def test_decimals_keep_their_digits(self):
        self.assertEqual(str(read_json('{"a": 60.10}', "it")["a"]), "60.10")

    def test_refusals(self):
        for text, words in (("{", "isn't JSON"), ("[]", "isn't an object"), ("{}", "has no `job`"),
                            ('{"job": "fit", "container": 5, "boxes": []}', "isn't a list"),
                            ('{"job": "fit", "container": [5, 5], "boxes": [{}]}', "has no `sides`"),
                            ('{"job": "fit", "container": [5, 5], "boxes": [{"sides": 5}]}', "isn't a list"),
                            ('{"job": "fit", "containr": [5, 5], "boxes": [], "container": []}', "`containr`")):
            with self.subTest(text=text):
                status, out, err = run_main("solve", self.file("q.json", text))
                self.assertEqual((status, out), (2, ""))
                self.assertIn(words, err)
                self.assertTrue(err.startswith("packing: "))
