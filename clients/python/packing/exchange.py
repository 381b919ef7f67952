"""JSON in and out. `schema.json` beside this file describes both forms."""
import json
from decimal import Decimal

from .errors import QuestionRefused
from .question import Box, ask
from .solving import checked_effort, solve_question
from .turning import solve_turned

KEYS = {"job", "container", "boxes", "kerf", "budget", "workers", "seconds", "proposals", "bounds",
        "turn"}
BOX_KEYS = {"sides", "name", "value", "quantity"}


def read_json(text, what):
    """A JSON value; decimals keep their digits."""
    try:
        return json.loads(text.lstrip("\ufeff"), parse_float=Decimal)
    except ValueError as fault:
        raise QuestionRefused(f"{what} isn't JSON ({fault})", "see schema.json for its form") from fault


def checked_keys(found, known, needed, what):
    """The object, if it has the keys that it needs and no other than those that are known."""
    if not isinstance(found, dict):
        raise QuestionRefused(f"{what} isn't an object", "see schema.json for its form")
    for key in needed:
        if key not in found:
            raise QuestionRefused(f"{what} has no `{key}`", "see schema.json for its form")
    for key in found:
        if key not in known:
            raise QuestionRefused(f"{what} has the key `{key}`", f"known are {', '.join(sorted(known))}")
    return found


def question_of_json(found):
    """The question of a JSON object."""
    checked_keys(found, KEYS, ("job", "container", "boxes"), "the question")
    for key in ("container", "boxes"):
        if not isinstance(found[key], list):
            raise QuestionRefused(f"`{key}` isn't a list", "see schema.json for its form")
    boxes = []
    for at, it in enumerate(found["boxes"], 1):
        checked_keys(it, BOX_KEYS, ("sides",), f"box {at}")
        if not isinstance(it["sides"], list):
            raise QuestionRefused(f"`sides` of box {at} isn't a list", "see schema.json for its form")
        boxes.append(Box(tuple(it["sides"]), it.get("name", ""), it.get("value", 1), it.get("quantity", 1)))
    return ask(found["job"], found["container"], boxes, found.get("kerf"), turnable=bool(found.get("turn")))


def solve_json(text, seconds=None):
    """The answer to a question in JSON; `seconds` is the limit where it names none."""
    found = read_json(text, "the question")
    question = question_of_json(found)
    limit = found.get("seconds", seconds)
    effort = checked_effort(question.job, found.get("budget"), found.get("workers"), limit and float(limit),
                            found.get("proposals", True), found.get("bounds", False))
    if found.get("turn"):
        return solve_turned(question, effort.seconds or 20.0)
    return solve_question(question, effort)


def as_number(value):
    """A JSON number of an int or a decimal."""
    return float(value) if isinstance(value, Decimal) else value


def answer_as_json(answer):
    """The JSON object of an answer."""
    return {
        "job": answer.question.job, "status": answer.status, "proved": answer.is_proved,
        "words": answer.words(), "lower": as_number(answer.lower), "upper": as_number(answer.upper),
        "placements": [placement_as_json(it) for it in answer.placements],
        "notes": list(answer.notes), "verdict": answer.verdict, "document": answer.document,
        "seconds": round(answer.seconds, 3),
    }


def placement_as_json(placement):
    """The JSON object of a placement."""
    return {"box": placement.box, "name": placement.name, "container": placement.container,
            "corner": [as_number(it) for it in placement.corner],
            "sides": [as_number(it) for it in placement.sides], "turned": placement.turned}


def json_text(value):
    """JSON with an indent, and a line feed at its end."""
    return json.dumps(value, indent=1, ensure_ascii=False) + "\n"
