"""The command `verify`: a document from anyone, checked, and compared with one's own question."""
import sys
from collections import Counter

from .document import first_words, reader_of
from .errors import InputTooLong, NotVerified, ReadFault, TimeIsUp
from .exchange import question_of_json, read_json
from .instance import content_lines, parse_instance
from .program import CHECKOUT, Clock, run_words, verdict_of

MAX_BYTES = 256 << 20
FORMS = ("reduced", "bounded", "explained")
CHECKER = "clients/check.py"
DECIDED, BOUNDS, REFUSED = 0, 3, 1

MEANINGS = {
    "fit yes": "a packing is shown", "fit no": "that there is no packing is shown",
    "strip least": "a proved optimum: height {0}, and no less",
    "strip between": "bounds alone: more than {0}, at most {1}",
    "strip none": "proved: no height will do",
    "bins least": "a proved optimum: {0} containers, and no fewer",
    "bins between": "bounds alone: more than {0} containers, at most {1}",
    "bins none": "proved: no number of containers will do",
    "knapsack greatest": "a proved optimum: worth {0}, and no choice is worth more",
    "knapsack between": "bounds alone: worth at least {0}, and none is worth {1} or more",
    "front partial": "bounds alone: the first {0} points of the front",
    "front": "the whole front: {0} points",
}


def read_document(path, most):
    """The text of a file or of standard input, if it isn't longer than `most` bytes."""
    try:
        stream = sys.stdin.buffer if path == "-" else open(path, "rb")
        with stream:
            raw = stream.read(most + 1)
    except OSError as fault:
        raise ReadFault(f"{path} can't be read ({fault.strerror})", "name a file that exists") from fault
    if len(raw) > most:
        raise InputTooLong(f"{path} is longer than {most:,} bytes", "raise --most-bytes, if you trust it")
    return raw.decode("utf-8", "surrogateescape")


def meaning_of(line):
    """What a `verified` line says in words, and whether something is left open."""
    words = [it for it in line.split()[1:] if it not in FORMS]
    numbers = [int(it) for it in words if it.isdigit()]
    key = " ".join(it for it in words if not it.isdigit())
    said = MEANINGS.get(key, key).format(*(f"{it:,}" for it in numbers))
    return said, "between" in words or "partial" in words


def instance_part(text):
    """The instance lines of a document, between its heading and its result line."""
    kept = []
    for number, words in content_lines(text):
        if words[0] == "result":
            break
        if words[0] in ("format", "container", "kerf", "box"):
            kept.append(" ".join(words))
    return parse_instance("\n".join(kept))


def question_instance(path):
    """The instance of a question file: an instance text, a document, or a question in JSON."""
    text = read_document(path, 1 << 24).lstrip("\ufeff")
    if text.lstrip().startswith("{"):
        return question_of_json(read_json(text, path)).instance
    if reader_of(text):
        return instance_part(text)
    return parse_instance(text)


def differences(job, document, question):
    """How the instance of a document differs from the question: what makes it another, and remarks."""
    wrong, remarks = [], []
    sides = -1 if job == "strip" else None
    if len(document.container) != len(question.container):
        return [f"it has {len(document.container)} dimensions, the question {len(question.container)}"], []
    for what, one, other in (("container", document.container[:sides], question.container[:sides]),
                             ("kerf", document.kerf, question.kerf)):
        if one != other:
            wrong.append(f"its {what} is {' '.join(map(str, one))}, that of the question "
                         f"{' '.join(map(str, other))}")
    ours, theirs = boxes_of(job, question), boxes_of(job, document)
    if ours != theirs:
        if Counter(ours) == Counter(theirs):
            remarks.append("its boxes stand in another order")
        else:
            wrong += box_differences(Counter(theirs), Counter(ours))
    if job != "knapsack" and document.values != question.values:
        remarks.append("its values differ, which this job doesn't look at")
    return wrong, remarks


def boxes_of(job, instance):
    """The boxes with what the job looks at: their values for knapsack alone."""
    if job == "knapsack":
        return list(zip(instance.boxes, instance.values))
    return list(instance.boxes)


def box_differences(theirs, ours):
    """Boxes that one of the two has more of, a few of them."""
    found = []
    for what, more in (("isn't in the question", theirs - ours), ("is missing in it", ours - theirs)):
        for box, count in list(more.items())[:3]:
            found.append(f"box {box} {what} ({count} times)")
    return found


def second_opinion(document, line, seconds):
    """The verdict of the second checker in words, and whether it agrees."""
    checker = CHECKOUT / CHECKER
    if not checker.is_file():
        return f"second checker: skipped, {CHECKER} is missing", True
    command = [sys.executable, str(checker), reader_of(document)]
    try:
        ran = run_words(command, document, seconds)
    except TimeIsUp:
        return "second checker: no answer within the time limit", False
    own = ran.output.strip()
    if own == line:
        return f"second checker: {own}", True
    return f"second checker: {own or ran.message or 'no line'}, where the program says {line}", False


def verify(options):
    """Verifies a document. 0: decided, 3: bounds alone, 1: refused, or another question."""
    clock = Clock(options.seconds)
    text = read_document(options.document, options.most_bytes)
    if reader_of(text) is None:
        found = " ".join(first_words(text))[:40] or "nothing"
        raise NotVerified(f"its first line is {found!r}", "give a document that begins with its heading")
    try:
        line, ran = verdict_of(text, clock.left())
    except TimeIsUp as fault:
        raise TimeIsUp("the document wasn't read to its end within the time limit",
                       "give more --seconds; nothing is known of it") from fault
    if ran.status != 0:
        raise NotVerified(line)
    said, is_open = meaning_of(line)
    print(line)
    print(said)
    status = BOUNDS if is_open else DECIDED
    if options.question and not is_same_question(text, line, options.question):
        status = REFUSED
    if options.second:
        words, agrees = second_opinion(text, line, max(1.0, clock.left() or 60.0))
        print(words)
        status = status if agrees else REFUSED
    return status


def is_same_question(text, line, path):
    """Compares a verified document with a question file, and prints what differs."""
    job = next((it for it in line.split()[1:] if it not in FORMS), "fit")
    wrong, remarks = differences(job, instance_part(text), question_instance(path))
    for it in wrong:
        print(f"another question: {it}")
    for it in remarks:
        print(f"note: {it}")
    if not wrong:
        print(f"the question is that of {path}")
    return not wrong

