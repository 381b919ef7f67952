"""Compares clients/check.py with the program; run it by tools/check_second, which says what it shows."""
import importlib.util
import io
import os
import random
import re
import subprocess
import sys
import tempfile
from concurrent.futures import ThreadPoolExecutor

ROOT = os.path.dirname(os.path.dirname(os.path.realpath(__file__)))
MAX_LINES = 20
WORKERS = 4


def load_second():
    """The module clients/check.py, without a folder of compiled files beside it."""
    sys.dont_write_bytecode = True
    spec = importlib.util.spec_from_file_location("second", f"{ROOT}/clients/check.py")
    module = importlib.util.module_from_spec(spec)
    sys.modules["second"] = module
    spec.loader.exec_module(module)
    return module


# Documents that a weak checker accepts, each with its command and its line.

BOARD = "answer fit\nformat 1\ncontainer 10 10\nbox 6 6\n"
TWO = "explained fit\nformat 1\ncontainer 10 10\nbox 6 6\nbox 6 6\nresult no\n"
CUBES = "explained fit\nformat 1\ncontainer 10 10 10\nbox 6 6 6\nbox 6 6 6\nresult no\n"
ROWS = "answer fit\nformat 1\ncontainer 10 100\n"
STEPS = ROWS.replace("answer", "explained")
SQUARES = "bounded knapsack\nformat 1\ncontainer 10 10\n" + "box 6 6 value 5\n" * 3
SQUARES += "result greatest 5\ntake 1 0 0\nproof\n"
STACK = "bounded strip\nformat 1\ncontainer 10 1\n" + "box 6 2\n" * 4
STACK += "result least 8\nplace 0 0\nplace 0 2\nplace 0 4\nplace 0 6\nproof\n"
NAMED = {
    "a height by a family": ("audit", STACK + "k 2 1 2 3 4\nend\n", "verified bounded strip least 8"),
    "a family in three lines": ("audit", STACK + "k 2 4\nk 2 2 1\nk 2 3\nend\n", "verified bounded strip least 8"),
    "a family as long as the side": (
        "audit",
        STACK.replace("least 8", "between 8 9") + "k 2 1 2 3 4\nend\n",
        "refused 15 short",
    ),
    "a family of boxes that may overlap there": (
        "audit",
        STACK.replace("box 6 2", "box 5 2").replace("least 8", "between 6 8") + "k 2 1 2 3 4\nend\n",
        "refused 14 choice",
    ),
    "a family with a box twice": ("audit", STACK + "k 2 1 2 3 1\nend\n", "refused 14 choice"),
    "a family of a box behind the last": ("audit", STACK + "k 2 1 2 3 5\nend\n", "refused 14 range"),
    "a family in a dimension that is not there": ("audit", STACK + "k 3 1 2 3 4\nend\n", "refused 14 range"),
    "a family that changes its dimension": ("audit", STACK + "k 2 1 2\nk 1 3 4\nend\n", "refused 15 form"),
    "another token in a family": ("audit", STACK + "k 2 1 2\nx\nend\n", "refused 15 form"),
    "a family of no boxes": ("audit", STACK + "k 2\nend\n", "refused 14 form"),
    "a family line of ten boxes": ("audit", STACK + "k 2 1 2 3 4 1 2 3 4 1 2\nend\n", "refused 14 form"),
    "a family behind a whole tree": ("audit", STACK + "k 2 1 2 3 4\nk 2 1\nend\n", "refused 15 after"),
    "a family at a node with a conflict": (
        "audit",
        STACK.replace("container 10 1", "container 11 1").replace("least 8", "between 3 8") + "k 2 1 2\nend\n",
        "refused 14 choice",
    ),
    "a conflict that only a family shows": ("audit", STACK + "x\nend\n", "refused 14 conflict"),
    "a family under answer": ("check", STACK.replace("bounded", "answer") + "k 2 1 2 3 4\nend\n", "refused 14 form"),
    "a family under reduced": ("audit", STACK.replace("bounded", "reduced") + "k 2 1 2 3 4\nend\n", "refused 14 form"),
    "a bounded strip under check": ("check", STACK + "k 2 1 2 3 4\nend\n", "refused 1 form"),
    "symmetry facts under bounded": (
        "audit",
        "bounded strip\nformat 1\ncontainer 10 1\n" + "box 3 6\n" * 4
        + "result between 10 12\nplace 0 0\nplace 3 0\nplace 6 0\nplace 0 6\nproof\nx\nend\n",
        "refused 14 conflict",
    ),
    "a strip that is too narrow": (
        "audit",
        "bounded strip\nformat 1\ncontainer 5 1\nbox 6 2\nresult none\nt 1 1\nend\n",
        "verified bounded strip none",
    ),
    "a family behind the box that is too wide": (
        "audit",
        "bounded strip\nformat 1\ncontainer 5 1\nbox 6 2\nresult none\nt 1 1\nk 2 1\n",
        "refused 7 form",
    ),
    "a value by the whole shares of boxes": (
        "audit",
        SQUARES + "u 1000000000 5 step 1 step 1\nend\n",
        "verified bounded knapsack greatest 5",
    ),
    "a value by shares that let two boxes in": ("audit", SQUARES + "u 1000000000 5 id id\nend\n", "refused 10 excess"),
    "weights that leave the goal reached": (
        "audit",
        SQUARES + "u 5 1000000000 step 1 step 1\nend\n",
        "refused 10 excess",
    ),
    "a price under answer": (
        "check",
        SQUARES.replace("bounded", "answer") + "u 1000000000 5 step 1 step 1\nend\n",
        "refused 10 form",
    ),
    "a bounded document under check": ("check", SQUARES + "u 1000000000 5 step 1 step 1\nend\n", "refused 1 form"),
    "a price with a function that is not legal": ("audit", SQUARES + "u 1 1 step 17 id\nend\n", "refused 10 range"),
    "a price with one function": ("audit", SQUARES + "u 1 1 id\nend\n", "refused 10 form"),
    "a price in an inner tree": ("audit", SQUARES + "c 1\nc 2\ns\nu 1 1 id id\nend\n", "refused 13 form"),
    "a price behind a whole tree": (
        "audit",
        SQUARES + "u 1000000000 5 step 1 step 1\nu 1 1 id id\nend\n",
        "refused 11 after",
    ),
    "a box that is too long is in": (
        "audit",
        SQUARES.replace("box 6 6 value 5\nresult", "box 6 11 value 5\nresult") + "c 3\nu 0 1 id id\n",
        "refused 11 excess",
    ),
    "a box that is too long gains nothing": (
        "audit",
        SQUARES.replace("5\nresult", "900\nresult").replace("6 value 900", "11 value 900")
        + "u 1000000000 5 step 1 step 1\nend\n",
        "verified bounded knapsack greatest 5",
    ),
    "an exchange of equal boxes": (
        "audit",
        SQUARES + "c 1\nu 1000000000 5 step 1 step 1\nc 2\ne 1 2\nc 3\ne 1 3\nw\nend\n",
        "verified bounded knapsack greatest 5",
    ),
    "an exchange in turned order": (
        "audit",
        SQUARES + "c 2\nu 1000000000 5 step 1 step 1\nc 1\ne 2 1\nend\n",
        "refused 13 choice",
    ),
    "an exchange for a box of less value": (
        "audit",
        SQUARES.replace("5\nbox", "4\nbox", 1).replace("take 1", "take 2")
        + "c 1\nu 1000000000 5 step 1 step 1\nc 2\ne 1 2\nend\n",
        "refused 13 choice",
    ),
    "an exchange with an undecided box": ("audit", SQUARES + "c 2\ne 1 2\nend\n", "refused 11 choice"),
    "an exchange of no box": ("audit", SQUARES + "c 2\ne 4 2\nend\n", "refused 11 range"),
    "an exchange in an inner tree": ("audit", SQUARES + "c 1\nc 2\ns\ne 1 2\nend\n", "refused 13 form"),
    "an exchange under answer": ("check", SQUARES.replace("bounded", "answer") + "e 1 2\nend\n", "refused 10 form"),
    "a bounded document of fit": ("audit", "bounded fit\nformat 1\n", "refused 1 form"),
    "a place below 0": ("check", BOARD + "result yes\nplace -6 0\nend\n", "refused 6 form"),
    "a second container behind the places": (
        "check",
        BOARD + "box 6 6\nresult yes\nplace 0 0\nplace 6 0\ncontainer 12 10\nend\n",
        "refused 8 outside 2 1",
    ),
    "a second container behind places that will do": (
        "check",
        BOARD + "result yes\nplace 0 0\ncontainer 12 10\nend\n",
        "refused 7 form",
    ),
    "two equal boxes with one place": (
        "check",
        "answer fit\nformat 2\ncontainer 10 10\nbox 6 6 times 2\nresult yes\nplace 0 0\nend\n",
        "refused 7 form",
    ),
    "places that keep no kerf": (
        "check",
        "answer fit\nformat 2\ncontainer 10 10\nkerf 1 0\nbox 5 10\nbox 5 10\nresult yes\nplace 0 0\nplace 5 0\nend\n",
        "refused 9 overlap 1 2",
    ),
    "no end": ("check", BOARD + "result yes\nplace 0 0\n", "refused 7 short"),
    "a line behind the end": ("check", BOARD + "result yes\nplace 0 0\nend\nplace 0 0\n", "refused 8 after"),
    "steps for two of three dimensions": (
        "audit",
        CUBES + "pair 1 1 2\npair 2 1 2\napart 1 1 2\nx 1 1 2\nend\n",
        "refused 9 step",
    ),
    "steps for all three dimensions": (
        "audit",
        CUBES + "pair 1 1 2\npair 2 1 2\npair 3 1 2\napart 1 1 2\nx 1 1 2\nend\n",
        "verified explained fit no",
    ),
    "a yes under explained": (
        "audit",
        TWO.replace("result no", "result yes") + "pair 1 1 2\npair 2 1 2\napart 1 1 2\nx 1 1 2\nend\n",
        "refused 6 form",
    ),
    "a tuple that exceeds": (
        "audit",
        TWO.replace("box 6 6", "box 10 6") + "v id step 1\nend\n",
        "verified explained fit no",
    ),
    "a tuple that only fills the container": (
        "audit",
        TWO.replace("box 6 6", "box 5 10") + "v id id\nend\n",
        "refused 7 excess",
    ),
    "a step function of 17": ("audit", TWO + "v id step 17\nend\n", "refused 7 range"),
    "a tuple that is not legal": ("audit", TWO + "v id cut 6\nend\n", "refused 7 range"),
    "a tuple of one function": ("audit", TWO + "v id\nend\n", "refused 7 form"),
    "a closure taken for granted": ("audit", TWO + "x 1 1 2\nend\n", "refused 7 conflict"),
    "symmetry facts under answer": (
        "check",
        "answer fit\nformat 1\ncontainer 10 10\n" + "box 3 6\n" * 4 + "result no\nx\nend\n",
        "refused 9 conflict",
    ),
    "symmetry facts under reduced": (
        "audit",
        "reduced fit\nformat 1\ncontainer 10 10\n" + "box 3 6\n" * 4 + "result no\nx\nend\n",
        "verified reduced fit no",
    ),
    "a fact of two boxes without a twin": (
        "audit",
        "reduced fit\nformat 1\ncontainer 10 10\nbox 3 3\nbox 3 3\nbox 1 2\nbox 2 1\nresult no\na 1 3 4\nd 1 3 4\n",
        "refused 10 choice",
    ),
    "a split that CHAIN rules out": (
        "check",
        ROWS + "box 3 1\n" * 3 + "box 2 1\nresult no\na 1 1 2\nd 1 1 2\na 1 3 4\nd 1 3 4\na 1 2 3\nd 1 2 3\n",
        "refused 14 choice",
    ),
    "a split that CYCLE rules out": (
        "check",
        ROWS + "box 3 1\nbox 8 1\nbox 3 1\nbox 2 1\nbox 6 1\nbox 6 1\nresult no\n"
        "a 1 1 3\na 1 4 5\na 1 1 5\na 1 4 6\na 1 3 6\na 1 2 4\n",
        "refused 16 choice",
    ),
    "a split that ORDER rules out": (
        "check",
        ROWS + "box 6 1\nbox 3 1\nbox 3 1\nbox 5 1\nresult no\na 1 1 2\nd 1 1 2\na 1 3 4\nd 1 3 4\na 1 2 3\n",
        "refused 13 choice",
    ),
    "half a side under cut": (
        "check",
        "answer fit\nformat 1\ncontainer 10 10\nbox 6 10\nbox 6 10\nresult no\nv cut 5 id\nend\n",
        "verified fit no",
    ),
    "half a side under count": (
        "check",
        "answer fit\nformat 1\ncontainer 10 10\nbox 5 10\nbox 5 10\nresult no\nv count 2 id\nend\n",
        "refused 7 excess",
    ),
    "a kerf that makes the container too long": (
        "check",
        "answer fit\nformat 2\ncontainer 999999 5\nkerf 2 0\n",
        "refused 4 text 4",
    ),
    "a kerf that makes a box too long": (
        "check",
        "answer fit\nformat 2\ncontainer 10 10\nkerf 5 0\nbox 999995 1\nbox 999996 1\n",
        "refused 6 text 4",
    ),
    "a box that is taken twice": (
        "check",
        "answer knapsack\nformat 1\ncontainer 10 10\nbox 5 5\nbox 5 5\nresult greatest 2\ntake 1 0 0\ntake 1 5 5\n",
        "refused 8 range",
    ),
    "a TRIPLE step of boxes that aren't apart": (
        "audit",
        STEPS + "box 4 1\n" * 3 + "result no\ntriple 1 1 2 3\n",
        "refused 8 step",
    ),
    "a CYCLE step across boxes that aren't apart": (
        "audit",
        STEPS + "box 6 1\n" * 4 + "result no\npair 1 1 2\npair 1 2 3\npair 1 3 4\npair 1 1 4\ncycle 1 1 2 3 4\n",
        "refused 13 step",
    ),
    "an ORDER step of boxes that may stand in a row": (
        "audit",
        STEPS + "box 2 1\n" * 4 + "result no\na 1 1 2\nd 1 1 2\na 1 3 4\nd 1 3 4\norder 1 1 2 3 4\n",
        "refused 13 step",
    ),
    "an ORDER step": (
        "audit",
        STEPS + "box 6 1\nbox 3 1\nbox 3 1\nbox 5 1\nresult no\na 1 1 2\nd 1 1 2\na 1 3 4\nd 1 3 4\n"
        "pair 1 1 4\norder 1 1 2 3 4\na 1 2 3\n",
        "refused 15 choice",
    ),
    "a CHAIN step of boxes that have room": (
        "audit",
        STEPS + "box 5 1\n" * 2 + "result no\nchain 1 1 1\non 1\non 2\n",
        "refused 9 step",
    ),
    "a CHAIN step from a box to itself": ("audit", TWO + "chain 1 1 1\non 1\non 1\n", "refused 9 step"),
    "a chain that comes back to a box": (
        "audit",
        TWO.replace("result", "box 6 6\nresult")
        + "pair 1 1 2\npair 2 1 2\napart 1 1 2\nchain 1 3 1\non 1\non 2\non 1\n",
        "refused 14 step",
    ),
    "a front with a gap between corner and point": (
        "audit",
        "front\nformat 1\ncontainer 4 4\nbox 2 1\nresult front 1\ncorner 1 4\nt 1 1\npoint 3 1\n",
        "refused 8 range",
    ),
    "a front whose last point is 1 high": (
        "audit",
        "front\nformat 1\ncontainer 4 4\nbox 2 1\nresult front 1\ncorner 1 4\nt 1 1\npoint 2 1\nplace 0 0\nend\n",
        "verified front 1",
    ),
    "a front without its closing corner": (
        "audit",
        "front\nformat 1\ncontainer 4 4\nbox 1 2\nresult front 1\npoint 1 2\nplace 0 0\nend\n",
        "refused 8 form",
    ),
}


# Documents that the program writes for small instances


def run_program(program, words, text):
    """The status, and what was written to standard output and standard error."""
    ran = subprocess.run([program, *words], input=text, capture_output=True)
    return ran.returncode, ran.stdout + ran.stderr


def make_instance(rng, dims, box_lines=(1, 5)):
    """A small instance text, in about a third of the cases with kerfs, and with values and equal boxes.

    `box_lines` are the fewest and the most lines of boxes.
    """
    container = [rng.randint(3, 12) for _ in range(dims)]
    kerf = [rng.randint(0, 2) for _ in range(dims)] if rng.random() < 0.35 else None
    lines = ["format 2", "container " + " ".join(map(str, container))]
    lines += ["kerf " + " ".join(map(str, kerf))] if kerf else []
    least = rng.choice([1, 2, 3])
    for _ in range(rng.randint(*box_lines)):
        sides = [rng.randint(min(least, side * 2 // 3), side * 2 // 3 + rng.choice([0, 0, 1])) for side in container]
        line = "box " + " ".join(map(str, sides))
        line += rng.choice(["", f" value {rng.randint(0, 9)}"])
        line += rng.choice(["", "", f" times {rng.randint(1, 3)}"])
        lines.append(line)
    return "\n".join(lines) + "\n"


def fresh_documents(program, rng, rounds):
    """The documents of all jobs for `rounds` instances of 2, 3 and 4 dimensions each, as calls to run."""
    jobs = [["fit"], ["reduced"], ["strip"], ["strip", "--facts", "yes"], ["bins"], ["knapsack"]]
    jobs += [["knapsack", "--bounds", "yes"], ["front"]]
    for number in range(rounds):
        for dims in (2, 3, 4):
            text = make_instance(rng, dims)
            for job in jobs if dims == 2 else jobs[:-1]:
                words = [*job, "--budget", rng.choice(["5", "60", "400"])]
                words += ["--scales", rng.choice(["yes", "no", "no"])]
                name = f"{'-'.join(job)}-{dims}-{number}"
                yield name, run_program(program, words, text.encode())[1]


def priced_documents(program, rng, rounds):
    """Documents of `knapsack --bounds yes` for more boxes and small budgets, so that most have priced leaves."""
    for number in range(rounds):
        for dims in (2, 3, 4):
            text = make_instance(rng, dims, (6, 12)).encode()
            for more in ([], ["--proposals", "yes"]):
                words = ["knapsack", "--bounds", "yes", "--budget", rng.choice(["0", "0", "30"]), *more]
                yield f"{'-'.join(words)}-{dims}-{number}", run_program(program, words, text)[1]


def stacked_documents(rng, rounds):
    """Documents of `bounded strip` for boxes that can only lie on one another, shown by a family in lines of any length."""
    for number in range(rounds):
        dims, count = rng.randint(2, 4), rng.randint(2, 14)
        wholes = [rng.randint(3, 12) for _ in range(dims - 1)]
        boxes = [[*(rng.randint(whole // 2 + 1, whole) for whole in wholes), rng.randint(1, 5)] for _ in range(count)]
        bottoms = [sum(box[-1] for box in boxes[:k]) for k in range(count + 1)]
        order, lines = rng.sample(range(1, count + 1), count), []
        while order:
            length = rng.randint(1, 9)
            lines.append(" ".join(map(str, ["k", dims, *order[:length]])))
            order = order[length:]
        text = ["bounded strip", "format 1", " ".join(map(str, ["container", *wholes, 1]))]
        text += [" ".join(map(str, ["box", *box])) for box in boxes]
        text += [f"result least {bottoms[-1]}"]
        text += [" ".join(["place", *["0"] * (dims - 1), str(bottom)]) for bottom in bottoms[:-1]]
        yield f"stacked-{dims}-{number}", "\n".join([*text, "proof", *lines, "end", ""]).encode()


def bounded(documents):
    """Each document of `strip` under the other heading, and each of `knapsack`: as it is, and with a price for each `w`."""
    for name, document in documents:
        if document.startswith(b"answer strip"):
            yield name + ".bounded", document.replace(b"answer", b"bounded", 1)
        if document.startswith(b"answer knapsack"):
            other = document.replace(b"answer", b"bounded", 1)
            dims = len(re.search(rb"^container (.*)$", other, re.M).group(1).split())
            yield name + ".bounded", other
            yield name + ".priced", re.sub(rb"^w$", b"u 1 0" + b" id" * dims, other, flags=re.M)


def explained(program, documents):
    """What `explain` makes of each document of `fit` that says no."""
    for name, document in documents:
        if document.startswith(b"answer fit") and b"\nresult no\n" in document:
            yield name + ".explained", run_program(program, ["explain"], document)[1]


# Forged copies

HEADINGS = """answer fit|answer strip|answer bins|answer knapsack|reduced fit|reduced strip|reduced bins|explained fit
explained strip|bounded knapsack|bounded strip|bounded fit|bounded|front|front fit|answer|answer front|answer pile""".replace("\n", "|").split("|")
RESULTS = """yes|no|undecided|none|maybe||no no|least|least 0|least 1|least 2|least 0002|least 7|least 128000000
least 128000001|between 1|between 0 1|between 1 3|between 3 3|between 0 128000000001|between 0 128000000002
greatest 0|greatest 3|greatest 128000000001|greatest 128000000002|front 0|front 1|front 2|front 000001
front 1000001|front 4294967296|partial 0|partial 1|partial 2""".replace("\n", "|").split("|")
NUMBERS = "0 1 2 128 129 1000000 1000001 128000001 4294967295 4294967296 -1 +1 1.0 1e1 0x1 x".split()
NUMBERS += ["18446744073709551616", "9" * 20, "9" * 21, "0" * 19 + "1", "0" * 20 + "1", ""]
WORDS = """a d x t v b c s w g u e k id step cut count pair apart triple compose cycle order chain on end proof place take
corner point result format container kerf box value times answer reduced explained bounded front crate END""".split()
WORDS += ["\x7f", "\xff", "\x0b"]
FUNCTIONS = "id|id|id|id|step 0|step 1|step 2|step 16|step 17|cut 0|cut 2|cut 3|count 0|count 2|count 3".split("|")
ODD = ["\r", "\r\r", "\t", "  ", "#", " # a comment", "#\xff", "\n", "\r\n", *"\0\x1f\x7f\x80\xff\x0c\x1c"]
BEHIND = ["end", "", "#", "# x", "x", "x 1 1 2", "\xff", "\t ", "\r", "\r\r", "place 0 0", "answer fit", "proof"]
ENDINGS = [b"\r\n", b"\r\r\n", b"\r", b" \r\n", b"\n\n", b" # c\r\n", b"#\n"]
ADDED = [" times 2", " times 1", " value 3 times 2", " times 128", " value 0", " times 2 value 3"]
# How many numbers a token has, and the tokens of each heading's trees.
COUNTS = {"a": 3, "d": 3, "x": 0, "t": 2, "b": 1, "c": 1, "s": 1, "w": 0, "on": 1, "pair": 3, "apart": 3, "triple": 4}
COUNTS.update({"e": 2, "compose": 4, "cycle": 5, "order": 5, "chain": 3})
INNER = ["a", "d", "x", "x", "t", "v"]
KINDS = {"answer bins": [*INNER, "b", "s", "g"], "answer knapsack": [*INNER, "c", "s", "w"]}
KINDS["bounded knapsack"] = [*KINDS["answer knapsack"], "u", "u", "e", "e"]
KINDS["bounded strip"] = [*INNER, "k", "k", "k"]
KINDS["explained fit"] = "pair apart triple compose cycle order chain on a d x t v".split()
TREE_LINES = {"a ", "d ", "x", "x ", "t ", "v ", "b ", "c ", "s", "s ", "w", "g ", "u ", "e ", "k "}


class Forger:
    """Makes forged copies of documents: each is one to three changes of one document, drawn from a seed."""

    def __init__(self, rng, documents):
        self.rng, self.documents = rng, [document.decode("latin-1").split("\n")[:-1] for document in documents]
        self.with_trees = [lines for lines in self.documents if sum(line[:2] in TREE_LINES for line in lines) >= 4]
        self.changes = [self.change_number] * 9 + [self.change_side, self.replace_by_token] * 6
        self.changes += [self.insert_token, self.change_line] * 3
        self.changes += [self.change_word, self.move_word, self.move_line, self.borrow_line, self.change_heading]
        self.changes += [self.change_result, self.change_text, self.change_dims, self.add_odd_bytes, self.add_behind]

    def copy(self):
        """A forged copy in bytes: lines are changed first, and then perhaps the bytes."""
        lines = self.rng.choice(self.with_trees if self.rng.random() < 0.6 else self.documents)[:]
        for _ in range(self.rng.choice([1, 1, 1, 1, 1, 2, 3])):
            self.rng.choice(self.changes)(lines)
        data = ("\n".join(lines) + "\n").encode("latin-1", "replace")
        return self.change_bytes(data) if self.rng.random() < 0.12 else data

    def at(self, lines):
        """The index of a line: in five out of six cases of one behind the result line."""
        result = next((k for k, line in enumerate(lines) if line.startswith("result")), 0)
        return self.rng.randrange(result if self.rng.random() < 0.84 else 0, len(lines)) if lines else 0

    def line(self, lines):
        at = self.at(lines)
        return at, lines[at].split(" ") if lines else [""]

    def put(self, lines, at, words):
        lines[at : at + 1] = [" ".join(words)]

    def change_number(self, lines):
        at, words = self.line(lines)
        places = [k for k, word in enumerate(words) if word.isdigit()]
        if places:
            k = self.rng.choice(places)
            value = int(words[k])
            near = [value + 1, value - 1, value * 2, value + self.rng.randint(-5, 5), self.rng.randint(0, 9)]
            far = [*NUMBERS, "0" * self.rng.randint(1, 20) + words[k]]
            words[k] = str(self.rng.choice(near if self.rng.random() < 0.6 else far))
        self.put(lines, at, words)

    def change_side(self, lines):
        """Makes a side of the container or of a box 1 longer or shorter, so that the places or the tree may fail."""
        at = [k for k, line in enumerate(lines) if line.startswith(("container", "box", "corner", "point"))]
        if at:
            k, count = self.rng.choice(at), self.rng.randint(1, 3)
            nearby = lambda it: str(int(it[0]) + self.rng.choice([-1, 0, 0, 1]))
            lines[k] = re.sub(r"\d+", nearby, lines[k], count=count)

    def change_word(self, lines):
        at, words = self.line(lines)
        words[self.rng.randrange(len(words))] = self.rng.choice(WORDS + NUMBERS)
        self.put(lines, at, words)

    def move_word(self, lines):
        """Swaps, removes, doubles or adds a word."""
        at, words = self.line(lines)
        k, other, how = self.rng.randrange(len(words)), self.rng.randrange(len(words)), self.rng.randrange(4)
        if how == 0:
            words[k], words[other] = words[other], words[k]
        elif how == 1:
            del words[k]
        else:
            words.insert(other, words[k] if how == 2 else self.rng.choice(WORDS + NUMBERS))
        self.put(lines, at, words)

    def change_line(self, lines):
        """Removes or doubles a line."""
        at = self.at(lines)
        lines[at : at + 1] = lines[at : at + 1] * self.rng.choice([0, 0, 2])

    def move_line(self, lines):
        at, other = self.at(lines), self.at(lines)
        if lines:
            lines[at], lines[other] = lines[other], lines[at]

    def borrow_line(self, lines):
        """Puts a line of another document, or all lines from there on, in a place of its own."""
        other = self.rng.choice(self.documents)
        start, at = self.at(other), self.at(lines)
        borrowed = other[start:] if self.rng.random() < 0.3 else other[start : start + 1]
        lines[at : at + self.rng.randrange(2)] = borrowed

    def change_heading(self, lines):
        lines[:1] = [self.rng.choice(HEADINGS)]

    def change_result(self, lines):
        lines[:] = ["result " + self.rng.choice(RESULTS) if line.startswith("result") else line for line in lines]

    def token(self, lines):
        """A token or a step: mostly of the document's own trees, with numbers of some dimension and some boxes."""
        boxes, dims, heading = sum(line.startswith("box") for line in lines), 2, lines[0] if lines else ""
        for line in lines:
            dims = max(len(line.split()) - 1, 1) if line.startswith("container") else dims
        others = [*COUNTS, "g", "k", "end", "proof", "place", "take"]
        kind = self.rng.choice(KINDS.get(heading, INNER) if self.rng.random() < 0.9 else others)
        if kind in ("v", "g", "u"):
            weights = [str(self.rng.choice([0, 1, 2, 1_000_000_000, 4_294_967_295])) for _ in "QP" if kind == "u"]
            count = dims + self.rng.choice([0] * 8 + [1, -1])
            return " ".join([kind, *weights, *(self.rng.choice(FUNCTIONS) for _ in range(count))])
        if kind in ("place", "take"):
            return " ".join([kind, *(str(self.rng.randint(0, 6)) for _ in range(dims + (kind == "take")))])
        count = 3 if kind == "x" and heading == "explained fit" else COUNTS.get(kind, 0)
        count = self.rng.choice([1, 2, 2, 3, 4, 6, 10, 11]) if kind == "k" else count
        first = [self.rng.randint(1, dims)] if count > 1 and kind != "e" else []
        numbers = self.rng.sample(range(1, boxes + 1), min(boxes, count - len(first)))
        if kind in ("a", "d", "x") and self.rng.random() < 0.9:
            numbers.sort()
        words = [kind, *map(str, [*first, *numbers] if kind != "t" else [*numbers, *first])]
        return " ".join(words[:1] if kind == "s" and heading != "answer bins" else words)

    def replace_by_token(self, lines):
        at = self.at(lines)
        lines[at : at + 1] = [self.token(lines)]

    def insert_token(self, lines):
        """Adds a token, with a leaf behind it or without."""
        at = self.at(lines)
        lines[at:at] = [self.token(lines), *self.rng.choice([[], [], ["x"], ["x", "x"]])]

    def change_text(self, lines):
        """Changes the instance: the format, a kerf, repeats, values, a second container."""
        dims = next((len(line.split()) - 1 for line in lines if line.startswith("container")), 2)
        kerf = "kerf " + " ".join(str(self.rng.choice([0, 0, 1, 2, 3, 100_000, 100_001])) for _ in range(dims))
        boxes = [k for k, line in enumerate(lines) if line.startswith("box")]
        how = self.rng.randrange(7)
        if how == 0 or (how < 5 and self.rng.random() < 0.8):
            lines[:] = [re.sub("^format.*", "format 2", line) for line in lines]
        if how == 1:
            lines[:] = [part for line in lines for part in ([line, kerf] if line.startswith("container") else [line])]
        elif how in (2, 3) and boxes:
            lines[self.rng.choice(boxes)] += self.rng.choice(ADDED)
        elif how == 4:
            lines[:] = [kerf if line.startswith("kerf") else line for line in lines]
        elif how == 5:
            lines.insert(self.at(lines), "container " + " ".join(str(self.rng.randint(1, 30)) for _ in range(dims)))
        elif how == 6:
            another = [kerf, "format 1", "format 2", "format 3", "box 1 1", "box 1 1 1"]
            lines.insert(self.at(lines), self.rng.choice(another))

    def change_dims(self, lines):
        """Adds or takes away a last number, on all lines that have one for each dimension or on those of one kind."""
        places = ("place", "take")
        kinds = self.rng.choice([("container", "kerf", "box", *places), ("container", "box"), ("box",), places])
        last = self.rng.choice([" 0", " 1", " 5", None])
        for k, line in enumerate(lines):
            if line.startswith(kinds):
                lines[k] = line + last if last else line.rpartition(" ")[0]

    def add_odd_bytes(self, lines):
        """Adds spaces, comments, blank lines, carriage returns and bad bytes."""
        at = self.at(lines)
        line, k = lines[at] if lines else "", self.rng.randint(0, len(lines[at]) if lines else 0)
        odd = self.rng.choice(ODD)
        lines[at : at + 1] = [line + odd if self.rng.random() < 0.4 else line[:k] + odd + line[k:]]

    def add_behind(self, lines):
        lines += [self.rng.choice([*BEHIND, self.token(lines)]) for _ in range(self.rng.choice([1, 1, 2]))]

    def change_bytes(self, data):
        """Cuts the document at some byte, ends its lines otherwise, or changes a byte."""
        k, how = self.rng.randint(0, len(data)), self.rng.randrange(6)
        if how == 0:
            return data[:k]
        if how == 1:
            return data.replace(b"\n", self.rng.choice(ENDINGS))
        if how == 2:
            return data[:-1]
        if how == 3:
            return data[:k] + bytes([self.rng.randrange(256)]) + data[k + 1 :]
        return data.replace(b" ", b"\t") if how == 4 else b"# a comment\n\n" + data


# What is compared


def command_of(document):
    """The command that reads documents of this first line."""
    return "check" if document.lstrip().startswith(b"answer") else "audit"


class Comparison:
    """The two answers on documents, and the differences so far."""

    def __init__(self, program, second):
        self.program, self.second, self.lost, self.folder, self.reasons = program, second, 0, None, {}

    def of_program(self, case):
        _, command, document, _ = case
        status, text = run_program(self.program, [command], document)
        return text.decode("latin-1").rstrip("\n"), status

    def of_second(self, case):
        _, command, document, _ = case
        try:
            return self.second.answer(command, io.BytesIO(document))
        except self.second.Stopped as stop:
            return stop.args
        except Exception as error:
            return f"{type(error).__name__}: {error}", None

    def compare(self, cases):
        with ThreadPoolExecutor(WORKERS) as pool:
            for case, theirs in zip(cases, pool.map(self.of_program, cases)):
                ours = self.of_second(case)
                wanted = case[3] or theirs[0]
                reason = " ".join(word for word in theirs[0].split() if not word.isdigit())
                self.reasons[reason] = self.reasons.get(reason, 0) + 1
                if ours != theirs or theirs[0] != wanted:
                    self.differs(case, theirs, ours)

    def differs(self, case, theirs, ours):
        name, command, document, wanted = case
        self.folder = self.folder or tempfile.mkdtemp(prefix="second-")
        self.lost += 1
        file = f"{self.folder}/{self.lost}"
        with open(file, "wb") as it:
            it.write(document)
        if self.lost <= MAX_LINES:
            expected = f", expected {wanted!r}" if wanted else ""
            both = "{!r} with status {}, and clients/check.py {!r} with status {}".format(*theirs, *ours)
            what = f"{name}: pack {command} < {file} prints {both}{expected}"
            print(f"tools/check_second: {what}: find by docs/FORMATS.md which is wrong", file=sys.stderr)


def stored_documents():
    folder = f"{ROOT}/examples"
    for name in sorted(os.listdir(folder)):
        if name.endswith((".document", ".explained", ".bounded")):
            with open(f"{folder}/{name}", "rb") as it:
                yield name, it.read()


def long_documents(limit):
    """A document as long as `audit` holds, one that is a byte longer, and longer bounded ones."""
    text = NAMED["symmetry facts under reduced"][1].encode()
    yield "a document at the limit", "audit", text.ljust(limit, b"#"), "verified reduced fit no"
    yield "a document past the limit", "audit", text.ljust(limit + 1, b"#"), "pack: input too long"
    squares, begun = SQUARES + "u 1000000000 5 step 1 step 1\nend\n", SQUARES + "end\n"
    line = "verified bounded knapsack greatest 5"
    yield "a bounded document past the limit", "audit", squares.encode().ljust(limit + 1, b"#"), line
    yield "a bounded tree that ends early", "audit", begun.encode().ljust(limit + 1, b"#"), "refused 10 short"
    yield "a heading past the limit", "audit", b"#" * limit + b"\n" + squares.encode(), "pack: input too long"


def main(program, copies, seed):
    rng, comparison = random.Random(seed), Comparison(program, load_second())
    documents = [*stored_documents(), *fresh_documents(program, rng, 5), *priced_documents(program, rng, 5)]
    documents += [*explained(program, documents), *bounded(documents), *stacked_documents(rng, 15)]
    named = [(name, command, text.encode(), line) for name, (command, text, line) in NAMED.items()]
    named += long_documents(comparison.second.LIMITS["audit"])
    comparison.compare(named)
    comparison.compare([(name, command, it, None) for name, it in documents for command in ("check", "audit")])
    forger, cases = Forger(rng, [it for _, it in documents]), []
    for number in range(1, copies + 1):
        copy = forger.copy()
        other = {"check": "audit", "audit": "check"}[command_of(copy)]
        commands = [command_of(copy)] + [other] * (number % 8 == 0)
        cases += [(f"copy {number} of seed {seed}", command, copy, None) for command in commands]
    comparison.compare(cases)
    if os.environ.get("REASONS"):
        for reason, count in sorted(comparison.reasons.items()):
            print(count, reason)
    if comparison.lost:
        saved = f"each document is saved in {comparison.folder}"
        print(f"tools/check_second: {comparison.lost} differences: {saved}", file=sys.stderr)
        return 1
    what = f"{len(documents) + len(named)} documents and {copies} forged copies"
    print(f"tools/check_second: {what}: clients/check.py and the program say the same")
    return 0


if __name__ == "__main__":
    sys.exit(main(sys.argv[1], int(sys.argv[2]), int(sys.argv[3])))
