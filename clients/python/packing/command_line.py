"""The command line: `python3 -m packing COMMAND ..`."""
import argparse
import sys

from . import __version__
from .bench import bench
from .errors import PackingError
from .exchange import answer_as_json, json_text, solve_json
from .outputs import write_text
from .question import JOBS
from .stock import stock
from .trades import cut, load, plan
from .verify import MAX_BYTES, read_document, verify

STATUSES = """exit status: 0 proved (yes, least, greatest), 1 proved no, none or refused, 2 the question was
refused, 3 bounds alone or undecided, 4 to 6 read fault, write fault, out of memory, 7 no answer in
time, or the program is missing"""


def add_effort(parser, seconds=20.0):
    """Options on how much a search may spend."""
    parser.add_argument("--seconds", type=float, default=seconds, help="time limit (default %(default)s)")
    parser.add_argument("--budget", type=int, help="greatest number of branchings of one search tree")
    parser.add_argument("--workers", type=int, help="threads of the program, 1 to 64")
    parser.add_argument("--no-proposals", action="store_true", help="don't look for likely packings first")


def add_bounds(parser, when):
    """The option that refutes values by volumes, and heights by boxes side by side."""
    parser.add_argument("--bounds", action="store_true",
                        help=f"{when}: refute values also by volumes, heights by boxes side by side")


def add_outputs(parser):
    """Options on what is written."""
    parser.add_argument("--svg", metavar="FILE", help="pictures: FILE, or FILE-1, FILE-2 of several pages")
    parser.add_argument("--html", metavar="FILE", help="all pictures and placements as one page")
    parser.add_argument("--out", metavar="FILE", help="the placements as CSV")
    parser.add_argument("--json", metavar="FILE", help="the answer as JSON")
    parser.add_argument("--document", metavar="FILE", help="the verified document")
    parser.add_argument("--unit", default="", help="name of the unit, as mm (pictures and sentences)")


def trade(commands, name, run, help_text):
    """A command that reads a table of boxes."""
    parser = commands.add_parser(name, help=help_text, description=run.__doc__, epilog=STATUSES)
    parser.add_argument("table", help="CSV with a line of column names")
    parser.set_defaults(run=run)
    return parser


def make_parser():
    """The parser of all commands."""
    parser = argparse.ArgumentParser(prog="packing", description=__doc__, epilog=STATUSES)
    parser.add_argument("--version", action="version", version=f"packing {__version__}")
    commands = parser.add_subparsers(dest="command", required=True, metavar="COMMAND")

    it = trade(commands, "cut", cut, "cut parts from sheets or from a roll")
    it.add_argument("--sheet", help="sides of a sheet, as 2800x2070")
    it.add_argument("--roll", help="width of a roll")
    it.add_argument("--kerf", default="0", help="width of a cut")
    it.add_argument("--turn", action="store_true", help="parts may be turned by a quarter")
    it.add_argument("--take", action="store_true", help="one sheet: which parts are worth most")
    add_bounds(it, "with --take or --roll")
    add_effort(it)
    add_outputs(it)

    it = trade(commands, "load", load, "load boxes into containers, or onto a layer")
    it.add_argument("--space", required=True, help="sides of the space, as 1360x245x270 or 1200x800")
    it.add_argument("--gap", default="0", help="gap that two boxes side by side keep")
    it.add_argument("--turn", action="store_true", help="boxes may be turned on the floor")
    it.add_argument("--take", action="store_true", help="one container: which boxes are worth most")
    add_bounds(it, "with --take or --length")
    it.add_argument("--length", action="store_true", help="the least length of the space that is enough")
    add_effort(it)
    add_outputs(it)

    it = trade(commands, "plan", plan, "plan jobs on machines or memory")
    it.add_argument("--capacity", help="machines, or memory of one machine")
    it.add_argument("--until", help="the time at which all jobs have ended")
    add_effort(it)
    add_outputs(it)

    it = trade(commands, "stock", stock, "cut parts from sheets of several sizes; no optimum claimed")
    it.add_argument("--sheet", action="append", required=True, help="as 2800x2070, or 2800x2070:3 of three")
    it.add_argument("--kerf", default="0", help="width of a cut")
    it.add_argument("--seconds", type=float, default=20.0, help="time limit (default %(default)s)")
    it.add_argument("--svg", metavar="FILE", help="pictures, one page a sheet")
    it.add_argument("--out", metavar="FILE", help="the placements as CSV")
    it.add_argument("--unit", default="", help="name of the unit, as mm")

    add_solve(commands)
    add_verify(commands)
    add_bench(commands)
    return parser


def add_solve(commands):
    """The command `solve`."""
    it = commands.add_parser("solve", help="a question in JSON, the answer in JSON", epilog=STATUSES)
    it.add_argument("question", nargs="?", default="-", help="a file, or - for standard input")
    it.add_argument("--seconds", type=float, help="time limit, where the question names none")
    it.add_argument("--out", metavar="FILE", default="-", help="where the answer goes")
    it.set_defaults(run=solve_command)


def add_verify(commands):
    """The command `verify`."""
    it = commands.add_parser("verify", help="verify a document from anyone", description=verify.__doc__)
    it.add_argument("document", help="a file, or - for standard input")
    it.add_argument("--question", metavar="FILE", help="your question: instance text, document or JSON")
    it.add_argument("--seconds", type=float, default=60.0, help="time limit (default %(default)s)")
    it.add_argument("--most-bytes", type=int, default=MAX_BYTES,
                    help="longest document (default %(default)s)")
    it.add_argument("--second", action="store_true", help="also ask the second checker, clients/check.py")
    it.set_defaults(run=verify)


def add_bench(commands):
    """The command `bench`."""
    it = commands.add_parser("bench", help="run a folder of instances", description=bench.__doc__)
    it.add_argument("instances", nargs="+", help="folders, instances, or tables (.csv) that bench wrote")
    it.add_argument("--job", choices=JOBS, help="the job of all instances; by default that of each name")
    it.add_argument("--match", default="", help="only instances with this text in their name")
    it.add_argument("--jobs", type=int, default=1, help="instances at the same time (default %(default)s)")
    it.add_argument("--once", action="store_true", help="one run each with --budget, not rising ones")
    it.add_argument("--out", metavar="FILE", help="the table as CSV")
    it.add_argument("--svg", metavar="FILE", help="how many are solved over time")
    add_effort(it, 10.0)
    add_bounds(it, "strip and knapsack")
    it.set_defaults(run=bench)


def solve_command(options):
    """A question in JSON, its answer in JSON."""
    answer = solve_json(read_document(options.question, 1 << 24), options.seconds)
    write_text(options.out, json_text(answer_as_json(answer)))
    return answer.exit_status


def main(words=None):
    """Runs a command. Returns its exit status."""
    options = make_parser().parse_args(words)
    try:
        return options.run(options)
    except PackingError as fault:
        print(f"packing: {fault}", file=sys.stderr)
        return fault.status
    except BrokenPipeError:
        return 5
    except KeyboardInterrupt:
        print("packing: stopped", file=sys.stderr)
        return 7
