"""The command `bench`: runs instances, writes a table and a picture of how many are solved over time."""
import csv
import io
from concurrent.futures import ThreadPoolExecutor
from dataclasses import asdict, dataclass, fields
from pathlib import Path

from .chart import solved_chart
from .document import parse_document
from .errors import PackingError, QuestionRefused, ReadFault, TimeIsUp
from .outputs import csv_text, write_text
from .progress import Progress
from .published import read_problems
from .question import ask
from .search import BOUNDED_JOBS
from .solving import checked_effort, solve_question
from .program import run_pack, verify_text
from .tables import read_text

SOLVED = ("yes", "no", "least", "greatest", "none")
RESULTS = ".csv"


@dataclass(frozen=True)
class Row:
    """What one instance gave. Seconds are processor seconds of the searches, without the checks."""

    instance: str
    job: str
    dimensions: int
    boxes: int
    status: str
    lower: str = ""
    upper: str = ""
    seconds: float = 0.0
    mib: float = 0.0
    lines: int = 0
    verdict: str = ""


HEADER = [it.name for it in fields(Row)]
KINDS = {"dimensions": int, "boxes": int, "seconds": float, "mib": float, "lines": int}


def files_of(names, match):
    """The files in these folders, and these files themselves, by name; tables of results apart."""
    found, results = [], []
    for name in names:
        path = Path(name)
        if path.is_dir():
            found += sorted(it for it in path.iterdir() if it.is_file() and it.suffix != RESULTS)
        elif path.suffix == RESULTS:
            results.append(path)
        elif path.is_file():
            found.append(path)
        else:
            raise ReadFault(f"{name} is missing", "name a folder, an instance or a table of bench")
    return [it for it in found if match in it.name], results


def problems_of(paths, job):
    """The problems in these files, and for each file that is skipped why."""
    problems, skipped = [], []
    texts = {it.with_suffix("") for it in paths if it.suffix == ".txt"}
    for path in paths:
        if path.suffix == ".json" and path.with_suffix("") in texts:
            continue
        try:
            problems += read_problems(read_text(str(path)), path.stem, job)
        except (PackingError, ValueError, KeyError, TypeError) as fault:
            skipped.append(f"{path.name}: {fault}")
    return problems, skipped


def run_problem(problem, options):
    """The row of one instance."""
    instance, job = problem.instance, problem.job or "bins"
    facts = {"instance": problem.name, "job": job, "dimensions": len(instance.container),
             "boxes": len(instance.boxes)}
    effort = checked_effort(job, options.budget, options.workers, options.seconds, not options.no_proposals,
                            options.bounds and job in BOUNDED_JOBS)
    try:
        if options.once:
            return run_once(job, instance, effort, facts)
        question = ask(job, instance.container, instance.boxes, list(instance.kerf),
                       values=list(instance.values))
        answer = solve_question(question, effort, Progress(io.StringIO()))
    except TimeIsUp as fault:
        return Row(**facts, status="time", seconds=round(fault.seconds, 3), mib=round(fault.mib, 1))
    except PackingError as fault:
        return Row(**facts, status="fault", verdict=fault.cause)
    return Row(**facts, status=answer.status, lower=shown_bound(answer.lower),
               upper=shown_bound(answer.upper), seconds=round(answer.processor_seconds, 3),
               mib=round(answer.mib, 1), lines=answer.document.count("\n"), verdict=answer.verdict)


def run_once(job, instance, effort, facts):
    """The row of a single run of the program under the limit, verified."""
    words = [job] + (["--budget", str(effort.budget)] if effort.budget is not None else [])
    words += ["--workers", str(effort.workers)] if effort.workers else []
    words += ["--proposals", "yes"] if effort.proposals else []
    words += ["--bounds", "yes"] if effort.bounds else []
    ran = run_pack(words, instance.text(), effort.seconds)
    document = parse_document(ran.output)
    verdict = "" if document.result[0] == "undecided" else verify_text(ran.output)
    numbers = document.numbers()
    lower, upper = bounds_words(job, document.result[0], numbers)
    return Row(**facts, status=document.result[0], lower=lower, upper=upper, seconds=round(ran.seconds, 3),
               mib=round(ran.mib, 1), lines=ran.output.count("\n"), verdict=verdict)


def bounds_words(job, status, numbers):
    """The half-open bounds of a result line, as the table has them."""
    if status == "least":
        return str(numbers[0] - 1), str(numbers[0])
    if status == "greatest":
        return str(numbers[0]), str(numbers[0] + 1)
    return (str(numbers[0]), str(numbers[1])) if status == "between" else ("", "")


def shown_bound(value):
    """A bound as the table has it: empty where there is none."""
    return "" if value is None else str(value)


def read_rows(paths):
    """The rows of tables that bench wrote."""
    rows = []
    for path in paths:
        with open(path, newline="", encoding="utf-8") as it:
            for row in csv.DictReader(it):
                if set(HEADER) - set(row):
                    raise QuestionRefused(f"{path} isn't a table of bench", "name one that bench wrote")
                rows.append(Row(**{key: KINDS.get(key, str)(row[key]) for key in HEADER}))
    return rows


def bench(options):
    """Runs instances, each under a time limit, and counts how many are solved."""
    paths, tables = files_of(options.instances, options.match)
    problems, skipped = problems_of(paths, options.job)
    rows = read_rows(tables) + run_all(problems, options)
    if not rows:
        raise QuestionRefused("no instance was found", "name a folder of instances, see `published.py`")
    rows.sort(key=lambda it: (it.job, it.instance))
    for it in skipped:
        print(f"skipped: {it}")
    print_counts(rows)
    if options.out:
        write_text(options.out, csv_text(HEADER, [list(asdict(it).values()) for it in rows]))
    if options.svg:
        write_text(options.svg, chart_of(rows))
    return 1 if any(it.status == "fault" for it in rows) else 0


def run_all(problems, options):
    """The rows of all problems, several at the same time."""
    progress, rows = Progress(), []
    with ThreadPoolExecutor(max(1, options.jobs)) as pool:
        for at, row in enumerate(pool.map(lambda it: run_problem(it, options), problems), 1):
            rows.append(row)
            progress.report(f"packing: {at} of {len(problems)}: {row.instance} {row.status}")
    progress.clear()
    return rows


def print_counts(rows):
    """Prints for each job how many instances are solved, and what they took."""
    for job in sorted({it.job for it in rows}):
        some = [it for it in rows if it.job == job]
        solved = sum(it.status in SOLVED for it in some)
        print(f"{job}: {solved} of {len(some)} solved, {sum(it.seconds for it in some):.1f} "
              f"processor seconds, at most {max(it.mib for it in some):.0f} MiB")
    solved = sum(it.status in SOLVED for it in rows)
    print(f"all: {solved} of {len(rows)} solved")


def chart_of(rows):
    """The picture of how many are solved over time."""
    jobs = sorted({it.job for it in rows})
    series = {job: [it.seconds for it in rows if it.job == job and it.status in SOLVED] for job in jobs}
    counts = {job: sum(it.job == job for it in rows) for job in jobs}
    return solved_chart(series, counts, "Solved over time")
