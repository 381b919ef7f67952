"""Documents: their parts, and how parts of two of them are composed into one.

Nothing here verifies a document. What is composed counts only after `check` or `audit` accepted it.
"""
from dataclasses import dataclass
from typing import Tuple

from .errors import QuestionRefused
from .instance import Instance, parse_instance, spaced

READERS = {"answer": "check", "reduced": "audit", "bounded": "audit", "explained": "audit", "front": "audit"}


@dataclass(frozen=True)
class Spot:
    """Where one box stands, in whole numbers: its number, its container (both from 1), its corner."""

    box: int
    container: int
    corner: Tuple[int, ...]


@dataclass(frozen=True)
class Document:
    """The parts of a document of fit, strip, bins or knapsack."""

    heading: str
    job: str
    instance: Instance
    result: Tuple[str, ...]
    spots: Tuple[Spot, ...]
    proof: str

    def numbers(self):
        """The numbers of the result line."""
        return tuple(int(it) for it in self.result if it.isdigit())

    def height(self):
        """The greatest end of a placed box in the last dimension."""
        return max(it.corner[-1] + self.instance.boxes[it.box - 1][-1] for it in self.spots)


def first_words(text):
    """The words of the first line that isn't blank."""
    for line in text[:65536].split("\n"):
        words = line.split("#", 1)[0].split()
        if words:
            return tuple(words)
    return ()


def reader_of(text):
    """The job that reads this document: `check` or `audit`, or None for another text."""
    words = first_words(text)
    return READERS.get(words[0]) if words else None


def parse_document(text):
    """The parts of a document in the spelling of the program. A long proof is sliced, not split."""
    begin = text.find("\nresult ") + 1
    lines = lines_from(text, begin)
    heading = tuple(text[:text.find("\n")].split())
    if not begin or len(heading) != 2:
        raise QuestionRefused("the text isn't a document of fit, strip, bins or knapsack",
                              "give a document as `pack` writes it")
    result = tuple(next(lines)[1].split()[1:])
    instance = parse_instance(text[text.find("\n"):begin])
    spots, end = [], text.rfind("end\n")
    proof_begin = end
    for at, line in lines:
        words = line.split()
        if words[:1] not in (["place"], ["take"]):
            proof_begin = at + len("proof\n") if words == ["proof"] else at
            break
        spots.append(spot_of(heading[1], len(spots) + 1, words, len(instance.container)))
    return Document(heading[0], heading[1], instance, result, tuple(spots), text[proof_begin:end])


def lines_from(text, at):
    """The lines of a text from a position on, each with its position."""
    while at < len(text):
        end = text.find("\n", at)
        end = len(text) if end < 0 else end
        yield at, text[at:end]
        at = end + 1


def spot_of(job, number, words, dims):
    """The spot of a `place` or `take` line; `number` is that of the line among them."""
    numbers = tuple(map(int, words[1:]))
    corner = numbers[-dims:]
    if words[0] == "take":
        return Spot(numbers[0], 1, corner)
    return Spot(number, numbers[0] if job == "bins" else 1, corner)


def spot_lines(job, spots):
    """The lines of these spots, as the job writes them."""
    lines = []
    for it in spots:
        named = {"bins": (it.container,), "knapsack": (it.box,)}.get(job, ())
        word = "take" if job == "knapsack" else "place"
        lines.append(spaced(word, (*named, *it.corner)) + "\n")
    return "".join(lines)


def result_of(job, placed, refuted):
    """The result line of a placed and a refuted level: proved where they are neighbours."""
    if job == "knapsack":
        return f"greatest {placed}" if refuted == placed + 1 else f"between {placed} {refuted}"
    return f"least {placed}" if refuted == placed - 1 else f"between {refuted} {placed}"


def compose(job, instance, heading, placed, spots, refuted, proof):
    """A document of strip, bins or knapsack with these levels, spots and token lines."""
    return (f"{heading} {job}\n{instance.text()}result {result_of(job, placed, refuted)}\n"
            f"{spot_lines(job, spots)}proof\n{proof}end\n")


def with_spots(document, spots):
    """The text of a document with other spots, and all else as it is."""
    proof = "" if document.job == "fit" else f"proof\n{document.proof}"
    return (f"{document.heading} {document.job}\n{document.instance.text()}"
            f"result {' '.join(document.result)}\n{spot_lines(document.job, spots)}{proof}end\n")
