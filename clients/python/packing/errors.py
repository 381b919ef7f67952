"""What can go wrong, one class for each kind, each with its cause and its cure in words.

`str(error)` is the line that the command prints: `what is wrong: what to do`. `status` is the exit
status of the command; 2 to 6 are those of the program.
"""
import re


class PackingError(Exception):
    """Base of all errors of this module."""

    status = 7

    def __init__(self, cause, cure=""):
        super().__init__(f"{cause}: {cure}" if cure else cause)
        self.cause = cause
        self.cure = cure


class QuestionRefused(PackingError, ValueError):
    """The question breaks a limit, or parts of it don't belong together."""

    status = 2


class TableRefused(QuestionRefused):
    """A table of boxes can't be read. The cause names the file and the line."""


class WordsRefused(PackingError):
    """Status 2: the program refused its words."""

    status = 2


class TextRefused(PackingError):
    """Status 2: the program refused a line of the instance text, with its number and code."""

    status = 2

    def __init__(self, line, code):
        cause, cure = CODES.get(code, ("the line has a fault", "see FORMATS, \"Instance text\""))
        super().__init__(f"line {line} of the instance: {cause}", cure)
        self.line = line
        self.code = code


class InputTooLong(PackingError):
    """Status 2: the text or the document is longer than the job allows."""

    status = 2


class ReadFault(PackingError):
    """Status 4: the input couldn't be read."""

    status = 4


class WriteFault(PackingError):
    """Status 5: the output couldn't be written."""

    status = 5


class OutOfMemory(PackingError):
    """Status 6: the system refused memory."""

    status = 6


class ProgramMissing(PackingError):
    """No program was found, or the one that was found doesn't answer as `pack` does."""


class ProgramFailed(PackingError):
    """The program ended by a signal, or with a status that it doesn't have."""


class TimeIsUp(PackingError):
    """The time limit passed before there was any verified document, or a child was killed at it."""

    seconds = 0.0
    mib = 0.0


class NotVerified(PackingError):
    """`check` or `audit` refused a document. `verdict` is the line that it wrote."""

    status = 1

    def __init__(self, verdict, cure="don't use this document"):
        super().__init__(f"the document isn't verified ({verdict})", cure)
        self.verdict = verdict


CODES = {
    1: ("a word isn't known there", "write small letters; `times` and `kerf` need `format 2`"),
    2: ("it has too few or too many words", "give as many sides as the container has"),
    3: ("a number is expected", "write digits alone, without a sign, a unit or a decimal mark"),
    4: ("a number is out of its range", "sides go from 1 to 1,000,000; choose a greater unit"),
    5: ("it needs a line before it", "keep the order format, container, kerf, boxes"),
    6: ("a second format, container or kerf line", "give one container in each text"),
    7: ("the text ends before its container line", "give a `format` and a `container` line"),
    8: ("a byte that isn't plain text", "use plain letters, digits and signs"),
    9: ("more than 128 boxes", "split the question, or treat several boxes as one"),
    10: ("no box", "give at least one box"),
}


def error_of(status, message):
    """The error for an exit status of the program and the line that it wrote to standard error."""
    fault = re.match(r"pack: line (\d+): code (\d+)", message)
    if fault:
        return TextRefused(int(fault[1]), int(fault[2]))
    if message.startswith("usage:"):
        return WordsRefused("the program doesn't know these words", "see FORMATS, \"Words\"")
    if message.startswith("pack: input too long"):
        return InputTooLong("the input is too long for this job", "give one instance or document")
    if message.startswith("pack: front needs"):
        return WordsRefused("front needs two dimensions", "give boxes with two sides")
    if status == 4:
        return ReadFault("the program couldn't read its input", "look at the disk, then try again")
    if status == 5:
        return WriteFault("the program couldn't write its output", "make room on the disk")
    if status == 6:
        return OutOfMemory("the system refused memory", "use a smaller budget or allow more memory")
    how = f"signal {-status}" if status < 0 else f"status {status}"
    return ProgramFailed(f"the program ended with {how}", message or "check the program's file")
