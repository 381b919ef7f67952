"""Packs boxes into containers through the program `pack`, and verifies each answer.

    import packing
    answer = packing.solve("bins", (2800, 2070), [(800, 600), (700, 400)], quantities=[6, 4])
    print(answer.words("sheet", "sheets"))
"""
from .answer import Answer, Placement
from .errors import (InputTooLong, NotVerified, OutOfMemory, PackingError, ProgramFailed,
                     ProgramMissing, QuestionRefused, ReadFault, TableRefused, TextRefused, TimeIsUp,
                     WordsRefused, WriteFault)
from .question import Box
from .solving import solve

__version__ = "0.9.0"
__all__ = ["Answer", "Box", "Placement", "solve", "InputTooLong", "NotVerified", "OutOfMemory",
           "PackingError", "ProgramFailed", "ProgramMissing", "QuestionRefused", "ReadFault",
           "TableRefused", "TextRefused", "TimeIsUp", "WordsRefused", "WriteFault"]
