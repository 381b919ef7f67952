"""Instances in whole numbers, as the program reads and writes them."""
from dataclasses import dataclass
from typing import Tuple

from .errors import QuestionRefused

MAX_SIDE = 1_000_000
MAX_KERF = 100_000
MAX_BOXES = 128
MAX_VALUE = 1_000_000_000


def content_lines(text):
    """The words of each line that isn't blank, without comments, and the number of the line.

    The text is read line by line, since it may be a long document of which only the head is wanted.
    """
    at, number = 0, 0
    while at < len(text):
        end = text.find("\n", at)
        end = len(text) if end < 0 else end
        number += 1
        words = text[at:end].split("#", 1)[0].split()
        if words:
            yield number, words
        at = end + 1


def first_word(text):
    """The first word of a text that isn't in a comment; empty where there is none."""
    return next((words[0] for _, words in content_lines(text[:65536])), "")


@dataclass(frozen=True)
class Instance:
    """A container, the kerf in each dimension, and the single boxes with their values."""

    container: Tuple[int, ...]
    kerf: Tuple[int, ...]
    boxes: Tuple[Tuple[int, ...], ...]
    values: Tuple[int, ...]

    def text(self):
        """The instance in the one spelling that the program writes."""
        has_kerf = any(self.kerf)
        lines = [f"format {2 if has_kerf else 1}", spaced("container", self.container)]
        if has_kerf:
            lines.append(spaced("kerf", self.kerf))
        for sides, value in zip(self.boxes, self.values):
            lines.append(spaced("box", sides) + ("" if value == 1 else f" value {value}"))
        return "\n".join(lines) + "\n"

    def with_last_side(self, side):
        """The same instance with another last side of the container."""
        return Instance((*self.container[:-1], side), self.kerf, self.boxes, self.values)

    def with_boxes(self, boxes):
        """The same instance with other sides of the boxes."""
        return Instance(self.container, self.kerf, tuple(map(tuple, boxes)), self.values)


def spaced(word, numbers):
    """A line of a word and numbers."""
    return " ".join([word, *map(str, numbers)])


def parse_instance(text):
    """Reads an instance text of format 1 or 2, in any spelling that the program accepts."""
    container, kerf, boxes, values = None, None, [], []
    for number, words in content_lines(text):
        try:
            if words[0] == "container":
                container = tuple(map(int, words[1:]))
            elif words[0] == "kerf":
                kerf = tuple(map(int, words[1:]))
            elif words[0] == "box":
                sides, options = words[1:len(container) + 1], words[len(container) + 1:]
                named = dict(zip(options[::2], map(int, options[1::2])))
                times = named.get("times", 1)
                if len(boxes) + times > MAX_BOXES:
                    raise ValueError(times)
                boxes += [tuple(map(int, sides))] * times
                values += [named.get("value", 1)] * times
            elif words[0] != "format":
                raise ValueError(words[0])
        except (ValueError, TypeError) as fault:
            cause = f"line {number} isn't a line of an instance"
            raise QuestionRefused(cause, "see FORMATS, \"Instance text\"") from fault
    if not container or not boxes:
        raise QuestionRefused("the text has no container or no box", "see FORMATS, \"Instance text\"")
    return Instance(container, kerf or (0,) * len(container), tuple(boxes), tuple(values))
