"""Sorts the output of a server into frames and answers, and stores the numbers of the frames that a session has sent.
"""

from collections.abc import Callable, Iterable
from typing import NamedTuple

from canbusd.frames import HANDED_OVER, MESSAGE

# How an answer ends: with an echo, or with the verdict on a frame, which is a single message.
ECHO, VERDICT = "e", "v"
# The start of the verdict that accepts a frame, and the maximum length of such a verdict. The frame's number in the
# verdict has at most ten digits, because a bus has fewer than 2**32 entries.
ACK, LONGEST_ACK = "ack ", len("ack ") + 10
# How many frame numbers a page stores, and how many pages are kept. A frame whose page was removed would arrive 16
# million numbers late.
PAGE, MOST_PAGES = 4096, 4096


class Asked(NamedTuple):
    """The pending questions and the answers so far. This object is always replaced as a whole, so an exception leaves
    no partial state."""

    #: How each expected answer ends.
    ends: str
    #: The number of answers that arrived, and how many answers are still expected for questions that were given up.
    came: int = 0
    owed: int = 0
    #: The answers to the current question, and the beginning of the next answer.
    answers: tuple[str, ...] = ()
    answer: str = ""

    @property
    def is_answered(self) -> bool:
        """Whether all expected answers have arrived."""
        return self.came == len(self.ends)

    def given_up(self, was_sent: bool) -> "Asked":
        """Returns the state after the current question is given up. If the question was sent, its remaining answers
        will still arrive."""
        ends = self.ends[self.came :] if was_sent else self.ends[self.came : self.owed]
        return Asked(ends, 0, len(ends))

    def and_then(self, ends: str) -> "Asked":
        """Returns the state with one more question. `ends` contains how each of its answers ends."""
        return Asked(self.ends + ends, *self[1:])

    def sorted(self, messages: Iterable[str], note: Callable[[int], None]) -> tuple["Asked", list[str], str]:
        """Returns the state after these messages, the frames among the messages, and the first unexpected message.

        `note` is called with the number of each accepted frame.
        """
        frames: list[str] = []
        ends, came, owed, answers, answer = self.ends, self.came, self.owed, [*self.answers], self.answer
        unasked = ""
        for one in messages:
            if one.startswith("< frame "):
                frames.append(one)
                continue
            message = one[one.rfind("<") + 1 :].strip()
            if message.startswith(HANDED_OVER) and MESSAGE.fullmatch(message):
                frames.append(f"< {message}")
            elif came == len(ends):
                unasked = unasked or message
            elif ends[came] == ECHO and message != "echo":
                answer = message
            else:
                if ends[came] == VERDICT:
                    answer = verdict(message, note)
                if came >= owed:
                    answers.append(answer)
                answer, came = "", came + 1
        return Asked(ends, came, owed, tuple(answers), answer), frames, unasked


def verdict(message: str, note: Callable[[int], None]) -> str:
    """Returns the answer that a verdict on a frame stands for. For `ack 17` this is the empty string, and `note` is
    called with 17."""
    number = message[len(ACK) :]
    if not message.startswith(ACK) or not number.isdecimal() or len(message) > LONGEST_ACK:
        return message
    note(int(number))
    return ""


class OwnNumbers:
    """The numbers of a session's frames at its interface. Each page stores one byte for each number."""

    def __init__(self) -> None:
        self._pages: dict[int, bytearray] = {}

    def __contains__(self, number: int) -> bool:
        page = self._pages.get(number // PAGE)
        return page is not None and page[number % PAGE] != 0

    def note(self, number: int) -> None:
        """Adds a number. If there are too many pages, the oldest page is removed."""
        page = self._pages.get(number // PAGE)
        if page is None:
            page = self._pages[number // PAGE] = bytearray(PAGE)
            if len(self._pages) > MOST_PAGES:
                del self._pages[next(iter(self._pages))]
        page[number % PAGE] = 1
