"""Long edit lists of one shape each, in which something could be looked for again and again.

    python3 tests/room/long_lists.py [SHAPE EVENTS]

It prints such a list, or the names of all shapes. Status: 0, or 2 where there is no such shape.
"""

from __future__ import annotations

import sys
from typing import Callable, Dict, List

HOUR = 86400
"""Frames of an hour at 24 a second."""


def label(frame: int) -> str:
    """The label of a frame at 24 a second."""
    return f"{frame // 86400:02}:{frame // 1440 % 60:02}:{frame // 24 % 60:02}:{frame % 24:02}"


def times(source: int, record: int, frames: int) -> str:
    """The four labels of an event."""
    return " ".join(label(frame) for frame in (source, source + frames, record, record + frames))


def event(number: int, word: str = "", reel: str = "") -> str:
    """An event line of 20 frames, behind those of lower numbers."""
    return f"{word or f'{number + 1:06}'}  {reel or f'A{number % 50:03}'}     V     C        {times(number * 30, number * 20, 20)}\n"


def motion(number: int, later: int = 0) -> str:
    """A motion line of the event with that number, or of a label that is later than that event's."""
    return f"M2 A{number % 50:03} 024.0 {label(number * 30 + later)}\n"


def met_again(number: int) -> str:
    """The labels of an event of 10 frames whose scans are met again and again."""
    return times(HOUR + number * 70 % 20000, HOUR + number * 10, 10)


def letters(number: int, _: int) -> str:
    """Small letters in each event line."""
    return f"{number % 1000}  A{number % 50}     v     c   {met_again(number)}\n* FROM CLIP NAME: C{number % 300}\n"


def files(number: int, _: int) -> str:
    """Reel AX, and a clip's name."""
    return f"{number % 1000}  AX     V     C   {met_again(number)}\n* FROM CLIP NAME: C{number % 300}\n"


def everything(number: int, _: int) -> str:
    """Blanks in the reels, labels with points, numbers with letters, motion lines in front, and stills."""
    before = f"M2   RE EL{number % 50}  024.125  {label(HOUR + number * 70 % 20000)}\n" if number % 3 == 0 else ""
    row = f"{before}{number % 1000}A  RE EL{number % 50}     v     c   {met_again(number)}\n".replace(":", ".")
    return row + f"* FROM CLIP NAME: C{number % 300}\n" + ("* CLIP IS A STILL\n" if number % 5 == 0 else "")


def one_number(number: int, many: int) -> str:
    """Events of one number and reel, then as many motion lines of it."""
    return event(number, "001", "AX") if number < many // 2 else f"M2 AX 023.9761 {label((number - many // 2) * 30)}\n"


def long_over_short(number: int, many: int) -> str:
    """Short events, then as many that begin where the list does."""
    return event(number) if number < many // 2 else event(number).replace(label(number * 20), label(0))


SHAPES: Dict[str, Callable[[int, int], str]] = {
    "letters": letters,
    "files": files,
    "all": everything,
    "one number": one_number,
    "motion lines first": lambda number, _: motion(number) + event(number),
    "triggers that are off": lambda number, _: event(number) + motion(number, later=1),
    "stills": lambda number, _: event(number) + "* FROM CLIP IS A STILL\n",
    "long events over short ones": long_over_short,
    "refused motion lines": lambda number, many: event(number, "001") if number < many // 2 else "M2 A001 x\n",
}
"""A row or two of a list by the event's number and how many there are."""


def long_list(shape: str, many: int) -> str:
    """A list of so many events of that shape."""
    return "".join(SHAPES[shape](number, many) for number in range(many))


def main(words: List[str]) -> int:
    if not words:
        print("\n".join(SHAPES))
    elif words[0] in SHAPES and len(words) == 2 and words[1].isdecimal():
        sys.stdout.write(long_list(words[0], int(words[1])))
    else:
        print("long_lists: a shape, and how many events", file=sys.stderr)
        return 2
    return 0


if __name__ == "__main__":
    sys.exit(main(sys.argv[1:]))
