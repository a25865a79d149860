"""The least number in a range of keys, found in a few steps however long the range is."""

from __future__ import annotations

import bisect
import sys
from typing import Iterable, List

NONE = sys.maxsize
"""More than any number that is put."""


class Least:
    """Numbers by key, of keys that are known before. The least of each half, quarter and so on of the keys is kept at hand."""

    def __init__(self, keys: Iterable[int]) -> None:
        self._keys = sorted(set(keys))
        self._size = len(self._keys)
        self._least: List[int] = [NONE] * (2 * self._size)

    def _place(self, key: int) -> int:
        return bisect.bisect_left(self._keys, key) + self._size

    def put(self, key: int, number: int) -> None:
        """Puts a number at a key."""
        place = self._place(key)
        while place > 0 and number < self._least[place]:
            self._least[place] = number
            place //= 2

    def of(self, first: int, behind: int) -> int:
        """The least number at the keys from one on and before another, or NONE."""
        found, low, high = NONE, self._place(first), self._place(behind)
        while low < high:
            if low % 2 == 1:
                found = min(found, self._least[low])
                low += 1
            if high % 2 == 1:
                high -= 1
                found = min(found, self._least[high])
            low //= 2
            high //= 2
        return found
