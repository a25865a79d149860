"""Project files: their keys as a dataclass, with the lines on which they stand, and the folder to which their paths are relative.

Python has a reader of TOML from 3.11 on; with an older one a small reader of what a project needs is used. What a project is, the
station alone decides: this reading is for finding its files.
"""

from __future__ import annotations

import os
import re
from dataclasses import dataclass, field
from pathlib import Path
from typing import Any, Dict, List, Optional, Tuple

from room.errors import KitError, printable
from room.files import read_bytes
from room.timecode import RATES, Counting

try:
    import tomllib
except ImportError:  # (before Python 3.11)
    tomllib = None  # type: ignore[assignment]

TOP_KEYS = ("title", "rate", "width", "height", "black", "bands", "edl", "cube", "cuts", "reel")
REEL_KEYS = ("name", "prefix", "start", "drop", "frames", "file")


class TomlError(Exception):
    """A text that is no TOML: what is wrong, and where it is known its line and column from 1."""

    def __init__(self, text: str, line: int = 0, column: int = 0) -> None:
        super().__init__(text)
        self.line = line
        self.column = column


@dataclass(frozen=True)
class Reel:
    """A `[[reel]]` table that can be counted: frame `first` is its first, by the number of `start`; `line` is the table's own."""

    name: str
    prefix: str
    start: str
    is_drop: bool
    frames: int
    file: Optional[int]
    first: int
    line: int

    @property
    def end(self) -> int:
        """The number of the frame behind its last one."""
        return self.first + self.frames

    @property
    def first_file(self) -> int:
        return self.first if self.file is None else self.file

    def path_of(self, frame: int) -> str:
        """The path of a frame's scan, as the project has it."""
        return f"{self.prefix}{self.first_file + frame - self.first:07}.dpx"

    def counting(self, rate: int) -> Counting:
        return Counting(rate, self.is_drop)


@dataclass
class Project:
    """A project's keys. `path` is the file as it was given, `base` the folder to which its paths are relative."""

    path: str
    base: Path
    data: bytes
    rate: int
    width: int
    height: int
    edl: str
    title: str = ""
    black: Tuple[int, ...] = (95, 95, 95)
    cube: Optional[str] = None
    cuts: Tuple[str, ...] = ()
    reels: List[Reel] = field(default_factory=list)

    def reel(self, name: str) -> Optional[Reel]:
        return next((reel for reel in self.reels if reel.name == name), None)

    @property
    def path_in_base(self) -> str:
        """The project's own path, for a command that runs in `base`."""
        return os.path.relpath(os.path.abspath(self.path), self.base)

    def list_bytes(self) -> bytes:
        """The bytes of its list."""
        return read_bytes(str(self.base / self.edl))


def parse(data: bytes) -> Dict[str, Any]:
    """The table of a TOML text. What is no TOML raises TomlError."""
    try:
        text = data.decode("utf-8")
    except UnicodeDecodeError as error:
        line = data[: error.start].count(b"\n") + 1
        column = error.start - data.rfind(b"\n", 0, error.start)
        raise TomlError("bytes that aren't UTF-8", line, column) from None
    # The station takes a byte order mark there.
    text = text.removeprefix("\ufeff")
    if tomllib is None:
        return parse_plain(text)
    try:
        return tomllib.loads(text)
    except tomllib.TOMLDecodeError as error:
        place = re.search(r"\(at line (\d+), column (\d+)\)", str(error))
        words = re.sub(r" \(at .*\)$", "", str(error))
        raise TomlError(words, *(int(part) for part in place.groups()) if place else (text.count("\n") + 1, 0)) from None
    except (RecursionError, ValueError) as error:
        raise TomlError(str(error)) from None


VALUE = re.compile(r'"(?P<text>(?:[^"\\]|\\.)*)"|\'(?P<plain>[^\']*)\'|(?P<word>[^\s,#\[\]]+)')
ENDS = {"true": True, "false": False}


def parse_plain(text: str) -> Dict[str, Any]:
    """The small reader: keys with texts, whole numbers, true and false and lists of them, and tables `[[reel]]`."""
    top: Dict[str, Any] = {}
    table = top
    rows = text.replace("\r\n", "\n").split("\n")
    place = 0
    while place < len(rows):
        row = rows[place].strip()
        place += 1
        if not row or row.startswith("#"):
            continue
        header = re.fullmatch(r"\[\[\s*([A-Za-z0-9_-]+)\s*\]\]\s*(?:#.*)?", row)
        if header is not None:
            table = {}
            top.setdefault(header.group(1), []).append(table)
            continue
        key = re.match(r"([A-Za-z0-9_-]+)\s*=\s*(.*)", row)
        if key is None or key.group(1) in table:
            raise TomlError("this line isn't understood by the small reader (Python 3.11 has a whole one)", place, 1)
        value = key.group(2)
        while value.startswith("[") and "]" not in _without_texts(value) and place < len(rows):
            value += "\n" + rows[place]
            place += 1
        table[key.group(1)] = _plain_value(value, place)
    return top


def _without_texts(value: str) -> str:
    return re.sub(r'"(?:[^"\\]|\\.)*"|\'[^\']*\'', "", value)


def _plain_value(value: str, line: int) -> Any:
    values = [_one_value(match, line) for match in VALUE.finditer(re.sub(r"#[^\n\"']*(?=\n|$)", "", value))]
    if value.startswith("["):
        return values
    if len(values) != 1:
        raise TomlError("this value isn't understood", line, 1)
    return values[0]


def _one_value(match: re.Match[str], line: int) -> Any:
    if match.group("text") is not None:
        return match.group("text").encode("ascii", "backslashreplace").decode("unicode_escape")
    if match.group("plain") is not None:
        return match.group("plain")
    word = match.group("word")
    if word in ENDS:
        return ENDS[word]
    if re.fullmatch(r"[+-]?[0-9]+(?:_[0-9]+)*", word):
        return int(word.replace("_", ""))
    raise TomlError(f"the value {word} isn't understood", line, 1)


def reel_lines(data: bytes) -> List[int]:
    """The lines of the `[[reel]]` headers."""
    text = data.decode("utf-8", "replace")
    return [place + 1 for place, row in enumerate(text.split("\n")) if re.match(r"\s*\[\[\s*reel\s*\]\]", row)]


def key_lines(data: bytes, key: str) -> List[int]:
    """The lines on which a key stands."""
    text = data.decode("utf-8", "replace")
    return [place + 1 for place, row in enumerate(text.split("\n")) if re.match(rf"\s*[\"']?{re.escape(key)}[\"']?\s*=", row)]


def read_project(path: str) -> Project:
    """The project in a file. What can't be counted with raises KitError with the file, the line and the key."""
    data = read_bytes(path)
    try:
        table = parse(data)
    except TomlError as error:
        raise KitError(f"{printable(path)}:{error.line}:{error.column}: it is no TOML: {error}") from None
    project = Project(
        path=path,
        base=Path("."),
        data=data,
        rate=_rate(path, table, data),
        width=_whole(path, table, "width", data),
        height=_whole(path, table, "height", data),
        edl=_text(path, table, "edl", data),
        title=str(table.get("title", "")),
        black=tuple(table.get("black", (95, 95, 95))) if isinstance(table.get("black", ()), (list, tuple)) else (95, 95, 95),
        cube=_text(path, table, "cube", data) if "cube" in table else None,
        cuts=tuple(str(cut) for cut in table.get("cuts", ())) if isinstance(table.get("cuts", ()), (list, tuple)) else (),
    )
    project.base = base_of(path, project.edl)
    project.reels = _reels(path, table, data, project.rate)
    return project


def base_of(path: str, edl: str) -> Path:
    """The folder to which a project's paths are relative: the current one where its list is there, as for the station, else its own."""
    own = Path(path).parent
    if not os.path.exists(edl) and (own / edl).exists():
        return own
    return Path(".")


def _reels(path: str, table: Dict[str, Any], data: bytes, rate: int) -> List[Reel]:
    tables = table.get("reel", [])
    if not isinstance(tables, list) or not all(isinstance(each, dict) for each in tables):
        raise KitError(f"{printable(path)}: reels are written [[reel]]")
    lines = reel_lines(data)
    return [_reel(path, each, lines[place] if place < len(lines) else 0, rate) for place, each in enumerate(tables)]


def _reel(path: str, table: Dict[str, Any], line: int, rate: int) -> Reel:
    place = f"{printable(path)}:{line}"
    is_drop = table.get("drop", False)
    if not isinstance(is_drop, bool) or (is_drop and rate != 30):
        raise KitError(f"{place}: drop is true, at rate 30 alone, or false")
    for key, kind in (("name", str), ("prefix", str), ("start", str), ("frames", int)):
        if not isinstance(table.get(key), kind) or isinstance(table.get(key), bool):
            raise KitError(f"{place}: the reel's key {key} isn't there, or has another type")
    file = table.get("file")
    if file is not None and (not isinstance(file, int) or isinstance(file, bool) or not 0 <= file <= 9_999_999):
        raise KitError(f"{place}: file is a number from 0 to 9999999")
    if not 1 <= table["frames"] <= 2_592_000:
        raise KitError(f"{place}: frames is a number from 1 to 2592000")
    try:
        first = Counting(rate, is_drop).number(table["start"])
    except ValueError as error:
        raise KitError(f"{place}: start: {printable(str(error))}") from None
    return Reel(table["name"], table["prefix"], table["start"], is_drop, table["frames"], file, first, line)


def _place(path: str, data: bytes, key: str) -> str:
    lines = key_lines(data, key)
    return f"{printable(path)}:{lines[0]}" if lines else printable(path)


def _rate(path: str, table: Dict[str, Any], data: bytes) -> int:
    rate = _whole(path, table, "rate", data)
    if rate not in RATES:
        raise KitError(f"{_place(path, data, 'rate')}: rate isn't 24, 25 or 30")
    return rate


def _whole(path: str, table: Dict[str, Any], key: str, data: bytes) -> int:
    value = table.get(key)
    if not isinstance(value, int) or isinstance(value, bool) or value < 1:
        raise KitError(f"{_place(path, data, key)}: the key {key} isn't there, or is no whole number above 0")
    return value


def _text(path: str, table: Dict[str, Any], key: str, data: bytes) -> str:
    value = table.get(key)
    if not isinstance(value, str) or not value or "\0" in value:
        raise KitError(f"{_place(path, data, key)}: the key {key} isn't there, or is no path")
    return value
