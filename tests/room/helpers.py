"""What the tests of the kit share: where things are, a way to type a command, and a station that starts at once."""

from __future__ import annotations

import io
import os
import shutil
import subprocess
import sys
import tempfile
import unittest
from functools import lru_cache
from pathlib import Path
from typing import List, NamedTuple, Optional

TOP = Path(__file__).resolve().parents[2]
sys.path.insert(0, str(TOP / "kit"))
sys.dont_write_bytecode = True

import room.station as station  # noqa: E402
from room.cli import main  # noqa: E402
from room.station import Station  # noqa: E402

BUILT = TOP / "crates" / "conform" / "out" / "conform"


class Typed(NamedTuple):
    """What a command gave."""

    status: int
    out: str
    err: str


def typed(program: Path, *words: str, folder: Optional[Path] = None, given: bytes = b"") -> Typed:
    """Types a program's name with these words in a folder."""
    done = subprocess.run([str(program), *words], cwd=folder, input=given, capture_output=True, check=False)
    return Typed(done.returncode, done.stdout.decode("utf-8", "replace"), done.stderr.decode("utf-8", "replace"))


@lru_cache(maxsize=1)
def program() -> Path:
    """The built program itself, which starts in a few milliseconds. `./conform` makes sure first that it is there and current."""
    typed(TOP / "conform", "demo", "1")
    station.PROGRAM = BUILT if BUILT.exists() else TOP / "conform"
    return station.PROGRAM


def quick_station() -> Station:
    return Station(program())


def conform(*words: str, folder: Optional[Path] = None) -> Typed:
    """What the station answers to these words in a folder."""
    return typed(program(), *words, folder=folder)


def room(*words: str, folder: Optional[Path] = None, given: bytes = b"") -> Typed:
    """What `./room` does with these words in a folder, within this process: `test_cli` types it."""
    program()
    kept = sys.stdin, sys.stdout, sys.stderr, os.getcwd()
    streams = [io.TextIOWrapper(io.BytesIO(data), encoding="utf-8", write_through=True) for data in (given, b"", b"")]
    sys.stdin, sys.stdout, sys.stderr = streams
    os.chdir(folder or kept[3])
    try:
        status = main(list(words))
    except SystemExit as ended:
        status = int(ended.code or 0)
    finally:
        sys.stdin, sys.stdout, sys.stderr = kept[:3]
        os.chdir(kept[3])
    out, err = (stream.buffer.getvalue().decode("utf-8", "replace") for stream in streams[1:])  # type: ignore[attr-defined]
    return Typed(status, out, err)


class InFolder(unittest.TestCase):
    """A test with a folder of its own, `self.folder`."""

    def setUp(self) -> None:
        self.folder = Path(tempfile.mkdtemp(prefix="room-test."))
        self.addCleanup(shutil.rmtree, self.folder, ignore_errors=True)

    def write(self, name: str, text: str) -> Path:
        path = self.folder / name
        path.parent.mkdir(parents=True, exist_ok=True)
        path.write_bytes(text.encode("utf-8", "surrogateescape"))
        return path

    def room(self, *words: str, given: bytes = b"") -> Typed:
        return room(*words, folder=self.folder, given=given)

    def names(self) -> List[str]:
        """All files below the folder."""
        return sorted(os.path.relpath(os.path.join(at, name), self.folder) for at, _, names in os.walk(self.folder) for name in names)
