"""How far a command of the station is that reads the whole reel, on standard error where that is a terminal.

`verify` and `qc` print nothing until they are through. How many bytes they have read is told by the system; where it isn't, the
time alone is shown.
"""

from __future__ import annotations

import os
import subprocess
import sys
import tempfile
import time
from pathlib import Path
from typing import Optional

from room.errors import KitError
from room.station import LONGEST_PATH, NO_MEMORY, Answer, Station

EVERY = 0.5
BAR = 30


def ask(station: Station, words: list[str], folder: Path, size: int) -> Answer:
    """The answer to these words, with its progress: `size` bytes are read until it is through."""
    if any(len(os.fsencode(word)) > LONGEST_PATH for word in words):
        raise KitError(f"the station takes paths of at most {LONGEST_PATH} bytes: {max(words, key=len)}")
    if not sys.stderr.isatty():
        return station.ask(*words, folder=folder)
    with tempfile.TemporaryFile() as out:
        try:
            started = subprocess.Popen([str(station.program), *words], cwd=folder, stdin=subprocess.DEVNULL, stdout=out)
        except (OSError, ValueError) as error:
            raise KitError(f"the station can't be started: {error}") from None
        status = _watch(started, words[0], size)
        if not 0 <= status <= NO_MEMORY:
            raise KitError(f"the station gave no answer (status {status})")
        out.seek(0)
        return Answer(status, out.read().decode("utf-8", "replace"))


def _watch(started: "subprocess.Popen[bytes]", name: str, size: int) -> int:
    """Waits for the end, and shows the way there. Who breaks off ends the station's command too."""
    begun = time.monotonic()
    is_shown = False
    try:
        while True:
            try:
                status = started.wait(EVERY)
                break
            except subprocess.TimeoutExpired:
                is_shown = True
                sys.stderr.write("\r" + line(name, bytes_read(started.pid), size, time.monotonic() - begun).ljust(78))
                sys.stderr.flush()
    except BaseException:
        started.terminate()
        started.wait()
        raise
    finally:
        if is_shown:
            sys.stderr.write("\r" + " " * 78 + "\r")
            sys.stderr.flush()
    return status


def bytes_read(process: int) -> Optional[int]:
    """How many bytes a process has read so far; nothing where the system doesn't say."""
    try:
        rows = Path(f"/proc/{process}/io").read_text(encoding="ascii").splitlines()
        return next(int(row.split()[1]) for row in rows if row.startswith("rchar:"))
    except (OSError, ValueError, StopIteration):
        return None


def line(name: str, read: Optional[int], size: int, gone: float) -> str:
    """One line of progress: a bar, a share and the time that is left, or the time that went."""
    if read is None or size <= 0:
        return f"{name}: {gone:.0f} s"
    share = min(read / size, 1.0)
    filled = int(share * BAR)
    left = f", {gone / share - gone:.0f} s left" if share > 0.02 else ""
    return f"{name}: [{'#' * filled}{'.' * (BAR - filled)}] {share:.0%}, {gone:.0f} s{left}"
