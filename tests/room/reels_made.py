"""Reels of the desk sample for tests of pages: whole, half done, damaged, and so on. Each is a folder of its own."""

from __future__ import annotations

import shutil
import subprocess
from pathlib import Path
from typing import Callable, Dict

from helpers import TOP, conform

LEDGER_HEAD = 64
LEDGER_ROW = 33
HOSTILE = "A<i>\"&'</script>"
LONG = "\"<b>" + "W" * 60


def desk(folder: Path, runs: bool = True) -> Path:
    """The desk sample, rendered or not: the path of its project."""
    shutil.copytree(TOP / "samples" / "desk", folder)
    subprocess.run(["./make-scans"], cwd=folder, check=True, stdout=subprocess.DEVNULL)
    if runs:
        assert conform("run", "desk.toml", folder=folder).status == 0
    return folder / "desk.toml"


def half_done(folder: Path) -> Path:
    """The ledger as a stopped run leaves it: 13 frames are done."""
    path = desk(folder)
    body = folder / "conform.out" / "conform.body2"
    data = bytearray(body.read_bytes())
    for frame in range(13, 24):
        data[LEDGER_HEAD + LEDGER_ROW * frame] = 0
    body.write_bytes(data)
    return path


def damaged(folder: Path) -> Path:
    """Frame 18 isn't what was written, and the file of frame 20 is lost."""
    path = desk(folder)
    frame = folder / "conform.out" / "r001.0086418.dpx"
    frame.write_bytes(frame.read_bytes()[:-1] + b"x")
    (folder / "conform.out" / "r001.0086420.dpx").unlink()
    return path


def another_job(folder: Path) -> Path:
    """The project changed behind the run."""
    path = desk(folder)
    path.write_text(path.read_text().replace('"DESK"', '"ANOTHER"'))
    return path


def bad_ledger(folder: Path) -> Path:
    path = desk(folder)
    (folder / "conform.out" / "conform.body2").write_bytes(b"x" * 10)
    return path


def refused_scan(folder: Path) -> Path:
    """A scan isn't there."""
    path = desk(folder, runs=False)
    (folder / "a001" / "a001.0086404.dpx").unlink()
    return path


def refused_list(folder: Path) -> Path:
    path = desk(folder, runs=False)
    (folder / "desk.edl").write_text((folder / "desk.edl").read_text().replace("01:00:00:10 01:00:00:00", "01:00:00:99 01:00:00:00"))
    return path


def hostile(folder: Path) -> Path:
    """Reels and a title of quotes and angle brackets, one of 64 bytes."""
    path = desk(folder, runs=False)
    edl = folder / "desk.edl"
    edl.write_text(edl.read_text().replace("A001 ", HOSTILE + " ").replace("B002 ", LONG + " "))
    quoted = {name: name.replace("\\", "\\\\").replace('"', '\\"') for name in (HOSTILE, LONG)}
    text = path.read_text().replace('"A001"', f'"{quoted[HOSTILE]}"').replace('"B002"', f'"{quoted[LONG]}"')
    path.write_text(text.replace('"DESK"', '"<script>alert(1)</script>\\u0022 & <b>"'))
    assert conform("run", "desk.toml", folder=folder).status == 0, conform("run", "desk.toml", folder=folder)
    return path


def in_reels(folder: Path) -> Path:
    """Two record reels."""
    desk(folder, runs=False)
    assert conform("run", "reels.toml", folder=folder).status == 0
    return folder / "reels.toml"


MADE: Dict[str, Callable[[Path], Path]] = {
    "whole": desk,
    "half done": half_done,
    "damaged": damaged,
    "empty": lambda folder: desk(folder, runs=False),
    "another job": another_job,
    "bad ledger": bad_ledger,
    "refused scan": refused_scan,
    "refused list": refused_list,
    "hostile names": hostile,
    "two reels": in_reels,
}
