"""Reading what was given, and writing what is new. Nothing is ever written over."""

from __future__ import annotations

import os
import sys
from pathlib import Path
from typing import Optional

from room.errors import KitError, printable, system_words

# No text that the kit reads is longer; a device that never ends is read no further.
MOST_BYTES = 128 * 1024 * 1024


def read_bytes(path: str) -> bytes:
    """The bytes of a file, or of standard input where the path is `-`."""
    try:
        if path == "-":
            data = sys.stdin.buffer.read(MOST_BYTES + 1)
        else:
            with open(path, "rb") as file:
                data = file.read(MOST_BYTES + 1)
    except (OSError, ValueError) as error:
        raise KitError(system_words(error) if isinstance(error, OSError) else f"{printable(path)}: {error}") from None
    if len(data) > MOST_BYTES:
        raise KitError(f"{printable(path)}: it has over {MOST_BYTES} bytes, which no list and no project has")
    return data


def write_new(path: str, data: bytes) -> None:
    """Writes a file that isn't there yet. Where it is there, it stays as it is."""
    try:
        handle = os.open(path, os.O_WRONLY | os.O_CREAT | os.O_EXCL, 0o666)
    except FileExistsError:
        raise KitError(f"{printable(path)} is there already, and nothing is written over") from None
    except (OSError, ValueError) as error:
        raise KitError(system_words(error) if isinstance(error, OSError) else f"{printable(path)}: {error}") from None
    try:
        with os.fdopen(handle, "wb") as file:
            file.write(data)
    except OSError as error:
        os.unlink(path)
        raise KitError(f"{printable(path)}: {error.strerror}; what was begun of it is taken away") from None


def put(path: Optional[str], data: bytes) -> None:
    """Writes into a new file, or on standard output where no path is given."""
    if path is not None:
        write_new(path, data)
        return
    sys.stdout.flush()
    sys.stdout.buffer.write(data)
    sys.stdout.buffer.flush()


def make_folder(path: Path) -> None:
    """Makes a folder that isn't there yet."""
    try:
        path.mkdir(parents=True)
    except FileExistsError:
        raise KitError(f"{printable(str(path))} is there already, and nothing is written over") from None
    except (OSError, ValueError) as error:
        raise KitError(system_words(error) if isinstance(error, OSError) else f"{printable(str(path))}: {error}") from None
