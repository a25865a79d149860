"""`./room COMMAND`: the words of the command line, and the one place where errors become a line and a status."""

from __future__ import annotations

import argparse
import gc
import os
import sys
from importlib import import_module
from typing import Callable, Optional, Sequence

from room.errors import UNREADABLE, KitError, printable, system_words

# Modules of the package, a command each, in the order of the help.
COMMANDS = (
    "check",
    "rewrite",
    "project",
    "link",
    "scans",
    "stand_ins",
    "rewrite_scans",
    "frame",
    "explain",
    "compare",
    "keep",
    "report",
    "timeline",
    "watch",
    "movie",
)

# So many values are made before the first are collected.
SELDOM = 1_000_000

DESCRIPTION = """\
The room's kit: what an assistant does with lists, projects, scans and reels around the station.
It proposes and the station decides. It writes over nothing; `watch` alone replaces its own page."""

STATUSES = """\
statuses: 0 nothing to do, or done; 1 something was found that a person has to decide; 2 an input can't be read

`./room COMMAND --help` says more of each; docs/manual.md has examples, and docs/room.md the rules."""


class Parser(argparse.ArgumentParser):
    """argparse, with errors of one line."""

    def error(self, message: str) -> None:  # type: ignore[override]
        sys.stderr.write(f"{self.prog}: {printable(message)}; `{self.prog} --help` says more\n")
        sys.exit(UNREADABLE)


def parser(names: Sequence[str] = COMMANDS) -> argparse.ArgumentParser:
    """The parser of these commands."""
    top = Parser(prog="room", description=DESCRIPTION, epilog=STATUSES, formatter_class=argparse.RawDescriptionHelpFormatter)
    commands = top.add_subparsers(title="commands", metavar="COMMAND", dest="command", required=True)
    for name in names:
        module = import_module(f"room.{name}")
        command = commands.add_parser(
            module.NAME, help=module.HELP, description=module.HELP, epilog=getattr(module, "MORE", None),
            formatter_class=argparse.RawDescriptionHelpFormatter,
        )
        module.add_arguments(command)
        command.set_defaults(run=module.run)
    return top


def main(words: Optional[Sequence[str]] = None) -> int:
    """Runs one command and gives its status."""
    try:
        for stream in (sys.stdout, sys.stderr):
            stream.reconfigure(encoding="utf-8", errors="backslashreplace")  # type: ignore[union-attr]
        # A command's own module alone is loaded, and its many small values are collected seldom: it lives for a second.
        gc.set_threshold(SELDOM)
        words = sys.argv[1:] if words is None else words
        named = words[0].replace("-", "_") if words else ""
        arguments = parser([named] if named in COMMANDS and "_" not in words[0] else COMMANDS).parse_args(words)
        status = run_quietly(arguments.run, arguments)
        sys.stdout.flush()
        return status
    except BrokenPipeError:
        # Who reads the output went away: the rest has no place to go.
        os.dup2(os.open(os.devnull, os.O_WRONLY), sys.stdout.fileno())
        return UNREADABLE
    except KeyboardInterrupt:
        return 130


def run_quietly(run: Callable[[argparse.Namespace], int], arguments: argparse.Namespace) -> int:
    """Runs a command; whatever goes wrong in it is one line."""
    name = arguments.command
    try:
        return run(arguments)
    except KitError as error:
        return say(name, str(error))
    except BrokenPipeError:
        raise
    except OSError as error:
        return say(name, system_words(error))
    except MemoryError:
        return say(name, "no memory is left")
    except Exception as error:  # noqa: BLE001  (a user sees no trace of Python)
        return say(name, f"the kit itself failed ({type(error).__name__}: {error}); nothing that was given is changed")


def say(name: str, text: str) -> int:
    """Puts the line of an error."""
    sys.stdout.flush()
    print(f"room {name}: {' '.join(printable(text).splitlines())}", file=sys.stderr)
    return UNREADABLE


def rate_argument(word: str) -> int:
    """A rate on the command line."""
    from room.timecode import rate_of_word

    try:
        return rate_of_word(word)
    except ValueError as error:
        raise argparse.ArgumentTypeError(str(error)) from None



