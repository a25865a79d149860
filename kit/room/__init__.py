"""The room's kit: an assistant's work around the conform station.

It reads what the station prints, and nothing of its insides. What it says is a display or a proposal: what a list or a project
is, the station's own commands decide.
"""

from room.cli import main

__all__ = ["main"]
