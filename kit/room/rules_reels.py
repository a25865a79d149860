"""Rules of `rewrite` for reels that stand for files: their names are the clips' names."""

from __future__ import annotations

from typing import Dict, List, Optional, Set, Tuple

from room.draft import Draft
from room.edit_list import read_motion
from room.rules_lines import free_name, plain_name
from room.rules_motion import owners
from room.view import FILE_REELS, Edit, Entry, View, contradicting_reels, name_of_clip


def clip_reels(draft: Draft) -> None:
    """Reels by clip name: for AX always, and for others where two clips can't be one tape, or where `--reels clip` asks for it."""
    if draft.options.reels == "keep":
        return
    view = draft.view
    inherit_outgoing(view)
    doubtful = contradicting_reels(view)
    chosen = [entry for entry in view.pictures if _is_chosen(entry, draft.options.reels, doubtful)]
    if draft.options.reels == "ask":
        _ask_for_reels(draft, chosen)
        return
    for entry in chosen:
        if not entry.clip:
            draft.ask(entry.line, f"the reel {entry.event.reel} is no tape, and no note names its clip")
    _rename(draft, view, [entry for entry in chosen if entry.clip], _why(draft.options.reels, doubtful))


def _is_chosen(entry: Entry, choice: str, doubtful: Dict[str, Tuple[Entry, Entry]]) -> bool:
    """Whether the event's reel stands for a file."""
    reel = entry.event.reel
    if entry.event.is_black or not reel:
        return False
    if reel.upper() in FILE_REELS:
        return True
    return bool(entry.clip) and (choice == "clip" or reel in doubtful)


def _ask_for_reels(draft: Draft, chosen: List[Entry]) -> None:
    """A line for each reel that stands for files, and no change."""
    lines: Dict[str, List[Entry]] = {}
    for entry in chosen:
        lines.setdefault(entry.event.reel, []).append(entry)
    for reel, entries in lines.items():
        clips = sorted({name_of_clip(entry.clip) for entry in entries if entry.clip})
        shown = ", ".join(clips[:4]) + (f" and {len(clips) - 4} more" if len(clips) > 4 else "")
        draft.ask(entries[0].line, f"reel {reel} stands for the clips {shown or '(no name)'}: `--reels clip` names them so, `--reels keep` leaves it")


def _why(choice: str, doubtful: Dict[str, Tuple[Entry, Entry]]) -> Dict[str, str]:
    """Why a reel gets its clip's name, by the reel's present name."""
    why = {reel: f"lines {first.line.number} and {second.line.number} have two clips at one time of it" for reel, (first, second) in doubtful.items()}
    for reel in FILE_REELS:
        why[reel] = "it is no tape, and the clip's name tells the file"
    return why


def inherit_outgoing(view: View) -> None:
    """The outgoing line of a transition goes on from the picture line before it: where no note names its clip, that one's is taken."""
    before: Optional[Entry] = None
    for edit in view.edits:
        pictures = edit.pictures
        if len(pictures) > 1 and pictures[-1].event.is_transition and not pictures[0].clip and before is not None:
            same_reel = before.event.reel == pictures[0].event.reel
            if same_reel and before.event.labels[1] == pictures[0].event.labels[0]:
                pictures[0].clip = before.clip
        if pictures:
            before = pictures[-1]


def _rename(draft: Draft, view: View, chosen: List[Entry], why: Dict[str, str]) -> None:
    """Gives each event the name of its clip, and its motion lines too. Clips whose names would become one are told apart."""
    lines = {entry.line.number for entry in chosen}
    used: Set[str] = {entry.event.reel for entry in view.pictures if entry.line.number not in lines}
    names: Dict[str, str] = {}
    for entry in chosen:
        clip = " ".join(entry.clip.split())
        if clip not in names:
            names[clip] = free_name(plain_name(name_of_clip(clip)), used)
            used.add(names[clip])
    for edit in view.edits:
        _rename_motions(draft, edit, lines, names)
    for entry in chosen:
        new = names[" ".join(entry.clip.split())]
        if new != entry.event.reel:
            reason = why.get(entry.event.reel.upper(), why.get(entry.event.reel, "asked for by `--reels clip`"))
            draft.put(draft.row(entry.line), entry.event.reel_span, new, "reel", reason)


def _rename_motions(draft: Draft, edit: Edit, lines: Set[int], names: Dict[str, str]) -> None:
    """A motion line keeps the name of its event."""
    for number, entry in owners(edit).items():
        if entry.line.number not in lines:
            continue
        row = draft.rows[number - 1]
        motion = read_motion(row.text)
        new = names[" ".join(entry.clip.split())]
        if motion is not None and motion.reel == entry.event.reel and new != motion.reel:
            draft.put(row, motion.reel_span, new, "motion's reel", "its event's")
