"""Copies a library of this workspace, with those that it stands on, into another workspace."""
import os
import re
import shutil

from .workspace import ROOT, Stop, Workspace, put, text_of

PARTS = ("src", "specs", "proofs")


def missing_lines(workspace, crates, to):
    """The lines of these crates that the other workspace lacks. It may have no other line of one, and no folder without a line."""
    there = text_of(f"{to}/crates.txt").splitlines() if os.path.exists(f"{to}/crates.txt") else []
    missing = [it for it in crates if workspace.lines[it] not in there]
    for it in missing:
        if any(re.match(rf"{it} *:", line) for line in there):
            raise Stop(f"{to}/crates.txt has another line of {it}: take it out first")
        if os.path.exists(f"{to}/crates/{it}"):
            raise Stop(f"{to}/crates/{it} is there already, without a line: take it out first")
    return [workspace.lines[it] for it in missing]


def copy(crate, to):
    """Copies a crate, in the place of what stands there."""
    os.makedirs(to, exist_ok=True)
    for part in PARTS:
        shutil.rmtree(f"{to}/{part}", ignore_errors=True)
        if os.path.isdir(f"{crate}/{part}"):
            shutil.copytree(f"{crate}/{part}", f"{to}/{part}")
    for it in (f"{crate}/README.md", f"{ROOT}/LICENSE"):
        shutil.copy(it, to)


def vendor(to, name="tl"):
    """Copies a library into a workspace; how many crates that are."""
    workspace = Workspace()
    if not os.path.isdir(to):
        raise Stop(f"{to} is no folder")
    if os.path.realpath(to) == ROOT:
        raise Stop("that is this workspace")
    if name not in workspace.libraries or workspace.is_program(name):
        raise Stop(f"crates.txt has no library {name}")
    crates = [*workspace.below(name), name]
    missing = missing_lines(workspace, crates, to)
    for it in crates:
        copy(workspace.folder(it), f"{to}/crates/{it}")
    before = text_of(f"{to}/crates.txt") if os.path.exists(f"{to}/crates.txt") else ""
    if missing:
        # (the last line may lack its end)
        end = "\n" if before and not before.endswith("\n") else ""
        lines = "\n".join(missing)
        put(os.path.abspath(f"{to}/crates.txt"), f"{before}{end}# {name}, and what it stands on\n{lines}\n")
    return len(crates)
