"""What an edit does: which steps run, how long that takes beside the first build, and which outputs change."""

from __future__ import annotations

import hashlib
from dataclasses import dataclass
from pathlib import Path

from program import Program, Run
from workspace import BUILD, FLASH_FILE, PLATFORM_FILE


@dataclass(frozen=True)
class Edit:
    """One edit: the file, the text that is replaced in it and what replaces it, or options of a build alone."""

    name: str
    path: str = ""
    old: bytes = b""
    new: bytes = b""
    options: tuple[str, ...] = ()


def version_edit(inf: str) -> Edit:
    stem = Path(inf).stem
    return Edit(f"the version of {stem}", inf, b"VERSION_STRING = 1.0", b"VERSION_STRING = 1.1")


def linked_edit(folder: Path, name: str) -> Edit | None:
    """An edit of the last byte of a module's linked file."""
    found = sorted((folder / BUILD).glob(f"*/Ovmf/*/{name}/OUTPUT/{name}.efi"))
    if not found:
        return None
    data = found[0].read_bytes()
    path = str(found[0].relative_to(folder))
    return Edit(f"the linked file of {name}", path, data, data[:-1] + bytes([data[-1] ^ 1]))


def edits_of(folder: Path) -> list[Edit]:
    """The edits that a workspace is given, each of which is taken back before the next."""
    level = b"PcdDebugLevel|0x80000042"
    wanted = [
        Edit("nothing"),
        Edit("a comment in the platform's file", PLATFORM_FILE, b"# Whether", b"# Say whether"),
        version_edit("Ovmf/Sec/SecMain.inf"),
        version_edit("Ovmf/Dxe/BdsDxe.inf"),
        Edit("a PCD's value by the words", options=("--pcd", "gOvmfTokenSpaceGuid.PcdDebugLevel=0x80000046")),
        Edit("a PCD's value in the platform's file", PLATFORM_FILE, level, b"PcdDebugLevel|0x80000046"),
        Edit("the device's base, which sets PCDs", FLASH_FILE, b"FD_BASE   = 0xFF", b"FD_BASE   = 0x7F"),
        linked_edit(folder, "SecMain"),
        linked_edit(folder, "PlatformPei"),
        linked_edit(folder, "DxeCore"),
    ]
    return [edit for edit in wanted if edit and (not edit.path or (folder / edit.path).exists())]


def outputs(folder: Path) -> dict[str, bytes]:
    """A digest of each output: texts, expressions and images."""
    found = {}
    for path in (folder / BUILD).rglob("*"):
        if path.parent.name in ("FV", "DEBUG") or path.suffix == ".depex":
            found[path.name if path.parent.name == "FV" else str(path)] = hashlib.sha256(path.read_bytes()).digest()
    return found


def changed_names(before: dict[str, bytes], after: dict[str, bytes]) -> str:
    """The images that changed, by name, and how many texts and expressions did."""
    changed = sorted(name for name in before.keys() | after.keys() if before.get(name) != after.get(name))
    images = [name for name in changed if "/" not in name]
    others = len(changed) - len(images)
    return ", ".join(([f"{others} texts"] if others else []) + images) or "none"


def line(name: str, run: Run, changed: str) -> str:
    return f"| {name} | {run.steps} | {run.reused} | {run.seconds:.2f} | {run.processor:.2f} | {changed} |"


def show_edits(folder: Path, program: Program) -> bool:
    """Builds from nothing, then after each edit, and prints the table; answers whether every build was right."""
    (folder / ".edk_steps").unlink(missing_ok=True)
    first = program.build(folder)
    fine = first.status == 0
    print("| Edit | Steps | Reused | Seconds | Of the processor | Outputs that change |")
    print("|---|---|---|---|---|---|")
    print(line("(the first build)", first, "all"))
    before = outputs(folder)
    for edit in edits_of(folder):
        path = folder / edit.path
        old = path.read_bytes() if edit.path else b""
        if edit.path:
            path.write_bytes(old.replace(edit.old, edit.new, 1))
        run = program.build(folder, *edit.options)
        print(line(edit.name, run, changed_names(before, outputs(folder))))
        fine &= run.status == 0
        if edit.path:
            fine &= edit.old in old
            path.write_bytes(old)
        fine &= program.build(folder).status == 0 and outputs(folder) == before
    return fine
