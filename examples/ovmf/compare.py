"""Builds a workspace and compares what came of it with the image that it was written from, byte by byte."""

from __future__ import annotations

import re
from dataclasses import dataclass
from pathlib import Path

import depex
import firmware
from program import Program, Run
from workspace import BUILD, EXPECTED, FLASH_FILE

MOVED_BY = 0x100000
BASE_KEY = re.compile(rb"(\[FV\.PEIFV\][^\[]*?FvBaseAddress\s*=\s*)(0x[0-9A-F]+)")


@dataclass(frozen=True)
class Compared:
    """One output beside what it has to be."""

    name: str
    size: int
    differing: int


def differing_bytes(left: bytes, right: bytes) -> int:
    """How many bytes of two files differ; a byte that one of them doesn't have counts too."""
    if left == right:
        return 0
    return sum(a != b for a, b in zip(left, right)) + abs(len(left) - len(right))


def read(path: Path) -> bytes:
    """A file's bytes; none where it isn't there."""
    return path.read_bytes() if path.is_file() else b""


def nested_body(volume: bytes) -> bytes:
    """The body of the only file of a volume, pad files left out."""
    files = firmware.read_volume(volume).files if volume else ()
    return next((file.body for file in files if file.type != firmware.PAD_FILE), b"")


def compared_images(folder: Path) -> list[Compared]:
    """Each volume and the device beside the image's, and what is compressed beside what UEFIExtract unpacked."""
    rows = []
    for wanted in sorted((folder / EXPECTED / "FV").iterdir(), key=lambda path: (path.suffix == ".fd", path.name)):
        given = read(folder / BUILD / "FV" / wanted.name)
        rows.append(Compared(wanted.name, wanted.stat().st_size, differing_bytes(given, wanted.read_bytes())))
    body = folder / EXPECTED / "FVMAIN.body"
    if body.exists():
        given = nested_body(read(folder / BUILD / "FV/FVMAIN.Fv"))
        rows.insert(-1, Compared("what is compressed", len(given), differing_bytes(given, body.read_bytes())))
    return rows


@dataclass(frozen=True)
class Expressions:
    """How many of the dependency expressions have the image's bytes, and how many the same GUIDs in another order."""

    all: int
    same: int
    reordered: int


def compared_expressions(folder: Path) -> Expressions:
    """The expressions that the program compiled beside those of the image."""
    wanted = sorted((folder / EXPECTED).rglob("*.depex"))
    same = reordered = 0
    for path in wanted:
        given, image = read(folder / BUILD / path.relative_to(folder / EXPECTED)), path.read_bytes()
        if given == image:
            same += 1
        elif given and is_reordered(given, image):
            reordered += 1
    return Expressions(len(wanted), same, reordered)


def is_reordered(given: bytes, image: bytes) -> bool:
    """Whether both are conjunctions of the same GUIDs."""
    left, right = depex.tree_of(given), depex.tree_of(image)
    conjunctions = depex.is_conjunction(left) and depex.is_conjunction(right)
    return conjunctions and depex.guids_of(left) == depex.guids_of(right)


def module_count(folder: Path) -> int:
    return sum(1 for _ in (folder / "Ovmf").rglob("*.inf"))


def compare(folder: Path, program: Program) -> bool:
    """Builds from nothing, prints a line for each image, and answers whether nothing differs."""
    (folder / ".edk_steps").unlink(missing_ok=True)
    for path in [*(folder / BUILD / "FV").glob("*"), *(folder / BUILD).rglob("*.depex")]:
        path.unlink()
    run = program.build(folder)
    if run.status:
        print(f"  status {run.status}: {run.said.decode(errors='replace').strip()}")
        return False
    print(f"  {module_count(folder)} modules, {run.steps} steps in {told(run)}")
    rows = compared_images(folder)
    for row in rows:
        print(f"  {row.name:<24} {row.size:>10,} bytes, {row.differing or 'none'} differ")
    found = compared_expressions(folder)
    if found.all:
        print(f"  expressions: {found.all}, of which {found.same} have the image's bytes, "
              f"{found.reordered} the same GUIDs joined from the left")
    moved = moved_and_back(folder, program)
    if moved:
        print(f"  PEIFV {MOVED_BY:#x} bytes higher, which moves {moved.modules} of {moved.all} modules, and back: "
              f"{moved.differing or 'none'} differ")
    fine = not moved or moved.modules > 0 and not moved.differing
    return fine and not any(row.differing for row in rows) and found.same + found.reordered == found.all


def told(run: Run) -> str:
    return f"{run.seconds:.2f} s ({run.processor:.2f} s of the processor)"


@dataclass(frozen=True)
class Moved:
    """How many modules of a volume moved with it, of how many, and how many bytes differ once it is back."""

    modules: int
    all: int
    differing: int


def moved_and_back(folder: Path, program: Program) -> Moved | None:
    """Moves the volume PEIFV to another base, makes the moved modules the linked ones, and moves it back.

    A module without relocations doesn't move. None comes where no such volume has a base.
    """
    flash, image = folder / FLASH_FILE, folder / EXPECTED / "FV/PEIFV.Fv"
    text = flash.read_bytes()
    found = BASE_KEY.search(text)
    if not found:
        return None
    wanted = image.read_bytes()
    linked = {path: path.read_bytes() for path in (folder / BUILD).glob("*/Ovmf/Pei/*/OUTPUT/*.efi")}
    output = folder / BUILD / "FV/PEIFV.Fv"
    higher = b"0x%X" % (int(found[2], 16) + MOVED_BY)
    try:
        flash.write_bytes(BASE_KEY.sub(lambda match: match[1] + higher, text))
        program.build(folder, "-i", "PEIFV")
        count = put_modules(output.read_bytes(), wanted, linked)
        flash.write_bytes(text)
        program.build(folder, "-i", "PEIFV")
        return Moved(count, len(linked), differing_bytes(output.read_bytes(), wanted))
    finally:
        flash.write_bytes(text)
        for path, data in linked.items():
            path.write_bytes(data)
        program.build(folder)


def put_modules(moved: bytes, image: bytes, linked: dict[Path, bytes]) -> int:
    """Writes each module of a moved volume in place of the file that it was linked as, and answers how many moved."""
    count = 0
    for now, before in zip(firmware.read_volume(moved).files, firmware.read_volume(image).files):
        for new, old in zip(now.of_kind(firmware.PE32), before.of_kind(firmware.PE32)):
            for path, data in linked.items():
                if data == old.content != new.content:
                    path.write_bytes(new.content)
                    count += 1
    return count
