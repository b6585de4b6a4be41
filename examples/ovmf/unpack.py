"""Opens a compressed section by UEFIExtract, the program of Debian's package uefitool-cli."""

from __future__ import annotations

import shutil
import subprocess
import tempfile
from pathlib import Path

from firmware import NotFirmware, Section, up

PROGRAM = "UEFIExtract"


def number_of(folder: Path) -> int:
    """The number that UEFIExtract puts in front of a folder's name."""
    return int(folder.name.split(" ", 1)[0])


def folder_of(dump: Path, section: Section) -> Path:
    """The folder of the dump that holds this section."""
    for header in dump.rglob("header.bin"):
        body = header.with_name("body.bin")
        if len(section.data) == header.stat().st_size + body.stat().st_size:
            if section.data == header.read_bytes() + body.read_bytes():
                return header.parent
    raise NotFirmware("UEFIExtract didn't find the compressed section")


def joined_sections(folder: Path) -> bytes:
    """The sections below a folder, one after the other, each from a multiple of 4."""
    joined = bytearray()
    children = (child for child in folder.iterdir() if child.is_dir())
    for child in sorted(children, key=number_of):
        joined.extend(bytes(up(len(joined), 4) - len(joined)))
        joined.extend((child / "header.bin").read_bytes())
        joined.extend((child / "body.bin").read_bytes())
    return bytes(joined)


def unpacked(image: bytes, section: Section) -> bytes:
    """What a compressed section of this image holds: a body that is a list of sections."""
    if not shutil.which(PROGRAM):
        raise NotFirmware(f"{PROGRAM} of Debian's package uefitool-cli isn't there")
    with tempfile.TemporaryDirectory() as folder:
        Path(folder, "image").write_bytes(image)
        subprocess.run([PROGRAM, "image", "all"], cwd=folder, check=False, stdout=subprocess.DEVNULL)
        return joined_sections(folder_of(Path(folder, "image.dump"), section))
