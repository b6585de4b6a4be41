#!/usr/bin/env python3
"""Real firmware, built again: takes images of OVMF apart, states them as platforms, and builds and compares those.

    ovmf.py all                  every image of Debian's package ovmf: a workspace, a build, a comparison
    ovmf.py take IMAGE FOLDER    the workspace of one image
    ovmf.py compare FOLDER       builds it and compares each volume and the device
    ovmf.py edits FOLDER         what edits do there
    ovmf.py hostile N FOLDER     N random edits, from nothing and from a kept cache
    ovmf.py list [IMAGE ..]      what volinfo says of images
"""

from __future__ import annotations

import argparse
import sys
import tempfile
from pathlib import Path

import firmware
import model
import workspace
from compare import compare
from edits import show_edits
from hostile import show_hostile
from program import Program

IMAGES = (Path("/usr/share/OVMF"), Path("/usr/share/ovmf"))
COMPRESSIONS = {"ee4e5898-3914-4259-9d6e-dc7bd79403cf": "compressed by LZMA"}


def package_images() -> list[Path]:
    """The images of Debian's package, those of modules first; links to other images are left out."""
    found = [path for folder in IMAGES for path in folder.glob("*.fd") if not path.is_symlink()]
    return sorted(found, key=lambda path: ("VARS" in path.name, "4M" in path.name, path.name))


def take(image: Path, folder: Path, small: bool = False) -> None:
    """Writes the workspace of an image; a small one leaves out the volume DXEFV."""
    folder.mkdir(parents=True, exist_ok=True)
    platform = model.platform_of(image)
    platform = model.without_dxe(platform) if small else platform
    count = workspace.write(platform, folder)
    print(f"{image.name}: {len(platform.modules)} modules, {len(platform.volumes)} volumes, "
          f"{len(platform.rules)} rules; {count} files in {folder}")


def take_all(images: list[Path], folder: Path, program: Program) -> bool:
    """Writes, builds and compares the workspace of each image below a folder."""
    if not images:
        raise firmware.NotFirmware("no images: Debian's package ovmf isn't there")
    fine = True
    for image in images:
        take(image, folder / image.stem)
        fine &= compare(folder / image.stem, program)
    print("nothing differs" if fine else "something differs")
    return fine


def notes(image: bytes) -> list[str]:
    """What volinfo doesn't list as volumes or doesn't open: variable stores and compressed sections."""
    lines = []
    for volume in firmware.read_volumes(image):
        if volume.system == firmware.VARIABLE_STORE:
            lines.append(f"{volume.place:#x} {len(volume.data):#x}: a variable store, no volume of files")
        for file in volume.files:
            for section in file.of_kind(firmware.GUIDED):
                name = COMPRESSIONS.get(firmware.guid_text(section.data[4:]), "in a form of its own")
                lines.append(f"volume {volume.place:#x}, file {file.place:#x}, section 02: {name}, not opened")
    return lines


def list_images(images: list[Path], program: Program) -> bool:
    """Prints what volinfo says of each image, and names what it says nothing of."""
    for image in images:
        status, text = program.listing(image)
        print(f"{image.name}: status {status}")
        for line in text.splitlines():
            print(f"  {line}")
        for note in notes(image.read_bytes()):
            print(f"  ({note})")
    return True


def arguments() -> argparse.Namespace:
    parser = argparse.ArgumentParser(description=__doc__, formatter_class=argparse.RawDescriptionHelpFormatter)
    parser.add_argument("--program", help="the program that builds; else GARLICMOOR, else the repository's own")
    words = parser.add_subparsers(dest="word", required=True)
    each = words.add_parser("all", help="write, build and compare the workspaces of images")
    each.add_argument("images", nargs="*", type=Path, help="without any: those of the package ovmf")
    each.add_argument("--folder", type=Path, help="where the workspaces stay; else they are taken away again")
    one = words.add_parser("take", help="write the workspace of an image")
    one.add_argument("image", type=Path)
    one.add_argument("folder", type=Path)
    one.add_argument("--small", action="store_true", help="leave out DXEFV and its modules")
    for word, text in (("compare", "build a workspace and compare"), ("edits", "show what edits do")):
        words.add_parser(word, help=text).add_argument("folder", type=Path)
    hostile = words.add_parser("hostile", help="build after random edits")
    hostile.add_argument("count", type=int)
    hostile.add_argument("folder", type=Path)
    hostile.add_argument("--seed", type=int, default=1)
    listing = words.add_parser("list", help="show what volinfo says of images")
    listing.add_argument("images", nargs="*", type=Path, help="without any: those of the package ovmf")
    return parser.parse_args()


def main() -> bool:
    words = arguments()
    if words.word == "take":
        take(words.image, words.folder, words.small)
        return True
    program = Program(words.program)
    if words.word == "compare":
        return compare(words.folder, program)
    if words.word == "edits":
        return show_edits(words.folder, program)
    if words.word == "list":
        return list_images(words.images or package_images(), program)
    with tempfile.TemporaryDirectory() as scratch:
        if words.word == "hostile":
            return show_hostile(words.folder, program, words.count, words.seed, Path(scratch))
        return take_all(words.images or package_images(), words.folder or Path(scratch), program)


if __name__ == "__main__":
    try:
        sys.exit(0 if main() else 1)
    except (OSError, firmware.NotFirmware) as fault:
        sys.exit(f"ovmf.py: {fault}")
