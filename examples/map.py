#!/usr/bin/env python3
"""Draws what is in a firmware image, as `garlicmoor volinfo` lists it.

    examples/map.py IMAGE > map.svg

Each box is the image or a volume. The bar at its head shows its bytes to scale: volumes, files, pads and free space. Below
stand its files with their places and sections; a volume within a file is a box of its own below that file. The program
is that of the variable GARLICMOOR, else `garlicmoor` at the top of the repository.
"""
import html
import os
import subprocess
import sys
from dataclasses import dataclass, field
from pathlib import Path

TOP = Path(__file__).resolve().parent.parent

# Types of files and kinds of sections (UEFI PI specification, volume 3).
TYPES = {
    0x01: ("RAW", "#b8a06a"),
    0x02: ("FREEFORM", "#d2b65a"),
    0x03: ("SEC core", "#dd7a66"),
    0x04: ("PEI core", "#e39a6c"),
    0x05: ("DXE core", "#6a9bd8"),
    0x06: ("PEIM", "#f0bd85"),
    0x07: ("driver", "#9cc0ea"),
    0x08: ("PEIM and driver", "#a794c7"),
    0x09: ("application", "#4fa58a"),
    0x0A: ("MM driver", "#8bb85c"),
    0x0B: ("volume image", "#ab9dd6"),
    0x0D: ("MM core", "#7fae58"),
}
OTHER = "#9aa0a6"
PAD = "#dfe2e6"
FREE = "#ffffff"
KINDS = {
    0x01: "compressed",
    0x02: "GUIDed",
    0x10: "PE32",
    0x11: "PIC",
    0x12: "TE",
    0x13: "DXE depex",
    0x14: "version",
    0x15: "name",
    0x17: "volume",
    0x18: "freeform GUID",
    0x19: "raw",
    0x1B: "PEI depex",
    0x1C: "MM depex",
}

WIDTH = 1000
INDENT = 24
BAR = 26
LINE = 17
GAP = 10
LETTER = 6.2


@dataclass
class File:
    """A file or a pad of a volume. A pad has neither type nor GUID."""

    place: int
    size: int
    kind: int | None = None
    guid: str = ""
    sections: list[tuple[int, int]] = field(default_factory=list)
    volumes: list["Volume"] = field(default_factory=list)


@dataclass
class Volume:
    """A volume, with the place where it stands in the image or section."""

    place: int
    size: int
    system: str
    files: list[File] = field(default_factory=list)
    free: int = 0


def read_listing(text: str) -> list[Volume]:
    """The volumes of an image from their listing. What lies below a row is indented by two blanks more."""
    found: list[Volume] = []
    above: dict[int, list[Volume]] = {0: found}
    inside: dict[int, Volume] = {}
    for number, line in enumerate(text.splitlines(), 1):
        indent = len(line) - len(line.lstrip(" "))
        word, *rest = line.split()
        if word == "volume":
            volume = Volume(int(rest[0], 16), int(rest[1], 16), rest[2])
            above[indent].append(volume)
            inside[indent + 2] = volume
        elif word == "pad":
            inside[indent].files.append(File(int(rest[0], 16), int(rest[1], 16)))
        elif word == "file":
            file = File(int(rest[0], 16), int(rest[3], 16), int(rest[2], 16), rest[1])
            inside[indent].files.append(file)
            above[indent + 4] = file.volumes
        elif word == "section":
            inside[indent - 2].files[-1].sections.append((int(rest[0], 16), int(rest[1], 16)))
        elif word == "free":
            inside[indent].free = int(rest[0], 16)
        else:
            sys.exit(f"map.py: line {number} of the listing isn't known: {line}")
    return found


def bytes_text(count: int) -> str:
    """A number of bytes as one reads it."""
    for unit, name in ((1 << 20, "MiB"), (1 << 10, "KiB")):
        if count >= unit:
            return f"{count / unit:.1f}".removesuffix(".0") + f" {name}"
    return f"{count} byte" + "s" * (count != 1)


def name_of(file: File) -> str:
    if file.kind is None:
        return "pad"
    return TYPES.get(file.kind, (f"type 0x{file.kind:02X}", OTHER))[0]


def colour_of(file: File) -> str:
    return PAD if file.kind is None else TYPES.get(file.kind, ("", OTHER))[1]


@dataclass
class Part:
    """A part of a bar."""

    place: int
    size: int
    label: str
    tip: str
    colour: str


def parts_of_volume(volume: Volume) -> list[Part]:
    """Files and pads in their places, and the free space, which is the volume's end."""
    parts = []
    for it in volume.files:
        tip = f"{name_of(it)} {it.guid} at 0x{it.place:X}, {bytes_text(it.size)}"
        parts.append(Part(it.place, it.size, name_of(it), tip, colour_of(it)))
    if volume.free:
        parts.append(Part(volume.size - volume.free, volume.free, "free", f"free, {bytes_text(volume.free)}", FREE))
    return parts


def parts_of_image(volumes: list[Volume]) -> list[Part]:
    parts = []
    for it in volumes:
        tip = f"volume at 0x{it.place:X}, {bytes_text(it.size)}"
        parts.append(Part(it.place, it.size, f"volume 0x{it.place:X}", tip, "#ab9dd6"))
    return parts


class Drawing:
    """Shapes from above to below."""

    def __init__(self):
        self.shapes: list[str] = []

    def box(self, x: float, y: float, width: float, height: float, fill: str, tip: str = "", kind: str = "part"):
        title = f"<title>{html.escape(tip)}</title>" if tip else ""
        self.shapes.append(
            f'<rect class="{kind}" x="{x:.2f}" y="{y:.2f}" width="{width:.2f}" height="{height:.2f}" fill="{fill}">{title}</rect>'
        )

    def text(self, x: float, y: float, text: str, kind: str = "row"):
        self.shapes.append(f'<text class="{kind}" x="{x:.2f}" y="{y:.2f}">{html.escape(text)}</text>')

    def bar(self, x: float, y: float, width: float, size: int, parts: list[Part]):
        """A bar to scale. What is of no part, headers and bytes outside volumes, is grey."""
        self.box(x, y, width, BAR, "#c3c8ce", kind="bar")
        scale = width / size if size else 0
        for it in parts:
            wide = it.size * scale
            self.box(x + it.place * scale, y, wide, BAR, it.colour, it.tip)
            if wide > LETTER * len(it.label) + 8:
                self.text(x + it.place * scale + 4, y + BAR - 9, it.label, "label")

    def frame(self, x: float, y: float, width: float, title: str, size: int, parts: list[Part]) -> tuple[int, float]:
        """The head of a box: its title and its bar. The box itself is drawn when its height is known."""
        at = len(self.shapes)
        self.text(x + GAP, y + LINE, title, "title")
        self.bar(x + GAP, y + LINE + 6, width - 2 * GAP, size, parts)
        return at, y + LINE + 6 + BAR + 4

    def close(self, at: int, x: float, y: float, width: float, bottom: float):
        rect = f'<rect class="box" x="{x:.2f}" y="{y:.2f}" width="{width:.2f}" height="{bottom - y:.2f}" rx="4"/>'
        self.shapes.insert(at, rect)

    def volume(self, volume: Volume, where: str, x: float, y: float, width: float) -> float:
        """A volume with its files, and the y below it."""
        title = f"Volume {where}: {bytes_text(volume.size)}, {volume.system}"
        at, down = self.frame(x, y, width, title, volume.size, parts_of_volume(volume))
        for file in volume.files:
            if file.kind is None:
                continue
            down = self.file(file, x + GAP, down, width - 2 * GAP)
            for inner in file.volumes:
                where = f"in the file at 0x{file.place:X}"
                down = self.volume(inner, where, x + GAP + INDENT, down + 4, width - 2 * GAP - INDENT) + 4
        pads = sum(it.size for it in volume.files if it.kind is None)
        self.text(x + GAP, down + LINE - 4, f"{bytes_text(volume.free)} free, {bytes_text(pads)} of pads", "faint")
        down += LINE + GAP / 2
        self.close(at, x, y, width, down)
        return down

    def file(self, file: File, x: float, y: float, width: float) -> float:
        """A row for a file: colour, place, type, GUID, size, and its sections with the size of each."""
        sections = ", ".join(f"{KINDS.get(kind, f'0x{kind:02X}')} {size:,}" for kind, size in file.sections)
        room = int((width - 545) / LETTER)
        short = sections if len(sections) <= room else sections[: room - 2] + ".."
        self.box(x, y + 4, 10, 10, colour_of(file), f"{name_of(file)} {file.guid}: {sections}")
        columns = ((16, f"0x{file.place:X}"), (86, name_of(file)), (184, file.guid), (430, f"{file.size:,} bytes"))
        for at, text in columns:
            self.text(x + at, y + LINE - 4, text)
        self.text(x + 545, y + LINE - 4, short, "faint")
        return y + LINE

    def svg(self, width: float, height: float) -> str:
        style = (
            "text{font-family:ui-monospace,Menlo,Consolas,monospace;font-size:10.3px;fill:#24292f}"
            ".title{font-weight:bold;font-size:12px}.faint{fill:#57606a}.label{pointer-events:none}"
            ".part{stroke:#ffffff;stroke-width:.4}.bar{stroke:#57606a}.box{fill:#f6f8fa;stroke:#8c959f}"
        )
        head = f'<svg xmlns="http://www.w3.org/2000/svg" width="{width:.0f}" height="{height:.0f}" viewBox="0 0 {width:.0f} {height:.0f}">'
        ground = '<rect width="100%" height="100%" fill="#ffffff"/>'
        return "\n".join([head, f"<style>{style}</style>", ground, *self.shapes, "</svg>"]) + "\n"


def draw(name: str, size: int, volumes: list[Volume]) -> str:
    drawing = Drawing()
    title = f"{name}: {bytes_text(size)}, {len(volumes)} volume" + "s" * (len(volumes) != 1)
    at, down = drawing.frame(GAP, GAP, WIDTH, title, size, parts_of_image(volumes))
    for it in volumes:
        down = drawing.volume(it, f"at 0x{it.place:X}", GAP + GAP, down + 6, WIDTH - 2 * GAP) + 4
    down += 4
    drawing.close(at, GAP, GAP, WIDTH, down)
    return drawing.svg(WIDTH + 2 * GAP, down + GAP)


def listing_of(image: Path) -> str:
    """What the program lists. It takes a path beside the current folder, so it runs in the image's own."""
    program = Path(os.environ.get("GARLICMOOR") or TOP / "garlicmoor").resolve()
    # What the program says on standard error is seen at once: `garlicmoor` may have to prove the program first.
    ran = subprocess.run([program, "volinfo", image.name], cwd=image.parent, stdout=subprocess.PIPE, text=True)
    if ran.returncode:
        sys.exit(ran.returncode)
    return ran.stdout


def main() -> None:
    if len(sys.argv) != 2:
        sys.exit("usage: map.py IMAGE > map.svg")
    image = Path(sys.argv[1]).resolve()
    if not image.is_file():
        sys.exit(f"map.py: there is no file {sys.argv[1]}")
    sys.stdout.write(draw(image.name, image.stat().st_size, read_listing(listing_of(image))))


if __name__ == "__main__":
    main()
