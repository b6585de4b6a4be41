"""Reads what firmware is made of: volumes, files, sections, PE files and dependency expressions.

The forms are those of the UEFI PI specification. Nothing here knows of platforms or of the program that builds them.
"""

from __future__ import annotations

import struct
import uuid
from dataclasses import dataclass
from typing import Iterator

SIGNATURE = b"_FVH"
FFS2 = "8c8ce578-8a3d-4f1c-9935-896185c32dd3"
FFS3 = "5473c07a-3dcb-4dca-bd6f-1e9689e7349a"
VARIABLE_STORE = "fff12b8d-7696-4c8b-a985-2747075b4f50"
VOLUME_TOP_FILE = "1ba0062e-c779-4582-8566-336ae8f78f09"
APRIORI = {
    "1b45cc0a-156a-428a-af62-49864da0e6e6": "PEI",
    "fc510ee7-ffdc-11d4-bd41-0080c73c8881": "DXE",
}

FILE_TYPES = {
    0x01: "RAW", 0x02: "FREEFORM", 0x03: "SEC", 0x04: "PEI_CORE", 0x05: "DXE_CORE", 0x06: "PEIM", 0x07: "DRIVER",
    0x09: "APPLICATION", 0x0A: "SMM", 0x0B: "FV_IMAGE", 0x0D: "SMM_CORE",
}
RAW_FILE, FREEFORM_FILE, PAD_FILE = 0x01, 0x02, 0xF0

SECTION_KINDS = {
    0x10: "PE32", 0x12: "TE", 0x13: "DXE_DEPEX", 0x14: "VERSION", 0x15: "UI", 0x17: "FV_IMAGE", 0x18: "SUBTYPE_GUID",
    0x19: "RAW", 0x1B: "PEI_DEPEX", 0x1C: "SMM_DEPEX",
}
GUIDED, PE32, TE, VERSION, UI, FV_IMAGE, RAW = 0x02, 0x10, 0x12, 0x14, 0x15, 0x17, 0x19
DEPEX_KINDS = (0x13, 0x1B, 0x1C)

# The alignment that each value of the attribute bits 38 stands for, without and with the bit 02.
ALIGNMENTS = (1, 16, 128, 512, 1 << 10, 1 << 12, 1 << 15, 1 << 16)
LARGE_ALIGNMENTS = tuple(1 << 17 + step for step in range(8))


class NotFirmware(Exception):
    """The bytes aren't what the caller took them for."""


@dataclass(frozen=True)
class Section:
    """One section of a file's body."""

    kind: int
    start: int
    header: int
    data: bytes

    @property
    def content(self) -> bytes:
        return self.data[self.header:]

    @property
    def content_at(self) -> int:
        """Where the content begins, counted from the body's first byte."""
        return self.start + self.header


@dataclass(frozen=True)
class FirmwareFile:
    """One file of a volume."""

    place: int
    name: str
    type: int
    attributes: int
    header: int
    data: bytes
    sections: tuple[Section, ...]

    @property
    def body(self) -> bytes:
        return self.data[self.header:]

    @property
    def alignment(self) -> int:
        table = LARGE_ALIGNMENTS if self.attributes & 0x02 else ALIGNMENTS
        return table[self.attributes >> 3 & 7]

    @property
    def fixed(self) -> bool:
        return bool(self.attributes & 0x04)

    @property
    def checksum(self) -> bool:
        return bool(self.attributes & 0x40)

    def of_kind(self, *kinds: int) -> list[Section]:
        return [section for section in self.sections if section.kind in kinds]

    @property
    def ui_name(self) -> str | None:
        """The text of the UI section, where there is one."""
        found = self.of_kind(UI)
        return found[0].content.decode("utf-16-le").rstrip("\0") if found else None


@dataclass(frozen=True)
class Volume:
    """One firmware volume, with the files in it."""

    place: int
    data: bytes
    system: str
    attributes: int
    name: str | None
    block_size: int
    blocks: int
    files: tuple[FirmwareFile, ...]

    @property
    def alignment(self) -> int:
        return 1 << (self.attributes >> 16 & 0x1F)


def guid_text(data: bytes) -> str:
    """The registry form of a GUID's sixteen bytes, in lower case."""
    return str(uuid.UUID(bytes_le=data[:16]))


def up(value: int, step: int) -> int:
    """The least multiple of step that is at least value."""
    return -(-value // step) * step


def read_sections(body: bytes) -> tuple[Section, ...]:
    """The sections that a body is a list of; none where it is no such list."""
    sections = []
    at = 0
    while at < len(body):
        if at + 4 > len(body):
            return ()
        size, kind, header = int.from_bytes(body[at:at + 3], "little"), body[at + 3], 4
        if size == 0xFFFFFF and at + 8 <= len(body):
            size, header = struct.unpack_from("<I", body, at + 4)[0], 8
        if kind in (GUIDED, 0x18):
            header += 16 if kind == 0x18 else 20
        if size < header or at + size > len(body):
            return ()
        sections.append(Section(kind, at, header, body[at:at + size]))
        at = up(at + size, 4)
    return tuple(sections)


def read_file(data: bytes, at: int) -> FirmwareFile:
    """The file whose header stands at this place of a volume."""
    attributes, header = data[at + 19], 24
    size = int.from_bytes(data[at + 20:at + 23], "little")
    if attributes & 0x01:
        size, header = struct.unpack_from("<Q", data, at + 24)[0], 32
    if size < header or at + size > len(data):
        raise NotFirmware(f"file at {at:#x} has a wrong size")
    kind, whole = data[at + 18], data[at:at + size]
    sections = () if kind in (RAW_FILE, PAD_FILE) else read_sections(whole[header:])
    return FirmwareFile(at, guid_text(whole), kind, attributes, header, whole, sections)


def read_files(data: bytes, start: int, erase: int) -> Iterator[FirmwareFile]:
    """The files of a volume in their order, pad files among them."""
    at = up(start, 8)
    blank = bytes([erase]) * 24
    while at + 24 <= len(data) and data[at:at + 24] != blank:
        file = read_file(data, at)
        yield file
        at = up(at + len(file.data), 8)


def read_volume(data: bytes, at: int = 0) -> Volume:
    """The volume whose header stands at this place."""
    if data[at + 40:at + 44] != SIGNATURE:
        raise NotFirmware(f"no volume at {at:#x}")
    length, = struct.unpack_from("<Q", data, at + 32)
    attributes, header, _, extended = struct.unpack_from("<IHHH", data, at + 44)
    blocks, block_size = struct.unpack_from("<II", data, at + 56)
    whole = data[at:at + length]
    system = guid_text(whole[16:])
    if system not in (FFS2, FFS3):
        return Volume(at, whole, system, attributes, None, block_size, blocks, ())
    erase = 0xFF if attributes & 0x800 else 0x00
    name = guid_text(whole[extended:]) if extended else None
    start = extended + struct.unpack_from("<I", whole, extended + 16)[0] if extended else header
    return Volume(at, whole, system, attributes, name, block_size, blocks, tuple(read_files(whole, start, erase)))


def read_volumes(image: bytes) -> list[Volume]:
    """The volumes of a device's image in their order."""
    volumes = []
    at = 0
    while at + 56 <= len(image):
        if image[at + 40:at + 44] == SIGNATURE:
            volumes.append(read_volume(image, at))
            at += len(volumes[-1].data)
        else:
            at += 16
    return volumes


@dataclass(frozen=True)
class PeHead:
    """What a platform's description is told by a module's PE file."""

    machine: int
    subsystem: int
    section_alignment: int
    base: int


def read_pe(data: bytes) -> PeHead:
    """The head of a PE file."""
    if data[:2] != b"MZ":
        raise NotFirmware("no PE file")
    at, = struct.unpack_from("<I", data, 0x3C)
    if data[at:at + 4] != b"PE\0\0":
        raise NotFirmware("no PE file")
    machine, = struct.unpack_from("<H", data, at + 4)
    alignment, = struct.unpack_from("<I", data, at + 24 + 32)
    subsystem, = struct.unpack_from("<H", data, at + 24 + 68)
    long_address = data[at + 24:at + 26] == b"\x0b\x02"
    base, = struct.unpack_from("<Q" if long_address else "<I", data, at + 24 + (24 if long_address else 28))
    return PeHead(machine, subsystem, alignment, base)


OPCODES = {0: "BEFORE", 1: "AFTER", 2: "PUSH", 3: "AND", 4: "OR", 5: "NOT", 6: "TRUE", 7: "FALSE", 8: "END", 9: "SOR"}


def read_depex(data: bytes) -> list[tuple[str, str | None]]:
    """The opcodes of a dependency expression, END left out, each with the GUID behind it."""
    found: list[tuple[str, str | None]] = []
    at = 0
    while data[at] != 8:
        word = OPCODES[data[at]]
        takes_guid = data[at] <= 2
        found.append((word, guid_text(data[at + 1:]) if takes_guid else None))
        at += 17 if takes_guid else 1
    return found
