"""A file of a volume stated as a module: its INF's keys, the files that were linked for it, and the rule it goes by."""

from __future__ import annotations

import re
from collections import Counter
from dataclasses import dataclass

import depex
import firmware
from firmware import FirmwareFile, Section, up

ARCHITECTURES = {0x014C: "IA32", 0x8664: "X64", 0xAA64: "AARCH64", 0x5064: "RISCV64", 0x6264: "LOONGARCH64"}

# What a PE file's subsystem says of the module in a DRIVER file: a boot driver with an expression is a DXE_DRIVER.
RUNTIME_DRIVER = 12
MODULE_TYPES = {
    0x03: "SEC", 0x04: "PEI_CORE", 0x05: "DXE_CORE", 0x06: "PEIM", 0x09: "UEFI_APPLICATION", 0x0A: "DXE_SMM_DRIVER",
    0x0D: "SMM_CORE",
}

# The order of the sections in the rules by type. RAW sections have a name for what they are, which is their
# linked file's extension too: the PCD database, where HII texts and forms stand in the driver, an ACPI table.
ORDER = ("RAW pcd", "DEPEX", "RAW hii", "PE32", "UI", "VERSION", "RAW acpi")
APPLICATION_ORDER = ("PE32", "RAW hii", "UI", "VERSION")


class NotStated(Exception):
    """A file of the image can't be stated as a module."""


@dataclass
class Module:
    """A module: its INF, the files that were linked for it, and the rule that makes a file of both."""

    name: str
    stem: str
    folder: str
    guid: str
    type: str
    file_type: str
    arch: str
    version: str
    slots: tuple[str, ...]
    aligned: bool
    files: dict[str, bytes]
    expression: depex.Term | None = None
    expression_bytes: bytes = b""
    template: str = ""

    @property
    def path(self) -> str:
        """The INF's path below the workspace, without its extension."""
        return f"Ovmf/{self.folder}/{self.stem}"

    @property
    def own_expression(self) -> bool:
        """Whether the program compiles the very bytes of the expression."""
        return self.expression is None or depex.compiled(self.expression) == self.expression_bytes


@dataclass(frozen=True)
class Rule:
    """A rule of the FDF for the modules of one type and template."""

    type: str
    template: str
    file_type: str
    slots: tuple[str, ...]
    aligned: bool
    own_expression: bool


def plain(text: str) -> str:
    """A text as a C identifier."""
    word = re.sub(r"[^A-Za-z0-9_]", "_", text)
    return word if word[:1].isalpha() else "_" + word


def laid_out(parts: list[tuple[int, bytes, int]]) -> bytes:
    """The body that sections of these kinds, contents and alignments make, each aligned by a RAW section before it."""
    body = bytearray()
    for kind, content, alignment in parts:
        body.extend(bytes(up(len(body), 4) - len(body)))
        if (len(body) + 4) % alignment:
            pad = up(len(body) + 8, alignment) - len(body) - 4
            body.extend(pad.to_bytes(3, "little") + bytes([firmware.RAW]) + bytes(pad - 4))
        body.extend((len(content) + 4).to_bytes(3, "little") + bytes([kind]) + content)
    return bytes(body)


def file_alignment(alignment: int) -> int:
    """The least alignment of a file that is at least this one."""
    return min(value for value in firmware.ALIGNMENTS + firmware.LARGE_ALIGNMENTS if value >= alignment)


def aligned_sections(file: FirmwareFile) -> tuple[list[Section], bool]:
    """The sections of a module without those that only align its PE file, and whether it is aligned at all.

    The PE file's own alignment in memory is what Align = Auto takes.
    """
    sections = list(file.sections)
    alignment = firmware.read_pe(file.of_kind(firmware.PE32)[0].content).section_alignment
    at = [section.kind for section in sections].index(firmware.PE32)
    without = sections[:at - 1] + sections[at:] if at and is_pad(sections[at - 1]) else sections
    for kept, aligned in ((without, True), (sections, False)):
        parts = [(part.kind, part.content, alignment if aligned and part.kind == firmware.PE32 else 1) for part in kept]
        needed = file_alignment(alignment) if aligned else 1
        if laid_out(parts) == file.body and needed == file.alignment:
            return kept, aligned
    raise NotStated(file.name)


def is_pad(section: Section) -> bool:
    """Whether a section may be one that is there for the alignment of the next alone."""
    return section.kind == firmware.RAW and not any(section.content)


def raw_slot(at: int, kinds: list[int], type_: str) -> str:
    """What a RAW section is, by where it stands among the kinds of a module's sections."""
    code = kinds.index(firmware.PE32)
    expressions = [place for place, kind in enumerate(kinds) if kind in firmware.DEPEX_KINDS]
    if expressions and at < expressions[0] or not expressions and at < code and type_ in ("PEI_CORE", "PEIM"):
        return "RAW pcd"
    return "RAW acpi" if at > code and firmware.UI in kinds[:at] else "RAW hii"


def slots_of(sections: list[Section], type_: str) -> tuple[str, ...]:
    """What each section of a module is, as in ORDER; each slot has one section at most."""
    kinds = [section.kind for section in sections]
    slots = []
    for at, kind in enumerate(kinds):
        if kind in firmware.DEPEX_KINDS:
            slots.append("DEPEX")
        elif kind == firmware.RAW:
            slots.append(raw_slot(at, kinds, type_))
        elif kind in (firmware.PE32, firmware.UI, firmware.VERSION):
            slots.append(firmware.SECTION_KINDS[kind])
        else:
            raise NotStated(f"a section of the kind {kind:#x}")
    if len(set(slots)) < len(slots):
        raise NotStated(", ".join(slots))
    return tuple(slots)


def version_of(file: FirmwareFile) -> str:
    """The text of the VERSION section; empty where there is none."""
    found = file.of_kind(firmware.VERSION)
    if not found:
        return ""
    if found[0].content[:2] != b"\0\0":
        raise NotStated("a build number")
    return found[0].content[2:].decode("utf-16-le").rstrip("\0")


def module_type(file: FirmwareFile, subsystem: int) -> str:
    """The type of the module that this file was made of."""
    if file.type != 0x07:
        return MODULE_TYPES[file.type]
    if subsystem == RUNTIME_DRIVER:
        return "DXE_RUNTIME_DRIVER"
    return "DXE_DRIVER" if file.of_kind(*firmware.DEPEX_KINDS) else "UEFI_DRIVER"


def is_plain(texts: list[str]) -> bool:
    """Whether texts can stand in quotes."""
    return all(text.isascii() and text.isprintable() and '"' not in text for text in texts)


def linked_files(slots: tuple[str, ...], sections: list[Section]) -> dict[str, bytes]:
    """The files that were linked for a module, by their extensions."""
    files = {}
    for slot, section in zip(slots, sections):
        if slot == "PE32":
            files["efi"] = section.content
        elif slot.startswith("RAW "):
            files[slot[4:]] = section.content
    return files


def new_stem(folder: str, name: str, taken: set[str]) -> str:
    """A name for an INF file that no module of the folder has yet."""
    stem, number = name, 2
    while f"{folder}/{stem}" in taken:
        stem, number = f"{name}-{number}", number + 1
    return stem


def put_expression(module: Module, data: bytes) -> None:
    """Gives a module its dependency expression, and the file of it where the program would compile other bytes."""
    try:
        module.expression = depex.tree_of(data)
    except (IndexError, KeyError, ValueError) as fault:
        raise NotStated("an expression") from fault
    module.expression_bytes = data
    if not module.own_expression:
        module.files["dpx"] = data


def module_of(file: FirmwareFile, folder: str, taken: set[str]) -> Module:
    """A file of a volume as a module."""
    code = file.of_kind(firmware.PE32)
    if len(code) != 1 or not file.ui_name or file.fixed or file.checksum:
        raise NotStated(file.name)
    head = firmware.read_pe(code[0].content)
    version = version_of(file)
    if head.machine not in ARCHITECTURES or not is_plain([file.ui_name, version]):
        raise NotStated(file.name)
    type_ = module_type(file, head.subsystem)
    sections, aligned = aligned_sections(file)
    slots = slots_of(sections, type_)
    name = plain(file.ui_name)
    module = Module(name, new_stem(folder, name, taken), folder, file.name, type_, firmware.FILE_TYPES[file.type],
                    ARCHITECTURES[head.machine], version, slots, aligned, linked_files(slots, sections))
    for section in file.of_kind(*firmware.DEPEX_KINDS):
        put_expression(module, section.content)
    taken.add(f"{folder}/{module.stem}")
    return module


def order_of(type_: str) -> tuple[str, ...]:
    return APPLICATION_ORDER if type_ == "UEFI_APPLICATION" else ORDER


def in_order(slots: set[str], type_: str) -> tuple[str, ...]:
    """Slots in the order of a type's rule."""
    return tuple(slot for slot in order_of(type_) if slot in slots)


def template_of(module: Module, aligned: bool) -> str:
    """The template of the rule that a module goes by; empty where the rule by its type serves it."""
    words = []
    if not module.own_expression:
        words.append("GENDEPEX")
    if module.aligned != aligned:
        words.append("ALIGNED" if module.aligned else "UNALIGNED")
    if in_order(set(module.slots), module.type) != module.slots:
        words.append("_".join(module.slots).replace(" ", "_").upper())
    return "_".join(words)


def rule_of(served: list[Module]) -> Rule:
    """The rule for modules of one type and template: it has a line for each slot that one of them has."""
    first = served[0]
    slots = in_order({slot for module in served for slot in module.slots}, first.type)
    if in_order(set(first.slots), first.type) != first.slots:
        slots = first.slots
    return Rule(first.type, first.template, first.file_type, slots, first.aligned, first.own_expression)


def choose_rules(modules: list[Module]) -> list[Rule]:
    """The rules by type, and more for the modules of a type that its rule doesn't fit."""
    rules = []
    for type_ in dict.fromkeys(module.type for module in modules):
        alike = [module for module in modules if module.type == type_]
        aligned = Counter(module.aligned for module in alike).most_common(1)[0][0]
        for module in alike:
            module.template = template_of(module, aligned)
        for template in sorted({module.template for module in alike}):
            rules.append(rule_of([module for module in alike if module.template == template]))
    return rules
