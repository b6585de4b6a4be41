"""An image stated as a platform: which modules, rules, volumes and regions a description of it has.

Nothing is written here; workspace.py turns what this makes into files.
"""

from __future__ import annotations

from dataclasses import dataclass, field, replace
from pathlib import Path

import depex
import firmware
from firmware import FirmwareFile, Volume
from modules import (MODULE_TYPES, Module, NotStated, Rule, choose_rules, is_plain, laid_out, module_of, plain,
                     version_of)
from unpack import unpacked

FOUR_GIB = 1 << 32

# The folder and the comment of each volume, by EDK II's name of it.
FOLDERS = {"SECFV": "Sec", "PEIFV": "Pei", "DXEFV": "Dxe"}
COMMENTS = {
    "SECFV": "What runs first: SecMain, and the reset vector in the volume's last bytes.",
    "PEIFV": "The PEI phase. The modules are linked for the volume's own base.",
    "DXEFV": "The DXE phase.",
    "FVMAIN_COMPACT": "The file holds both volumes above in a compressed section, which is taken as it is.",
}

# Where a variable store has its parts, by its whole size: name and size of each, in their order.
STORES = {
    0x20000: (("Variable", 0xE000), ("EventLog", 0x1000), ("FtwWorking", 0x1000), ("FtwSpare", 0x10000)),
    0x84000: (("Variable", 0x40000), ("EventLog", 0x1000), ("FtwWorking", 0x1000), ("FtwSpare", 0x42000)),
}

# The extension of a section's file, by its kind, and the kinds that a statement may have.
EXTENSIONS = {"PE32": "efi", "RAW": "hii", "DXE_DEPEX": "dpx", "PEI_DEPEX": "dpx", "SMM_DEPEX": "dpx"}

# A shell comes from elsewhere as a rule, so it is stated by sections and not as a module.
BINARIES = {"Shell"}


@dataclass
class Statement:
    """One statement of a volume: a module, a file with its sections, a whole body, or volumes in a file."""

    file: FirmwareFile
    module: Module | None = None
    sections: list[tuple[str, str]] = field(default_factory=list)
    body: str = ""


@dataclass
class VolumePlan:
    """A volume of the FDF, with the image that has to come of it."""

    name: str
    volume: Volume
    comment: str
    apriori: dict[str, list[str]] = field(default_factory=dict)
    statements: list[Statement] = field(default_factory=list)
    base: int | None = None


@dataclass
class Nest:
    """The file whose compressed section holds volumes, and what is in that section."""

    file: FirmwareFile
    content: bytes
    volumes: list[str]


@dataclass
class Region:
    """A region of the device: a volume, bytes, a file's bytes, or nothing."""

    offset: int
    size: int
    name: str
    volume: str = ""
    data: bytes = b""


@dataclass
class Platform:
    """All that a workspace is written from."""

    source: str
    device: str
    base: int
    image: bytes
    modules: list[Module] = field(default_factory=list)
    rules: list[Rule] = field(default_factory=list)
    volumes: list[VolumePlan] = field(default_factory=list)
    regions: list[Region] = field(default_factory=list)
    binaries: dict[str, bytes] = field(default_factory=dict)
    nest: Nest | None = None

    @property
    def arches(self) -> list[str]:
        return sorted({module.arch for module in self.modules}) or ["X64"]

    @property
    def guids(self) -> dict[str, str]:
        """The GUIDs of all expressions by their names."""
        found = {guid for module in self.modules if module.expression for guid in depex.guids_of(module.expression)}
        return {depex.name_of(guid): guid for guid in sorted(found)}


def linked_base(volume: Volume) -> int | None:
    """The address at which all modules of a volume are linked to lie, where there is one."""
    bases = set()
    for file in volume.files:
        for section in file.of_kind(firmware.PE32):
            head = firmware.read_pe(section.content)
            bases.add(head.base - file.place - file.header - section.content_at)
    base = bases.pop() if len(bases) == 1 else 0
    return base if base > 0 else None


def volume_name(volume: Volume, number: int) -> str:
    """EDK II's name of a volume, by what is in it."""
    types = {file.type for file in volume.files}
    for type_, name in ((0x03, "SECFV"), (0x04, "PEIFV"), (0x05, "DXEFV")):
        if type_ in types:
            return name
    return "FVMAIN_COMPACT" if compressed_file(volume) else f"FV{number}"


def compressed_file(volume: Volume) -> FirmwareFile | None:
    """The file of a volume that holds volumes in a compressed section."""
    for file in volume.files:
        if file.type == 0x0B and file.of_kind(firmware.GUIDED):
            return file
    return None


def apriori_of(file: FirmwareFile) -> list[str]:
    """The GUIDs of an a priori file."""
    content = file.sections[0].content
    return [firmware.guid_text(content[at:]) for at in range(0, len(content), 16)]


def statement_of(file: FirmwareFile, plan: VolumePlan, platform: Platform, taken: set[str]) -> Statement:
    """The statement of a volume that makes this file: a module where it can be one, else its sections or its body."""
    folder = FOLDERS.get(plan.name, "Main")
    if file.type in (*MODULE_TYPES, 0x07) and file.ui_name not in BINARIES:
        try:
            module = module_of(file, folder, taken)
            platform.modules.append(module)
            return Statement(file, module)
        except (NotStated, firmware.NotFirmware):
            pass
    if can_be_listed(file):
        return by_sections(file, folder, platform)
    body = new_path(folder, "FvMain" if file.of_kind(firmware.GUIDED) else binary_stem(file),
                    "compressed" if file.of_kind(firmware.GUIDED) else "raw", platform)
    platform.binaries[body] = file.body
    return Statement(file, body=body)


def binary_stem(file: FirmwareFile) -> str:
    """What the files of a statement without a module are named."""
    if file.name == firmware.VOLUME_TOP_FILE:
        return "ResetVector"
    return plain(file.ui_name) if file.ui_name else "File-" + file.name


def new_path(folder: str, stem: str, extension: str, platform: Platform) -> str:
    """A path below the workspace that no file has yet."""
    path, number = f"Ovmf/{folder}/{stem}.{extension}", 2
    while path in platform.binaries:
        path, number = f"Ovmf/{folder}/{stem}-{number}.{extension}", number + 1
    return path


def can_be_listed(file: FirmwareFile) -> bool:
    """Whether a file can be stated by its sections."""
    kinds = {firmware.SECTION_KINDS.get(section.kind) for section in file.sections}
    if not file.sections or kinds - EXTENSIONS.keys() - {"UI", "VERSION"}:
        return False
    try:
        texts = [file.ui_name or "", version_of(file)]
    except NotStated:
        return False
    return is_plain(texts) and laid_out([(part.kind, part.content, 1) for part in file.sections]) == file.body


def by_sections(file: FirmwareFile, folder: str, platform: Platform) -> Statement:
    """A file that is stated by its sections, each of which is a file or a text."""
    statement = Statement(file)
    for section in file.sections:
        kind = firmware.SECTION_KINDS[section.kind]
        if section.kind == firmware.UI:
            statement.sections.append((kind, f'"{file.ui_name}"'))
        elif section.kind == firmware.VERSION:
            statement.sections.append((kind, f'"{version_of(file)}"'))
        else:
            path = new_path(folder, binary_stem(file), EXTENSIONS[kind], platform)
            platform.binaries[path] = section.content
            statement.sections.append((kind, path))
    return statement


def plan_volume(volume: Volume, platform: Platform, taken: set[str]) -> VolumePlan:
    """A volume of the image as one of the FDF."""
    name = volume_name(volume, len(platform.volumes))
    plan = VolumePlan(name, volume, COMMENTS.get(name, "A volume."))
    plan.base = linked_base(volume)
    for file in volume.files:
        if file.type == firmware.PAD_FILE:
            continue
        if file.name in firmware.APRIORI:
            plan.apriori[firmware.APRIORI[file.name]] = apriori_of(file)
        else:
            plan.statements.append(statement_of(file, plan, platform, taken))
    platform.volumes.append(plan)
    return plan


def plan_nest(volume: Volume, platform: Platform, taken: set[str]) -> None:
    """The volumes within a volume's compressed section, as volumes of their own."""
    file = compressed_file(volume)
    if file is None:
        return
    content = unpacked(platform.image, file.of_kind(firmware.GUIDED)[0])
    nested = []
    for section in firmware.read_sections(content):
        if section.kind == firmware.FV_IMAGE:
            nested.append(plan_volume(firmware.read_volume(section.content), platform, taken).name)
    platform.nest = Nest(file, content, nested)


def store_regions(volume: Volume) -> list[Region]:
    """The regions of a variable store, which isn't a volume of files."""
    regions = []
    at = 0
    for name, size in STORES.get(len(volume.data), (("Variable", len(volume.data)),)):
        data = volume.data[at:at + size].rstrip(b"\xff")
        regions.append(Region(volume.place + at, size, name, data=data))
        at += size
    return regions


def device_base(image: bytes) -> int:
    """Where a device lies: firmware ends at 4 GiB, and a variable store alone is the front of 2 or 4 MiB."""
    whole = {0x20000: 2 << 20, 0x84000: 4 << 20}.get(len(image), len(image))
    return FOUR_GIB - whole


def without_dxe(platform: Platform) -> Platform:
    """The part of a platform that is left without the volume DXEFV and its modules."""
    left = [plan for plan in platform.volumes if plan.name != "DXEFV"]
    modules = [module for module in platform.modules if module.folder != "Dxe"]
    binaries = {path: data for path, data in platform.binaries.items() if not path.startswith("Ovmf/Dxe/")}
    return replace(platform, volumes=left, modules=modules, rules=choose_rules(modules), binaries=binaries, nest=None)


def platform_of(path: Path) -> Platform:
    """The platform that an image states."""
    image = path.read_bytes()
    platform = Platform(path.name, plain(path.stem).upper(), device_base(image), image)
    taken: set[str] = set()
    for volume in firmware.read_volumes(image):
        if volume.system not in (firmware.FFS2, firmware.FFS3):
            platform.regions += store_regions(volume)
            continue
        plan_nest(volume, platform, taken)
        plan = plan_volume(volume, platform, taken)
        platform.regions.append(Region(volume.place, len(volume.data), plan.name.title(), volume=plan.name))
    platform.rules = choose_rules(platform.modules)
    return platform
