"""Writes a platform as a workspace: DSC, DEC, INF and FDF files, linked files, and the images that have to come."""

from __future__ import annotations

import shutil
import uuid
from pathlib import Path

import depex
import firmware
from model import FOLDERS, Nest, Platform, Region, Statement, VolumePlan
from modules import Module, Rule, plain

SPACE = "gOvmfTokenSpaceGuid"
BUILD = "Build/Ovmf/DEBUG_GCC"
EXPECTED = "Expected"
PLATFORM_FILE = "Ovmf/Ovmf.dsc"
FLASH_FILE = "Ovmf/Ovmf.fdf"
PACKAGE_FILE = "Ovmf/Ovmf.dec"
RULES_FILE = "Ovmf/Rules.fdf.inc"
ATTRIBUTES_FILE = "Ovmf/Attributes.fdf.inc"
PLATFORM_GUID = "5a9e7754-d81b-49ea-85ad-69eaa7b1539b"
PACKAGE_GUID = "2daf5f34-50e5-4b9d-b8e3-5562334d87e5"

# The bit of a volume's attributes for each name of the FDF.
ATTRIBUTES = {
    "READ_DISABLED_CAP": 0x1, "READ_ENABLED_CAP": 0x2, "READ_STATUS": 0x4, "WRITE_DISABLED_CAP": 0x8,
    "WRITE_ENABLED_CAP": 0x10, "WRITE_STATUS": 0x20, "LOCK_CAP": 0x40, "LOCK_STATUS": 0x80, "STICKY_WRITE": 0x200,
    "MEMORY_MAPPED": 0x400, "READ_LOCK_CAP": 0x1000, "READ_LOCK_STATUS": 0x2000, "WRITE_LOCK_CAP": 0x4000,
    "WRITE_LOCK_STATUS": 0x8000, "WEAK_ALIGNMENT": 0x80000000,
}

# The PCDs that modules use, by the fronts of their names: the flash device, its regions, the level of messages.
USES = {
    "SecMain": ("PcdFd", "PcdMainFv", "PcdSecFv", "PcdDebugLevel"),
    "PeiCore": ("PcdDebugLevel",),
    "PlatformPei": ("PcdFd", "PcdVariable", "PcdFtw"),
    "DxeCore": ("PcdDebugLevel",),
    "BdsDxe": ("PcdDebugLevel",),
    "PiSmmCore": ("PcdDebugLevel",),
    "FvbServicesRuntimeDxe": ("PcdFd", "PcdVariable", "PcdEventLog", "PcdFtw"),
    "FvbServicesSmm": ("PcdFd", "PcdVariable", "PcdEventLog", "PcdFtw"),
}

# What the depex section of each type of modules is.
EXPRESSIONS = {"PEIM": "PEI_DEPEX", "DXE_SMM_DRIVER": "SMM_DEPEX"}

REGIONS = {"FVMAIN_COMPACT": "MainFv", "SECFV": "SecFv"}
REGION_COMMENTS = {
    "FVMAIN_COMPACT": "The PEI and DXE phases, compressed.",
    "SECFV": "What runs first; the reset vector ends at the device's last byte.",
    "Variable": "Variables: the head of their volume and of the store in it, then the store itself.",
    "EventLog": "The event log.",
    "FtwWorking": "The head of the working space for fault tolerant writes.",
    "FtwSpare": "The spare space for fault tolerant writes.",
}


def keys(pairs: list[tuple[str, str]]) -> list[str]:
    """Lines KEY = VALUE with their values below each other."""
    width = max((len(key) for key, _ in pairs), default=0)
    return [f"  {key:<{width}} = {value}" for key, value in pairs]


def braces_of(guid: str) -> str:
    """A GUID as a DEC file states it."""
    fields = uuid.UUID(guid)
    tail = ", ".join(f"0x{byte:02X}" for byte in fields.bytes[8:])
    return f"{{ 0x{fields.time_low:08X}, 0x{fields.time_mid:04X}, 0x{fields.time_hi_version:04X}, {{ {tail} }} }}"


def region_word(region: Region) -> str:
    """What the PCDs of a region are named by."""
    return REGIONS.get(region.volume, plain(region.volume or region.name))


def region_pcds(platform: Platform) -> list[str]:
    """The PCDs that the flash description sets, in the order of the device."""
    words = [region_word(region) for region in platform.regions]
    return ["PcdFdBaseAddress", "PcdFdSize"] + [f"Pcd{word}{end}" for word in words for end in ("Base", "Size")]


def dec_text(platform: Platform) -> str:
    """The package: the GUIDs of expressions and the PCDs."""
    lines = ["# What the modules of the platform share.", "[Defines]"]
    lines += keys([("DEC_SPECIFICATION", "0x00010005"), ("PACKAGE_NAME", "OvmfPkg"), ("PACKAGE_GUID", PACKAGE_GUID),
                   ("PACKAGE_VERSION", "1.0")])
    ends = {"Ppis": "PpiGuid", "Protocols": "ProtocolGuid", "Guids": ""}
    left = dict(platform.guids)
    found = {}
    for section, end in ends.items():
        found[section] = {name: left.pop(name) for name in sorted(left) if name.endswith(end)}
    found["Guids"] = {SPACE: PACKAGE_GUID, **found["Guids"]}
    for section in ("Guids", "Ppis", "Protocols"):
        if found[section]:
            width = max(map(len, found[section]))
            lines += ["", f"[{section}]"]
            lines += [f"  {name:<{width}} = {braces_of(guid)}" for name, guid in found[section].items()]
    lines += ["", "[PcdsFixedAtBuild]", "  # The level of the messages that debug builds print."]
    lines += [f"  {SPACE}.PcdDebugLevel|0x80000000|UINT32|0x00000001", ""]
    lines += ["  # Where the flash device and its regions lie: the flash description sets these."]
    lines += [f"  {SPACE}.{pcd}|0x0|UINT32|0x{token:08X}" for token, pcd in enumerate(region_pcds(platform), 16)]
    return "\n".join(lines) + "\n"


def dsc_text(platform: Platform) -> str:
    """The platform: its architectures, values of PCDs, and components by architecture and phase."""
    lines = [f"# The platform that Debian's image {platform.source} was made of, stated again from that image.",
             "[Defines]"]
    lines += keys([("PLATFORM_NAME", "Ovmf"), ("PLATFORM_GUID", PLATFORM_GUID), ("PLATFORM_VERSION", "1.0"),
                   ("DSC_SPECIFICATION", "0x00010005"), ("OUTPUT_DIRECTORY", "Build/Ovmf"),
                   ("SUPPORTED_ARCHITECTURES", "|".join(platform.arches)), ("BUILD_TARGETS", "DEBUG"),
                   ("SKUID_IDENTIFIER", "DEFAULT"), ("FLASH_DEFINITION", FLASH_FILE)])
    lines += ["", "  # Whether debug builds print what they do; -D DEBUG_MESSAGES=FALSE turns it off.",
              "  DEFINE DEBUG_MESSAGES = TRUE", "", "[SkuIds]", "  0|DEFAULT", "", "[PcdsFixedAtBuild]"]
    lines += ["!if $(TARGET) == DEBUG && $(DEBUG_MESSAGES)", f"  {SPACE}.PcdDebugLevel|0x80000042", "!endif"]
    for arch in platform.arches:
        of_arch = [module for module in platform.modules if module.arch == arch]
        if of_arch:
            lines += ["", f"[Components.{arch}]"]
        for folder in dict.fromkeys(module.folder for module in of_arch):
            lines += [f"  # {folder.upper()}"]
            lines += [f"  {module.path}.inf" for module in of_arch if module.folder == folder]
    return "\n".join(lines) + "\n"


def inf_text(module: Module, platform: Platform) -> str:
    """The description of a module that was linked before."""
    lines = ["[Defines]"]
    lines += keys([("INF_VERSION", "0x00010005"), ("BASE_NAME", module.name), ("FILE_GUID", module.guid),
                   ("MODULE_TYPE", module.type)] + ([("VERSION_STRING", module.version)] if module.version else []))
    lines += ["", "[Packages]", f"  {PACKAGE_FILE}"]
    fronts = USES.get(module.name, ())
    pcds = [pcd for pcd in region_pcds(platform) + ["PcdDebugLevel"] if pcd.startswith(fronts)] if fronts else []
    if pcds:
        lines += ["", "[FixedPcd]"] + [f"  {SPACE}.{pcd}" for pcd in pcds]
    if module.expression:
        lines += ["", "[Depex]"] + [f"  {line}" for line in depex.depex_lines(module.expression)]
    return "\n".join(lines) + "\n"


def rule_lines(rule: Rule) -> list[str]:
    """A rule with the sections of its modules; a section whose file isn't there is left out."""
    output = "$(INF_OUTPUT)/$(MODULE_NAME)"
    head = f"[Rule.Common.{rule.type}{'.' + rule.template if rule.template else ''}]"
    lines = ["", head, f"  FILE {rule.file_type} = $(NAMED_GUID) {{"]
    for slot in rule.slots:
        if slot == "DEPEX":
            kind = EXPRESSIONS.get(rule.type, "DXE_DEPEX")
            path = f"Optional {output}.depex" if rule.own_expression else f"{output}.dpx"
            lines.append(f"    {kind:<9} {kind} {path}")
        elif slot == "PE32":
            lines.append(f"    PE32      PE32 {'Align = Auto ' if rule.aligned else ''}{output}.efi")
        elif slot == "UI":
            lines.append('    UI        STRING="$(MODULE_NAME)" Optional')
        elif slot == "VERSION":
            lines.append('    VERSION   STRING="$(INF_VERSION)" Optional BUILD_NUM=$(BUILD_NUMBER)')
        else:
            lines.append(f"    RAW       RAW Optional {output}.{slot[4:]}")
    return lines + ["  }"]


def rules_text(platform: Platform) -> str:
    """The rules by type, and those that statements name."""
    lines = ["# How a file is made of a module, by the module's type.", "#",
             "# Beside the linked module .efi a module may have the database of PCDs (.pcd), the places of its texts and",
             "# forms in the .efi file (.hii), and a table for ACPI (.acpi). GENDEPEX takes the expression that EDK II's",
             "# own tool compiled (.dpx), where that has another order of the same terms."]
    for rule in platform.rules:
        lines += rule_lines(rule)
    return "\n".join(lines) + "\n"


def statement_lines(statement: Statement) -> list[str]:
    """One statement of a volume."""
    file, module = statement.file, statement.module
    if module:
        options = f"RuleOverride = {module.template} " if module.template else ""
        ui = "" if file.ui_name == module.name else f'UI = "{file.ui_name}" '
        return [f"  INF {options}{ui}{module.path}.inf"]
    options = (" FIXED" if file.fixed else "") + (" CHECKSUM" if file.checksum else "")
    options += f" Align = {size_word(file.alignment)}" if file.alignment > 1 else ""
    lines = [f"  FILE {firmware.FILE_TYPES[file.type]} = {file.name}{options} {{"]
    lines += [f"    SECTION {kind} = {source}" for kind, source in statement.sections] or [f"    {statement.body}"]
    return lines + ["  }"]


def size_word(size: int) -> str:
    """A size as alignments are stated."""
    for unit, word in ((1 << 20, "M"), (1 << 10, "K")):
        if size % unit == 0:
            return f"{size // unit}{word}"
    return str(size)


def apriori_lines(plan: VolumePlan) -> list[str]:
    """The files that a phase starts first, by their modules where the volume has them."""
    modules = {each.module.guid: each.module for each in plan.statements if each.module}
    types = {each.file.name: firmware.FILE_TYPES[each.file.type] for each in plan.statements}
    lines = []
    for phase, guids in plan.apriori.items():
        lines += ["", f"  APRIORI {phase} {{"]
        for guid in guids:
            if guid in modules:
                lines.append(f"    INF {modules[guid].path}.inf")
            else:
                lines.append(f"    FILE {types.get(guid, 'FREEFORM')} = {guid}")
        lines.append("  }")
    return lines


def attribute_names(volume: firmware.Volume) -> list[str]:
    """The names of the attributes that a volume has, but for those that other keys state."""
    return [name for name, bit in ATTRIBUTES.items() if volume.attributes & bit]


def common_attributes(platform: Platform) -> list[str]:
    """The attributes of the first volume, which stand in a file of their own for all volumes that have the same."""
    return attribute_names(platform.volumes[0].volume) if platform.volumes else []


def volume_lines(plan: VolumePlan, common: list[str]) -> list[str]:
    """A volume of the FDF."""
    volume = plan.volume
    names = attribute_names(volume)
    pairs = [("BlockSize", f"0x{volume.block_size:X}"), ("NumBlocks", f"0x{volume.blocks:X}"),
             ("FvAlignment", size_word(volume.alignment))]
    if plan.base is not None:
        pairs += [("FvBaseAddress", f"0x{plan.base:X}"), ("FvForceRebase", "TRUE")]
    if volume.system == firmware.FFS3:
        pairs.append(("FileSystemGuid", firmware.FFS3))
    pairs.append(("ERASE_POLARITY", "1" if volume.attributes & 0x800 else "0"))
    if volume.name:
        pairs.append(("FvNameGuid", volume.name))
    pairs += [(name, "TRUE") for name in names] if names != common else []
    lines = ["", f"# {plan.comment}", f"[FV.{plan.name}]"] + keys(pairs)
    lines += [f"!include {ATTRIBUTES_FILE}"] if names == common else []
    lines += apriori_lines(plan) + [""]
    for statement in plan.statements:
        lines += statement_lines(statement)
    return lines


def nest_lines(nest: Nest) -> list[str]:
    """The volume that holds the others as what is compressed does, before it is compressed."""
    lines = ["", "# What is compressed in FVMAIN_COMPACT, before it is: the same file, with the volumes as they are.",
             "[FV.FVMAIN]"] + keys([("BlockSize", "0x1000"), ("FvAlignment", "16")]) + [""]
    lines += [f"  FILE {firmware.FILE_TYPES[nest.file.type]} = {nest.file.name} {{"]
    lines += [f"    SECTION FV_IMAGE = {name}" for name in nest.volumes]
    return lines + ["  }"]


def region_lines(region: Region) -> list[str]:
    """A region of the device, with the PCDs for its place."""
    word = region_word(region)
    comment = REGION_COMMENTS.get(region.volume or region.name, "A region.")
    lines = ["", f"# {comment}", f"0x{region.offset:08X}|0x{region.size:08X}",
             f"{SPACE}.Pcd{word}Base|{SPACE}.Pcd{word}Size"]
    if region.volume:
        lines.append(f"FV = {region.volume}")
    elif len(region.data) > 256:
        lines.append(f"FILE = Ovmf/{region.name}.bin")
    elif region.data:
        names = ", ".join(f"$({name})" for name, _, _ in store_parts(region))
        lines.append(f"DATA = {{ {names} }}")
    return lines


# The fields of what stands in a variable store, by the store's part: name, size and comment of each.
STORE_FIELDS = {
    "Variable": (("VECTOR", 16, "nothing: the zero vector of a volume"),
                 ("FILE_SYSTEM", 16, "gEfiSystemNvDataFvGuid: the volume has variables and no files"),
                 ("LENGTH", 8, "the volume's length"), ("SIGNATURE", 4, "_FVH"), ("ATTRIBUTES", 4, "its attributes"),
                 ("HEAD", 8, "its header's length and checksum, and the revision"),
                 ("BLOCKS", 16, "its blocks: count and size, and the end of the list"),
                 ("STORE", 16, "gEfiAuthenticatedVariableGuid: the store's form"),
                 ("STORE_SIZE", 4, "the store's size"), ("STORE_STATE", 8, "formatted, healthy")),
    "FtwWorking": (("WORKING", 16, "gEdkiiWorkingBlockSignatureGuid"), ("WORKING_HEAD", 8, "checksum and state"),
                   ("WORKING_SIZE", 8, "the size of the queue of writes")),
}


def store_parts(region: Region) -> list[tuple[str, str, bytes]]:
    """The bytes of a region by their fields: macro, comment and bytes of each."""
    parts = []
    at = 0
    for name, size, comment in STORE_FIELDS.get(region.name, ()):
        parts.append((f"NV_{name}", comment, region.data[at:at + size]))
        at += size
    if at < len(region.data):
        parts.append((f"NV_{region.name.upper()}_REST", "the rest", region.data[at:]))
    return [part for part in parts if part[2]]


def fdf_text(platform: Platform) -> str:
    """The flash description: the device, its volumes, and where the rules stand."""
    size = len(platform.image)
    block = 0x1000
    lines = ["# The flash device and the volumes in it.", "[Defines]"]
    lines += [f"  DEFINE FD_BASE   = 0x{platform.base:08X}", f"  DEFINE FD_SIZE   = 0x{size:08X}",
              f"  DEFINE FD_BLOCK  = 0x{block:X}", f"  DEFINE FD_BLOCKS = 0x{size // block:X}"]
    parts = [part for region in platform.regions if len(region.data) <= 256 for part in store_parts(region)]
    lines += ["", "  # The variable store, as it is delivered."] if parts else []
    for name, comment, data in parts:
        lines += [f"  # {comment}", f"  DEFINE {name} = {', '.join(f'0x{byte:02X}' for byte in data)}"]
    lines += ["", f"[FD.{platform.device}]"]
    lines += keys([("BaseAddress", f"$(FD_BASE)|{SPACE}.PcdFdBaseAddress"), ("Size", f"$(FD_SIZE)|{SPACE}.PcdFdSize"),
                   ("ErasePolarity", "1"), ("BlockSize", "$(FD_BLOCK)"), ("NumBlocks", "$(FD_BLOCKS)")])
    for region in platform.regions:
        lines += region_lines(region)
    order = list(FOLDERS)
    for plan in sorted(platform.volumes, key=lambda plan: order.index(plan.name) if plan.name in order else len(order)):
        lines += volume_lines(plan, common_attributes(platform))
    lines += nest_lines(platform.nest) if platform.nest else []
    lines += ["", f"!include {RULES_FILE}"] if platform.rules else []
    return "\n".join(lines) + "\n"


def output_folder(module: Module) -> str:
    """Where the program looks for the files that were linked for a module."""
    return f"{BUILD}/{module.arch}/{module.path}/OUTPUT"


def files_of(platform: Platform) -> dict[str, bytes]:
    """The workspace's files by their paths."""
    texts = {PLATFORM_FILE: dsc_text(platform), FLASH_FILE: fdf_text(platform)}
    if platform.volumes:
        attributes = keys([(name, "TRUE") for name in common_attributes(platform)])
        texts[ATTRIBUTES_FILE] = "\n".join(["# The attributes that the volumes share."] + attributes) + "\n"
    if platform.modules:
        texts[PACKAGE_FILE] = dec_text(platform)
        texts[RULES_FILE] = rules_text(platform)
    for module in platform.modules:
        texts[f"{module.path}.inf"] = inf_text(module, platform)
    files = {path: text.encode() for path, text in texts.items()} | platform.binaries
    for module in platform.modules:
        for extension, data in module.files.items():
            files[f"{output_folder(module)}/{module.name}.{extension}"] = data
    for region in platform.regions:
        if len(region.data) > 256:
            files[f"Ovmf/{region.name}.bin"] = region.data
    return files


def expected_of(platform: Platform) -> dict[str, bytes]:
    """What the build has to give, by the names of its outputs; an expression stands under its INF's path."""
    files = {f"FV/{platform.device}.fd": platform.image}
    for plan in platform.volumes:
        files[f"FV/{plan.name}.Fv"] = plan.volume.data
    if platform.nest:
        files["FVMAIN.body"] = platform.nest.content
    for module in platform.modules:
        if module.expression_bytes:
            path = f"{module.arch}/{module.path}/OUTPUT/{module.name}.depex"
            files[path] = module.expression_bytes
    return {f"{EXPECTED}/{path}": data for path, data in files.items()}


def write(platform: Platform, folder: Path) -> int:
    """Writes the workspace anew, and answers how many files it has."""
    for part in ("Ovmf", "Build", EXPECTED):
        shutil.rmtree(folder / part, ignore_errors=True)
    (folder / ".edk_steps").unlink(missing_ok=True)
    files = files_of(platform) | expected_of(platform)
    for path, data in files.items():
        target = folder / path
        target.parent.mkdir(parents=True, exist_ok=True)
        target.write_bytes(data)
    return len(files)
