"""Dependency expressions: from bytes to the terms of a [Depex] section, and the bytes that those terms compile to."""

from __future__ import annotations

import textwrap
import uuid
from dataclasses import dataclass

from firmware import OPCODES, read_depex

CODES = {word: code for code, word in OPCODES.items()}

# The names that EDK II's packages give to the GUIDs which expressions of OVMF hold.
NAMES = {
    "0065d394-9951-4144-82a3-0afc8579c251": "gEfiPeiRscHandlerPpiGuid",
    "01f34d25-4de2-23ad-3ff3-36353ff323f1": "gEfiPeiPcdPpiGuid",
    "03583ff6-cb36-4940-947e-b9b39f4afaf7": "gEfiSmbiosProtocolGuid",
    "0379be4e-d706-437d-b037-edb82fb772a4": "gEfiDevicePathUtilitiesProtocolGuid",
    "0b590774-bc67-49f4-a7db-e82e89e6b5d6": "gEfiPeiMpInitLibUpDepPpiGuid",
    "0fd96974-23aa-4cdc-b9cb-98d17750322a": "gEfiHiiStringProtocolGuid",
    "138f9cf4-f0e7-4721-8f49-f5ffecf42d40": "gEfiPeiMpInitLibMpDepPpiGuid",
    "13a3f0f6-264a-3ef0-f2e0-dec512342f34": "gEfiPcdProtocolGuid",
    "1a1241e6-8f19-41a9-bc0e-e8ef39e06546": "gEfiHiiImageExProtocolGuid",
    "1d202cab-c8ab-4d5c-94f7-3cfcc0d3d335": "gEfiSmmCpuServiceProtocolGuid",
    "1d3e9cb8-43af-490b-830a-3516aa532047": "gEdkiiFaultTolerantWriteGuid",
    "1da97072-bddc-4b30-99f1-72a0b56fff2a": "gEfiMonotonicCounterArchProtocolGuid",
    "1e5668e2-8481-11d4-bcf1-0080c73c8881": "gEfiVariableArchProtocolGuid",
    "26baccb1-6f42-11d4-bce7-0080c73c8881": "gEfiCpuArchProtocolGuid",
    "26baccb2-6f42-11d4-bce7-0080c73c8881": "gEfiMetronomeArchProtocolGuid",
    "26baccb3-6f42-11d4-bce7-0080c73c8881": "gEfiTimerArchProtocolGuid",
    "27cfac87-46cc-11d4-9a38-0090273fc14d": "gEfiRealTimeClockArchProtocolGuid",
    "27cfac88-46cc-11d4-9a38-0090273fc14d": "gEfiResetArchProtocolGuid",
    "3242a9d8-ce70-4aa0-955d-5e7b140de4d2": "gEfiSmmCpuIo2ProtocolGuid",
    "35c84ff2-7bfe-453d-845f-683a492cf7b7": "gOvmfTpmMmioAccessiblePpiGuid",
    "378daedc-f06b-4446-8314-40ab933c87a3": "gEfiMmCommunication2ProtocolGuid",
    "3fdda605-a76e-4f46-ad29-12f4531b3d08": "gEfiMpServiceProtocolGuid",
    "4e939de9-d948-4b0f-88ed-e6e1ce517c1e": "gEdkiiIoMmuProtocolGuid",
    "587e72d7-cc50-4f79-8209-ca291fc1a10f": "gEfiHiiConfigRoutingProtocolGuid",
    "607f766c-7455-42be-930b-e4d76db2720f": "gEfiTcg2ProtocolGuid",
    "6441f818-6362-4e44-b570-7dba31dd2453": "gEfiVariableWriteArchProtocolGuid",
    "665e3ff5-46cc-11d4-9a38-0090273fc14d": "gEfiWatchdogTimerArchProtocolGuid",
    "665e3ff6-46cc-11d4-9a38-0090273fc14d": "gEfiBdsArchProtocolGuid",
    "7408d748-fc8c-4ee6-9288-c4bec092a410": "gEfiPeiMasterBootModePpiGuid",
    "7f4158d3-074d-456d-8cb2-01f9c8f79daa": "gEfiTpmDeviceSelectedGuid",
    "843dc720-ab1e-42cb-9357-8a0078f3561b": "gEfiSmmControl2ProtocolGuid",
    "86212936-0e76-41c8-a03a-2af2fc1c39e2": "gEfiRscHandlerProtocolGuid",
    "8f644fa9-e850-4db1-9ce2-0b44698e8da4": "gEfiFirmwareVolumeBlockProtocolGuid",
    "a46423e3-4617-49f1-b9ff-d1bfa9115839": "gEfiSecurityArchProtocolGuid",
    "a770c357-b693-4e6d-a6cf-d21c728e550b": "gEdkiiFormBrowserEx2ProtocolGuid",
    "a9e7cef1-5682-42cc-b123-9930973f4a9f": "gEfiMpInitLibUpDepProtocolGuid",
    "ad61f191-ae5f-4c0e-b9fa-e869d288c64f": "gEfiCpuIo2ProtocolGuid",
    "b7dfb4e1-052f-449f-87be-9818fc91b733": "gEfiRuntimeArchProtocolGuid",
    "b9d4c360-bcfb-4f9b-9298-53c136982258": "gEfiFormBrowser2ProtocolGuid",
    "b9e0abfe-5979-4914-977f-6dee78c278a6": "gEfiPeiLoadFilePpiGuid",
    "bb00a5ca-08ce-462f-a537-43c74a825ca4": "gEfiMpInitLibMpDepProtocolGuid",
    "bd445d79-b7ad-4f04-9ad8-29bd2040eb3c": "gEfiLockBoxProtocolGuid",
    "c2702b74-800c-4131-8746-8fb5b89ce4ac": "gEfiSmmAccess2ProtocolGuid",
    "d326d041-bd31-4c01-b5a8-628be87f0653": "gEfiSmmFirmwareVolumeBlockProtocolGuid",
    "ef9fc172-a1b2-4693-b327-6d32fc416042": "gEfiHiiDatabaseProtocolGuid",
    "f4ccbfb7-f6e0-47fd-9dd4-10a8f150c191": "gEfiSmmBase2ProtocolGuid",
    "f8775d50-8abd-4adf-92ac-853e51f6c8dc": "gIoMmuAbsentProtocolGuid",
    "f894643d-c449-42d1-8ea8-85bdd8c65bde": "gEfiPeiMemoryDiscoveredPpiGuid",
    "ffe06bdd-6107-46a6-7bb2-5a9c7ec5275c": "gEfiAcpiTableProtocolGuid",
}


def name_of(guid: str) -> str:
    """The name of a GUID in a [Depex] section; one of its digits where EDK II's name isn't known here."""
    return NAMES.get(guid) or "gGuid" + guid.replace("-", "")


@dataclass(frozen=True)
class Term:
    """An expression's tree: a word of OPCODES with its operands, or with the GUID that it names."""

    word: str
    operands: tuple["Term", ...] = ()
    guid: str | None = None


def tree_of(data: bytes) -> Term:
    """The tree that an expression's postfix bytes stand for."""
    stack: list[Term] = []
    front = False
    for word, guid in read_depex(data):
        if word == "SOR":
            front = True
        elif guid is not None:
            stack.append(Term(word, (), guid))
        elif word in ("AND", "OR"):
            right, left = stack.pop(), stack.pop()
            stack.append(Term(word, (left, right)))
        elif word == "NOT":
            stack.append(Term(word, (stack.pop(),)))
        else:
            stack.append(Term(word))
    tree, = stack
    return Term("SOR", (tree,)) if front else tree


def guids_of(tree: Term) -> list[str]:
    """The GUIDs of a tree from left to right, each at its first place."""
    found = [tree.guid] if tree.guid else []
    for operand in tree.operands:
        found += guids_of(operand)
    return list(dict.fromkeys(found))


def is_conjunction(tree: Term) -> bool:
    """Whether the tree has nothing but AND, GUIDs and TRUE."""
    return tree.word in ("PUSH", "TRUE", "AND") and all(map(is_conjunction, tree.operands))


def postfix(tree: Term) -> bytes:
    """The bytes of a tree, END left out."""
    if tree.word == "SOR":
        return bytes([CODES["SOR"]]) + postfix(tree.operands[0])
    code = bytes([CODES[tree.word]])
    if tree.guid:
        return code + uuid.UUID(tree.guid).bytes_le
    return b"".join(map(postfix, tree.operands)) + code


def compiled(tree: Term) -> bytes:
    """The bytes that the program makes of a tree: a conjunction is joined from the left, and loses repeats and TRUE."""
    if is_conjunction(tree):
        pushes = [Term("PUSH", (), guid) for guid in guids_of(tree)]
        tree = pushes[0] if pushes else Term("TRUE")
        for push in pushes[1:]:
            tree = Term("AND", (tree, push))
    return postfix(tree) + bytes([CODES["END"]])


def in_words(tree: Term) -> str:
    """An expression as a [Depex] section writes it.

    Words group from the left, so parentheses stand round a right operand; round a left one they are for the reader,
    where it has the other word.
    """
    if tree.word == "PUSH":
        return name_of(tree.guid or "")
    if tree.word in ("BEFORE", "AFTER"):
        return f"{tree.word} {name_of(tree.guid or '')}"
    if tree.word == "SOR":
        return "SOR " + in_words(tree.operands[0])
    if tree.word == "NOT":
        return "NOT " + in_brackets(tree.operands[0])
    if not tree.operands:
        return tree.word
    left, right = tree.operands
    front = in_brackets(left) if left.word != tree.word else in_words(left)
    return f"{front} {tree.word} {in_brackets(right)}"


def in_brackets(tree: Term) -> str:
    """An operand; one with operands of its own stands in parentheses."""
    return f"({in_words(tree)})" if len(tree.operands) == 2 else in_words(tree)


def depex_lines(tree: Term) -> list[str]:
    """The lines of a [Depex] section: a conjunction has a line for each GUID, another expression is wrapped."""
    if is_conjunction(tree) and guids_of(tree):
        names = [name_of(guid) for guid in guids_of(tree)]
        return [f"{name} AND" for name in names[:-1]] + names[-1:]
    return textwrap.wrap(in_words(tree), 100, break_long_words=False)
