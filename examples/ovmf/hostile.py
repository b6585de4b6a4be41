"""Random edits of a workspace, each built from nothing and from a kept cache.

Statuses 0 and 1 alone may come, and from both sides the same message and the same outputs. The edits depend on the
workspace's files, their number and the seed alone.
"""

from __future__ import annotations

import filecmp
import os
import random
import re
import shutil
import sys
import time
from collections import Counter
from dataclasses import dataclass, field
from pathlib import Path
from typing import Callable

from program import Program, Run
from workspace import EXPECTED, FLASH_FILE, PACKAGE_FILE, PLATFORM_FILE, RULES_FILE

CACHE = ".edk_steps"
TEXTS = (".dsc", ".dec", ".fdf", ".inc", ".inf")
FAULT = re.compile(rb"error (\d+): (\w+)")
WORD = re.compile(rb"[A-Za-z_][A-Za-z0-9_.]*")
NUMBER = re.compile(rb"0x[0-9A-Fa-f]+|\b[0-9]+\b")

# What is put at random into texts: what begins without an end, what has no meaning, and what is too long.
PIECES = (
    b"!if 1\n", b"!else\n", b"!endif\n", b"!if 1 / 0\n!endif\n", b"!include Ovmf/Ovmf.fdf\n", b"!include no.inc\n",
    b"DEFINE A = $(A)\n", b"$(NOT_THERE)\n", b"}\n", b"{\n", b"[\n", b"[Defines]\n", b"[FV.PEIFV]\n", b'"\n', b"|||\n",
    b"INF Ovmf/Sec/SecMain.inf\n", b"FILE RAW = x {\n", b"SECTION GUIDED x {\n", b"APRIORI DXE {\n", b"SET A.B = 1\n",
    b"BlockSize = 0\n", b"NumBlocks = 0xFFFFFFFFFFFFFFFF\n", b"FvAlignment = 3\n", b"FvBaseAddress = 0xFFFFFFFF\n",
    b"0x0|0x10\n", b"TRUE OR (\n", b"# a comment\n", b"A" * 9000 + b"\n", b"\x00", b"\xff\xfe", b"\r", b"(" * 100,
    b"\t \t",
)
NUMBERS = (b"0", b"1", b"0x7", b"0x1000", b"0xFFFF", b"0x100000", b"0xFFFFFFFF", b"0x100000000", b"1 + 1", b"-1",
           b"0xFFFFFFFFFFFFFFFF", b"0x10000000000000000")

Change = Callable[[random.Random, bytes, list[bytes]], bytes]


def place(chance: random.Random, data: bytes) -> int:
    return chance.randrange(len(data) + 1)


def line_removed(chance: random.Random, data: bytes, others: list[bytes]) -> bytes:
    lines = data.splitlines(keepends=True)
    del lines[chance.randrange(len(lines))]
    return b"".join(lines)


def line_repeated(chance: random.Random, data: bytes, others: list[bytes]) -> bytes:
    lines = data.splitlines(keepends=True)
    lines.insert(chance.randrange(len(lines) + 1), chance.choice(lines))
    return b"".join(lines)


def lines_swapped(chance: random.Random, data: bytes, others: list[bytes]) -> bytes:
    lines = data.splitlines(keepends=True)
    left, right = chance.randrange(len(lines)), chance.randrange(len(lines))
    lines[left], lines[right] = lines[right], lines[left]
    return b"".join(lines)


def line_of_another_file(chance: random.Random, data: bytes, others: list[bytes]) -> bytes:
    lines = data.splitlines(keepends=True)
    lines.insert(chance.randrange(len(lines) + 1), chance.choice(chance.choice(others).splitlines(keepends=True)))
    return b"".join(lines)


def word_replaced(chance: random.Random, data: bytes, others: list[bytes]) -> bytes:
    found = list(WORD.finditer(data))
    if not found:
        return data
    old, new = chance.choice(found), chance.choice(found)
    return data[:old.start()] + new[0] + data[old.end():]


def number_replaced(chance: random.Random, data: bytes, others: list[bytes]) -> bytes:
    found = list(NUMBER.finditer(data))
    if not found:
        return data + b"1"
    old = chance.choice(found)
    return data[:old.start()] + chance.choice(NUMBERS) + data[old.end():]


def piece_put_in(chance: random.Random, data: bytes, others: list[bytes]) -> bytes:
    lines = data.splitlines(keepends=True)
    lines.insert(chance.randrange(len(lines) + 1), chance.choice(PIECES))
    return b"".join(lines)


def byte_changed(chance: random.Random, data: bytes, others: list[bytes]) -> bytes:
    at = chance.randrange(len(data))
    return data[:at] + bytes([chance.randrange(256)]) + data[at + 1:]


def byte_put_in(chance: random.Random, data: bytes, others: list[bytes]) -> bytes:
    at = place(chance, data)
    return data[:at] + bytes([chance.randrange(256)]) + data[at:]


def cut(chance: random.Random, data: bytes, others: list[bytes]) -> bytes:
    return data[:place(chance, data)]


def head_changed(chance: random.Random, data: bytes, others: list[bytes]) -> bytes:
    front = byte_changed(chance, data[:0x200], others)
    return front + data[0x200:]


def grown(chance: random.Random, data: bytes, others: list[bytes]) -> bytes:
    return data + chance.randbytes(chance.choice((1, 7, 4096, 1 << 20)))


def other_line_ends(chance: random.Random, data: bytes, others: list[bytes]) -> bytes:
    return data.replace(b"\n", b"\r\n")


def emptied(chance: random.Random, data: bytes, others: list[bytes]) -> bytes:
    return b""


def another_file(chance: random.Random, data: bytes, others: list[bytes]) -> bytes:
    return chance.choice(others)


TEXT_CHANGES: dict[str, Change] = {
    "a line removed": line_removed, "a line repeated": line_repeated, "two lines swapped": lines_swapped,
    "a line of another file": line_of_another_file, "a word replaced": word_replaced,
    "a number replaced": number_replaced, "a piece put in": piece_put_in, "a byte changed": byte_changed,
    "a byte put in": byte_put_in, "cut": cut, "emptied": emptied, "other line ends": other_line_ends,
}
LINKED_CHANGES: dict[str, Change] = {
    "a byte changed": byte_changed, "a byte of its head changed": head_changed, "a byte put in": byte_put_in,
    "cut": cut, "grown": grown, "emptied": emptied, "another module's": another_file,
}


@dataclass(frozen=True)
class HostileEdit:
    """One edit: its kind, and the file's new bytes; none where the file is taken away."""

    kind: str
    path: str
    data: bytes | None


@dataclass
class Row:
    """What came of the edits of one kind."""

    tries: int = 0
    statuses: Counter[int] = field(default_factory=Counter)
    differing: int = 0


class Workspaces:
    """Two copies of a workspace: one keeps its cache, the other never has one."""

    def __init__(self, folder: Path, where: Path) -> None:
        self.files = {str(path.relative_to(folder)): path.read_bytes() for path in sorted(folder.rglob("*"))
                      if path.is_file() and is_input(path.relative_to(folder))}
        self.kept, self.fresh = where / "kept", where / "fresh"
        for copy in (self.kept, self.fresh):
            shutil.rmtree(copy, ignore_errors=True)
            for path, data in self.files.items():
                put(copy / path, data)

    def apply(self, edits: list[HostileEdit]) -> None:
        for copy in (self.kept, self.fresh):
            for edit in edits:
                put(copy / edit.path, edit.data)

    def take_back(self, edits: list[HostileEdit]) -> None:
        self.apply([HostileEdit(edit.kind, edit.path, self.files[edit.path]) for edit in edits])

    def outputs(self, copy: Path) -> set[str]:
        """The files of a copy that are no inputs."""
        found = set()
        for folder, _, names in os.walk(copy):
            front = os.path.relpath(folder, copy)
            found.update(os.path.normpath(os.path.join(front, name)) for name in names)
        return found - self.files.keys() - {CACHE}

    def same_outputs(self) -> bool:
        """Whether both copies have the same outputs, which are then taken away."""
        kept, fresh = self.outputs(self.kept), self.outputs(self.fresh)
        same = kept == fresh and all(filecmp.cmp(self.kept / path, self.fresh / path, False) for path in kept)
        for copy, paths in ((self.kept, kept), (self.fresh, fresh)):
            for path in paths:
                (copy / path).unlink()
        filecmp.clear_cache()
        return same


def is_input(path: Path) -> bool:
    """Whether a file of a workspace is one that a build reads."""
    if path.parts[0] == EXPECTED or path.name == CACHE:
        return False
    return path.parts[0] != "Build" or path.parent.name == "OUTPUT" and path.suffix != ".depex"


def put(path: Path, data: bytes | None) -> None:
    """Makes these bytes the file; without any it is taken away."""
    if data is None:
        path.unlink(missing_ok=True)
        return
    path.parent.mkdir(parents=True, exist_ok=True)
    path.write_bytes(data)


def random_edit(chance: random.Random, files: dict[str, bytes]) -> HostileEdit:
    """An edit of a text in two of three cases, else of a linked file.

    Every other text is one that the whole platform stands on.
    """
    texts = [path for path in files if path.endswith(TEXTS)]
    linked = [path for path in files if not path.endswith(TEXTS)]
    if not linked or chance.randrange(3):
        common = [path for path in (PLATFORM_FILE, FLASH_FILE, FLASH_FILE, PACKAGE_FILE, RULES_FILE) if path in files]
        path, word, changes = chance.choice(common if chance.randrange(2) else texts), "text", TEXT_CHANGES
        others = [files[each] for each in texts]
    else:
        path, word, changes = chance.choice(linked), "linked", LINKED_CHANGES
        others = [files[each] for each in linked]
    if chance.randrange(20) == 0:
        return HostileEdit(f"{word}: taken away", path, None)
    name = chance.choice(list(changes))
    return HostileEdit(f"{word}: {name}", path, changes[name](chance, files[path], others))


def random_edits(chance: random.Random, files: dict[str, bytes]) -> tuple[str, list[HostileEdit]]:
    """One edit, or in one of ten cases two to four of different files; and the kind of them all."""
    if chance.randrange(10):
        edit = random_edit(chance, files)
        return edit.kind, [edit]
    edits = {edit.path: edit for edit in (random_edit(chance, files) for _ in range(chance.randrange(2, 5)))}
    return "several files", list(edits.values())


def agree(kept: Run, fresh: Run) -> bool:
    """Whether two builds of the same files ended alike; each step of the one is run or reused by the other."""
    steps = kept.status == 1 or kept.steps + kept.reused == fresh.steps + fresh.reused
    return kept.status == fresh.status and kept.said == fresh.said and steps


@dataclass
class Tally:
    """What came of all edits so far."""

    rows: dict[str, Row] = field(default_factory=dict)
    faults: Counter[str] = field(default_factory=Counter)
    steps: int = 0
    steps_from_nothing: int = 0

    @property
    def tries(self) -> int:
        return sum(row.tries for row in self.rows.values())

    @property
    def fine(self) -> bool:
        """Whether statuses 0 and 1 alone came, and nothing differed."""
        return all(not row.differing and not row.statuses.keys() - {0, 1} for row in self.rows.values())

    def add(self, kind: str, kept: Run, fresh: Run, same: bool) -> None:
        row = self.rows.setdefault(kind, Row())
        row.tries += 1
        row.statuses.update({kept.status, fresh.status})
        row.differing += not same
        found = FAULT.search(fresh.said)
        if found:
            self.faults[f"{found[1].decode()} {found[2].decode()}"] += 1
        self.steps += kept.steps
        self.steps_from_nothing += fresh.steps


def try_edits(number: int, chance: random.Random, both: Workspaces, program: Program, tally: Tally) -> None:
    """Builds both copies after random edits, and takes these back."""
    kind, edits = random_edits(chance, both.files)
    both.apply(edits)
    kept = program.build(both.kept)
    (both.fresh / CACHE).unlink(missing_ok=True)
    fresh = program.build(both.fresh)
    same = both.same_outputs() and agree(kept, fresh)
    both.take_back(edits)
    tally.add(kind, kept, fresh, same)
    if not same or {kept.status, fresh.status} - {0, 1}:
        tell(number, kind, edits, kept, fresh)


def show_hostile(folder: Path, program: Program, count: int, seed: int, where: Path) -> bool:
    """Builds after each of so many edits, prints the table, and answers whether nothing was out of order.

    An interrupt ends it early, with the table of what was tried by then.
    """
    chance = random.Random(seed)
    both = Workspaces(folder, where)
    tally = Tally()
    begin = time.perf_counter()
    try:
        for number in range(1, count + 1):
            try_edits(number, chance, both, program, tally)
            if number % 100 == 0:
                print(f"{number} edits in {time.perf_counter() - begin:.0f} s", file=sys.stderr, flush=True)
    except KeyboardInterrupt:
        print(f"stopped after {tally.tries} of {count} edits")
    show_table(tally)
    print(f"{tally.tries} edits by seed {seed}: {tally.steps_from_nothing} steps from nothing, "
          f"{tally.steps} from the kept cache, {time.perf_counter() - begin:.0f} s")
    return tally.fine


def tell(number: int, kind: str, edits: list[HostileEdit], kept: Run, fresh: Run) -> None:
    """What came of an edit that shows something wrong."""
    paths = ", ".join(edit.path for edit in edits)
    print(f"edit {number} ({kind}; {paths}):")
    for word, run in (("from nothing", fresh), ("from the kept cache", kept)):
        print(f"  {word}: status {run.status}, {run.steps} steps, {run.reused} reused, {run.said!r}")


def show_table(tally: Tally) -> None:
    """A row for each kind of edit, their sum, and the faults that came."""
    print("| Edit | Tries | Status 0 | Status 1 | Another status | Kept differs from nothing |")
    print("|---|---|---|---|---|---|")
    whole = Row()
    for kind, row in sorted(tally.rows.items()):
        show_row(kind, row)
        whole.tries += row.tries
        whole.statuses += row.statuses
        whole.differing += row.differing
    show_row("all", whole)
    print("faults: " + ", ".join(f"{name} ({count})" for name, count in sorted(tally.faults.items())))


def show_row(kind: str, row: Row) -> None:
    others = sum(count for status, count in row.statuses.items() if status not in (0, 1))
    print(f"| {kind} | {row.tries} | {row.statuses[0]} | {row.statuses[1]} | {others} | {row.differing} |")
