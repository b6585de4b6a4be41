"""Runs the program in a workspace, and tells its status, its steps and how long it took."""

from __future__ import annotations

import os
import re
import resource
import subprocess
import tempfile
import time
from dataclasses import dataclass
from pathlib import Path

HERE = Path(__file__).resolve().parent
REPOSITORY = HERE.parent.parent
SUMMARY = re.compile(rb"(\d+) steps, (\d+) reused")
LONGEST = 600


@dataclass(frozen=True)
class Run:
    """What one run of the program came to."""

    status: int
    steps: int
    reused: int
    seconds: float
    processor: float
    said: bytes


class Program:
    """The program that is tried: the repository's own, or the one that words or GARLICMOOR name."""

    def __init__(self, path: str | None) -> None:
        named = path or os.environ.get("GARLICMOOR")
        self.path = str(Path(named).resolve()) if named else str(REPOSITORY / "garlicmoor")
        self.prepare()

    def prepare(self) -> None:
        """Has the repository's program proved and built where that is wanted, and takes it without its script."""
        with tempfile.TemporaryDirectory() as folder:
            status = subprocess.run([self.path, "selftest", "1"], cwd=folder, check=False,
                                    stdout=subprocess.DEVNULL).returncode
        if status:
            raise SystemExit(f"{self.path} selftest 1 ended with status {status}")
        built = REPOSITORY / "crates/garlicmoor/out/garlicmoor"
        if Path(self.path) == REPOSITORY / "garlicmoor" and built.exists():
            self.path = str(built)

    def run(self, folder: Path, *words: str) -> Run:
        """Runs the program with these words in a folder; a run that takes too long has status -1."""
        before = resource.getrusage(resource.RUSAGE_CHILDREN)
        begin = time.perf_counter()
        try:
            done = subprocess.run([self.path, *words], cwd=folder, check=False, capture_output=True, timeout=LONGEST)
            status, out, said = done.returncode, done.stdout, done.stderr
        except subprocess.TimeoutExpired:
            status, out, said = -1, b"", b"too long"
        seconds = time.perf_counter() - begin
        after = resource.getrusage(resource.RUSAGE_CHILDREN)
        processor = after.ru_utime + after.ru_stime - before.ru_utime - before.ru_stime
        found = SUMMARY.search(out)
        steps, reused = (int(found[1]), int(found[2])) if found else (0, 0)
        return Run(status, steps, reused, seconds, processor, said)

    def build(self, folder: Path, *options: str) -> Run:
        """Builds the platform of a workspace."""
        return self.run(folder, "build", "-p", "Ovmf/Ovmf.dsc", *options)

    def listing(self, image: Path) -> tuple[int, str]:
        """What volinfo says of an image, and its status."""
        with tempfile.TemporaryDirectory() as folder:
            Path(folder, image.name).write_bytes(image.read_bytes())
            done = subprocess.run([self.path, "volinfo", image.name], cwd=folder, check=False, capture_output=True)
        return done.returncode, (done.stdout + done.stderr).decode()
