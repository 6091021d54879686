"""The built program, as the scripts beside this one run it."""
import json
import os
import pathlib
import subprocess
import tempfile
import time
from typing import NamedTuple

ROOT = pathlib.Path(__file__).resolve().parent.parent
BILLD = ROOT / "crates/billd/out/billd"


class Run(NamedTuple):
    """A run that ended with status 0: how long it took, its peak memory, and what it printed."""

    seconds: float
    kilobytes: int
    printed: bytes


def line(**members) -> bytes:
    """A line of the input."""
    return json.dumps(members).encode() + b"\n"


def made(folder: str, lanes: int = 1) -> None:
    """Makes the lanes of a folder, with the texts of the demo."""
    texts = ["--catalog", ROOT / "demo/catalog.toml", "--overdue", ROOT / "demo/overdue.toml"]
    subprocess.run([BILLD, "init", "--dir", folder, "--lanes", str(lanes), *texts], check=True)


def measured(words: list[str], lines: bytes = b"") -> Run:
    """Runs the program with these words over these lines, which lie in a file, as does what it prints."""
    with tempfile.TemporaryFile() as told, tempfile.TemporaryFile() as printed:
        told.write(lines)
        told.seek(0)
        began = time.monotonic()
        program = subprocess.Popen([BILLD, *words], stdin=told, stdout=printed)
        _pid, status, usage = os.wait4(program.pid, 0)
        seconds = time.monotonic() - began
        program.returncode = os.waitstatus_to_exitcode(status)
        if program.returncode != 0:
            raise SystemExit(f"billd ended with {program.returncode}")
        printed.seek(0)
        return Run(seconds, usage.ru_maxrss, printed.read())
