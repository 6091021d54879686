"""Speed and memory of `billd apply`, beside a bare loop of what an append asks of a disk.

    python3 bench/apply.py

Runs the built program on a folder of the disk that this repository is on, and on one in memory (/dev/shm),
and prints: bills a second on disk, beside a loop of two writes and two syncs a command in the same folder;
lines a second in memory; seconds to open a lane of 100,000 commands; and peak memory.
"""
import os
import tempfile
import time

from program import ROOT, Run, line, made, measured

BILLS = 10_000
ACCOUNTS = 1_000
LOADED = 100_000


def run(folder: str, lines: list[bytes]) -> Run:
    return measured(["apply", "--dir", folder], b"".join(lines))


def with_accounts(folder: str) -> None:
    """Makes the folder, with accounts."""
    made(folder)
    run(folder, [line(do="open", account=f"a{n}", key="k", currency="USD", bcd=1, today="2024-03-01")
                 for n in range(ACCOUNTS)])


def bills(count: int, first: int) -> list[bytes]:
    return [line(do="bill", account=f"a{n % ACCOUNTS}", key=f"b{first + n}", today="2024-03-01")
            for n in range(count)]


def bare(folder: str) -> float:
    """Seconds for as many appends of 40 bytes, each of two writes and two syncs."""
    path = os.path.join(folder, "bare")
    file = os.open(path, os.O_RDWR | os.O_CREAT)
    began = time.monotonic()
    for place in range(BILLS):
        os.pwrite(file, bytes(40), place * 40)
        os.fsync(file)
        os.pwrite(file, b"\1", place * 40)
        os.fsync(file)
    seconds = time.monotonic() - began
    os.close(file)
    os.unlink(path)
    return seconds


def main() -> None:
    with tempfile.TemporaryDirectory(dir=ROOT) as folder:
        with_accounts(folder)
        seconds = run(folder, bills(BILLS, 0)).seconds
        alone = bare(folder)
        print(f"on disk: {BILLS / seconds:.0f} bills a second, {BILLS / alone:.0f} bare appends; "
              f"ratio {alone / seconds:.2f}")
    with tempfile.TemporaryDirectory(dir="/dev/shm") as folder:
        with_accounts(folder)
        billed = run(folder, bills(LOADED, 0))
        print(f"in memory: {LOADED / billed.seconds:.0f} lines a second, {billed.kilobytes} kB at most")
        opened = run(folder, [])
        print(f"a lane of {LOADED + ACCOUNTS} commands: opened in {opened.seconds:.2f} s, "
              f"{opened.kilobytes} kB at most")


if __name__ == "__main__":
    main()
