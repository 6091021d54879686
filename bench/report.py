"""Speed and memory of `billd report`.

    python3 bench/report.py

Makes a folder of two lanes in memory (/dev/shm) with the built program, and bills 1,000 accounts for twelve
months on it. Then it prints how long each report takes (aim for `balances`: 0.35 s), the loading of the lanes
included, and peak memory.
"""
import tempfile

from program import Run, line, made, measured

ACCOUNTS = 1_000
MONTHS = 12
RUNS = 5


def lines() -> bytes:
    """Each account is opened and begins a subscription in January, and is billed each month."""
    told = []
    for number in range(ACCOUNTS):
        account = f"a{number}"
        told.append(line(do="open", account=account, key="open", currency="USD", bcd=number % 28 + 1,
                         today="2024-01-01"))
        told.append(line(do="create", account=account, key="create", bundle="b1", subscription="s1",
                         product="Basic", period="MONTHLY", day="2024-01-01", today="2024-01-01"))
    for month in range(MONTHS):
        day = f"{2024 + (month + 1) // 12}-{(month + 1) % 12 + 1:02}-01"
        told += [line(do="bill", account=f"a{number}", key=f"bill{month}", day=day, today=day)
                 for number in range(ACCOUNTS)]
    return b"".join(told)


def report(folder: str, kind: str) -> Run:
    return measured(["report", "--dir", folder, "--kind", kind, "--day", "2024-12-31"])


def main() -> None:
    with tempfile.TemporaryDirectory(dir="/dev/shm") as folder:
        made(folder, lanes=2)
        measured(["apply", "--dir", folder], lines())
        for kind in ("balances", "arrears", "states"):
            run = min(report(folder, kind) for _ in range(RUNS))
            printed = run.printed.count(b"\n")
            print(f"{kind}: {printed} lines in {run.seconds:.2f} s, {run.kilobytes} kB at most "
                  f"(the best of {RUNS} runs)")


if __name__ == "__main__":
    main()
