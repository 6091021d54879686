"""Speed and memory of `billd make`.

    python3 bench/make.py

Runs the built program, which works on one processor, and prints how many accepted commands a second it makes
(aim 200,000), starting and ending included, and peak memory.
"""
from program import measured

WORDS = "make --seed 7 --accounts 200 --months 24".split()
RUNS = 5


def main() -> None:
    run = min(measured(WORDS) for _ in range(RUNS))
    summary = run.printed.decode()
    commands = int(summary.split()[summary.split().index("commands") + 1])
    print(summary, end="")
    print(f"{commands / run.seconds:.0f} commands a second, {run.kilobytes} kB at most "
          f"(the best of {RUNS} runs)")


if __name__ == "__main__":
    main()
