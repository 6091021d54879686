"""Kills the program at random moments, and looks whether each answered command is in the journal.

    python3 bench/kill.py [COUNT]

Runs `crates/billd/out/billd apply` COUNT times (200) over one folder. Each run is sent commands, one after
another, and is killed by SIGKILL after a random time. The run after it is first sent every command of the run
before again, under its key: one that was answered must get the answer that it got, and the one that wasn't is
answered now. Prints how many runs and answers there were, and fails at the first answer that is lost.
"""
import random
import subprocess
import sys
import tempfile
import threading

from program import BILLD, ROOT, line, made, measured

LONGEST = 0.06
DAY = "2024-03-01"


def charge(key: int) -> bytes:
    """A charge under this key."""
    return line(do="charge", account="a1", key=f"c{key}", amount=1, today=DAY)


def start(folder: str) -> subprocess.Popen:
    return subprocess.Popen([BILLD, "apply", "--dir", folder], stdin=subprocess.PIPE, stdout=subprocess.PIPE)


def ask(program: subprocess.Popen, command: bytes) -> bytes | None:
    """The answer to a command; none once the program is gone."""
    try:
        program.stdin.write(command)
        program.stdin.flush()
    except BrokenPipeError:
        return None
    answer = program.stdout.readline()
    return answer if answer.endswith(b"\n") else None


def one_run(folder: str, before: dict[int, bytes | None], first: int) -> dict[int, bytes | None]:
    """Sends what came before again, then new commands until the program is killed: their keys and answers."""
    program = start(folder)
    for key, answer in before.items():
        again = ask(program, charge(key))
        if again is None or (answer is not None and again != answer):
            sys.exit(f"lost: c{key} was answered {answer!r}, and now {again!r}")
    killer = threading.Timer(random.uniform(0, LONGEST), program.kill)
    killer.start()
    answers: dict[int, bytes | None] = {}
    key = first
    while True:
        answers[key] = ask(program, charge(key))
        if answers[key] is None:
            break
        key += 1
    killer.join()
    program.wait()
    return answers


def main(count: int) -> None:
    with tempfile.TemporaryDirectory(dir=ROOT) as folder:
        made(folder)
        measured(["apply", "--dir", folder],
                 line(do="open", account="a1", key="k1", currency="USD", bcd=1, today=DAY))
        before: dict[int, bytes | None] = {}
        first = answered = 0
        for _ in range(count):
            before = one_run(folder, before, first)
            first += len(before)
            answered += sum(answer is not None for answer in before.values())
        print(f"{count} runs killed, {answered} commands answered before, none lost")


if __name__ == "__main__":
    main(int(sys.argv[1]) if len(sys.argv) > 1 else 200)
