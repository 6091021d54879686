"""Runs the program against payment gateways that misbehave, as real processes on a port of this machine.

    python3 bench/gateways.py [--slow]

Each gateway is asked for one payment by `crates/billd/out/billd apply` and fails it in its own way. The run
has to end with status 0 and leave the payment open. A second run, in which the gateway answers look-ups, has
to settle it; and over both runs the order is asked for once. --slow adds a gateway that is silent for over
30 seconds.
"""
import json
import multiprocessing
import socket
import sys
import tempfile
import time

from program import line, made, measured

DAY = "2024-03-01"

# what a gateway does once it has read an order, and whether the payment is then open
MISDEEDS = {
    "dies before it answers": (lambda peer: None, True),
    "dies in the middle of its answer": (lambda peer: peer.sendall(b"PROCES"), True),
    "answers garbage": (lambda peer: peer.sendall(b"\x00\xff over and over " * 9 + b"\n"), True),
    "answers a word that is none of the six": (lambda peer: peer.sendall(b"YES\n"), True),
    "answers a second late": (lambda peer: (time.sleep(1), peer.sendall(b"PROCESSED\n")), False),
}
SLOW = {"is silent for 35 seconds": (lambda peer: time.sleep(35), True)}


def serve(door: socket.socket, asked, misdeed) -> None:
    """A gateway: notes each line that it reads, and answers an order by the misdeed, a look-up truly."""
    while True:
        peer, _address = door.accept()
        with peer, peer.makefile("rb") as lines:
            for order in lines:
                asked.append(order.decode())
                if order.startswith(b"LOOK "):
                    peer.sendall(b"PROCESSED\n")
                    continue
                misdeed(peer)
                break


def run(folder: str, port: int, lines: list[bytes]) -> list[dict]:
    """The answers to these lines."""
    words = ["apply", "--dir", folder, "--gateway", f"127.0.0.1:{port}"]
    return [json.loads(answer) for answer in measured(words, b"".join(lines)).printed.splitlines()]


def unpaid(answers: list[dict]) -> int:
    return answers[-1]["unpaid"]


def hold(name: str, misdeed, stays_open: bool) -> None:
    """Two runs of one payment over this gateway."""
    account = line(do="account", account="a1")
    first = [
        line(do="open", account="a1", key="k1", currency="USD", bcd=1, today=DAY),
        line(do="charge", account="a1", key="k2", amount=700, today=DAY),
        line(do="pay", account="a1", key="k3", payment="p1", invoice=1, today=DAY),
        line(do="charge", account="a1", key="k4", amount=5, today=DAY),
        account,
    ]
    again = [*first[:4], line(do="janitor", today=DAY), account]
    with tempfile.TemporaryDirectory() as folder, multiprocessing.Manager() as manager:
        made(folder)
        asked = manager.list()
        with socket.create_server(("127.0.0.1", 0)) as door:
            gateway = multiprocessing.Process(target=serve, args=(door, asked, misdeed), daemon=True)
            gateway.start()
            port = door.getsockname()[1]
            left = unpaid(run(folder, port, first))
            settled = unpaid(run(folder, port, again))
            gateway.kill()
        orders = sum(order.startswith("ASK ") for order in asked)
        looks = sum(order.startswith("LOOK ") for order in asked)
    found = (left, settled, orders, looks)
    wanted = (705, 5, 1, 1) if stays_open else (5, 5, 1, 0)
    if found != wanted:
        sys.exit(f"a gateway that {name}: unpaid, unpaid after, orders, look-ups: {found}, not {wanted}")
    print(f"a gateway that {name}: unpaid {left}, then {settled}; {orders} order, {looks} look-ups")


def main() -> None:
    for name, (misdeed, stays_open) in {**MISDEEDS, **(SLOW if "--slow" in sys.argv[1:] else {})}.items():
        hold(name, misdeed, stays_open)


if __name__ == "__main__":
    main()
