"""A payment gateway for trying billd: it accepts every order, and listens on a port of this machine.

    python3 demo/gateway.py PORT_FILE

writes the port into that file once it listens. It ends by itself if nobody asks it for ten minutes.
"""
import pathlib
import socket
import sys
import threading

IDLE_SECONDS = 600


def serve(connection: socket.socket) -> None:
    """Answers each line of a connection: an order, or the look-up of one."""
    with connection, connection.makefile("rb") as lines:
        for _line in lines:
            connection.sendall(b"PROCESSED\n")


def main(port_file: str) -> None:
    with socket.create_server(("127.0.0.1", 0)) as door:
        door.settimeout(IDLE_SECONDS)
        pathlib.Path(port_file).write_text(f"{door.getsockname()[1]}\n")
        while True:
            try:
                connection, _peer = door.accept()
            except TimeoutError:
                return
            connection.settimeout(None)
            threading.Thread(target=serve, args=(connection,), daemon=True).start()


if __name__ == "__main__":
    main(sys.argv[1])
