"""Tries a program that speaks HTTP, with curl, the client of Python's library, and bytes as they are.

    python3 bench/peers.py PROGRAM PORT

PROGRAM is the one that bench/peers.sh builds, and PORT where it is to listen, or 0 for a port that is free.
The cases are tried in turn. All that a case's peer reads has to be the answer that is wanted, to the byte,
and the program has to tell of the case's connections what is wanted too. A line is printed for each case; the
first difference is the last line.
"""
import functools
import http.client
import shutil
import socket
import subprocess
import sys
import threading
import time
from typing import Callable, NamedTuple

HOST = "127.0.0.1"

# How long a call may wait, and how long all may take, in seconds.
PATIENCE = 60
ALL = 300

PHRASES = {
    200: "OK",
    400: "Bad Request",
    404: "Not Found",
    405: "Method Not Allowed",
    411: "Length Required",
    413: "Payload Too Large",
    431: "Request Header Fields Too Large",
}


class Case(NamedTuple):
    """What is tried. A connection ends by its peer, closed or cut, or by the program: left, or refused."""

    what: str
    attempt: Callable[[int], bytes]
    answer: bytes
    ends: tuple[str, ...]


# What is wanted.


def response(status: int, body: str, close: bool, allow: str = "") -> bytes:
    lines = [f"HTTP/1.1 {status} {PHRASES[status]}", "Content-Type: application/json"]
    lines += [f"Content-Length: {len(body)}"]
    lines += [f"Allow: {allow}"] if allow else []
    lines += ["Connection: close"] if close else []
    return "\r\n".join([*lines, "", body]).encode()


def told(method: str, place: str, length: int = 0, close: bool = False) -> bytes:
    """The answer to a request to a place that is known."""
    return response(200, f'{{"method":"{method}","place":"{place}","length":{length}}}', close)


def refused(status: int, close: bool = True, allow: str = "") -> bytes:
    return response(status, f'{{"status":"http","code":{status}}}', close, allow)


def head_of(answer: bytes) -> bytes:
    return answer[: answer.index(b"\r\n\r\n") + 4]


ACCOUNT = told("GET", "account a1")
MISSING = refused(404, close=False)


# Bytes as they are.


def read_all(peer: socket.socket) -> bytes:
    read = b""
    while part := peer.recv(65_536):
        read += part
    return read


def read_exactly(peer: socket.socket, count: int) -> bytes:
    read = b""
    while len(read) < count and (part := peer.recv(count - len(read))):
        read += part
    return read


def connect(port: int) -> socket.socket:
    peer = socket.create_connection((HOST, port), timeout=PATIENCE)
    peer.setsockopt(socket.IPPROTO_TCP, socket.TCP_NODELAY, 1)
    return peer


def send(parts: list[bytes], pause: float, port: int) -> bytes:
    """Sends the parts, each by a write of its own, and no more, and reads all that comes."""
    with connect(port) as peer:
        for part in parts:
            peer.sendall(part)
            time.sleep(pause)
        peer.shutdown(socket.SHUT_WR)
        return read_all(peer)


def send_in_two(request: bytes, answer: bytes, port: int) -> bytes:
    """Sends a request once for each place where it can be cut in two."""
    with connect(port) as peer:
        read = b""
        for place in range(1, len(request)):
            peer.sendall(request[:place])
            time.sleep(0.003)
            peer.sendall(request[place:])
            read += read_exactly(peer, len(answer))
        return read


def send_hundreds(request: bytes, answer: bytes, count: int, port: int) -> bytes:
    """Sends a request so many hundred times, each hundred by one write, and gives the last hundred answers.

    If others aren't the answer that is wanted, it gives them in their place.
    """
    with connect(port) as peer:
        for _ in range(count - 1):
            peer.sendall(request * 100)
            if (read := read_exactly(peer, len(answer) * 100)) != answer * 100:
                return read
        peer.sendall(request * 100)
        return read_all(peer)


def ask(line: str, *fields: str, body: bytes = b"", end: str = "\r\n") -> bytes:
    return end.join([f"{line} HTTP/1.1", *fields, "", ""]).encode() + body


def raw_cases() -> list[Case]:
    account = "GET /accounts/a1"
    get = ask(account, "Host: billing.example")
    post = ask("POST /commands", "Content-Length: 5", body=b"hello")
    posted = told("POST", "commands", 5)
    closing = told("GET", "account a1", close=True)
    long_head = ask(account, "a: " + "x" * (16_384 - len(ask(account, "a: "))))
    both = ACCOUNT + posted
    single = [bytes([byte]) for byte in get + post]
    cuts = len(post) - 1
    in_two = functools.partial(send_in_two, post, posted)
    hundreds = functools.partial(send_hundreds, get, ACCOUNT, 100)

    def case(what: str, parts: list[bytes], answer: bytes, end: str, pause: float = 0) -> Case:
        return Case(what, functools.partial(send, parts, pause), answer, (end,))

    def refusal(what: str, request: bytes, status: int) -> Case:
        return case(f"{what}: {status}", [request], refused(status), "0 answered, refused")

    def unknown(what: str, path: str) -> Case:
        return case(f"{what}: 404", [ask(f"GET {path}")], MISSING, "1 answered, closed")

    return [
        case("no byte", [b""], b"", "0 answered, closed"),
        case("two requests in one write", [get + post], both, "2 answered, closed"),
        case("two requests, each byte by a write of its own", single, both, "2 answered, closed", 0.002),
        Case("a request cut in two, at each place", in_two, posted * cuts, (f"{cuts} answered, closed",)),
        case("LF alone as line ends", [ask(account, "a: b", end="\n") * 2], ACCOUNT * 2,
             "2 answered, closed"),
        case("empty lines before a request", [b"\r\n\n" + get], ACCOUNT, "1 answered, closed"),
        case("a GET with a body, of length 05", [ask(account, "content-length: 05", body=b"hello") + get],
             told("GET", "account a1", 5) + ACCOUNT, "2 answered, closed"),
        case("close among other words", [ask(account, "Connection: keep-alive, CLOSE")], closing,
             "1 answered, left"),
        unknown("a path with an empty segment", "/accounts//a1"),
        unknown("a path with a slash behind", "/accounts/a1/"),
        unknown("a target with a host", "http://billing.example/accounts/a1"),
        unknown("invoice 01", "/accounts/a1/invoices/01"),
        unknown("an invoice above 4294967295", "/accounts/a1/invoices/4294967296"),
        case("a head of 16,384 bytes", [long_head], ACCOUNT, "1 answered, closed"),
        refusal("a head of 16,385 bytes", long_head.replace(b"a: ", b"a: x"), 431),
        case("64 fields", [ask(account, *["a: b"] * 64)], ACCOUNT, "1 answered, closed"),
        refusal("65 fields", ask(account, *["a: b"] * 65), 431),
        refusal("a POST without a length", ask("POST /commands", "Host: billing.example"), 411),
        refusal("Transfer-Encoding beside a length",
                ask("POST /commands", "Transfer-Encoding: chunked", "Content-Length: 5", body=b"hello"), 411),
        refusal("Content-Length: +5", ask("POST /commands", "Content-Length: +5", body=b"hello"), 400),
        refusal("two lengths", ask("POST /commands", *["Content-Length: 5"] * 2, body=b"hello"), 400),
        refusal("a list of lengths", ask("POST /commands", "Content-Length: 5, 5", body=b"hello"), 400),
        refusal("a space before a colon", ask("POST /commands", "Content-Length : 5", body=b"hello"), 400),
        refusal("a field that goes on in a second line", ask(account, "a: b", " c"), 400),
        refusal("a length of many digits", ask("POST /commands", "Content-Length: " + "9" * 40), 413),
        refusal("the hello of TLS", bytes.fromhex("16030100c8010000c40303"), 400),
        refusal("the preface of HTTP/2", b"PRI * HTTP/2.0\r\n\r\nSM\r\n\r\n", 400),
        case("closed within a head", [get + get[:30]], ACCOUNT, "1 answered, cut"),
        case("closed within a body", [get + post[:-1]], ACCOUNT, "1 answered, cut"),
        Case("10,000 requests, behind which it closes", hundreds, ACCOUNT * 99 + closing,
             ("10000 answered, left",)),
    ]


# The client of Python's library.


def by_client(requests: list[tuple], port: int) -> bytes:
    """Makes the requests, each a method, a target, and perhaps a body and fields.

    The client connects anew where the last answer has closed the connection.
    """
    client = http.client.HTTPConnection(HOST, port, timeout=PATIENCE)
    try:
        return b"".join(answer_to(client, *request) for request in requests)
    finally:
        client.close()


def answer_to(client: http.client.HTTPConnection, method: str, path: str, body=None, fields=None) -> bytes:
    client.request(method, path, body, fields or {})
    answer = client.getresponse()
    lines = [f"HTTP/1.1 {answer.status} {answer.reason}"]
    lines += [f"{name}: {value}" for name, value in answer.getheaders()]
    return "\r\n".join([*lines, "", ""]).encode() + answer.read()


def client_cases() -> list[Case]:
    def case(what: str, requests: list[tuple], answer: bytes, *ends: str) -> Case:
        return Case(f"http.client: {what}", functools.partial(by_client, requests), answer, ends)

    get = ("GET", "/accounts/a1")
    chunks = iter([b"hello"] * 100)
    not_allowed = refused(405, allow="GET")
    return [
        case("three requests over a connection", [get, ("POST", "/commands", b"hello"), ("GET", "/nowhere")],
             ACCOUNT + told("POST", "commands", 5) + MISSING, "3 answered, closed"),
        case("a body of 65,536 bytes", [("POST", "/commands", b"x" * 65_536)],
             told("POST", "commands", 65_536), "1 answered, closed"),
        case("a body of 65,537 bytes: 413", [("POST", "/commands", b"x" * 65_537)],
             refused(413), "0 answered, refused"),
        case("a body of 1,000,000 bytes: 413", [("POST", "/commands", b"x" * 1_000_000)],
             refused(413), "0 answered, refused"),
        case("a body in chunks: 411", [("POST", "/commands", chunks)], refused(411), "0 answered, refused"),
        case("a field of 17,000 bytes: 431", [(*get, None, {"a": "x" * 17_000})], refused(431),
             "0 answered, refused"),
        case("HEAD, and a GET over a new connection", [("HEAD", "/accounts/a1"), get],
             head_of(not_allowed) + ACCOUNT, "1 answered, left", "1 answered, closed"),
        case("DELETE, and a GET over a new connection", [("DELETE", "/accounts/a1"), get],
             not_allowed + ACCOUNT, "1 answered, left", "1 answered, closed"),
    ]


# curl.


def by_curl(words: list[str], paths: list[str], body: bytes, port: int) -> bytes:
    targets = [f"http://{HOST}:{port}{path}" for path in paths]
    call = ["curl", "-q", "-s", "-S", "-i", "--noproxy", "*", "--max-time", str(PATIENCE), *words, *targets]
    done = subprocess.run(call, input=body, capture_output=True)
    if done.returncode != 0:
        raise OSError(f"curl has status {done.returncode}: {done.stderr.decode(errors='replace').strip()}")
    return done.stdout


def curl_cases() -> list[Case]:
    def case(what: str, words: list[str], paths: list[str], answer: bytes, *ends: str, body=b"") -> Case:
        return Case(f"curl: {what}", functools.partial(by_curl, words, paths, body), answer, ends)

    account = "/accounts/a1"
    data = ["-H", "Expect:", "--data-binary", "@-"]
    awaiting = ["-H", "Expect: 100-continue", "--data-binary", "@-"]
    counted = ["-w", "%{num_connects}"]
    last = told("GET", "account a1", close=True)
    return [
        case("GET of an account", [], [account], ACCOUNT, "1 answered, closed"),
        case("GET of an invoice, a payment and a subscription", [],
             [f"{account}/invoices/7?x=1", f"{account}/payments/p-1", f"{account}/subscriptions/s.1"],
             told("GET", "invoice 7 of a1") + told("GET", "payment p-1 of a1")
             + told("GET", "subscription s.1 of a1"), "3 answered, closed"),
        case("POST of a command", data, ["/commands"], told("POST", "commands", 5), "1 answered, closed",
             body=b"hello"),
        case("POST to the janitor", ["-d", ""], ["/janitor"], told("POST", "janitor"), "1 answered, closed"),
        case("an unknown place: 404", [], ["/nowhere"], MISSING, "1 answered, closed"),
        case("GET of the commands: 405", [], ["/commands"], refused(405, allow="POST"), "1 answered, left"),
        case("PUT of an account: 405", ["-X", "PUT", *data], [account], refused(405, allow="GET"),
             "1 answered, left", body=b"hello"),
        case("HEAD: 405", ["-I"], [account], head_of(refused(405, allow="GET")), "1 answered, left"),
        case("two requests over a connection", counted, [account, account], ACCOUNT + b"1" + ACCOUNT + b"0",
             "2 answered, closed"),
        case("Connection: close, twice", [*counted, "-H", "Connection: close"], [account, account],
             (last + b"1") * 2, "1 answered, left", "1 answered, left"),
        case("HTTP/1.0", ["-0"], [account], last, "1 answered, left"),
        case("a body of 65,536 bytes", data, ["/commands"], told("POST", "commands", 65_536),
             "1 answered, closed", body=b"x" * 65_536),
        case("a body of 65,537 bytes: 413", data, ["/commands"], refused(413), "0 answered, refused",
             body=b"x" * 65_537),
        case("a body of 1,000,000 bytes: 413", data, ["/commands"], refused(413), "0 answered, refused",
             body=b"x" * 1_000_000),
        case("a body for which 100 is awaited in vain", awaiting, ["/commands"], told("POST", "commands", 5),
             "1 answered, closed", body=b"hello"),
        case("a body that waits for 100: 413", awaiting, ["/commands"], refused(413), "0 answered, refused",
             body=b"x" * 65_537),
        case("a body in chunks: 411", ["-H", "Transfer-Encoding: chunked", *data], ["/commands"],
             refused(411), "0 answered, refused", body=b"hello"),
    ]


def try_case(case: Case, port: int, program: subprocess.Popen) -> str:
    """How the case differs from what is wanted; an empty text if it doesn't."""
    try:
        answer = case.attempt(port)
    except (OSError, http.client.HTTPException) as error:
        return f"{type(error).__name__}: {error}"
    if answer != case.answer:
        return f"the peer has read {answer[-400:]!r} and not {case.answer[-400:]!r}"
    ends = tuple(program.stdout.readline().strip() for _ in case.ends)
    return "" if ends == case.ends else f"the program tells {ends} and not {case.ends}"


def try_all(cases: list[Case], program: subprocess.Popen) -> str:
    line = program.stdout.readline()
    if not line.startswith("port "):
        return "the program doesn't listen"
    port = int(line.removeprefix("port "))
    for case in cases:
        if different := try_case(case, port, program):
            return f"{case.what}: {different}"
        print(f"{case.what}: as wanted", flush=True)
    status = program.wait(PATIENCE)
    return f"the program has ended with status {status}" if status else ""


def main(path: str, port: str) -> None:
    cases = raw_cases() + client_cases()
    if shutil.which("curl"):
        cases += curl_cases()
    else:
        print("curl isn't there: what is tried with it is left out")
    count = sum(len(case.ends) for case in cases)
    with subprocess.Popen([path, str(count), port], stdout=subprocess.PIPE, text=True) as program:
        watch = threading.Timer(ALL, program.kill)
        watch.start()
        try:
            different = try_all(cases, program)
        finally:
            watch.cancel()
            program.kill()
    if different:
        sys.exit(f"bench/peers.py: {different}")
    print(f"{len(cases)} cases, {count} connections: all as wanted")


if __name__ == "__main__":
    main(sys.argv[1], sys.argv[2])
