"""Plays the worked examples of this folder against billd, and tells what came otherwise than they say.

    python3 tests/run.py [--program FILE | --unproved] [SUBJECT | FILE ..]

Without a subject or a file all examples are played. The program is crates/billd/out/billd, or FILE; with
--unproved it is the one that is written, compiled once by `rt try` and not proved. README.md tells the form
of the examples.
"""
import argparse
import concurrent.futures
import contextlib
import dataclasses
import itertools
import os
import pathlib
import re
import shlex
import socket
import subprocess
import sys
import tempfile
import threading
from collections.abc import Iterable, Iterator

HERE = pathlib.Path(__file__).resolve().parent
ROOT = HERE.parent
TEXTS = HERE / "texts"
BILLD = ROOT / "crates/billd"

SECONDS_OF_A_RUN = 60
MARKS = "><$|=#"
GATEWAY_WORDS = {"PROCESSED", "PENDING", "ERROR", "CANCELED", "UNDEFINED", "NOTSEEN", "FAIL"}
# the tables of changed texts, each with the text that it changes and the option of init that names it
TABLES = {"catalog.tsv": ("shop", "--catalog"), "overdue.tsv": ("shop-overdue", "--overdue")}
WHOLE_TEXT = "*"
ACCEPTED = "accepted"


class Unplayable(Exception):
    """An example that can't be read, or nothing to play it by: a sentence for who called."""


@dataclasses.dataclass
class Run:
    """A run of the program: what goes in, what it prints, and its status."""

    line: int
    # none: apply, over the lines that go in
    words: list[str] | None
    input: bytes = b""
    # what is printed, with the line of the file that says so
    wanted: list[tuple[int, str]] = dataclasses.field(default_factory=list)
    status: int = 0
    last_line: int = 0
    has_ended: bool = False

    def goes_on(self, lines: bool) -> bool:
        """Whether more of it may follow: of a run over lines, or of one by words."""
        return not self.has_ended and (self.words is None) == lines


@dataclasses.dataclass
class Example:
    """Runs on a new folder, for each number of lanes anew."""

    path: pathlib.Path
    line: int = 1
    catalog: str = "shop"
    overdue: str = "shop-overdue"
    gateway: list[str] | None = None
    gateway_line: int = 0
    lanes: list[int] = dataclasses.field(default_factory=lambda: [1, 3])
    is_bare: bool = False
    # files that lie in the folder from the first on
    files: dict[str, bytes] = dataclasses.field(default_factory=dict)
    runs: list[Run] = dataclasses.field(default_factory=list)


@dataclasses.dataclass
class Outcome:
    """How a run ended, and what it printed. The status of one that came to no end is -1."""

    status: int
    printed: bytes


# What examples say.


def place(path: pathlib.Path, line: int) -> str:
    """A line of a file, as reports name it."""
    with contextlib.suppress(ValueError):
        path = path.resolve().relative_to(ROOT)
    return f"{path}:{line}"


def text_of(path: pathlib.Path) -> str:
    """The text of a file."""
    try:
        return path.read_bytes().decode()
    except OSError as error:
        raise Unplayable(f"{path} can't be read: {error.strerror}") from error
    except UnicodeDecodeError as error:
        raise Unplayable(f"{path} isn't UTF-8") from error


def spelled(text: str) -> bytes:
    """The bytes of a line or a cell: `{3 * ab}` stands for ababab, and `{byte FF}` for a byte."""

    def bytes_of(piece: re.Match) -> bytes:
        if piece["byte"]:
            return bytes.fromhex(piece["byte"].decode())
        return piece["text"] * int(piece["times"])

    pieces = rb"\{(?P<times>\d+) \* (?P<text>[^}]+|\})\}|\{byte (?P<byte>[0-9A-F]{2})\}"
    return re.sub(pieces, bytes_of, text.encode())


class Reader:
    """Reads a transcript line by line."""

    def __init__(self, path: pathlib.Path) -> None:
        self.path = path
        self.line = 1
        self.example = Example(path)
        self.has_begun = False

    def read(self) -> Example:
        """The runs of the transcript, with its settings."""
        lines = text_of(self.path).split("\n")
        if not lines[0].strip() or is_marked(lines[0]):
            raise self.refused("the first line is no title")
        for self.line, line in enumerate(lines[1:], 2):
            self.take(line)
        if not self.example.runs:
            raise self.refused("there is nothing to play")
        return self.example

    def refused(self, why: str) -> Unplayable:
        return Unplayable(f"{place(self.path, self.line)}: {why}")

    def take(self, line: str) -> None:
        """Takes a line. Prose and settings stand above the first marked one."""
        self.has_begun = self.has_begun or is_marked(line)
        if not line.strip():
            return
        if not self.has_begun:
            self.take_setting(line)
        elif is_marked(line):
            self.take_marked(line[0], line[2:])
        else:
            raise self.refused(f"the line has none of the marks {' '.join(MARKS)}")

    def take_setting(self, line: str) -> None:
        """Takes a setting. Another line is prose."""
        name, _colon, value = line.partition(": ")
        words = value.split()
        if line == "bare":
            self.example.is_bare = True
        elif name in ("catalog", "overdue"):
            setattr(self.example, name, self.text_named(value))
        elif name.rstrip(":") == "gateway":
            if not set(words) <= GATEWAY_WORDS:
                raise self.refused("a gateway doesn't say that")
            self.example.gateway, self.example.gateway_line = words, self.line
        elif name == "lanes":
            if not words or not all(word.isdecimal() for word in words):
                raise self.refused("lanes are numbers")
            self.example.lanes = [int(word) for word in words]

    def text_named(self, name: str) -> str:
        if not (TEXTS / f"{name}.toml").is_file():
            raise self.refused(f"there is no text {name}")
        return name

    def take_marked(self, mark: str, text: str) -> None:
        """Takes a line with a mark. A comment says nothing to the program."""
        if mark == "$":
            self.begin(self.words(text))
        elif mark == ">":
            self.send(text)
        elif mark == "<":
            self.want(text, lines=True)
        elif mark == "|":
            self.want(text, lines=False)
        elif mark == "=":
            self.end(text)

    def words(self, text: str) -> list[str]:
        """The words of a run, cut as a shell cuts them. A report is one of the folder that was made."""
        try:
            words = shlex.split(text)
        except ValueError as error:
            raise self.refused("a quote isn't closed") from error
        has_folder = self.example.is_bare or any(word.startswith("--dir") for word in words)
        return words if words[:1] != ["report"] or has_folder else [*words, "--dir", "{dir}"]

    def begin(self, words: list[str] | None) -> Run:
        self.example.runs.append(Run(self.line, words, last_line=self.line))
        return self.example.runs[-1]

    def current(self) -> Run | None:
        return self.example.runs[-1] if self.example.runs else None

    def send(self, text: str) -> None:
        """A line that goes in: into the run that goes on, or into a new one."""
        run = self.current()
        if run is None or not run.goes_on(lines=True):
            run = self.begin(None)
        line = text.removesuffix("{no line feed}")
        run.input += spelled(line) + (b"\n" if line == text else b"")
        run.last_line = self.line

    def want(self, text: str, lines: bool) -> None:
        """A line that is printed."""
        run = self.current()
        if run is None or not run.goes_on(lines):
            raise self.refused("no run stands above that prints this")
        run.wanted.append((self.line, text))
        run.last_line = self.line

    def end(self, text: str) -> None:
        """The status of a run, which ends it."""
        run = self.current()
        if run is None or run.has_ended or not text.isdecimal():
            raise self.refused("no run stands above that ends with this")
        run.status, run.last_line, run.has_ended = int(text), self.line, True


def is_marked(line: str) -> bool:
    """Whether a line says what goes in or comes out, or is a comment."""
    return line[:1] != "" and line[0] in MARKS and line[1:2] in ("", " ")


def changed(text: str, old: str, new: bytes) -> bytes:
    """A text with a piece in another's place: the whole text, `FROM .. TO` up to TO, or a piece."""
    if old == WHOLE_TEXT:
        return new
    first, dots, last = old.partition(" .. ")
    if text.count(first) != 1:
        raise ValueError(f"{first} stands {text.count(first)} times in the text")
    before, behind = text.split(first)
    if dots and last not in behind:
        raise ValueError(f"{last} doesn't stand behind {first}")
    return before.encode() + new + behind[behind.index(last) if dots else 0 :].encode()


def row_of(path: pathlib.Path, line: int, row: str) -> Example:
    """A changed text that is given to init, and what init says of it."""
    cells = row.split("\t")
    if len(cells) != 4:
        raise Unplayable(f"{place(path, line)}: the row has {len(cells)} cells and not 4")
    old, new = (cell.replace("\\n", "\n").replace("\\t", "\t") for cell in cells[1:3])
    name, option = TABLES[path.name]
    try:
        text = changed(text_of(TEXTS / f"{name}.toml"), old, spelled(new))
    except ValueError as error:
        raise Unplayable(f"{place(path, line)}: {error}") from error
    words = init_words("shop", "none")
    words[words.index(option) + 1] = "{dir}/changed.toml"
    run = Run(line, words, last_line=line)
    if cells[3] != ACCEPTED:
        run.wanted, run.status = [(line, cells[3])], 8
    return Example(path, line, lanes=[1], is_bare=True, files={"changed.toml": text}, runs=[run])


def examples_of(path: pathlib.Path) -> list[Example]:
    """The examples of a file: one transcript, or the rows of a table below its head."""
    if path.name not in TABLES:
        return [Reader(path).read()]
    rows = text_of(path).removesuffix("\n").split("\n")[1:]
    return [row_of(path, line, row) for line, row in enumerate(rows, 2)]


def holds_examples(path: pathlib.Path) -> bool:
    """Whether a file is a transcript or a table of changed texts."""
    return path.suffix == ".txt" or path.name in TABLES


def files_of(what: str) -> list[pathlib.Path]:
    """The files of examples that a subject or a file's name stands for."""
    if (HERE / what).is_dir():
        return [path for path in sorted((HERE / what).iterdir()) if holds_examples(path)]
    if holds_examples(pathlib.Path(what)):
        return [pathlib.Path(what)]
    raise Unplayable(f"{what} is no subject of {HERE.name}/, and no file of examples")


def subjects() -> list[str]:
    """All subjects: the folders beside this file."""
    return sorted(path.name for path in HERE.iterdir() if path.is_dir())


# Playing them.


class Gateway:
    """A payment gateway on a port of this machine. It gives its words in turn, to orders and look-ups alike."""

    def __init__(self, words: list[str]) -> None:
        self.words = words
        self.calls = 0
        self.turn = threading.Lock()
        self.door = socket.create_server(("127.0.0.1", 0))
        self.name = f"127.0.0.1:{self.door.getsockname()[1]}"
        threading.Thread(target=self.accept, daemon=True).start()

    def accept(self) -> None:
        with contextlib.suppress(OSError):
            while True:
                connection, _peer = self.door.accept()
                threading.Thread(target=self.serve, args=(connection,), daemon=True).start()

    def serve(self, connection: socket.socket) -> None:
        """Answers each line of a connection, up to one that it fails."""
        with contextlib.suppress(OSError), connection, connection.makefile("rb") as lines:
            for _line in lines:
                word = self.next_word()
                if word == "FAIL":
                    return
                connection.sendall(word.encode() + b"\n")

    def next_word(self) -> str:
        """The next answer. A call for which there is no word left fails."""
        with self.turn:
            self.calls += 1
            return self.words[self.calls - 1] if self.calls <= len(self.words) else "FAIL"

    def close(self) -> None:
        with contextlib.suppress(OSError):
            self.door.shutdown(socket.SHUT_RDWR)
        self.door.close()


def init_words(catalog: str, overdue: str) -> list[str]:
    """The words that make the lanes of a folder."""
    texts = ["--catalog", f"{{texts}}/{catalog}.toml", "--overdue", f"{{texts}}/{overdue}.toml"]
    return ["init", "--dir", "{dir}", "--lanes", "{lanes}", *texts]


class Play:
    """An example on a folder of so many lanes."""

    def __init__(self, example: Example, lanes: int, folder: pathlib.Path) -> None:
        self.example = example
        self.lanes = lanes
        self.folder = folder
        folder.mkdir()
        for name, text in example.files.items():
            (folder / name).write_bytes(text)
        self.gateway = None if example.gateway is None else Gateway(example.gateway)

    def runs(self) -> list[Run]:
        """All runs. The first one makes the lanes, unless the example is a bare one."""
        example = self.example
        made = Run(example.line, init_words(example.catalog, example.overdue), last_line=example.line)
        return example.runs if example.is_bare else [made, *example.runs]

    def words(self, run: Run) -> list[str]:
        """The words of a run on this folder."""
        names = {
            "{dir}": str(self.folder),
            "{lanes}": str(self.lanes),
            "{texts}": str(TEXTS),
            "{gateway}": self.gateway.name if self.gateway else "none",
        }
        words = run.words
        if words is None:
            words = ["apply", "--dir", "{dir}"] + (["--gateway", "{gateway}"] if self.gateway else [])
        return [re.sub(r"\{\w+\}", lambda name: names.get(name[0], name[0]), word) for word in words]

    def difference(self, outcomes: Iterable[Outcome]) -> str | None:
        """The first that came otherwise than the example says."""
        for run, outcome in zip(self.runs(), outcomes):
            if found := difference_of(run, outcome):
                return self.report(*found)
        calls, wanted = (self.gateway.calls, len(self.gateway.words)) if self.gateway else (0, 0)
        if calls != wanted:
            return self.report(self.example.gateway_line, f"wanted {wanted} calls of the gateway, came {calls}")
        return None

    def report(self, line: int, what: str) -> str:
        lanes = f" (lanes: {self.lanes})" if len(self.example.lanes) > 1 else ""
        return f"{place(self.example.path, line)}: {what}{lanes}"

    def close(self) -> None:
        if self.gateway:
            self.gateway.close()


def difference_of(run: Run, outcome: Outcome) -> tuple[int, str] | None:
    """The first that a run did otherwise, with the line of the file that says it."""
    end = f"wanted status {run.status}, came status {outcome.status}" if run.status != outcome.status else ""
    for wanted, came in itertools.zip_longest(run.wanted, lines_of(outcome.printed)):
        line, text = wanted or (run.last_line, None)
        if text != came:
            texts = f"wanted {shown(text)}, came {shown(came)}"
            return line, f"{texts}; {end}" if end else texts
    return (run.last_line, end) if end else None


def shown(line: str | None) -> str:
    """A line as a report shows it."""
    return "no line" if line is None else line or "an empty line"


def lines_of(printed: bytes) -> list[str]:
    """The lines that were printed. One that isn't ended says so."""
    *lines, rest = printed.decode(errors="backslashreplace").split("\n")
    return [*lines, f"{rest} (without a line feed)"] if rest else lines


# By which program.


def outcome_of(program: pathlib.Path, play: Play, run: Run) -> Outcome:
    """A run of the program, in the folder of the play."""
    words = [program, *play.words(run)]
    try:
        done = subprocess.run(
            words,
            input=run.input,
            stdout=subprocess.PIPE,
            timeout=SECONDS_OF_A_RUN,
            cwd=play.folder,
            check=False,
        )
    except subprocess.TimeoutExpired as late:
        return Outcome(-1, late.stdout or b"")
    except OSError as error:
        raise Unplayable(f"{program} can't be run: {error.strerror}") from error
    return Outcome(done.returncode, done.stdout)


def played(program: pathlib.Path, play: Play) -> str | None:
    """Plays an example by a program, run after run, up to the first difference."""
    with contextlib.closing(play):
        return play.difference(outcome_of(program, play, run) for run in play.runs())


def played_by(program: pathlib.Path, plays: list[Play]) -> Iterator[str | None]:
    """Plays examples by a program, side by side."""
    with concurrent.futures.ThreadPoolExecutor(os.cpu_count()) as workers:
        yield from workers.map(lambda play: played(program, play), plays)


def write_cases(folder: pathlib.Path, plays: list[Play]) -> list[str]:
    """Each run of each example as a case of `rt try`, by names that sort in their order."""
    names = []
    for number, play in enumerate(plays):
        for step, run in enumerate(play.runs()):
            name = f"{number:05}-{step:03}"
            (folder / name).write_bytes(run.input)
            (folder / f"{name}.args").write_text("".join(f"{word}\n" for word in play.words(run)))
            names.append(name)
    return names


def tried(cases: pathlib.Path) -> subprocess.CompletedProcess:
    """Compiles the program as it is written, and runs it on cases."""
    words = ["rt", "try", "--cases", cases]
    try:
        done = subprocess.run(words, cwd=BILLD, capture_output=True, check=False)
    except OSError as error:
        raise Unplayable(f"rt can't be run: {error.strerror}") from error
    if not re.search(rb"^cases=", done.stderr, re.M):
        last = done.stderr.decode(errors="replace").strip().split("\n")[-20:]
        raise Unplayable("\n".join(["the program can't be tried:", *last]))
    return done


def outcomes_of(names: list[str], done: subprocess.CompletedProcess) -> list[Outcome]:
    """How the cases ended, and what each printed below its head."""
    pieces = re.split(rb"^== (\d{5}-\d{3})\n", done.stdout, flags=re.M)[1:]
    printed = dict(zip((name.decode() for name in pieces[::2]), pieces[1::2]))
    statuses = dict(re.findall(r"^case=(\S+) run=ended status=(\d+)", done.stderr.decode(), re.M))
    return [Outcome(int(statuses.get(name, -1)), printed.get(name, b"")) for name in names]


def played_unproved(plays: list[Play]) -> Iterator[str | None]:
    """Plays examples by the program as it is written, one after another."""
    with tempfile.TemporaryDirectory() as folder, contextlib.ExitStack() as stack:
        for play in plays:
            stack.enter_context(contextlib.closing(play))
        names = write_cases(pathlib.Path(folder), plays)
        outcomes = iter(outcomes_of(names, tried(pathlib.Path(folder))))
        for play in plays:
            yield play.difference([next(outcomes) for _run in play.runs()])


def failures(examples: list[Example], program: pathlib.Path | None) -> list[str]:
    """The first difference of each example that has one."""
    with tempfile.TemporaryDirectory() as folder:
        pairs = [(example, lanes) for example in examples for lanes in example.lanes]
        plays = [
            Play(example, lanes, pathlib.Path(folder) / f"{number:05}")
            for number, (example, lanes) in enumerate(pairs)
        ]
        found: dict[tuple[pathlib.Path, int], str] = {}
        reports = played_by(program, plays) if program else played_unproved(plays)
        for (example, _lanes), report in zip(pairs, reports):
            if report:
                found.setdefault((example.path, example.line), report)
        return list(found.values())


def asked() -> argparse.Namespace:
    """What the words of this call ask for."""
    parser = argparse.ArgumentParser(description="Plays worked examples against billd.")
    which = parser.add_mutually_exclusive_group()
    which.add_argument("--program", type=pathlib.Path, default=BILLD / "out/billd", metavar="FILE")
    which.add_argument("--unproved", action="store_true", help="compile it by rt try, without a proof")
    parser.add_argument("what", nargs="*", metavar="SUBJECT|FILE")
    return parser.parse_args()


def main() -> int:
    """Plays what is asked for. 0: all passed. 1: something came otherwise."""
    words = asked()
    program = None if words.unproved else words.program.resolve()
    if program and not (program.is_file() and os.access(program, os.X_OK)):
        raise Unplayable(f"{words.program} is no program: build it, name another one, or say --unproved")
    paths = [path for what in words.what or subjects() for path in files_of(what)]
    examples = [example for path in paths for example in examples_of(path)]
    failed = failures(examples, program)
    for report in failed:
        print(report)
    print(f"{len(examples) - len(failed)} passed, {len(failed)} failed")
    return 1 if failed else 0


if __name__ == "__main__":
    try:
        sys.exit(main())
    except Unplayable as why:
        print(f"run.py: {why}", file=sys.stderr)
        sys.exit(2)
