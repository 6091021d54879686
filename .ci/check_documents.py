#!/usr/bin/env python3
"""Holds the documents against the repository: what they name has to be where they say.

In README.md and docs/:

- a path of the repository, as kb_money/src/proration.rt, crates/billd/args or docs/MAP.md, is a file or
  a folder;
- behind a path of a source file and a colon, each name in code font is defined in that file: a function,
  a type, a constant or a method of an .rt file, a definition, a lemma or a field of an .antt file; and
  behind the word 'clause' or 'clauses', each name is that of an `ensures`, a `requires` or a field
  there;
- each name behind 'Refused:' (or in a table's row 'Refused') is an edit, in must-fail/ or in edits/, of a
  crate of the same section, or of any crate where the section names none;
- the links between documents lead somewhere.

Each crate of crates.txt has a row in docs/MAP.md. It fails with a line for each stale name. It also
prints, and doesn't fail for it, lines of more than 110 columns and files of more than 500 lines.
"""
import pathlib
import re
import subprocess
import sys

TOP = pathlib.Path(__file__).resolve().parent.parent
CRATES = TOP / "crates"
COLUMNS, LINES = 110, 500
SOURCE = re.compile(r"`?((?:crates/)?[a-z][a-z_]*/(?:src|specs|proofs)(?:/[\w.]+)*\.(?:rt|antt))`?")
FOLDERS = r"(?:crates|docs|bench|demo|edits|\.ci|kb_[a-z_]+|billd)"
PATH = re.compile(rf"(?<![\w/.])({FOLDERS}/[\w./-]*\w|demo\.sh|crates\.txt|HANDLES)")
NAME = re.compile(r"`([A-Za-z_][\w:'-]*)`")
LINK = re.compile(r"\]\(([^)#\s]+)(#[^)\s]*)?\)")


def crates():
    """The names of the crates, in the order of crates.txt."""
    lines = (TOP / "crates.txt").read_text().splitlines()
    return [it.split(":")[0].split()[0] for it in lines if it.strip() and not it.startswith("#")]


def documents():
    """README.md and the documents below docs/."""
    return [TOP / "README.md", *sorted((TOP / "docs").rglob("*.md"))]


def place_of(path):
    """Where a path of a document leads: below the top or below crates/."""
    for root in (TOP, CRATES):
        if (root / path).exists():
            return root / path
    return None


def is_built(path):
    """A path that the toolchain makes, or a pattern over several."""
    return "/out" in path or "*" in path


def is_defined(text, name, kind):
    """Whether a source file defines a name."""
    last = re.escape(name.split("::")[-1])
    if kind == ".rt":
        item = rf"\b(?:fn|struct|enum|trait|const|type|mod|macro_rules!)\s+{last}\b"
        member = rf"^\s*(?:pub(?:\([a-z]+\))? )?{last}\b\s*[:,(]"
        return re.search(item, text) or re.search(member, text, re.M)
    words = "abbrev|unfoldable|pub|record|data|ruleset"
    return re.search(rf"^\s*(?:(?:{words})\s+)*{last}(?=\s|:|$)", text, re.M)


def is_clause(text, name):
    """Whether a source file has a clause, or a definition's field, of a name."""
    last = re.escape(name)
    clause = rf"\b(?:ensures|requires)\s+{last}\s*\{{"
    return re.search(clause, text) or re.search(rf"^\s*(?:pub )?{last}\s*:", text, re.M)


def parts(text):
    """The paragraphs, list items and table rows of a document, each as one line, with its heading."""
    heading, block = "", []
    fenced = False
    for line in text.splitlines() + [""]:
        if line.startswith("```"):
            fenced = not fenced
            continue
        if fenced:
            continue
        begins = not line.strip() or re.match(r"\s*([-*] |\d+\. |\||#)", line)
        if begins and block:
            yield heading, " ".join(block)
            block = []
        if line.startswith("#"):
            heading = line.lstrip("# ").strip()
        elif line.strip():
            block.append(line.strip())


def sections(text):
    """The headings of a document, each with the parts below it."""
    found = {}
    for heading, part in parts(text):
        found.setdefault(heading, []).append(part)
    return found


def stale_sources(part):
    """The names of a part that aren't in the source files before them."""
    pieces = SOURCE.split(part)
    for path, rest in zip(pieces[1::2], pieces[2::2]):
        place = place_of(path)
        if place is None:
            yield f"no file {path}"
            continue
        if not rest.startswith(":"):
            continue
        said = re.split(r"\. \*|\*[A-Z]|(?<=`)[.;](?:\s|$)| \| ", rest)[0]
        text = place.read_text()
        names, _, clauses = said.partition("clause")
        while names or clauses:
            for name in NAME.findall(names):
                if not is_defined(text, name, place.suffix):
                    yield f"{path} defines no {name}"
            inside, _, after = clauses.partition(")")
            for name in NAME.findall(inside):
                if not is_clause(text, name):
                    yield f"{path} has no clause {name}"
            names, _, clauses = after.partition("clause")


def edit_folders(crate):
    """Where the wrong bodies of a crate stand: those that the gate tries, and the others."""
    return CRATES / crate / "must-fail", TOP / "edits" / crate


def stale_edits(heading, part, below):
    """The names behind 'Refused' that are no edits of the section's crates."""
    said = re.search(r"(?:\*?Refused:\*?|^\|\s*Refused\s*\|)(.*)", part)
    if not said:
        return
    near = {it.split("/")[-3] if it.startswith("crates/") else it.split("/")[0]
            for other in below for it in SOURCE.findall(other)}
    near = {it for it in near if (CRATES / it).is_dir()} or set(crates())
    for name in NAME.findall(re.split(r"\. \*[A-Z]", said.group(1))[0]):
        if not any((at / f"{name}.edit").is_file() for it in near for at in edit_folders(it)):
            yield f"'{heading}': no edit {name} in {', '.join(sorted(near))}"


def stale(document):
    """What a document names that isn't there."""
    text = document.read_text()
    for path, _ in LINK.findall(text):
        if "://" not in path and not (document.parent / path).exists():
            yield f"no document {path}"
    for heading, below in sections(text).items():
        for part in below:
            yield from stale_sources(part)
            yield from stale_edits(heading, part, below)
            for path in PATH.findall(part):
                if not is_built(path) and place_of(path.rstrip(".")) is None and not SOURCE.fullmatch(path):
                    yield f"no file {path}"


def long_ones():
    """Lines and files that are longer than a reader wants."""
    listed = subprocess.run(["git", "ls-files"], cwd=TOP, capture_output=True, text=True, check=True)
    for name in listed.stdout.split():
        if pathlib.Path(name).suffix not in (".rt", ".antt", ".md", ".sh", ".py"):
            continue
        lines = (TOP / name).read_text().splitlines() if (TOP / name).is_file() else []
        wide = [str(number) for number, line in enumerate(lines, 1) if len(line) > COLUMNS]
        if wide:
            more = f" and {len(wide) - 5} more" if len(wide) > 5 else ""
            yield f"{name}: over {COLUMNS} columns: line {', '.join(wide[:5])}{more}"
        if len(lines) > LINES:
            yield f"{name}: {len(lines)} lines"


def main():
    faults = []
    for document in documents():
        for fault in dict.fromkeys(stale(document)):
            faults.append(f"{document.relative_to(TOP)}: {fault}")
    rows = (TOP / "docs/MAP.md").read_text()
    for crate in crates():
        if not re.search(rf"^\| `{crate}` \|", rows, re.M):
            faults.append(f"docs/MAP.md: no row for {crate}")
    for line in long_ones():
        print(f"long: {line}")
    for fault in faults:
        print(f"stale: {fault}")
    print(f"documents: {len(documents())} read, {len(faults)} stale names")
    return 1 if faults else 0


if __name__ == "__main__":
    sys.exit(main())
