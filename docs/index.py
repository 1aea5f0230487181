#!/usr/bin/env python3
"""Lists the names of specifications that the pages use: where each is defined, and the first sentence of its comment.

    docs/index.py [--write]      prints docs/INDEX.md, or writes it

The names are the definitions and records of crates/*/specs/ that a page has between back quotes, and the fields of records that
PROMISES.md names."""
import re
import sys
from pathlib import Path

TOP = Path(__file__).resolve().parent.parent
INDEX, PROMISES = TOP / "docs/INDEX.md", TOP / "docs/PROMISES.md"
HEAD = """# Index

`docs/index.py` writes this page: names of specifications that the other pages use, the file in `crates/` of each, and the first sentence of its comment. [WORDS](WORDS.md) explains the words.

| Name | Crate: file | Comment |
|---|---|---|
"""
DEFINITION = re.compile(r"((?:^ *--.*\n)+)( *)(?:abbrev pub|pub record|pub data|pub) (\w+)\b(?= *[:({])", re.M)


def words_of(text):
    """The words between back quotes."""
    return {word for quoted in re.findall(r"`([^`\n]*)`", text) for word in re.findall(r"\w+", quoted)}


def names_of_pages():
    """Names of definitions on all pages but the index: words with a capital letter or a line below."""
    pages = [*TOP.glob("*.md"), *(page for page in TOP.glob("docs/*.md") if page != INDEX)]
    words = set().union(*(words_of(page.read_text(encoding="utf-8")) for page in pages))
    return {word for word in words if re.search(r"[A-Z_]", word)}


def fields_of_promises():
    """The crates and the names of each row of PROMISES.md."""
    rows = [line.strip("|").split("|") for line in PROMISES.read_text(encoding="utf-8").splitlines() if line.startswith("| ")]
    return {(crate, word) for row in rows if len(row) == 3 for crate in words_of(row[1]) for word in words_of(row[2])}


def first_sentence(comment):
    """The first sentence of a comment, in one line that a table can have."""
    text = " ".join(line.strip().removeprefix("--").strip() for line in comment.splitlines())
    return re.split(r"(?<=\.) (?=[A-Z])", text)[0].rstrip(".").replace("|", "\\|")


def definitions():
    """What has a comment in a specification: the record that it is a field of, or "", then name, crate, file and comment."""
    for path in sorted(TOP.glob("crates/*/specs/*.antt")):
        text = path.read_text(encoding="utf-8")
        for found in DEFINITION.finditer(text):
            comment, indent, name = found.groups()
            above = re.findall(r"^( *)pub record (\w+)", text[: found.start()], re.M)
            record = above[-1][1] if above and len(above[-1][0]) < len(indent) else ""
            yield record, name, path.parts[-3], path.name, first_sentence(comment)


def index():
    """The page."""
    names, fields = names_of_pages(), fields_of_promises()
    rows = {row for row in definitions() if ((row[2], row[1]) in fields and row[0] in names if row[0] else row[1] in names)}
    lines = [f"| `{record}`: `{name}` |" if record else f"| `{name}` |" for record, name, *_ in rows]
    table = [f"{line} `{crate}`: `{file}` | {comment} |\n" for line, (*_, crate, file, comment) in zip(lines, rows)]
    return HEAD + "".join(sorted(table, key=lambda line: (line.lower(), line)))


if __name__ == "__main__":
    if sys.argv[1:] == ["--write"]:
        INDEX.write_text(index(), encoding="utf-8")
    else:
        print(index(), end="")
