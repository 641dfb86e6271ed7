#!/usr/bin/env python3
"""Checks what the documents name against the sources.

    python3 tools/check_documents.py

prints a line for each of these that doesn't hold, and nothing if all do; the exit status is 1 if one doesn't:

- docs/proved/CRATE.md, a page for each crate with public clauses, tests and the example aside: each row names functions that
  are public there, and clauses that each of them ensures; a dash stands for clauses without a name. And each clause of each
  public function of the crate is in one of the rows. A method of a trait is named by the trait, unless it ensures more;
- docs/PROVED.md: each of these pages has a row with its link and its crate's name, and the page has at most 60 lines;
- README.md: each clause that the section on the headline names is one of `run`'s, no cell of a table has more than 100
  characters, and the page has at most 150 lines;
- docs/DEFINITIONS.md: each definition of a table with files stands in the file that its row names, each definition of this
  repository that the contract of `run` cites is in one of these rows, and the page has at most 160 lines;
- docs/REFUSALS.md: each row names a crate, public calls there, and clauses that each of them ensures;
- docs/DECISIONS.md: each decision has an id, none stands twice, the comment of a definition cites each, and each id that a
  comment cites is there;
- docs/EMBEDDING.md: each piece of Rattle stands so in crates/xl_example, and what it prints is its stdout file;
- docs/CAPTURE.md: its first example is examples/first, and the words of the tools are those that capture_from_words.py knows;
- all of them: what is linked is there.
"""
import argparse
import re
import sys
from pathlib import Path

import capture_from_words
from xlock import nfs, smb
from xlock.sources import Crates

MOST_LINES = {"README.md": 150, "docs/PROVED.md": 60, "docs/DEFINITIONS.md": 160}
MOST_LETTERS_OF_A_CELL = 100
EXAMPLE = "crates/xl_example"
HEADLINE = "## What is proved"
TOP = ("xl_top", "run")
DASH = "—"
TESTS = "xl_tests_"
ID = r"[A-Z]+-\d+"
CITED = re.compile(rf"\(({ID}(?:, {ID})*)\)")


def rows_of(text, header):
    """The rows of a document's tables with such a header, of which the first cells are given: the number of the line, the
    cells."""
    is_meant = False
    for number, line in enumerate(text.splitlines(), 1):
        cells = [cell.strip() for cell in line.strip().strip("|").split("|")]
        if not line.startswith("|"):
            is_meant = False
        elif cells[: len(header)] == header:
            is_meant = True
        elif is_meant and not re.fullmatch(r"[|: -]+", line):
            yield number, cells


def names_of(cell):
    """The names in a cell, each between backticks; None if something else stands there."""
    if cell == DASH:
        return [""]
    if not re.fullmatch(r"`[^`]+`(, `[^`]+`)*", cell):
        return None
    return re.findall(r"`([^`]+)`", cell)


def proved_faults(crate, text, crates):
    """What is wrong in the rows of a crate's page: what is proved, functions, clauses."""
    rows, named = 0, set()
    if crate not in crates.all:
        yield f"there is no crate {crate}"
        return
    if not re.match(rf"# .*`{crate}`\n", text):
        yield f"the page's heading doesn't name `{crate}`"
    for number, cells in rows_of(text, ["what is proved", "function", "clause"]):
        rows += 1
        names, clauses = (names_of(cell) for cell in cells[1:3]) if len(cells) == 3 else (None, None)
        if names is None or clauses is None:
            yield f"line {number} is no row: what is proved, functions, clauses"
            continue
        for name in names:
            ensured = crates.ensures(crate, name)
            if ensured is None:
                yield f"line {number}: {crate} has no public function {name}"
                continue
            named |= {(name, clause) for clause in clauses}
            for clause in clauses:
                if clause not in ensured:
                    yield f"line {number}: {name} of {crate} ensures no clause {clause or 'without a name'}"
    lines, heads = text.splitlines(), "| what is proved | function | clause |"
    if sum(line.startswith("|") for line in lines) != rows + 2 * lines.count(heads):
        yield f"each table begins with {heads}"
    for names, clauses in crates.promises(crate):
        for clause in clauses:
            if not any((name, clause) in named for name in names):
                yield f"no row has the clause {clause or 'without a name'} of {names[0]}"


def page_faults(text, crates):
    """Which pages docs/PROVED.md has no row of, and which crates with public clauses have no page."""
    pages = {path.stem for path in crates.root.glob("docs/proved/*.md")}
    linked = {(cells[0], cells[1]) for _, cells in rows_of(text, ["crate", "page"]) if len(cells) > 1}
    for crate in sorted(pages):
        if not any(f"`{crate}`" == name and f"](proved/{crate}.md)" in link for name, link in linked):
            yield f"no row leads to docs/proved/{crate}.md"
    for crate in crates.all:
        if not crate.startswith(TESTS) and "crates/" + crate != EXAMPLE and crates.promises(crate) and crate not in pages:
            yield f"{crate} has no page"


def refusal_faults(text, crates):
    """What is wrong in the rows of docs/REFUSALS.md: crate, calls, what they refuse, clauses."""
    rows = 0
    for number, cells in rows_of(text, ["crate", "call"]):
        rows += 1
        parts = [names_of(cells[at]) for at in (0, 1, 3)] if len(cells) == 4 else [None]
        if None in parts or len(parts[0]) != 1:
            yield f"line {number} is no row: a crate, calls, what they refuse, clauses"
            continue
        (crate,), names, clauses = parts
        for name in names:
            ensured = crates.ensures(crate, name) if crate in crates.all else None
            if ensured is None:
                yield f"line {number}: {crate} has no public function {name}"
                continue
            yield from (f"line {number}: {name} of {crate} ensures no clause {clause or 'without a name'}" for clause in clauses if clause not in ensured)
    if rows == 0:
        yield "there are no rows"


def headline_faults(text, crates):
    """What is wrong in README's section on the headline: names in parentheses are clauses of `run`."""
    section = text.partition(HEADLINE)[2].partition("\n## ")[0]
    named = [name for group in re.findall(r"\((`\w+`(?:, `\w+`)*)\)", section) for name in re.findall(r"`(\w+)`", group)]
    if not named:
        yield f"the section {HEADLINE!r} names no clause"
    ensured = crates.ensures(*TOP) or []
    yield from (f"{TOP[1]} ensures no clause {name}" for name in named if name not in ensured)


def definition_faults(text, crates):
    """What is wrong in the rows of docs/DEFINITIONS.md: names, their file, the standard, what they say."""
    rows = 0
    for number, cells in rows_of(text, ["name", "file"]):
        rows += 1
        names, places = (names_of(cell) for cell in cells[:2]) if len(cells) == 4 else (None, None)
        if names is None or places is None or len(places) not in (1, len(names)):
            yield f"line {number} is no row: names, `CRATE/FILE` of all or of each, the standard, what they say"
            continue
        for name, place in zip(names, places * len(names) if len(places) == 1 else places):
            crate, _, file = place.partition("/")
            if crate not in crates.all or not crates.all[crate].defines(name, file):
                yield f"line {number}: crates/{crate}/specs/{file}.antt doesn't define {name}"
    if rows == 0:
        yield "there are no rows"


def cell_faults(text):
    """What is wrong in the tables of README.md: cells that are too long."""
    for number, line in enumerate(text.splitlines(), 1):
        cells = line.strip("|").split("|") if line.startswith("|") else []
        if any(len(cell.strip()) > MOST_LETTERS_OF_A_CELL for cell in cells):
            yield f"line {number} has a cell of more than {MOST_LETTERS_OF_A_CELL} characters"


def headline_definition_faults(text, crates):
    """Which definitions the contract of `run` cites that docs/DEFINITIONS.md has in no row."""
    named = {name for _, cells in rows_of(text, ["name", "file"]) for name in names_of(cells[0]) or []}
    yield from (f"{TOP[1]} cites {name}, which is in no row" for name in sorted(crates.cites(*TOP) - named))


def citations_in(path):
    """The ids that the comments of a source cite, each with whether the comment stands right before a definition, a function
    or a field, and not by itself or at the head of the file."""
    mark, comment = "--" if path.suffix == ".antt" else "//", []
    for line in [*map(str.strip, path.read_text().splitlines()), ""]:
        if line.startswith(mark):
            comment.append(line.lstrip("-/! "))
            continue
        is_placed = line != "" and not line.startswith(("use ", "ghost use ", "mod "))
        for ids in CITED.findall(" ".join(comment)):
            yield from ((found, is_placed) for found in ids.split(", "))
        comment = []


def decision_faults(text, crates):
    """What is wrong with the ids of docs/DECISIONS.md, and with those that sources cite."""
    headings = re.findall(r"(?m)^- \*\*(\S+)", text)
    ids = [found for found in headings if re.fullmatch(ID, found)]
    if not ids:
        yield "no decision has an id"
    if len(ids) != len(headings):
        yield f"{len(headings) - len(ids)} decisions have no id"
    yield from (f"{found} stands {ids.count(found)} times" for found in sorted(set(ids)) if ids.count(found) > 1)
    groups, cited = {found.partition("-")[0] for found in ids}, set()
    for path in sorted([*crates.root.glob("crates/*/specs/*.antt"), *crates.root.glob("crates/*/src/**/*.rt")]):
        name = path.relative_to(crates.root).as_posix()
        for found, is_placed in citations_in(path):
            cited.add(found)
            if found.partition("-")[0] in groups and found not in ids:
                yield f"{name} cites {found}, which is no decision"
            elif found in ids and not is_placed:
                yield f"{name} cites {found} at no definition"
    yield from (f"no definition cites {found}" for found in ids if found not in cited)


def embedding_faults(text, crates):
    """What docs/EMBEDDING.md shows that the example isn't."""
    source, printed = ((crates.root / EXAMPLE / name).read_text() for name in ("src/main.rt", "stdout"))
    blocks = re.findall(r"```(\w+)\n(.*?)```", text, re.DOTALL)
    for kind, block in blocks:
        if kind == "rust" and block not in source:
            yield f"the code that begins with {block.splitlines()[0].strip()!r} isn't so in {EXAMPLE}/src/main.rt"
        if kind == "text" and block != printed:
            yield f"what the example prints isn't {EXAMPLE}/stdout"
    if {kind for kind, _ in blocks} != {"rust", "text"}:
        yield "there are pieces of code, `rust`, and what the example prints, `text`"


def first_example_faults(text, crates):
    """Which files of examples/first docs/CAPTURE.md doesn't show as they are."""
    section = text.partition("## An example")[2].partition("## ")[0]
    for ending in ("capture", "transcript", "words", "said"):
        shown = "".join(f"    {line}\n" for line in (crates.root / f"examples/first.{ending}").read_text().splitlines())
        if f"\n\n{shown}\n" not in section:
            yield f"the first example isn't examples/first.{ending}"


def word_faults(text, crates):
    """Which words of the tools docs/CAPTURE.md lacks or has too many."""
    section = text.partition("## The words of the tools")[2].partition("\n## ")[0]
    lists = [capture_from_words.usages(), capture_from_words.listed(nfs.OPS), capture_from_words.listed(smb.USAGES)]
    for usages in lists:
        yield from (f"the words lack {line.strip()!r}" for line in usages.splitlines() if line not in section.splitlines())
    known = {line.split()[0] for usages in lists for line in usages.splitlines()}
    known |= {name.removeprefix("do_") for name in dir(capture_from_words.Maker) if name.startswith("do_")}
    listed = section.partition("**Connections")[2].splitlines()
    yield from (f"{line.split()[0]} is no word" for line in listed if line.startswith("    ") and line.split()[0] not in known)


def link_faults(text, folder):
    for target in re.findall(r"\]\(([^)#:]+)\)", text):
        if not (folder / target).exists():
            yield f"{target} is linked, and isn't there"


def faults(root):
    """All that doesn't hold, with the document where it stands."""
    crates = Crates(root)
    checks = {
        "README.md": [headline_faults, lambda text, _: cell_faults(text)],
        "docs/PROVED.md": [page_faults],
        "docs/REFUSALS.md": [refusal_faults],
        "docs/DEFINITIONS.md": [definition_faults, headline_definition_faults],
        "docs/DECISIONS.md": [decision_faults],
        "docs/EMBEDDING.md": [embedding_faults],
        "docs/CAPTURE.md": [first_example_faults, word_faults],
    }
    for path in sorted([Path(root) / "README.md", *Path(root).glob("docs/**/*.md"), *Path(root).glob("*/README.md")]):
        name, text = path.relative_to(root).as_posix(), path.read_text()
        found = [fault for check in checks.get(name, []) for fault in check(text, crates)]
        if path.parent.name == "proved":
            found += proved_faults(path.stem, text, crates)
        found += link_faults(text, path.parent)
        count = len(text.splitlines())
        if count > MOST_LINES.get(name, count):
            found.append(f"{count} lines are more than {MOST_LINES[name]}")
        yield from (f"{name}: {fault}" for fault in found)


def main():
    form = argparse.RawDescriptionHelpFormatter
    parser = argparse.ArgumentParser(description=__doc__, formatter_class=form)
    root = Path(__file__).resolve().parent.parent
    parser.add_argument("root", nargs="?", default=root, metavar="FOLDER", help="the repository; this one without it")
    found = list(faults(parser.parse_args().root))
    for line in found:
        print(line)
    sys.exit(1 if found else 0)


if __name__ == "__main__":
    main()
