#!/usr/bin/env python3
"""Holds the pages against the cases, and follows the links between them; silent where all is well.

    python3 tests/try_pages.py

- A page that names tests/cases/a_case names a case that there is, and each case is named on a page.
- Behind `<!-- rows of a_case -->` stands a block of lines of its stdout, behind `<!-- list of a_case -->` of its stdin:
  one right after the other, but where `...` stands. `$ cabcheck ..` in front is passed over. For examples/morning the
  program's crate has both.
- Behind `<!-- bytes of a_case -->` stands a table. Where a first cell begins with bytes, they are those of a telegram or
  a block in its stdin, row after row in the order of the list.
- A link leads to a file that there is, and to a heading that it has.
"""
import re
import sys
from pathlib import Path

TOP = Path(__file__).resolve().parent.parent
CASES = TOP / "tests/cases"
MARK = re.compile(r"<!-- (rows|list|bytes) of (\S+) -->$")
BYTES = re.compile(r"`([0-9A-Fa-f]{2}(?: [0-9A-Fa-f]{2})*)`")


def read_lines(path):
    return [line.rstrip() for line in path.read_text("utf-8", "replace").split("\n")] + ["", ""]


def prose_of(lines):
    """The lines, with an empty one in place of each line of code."""
    fenced = False
    for line in lines:
        fenced ^= line.startswith("```")
        yield "" if fenced or line.startswith("    ") else line


def block_at(lines, at):
    """The lines of the block that begins at a line: a fenced one, one that is indented by 4 blanks, or a table."""
    if lines[at].startswith("```"):
        return lines[at + 1 : lines.index("```", at + 1)]
    start = "|" if lines[at].startswith("|") else "    "
    end = at
    while lines[end].startswith(start) or start != "|" and not lines[end] and lines[end + 1].startswith(start):
        end += 1
    return [line.removeprefix("    ") for line in lines[at:end]]


def missing_line(block, there):
    """A line of the block that does not stand where it has to; none where all do."""
    for text in "\n".join(block).split("\n...\n"):
        piece = [line for line in text.split("\n") if line != "..."]
        at = next((i for i in range(len(there)) if there[i : i + len(piece)] == piece), None)
        if at is None:
            return next((line for line in piece if line not in there), piece[0])
        there = there[at + len(piece) :]
    return None


def missing_bytes(table, there):
    """The first bytes that the list does not have behind those of the rows before."""
    given = iter([line.lower().split()[1:] for line in there if line.startswith(("telegram ", "cycle "))])
    cells = [row.split("|")[1].strip() for row in table]
    for written in [it for cell in cells if BYTES.match(cell) for it in BYTES.findall(cell)]:
        # goes on behind the line that was found last
        if not any(written.replace(" ", "").lower() in words for words in given):
            return written
    return None


def try_mark(lines, at, kind, name):
    path = (TOP / "crates/cabcheck" if name == "examples/morning" else CASES / name) / ("stdout" if kind == "rows" else "stdin")
    block = block_at(lines, at if lines[at] else at + 1)
    if not path.exists() or not block:
        return [f"{name}: there is no {'block behind this mark' if path.exists() else f'{path.name} of such a case'}"]
    block = block[block[0].startswith("$ cabcheck") :]
    missing = (missing_bytes if kind == "bytes" else missing_line)(block, read_lines(path))
    return [] if missing is None else [f"{name}: its {path.name} does not have there: {missing}"]


def anchors_of(page):
    """The anchors of a page's headings, as GitHub makes them."""
    plain = []
    for line in prose_of(read_lines(page)):
        if re.match(r"#{1,6} ", line):
            words = re.sub(r"\[([^\]]*)\]\([^)]*\)", r"\1", line).lstrip("#").strip().lower()
            plain.append(re.sub(r"[^\w\- ]", "", words).replace(" ", "-"))
    return [f"{it}-{plain[:i].count(it)}" if it in plain[:i] else it for i, it in enumerate(plain)]


def try_links(page, line):
    for target in re.findall(r"\]\(([^)\s]+)\)", re.sub(r"`[^`]*`", "", line)):
        path, _, anchor = target.partition("#")
        file = page.parent / path if path else page
        if not re.match(r"\w+:", target) and (not file.exists() or anchor and anchor not in anchors_of(file)):
            yield f"the link leads nowhere: {target}"


def try_page(page, named):
    lines = read_lines(page)
    for at, line in enumerate(prose_of(lines)):
        cases = re.findall(r"tests/cases/([a-z]\w*)", line)
        told = [f"{name}: there is no such case" for name in cases if not (CASES / name).is_dir()]
        told += try_links(page, line)
        if mark := MARK.match(line):
            told += try_mark(lines, at + 1, *mark.groups())
            cases.append(mark[2])
        named.update(cases)
        yield from (f"{page.relative_to(TOP)}:{at + 1}: {it}" for it in told)


def main():
    named = set(re.findall(r"`(\w+)`", (TOP / "tests/README.md").read_text()))
    told = [line for page in sorted(TOP.rglob("*.md")) if "out" not in page.parts for line in try_page(page, named)]
    told += [f"tests/cases/{case.name}: no page names it" for case in sorted(CASES.iterdir()) if case.name not in named]
    print("\n".join(told), end="\n" if told else "")
    return 1 if told else 0


if __name__ == "__main__":
    sys.exit(main())
