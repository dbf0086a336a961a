#!/usr/bin/env python3
"""Lists the files that the clauses of `run` reach: ours whole, and of the kit the declarations that ours name.

Usage: tools/reach.py            prints them with their lines, clause by clause, and the sums
       tools/reach.py PAGE       compares them with a page: its parts, their tables, and the sums that they say
       tools/reach.py --rows     prints the rows of each part as a page has them

A clause names definitions, whose files (specs/*.antt) name others by `use`. A definition of a type that is declared in
code leads to that file of src/, and from there to the types of its public fields, to what its view names where it has
one (`impl Model`), and, for a trait, to what its calls promise. A definition of the kit's libraries leads to the
declaration of that name, and to those that it names. A definition that a file of proofs holds would be read by nobody
who reads definitions: an import of one from our proofs is refused.

A page has one part for each of PARTS and of KIT_PARTS, in their order: a line "<!-- NAME -->", and after it, up to the
next such line, rows "| `FILE` | LINES | WHAT |", where WHAT is the first line of the file, and somewhere
"N lines in M files". A file is in the first part that reaches it. LINES are those of the file, or, of a file of the
kit, those of the declarations that are reached.
"""

from __future__ import annotations

import re
import sys
from pathlib import Path

import antt
from antt import TOP

CLAUSES = TOP / "crates/par_top/src/top.rt"
PARTS = ["serial", "whole", "calm", "ok", "innocent", "all others"]
HEADLINE = {"serial", "whole", "calm", "innocent"}
KIT_PARTS = ["the kit, for the headline", "the kit, for the others"]
ROW = re.compile(r"^\| `((?:crates|kit)/[^`]*)` \| (\d+) \| (.*) \|$", re.M)
SUM = re.compile(r"(\d+) lines in (\d+) files")

Files = dict[Path, int]


class Proofs(Exception):
    """A definition that a file of proofs holds."""


def signature() -> str:
    """What `run` says of itself up to its body."""
    code = antt.text_of(CLAUSES)
    start = code.index("pub fn run<")
    return code[start : code.index("\n{\n", start)]


def clauses() -> dict[str, str]:
    """The text of each clause of `run`, by its name."""
    texts: dict[str, str] = {}
    name = None
    for line in signature().splitlines():
        start = re.match(r"    ensures (\w+) ", line)
        name = start.group(1) if start else name
        if name and not line.lstrip().startswith("//"):
            texts[name] = texts.get(name, "") + line + "\n"
    return texts


def used(text: str, path: Path) -> list[tuple[str, str]]:
    """What a text in a file names of the file's imports: modules, each with a name of it."""
    words = antt.tokens(text)
    found = []
    for line in antt.imports(path):
        for name in line.names:
            first, _, new = name.partition(" as ")
            if antt.is_named(new or first, words):
                found.append((line.module, first))
        if line.alias:
            found += [(line.module, word.split(".", 1)[1]) for word in words if word.startswith(line.alias + ".")]
    return found


def our_file(module: str) -> Path | None:
    """The file of one of our modules, of definitions or of code; none where it is the kit's."""
    crate, _, rest = module.partition(".")
    if not antt.is_ours(crate):
        return None
    if rest.startswith("proofs"):
        raise Proofs(module)
    declared = antt.code_file(module)
    return declared[0] if declared else antt.definitions_file(module)


def traits_in(text: str) -> list[Path]:
    """The files of the traits of which a clause's text names a ghost member, as `S.rest`."""
    names = antt.rust_names(CLAUSES)
    found = []
    for parameter, bound in re.findall(r"(\w+): (\w+)", signature().split(">(")[0]):
        crate = names.get(bound)
        if re.search(rf"(?<!\w){parameter}\.\w", text) and crate and antt.is_ours(crate):
            found.append(antt.type_files(crate)[bound])
    return found


def code_texts(path: Path) -> list[str]:
    """Of a file of code what a reader of clauses reads: its public declarations, and the views of its types."""
    found = []
    for name in antt.TYPE.findall(antt.text_of(path)):
        found.append(antt.declaration(path, name))
        found.append(antt.block(path, rf"impl.* Model for {name}\b"))
    return [re.sub(r"(?m)^\s*ghost (?:use|invariant) .*$", "", text) for text in found if text]


def public(text: str) -> str:
    """A declaration without its private fields."""
    if not text.startswith("pub struct") or "{" not in text:
        return text
    head, _, rest = text.partition("{")
    return head + "\n".join(line for line in rest.splitlines() if line.strip().startswith("pub "))


def behind_code(path: Path) -> list[Path]:
    """The files that a file of code leads to."""
    crate = path.relative_to(TOP / "crates").parts[0]
    imported = antt.rust_names(path)
    found = []
    for text in code_texts(path):
        found += [our_file(module) for module, _ in used(text, path)]
        for word in sorted(set(re.findall(r"\b[A-Z]\w+", public(text)))):
            home = imported.get(word, crate)
            if antt.is_ours(home) and not text.startswith("impl"):
                found.append(home_of(home, word))
    return [file for file in found if file]


def home_of(crate: str, name: str) -> Path | None:
    """The file that declares a type, in a crate or where the crate has it from."""
    found = antt.type_files(crate).get(name)
    if found:
        return found
    home = antt.rust_names(TOP / "crates" / crate / "src/lib.rt").get(name)
    return home_of(home, name) if home and home != crate and antt.is_ours(home) else None


def behind(path: Path) -> list[Path]:
    if path.suffix == ".rt":
        return behind_code(path)
    return [file for line in antt.imports(path) if (file := our_file(line.module))]


def reached(starts: list[Path]) -> set[Path]:
    """The files that these lead to, with them."""
    found: set[Path] = set()
    waiting = list(starts)
    while waiting:
        path = waiting.pop()
        if path not in found:
            found.add(path)
            waiting += behind(path)
    return found


def part_text(part: str) -> str:
    texts = clauses()
    return texts[part] if part in texts else "\n".join(texts.values())


def parts() -> dict[str, set[Path]]:
    """For each of PARTS the files that it reaches and no part before it."""
    before: set[Path] = set()
    found = {}
    for part in PARTS:
        text = part_text(part)
        starts = [file for module, _ in used(text, CLAUSES) if (file := our_file(module))]
        found[part] = reached(starts + traits_in(text)) - before
        before |= found[part]
    return found


# THE KIT


def kit_names(part: str, files: set[Path]) -> list[tuple[str, str]]:
    """What a part's clause and its files name of the kit."""
    found = used(part_text(part), CLAUSES)
    for path in files:
        texts = [antt.text_of(path)] if path.suffix == ".antt" else code_texts(path)
        found += [pair for text in texts for pair in used(text, path)]
    return [(module, name) for module, name in found if not antt.is_ours(module.split(".")[0])]


def found_at(module: str, name: str) -> tuple[Path, str, int, list[tuple[str, str]]] | None:
    """Where the kit declares a name: the file, a word for the declaration, its lines, and what it names; none of the logic's own words."""
    declared = antt.code_file(module)
    if declared:
        path, kind = declared
        text = antt.declaration(path, kind or name)
        return (path, kind or name, len(text.splitlines()), []) if text else None
    path = antt.definitions_file(module)
    if path is None:
        return None
    for chunk in antt.chunks(path):
        if name in chunk.names:
            inside = [(module, word) for word in antt.tokens(chunk.text) - chunk.names if is_declared(path, word)]
            return path, "".join(sorted(chunk.names)), chunk.lines, inside + used(chunk.text, path)
    for line in antt.imports(path):
        for each in line.names:
            first, _, new = each.partition(" as ")
            if (new or first) == name:
                return found_at(line.module, first)
    return None


def is_declared(path: Path, word: str) -> bool:
    return any(word in chunk.names for chunk in antt.chunks(path))


def declarations(starts: list[tuple[str, str]]) -> dict[tuple[Path, str], int]:
    """The declarations of the kit that these names lead to, each with its lines."""
    found: dict[tuple[Path, str], int] = {}
    seen: set[tuple[str, str]] = set()
    waiting = list(starts)
    while waiting:
        pair = waiting.pop()
        if pair in seen:
            continue
        seen.add(pair)
        at = found_at(*pair)
        if at:
            found[at[0], at[1]] = at[2]
            waiting += at[3]
    return found


def kit_parts(ours: dict[str, set[Path]]) -> dict[str, Files]:
    """For each of KIT_PARTS the files of the kit, with the lines that are reached and by no part before it."""
    first = [pair for part in PARTS if part in HEADLINE for pair in kit_names(part, ours[part])]
    rest = [pair for part in PARTS if part not in HEADLINE for pair in kit_names(part, ours[part])]
    headline, others = declarations(first), declarations(rest)
    return dict(zip(KIT_PARTS, [by_file(headline), by_file({key: n for key, n in others.items() if key not in headline})]))


def by_file(found: dict[tuple[Path, str], int]) -> Files:
    files: Files = {}
    for (path, _), lines in found.items():
        files[path] = files.get(path, 0) + lines
    return files


# THE PAGE


def short(path: Path) -> str:
    return str(path.relative_to(TOP)) if path.is_relative_to(TOP) else "kit/" + str(path.relative_to(antt.kit()))


def says(path: Path) -> str:
    """What a file says that it holds: its first line, where that is a comment."""
    first = antt.text_of(path).splitlines()[0]
    return re.sub(r"^(--|//[/!]?) ", "", first).replace("|", "\\|") if re.match(r"(--|//[/!]?) ", first) else ""


def lines_of(path: Path) -> int:
    return len(antt.text_of(path).splitlines())


def definitions(path: Path) -> int:
    """The lines that are neither empty nor a comment nor an import."""
    return sum(1 for line in antt.text_of(path).splitlines() if line.strip() and not re.match(r"\s*(--|use )", line))


def everything() -> dict[str, Files]:
    """Each part of a page with its files and their lines. Without a kit the parts of the kit are left out."""
    ours = parts()
    found: dict[str, Files] = {part: {path: lines_of(path) for path in files} for part, files in ours.items()}
    return found | (kit_parts(ours) if antt.kit() else {})


def sums(part: str, files: Files) -> tuple[int, int]:
    """The lines and the number of a part's files; of ours those of definitions alone."""
    counted = [lines for path, lines in files.items() if part in KIT_PARTS or path.suffix == ".antt"]
    return sum(counted), len(counted)


def row(path: Path, lines: int) -> str:
    return f"| `{short(path)}` | {lines} | {says(path)} |"


def show(found: dict[str, Files], rows: bool) -> None:
    for part, files in found.items():
        for path in sorted(files):
            print(row(path, files[path]) if rows else f"{files[path]} {short(path)}")
        lines, count = sums(part, files)
        specs = sum(definitions(path) for path in files if path.suffix == ".antt" and part not in KIT_PARTS)
        print(f"{part}: {lines} lines in {count} files, {specs} of them definitions\n")


def compare(page: str, found: dict[str, Files]) -> list[str]:
    """What of the page isn't so."""
    pieces = re.split(r"^<!-- (.*) -->$", page, flags=re.M)
    texts = dict(zip(pieces[1::2], pieces[2::2]))
    wrong = []
    if list(texts) != PARTS + KIT_PARTS:
        wrong.append(f"the page has the parts {list(texts)}, and not {PARTS + KIT_PARTS}")
    for part, files in found.items():
        text = texts.get(part, "")
        there = {path: f"| `{path}` | {lines} | {what} |" for path, lines, what in ROW.findall(text)}
        wanted = {short(path): row(path, lines) for path, lines in files.items()}
        for path in sorted(there.keys() | wanted.keys()):
            if there.get(path) != wanted.get(path):
                wrong.append(f"{part}: the page says {there.get(path)}, it is {wanted.get(path)}")
        lines, count = sums(part, files)
        if SUM.findall(text)[:1] != [(str(lines), str(count))]:
            wrong.append(f"{part}: the page says {SUM.findall(text)[:1]}, it is {lines} lines in {count} files")
    return wrong


def main(arguments: list[str]) -> int:
    try:
        page = None if not arguments or arguments == ["--rows"] else Path(arguments[0]).read_text()
    except (OSError, UnicodeDecodeError) as error:
        print(f"trust: cannot read {arguments[0]}: {error}", file=sys.stderr)
        return 1
    try:
        found = everything()
    except Proofs as module:
        print(f"trust: {module} is a file of proofs, and a clause of run reaches a definition of it", file=sys.stderr)
        return 1
    if page is None:
        show(found, bool(arguments))
        return 0
    wrong = compare(page, found)
    for text in wrong:
        print(text, file=sys.stderr)
    if wrong:
        return 1
    without = "" if antt.kit() else " (no rt on the path: the kit's not compared)"
    print(f"trust: {arguments[0]} lists the {sum(map(len, found.values()))} files that the clauses of run reach{without}")
    return 0


if __name__ == "__main__":
    sys.exit(main(sys.argv[1:]))
