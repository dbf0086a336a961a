"""Reads files of definitions (.antt) and of code (.rt): what they import, declare and name."""

from __future__ import annotations

import re
import subprocess
from dataclasses import dataclass
from functools import lru_cache
from pathlib import Path

TOP = Path(__file__).resolve().parent.parent
IMPORT = re.compile(r"^\s*(?:ghost )?(?:pub )?use ([\w.]+?)(?:\.\{([^}]*)\})?(?: as (\w+))?;?$", re.M)
RUST_IMPORT = re.compile(r"^(?:pub )?use (\w+(?:::\w+)*)::(?:\{([^}]*)\}|(\w+));$", re.M)
DECLARED = re.compile(r"(?:(?:abbrev|unfoldable|opaque|pub) )*(?:(?:record|data|ruleset) (\S+)|(\S+) :(?=\s|$))")
TYPE = re.compile(r"^pub (?:struct|enum|trait) (\w+)", re.M)


@dataclass(frozen=True)
class Import:
    """One line `use`: a module, and the names that it brings in, or the name that it gets."""

    module: str
    names: tuple[str, ...]
    alias: str | None


@lru_cache(maxsize=None)
def text_of(path: Path) -> str:
    return path.read_text()


@lru_cache(maxsize=None)
def imports(path: Path) -> tuple[Import, ...]:
    """What a file imports by the names of definitions. A block's own imports are among them."""
    found = []
    for module, names, alias in IMPORT.findall(text_of(path)):
        each = tuple(name.strip() for name in names.split(",") if name.strip())
        found.append(Import(module.removeprefix("Rattle."), each, alias or None))
    return tuple(found)


def tokens(text: str) -> set[str]:
    """The words of a text, without its comments; an operator is a word as well."""
    bare = re.sub(r"(?m)\s*(?:--|//).*$", "", text)
    words = set(re.findall(r"[^\s(){},;]+", bare))
    return words | {part for word in words for part in re.split(r"[.\\λ]", word) if part}


def is_named(name: str, words: set[str]) -> bool:
    """Whether a name is among the words; of an operator with gaps each of its parts does."""
    return all(part in words for part in name.split("◌") if part)


@dataclass(frozen=True)
class Chunk:
    """A declaration at the margin with all that is indented beneath it, and the comment above it."""

    names: frozenset[str]
    text: str
    lines: int


@lru_cache(maxsize=None)
def chunks(path: Path) -> tuple[Chunk, ...]:
    """A file's declarations in their order."""
    pieces: list[list[str]] = []
    comment: list[str] = []
    for line in text_of(path).splitlines():
        if line.startswith("--"):
            comment.append(line)
        elif re.match(r"(pub )?(use|mod) ", line) or not line.strip():
            comment = comment if line.strip() else []
        elif line[0].isspace() or not begins(line):
            if pieces:
                pieces[-1] += comment + [line]
            comment = []
        else:
            pieces.append(comment + [line])
            comment = []
    return tuple(Chunk(declared(piece), "\n".join(piece), len(piece)) for piece in pieces)


def begins(line: str) -> bool:
    return DECLARED.match(line) is not None or re.match(r"(abbrev )?mutual\b|module\b", line) is not None


def declared(piece: list[str]) -> frozenset[str]:
    found = (DECLARED.match(line.strip()) for line in piece)
    return frozenset(match.group(1) or match.group(2) for match in found if match)


@lru_cache(maxsize=None)
def kit() -> Path | None:
    """The folder of the kit's crates, where there is an `rt`."""
    try:
        page = subprocess.run(["rt", "doc"], capture_output=True, text=True, check=True).stdout.strip()
    except (OSError, subprocess.CalledProcessError):
        return None
    return Path(page).parent / "rattle"


def is_ours(crate: str) -> bool:
    return bool(crate) and (TOP / "crates" / crate).is_dir()


@lru_cache(maxsize=None)
def handed_on(crate: str) -> dict[str, str]:
    """The modules that a crate of the kit passes on, each with the one that it is."""
    page = kit() / crate / "specs" / "Lib.antt"
    if not page.is_file():
        return {}
    lines = re.findall(r"^pub use Rattle\.([\w.]+)$", text_of(page), re.M)
    return {module.rsplit(".", 1)[1]: module for module in lines}


def definitions_file(module: str) -> Path | None:
    """The file of a module of definitions, as `crate.specs.A.B`: ours, or the kit's; none where it is the logic's own."""
    crate, _, rest = module.partition(".specs.")
    if not rest or rest.startswith("declared."):
        return None
    root = TOP / "crates" if is_ours(crate) else kit()
    path = Path(root, crate, "specs", *rest.split(".")).with_suffix(".antt")
    if path.is_file():
        return path
    first, _, more = rest.partition(".")
    target = handed_on(crate).get(first) if not is_ours(crate) else None
    if target is None and crate == "std":
        return first_file(rest)
    return definitions_file(".".join(filter(None, [target, more]))) if target else None


def first_file(rest: str) -> Path | None:
    """A module that std passes on without a line for it is in one of the crates that it is made of."""
    for crate in ["core", "std_alloc", "std_collections", "std_io", "std_heap"]:
        path = Path(kit(), crate, "specs", *rest.split(".")).with_suffix(".antt")
        if path.is_file():
            return path
    return None


def code_file(module: str) -> tuple[Path, str] | None:
    """The file of a type that code declares, as `crate.specs.declared.a.b.Type`, and the type."""
    crate, _, rest = module.partition(".specs.declared.")
    if not rest:
        return None
    parts = [part for part in rest.split(".") if not part.startswith("The")]
    bases = [TOP / "crates" / crate] if is_ours(crate) else [kit() / name for name in (crate, "core", "std_alloc", "std_io")]
    for base in bases:
        for end in range(len(parts), 0, -1):
            path = Path(base, "src", *parts[:end]).with_suffix(".rt")
            if path.is_file():
                return path, parts[end] if end < len(parts) else ""
    return None


@lru_cache(maxsize=None)
def type_files(crate: str) -> dict[str, Path]:
    """The public types and traits of one of our crates, each with its file."""
    found = {}
    for path in sorted((TOP / "crates" / crate / "src").rglob("*.rt")):
        for name in TYPE.findall(text_of(path)):
            found[name] = path
    return found


def block(path: Path, start: str) -> str:
    """The item of a file of code whose line has this start, to its closing line."""
    lines = text_of(path).splitlines()
    for at, line in enumerate(lines):
        if re.match(start, line):
            end = at if re.search(r"[;}]$", line) else next(i for i in range(at, len(lines)) if re.match(r"[})]", lines[i]))
            return "\n".join(lines[at : end + 1])
    return ""


def declaration(path: Path, name: str) -> str:
    """How a type is declared."""
    return block(path, rf"pub (?:struct|enum|trait|union) {name}\b")


def rust_names(path: Path) -> dict[str, str]:
    """The names that a file of code imports, each with the crate that it is from."""
    crate = path.relative_to(TOP / "crates").parts[0] if path.is_relative_to(TOP / "crates") else ""
    found = {}
    for module, names, name in RUST_IMPORT.findall(text_of(path)):
        first = module.split("::")[0]
        for each in (names or name).split(","):
            found[each.strip().split(" as ")[0]] = crate if first == "crate" else first
    return found
