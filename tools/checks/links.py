"""Where links lead, what pages quote, which files of definitions and proofs a crate's page lists, and what is too wide to be read."""
import os
import re
from functools import lru_cache
from typing import Iterator, List

from checks.declarations import ALL, TOP, declared, paths, text_of

LINK = re.compile(r"\[([^\]]*)\]\(([^()# ]+\.(?:rt|antt))(#[^() ]*)?\)")
QUOTED = re.compile(r"<!-- (quoted|calls): (.*) -->")
ANY_LINK = re.compile(r"\[([^\]]*)\]\([^)]*\)")
CELL, LINE = 160, 200
LISTED = re.compile(r"\[(specs|proofs)\]\((?:specs|proofs)\)|`([A-Z][A-Za-z0-9]*)`")


def anchors() -> Iterator[str]:
    """a link [`NAME`](PATH) to a source or a file of definitions whose file does not declare NAME, is not there, or with a line's number"""
    for page in paths():
        for number, line in enumerate(text_of(page).splitlines(), 1):
            for text, target, anchor in LINK.findall(line):
                path = os.path.normpath(os.path.join(os.path.dirname(page), target))
                name = re.fullmatch(r"`([^` ]+)`", text)
                if not (TOP / path).is_file():
                    yield f"{page}:{number}: there is no {path}"
                elif anchor:
                    yield f"{page}:{number}: the link to {path} has {anchor}: a link names what it leads to"
                elif name and "/" not in name[1] and name[1] not in declared(path) and os.path.basename(path) != name[1]:
                    yield f"{page}:{number}: `{name[1]}` is not declared in {path}"


# ---- quotes


@lru_cache(maxsize=None)
def bare_text(path: str) -> str:
    """A source's lines without their indentation, each between line feeds."""
    if not (TOP / path).is_file():
        return ""
    return "\n" + "".join(f"{line.lstrip()}\n" for line in text_of(path).splitlines())


def stands(piece: List[str], sources: List[str], ends: List[str]) -> bool:
    """The lines stand in a source one after the other, the last with one of these ends."""
    text = "\n" + "\n".join(line.lstrip() for line in piece)
    return any(f"{text}{end}\n" in bare_text(source) for source in sources for end in ends)


def unquoted(page: str) -> Iterator[str]:
    sources: List[str] = []
    by_line, piece, begins, inside = False, [], 0, False
    for number, line in enumerate(text_of(page).splitlines(), 1):
        quoted = QUOTED.fullmatch(line)
        if quoted and not inside:
            by_line, sources = quoted[1] == "calls", quoted[2].split()
            for source in sources:
                if not bare_text(source):
                    yield f"{page}:{number}: no file {source}"
        elif line.startswith("```"):
            if inside and sources and piece and not stands(piece, sources, [""]):
                yield f"{page}:{begins}: not in its source: {piece[0].lstrip()}"
            if inside:
                sources, by_line = [], False
            inside, piece, begins = not inside, [], number
        elif inside and sources and not line:
            if piece and not stands(piece, sources, [""]):
                yield f"{page}:{begins}: not in its source: {piece[0].lstrip()}"
            piece = []
        elif inside and sources:
            piece.append(line)
            # a line alone, with or without what may follow a signature
            if by_line:
                if not stands(piece, sources, ["", " {", ";"]):
                    yield f"{page}:{number}: not in its source: {line.lstrip()}"
                piece = []


def quotes() -> Iterator[str]:
    """a line in a block below `<!-- quoted: PATH.. -->` or `<!-- calls: PATH.. -->` that no file of these has, or no such file

    Behind `calls:` each line must stand in one of the files, wherever; what follows a signature may be left out. Behind `quoted:` empty
    lines divide the block into pieces, whose lines must stand in one of the files one after the other. Indentation does not count."""
    for page in paths():
        yield from unquoted(page)


# ---- what a crate's page lists


def listed() -> Iterator[str]:
    """a name with a capital that a crate's page lists behind [specs](specs) or [proofs](proofs), and that is no file or word there"""
    for page in paths(("crates/*/README.md",)):
        crate, folder = os.path.dirname(page), ""
        words = {word for kind in ("specs", "src") for file in sorted((TOP / crate / kind).rglob("*")) if file.is_file()
                 for word in re.findall(r"\w+", file.read_text(encoding="utf-8"))}
        for line in text_of(page).splitlines():
            if not line or line[0] in "#|":
                folder = ""
            for here, name in LISTED.findall(line):
                folder = here or folder
                if not name or not folder or any((TOP / crate / folder).rglob(f"{name}.antt")):
                    continue
                if folder != "specs" or name not in words:
                    yield f"{page}: {crate}/{folder} has no '{name}'"


# ---- widths


def width(source: str, link: str) -> int:
    return len(ANY_LINK.sub(link, source).replace("`", "").strip("| "))


def widths() -> Iterator[str]:
    """a table cell of more than 160 characters, a row of more than 200 beside links, another line of more than 200"""
    for page in paths(("*.md",) + ALL[3:]):
        for number, line in enumerate(text_of(page).splitlines(), 1):
            if line.startswith("<!--"):
                continue
            is_row = line.startswith("|")
            cells = [len(ANY_LINK.sub(r"[\1]", cell)) for cell in line.strip("|").split("|")] if is_row else []
            for cell in cells:
                if cell > CELL:
                    yield f"{page}:{number}: a cell of {cell} characters"
            whole = width(line, "" if is_row else r"\1")
            if whole > LINE:
                yield f"{page}:{number}: a {'row' if is_row else 'line'} of {whole} characters"
