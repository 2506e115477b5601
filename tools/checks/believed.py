"""What a reader must believe: the definitions of each crate's specs/, but for specs/internal/; the hour that docs/THEOREMS.md gives to
those that every boot has; and the lines of SECURITY.md, which counts all that must be right although no proof says so.

A definition's lines are its type and equations; a struct, an enum, a law or a clause goes up to its last brace. Comments and empty lines
do not count. A row of that page has its definitions and those "with them"; without that column, all that they use but what other rows
name or a row above has, and operators."""
import re
from functools import lru_cache
from pathlib import Path
from typing import Dict, Iterator, List, Set, Tuple

from checks.declarations import TOP, crates, declared, definitions, exports, items, text_of, without_comments

INTERNAL = re.compile(r"^ *(?:ghost |pub )*use Rattle\.\w+\.specs\.internal(?:\.\w+)+?(?:\.\{(.*)\}| as (\w+));?$", re.M)


def believed(crate: Path) -> List[str]:
    """The files of specs/ and of its folders that have definitions, and not only the list of a folder's files."""
    files = [file for file in crate.glob("specs/**/*.antt") if "internal" not in file.relative_to(crate).parts]
    return sorted(str(file.relative_to(TOP)) for file in files if file.name != "Lib.antt" and not file.with_suffix("").is_dir())


def definition_lines(path: str) -> int:
    return sum(1 for line in text_of(path).split("\n") if line.strip() and not re.match(r"\s*(--|(pub )?use )", line))


def listing() -> Iterator[str]:
    """These files, with the lines of their definitions, crate by crate."""
    total = 0
    for path in (path for crate in crates() for path in believed(crate)):
        lines = definition_lines(path)
        total += lines
        yield f"{lines:5} {path}"
    yield f"{total:5} lines of definitions"


def internal_names(text: str) -> Set[str]:
    listed = ",".join(names or alias for names, alias in INTERNAL.findall(text))
    return {name.split()[-1] for name in listed.split(",") if name.strip()}


def clauses_with_internal_names(crate: Path) -> Iterator[str]:
    sources = {str(file.relative_to(TOP)): file.read_text(encoding="utf-8") for file in sorted(crate.glob("src/**/*.rt"))}
    exported = exports(sources)
    for path, text in sources.items():
        names, lines = internal_names(text), text.split("\n")
        for item in items(path) if names else ():
            if item.kind != "fn" or not item.is_public or (item.owner or f"{Path(path).stem}::{item.name}") not in exported:
                continue
            below = lines[item.line - 1 :]
            margin = re.match(" *", below[0])[0]
            head = "\n".join(below[: next((k for k, line in enumerate(below) if line.startswith(margin + "{")), None)])
            used = [name for name in names if re.search(rf"(?<![\w.]){re.escape(name)}(?!\w)", head)]
            if used:
                yield f"{path}: {item.name} has {', '.join(sorted(used))} in its clauses"


def uses_internal() -> Iterator[str]:
    """a definition that a reader must believe, or a clause of a function that a crate exports, which uses one of a specs/internal/"""
    for crate in crates():
        for path in believed(crate):
            names = internal_names(text_of(path))
            if names:
                yield f"{path}: it uses {', '.join(sorted(names))} of specs/internal"
        yield from clauses_with_internal_names(crate)


# ---- a reader's hour

PAGE = "docs/THEOREMS.md"
LINK = re.compile(r"\[`([^`]+)`\]\(\.\./(crates/[^)#]+)\)")
SPECS = re.compile(r"use Rattle\.((?:bl|c|program)_\w+)\.specs\.([\w.]+?)(?: as (\w+)|\.\{(.*)\})$", re.M)
MINUTE = 12
Place = Tuple[str, int]  # a file and a line, from 1 on


@lru_cache(maxsize=None)
def texts() -> Dict[str, str]:
    files = [file for kind in ("specs/**/*.antt", "src/**/*.rt") for file in TOP.glob(f"crates/*/{kind}")]
    return {str(file.relative_to(TOP)): file.read_text(encoding="utf-8") for file in files}


def block(path: str, number: int) -> List[str]:
    """The lines of what is declared at a line of a file."""
    lines = [line for line in texts()[path].splitlines()[number - 1 :] if not re.match(r" *(--|//) (>>>|<<<)", line)]
    end = depth = 0
    if path.endswith(".rt"):
        last = "{}" if " fn " in lines[0] else ("}", ";")
        while end == 0 or depth or not lines[end - 1].endswith(last):
            depth += lines[end].count("{") - lines[end].count("}")
            end += 1
    else:
        margin = re.match(" *", lines[0])[0]
        name = next(item.name for item in items(path) if item.line == number)
        goes_on = re.compile(rf"{margin}([ }})]|{re.escape(name)}\b)|\s*$")
        end = next((n for n, line in enumerate(lines) if n and not goes_on.match(line)), len(lines))
    return [line for line in lines[:end] if not re.match(r"\s*(--|//|#\[|$)", line)]


@lru_cache(maxsize=None)
def defined(path: str) -> Dict[str, int]:
    """The line of each definition of a file; a constructor's is that of its type."""
    return {item.name: item.begins or item.line for item in definitions(path)}


def constants(path: str) -> Dict[str, int]:
    """The line of each constant of a source."""
    return {item.name: item.line for item in items(path) if item.kind == "const"}


@lru_cache(maxsize=None)
def meanings(path: str) -> Dict[str, Place]:
    """What each name means that a file uses or declares."""
    names = {name: (path, number) for name, number in defined(path).items()}
    for crate, module, alias, listed in SPECS.findall(texts()[path]):
        *folders, last = [part for part in module.split(".") if part != "TheVariants"]
        if last == "TheConstants":
            file = f"crates/{crate}/src/{'/'.join(folders[1:])}.rt"
            there = constants(file)
        elif folders[:1] == ["declared"]:
            file = f"crates/{crate}/src/{'/'.join(folders[1:])}.rt"
            there = dict.fromkeys(listed.split(", "), defined(file)[last])
        else:
            file = f"crates/{crate}/specs/{'/'.join([*folders, last])}.antt"
            there = defined(file)
        for name in there if alias else set(listed.split(", ")) & set(there):
            names[f"{alias}.{name}" if alias else name] = (file, there[name])
    for crate, listed in re.findall(r"^use ((?:bl|c|program)_\w+|crate)::([^;]*);", texts()[path], re.M):
        folder = f"crates/{path.split('/')[1] if crate == 'crate' else crate}/src/"
        for file in (file for file in texts() if file.startswith(folder)):
            for name, number in defined(file).items():
                if re.search(rf"\b{name}\b", listed):
                    names[name] = (file, number)
    return names


def all_used(own: Set[Place], others: Set[Place]) -> Set[Place]:
    """These definitions and what they use, but for others and what only those use."""
    seen: Set[Place] = set()
    todo = list(own)
    while todo:
        place = todo.pop()
        if place in seen or place in others:
            continue
        seen.add(place)
        names = meanings(place[0])
        for word in re.findall(r"(?<![\w.])[^\W\d][\w.]*", " ".join(block(*place))):
            parts = word.split(".")
            todo += [names[name] for name in (parts[0], ".".join(parts[:2])) if name in names]
    return seen


def told(page: List[str]) -> List[str]:
    """The page's lines, with the numbers that hold."""
    tables: List[int] = []
    parts, rows, alone = [], [], None
    for at, line in enumerate(page):
        if line.startswith("| Lines | "):
            alone = None if "With them" in line else len(tables)
            tables.append(0)
        elif re.match(r"\| [^|]* \| \d+ \| \d+ \|$", line):
            parts.append(at)
        elif tables and re.match(r"\| \d+ \| ", line):
            cells = " ".join(line.split(" | ")[1 : 3 if alone is None else 2])
            rows.append((at, len(tables) - 1, {(p, declared(p)[name]) for name, p in LINK.findall(cells)}))
    named: Set[Place] = set().union(*(own for _, _, own in rows))
    for at, table, own in rows:
        if table == alone:
            own = all_used(own, named - own)
            named |= own
        lines = sum(len(block(*place)) for place in own)
        tables[table] += lines
        lines = lines or tables[table]
        page[at] = re.sub(r"^\| \d+", f"| {lines}", page[at])
        page[at] = re.sub(r"in all, \d+", f"in all, {round(lines / MINUTE)}", page[at])
    for at, lines in zip(parts, [*tables[: len(parts) - 1], sum(tables[: len(parts) - 1])]):
        page[at] = re.sub(r"\d+ \| \d+ \|$", f"{lines} | {round(lines / MINUTE)} |", page[at])
    return page


def hour() -> Iterator[str]:
    """a row of docs/THEOREMS.md that counts other lines of definitions than there are; `--write` writes the numbers"""
    page = text_of(PAGE).split("\n")
    for at, (line, new) in enumerate(zip(page, told(list(page))), 1):
        if line != new:
            yield f"{PAGE}:{at}: {line[:40]}.. : it is {new[:28]}.."


def write_hour() -> None:
    (TOP / PAGE).write_text("\n".join(told(text_of(PAGE).split("\n"))), encoding="utf-8")


# ---- how much is trusted

TRUSTED = "SECURITY.md"
WHOLE = re.compile(r"^\| The four together \| (\d+) \| (\d+) \|$", re.M)
ROW = re.compile(r"(\| [^|]+ \| )(about )?([\d,]+)( \| ([^|]+) \|.*)")
CODE = (".antt", ".c", ".h", ".py", ".rs", ".rt", ".S")


def counted(path: str) -> int:
    """The lines of a file that a reader reads: without comments and empty ones; of definitions without imports."""
    if path.endswith(".antt"):
        return definition_lines(path)
    return sum(1 for line in without_comments(path, text_of(path)).split("\n") if line.strip())


def files_of(pattern: str) -> Set[str]:
    """A pattern of files, or of folders with all their sources; of a crate's specs/ what must be believed."""
    found: Set[str] = set()
    for place in TOP.glob(pattern):
        if place.is_file():
            found.add(str(place.relative_to(TOP)))
        elif place.name == "specs":
            found.update(believed(place.parent))
        else:
            files = (str(file.relative_to(TOP)) for file in place.rglob("*") if file.is_file() and "tests" not in file.parts)
            found.update(file for file in files if file.endswith(CODE) or (TOP / file).read_bytes()[:2] == b"#!")
    return found


def with_lines(row: str) -> Tuple[str, Set[str]]:
    """A row of the table with the lines that there are, and the files that it counts: those that its third cell names."""
    before, about, _, after, cell = ROW.fullmatch(row).groups()
    files = set().union(*(files_of(pattern) for pattern in re.findall(r"`([^`]+)`", cell)))
    lines = sum(map(counted, files))
    if not files:
        lines, minutes = map(int, WHOLE.search(text_of(PAGE)).groups())
        after = re.sub(r"\d+ minutes", f"{minutes} minutes", after)
    if about:
        lines = round(lines, -3 if lines >= 10000 else -2)
    return f"{before}{about or ''}{lines:,}{after}", files


def trusted_rows(page: List[str]) -> Iterator[Tuple[int, str, Set[str]]]:
    first = next(at for at, line in enumerate(page) if line.startswith("| What must be right ")) + 2
    for at in range(first, next(at for at in range(first, len(page)) if not page[at].startswith("|"))):
        yield (at, *with_lines(page[at]))


def trusted() -> Iterator[str]:
    """a row of SECURITY.md that counts other lines than there are, or a file that must be believed and that none counts; `--write` as well"""
    page, has = text_of(TRUSTED).split("\n"), set()
    for at, new, files in trusted_rows(page):
        has |= files
        if page[at] != new:
            yield f"{TRUSTED}:{at + 1}: it is {new[:150]}"
    wanted = {path for crate in crates() if not crate.name.startswith("example_") for path in believed(crate)}
    for path in sorted((wanted | files_of("c") | files_of("include")) - has):
        yield f"{TRUSTED}: no row counts {path}"


def write_trusted() -> None:
    page = text_of(TRUSTED).split("\n")
    for at, new, _ in list(trusted_rows(page)):
        page[at] = new
    (TOP / TRUSTED).write_text("\n".join(page), encoding="utf-8")
