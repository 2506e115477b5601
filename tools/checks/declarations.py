"""The repository's texts, and what a source or a file of definitions declares: the one parser of all tools that look at such."""
import re
from functools import lru_cache
from pathlib import Path
from typing import Dict, Iterator, List, NamedTuple, Set, Tuple

TOP = Path(__file__).resolve().parent.parent.parent
OWN = ("README.md", "CONTRIBUTING.md", "SECURITY.md", "docs/*.md", "crates/*/README.md")
ALL = OWN + ("cases/README.md", "model/README.md", "source/README.md", "source/*/README.md")

# in .rt
HEAD = re.compile(r"(?:unsafe )?(?:impl|(?:pub(?:\([a-z]+\))? )?(?:unsafe )?(trait|enum|struct))[ <]")
OWNER = re.compile(
    r"(?:(?:pub(?:\([a-z]+\))?|unsafe) )*(?:impl|trait|enum|struct) *(?:(\w+(?:::\w+)*) for )?[&(]*(\w+(?:::\w+)*)"
)
ITEM = re.compile(r'( *)(pub(?:\([a-z]+\))? )?(?:(?:const|unsafe|ghost|extern "C") )*(fn|struct|enum|trait|const|type) (\w+)')
CLAUSE = re.compile(r" *(ensures|requires) (\w+) \{")
VARIANT, FIELD = re.compile(r"    ([A-Z]\w*)\b"), re.compile(r"    (?:pub(?:\([a-z]+\))? )?(\w+): ")
ALIASED = re.compile(r"[^=]*= (\w+)")
EXPORTED = re.compile(r"^ *pub use ([\w:]+)(?:::\{([^}]*)\})?(?: as \w+)?;", re.M)
# in .antt
MARKS = re.compile(r"((?:(?:pub|abbrev|unfoldable|data|record) )*)([^ :({]+)( *:|$)?")
NONE = ("use", "mod", "mutual")


def paths(patterns: Tuple[str, ...] = OWN) -> Iterator[str]:
    """The pages."""
    for pattern in patterns:
        for page in sorted(TOP.glob(pattern)):
            yield str(page.relative_to(TOP))


def text_of(path: str) -> str:
    return (TOP / path).read_text(encoding="utf-8")


def crates() -> List[Path]:
    return sorted(path for path in (TOP / "crates").iterdir() if path.is_dir())


def without_comments(path: str, text: str) -> str:
    """A source's text; Python's docstrings say what is meant, so they count as comments."""
    if path.endswith((".rt", ".rs", ".c", ".h", ".S")):
        return re.sub(r"//.*", " ", re.sub(r"/\*.*?\*/", " ", text, flags=re.S))
    if path.endswith(".antt"):
        return re.sub(r"--.*", " ", re.sub(r"\{-.*?-\}", " ", text, flags=re.S))
    return re.sub(r"(^|\s)#.*", " ", re.sub(r'^\s*""".*?"""', " ", text, flags=re.M | re.S), flags=re.M)


class Item(NamedTuple):
    """What a line declares.

    In .rt: `fn`, `struct`, `enum`, `trait`, `const`, `type`, which names the type `owner`; `impl`, of the type `name`; `variant` and
    `field`; and `ensures` and `requires`, clauses of the call `owner`. An `owner` is the type or the trait around, and `trait` the one of
    an `impl`. In .antt: `definition`; `field` of a record; `constructor`, or any other name that gets a type. An `owner` is the record or
    the type around, whose line is `begins`."""

    line: int
    kind: str
    name: str
    owner: str = ""
    is_public: bool = False
    is_outer: bool = True
    trait: str = ""
    begins: int = 0


def without_arguments(line: str) -> str:
    """A line without what stands in angle brackets."""
    count = 1
    while count:
        line, count = re.subn(r"<[^<>]*>", "", line)
    return line


def owner_of(line: str) -> Tuple[str, str]:
    """The type of an `impl`, and its trait if it has one; of a trait or an enum itself."""
    found = OWNER.match(without_arguments(line))
    return (found[2].split("::")[-1], (found[1] or "").split("::")[-1]) if found else ("", "")


def in_rt(text: str) -> Iterator[Item]:
    owner = trait = call = holder = ""
    for number, line in enumerate(text.splitlines(), 1):
        if (head := HEAD.match(line)) and line.endswith("{"):
            (owner, trait), holder = owner_of(line), head[1] or "impl"
            if holder == "impl":
                yield Item(number, "impl", owner, trait=trait)
        elif line.startswith("}"):
            owner = trait = holder = ""
        if item := ITEM.match(line):
            margin, public, kind, name = item.groups()
            named = ALIASED.match(line[item.end() :])
            if kind in ("fn", "struct") or not margin:
                around = (named[1] if named else "") if kind == "type" else owner if kind == "fn" else ""
                yield Item(number, kind, name, around, public == "pub ", not margin, trait if kind == "fn" else "")
            if kind == "fn":
                call = f"{owner}::{name}" if owner else name
        elif call and (clause := CLAUSE.match(line)):
            yield Item(number, clause[1], clause[2], call)
        elif holder == "enum" and (variant := VARIANT.match(line)):
            yield Item(number, "variant", variant[1], owner)
        elif holder == "struct" and (field := FIELD.match(line)):
            yield Item(number, "field", field[1], owner)


def in_antt(text: str) -> Iterator[Item]:
    owner, begins, margin, is_data, mutual = "", 0, 0, False, False
    for number, line in enumerate(text.splitlines(), 1):
        depth = len(line) - len(line.lstrip(" "))
        if line[depth:] and depth == 0:
            mutual = line.startswith("mutual")
        if line[depth:] and depth <= margin:
            owner, is_data = "", False
        found = MARKS.match(line[depth:])
        if not found or found[2] in NONE:
            continue
        marks, name, after = found.groups()
        is_outer, is_typed = depth == 0 or (mutual and depth == 2), ":" in (after or "")
        if marks not in ("", "pub ") or (marks and is_outer and not owner):
            yield Item(number, "definition", name, "", "pub " in marks, is_outer)
        elif marks or (owner and not is_data and is_typed):
            yield Item(number, "field", name, owner, bool(marks), is_outer, begins=begins)
        elif is_typed or (is_data and depth == margin + 2 and after is not None):  # its type may stand on the next line
            yield Item(number, "constructor", name, owner, is_outer=is_outer, begins=begins)
        if "record " in marks or "data " in marks:
            owner, begins, margin, is_data = name, number, depth, "data " in marks


@lru_cache(maxsize=None)
def items(path: str) -> List[Item]:
    """What a file declares; its path is from the top of the repository."""
    return list((in_antt if path.endswith(".antt") else in_rt)(text_of(path)))


class Lines(Dict[str, Tuple[int, int]]):
    """Of each name its rank and its line: the first line of the least rank counts."""

    def declare(self, name: str, line: int, rank: int = 1) -> None:
        if name not in self or rank < self[name][0]:
            self[name] = (rank, line)


@lru_cache(maxsize=None)
def declared(path: str) -> Dict[str, int]:
    """The line of each name that a link may lead to: in .rt also of `Type::call`, where `type Type = ..` of the same file may name the
    type, of `call.clause` and of `Type::call.clause`."""
    lines = Lines()
    for item in items(path):
        # of a condition and a promise of one name, the promise
        rank = {"field": 2, "constructor": 3, "requires": 2}.get(item.kind, 1)
        if item.kind in ("ensures", "requires"):
            lines.declare(f"{item.owner.split('::')[-1]}.{item.name}", item.line, rank)
            lines.declare(f"{item.owner}.{item.name}", item.line, rank)
        elif path.endswith(".antt") or item.kind not in ("impl", "variant", "field", "const"):
            lines.declare(item.name, item.line, rank)
            if item.kind == "fn" and item.owner:
                lines.declare(f"{item.owner}::{item.name}", item.line, rank)
    for alias in items(path):
        if alias.kind == "type":
            of_type = f"{alias.owner}::"
            for name, (rank, line) in [each for each in lines.items() if each[0].startswith(of_type)]:
                lines.declare(f"{alias.name}::{name[len(of_type) :]}", line, rank)
    return {name: line for name, (_, line) in lines.items()}


@lru_cache(maxsize=None)
def definitions(path: str) -> List[Item]:
    """The definitions of a file, those of a `mutual` block too, and the constructors of a `data`; of a source its public types."""
    if path.endswith(".rt"):
        return [item for item in items(path) if item.kind in ("struct", "enum") and item.is_public and item.is_outer]
    return [
        item for item in items(path)
        if (item.kind == "definition" and item.is_outer) or (item.kind == "constructor" and item.begins)
    ]


def handed_on(text: str) -> Set[str]:
    """What a source hands on: types by their name, functions by that of their module too."""
    found: Set[str] = set()
    for path, names in EXPORTED.findall(text):
        module, _, last = path.rpartition("::")
        module, listed = (path, names.split(",")) if names else (module, [last])
        for name in (each.split()[0] for each in listed if each.strip()):
            found.add(name if name[0].isupper() else f"{module.split('::')[-1]}::{name}")
    return found


def exports(sources: Dict[str, str]) -> Set[str]:
    """What a crate hands out, also by way of files that hand it on, of the texts of its sources."""
    found = next((handed_on(text) for path, text in sources.items() if path.endswith("/src/lib.rt")), set())
    names = {name.split("::")[-1] for name in found}
    for text in sources.values():
        found |= {name for name in handed_on(text) if name.split("::")[-1] in names}
    return found
