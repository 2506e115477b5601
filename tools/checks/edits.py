"""The must-fail edits, looked at without a proof: the files crates/NAME/must-fail/*.edit, and the rows of docs/EDITS.md."""
import re
from pathlib import PurePath
from typing import Iterator, List, Tuple

from checks.declarations import TOP, items, text_of

PAGE = "docs/EDITS.md"
LINK = re.compile(r"\[`([\w:.]+)`\]\(\.\./([^)#]+)(?:#L\d+)?\)")


def changes(edit: str) -> List[Tuple[str, List[str]]]:
    """The files that an edit changes, each with the lines of it that it replaces."""
    found: List[Tuple[str, List[str]]] = []
    for key, value in re.findall(r"^(file|old): (.+)$", text_of(edit), re.M):
        if key == "file":
            found.append((str(PurePath(edit).parent.parent / value), []))
        elif found:
            found[-1][1].append(value)
    return found


def lines_like(path: str, old: str) -> List[int]:
    return [number for number, line in enumerate(text_of(path).split("\n"), 1) if old.strip() in line]


def function_around(source: str, number: int) -> str:
    return next((item.name for item in reversed(items(source)) if item.kind == "fn" and item.line <= number), "")


def faults_of_edit(edit: str) -> Iterator[str]:
    crate, found = PurePath(edit).parent.parent, changes(edit)
    if not found:
        yield f"{edit}: it names no file"
    for place, (changed, olds) in enumerate(found):
        folder = "proofs" if place else "src"
        if not changed.startswith(f"{crate}/{folder}/") or not (TOP / changed).is_file():
            yield f"{edit}: {changed} is no file of {folder}/"
            continue
        if not olds:
            yield f"{edit}: it replaces nothing of {changed}"
        for old in olds:
            count = len(lines_like(changed, old))
            if count != 1:
                yield f"{edit}: {changed} has {count} of the line {old.strip()}"


def faults_of_row(number: int, row: str) -> Iterator[str]:
    links = LINK.findall(row)
    at = [index for index, (_, path) in enumerate(links) if path.endswith(".edit")]
    place = f"{PAGE}:{number}"
    if not at:
        return
    if len(at) != 1 or len(links) < at[0] + 3:
        yield f"{place}: a row has one edit, its function and a clause"
        return
    (name, edit), (function, source) = links[at[0]], links[at[0] + 1]
    if PurePath(edit).stem != name or not (TOP / edit).is_file():
        yield f"{place}: there is no edit {name} at {edit}"
        return
    changed, olds = (changes(edit) or [("nothing", [])])[0]
    if changed != source:
        yield f"{place}: {name} changes {changed}, not {source}"
        return
    wanted = function.split("::")[-1]
    for found in sorted({function_around(source, line) for old in olds for line in lines_like(source, old)} - {wanted}):
        yield f"{place}: {name} changes {found}, not {wanted}"


def edits() -> Iterator[str]:
    """a must-fail edit that changes what is not there or stands twice, or another function than its row of docs/EDITS.md links

    The first file that an edit changes is a source, those after it are proofs; each line that it replaces stands there once."""
    for edit in sorted(str(path.relative_to(TOP)) for path in TOP.glob("crates/*/must-fail/*.edit")):
        yield from faults_of_edit(edit)
    for number, row in enumerate(text_of(PAGE).split("\n"), 1):
        yield from faults_of_row(number, row)
