"""Lists that are written by hand: the places of a refusal and of a key in CONTRIBUTING.md, and the words that shells complete."""
import fnmatch
import re
import subprocess
from typing import Dict, Iterator, List, Set, Tuple

from checks.declarations import TOP, text_of

PAGE = "CONTRIBUTING.md"
PLACES = re.compile(r"<!-- places of (.*) -->")
REFUSAL, KEY = re.compile(r"the refusal (\w+), (\d+)"), re.compile(r"the key ([a-z0-9_]+)")
PROGRAM = "crates/bootcore/src/program.rt"
USAGE = re.compile(r'^const USAGE: &str = "\\\nbootcore [\d.]+\nusage: (.*?)^";$', re.M | re.S)
COMPLETIONS = ("completions/bootcore.bash", "completions/_bootcore", "completions/bootcore.fish")


def found(pattern: str, *where: str) -> List[str]:
    """The lines of files here that the pattern finds, with file and number."""
    pathspecs = [f":(glob){path}" for path in where]
    ran = subprocess.run(
        ["git", "grep", "-nI", "--untracked", "-P", "-e", pattern, "--", *pathspecs],
        cwd=TOP, stdout=subprocess.PIPE, universal_newlines=True, check=False,
    )
    return ran.stdout.splitlines()


def lines_of_refusal(name: str, number: str) -> List[str]:
    constant = re.sub(r"([A-Z])", r"_\1", name).strip("_").upper()
    lines = found(rf"\b{name}\b", "crates/*/src/**", "crates/*/specs/**", "crates/*/proofs/**", "crates/*/must-fail/**", "crates/*/README.md",
                  "model/**", "docs/**", "examples/**", "cases/**", "rows/**", "tests/drivers/**", "c/**", "source/bootcore/src/**")
    # in the header it has capitals: MapTooLong, MAP_TOO_LONG
    lines += found(rf"\bBOOTCORE_REFUSAL_{constant}\b", "include/**")
    # a number alone may count anything, so it is looked for in the forms that only a refusal has
    lines += found(rf"refuse\({number}[,)]", "model/**")
    lines += found(rf"^ *\[{number}\] = \"", "examples/**", "include/**")
    lines += found(rf"refused ([0-9]+ )?{number}([^0-9]|$)", "cases/**", "rows/**")
    return lines + found(rf"\| {number}( [a-z][a-z ]*)? \|", "docs/BOOT-RULES.md", "docs/GRUB.md", "docs/FIELD.md")


def lines_of_key(name: str) -> List[str]:
    # in the crates that read descriptions every such word is about the key, which is a constant of its table too
    lines = found(rf"\b({name}|{name.upper()})\b", "crates/program_desc/src/**", "crates/program_desc/specs/**",
                  "crates/program_desc/proofs/**", "crates/program_commands/src/document.rt", "crates/program_commands/proofs/document/**")
    lines += found(rf"\bdescription\.{name}\b", "crates/*/src/**", "crates/*/specs/**")
    lines += found(f'"{name}"', "model/rules/**", "model/drawing/**")
    return lines + found(f"`{name}`", "docs/FORMATS.md")


def lists() -> Iterator[Tuple[str, List[str], List[str]]]:
    """Each list of that page: what it is of, the lines on which that stands, the places that it has."""
    lines = text_of(PAGE).splitlines()
    for at, line in enumerate(lines):
        if not (comment := PLACES.fullmatch(line)):
            continue
        end = next(n for n in range(at, len(lines)) if not lines[n])
        places = re.findall(r"`([^` ]*/[^` ]*)`", "\n".join(lines[at:end]))
        if refusal := REFUSAL.fullmatch(comment[1]):
            yield comment[1], lines_of_refusal(*refusal.groups()), places
        elif key := KEY.fullmatch(comment[1]):
            yield comment[1], lines_of_key(key[1]), places
        else:
            yield comment[1], [], [line]


def places() -> Iterator[str]:
    """a place of a refusal or a key that the lists of CONTRIBUTING.md lack, or one that they have although nothing stands there

    A list stands below a comment, `<!-- places of the refusal MapTooLong, 29 -->` or `<!-- places of the key fill -->`, up to the next
    empty line. A backquoted word with a slash is a place: a file, or a pattern of files such as `rows/*.rows`."""
    none = True
    for what, lines, listed in lists():
        none = False
        files = sorted({line.split(":", 1)[0] for line in lines})
        for file in files:
            if not any(fnmatch.fnmatch(file, place) for place in listed):
                yield f"{PAGE}: the list of {what} lacks {file}"
        for place in listed:
            if not any(fnmatch.fnmatch(file, place) for file in files):
                yield f"{PAGE}: {what} does not stand in {place}"
    if none:
        yield f"{PAGE}: no list of places"


def show_places() -> Iterator[str]:
    for _, lines, _ in lists():
        yield from (line[:160] for line in sorted(set(lines)))


# ---- the words of the program's usage text


def usage() -> Tuple[Dict[str, Set[str]], Set[str]]:
    """Each subcommand with its options, and the words that an option may have for its value."""
    subcommands: Dict[str, Set[str]] = {}
    values: Set[str] = set()
    found = USAGE.search(text_of(PROGRAM))
    for name, rest in re.findall(r"bootcore ([a-z]+)(.*)", found[1] if found else ""):
        subcommands.setdefault(name, set()).update(re.findall(r"--[a-z]+", rest))
        values.update(word for words in re.findall(r"[a-z]+(?:\|[a-z]+)+", rest) for word in words.split("|"))
    return subcommands, values


def offered(path: str) -> Dict[str, Set[str]]:
    """The options that a file offers for each subcommand, beside --help."""
    text, found = text_of(path), {}
    if path.endswith(".bash"):
        found = {name: set(options.split()) for name, options in re.findall(r"^ +(\w+)\) options='(.*)' ;;$", text, re.M)}
    elif path.endswith(".fish"):
        for name, option in re.findall(r"__bootcore_wants (\w+) (--\w+)'", text):
            found.setdefault(name, set()).add(option)
    else:
        for name, block in re.findall(r"^    (\w+)\)\n(.*?)^ +;;$", text, re.M | re.S):
            found[name] = set(re.findall(r"(--\w+)\[", block))
    return {name: options - {"--help"} for name, options in found.items()}


def completions() -> Iterator[str]:
    """a subcommand, an option or a value of the usage text that a shell's completion lacks, or one that it has beside them"""
    subcommands, values = usage()
    for path in COMPLETIONS:
        text, told = text_of(path), offered(path)
        for name in sorted(subcommands.keys() | told.keys()):
            if told.get(name) != subcommands.get(name):
                yield f"{path}: {name} has {sorted(told.get(name) or ())}, the usage text {sorted(subcommands.get(name) or ())}"
        for value in sorted(values):
            if not re.search(rf"\b{value}\b", text):
                yield f"{path}: it lacks {value}"
