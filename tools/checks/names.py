"""One name, one meaning: the names that are declared more than once, and those that pages use and that do not exist.

Of a page it looks at each text between backticks that stands outside of blocks of code, word by word:

- a path (`docs/FORMATS.md`, `lib.rt`): a file or a folder, from the top, from the page's folder, or by the end of its path. In a
  crate's page sources, definitions and proofs are those of the crate. `*`, `..` and NAME stand for anything; what .gitignore lists
  is made, and passes
- `call.clause`: a function of that name has such a clause, or a record such a field; in a crate's page one of the crate if it has
  a function of that name. `Type::call.clause`: a call of that type. `table.key`: such a table of a description may have this key
- `Type::call`: a call or a variant of that type; of a type or module that is not declared here, a source says it so
- `snake_case`, `CamelCase`, `IN_CAPITALS`, and a word that stands alone: a word of a source outside of comments, or an edit's name;
  `is_..`: the beginning of one
- `--word`: a script, the program or the manual page has it, or TOOLCHAIN below

at commands, there and in blocks of code that name no language:

- `bootcore WORD ..`: a subcommand of the usage text, with options that this subcommand has
- `./test PART ..`: parts of the test
- a word that begins with a folder of the repository (`examples/qemu.sh`): such a file or folder

and at all words that begin as a crate's name does, each of which is in crates.txt or a word of a source; at each `status N`, one of the
manual page; and at each link whose text is a file's name, which leads to a file of that name. A name that is not this repository's and
that no source has is a line of tools/checks/names.txt.
"""
import collections
import fnmatch
import os
import pathlib
import re
from typing import Dict, Iterator, List, Set, Tuple

from checks.declarations import ALL, TOP, crates, definitions, in_antt, in_rt, items, paths, text_of, without_comments
from checks.lists import usage

LIST = "tools/checks/names.txt"
MORE, OTHERS = "Declared more than once", "Of others"
ITEMS = ("fn", "struct", "enum", "trait", "const", "type")


def excepted(what: str) -> Set[str]:
    """The names that the list has below this heading."""
    part = text_of(LIST).split(f"\n## {what}\n")[1].split("\n## ")[0]
    return {line for line in part.split("\n") if line and not line.startswith("#")}


def names() -> Iterator[str]:
    """a name that the definitions of all crates, or their public items, declare more than once, but those of tools/checks/names.txt

    It looks at each definition of the libraries' specs/, at each constructor of a definition by `data`, and at each public function, type,
    trait and constant of their sources that stands outside of an `impl`."""
    found: Dict[Tuple[str, str], List[str]] = collections.defaultdict(list)
    for crate in crates():
        for file in sorted(crate.glob("specs/**/*.antt")):
            path = str(file.relative_to(TOP))
            for item in definitions(path):
                if item.is_public or item.kind == "constructor":
                    found["definition", item.name].append(path[len("crates/") :])
        for file in sorted(crate.glob("src/**/*.rt")):
            path = str(file.relative_to(TOP))
            for item in items(path):
                if item.is_public and item.is_outer and item.kind in ITEMS:
                    found["item", item.name].append(path[len("crates/") :])
    may = excepted(MORE)
    more = {name for (_, name), places in found.items() if len(places) > 1}
    for (_, name), places in sorted(found.items()):
        if len(places) > 1 and name not in may:
            yield f"declared more than once: {name}: {' '.join(places)}"
    for name in sorted(may - more):
        yield f"{LIST} has {name}, which stands once"


# ---- what pages name

TOOLCHAIN = {"--only"}  # options of `rt` that no script here uses

PLACEHOLDER = re.compile(r"(?<![A-Za-z])(NAME|CRATE|FILE|FUNCTION|TYPE|METHOD|VERSION|OUT)")
NOT_SOURCES = (".md", ".svg", ".png", ".txt", ".edit", ".image")
SUFFIX = r"antt|a|bash|cases|c|edit|hex|h|image|md|o|pc|png|py|rows|rs|rt|S|sh|svg|toml|txt"
FILE_NAME = re.compile(r"[\w.*-]*[\w*]\.(%s)" % SUFFIX)
PATH = re.compile(r"(?=.*[a-z])(?:\./)?[\w.*{},-]+(?:/[\w.*{},-]+)*/?")
CLAUSE = re.compile(r"((?:\w+::)?\w+)\.([a-z]\w*)")
MEMBER = re.compile(r"(?<![\w:])(\w+)::(\w+)(?![\w:])")
OPTION = re.compile(r"(?<![\w-])--[a-z][a-z-]*")
WORD = re.compile(r"(?<![\w@])(?:\.\.)?[A-Za-z_]\w*(?:\.\.(?!\w))?")
NAME = re.compile(r"(\.\.)?([a-z][a-z0-9]*)?_\w*(\.\.)?|[A-Z][a-z]+\.\.|\.\.[A-Z][a-z]+"
                  r"|[A-Z][A-Z0-9]*_[A-Z0-9_]+|[A-Z][a-z0-9]+[A-Z]\w*")
CRATE = re.compile(r"\b(?:bl|program|test|example)_[a-z]\w*")
ALONE = re.compile(r"[a-z][a-z0-9]+")
STATUS = re.compile(r"\bstatus(?:es)? (\d+(?:(?:, | and | or )\d+)*)")
BLOCK = re.compile(r"^( *)```\n(.*?)^ *```", re.M | re.S)
COMMAND = re.compile(r"(?<![\w/.-])(?:(?:\.\.?/)*bootcore (?P<bootcore>[^|&;><#()`]*)|\./test (?P<test>[a-z_ ]+))")
KEYS = re.compile(r"^key_rules count (\w+) =(.*?)^(?=key_rules |\n)", re.M | re.S)  # of a table of the description
SPAN = re.compile(r"(?<!`)(`+)(?!`)((?:(?!\n\n).)+?)(?<!`)\1(?!`)", re.S)
LINK = re.compile(r"\[`?([\w./-]+)`?\]\(([^)#\s:]+)[^)]*\)")


def files():
    """The paths of all files from the top, but for what is made."""
    for folder, below, names in os.walk(TOP):
        below[:] = [name for name in below if name not in (".git", "out", "trial", "__pycache__")]
        for name in names:
            yield os.path.relpath(os.path.join(folder, name), TOP)


class Names:
    """What there is to name."""

    def __init__(self):
        self.files = sorted(files())
        self.places = {str(up) for path in self.files for up in pathlib.PurePath(path).parents} | set(self.files)
        self.made = [line for line in (TOP / ".gitignore").read_text().split("\n") if line]
        self.crates = set(re.findall(r"^\w+", (TOP / "crates.txt").read_text(), re.M))
        self.words = {pathlib.PurePath(path).stem for path in self.files if path.endswith(".edit")}
        self.options = set(TOOLCHAIN)
        self.clauses = collections.defaultdict(set)  # by call, by Type::call, and by either with a crate's folder before it
        self.members = collections.defaultdict(set)
        self.aliases = set()  # each with its crate's folder and the type that it names
        texts = []
        for path in self.files:
            if path.endswith(NOT_SOURCES) or path == "tools/checks/names.py":
                continue
            text = (TOP / path).read_text(encoding="utf-8", errors="replace")
            if text.startswith("#!") or path.endswith((".rt", ".py", ".bash", ".1")):
                self.options.update(OPTION.findall(text.replace("\\-", "-")))
            if path == "docs/bootcore.1":
                continue
            texts.append(without_comments(path, text))
            if path.endswith(".rt") or re.match(r"source/.*\.rs$", path):
                self.read_calls(re.match(r"crates/\w+/|", path)[0], texts[-1])
            elif path.endswith(".antt"):
                self.read_records(texts[-1])
        for crate, alias, owner in self.aliases:
            self.members[alias] |= self.members[owner]
            for before in ("", crate):
                for call in self.members[owner]:
                    self.clauses[f"{before}{alias}::{call}"] |= self.clauses[f"{before}{owner}::{call}"]
        self.text = "\n".join(texts)
        self.subcommands = usage()[0]
        rules = (TOP / "crates/program_desc/specs/KeyRules.antt").read_text()
        self.keys = {(table.lower(), key) for table, keys in KEYS.findall(rules) for key in re.findall(r'codes "(\w+)"', keys)}
        manual = (TOP / "docs/bootcore.1").read_text().split(".SH EXIT STATUS\n")[1].split("\n.SH")[0]
        self.statuses = set(re.findall(r"^\.B (\d+)$", manual, re.M))
        self.parts = {path[6:-3] for path in self.files if re.match(r"tests/\w+\.py$", path)}
        self.folders = {path.split("/")[0] for path in self.files if "/" in path}
        self.words.update(re.findall(r"[A-Za-z_]\w*", self.text))

    def read_calls(self, crate, text):
        for item in in_rt(text):
            if item.kind == "type":
                self.aliases.add((crate, item.name, item.owner))
            elif item.kind in ("fn", "variant") and item.owner:
                self.members[item.owner].add(item.name)
            elif item.kind in ("ensures", "requires"):
                for before in ("", crate):
                    for call in {item.owner, item.owner.split("::")[-1]}:
                        self.clauses[before + call].add(item.name)

    def read_records(self, text):
        for item in in_antt(text):
            if item.kind == "field" and item.owner:
                self.clauses[item.owner].add(item.name)

    def has_path(self, page, path):
        path = PLACEHOLDER.sub("*", re.sub(r"^\./|/$", "", path)).replace("..", "*")
        parts = [part + slash for part in path.split("/") for slash in ("", "/")]
        if any(fnmatch.fnmatch(part, made) for part in parts for made in self.made):
            return True
        if "{" in path:
            front, listed, back = re.match(r"(.*)\{(.*)\}(.*)", path).groups()
            return all(self.has_path(page, front + one + back) for one in listed.split(","))
        folder = os.path.dirname(page)
        ways = [path, "%s/%s" % (folder, path), "*/" + path]
        if folder.startswith("crates/") and re.search(r"^(src|specs|proofs)\b|^(?!crates/).*\.(rt|antt)$", path):
            ways = ways[1:2] + ["%s/*/%s" % (folder, path)]
        return any(way in self.places or fnmatch.filter(self.places, way) for way in ways)

    def has_clause(self, page, call, clause):
        for known in (os.path.dirname(page) + "/" + call, call):
            if self.clauses.get(known):
                return clause in self.clauses[known]
        said = "%s.%s" % (call, clause)
        return said in self.text and bool(re.search(r"(?<![\w.])%s\b" % re.escape(said), self.text))

    def is_crate(self, name):
        return name in self.crates or (not name.startswith("bl_") and name in self.words)

    def has_member(self, owner, name):
        if owner in self.crates:
            return name in self.words
        return name in self.members[owner] if owner in self.members else "%s::%s" % (owner, name) in self.text

    def has_word(self, word):
        return bool(fnmatch.filter(self.words, word.replace("..", "*"))) if ".." in word else word in self.words

    def missing_commands(self, text):
        """Subcommands, options and parts of the test that do not exist; a word in capitals stands for one."""
        for command in COMMAND.finditer(text):
            words = (command["bootcore"] or "").split()
            while words and words[0] in ("--look", "--no-look"):
                words = words[1:]
            if words and re.fullmatch(r"[a-z]+", words[0]):
                if words[0] not in self.subcommands:
                    yield "bootcore " + words[0]
                for option in set(OPTION.findall(" ".join(words))) - self.subcommands.get(words[0], set()):
                    yield "bootcore %s %s" % (words[0], option)
            yield from ("./test " + part for part in (command["test"] or "").split() if part not in self.parts)

    def missing_in_block(self, page, text):
        """The same of a block of commands, and paths from a folder of the repository, each with its offset."""
        for line in re.finditer(r".+", text):
            for name in self.missing_commands(line[0]):
                yield line.start(), name
            for word in re.findall(r"(?<![\w/.-])(?:\.\.?/)*((?:\w+/)[\w./-]*\w)", line[0]):
                if word.split("/")[0] in self.folders and not self.has_path(page, word):
                    yield line.start(), word

    def missing(self, page, text):
        """The names of a text that do not exist."""
        clause = CLAUSE.fullmatch(text)
        if clause and not FILE_NAME.fullmatch(text):
            is_one = PLACEHOLDER.match(text) or clause.groups() in self.keys or self.has_clause(page, *clause.groups())
            return [] if is_one else [text]
        if ALONE.fullmatch(text):
            return [] if text in self.words else [text]
        found = list(self.missing_commands(text))
        for word in text.split():
            path = word.strip(",;:()[]")
            if PATH.fullmatch(path) and (FILE_NAME.fullmatch(path) or re.search(r"[\w*}]/[\w*{.]|\w/$", path)):
                found += [] if self.has_path(page, path) else [path]
                continue
            found += [it for it in OPTION.findall(word) if it not in self.options]
            found += ["::".join(it) for it in MEMBER.findall(word) if not self.has_member(*it)]
            found += [it for it in WORD.findall(word) if NAME.fullmatch(it) and not self.has_word(it)]
        return found


def missing_of(names, page):
    """The names of a page that do not exist, each with its line."""
    whole = text_of(page)
    text = re.sub(r"^ *```.*?^ *```", lambda block: re.sub(r"[^\n]", " ", block[0]), whole, flags=re.M | re.S)
    found = [(span, name) for span in SPAN.finditer(text) for name in names.missing(page, " ".join(span[2].split()))]
    for link in LINK.finditer(text):
        last = link[1].split("/")[-1]
        if FILE_NAME.fullmatch(last) and last != link[2].split("/")[-1]:
            found.append((link, link[1]))
    found += [(crate, crate[0]) for crate in CRATE.finditer(text) if not names.is_crate(crate[0])]
    for told in STATUS.finditer(text):
        found += [(told, "status " + number) for number in re.findall(r"\d+", told[1]) if number not in names.statuses]
    places = [(where.start(), name) for where, name in found]
    for block in BLOCK.finditer(whole):
        places += [(block.start(2) + at, name) for at, name in names.missing_in_block(page, block[2])]
    return sorted({(whole.count("\n", 0, place) + 1, name) for place, name in places})


def mentioned():
    """a name that a page uses and that does not exist, or a line of tools/checks/names.txt that is not needed"""
    all_names = Names()
    unneeded = may = excepted(OTHERS)
    for page in paths(ALL):
        for number, missed in missing_of(all_names, page):
            unneeded = unneeded - {missed}
            if missed not in may:
                yield "%s:%d: %s" % (page, number, missed)
    for missed in sorted(unneeded):
        yield "%s: not needed: %s" % (LIST, missed)
