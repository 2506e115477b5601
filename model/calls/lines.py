"""line: the command line of the program. docs/FORMATS.md "What the program says";
docs/bootcore.1."""

from typing import List

from . import Call

HELP = ("--help", "-h")
ORDERS = ("forward", "reverse")
# The options of each subcommand; --out must be given where it may be.
OPTIONS = {"boot": ("--out", "--order"), "map": (), "walk": (), "convert": ("--out",),
           "explain": ("--order",), "digest": ()}
# The options of each that have no value, and may be given once.
FLAGS = {"digest": ("--image",)}
# What the path of each is called.
FIELDS = {"boot": "description", "map": "description", "walk": "image", "convert": "image",
          "explain": "description", "digest": "description"}


class Refused(Exception):
    """Words that are no command of the program."""


class Help(Exception):
    """Words that ask for help."""


def value_of(words: List[str], name: str) -> str:
    """The value of an option, behind a sign of equality or as the next word, which is taken."""
    word = words.pop(0)
    if word.startswith(name + "="):
        return word[len(name) + 1:]
    if not words or words[0].startswith("-"):
        raise Refused
    return words.pop(0)


def job(words: List[str]) -> str:
    """The program's name, a subcommand, its one path, and its options and flags in any order."""
    rest = list(words[1:])
    if not rest:
        raise Refused
    command = rest.pop(0)
    if command in HELP:
        raise Help
    if command not in OPTIONS:
        raise Refused
    paths, options, flags = [], {}, set()
    while rest:
        name = rest[0].partition("=")[0]
        if rest[0] == "--":
            paths += rest[1:]
            break
        if rest[0] in HELP:
            raise Help
        if name in OPTIONS[command]:
            if name in options:
                raise Refused
            options[name] = value_of(rest, name)
        elif rest[0] in FLAGS.get(command, ()):
            if rest[0] in flags:
                raise Refused
            flags.add(rest.pop(0))
        elif rest[0].startswith("-"):
            raise Refused
        else:
            paths.append(rest.pop(0))
    order = options.get("--order", "forward")
    if len(paths) != 1 or order not in ORDERS:
        raise Refused
    if "--out" in OPTIONS[command] and "--out" not in options:
        raise Refused
    if "--image" in flags:
        return 'DigestImage { image: "%s" }' % paths[0]
    told = [(FIELDS[command], '"%s"' % paths[0])]
    if "--out" in OPTIONS[command]:
        told.append(("new" if command == "convert" else "image", '"%s"' % options["--out"]))
    if "--order" in OPTIONS[command]:
        told.append(("order", order.capitalize()))
    return "%s { %s }" % (command.capitalize(), ", ".join("%s: %s" % one for one in told))


def line(table, row):
    try:
        return job(row.words)
    except Help:
        return "Help"
    except Refused:
        return "Refused"


CALLS = {"line": Call(line)}
