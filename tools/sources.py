"""What an unproved program is compiled from: all sources, or those of a smaller program, which is there sooner."""
import os
import re
from typing import NamedTuple

import crates

MODULES = f"{crates.TOP}/crates/{crates.PROGRAM}/src"
STAY = re.compile(r"^(?:ghost )?use (?:crate|std|debug_server|Rattle\.std)\b[^;]*;\n", re.M)
INSTEAD = '    Ok(crate::fail(rt, 69, &"uringwalk: this program was compiled without this subcommand"))\n}\n'


class MissingFunction(Exception):
    """A module doesn't have the function that runs its subcommand."""


class Apart(NamedTuple):
    """The module that runs a subcommand, and its function."""

    module: str
    function: str


class Program(NamedTuple):
    """A program: its name, the subcommands that it is compiled without, and the seconds that compiling takes, about."""

    name: str
    without: dict
    seconds: int


WHOLE = Program("whole", {}, 100)
# These two bring a third of all sources.
SMALLER = Program("smaller", {"dap": Apart("editing.rt", "serve_editor"), "timeline": Apart("drawing.rt", "draw_file")}, 70)


def program_of(words):
    """Returns the least program that runs the words."""
    return WHOLE if words and words[0] in SMALLER.without else SMALLER


def without_body(text, function):
    """Returns a module whose function only reports that it is left out, with the imports that its signature needs."""
    signature = re.search(rf"\npub fn {function}\b.*?(?:\n\{{|\) -> [^\n]* \{{)\n", text, re.S)
    if not signature:
        raise MissingFunction(function)
    return "".join(STAY.findall(text)) + signature[0] + INSTEAD


def modules_of(program):
    """Returns the names and the texts of a program's own modules."""
    functions, modules = dict(program.without.values()), {}
    for path in crates.sources_of(crates.PROGRAM, ("src",)):
        name = os.path.relpath(path, MODULES)
        with open(path, encoding="utf-8") as file:
            text = file.read()
        modules[name] = without_body(text, functions[name]) if name in functions else text
    return modules


def uses_of(modules):
    """Returns the libraries that each crate uses, and of the program those that its modules name."""
    uses = crates.read_uses()
    named = {*re.findall(r"^use (\w+)", "".join(modules.values()), re.M)}
    uses[crates.PROGRAM] = [name for name in uses[crates.PROGRAM] if name in named]
    return uses
