"""Writes the page: one HTML file with the program, the scripts of web/, and the examples."""
import base64
import contextlib
import gzip
import hashlib
import html
import itertools
import json
import os
import re

from bitcode import crates

WEB, EXAMPLES = f"{crates.TOP}/web", f"{crates.TOP}/examples"
SCHEMA = f"{crates.TOP}/docs/script.schema.json"
VERSION = f"{crates.TOP}/crates/command_line/src/version.rt"
SCRIPTS = ("base", "program", "text", "panes", "opcodes", "editor", "timeline", "findings", "checking", "walking", "exploring",
           "sharing", "stories", "opening")
PROVED = "This is the proved program, compiled for the browser by steps that are tested, not proved."
UNPROVED = "This program was compiled without a proof."


def read(path):
    with open(path, encoding="utf-8") as file:
        return file.read()


def data(value):
    """Returns a value for a script element, which no text in it can end."""
    return json.dumps(value, ensure_ascii=False).replace("<", "\\u003c")


def stories():
    named = json.loads(read(f"{WEB}/stories.json"))
    return [{"name": name, "look": look, "script": read(f"{EXAMPLES}/{name}/script.json")} for name, look in named]


def opcodes():
    """Returns the names and numbers of the opcodes, as the schema lists them."""
    listed = json.loads(read(SCHEMA))["$defs"]["entry"]
    found = re.search(r'"op": \{"description": "([^"]*)"', json.dumps(listed))[1]
    return [[name, int(number)] for name, number in re.findall(r"([A-Z_]+) (\d+)", found)]


def version():
    """Returns the program's version, and the kit's line."""
    return re.search(r'VERSION: &str = "([^"\\]+)\\n([^"]+)"', read(VERSION)).groups()


def worker():
    host = read(f"{WEB}/host.js")
    return host[:host.index("if (typeof module")] + read(f"{WEB}/worker.js")


def scripts():
    """Returns the page's own script."""
    return "".join(read(f"{WEB}/page/{name}.js") for name in SCRIPTS)


def text_of(module, is_proved, script=None, home=""):
    """Returns the text of the page, which starts with a script or the first example."""
    with open(module, "rb") as file:
        program = file.read()
    examples, (number, kit) = stories(), version()
    parts = {"style": read(f"{WEB}/style.css"), "home": html.escape(home), "version": number, "kit": html.escape(kit),
             "origin": PROVED if is_proved else UNPROVED, "sum": hashlib.sha256(program).hexdigest(),
             "start": data(examples[0]["script"] if script is None else script), "stories": data(examples), "opcodes": data(opcodes()),
             "program": base64.b64encode(gzip.compress(program, 9, mtime=0)).decode(), "worker": worker(), "script": scripts()}
    return re.sub(r"\{\{(\w+)\}\}", lambda found: parts[found[1]], read(f"{WEB}/page.html"))


def new_file(out):
    """Opens a new file next to OUT: `OUT.0`, or the first name that is free."""
    for number in itertools.count():
        with contextlib.suppress(FileExistsError):
            return open(f"{out}.{number}", "x", encoding="utf-8")


def write(out, text):
    """Writes the page as a whole, or raises an OSError that names it."""
    try:
        with new_file(out) as file:
            try:
                file.write(text)
                file.flush()
                os.replace(file.name, out)
            except BaseException:
                os.remove(file.name)
                raise
    except OSError as error:
        raise OSError(error.errno, error.strerror, out) from error
