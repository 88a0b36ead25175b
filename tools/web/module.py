#!/usr/bin/env python3
"""Makes the program a WebAssembly module, and prints its path.

usage: tools/web/module.py [--unproved]

It takes the bitcode of the proved program, which ./uringwalk --build has built, or with --unproved that of the sources. The
module is kept in out/web, by the sum of its bitcode and of what makes the module of it. Status 69: a line says what is missing.
"""
import fcntl
import hashlib
import os
import shutil
import subprocess
import sys
import tempfile

sys.dont_write_bytecode = True
sys.path.insert(0, os.path.dirname(os.path.realpath(__file__)))
import bitcode  # noqa: E402
import memory32  # noqa: E402
import retarget  # noqa: E402
from bitcode import HOME, crates, unproved  # noqa: E402

UNAVAILABLE = 69
PARTS = f"{crates.TOP}/web"
IMPORTS = f"{PARTS}/imports.txt"
FEATURES = [f"--target={retarget.TRIPLE}", "-mbulk-memory", "-mnontrapping-fptoint", "-msign-ext", "-mmutable-globals"]
LIBRARY = ("heap", "wide", "system")
STACK = 8388608  # bytes
EXPORTS = ("main",)


class NoModule(Exception):
    """Why there is no module."""


def run(words, room):
    status, printed = unproved.run_tool(words, room)
    if status:
        raise NoModule(f"{os.path.basename(words[0])} ended with status {status}:\n{printed[-2000:].rstrip()}")


def object_of(clang, source, room):
    """Compiles a file for the module, and returns the object's path."""
    made = f"{room}/{os.path.basename(source)}.o"
    of_kind = ["-ffreestanding", "-fno-builtin", "-O2"] if source.endswith(".c") else ["-Wno-override-module", "-Os"]
    run([clang, *FEATURES, *of_kind, "-c", source, "-o", made], room)
    return made


def link(kit, objects, made, room, stack=STACK):
    """Links the objects, with the stack below all data, so that an address below the stack is out of the memory."""
    linker = f"{room}/wasm-ld"
    if not os.path.islink(linker):
        os.symlink(f"{kit}/toolchain/bin/clang", linker)
    words = [linker, "-mwasm64", "--no-entry", "--gc-sections", "--stack-first", "-z", f"stack-size={stack}", "--allow-undefined"]
    run([*words, "--compress-relocations", *(f"--export={name}" for name in EXPORTS), "-s", "-o", made, *objects], room)


def imports_of(data):
    """Returns the names of the functions that a module imports."""
    reader = memory32.Reader(data, 8)
    while reader.at < reader.end:
        kind, section = reader.byte(), reader.part()
        if kind == memory32.IMPORTS:
            return [name_of_import(section) for _ in range(section.number())]
    return []


def name_of_import(reader):
    reader.bytes(reader.number())
    name = reader.bytes(reader.number()).decode()
    reader.number()
    reader.number()
    return name


def check_imports(data):
    """Refuses a module that calls what the page's host doesn't know."""
    with open(IMPORTS, encoding="utf-8") as file:
        known = file.read().split()
    unknown = [name for name in imports_of(data) if name not in known]
    if unknown:
        raise NoModule(f"the program calls {', '.join(unknown)}, which web/host.js doesn't have")


def compile_objects(kit, source, room, is_proved):
    """Retargets the program, and compiles it and the module's small C library. Returns the objects' paths."""
    clang = f"{kit}/toolchain/bin/clang"
    printed, text = f"{room}/printed.ll", f"{room}/program.ll"
    run([clang, "-S", "-emit-llvm", "-x", "ir", source, "-o", printed], room)
    retarget.retarget(printed, text, is_proved)
    os.remove(printed)
    return [object_of(clang, text, room), *(object_of(clang, f"{PARTS}/{name}.c", room) for name in LIBRARY)]


def make(kit, source, place, is_proved):
    """Makes a module of a program's bitcode, and moves it to its place."""
    with tempfile.TemporaryDirectory(prefix="uringwalk-") as room:
        objects = compile_objects(kit, source, room, is_proved)
        link(kit, objects, f"{room}/wide.wasm", room)
        with open(f"{room}/wide.wasm", "rb") as file:
            data = file.read()
        check_imports(data)
        lowered = memory32.lower(data)
    os.makedirs(os.path.dirname(place), exist_ok=True)
    with open(f"{place}.part", "wb") as file:
        file.write(lowered)
    os.replace(f"{place}.part", place)


def key_of(source):
    """Returns the sum of the bitcode, and of all that makes a module of it."""
    key = hashlib.sha256()
    makers = [__file__, memory32.__file__, retarget.__file__, *(f"{PARTS}/{name}.c" for name in LIBRARY)]
    for path in (source, *makers):
        with open(path, "rb") as file:
            key.update(hashlib.sha256(file.read()).digest())
    return key.hexdigest()[:16]


def is_built():
    """Whether the proved program is built, and no source is newer."""
    return subprocess.run([f"{crates.TOP}/tools/proved"], stdout=subprocess.DEVNULL, check=False).returncode == 0


def keep(is_proved):
    """Makes the module unless it is kept, removes those of other sources, and returns its path."""
    source, folder = bitcode.find(is_proved), f"{HOME}/module-{bitcode.kind_of(is_proved)}"
    place = f"{folder}/{key_of(source)}/program.wasm"
    if not os.path.isfile(place):
        shutil.rmtree(folder, ignore_errors=True)
        make(unproved.find_kit(), source, place, is_proved)
    return place


def find(is_proved=True):
    """Returns the path of the module, which is made if it isn't kept."""
    if is_proved and not is_built():
        raise NoModule("the proved program isn't built, or a source is newer: ./uringwalk --build proves and builds it")
    try:
        os.makedirs(HOME, exist_ok=True)
        with open(f"{HOME}/lock", "w", encoding="utf-8") as lock:
            fcntl.flock(lock, fcntl.LOCK_EX)
            return keep(is_proved)
    except (bitcode.NoBitcode, unproved.Unavailable, unproved.NoModule) as why:
        raise NoModule(why) from why
    except memory32.Unknown as why:
        raise NoModule(f"the module has {why}") from why
    except retarget.Unproved as why:
        raise NoModule(f"the proved program has what only one without a proof may have: {why}") from why
    except OSError as error:
        raise NoModule(f"no module was made: {error.strerror}: {error.filename}") from error


def main(words):
    if words not in ([], ["--unproved"]):
        print(__doc__, end="", file=sys.stderr)
        return 2
    try:
        print(find(not words))
    except NoModule as why:
        unproved.report(why)
        return UNAVAILABLE
    return 0


if __name__ == "__main__":
    sys.exit(main(sys.argv[1:]))
