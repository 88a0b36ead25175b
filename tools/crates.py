#!/usr/bin/env python3
"""The repository's crates, as crates.txt lists them, and the machine's room for work on them.

usage: tools/crates.py    prints how many proofs can run side by side
"""
import os

TOP = os.path.dirname(os.path.dirname(os.path.realpath(__file__)))
PROGRAM = "uringwalk"
BUILT = f"{TOP}/crates/{PROGRAM}/out/{PROGRAM}"
PARTS = {"src": ".rt", "specs": ".antt", "proofs": ".antt"}  # a crate's folders, and the ending of the files that count
BYTES_A_LANE = 4_831_838_208  # what a proof of one of these crates takes at most, with some room
GROUP = "/sys/fs/cgroup"  # a control group's limits, where there are some


def read_uses(file=f"{TOP}/crates.txt"):
    """Returns the libraries that each crate uses: crates of the repository and libraries of the kit."""
    uses = {}
    with open(file, encoding="utf-8") as lines:
        for line in lines:
            head, colon, rest = line.split("#")[0].partition(":")
            if colon:
                uses[head.split()[0]] = rest.split()
    return uses


def crates_below(name, uses):
    """Returns the crates of the repository below a crate, each after those that it uses."""
    found = {}

    def visit(crate):
        for used in uses[crate]:
            if used in uses and used not in found:
                visit(used)
                found[used] = True

    visit(name)
    return [*found]


def sources_of(name, parts=tuple(PARTS)):
    """Returns the paths of a crate's code, definitions and proofs, in order."""
    found = []
    for part in parts:
        for folder, folders, files in os.walk(f"{TOP}/crates/{name}/{part}"):
            folders.sort()
            found += [f"{folder}/{file}" for file in sorted(files) if file.endswith(PARTS[part]) and file[0] != "."]
    return found


def lines_of(name):
    """Returns how many lines a crate's code, definitions and proofs have."""
    lines = 0
    for path in sources_of(name):
        with open(path, "rb") as file:
            lines += file.read().count(b"\n")
    return lines


def unproved_homes():
    """Returns the folders that may keep unproved programs: the clone's own, and the user's cache where that has a path."""
    caches = (os.environ.get("XDG_CACHE_HOME") or "", os.path.expanduser("~/.cache"))
    return [f"{TOP}/out/unproved", *[f"{cache}/uringwalk/unproved" for cache in caches if os.path.isabs(cache)][:1]]


def read_number(path, before=""):
    """Returns the number at the start of the line that begins with a text, or None."""
    try:
        with open(path, encoding="ascii") as lines:
            for line in lines:
                words = line[len(before):].split()
                if line.startswith(before) and words and words[0].isdigit():
                    return int(words[0])
    except OSError:
        pass
    return None


def free_bytes():
    """Returns the memory that is free, within the limit of the control group."""
    free = 1024 * (read_number("/proc/meminfo", "MemAvailable:") or 0)
    limit = read_number(f"{GROUP}/memory.max")
    if limit is not None:
        free = min(free, limit - (read_number(f"{GROUP}/memory.stat", "anon ") or 0))
    return free


def lanes():
    """Returns how many proofs can run side by side: one a processor, if each has its memory."""
    return max(1, min(len(os.sched_getaffinity(0)), free_bytes() // BYTES_A_LANE))


if __name__ == "__main__":
    print(lanes())
