#!/usr/bin/env python3
"""Runs words by `rt try`, for a kit by which the unproved program can't be kept.

usage: tools/trying.py WORDS..

`rt try` compiles the sources each time, and runs the program in a folder of its own, without an environment. So only words
that write no file run so, and the files that they name are passed on under other names."""
import json
import os
import re
import shutil
import subprocess
import sys
import tempfile

sys.dont_write_bytecode = True
import crates  # noqa: E402

UNAVAILABLE = 69
READERS = ("check", "explain", "explore")
REPORTED = re.compile(r"^(?:run=|checked: |interpreter: |races: )", re.M)


def can_run(words):
    """Whether the words write no file: help, and the subcommands that only read."""
    if not words or words[0] == "help" or {"-h", "--help"} & {*words}:
        return True
    return words[0] in READERS and not any(word.split("=")[0] == "--out" for word in words)


def is_file(word, before):
    """Whether a word names a file that is passed on. A bare name after an option counts as the option's value."""
    may_be_value = before.startswith("-") and "=" not in before and re.fullmatch(r"[a-z0-9-]+", word)
    return os.path.isfile(word) and os.access(word, os.R_OK) and not may_be_value


def pass_on(words, room):
    """Copies the files that the words name, and returns the options that pass them on, the new words, and the files' names."""
    options, renamed, names = [], words[:1], []
    for before, word in zip(words, words[1:]):
        if is_file(word, before):
            names.append(word)
            copy = f"{room}/run{len(names)}"
            shutil.copyfile(word, copy)
            word = f"file/run{len(names)}"
            options += ["--data", f"{word}={copy}"]
        renamed.append(word)
    return options, renamed, names


def restore_names(text, names):
    """Returns the output with the files' own names at the start of its lines."""
    for number, name in enumerate(names, 1):
        text = re.sub(rf"^file/run{number}:", lambda _, name=name: f"{name}:", text, flags=re.M)
        quoted = json.dumps(name, ensure_ascii=False)
        text = re.sub(rf'^{{"run":"file/run{number}"', lambda _, quoted=quoted: f'{{"run":{quoted}', text, flags=re.M)
    return text


def main(words):
    """Runs the words, and returns the program's status, or 69."""
    if not can_run(words):
        return UNAVAILABLE
    print("uringwalk: not proved; without a kept program this takes a minute or two each time", file=sys.stderr, flush=True)
    with tempfile.TemporaryDirectory(prefix="uringwalk-") as room:
        options, renamed, names = pass_on(words, room)
        given = sys.stdin.buffer.read() if "-" in words else b""
        ran = subprocess.run(["rt", "try", *options, "--", *renamed], cwd=f"{crates.TOP}/crates/{crates.PROGRAM}",
                             input=given, capture_output=True)
    output, errors = (text.decode(errors="surrogateescape") for text in (ran.stdout, ran.stderr))
    sys.stdout.buffer.write(restore_names(output, names).encode(errors="surrogateescape"))
    lines = [line for line in errors.splitlines(keepends=True) if not REPORTED.match(line)]
    sys.stderr.buffer.write("".join(lines).encode(errors="surrogateescape"))
    return ran.returncode if re.search(r"^run=ended ", errors, re.M) else UNAVAILABLE


if __name__ == "__main__":
    sys.exit(main(sys.argv[1:]))
