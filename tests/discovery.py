#!/usr/bin/env python3
"""Finds the end-to-end cases: the folders below tests/cases, sorted into subjects, and the examples.

usage: tests/discovery.py [NAME | SUBJECT | SUBJECT/NAME | FOLDER]..

Prints the folder of each case that is named, one per line, or of all cases. A folder that has one of the files CASE_FILES
is a case; any other folder is a subject, and has cases in it, at any depth. No two cases share a name.
"""
import os
import sys

TOP = os.path.dirname(os.path.dirname(os.path.realpath(__file__)))
CASES, EXAMPLES = f"{TOP}/tests/cases", f"{TOP}/examples"
CASE_FILES = ("args", "runs", "stdin", "stdout", "stderr")


class NotFound(Exception):
    """A word that names no case, a subject without cases, or a name that two cases share."""


def cases_in(folder):
    """Yields the case that a folder is, or the cases in it."""
    if any(os.path.isfile(f"{folder}/{name}") for name in CASE_FILES):
        yield folder
        return
    below = [it.path for it in sorted(os.scandir(folder), key=lambda it: it.name) if it.is_dir()]
    if not below:
        raise NotFound(f"no case in {folder}")
    for path in below:
        yield from cases_in(path)


def by_name():
    """Returns the folder of each case by its name."""
    found = {}
    for root in (CASES, EXAMPLES):
        for folder in cases_in(root):
            other = found.setdefault(os.path.basename(folder), folder)
            if other != folder:
                raise NotFound(f"two cases have one name: {other} and {folder}")
    return found


def folder_of(word, known):
    """Returns the folder that a word names: a case, a subject, or a path."""
    if word in known:
        return known[word]
    if word.split("/")[0] not in ("", ".", ".."):
        for root in (CASES, EXAMPLES):
            if os.path.isdir(f"{root}/{word}"):
                return os.path.realpath(f"{root}/{word}")
    if os.path.isdir(word):
        return os.path.realpath(word)
    raise NotFound(f"no case, subject or folder is named {word}")


def named(words):
    """Returns the folders of the cases that words name, or of all cases where there is no word."""
    known = by_name()
    if not words:
        return [*known.values()]
    return [*dict.fromkeys(case for word in words for case in cases_in(folder_of(word, known)))]


def main():
    try:
        for folder in named(sys.argv[1:]):
            print(folder)
    except NotFound as wrong:
        print(wrong, file=sys.stderr)
        return 1
    return 0


if __name__ == "__main__":
    sys.exit(main())
