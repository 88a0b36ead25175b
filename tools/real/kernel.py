"""Runs a trace on the io_uring of this machine, by the C program kernel.c."""
import os
import shutil
import subprocess
from dataclasses import dataclass, field

import children

HERE = os.path.dirname(os.path.realpath(__file__))
NO_RING, TOO_LONG = 3, 4
ENOSYS, EPERM = 38, 1
SECONDS = 30


class Unable(Exception):
    """The script can't be run on this machine, and why."""


class NotSettled(Exception):
    """The run took more than 20 seconds."""


@dataclass
class Outcome:
    """What the kernel did."""
    completions: list = field(default_factory=list)
    calls: list = field(default_factory=list)
    waits: set = field(default_factory=set)
    skipped: list = field(default_factory=list)
    words: dict = field(default_factory=dict)
    memory: bytes = b""
    files: dict = field(default_factory=dict)


def build(room):
    """Builds the C program in a folder, and returns its path."""
    compiler = shutil.which("cc")
    if not compiler:
        raise Unable("there is no C compiler: put cc on the path")
    program = f"{room}/kernel"
    ran = children.run([compiler, "-O1", "-pthread", "-o", program, f"{HERE}/kernel.c"], TMPDIR=room)
    if ran.returncode:
        raise Unable(f"cc doesn't build {HERE}/kernel.c: {(ran.stderr.splitlines() or ['it says nothing'])[0]}")
    return program


def reason_without_ring(number):
    """Returns why io_uring_setup(2) fails with an error."""
    if number == ENOSYS:
        return "this kernel has no io_uring (ENOSYS)"
    disabled = first_line("/proc/sys/kernel/io_uring_disabled")
    if number == EPERM and disabled not in ("", "0"):
        return f"io_uring is disabled: /proc/sys/kernel/io_uring_disabled is {disabled}"
    if number == EPERM and is_filtered():
        return "a seccomp filter forbids io_uring (EPERM), as those of containers do"
    if number == EPERM:
        return "io_uring_setup is not permitted (EPERM)"
    return f"io_uring_setup fails: {os.strerror(number)}"


def first_line(path):
    try:
        with open(path, encoding="ascii") as it:
            return it.readline().strip()
    except OSError:
        return ""


def is_filtered():
    with open("/proc/self/status", encoding="ascii") as it:
        return any(line.split() == ["Seccomp:", "2"] for line in it)


def run(program, trace, plan, room):
    """Runs a trace by its plan, with its files in a new folder of room."""
    folder = f"{room}/files"
    shutil.rmtree(folder, ignore_errors=True)
    os.mkdir(folder)
    for name, contents in (("kernel.trace", trace), ("kernel.plan", plan.encode())):
        with open(f"{room}/{name}", "wb") as it:
            it.write(contents)
    try:
        ran = children.run([program, f"{room}/kernel.trace", folder, f"{room}/kernel.plan"], SECONDS)
    except subprocess.TimeoutExpired as it:
        raise NotSettled from it
    if ran.returncode == NO_RING:
        raise Unable(reason_without_ring(int(ran.stderr)))
    if ran.returncode == TOO_LONG:
        raise NotSettled
    if ran.returncode:
        raise Unable(ran.stderr.strip() or f"the C program ended by signal {-ran.returncode}")
    return outcome(ran.stdout)


def outcome(text):
    """Returns what the lines of the C program say."""
    found = Outcome()
    for line in text.splitlines():
        word, *rest = line.split(" ")
        if word == "completion":
            found.completions.append(tuple(map(int, rest)))
        elif word == "returned":
            found.calls.append(tuple(map(int, rest)))
        elif word == "waits":
            found.waits.add(int(rest[0]))
        elif word == "skipped":
            found.skipped.append(int(rest[0]))
        elif word == "word":
            found.words[rest[0]] = int(rest[1])
        elif word == "memory":
            found.memory = bytes.fromhex(rest[0])
        else:
            found.files[rest[0]] = bytes.fromhex(rest[1])
    return found
