#!/usr/bin/env python3
"""Proves the crates of the program in lanes, one a processor, and builds it.

usage: tools/build.py
       tools/build.py --prove CRATE JOBS    proves one crate, over libraries that are built

The crates with the longest chain of others above them are proved first. A crate also gets the processors that no other crate
could use as it starts, or meanwhile. What was proved before, and hasn't changed, is taken from out/, so an interrupted build continues. At the
end the programs that were compiled without a proof are removed.
"""
import functools
import importlib.machinery
import importlib.util
import os
import shutil
import signal
import subprocess
import sys
import tempfile
import time
from concurrent.futures import FIRST_COMPLETED, ThreadPoolExecutor, wait

sys.dont_write_bytecode = True
import crates  # noqa: E402

MOST_JOBS = 4
EXAMPLE = f"{crates.TOP}/examples/one_nop.json"
LAST_LINES = 20
CALLS = ("below", "is_built", "stamp", "build_rlib", "run")  # of the kit's class of crates


class NotProved(Exception):
    """The crate, and the file of what was printed."""


@functools.cache
def load_rtlib():
    """Returns the module that the kit's rt is written in, or None where it lacks what proving two crates at once takes."""
    path = f"{os.path.dirname(os.path.realpath(shutil.which('rt')))}/rtlib.py"
    if not os.path.isfile(path):
        return None
    loader = importlib.machinery.SourceFileLoader("rtlib", path)
    made = importlib.util.module_from_spec(importlib.util.spec_from_loader("rtlib", loader))
    sys.modules["rtlib"] = made
    loader.exec_module(made)
    has_all = all(hasattr(made, name) for name in ("lock", "stop_on_links", "stop", "guarded", "sum_of", "Crate"))
    return made if has_all and all(hasattr(made.Crate, name) for name in CALLS) else None


def is_new(crate):
    """Whether a library is built of the present text."""
    return crate.is_built()


def is_there(crate):
    """Whether a library is built, of the present text or an older one. The gate leaves libraries without their sums."""
    return os.path.isdir(crate.rlib)


def open_crate(name, is_fit=is_new):
    """Returns a crate as the kit's commands see it, locked, over libraries that are fit. Its folder becomes the current one.

    The kit sums the sources of a library anew for each crate above it, which takes minutes for the highest crates."""
    folder, rtlib, sums = f"{crates.TOP}/crates/{name}", load_rtlib(), {}
    sum_anew = rtlib.Crate.stamp

    def stamp(crate):
        if crate.folder == folder:
            return sum_anew(crate)
        if crate.folder not in sums:
            sums[crate.folder] = sum_anew(crate)
        return sums[crate.folder]

    rtlib.Crate.stamp = stamp
    os.chdir(folder)
    crate = rtlib.Crate(folder, crates.TOP, {})
    crate.held = rtlib.lock([crate])
    for it in [*crate.below(), crate]:
        rtlib.stop_on_links(it.folder)
    if not all(is_fit(it) for it in crate.below()):
        rtlib.stop(f"a library below {name} isn't built")
    os.makedirs("out", exist_ok=True)
    return crate


def sums_below(crate):
    """Returns the sums of the libraries below, as text."""
    return "".join(f"{it.name} {load_rtlib().sum_of(f'{it.rlib}/format')}\n" for it in crate.below())


def read(path):
    """Returns a file's text, or None where there is none."""
    try:
        with open(path, encoding="utf-8") as file:
            return file.read()
    except FileNotFoundError:
        return None


def prove_library(crate, jobs):
    """Builds a library that has the statements of its proofs alone, and returns the exit status.

    It is much smaller, and the crates above load it faster. It fits the libraries alone over which it was built."""
    kept, stamp, below = "out/rlib/below", crate.stamp(), sums_below(crate)
    if crate.is_built() and read(kept) == below:
        return 0
    type(crate).cuts_libraries = True
    load_rtlib().guarded()  # its first call sets a signal's handler, which only the main thread may
    status = crate.build_rlib(["--jobs", jobs], anew=True)
    if status == 0 and crate.stamp() == stamp:
        for path, text in ((kept, below), ("out/rlib/stamp", stamp)):
            with open(path, "w", encoding="utf-8") as file:
                file.write(text)
    return status


def prove(name, jobs):
    """Builds a crate, and returns the exit status.

    `rt lib` and `rt run` lock every crate below, so that two of them never run side by side."""
    crate = open_crate(name)
    if crate.is_program:
        return crate.run(["--jobs", jobs], ["walk", EXAMPLE], tests=False)
    return prove_library(crate, jobs)


def words_of(name, jobs):
    """Returns the command that proves a crate."""
    if load_rtlib():
        return [sys.executable, os.path.realpath(__file__), "--prove", name, str(jobs)]
    if name == crates.PROGRAM:
        return ["rt", "run", "--jobs", str(jobs), "--", "walk", EXAMPLE]
    return ["rt", "lib", "--jobs", str(jobs)]


class Build:
    """What is proved, what is being proved, and what is left."""

    def __init__(self, lanes):
        self.uses = crates.read_uses()
        self.names = [*crates.crates_below(crates.PROGRAM, self.uses), crates.PROGRAM]
        self.size = {name: crates.lines_of(name) for name in self.names}
        self.below = {name: {*crates.crates_below(name, self.uses)} for name in self.names}
        self.lanes = lanes
        self.chain = dict(self.size)  # the lines of the longest chain from a crate up to the program
        for name in reversed(self.names):
            for used in self.libraries(name):
                self.chain[used] = max(self.chain[used], self.size[used] + self.chain[name])
        self.left = sorted(self.names, key=lambda name: -self.chain[name])
        self.running, self.done, self.processes = {}, [], set()
        self.start, self.last_start, self.spent, self.lines = time.monotonic(), time.time(), 0.0, 0

    def libraries(self, name):
        return [used for used in self.uses[name] if used in self.uses]

    def prove(self, name, jobs, log):
        """Proves a crate in a process of its own, which prints into a file, and returns its status."""
        how = {"stdin": subprocess.DEVNULL, "stderr": subprocess.STDOUT, "start_new_session": True}
        with open(log, "wb") as out:
            process = subprocess.Popen(words_of(name, jobs), cwd=f"{crates.TOP}/crates/{name}", stdout=out, **how)
        self.processes.add(process)
        status = process.wait()
        self.processes.discard(process)
        return status

    def stop(self):
        """Ends all proofs that still run."""
        for process in [*self.processes]:
            try:
                os.killpg(process.pid, signal.SIGTERM)
            except ProcessLookupError:
                pass

    def start_more(self, pool, room):
        """Starts crates whose libraries are proved, as long as a lane is free."""
        ready = [name for name in self.left if all(used in self.done for used in self.libraries(name))]
        for later, name in zip(reversed(range(len(ready))), ready):
            free = self.lanes - sum(jobs for _, jobs, _ in self.running.values())
            if free < 1:
                return
            jobs = max(min(MOST_JOBS, free - later), self.jobs_of(name))
            self.left.remove(name)
            self.last_start = time.time()
            self.running[pool.submit(self.prove, name, jobs, f"{room}/{name}")] = name, jobs, time.monotonic()

    def waiting(self):
        """Returns the crates that aren't proved yet."""
        return [*self.left, *(name for name, _, _ in self.running.values())]

    def jobs_of(self, name):
        """Returns how many processors a crate gets, also where fewer are free: one, and those for which the crates that don't need
        it are too small.

        Small crates that were started before it may still run for a short while."""
        others = [it for it in self.waiting() if it != name and name not in self.below[it]]
        spare = self.lanes - 1 - sum(self.size[it] for it in others) / self.size[name]
        return max(1, min(MOST_JOBS, 1 + int(spare)))

    def end(self, task, room):
        """Takes the result of a crate, and prints how far the build is."""
        name, jobs, began = self.running.pop(task)
        if task.result():
            raise NotProved(name, f"{room}/{name}")
        self.done.append(name)
        self.spent += jobs * (time.monotonic() - began)
        self.lines += self.size[name]
        so_far, left = in_minutes(time.monotonic() - self.start), in_minutes(self.time_left())
        print(f"{len(self.done)} of {len(self.names)}: {name} is proved; {so_far} so far, about {left} to go", flush=True)

    def time_left(self):
        """Estimates the seconds to go: the longest chain that is left, or all that is left in lanes, at the speed so far."""
        waiting = self.waiting()
        in_lanes = sum(self.size[name] for name in waiting) / self.lanes
        return max(in_lanes, max((self.chain[name] for name in waiting), default=0)) * self.spent / self.lines

    def run(self, room):
        """Proves all crates, each of which prints into a file of a folder."""
        with ThreadPoolExecutor(2 * self.lanes + MOST_JOBS) as pool:
            try:
                self.start_more(pool, room)
                while self.running:
                    for task in wait(self.running, return_when=FIRST_COMPLETED).done:
                        self.end(task, room)
                    self.start_more(pool, room)
            finally:
                self.stop()


def in_minutes(seconds):
    return f"{int(seconds) // 60}:{int(seconds) % 60:02d}"


def remove_unproved():
    """Removes the programs that were compiled without a proof."""
    for home in crates.unproved_homes():
        shutil.rmtree(home, ignore_errors=True)


def build():
    """Builds the program, and returns the exit status."""
    made = Build(crates.lanes() if load_rtlib() else 1)
    for number in (signal.SIGTERM, signal.SIGHUP):
        signal.signal(number, lambda number, _: sys.exit(128 + number))
    with tempfile.TemporaryDirectory(prefix="uringwalk-build-") as room:
        try:
            made.run(room)
        except NotProved as why:
            name, log = why.args
            with open(log, encoding="utf-8", errors="replace") as file:
                printed = file.readlines()
            with tempfile.NamedTemporaryFile("w", prefix=f"uringwalk-{name}-", suffix=".log", delete=False) as kept:
                kept.writelines(printed)
            sys.stderr.writelines(printed[-LAST_LINES:])
            print(f"uringwalk: {name} was not proved; all that was printed is in {kept.name}", file=sys.stderr)
            return 1
        except KeyboardInterrupt:
            return 128 + signal.SIGINT
    os.utime(crates.BUILT, (made.last_start, made.last_start))  # a source that was saved since then is newer
    remove_unproved()
    return 0


def main(words):
    if words[:1] == ["--prove"] and len(words) == 3:
        return prove(*words[1:])
    if words:
        print(__doc__, end="", file=sys.stderr)
        return 2
    return build()


if __name__ == "__main__":
    sys.exit(main(sys.argv[1:]))
