"""What `real` says of scripts that it can't run, of words, and that it leaves nothing behind."""
import ctypes
import json
import os
import signal
import struct
import subprocess
import sys
import tempfile
import time

TOP = os.path.dirname(os.path.dirname(os.path.dirname(os.path.realpath(__file__))))
REAL = f"{TOP}/tools/real/real.py"
IO_URING_SETUP = 425
EPERM, ENOSYS = 1, 38
NO_NEW_PRIVILEGES, SET_FILTER, FILTER = 38, 22, 2
STEPS = [["step", 0]] * 3
NOP = [["put", 0, {"op": 0, "ud": 1}], ["push", 0], ["enter", 1, 0, 0]]
ENDED = [*STEPS, ["issue", 0], ["finish", 0]]
READ = [["put", 0, {"op": 22, "fd": 3, "len": 4, "ud": 1}], ["push", 0], ["enter", 1, 0, 0]]
SAME = 0, "same", ""
FILE = {"objects": [{"name": "f", "file": "61626364"}], "fds": ["f"]}


def forbidding(number):
    """Returns a function that makes io_uring_setup(2) fail with an error in this process, by a seccomp filter."""
    def forbid():
        code = [(0x20, 0, 0, 0), (0x15, 0, 1, IO_URING_SETUP), (6, 0, 0, 0x50000 | number), (6, 0, 0, 0x7FFF0000)]
        lines = ctypes.create_string_buffer(b"".join(struct.pack("HBBI", *line) for line in code))
        program = struct.pack("HxxxxxxP", len(code), ctypes.addressof(lines))
        libc = ctypes.CDLL(None, use_errno=True)
        if libc.prctl(NO_NEW_PRIVILEGES, 1, 0, 0, 0) or libc.prctl(SET_FILTER, FILTER, program, 0, 0):
            os._exit(99)
    return forbid


class Trials:
    """A folder with scripts, and an empty one for the files of each run."""

    def __init__(self, room, program):
        self.room, self.program, self.temporary = room, program, f"{room}/temporary"
        os.mkdir(self.temporary)

    def environment(self, **more):
        return {**os.environ, "URINGWALK": self.program, "TMPDIR": self.temporary, **more}

    def script(self, **keys):
        path = f"{self.room}/script.json"
        with open(path, "w", encoding="ascii") as it:
            json.dump({"entries": 4, "threads": [NOP], "schedule": ENDED, **keys}, it)
        return path

    def run(self, *words, before=None, **more):
        """Returns the status, and the first lines of both outputs, or None where a file is left behind."""
        ran = subprocess.run([sys.executable, REAL, *words], stdin=subprocess.DEVNULL, capture_output=True, text=True,
                             env=self.environment(**more), preexec_fn=before, timeout=60, check=False)
        if os.listdir(self.temporary):
            return None
        return ran.returncode, *((text.splitlines() or [""])[0] for text in (ran.stdout, ran.stderr))

    def walks(self, path):
        how = {"stdin": subprocess.DEVNULL, "capture_output": True, "text": True, "check": False}
        ran = subprocess.run([self.program, "walk", path], **how)
        return ran.returncode, ran.stdout, ran.stderr.strip()

    def ends_on(self, number):
        """Whether a run that a signal ends leaves no file and no process."""
        ticks = [["tick", 1000000]] * 40
        words = [sys.executable, REAL, self.script(schedule=[*ENDED, *ticks])]
        with subprocess.Popen(words, stdin=subprocess.DEVNULL, stdout=subprocess.PIPE, stderr=subprocess.PIPE,
                              env=self.environment(), start_new_session=True) as it:
            limit = time.monotonic() + 30
            while not os.listdir(self.temporary) and time.monotonic() < limit:
                time.sleep(0.01)
            time.sleep(0.3)
            it.send_signal(number)
            it.wait(30)
            time.sleep(0.2)
            return it.returncode == 128 + number and not os.listdir(self.temporary) and not self.has_process()

    def has_process(self):
        """Whether a process has this folder in its environment, which it has from `real`."""
        for name in os.listdir("/proc"):
            if name.isdigit() and name != str(os.getpid()) and self.temporary.encode() in contents(f"/proc/{name}/environ"):
                return True
        return False


def contents(path):
    try:
        with open(path, "rb") as it:
            return it.read()
    except OSError:
        return b""


def unable(reason):
    return 69, f"can't be run here: {reason}", ""


def of_scripts(it):
    """Yields scripts that can't be run, with what is said of them."""
    yield "base", it.run(it.script(base=5)), unable("base is 5, and the ring words of a kernel start at 0")
    pipe = {"objects": [{"name": "p", "pipe": 5000}], "fds": ["p:r"]}
    yield "a pipe", it.run(it.script(**pipe)), unable("pipe p has 5000 bytes, which aren't whole pages; 8192 are")
    short = [*STEPS, ["issue", 0], ["finish", 0, "short", 1]]
    said = "event 4 completes a request short, which a kernel can't be asked to do"
    yield "a short end", it.run(it.script(threads=[READ], schedule=short, **FILE)), unable(said)
    failing = [*STEPS, ["issue", 0], ["finish", 0, "eio"]]
    said = "event 4 completes a request with EIO, which a kernel can't be asked to do"
    yield "EIO", it.run(it.script(threads=[READ], schedule=failing, **FILE)), unable(said)
    yield "a minute", it.run(it.script(schedule=[*ENDED, ["tick", 60000000001]])), unable("the clock passes a minute")
    other = [["put", 0, {"op": 18, "ud": 1}], *NOP[1:]]
    said = "opcode 18 isn't modelled, and this kernel knows it"
    yield "an opcode", it.run(it.script(threads=[other], schedule=STEPS)), unable(said)


def of_machines(it):
    """Yields machines that can't run scripts, with what is said of them."""
    script = it.script()
    yield "no cc", it.run(script, PATH=it.room), unable("there is no C compiler: put cc on the path")
    said = "a seccomp filter forbids io_uring (EPERM), as those of containers do"
    yield "EPERM", it.run(script, before=forbidding(EPERM)), unable(said)
    yield "ENOSYS", it.run(script, before=forbidding(ENOSYS)), unable("this kernel has no io_uring (ENOSYS)")


def of_words(it):
    """Yields words, scripts with faults and other schedules, with what is said of them."""
    usage = "Usage: uringwalk-real SCRIPT"
    yield "no words", it.run(), (2, "", usage)
    yield "two words", it.run("a", "b"), (2, "", usage)
    yield "help", it.run("--help"), (0, usage, "")
    yield "a run", it.run(it.script()), SAME
    yield "20 seconds", it.run(it.script(threads=[[]], schedule=[["tick", 1]] * 801)), (4, "not settled", "")
    yield "an early end", it.run(it.script(schedule=STEPS)), SAME
    poller = {"sqpoll": True, "threads": [[*READ[:2], ["close", 3]]], **FILE}
    yield "before the poller takes", it.run(it.script(schedule=STEPS[:2], **poller)), SAME
    yield "a close before the poller takes", it.run(it.script(schedule=STEPS, **poller)), SAME
    two = [*NOP[:2], ["put", 1, {"op": 0, "ud": 2}], ["push", 1]]
    one_by_one = [*[["step", 0]] * 4, ["take", 1], ["take", 1], ["issue", 0], ["finish", 0], ["issue", 1], ["finish", 1]]
    said = 4, "not a kernel's schedule: event 4: a poller takes by itself", ""
    yield "a poller that takes one by one", it.run(it.script(sqpoll=True, threads=[two], schedule=one_by_one)), said
    yield "a poller that sleeps", it.run(f"{TOP}/examples/lost_wake_up/script.json"), SAME
    for name, keys in (("a fault", {"entries": 0}), ("a refused event", {"schedule": [["issue", 0]]})):
        path = it.script(**keys)
        yield name, it.run(path), it.walks(path)
    path = f"{it.room}/none.json"
    yield "no file", it.run(path), it.walks(path)


def refusals(program):
    """Yields the name of each check, and whether it holds."""
    with tempfile.TemporaryDirectory(prefix="uringwalk-real-tests-") as room:
        it = Trials(room, program)
        for name, got, wanted in [*of_scripts(it), *of_machines(it), *of_words(it)]:
            yield f"{name}: {got}, not {wanted}", got == wanted
        for number in (signal.SIGINT, signal.SIGTERM, signal.SIGHUP):
            yield f"signal {number} leaves nothing", it.ends_on(number)
