"""The folder in which programs run with the shim preloaded."""
import os
import subprocess
import tempfile

from situations import SCRIPTS, shown_places, text_of

HERE = os.path.dirname(os.path.realpath(__file__))
TOP = os.path.dirname(os.path.dirname(HERE))
# Of the allocations of a call each of the first FIRST fails in turn, and SPREAD of the others, evenly spread.
FIRST, SPREAD = 500, 200


class Wrong(Exception):
    pass


def require(holds, why):
    if not holds:
        raise Wrong(why)


class Room:
    """A folder in which programs run with the shim preloaded, and the scripts that they run on."""

    def __init__(self, path):
        self.path = path
        self.shim = f"{path}/shim.so"
        subprocess.run(["cc", "-O2", "-shared", "-fPIC", "-o", self.shim, f"{HERE}/shim.c", "-ldl"], check=True)
        self.allocation_faults = os.environ.get("ALLOCATION_FAULTS", f"{TOP}/crates/allocation_faults/out/allocation_faults")
        self.uringwalk = os.environ.get("URINGWALK", f"{TOP}/crates/uringwalk/out/uringwalk")
        for name in SCRIPTS:
            with open(self.script(name), "w", encoding="ascii") as it:
                it.write(text_of(name))
        self.asked, self.made = {}, {}

    def script(self, name):
        return f"{self.path}/{name}.json"

    def lines_of(self, asked):
        """Returns the lines for a session: those that show all places of a script, or the given ones."""
        if asked is None:
            return b""
        if asked not in self.asked:
            self.asked[asked] = (shown_places(SCRIPTS[asked]()) if asked in SCRIPTS else asked).encode()
        return self.asked[asked]

    def ran(self, words, what, how, number, given=b"", here=None):
        """Runs words with the shim preloaded. Without a number the program's own lines say when allocations are counted.

        Returns what ran, whether the failure was injected, and how many calls were counted."""
        env, report = self.injecting(what, how, number)
        done = subprocess.run(words, input=given, capture_output=True, env=env, cwd=here or self.path, timeout=60, check=False)
        return done, *reported(report, done)

    def injecting(self, what, how, number):
        """Returns the environment that makes the shim inject a failure, and the file to which the shim reports."""
        handle, report = tempfile.mkstemp(dir=self.path)
        os.close(handle)
        os.unlink(report)
        env = {"PATH": os.environ["PATH"], "LD_PRELOAD": self.shim, "FAULTS_WHAT": what, "FAULTS_HOW": how,
               "FAULTS_REPORT": report}
        if number is not None:
            env["FAULTS_N"] = str(number)
        return env, report


def reported(report, done):
    """Returns whether the failure was injected into what ran, and how many calls were counted."""
    if not os.path.exists(report):
        require(done.returncode < 0, "the shim reported nothing")
        return False, 0
    with open(report, encoding="ascii") as it:
        words = it.read().split()
    os.unlink(report)
    return words[0] == "reached", int(words[1])


def numbers_of(count):
    """Returns the numbers of the allocations that fail in turn, out of `count`."""
    if count <= FIRST + SPREAD:
        return list(range(1, count + 1))
    step = (count - FIRST) / SPREAD
    return list(range(1, FIRST + 1)) + [FIRST + int(step * (k + 1)) for k in range(SPREAD)]


def note_of(numbers, count):
    """Returns a note where not every allocation fails in turn."""
    return "" if len(numbers) == count else f"of {count} allocations the first {FIRST} and {SPREAD} more failed in turn"
