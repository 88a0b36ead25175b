"""Runs words of the program `uringwalk` with injected failures: each allocation, open, path lookup, read, write, sync and
rename fails in turn, and the program is killed."""
import os
import random
import re
import shutil
import socket
import subprocess
import tempfile

from room import Wrong, note_of, numbers_of, reported, require

LINES = b"where\nshow got 0\ngoto 3\nwatch cq.tail\nbreak last 0 = 1\ncont\nrcont\nshow row 0\nsync\nwhere\nquit\n"
OLD = b"the old file"
# The reports of a failed read and of a failed write. What was written before one is a prefix of the output.
READ, WRITE, MEMORY = b"fault session 1\n", b"fault session 2\n", b"fault session 3\n"
NO_FILE, NO_MEMORY = b"fault file\n", b"fault memory\n"
# How many runs of threads, and of a program that serves, are made with a random allocation that fails: which allocation is
# the Nth isn't fixed there.
LIVE_RUNS, SERVED_RUNS = 200, 100
# A live run that survives this many failures in a row, each of a later allocation, was open before the first of them.
OPENED = 5
# What a client asks, all replies without a failure, and how many seconds it waits for them.
ASKED = b"sync\nwhere\ngoto 0\nshow clock\nquit\n"
ANSWERS = b"synced %s\nat 0 of %s\nat 0 of %s\n0\nbye\n"
PATIENCE = 20
# How often another port is tried if the port was taken in the meantime, and how the program reports that.
TRIES, NO_PORT = 5, b"fault net\n"


class Job:
    """Words of the program, which run in their own folder with the files that they name."""

    def __init__(self, name, words, over="one_nop", out=None, given=b"", old=OLD, each=False):
        self.name, self.words, self.over, self.out, self.given, self.old = name, words, over, out, given, old
        self.each = each  # whether each allocation fails in turn, however many there are
        self.serves = words[0] in ("walk", "replay") and given != b""

    def run(self, room, what, how, number):
        """Runs the words with the shim preloaded. Returns what ran, the files afterwards, whether the failure was injected,
        and how many calls were counted."""
        with tempfile.TemporaryDirectory(dir=room.path) as here:
            self.fill(room, here)
            done, reached, count = room.ran([room.uringwalk, *self.words], what, how, number, self.given, here)
            return done, files_of(here), reached, count

    def fill(self, room, here):
        shutil.copy(room.script(self.over), f"{here}/script")
        for name, words in (("whole", ["trace", "script", "whole"]), ("events", ["trace", "script", "events", "--form", "1"])):
            if name in self.words:
                if (self.over, name) not in room.made:
                    done, _, _ = room.ran([room.uringwalk, *words], "allocation", "one", 0, here=here)
                    require(done.returncode == 0, f"no trace: {done.stderr.decode()}")
                    with open(f"{here}/{name}", "rb") as it:
                        room.made[self.over, name] = it.read()
                write(f"{here}/{name}", room.made[self.over, name])
        if self.out and self.old is not None:
            write(f"{here}/{self.out}", self.old)

    def allocations_of_words(self, room):
        """Returns the number of allocations before the first file is read: with a file that is missing."""
        words = [self.words[0], "missing", *self.words[2:]]
        _, _, count = room.ran([room.uringwalk, *words], "allocation", "one", 0, self.given)
        return count


def write(path, data):
    with open(path, "wb") as it:
        it.write(data)


def files_of(here):
    found = {}
    for name in sorted(os.listdir(here)):
        with open(f"{here}/{name}", "rb") as it:
            found[name] = it.read()
    return found


class Expected:
    """A run without a failure."""

    def __init__(self, job, room):
        done, self.files, _, _ = job.run(room, "allocation", "one", 0)
        self.stdout, self.stderr, self.status = done.stdout, done.stderr, done.returncode
        self.out = self.files.get(job.out)
        self.before = {name: data for name, data in self.files.items() if name != job.out}
        if job.out and job.old is not None:
            self.before[job.out] = job.old

    def is_whole(self, done, files):
        return (done.stdout, done.stderr, done.returncode, files) == (self.stdout, self.stderr, self.status, self.files)

    def is_cut(self, done, files, fault, written=True):
        """Whether a run ended with a fault after a prefix of its output, and left all files as they were before it, or as
        a whole run leaves them."""
        begins = self.stdout.startswith(done.stdout) if written else not done.stdout
        return done.stderr == fault and done.returncode == 1 and begins and files in (self.before, self.files)


def shown(done):
    return f"status {done.returncode}, {done.stdout!r}, {done.stderr!r}"


WALK = Job("walk", ["walk", "script"], given=LINES)
REPLAY = Job("replay", ["replay", "whole"], given=LINES)
LOG = Job("log", ["log", "script"], over="all_opcodes")
LOG_TRACE = Job("log of a trace", ["log", "whole", "--from", "1"])
TRACE = Job("trace", ["trace", "script", "out"], out="out")
TRACE_NEW = Job("trace into a new file", ["trace", "script", "out"], out="out", old=None)
TRACE_1 = Job("trace of form 1", ["trace", "script", "out", "--form", "1"], out="out")
MIGRATE = Job("migrate", ["migrate", "script", "events", "out"], out="out")
EXPLORE = Job("explore", ["explore", "script", "--until", "pc 0 = 4", "--runs", "1", "--threads", "1", "--out", "out"], out="out", each=True)
EXPLORE_NEW = Job("explore into a new file", ["explore", "script", "--kind", "not-durable", "--runs", "1", "--threads", "1", "--out", "out"],
                  "written_page", "out", old=None, each=True)
EXPLORE_JSON = Job("explore as JSON", ["explore", "script", "--runs", "2", "--threads", "1", "--json"], each=True)
SCHEDULE = Job("schedule", ["schedule", "script", "whole", "out"], out="out")
HELP = Job("help", ["walk", "--help"])
WRONG_WORDS = Job("words that are refused", ["walk"])
LIVE = Job("live", ["live", "script", "--turns", "6", "--kernel", "1", "--trace", "out"], out="out", given=LINES)
LIVE_WIDE = Job("live of all opcodes", LIVE.words, "all_opcodes", "out", LINES)

FIXED = (WALK, REPLAY, LOG, LOG_TRACE, TRACE, TRACE_NEW, TRACE_1, MIGRATE, EXPLORE, SCHEDULE)
# The same on a script with a request of each opcode.
WIDE = tuple(Job(f"{job.name} of all opcodes", job.words, "all_opcodes", job.out, job.given)
             for job in (WALK, REPLAY, TRACE, TRACE_1, MIGRATE))


# ---- memory

def fail_allocations(job):
    """Checks that a failed allocation is reported by its line: that of a session, once there is one. What was written is a
    prefix of the output, and the files are as before. The program may also succeed without the allocation."""
    def trial(room):
        expected = Expected(job, room)
        _, _, _, count = job.run(room, "allocation", "one", 0)
        require(count > 0, "it allocates nothing")
        numbers, failed, reports = range(1, count + 1) if job.each else numbers_of(count), 0, {MEMORY: 0, NO_MEMORY: 0}
        for how in ("one", "all"):
            in_session = False
            for number in numbers:
                done, files, reached, _ = job.run(room, "allocation", how, number)
                require(reached, f"allocation {number} of {count}, {how}, was not reached")
                if expected.is_whole(done, files):
                    continue
                fault = MEMORY if job.serves and done.stderr == MEMORY else NO_MEMORY
                written = fault == MEMORY or job.words[0] == "log"
                in_session = in_session or fault == MEMORY
                require(expected.is_cut(done, files, fault, written) and files == expected.before and in_session == (fault == MEMORY),
                        f"allocation {number} of {count}, {how}: {shown(done)}, files {sorted(files)}")
                failed, reports[fault] = failed + 1, reports[fault] + 1
        # More failures are reported than those of reading the words, and those of a session are reported as such.
        words = 0 if job in (HELP, WRONG_WORDS) else 2 * job.allocations_of_words(room)
        require(reports[NO_MEMORY] > words and (reports[MEMORY] > 0) == job.serves, f"{reports}, and {words} of the words")
        done, files, reached, _ = job.run(room, "allocation", "one", count + 1)
        require(not reached and expected.is_whole(done, files), f"after the last allocation: {shown(done)}")
        return 2 * len(numbers) + 1, failed, note_of(numbers, count)
    return trial


def is_live_run(room, done, files):
    """Whether a live run reports that it is out of memory and leaves the old trace, or leaves a trace that replays."""
    if done.stderr == NO_MEMORY and not done.stdout and files.get("out") == OLD:
        return sorted(files) == ["out", "script"]
    if sorted(files) != ["out", "script"] or files["out"] == OLD:
        return False
    closed = done.stdout.splitlines()[:1]
    count = replayed(room, files["out"])
    if count is None or closed not in ([], [f"closed {count}".encode()]):
        return False
    return done.returncode == 0 or done.returncode == 1 and done.stderr in (NO_MEMORY, MEMORY)


def replayed(room, trace):
    """Returns the number of events of a trace, or None where it doesn't replay."""
    with tempfile.TemporaryDirectory(dir=room.path) as here:
        write(f"{here}/out", trace)
        done, _, _ = room.ran([room.uringwalk, "replay", "out"], "allocation", "one", 0, b"where\n", here)
    words = done.stdout.split()
    if done.returncode != 0 or len(words) != 4 or words[1] != words[3]:
        return None
    return int(words[1])


def fail_allocations_of_threads(room):
    """Fails random allocations of a live run: a turn without its memory must change nothing."""
    chosen = random.Random(36)
    failed = 0
    for _ in range(LIVE_RUNS):
        _, _, _, count = LIVE.run(room, "allocation", "one", 0)
        number = chosen.randint(1, count)
        done, files, reached, _ = LIVE.run(room, "allocation", "one", number)
        failed += reached
        require(is_live_run(room, done, files), f"allocation {number}: {shown(done)}, files {sorted(files)}")
    require(failed > 0, "no allocation failed")
    return LIVE_RUNS, failed, ""


def fail_first_allocations(job):
    """Fails each allocation of a live run until it is open: it must report that it is out of memory, and leave the old trace."""
    def trial(room):
        number, opened, words = 0, 0, job.allocations_of_words(room)
        while opened < OPENED:
            number += 1
            done, files, reached, _ = job.run(room, "allocation", "one", number)
            require(reached and is_live_run(room, done, files), f"allocation {number}: {shown(done)}, files {sorted(files)}")
            opened = opened + 1 if files["out"] != OLD else 0
        first = number - OPENED
        require(first > words, f"it opens after {first} allocations, {words} of them for the words")
        for each in range(1, number + 1):
            done, files, reached, _ = job.run(room, "allocation", "all", each)
            require(reached and is_live_run(room, done, files) and done.stderr == NO_MEMORY and files["out"] == OLD,
                    f"allocation {each} and all later ones: {shown(done)}, files {sorted(files)}")
        return 2 * number, first + number, f"it opens after {first} allocations"
    return trial


# ---- memory of a program that serves

def free_port():
    with socket.socket() as it:
        it.bind(("127.0.0.1", 0))
        return it.getsockname()[1]


def replies_at(port):
    """Returns all replies to a client, up to the end of its connection."""
    replies = b""
    try:
        with socket.create_connection(("127.0.0.1", port), timeout=PATIENCE) as it:
            it.sendall(ASKED)
            while data := it.recv(4096):
                replies += data
    except ConnectionError:
        pass
    return replies


def served(room, number):
    """Serves a run to one client. Returns what ran, the replies to the client, whether the failure was injected, and the number
    of allocations."""
    for _ in range(TRIES):
        done, replies, *counted = served_at(room, number, free_port())
        if done.stderr != NO_PORT or done.stdout:
            break
    return done, replies, *counted


def served_at(room, number, port):
    words = [room.uringwalk, "serve", room.script("one_nop"), "--port", str(port), "--turns", "6", "--clients", "1"]
    env, report = room.injecting("allocation", "one", number)
    with subprocess.Popen(words, stdout=subprocess.PIPE, stderr=subprocess.PIPE, env=env) as it:
        try:
            line = it.stdout.readline()
            replies = replies_at(port) if line else b""
            rest, fault = it.communicate(timeout=PATIENCE)
        except (subprocess.TimeoutExpired, TimeoutError) as late:
            it.kill()
            raise Wrong(f"allocation {number}: it didn't end") from late
    done = subprocess.CompletedProcess(words, it.returncode, line + rest, fault)
    require(done.stdout in (b"", b"port %d\n" % port), f"allocation {number}: {shown(done)}")
    return done, replies, *reported(report, done)


def all_replies(replies):
    """Returns all replies to a client whose first reply has this number of events."""
    found = re.match(rb"synced (\d+)\n", replies)
    return ANSWERS % ((found[1],) * 3) if found else b""


def fail_allocations_of_serving(room):
    """Fails random allocations of a program that serves: it must report at its end that it is out of memory, or a client's
    session ends early, after a prefix of its replies."""
    chosen = random.Random(35)
    failed = ended_program = ended_session = 0
    for _ in range(SERVED_RUNS):
        done, replies, _, count = served(room, 0)
        require((done.returncode, done.stderr) == (0, b"") and replies == all_replies(replies) != b"", f"{shown(done)}, {replies!r}")
        number = chosen.randint(1, count)
        done, replies, reached, _ = served(room, number)
        failed += reached
        ended = (done.returncode, done.stderr)
        whole = all_replies(replies)
        require(ended in ((0, b""), (1, NO_MEMORY)) and whole.startswith(replies), f"allocation {number}: {shown(done)}, {replies!r}")
        ended_program += ended == (1, NO_MEMORY)
        ended_session += ended == (0, b"") and (not replies or replies != whole)
    require(failed > 0 and ended_program > 0 and ended_session > 0,
            f"of {failed} failures {ended_program} ended the program, and {ended_session} only a client's session")
    return SERVED_RUNS, failed, f"{ended_program} failures ended the program, and {ended_session} only a client's session"


# ---- reads and writes

def fail_reads(job, how):
    """Fails each read in turn: it must be reported as a fault of a file or, after all reads of files, of standard input. An
    interrupted read of a file is repeated."""
    def trial(room):
        expected = Expected(job, room)
        number, of_files, of_input = 1, 0, 0
        while True:
            done, files, reached, _ = job.run(room, "read", how, number)
            if not reached:
                break
            if job.given and expected.is_cut(done, files, READ) and files == expected.before:
                of_input += 1
            else:
                of_files += 1
                right = (expected.is_whole(done, files) if how == "eintr"
                         else expected.is_cut(done, files, NO_FILE, False) and files == expected.before)
                require(right and not of_input, f"read {number}: {shown(done)}, files {sorted(files)}")
            number += 1
        require(expected.is_whole(done, files), f"after {number - 1} reads: {shown(done)}")
        require(of_files > 0 and (of_input > 0) == bool(job.given), f"{of_files} reads of files and {of_input} of input failed")
        return number, number - 1, ""
    return trial


def fail_writes(job, what, how):
    """Fails each write in turn: it must be reported as a fault of the file, which keeps its old bytes, or, after all writes of
    the file, of standard output, and then the file is complete. A write of half its bytes is continued. An interrupted write
    is repeated if it goes to a file or writes the line `events E`; elsewhere it is a fault."""
    def trial(room):
        expected = Expected(job, room)
        number, of_file, of_output = 1, 0, 0
        while True:
            done, files, reached, _ = job.run(room, what, how, number)
            if not reached:
                break
            if how == "half":
                right = expected.is_whole(done, files)
            elif what == "write" and expected.is_cut(done, files, WRITE) and files == expected.files:
                of_output, right = of_output + 1, True
            else:
                of_file += 1
                right = job.out and not of_output and (
                    expected.is_whole(done, files) if how == "eintr"
                    else expected.is_cut(done, files, NO_FILE, False) and files == expected.before)
            require(right, f"{what} {number}: {shown(done)}, files {sorted(files)}")
            number += 1
        require(number > 1 and expected.is_whole(done, files), f"{number - 1} failed, and then {shown(done)}")
        if how != "half":
            is_output = what == "write" and (how != "eintr" or not job.out or job is EXPLORE)
            require((of_file > 0) == bool(job.out) and (of_output > 0) == is_output,
                    f"{of_file} of the file and {of_output} of the output failed")
        return number, number - 1, ""
    return trial


def fail_opens(job, what, how):
    """Fails each open, or each path lookup, in turn: it must be reported as a fault of a file. The two lookups that find out
    whether OUT leads to SCRIPT's own file, and the two for TRACE's, are an exception: a path that can't be followed leads to
    no file."""
    def trial(room):
        expected = Expected(job, room)
        number, faults = 1, 0
        while True:
            done, files, reached, _ = job.run(room, what, how, number)
            if not reached:
                break
            whole = expected.is_whole(done, files)
            right = whole or expected.is_cut(done, files, NO_FILE, False) and files == expected.before
            require(right, f"{what} {number}: {shown(done)}, files {sorted(files)}")
            number, faults = number + 1, faults + (not whole)
        spared = (4 if job is SCHEDULE else 2) if what == "lookup" else 0
        require(faults == number - 1 - spared > 0 and expected.is_whole(done, files),
                f"{faults} of {number - 1} were reported, and then {shown(done)}")
        return number, number - 1, ""
    return trial


# ---- kills

def is_left(files, old, before, whole, beginning):
    """Whether OUT is the old file or the whole new one, and next to it at most OUT.0, a prefix of the new one."""
    rest = {name: data for name, data in files.items() if name not in ("out", "out.0")}
    is_intact = files.get("out") == old or whole(files.get("out"))
    return is_intact and rest == before and ("out.0" not in files or beginning(files["out.0"]))


def kill(job, how):
    """Kills the program at each write, sync and rename: it must leave the old file or the whole new one."""
    def trial(room):
        expected = Expected(job, room)
        before = {name: data for name, data in expected.before.items() if name != "out"}
        if job is LIVE:
            def whole(data):
                return data is not None and replayed(room, data) is not None

            def beginning(data):
                return b"URTRACE2".startswith(data[:8])
        else:
            def whole(data):
                return data == expected.out

            def beginning(data):
                return expected.out.startswith(data)
        number = 1
        while True:
            done, files, reached, _ = job.run(room, "write,sync,rename", how, number)
            if not reached:
                break
            require(done.returncode == -9, f"at {number} it wasn't killed: {shown(done)}")
            require(is_left(files, job.old, before, whole, beginning), f"killed at {number}: files {sorted(files)}")
            number += 1
        require(number > 3 and done.returncode == expected.status, f"it was killed {number - 1} times, and then {shown(done)}")
        return number, number - 1, ""
    return trial


def all_trials():
    for job in FIXED + WIDE + (EXPLORE_NEW, EXPLORE_JSON, HELP, WRONG_WORDS):
        yield f"allocations of {job.name}", fail_allocations(job)
    for job in (LIVE, LIVE_WIDE):
        yield f"first allocations of {job.name}", fail_first_allocations(job)
    yield "allocations of live", fail_allocations_of_threads
    yield "allocations of serve", fail_allocations_of_serving
    for job in FIXED:
        for how in ("eio", "eintr"):
            yield f"reads of {job.name}, {how}", fail_reads(job, how)
        for how in ("eio", "enospc", "eintr", "half", "broken"):
            yield f"writes of {job.name}, {how}", fail_writes(job, "write", how)
        for what in ("sync", "rename") if job.out else ():
            for how in ("eio", "enospc"):
                yield f"{what} of {job.name}, {how}", fail_writes(job, what, how)
    for job in (TRACE, TRACE_NEW, TRACE_1, MIGRATE, EXPLORE, SCHEDULE):
        for what in ("open", "lookup"):
            for how in ("eio", "enospc"):
                yield f"{what} of {job.name}, {how}", fail_opens(job, what, how)
    for job in (TRACE, TRACE_NEW, TRACE_1, MIGRATE, EXPLORE, SCHEDULE, LIVE):
        for how in ("kill", "torn"):
            yield f"{job.name}, {how}", kill(job, how)
