"""Runs a program, and leaves none of its processes behind where that is interrupted."""
import os
import signal
import subprocess

ENDING = signal.SIGHUP, signal.SIGINT, signal.SIGTERM


def run(words, timeout=None, **environment):
    """Runs words in a new session without input, and returns their status and outputs as text."""
    signal.pthread_sigmask(signal.SIG_BLOCK, ENDING)  # until the process is known here
    try:
        return finished(words, timeout, {**os.environ, **environment})
    finally:
        signal.pthread_sigmask(signal.SIG_UNBLOCK, ENDING)


def finished(words, timeout, environment):
    with subprocess.Popen(words, stdin=subprocess.DEVNULL, stdout=subprocess.PIPE, stderr=subprocess.PIPE, text=True,
                          errors="replace", env=environment, start_new_session=True) as it:
        try:
            signal.pthread_sigmask(signal.SIG_UNBLOCK, ENDING)
            out, err = it.communicate(timeout=timeout)
        except BaseException:
            os.killpg(it.pid, signal.SIGKILL)
            raise
        return subprocess.CompletedProcess(words, it.returncode, out, err)
