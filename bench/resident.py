"""The most resident memory of a program's run."""
import re
import subprocess
import time


def most_memory(words, commands=None):
    """Returns the most resident memory in KB, as the kernel last said while the program ran, and the program's status."""
    most = 0
    with subprocess.Popen(words, stdin=commands, stdout=subprocess.DEVNULL) as ran:
        while ran.poll() is None:
            with open(f"/proc/{ran.pid}/status", encoding="utf-8") as it:
                found = re.search(r"VmHWM:\s+(\d+)", it.read())
            most = int(found[1]) if found else most
            time.sleep(0.002)
    return most, ran.returncode
