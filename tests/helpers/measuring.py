"""How long a program takes and how much memory, for the scripts of bench/. Where the environment has COUNT_INSTRUCTIONS, the
machine instructions are counted by valgrind in place of the time, in millions: so growths do not depend on what else the
machine does.
"""
import os
import re
import subprocess
import sys

HERE = os.path.dirname(os.path.realpath(__file__))
COUNTER = ["valgrind", "--tool=callgrind", "--callgrind-out-file=/dev/null"]


def program():
    """The path of the built program."""
    found = subprocess.run([os.path.join(HERE, "..", "program")], check=True, capture_output=True, text=True)
    return found.stdout.strip()


def measure(*words, ends=0):
    """Milliseconds of processor time, KiB of the greatest memory, and what is printed, of the fastest of five runs, each of which has to
    end with this status."""
    if os.environ.get("COUNT_INSTRUCTIONS"):
        return counted(words, ends)
    best = None
    for _ in range(5):
        child = subprocess.Popen(words, stdout=subprocess.PIPE, stderr=subprocess.STDOUT)
        printed = child.stdout.read().decode().strip()
        _, status, used = os.wait4(child.pid, 0)
        if os.waitstatus_to_exitcode(status) != ends:
            sys.exit(f"{words[1]}: {printed}")
        took = (used.ru_utime + used.ru_stime) * 1000
        if best is None or took < best[0]:
            best = (took, used.ru_maxrss, printed)
    return best


def counted(words, ends):
    """Millions of machine instructions, no memory, and what is printed."""
    ran = subprocess.run([*COUNTER, *words], capture_output=True, text=True)
    found = re.search(r"Collected : (\d+)", ran.stderr)
    if ran.returncode != ends or not found:
        sys.exit(f"{words[1]}: {ran.stdout.strip()}")
    return int(found[1]) / 1e6, 0, ran.stdout.strip()
