"""A check of a crate from nothing, and the modules that the checker saved, each as it was done with it."""
import os
import re
import resource
import subprocess
import sys


def checked(words, crate, folder):
    """Checks the crate of this folder on one processor, with these words, and gives the processor seconds that it took."""
    said = subprocess.run(["rattle", "check", *words, "--jobs", "1", "--incremental", folder], cwd=crate, capture_output=True, text=True)
    if said.returncode:
        sys.exit(said.stdout + said.stderr)
    took = resource.getrusage(resource.RUSAGE_CHILDREN)
    return took.ru_utime + took.ru_stime


def modules(name, folder, began):
    """The saved modules of the crate of this name with the seconds that each took, in the order in which they were done."""
    files = [(os.lstat(f"{at}/{file}").st_mtime, file) for at, _, its in os.walk(folder) for file in its]
    last = began
    for done, file in sorted(files):
        if file.endswith(".oantt"):
            yield re.sub(r"(\.decls)?\.oantt$", "", file).replace(f"Rattle-{name}-", ""), done - last
        last = done
