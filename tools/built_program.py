"""Where conspecj is, and what it shows of a class."""
import os
import shutil
import subprocess


class Refused(Exception):
    """conspecj is not there, or does not take what it was given; the text is its line, or says why."""


def program():
    """The path of conspecj: that in CONSPECJ, or where the repository builds it, or on the path."""
    built = os.path.join(os.path.dirname(os.path.realpath(__file__)), "..", "crates", "conspecj", "out", "conspecj")
    for path in (os.environ.get("CONSPECJ"), built, shutil.which("conspecj")):
        if path and os.access(path, os.X_OK):
            return os.path.realpath(path)
    raise Refused("conspecj is not built, and CONSPECJ does not say where it is")


def shown(listing, file):
    """The lines that `conspecj show` prints of a class file."""
    ran = subprocess.run([program(), "show", listing, file], capture_output=True, text=True, check=False)
    if ran.returncode:
        raise Refused(ran.stdout.strip() or "conspecj is stopped")
    return ran.stdout.splitlines()
