"""The programs of examples/machine/sources, or of another such folder, compiled here and set to version 49, and runs of them on a
Java machine.
"""
import os
import shutil
import subprocess
import sys

HERE = os.path.dirname(os.path.realpath(__file__))
ROOT = os.path.dirname(os.path.dirname(HERE))
SOURCES = os.path.join(ROOT, "examples", "machine", "sources")
LISTING = os.path.join(ROOT, "examples", "machine", "listing")
VERSION = bytes([0, 0, 0, 49])
HANGS = 120


def no_java(name, done="run"):
    """Whether there is no Java machine here, or no compiler; it is said then that this test does nothing."""
    for tool in ("java", "javac"):
        if not shutil.which(tool):
            print(f"{name}: no {tool} here, so nothing is {done}")
            return True
    return False


def compiled(folder, sources=SOURCES):
    """The library and the programs as class files in the folder, those of the programs of version 49; the folder of these."""
    folders = [os.path.join(sources, part) for part in ("api", "run")]
    files = [os.path.join(place, name) for place in folders for name in sorted(os.listdir(place))]
    words = ["javac", "-g:none", "-source", "8", "-target", "8", "-Xlint:-options,-divzero", "-d", folder]
    subprocess.run([*words, *files, os.path.join(HERE, "Begin.java")], check=True)
    own = os.path.join(folder, "run")
    for name in os.listdir(own):
        with open(os.path.join(own, name), "r+b") as file:
            file.seek(4)
            file.write(VERSION)
    return own


def library_in(folder):
    """The folder of a copy of the library alone: it stands on the class path before the programs, with blocks or without."""
    library = os.path.join(folder, "library")
    shutil.copytree(os.path.join(folder, "api"), os.path.join(library, "api"))
    shutil.copy(os.path.join(folder, "Begin.class"), library)
    return library


def programs(folder):
    """The names of each program's classes, those inside another first, in their order, and the main class last."""
    names = sorted(name[: -len(".class")] for name in os.listdir(os.path.join(folder, "run")))
    for main in names:
        if "$" not in main:
            yield [name for name in names if name.startswith(main + "$")] + [main]


def java(path, *words):
    """The lines that are printed, the exit value, and the errors, with the verifier on; the value is None where the run hangs."""
    command = ["java", "-Xverify:all", "-cp", path, *words]
    try:
        ran = subprocess.run(command, capture_output=True, text=True, check=False, timeout=HANGS)
    except subprocess.TimeoutExpired:
        return [], None, f"still running after {HANGS} seconds"
    return ran.stdout.splitlines(), ran.returncode, ran.stderr


def really(path, classes, *settings):
    """The lines that the library printed, the answers among them, and the end."""
    words = ["java", *settings, "-cp", path, "Begin", *(f"run.{name}" for name in classes)]
    ran = subprocess.run(words, capture_output=True, text=True, check=False)
    lines = ran.stdout.splitlines()
    if ran.stderr:
        sys.exit(f"{classes[-1]} on the Java machine: {ran.stderr}")
    end = lines.pop() if lines and lines[-1] == "end finished" else f"end stopped {ran.returncode}"
    return [line for line in lines if not line.startswith("answer")], [line for line in lines if line.startswith("answer")], end
