"""The promises of docs/CLAUSES.md and its further pages, and the crates of docs/CRATES.md, row by row."""
import os

DOCS = os.path.join(os.path.dirname(os.path.dirname(os.path.dirname(os.path.realpath(__file__)))), "docs")
PAGES = ("CLAUSES.md", "clauses/PROGRAMS.md", "clauses/RUNS.md", "clauses/TRANSPARENCY.md")


def rows_of(name):
    """The cells of each row of the one table of a page, but for its head."""
    with open(os.path.join(DOCS, name), encoding="utf-8") as file:
        rows = [line for line in file.read().splitlines() if line.startswith("| ")]
    return [[cell.strip() for cell in row.strip("|").split(" | ")] for row in rows[1:]]


def promises():
    """What holds, where, and the clause, of each promise."""
    return [row for page in PAGES for row in rows_of(page)]


def crates():
    """Each crate, or crates, with what it is and the contract that carries it."""
    return [row[:3] for row in rows_of("CRATES.md")]
