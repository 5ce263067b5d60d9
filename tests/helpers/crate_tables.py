"""What the tables of docs/CRATES.md, docs/GATE.md and CONTRIBUTING.md have from the crates themselves: how many crates stand above each, a row of costs for each crate, and
how many edits it has."""
import os
import re

ROOT = os.path.dirname(os.path.dirname(os.path.dirname(os.path.realpath(__file__))))


def standing_on(name, names):
    """The crates that stand on this one, directly or not, with itself; `names` is the crates with what they name, in the order of crates.txt."""
    found = {name}
    for crate, below in names:
        if found & set(below):
            found.add(crate)
    return found


def edits(name):
    folder = os.path.join(ROOT, "crates", name, "must-fail")
    return len([one for one in os.listdir(folder) if one.endswith(".edit")]) if os.path.isdir(folder) else 0


def crates_page(text, names):
    """docs/CRATES.md with the last column as crates.txt gives it."""
    counts = {name: len(standing_on(name, names)) - 1 for name, _below in names}
    return re.sub(r"^(\| (\w+) \| .* \|) \S+ \|$", lambda row: f"{row[1]} {counts[row[2]]} |" if row[2] in counts else row[0], text, flags=re.M)


def gate_page(text, names):
    """docs/GATE.md with a row for each crate, in the order of crates.txt: times as they are, `-` where none stands there."""
    head, table = re.search(r"(.*?\n\|---\|---\|---\|---\|---\|\n)(.*)", text, re.S).groups()
    times = {row[0]: row[1:4] for row in (line.strip("| ").split(" | ") for line in table.splitlines() if line.startswith("| "))}
    rows = [" | ".join([name, *times.get(name, ["-", "-", "-"]), str(edits(name) or "-")]) for name, _below in names]
    return head + "".join(f"| {row} |\n" for row in rows) + re.sub(r"^\|.*\n", "", table, flags=re.M)


def contributing_page(text, names):
    """CONTRIBUTING.md with the crates above each of its table, and the minutes of their proofs in docs/GATE.md, with its own."""
    with open(os.path.join(ROOT, "docs", "GATE.md"), encoding="utf-8") as file:
        tenths = {crate: round(10 * float(proof)) for crate, proof in re.findall(r"^\| (\w+) \| ([\d.]+) \|", file.read(), re.M)}

    def row(found):
        over = standing_on(found[1], names)
        return f"| {found[1]} | {len(over) - 1} | {(sum(tenths.get(crate, 0) for crate in over) + 5) // 10} |"

    return re.sub(r"^\| (\w+) \| \d+ \| \d+ \|$", row, text, flags=re.M)


def faults(names, is_written):
    found = []
    for page, made_of in (("docs/CRATES.md", crates_page), ("docs/GATE.md", gate_page), ("CONTRIBUTING.md", contributing_page)):
        path = os.path.join(ROOT, page)
        with open(path, encoding="utf-8") as file:
            text = file.read()
        wanted = made_of(text, names)
        if is_written:
            with open(path, "w", encoding="utf-8") as file:
                file.write(wanted)
        elif text != wanted:
            found.append(f"{page}: its table is not what crates.txt and must-fail/ say: tests/crates --write")
    return found
