"""Draws the two pictures of docs/ARCHITECTURE.md from crates.txt, and says whether they are as drawn: docs/pictures/house.svg has the crates
by floors, those below the checker marked; docs/pictures/way.svg has the way of `check` and `inline` from files to an answer.
"""
import os
import re
from xml.sax.saxutils import escape

HERE = os.path.dirname(os.path.realpath(__file__))
ROOT = os.path.dirname(os.path.dirname(HERE))
CHECKER, TOP = "cert_checker", "inliner_tool"

# The stages of a command: what goes in, the crates that work on it in this order, what comes out.
WAYS = [
    ("check", [
        ("words", ["command_inputs"], "names of files"),
        ("files", ["command_inputs", "listing_text", "conspec_parse", "cert_format", "class_codec"], "listing, policy, certificate, classes"),
        ("classes", ["class_linking"], "program"),
        ("policy", ["conspec_automaton"], "automaton"),
        ("program, automaton, certificate", [CHECKER], "yes, or the first rule that fails"),
        ("answer", ["command_outputs"], "one line and a status"),
    ]),
    ("inline", [
        ("words", ["command_inputs"], "names of files"),
        ("files", ["command_inputs", "listing_text", "conspec_parse", "class_codec"], "listing, policy, classes"),
        ("classes", ["class_linking", "type_infer"], "program with its types"),
        ("program, automaton", ["block_template", "class_weaving", "woven_linking", "woven_typing"], "woven classes, their program and types"),
        ("program, types, automaton", ["cert_maker"], "certificate"),
        ("program, automaton, certificate", [CHECKER], "yes"),
        ("classes, certificate", ["command_outputs", "mon_store"], "files"),
        ("answer", ["command_outputs"], "one line and a status"),
    ]),
]

STYLE = """text { font: 13px sans-serif; fill: #222 }
.floor { font-weight: bold }
.crate { fill: #f4f4f4; stroke: #888 }
.checker { fill: #dcebdc; stroke: #2f7d32 }
.thing { fill: #eef3fa; stroke: #34557f }
.to { fill: none; stroke: #555; marker-end: url(#end) }
.small { font-size: 11px; fill: #555 }"""


def read_crates():
    """The floors with their crates, and of each crate what it stands on."""
    floors, below = [], {}
    for line in open(os.path.join(ROOT, "crates.txt"), encoding="utf-8"):
        comment = re.fullmatch(r"# (\w+)\n", line)
        if comment:
            floors.append((comment[1], []))
        name, colon, words = line.split("#")[0].partition(":")
        if colon:
            floors[-1][1].append(name.strip())
            below[name.strip()] = words.split()
    return floors, below


def cone(name, below):
    """The crates of the repository that this one stands on, with itself."""
    found = {name}
    for low in below[name]:
        if low in below:
            found |= cone(low, below)
    return found


def depth(name, below):
    """How many crates the longest chain down from this one has."""
    return 1 + max((depth(low, below) for low in below[name] if low in below), default=0)


def box(x, y, width, kind, label, title=""):
    about = f"<title>{escape(title)}</title>" if title else ""
    return (f'<g><rect x="{x}" y="{y}" width="{width}" height="24" rx="3" class="{kind}"/>'
            f'<text x="{x + width / 2:g}" y="{y + 17}" text-anchor="middle">{escape(label)}</text>{about}</g>')


def picture(title, width, height, parts):
    head = (f'<svg xmlns="http://www.w3.org/2000/svg" width="{width}" height="{height}" viewBox="0 0 {width} {height}">\n'
            f"<title>{escape(title)}</title>\n<style>\n{STYLE}\n</style>\n<defs>\n"
            '<marker id="end" markerWidth="9" markerHeight="8" refX="8" refY="4" orient="auto"><path d="M0,0 L9,4 L0,8 z" fill="#555"/></marker>\n'
            f'</defs>\n<rect width="{width}" height="{height}" fill="#fff"/>\n')
    return head + "\n".join(parts) + "\n</svg>\n"


def house(floors, below):
    """The crates by floors, the lowest at the bottom; each names in its title what it stands on."""
    checked = cone(CHECKER, below)
    parts, y, wide, columns = [], 40, 158, 6
    parts.append(f'<text x="12" y="22" class="small">{len(below)} crates; green: {CHECKER} and what it stands on, {len(checked)} in all. '
                 f"The longest chain has {max(depth(name, below) for name in below)}.</text>")
    for floor, crates in reversed(floors):
        rows = [crates[at:at + columns] for at in range(0, len(crates), columns)]
        parts.append(f'<text x="12" y="{y + 17}" class="floor">{floor}</text>')
        for row in rows:
            for place, name in enumerate(row):
                title = f"{name} stands on " + (", ".join(below[name]) or "nothing")
                parts.append(box(90 + place * (wide + 8), y, wide, "checker" if name in checked else "crate", name, title))
            y += 30
        y += 10
    return picture("The crates by floors", 100 + columns * (wide + 8), y + 6, parts)


def way(below):
    """The ways of the two commands, side by side."""
    parts, deepest, wide = [], 0, 530
    for column, (command, stages) in enumerate(WAYS):
        x, y = 12 + column * (wide + 24), 14
        parts.append(f'<text x="{x}" y="{y + 12}" class="floor">{command}</text>')
        y += 24
        for takes, crates, gives in stages:
            parts.append(f'<text x="{x}" y="{y + 17}" class="small">{escape(takes)}</text>')
            each = (wide - 8 * (len(crates) - 1)) // len(crates)
            for place, name in enumerate(crates):
                parts.append(box(x + place * (each + 8), y + 24, each, "checker" if name == CHECKER else "thing", name))
            parts.append(f'<path d="M{x + wide // 2},{y + 50} L{x + wide // 2},{y + 68}" class="to"/>')
            parts.append(f'<text x="{x + wide // 2 + 10}" y="{y + 63}" class="small">{escape(gives)}</text>')
            y += 66
        deepest = max(deepest, y)
    return picture("The way of check and of inline from files to an answer", 24 + 2 * wide + 24, deepest + 14, parts)


def wrong_stages(below):
    """What the pictures would claim and crates.txt does not bear out."""
    used = cone(TOP, below)
    named = {name for _command, stages in WAYS for _takes, crates, _gives in stages for name in crates}
    yield from (f"{name} of a way is not below {TOP}" for name in sorted(named - used))
    making = set(dict(read_crates()[0])["making"])
    yield from (f"{name} makes something and stands below {CHECKER}" for name in sorted(cone(CHECKER, below) & making))


def faults(is_written):
    """What is wrong with the pictures; where they are written anew, what they would claim and crates.txt does not bear out."""
    floors, below = read_crates()
    found = list(wrong_stages(below))
    for name, text in (("house.svg", house(floors, below)), ("way.svg", way(below))):
        path = os.path.join(ROOT, "docs", "pictures", name)
        if is_written:
            with open(path, "w", encoding="utf-8") as file:
                file.write(text)
        elif not os.path.exists(path) or open(path, encoding="utf-8").read() != text:
            found.append(f"docs/pictures/{name} is not what crates.txt says: tests/crates --write")
    return found
