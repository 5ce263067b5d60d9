"""The words of docs/REFUSALS.md and its further pages, from tools/refusals.py: of each section the title, the meaning, the mistakes and the remedy; and the
rows of its tables. What a page has besides, its examples and what is printed, is its own."""
import os
import re
import sys

ROOT = os.path.dirname(os.path.dirname(os.path.dirname(os.path.realpath(__file__))))
PAGES = ("REFUSALS.md", "refusals/LINKING.md", "refusals/POLICIES.md", "refusals/CHECKS.md")
sys.path.insert(0, os.path.join(ROOT, "tools"))
import refusals as words  # noqa: E402

TABLE = {**words.COMMANDS, **words.SILENT, **words.REFUSALS}
# a section: its number or word, the line `Printed`, and what stands between the mistakes and the remedy
SECTION = re.compile(r"### (\S+) [^\n]*\n\n(Printed: [^\n]*)\n\n[^\n]+\n\n(?:- [^\n]*\n)+\n((?:.*?\n\n)?)What to do: [^\n]*\n", re.S)


def key_of(word):
    return int(word) if word.isdigit() else word


def section(found):
    """The section with the words of the table; as it is where the table has none."""
    key, printed, examples = found.groups()
    row = TABLE.get(key_of(key))
    if row is None:
        return found.group()
    mistakes = "".join(f"- {mistake}\n" for mistake in row.mistakes)
    return f"### {key} {row.title}\n\n{printed}\n\n{row.means}\n\n{mistakes}\n{examples}What to do: {row.remedy}\n"


def with_words(text):
    """The page with the words of the table."""
    head, *parts = re.split(r"^(?=##)", text, flags=re.M)
    text = head + "".join(SECTION.sub(section, part) for part in parts)
    for rows in (words.ANSWERS, words.SIZES):
        for key, told in rows.items():
            text = re.sub(rf"^\| `{re.escape(key)}` \| .* \|$", lambda _, key=key, told=told: f"| `{key}` | {told} |", text, flags=re.M)
    for number, rules in words.RULES.items():
        told = ", ".join(f"{at} {name}" for at, name in rules.items())
        text = re.sub(rf"^\| {number} \| [^|]* \|", f"| {number} | {told} |", text, flags=re.M)
    return text


def path_of(name):
    return os.path.join(ROOT, "docs", name)


def text_of(name):
    with open(path_of(name), encoding="utf-8") as file:
        return file.read()


def page():
    """All pages, one after the other."""
    return "".join(text_of(name) for name in PAGES)


def differences(text):
    """The first line of each place where the page says otherwise than the table."""
    made = with_words(text)
    if made == text:
        return []
    told = text.split("\n")
    return [line for line in made.split("\n") if line not in told] or ["what stands on the page besides"]


def write():
    for name in PAGES:
        text = with_words(text_of(name))
        with open(path_of(name), "w", encoding="utf-8") as file:
            file.write(text)
