"""Holds the documents to short sentences: none has more than forty words.

Each paragraph, each bullet of a list and each cell of a table is a text of its own. Code blocks, headings and HTML comments
are left out. A code span or a link is one word. A sentence ends at `.`, `?`, `!` or `:` before white space or the text's
end, and not at `;`, at `..` or within a number. docs/DEFINITIONS.md is made of comments, and isn't held here.
"""

import pathlib
import re
import sys

TOP = pathlib.Path(__file__).resolve().parent.parent
MOST = 40
PLACES = ["README.md", "CONTRIBUTING.md", "CHANGELOG.md", "docs/*.md", "crates/*/README.md"]
WORD = re.compile(r"(?:(`+).+?\1(?!`)|\[[^\]]*\]\([^)]*\)|\S)+", re.S)
END = re.compile(r"(?<!\.)(?<!\be\.g)(?<!\bi\.e)[.?!:][)\"'*_]*$")


def texts(text):
    """Each paragraph, bullet and cell, with the number of its first line."""
    at, part, fenced = 0, [], False
    text = re.sub(r"<!--.*?-->", lambda found: "\n" * found.group().count("\n"), text, flags=re.S)
    for number, line in enumerate((text + "\n").split("\n"), 1):
        line = re.sub(r"^(> ?)+", "", line)
        fence, bullet = line.lstrip().startswith("```"), re.match(r"\s*([-*+]|\d+\.)\s+", line)
        apart = fence or fenced or line.startswith("#") or not line.strip() or line.startswith("    ") and not part
        if part and (apart or bullet or line.startswith("|")):
            yield at, "\n".join(part)
            part = []
        if line.startswith("|") and not apart:
            yield from ((number, cell) for cell in re.split(r"(?<!\\)\|", line))
        elif not apart:
            at = at if part else number
            part.append(line[bullet.end():] if bullet else line)
        fenced = fenced != fence


def sentences(text):
    """The words of each sentence, each with its place in the text."""
    words = []
    for found in WORD.finditer(text):
        words.append(found)
        if END.search(found.group()):
            yield words
            words = []
    yield words


def main():
    """Says which sentences are too long, and how many documents were read."""
    paths = [path for place in PLACES for path in sorted(TOP.glob(place)) if path.name != "DEFINITIONS.md"]
    wrong = 0
    for path in paths:
        for at, text in texts(path.read_text(encoding="utf-8")):
            for words in sentences(text):
                count = sum(bool(re.search(r"\w|`", found.group())) for found in words)
                if count > MOST:
                    line = at + text.count("\n", 0, words[0].start())
                    print(f"sentences: {path.relative_to(TOP)}: {line}: {count}:", *(found.group() for found in words[:8]))
                    wrong += 1
    print(f"sentences: {len(paths)} documents held, {wrong} sentences too long")
    sys.exit(1 if wrong else 0)


main()
