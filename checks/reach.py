"""Counts what has to be read: how many definitions a word of the specifications reaches, and in how many lines.

A word reaches what its definition names, and what that names in turn, as far as `use` lines lead to specs/ of a crate.
The std library and the declared Rust types aren't counted, nor are comments. A word that is taken as a name isn't
opened. Each row of the table of rings in docs/TRUST.md has its words, the names, and the two numbers of what it adds to
the rows in front of it; they have to be what is counted.

    reach.py                                       holds docs/TRUST.md
    reach.py CRATE.FILE.WORD ..                    counts what these words reach
    reach.py CRATE.FILE.WORD .. --names WORD ..    the same, with words that are taken as names
    reach.py --list CRATE.FILE.WORD ..             says which they are, too
"""

import os
import re
import sys

TOP = os.path.dirname(os.path.dirname(os.path.abspath(__file__)))
TOKEN = re.compile(r"[^\s(){}\[\],;]+")
HEAD = re.compile(r"\s*(?:abbrev |unfoldable )*pub (record |data )?([^\s:({]+)")


class File:
    """One file of specs/: what its `use` lines bring, and its definitions as lists of lines."""

    def __init__(self, path):
        self.brought = {}
        self.modules = {}
        self.words = {}
        self.word = None
        self.record = None
        with open(path, encoding="utf-8") as file:
            lines = file.read().splitlines()
        for line in lines:
            text = line.rstrip()
            if not text:
                self.record = None
            elif text.strip().startswith("use "):
                self.bring(text.strip())
            elif not re.match(r"\s*(--|(pub |unfoldable )*(module|mutual|mod)\b)", text):
                self.take(text)

    def bring(self, text):
        """What a `use` line brings: words of a module, or the module under a short name."""
        found = re.match(r"use Rattle\.(uf_\w+)\.specs\.([\w.]+?)(?:\.\{(.*)\}| as (\S+))$", text)
        if not found:
            return
        module = (found.group(1), found.group(2))
        if found.group(4):
            self.modules[found.group(4)] = module
        for item in (found.group(3) or "").split(","):
            name, _, short = item.strip().partition(" as ")
            self.brought[short or name] = (*module, name)

    def take(self, text):
        """A line of a definition: the head of a new one, or one more of the last."""
        indent = len(text) - len(text.lstrip())
        inside = self.record is not None and indent > self.record
        head = None if inside else HEAD.match(text)
        if head:
            self.word = head.group(2)
            self.words[self.word] = []
            self.record = indent if head.group(1) else None
        if self.word:
            self.words[self.word].append(text)

    def clauses(self, word):
        """The definition's parts, each with the names that it binds itself."""
        parts = []
        for line in self.words[word]:
            if not parts or line.split()[0] == word:
                parts.append("")
            parts[-1] += " " + line.strip()
        for part in parts:
            left = re.match(re.escape(word) + r"\s(.*?)\s=(\s|$)", part.strip())
            bound = set(TOKEN.findall(left.group(1))) if left else set()
            for names in re.findall(r"\(([^():→]*?) :", part) + re.findall(r"λ ([^.(]*)\.", part):
                bound |= set(names.split())
            bound |= set(re.findall(r"\blet (\S+)", part)) | set(re.findall(r"\bpub (\S+) :", part))
            yield part, bound


class Specs:
    """All files of specs/, read as they are asked for."""

    def __init__(self):
        self.files = {}

    def file(self, crate, name):
        """A file by its crate and its name, or None."""
        path = os.path.join(TOP, "crates", crate, "specs", *name.split(".")) + ".antt"
        if path not in self.files:
            self.files[path] = File(path) if os.path.exists(path) else None
        return self.files[path]

    def named(self, crate, name, word):
        """The words that a definition names."""
        file = self.file(crate, name)
        for part, bound in file.clauses(word):
            for token in TOKEN.findall(part):
                short, _, rest = token.partition(".")
                if short in file.modules and rest:
                    yield (*file.modules[short], rest.split(".")[0])
                elif short not in bound and short != word:
                    if short in file.words:
                        yield crate, name, short
                    elif short in file.brought:
                        yield file.brought[short]

    def reach(self, roots, names):
        """All words that these reach, but for those that are taken as names."""
        reached, todo = set(), list(roots)
        while todo:
            crate, name, word = todo.pop()
            file = self.file(crate, name)
            if (crate, name, word) in reached or word in names or not file or word not in file.words:
                continue
            reached.add((crate, name, word))
            todo += self.named(crate, name, word)
        return reached

    def size(self, reached):
        """How many definitions these are, and in how many lines."""
        return len(reached), sum(len(self.file(crate, name).words[word]) for crate, name, word in reached)


def root(text):
    """A word by its crate, its file and itself."""
    crate, name, word = text.split(".")
    if not Specs().file(crate, name) or word not in Specs().file(crate, name).words:
        sys.exit(f"reach: no definition {text}")
    return crate, name, word


def held():
    """Holds the table of rings of docs/TRUST.md."""
    specs, before, count, wrong = Specs(), set(), 0, 0
    with open(os.path.join(TOP, "docs", "TRUST.md"), encoding="utf-8") as file:
        lines = file.read().splitlines()
    for line in lines:
        cells = [cell.strip() for cell in line.strip("|").split("|")]
        if not line.startswith("|") or len(cells) != 5 or not cells[3].isdigit():
            continue
        words, names = re.findall(r"`([^`]+)`", cells[1]), re.findall(r"`([^`]+)`", cells[2])
        added = specs.reach([root(word) for word in words], names) - before
        found = specs.size(added)
        before |= added
        count += 1
        if found != (int(cells[3]), int(cells[4])):
            print(f"reach: {cells[0]}: {found[0]} definitions, {found[1]} lines; docs/TRUST.md: {cells[3]}, {cells[4]}")
            wrong += 1
    print(f"reach: {count} rings held, {wrong} wrong")
    sys.exit(1 if wrong or not count else 0)


def main():
    """Counts what is asked for, or holds the document."""
    asked = [word for word in sys.argv[1:] if word != "--list"]
    if not asked:
        held()
    cut = asked.index("--names") if "--names" in asked else len(asked)
    specs = Specs()
    reached = specs.reach([root(word) for word in asked[:cut]], asked[cut + 1:])
    if "--list" in sys.argv:
        for one in sorted(reached):
            print(".".join(one), len(specs.file(one[0], one[1]).words[one[2]]))
    print("%d definitions in %d lines" % specs.size(reached))


if __name__ == "__main__":
    main()
