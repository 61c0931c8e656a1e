"""Makes docs/DEFINITIONS.md: each definition that the contracts of public functions reach, as its comment says it.

A definition's meaning is the comment above it in specs/, or, where it has none, its own text if that is short; else it
stands in a row with the one before it. Its standard is that of docs/standards.tsv. Its laws are the first
public functions with an empty body whose contracts name it.

    definitions.py          holds docs/DEFINITIONS.md
    definitions.py write    makes it
"""

import os
import re
import sys

from reach import HEAD, TOKEN, TOP, Specs

MOST_OF_OWN = 100
MOST_OF_LAWS = 4
PAGE = os.path.join(TOP, "docs", "DEFINITIONS.md")
USE = re.compile(r"ghost use Rattle\.(uf_\w+)\.specs\.([\w.]+?)(?:\.\{(.*?)\}| as (\S+));", re.S)
OWNER = re.compile(r"(?:impl(?:<.*?>)? (?:(\w[\w:]*)(?:<.*?>)? for )?(\w+)|pub (trait) \w+)")
INTRODUCTION = """\
# Definitions

What the contracts of public functions say is made of these words; those of private functions alone are left out. Each
stands in specs/ of its crate, in the file that is named above its table, and is short enough to be read aloud. `hash`
or `X` stands for a block hash, bytes to 32 bytes, `N` for a hash of names, a number below 2^64, and "told" for what an
object tells of itself, or nothing; `held` is what is held under each CID. A word of laws is the
contract of a public function with an empty body, which the gate proves. A short word that says itself is shown as it
stands there; words of one row are said in one.

This page is made of the comments over the definitions by `checks/definitions.py write`.
"""


def text_of(*path):
    """The text of a file of the repository; empty where there is none."""
    name = os.path.join(TOP, *path)
    if not os.path.exists(name):
        return ""
    with open(name, encoding="utf-8") as file:
        return file.read()


def lines_of(*path):
    """Its lines that aren't empty and no comments."""
    return [line for line in text_of(*path).splitlines() if line.strip() and not line.startswith("#")]


def crates():
    """The crates that crates.txt lists, in its order."""
    return [line.partition(":")[0].strip() for line in lines_of("crates.txt")]


def sources(crate):
    """The files of a crate's code, but for its tests, each with its module's name."""
    top = os.path.join(TOP, "crates", crate, "src")
    for place, _, names in sorted(os.walk(top)):
        for name in sorted(names):
            if name.endswith(".rt") and "test" not in os.path.join(place, name)[len(top):]:
                yield name[:-3], text_of(place, name)


def exported(crate):
    """The names that a crate's library gives, and the modules that it opens."""
    text = text_of("crates", crate, "src", "lib.rt")
    names = set()
    for path, group in re.findall(r"pub use ([\w:]+?)(?:::\{(.*?)\})?;", text, re.S):
        names |= set(re.findall(r"\w+", group)) if group else {path.split("::")[-1]}
    return names, set(re.findall(r"pub mod (\w+);", text)) | {"lib"}


class Function:
    """A function by its name, with the type that it stands under and the text of its contract."""

    def __init__(self, owner, head, contract, empty):
        self.owner, self.empty = owner, empty
        self.public = bool(head.group(2))
        self.name = head.group(3)
        self.contract = contract

    def is_given(self, names, opened):
        """Whether others can call it: it is exported, or stands under an exported type or under a trait."""
        if self.owner is None:
            return self.public and (opened or self.name in names)
        of_trait, owner, trait = self.owner.groups()
        return bool(trait or of_trait) or (self.public and owner in names)


def functions(text):
    """The functions of a file."""
    owner, head, part = None, None, []
    for line in text.splitlines():
        if head is None:
            owner = None if line.startswith("}") else OWNER.match(line) or owner
            head, part = re.match(r"(\s*)(pub )?(?:const )?fn (\w+)", line), []
        if head is None:
            continue
        part.append(line)
        if line.startswith(head.group(1) + "{") or line.endswith(";") or (len(part) == 1 and line.endswith("{")):
            yield Function(owner, head, " ".join(part), line.endswith("{}"))
            head = None


def brought_by(text):
    """What the `ghost use` lines of a file bring: words, and modules under short names."""
    words, modules = {}, {}
    for crate, name, group, short in USE.findall(text):
        if short:
            modules[short] = (crate, name)
        for item in filter(None, (item.strip() for item in group.split(","))):
            word, _, other = item.partition(" as ")
            words[other or word] = (crate, name, word)
    return words, modules


def named_in(contract, words, modules):
    """The definitions that a contract names."""
    for token in TOKEN.findall(contract):
        short, _, rest = token.partition(".")
        if short in modules and rest:
            yield (*modules[short], rest.split(".")[0])
        elif short in words:
            yield words[short]


def contracts():
    """The definitions that public contracts name, each with the laws among these."""
    found = {}
    for crate in crates():
        names, opened = exported(crate)
        for module, text in sources(crate):
            words, modules = brought_by(text)
            for function in functions(text):
                if function.is_given(names, module in opened):
                    for word in named_in(function.contract, words, modules):
                        laws = found.setdefault(word, [])
                        if function.empty and function.name not in laws:
                            laws.append(function.name)
    return found


def sentence(text):
    """A comment as a sentence."""
    return text[:1].upper() + text[1:] + ("" if not text or text[-1] in ".:!?" else ".")


def own_text(lines, word):
    """What a definition says itself, where that is one short line."""
    said = " ".join(line.strip() for line in lines)
    of = re.findall(rf"(?<!\S){re.escape(word)} .*?= .*?(?= {re.escape(word)} |$)", said.partition(" : ")[2])
    return f"`{of[0]}`" if len(of) == 1 and len(of[0]) <= MOST_OF_OWN and "`" not in of[0] else ""


class Page:
    """A file of specs/ as it is read: what stands at its head, and its definitions with the comments above them."""

    def __init__(self, crate, name, texts):
        self.head, self.rows, self.texts = "", [], texts
        self.comment, self.section, self.record = [], "", None
        text = text_of("crates", crate, "specs", *name.split(".")[:-1], name.split(".")[-1] + ".antt")
        for number, line in enumerate(text.splitlines()):
            self.take(line, number)

    def take(self, line, number):
        """A line: of a comment, of what a comment stands above, or neither. A comment over a module is of no definition."""
        text, indent = line.strip(), len(line) - len(line.lstrip())
        if text.startswith("--"):
            self.note(text[2:].strip())
        elif text.startswith("use ") and not self.rows:
            self.head, self.comment = self.head or " ".join(self.comment), []
        elif not text:
            self.record = None
        elif re.match(r"(pub |unfoldable )*module\b", text):
            self.comment = []
        elif not re.match(r"(pub |unfoldable )*(mutual|mod)\b", text):
            self.define(line, indent)

    def note(self, text):
        """A line of a comment, or the title of a section, which is said of the first definition there that has no comment."""
        if text.startswith("----"):
            self.comment, self.section = [], text.strip("- ")
        else:
            self.comment.append(text)

    def define(self, line, indent):
        """A line of a definition: one that has no comment stands with those before it."""
        inside = self.record is not None and indent > self.record
        found = None if inside else HEAD.match(line)
        if found:
            self.record, word = indent if found.group(1) else None, found.group(2)
            meaning = sentence(" ".join(self.comment) or self.section) or own_text(self.texts[word], word)
            self.section = ""
            if meaning or not self.rows:
                self.rows.append(([], meaning))
            self.rows[-1][0].append(word)
        self.comment = []


def cell(text):
    """A text that a cell of a table can hold."""
    return text.replace("|", "\\|")


def listed(words, most):
    """Some words, and how many more there are than are shown."""
    more = len(words) - most
    return ", ".join(f"`{word}`" for word in words[:most]) + (f", and {more} more" if more > 0 else "")


def tables(crate, specs, reached, laws, standards):
    """The part of the page on a crate."""
    files = sorted({name for owner, name, _ in reached if owner == crate})
    for name in files:
        page = Page(crate, name, specs.file(crate, name).words)
        yield f"\n### specs/{name.replace('.', '/')}.antt\n"
        if page.head:
            yield f"{sentence(page.head)}\n"
        yield "| Word | Meaning | Standard | Laws |\n|---|---|---|---|"
        for words, meaning in page.rows:
            shown = [word for word in dict.fromkeys(words) if (crate, name, word) in reached]
            if shown:
                of = list(dict.fromkeys(standards[crate, word] for word in shown if (crate, word) in standards))
                by = list(dict.fromkeys(law for word in shown for law in laws.get((crate, name, word), [])))
                cells = [listed(shown, len(shown)), meaning, "; ".join(of), listed(by, MOST_OF_LAWS)]
                yield "| " + " | ".join(map(cell, cells)) + " |"


def standards_of(reached):
    """The section of a public standard that each word follows."""
    found = {}
    for line in lines_of("docs", "standards.tsv"):
        crate, section, words = line.split("\t")
        for word in words.split():
            found[crate, word] = section
    for crate, word in sorted(set(found) - {(crate, word) for crate, _, word in reached}):
        print(f"definitions: docs/standards.tsv: no public contract reaches {word} of {crate}")
    return found


def made():
    """The whole page."""
    laws = contracts()
    specs = Specs()
    reached = specs.reach(laws, [])
    standards = standards_of(reached)
    parts = [INTRODUCTION]
    for crate in crates():
        lines = list(tables(crate, specs, reached, laws, standards))
        parts += [f"\n## {crate}\n", *(line + "\n" for line in lines)] if lines else []
    return "".join(parts), len(reached)


def main():
    """Makes the page, or holds it."""
    text, count = made()
    if sys.argv[1:] == ["write"]:
        with open(PAGE, "w", encoding="utf-8") as file:
            file.write(text)
    same = text_of("docs", "DEFINITIONS.md") == text
    print(f"definitions: {count} words, {'as' if same else 'NOT as'} their comments have them")
    sys.exit(0 if same else 1)


main()
