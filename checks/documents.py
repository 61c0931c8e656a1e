"""Holds the documents against the files.

Each link of a document leads to a file. Each definition that docs/TRUST.md lists is in the file that it names. Each
crate has a README of at most sixty lines. Each clause (or fact of a record that is one) and each edit that a table there
names is in the crate: a row is a claim, its clauses, and the edits that it refuses. An edit in brackets is one of those
that checks/edits tries. The manual's table of diagnostics has each error line that the definitions can say, and no other;
its table that says the nature of each command has the rows of the definition `nature`. A counter of touches is begun only in
the files that docs/TRUST.md names, and in tests.
"""

import os
import re
import sys

TOP = os.path.dirname(os.path.dirname(os.path.abspath(__file__)))


def text_of(*path):
    """The text of a file of the repository."""
    with open(os.path.join(TOP, *path), encoding="utf-8") as file:
        return file.read()


def rows(text):
    """The cells of each row of a table."""
    for line in text.splitlines():
        if line.startswith("|") and not line.startswith("|--"):
            yield [cell.strip() for cell in line.strip().strip("|").split("|")]


def words(cell):
    """What stands between backticks."""
    return re.findall(r"`([^`]+)`", cell)


def source_of(crate, folder, ending):
    """The text of all files of one kind in a crate."""
    top = os.path.join(TOP, "crates", crate, folder)
    parts = []
    for place, _, names in os.walk(top):
        parts += [text_of(os.path.join(place, name)) for name in sorted(names) if name.endswith(ending)]
    return "\n".join(parts)


def wrong_links(name):
    """Links of a document that lead nowhere."""
    for target in re.findall(r"\]\(([^)#\s]+)\)", text_of(name)):
        if "://" not in target and not os.path.exists(os.path.join(TOP, os.path.dirname(name), target)):
            yield f"{name}: no file {target}"


def wrong_definitions():
    """Words of docs/TRUST.md that aren't in their files."""
    for cells in rows(text_of("docs", "TRUST.md")):
        if len(cells) != 4 or not cells[0].isdigit():
            continue
        places = re.findall(r"uf_\w+", cells[2])
        found = "\n".join(source_of(crate, "specs", ".antt") + source_of(crate, "src", ".rt") for crate in places)
        for word in words(cells[1]):
            if not re.search(rf"\bpub (record |data |enum |struct )?{re.escape(word)}\b", found):
                yield f"docs/TRUST.md: no definition {word} in {', '.join(places)}"


def crates():
    """The crates that crates.txt lists."""
    lines = text_of("crates.txt").splitlines()
    return [line.partition(":")[0].split()[0] for line in lines if line.strip() and not line.startswith("#")]


def wrong_counters():
    """Files that begin a counter of touches and that docs/TRUST.md doesn't name, and those that it names and that begin none."""
    told = set(re.findall(r"`(crates/[^`]+\.rt)`", text_of("docs", "TRUST.md")))
    held = set()
    for crate in crates():
        for place, _, names in os.walk(os.path.join(TOP, "crates", crate, "src")):
            files = [os.path.relpath(os.path.join(place, name), TOP) for name in names]
            held |= {it for it in files if it.endswith(".rt") and re.search(r"\b(Brand|impl Ledger)\b", text_of(it))}
    for name in sorted(held - told):
        if not name.startswith(("crates/uf_test", "crates/uf_rows", "crates/uf_calls")):
            yield f"{name} begins a counter of touches, and docs/TRUST.md doesn't name it"
    for name in sorted(told - held):
        yield f"docs/TRUST.md: {name} begins no counter of touches"


def wrong_pages():
    """Crates without a README, and those whose README is longer than sixty lines."""
    for crate in crates():
        name = f"crates/{crate}/README.md"
        if not os.path.exists(os.path.join(TOP, name)):
            yield f"{name} is not there"
        elif text_of(name).count("\n") > 60:
            yield f"{name} has more than 60 lines"


def wrong_rows(crate):
    """Clauses and edits of the tables of a crate's README that there are none of."""
    name = f"crates/{crate}/README.md"
    source = source_of(crate, "src", ".rt") + source_of(crate, "specs", ".antt")
    for cells in rows(text_of(name)):
        if len(cells) != 3 or cells[0] == "Claim":
            continue
        for word in words(cells[1]):
            # A field of a record that a clause gives stands behind the clause's or the record's field, as `printed.text`.
            for part in word.split("."):
                if not re.search(rf"\b(ensures|ghost|fn|pub) {re.escape(part)}\b", source):
                    yield f"{name}: no clause {word}"
        apart = re.findall(r"\(`([^`]+)`\)", cells[2])
        for word in words(cells[2]):
            folder = "edits" if word in apart else "must-fail"
            if not os.path.exists(os.path.join(TOP, "crates", crate, folder, word + ".edit")):
                yield f"{name}: no edit {word} in {folder}"


def printed_lines():
    """The error lines that the definitions of uf_command can say, each up to its details."""
    lines = text_of("crates", "uf_command", "specs", "Lines.antt")
    found = set(re.findall(r'codes "(error: [^"\\]*?) ?(?:\\n)?"', lines + text_of("crates", "uf_command", "specs", "Statuses.antt")))
    apart = "".join(text_of("crates", "uf_command", "specs", name) for name in ("Dags.antt", "Peers.antt"))
    rules = re.findall(r'^(?:rule|host|dag|peer)_words .*codes "(\w+)', lines + apart, re.M)
    found |= {"error: rule " + name for name in rules}
    return found - {"error: rule"}


def wrong_lines():
    """Error lines that the table of diagnostics lacks, and lines of the table that nothing prints."""
    section = text_of("docs", "COMMANDS.md").partition("\n## Diagnostics\n")[2].partition("\n## ")[0]
    shown = [word for cells in rows(section) if cells[0] != "Line" for word in words(cells[0])]
    known = {re.sub(r"(?<!ready)( ([A-Z]+|[0-9]+))+$", "", line) for line in shown}
    for line in sorted(printed_lines() - known):
        yield f"docs/COMMANDS.md: no diagnostic for {line}"
    for line in sorted(known - printed_lines()):
        yield f"docs/COMMANDS.md: nothing prints {line}"


# Which words are a command's, and what each word of its row is in the table.
COMMANDS = {
    "Init": "`init`",
    "Input": "`add`",
    "Host": "`add HOSTPATH`",
    "InputTo": "`add --to-files DEST`",
    "HostTo": "`add --to-files DEST HOSTPATH`",
    "WriteInput": "`files write` without `-x`",
    "At": "`files ls`, `stat`, `mkdir`, `rm`, `truncate`, `cp`, `mv`, `write -x`, `chmod`, `touch`, `strip`",
    "Read": "`files read`",
    "Cat": "`cat`",
    "Get": "`get`",
    "Export": "`dag export`",
    "Import": "`dag import`",
    "Same": "`dag same`",
    "Adopt": "`files cp /ipfs/..`",
    "Gen": "`gen`",
    "Pin": "`pin add`, `rm`, `ls`",
    "Prove": "`prove`",
}
CELLS = {
    "NoInput": "",
    "ReadsInput": "reads",
    "NoHost": "",
    "ReadsHost": "reads",
    "WritesHost": "writes",
    "AnyHead": "",
    "NoHeadYet": "none",
    "(AHead false)": "one",
    "(AHead only_hash)": "one; with `-n` none will do",
    "NoWrites": "",
    "SyncsBlocks": "blocks, a sync",
    "MakesHead": "a first Head",
    "MovesHead": "blocks, a sync, the Head",
    "(saves_unless only_hash)": "blocks, a sync; with `-n` nothing",
    "(ask_writes ask)": "blocks, a sync, the Head; `ls` and `stat` nothing",
    "(pin_writes ask)": "a sync, the note of pins; `rm` that note, `ls` nothing",
    "AtEnd": "at its end",
    "WhileReading": "while it reads",
    "AfterHead": "after the Head",
    "NoStore": "",
    "OfCarSections": "of the CAR",
    "OfTree": "of the tree",
}
KINDS = {
    "OfRule": "rule",
    "OfDag": "DAG",
    "OfHost": "host",
    "OfLongInput": "long input",
    "OfReady": "not ready",
    "OfRead": "read",
    "OfFailure": "store",
    "OfMissing": "missing",
    "OfBadBlock": "bad block",
    "OfCar": "CAR",
    "OfSections": "missing section",
    "OfOwnClash": "clash",
    "OfPins": "pins",
}
ASKS = {"Add": "add", "Remove": "rm", "List": "ls"}


def natures():
    """The rows of the definition of what each command is."""
    lists = text_of("crates", "uf_command", "specs", "Kinds.antt")
    kinds = dict(re.findall(r"^(\w+_kinds) = (.*) ∷ \[\]$", lists, flags=re.M))
    text = re.sub(r"=\n +", "= ", text_of("crates", "uf_command", "specs", "Natures.antt"))
    told = {name: ", ".join(KINDS.get(kind, kind) for kind in row.split(" ∷ ")) for name, row in kinds.items()}
    asks = re.findall(r"^pin_kinds \(?pins\.(\w+)[^=]*= (\w+)$", text, flags=re.M)
    told["(pin_kinds ask)"] = "; ".join(f"`{ASKS.get(ask, ask)}`: {told[name]}" for ask, name in asks)
    for name, row in re.findall(r"^nature \(?(?:Add \(adding\.)?(\w+)[^=]*= row (.*)$", text, flags=re.M):
        *cells, last = re.findall(r"\([^)]*\)|\S+", row)
        answers = told[last]
        yield [COMMANDS.get(name, name)] + [CELLS.get(cell, cell) for cell in cells] + [answers]


def wrong_natures():
    """Rows of the manual's table of what each command is that aren't the definition's."""
    part = text_of("docs", "COMMANDS.md").split("\n## What each command is\n")[-1].split("\n## ")[0]
    told = [cells for cells in rows(part) if cells[0] != "Command"]
    held = list(natures())
    if not held:
        yield "docs/COMMANDS.md: no definition of natures was found"
    for cells in held:
        if cells not in told:
            yield f"docs/COMMANDS.md: no row | {' | '.join(cells)} |"
    for cells in told:
        if cells not in held:
            yield f"docs/COMMANDS.md: a row too many, of {cells[0]}"


def main():
    """Says what is wrong, and how many documents there are."""
    names = [name for name in os.listdir(TOP) if name.endswith(".md")]
    names += ["docs/" + name for name in os.listdir(os.path.join(TOP, "docs")) if name.endswith(".md")]
    names += [f"crates/{crate}/README.md" for crate in crates()]
    wrong = list(wrong_pages())
    if not wrong:
        wrong = [line for name in sorted(names) for line in wrong_links(name)]
        wrong += [line for crate in crates() for line in wrong_rows(crate)]
    wrong += [*wrong_definitions(), *wrong_lines(), *wrong_natures(), *wrong_counters()]
    for line in wrong:
        print("documents: " + line)
    print(f"documents: {len(names)} held, {len(wrong)} wrong")
    sys.exit(1 if wrong else 0)


main()
