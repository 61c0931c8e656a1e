#!/usr/bin/env python3
"""The manual page and the completions, made of the tables of docs/COMMANDS.md and of README.md's first session. Without words
it compares them with those that are there, and the table of commands with that of checks/word_lists.py; with `write` it
writes them."""

import ast
import os
import re
import subprocess
import sys
import tempfile

TOP = os.path.dirname(os.path.dirname(os.path.abspath(__file__)))
PAGE, BASH, ZSH = "docs/unixfs.1", "docs/completions/unixfs.bash", "docs/completions/_unixfs"
VALUES = {"N": "number", "HEX": "hex", "DEST": "text"}
KINDS = {"N": "number", "SEED": "number", "LENGTH": "number", "SECONDS": "number", "MODE": "mode"}


def text_of(name):
    """The text of a file of the repository."""
    with open(os.path.join(TOP, name), encoding="utf-8") as file:
        return file.read()


def cells_of(line):
    """The cells of a row of a table, in which a bar may be escaped."""
    return [cell.strip().replace("\\|", "|") for cell in re.split(r"(?<!\\)\|", line.strip()[1:-1])]


def table(text, head):
    """The rows below the first row of a table that begins with this head."""
    lines = text.splitlines()
    at = next(number for number, line in enumerate(lines) if line.startswith(f"| {head} |"))
    found = []
    for line in lines[at + 2:]:
        if not line.startswith("|"):
            break
        found.append(cells_of(line))
    return found


class Command:
    """One row of the table of commands: its first words, its flags and options, its arguments, and what it does."""

    def __init__(self, usage, does):
        self.usage, self.does = usage.strip("`"), does
        self.options, self.arguments = [], []
        rest = re.split(r"(?= \[| [A-Z])", self.usage)
        self.name = rest[0]
        for part in " ".join(it.strip() for it in rest[1:]).replace("] [", "]\n[").split("\n"):
            self.read(part)

    def read(self, part):
        """One option, or arguments."""
        found = re.match(r"\[(?:-(\w)\|)?--([\w-]+)(?: ([A-Z]+))?\](.*)", part)
        if found:
            self.options.append(found.groups()[:3])
            part = found.group(4)
        self.arguments += part.split()

    def model(self):
        """As checks/word_lists.py has it: flags, options and arguments."""
        flags = [(short or "", long) for short, long, value in self.options if not value]
        options = [(short or "", long, VALUES[value]) for short, long, value in self.options if value]
        kinds = [KINDS.get(it.strip("[]"), "text") + "?" * it.startswith("[") for it in self.arguments]
        return flags, options, kinds


def commands(manual):
    """All commands, in the order of the table."""
    return [Command(*row) for row in table(manual, "Command")]


def roff(text):
    """Text of a document as text of a manual page."""
    text = re.sub(r"\[([^\]]*)\]\([^)]*\)", r"\1", text).replace("\\", "\\e").replace("-", "\\-")
    text = re.sub(r"`([^`]*)`", r"\\fB\1\\fR", text)
    return re.sub(r"^([.'])", r"\\&\1", text, flags=re.M)


def entries(rows):
    """Rows as a list of terms, each with what is said of it."""
    return "".join(f".TP\n{roff(term)}\n{roff(sentence(said))}\n" for term, said in rows)


def sentence(text):
    """A text as a sentence."""
    return text[:1].upper() + text[1:] + "." * (not text.endswith("."))


def usage(command):
    """How a command is given, in a manual page."""
    text = roff(command.usage)
    text = re.sub(r"\b([A-Z]{1,}[A-Z]*)\b", r"\\fI\1\\fR", text)
    return f"\\fB{roff(command.name)}\\fR{text[len(roff(command.name)):]}"


def page(manual, readme):
    """The manual page."""
    made = commands(manual)
    status = table(manual, "Status")
    diagnostics = [(line, f"{means}. What to do: {what}") for line, means, what in table(manual, "Line")]
    rules = re.search(r"\nA command is its first words.*?\n\n", manual, re.S).group(0).strip()
    session = re.search(r"^```console\n(.*?)^```", readme, re.M | re.S).group(1)
    return "\n".join([
        '.\\" Made by checks/pages.py.',
        '.TH UNIXFS 1 "" "unixfs" "User Commands"',
        ".SH NAME", "unixfs \\- keeps files and directories as blocks that are named by their hashes",
        ".SH SYNOPSIS", *[line for it in made for line in (".B unixfs", usage(it), ".br")][:-1],
        ".SH DESCRIPTION",
        roff("`unixfs` keeps files and directories as blocks of IPFS's UnixFS v1 over DAG-PB, with CIDv1 and CARv1. It works on "
             "the folder `.unixfs` of the working folder, and talks to no network. The same names and bytes give the same "
             "root CID, however the tree came about."),
        ".PP", roff(rules),
        ".SH COMMANDS", "".join(f".TP\n{usage(it)}\n{roff(sentence(it.does))}\n" for it in made).rstrip(),
        ".SH EXIT STATUS", entries((number, comes) for number, comes, _ in status).rstrip(),
        ".SH DIAGNOSTICS", entries(diagnostics).rstrip(),
        ".SH FILES", entries(table(manual, "File")).rstrip(),
        ".SH EXAMPLES", ".nf", roff(session).rstrip(), ".fi",
        ".SH SEE ALSO", roff("docs/COMMANDS.md, docs/RECIPES.md and docs/KUBO.md of the sources."), ""])


def groups(made):
    """First words, each with the second words that may follow it."""
    found = {}
    for it in made:
        first, _, second = it.name.partition(" ")
        found.setdefault(first, []).extend([second] if second else [])
    return found


def spellings(command):
    """Each way in which an option of a command is spelled."""
    return [way for short, long, _ in command.options for way in ([f"-{short}"] if short else []) + [f"--{long}"]]


def bash(manual):
    """The completions of bash: commands and options, and files of the host where a HOSTPATH may stand."""
    made = commands(manual)
    valued = sorted({way for it in made for short, long, value in it.options if value for way in [f"-{short}"] * bool(short) + [f"--{long}"]})
    seconds = "\n".join(f"    {first}) words='{' '.join(second)}' ;;" for first, second in groups(made).items() if second)
    options = "\n".join(f"    '{it.name}') words='{' '.join(spellings(it))}' host={int('HOSTPATH' in ' '.join(it.arguments))} ;;"
                        for it in made)
    return f"""# Completions of bash for unixfs. Made by checks/pages.py.
_unixfs() {{
    local current=${{COMP_WORDS[COMP_CWORD]}} last=${{COMP_WORDS[COMP_CWORD - 1]}} first=${{COMP_WORDS[1]}} words='' host=0
    COMPREPLY=()
    if [ "$COMP_CWORD" -eq 1 ]; then
        mapfile -t COMPREPLY < <(compgen -W '{' '.join(groups(made))}' -- "$current")
        return
    fi
    case $first in
{seconds}
    esac
    if [ -n "$words" ]; then
        if [ "$COMP_CWORD" -eq 2 ]; then
            mapfile -t COMPREPLY < <(compgen -W "$words" -- "$current")
            return
        fi
        first="$first ${{COMP_WORDS[2]}}"
    fi
    words=''
    case $first in
{options}
    esac
    case $last in
    {' | '.join(valued)}) [ "$first $last" = 'add -n' ] || return ;;
    esac
    case $current in
    -*) mapfile -t COMPREPLY < <(compgen -W "$words" -- "$current") ;;
    *) if [ "$host" -eq 1 ]; then compopt -o filenames 2> /dev/null; mapfile -t COMPREPLY < <(compgen -f -- "$current"); fi ;;
    esac
}}
complete -F _unixfs unixfs
"""


def zsh_option(short, long, value):
    """One option, as _arguments of zsh reads it."""
    behind = f":{value}: " if value else ""
    names = [f"-{short}"] * bool(short) + [f"--{long}"]
    if len(names) == 1:
        return f"'{names[0]}{'=' * bool(value)}[{long}]{behind}'"
    return f"'(-{short} --{long})'{{-{short}{'+' * bool(value)},--{long}{'=' * bool(value)}}}'[{long}]{behind}'"


def zsh(manual):
    """The completions of zsh."""
    made = commands(manual)

    def told(it):
        return it.does.replace("'", "'\\''").replace("`", "").replace(":", "\\:")

    lines = ["#compdef unixfs", "# Completions of zsh for unixfs. Made by checks/pages.py.", "", "_unixfs() {",
             "    local -a firsts seconds", "    if (( CURRENT == 2 )); then", "        firsts=("]
    for first, second in groups(made).items():
        text = "commands on " + ("the tree" if first == "files" else "DAGs and CARs") if second else next(told(it) for it in made if it.name == first)
        lines.append(f"            '{first}:{text}'")
    lines += ["        )", "        _describe 'command' firsts", "        return", "    fi", "    case $words[2] in"]
    for first, second in groups(made).items():
        if second:
            lines += [f"    {first})", "        if (( CURRENT == 3 )); then", "            seconds=("]
            lines += [f"                '{it.name.partition(' ')[2]}:{told(it)}'" for it in made if it.name.startswith(first + " ")]
            lines += ["            )", f"            _describe '{first} command' seconds", "            return", "        fi",
                      '        words=("$words[2] $words[3]" "${(@)words[4,-1]}")', "        (( CURRENT -= 2 ))", "        ;;"]
    lines += ["    *)", '        words=("${(@)words[2,-1]}")', "        (( CURRENT -= 1 ))", "        ;;", "    esac", "    case $words[1] in"]
    for it in made:
        rest = [zsh_option(*option) for option in it.options]
        rest += [f"'{place}:{':' * name.startswith('[')}{name.strip('[]')}:{'_files' if 'HOSTPATH' in name else ' '}'"
                 for place, name in enumerate(it.arguments, 1)]
        if rest:
            lines += [f"    '{it.name}')", "        _arguments " + " ".join(rest), "        ;;"]
    return "\n".join(lines + ["    esac", "}", "", '_unixfs "$@"', ""])


def wrong_commands(manual):
    """Rows of the table of commands that aren't as the model of the tests has them."""
    tree = ast.parse(text_of("checks/word_lists.py"))
    known = next(ast.literal_eval(it.value) for it in tree.body if isinstance(it, ast.Assign) and it.targets[0].id == "TABLE")
    made = {it.name: it.model() for it in commands(manual)}
    for name in sorted({*known, *made}):
        model, row = known.get(name), made.get(name)
        if model is None or row is None or [sorted(it) for it in model[:2]] != [sorted(it) for it in row[:2]] or model[2] != row[2]:
            yield f"docs/COMMANDS.md: {name} is {row}, and {model} in checks/word_lists.py"


COMPLETED = {
    "": "init add cat get dag pin repo prove check pull serve batch gen files",
    "fi": "files",
    "files m": "mkdir mv",
    "files write --t": "--truncate",
    "files write -o ": "",
    "add --": "--recursive --only-hash --to-files",
    "add -n -": "-r --recursive -n --only-hash --to-files",
    "add -n h": "here",
    "get CID h": "here",
    "cat h": "",
    "files rm h": "",
}


def wrong_completions():
    """What bash completes otherwise than it should."""
    for line, wanted in COMPLETED.items():
        words = ["unixfs", *line.split(" ")]
        script = 'source "$0"; touch here; COMP_WORDS=("$@"); COMP_CWORD=$(($# - 1)); _unixfs; echo "${COMPREPLY[*]}"'
        with tempfile.TemporaryDirectory() as folder:
            done = subprocess.run(["bash", "-c", script, os.path.join(TOP, BASH), *words], cwd=folder, check=False,
                                  stdout=subprocess.PIPE, stderr=subprocess.STDOUT)
        got = done.stdout.decode().strip()
        if got != wanted:
            yield f"{BASH}: after `{line}` {got!r} in the place of {wanted!r}"


def main():
    """Writes or compares."""
    manual, readme = text_of("docs/COMMANDS.md"), text_of("README.md")
    wrong = list(wrong_commands(manual))
    for name, text in ((PAGE, page(manual, readme)), (BASH, bash(manual)), (ZSH, zsh(manual))):
        if sys.argv[1:] == ["write"]:
            with open(os.path.join(TOP, name), "w", encoding="utf-8") as file:
                file.write(text)
        if text_of(name) != text:
            wrong.append(f"{name} is not what this script makes: run checks/pages.py write")
    wrong += wrong_completions()
    for line in wrong:
        print("pages: " + line)
    print(f"pages: {len(commands(manual))} commands, {len(wrong)} wrong")
    sys.exit(1 if wrong else 0)


main()
