"""Tries ./unixfs and ./install with a stand-in for the prover, over a small repository of three crates: what a first use
proves, what an interruption leaves, whose sources are run, and what the user's cache holds. It takes some seconds."""

import os
import shutil
import signal
import subprocess
import sys
import tempfile
import time

TOP = os.path.dirname(os.path.dirname(os.path.abspath(__file__)))
RT = """#!/bin/sh
# Stands in for the prover: notes what it is asked for, and makes a library or a program of the sources.
[ "$1" = version ] && { echo "kit-$KIT logic 0"; exit; }
name=$(basename "$PWD")
echo "$1 $name" >> "$NOTES"
for it in ../*/; do
    it=$(basename "$it")
    [ "$it" = "$name" ] || [ -f "../$it/out/rlib/stamp" ] || { echo "no library $it"; exit 1; }
done
if grep -q slow src/*.rt; then
    mkdir -p out/incremental && echo "$name" > out/incremental/some
    sleep "$MARK" &
    setsid sleep "$MARK" &
    child=$!
    trap 'kill $child; exit 143' TERM
    wait
fi
if grep -q wrong src/*.rt; then echo "not proved: $name"; exit 1; fi
mkdir -p out/rlib
cat src/*.rt | cksum > out/rlib/stamp
if [ "$1" = run ]; then
    { echo '#!/bin/sh'; echo "text='$(cat ../uf_low/src/lib.rt)'"; cat src/main.rt; } > out/uf_tool
    chmod +x out/uf_tool
fi
"""
PARTS = """# Stands in for the functions of a kit, which make a library of its statements.
import os, subprocess

def guarded():
    pass

def lock(_):
    return []

def help_of(_):
    return "--statements"

def main(*words):
    return subprocess.call(["rt", *words])

def crates_below(folder):
    return [Crate(os.path.join(folder, it)) for it in os.listdir(folder)]

class Crate:
    cuts_libraries = False

    def __init__(self, folder):
        self.folder = folder

    def stamp(self):
        return "of statements: " + str(Crate.cuts_libraries)

    def build_rlib(self, flags, anew):
        return subprocess.call(["rt", "lib", *flags]) if anew else 2
"""
MAIN = '[ "$*" = "add -n" ] && exit; echo "$text$#"; for it in "$@"; do printf "%s\\n" "$it"; done; cat; exit 3\n'


class Tried:
    """What is tried, in a folder of its own."""

    def __init__(self, folder):
        self.folder, self.wrong, self.count = folder, 0, 0
        self.notes, self.mark = os.path.join(folder, "notes"), f"3333.{os.getpid()}"
        os.makedirs(os.path.join(folder, "bin"))
        self.write("bin/rt", RT)
        os.chmod(os.path.join(folder, "bin", "rt"), 0o755)
        path = os.path.join(folder, "bin") + os.pathsep + os.environ["PATH"]
        self.environment = dict(
            os.environ, PATH=path, NOTES=self.notes, MARK=self.mark, KIT="one", XDG_CACHE_HOME=os.path.join(folder, "cache"),
            HOME=folder, GIT_CONFIG_GLOBAL=os.path.join(folder, "gitconfig"), GIT_CONFIG_NOSYSTEM="1", LC_ALL="C")
        self.environment.pop("GIT_DIR", None)
        self.write("gitconfig", "[user]\nname = t\nemail = t@t\n[init]\ndefaultBranch = main\n")

    def write(self, name, text):
        """Writes a file below the folder."""
        path = os.path.join(self.folder, name)
        os.makedirs(os.path.dirname(path), exist_ok=True)
        with open(path, "w", encoding="utf-8") as file:
            file.write(text)

    def sh(self, words, cwd="."):
        """Runs a command of sh that has to succeed, and gives what it prints."""
        return subprocess.run(["sh", "-c", words], cwd=os.path.join(self.folder, cwd), env=self.environment, check=True,
                              stdin=subprocess.DEVNULL, stdout=subprocess.PIPE, stderr=subprocess.DEVNULL).stdout.decode()

    def use(self, place="top/unixfs", words=(), given=b"", **changes):
        """Runs the program in another folder: its status, its output, its errors."""
        done = subprocess.run([os.path.join(self.folder, place), *words], cwd=self.folder, input=given, check=False,
                              env=dict(self.environment, **changes), stdout=subprocess.PIPE, stderr=subprocess.PIPE)
        return done.returncode, done.stdout, done.stderr.decode()

    def asked(self):
        """What the prover was asked for since the last call, in order."""
        try:
            with open(self.notes, encoding="utf-8") as file:
                lines = sorted(file.read().splitlines())
            os.remove(self.notes)
        except OSError:
            lines = []
        return lines

    def is_(self, what, got, wanted):
        """Compares, and says what is wrong."""
        self.count += 1
        if got != wanted:
            self.wrong += 1
            print(f"wrapper: {what}\n  wanted: {wanted!r}\n  got:    {got!r}")

    def left(self):
        """The processes of the stand-in that go on."""
        found = []
        for it in os.listdir("/proc"):
            if it.isdigit():
                try:
                    with open(f"/proc/{it}/cmdline", "rb") as file:
                        found += [int(it)] * (self.mark.encode() in file.read().split(b"\0"))
                except OSError:
                    pass
        return found

    def repository(self, name="top"):
        """A repository of three crates, two of them below the program, and one that it doesn't need."""
        os.makedirs(os.path.join(self.folder, name, "tools"))
        for it in ("unixfs", "install", "tools/first_use.py", "tools/prove.py", "HANDLES", ".gitignore"):
            shutil.copy(os.path.join(TOP, it), os.path.join(self.folder, name, it))
        self.write(f"{name}/crates.txt", "# lines\nuf_low:\nuf_mid: uf_low\nuf_apart: uf_mid\nuf_tool: sha2 uf_low uf_mid\n")
        for crate in ("low", "mid", "apart"):
            self.write(f"{name}/crates/uf_{crate}/src/lib.rt", f"{crate} 1")
        self.write(f"{name}/crates/uf_tool/src/main.rt", MAIN)
        self.sh("git init -q && git add -A && git commit -qm one", name)


def first_use(it):
    """A first use, a second one, and uses after edits."""
    it.is_("first use", it.use(words=["a b", "", "é"], given=b"\xff\n")[:2], (3, b"low 13\na b\n\n\xc3\xa9\n\xff\n"))
    it.is_("each crate that is needed is proved once", it.asked(), ["lib uf_low", "lib uf_mid", "run uf_tool"])
    it.is_("nothing is left beside it", it.sh("git status --porcelain; ls; ls crates/uf_tool/out", "top").split(),
           "HANDLES build.log crates crates.txt install tools unixfs built_from proved rlib uf_tool".split())
    it.is_("second use", (it.use(), it.asked()), ((3, b"low 10\n", ""), []))
    it.sh("ln -s top/unixfs link")
    it.is_("through a link", it.use("link")[:2], (3, b"low 10\n"))
    it.write("top/crates/uf_mid/src/lib.rt", "mid 2")
    it.is_("an edit is proved with what stands on it", (it.use()[0], it.asked()), (3, ["lib uf_mid", "run uf_tool"]))
    it.write("top/crates/uf_low/src/lib.rt", "low 2")
    it.is_("an edit is run", it.use()[:2], (3, b"low 20\n"))
    it.asked()
    it.sh("git checkout -q crates", "top")
    it.is_("an edit that was taken back", it.use()[:2], (3, b"low 10\n"))
    it.asked()


def by_parts(it):
    """A kit whose functions are known makes libraries of statements."""
    it.write("bin/rtlib.py", PARTS)
    it.sh("rm -rf ../cache crates/*/out", "top")
    it.is_("a kit with its functions", (it.use()[:2], it.asked()),
           ((3, b"low 10\n"), ["lib uf_low", "lib uf_mid", "run uf_tool"]))
    it.is_("libraries of statements", it.sh("cat crates/uf_mid/out/rlib/stamp", "top"), "of statements: True")
    it.write("bin/rtlib.py", PARTS.replace("flags, anew):", "how):"))
    it.sh("rm -rf ../cache crates/*/out ../bin/__pycache__", "top")
    it.is_("a kit whose functions have other parameters", (it.use()[:2], it.asked()),
           ((3, b"low 10\n"), ["lib uf_low", "lib uf_mid", "run uf_tool"]))
    it.sh("rm -rf bin/rtlib.py bin/__pycache__ cache top/crates/*/out")
    it.use()
    it.asked()


def whose_sources(it):
    """Another commit, a worktree, packed references and copies without git run the program of their own sources."""
    it.sh("git branch old; printf 'low 3' > crates/uf_low/src/lib.rt; git commit -qam three", "top")
    it.is_("another commit", it.use()[:2], (3, b"low 30\n"))
    it.sh("git worktree add -q ../tree old", "top")
    it.is_("a worktree", it.use("tree/unixfs")[:2], (3, b"low 10\n"))
    it.sh("git checkout -q --detach main", "tree")
    it.is_("a worktree that moved", it.use("tree/unixfs")[:2], (3, b"low 30\n"))
    it.sh("git pack-refs --all", "top")
    it.asked()
    it.is_("packed references", (it.use()[:2], it.asked()), ((3, b"low 30\n"), []))
    it.sh("git commit -q --allow-empty -m empty && git pack-refs --all && git checkout -q old", "top")
    it.is_("packed references that moved", it.use()[:2], (3, b"low 10\n"))
    it.sh("git checkout -q main", "top")
    it.sh("mkdir copy && tar -C top --exclude=.git --exclude=out -cf - . | tar -C copy -xf -")
    it.is_("a copy without git", it.use("copy/unixfs")[:2], (3, b"low 30\n"))
    it.asked()
    it.is_("a copy without git, again", (it.use("copy/unixfs")[:2], it.asked()), ((3, b"low 30\n"), []))
    it.sh("printf 'low 4' > crates/uf_low/src/lib.rt; touch -d 2001-01-01 crates/uf_low/src/lib.rt", "copy")
    it.is_("a copy with an older file put into it", it.use("copy/unixfs")[:2], (3, b"low 40\n"))
    it.sh("cp -r copy top/inner")
    it.is_("a copy without git inside another checkout", it.use("top/inner/unixfs")[:2], (3, b"low 40\n"))
    it.sh("rm -r top/inner")
    it.asked()


def cache(it):
    """The program of a commit is kept for other clones, by its sources and the kit, and four of them at most."""
    it.use()
    it.asked()
    it.sh("git clone -q top second")
    it.is_("a second clone", (it.use("second/unixfs")[:2], it.asked()), ((3, b"low 30\n"), []))
    it.sh("rm -r crates/*/out", "second")
    it.is_("it is told", "took the program that was proved before" in it.use("second/unixfs")[2], True)
    it.sh("echo page > page; git add page; git commit -qm page; git reset -q --hard HEAD", "top")
    it.sh("git pull -q; rm -r crates/*/out", "second")
    it.is_("a commit that changes a page alone", (it.use("second/unixfs")[:2], it.asked()), ((3, b"low 30\n"), []))
    it.sh("rm -r crates/*/out", "second")
    it.sh("chmod o+w cache/unixfs/*/unixfs")
    it.is_("a program that others can write isn't taken", (it.use("second/unixfs")[0], it.asked()),
           (3, ["lib uf_low", "lib uf_mid", "run uf_tool"]))
    it.sh("rm -r crates/*/out", "second")
    it.is_("another kit proves anew", (it.use("second/unixfs", KIT="two")[0], it.asked()),
           (3, ["lib uf_low", "lib uf_mid", "run uf_tool"]))
    for number in range(5, 11):
        it.sh(f"printf 'low {number}' > crates/uf_low/src/lib.rt; git commit -qam n", "top")
        it.is_("one more commit", it.use()[:2], (3, f"low {number}0\n".encode()))
    it.is_("four programs are kept", it.sh("ls cache/unixfs | wc -l").strip(), "4")
    it.write("top/crates/uf_low/src/lib.rt", "low dirty")
    before = it.sh("ls -l cache/unixfs")
    it.is_("sources with an edit aren't kept", (it.use()[1], it.sh("ls -l cache/unixfs")), (b"low dirty0\n", before))
    it.sh("git checkout -q crates", "top")
    it.is_("no place for a cache", it.use(XDG_CACHE_HOME="/dev/null")[:2], (3, b"low 100\n"))
    it.asked()


def interrupted(it, number, to_group):
    """An interruption while the second crate is at work."""
    it.sh("rm -rf cache crates/*/out; printf 'mid slow' > crates/uf_mid/src/lib.rt", "top")
    work = subprocess.Popen([os.path.join(it.folder, "top/unixfs")], cwd=it.folder, env=it.environment, stdin=subprocess.DEVNULL,
                            stdout=subprocess.PIPE, stderr=subprocess.PIPE, preexec_fn=os.setpgrp)
    last = time.monotonic() + 60
    while len(it.left()) < 2 and time.monotonic() < last:
        time.sleep(0.02)
    it.is_("it is at work", len(it.left()), 2)
    (os.killpg if to_group else os.kill)(work.pid, number)
    said = work.communicate(timeout=120)[1].decode()
    name = f"{number.name} {'to the group' if to_group else 'alone'}: "
    killed = number == signal.SIGKILL
    it.is_(name + "status", work.returncode, -9 if killed else 130)
    it.is_(name + "it is told", "ended; what was proved is kept" in said, not killed)
    last = time.monotonic() + 20
    while killed and len(it.left()) > 1 and time.monotonic() < last:
        time.sleep(0.02)
    # (of a process that left the group as the prover's own do, the prover takes care, unless it is killed too)
    it.is_(name + "processes", len(it.left()), 1 if killed else 0)
    for process in it.left():
        os.kill(process, signal.SIGKILL)
    if not killed:
        it.is_(name + "folders", it.sh("git status --porcelain --untracked-files; ls crates/uf_tool/out", "top").split(),
               ["M", "crates/uf_mid/src/lib.rt"])
        it.is_(name + "begun work is kept", it.sh("cat crates/uf_mid/out/incremental/some", "top"), "uf_mid\n")
    it.is_(name + "what was asked for", it.asked(), ["lib uf_low", "lib uf_mid"])
    it.sh("git checkout -q crates", "top")
    it.is_(name + "the next try", (it.use(XDG_CACHE_HOME="/dev/null")[0], it.asked()), (3, ["lib uf_mid", "run uf_tool"]))


def failures(it):
    """A crate that isn't proved, no kit, and two uses at once."""
    it.write("top/crates/uf_mid/src/lib.rt", "mid wrong")
    status, out, said = it.use()
    it.is_("a crate that isn't proved", (status, out, "uf_mid was not proved" in said), (1, b"", True))
    it.is_("the log", "not proved: uf_mid" in it.sh("cat build.log", "top"), True)
    it.is_("again", it.use()[:2], (1, b""))
    it.sh("git checkout -q crates", "top")
    it.asked()
    it.is_("taken back", (it.use(XDG_CACHE_HOME="/dev/null")[:2], it.asked()), ((3, b"low 100\n"), []))
    it.sh("rm -r crates/*/out cache 2> /dev/null; rm -rf crates/*/out ../cache; mkdir ../none; for it in sh python3 git readlink "
          "find stat sort cksum sed dirname; do ln -s \"$(command -v $it)\" ../none/; done", "top")
    status, out, said = it.use(PATH=os.path.join(it.folder, "none"))
    it.is_("no kit", (status, out, "rt of the Rattle kit is not on the path" in said), (1, b"", True))
    words = "top/unixfs < /dev/null > one 2> one.err & top/unixfs < /dev/null > two 2> two.err; wait; cat one two"
    it.is_("two at once", it.sh(words), "low 100\nlow 100\n")
    it.is_("two at once prove once", it.asked(), ["lib uf_low", "lib uf_mid", "run uf_tool"])


def installed(it):
    """./install puts the program, the manual page and the completions below a folder, and takes them away again."""
    it.sh("mkdir -p docs/completions; for it in docs/unixfs.1 docs/completions/unixfs.bash docs/completions/_unixfs; do "
          "echo page > $it; done", "top")
    it.sh("top/install away < /dev/null")
    found = "away/bin/unixfs away/share/bash-completion/completions/unixfs away/share/man/man1/unixfs.1 away/share/zsh/site-functions/_unixfs"
    it.is_("installed", it.sh("find away -type f | sort").split(), found.split())
    it.is_("the installed program", it.use("away/bin/unixfs")[:2], (3, b"low 100\n"))
    it.sh("echo mine > away/bin/other; top/install --remove away")
    it.is_("removed", it.sh("find away -type f").split(), ["away/bin/other"])
    it.sh("top/install < /dev/null")
    it.is_("installed at home", it.use(".local/bin/unixfs")[0], 3)
    it.sh("top/install --remove")
    it.is_("removed at home", it.sh("find .local -type f"), "")
    it.is_("other words", it.use("top/install", words=["--else"])[0], 2)
    it.is_("too many words", it.use("top/install", words=["a", "b"])[0], 2)


def main():
    """Tries all."""
    with tempfile.TemporaryDirectory() as folder:
        it = Tried(folder)
        it.repository()
        first_use(it)
        by_parts(it)
        whose_sources(it)
        cache(it)
        for number, to_group in ((signal.SIGINT, True), (signal.SIGINT, False), (signal.SIGTERM, False), (signal.SIGKILL, False)):
            interrupted(it, number, to_group)
        failures(it)
        installed(it)
        print(f"wrapper: {it.count - it.wrong} passed, {it.wrong} failed")
    sys.exit(1 if it.wrong else 0)


main()
