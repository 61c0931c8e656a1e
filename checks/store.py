"""Trouble with the files of a store, and commands that are killed.

The word says how many commands of each kind are killed, at random moments: fifty where it isn't given.
"""

import base64
import hashlib
import itertools
import os
import random
import resource
import shutil
import signal
import stat
import subprocess
import sys
import tempfile
import time

EMPTY = "bafybeiczsscdsbs7ffqz55asqdf3smv6klcw3gofszvwlyarci47bgf354"
FAILED = (3, "error: store\n")
NOT_READY = (10, "error: not ready 1\n")
DONE = (0, "")


class Store:
    """The program in a folder with a store."""

    def __init__(self, program, folder):
        self.program = program
        self.folder = folder

    def run(self, words, data=b"", **how):
        """The status of a command, and what it prints on standard output and standard error together."""
        done = subprocess.run(
            [self.program, *words.split()], cwd=self.folder, input=data, stdout=subprocess.PIPE,
            stderr=subprocess.STDOUT, timeout=60, check=False, **how)
        return done.returncode, done.stdout.decode()

    def path(self, *names):
        """The path of a file of the store."""
        return os.path.join(self.folder, ".unixfs", *names)

    def block(self, cid):
        """The path of a block's file: in its own folder, or among the late ones."""
        filed = self.path("blocks", cid[-2:], cid)
        return filed if os.path.lexists(filed) else self.path("blocks", cid)

    def late(self):
        """The CIDs of the blocks that aren't in their own folders."""
        return [name for name in os.listdir(self.path("blocks")) if len(name) == 59]

    def file(self):
        """Moves each block into its own folder, as the program does once there are many."""
        for name in self.late():
            os.makedirs(self.path("blocks", name[-2:]), exist_ok=True)
            os.rename(self.path("blocks", name), self.path("blocks", name[-2:], name))

    def root(self):
        """The path of the root's block."""
        return self.block(self.run("files stat /")[1].split()[0])

    def files(self):
        """The bytes of each file of the store, by its path."""
        found = {}
        for folder, _, names in os.walk(self.path()):
            for name in names:
                path = os.path.join(folder, name)
                if stat.S_ISREG(os.lstat(path).st_mode):
                    with open(path, "rb") as file:
                        found[path] = file.read()
        return found

    def leftovers(self):
        """The names in the store's folder that no store has."""
        return sorted(set(os.listdir(self.path())) - {"blocks", "head", "pins"})

    def torn(self):
        """The files of blocks that haven't the bytes of their CIDs, or lie in the wrong folder."""
        return [path for path, block in self.files().items()
                if path.startswith(self.path("blocks")) and not is_whole(path, block)]


def is_whole(path, block):
    """Whether a file has the bytes of the CID that names it, and lies among the late blocks or in the folder of that CID."""
    folder, name = os.path.split(path)
    text = name[1:].upper()
    digest = base64.b32decode(text + "=" * (-len(text) % 8))[4:]
    return hashlib.sha256(block).digest() == digest and os.path.basename(folder) in ("blocks", name[-2:])


def cid_of(block):
    """The CID of a leaf's bytes."""
    return "b" + base64.b32encode(b"\x01\x55\x12\x20" + hashlib.sha256(block).digest()).decode().lower().rstrip("=")


def blocks_that_count(count):
    """Small blocks whose digests begin with a byte of 0: after one of them the program counts the late blocks."""
    found = (str(n).encode() for n in range(1 << 20))
    return list(itertools.islice((it for it in found if hashlib.sha256(it).digest()[0] == 0), count))


def put(path, data):
    """Puts a file in the place of what is there."""
    if os.path.isdir(path):
        shutil.rmtree(path)
    elif os.path.lexists(path):
        os.remove(path)
    with open(path, "wb") as file:
        file.write(data)


def replace(make):
    """A change that takes a file or a folder away and makes another thing in its place."""
    def change(path):
        if os.path.isdir(path):
            shutil.rmtree(path)
        else:
            os.remove(path)
        make(path)
    return change


def shorten(path):
    """Takes the last byte of a file away."""
    os.truncate(path, os.path.getsize(path) - 1)


def dangle(path):
    """Makes a link that leads nowhere."""
    os.symlink("nowhere", path)


def loop(path):
    """Makes a link that leads to itself."""
    os.symlink(os.path.basename(path), path)


def long_file(path):
    """Makes a file that is one byte too long for a block."""
    with open(path, "wb") as file:
        file.truncate(2097153)


# What is done with the store's folder, the folder of blocks, the folder of the root's block, that block and the Head, and
# what `files ls` and then `files mkdir` answer; MISSING stands for the missing root.
MISSING = (4, "error: missing ROOT\n")
TROUBLES = [
    ("the store is a file", "store", replace(lambda path: put(path, b"x")), FAILED, FAILED),
    ("the store is a dangling link", "store", replace(dangle), NOT_READY, NOT_READY),
    ("the store is a looping link", "store", replace(loop), FAILED, FAILED),
    ("blocks is a file", "blocks", replace(lambda path: put(path, b"x")), FAILED, FAILED),
    ("a folder of blocks is a file", "folder", replace(lambda path: put(path, b"x")), FAILED, FAILED),
    ("a block is a folder", "root", replace(os.mkdir), FAILED, FAILED),
    ("a block is a pipe", "root", replace(os.mkfifo), FAILED, FAILED),
    ("a block is a dangling link", "root", replace(dangle), MISSING, MISSING),
    ("a block is a looping link", "root", replace(loop), FAILED, FAILED),
    ("a block isn't there", "root", os.remove, MISSING, MISSING),
    ("a block is too long", "root", replace(long_file), FAILED, FAILED),
    ("a block is truncated", "root", shorten, FAILED, FAILED),
    ("a block has other bytes", "root", lambda path: put(path, b"x"), FAILED, FAILED),
    ("the Head is a folder", "head", replace(os.mkdir), FAILED, FAILED),
    ("the Head is a pipe", "head", replace(os.mkfifo), FAILED, FAILED),
    ("the Head is a looping link", "head", replace(loop), FAILED, FAILED),
    ("the Head is truncated", "head", shorten, (10, "error: not ready 3\n"), (10, "error: not ready 3\n")),
]


# Commands in a folder of their own, each a run of a new process: the words, the input, the status, and what is printed.
HELLO = "bafkreifzjut3te2nhyekklss27nh3k72ysco7y32koao5eei66wof36n5e"
RUNS = [
    ("files ls", b"", 10, "error: not ready 1\n"),
    ("init", b"", 0, ""),
    ("init", b"", 10, "error: not ready 2\n"),
    ("files mkdir -p /a/b", b"", 0, ""),
    ("files ls /a", b"", 0, "b\n"),
    ("add", b"hello world", 0, f"added {HELLO} {HELLO}\n"),
    (f"cat {HELLO}", b"", 0, "hello world"),
    ("files ls", b"", 0, "a\n"),
]


class Checks:
    """The checks, each over a store of its own that has one directory."""

    def __init__(self, program, folder):
        self.program = program
        self.folder = folder
        self.count = self.wrong = 0
        self.first = Store(program, os.path.join(folder, "first"))
        os.mkdir(self.first.folder)
        self.expect("init", self.first.run("init --chunk 5200"), DONE)
        self.expect("mkdir", self.first.run("files mkdir -p /d/e"), DONE)

    def expect(self, name, got, wanted):
        """Compares what came with what is wanted."""
        self.count += 1
        if got != wanted:
            self.wrong += 1
            print(f"store: {name}\n  wanted: {wanted!r}\n  got:    {got!r}")

    def anew(self, is_filed=False):
        """A copy of the first store, whose blocks are late ones or are all in their own folders."""
        folder = tempfile.mkdtemp(dir=self.folder)
        shutil.copytree(self.first.folder, folder, dirs_exist_ok=True)
        os.chmod(folder, 0o755)
        store = Store(self.program, folder)
        if is_filed:
            store.file()
        return store

    def trouble(self, is_filed, name, where, change, listed, made):
        """One trouble: both answers are clear, no other file is lost, and the tree is there once the trouble is over."""
        store = self.anew(is_filed)
        root = store.root()
        path = {"store": store.path(), "blocks": store.path("blocks"), "folder": os.path.dirname(root),
                "root": root, "head": store.path("head")}[where]
        kept = os.path.join(self.folder, "kept")
        shutil.copytree(store.path(), kept)
        change(path)
        before = store.files()
        for words, (status, line) in (("files ls", listed), ("files mkdir /z", made)):
            self.expect(f"{name}: {words}", store.run(words), (status, line.replace("ROOT", os.path.basename(root))))
        after = store.files()
        self.expect(f"{name}: kept", {path: after.get(path) for path in before}, before)
        replace(lambda path: None)(store.path())
        os.rename(kept, store.path())
        self.expect(f"{name}: over", store.run("files ls"), (0, "d\n"))

    def kept_between_runs(self):
        """The tree is kept from run to run."""
        store = Store(self.program, tempfile.mkdtemp(dir=self.folder))
        for place, (words, data, status, printed) in enumerate(RUNS):
            self.expect(f"run {place}: {words}", store.run(words, data), (status, printed))

    def mended(self):
        """A saved block takes the place of one that isn't its CID's, and of a link that leads nowhere."""
        changes = (("other bytes", lambda path: put(path, b"x")), ("too long", replace(long_file)), ("dangling", replace(dangle)))
        for is_filed, (name, change) in itertools.product((False, True), changes):
            store = self.anew(is_filed)
            change(store.block(EMPTY))
            self.expect(f"{name}: mkdir", store.run("files mkdir /z"), DONE)
            self.expect(f"{name}: mended", (store.run("files ls /z"), store.torn()), (DONE, []))

    def with_late(self, count):
        """A store with so many late blocks more."""
        store = self.anew()
        for n in range(count):
            block = b"late %d" % n
            put(store.path("blocks", cid_of(block)), block)
        return store

    def filed(self, moments):
        """Late blocks go into their own folders once there are 4096, and one that is killed meanwhile loses none."""
        first, second = blocks_that_count(2)
        few = self.with_late(100)
        self.expect("few late blocks: add", few.run("add", first)[0], 0)
        self.expect("few late blocks: stay", len(few.late()) > 100, True)
        store, tree = self.with_late(5000), (0, "d\n")
        names = {os.path.basename(path) for path in store.files()}
        start = time.monotonic()
        self.expect("many late blocks: add", store.run("add", first)[0], 0)
        most = time.monotonic() - start
        self.expect("many late blocks: filed", (store.late(), store.torn(), store.run("files ls")), ([], [], tree))
        self.expect("many late blocks: all", {os.path.basename(path) for path in store.files()}, names | {cid_of(first)})
        for _ in range(moments):
            store = self.with_late(5000)
            moment = random.uniform(0, most)
            with subprocess.Popen([self.program, "add"], cwd=store.folder, stdin=subprocess.PIPE, stdout=subprocess.DEVNULL) as child:
                child.stdin.write(first)
                child.stdin.close()
                time.sleep(moment)
                child.kill()
            name = f"filing, killed after {moment:.4f} s"
            left = {os.path.basename(path) for path in store.files()}
            self.expect(name, (names <= left, store.torn(), store.run("files ls")), (True, [], tree))
            self.expect(f"{name}: rest", store.run("add", second)[0], 0)
            self.expect(f"{name}: torn", store.torn(), [])
            shutil.rmtree(store.folder)

    def forbidden(self):
        """No right to write, and then none to read."""
        store = self.anew()
        how = other_user(store)
        if how is None:
            print("store: rights were not tried, since the superuser has them all and no command can run as another here")
            return
        folders = [folder for folder, _, _ in os.walk(store.path())]
        for folder in folders:
            os.chmod(folder, 0o555)
        self.expect("no right to write: mkdir", store.run("files mkdir /z", **how), FAILED)
        self.expect("no right to write: ls", store.run("files ls", **how), (0, "d\n"))
        for folder in folders:
            os.chmod(folder, 0o755)
        for name, path in (("block", store.root()), ("Head", store.path("head"))):
            mode = os.stat(path).st_mode
            os.chmod(path, 0)
            self.expect(f"no right to read: {name}", store.run("files ls", **how), FAILED)
            os.chmod(path, mode)
        self.expect("no right: over", store.run("files ls"), (0, "d\n"))

    def full(self):
        """No room for more than so many bytes in a file: the block, and then the Head, isn't written."""
        store = self.anew()
        before = store.files()
        for words, data, room in (("add", bytes(30000), 5000), ("files mkdir /z", b"", 10)):
            how = {"restore_signals": False, "preexec_fn": lambda room=room: bounded(room)}
            self.expect(f"no room: {words}", store.run(words, data, **how), FAILED)
            self.expect("no room: nothing is left", store.leftovers(), [])
        after = store.files()
        self.expect("no room: kept", {path: after.get(path) for path in before}, before)
        self.expect("no room: over", (store.run("files ls"), store.torn()), ((0, "d\n"), []))

    def survives(self, name, store, before):
        """After a kill the tree is one of these, no block is torn, and the next command that writes clears what is left."""
        listed = store.run("files ls /d")
        self.expect(f"{name}: ls", listed in before, True)
        self.expect(f"{name}: torn", store.torn(), [])
        self.expect(f"{name}: left", len(store.leftovers()) <= 1, True)
        self.expect(f"{name}: mkdir", store.run("files mkdir /next"), DONE)
        self.expect(f"{name}: cleared", (store.leftovers(), store.torn()), ([], []))
        self.expect(f"{name}: tree", store.run("files ls /d"), listed)

    def killed_add(self, long, most):
        """An `add` of many blocks that is killed at a random moment."""
        store = self.anew()
        before = store.run("files stat /"), store.run("files ls /d")
        moment = random.uniform(0, most)
        with open(long, "rb") as data:
            with subprocess.Popen([self.program, "add"], cwd=store.folder, stdin=data, stdout=subprocess.DEVNULL) as child:
                time.sleep(moment)
                child.kill()
        self.expect(f"add, killed after {moment:.4f} s: stat", store.run("files stat /"), before[0])
        self.survives(f"add, killed after {moment:.4f} s", store, [before[1]])
        shutil.rmtree(store.folder)

    def killed_mkdir(self, most):
        """A loop of `files mkdir` whose command at a random moment is killed."""
        store = self.anew()
        moment = random.uniform(0, most)
        end = time.monotonic() + moment
        count = 0
        while time.monotonic() < end:
            with subprocess.Popen([self.program, "files", "mkdir", f"/d/{1000 + count}"], cwd=store.folder) as child:
                try:
                    self.expect("mkdir", child.wait(max(end - time.monotonic(), 0)), 0)
                    count += 1
                except subprocess.TimeoutExpired:
                    child.kill()
        trees = [(0, "".join(f"{1000 + n}\n" for n in range(more)) + "e\n") for more in (count, count + 1)]
        self.survives(f"mkdir {count}, killed after {moment:.4f} s", store, trees)
        shutil.rmtree(store.folder)

    def garbage(self):
        """A store with a file in its tree, a pinned folder, and as many blocks to which nothing leads; what both print."""
        store = self.anew()
        folder = os.path.join(self.folder, "pinned")
        if not os.path.isdir(folder):
            os.mkdir(folder)
            for n in range(300):
                put(os.path.join(folder, f"{n:03}"), os.urandom(200))
        self.expect("gc: write", store.run("files write -e /d/file", b"0123456789" * 3000), DONE)
        pinned = store.run(f"add -r {folder}")[1].split("\n")[-2].split()[1]
        self.expect("gc: pin", store.run(f"pin add {pinned}"), DONE)
        lines = "".join(f"files write -e -x {n:08x} /d/{n}\n" for n in range(450))
        self.expect("gc: batch", store.run("batch", lines.encode())[0], 0)
        self.expect("gc: rm", store.run("batch", "".join(f"files rm /d/{n}\n" for n in range(450)).encode())[0], 0)
        return store, pinned

    def kept(self, name, store, pinned, before):
        """The tree and the pinned folder are whole, and so are the notes; no block is torn."""
        self.expect(f"{name}: file", store.run("files read /d/file"), before[0])
        self.expect(f"{name}: tree", store.run("files stat /"), before[1])
        self.expect(f"{name}: pinned", whole(store, pinned), before[2])
        self.expect(f"{name}: root", whole(store, before[1][1].split()[0]), before[3])
        self.expect(f"{name}: pins", store.run("pin ls"), (0, f"{pinned}\n"))
        self.expect(f"{name}: torn", store.torn(), [])

    def collected(self, moments):
        """A `repo gc` that is done, and so many that are killed at a random moment, after which the next one takes the rest."""
        first, pinned = self.garbage()
        before = (first.run("files read /d/file"), first.run("files stat /"), whole(first, pinned),
                  whole(first, first.run("files stat /")[1].split()[0]))
        copy = os.path.join(self.folder, "collected")
        shutil.copytree(first.folder, copy)
        count = len(first.files())
        start = time.monotonic()
        status, line = first.run("repo gc")
        most = time.monotonic() - start
        left = first.files()
        self.expect("gc: removed", (status, line), (0, f"removed {count - len(left)}\n"))
        self.expect("gc: some went", count - len(left) > 2000, True)
        self.kept("gc", first, pinned, before)
        self.expect("gc: again", first.run("repo gc"), (0, "removed 0\n"))
        for _ in range(moments):
            store = Store(self.program, tempfile.mkdtemp(dir=self.folder))
            shutil.copytree(copy, store.folder, dirs_exist_ok=True)
            moment = random.uniform(0, most)
            with subprocess.Popen([self.program, "repo", "gc"], cwd=store.folder, stdout=subprocess.DEVNULL) as child:
                time.sleep(moment)
                child.kill()
            name = f"gc, killed after {moment:.4f} s"
            self.kept(name, store, pinned, before)
            self.expect(f"{name}: rest", store.run("repo gc")[0], 0)
            self.expect(f"{name}: left", sorted(os.path.relpath(path, store.folder) for path in store.files()),
                        sorted(os.path.relpath(path, first.folder) for path in left))
            shutil.rmtree(store.folder)

    def killed(self, moments):
        """So many commands of each kind that are killed."""
        long = os.path.join(self.folder, "long")
        put(long, os.urandom(3000000))
        start = time.monotonic()
        with open(long, "rb") as data:
            subprocess.run([self.program, "add"], cwd=self.anew().folder, stdin=data, stdout=subprocess.DEVNULL, check=True)
        most = time.monotonic() - start
        for _ in range(moments):
            self.killed_add(long, most)
            self.killed_mkdir(0.5)


def whole(store, cid):
    """The status of an export of all that is below a CID, and the hash of what it printed."""
    done = subprocess.run([store.program, "dag", "export", cid], cwd=store.folder, stdout=subprocess.PIPE, timeout=60, check=False)
    return done.returncode, hashlib.sha256(done.stdout).hexdigest()


def other_user(store):
    """How a command runs as a user whose rights are checked; None where it can't."""
    if os.getuid() != 0:
        return {}
    how = {"user": 65534, "group": 65534, "extra_groups": []}
    try:
        return how if store.run("files ls", **how) == (0, "d\n") else None
    except (OSError, subprocess.SubprocessError):
        return None


def bounded(room):
    """Lets a process write files of so many bytes at most, and get an error for more."""
    signal.signal(signal.SIGXFSZ, signal.SIG_IGN)
    resource.setrlimit(resource.RLIMIT_FSIZE, (room, room))


def main():
    """Runs the checks with a copy of the built program, which another user may run."""
    top = os.path.dirname(os.path.dirname(os.path.abspath(__file__)))
    subprocess.run([os.path.join(top, "unixfs"), "add", "-n"], stdin=subprocess.DEVNULL, stdout=subprocess.DEVNULL, check=True)
    with tempfile.TemporaryDirectory() as folder:
        os.chmod(folder, 0o755)
        program = shutil.copy(os.path.join(top, "crates", "uf_tool", "out", "uf_tool"), folder)
        os.chmod(program, 0o755)
        checks = Checks(program, folder)
        for is_filed, row in itertools.product((False, True), TROUBLES):
            if is_filed or row[1] != "folder":
                checks.trouble(is_filed, *row)
        checks.kept_between_runs()
        checks.mended()
        checks.forbidden()
        checks.full()
        moments = int(sys.argv[1]) if len(sys.argv) > 1 else 50
        checks.killed(moments)
        checks.filed(moments)
        checks.collected(moments)
        print(f"store: {checks.count - checks.wrong} passed, {checks.wrong} failed")
    sys.exit(1 if checks.wrong else 0)


main()
