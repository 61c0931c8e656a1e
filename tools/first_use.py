"""Proves and builds the program, and then runs it with the caller's words, folder and streams.

    first_use.py HEAD [WORD..]

HEAD is the commit that the checkout is at, or a sum of its files' times where there is no commit. `unixfs` starts this
where the program is not that of the sources.

Each crate that the program needs is proved by prove.py in a folder of its own, which holds the crate, those below it and
their libraries, so crates that don't need each other are proved side by side. What was proved is moved into the crate's
out/ at once: a later try goes on from there. The program of a commit with no edit is kept in the user's cache folder under a
sum of its sources and of the kit. So a second clone starts at once, and so does a commit that changes a page alone. An
interruption ends all that was begun, and leaves no folder.
"""

import contextlib
import fcntl
import hashlib
import math
import os
import resource
import shutil
import signal
import subprocess
import sys
import time

TOP = os.path.dirname(os.path.dirname(os.path.abspath(__file__)))
TOOL = "uf_tool"
OUT = os.path.join(TOP, "crates", TOOL, "out")
PROGRAM = os.path.join(OUT, TOOL)
BUILT = os.path.join(OUT, "built_from")
ROOM = os.path.join(OUT, "first")
LOG = os.path.join(TOP, "build.log")
PROVE = os.path.join(TOP, "tools", "prove.py")
PARTS = ("src", "specs", "proofs")
LEFT_OUT = shutil.ignore_patterns("out", "must-fail", "edits")
GIB = 1 << 30
CORES = len(os.sched_getaffinity(0))
KEPT_PROGRAMS = 4
# What the kit's parser of words and the machine's files add to the proofs of the crates over them, in processor seconds.
BESIDES = {"uf_words": 160, "uf_disk": 60}


class Ended(Exception):
    """The user wants an end."""


def say(text):
    """Tells the user."""
    print("unixfs: " + text, file=sys.stderr, flush=True)


def text_of(path):
    """The text of a file; empty where it can't be read."""
    try:
        with open(path, encoding="utf-8") as file:
            return file.read()
    except OSError:
        return ""


def put(path, text):
    """Writes a small file in one act."""
    with open(path + ".new", "w", encoding="utf-8") as file:
        file.write(text)
    os.replace(path + ".new", path)


def listed():
    """What each crate of crates.txt stands on."""
    rows = [line.partition(":") for line in text_of(os.path.join(TOP, "crates.txt")).splitlines()]
    return {name.split()[0]: rest.split() for name, _, rest in rows if name.strip() and not name.startswith("#")}


def closure(crate, uses):
    """The crates below a crate and then itself, each behind those that it stands on."""
    found = []
    for name in uses[crate]:
        found += [it for it in (closure(name, uses) if name in uses else []) if it not in found]
    return found + [crate]


def lines_of(folder, parts, ending):
    """How many lines the files of these parts have."""
    count = 0
    for part in parts:
        for place, _, names in os.walk(os.path.join(folder, part)):
            count += sum(text_of(os.path.join(place, name)).count("\n") for name in names if name.endswith(ending))
    return count


def reckoned(crate):
    """About how many processor seconds the proof of a crate takes: by measure of 24 crates, 12 and some 72 for a thousand lines
    of code with its contracts and 7 for a thousand of specs and proofs."""
    folder = os.path.join(TOP, "crates", crate)
    return 12 + BESIDES.get(crate, 0) + 0.072 * lines_of(folder, ["src"], ".rt") + 0.007 * lines_of(folder, PARTS, ".antt")


def lanes():
    """How many processes prove at once, and how many there is memory for: one and a half for each core, since those of one crate
    wait for each other, and one for each 3 GiB that are free; by measure a proof takes at most that."""
    free = [line.split()[1] for line in text_of("/proc/meminfo").splitlines() if line.startswith("MemAvailable:")]
    room = max(1, int(free[0]) * 1024 // (3 * GIB)) if free else 1
    return min(CORES + CORES // 2, room), room


def processor_seconds():
    """What all that has ended took of the processors."""
    used = resource.getrusage(resource.RUSAGE_CHILDREN)
    return used.ru_utime + used.ru_stime


class Sources:
    """The crates that the program needs, and a sum of each."""

    def __init__(self, kit):
        all_uses = listed()
        self.kit, self.crates = kit, closure(TOOL, all_uses)
        self.handles = text_of(os.path.join(TOP, "HANDLES")).encode()
        self.uses = {crate: [it for it in all_uses[crate] if it in self.crates] for crate in self.crates}
        self.rows = {crate: f"{crate}: {' '.join(all_uses[crate])}\n" for crate in self.crates}
        self.copy = os.path.join(ROOM, "sources")
        self.sum_up(os.path.join(TOP, "crates"))

    def sum_up(self, place):
        """Makes the sums of the crates as they lie in this folder, lowest first."""
        self.sums = {}
        for crate in self.crates:
            self.sums[crate] = self.sum_of(crate, os.path.join(place, crate))

    def take_copy(self):
        """Copies the crates, so that an edit meanwhile changes nothing under a proof."""
        for crate in self.crates:
            shutil.copytree(os.path.join(TOP, "crates", crate), os.path.join(self.copy, crate), ignore=LEFT_OUT)
        self.sum_up(self.copy)

    def sum_of(self, crate, folder):
        """A sum of all that the crate's library is made from."""
        found = hashlib.sha256(self.kit + self.handles + self.rows[crate].encode())
        for part in PARTS:
            for place, folders, names in os.walk(os.path.join(folder, part)):
                folders.sort()
                for name in sorted(names):
                    with open(os.path.join(place, name), "rb") as file:
                        found.update(f"\0{place[len(folder):]}/{name}\0".encode("utf-8", "replace") + file.read())
        found.update("".join(self.sums[it] for it in self.uses[crate]).encode())
        return found.hexdigest()

    def below(self, crate):
        """The crates below this one."""
        return closure(crate, self.uses)[:-1]

    def proof_of(self, crate):
        """What stands in out/proved where the library in out/rlib, or the program, is that of these sources."""
        made = PROGRAM if crate == TOOL else os.path.join(TOP, "crates", crate, "out", "rlib", "stamp")
        try:
            with open(made, "rb") as file:
                return self.sums[crate] + " " + hashlib.sha256(file.read()).hexdigest()
        except OSError:
            return None

    def is_proved(self, crate):
        """Whether an earlier try has proved the crate."""
        return text_of(os.path.join(TOP, "crates", crate, "out", "proved")) == self.proof_of(crate)


def link_or_copy(one, other):
    """The same file under another name, or a copy of it."""
    try:
        os.link(one, other)
    except OSError:
        shutil.copy2(one, other)


class Job:
    """The proof of one crate, in a folder of its own."""

    def __init__(self, sources, crate, jobs, group, later):
        self.sources, self.crate, self.jobs = sources, crate, jobs
        self.took, self.root = 0.0, os.path.join(ROOM, crate)
        self.folder = os.path.join(self.root, "crates", crate)
        self.lay_out()
        words = [sys.executable, "-I", PROVE, *(["run", str(jobs), "add", "-n"] if crate == TOOL else ["lib", str(jobs)])]
        self.log = open(os.path.join(self.root, "log"), "wb")
        environment = dict(os.environ, TMPDIR=os.path.join(self.root, "tmp"))
        self.begun = time.monotonic()
        self.process = subprocess.Popen(
            words, cwd=self.folder, env=environment, stdin=subprocess.DEVNULL, stdout=self.log, stderr=self.log,
            preexec_fn=lambda: (os.setpgid(0, group), os.nice(5 if later else 0)))

    def lay_out(self):
        """Makes the folder: the sources of the crate and of those below it, their libraries, and what an earlier check kept."""
        crates = self.sources.below(self.crate) + [self.crate]
        os.makedirs(os.path.join(self.root, "tmp"))
        put(os.path.join(self.root, "crates.txt"), "".join(self.sources.rows[it] for it in crates))
        shutil.copyfile(os.path.join(TOP, "HANDLES"), os.path.join(self.root, "HANDLES"))
        for it in crates:
            to = os.path.join(self.root, "crates", it)
            shutil.copytree(os.path.join(self.sources.copy, it), to, copy_function=link_or_copy)
            if it != self.crate:
                rlib = os.path.join(TOP, "crates", it, "out", "rlib")
                shutil.copytree(rlib, os.path.join(to, "out", "rlib"), copy_function=link_or_copy)
        kept = os.path.join(TOP, "crates", self.crate, "out", "incremental")
        if os.path.isdir(kept):
            os.makedirs(os.path.join(self.folder, "out"))
            os.rename(kept, os.path.join(self.folder, "out", "incremental"))

    def hand_over(self):
        """Moves what the job made into the crate's own out/, and its log behind the others. A library goes there only whole."""
        self.log.close()
        with open(LOG, "ab") as whole, open(self.log.name, "rb") as log:
            clock = time.monotonic() - self.begun
            whole.write(f"== {self.crate}: {clock:.0f} s by the clock, {self.took:.0f} of the processors, {self.jobs} at once\n".encode())
            shutil.copyfileobj(log, whole)
        made, to = os.path.join(self.folder, "out"), os.path.join(TOP, "crates", self.crate, "out")
        os.makedirs(to, exist_ok=True)
        for name in sorted(os.listdir(made)) if os.path.isdir(made) else []:
            if self.process.returncode == 0 or name == "incremental":
                place = os.path.join(to, name)
                if os.path.isdir(place):
                    shutil.rmtree(place)
                os.rename(os.path.join(made, name), place)
        if self.process.returncode == 0:
            put(os.path.join(to, "proved"), self.sources.proof_of(self.crate))
        shutil.rmtree(self.root)


class Group:
    """A process group of its own for all that is started, which ends when this process ends, however that comes."""

    def __init__(self):
        ends, self.held = os.pipe()
        words = ["sh", "-c", "trap '' TERM; read _; kill -9 0"]
        self.guard = subprocess.Popen(words, stdin=ends, stdout=subprocess.DEVNULL, stderr=subprocess.DEVNULL,
                                      preexec_fn=os.setpgrp)
        os.close(ends)
        self.number = self.guard.pid

    def end(self, processes):
        """Ends them all, and waits until they have ended."""
        with contextlib.suppress(OSError):
            os.killpg(self.number, signal.SIGTERM)
        last = time.monotonic() + 5
        while any(it.poll() is None for it in processes) and time.monotonic() < last:
            time.sleep(0.05)
        with contextlib.suppress(OSError):
            os.killpg(self.number, signal.SIGKILL)
        for it in [*processes, self.guard]:
            it.wait()
        os.close(self.held)


class Work:
    """All proofs, from the lowest crates up to the program."""

    def __init__(self, sources):
        self.sources, (self.lanes, self.room) = sources, lanes()
        self.cost = {crate: reckoned(crate) for crate in sources.crates}
        self.done = {crate for crate in sources.crates if sources.is_proved(crate)}
        self.running, self.spent, self.spent_reckoned, self.said = {}, 0.0, 0.0, None
        self.behind = dict.fromkeys(sources.crates, 0.0)
        for crate in reversed(sources.crates):
            self.behind[crate] += self.cost[crate]
            for it in sources.uses[crate]:
                self.behind[it] = max(self.behind[it], self.behind[crate])

    def ready(self):
        """The crates that can begin, first those with the longest way to the program."""
        left = [it for it in self.sources.crates if it not in self.done and it not in self.running]
        return sorted((it for it in left if all(low in self.done for low in self.sources.uses[it])),
                      key=lambda it: -self.behind[it])

    def begin(self, group):
        """Begins as many proofs as there are lanes, and urgent ones as long as there is memory."""
        ready = self.ready()
        while ready:
            busy = sum(job.jobs for job in self.running.values())
            if busy >= (self.room if self.urgency(ready[0]) > 1 else self.lanes):
                return
            crate = ready.pop(0)
            jobs = self.jobs_for(crate, busy, len(ready) + 1)
            self.running[crate] = Job(self.sources, crate, jobs, group.number, later=self.urgency(crate) < 1)

    def urgency(self, crate):
        """The way from a crate to the program by all that is open, shared out over the cores: above 1 it decides when all ends."""
        return self.behind[crate] * CORES / sum(self.open().values())

    def jobs_for(self, crate, busy, waiting):
        """How many lanes a crate gets: all that no other can use, and where it is urgent more than one, which later ones wait for."""
        wanted = 1 + sum(self.urgency(crate) > it for it in (1.0, 1.4, 1.8))
        return min(4, max(1, self.room - busy), max(wanted, (self.lanes - busy) // waiting))

    def pace(self):
        """How much longer a proof takes here than it was reckoned."""
        return (self.spent + 60) / (self.spent_reckoned + 60)

    def open(self):
        """About how many reckoned seconds are left of each crate."""
        found = {it: self.cost[it] for it in self.sources.crates if it not in self.done}
        share = min(1.0, CORES / max(1, len(self.running)))
        for crate, job in self.running.items():
            found[crate] = max(5.0, found[crate] - (time.monotonic() - job.begun) * share / self.pace())
        return found

    def end_some(self):
        """Takes over what has ended; the crate that failed, where one did."""
        for crate, job in list(self.running.items()):
            before = processor_seconds()
            if job.process.poll() is not None:
                del self.running[crate]
                job.took = processor_seconds() - before
                self.spent += job.took
                self.spent_reckoned += self.cost[crate]
                job.hand_over()
                if job.process.returncode:
                    return crate
                self.done.add(crate)
        return None

    def left(self):
        """About how many seconds are left: what is open over all cores, and no less than the longest way to the program."""
        open_, way = self.open(), {}
        for crate in self.sources.crates:
            jobs = min(4, CORES) if crate == "uf_top" else 1
            way[crate] = max([way[it] for it in self.sources.uses[crate]], default=0) + open_.get(crate, 0) / jobs
        return self.pace() * max(sum(open_.values()) / CORES, way[TOOL])

    def tell(self):
        """Says how far it is, where that has changed."""
        now = len(self.done)
        if now != self.said:
            self.said = now
            minutes = math.ceil(self.left() / 60)
            say(f"{now} of {len(self.sources.crates)} crates are proved; about {minutes} minute{'s' * (minutes != 1)} left")

    def run(self):
        """Proves all; the name of a crate that failed, where one did."""
        group, failed = Group(), None
        try:
            while failed is None and TOOL not in self.done:
                self.begin(group)
                self.tell()
                time.sleep(0.1)
                failed = self.end_some()
        finally:
            for number in ENDS:
                signal.signal(number, signal.SIG_IGN)
            group.end([job.process for job in self.running.values()])
            for job in self.running.values():
                job.process.returncode = job.process.returncode or 1
                job.hand_over()
        return failed


ENDS = (signal.SIGINT, signal.SIGTERM, signal.SIGHUP)


def git(*words):
    """What git says of this checkout; nothing where it can't."""
    clean = {name: value for name, value in os.environ.items() if name not in ("GIT_DIR", "GIT_WORK_TREE", "GIT_INDEX_FILE")}
    try:
        done = subprocess.run(["git", *words], cwd=TOP, env=clean, stdin=subprocess.DEVNULL, stdout=subprocess.PIPE,
                              stderr=subprocess.DEVNULL, check=False)
    except OSError:
        return None
    return done.stdout.decode("utf-8", "replace") if done.returncode == 0 else None


def is_clean(head):
    """Whether the sources are those of the commit."""
    return len(head) >= 40 and git("status", "--porcelain", "--", "crates", "crates.txt", "HANDLES") == ""


def cache_of(sources):
    """The folder in the user's cache for the program of these sources, made with their kit."""
    home = os.environ.get("XDG_CACHE_HOME") or os.path.join(os.path.expanduser("~"), ".cache")
    return os.path.join(home, "unixfs", sources.sums[TOOL])


def copy_program(one, other):
    """Copies a program in one act."""
    os.makedirs(os.path.dirname(other), exist_ok=True)
    new = f"{other}.new-{os.getpid()}"
    shutil.copyfile(one, new)
    os.chmod(new, 0o755)
    os.replace(new, other)


def keep(folder):
    """Keeps the program in the user's cache, and the newest few programs there alone. Where there is no such place, it does nothing."""
    with contextlib.suppress(OSError):
        os.makedirs(os.path.dirname(folder), mode=0o700, exist_ok=True)
        os.makedirs(folder, mode=0o700, exist_ok=True)
        copy_program(PROGRAM, os.path.join(folder, "unixfs"))
        os.utime(folder)
        top = os.path.dirname(folder)
        found = sorted((os.path.join(top, it) for it in os.listdir(top)), key=os.path.getmtime, reverse=True)
        for old in found[KEPT_PROGRAMS:]:
            shutil.rmtree(old, ignore_errors=True)


def take(folder):
    """Takes the program out of the user's cache; whether it was there, and nobody else can have put it there."""
    kept = os.path.join(folder, "unixfs")
    try:
        if any(os.stat(it).st_uid != os.geteuid() or os.stat(it).st_mode & 0o022 for it in (kept, folder)):
            return False
        copy_program(kept, PROGRAM)
        with contextlib.suppress(OSError):
            os.utime(folder)
        return True
    except OSError:
        return False


def note(head, begun):
    """Notes what the program was built from; a file that was changed since it began is newer than the note."""
    put(BUILT, head + "\n")
    os.utime(BUILT, (begun, begun))


def build(head):
    """Proves and builds the program; the status."""
    begun = time.time()
    if not shutil.which("rt"):
        say("the command rt of the Rattle kit is not on the path, and the first use proves and builds the program with it")
        return 1
    was_clean = is_clean(head)
    shutil.rmtree(ROOM, ignore_errors=True)
    kit = subprocess.run(["rt", "version"], stdin=subprocess.DEVNULL, stdout=subprocess.PIPE, check=True).stdout
    try:
        sources = Sources(kit)
        cache = cache_of(sources)
        if take(cache):
            note(head, begun)
            say(f"took the program that was proved before from {cache}")
            return 0
        put(LOG, "")
        sources.take_copy()
        work = Work(sources)
        if TOOL not in work.done:
            say("proving and building the program")
        failed = work.run()
    finally:
        shutil.rmtree(ROOM, ignore_errors=True)
    if failed:
        say(f"the program was not built: {failed} was not proved; {LOG} says why")
        return 1
    note(head, begun)
    if was_clean and is_clean(head):
        keep(cache_of(sources))
    return 0


def stopped(*_):
    """Ends the work, once."""
    for number in ENDS:
        signal.signal(number, signal.SIG_IGN)
    raise Ended


def is_current(head):
    """Whether the program is there and was built from this commit, and no source was changed since."""
    if text_of(BUILT).strip() != head or not os.access(PROGRAM, os.X_OK):
        return False
    places = [f"crates/{crate}/{part}" for crate in listed() for part in PARTS]
    words = ["find", "crates.txt", *[it for it in places if os.path.isdir(os.path.join(TOP, it))], "-newer", BUILT]
    return subprocess.run(words, cwd=TOP, stdout=subprocess.PIPE, check=False).stdout == b""


def main():
    """Builds what isn't there and runs it."""
    head, words = sys.argv[1], sys.argv[2:]
    for number in ENDS:
        signal.signal(number, stopped)
    try:
        lock = os.open(os.path.join(TOP, "crates"), os.O_RDONLY)
        try:
            fcntl.flock(lock, fcntl.LOCK_EX | fcntl.LOCK_NB)
        except BlockingIOError:
            say("another first use is at work in this checkout; waiting for it")
            fcntl.flock(lock, fcntl.LOCK_EX)
        except OSError:
            pass  # some file systems have no locks
        os.makedirs(OUT, exist_ok=True)
        status = 0 if is_current(head) else build(head)
        os.close(lock)
    except Ended:
        say("ended; what was proved is kept, and the next use goes on from there")
        sys.exit(130)
    except (OSError, subprocess.CalledProcessError) as error:
        say(f"the program was not built: {error}")
        sys.exit(1)
    if status:
        sys.exit(status)
    for number in (*ENDS, signal.SIGPIPE, signal.SIGXFSZ):
        signal.signal(number, signal.SIG_DFL)
    os.execv(PROGRAM, [PROGRAM, *words])


main()
