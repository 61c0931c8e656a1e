"""A DAG that goes from one folder to another by `serve` and `pull`: through two named pipes and through a socket pair, then a
changed tree, of which only what is new is asked for; and peers that send other blocks, blocks twice, spoiled blocks, half a
frame, a frame that is too long, and frames that nobody asked for.

The word says how many files the tree has: two thousand where it isn't given.
"""

import base64
import hashlib
import os
import socket
import subprocess
import sys
import tempfile
import threading


def varint(number):
    """A number as its seven bits a byte."""
    made = b""
    while number > 127:
        made += bytes([number & 127 | 128])
        number >>= 7
    return made + bytes([number])


def text(cid):
    """The text of a CID."""
    return "b" + base64.b32encode(cid).decode().lower().rstrip("=")


def raw(block):
    """The CID of a raw block."""
    return b"\x01\x55\x12\x20" + hashlib.sha256(block).digest()


def frame(cid, block):
    """A frame that gives a block."""
    return b"\x01" + varint(36 + len(block)) + cid + block


def sections(car):
    """The CIDs and blocks of a CAR with one root, in order."""
    place, found = 59, []
    while place < len(car):
        size = shift = 0
        while True:
            byte = car[place]
            size |= (byte & 127) << shift
            shift += 7
            place += 1
            if byte < 128:
                break
        found.append((car[place:place + 36], car[place + 36:place + size]))
        place += size
    return found


class Pulls:
    """Folders with a store each, and what was compared."""

    def __init__(self, program, folder, files):
        self.program = program
        self.folder = folder
        self.files = files
        self.count = self.wrong = self.peers = 0
        for name in ("from", "to", "other"):
            os.mkdir(os.path.join(folder, name))

    def run(self, where, words, data=b""):
        """The status of a command in a folder, and what it prints on standard output and on standard error."""
        done = subprocess.run(
            [self.program, *words.split()], cwd=os.path.join(self.folder, where), input=data,
            stdout=subprocess.PIPE, stderr=subprocess.PIPE, timeout=120 + self.files // 20, check=False)
        return done.returncode, done.stdout, done.stderr.decode()

    def start(self, where, words, source, sink):
        """A command that was started in a folder over these streams."""
        return subprocess.Popen([self.program, *words.split()], cwd=os.path.join(self.folder, where), stdin=source,
                                stdout=sink, stderr=subprocess.PIPE)

    def expect(self, name, got, wanted):
        """Compares what came with what is wanted."""
        self.count += 1
        if got != wanted:
            self.wrong += 1
            print(f"pull: {name}\n  wanted: {wanted!r:.300}\n  got:    {got!r:.300}")

    def ends(self, name, *started):
        """Two commands end with 0 and no error line."""
        told = [(it.wait(timeout=120 + self.files // 20), it.stderr.read()) for it in started]
        self.expect(name, told, [(0, b"")] * len(started))

    def blocks(self, where):
        """How many blocks a folder has."""
        top = os.path.join(self.folder, where, ".unixfs", "blocks")
        return sum(len(names) for _, _, names in os.walk(top))

    def by_pipes(self, to, root):
        """A pull through two named pipes."""
        there, back = os.path.join(self.folder, "there"), os.path.join(self.folder, "back")
        for path in (there, back):
            os.mkfifo(path)
        pulled = subprocess.Popen(["sh", "-c", f"exec {self.program} pull {root} < {there} > {back}"],
                                  cwd=os.path.join(self.folder, to), stderr=subprocess.PIPE)
        served = subprocess.Popen(["sh", "-c", f"exec {self.program} serve > {there} < {back}"],
                                  cwd=os.path.join(self.folder, "from"), stderr=subprocess.PIPE)
        self.ends("two named pipes", pulled, served)
        for path in (there, back):
            os.remove(path)

    def by_sockets(self, to, root):
        """A pull through a socket pair."""
        here, there = socket.socketpair()
        pulled = self.start(to, f"pull {root}", here, here)
        served = self.start("from", "serve", there, there)
        here.close()
        there.close()
        self.ends("a socket pair", pulled, served)

    def wants(self, to, root):
        """A pull through pipes with a hand between them: the lines in which it asked."""
        asks, lines = os.pipe(), []
        served = self.start("from", "serve", asks[0], subprocess.PIPE)
        os.close(asks[0])
        pulled = self.start(to, f"pull {root}", served.stdout, subprocess.PIPE)

        def hand_on():
            for line in pulled.stdout:
                lines.append(line)
                os.write(asks[1], line)
            os.close(asks[1])

        hand = threading.Thread(target=hand_on)
        hand.start()
        self.ends("a hand between", pulled, served)
        hand.join()
        return lines

    def change(self, number, content):
        """A file of the host is written anew, and the root of what is added then."""
        with open(os.path.join(self.folder, "from", "files", str(number)), "wb") as file:
            file.write(content)
        status, rows, line = self.run("from", "add -r files")
        self.expect("add", (status, line), (0, ""))
        return rows.splitlines()[-1].split()[1].decode()

    def tree(self):
        """The root of a folder of the host that was added."""
        folder = os.path.join(self.folder, "from", "files")
        os.mkdir(folder)
        for number in range(1, self.files):
            with open(os.path.join(folder, str(number)), "wb") as file:
                file.write(b"%d " % number * 300)
        self.expect("init", self.run("from", "init --chunk 1024 --threshold 4096"), (0, b"", ""))
        return self.change(0, b"the first one")

    def alike(self, to, root):
        """Both folders export the same CAR."""
        status, car, line = self.run("from", f"dag export {root}")
        self.expect("export", (status, line), (0, ""))
        self.expect("alike", self.run(to, f"dag export {root}"), (0, car, ""))
        return sections(car)

    def peer(self, name, sent, cid, status, line, wants, held):
        """A peer that sends these bytes whatever is asked, to an empty store: the wants and the blocks that are held."""
        self.peers += 1
        where = f"peer{self.peers}"
        os.mkdir(os.path.join(self.folder, where))
        printed = b"".join(b"want %s\n" % text(it).encode() for it in wants) + b"done\n" * (status == 0)
        self.expect(name, self.run(where, f"pull {text(cid)}", sent), (status, printed, line))
        self.expect(f"{name}: held", self.blocks(where), held)

    def whole_peers(self, root, all_blocks, wants):
        """Peers that are worse than they need to be, and still send all blocks."""
        strange = frame(raw(b"strange"), b"strange")
        count = len(wants)
        self.peer("all blocks", b"".join(frame(*it) for it in all_blocks), root, 0, "", wants, count)
        self.peer("other blocks first", b"".join(strange + frame(*it) for it in all_blocks), root, 0, "", wants, count)
        self.peer("blocks twice", b"".join(frame(*it) * 2 for it in all_blocks), root, 0, "", wants, count)
        spoiled = b"".join(frame(cid, block[:-1] + bytes([block[-1] ^ 1])) + frame(cid, block) for cid, block in all_blocks)
        self.peer("spoiled blocks first", spoiled, root, 0, "", wants, count)
        self.peer("1024 frames", strange * 1024 + b"".join(frame(*it) for it in all_blocks), root, 0, "", wants, count)

    def bad_peers(self, root, all_blocks, wants):
        """Peers that end a pull, which keeps what came before."""
        strange = frame(raw(b"strange"), b"strange")
        first, second = frame(*all_blocks[0]), frame(*all_blocks[1])
        self.peer("1025 frames", strange * 1025 + first, root, 1, "error: rule PeerNoise\n", wants[:1], 0)
        self.peer("half a frame", first + second[:len(second) // 2], root, 1,
                  f"error: rule PeerEnded {text(wants[1])}\n", wants[:2], 1)
        self.peer("nothing", b"", root, 1, f"error: rule PeerEnded {text(root)}\n", wants[:1], 0)
        self.peer("3 MiB", first + frame(wants[1], bytes(3 << 20)), root, 1,
                  f"error: rule PeerBad {len(first)}\n", wants[:2], 1)
        self.peer("it lacks one", first + b"\x00" + wants[1], root, 1,
                  f"error: rule PeerLacks {text(wants[1])}\n", wants[:2], 1)

    def all(self):
        """A folder goes from one store to others."""
        root = self.tree()
        self.by_pipes("to", root)
        count = len(self.alike("to", root))
        self.expect("held", self.blocks("to"), count)
        self.by_sockets("other", root)
        self.alike("other", root)
        before = self.blocks("from")
        changed = self.change(7, b"another seventh one")
        new = self.blocks("from") - before
        lines = self.wants("to", changed)
        self.expect("only what is new is asked for", (len(set(lines)), len(lines)), (new + 1, new + 1))
        self.alike("to", changed)
        self.expect("nothing is asked for", self.wants("to", changed), [b"done\n"])
        small = self.run("from", "add", b"".join(b"%04d" % number for number in range(1280)))[1].split()[1].decode()
        all_blocks = sections(self.run("from", f"dag export {small}")[1])
        wants = [cid for cid, _ in all_blocks]
        self.whole_peers(wants[0], all_blocks, wants)
        self.bad_peers(wants[0], all_blocks, wants)


def main():
    """Runs the checks with the built program."""
    top = os.path.dirname(os.path.dirname(os.path.abspath(__file__)))
    subprocess.run([os.path.join(top, "unixfs"), "add", "-n"], stdin=subprocess.DEVNULL, stdout=subprocess.DEVNULL, check=True)
    with tempfile.TemporaryDirectory() as folder:
        files = int(sys.argv[1]) if len(sys.argv) > 1 else 2000
        pulls = Pulls(os.path.join(top, "crates", "uf_tool", "out", "uf_tool"), folder, files)
        pulls.all()
        print(f"pull: {pulls.count - pulls.wrong} passed, {pulls.wrong} failed")
    sys.exit(1 if pulls.wrong else 0)


main()
