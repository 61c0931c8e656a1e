"""Light proofs over the built program: of files of each shape, with modes, in directories in one block and in shards; cut at each
byte, with each byte changed, with sections in another order, too many, twice, or left out; beside many names; and of blocks
that another program would write.
"""

import base64
import hashlib
import os
import subprocess
import sys
import tempfile

HEADER = 59


def sections(car):
    """The sections of a CAR of one root, each as its bytes."""
    found, place = [], HEADER
    while place < len(car):
        begin, size, shift = place, 0, 0
        while True:
            byte = car[place]
            size |= (byte & 127) << shift
            shift += 7
            place += 1
            if byte < 128:
                break
        place += size
        found.append(car[begin:place])
    return found


def cid_text(section):
    """The text of the CID of a section."""
    place = next(at for at, byte in enumerate(section) if byte < 128) + 1
    return "b" + base64.b32encode(section[place:place + 36]).decode().lower().rstrip("=")


def number(value):
    """The varint of a number."""
    return (b"" if value < 128 else bytes([value & 127 | 128])) + (bytes([value]) if value < 128 else number(value >> 7))


def field(key, bytes_in):
    """A field of bytes in a message."""
    return bytes([key]) + number(len(bytes_in)) + bytes_in


def cid(codec, block):
    """The bytes of the CID of a block."""
    return bytes([1, codec, 0x12, 32]) + hashlib.sha256(block).digest()


def text_of(bytes_in):
    """The text of a CID."""
    return "b" + base64.b32encode(bytes_in).decode().lower().rstrip("=")


def link(name, codec, block, size):
    """A link of a node to a block."""
    return field(0x12, field(0x0A, cid(codec, block)) + field(0x12, name) + b"\x18" + number(size))


def car_of(root, blocks):
    """The CAR of some blocks, each with its codec, and the CID of a root."""
    header = bytes.fromhex("a265726f6f747381d82a582500") + cid(0x70, root) + bytes.fromhex("6776657273696f6e01")
    parts = [cid(codec, block) + block for codec, block in blocks]
    return b"".join(number(len(part)) + part for part in [header] + parts)


class Light:
    """A folder with a store, one without, and what was compared."""

    def __init__(self, program, folder):
        self.program = program
        self.folder = folder
        self.count = self.wrong = 0
        os.mkdir(os.path.join(folder, "nothing"))

    def run(self, where, words, data=b""):
        """The status of a command in a folder, and what it prints on standard output and on standard error."""
        done = subprocess.run(
            [self.program, *words.split()], cwd=os.path.join(self.folder, where), input=data,
            stdout=subprocess.PIPE, stderr=subprocess.PIPE, timeout=60, check=False)
        return done.returncode, done.stdout, done.stderr.decode()

    def expect(self, name, got, wanted):
        """Compares what came with what is wanted."""
        self.count += 1
        if got != wanted:
            self.wrong += 1
            print(f"light: {name}\n  wanted: {wanted!r:.300}\n  got:    {got!r:.300}")

    def store(self, where, options=""):
        """Another folder with a store."""
        os.mkdir(os.path.join(self.folder, where))
        self.expect(f"{where}: init", self.run(where, f"init {options}"), (0, b"", ""))

    def root(self, where):
        """The CID of the root of a folder's tree."""
        return self.run(where, "files stat /")[1].split()[0].decode()

    def proof(self, where, path, wanted):
        """The proof of a file, which its check writes out in a folder without a store."""
        status, car, line = self.run(where, f"prove {path}")
        self.expect(f"{where}: prove {path}", (status, line), (0, ""))
        self.expect(f"{where}: check {path}", self.check(where, path, car), (0, wanted, ""))
        return car

    def check(self, where, path, car):
        """What is said of a CAR as the proof of a path of a folder's tree."""
        return self.run("nothing", f"check {self.root(where)} {path}", car)

    def refuse(self, name, where, path, car):
        """A CAR is refused: by a rule or since a block is missing, and nothing is written."""
        status, printed, line = self.check(where, path, car)
        self.expect(name, (status in (1, 4), printed, line.startswith("error: ")), (True, b"", True))

    def shapes(self):
        """Files of no, one and more pieces, up to three rows of nodes, without and with a mode, in a folder of a folder."""
        for name, options in (("basic", "--chunk 2 --width 2"), ("sharded", "--chunk 2 --width 2 --threshold 0")):
            self.store(name, options)
            self.expect(f"{name}: mkdir", self.run(name, "files mkdir -p /a/b"), (0, b"", ""))
            for length in (0, 1, 2, 3, 4, 5, 8, 9, 16, 24):
                wanted = bytes(range(65, 65 + length))
                path = f"/a/b/{length}"
                self.expect(f"{name}: write", self.run(name, f"files write -e {path}", wanted), (0, b"", ""))
                self.proof(name, path, wanted)
                self.expect(f"{name}: chmod", self.run(name, f"files chmod 640 {path}"), (0, b"", ""))
                self.proof(name, path, wanted)

    def spoiled(self):
        """A proof that is cut at each byte, and one of which each byte is changed."""
        wanted = bytes(range(65, 70))
        car = self.proof("basic", "/a/b/5", wanted)
        parts, ends = sections(car), {HEADER: 0}
        for part in parts:
            ends[max(ends) + len(part)] = len(ends)
        for at in range(len(car)):
            if at in ends:
                line = f"error: missing {cid_text(parts[ends[at]])}\n"
                self.expect(f"cut at {at}", self.check("basic", "/a/b/5", car[:at]), (4, b"", line))
            else:
                self.refuse(f"cut at {at}", "basic", "/a/b/5", car[:at])
        for at in range(len(car)):
            self.refuse(f"changed at {at}", "basic", "/a/b/5", car[:at] + bytes([car[at] ^ 1]) + car[at + 1:])

    def arranged(self):
        """Sections in another order, too many, twice, and left out one at a time."""
        path, wanted = "/a/b/9", bytes(range(65, 74))
        car = self.proof("basic", path, wanted)
        other = sections(self.proof("basic", "/a/b/24", bytes(range(65, 89))))
        head, parts = car[:HEADER], sections(car)
        for name, found in (("other order", parts[::-1]), ("too many", other + parts), ("twice", parts + parts)):
            self.expect(name, self.check("basic", path, head + b"".join(found)), (0, wanted, ""))
        for place, part in enumerate(parts):
            left = b"".join(parts[:place] + parts[place + 1:])
            line = f"error: missing {cid_text(part)}\n"
            self.expect(f"without section {place}", self.check("basic", path, head + left), (4, b"", line))

    def refused(self):
        """What is no file, not there, behind a file, or below another root; and what is there where nothing should be."""
        car = self.proof("basic", "/a/b/5", bytes(range(65, 70)))
        rows = (
            ("prove /a/b", "IsADirectory /a/b"), ("prove /", "IsADirectory /"), ("prove /a/x/y", "NotFound /a/x"),
            ("prove /a/b/5/x", "NotADirectory /a/b/5"), ("prove --absent /a/b/5", "Exists /a/b/5"),
            ("prove --absent /a", "Exists /a"))
        for words, rule in rows:
            self.expect(words, self.run("basic", words), (1, b"", f"error: rule {rule}\n"))
        root, other = self.root("basic"), self.root("sharded")
        rows = (
            (f"check {root} /a/b", "IsADirectory /a/b"), (f"check {root} /a/b/5/x", "NotADirectory /a/b/5"),
            (f"check {root} /a/b/x", "NotFound /a/b/x"), (f"check --absent {root} /a/b/5", "Exists /a/b/5"),
            (f"check {other} /a/b/5", f"OtherRoot {root}"))
        for words, rule in rows:
            self.expect(words, self.run("nothing", words, car), (1, b"", f"error: rule {rule}\n"))
        self.expect("nothing was kept", os.listdir(os.path.join(self.folder, "nothing")), [])

    def many(self):
        """One name of many in shards, and one that isn't there."""
        self.store("many", "--threshold 0")
        lines = "".join(f"files write -e -x {number:04x} /n{number}\n" for number in range(300))
        self.expect("batch", self.run("many", "batch", lines.encode()), (0, b"[0]\n" * 300, ""))
        for number in (0, 17, 299):
            car = self.proof("many", f"/n{number}", number.to_bytes(2, "big"))
            self.expect("few sections", len(sections(car)) <= 9, True)
        status, car, line = self.run("many", "prove --absent /n300")
        self.expect("absent", (status, line), (0, ""))
        words = f"check --absent {self.root('many')} /n300"
        self.expect(words, self.run("nothing", words, car), (0, b"absent /n300\n", ""))

    def foreign(self):
        """Blocks that are whole, but aren't what this program writes in their roles: nothing is said of such a tree."""
        data, leaf = field(0x0A, b"\x08\x01"), b"hello"
        entry = link(b"f", 0x55, leaf, 5)
        root = data + entry
        for words in ("check {} /f", "check --absent {} /x"):
            self.blame(words, root, [(0x70, root), (0x55, leaf)], (0x70, root), "directory")
        part = field(0x0A, b"\x08\x02" + field(0x12, leaf) + b"\x18\x05")
        node = 2 * link(b"", 0x70, part, len(part)) + field(0x0A, b"\x08\x02\x18\x0A\x20\x05\x20\x05")
        root = link(b"f", 0x70, node, len(node) + 2 * len(part)) + data
        self.blame("check {} /f", root, [(0x70, root), (0x70, node), (0x70, part)], (0x70, part), "node")
        node = 2 * link(b"", 0x55, leaf, 5) + field(0x0A, b"\x08\x02\x18\x09\x20\x05\x20\x04")
        root = link(b"f", 0x70, node, len(node) + 10) + data
        self.blame("check {} /f", root, [(0x70, root), (0x70, node), (0x55, leaf)], (0x55, leaf), "leaf")

    def blame(self, words, root, blocks, bad, role):
        """A check of a CAR ends with the block that isn't canonical in its role, and writes nothing."""
        line = f"error: bad block {text_of(cid(*bad))} {role}\n"
        words = words.format(text_of(cid(0x70, root)))
        self.expect(words, self.run("nothing", words, car_of(root, blocks)), (5, b"", line))

    def all(self):
        """All of them."""
        self.shapes()
        self.spoiled()
        self.arranged()
        self.refused()
        self.many()
        self.foreign()


def main():
    """Runs the checks with the built program."""
    top = os.path.dirname(os.path.dirname(os.path.abspath(__file__)))
    subprocess.run([os.path.join(top, "unixfs"), "add", "-n"], stdin=subprocess.DEVNULL, stdout=subprocess.DEVNULL, check=True)
    with tempfile.TemporaryDirectory() as folder:
        light = Light(os.path.join(top, "crates", "uf_tool", "out", "uf_tool"), folder)
        light.all()
        print(f"light: {light.count - light.wrong} passed, {light.wrong} failed")
    sys.exit(1 if light.wrong else 0)


main()
