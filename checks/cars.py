"""CARs that go from one folder to another: a folder of the host is added, exported, imported and compared, a byte of it is
changed, and blocks are lost.

The word says how many files the folder has: two hundred where it isn't given.
"""

import base64
import os
import shutil
import subprocess
import sys
import tempfile


def places(car):
    """Where the sections of a CAR begin, and where it ends."""
    found, place = [], 59
    while place < len(car):
        found.append(place)
        size = shift = 0
        while True:
            byte = car[place]
            size |= (byte & 127) << shift
            shift += 7
            place += 1
            if byte < 128:
                break
        place += size
    return found + [place]


def cid_text(car, place):
    """The text of the CID of the section that begins here."""
    while car[place] > 127:
        place += 1
    return "b" + base64.b32encode(car[place + 1:place + 37]).decode().lower().rstrip("=")


class Cars:
    """Two folders with a store each, and what was compared."""

    def __init__(self, program, folder, files):
        self.program = program
        self.folder = folder
        self.files = files
        self.count = self.wrong = 0
        for name in ("from", "to", "spoiled"):
            os.mkdir(os.path.join(folder, name))

    def run(self, where, words, data=b""):
        """The status of a command in a folder, and what it prints on standard output and on standard error."""
        done = subprocess.run(
            [self.program, *words.split()], cwd=os.path.join(self.folder, where), input=data,
            stdout=subprocess.PIPE, stderr=subprocess.PIPE, timeout=60 + self.files // 20, check=False)
        return done.returncode, done.stdout, done.stderr.decode()

    def expect(self, name, got, wanted):
        """Compares what came with what is wanted."""
        self.count += 1
        if got != wanted:
            self.wrong += 1
            print(f"cars: {name}\n  wanted: {wanted!r:.300}\n  got:    {got!r:.300}")

    def blocks(self, where):
        """The paths of the files of blocks in a folder, by their CIDs."""
        top = os.path.join(self.folder, where, ".unixfs", "blocks")
        return {name: os.path.join(folder, name) for folder, _, names in os.walk(top) for name in names}

    def lose(self, where, cid, words, line, data=b""):
        """A block is lost: the command is refused, and nothing is printed."""
        path = self.blocks(where)[cid]
        shutil.move(path, path + "-kept")
        self.expect(f"{where}: lost {cid}", self.run(where, words, data), (4, b"", line))
        shutil.move(path + "-kept", path)

    def compare(self, root, car, last):
        """A folder is compared with a CAR: they are equal, a byte differs, or a block is lost on either side."""
        words, before = f"dag same {root}", len(self.blocks("to"))
        for where in ("from", "to"):
            self.expect("same", self.run(where, words, car), (0, b"equal\n", ""))
            self.expect("differ", self.run(where, f"dag same {last}", car), (0, b"differ\n", ""))
        spoiled = car[:-1] + bytes([car[-1] ^ 1])
        status, printed, line = self.run("to", words, spoiled)
        self.expect("one byte differs", (status, printed, line.startswith("error: rule Car 5 ")), (1, b"", True))
        begin, end = places(car)[1:3]
        self.expect("lost in the CAR", self.run("to", words, car[:begin] + car[end:]),
                    (4, b"", f"error: missing {cid_text(car, begin)}\n"))
        self.lose("to", last, words, f"error: missing {last}\n", car)
        self.expect("nothing is kept", len(self.blocks("to")), before)

    def add(self):
        """The CIDs of a folder of the host that was added, and of its first file."""
        folder = os.path.join(self.folder, "from", "files")
        os.mkdir(folder)
        for number in range(self.files):
            with open(os.path.join(folder, str(number)), "wb") as file:
                file.write(b"%d " % number * 300)
        self.expect("init", self.run("from", "init --chunk 1024 --threshold 4096"), (0, b"", ""))
        status, rows, line = self.run("from", "add -r files")
        cids = [row.split()[1].decode() for row in rows.splitlines()]
        self.expect("add", (status, len(cids), line), (0, self.files + 1, ""))
        return cids[-1], cids[0]

    def spoil(self):
        """Leaves of one length follow each other: where a byte of one differs, those before it are kept, and no other."""
        status, row, _ = self.run("from", "add", b"".join(b"%04d" % number * 256 for number in range(20)))
        root = row.split()[1].decode()
        _, car, _ = self.run("from", f"dag export {root}")
        begins = places(car)
        self.expect("a node and its leaves", (status, len(begins)), (0, 22))
        for number in range(1, 21):
            where = f"spoiled-{number}"
            os.mkdir(os.path.join(self.folder, where))
            at = begins[number + 1] - 1
            self.expect(f"leaf {number}", self.run(where, "dag import", car[:at] + bytes([car[at] ^ 1]) + car[at + 1:]),
                        (1, b"", f"error: rule Car 5 {begins[number]}\n"))
            self.expect(f"kept before leaf {number}", len(self.blocks(where)), number)

    def all(self):
        """A folder goes round."""
        root, last = self.add()
        status, car, line = self.run("from", f"dag export {root}")
        self.expect("export", (status, line), (0, ""))
        told = (0, f"root {root}\n".encode(), "")
        self.expect("import", self.run("to", "dag import", car), told)
        self.expect("import again", self.run("to", "dag import", car), told)
        self.expect("equal", self.run("to", f"dag export {root}"), (0, car, ""))
        spoiled = car[:-1] + bytes([car[-1] ^ 1])
        status, printed, line = self.run("spoiled", "dag import", spoiled)
        self.expect("one byte", (status, printed, line.startswith("error: rule Car 5 ")), (1, b"", True))
        self.expect("kept in front of it", len(self.blocks("spoiled")) + 1, len(self.blocks("to")))
        for where in ("from", "to"):
            self.lose(where, last, f"dag export {root}", f"error: missing {last}\n")
        self.compare(root, car, last)
        self.expect("whole again", self.run("to", f"dag export {root}"), (0, car, ""))
        self.spoil()


def main():
    """Runs the checks with the built program."""
    top = os.path.dirname(os.path.dirname(os.path.abspath(__file__)))
    subprocess.run([os.path.join(top, "unixfs"), "add", "-n"], stdin=subprocess.DEVNULL, stdout=subprocess.DEVNULL, check=True)
    with tempfile.TemporaryDirectory() as folder:
        files = int(sys.argv[1]) if len(sys.argv) > 1 else 200
        cars = Cars(os.path.join(top, "crates", "uf_tool", "out", "uf_tool"), folder, files)
        cars.all()
        print(f"cars: {cars.count - cars.wrong} passed, {cars.wrong} failed")
    sys.exit(1 if cars.wrong else 0)


main()
