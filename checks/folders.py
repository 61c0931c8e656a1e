"""Puts a folder of many files into the tree by one command, over the disk, and looks at what the tree has then.

The folder `pub` has N files with names of 24 bytes, and a directory is in shards from some 90 in a hundred of them on. It
must come with N + 1 rows, the last one for `pub` itself; the tree lists its names in the order of their bytes, and says
the CID of the last row. Then batches remove, write, move and make files, across that weight and back, while the host's
folder is changed in the same way: `add -r -n` of it must say the CID that the tree has, after each batch. N is the first
word, 500 where none is given; 10000 takes some minutes.

A file of as many pieces as may be is hashed, and one of a piece more is refused: by `add -n`, and, where a second word is
given, by `add`, which keeps the pieces and takes minutes.
"""

import os
import random
import subprocess
import sys
import tempfile


def run(program, folder, *words, data=""):
    """What a command prints; it has to be done."""
    done = subprocess.run([program, *words], cwd=folder, input=data, capture_output=True, text=True, check=False)
    if done.returncode != 0 or done.stderr:
        sys.exit(f"folders: {' '.join(words)}: {done.returncode} {done.stderr}")
    return done.stdout


class Pair:
    """The folder `pub` of the host and the directory `/pub` of the tree, which are changed in the same way."""

    def __init__(self, program, folder):
        self.program = program
        self.folder = folder
        self.lines = []

    def path(self, name):
        """The path of a file of the host."""
        return os.path.join(self.folder, "pub", name)

    def write(self, name, text):
        """Writes a file anew, which is made where it isn't there."""
        with open(self.path(name), "w", encoding="ascii") as file:
            file.write(text)
        self.lines.append(f"files write -e -t -x {text.encode().hex()} /pub/{name}")

    def put(self, name, place, text):
        """Writes into a file at a place."""
        with open(self.path(name), "r+", encoding="ascii") as file:
            file.seek(place)
            file.write(text)
        self.lines.append(f"files write -o {place} -x {text.encode().hex()} /pub/{name}")

    def move(self, name, other):
        """Moves a file to another name, of which there may be one."""
        os.replace(self.path(name), self.path(other))
        self.lines.append(f"files mv /pub/{name} /pub/{other}")

    def remove(self, name):
        """Takes a file away."""
        os.remove(self.path(name))
        self.lines.append(f"files rm /pub/{name}")

    def compare(self):
        """Does what was written down by one batch, and compares the CIDs of the two."""
        lines, self.lines = self.lines, []
        told = run(self.program, self.folder, "batch", data="".join(line + "\n" for line in lines))
        assert told == "[0]\n" * len(lines), told
        row = run(self.program, self.folder, "add", "-r", "-n", "pub").splitlines()[-1]
        stat = run(self.program, self.folder, "files", "stat", "/pub").splitlines()
        assert stat[0] == row.split(" ")[1], (stat, row)
        return len(lines)


def change(pair, names):
    """Changes files of the two, and says by how many lines."""
    fifth, tenth = len(names) // 5, len(names) // 10
    for name in names[:fifth]:
        pair.remove(name)
    for name in names[fifth:fifth + tenth // 2]:
        pair.put(name, 3, "other bytes")
    for name, other in zip(names[fifth + tenth // 2:fifth + tenth], names[-tenth:]):
        pair.move(name, other)
    pair.move(names[-1], "first")
    count = pair.compare()
    for name in names[:fifth]:
        pair.write(name + "x", name)
    pair.move("first", names[0])
    return count + pair.compare()


def many(program, folder, count):
    """A folder that is put into the tree, and changed."""
    drawn = random.Random(count)
    names = [f"{number:08d}{drawn.randrange(16 ** 16):016x}" for number in range(count)]
    drawn.shuffle(names)
    os.mkdir(os.path.join(folder, "pub"))
    for name in names:
        with open(os.path.join(folder, "pub", name), "w", encoding="ascii") as file:
            file.write(name[:5])
    run(program, folder, "init", "--threshold", str(54 * count))
    rows = run(program, folder, "add", "-r", "--to-files", "/pub", "pub").splitlines()
    assert len(rows) == count + 1, len(rows)
    assert [row.split(" ")[2] for row in rows[:-1]] == [f"pub/{name}" for name in sorted(names)]
    assert rows[-1].split(" ")[2] == "pub"
    assert run(program, folder, "files", "ls", "/pub").splitlines() == sorted(names)
    stat = run(program, folder, "files", "stat", "/pub").splitlines()
    assert stat[0] == rows[-1].split(" ")[1], stat
    assert run(program, folder, "add", "-r", "-n", "pub").splitlines() == rows
    return change(Pair(program, folder), names)


def longest(program, folder, words):
    """A file of as many pieces as may be is hashed, and one of a piece more is refused by each of these commands."""
    path = os.path.join(folder, "long")
    run(program, folder, "init", "--chunk", "1")
    with open(path, "wb") as file:
        file.truncate(4194304)
    assert run(program, folder, "add", "-n", "long").endswith(" long\n")
    os.truncate(path, 4194305)
    for options in words:
        done = subprocess.run([program, "add", *options, "long"], cwd=folder, capture_output=True, text=True, check=False)
        told = done.returncode, done.stdout, done.stderr
        assert told == (1, "", "error: rule FileTooLong\n"), told


def main():
    count = int(sys.argv[1]) if len(sys.argv) > 1 else 500
    program = os.path.abspath("unixfs")
    with tempfile.TemporaryDirectory() as folder:
        lines = many(program, folder, count)
    with tempfile.TemporaryDirectory() as folder:
        longest(program, folder, [["-n"], []] if len(sys.argv) > 2 else [["-n"]])
    print(f"folders: {count} files are put into the tree, and changed by {lines} lines")


main()
