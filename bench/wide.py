#!/usr/bin/env python3
"""Makes a store, in an empty folder, of a root directory with many names, each that of the empty directory.

    wide.py FOLDER COUNT

It writes the files itself, since one run of the program for each name would take minutes: the blocks of the shards (UnixFS
v1's HAMT of fanout 256 over MurmurHash3 x64 128), and the Head with the usual profile. So the root has to weigh more than the
threshold: 6097 names, of seven bytes each, are the fewest that do.
"""
import base64
import hashlib
import os
import sys

ONES = 2**64 - 1
HEAD = "unixfs-head 1\nchunk 262144\nwidth 174\nthreshold 262144\nroot {}\n"


def rotated(number, by):
    return (number << by | number >> 64 - by) & ONES


def mixed(number):
    number = (number ^ number >> 33) * 0xFF51AFD7ED558CCD & ONES
    number = (number ^ number >> 33) * 0xC4CEB9FE1A85EC53 & ONES
    return number ^ number >> 33


def name64(name):
    """The first half of the hash of a name of at most eight bytes."""
    number = int.from_bytes(name, "little") * 0x87C37B91114253D5 & ONES
    first = rotated(number, 31) * 0x4CF5AD432745937F & ONES ^ len(name)
    second = len(name)
    first = first + second & ONES
    second = second + first & ONES
    return mixed(first) + mixed(second) & ONES


def varint(number):
    some = bytearray()
    while number > 127:
        some.append(number & 127 | 128)
        number >>= 7
    return bytes(some) + bytes([number])


def field(key, content):
    return bytes([key]) + varint(len(content)) + content


class Store:
    def __init__(self, folder):
        self.folder = os.path.join(folder, ".unixfs")

    def save(self, block):
        """Keeps a node, and gives its CID and that as text."""
        cid = bytes([1, 0x70, 0x12, 0x20]) + hashlib.sha256(block).digest()
        text = "b" + base64.b32encode(cid).decode().lower().rstrip("=")
        folder = os.path.join(self.folder, "blocks", text[-2:])
        os.makedirs(folder, exist_ok=True)
        with open(os.path.join(folder, text), "wb") as file:
            file.write(block)
        return cid, text

    def shard(self, names, level, member):
        """Keeps the shards over names and their hashes, and gives the CID, the Tsize and the text of the upper one."""
        slots = {}
        for name, number in names:
            slots.setdefault(number >> 56 - 8 * level & 255, []).append((name, number))
        block, below, bits = b"", 0, 0
        for slot in sorted(slots):
            bits |= 1 << slot
            label, (cid, size) = b"%02X" % slot, member
            if len(slots[slot]) == 1:
                label += slots[slot][0][0]
            else:
                cid, size, _ = self.shard(slots[slot], level + 1, member)
            block += field(0x12, field(0x0A, cid) + field(0x12, label) + b"\x18" + varint(size))
            below += size
        met = bits.to_bytes((bits.bit_length() + 7) // 8, "big")
        block += field(0x0A, b"\x08\x05" + field(0x12, met) + b"\x28\x22\x30\x80\x02")
        cid, text = self.save(block)
        return cid, len(block) + below, text


def main():
    folder, count = sys.argv[1], int(sys.argv[2])
    store = Store(folder)
    empty = b"\x0a\x02\x08\x01"
    member = store.save(empty)[0], len(empty)
    names = [b"n%06d" % number for number in range(count)]
    _, _, text = store.shard([(name, name64(name)) for name in names], 0, member)
    with open(os.path.join(store.folder, "head"), "w", encoding="ascii") as file:
        file.write(HEAD.format(text))


main()
