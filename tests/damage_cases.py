"""Lays images and damages of them, field by field, and reads the cases in the folder `damages`.

A case is a text of lines: first a sentence that says the damage, then

    image NAME                  the image that is damaged, in `damages/images`
    new BLOCKS INODES           or an image of zeros with the superblock of the first mount; `images` begin so
    super FIELD VALUE ..        fields of a structure: of the superblock,
    record INODE FIELD VALUE ..                        of the record of an inode,
    tag BLOCK FIELD VALUE ..                           of the tag of a block,
    entry BLOCK PLACE FIELD VALUE ..                   of an entry in a block of a directory
    pointer BLOCK PLACE BLOCK,STAMP      a pointer in a block of pointers
    bytes BLOCK OFFSET HEX      bytes of a cell, whose tag begins at 1024; `HEX*N` is N times these
    device BLOCKS               the image is served on a device of so many blocks: a mirror of two files

and the runs, each `COMMAND` or `COMMAND, status N`, a session's commands behind `> ` and the lines that come behind `= `.
A value is a sum of terms: a number, `S` (2^40), `2^N`; a name is hexadecimal. A byte of a line that is no letter, digit or sign stands as `\\xHH`.
"""
import os
import re
import struct
from typing import NamedTuple

from nofs.format import CELL, PAYLOAD

S = 1 << 40
FOLDER = os.path.join(os.path.dirname(os.path.abspath(__file__)), "damages")
IMAGES = os.path.join(FOLDER, "images")

SUPER = {"magic": (0, 8), "version": (8, 4), "zero": (12, 4), "blocks": (16, 8), "inodes": (24, 8), "mount": (32, 8)}
TAG = {"kind": (0, 4), "inode": (4, 4), "generation": (8, 8), "slot": (16, 8), "stamp": (24, 8)}
RECORD = {"generation": (0, 8), "kind": (8, 4), "links": (12, 4), "size": (16, 8), "zero": (24, 8)}
RECORD.update({f"link{place}": (32 + 16 * place, 4, 4, 8) for place in range(4)})
RECORD.update({f"direct{place}": (96 + 16 * place, 8, 8) for place in range(8)})
RECORD.update({"leaf": (224, 8, 8), "top": (240, 8, 8)})
ENTRY = {"inode": (0, 4), "length": (4, 4), "generation": (8, 8)}
CODES = {4: "<I", 8: "<Q"}


def number(text):
    """The value of a sum of terms."""
    total = 0
    for sign, term in re.findall(r"([+-]?)([^+-]+)", text):
        power = re.fullmatch(r"2\^(\d+)", term)
        value = S if term == "S" else 2 ** int(power.group(1)) if power else int(term)
        total += -value if sign == "-" else value
    return total


def spelled(sizes, text):
    """The bytes of a field: numbers of these sizes."""
    return b"".join(struct.pack(CODES[size], number(part)) for size, part in zip(sizes, text.split(","), strict=True))


def digits(text):
    """The bytes of HEX or HEX*N."""
    word, _, times = text.partition("*")
    return bytes.fromhex(word) * int(times or 1)


def shown(line):
    """The bytes of a line as a case writes them."""
    return "".join(chr(byte) if 32 <= byte < 127 and byte != 92 else f"\\x{byte:02x}" for byte in line)


def meant(text):
    """The bytes that a case means."""
    return re.sub(rb"\\x(..)", lambda found: bytes.fromhex(found.group(1).decode()), text.encode())


class Laying:
    """The cells of an image, to be laid and damaged."""

    def __init__(self, data=b""):
        self.data = bytearray(data)

    def put(self, block, at, data):
        first = block * CELL + at
        missing = first + len(data) - len(self.data)
        self.data += bytes(max(missing, 0) + CELL - 1)
        self.data[first:first + len(data)] = data
        del self.data[len(self.data) // CELL * CELL:]

    def fields(self, block, at, table, words):
        for field, value in zip(words[::2], words[1::2], strict=True):
            place, *sizes = table[field]
            self.put(block, at + place, spelled(sizes, value))

    def new(self, blocks, inodes):
        self.data = bytearray(CELL * int(blocks))
        self.put(0, 0, b"NoFSv001")
        self.fields(0, 0, SUPER, ["version", "1", "blocks", blocks, "inodes", inodes, "mount", "1"])
        self.fields(0, PAYLOAD, TAG, ["kind", "5"])
        for block in range(1, 1 + int(inodes) // 4):
            self.fields(block, PAYLOAD, TAG, ["kind", "4", "slot", str(block)])

    def super(self, *words):
        self.fields(0, 0, SUPER, words)

    def record(self, inode, *words):
        block, place = divmod(int(inode) - 1, 4)
        self.fields(1 + block, 256 * place, RECORD, words)

    def tag(self, block, *words):
        self.fields(int(block), PAYLOAD, TAG, words)

    def entry(self, block, place, *words):
        pairs = dict(zip(words[::2], words[1::2], strict=True))
        if "name" in pairs:
            self.put(int(block), 64 * int(place) + 16, digits(pairs.pop("name")).ljust(48, b"\0"))
        self.fields(int(block), 64 * int(place), ENTRY, [word for pair in pairs.items() for word in pair])

    def pointer(self, block, place, pointer):
        self.put(int(block), 16 * int(place), spelled((8, 8), pointer))

    def bytes(self, block, at, word):
        self.put(int(block), int(at), digits(word))

    def image(self, name):
        with open(os.path.join(IMAGES, name), encoding="utf-8") as file:
            self.lay(file.read().splitlines()[1:])

    def lay(self, lines):
        """Lays each line that isn't empty."""
        for line in lines:
            if line.strip():
                word, *rest = line.split()
                getattr(self, word)(*rest)


class Run(NamedTuple):
    """A command of the program, its session, and what has to come."""
    words: list
    status: int
    session: list
    lines: list


class Case(NamedTuple):
    name: str
    says: str
    data: bytes
    device: int
    runs: list


def image(name):
    """The bytes of an image in `damages/images`."""
    laying = Laying()
    laying.image(name)
    return bytes(laying.data)


def read_case(name):
    """The case in a file."""
    with open(os.path.join(FOLDER, name), encoding="utf-8") as file:
        says, *lines = file.read().splitlines()
    laying, runs, device = Laying(), [], 0
    for line in lines:
        if line.startswith("> "):
            runs[-1].session.append(meant(line[2:]))
        elif line.startswith("= "):
            runs[-1].lines.append(meant(line[2:]))
        elif re.match("(scan|run|salvage)\\b", line):
            words, _, status = line.partition(", status ")
            runs.append(Run(words.split(), int(status or 0), [], []))
        elif line.startswith("device "):
            device = int(line.split()[1])
        else:
            laying.lay([line])
    return Case(name, says, bytes(laying.data), device, runs)


def all_cases():
    return [read_case(name) for name in sorted(os.listdir(FOLDER)) if os.path.isfile(os.path.join(FOLDER, name))]
