#!/usr/bin/env python3
"""Lists a directory of a NoFS image, puts a file into it and gets one, by frames (docs/FORMAT.md, "Frames").

    tools/nofs/client.py ./nofs disk.img list /
    tools/nofs/client.py ./nofs disk.img put /notes notes.txt
    tools/nofs/client.py ./nofs disk.img get /notes

The program serves frames as `NOFS IMAGE wire` over its standard input and output. `get` writes the bytes to standard output.

Status: 0 done, 1 refused, 2 wrong words, 3 the program ended.
"""
import argparse
import struct
import subprocess
import sys

LOOK, MAKE, LINK, DROP, RENAME, LIST, GET, PUT, RESIZE, STAT, FLUSH, SEE_INODE, SEE_BLOCK = range(1, 14)
FILE, FOLDER = 1, 2
MISSING, FULL, INODES_FULL = 1, 15, 16
ROOT = (1, 1)
SLOT = 1024


class Refused(Exception):
    """A step was refused: its number, and the values that it keeps."""

    def __init__(self, body):
        self.number = body[0]
        self.kept = struct.unpack(f"<{len(body) // 8}Q", body[1:]) if len(body) % 8 == 1 else struct.unpack("<I", body[1:])
        super().__init__(f"refused {self.number}" + "".join(f" {value}" for value in self.kept))


class Ended(Exception):
    """The program ended before its reply was whole."""


def frame(body):
    return struct.pack("<I", len(body)) + body


def read_frame(stream):
    """The body of the next frame of a stream; None where the stream ends before it is whole."""
    head = stream.read(4)
    length = struct.unpack("<I", head)[0] if len(head) == 4 else 0
    body = stream.read(length)
    return body if len(head) == 4 and len(body) == length else None


class Wire:
    """A program that serves frames: each step is answered before the next one is sent."""

    def __init__(self, nofs, image):
        self.program = subprocess.Popen([nofs, image, "wire"], stdin=subprocess.PIPE, stdout=subprocess.PIPE)

    def close(self):
        """Ends the stream, and gives the program's status."""
        with self.program:
            self.program.stdin.close()
        return self.program.returncode

    def ask(self, kind, rest):
        """Sends one step, and gives the fields of its reply."""
        self.program.stdin.write(frame(bytes([kind]) + rest))
        self.program.stdin.flush()
        body = read_frame(self.program.stdout)
        if body is None:
            raise Ended("the program ended")
        if body[0]:
            raise Refused(body)
        return body[1:]

    def claim(self, kind, rest):
        """A step that may need a free block or inode: while none is known, the least unknown one is examined."""
        while True:
            try:
                return self.ask(kind, rest)
            except Refused as refused:
                if refused.number not in (FULL, INODES_FULL) or refused.kept[-2] == 0:
                    raise
                full = refused.number == FULL
                self.ask(SEE_BLOCK if full else SEE_INODE, struct.pack("<Q" if full else "<I", refused.kept[-1]))


def handle(at):
    return struct.pack("<IQ", *at)


def named(name):
    return bytes([len(name)]) + name


def look(wire, path):
    """The file or directory of a path: inode, generation and kind."""
    at, kind = ROOT, FOLDER
    for name in path.encode().split(b"/"):
        if name:
            *at, kind = struct.unpack("<IQB", wire.ask(LOOK, handle(at) + named(name)))
    return at, kind


def list(wire, path):
    """The names of a directory, each with its kind and whether it is dead; None stands for a slot that is lost."""
    at, slot, names = look(wire, path)[0], 0, []
    while True:
        fields = wire.ask(LIST, handle(at) + struct.pack("<Q", slot))
        if fields[0] == 3:
            return names
        slot = struct.unpack_from("<Q", fields, 1)[0] + 1
        names += lines(fields) if fields[0] == 1 else [None]


def lines(fields):
    place = 10
    for _ in range(fields[9]):
        kind, dead, length = fields[place:place + 3]
        yield fields[place + 3:place + 3 + length], kind, bool(dead)
        place += 3 + length


def put(wire, path, data):
    """Makes a file hold just these bytes, durably. Its directory has to be there."""
    folder, _, name = path.rpartition("/")
    try:
        at = look(wire, path)[0]
    except Refused as refused:
        if refused.number != MISSING:
            raise
        at = struct.unpack("<IQ", wire.claim(MAKE, handle(look(wire, folder)[0]) + named(name.encode()) + bytes([FILE])))
    wire.ask(RESIZE, handle(at) + struct.pack("<Q", 0))
    for slot, place in enumerate(range(0, len(data), SLOT)):
        wire.claim(PUT, handle(at) + struct.pack("<QI", slot, 0) + data[place:place + SLOT])
    wire.ask(FLUSH, handle(at))


def get(wire, path):
    """The bytes of a file: holes and lost slots are zeros. Beside them the numbers of the slots that are lost."""
    at, data, lost = look(wire, path)[0], b"", []
    size = struct.unpack("<BQI", wire.ask(STAT, handle(at)))[1]
    for slot in range(-(-size // SLOT)):
        fields = wire.ask(GET, handle(at) + struct.pack("<Q", slot))
        data += fields[1:] if fields[0] == 1 else bytes(SLOT)
        lost += [slot] if fields[0] == 3 else []
    return data[:size], lost


def run(wire, command, path, *words):
    """Does one command of the command line, and gives its status."""
    if command == "list":
        for line in list(wire, path):
            print("lost slot" if line is None else ("dead " * line[2]) + line[0].decode("utf-8", "replace") + "/" * (line[1] == FOLDER))
    elif command == "put":
        with open(words[0], "rb") as file:
            put(wire, path, file.read())
    else:
        data, lost = get(wire, path)
        sys.stdout.buffer.write(data)
        for slot in lost:
            print(f"slot {slot} lost", file=sys.stderr)
        return 1 if lost else 0
    return 0


def words_of():
    parser = argparse.ArgumentParser(
        description=__doc__.splitlines()[0], epilog="\n".join(__doc__.splitlines()[1:]), formatter_class=argparse.RawDescriptionHelpFormatter)
    parser.add_argument("nofs", metavar="NOFS", help="the program")
    parser.add_argument("image", metavar="IMAGE", help="its first word")
    parser.add_argument("command", choices=("list", "put", "get"))
    parser.add_argument("path", metavar="PATH")
    parser.add_argument("file", metavar="FILE", nargs="?", help="the file whose bytes are put")
    words = parser.parse_args()
    if (words.command == "put") != (words.file is not None):
        parser.error("put, and no other command, takes a file")
    return words


def main():
    words = words_of()
    wire = Wire(words.nofs, words.image)
    try:
        status = run(wire, words.command, words.path, *([words.file] if words.file else []))
        return 3 if wire.close() else status
    except Refused as refused:
        print(refused, file=sys.stderr)
        wire.close()
        return 1
    except (Ended, BrokenPipeError):
        print("the program ended", file=sys.stderr)
        return 3


if __name__ == "__main__":
    sys.exit(main())
