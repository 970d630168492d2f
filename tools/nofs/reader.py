"""Reads an image by the proved reader for C (crates/nofs_reader_c), where `./nofs --reader` has built it: without a mount, and
with the lines that the program has for `list`, `stat` and `get`. Where a page can't be told, a line goes on behind it, and has
`/unread:PLACE` and `unread:LENGTH` for what stood there."""
import ctypes
import os
import struct

from nofs import lines
from nofs.lines import Refused

HOME = os.path.join(os.path.dirname(os.path.abspath(__file__)), os.pardir, os.pardir)
LIBRARY = os.path.normpath(os.path.join(HOME, "crates", "nofs_reader_c", "out", "libnofs_reader.so"))
ROOT, LABEL = 1, 2
SLOT, SLOTS = 1024, {1: 72, 2: 4168}
FILE, FOLDER = 1, 2
NOTHING, ENTRY, DEAD, LOST_SLOT, UNREAD = range(5)
BYTES, HOLES, LOST, NOT_READ = 1, 2, 3, 4
PLACES = 1152
BAD_PAGE = 15
PARTS = {HOLES: b"hole", LOST: b"lost", NOT_READ: b"unread"}
FAULTS = {1: "bad magic", 2: "bad version", 3: "a byte that is not zero", 4: "bad geometry", 5: "device too small", 6: "mounts spent"}
REFUSED = {7: "14 stale", 8: "5 not a directory", 9: "6 is a directory", 10: "12 too large",
           BAD_PAGE: "18 read fault"}


def is_built():
    return os.path.exists(LIBRARY)


class NoImage(Exception):
    """The bytes are no image: the first fault of the superblock."""


class BadPage(Refused):
    """A page that the answer needs can't be told."""


class Reader(lines.Lines):
    """The bytes of an image, read by the library."""

    def __init__(self, data):
        self.calls, self.data = ctypes.CDLL(LIBRARY), data
        self.out, self.room = ctypes.create_string_buffer(80), ctypes.create_string_buffer(64 * SLOT)
        self.version, *_ = self.call("superblock", "<4Q")

    def call(self, name, answer, *words):
        """Calls a function, and gives the fields of its answer."""
        code = getattr(self.calls, "nofs_reader_" + name)(self.data, ctypes.c_size_t(len(self.data)), *words, self.out)
        if code in FAULTS:
            raise NoImage(FAULTS[code])
        if code:
            raise (BadPage if code == BAD_PAGE else Refused)(REFUSED[code])
        return struct.unpack(answer, self.out.raw[:struct.calcsize(answer)])

    def stat(self, inode):
        """Kind, number of names, generation and size of an agreed inode."""
        return self.call("stat", "<2I2Q", ctypes.c_uint32(inode))

    def lines(self, directory):
        """What stands in a directory, place by place: what it is, the place, the inode, its kind, its generation and the name. A place
        that can't be read is one, too."""
        place = 0
        self.stat(directory)
        while place < PLACES:
            try:
                what, place, inode, kind, generation, length, name = self.call(
                    "next", "<4I2Q48s", ctypes.c_uint32(directory), ctypes.c_uint32(place))
            except BadPage:
                yield UNREAD, place, 0, 0, 0, b""
                place += 1
                continue
            if what == NOTHING:
                return
            yield what, place, inode, kind, generation, name[:length]
            place += 1

    def runs(self, inode, first, last):
        """What the slots of a file from one to another are, run by run: what they are, how many, and their bytes."""
        while first < last:
            try:
                what, count = self.call("get", "<2Q", ctypes.c_uint32(inode), ctypes.c_uint64(first), self.room,
                                        ctypes.c_size_t(min(len(self.room), SLOT * (last - first))))
            except BadPage:
                what, count = NOT_READ, 1
            yield what, count, self.room.raw[:SLOT * count] if what == BYTES else b""
            first += count

    def resolve(self, path):
        """The inode of a path."""
        inode = LABEL if path == b"@" else ROOT
        for name in path[1:].split(b"/") if path not in (b"@", b"/") else []:
            what, place, inode, *_ = self.call("look", "<4I", ctypes.c_uint32(inode), name, ctypes.c_size_t(len(name)))
            if what != ENTRY:
                raise Refused({NOTHING: "1 missing", DEAD: f"2 lost entry {place}", LOST_SLOT: f"3 lost slot {place // 16}"}[what])
        return inode

    def answers(self, commands, cost=None):
        """Each command with its line."""
        for command in commands:
            yield command, self.answer(command)

    def stat_words(self, inode):
        kind, links, _, size = self.stat(inode)
        return kind == FILE, size, links

    def list_parts(self, directory):
        for what, place, _, kind, _, name in self.lines(directory):
            if what == LOST_SLOT:
                yield lines.lost_slot(place // 16)
            elif what == UNREAD:
                yield lines.unread(place)
            else:
                yield lines.dead(name) if what == DEAD else lines.pair(name, kind == FOLDER)

    def get_parts(self, inode, offset, length):
        kind, _, _, size = self.stat(inode)
        if kind == FOLDER:
            raise Refused(REFUSED[9])
        end = max(min(offset + length, size), offset)
        if -(-end // SLOT) > SLOTS[self.version] and offset < end:
            raise Refused(REFUSED[10])
        return self.parts(inode, offset, end)

    def parts(self, inode, offset, end):
        number = offset // SLOT
        for what, count, data in self.runs(inode, number, -(-end // SLOT) if offset < end else 0):
            for at in range(count):
                first, last = max(offset - SLOT * (number + at), 0), min(end - SLOT * (number + at), SLOT)
                some = data[SLOT * at + first:SLOT * at + last]
                yield lines.some(some) if what == BYTES else lines.none(PARTS[what], last - first)
            number += count
