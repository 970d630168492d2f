"""Reads an image of NoFS by docs/FORMAT.md and docs/DEFINITIONS.md alone, and changes nothing."""
import contextlib
import fcntl
import mmap
import os
import struct
from typing import NamedTuple, Optional

from nofs import pages

PAYLOAD, CELL = 1024, 1056
NOTHING, CONTENT, DIRECTORY, LEAF, TABLE, SUPER = range(6)
FREE, FILE, FOLDER = range(3)
ROOT, LABEL = 1, 2
LEAF_SLOT, TOP_SLOT, CHILD_SLOT = 2**32, 2**32 + 1, 2**32 + 2
MOST_BYTES, MOST_ENTRIES = 4268032, 1152
NO_NAMES = (b"", b".", b"..")


class NoImage(Exception):
    """The file holds no image that can be mounted."""


class InUse(OSError):
    """A program has the image open."""

    def __init__(self, path):
        super().__init__(f"{path}: the image is in use")


@contextlib.contextmanager
def locked(path):
    """Keeps an image from being served meanwhile, by a shared lock of its file: a program that serves it has the exclusive one."""
    with open(path, "rb") as file:
        try:
            fcntl.flock(file, fcntl.LOCK_SH | fcntl.LOCK_NB)
        except BlockingIOError:
            raise InUse(path) from None
        yield


class Tag(NamedTuple):
    kind: int
    inode: int
    generation: int
    slot: int
    stamp: int


class Pointer(NamedTuple):
    block: int
    stamp: int


class Link(NamedTuple):
    """A back link: the entry of a directory that is said to name the inode."""
    directory: int
    entry: int
    generation: int


class Entry(NamedTuple):
    inode: int
    generation: int
    name: bytes


class Record(NamedTuple):
    generation: int
    kind: int
    size: int
    links: list
    direct: list
    leaf: Pointer
    top: Pointer


class Slot(NamedTuple):
    """A slot whose pointer is not null, with the tag of the block that it leads to (None outside the data area, or unspelled)."""
    number: int
    pointer: Pointer
    wanted: Tag
    inside: bool
    tag: Optional[Tag]

    @property
    def holds(self):
        return self.inside and self.tag == self.wanted


NULL = Pointer(0, 0)
NO_RECORD = Record(0, FREE, 0, [], [NULL] * 8, NULL, NULL)


def read_tag(cell):
    """The tag that 32 bytes spell, or None."""
    tag = Tag(*struct.unpack("<IIQQQ", cell))
    spelled = tag.kind <= SUPER and (tag.kind != NOTHING or not any(tag))
    return tag if spelled else None


def read_pointers(payload):
    return [Pointer(*pair) for pair in struct.iter_unpack("<QQ", payload)]


def read_record(payload):
    """The record that 256 bytes spell; a free one where they spell none."""
    generation, kind, count, size, zero = struct.unpack("<QIIQQ", payload[:32])
    links = [Link(*link) for link in struct.iter_unpack("<IIQ", payload[32:96])]
    pointers = read_pointers(payload[96:])
    record = Record(generation, kind, size, [link for link in links if link.directory], pointers[:8], *pointers[8:])
    live = kind in (FILE, FOLDER) and generation >= 1 and size <= MOST_BYTES and zero == 0
    links_fit = count == len(record.links) and all(link.directory or not any(link) for link in links)
    folder_fits = kind != FOLDER or (size == 0 and record.top == NULL and count <= 1)
    return record if live and links_fit and folder_fits else NO_RECORD


def read_entry(payload):
    """The entry that 64 bytes spell, or None."""
    inode, length, generation = struct.unpack("<IIQ", payload[:16])
    name, rest = payload[16:16 + length], payload[16 + length:]
    spelled = inode and generation and 1 <= length <= 48 and not any(rest)
    return Entry(inode, generation, name) if spelled and name_stands(name) else None


def name_stands(name):
    return name not in NO_NAMES and not any(byte in name for byte in b"\0\n\r /")


class Image:
    """The cells of an image in a file; what lies past the end of the file is zeros."""

    def __init__(self, path):
        with open(path, "rb") as file:
            length = os.fstat(file.fileno()).st_size
            self.data, self.bad_pages = pages.cells_of(mmap.mmap(file.fileno(), 0, access=mmap.ACCESS_READ) if length else b"")
        magic, self.version, _, self.blocks, self.inodes, self.mount = struct.unpack("<8sIIQQQ", self.payload(0)[:40])
        fault = self.fault(magic)
        if fault:
            raise NoImage(fault)
        self.area = 1 + self.inodes // 4
        self.records = [NO_RECORD] + [self.read_inode(inode) for inode in range(1, self.inodes + 1)]

    def fault(self, magic):
        """The first fault of a mount in block 0, or None."""
        if magic != b"NoFSv001":
            return f"bad magic {magic.hex()}"
        if self.version not in (1, 2):
            return f"bad version {self.version}"
        rest = [at for at, byte in enumerate(self.payload(0)) if byte and (12 <= at < 16 or at >= 40)]
        if rest:
            return f"byte {rest[0]} is not zero"
        fits = self.inodes % 4 == 0 and 4 <= self.inodes <= 65536 and max(16, 2 + self.inodes // 4) <= self.blocks <= 1048576
        return None if fits else f"bad geometry, blocks {self.blocks}, inodes {self.inodes}"

    def bytes(self, at, length):
        return self.data[at:at + length].ljust(length, b"\0")

    def payload(self, block):
        return self.bytes(block * CELL, PAYLOAD)

    def tag_bytes(self, block):
        return self.bytes(block * CELL + PAYLOAD, CELL - PAYLOAD)

    def cell(self, block):
        return self.bytes(block * CELL, CELL)

    def tag(self, block):
        return read_tag(self.tag_bytes(block))

    def read_inode(self, inode):
        block, place = divmod(inode - 1, 4)
        return read_record(self.bytes((1 + block) * CELL + 256 * place, 256))

    def record(self, inode):
        return self.records[inode] if inode <= self.inodes else NO_RECORD

    def slot(self, inode, number, pointer, kind):
        """The slot of a live inode that has this pointer."""
        inside = self.area <= pointer.block < self.blocks
        wanted = Tag(kind, inode, self.record(inode).generation, number, pointer.stamp)
        return Slot(number, pointer, wanted, inside, self.tag(pointer.block) if inside else None)

    def slots(self, inode):
        """The slots of a live inode whose pointers stand in its record, or in blocks of pointers that hold; null ones are left out."""
        record = self.record(inode)
        kind = DIRECTORY if record.kind == FOLDER else CONTENT
        found = self.under(inode, record.direct, 0, kind)
        found += self.node(inode, LEAF_SLOT, record.leaf, 8, kind)
        top = self.under(inode, [record.top], TOP_SLOT, LEAF)
        if top and top[0].holds:
            for child, pointer in enumerate(read_pointers(self.payload(record.top.block))):
                top += self.node(inode, CHILD_SLOT + child, pointer, 72 + 64 * child, kind)
        return found + top

    def node(self, inode, number, pointer, first, kind):
        """The slot of a block of pointers, and where it holds those in it."""
        found = self.under(inode, [pointer], number, LEAF)
        if found and found[0].holds:
            found += self.under(inode, read_pointers(self.payload(pointer.block)), first, kind)
        return found

    def under(self, inode, pointers, first, kind):
        return [self.slot(inode, first + at, pointer, kind) for at, pointer in enumerate(pointers) if pointer != NULL]

    def entries(self, slots):
        """The entries of a directory with these slots: place and entry."""
        for slot in slots:
            if slot.number < LEAF_SLOT and slot.holds:
                payload = self.payload(slot.pointer.block)
                for place in range(16):
                    entry = read_entry(payload[64 * place:64 * place + 64])
                    if entry:
                        yield slot.number * 16 + place, entry


def values(slots, count):
    """The values of the slots 0 to `count - 1` of a file: a letter each, b for bytes, h for a hole, l for lost."""
    found = ["h"] * count
    for slot in slots:
        for number in covered(slot):
            if number < count:
                found[number] = "b" if slot.holds else "l"
    return "".join(found)


def covered(slot):
    """The slots whose value this one decides: itself, or all that are below a block of pointers that is lost."""
    if slot.number < LEAF_SLOT:
        return [slot.number]
    if slot.holds:
        return []
    if slot.number == LEAF_SLOT:
        return range(8, 72)
    if slot.number == TOP_SLOT:
        return range(72, 4168)
    child = slot.number - CHILD_SLOT
    return range(72 + 64 * child, 136 + 64 * child)


class Pair(NamedTuple):
    """An entry of an agreed directory, and what is wrong with it where it is no pair (None: nothing)."""
    directory: int
    place: int
    entry: Entry
    fault: Optional[str]


class Tree:
    """The agreed inodes of an image with their paths, and the entries of their directories."""

    def __init__(self, image):
        self.image, self.paths, self.pairs = image, {}, []
        self.slots = {inode: image.slots(inode) for inode in range(1, image.inodes + 1) if image.record(inode).kind}
        if image.record(LABEL)[:2] == (2, FILE):
            self.paths[LABEL] = [b"@"]
        level = [ROOT] if image.record(ROOT)[:2] == (1, FOLDER) else []
        self.paths.update({inode: [b"/"] for inode in level})
        while level:
            level = [inode for directory in level for inode in self.see(directory)]

    def see(self, directory):
        """Notes the entries of an agreed directory, and gives the directories that they lead to."""
        found = []
        path = self.paths[directory][0].rstrip(b"/") + b"/"
        for place, entry in self.image.entries(self.slots[directory]):
            fault = self.fault(directory, place, entry)
            self.pairs.append(Pair(directory, place, entry, fault))
            if not fault:
                if self.image.record(entry.inode).kind == FOLDER:
                    found.append(entry.inode)
                self.paths.setdefault(entry.inode, []).append(path + entry.name)
        return found

    def fault(self, directory, place, entry):
        """Why an entry is no pair with a back link, or None."""
        record, own = self.image.record(entry.inode), self.image.record(directory).generation
        if not record.kind:
            return "its inode is free"
        if record.generation != entry.generation:
            return "its inode is of another generation"
        if entry.inode in (ROOT, LABEL) and entry.inode not in self.paths:
            return "its inode is not the root or the label file"
        if Link(directory, place, own) not in record.links:
            return "no back link of its inode leads here"
        return "its directory is younger" if record.kind == FOLDER and own >= record.generation else None

    def dead_links(self):
        """The back links of each inode that no entry of an agreed directory answers; inodes without any are left out."""
        answered = {(pair.entry.inode, pair.directory, pair.place) for pair in self.pairs if not pair.fault}
        dead = {inode: [link for link in self.image.record(inode).links if (inode, link.directory, link.entry) not in answered]
                for inode in self.slots}
        return {inode: links for inode, links in dead.items() if links}

    def owners(self):
        """The slot that owns each block that has an owner: inode and slot."""
        return {slot.pointer.block: (inode, slot) for inode in self.paths for slot in self.slots[inode] if slot.holds}
