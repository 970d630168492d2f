"""What an image means, by docs/DEFINITIONS.md sentence by sentence, and the lines that the reading commands then have.

It is slow and plain on purpose: it is what the program is compared with. Bytes are read by `nofs.format`, meanings are found here,
and lines are spelled by `nofs.lines`."""
import struct

from nofs.format import (CELL, CHILD_SLOT, CONTENT, DIRECTORY, FILE, FOLDER, LABEL, LEAF, LEAF_SLOT, MOST_ENTRIES, NO_RECORD, NULL,
                         PAYLOAD, ROOT, TOP_SLOT, Link, Tag, name_stands, read_entry, read_pointers, read_record, read_tag)
from nofs.lines import Lines, Refused, dead, lost_slot, none, pair, some

EMPTY, LOST = "empty", "lost"
FILE_BLOCKS = 1048576                 # as many blocks as a file of the host counts as
SLOTS = {1: 72, 2: 4168}
SPENT = 2**24 - 1


def unmountable(data, has=FILE_BLOCKS):
    """The line of the first fault of a mount on a device of so many blocks, or None."""
    payload = data[:PAYLOAD].ljust(PAYLOAD, b"\0")
    version, _, blocks, inodes, mount = struct.unpack("<IIQQQ", payload[8:40])
    rest = [at for at in (*range(12, 16), *range(40, PAYLOAD)) if payload[at]]
    fits = inodes % 4 == 0 and 4 <= inodes <= 65536 and max(16, 2 + inodes // 4) <= blocks <= 1048576
    for faulty, line in ((payload[:8] != b"NoFSv001", f"bad magic {payload[:8].hex()}"),
                         (version not in SLOTS, f"bad version {version}"),
                         (rest, f"byte {(rest or [0])[0]} is not zero"),
                         (not fits, f"bad geometry, blocks {blocks}, inodes {inodes}"),
                         (blocks > has, f"device too small, has {has}"),
                         (mount >= SPENT, f"mounts spent, number {mount}")):
        if faulty:
            return f"mount: {line}"
    return None


def slot_above(number):
    """The slot in whose block the pointer of a slot stands, and its place there; None and the place in the record."""
    if number < 8:
        return None, number
    if number < 72:
        return LEAF_SLOT, number - 8
    if number < 4168:
        return CHILD_SLOT + (number - 72) // 64, (number - 72) % 64
    if number <= TOP_SLOT:
        return None, 8 + number - LEAF_SLOT
    return TOP_SLOT, number - CHILD_SLOT


class World:
    """A mountable image: its records, slots, entries, pairs, agreed inodes, owners and scan."""

    def __init__(self, data):
        self.data = data
        self.version, _, self.blocks, self.inodes, self.mount = struct.unpack("<IIQQQ", data[8:40])
        self.area = 1 + self.inodes // 4
        self.records = {inode: self.read_inode(inode) for inode in range(1, self.inodes + 1)}
        self.found = {}
        self.agreed = self.all_agreed()

    def cell(self, block):
        return self.data[block * CELL:(block + 1) * CELL].ljust(CELL, b"\0")

    def read_inode(self, inode):
        at = 256 * ((inode - 1) % 4)
        return read_record(self.cell(1 + (inode - 1) // 4)[at:at + 256])

    def record(self, inode):
        return self.records.get(inode, NO_RECORD)

    def slot(self, inode, number):
        """What a slot is: EMPTY, LOST, or the block that it holds with."""
        key = inode, number
        if key not in self.found:
            self.found[key] = self.find_slot(inode, number)
        return self.found[key]

    def find_slot(self, inode, number):
        record = self.record(inode)
        above, place = slot_above(number)
        if above is None:
            pointers = [*record.direct, record.leaf, record.top]
        else:
            state = self.slot(inode, above)
            if state in (EMPTY, LOST):
                return state
            pointers = read_pointers(self.cell(state)[:PAYLOAD])
        pointer = pointers[place]
        if pointer == NULL:
            return EMPTY
        if not record.kind or not self.area <= pointer.block < self.blocks:
            return LOST
        kind = LEAF if number >= LEAF_SLOT else DIRECTORY if record.kind == FOLDER else CONTENT
        tag = read_tag(self.cell(pointer.block)[PAYLOAD:])
        return pointer.block if tag == Tag(kind, inode, record.generation, number, pointer.stamp) else LOST

    def entry(self, directory, entry):
        """What an entry of a directory says, or None."""
        state = self.slot(directory, entry // 16) if entry < MOST_ENTRIES else EMPTY
        at = 64 * (entry % 16)
        return None if state in (EMPTY, LOST) else read_entry(self.cell(state)[at:at + 64])

    def is_pair(self, inode, link):
        """Whether a back link of a live inode is a pair."""
        record, directory = self.record(inode), self.record(link.directory)
        if directory.kind != FOLDER or directory.generation != link.generation:
            return False
        entry = self.entry(link.directory, link.entry)
        names = entry is not None and (entry.inode, entry.generation) == (inode, record.generation)
        return names and (record.kind == FILE or link.generation < record.generation)

    def all_agreed(self):
        """The agreed inodes: round by round those that a pair leads to, from the root and the label file on."""
        pairs = [(inode, link.directory) for inode, record in self.records.items() if inode not in (ROOT, LABEL)
                 for link in record.links if self.is_pair(inode, link)]
        agreed = {inode for inode, kind in ((ROOT, FOLDER), (LABEL, FILE)) if self.record(inode)[:2] == (inode, kind)}
        further = agreed
        while further:
            further = {inode for inode, directory in pairs if directory in agreed} - agreed
            agreed = agreed | further
        return agreed

    def agreed_links(self, inode):
        return [link for link in self.record(inode).links if link.directory in self.agreed and self.is_pair(inode, link)]

    def numbers(self, inode):
        """The slots of an inode that can hold: below a block of pointers only where that holds."""
        yield from range(8)
        yield LEAF_SLOT
        yield TOP_SLOT
        if self.slot(inode, LEAF_SLOT) not in (EMPTY, LOST):
            yield from range(8, 72)
        if self.slot(inode, TOP_SLOT) not in (EMPTY, LOST):
            for child in range(64):
                yield CHILD_SLOT + child
                if self.slot(inode, CHILD_SLOT + child) not in (EMPTY, LOST):
                    yield from range(72 + 64 * child, 136 + 64 * child)

    def owners(self):
        """The owner of each block that has one: inode and slot."""
        held = ((self.slot(inode, number), inode, number) for inode in self.agreed for number in self.numbers(inode))
        return {block: (inode, number) for block, inode, number in held if block not in (EMPTY, LOST)}

    def used(self):
        """The used inodes and the used blocks of the scan."""
        return self.agreed | {ROOT, LABEL}, set(self.owners()) | set(range(self.area))


class Reading(Lines):
    """The lines of the commands that only read, on one image."""

    def __init__(self, world):
        self.world = world

    def scan(self):
        inodes, blocks = (len(used) for used in self.world.used())
        return (f"inodes used {inodes} free {self.world.inodes - inodes} unchecked 0, "
                f"blocks used {blocks} free {self.world.blocks - blocks} unchecked 0").encode()

    def agreed(self, at):
        """The record of an agreed inode of this generation."""
        inode, generation = at
        record = self.world.record(inode)
        if inode not in self.world.agreed or record.generation != generation:
            raise Refused("14 stale")
        return record

    def folder(self, at):
        if self.agreed(at).kind != FOLDER:
            raise Refused("5 not a directory")
        return at[0]

    def resolve(self, path):
        if path == b"@":
            return LABEL, 2
        at = ROOT, 1
        for name in path[1:].split(b"/") if path != b"/" else []:
            at = self.look(at, name)
        return at

    def look(self, at, name):
        """The inode that the least pair of this name leads to."""
        if not (1 <= len(name) <= 48 and name_stands(name)):
            raise Refused("8 bad name")
        directory = self.folder(at)
        named = [(place, entry) for place, entry in self.entries(directory) if entry.name == name]
        pairs = [entry for place, entry in named if self.is_pair(directory, place, entry)]
        lost = [number for number in range(72) if self.world.slot(directory, number) == LOST]
        if pairs:
            return pairs[0].inode, pairs[0].generation
        if named:
            raise Refused(f"2 lost entry {named[0][0]}")
        raise Refused(f"3 lost slot {lost[0]}" if lost else "1 missing")

    def entries(self, directory):
        for place in range(MOST_ENTRIES):
            entry = self.world.entry(directory, place)
            if entry:
                yield place, entry

    def is_pair(self, directory, place, entry):
        """Whether an entry is that of a pair; one that names inode 1 or 2 only where that is agreed (docs/DEFINITIONS.md)."""
        if entry.inode in (ROOT, LABEL) and entry.inode not in self.world.agreed:
            return False
        record = self.world.record(entry.inode)
        link = Link(directory, place, self.world.record(directory).generation)
        return record.generation == entry.generation and link in record.links and self.world.is_pair(entry.inode, link)

    def stat_words(self, at):
        record = self.agreed(at)
        return record.kind == FILE, record.size, len(self.world.agreed_links(at[0]))

    def list_parts(self, at):
        directory = self.folder(at)
        for number in range(72):
            if self.world.slot(directory, number) == LOST:
                yield lost_slot(number)
            for place in range(16 * number, 16 * number + 16):
                entry = self.world.entry(directory, place)
                if entry:
                    yield self.part(directory, place, entry)

    def part(self, directory, place, entry):
        if not self.is_pair(directory, place, entry):
            return dead(entry.name)
        return pair(entry.name, self.world.record(entry.inode).kind == FOLDER)

    def get_parts(self, at, offset, length):
        record = self.agreed(at)
        if record.kind == FOLDER:
            raise Refused("6 is a directory")
        end = min(offset + length, record.size)
        for number in range(offset // 1024, -(-end // 1024) if offset < end else 0):
            if number >= SLOTS[self.world.version]:
                raise Refused("12 too large")
            first, last = max(offset - 1024 * number, 0), min(end - 1024 * number, 1024)
            yield self.got(self.world.slot(at[0], number), first, last)

    def got(self, state, first, last):
        if state in (EMPTY, LOST):
            return none(b"hole" if state == EMPTY else b"lost", last - first)
        return some(self.world.cell(state)[first:last])

    def salvage(self, prefix=b""):
        """The lines of a salvage."""
        try:
            return list(self.losses(prefix))
        except Refused as refused:
            return [refused.line()]

    def losses(self, prefix):
        yield from self.lost_slots((LABEL, 2))
        self.folder((ROOT, 1))
        folders = [ROOT]
        for directory in folders:
            names = set()
            for number in range(72):
                if self.world.slot(directory, number) == LOST:
                    yield b"lost %d slot %d" % (directory, number)
                for place in range(16 * number, 16 * number + 16):
                    yield from self.loss(directory, place, names, folders, prefix)

    def loss(self, directory, place, names, folders, prefix):
        entry = self.world.entry(directory, place)
        if not entry:
            return
        wanted = entry.name.startswith(prefix)
        if not self.is_pair(directory, place, entry):
            yield from [b"dead %d " % directory + entry.name] if wanted else []
        elif entry.name in names:
            yield from [b"twice %d " % directory + entry.name] if wanted else []
        else:
            names.add(entry.name)
            if self.world.record(entry.inode).kind == FOLDER:
                folders.append(entry.inode)
            elif wanted:
                yield from self.lost_slots((entry.inode, entry.generation))

    def lost_slots(self, at):
        slots = min(-(-self.agreed(at).size // 1024), SLOTS[self.world.version])
        for number in range(slots):
            if self.world.slot(at[0], number) == LOST:
                yield b"lost %d slot %d" % (at[0], number)
