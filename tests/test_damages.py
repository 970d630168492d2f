"""Tests over damaged images, with the program $NOFS: what each damage is told as, that no run
panics, hangs, writes a cell but block 0 or serves one that disagrees, and what a scan of a hostile image costs.

Each image is asked what the cases in `damages` say (`damage_cases.py` has their format), and what `slow_reader.py` finds by the
definitions; both have to be what the program says. Images by the hundred are drawn from fixed seeds."""
import os
import random
import struct
import subprocess
import tempfile
import threading
import unittest
from concurrent.futures import ThreadPoolExecutor

from nofs import format as nofs
from tests import damage_cases as damages
from tests.common import NOFS
from tests.damage_cases import Laying
from tests.slow_reader import Reading, World, unmountable

SECONDS = 60
READING = (b"list", b"stat", b"get")


class Room:
    """A folder for images, and the runs of the program in it, a thread each."""

    def __init__(self, case):
        room = tempfile.TemporaryDirectory(prefix="nofs-damages-")
        case.addCleanup(room.cleanup)
        self.folder = room.name

    def path(self, name):
        return os.path.join(self.folder, f"{threading.get_ident()}-{name}")

    def put(self, data):
        path = self.path("disk.img")
        with open(path, "wb") as file:
            file.write(data)
        return path

    def told(self, data, words, session=(), device=0):
        """The status, the lines and the messages of a run on a fresh copy of an image."""
        image = self.put(data)
        word = f"mirror:{device}:{image}:{self.path('other.img')}" if device else image
        done = subprocess.run([NOFS, word, *words], input=b"\n".join(session), stdout=subprocess.PIPE, stderr=subprocess.PIPE, timeout=SECONDS)
        return done.returncode, done.stdout.split(b"\n")[:-1], done.stderr

    def left(self):
        """The image that this thread's last run left."""
        with open(self.path("disk.img"), "rb") as file:
            return file.read()

    def each(self, work, items):
        """Does the work for each item, some at once."""
        with ThreadPoolExecutor(os.cpu_count()) as pool:
            return list(pool.map(work, items))


def wanted_of(data, words, session=(), device=0):
    """The status and the lines that the definitions give; None for the line of a command that writes, and those behind it."""
    fault = unmountable(data, device or 1048576)
    if fault:
        return 4, [fault.encode()]
    reading = Reading(World(data))
    if words[0] == "scan":
        return 0, [reading.scan()]
    if words[0] == "salvage":
        return 0, reading.salvage(*(word.encode() for word in words[1:]))
    lines = []
    for command in session:
        reads = command.split(b" ")[0] in READING and None not in lines
        lines.append(reading.answer(command) if reads else None)
    return 0, lines


def same(one, other):
    """Whether lines are the same, where both are known."""
    return len(one) == len(other) and all(None in pair or pair[0] == pair[1] for pair in zip(one, other))


def text(lines):
    return "\n".join(damages.shown(line)[:300] if line is not None else "?" for line in lines[:12])


def reads_of(data):
    """A session that lists, tells and reads all that the names of an image lead to, and the label file."""
    if unmountable(data):
        return [b"stat /"]
    reading = Reading(World(data))
    session, folders = [b"stat /", b"stat @", b"get @ 0 4500000", b"stat /none"], [(nofs.ROOT, b"")]
    for directory, path in folders:
        session.append(b"list " + (path or b"/"))
        for place, entry in reading.entries(directory) if directory in reading.world.agreed else []:
            name = path + b"/" + entry.name
            session += [b"stat " + name, b"get " + name + b" 0 100000", b"get " + name + b" 73000 70000"]
            if leads_to_folder(reading, directory, place, entry):
                folders.append((entry.inode, name))
    return session[:400]


def leads_to_folder(reading, directory, place, entry):
    """Whether an entry is the one that its name finds, and a directory's."""
    folder = reading.world.record(entry.inode).kind == nofs.FOLDER
    pairs = [at for at, other in reading.entries(directory) if other.name == entry.name and reading.is_pair(directory, at, other)]
    return folder and pairs[:1] == [place]


class DamageCases(unittest.TestCase):
    """The cases of the folder, each in a file of its own."""

    def test_each_case_is_told_as_it_says(self):
        room = Room(self)
        runs = [(case, run) for case in damages.all_cases() for run in case.runs]
        self.assertGreater(len(runs), 400)
        faults = [fault for found in room.each(lambda pair: self.faults(room, *pair), runs) for fault in found]
        self.assertEqual(faults, [], "\n".join(faults))

    def faults(self, room, case, run):
        """What is wrong with a run of a case: by the program, and by the reader of the definitions."""
        want = (run.status, run.lines)
        name = f"{case.name}, {' '.join(run.words)}"
        *told, said = room.told(case.data, run.words, run.session, case.device)
        if (*told, said) != (*want, b""):
            yield f"{name}: the program ended with {told[0]} and\n{text(told[1])}\nfor\n{text(want[1])}\n{said[-300:].decode()}"
        status, lines = wanted_of(case.data, run.words, run.session, case.device)
        if status != run.status or not same(lines, run.lines):
            yield f"{name}: by the definitions it is {status} and\n{text(lines)}\nfor\n{text(want[1])}"

    def test_each_case_says_what_it_is(self):
        for case in damages.all_cases():
            self.assertRegex(case.says, r"^[A-Z/`].*\.$", case.name)
            self.assertTrue(case.runs, case.name)
            self.assertTrue(all(run.lines or run.words[0] == "salvage" for run in case.runs), case.name)


class DrawnDamages(unittest.TestCase):
    """Damages by the hundred: what the program says is what the definitions give."""

    def setUp(self):
        self.room = Room(self)
        self.day = damages.image("day2")

    def judged(self, images, *choices):
        """Runs each image with the commands of one of the choices after the other; all that is said has to be what is wanted."""
        runs = [(f"{name}, {word}", data, word) for at, (name, data) in enumerate(images) for word in choices[at % len(choices)]]
        self.assertTrue(runs)
        faults = [fault for fault in self.room.each(lambda run: self.fault(*run), runs) if fault]
        self.assertEqual(faults, [], "\n".join(faults))

    def fault(self, name, data, word):
        session = reads_of(data) if word == "run" else []
        *told, said = self.room.told(data, [word], session)
        status, lines = wanted_of(data, [word], session)
        if (told, said) != ([status, lines], b""):
            counts = tuple(b"%d lines" % len(each) for each in (told[1], lines))
            one, other = next((pair for pair in zip(told[1], lines) if pair[0] != pair[1]), counts)
            return f"{name}: the program {told[0]} {text([one])}\n   definitions {status} {text([other])} {said[-300:].decode()}"
        kept = 0 if status else nofs.CELL       # a mount writes block 0 alone, and one that was refused nothing
        left = self.room.left()
        return None if left[kept:].rstrip(b"\0") == data[kept:].rstrip(b"\0") else f"{name}: cells were written"

    def test_an_image_is_cut_at_each_block(self):
        self.judged(((f"cut at {block}", self.day[:block * nofs.CELL]) for block in range(24)), ["scan", "run"])

    def test_an_image_is_cut_inside_each_cell(self):
        cuts = ((block, 1055 if block % 2 else 100) for block in range(23))
        self.judged(((f"cut at {block} and {at}", self.day[:block * nofs.CELL + at]) for block, at in cuts), ["scan"], ["run"])

    def other(self):
        """An image of as many blocks that the program made."""
        session = ["make /x", "put /x 0 7878", "mkdir /y", "make /y/z", "size /y/z 9000", "put /y/z 8999 7a", "size /x 20000",
                   "put /x 19000 79", "link /x /y/x", "put @ 0 6c", ""]
        path = self.room.put(b"")
        done = subprocess.run([NOFS, path, "new", "32", "12"], input="\n".join(session).encode(), stdout=subprocess.PIPE, timeout=SECONDS)
        self.assertEqual((done.returncode, done.stdout.count(b"refused")), (0, 0))
        with open(path, "rb") as file:
            return file.read().ljust(32 * nofs.CELL, b"\0")

    def test_cells_of_the_table_are_those_of_another_image(self):
        other, images = self.other(), []
        for one, two, name in ((self.day, other, "day"), (other, self.day, "made")):
            for blocks in ([1], [2], [3], [1, 2], [1, 2, 3]):
                images.append((f"{name} with {blocks}", with_cells(one, {block: cell_of(two, block) for block in blocks})))
            images += [(f"{name} with {a} in {b}", with_cells(one, {b: cell_of(one, a)})) for a, b in ((1, 2), (2, 1), (3, 1), (2, 3))]
            images.append((f"{name} with its data in the other", one[:4 * nofs.CELL] + two[4 * nofs.CELL:]))
        self.judged(images, ["scan", "run"], ["run", "salvage"])

    def test_all_bytes_are_ff(self):
        ones = bytes([255]) * len(self.day)
        cell, table = nofs.CELL, 4 * nofs.CELL
        tags = b"".join(self.day[at:at + nofs.PAYLOAD] + ones[:32] for at in range(0, len(self.day), cell))
        payloads = self.day[:cell] + b"".join(ones[:nofs.PAYLOAD] + self.day[at + nofs.PAYLOAD:at + cell]
                                              for at in range(cell, len(self.day), cell))
        self.judged([("all", ones), ("but the superblock", self.day[:nofs.PAYLOAD] + ones[nofs.PAYLOAD:]),
                     ("the table", self.day[:cell] + ones[cell:table] + self.day[table:]), ("the data", self.day[:table] + ones[table:]),
                     ("the tags", tags), ("the payloads", payloads)], ["scan", "run", "salvage"])

    def test_bytes_are_random(self):
        images, cell, table, end = [], nofs.CELL, 4 * nofs.CELL, len(self.day)
        for seed in range(3):
            noise = random.Random(seed).randbytes(end)
            for name, first, last in (("the table", cell, table), ("the data", table, end),
                                      ("but the superblock", nofs.PAYLOAD, end), ("all", 0, end)):
                images.append((f"{name} of {seed}", self.day[:first] + noise[first:last] + self.day[last:]))
        self.judged(images, ["scan", "run"])

    def test_structures_have_random_fields(self):
        images = [(f"fields of {seed}", drawn_fields(self.day, random.Random(seed), 12)) for seed in range(24)]
        self.judged(images, ["scan", "run", "salvage"])

    def test_tables_and_tags_are_drawn_from_few_numbers(self):
        self.judged([(f"few numbers of {seed}", few_numbers(random.Random(seed))) for seed in range(24)], ["scan", "run", "salvage"])

    def test_single_bytes_are_damaged(self):
        images = [(f"byte of {seed}", one_byte(self.day, random.Random(seed))) for seed in range(201)]
        self.judged(images, ["scan"], ["run"], ["salvage"])

    def test_tags_are_swapped(self):
        images = []
        for seed in range(24):
            one, two = random.Random(seed).sample(range(4, 22), 2)
            images.append((f"tags of {one} and {two}", with_cells(self.day, {
                one: cell_of(self.day, one)[:nofs.PAYLOAD] + cell_of(self.day, two)[nofs.PAYLOAD:],
                two: cell_of(self.day, two)[:nofs.PAYLOAD] + cell_of(self.day, one)[nofs.PAYLOAD:]})))
        self.judged(images, ["scan"], ["run"])


    def test_the_page_finds_the_same_owners(self):
        images = [case.data for case in damages.all_cases()]
        for seed in range(100):
            images += [few_numbers(random.Random(seed)), drawn_fields(self.day, random.Random(seed), 12), one_byte(self.day, random.Random(seed))]
        for data in (data for data in images if not unmountable(data)):
            tree, world = nofs.Tree(nofs.Image(self.room.put(data))), World(data)
            owners = {block: (inode, slot.number) for block, (inode, slot) in tree.owners().items()}
            self.assertEqual((set(tree.paths), owners), (world.agreed, world.owners()))


class ScanTimes(unittest.TestCase):
    """What a scan costs, in processor time.

    A check of an inode or of a block's owner reads a record and an entry, and for each of four back links goes up from directory to
    directory until it meets the root, an inode of which it is known whether it is agreed, or a link that is no pair. Then that is
    known of each directory on the way, too. So each directory is walked once, and an element costs a few reads: not more where names
    are many, where entries or tags name one inode, or where a chain is deep, hangs on nothing or is a loop. And a read that no other
    leads to is one of a cell, not of a window of 64 cells: so it costs not more where each block names a drawn inode and slot."""

    def setUp(self):
        self.room = Room(self)

    def cost(self, data):
        """The processor time of a scan, which has the line of the definitions."""
        with open(self.room.path("out"), "w+b") as out:
            before = os.times()
            done = subprocess.run([NOFS, self.room.put(data), "scan"], stdout=out, timeout=10 * SECONDS)
            after = os.times()
            out.seek(0)
            self.assertEqual((done.returncode, out.read()), (0, Reading(World(data)).scan() + b"\n"))
        return after.children_user - before.children_user + after.children_system - before.children_system

    def test_an_image_of_small_depth_costs_at_most_ten_times_an_honest_one(self):
        honest = self.cost(tree(1152, 16))
        for name, data in (("1,152 pairs in the root", tree(1152, 1152)), ("entries that all name one inode", entries_of_one(1152)),
                           ("loops of two directories", loops(1152)), ("tags that all name one slot", tags_of_one(1152))):
            cost = self.cost(data)
            self.assertLess(cost, 10 * max(honest, 0.01), name)

    def test_an_image_of_drawn_slots_costs_at_most_ten_times_an_honest_one(self):
        laying = Laying()
        laying.new("8192", "2048")
        honest = self.cost(bytes(laying.data))
        self.assertLess(self.cost(drawn_slots(8192, 2048, random.Random(1))), 10 * max(honest, 0.01))

    def test_a_chain_of_any_depth_costs_at_most_ten_times_an_honest_tree(self):
        depth = 1152
        honest = max(self.cost(tree(depth, 16)), 0.01)
        for name, data in (("a chain", chain(depth)), ("a chain whose inodes fall", chain(depth, falling=True)),
                           ("a chain that hangs on nothing", chain(depth, hangs=False)), ("a loop", chain(depth, hangs=False, loop=True))):
            self.assertLess(self.cost(data), 10 * honest, name)


class Building:
    """An image of so many inodes behind the first two, each of which can have a block, and of a root with blocks enough."""

    def __init__(self, count):
        inodes = -(-(count + 2) // 4) * 4
        self.area, self.laying = 1 + inodes // 4, Laying()
        self.laying.new(str(max(self.area + count + 80, 16)), str(inodes))
        self.laying.record(2, "generation", "2", "kind", "1")
        self.folder(1, 1, [])

    def folder(self, inode, generation, links, slot=0):
        """A directory with a block for a slot, whose stamp is the block's number."""
        block = self.area + 79 + inode - 2 if inode > 2 else self.area + slot
        links = [word for link in links for word in ("link0", link)]
        self.laying.record(inode, "generation", str(generation), "kind", "2", "links", str(len(links) // 2), *links)
        self.hold(inode, generation, slot, block)
        return block

    def hold(self, inode, generation, slot, block, kind=nofs.DIRECTORY):
        """A block for a slot, through a leaf where there has to be one."""
        self.laying.tag(block, "kind", str(kind), "inode", str(inode), "generation", str(generation), "slot", str(slot), "stamp", str(block))
        if slot < 8 or kind == nofs.LEAF:
            self.laying.record(inode, "leaf" if kind == nofs.LEAF else f"direct{slot}", f"{block},{block}")
        else:
            self.laying.pointer(self.area + 72, slot - 8, f"{block},{block}")

    def root(self, entries):
        """The root's blocks for so many entries."""
        for slot in range(-(-entries // 16)):
            self.hold(1, 1, slot, self.area + slot)
        if entries > 128:
            self.hold(1, 1, nofs.LEAF_SLOT, self.area + 72, nofs.LEAF)

    def entry(self, block, place, inode, generation):
        name = f"n{inode}-{place}".encode()
        self.laying.entry(block, place % 16, "inode", str(inode), "generation", str(generation), "length", str(len(name)), "name", name.hex())

    def data(self):
        return bytes(self.laying.data)


def tree(count, width):
    """An honest image of so many directories, so many in each."""
    building = Building(count)
    building.root(min(width, count))
    blocks = [building.area]
    for at in range(count):
        parent, place = divmod(at, width)
        link = f"{parent + 2 if parent else 1},{place},{100 + parent - 1 if parent else 1}"
        blocks.append(building.folder(3 + at, 100 + at, [link]))
        building.entry(blocks[parent] + place // 16, place, 3 + at, 100 + at)
    return building.data()


def chain(count, falling=False, hangs=True, loop=False):
    """A chain of directories; falling inodes; hanging on nothing; its first one named by its last."""
    building = Building(count)
    inodes = [2 + count - at if falling else 3 + at for at in range(count)]
    above, generation, block = 1, 1, building.area
    for at, inode in enumerate(inodes):
        if at or hangs:
            building.entry(block, 0, inode, 100 + at)
        above, generation, block = inode, 100 + at, building.folder(inode, 100 + at, [f"{above},0,{generation}"])
    if loop:
        building.entry(block, 0, inodes[0], 100)
        building.laying.record(inodes[0], "link0", f"{above},0,{generation}")
    return building.data()


def loops(count):
    """Directories of which each two name each other."""
    building = Building(count)
    for inode in range(3, 3 + count, 2):
        for one, two in ((inode, inode + 1), (inode + 1, inode)):
            building.entry(building.folder(one, 100 + one, [f"{two},0,{100 + two}"]), 0, two, 100 + two)
    return building.data()


def entries_of_one(count):
    """A root all of whose entries name one directory, and further directories with its back link."""
    building = Building(count)
    building.root(1152)
    for entry in range(1152):
        building.entry(building.area + entry // 16, entry, 3, 103)
    for inode in range(3, 3 + count):
        building.folder(inode, 100 + inode, ["1,1151,1"])
    return building.data()


def tags_of_one(count):
    """Directories with blocks whose tags all name the slot of the first one."""
    building = Building(count)
    for inode in range(3, 3 + count):
        block = building.folder(inode, 100 + inode, ["1,0,1"])
        building.laying.tag(block, "inode", "3", "generation", "103", "stamp", str(building.area + 80))
    building.entry(building.area, 0, 3, 103)
    return building.data()


def drawn_slots(blocks, inodes, draw):
    """An image whose records are files and directories with drawn links and pointers, and whose blocks each name a drawn slot."""
    area, is_file = 1 + inodes // 4, lambda inode: inode % 2 == 0

    def pointers(count):
        return b"".join(struct.pack("<QQ", draw.randrange(area, blocks), 7) for _ in range(count))

    def record(inode):
        count = 4 if is_file(inode) else 1
        links = b"".join(struct.pack("<IIQ", draw.randrange(1, inodes, 2), draw.randrange(1152), 9) for _ in range(count))
        head = struct.pack("<QIIQQ", 99 if is_file(inode) else 9, 1 if is_file(inode) else 2, count, 4 << 20 if is_file(inode) else 0, 0)
        return head + links.ljust(64, b"\0") + pointers(9) + (pointers(1) if is_file(inode) else bytes(16))

    def data_cell():
        inode = draw.randrange(1, inodes + 1)
        slot = draw.randrange(72, 4168) if is_file(inode) else draw.randrange(72)
        tag = struct.pack("<IIQQQ", 1 if is_file(inode) else 2, inode, 99 if is_file(inode) else 9, slot, 7)
        return pointers(64) + tag

    def table_cell(block):
        return b"".join(record(4 * block - 3 + at) for at in range(4)) + struct.pack("<IIQQQ", 4, 0, 0, block, 0)

    first = (b"NoFSv001" + struct.pack("<IIQQQ", 2, 0, blocks, inodes, 0)).ljust(1024, b"\0") + struct.pack("<IIQQQ", 5, 0, 0, 0, 0)
    return first + b"".join(map(table_cell, range(1, area))) + b"".join(data_cell() for _ in range(area, blocks))


def cell_of(data, block):
    return data[block * nofs.CELL:(block + 1) * nofs.CELL]


def with_cells(data, cells):
    """An image with other cells."""
    data = bytearray(data)
    for block, cell in cells.items():
        data[block * nofs.CELL:(block + 1) * nofs.CELL] = cell
    return bytes(data)


def one_byte(data, draw):
    """An image with one other byte, in most cases in a record, a tag, an entry or a pointer that is used."""
    block = draw.randrange(22)
    places = {0: [range(48), range(1024)], 8: [range(32)], 11: [range(32)], 4: [range(256)], 10: [range(192)], 14: [range(64)]}
    if 1 <= block <= 3:
        kept = places.get(block, [range(256 * record, 256 * record + part) for record in range(4) for part in (48, 112, 256)])
    else:
        kept = [*places.get(block, [range(32)]), range(1024, 1056)]
    at = block * nofs.CELL + draw.choice(draw.choice(kept))
    return data[:at] + bytes([data[at] ^ draw.choice([1, 2, 128, 255, draw.randrange(1, 256)])]) + data[at + 1:]


def drawn_fields(data, draw, count):
    """An image some of whose fields are drawn from numbers that mean something."""
    laying = Laying(data)
    small = ["0", "1", "2", "3", "4", "5", "7", "8", "10", "12", "13", "32", "2^32-1"]
    wide = [*small, "S+1", "S+2", "S+3", "S+5", "S+8", "S+23", "S+30", "2^32", "2^32+1", "2^32+2", "2^64-1"]

    def field(table):
        name = draw.choice(list(table))
        return name, ",".join(draw.choice(small if size == 4 else wide) for size in table[name][1:])

    pointers = {name: place for name, place in damages.RECORD.items() if place[1:] == (8, 8)}
    for _ in range(count):
        draw.choice([lambda: laying.record(draw.randrange(1, 13), *field(damages.RECORD)),
                     lambda: laying.record(draw.randrange(2, 11), *field(pointers)),
                     lambda: laying.tag(draw.randrange(4, 22), *field(damages.TAG)),
                     lambda: laying.entry(draw.choice([4, 10, 12, 14]), draw.randrange(4), *field(damages.ENTRY)),
                     lambda: laying.pointer(draw.choice([8, 11, 17, 18, 19]), draw.randrange(2), field(pointers)[1])])()
    return bytes(laying.data)


class Drawing:
    """An image whose files, names and blocks are drawn from so few numbers that many of them agree, and some of them don't."""

    def __init__(self, draw):
        self.draw, self.laying = draw, Laying()
        self.laying.new("32", "12")
        self.laying.super("version", str(draw.choice([1, 2])))
        self.generation = {inode: draw.randrange(2, 12) for inode in range(3, 13)} | {1: 1, 2: 2}
        self.kind = {inode: draw.choice([1, 2]) for inode in range(3, 13)} | {1: 2, 2: 1}
        self.blocks, self.links = {}, {inode: [] for inode in self.kind}
        self.draw_blocks()
        self.draw_entries()
        self.lay_records()

    def often(self):
        return self.draw.random() < 0.9

    def draw_blocks(self):
        """Gives each block of the data area to a slot, and most of them its tag."""
        for block in range(4, 32):
            inode = self.draw.choice([1, 1, *self.kind])
            slot = self.draw.choice([0, 0, 1, 2, 7, 8, 71, nofs.LEAF_SLOT, nofs.LEAF_SLOT])
            self.blocks.setdefault((inode, slot), block)
            kind = nofs.LEAF if slot == nofs.LEAF_SLOT else nofs.DIRECTORY if self.kind[inode] == nofs.FOLDER else nofs.CONTENT
            self.laying.tag(block, "kind", str(kind), "inode", str(inode), "generation", str(self.generation[inode]),
                            "slot", str(slot if self.often() else 1), "stamp", str(block if self.often() else 0))

    def draw_entries(self):
        """Names in the blocks of directories, and for most of them the back link."""
        for (directory, slot), block in self.blocks.items():
            for place in self.draw.sample(range(16), 4) if self.kind[directory] == nofs.FOLDER and slot < 72 else []:
                inode = self.draw.choice(list(self.kind))
                generation = self.generation[inode] if self.often() else 3
                name = f"{self.draw.randrange(97, 103):02x}"
                self.laying.entry(block, place, "inode", str(inode), "generation", str(generation), "length", "1", "name", name)
                if self.often() and len(self.links[inode]) < (4 if self.kind[inode] == nofs.FILE else 1):
                    self.links[inode].append(f"{directory},{16 * slot + place},{self.generation[directory]}")

    def lay_records(self):
        for inode, kind in self.kind.items():
            words = ["generation", str(self.generation[inode]), "kind", str(kind), "links", str(len(self.links[inode]))]
            words += [word for place, link in enumerate(self.links[inode]) for word in (f"link{place}", link)]
            words += ["size", str(self.draw.choice([0, 1, 1024, 3000, 9000, 73728, 80000])) if kind == nofs.FILE else "0"]
            for (owner, slot), block in self.blocks.items():
                if owner == inode and (slot < 8 or slot == nofs.LEAF_SLOT):
                    words += ["leaf" if slot == nofs.LEAF_SLOT else f"direct{slot}", f"{block},{block}"]
                elif owner == inode:
                    self.laying.pointer(self.blocks.get((inode, nofs.LEAF_SLOT), 31), slot - 8, f"{block},{block}")
            self.laying.record(inode, *words)


def few_numbers(draw):
    return bytes(Drawing(draw).laying.data)
