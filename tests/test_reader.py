"""Tests of the reader for C (crates/nofs_reader_c), by `c/reader_lines.c` over its archive: what it says of whole and of damaged
images is what the program and the definitions say of them. The archive is built where it is missing, which takes a while."""
import ctypes
import os
import random
import re
import struct
import subprocess
import sys

from nofs import format as nofs
from nofs import pages, reader
from tests import damage_cases as damages
from tests.common import NOFS, TOOLS, TOP, Folders, in_c, read, run, serve, tree, write
from tests.damage_cases import Laying, S
from tests.slow_reader import unmountable
from tests.test_damages import READING, drawn_fields, few_numbers, one_byte, reads_of, wanted_of

CRATE = os.path.join(TOP, "crates", "nofs_reader_c")
INCLUDE = os.path.join(CRATE, "include")
ARCHIVE = os.path.join(CRATE, "out", "libnofs_reader_c.a")
SHARED = os.path.join(CRATE, "out", "libnofs_reader.so")
# The layouts that the reader knows, each as it is made of packed cells
LAYOUTS = {"packed": bytes, "paged": pages.paged, "twin": pages.twin}
# The code of each fault of a superblock, by the words with which a mount tells it
FAULTS = {"bad magic": 1, "bad version": 2, "byte": 3, "bad geometry": 4, "device too small": 5, "mounts spent": 6}


def built():
    """Builds the libraries where they are missing or older than a source."""
    run([os.path.join(TOP, "nofs"), "--reader"])


def code_of(line):
    """The line of the fault that a mount tells by this line."""
    return next(b"fault %d" % code for words, code in FAULTS.items() if line.startswith(b"mount: " + words.encode()))


class Read(Folders):
    """Cases with the program reader_lines, compiled once."""

    @classmethod
    def setUpClass(cls):
        built()

    def setUp(self):
        super().setUp()
        self.program = self.compiled("reader_lines.c")

    def compiled(self, source):
        program = self.at(source[:-2])
        run(["cc", "-std=c99", "-O2", "-Wall", "-Wextra", "-Werror", "-I", INCLUDE, "-I", self.room, "-o", program, in_c(source), ARCHIVE])
        return program

    def told(self, data, session, *words):
        """The status and the lines of the reader on an image."""
        write(self.at("read.img"), data)
        done = subprocess.run([self.program, self.at("read.img"), *words], input=b"\n".join([*session, b""]), stdout=subprocess.PIPE, timeout=60)
        return done.returncode, done.stdout.split(b"\n")[:-1]

    def judged(self, name, data, session, status, lines):
        """What is wrong with what the reader says where this is wanted: commands that write, and those behind them, are left out."""
        first = next((at for at, command in enumerate(session) if command.split(b" ")[0] not in READING), len(session))
        want = [code_of(lines[0])] if status == 4 else lines[:first]
        for layout, made in LAYOUTS.items():
            told = self.told(made(data), session[:first])
            if told != (status, want):
                pairs = [(one, other) for one, other in zip(told[1], want) if one != other]
                one, other = pairs[0] if pairs else (b"%d lines" % len(told[1]), b"%d lines" % len(want))
                return [f"{name}, {layout}: the reader {told[0]} {damages.shown(one)[:300]}\n   wanted {status} {damages.shown(other)[:300]}"]
        return []


class Reader(Read):
    """What the reader says of images."""

    def test_each_damage_is_told_as_by_the_program(self):
        runs = [(case, each) for case in damages.all_cases() if not case.device for each in case.runs if each.words == ["run"]]
        self.assertGreater(len(runs), 150)
        faults = [fault for case, each in runs
                  for fault in self.judged(case.name, case.data, each.session, each.status, each.lines)]
        self.assertEqual(faults, [], "\n".join(faults))

    def test_each_damage_is_counted_as_by_the_program(self):
        runs = [(case, each) for case in damages.all_cases() if not case.device for each in case.runs if each.words == ["scan"]]
        self.assertGreater(len(runs), 50)
        for case, each in runs:
            want = [code_of(each.lines[0])] if each.status == 4 else each.lines
            for layout, made in LAYOUTS.items():
                self.assertEqual(self.told(made(case.data), [], "scan"), (each.status, want), f"{case.name}, {layout}")

    def test_drawn_damages_are_told_as_by_the_definitions(self):
        day, images = damages.image("day2"), []
        for seed in range(40):
            draw = random.Random(1000 + seed)
            images += [(f"fields of {seed}", drawn_fields(day, draw, 12)), (f"few numbers of {seed}", few_numbers(draw)),
                       (f"byte of {seed}", one_byte(day, draw)), (f"noise of {seed}", day[:1024] + draw.randbytes(len(day) - 1024))]
        images += [(f"cut at {at}", day[:at]) for at in range(0, 24 * nofs.CELL, 500)]
        faults = []
        for name, data in images:
            session = reads_of(data)
            faults += self.judged(name, data, session, *wanted_of(data, ["run"], session))
            if not unmountable(data) and self.told(data, [], "scan") != wanted_of(data, ["scan"]):
                faults.append(f"{name}: the counts")
        self.assertEqual(faults, [], "\n".join(faults))

    def test_an_image_of_the_program_is_told_as_the_program_tells_it(self):
        image = self.at("made.img")
        run([NOFS, image, "new", "512", "24"])
        run([NOFS, image, "upgrade"])
        make = ["mkdir /d", "mkdir /d/e", "make /d/e/f", "size /d/e/f 200000", "put /d/e/f 199000 7a79", "put /d/e/f 0 78", "link /d/e/f /g",
                "put @ 0 6c6162656c", *(f"make /d/n{n}" for n in range(15)), "drop /d/n3"]
        self.assertFalse([line for line in serve(image, "\n".join(make).encode()) if line.startswith("refused")])
        data = read(image)
        session = reads_of(data) + [b"get /g 198000 5000", b"stat /g/x", b"list /g", b"get /d 0 5", b"stat /" + b"n" * 49]
        lines = [line.encode("latin-1") for line in run([NOFS, image, "run"], b"\n".join(session))[0].decode("latin-1").splitlines()]
        self.assertGreater(len(lines), 60)
        self.assertEqual(self.judged("made", data, session, 0, lines), [])

    def test_all_files_are_read_in_twice_the_time_of_a_copy(self):
        image = FullImage()
        self.assertEqual(unmountable(image.data), None)
        write(self.at("full.img"), image.data)
        for turn in range(3):
            said = run([self.program, self.at("full.img"), "speed"])[0].decode()
            copied, taken, total = re.fullmatch(r"copy (\S+) read (\S+) bytes (\d+)\n", said).groups()
            self.assertEqual(int(total), 1024 * image.SLOTS * len(image.FILES))
            if float(taken) <= 2 * float(copied):
                return
        self.fail(said)


    def test_the_time_of_a_count_does_not_go_with_the_depth_of_directories(self):
        seconds = {}
        for name, parent in (("deep", lambda n: n - 1), ("flat", lambda n: (n - 1) // NamedImage.NAMES)):
            image = NamedImage(parent)
            write(self.at(name), image.data)
            for _ in range(3):
                said = run([self.program, self.at(name), "count"])[0].decode()
                scan, taken = re.fullmatch(r"(.*)\nseconds (\S+)\n", said).groups()
                self.assertEqual(scan, "inodes used 65536 free 0 unchecked 0, "
                                 f"blocks used {image.free} free {image.BLOCKS - image.free} unchecked 0")
                seconds[name] = min(seconds.get(name, 1e9), float(taken))
        self.assertLess(seconds["deep"], 3 * seconds["flat"])


class NamedImage(Laying):
    """An image whose 65,536 inodes are the root, the label file, and directories that each have their place in a tree. They are counted
    from 0, the root; `parent` says of each other one which names it, an earlier one."""

    NAMES, INODES, COUNT = 1152, 65536, 65535
    BLOCKS = 1 + INODES // 4 + 65534

    def __init__(self, parent):
        super().__init__()
        self.new(str(self.BLOCKS), str(self.INODES))
        self.free = 1 + self.INODES // 4
        self.records = bytearray(256 * self.INODES)
        struct.pack_into("<QI", self.records, 256, 2, nofs.FILE)
        names, links = {}, {}
        for n in range(1, self.COUNT):
            above = names.setdefault(parent(n), [])
            links[n] = (self.inode(parent(n)), len(above), self.generation(parent(n)))
            above.append(struct.pack("<IIQ48s", self.inode(n), 1 + len(str(n)), self.generation(n), b"d%d" % n))
        for n in range(self.COUNT):
            self.directory(n, links.get(n), names.get(n, []))
        for block in range(self.INODES // 4):
            self.data[(1 + block) * nofs.CELL:(1 + block) * nofs.CELL + 1024] = self.records[1024 * block:1024 * block + 1024]

    @staticmethod
    def inode(n):
        return n + 2 if n else nofs.ROOT

    @staticmethod
    def generation(n):
        return S + n if n else 1

    def claim(self, kind, n, slot, payload):
        """Lays a cell in the next block, and gives its pointer."""
        pointer = struct.pack("<QQ", self.free, S + 100000 + self.free)
        tag = struct.pack("<IIQQ", kind, self.inode(n), self.generation(n), slot) + pointer[8:]
        self.data[self.free * nofs.CELL:(self.free + 1) * nofs.CELL] = payload.ljust(nofs.PAYLOAD, b"\0") + tag
        self.free += 1
        return pointer

    def directory(self, n, link, entries):
        slots = [self.claim(nofs.DIRECTORY, n, slot, b"".join(entries[16 * slot:16 * slot + 16])) for slot in range(-(-len(entries) // 16))]
        leaf = self.claim(nofs.LEAF, n, nofs.LEAF_SLOT, b"".join(slots[8:])) if slots[8:] else b""
        links = struct.pack("<IIQ", *link) if link else b""
        record = (struct.pack("<QIIQQ", self.generation(n), nofs.FOLDER, bool(link), 0, 0) + links.ljust(64, b"\0")
                  + b"".join(slots[:8]).ljust(128, b"\0") + leaf.ljust(32, b"\0"))
        self.records[256 * (self.inode(n) - 1):256 * self.inode(n)] = record


class FullImage(Laying):
    """An image of 65,536 blocks in which 15 files have bytes in each slot."""

    BLOCKS, INODES, FILES, SLOTS = 65536, 64, range(3, 18), 4168

    def __init__(self):
        super().__init__()
        self.new(str(self.BLOCKS), str(self.INODES))
        self.super("version", "2")
        self.free = 1 + self.INODES // 4
        entries = b"".join(struct.pack("<IIQ48s", inode, 2, S + inode, b"f%c" % (94 + inode)) for inode in self.FILES)
        self.record("1", "generation", "1", "kind", "2", "direct0", self.claim(nofs.DIRECTORY, 1, 1, 0, entries))
        self.record("2", "generation", "2", "kind", "1")
        for inode in self.FILES:
            self.file(inode)

    def claim(self, kind, inode, generation, slot, payload):
        """Lays a cell in the next block, and gives its pointer as a word."""
        stamp, tag = S + 1000 + self.free, bytearray(32)
        struct.pack_into("<IIQQQ", tag, 0, kind, inode, generation, slot, stamp)
        self.data[self.free * nofs.CELL:(self.free + 1) * nofs.CELL] = payload.ljust(nofs.PAYLOAD, b"\0") + tag
        self.free += 1
        return f"{self.free - 1},{stamp}"

    def content(self, inode, first, count):
        noise = random.Random(inode)
        return [self.claim(nofs.CONTENT, inode, S + inode, slot, noise.randbytes(1024)) for slot in range(first, first + count)]

    def node(self, inode, slot, words):
        pointers = (struct.pack("<QQ", *map(int, word.split(","))) for word in words)
        return self.claim(nofs.LEAF, inode, S + inode, slot, b"".join(pointers))

    def file(self, inode):
        direct = [word for place, pointer in enumerate(self.content(inode, 0, 8)) for word in (f"direct{place}", pointer)]
        leaf = self.node(inode, nofs.LEAF_SLOT, self.content(inode, 8, 64))
        children = [self.node(inode, nofs.CHILD_SLOT + child, self.content(inode, 72 + 64 * child, 64)) for child in range(64)]
        top = self.node(inode, nofs.TOP_SLOT, children)
        self.record(str(inode), "generation", f"S+{inode}", "kind", "1", "links", "1", "size", str(1024 * self.SLOTS),
                    "link0", f"1,{inode - 3},1", "leaf", leaf, "top", top, *direct)


class BadPages(Read):
    """What the reader says of an image in pages of which some can't be told."""

    SESSION = ["mkdir /d", "make /d/f", "put /d/f 0 " + "61" * 20480, "size /d/f 30000", "link /d/f /g", "make /h", "put /h 0 " + "62" * 9000,
               *(f"make /d/n{n}" for n in range(20)), "drop /d/n3"]

    def setUp(self):
        super().setUp()
        image = self.at("sound.img")
        run([NOFS, image, "new", "256", "36"])
        self.assertFalse([line for line in serve(image, "\n".join(self.SESSION).encode()) if line.startswith("refused")])
        packed = pages.cells_of(read(image))[0]
        self.sound, self.tree = pages.paged(packed), nofs.Tree(nofs.Image(image))
        self.gets = {(path, slot): b"get %b %d 1024" % (path, 1024 * slot) for path, count in ((b"/d/f", 30), (b"/g", 30), (b"/h", 9))
                     for slot in range(count)}
        self.commands = [*self.gets.values(), b"list /", b"list /d", b"stat /", b"stat /d", b"stat /d/f", b"stat /g", b"stat /h", b"stat @"]
        status, self.lines = self.told(self.sound, self.commands)
        self.assertEqual(status, 0)
        self.assertFalse([line for line in self.lines if b"refused" in line or b"lost" in line])

    def spoiled(self, number, how):
        """The image with a page that can't be told."""
        data = bytearray(self.sound)
        first = pages.PAGE * number
        if how == "rotten":
            data[first + 2000] ^= 1
        elif how == "torn":
            data[first + 3584:first + 4096] = b"\7" * 512
        elif how == "headless":
            data[first:first + 512] = bytes(512)
        else:
            data[first:first + pages.PAGE] = pages.page_of(number + 1, data[first + pages.AREA:first + pages.PAGE])
        return bytes(data)

    def told_or_not(self, data):
        """The commands whose lines are refused by a page, where all others are those of the sound image; lists may lack places."""
        status, lines = self.told(data, self.commands)
        if status == 4:
            return lines
        self.assertEqual((status, len(lines)), (0, len(self.lines)))
        refused = set()
        for command, line, sound in zip(self.commands, lines, self.lines):
            if re.fullmatch(rb"refused 18 read fault|got unread:\d+", line):
                refused.add(command)
            elif command.startswith(b"list"):
                some = [part for part in line.split(b" ") if not part.startswith(b"/unread:")]
                self.assertLessEqual(set(some), set(sound.split(b" ")), command)
                if some != sound.split(b" "):
                    refused.add(command)
            else:
                self.assertEqual(line, sound, command)
        return refused

    def test_a_bad_page_is_refused_by_the_calls_that_need_it_and_by_no_others(self):
        owners, area, blocks = self.tree.owners(), self.tree.image.area, self.tree.image.blocks
        paths, content = self.names(), 0
        for number in range(len(self.sound) // pages.PAGE):
            here = range(3 * number, min(3 * number + 3, blocks))
            used = [block for block in here if block < area or block in owners]
            for how in ("rotten", "torn", "headless", "another's"):
                if self.spoiled(number, how) == self.sound or not any(self.sound[pages.PAGE * number:pages.PAGE * (number + 1)]):
                    continue
                refused = self.told_or_not(self.spoiled(number, how))
                if not used:
                    self.assertEqual(refused, set(), (number, how))
                elif all(block in owners and owners[block][1].wanted.kind == nofs.CONTENT for block in used):
                    want = {self.gets[path, owners[block][1].number] for block in used for path in paths[owners[block][0]]}
                    self.assertEqual(refused, want, (number, how))
                    content += 1
                elif 0 in here and how != "headless":
                    self.assertEqual(refused, [b"refused 18 read fault"], how)
                elif not number:
                    self.assertEqual(refused, [b"fault 1"], how)
                else:
                    self.assertNotEqual(refused, set(), (number, how))
        self.assertGreater(content, 20)

    def names(self):
        """The files of the session by their inodes, each with its paths."""
        found = {}
        for path in (b"/d/f", b"/g", b"/h"):
            inode = reader.Reader(self.sound).resolve(path)
            found.setdefault(inode, []).append(path)
        return found

    def test_a_page_of_zeros_and_one_past_the_end_have_cells_of_zeros(self):
        for number in range(1, len(self.sound) // pages.PAGE):
            first = pages.PAGE * number
            packed = bytearray(pages.cells_of(self.sound)[0])
            packed[pages.CELLS * number:pages.CELLS * (number + 1)] = bytes(pages.CELLS)
            blank = self.sound[:first] + bytes(pages.PAGE) + self.sound[first + pages.PAGE:]
            self.assertEqual(self.told(blank, self.commands), self.told(bytes(packed), self.commands), number)
            cut = self.told(bytes(packed[:pages.CELLS * number]), self.commands)
            self.assertEqual(self.told(self.sound[:first], self.commands), cut, number)

    def test_a_file_that_ends_within_a_page_has_zeros_behind_it(self):
        last = len(self.sound.rstrip(b"\0"))
        number = (last - 1) // pages.PAGE
        self.assertEqual(self.told(self.sound[:last], self.commands), (0, self.lines))
        for cut in (last - 1, pages.PAGE * number + 1, pages.PAGE * number + 1000):
            self.assertEqual(self.told(self.sound[:cut], self.commands), self.told(
                self.sound[:cut].ljust(len(self.sound), b"\0"), self.commands), cut)

    def test_unpacking_goes_past_bad_pages_and_names_what_is_not_read(self):
        owners = self.tree.owners()
        block = next(block for block in sorted(owners) if block % 3 == 0 and all(
            b in owners and owners[b][1].wanted.kind == nofs.CONTENT for b in range(block, block + 3)))
        for layout, data in (("paged", self.sound), ("twin", pages.twin(pages.cells_of(self.sound)[0]))):
            self.assertEqual(self.unpacked(layout, data), (0, b""), layout)
        data = bytearray(self.sound)
        data[pages.PAGE * (block // 3) + 2000] ^= 1
        twin = bytearray(pages.twin(pages.cells_of(self.sound)[0]))
        twin[2 * pages.PAGE * (block // 3) + 2000] ^= 1
        twin[2 * pages.PAGE * (block // 3) + pages.PAGE + 2000] ^= 1
        slots = sorted(owners[b][1].number for b in range(block, block + 3))
        for name, spoiled in (("paged bad", data), ("twin bad", twin)):
            status, said = self.unpacked(name, bytes(spoiled))
            self.assertEqual(status, 1)
            for slot in slots:
                self.assertIn(b"slot %d not read, bytes %d to %d, a page of it can't be told" % (slot, 1024 * slot, 1024 * slot + 1023), said)
            got, want = tree(self.at(name)), tree(self.at("paged"))
            self.assertEqual(got.keys(), want.keys())
            for path, content in want.items():
                for at in range(0, len(content or b""), 1024):
                    some = content[at:at + 1024] if got[path][at:at + 1024].strip(b"\0") else bytes(len(content[at:at + 1024]))
                    self.assertEqual(got[path][at:at + 1024], some)

    def unpacked(self, folder, data):
        write(self.at("unpack.img"), data)
        done = subprocess.run([sys.executable, os.path.join(TOOLS, "nofs-unpack"), self.at("unpack.img"), self.at(folder)],
                              stdout=subprocess.PIPE, stderr=subprocess.PIPE)
        self.assertEqual(done.stdout.decode(), f"read by {SHARED}, without a mount\n")
        return done.returncode, done.stderr


class Twins(Read):
    """What the reader says of an image in twin pages, by what is left of the places of a page."""

    SESSION = BadPages.SESSION

    def setUp(self):
        super().setUp()
        image = self.at("sound.img")
        run([NOFS, image, "new", "256", "36"])
        self.assertFalse([line for line in serve(image, "\n".join(self.SESSION).encode()) if line.startswith("refused")])
        self.cells = pages.cells_of(read(image))[0]
        self.whole = pages.twin(self.cells)
        self.commands = [*(b"get %b %d 1024" % (path, 1024 * slot) for path in (b"/d/f", b"/g", b"/h") for slot in range(30)),
                         b"list /", b"list /d", b"stat /", b"stat /d", b"stat /d/f", b"stat @"]
        status, self.lines = self.told(self.cells, self.commands)
        self.assertEqual(status, 0)
        self.assertFalse([line for line in self.lines if b"refused" in line or b"lost" in line])

    def cells_with(self, number, area):
        """The packed image where a page has other cells."""
        cells = bytearray(self.cells.ljust(pages.CELLS * (number + 1), b"\0"))
        cells[pages.CELLS * number:pages.CELLS * (number + 1)] = area
        return bytes(cells)

    def twin_with(self, number, one, two):
        """The image in twin pages where a page has these two places."""
        data, first = bytearray(self.whole), 2 * pages.PAGE * number
        data[first:first + 2 * pages.PAGE] = one + two
        return bytes(data)

    def places(self, number):
        """What may stand in a place of a page: a version with its cells, and what is none: rotten, torn, another's, without a sum."""
        area, whole, spoiled = self.cells[pages.CELLS * number:pages.CELLS * (number + 1)].ljust(pages.CELLS, b"\0"), [], []
        for version in (2, 3, 4, 5, 2**64 - 2, 2**64 - 1):
            for shown in (area, random.Random(version).randbytes(pages.CELLS)):
                page = pages.twin_of(number, version, shown)
                whole.append((page, (version, shown)))
                spoiled += [(each, None) for each in (
                    page[:2000] + bytes([page[2000] ^ 1]) + page[2001:], page[:3584] + b"\7" * 512, page[:16] + bytes(8) + page[24:],
                    pages.twin_of(number + 1, version, shown), pages.page_of(number, shown))]
        return whole, spoiled, [(pages.BLANK, None)]

    def test_of_two_places_the_one_with_the_higher_version_is_shown(self):
        draw, told, bad = random.Random(7), 0, 0
        for number in range(-(-len(self.cells) // pages.CELLS)):
            kinds = self.places(number)
            for _ in range(8):
                (one, first), (two, second) = (draw.choice(draw.choice(kinds)) for _ in range(2))
                if number == 0 and one[:8] != pages.TWIN_MAGIC and (one[:8] == pages.MAGIC or two[:8] != pages.TWIN_MAGIC):
                    continue                                    # it shows another layout
                data, right = self.twin_with(number, one, two), [it for place, it in enumerate((first, second)) if it and it[0] % 2 == place]
                if right or pages.BLANK in (one, two):
                    want = self.cells_with(number, max(right)[1] if right else bytes(pages.CELLS))
                    self.assertEqual(self.told(data, self.commands), self.told(want, self.commands), number)
                    told += 1
                else:
                    lines = [line for line, sound in zip(self.told(data, self.commands)[1], self.lines) if line != sound]
                    self.assertEqual([line for line in lines if b"unread:" not in line and line != b"refused 18 read fault"], [], number)
                    bad += 1
        self.assertGreater(told, 100)
        self.assertGreater(bad, 50)

    def test_page_0_is_told_by_either_place(self):
        area = self.cells[:pages.CELLS]
        for one, version in ((pages.BLANK, 3), (b"\7" * pages.PAGE, 3), (bytes(8) + pages.twin_of(0, 2, area)[8:], 3)):
            data = self.twin_with(0, one, pages.twin_of(0, version, area))
            self.assertEqual(self.told(data, self.commands), (0, self.lines))
            self.assertEqual(pages.cells_of(data)[0][:len(self.cells)], self.cells)
        spoiled = pages.twin_of(0, 3, area)[:2000] + b"\7" + pages.twin_of(0, 3, area)[2001:]
        self.assertEqual(self.told(self.twin_with(0, pages.twin_of(0, 2, area), spoiled), self.commands), (0, self.lines))
        self.assertEqual(self.told(self.twin_with(0, b"\7" * pages.PAGE, spoiled), self.commands), (4, [b"refused 18 read fault"]))
        # Behind a whole magic of another layout the bytes at 4096 mean nothing
        packed = self.cells[:pages.PAGE] + pages.TWIN_MAGIC + self.cells[pages.PAGE + 8:]
        self.assertEqual(self.told(packed, [b"stat /"])[0], 0)

    def test_a_file_that_ends_within_a_twin_page_has_zeros_behind_it(self):
        whole = pages.twin(self.cells, 3)                       # the second places are current
        for number in range(len(whole) // (2 * pages.PAGE)):
            first = 2 * pages.PAGE * number
            for cut in (first, first + 1, first + 1000, first + pages.PAGE, first + pages.PAGE + 2000, first + 2 * pages.PAGE - 1):
                self.assertEqual(self.told(whole[:cut], self.commands), self.told(whole[:cut].ljust(len(whole), b"\0"), self.commands), cut)


class ReaderPage(Read):
    """The lines of C and of Python on the page, and calls with odd arguments."""

    SESSION = ["mkdir /d", "make /d/f", "size /d/f 70000", "put /d/f 69990 7a7978", "put /d/f 2000 6162", "link /d/f /g", "mkdir /d/e"]

    def setUp(self):
        super().setUp()
        self.image = self.at("disk.img")
        run([NOFS, self.image, "new", "256", "12"])
        self.assertFalse([line for line in serve(self.image, "\n".join(self.SESSION).encode()) if line.startswith("refused")])
        self.content = bytes(2000) + b"ab" + bytes(67988) + b"zyx" + bytes(7)

    def block(self, language):
        """The lines of a language in README that call the reader."""
        page = read(os.path.join(TOP, "README.md")).decode()
        return re.search(rf"```{language}\n(.*?nofs[_.]reader.*?)```", page, re.S).group(1)

    def test_the_lines_of_c_copy_a_file_and_names_are_listed(self):
        write(self.at("page_lines.h"), self.block("c").encode())
        program = self.compiled("page_lines.c")
        self.assertEqual(run([program, self.image])[0], b"d\n  f\n  e\ng\n")
        self.assertEqual(run([program, self.image, "g"])[0], self.content)
        self.assertEqual(run([program, self.image, "d"], status=1)[0], b"")

    def test_the_lines_of_python_list_the_names(self):
        for name in ("crates", "tools"):
            os.symlink(os.path.join(TOP, name), self.at(name))
        os.rename(self.image, self.at("plain.img"))
        done = subprocess.run([sys.executable, "-c", self.block("python")], cwd=self.room, stdout=subprocess.PIPE, check=True)
        directory, file = done.stdout.decode().splitlines()
        self.assertRegex(directory, r"^d \(2, 1, \d+, 0\)$")
        self.assertRegex(file, r"^g \(1, 2, \d+, 70000\)$")

    def test_unpacking_by_the_reader_and_by_the_program_gives_the_same(self):
        for name in ("day2", "lost"):
            data = damages.image("day2")
            if name == "lost":
                laid = Laying(data)
                laid.tag("9", "stamp", "77")
                laid.entry("4", "0", "generation", "5")
                data = bytes(laid.data)
            write(self.at("damaged.img"), data)
            words = [sys.executable, os.path.join(TOOLS, "nofs-unpack"), self.at("damaged.img")]
            done = [subprocess.run([*words, self.at(name + way), *more], stdout=subprocess.PIPE, stderr=subprocess.PIPE)
                    for way, more in (("read", ()), ("served", ("--serve",)))]
            self.assertEqual(done[0].stdout.decode(), f"read by {SHARED}, without a mount\n")
            self.assertEqual((done[0].returncode, done[0].stderr), (done[1].returncode, done[1].stderr))
            self.assertEqual(tree(self.at(name + "read")), tree(self.at(name + "served")))
            self.assertEqual(read(self.at("damaged.img"))[nofs.CELL:], data[nofs.CELL:])

    def test_odd_arguments_are_answered(self):
        reader, data = ctypes.CDLL(SHARED), read(self.image)
        out, into = ctypes.create_string_buffer(b"\5" * 80, 80), ctypes.create_string_buffer(b"\6" * 2048, 2048)
        image, u32, u64, size = (data, ctypes.c_size_t(len(data))), ctypes.c_uint32, ctypes.c_uint64, ctypes.c_size_t
        for inode in (0, 13, 2**32 - 1):
            self.assertEqual(reader.nofs_reader_stat(*image, u32(inode), out), 7)
            self.assertEqual(reader.nofs_reader_next(*image, u32(inode), u32(0), out), 7)
            self.assertEqual(reader.nofs_reader_look(*image, u32(inode), b"g", size(1), out), 7)
            self.assertEqual(reader.nofs_reader_get(*image, u32(inode), u64(0), into, size(2048), out), 7)
        for slot in (4168, 2**63, 2**64 - 1):
            self.assertEqual(reader.nofs_reader_get(*image, u32(2), u64(slot), into, size(2048), out), 10)
        for room in (0, 1023):
            self.assertEqual(reader.nofs_reader_get(*image, u32(2), u64(0), into, size(room), out), 11)
        self.assertEqual(reader.nofs_reader_get(*image, u32(1), u64(0), into, size(2048), out), 9)
        self.assertEqual(reader.nofs_reader_next(*image, u32(2), u32(0), out), 8)
        marks = ctypes.create_string_buffer(b"\7" * 12, 12)
        self.assertEqual(reader.nofs_reader_counts(*image, marks, size(11), out), 11)
        self.assertEqual(marks.raw, b"\7" * 12)
        self.assertEqual(reader.nofs_reader_superblock(b"", size(0), out), 1)
        self.assertEqual(reader.nofs_reader_counts(b"", size(0), marks, size(0), out), 1)
        self.assertEqual((out.raw, into.raw), (b"\5" * 80, b"\6" * 2048))
        self.assertEqual(reader.nofs_reader_counts(*image, marks, size(12), out), 0)
        self.assertEqual(struct.unpack("<4Q", out.raw[:32])[:3], (12, 5, 256))
        for place in (1152, 2**32 - 1):
            self.assertEqual(reader.nofs_reader_next(*image, u32(1), u32(place), out), 0)
            self.assertEqual(out.raw[:4], bytes(4))
        for name in (b"", b"a" * 49, b"/", b"d\0", b"."):
            self.assertEqual(reader.nofs_reader_look(*image, u32(1), name, size(len(name)), out), 0)
            self.assertEqual(out.raw[:4], bytes(4))
        self.assertEqual(reader.nofs_reader_get(*image, u32(2), u64(4167), into, size(2048), out), 0)
        self.assertEqual(struct.unpack("<QQ", out.raw[:16]), (2, 1))
