"""The scripts that take a folder into an image and out of it, and the page that shows an image."""
import json
import os
import random
import re
import subprocess
import sys
import unittest

from nofs import format as nofs
from nofs import pages
from tests.common import NOFS, TOOLS, Folders, S, read, run, serve, tool, tree, write


def crash(before, after, out, new):
    """An image that a crash may leave: each block is as `after` has it where `new(block)` says so, else as `before` has it.
    Block 0 is the new one, since a mount flushes it before any other write."""
    one, other = read(before), read(after)
    length = max(len(one), len(other))
    one, other = one.ljust(length, b"\0"), other.ljust(length, b"\0")
    cells = range(0, length, nofs.CELL)
    write(out, b"".join((other if at == 0 or new(at // nofs.CELL) else one)[at:at + nofs.CELL] for at in cells))


def damaged(data, draw, count):
    """An image with other bytes in some records and blocks of the data area, and copies of some cells; block 0 stays."""
    data = bytearray(data)
    for _ in range(count):
        block, other = draw.randrange(9, 256) * nofs.CELL, draw.randrange(9, 256) * nofs.CELL
        at = draw.choice([draw.randrange(nofs.CELL, 9 * nofs.CELL), block + draw.randrange(nofs.CELL)])
        data[at] = draw.choice([0, 1, 2, 255])
        data[block:block + nofs.CELL] = draw.choice([data[block:block + nofs.CELL], data[other:other + nofs.CELL]])
    return bytes(data)


class Trees(Folders):
    """Trees in images."""

    def packed(self, folder, *words, new=("512", "64")):
        """An image with the folder's tree, whose session was not refused anything."""
        image = self.at("disk.img")
        lines = serve(image, tool("nofs-pack", folder, *words)[0], "new", *new)
        self.assertEqual([line for line in lines if line.startswith("refused")], [])
        return image

    def unpacked(self, image, status=0):
        """The tree of an image, and what was said of it."""
        said = tool("nofs-unpack", image, self.at("out"), status=status)[1]
        return tree(self.at("out")), said.splitlines()


class Packing(Trees):
    def test_a_session_makes_folders_files_and_holes(self):
        write(self.at("in", "b", "hole"), b"\0" * 2048 + b"x" + b"\0" * 3000)
        write(self.at("in", "a"), b"abc")
        write(self.at("in", "empty"), b"")
        lines = tool("nofs-pack", self.at("in"), "/to", "--every", "2")[0].decode().splitlines()
        hole = "78" + "00" * 1023
        self.assertEqual(lines, [
            "mkdir /to", "make /to/a", "put /to/a 0 616263", "mkdir /to/b", "make /to/b/hole", "size /to/b/hole 5049",
            f"put /to/b/hole 2048 {hole}", "fsync /", "make /to/empty", "fsync /"])

    def test_what_an_image_cannot_hold_is_refused_by_name(self):
        write(self.at("in", "fits"), b"x" * 73728)
        write(self.at("in", "large"), b"x" * 73729)
        write(self.at("in", "a name"), b"")
        write(self.at("in", "n" * 49), b"")
        os.symlink("fits", self.at("in", "link"))
        os.mkfifo(self.at("in", "pipe"))
        refused = ["large", "a name", "n" * 49, "link", "pipe"]
        out, said = tool("nofs-pack", self.at("in"), status=1)
        self.assertEqual(out, b"")
        for name in refused:
            self.assertIn(f"{self.at('in', name)}: ", said)
        self.assertNotIn("in/fits", said)
        out, said = tool("nofs-pack", self.at("in"), "--skip")
        self.assertEqual([line.split(" ")[1] for line in out.decode().splitlines()], ["/fits", "/fits", "/"])
        self.assertEqual(said.count("left out"), len(refused))

    def test_a_refused_name_is_told_on_one_line(self):
        write(self.at("in", "two\nlines\x1b"), b"")
        said = tool("nofs-pack", self.at("in"), "--skip")[1]
        self.assertEqual(said, f"nofs-pack: {self.at('in')}/two\\x0alines\\x1b: a name with a space or an end of line, left out\n")

    def test_a_folder_has_at_most_1152_names(self):
        for number in range(1154):
            write(self.at("in", f"{number:04}"), b"")
        said = tool("nofs-pack", self.at("in"), status=1)[1]
        self.assertIn("in/1152: more than 1,152 names", said)
        self.assertIn("in/1153: more than 1,152 names", said)
        self.assertEqual(tool("nofs-pack", self.at("in"), "--skip")[0].count(b"make "), 1152)

    def test_a_long_tree_takes_several_sessions(self):
        for number in range(130):
            write(self.at("in", str(number)), b"x" * 70000)
        said = tool("nofs-pack", self.at("in"), status=1)[1]
        self.assertIn("takes 2 sessions", said)
        parts = [tool("nofs-pack", self.at("in"), "--part", part)[0] for part in "12"]
        self.assertEqual(sum(part.count(b"make ") for part in parts), 130)
        self.assertTrue(all(len(part) <= 16777216 and part.endswith(b"fsync /\n") for part in parts))
        tool("nofs-pack", self.at("in"), "--part", "3", status=1)

    def test_the_least_image_holds_the_tree(self):
        for number in range(150):
            write(self.at("in", "d", str(number)), b"x" * (number * 60 + 1))
        need = tool("nofs-pack", self.at("in"), "--need")[0].decode().split()
        self.packed(self.at("in"), new=need)
        fewer = [str(int(need[0]) - 1), need[1]]
        lines = serve(self.at("small.img"), tool("nofs-pack", self.at("in"))[0], "new", *fewer)
        self.assertTrue(any(line.startswith("refused 15 full") for line in lines))

    def test_every_script_has_help(self):
        for name in ("nofs-pack", "nofs-unpack", "nofs-picture"):
            self.assertIn(b"usage: " + name.encode(), tool(name, "--help")[0])


class Unpacking(Trees):
    def test_a_tree_of_500_files_comes_back_with_the_same_bytes(self):
        draw = random.Random(500)
        for number in range(500):
            folder = self.at("in", *(f"d{draw.randrange(6)}" for _ in range(draw.randrange(4))))
            data = bytearray(draw.randbytes(draw.choice([0, 1, 40, 1023, 1024, 1025, 5000, 9000, 20000])))
            if number % 5 == 0:
                data[1024:4096] = bytes(len(data[1024:4096]))
            write(os.path.join(folder, f"file{number}.ä"), bytes(data))
        os.makedirs(self.at("in", "empty", "folder"))
        need = tool("nofs-pack", self.at("in"), "--need")[0].decode().split()
        found, said = self.unpacked(self.packed(self.at("in"), new=need))
        self.assertEqual(said, [])
        self.assertEqual(found, tree(self.at("in")))

    def test_a_large_file_of_a_version_2_image_comes_back(self):
        data = b"x" * 200000 + bytes(150000) + b"y" * 70000
        write(self.at("in", "large"), data)
        need = tool("nofs-pack", self.at("in"), "--version", "2", "--need")[0].decode().split()
        image = self.at("disk.img")
        serve(image, b"", "new", *need)
        cells = bytearray(read(image))
        cells[8] = 2                        # the version in the superblock
        write(image, cells)
        serve(image, tool("nofs-pack", self.at("in"), "--version", "2")[0])
        found, said = self.unpacked(image)
        self.assertEqual((found, said), ({"large": data}, []))

    def test_holes_are_holes(self):
        image = self.at("disk.img")
        serve(image, b"make /h\nsize /h 73728\nput /h 65536 " + b"78" * 1024 + b"\n", "new", "64", "16")
        found, _ = self.unpacked(image)
        self.assertEqual(found["h"], b"\0" * 65536 + b"x" * 1024 + b"\0" * 7168)
        self.assertLessEqual(os.stat(self.at("out", "h")).st_blocks * 512, 16384)

    def test_a_lost_slot_is_told_with_its_place(self):
        write(self.at("in", "d", "f"), b"a" * 1024 + b"b" * 1024 + b"c" * 500)
        image = self.packed(self.at("in"))
        self.spoil(image, lambda tag: tag.kind == nofs.CONTENT and tag.slot == 1)
        found, said = self.unpacked(image, status=1)
        self.assertEqual(said, ["nofs-unpack: /d/f: slot 1 lost, bytes 1024 to 2047"])
        self.assertEqual(found["d/f"], b"a" * 1024 + b"\0" * 1024 + b"c" * 500)

    def test_a_lost_slot_of_a_directory_is_told(self):
        write(self.at("in", "d", "f"), b"x")
        image = self.packed(self.at("in"))
        self.spoil(image, lambda tag: tag.kind == nofs.DIRECTORY and tag.inode != nofs.ROOT)
        found, said = self.unpacked(image, status=1)
        self.assertEqual(said, ["nofs-unpack: /d: slot 0 lost, with its entries 0 to 15"])
        self.assertEqual(found, {"d": None})

    def test_a_dead_entry_is_told(self):
        write(self.at("in", "f"), b"x")
        write(self.at("in", "g"), b"y")
        image = self.packed(self.at("in"))
        data = bytearray(read(image))
        at = nofs.CELL + 2 * 256            # the record of inode 3
        data[at:at + 256] = bytes(256)
        write(image, data)
        found, said = self.unpacked(image, status=1)
        self.assertEqual((found, said), ({"g": b"y"}, ["nofs-unpack: /: dead entry f"]))

    def test_a_name_that_stands_twice_is_told(self):
        write(self.at("in", "f"), b"x")
        write(self.at("in", "g"), b"y")
        image = self.packed(self.at("in"))
        data = read(image)
        at = data.index(b"g" + bytes(47), 5 * nofs.CELL)
        write(image, data[:at] + b"f" + data[at + 1:])
        found, said = self.unpacked(image, status=1)
        self.assertEqual((found, said), ({"f": b"x"}, ["nofs-unpack: /: the name f twice, the first alone is found"]))

    def test_what_cannot_be_served_has_status_3(self):
        write(self.at("none.img"), b"")
        tool("nofs-unpack", self.at("none.img"), self.at("out"), status=3)
        tool("nofs-unpack", self.at("missing.img"), self.at("out"), status=3)
        self.assertFalse(os.path.exists(self.at("missing.img")))

    def spoil(self, image, which):
        """Raises the stamp in the tags of some blocks, so that no pointer agrees with them."""
        data = bytearray(read(image))
        for at in range(nofs.PAYLOAD, len(data), nofs.CELL):
            if which(nofs.read_tag(bytes(data[at:at + 32]))):
                data[at + 24] ^= 255
        write(image, data)


class Crashes(Trees):
    """Crashed images: what the program serves, and what the page says by the format alone."""

    def crashed(self, seed):
        draw = random.Random(seed)
        before, after, out = self.at("before.img"), self.at("after.img"), self.at("crash.img")
        serve(before, b"".join(self.old_session()), "new", "256", "32")
        write(after, read(before))
        serve(after, b"".join(self.new_session()))
        crash(before, after, out, lambda block: draw.random() < 0.5)
        return before, out

    def old_session(self):
        for name in range(8):
            yield b"make /old%d\nput /old%d 0 %b\n" % (name, name, b"41" * (2000 + 1100 * name))

    def new_session(self):
        yield b"mkdir /new\ndrop /old0\ndrop /old1\nsize /old5 0\n"
        for name in range(8):
            yield b"make /new/f%d\nput /new/f%d 0 %b\n" % (name, name, b"42" * (2000 + 1100 * name))
        yield b"put /old2 100 %b\nrename /old3 named\n" % (b"43" * 3000)

    def test_the_page_and_the_program_agree_on_crashed_images(self):
        lost = 0
        for seed in range(6):
            before, image = self.crashed(seed)
            data = self.picture(image)["images"][0]
            out = self.at(f"out{seed}")
            done = subprocess.run([sys.executable, os.path.join(TOOLS, "nofs-unpack"), image, out], stderr=subprocess.PIPE)
            said = done.stderr.decode()
            slots = [file for file in data["files"] if not file["folder"] for name in file["names"] if name != "@"]
            told = sum(file["values"][:-(-file["size"] // 1024)].count("l") for file in slots)
            dead = sum(1 for name in data["names"] if name[5])
            self.assertEqual((said.count(" lost, bytes "), said.count("dead entry")), (told, dead))
            self.assertEqual(done.returncode, 1 if said else 0)
            self.assertEqual(len(slots), sum(data is not None for data in tree(out).values()))
            lost += told + dead
        self.assertGreater(lost, 0)

    def test_the_page_counts_as_the_scan_does(self):
        for seed in range(3):
            self.counted(self.crashed(seed)[1])

    def test_the_page_counts_as_the_scan_does_on_damaged_images(self):
        image = self.crashed(4)[1]
        sound = read(image)
        for seed in range(6):
            write(image, damaged(sound, random.Random(seed), 9))
            self.counted(image)

    def counted(self, image):
        """Compares the page with the program's scan."""
        data = self.picture(image)["images"][0]
        used = sum(kind in "stcdl" for kind in data["kinds"])
        inodes = len({file["inode"] for file in data["files"] if file["names"]} | {1, 2})
        line = run([NOFS, image, "scan"])[0].decode()
        self.assertEqual(line, f"inodes used {inodes} free {32 - inodes} unchecked 0, blocks used {used} free {256 - used} unchecked 0\n")

    def test_two_images_differ_in_the_blocks_that_were_written(self):
        before, image = self.crashed(1)
        told = self.picture(before, "--compare", image)["differ"]
        one, other = read(before), read(image)
        blocks = [str(at // nofs.CELL) for at in range(0, len(other), nofs.CELL)
                  if one[at:at + nofs.CELL].ljust(nofs.CELL, b"\0") != other[at:at + nofs.CELL]]
        self.assertEqual(list(told), blocks)

    def test_the_page_needs_no_network_and_leaves_the_image(self):
        _, image = self.crashed(2)
        data = read(image)
        self.picture(image)
        self.assertEqual(read(image), data)
        self.assertIsNone(re.search(rb"https?:|src=|@import|url\(", read(self.at("page.html"))))

    def test_the_picture_of_an_image_in_pages_is_that_of_its_cells(self):
        _, image = self.crashed(3)
        packed, want = read(image), self.picture(image)["images"][0]
        for made in (pages.paged, pages.twin, lambda cells: pages.twin(cells, 3)):
            write(image, made(packed))
            self.assertEqual(self.picture(image)["images"][0], want)
        data = bytearray(pages.paged(packed))
        data[4096 * 3 + 1000] ^= 1
        write(image, data)
        said = tool("nofs-picture", image, self.at("page.html"))[1]
        self.assertEqual(said, f"nofs-picture: {image}: page 3 can't be told, with its blocks 9 to 11\n")

    def picture(self, image, *words):
        """What the page is told."""
        tool("nofs-picture", image, self.at("page.html"), *words)
        page = read(self.at("page.html")).decode()
        return json.loads(re.search(r"^const TOLD = (.*);$", page, re.M).group(1))


class Layouts(unittest.TestCase):
    """Images in pages, and in twin pages."""

    CELLS = random.Random(7).randbytes(10 * nofs.CELL)

    def test_cells_are_read_as_they_were_laid(self):
        for made in (pages.paged, pages.twin, lambda cells: pages.twin(cells, 9)):
            cells, bad = pages.cells_of(made(self.CELLS))
            self.assertEqual((cells[:len(self.CELLS)], cells[len(self.CELLS):].strip(b"\0"), bad), (self.CELLS, b"", []))

    def test_a_page_that_is_no_longer_itself_is_named(self):
        for at in (0, 3, 9, 17, 1000, 4095):            # its magic, its number, its sum, its cells
            data = bytearray(pages.paged(self.CELLS))
            data[2 * 4096 + at] ^= 1
            self.assertEqual(pages.cells_of(data), (pages.cells_of(pages.paged(self.CELLS))[0][:6336] + bytes(3168)
                                                    + pages.cells_of(pages.paged(self.CELLS))[0][9504:], [2]))

    def test_the_later_place_of_a_twin_that_is_told_counts(self):
        old, new = bytes([1]) * 3168, bytes([2]) * 3168
        low, high = pages.twin_of(0, 4, old), pages.twin_of(0, 5, new)
        self.assertEqual(pages.cells_of(low + high), (new, []))
        self.assertEqual(pages.cells_of(low + high[:-1] + b"\0"), (old, []))
        self.assertEqual(pages.cells_of(pages.twin_of(0, 6, new) + pages.twin_of(0, 5, old)), (new, []))
        self.assertEqual(pages.cells_of(low + pages.twin_of(1, 7, new)), (old, []))     # it is another's
        self.assertEqual(pages.cells_of(low + pages.twin_of(0, 6, new)), (old, []))     # it belongs to the other place
        self.assertEqual(pages.cells_of(low[:-1] + b"\0" + bytes(4096)), (bytes(3168), []))
        self.assertEqual(pages.cells_of(low[:-1] + b"\0" + high[:-1] + b"\0"), (bytes(3168), [0]))


class Format(unittest.TestCase):
    """The worked bytes of docs/FORMAT.md."""

    def test_worked_bytes_are_read(self):
        tag = bytes.fromhex("01000000 02000000 0200000000000000 0000000000000000 0000000000010000")
        self.assertEqual(nofs.read_tag(tag), (nofs.CONTENT, 2, 2, 0, S))
        self.assertEqual(nofs.read_pointers(bytes.fromhex("0500000000000000 0900000000010000")), [(5, S + 9)])
        entry = bytes.fromhex("03000000 01000000 0000000000010000 61").ljust(64, b"\0")
        self.assertEqual(nofs.read_entry(entry), (3, S, b"a"))
        record = bytes.fromhex("0200000000000000 01000000 00000000 0300000000000000 0000000000000000").ljust(256, b"\0")
        self.assertEqual(nofs.read_record(record)[:4], (2, nofs.FILE, 3, []))

    def test_bytes_that_spell_nothing(self):
        self.assertIsNone(nofs.read_tag(b"\xff" * 32))
        self.assertIsNone(nofs.read_tag(bytes(31) + b"\1"))
        self.assertIsNone(nofs.read_entry(b"\xff" * 64))
        self.assertEqual(nofs.read_record(b"\xff" * 256), nofs.NO_RECORD)

    def test_a_lost_block_of_pointers_loses_what_is_below(self):
        lost = nofs.Slot(nofs.LEAF_SLOT, nofs.Pointer(9, S), nofs.Tag(3, 2, 2, nofs.LEAF_SLOT, S), True, None)
        self.assertEqual(nofs.values([lost], 80), "h" * 8 + "l" * 64 + "h" * 8)
        child = lost._replace(number=nofs.CHILD_SLOT + 1)
        self.assertEqual(nofs.values([child], 140), "h" * 136 + "l" * 4)
