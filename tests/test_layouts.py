"""Images in pages and in twin pages: the same lines as of packed ones, one write of a page between two syncs, the file as it is
opened, and what a crash of the host leaves of an ordinary day, by a log of the program's own calls."""
import os
import random
import re
import shutil
import subprocess
import unittest

from nofs import client
from tests.common import NOFS, Folders, read, run, serve, write
from tests.test_sessions import SERVED

LAYOUTS = ("paged:", "twin:")
BLOCKS, INODES = 4096, 64
PAGE = 4096


def day(seed, users, rounds=12):
    """The text of an ordinary session: each user makes files, writes them over, renames and drops some, and syncs now and then."""
    draw, parts = random.Random(seed), []
    for user in range(users):
        lines = [f"mkdir /u{user}"]
        for number in range(rounds):
            path = f"/u{user}/f{number}"
            lines += [f"make {path}", f"put {path} 0 {content(user, number, draw.choice((700, 1024, 5000, 20000)))}"]
            if number % 4 == 2:
                lines.append(f"put {path} 0 {content(user, number + 100, 600)}")
            if number % 4 == 3:
                lines += [f"rename {path} g{number}", f"drop /u{user}/f{number - 1}", f"fsync /u{user}"]
        parts.append("\n".join(lines))
    return "\nuser\n".join(parts).encode() + b"\n"


def content(user, number, size):
    """Bytes that tell whose they are: the user and the number of the file, over and over."""
    return (b"%02d%04d__" % (user, number) * (size // 8 + 1))[:size].hex()


def got(data):
    """The line of a get of these bytes, which begin a file: a word for each slot."""
    return "got" + "".join(f" bytes:{data[at:at + 2048]}" for at in range(0, len(data), 2048))


def put(image, at, data):
    """Puts bytes at a place, with zeros between the end and it."""
    image.extend(bytes(max(0, at + len(data) - len(image))))
    image[at:at + len(data)] = data


class Lines(Folders):
    def test_each_session_has_the_same_lines_in_each_layout(self):
        for number, (text, lines) in enumerate(SERVED):
            for layout in LAYOUTS:
                with self.subTest(layout=layout, text=text[:60]):
                    path = self.at(f"{layout[:-1]}{number}.img")
                    self.assertEqual(serve(layout + path, text, "new", "64", "16"), lines)

    def test_each_command_has_the_same_lines_in_each_layout(self):
        said = {}
        for layout in ("", *LAYOUTS):
            path = self.at(f"{layout[:-1] or 'packed'}.img")
            told = [run([NOFS, layout + path, "new", str(BLOCKS), str(INODES)], day(1, 2))[0]]
            told += [run([NOFS, path, *words], text)[0] for words, text in (
                (["scan"], b""), (["upgrade"], b""), (["salvage"], b""), (["run"], b"list /u0\nget /u1/f4 0 64\nput @ 70000 00\nput @ 0 61\n"))]
            told.append(run([NOFS, layout + self.at("drill.img"), "drill", "7", "300"])[0])
            said[layout] = told
        for layout in LAYOUTS:
            self.assertEqual(said[layout], said[""])

    def test_frames_are_served_in_each_layout(self):
        for layout in LAYOUTS:
            path = self.at("frames.img")
            serve(layout + path, b"put @ 0 616263\n", "new", "64", "16")
            wire = client.Wire(NOFS, path)
            field = wire.ask(client.GET, client.handle((2, 2)) + bytes(8))
            self.assertEqual(field[:4], b"\1abc")
            self.assertEqual(wire.close(), 0)

    def test_a_mirror_takes_files_of_each_layout(self):
        lead, other = self.at("a.img"), self.at("b.img")
        for layout in LAYOUTS:
            serve(f"{layout}mirror:64:{lead}:{other}", b"put @ 0 616263\n", "new", "64", "16")
            for path in (lead, other):
                self.assertEqual(serve(path, b"get @ 0 3\n"), ["got bytes:616263"])
        serve(lead, b"put @ 0 646566\n")
        serve(other, b"", "new", "64", "16")                    # a packed one
        self.assertEqual(serve(f"mirror:64:{lead}:{other}", b"get @ 0 3\n"), ["got bytes:646566"])
        self.assertEqual(serve(other, b"get @ 0 3\n"), ["got bytes:646566"])

    def test_a_bad_page_costs_its_cells_and_no_more(self):
        path = self.at("disk.img")
        serve("paged:" + path, b"".join(b"put @ %d %b\n" % (1024 * slot, b"%02x" % (65 + slot) * 1024) for slot in range(8)), "new", "64", "16")
        whole = read(path)
        bad = [at for at in range(PAGE, len(whole), PAGE) if b"D" * 1024 in whole[at:at + PAGE]][0]
        write(path, whole[:bad + 2000] + bytes([whole[bad + 2000] ^ 1]) + whole[bad + 2001:])
        lines = serve(path, b"".join(b"get @ %d 1\n" % (1024 * slot) for slot in range(8)), status=None)
        told = [slot for slot, line in enumerate(lines[:8]) if line == f"got bytes:{65 + slot:02x}"]
        self.assertNotIn(3, told)
        self.assertGreaterEqual(len(told), 5)
        self.assertEqual({line for slot, line in enumerate(lines[:8]) if slot not in told}, {"refused 18 read fault"})

    def test_new_writes_over_whatever_was_there(self):
        for layout in LAYOUTS:
            path = self.at("disk.img")
            write(path, random.Random(3).randbytes(300_000))
            self.assertEqual(serve(layout + path, b"put @ 0 616263\n", "new", "64", "16"), ["put 3"])
            self.assertEqual(serve(path, b"get @ 0 3\n"), ["got bytes:616263"])


class FilesOpened(Folders):
    """A file as it is opened."""

    def test_only_new_and_drill_make_a_file(self):
        for words in (["run"], ["scan"], ["upgrade"], ["salvage"], ["wire"]):
            for image in (self.at("a.img"), f"mirror:64:{self.at('a.img')}:{self.at('b.img')}", "paged:" + self.at("a.img")):
                self.assertEqual(run([NOFS, image, *words], b"", 3)[0], b"device fault\n")
        self.assertEqual(os.listdir(self.room), [])

    def test_a_lead_that_cannot_be_mounted_leaves_the_other_file(self):
        good, empty = self.at("good.img"), self.at("empty.img")
        serve(good, b"put @ 0 616263\n", "new", "64", "16")
        before = read(good)
        write(empty, b"")
        self.assertEqual(serve(f"mirror:64:{empty}:{good}", b"", status=4), ["mount: bad magic 0000000000000000"])
        self.assertEqual(read(good), before)

    def test_a_lead_that_names_more_blocks_than_the_mirror_leaves_the_other_file(self):
        for layout in LAYOUTS:
            good, large = self.at("good.img"), self.at("large.img")
            serve(good, b"put @ 0 616263\n", "new", "64", "16")
            serve(layout + large, b"put @ 0 646566\n", "new", "128", "16")
            before = read(good), read(large)
            for words in (["run"], ["scan"], ["salvage"], ["upgrade"], ["wire"]):
                lines = serve(f"mirror:64:{large}:{good}", b"", *words, status=4)
                self.assertEqual(lines, ["mount: device too small, has 64"])
                self.assertEqual((read(good), read(large)), before)
            self.assertEqual(serve(f"mirror:64:{large}:{good}", b"frob", status=2), ["line 1: unknown command"])
            self.assertEqual((read(good), read(large)), before)

    def test_a_file_that_has_lost_its_name_takes_no_flush(self):
        for taken_away in (os.unlink, lambda path: os.replace(self.at("new.img"), path)):
            path = self.at("disk.img")
            for name in (path, self.at("new.img")):
                serve(name, b"", "new", "64", "16")
            wire = client.Wire(NOFS, path)
            wire.claim(client.PUT, client.handle((2, 2)) + bytes(12) + b"abc" + bytes(1021))
            wire.ask(client.FLUSH, client.handle((2, 2)))
            taken_away(path)
            wire.claim(client.PUT, client.handle((2, 2)) + bytes(12) + b"def" + bytes(1021))
            with self.assertRaises(client.Refused):
                wire.ask(client.FLUSH, client.handle((2, 2)))
            self.assertEqual(wire.close(), 3)


@unittest.skipUnless(shutil.which("strace"), "no strace")
class Logged(Folders):
    """The calls of the program, by strace."""

    def calls(self, image, path, text, *words):
        """The writes and syncs of a file: (place, bytes) of a write, None of a sync, and the name of the first call of a sync or a read."""
        log = self.at("log")
        run(["strace", "-f", "-y", "-s", "1000000", "-xx", "-e", "trace=pread64,pwrite64,fdatasync,fsync", "-o", log, NOFS, image, *words], text)
        calls, first = [], None
        for line in re.sub(rb" <unfinished \.\.\.>\n", b"\n", read(log)).splitlines():
            name = re.search(rb"(pread64|pwrite64|fdatasync|fsync)\(", line)
            if not name or os.path.basename(path).encode() not in self.named(line):
                continue
            first = first or name[1]
            if name[1] == b"pwrite64":
                data = re.search(rb'"((?:\\x[0-9a-f]{2})*)", (\d+), (\d+)', line)
                calls.append((int(data[3]), bytes.fromhex(data[1].replace(b"\\x", b"").decode())))
            elif name[1] != b"pread64":
                calls.append(None)
        return calls, first

    @staticmethod
    def named(line):
        """The path that strace tells behind the number of a file, spelled out."""
        found = re.search(rb"\(\d+<((?:\\x[0-9a-f]{2}|[^>])*)>", line)
        return re.sub(rb"\\x([0-9a-f]{2})", lambda it: bytes([int(it[1], 16)]), found[1]) if found else b""

    def versions(self, base, calls, point, unit, draw):
        """What a crash behind so many calls may leave: of each unit that was written since the last sync one of its contents since then."""
        last = max((at for at in range(point) if calls[at] is None), default=-1)
        image = bytearray(base)
        for call in filter(None, calls[:last + 1]):
            put(image, *call)
        for at, data in filter(None, calls[last + 1:point]):
            image.extend(bytes(max(0, at + len(data) - len(image))))
            for first in range(at - at % unit, at + len(data), unit):
                if draw.random() < 0.5:
                    begin, end = max(first, at), min(first + unit, at + len(data))
                    image[begin:end] = data[begin - at:end - at]
        return bytes(image)

    def crashes(self, layout, unit, users, version, count):
        """Crash images of a day: each can be mounted, a scan examines all, what was there before is, and no file has bytes of another."""
        draw, path, left = random.Random(f"{layout}{unit}{users}{version}"), self.at("disk.img"), self.at("left.img")
        kept = b"".join(b"make /kept%d\nput /kept%d 0 %b\n" % (number, number, content(99, number, 3000).encode()) for number in range(4))
        serve(layout + path, kept, "new", str(BLOCKS), str(INODES))
        if version == 2:
            run([NOFS, path, "upgrade"])
        base = read(path)
        calls, _ = self.calls(path, path, day(users, users, 8), "run")
        looks = b"".join(b"get /kept%d 0 3000\n" % number for number in range(4))
        names = [f"/u{user}/{kind}{number}" for user in range(users) for number in range(8) for kind in "fg"]
        looks += b"".join(b"get %b 0 20000\n" % name.encode() for name in names)
        for _ in range(count):
            write(left, self.versions(base, calls, draw.randrange(len(calls)), unit, draw))
            counts = run([NOFS, left, "scan"])[0]
            self.assertEqual(counts.count(b" unchecked 0"), 2, counts)
            lines = serve(left, looks)
            self.assertEqual(lines[:4], [got(content(99, number, 3000)) for number in range(4)])
            for name, line in zip(names, lines[4:]):
                user, number = (int(part) for part in re.findall(r"\d+", name))
                for part in re.findall(r"bytes:([0-9a-f]+)", line):
                    self.assertLessEqual(set(re.findall(rb"\d{6}__", bytes.fromhex(part))), self.own(user, number), name)

    @staticmethod
    def own(user, number):
        """What the bytes of a file tell: who wrote them, in either of its two versions."""
        return {b"%02d%04d__" % (user, which) for which in (number, number + 100)}

    def test_a_day_has_as_many_syncs_in_pages_as_in_cells(self):
        for users in (1, 8):
            syncs = []
            for layout in ("", *LAYOUTS):
                path = self.at(f"{users}{layout[:-1]}.img")
                serve(layout + path, b"", "new", str(BLOCKS), str(INODES))
                syncs.append(self.calls(path, path, day(users, users, 8), "run")[0].count(None))
            self.assertEqual(len(set(syncs)), 1, syncs)

    def test_what_a_crash_leaves_of_a_day_is_clean_and_kept_and_of_its_files(self):
        for layout, unit in (("paged:", PAGE), ("twin:", 512), ("twin:", 1)):
            for users in (1, 2, 8):
                for version in (1, 2):
                    with self.subTest(layout=layout, unit=unit, users=users, version=version):
                        self.crashes(layout, unit, users, version, 12)

    def test_what_a_killed_program_leaves_is_clean_and_kept(self):
        draw = random.Random(5)
        for layout in LAYOUTS:
            path = self.at("disk.img")
            serve(layout + path, b"make /kept\nput /kept 0 %b\n" % content(99, 1, 3000).encode(), "new", str(BLOCKS), str(INODES))
            for _ in range(12):
                program = subprocess.Popen([NOFS, path, "run"], stdin=subprocess.PIPE, stdout=subprocess.DEVNULL)
                try:
                    program.stdin.write(day(3, 4))
                    program.stdin.close()
                except BrokenPipeError:
                    pass
                try:
                    program.wait(draw.random() / 10)
                except subprocess.TimeoutExpired:
                    program.kill()
                program.wait()
                counts = run([NOFS, path, "scan"])[0]
                self.assertEqual(counts.count(b" unchecked 0"), 2, counts)
                self.assertEqual(serve(path, b"get /kept 0 3000\n"), [got(content(99, 1, 3000))])

    def test_a_file_is_synced_before_it_is_read(self):
        path = self.at("disk.img")
        for layout in ("", *LAYOUTS):
            serve(layout + path, b"", "new", "64", "16")
            self.assertEqual(self.calls(path, path, b"stat @\n", "run")[1], b"fdatasync")

    def test_a_flush_is_one_sync_and_a_write_none(self):
        for layout in ("", *LAYOUTS):
            path = self.at("disk.img")
            serve(layout + path, b"", "new", "64", "16")
            for asked in (0, 1, 9):
                session = b"put @ 0 61\n" * 3 + b"put @ 0 62\nfsync @\n" * asked
                # The file as it is opened, the mount's, those that are asked for, and the last.
                self.assertEqual(self.calls(path, path, session, "run")[0].count(None), 3 + asked)

    def test_no_page_is_written_twice_between_two_syncs(self):
        for layout, size in zip(LAYOUTS, (PAGE, 2 * PAGE)):
            for users in (1, 2, 8):
                with self.subTest(layout=layout, users=users):
                    path = self.at(f"{users}.img")
                    calls, _ = self.calls(layout + path, path, day(users, users), "new", str(BLOCKS), str(INODES))
                    since, syncs = set(), 0
                    for call in calls:
                        if call is None:
                            since, syncs = set(), syncs + 1
                            continue
                        at, data = call
                        self.assertEqual((at % PAGE, len(data) % PAGE), (0, 0))
                        pages = set(range(at // size, (at + len(data) - 1) // size + 1))
                        self.assertFalse(pages & since)
                        since |= pages
                    # The file as it is opened, the format's, the mount's, those of the day, and the last; few more.
                    asked = 4 + day(users, users).count(b"fsync")
                    self.assertLessEqual(syncs, asked + asked // 4 + 2 if users < 8 else 3 * asked)
