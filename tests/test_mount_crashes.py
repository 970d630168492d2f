"""A mount whose program, server or machine goes down: what was durable is there, nothing is another file's, and a name that
was replaced leads to the old file or the new one. $NOFS_CRASHES (6) is how many crashes of each kind are drawn."""
import collections
import json
import os
import random
import re
import shutil
import signal
import struct
import subprocess
import sys
import threading
import time
import unittest

from tests.common import DEV, TESTS, TOP, read, run, write
from tests.test_mount import CELL, SECONDS, Mounted

CRASHES = int(os.environ.get("NOFS_CRASHES", "6"))
RECORD = re.compile(rb"F(\d{7})v(\d{7})@(\d{6})\.(\d\d)\|\.\.\.\.\n")
BYTES = 30000


class Durable:
    """What a log of mounted_work.py says of a folder: what was durable, and what may have come since."""

    def __init__(self, lines):
        last = max((at for at, line in enumerate(lines) if line["what"] == "durable"), default=-1)
        self.names, self.sizes, self.versions = {}, {}, collections.defaultdict(dict)
        for line in lines[:last]:
            self.take(line)
        self.may_be = collections.defaultdict(lambda: collections.defaultdict(set))
        self.may_have = collections.defaultdict(set)
        for name, file in self.names.items():
            self.may_have[name].add(file)
        self.changed, self.touched = set(), set()
        for line in lines[last + 1:]:
            self.take_later(line)

    def take(self, line):
        if line["what"] == "durable":
            return
        name, file = line["name"], line["file"]
        if line["what"] in ("trunc", "new"):
            self.names[name], self.sizes[file], self.versions[file] = file, line["size"], {}
        if "low" in line:
            self.versions[file].update({slot: line["version"] for slot in range(line["low"], line["high"])})
        if line["what"] in ("unlink", "rename"):
            self.names.pop(name, None)
        if line["what"] == "rename":
            self.names[line["to"]] = file

    def take_later(self, line):
        for name in (line["name"], line.get("to", line["name"])):
            self.changed.add(name)
            self.may_have[name].add(line["file"])
        self.touched.add(line["file"])
        for slot in range(line.get("low", 0), line.get("high", 0)):
            self.may_be[line["file"]][slot].add(line["version"])

    def faults_of_slot(self, name, slot, data):
        """Records of another file, place or version than may be there."""
        for at in range(0, len(data), 32):
            found = RECORD.fullmatch(data[at:at + 32])
            if not found:
                if data[at:at + 32].strip(b"\0"):
                    yield f"{name} slot {slot}: no record"
                continue
            file, version, place = (int(found[number]) for number in (1, 2, 3))
            if file not in self.may_have[name]:
                yield f"{name} slot {slot}: of file {file}"
            elif place != slot:
                yield f"{name} slot {slot}: of slot {place}"
            elif version != self.versions[file].get(slot) and version not in self.may_be[file][slot]:
                yield f"{name} slot {slot}: of version {version}"

    def faults_of_file(self, top, name):
        path = os.path.join(top, name)
        size, lost = os.stat(path).st_size, False
        with open(path, "rb", buffering=0) as file:
            for slot in range(-(-size // 1024)):
                try:
                    yield from self.faults_of_slot(name, slot, os.pread(file.fileno(), 1024, slot * 1024))
                except OSError:
                    lost = True
        number = self.names.get(name)
        if name not in self.changed and number not in self.touched and (lost or size != self.sizes[number]):
            yield f"{name}: was durable, and is not whole"

    def faults(self, top):
        there = set(os.listdir(top))
        yield from (f"{name}: was durable, and is missing" for name in set(self.names) - there - self.changed)
        for name in sorted(there):
            if name not in self.may_have:
                yield f"{name}: nobody made it"
            else:
                yield from self.faults_of_file(top, name)


class Kills(Mounted):
    """The program, the server, or both are killed at a drawn moment of work."""

    def test_what_was_synced_outlives_kills(self):
        draw = random.Random(1)
        for number in range(CRASHES):
            with self.subTest(number=number):
                self.crash_once(number, ("program", "server", "both")[number % 3], draw.uniform(0.3, 2))

    def crash_once(self, number, which, seconds):
        self.renew()
        log = self.at(f"log{number}")
        work = subprocess.Popen([sys.executable, os.path.join(TESTS, "mounted_work.py"), self.top, log, str(number)], stderr=subprocess.DEVNULL)
        while work.poll() is None and not os.path.exists(log):
            time.sleep(0.02)
        time.sleep(seconds)
        work.send_signal(signal.SIGSTOP)        # what it would do after the crash is none of its log
        self.kill(which)
        work.kill()
        work.wait(SECONDS)
        durable = Durable([json.loads(line) for line in read(log).splitlines() if line.endswith(b"}")])
        if which == "program":
            self.assertEqual(list(durable.faults(self.top))[:5], [])
        self.remount()
        self.assertEqual(list(durable.faults(self.top))[:5], [])

    def kill(self, which):
        program = self.program()
        if which != "program":
            os.kill(self.mount.pid, signal.SIGSTOP)
        if which != "server":
            os.kill(program, signal.SIGKILL)
        if which == "program":
            return
        self.drop()
        self.mount = None
        while os.path.exists(f"/proc/{program}"):       # a program whose client is gone ends by itself
            time.sleep(0.02)


class Replaced(Mounted):
    """The program is killed in the middle of replaces, and the mount goes on."""

    def replace(self, stop, done):
        number = 0
        while not stop.is_set():
            number += 1
            try:
                with open(self.path("conf.new"), "wb") as file:
                    file.write(b"%d" % (number % 10) * BYTES)
                    if number % 2:
                        file.flush()
                        os.fsync(file.fileno())
                os.rename(self.path("conf.new"), self.path("conf"))
                done.append(number)
            except OSError:
                pass

    def check(self):
        """A read of the whole file gives all of one version, or an error."""
        try:
            data = read(self.path("conf"))
        except OSError:
            return
        self.assertEqual((len(data), len(set(data))), (BYTES, 1))

    def test_no_read_gets_fewer_bytes(self):
        draw, stop, done = random.Random(3), threading.Event(), []
        writer = threading.Thread(target=self.replace, args=(stop, done))
        writer.start()
        try:
            while not done:
                time.sleep(0.01)
            for _ in range(CRASHES):
                time.sleep(draw.uniform(0.02, 0.15))
                subprocess.run(["pkill", "-KILL", "-P", str(self.mount.pid)], check=False)
                self.check()
                time.sleep(0.05)
                self.check()
        finally:
            stop.set()
            writer.join(SECONDS)
        self.remount()
        self.check()
        self.assertGreater(len(done), CRASHES)


@unittest.skipUnless(shutil.which("cc"), "no C compiler")
class PowerCuts(Mounted):
    """A file that is replaced again and again: the writes of the program are logged, and images of power cuts are made of them."""

    inodes = 256

    def setUp(self):
        super().setUp()
        self.unmount()
        self.log, library = self.at("writes"), self.at("log_writes.so")
        run(["cc", "-shared", "-fPIC", "-o", library, os.path.join(DEV, "log_writes.c"), "-ldl"])
        script = self.at("logged")
        write(script, f"#!/bin/sh\nLD_PRELOAD={library} LOG_WRITES={self.log} exec {self.nofs} \"$@\"\n".encode())
        os.chmod(script, 0o755)
        self.logged = script

    def put(self, path, byte):
        file = os.open(path, os.O_CREAT | os.O_WRONLY, 0o640)
        os.write(file, byte * 3000)
        os.fsync(file)
        os.close(file)

    def replaces(self, folder, new):
        """The image before, and the records of what was written while `conf` was replaced."""
        base, plain = read(self.image), self.nofs
        self.nofs = self.logged
        self.remount()
        os.makedirs(os.path.join(self.top, folder), exist_ok=True)
        os.mkdir(self.path("other"))
        conf = self.path(folder, "conf")
        for number in range(40):                # entries in three slots
            os.mknod(self.path(folder, f"n{number}"))
        self.put(conf, b"0")
        begun = os.stat(self.log).st_size
        for number in range(100):
            self.put(self.path(new), b"%d" % (number % 10))
            os.rename(self.path(new), conf)
            if number % 5 == 2:                 # the new file's entry comes to stand before and behind
                os.rename(self.path(folder, f"n{number % 40}"), self.path("other", f"n{number}"))
                os.mknod(self.path(folder, f"n{number % 40}"))
            if number % 7 == 3:
                os.rename(conf, conf + ".x")
                os.rename(conf + ".x", conf)
        self.unmount()
        self.nofs = plain
        return base, begun, self.records()

    def records(self):
        data, at, found = read(self.log), 0, []
        while at < len(data):
            kind, place, length = struct.unpack_from("<3Q", data, at)
            at += 24 + length
            found.append((at, kind, place, data[at - length:at]))
        return found

    def cut(self, base, records, at, draw):
        """An image with all before the last flush, and a drawn part of the cells since."""
        last = max(number for number in range(at + 1) if records[number][1] == 2)
        image = bytearray(base)
        for _, kind, place, data in records[:last]:
            if kind == 1:
                image[place:place + len(data)] = data
        cells = [(place + part, data[part:part + CELL]) for _, kind, place, data in records[last:at + 1] if kind == 1
                 for part in range(0, len(data), CELL)]
        share = draw.choice((0.2, 0.5, 0.8))
        kept = [cell for cell in cells if draw.random() < share]
        draw.shuffle(kept)
        for place, data in kept:
            image[place:place + len(data)] = data
        return bytes(image)

    def check(self, folder, new):
        draw = random.Random(5)
        base, begun, records = self.replaces(folder, new)
        first = next(number for number, record in enumerate(records) if record[0] >= begun)
        for number in range(CRASHES):
            at = draw.randrange(first + 1, len(records))
            self.unmount()
            write(self.image, self.cut(base, records, at, draw))
            self.remount()
            with self.subTest(number=number, at=at, names=sorted(os.listdir(self.path(folder)))):
                name = "conf" if os.path.exists(self.path(folder, "conf")) else "conf.x"
                data = read(self.path(folder, name))
                self.assertEqual((len(data), len(set(data)), os.stat(self.path(folder, name)).st_mode & 0o777), (3000, 1, 0o640))

    def test_what_is_durable_is_not_flushed_again(self):
        self.nofs = self.logged
        self.remount()
        counts = []
        file, folder = os.open(self.path("f"), os.O_CREAT | os.O_RDWR), os.open(self.top, os.O_RDONLY)
        for change in (lambda: os.write(file, b"x"), lambda: os.fsync(folder), lambda: os.chmod(self.path("f"), 0o600), lambda: None):
            change()
            os.fsync(file)
            counts.append(sum(kind == 2 for _, kind, _, _ in self.records()))
        os.close(file)
        os.close(folder)
        self.assertEqual([count - counts[0] for count in counts], [0, 0, 1, 1])

    def test_a_name_has_the_old_or_the_new_file(self):
        self.check("d", "d/conf.new")

    def test_so_it_has_where_the_new_one_comes_from_another_folder(self):
        self.check("d", "other/new")


class Hostile(Mounted):
    """Images with drawn bytes in drawn places. What can't be told is an error, of the mount or of a call, and the server goes on."""

    blocks, inodes = 512, 64

    def fill(self):
        for number in range(12):
            write(self.path(f"d{number % 3}", "e", f"f{number}"), b"%d" % number * 3000)
        for number in range(4):
            write(self.path("new"), b"x" * 5000)
            os.chmod(self.path("new"), 0o600 + number)
            os.replace(self.path("new"), self.path("d0", "conf"))
        self.unmount()

    def damaged(self, base, draw):
        """Bytes are changed, and cells put in the place of others, where the image has any."""
        image = bytearray(base)
        used = [at for at in range(0, len(base), CELL) if any(base[at:at + CELL])]
        for _ in range(draw.choice((1, 3, 10, 100))):
            at = draw.choice(used)
            if draw.random() < 0.2:
                other = draw.choice(used)
                image[at:at + 1024] = image[other:other + 1024]
            else:
                image[at + draw.randrange(draw.choice((16, 64, CELL)))] = draw.choice((0, 1, 255, draw.randrange(256)))
        return bytes(image)

    def attempt(self, call, *words):
        try:
            return call(*words)
        except OSError:
            return None

    def use(self):
        for at, folders, files in os.walk(self.top):
            for name in files:
                path = os.path.join(at, name)
                self.attempt(read, path)
                self.attempt(os.truncate, path, 900)
                self.attempt(write, path, b"y" * 2000)
                self.attempt(os.replace, path, path + ".x")
                self.attempt(os.link, path + ".x", path)
            for name in folders:
                self.attempt(os.rmdir, os.path.join(at, name))
                self.attempt(os.mkdir, os.path.join(at, name + ".x"))
        shutil.rmtree(self.top, ignore_errors=True)

    def mount_and_use(self):
        try:
            self.remount()
        except AssertionError:
            self.assertIn(self.mount.wait(SECONDS), range(1, 8))
            self.assertIn(b"nofs-mount: ", read(self.at("said")))
            self.end()
            return 0
        self.use()
        self.assertIsNone(self.mount.poll())
        self.umount()
        self.assertIn(self.mount.wait(SECONDS), range(8))
        self.end()
        return 1

    def end(self):
        self.mount = None
        self.said.close()

    def test_images_that_are_drawn(self):
        self.fill()
        base, mounted = read(self.image), 0
        for seed in range(4 * CRASHES):
            with self.subTest(seed=seed):
                write(self.image, self.damaged(base, random.Random(seed)))
                mounted += self.mount_and_use()
        self.assertGreater(mounted, 0)


class Nonsense(Mounted):
    """Programs that answer what no NoFS answers: EIO, and the server goes on."""

    def serve_by(self, body):
        """A mount over a program of Python that passes frames on, and changes replies."""
        script = self.at("liar")
        begin = f"#!{sys.executable}\nimport random, sys\nsys.path.insert(0, {TOP!r})\nfrom tests.liar import pass_on\n"
        write(script, f"{begin}{body}\npass_on([{self.nofs!r}, *sys.argv[1:]], change)\n".encode())
        os.chmod(script, 0o755)
        self.nofs = script
        self.remount()

    def use(self):
        """Calls of each kind; what they answer does not matter."""
        for call in (lambda: write(self.path("f"), b"x" * 5000), lambda: read(self.path("f")), lambda: os.listdir(self.top),
                     lambda: os.mkdir(self.path("d")), lambda: os.rename(self.path("f"), self.path("g")), lambda: os.stat(self.path("none")),
                     lambda: os.remove(self.path("g")), lambda: os.link(self.path("f"), self.path("h"))):
            try:
                call()
            except OSError:
                pass

    def test_replies_that_are_drawn(self):
        for seed in range(CRASHES):
            with self.subTest(seed=seed):
                self.renew()
                self.nofs = type(self).nofs
                self.serve_by(f"def change(step, reply, number, draw=random.Random({seed})):\n"
                              "    if number < 400 or draw.random() < 0.5: return reply\n"
                              "    reply = bytearray(reply)\n"
                              "    reply[draw.randrange(len(reply))] = draw.randrange(256)\n"
                              "    return bytes(reply[:draw.randrange(1, len(reply) + 1)])")
                for _ in range(5):
                    self.use()
                self.assertIsNone(self.mount.poll())
                self.drop()
                self.mount = None

    def test_a_folder_of_the_mount_that_cannot_be_read_keeps_nobody_from_the_rest(self):
        write(self.path("f"), b"kept")
        self.serve_by("def change(step, reply, number):\n    return bytes([18]) if step[0] == 7 and number < 400 else reply")
        self.assertIn(b"no hidden folder (refusal 18)", read(self.at("said")))
        for number in range(400):               # each name is asked for once: the kernel keeps that it is not there
            os.path.exists(self.path(f"none{number}"))
        self.assertEqual(read(self.path("f")), b"kept")
        self.drop()
        self.mount = None

    def test_frames_that_are_none(self):
        self.serve_by("def change(step, reply, number):\n    return reply if number < 400 else b''")
        for _ in range(3):
            self.use()
        self.assertIsNone(self.mount.poll())
        self.drop()
        self.mount = None
