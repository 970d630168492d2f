"""Drawn calls in a mounted directory against a model in memory, with remounts. $NOFS_DRAWN (3,000) is the number of calls of
each of two seeds, or of those in $NOFS_SEEDS."""
import errno
import mmap
import os
import random

from tests.common import read
from tests.test_mount import Mounted

CALLS = int(os.environ.get("NOFS_DRAWN", "3000"))
SEEDS = [int(seed) for seed in os.environ.get("NOFS_SEEDS", "1 2").split()]
MOST = 4268032
LINKS, FILES, OPEN, BYTES = 4, 60, 20, 8000000


class File:
    def __init__(self):
        self.data, self.links = bytearray(), 1

    def put(self, at, data):
        self.data.extend(bytes(max(0, at - len(self.data))))
        self.data[at:at + len(data)] = data

    def resize(self, size):
        del self.data[size:]
        self.data.extend(bytes(size - len(self.data)))


class Drawn(Mounted):
    blocks, inodes = 16384, 512

    def begin(self, seed):
        self.draw, self.files, self.folders, self.open, self.last = random.Random(seed), {}, {""}, [], []

    # What is drawn

    def folder_of(self, name):
        return name.rpartition("/")[0]

    def new_name(self):
        return "/".join(filter(None, (self.draw.choice(sorted(self.folders)), f"f{self.draw.randrange(12)}")))

    def some_name(self):
        return self.draw.choice(sorted(self.files))

    def extent(self):
        draw = self.draw.random()
        at = self.draw.randrange(60000 if draw < 0.9 else 400000 if draw < 0.97 else MOST)
        if self.draw.random() < 0.3:
            at -= at % 1024
        length = self.draw.choice((1, 10, 1024, 4096, self.draw.randrange(1, 9000), self.draw.randrange(1, 30000)))
        return at, min(length, MOST - at)

    def bytes(self, length):
        return (b"%016x|" % self.draw.getrandbits(64) * (length // 17 + 1))[:length]

    def size(self, file):
        return self.draw.choice((0, self.draw.randrange(70000), len(file.data), max(0, len(file.data) - self.draw.randrange(3000))))

    # Calls on names

    def call_create(self):
        name = self.new_name()
        handle = os.open(self.path(name), os.O_RDWR | os.O_CREAT, 0o644)
        file = self.files.setdefault(name, File())
        if len(self.open) < OPEN:
            self.open.append((handle, file))
        else:
            os.close(handle)

    def lose_name(self, name):
        file = self.files.pop(name)
        file.links -= 1

    def call_unlink(self):
        name = self.some_name()
        os.unlink(self.path(name))
        self.lose_name(name)

    def call_rename(self):
        name, new = self.some_name(), self.new_name()
        file = self.files[name]
        if self.files.get(new) is not file and self.folder_of(name) != self.folder_of(new) and file.links == LINKS:
            self.refused(errno.EXDEV, os.rename, self.path(name), self.path(new))
            return
        os.rename(self.path(name), self.path(new))
        if self.files.get(new) is file:
            return
        if new in self.files:
            self.lose_name(new)
        self.files[new] = self.files.pop(name)

    def call_link(self):
        name, new = self.some_name(), self.new_name()
        if new in self.files:
            self.refused(errno.EEXIST, os.link, self.path(name), self.path(new))
        elif self.files[name].links == LINKS:
            self.refused(errno.EMLINK, os.link, self.path(name), self.path(new))
        else:
            os.link(self.path(name), self.path(new))
            self.files[new] = self.files[name]
            self.files[name].links += 1

    def call_mkdir(self):
        parent = self.draw.choice(sorted(self.folders))
        name = "/".join(filter(None, (parent, f"d{self.draw.randrange(4)}")))
        if name in self.folders:
            self.refused(errno.EEXIST, os.mkdir, self.path(name))
        elif parent.count("/") < 3:
            os.mkdir(self.path(name))
            self.folders.add(name)

    def is_empty(self, folder):
        return all(self.folder_of(name) != folder for name in (*self.files, *(self.folders - {""})))

    def call_rmdir(self):
        folder = self.draw.choice(sorted(self.folders))
        if folder and self.is_empty(folder):
            os.rmdir(self.path(folder))
            self.folders.remove(folder)
        elif folder:
            self.refused(errno.ENOTEMPTY, os.rmdir, self.path(folder))

    def call_list(self):
        folder = self.draw.choice(sorted(self.folders))
        names = [name.rpartition("/")[2] for name in (*self.files, *(self.folders - {""})) if self.folder_of(name) == folder]
        self.assertEqual(sorted(os.listdir(self.path(folder))), sorted(names))

    # Calls on contents, by name

    def call_write(self):
        name = self.some_name()
        at, length = self.extent()
        data = self.bytes(length)
        with open(self.path(name), "r+b", buffering=0) as file:
            self.assertEqual(os.pwrite(file.fileno(), data, at), length)
        self.files[name].put(at, data)

    def call_append(self):
        name = self.some_name()
        data = self.bytes(self.draw.randrange(1, 3000))
        if len(self.files[name].data) + len(data) <= MOST:
            with open(self.path(name), "ab", buffering=0) as file:
                file.write(data)
            self.files[name].data += data

    def call_truncate(self):
        name = self.some_name()
        size = self.size(self.files[name])
        os.truncate(self.path(name), size)
        self.files[name].resize(size)

    def call_read(self):
        name = self.some_name()
        at, length = self.extent()
        with open(self.path(name), "rb", buffering=0) as file:
            self.assertEqual(os.pread(file.fileno(), length, at), bytes(self.files[name].data[at:at + length]))

    def call_map(self):
        name = self.some_name()
        data = self.files[name].data
        if not data:
            return
        with open(self.path(name), "r+b", buffering=0) as file, mmap.mmap(file.fileno(), len(data)) as mapped:
            for _ in range(4):
                at = self.draw.randrange(len(data))
                self.assertEqual(mapped[at:at + 900], bytes(data[at:at + 900]))
                some = self.bytes(min(len(data) - at, self.draw.randrange(1, 3000)))
                mapped[at:at + len(some)] = some
                data[at:at + len(some)] = some
            if self.draw.random() < 0.5:
                mapped.flush()

    def call_check(self):
        self.check(self.some_name())

    def call_seek(self):
        """A hole reads as zeros, and behind data comes a hole or the end."""
        name = self.some_name()
        data = self.files[name].data
        with open(self.path(name), "rb", buffering=0) as file:
            at = self.draw.randrange(len(data) + 1)
            try:
                found = os.lseek(file.fileno(), at, os.SEEK_DATA)
            except OSError as caught:
                self.assertEqual(caught.errno, errno.ENXIO)
                found = len(data)
            self.assertFalse(any(data[at:found]))

    # Calls on files that are open, removed or not

    def call_open(self):
        if len(self.open) < OPEN:
            name = self.some_name()
            self.open.append((os.open(self.path(name), os.O_RDWR), self.files[name]))

    def some_open(self):
        if not self.open:
            self.call_open()
        return self.draw.choice(self.open)

    def call_close(self):
        if self.open:
            os.close(self.open.pop(self.draw.randrange(len(self.open)))[0])

    def call_write_open(self):
        handle, file = self.some_open()
        at, length = self.extent()
        data = self.bytes(length)
        self.assertEqual(os.pwrite(handle, data, at), length)
        file.put(at, data)

    def call_read_open(self):
        handle, file = self.some_open()
        at, length = self.extent()
        self.assertEqual(os.pread(handle, length, at), bytes(file.data[at:at + length]))
        found = os.fstat(handle)
        self.assertEqual((found.st_nlink, found.st_size), (file.links, len(file.data)))

    def call_resize_open(self):
        handle, file = self.some_open()
        size = self.size(file)
        os.ftruncate(handle, size)
        file.resize(size)

    def call_fsync(self):
        os.fsync(self.some_open()[0])

    # The whole

    def check(self, name):
        file, found = self.files[name], os.stat(self.path(name))
        self.assertEqual((found.st_size, found.st_nlink), (len(file.data), file.links), name)
        self.assertEqual(read(self.path(name)), bytes(file.data), name)

    def check_all(self):
        for name in sorted(self.files):
            self.check(name)
        found = {os.path.relpath(os.path.join(at, name), self.top) for at, folders, files in os.walk(self.top) for name in (*folders, *files)}
        self.assertEqual(found, {*self.files, *(self.folders - {""})})

    def make_room(self):
        """No more than the image has room for."""
        while sum(len(file.data) for file in {id(file): file for file in self.files.values()}.values()) > BYTES:
            self.call_unlink()

    def close_all(self):
        while self.open:
            os.close(self.open.pop()[0])

    def step(self):
        if not self.files:
            self.call_create()
        calls = {"create": 6, "write": 10, "append": 5, "truncate": 5, "read": 10, "map": 8, "rename": 8, "link": 4, "unlink": 6, "mkdir": 2,
                 "rmdir": 2, "open": 7, "close": 6, "write_open": 9, "read_open": 9, "resize_open": 5, "fsync": 1, "list": 3, "check": 5, "seek": 2}
        name = self.draw.choices(list(calls), list(calls.values()))[0]
        self.last = [*self.last[-20:], name]
        getattr(self, "call_" + name)()

    def test_calls_do_what_a_model_in_memory_does(self):
        for seed in SEEDS:
            with self.subTest(seed=seed):
                self.renew()
                self.begin(seed)
                self.addCleanup(self.close_all)
                for number in range(CALLS):
                    self.step()
                    if number % 50 == 0:
                        self.make_room()
                    if self.draw.random() < 0.0008 or number == CALLS - 1:
                        self.close_all()
                        self.remount()
                        self.check_all()
