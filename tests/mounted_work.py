#!/usr/bin/env python3
"""mounted_work.py DIR LOG SEED: writes files whose bytes name the file, its version and their place, with an fsync now and
then. LOG tells, a line before each call, what is begun, and after each fsync that all before it is durable."""
import json
import os
import random
import sys

NAMES, RECORD = 24, 32


def body(file, version, slot, length):
    records = (b"F%07dv%07d@%06d.%02d|....\n" % (file, version, slot, number) for number in range(1024 // RECORD))
    return b"".join(records)[:length]


class Work:
    def __init__(self, top, log, seed):
        self.top, self.random = top, random.Random(seed)
        self.log = os.open(log, os.O_WRONLY | os.O_APPEND | os.O_CREAT)
        self.names, self.sizes, self.version, self.last = {}, {}, 0, 0

    def say(self, **line):
        os.write(self.log, (json.dumps(line) + "\n").encode())

    def path(self, name):
        return os.path.join(self.top, name)

    def sync(self, file):
        os.fsync(file)
        self.say(what="durable")

    def sync_top(self, share):
        if self.random.random() < share:
            file = os.open(self.top, os.O_RDONLY)
            self.sync(file)
            os.close(file)

    def fill(self, path, flags, number, low, high, share):
        file = os.open(path, flags)
        for slot in range(low, high):
            os.pwrite(file, body(number, self.version, slot, min(1024, self.sizes[number] - slot * 1024)), slot * 1024)
        if self.random.random() < share:
            self.sync(file)
        os.close(file)

    def new_file(self, most):
        self.last += 1
        self.sizes[self.last] = RECORD * self.random.randrange(1, most)
        return self.last, -(-self.sizes[self.last] // 1024)

    def make(self, name):
        number = self.names.get(name)
        if number is None:
            number, slots = self.new_file(900)
        else:
            self.sizes[number] = RECORD * self.random.randrange(1, 900)
            slots = -(-self.sizes[number] // 1024)
        self.say(what="trunc", name=name, file=number, version=self.version, low=0, high=slots, size=self.sizes[number])
        self.names[name] = number
        self.fill(self.path(name), os.O_RDWR | os.O_CREAT | os.O_TRUNC, number, 0, slots, 0.5)

    def write_over(self, name):
        number = self.names[name]
        slots = -(-self.sizes[number] // 1024)
        low = self.random.randrange(slots)
        high = min(low + self.random.randrange(1, 8), slots)
        self.say(what="over", name=name, file=number, version=self.version, low=low, high=high, size=self.sizes[number])
        self.fill(self.path(name), os.O_RDWR, number, low, high, 0.3)

    def replace(self, name):
        number, slots = self.new_file(400)
        new = f"new{number}"
        self.say(what="new", name=new, file=number, version=self.version, low=0, high=slots, size=self.sizes[number])
        self.fill(self.path(new), os.O_RDWR | os.O_CREAT | os.O_EXCL, number, 0, slots, 1)
        self.say(what="rename", name=new, to=name, file=number)
        os.rename(self.path(new), self.path(name))
        self.names[name] = number
        self.sync_top(0.5)

    def remove(self, name):
        self.say(what="unlink", name=name, file=self.names.pop(name))
        os.unlink(self.path(name))
        self.sync_top(0.2)

    def rename(self, name):
        to = "n%02d" % self.random.randrange(NAMES)
        if to not in self.names:
            self.say(what="rename", name=name, to=to, file=self.names[name])
            os.rename(self.path(name), self.path(to))
            self.names[to] = self.names.pop(name)

    def step(self):
        self.version += 1
        draw, name = self.random.random(), "n%02d" % self.random.randrange(NAMES)
        if draw < 0.3 or name not in self.names:
            self.make(name)
        elif draw < 0.6:
            self.write_over(name)
        elif draw < 0.75:
            self.replace(name)
        elif draw < 0.88:
            self.remove(name)
        else:
            self.rename(name)


if __name__ == "__main__":
    work = Work(sys.argv[1], sys.argv[2], int(sys.argv[3]))
    while True:
        work.step()
