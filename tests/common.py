"""What the tests share: running the program $NOFS, images and folders of their own."""
import os
import shutil
import subprocess
import sys
import tempfile
import unittest

TESTS = os.path.dirname(os.path.abspath(__file__))
TOP = os.path.dirname(TESTS)
TOOLS, CLIENTS, DEV = (os.path.join(TOP, name) for name in ("tools", "clients", "dev"))
NOFS = os.environ.get("NOFS") or os.path.join(TOP, "nofs")

S = 1 << 40


def run(words, text=b"", status=0):
    """Runs a program, asks for its status (None: any), and gives its output and its messages."""
    done = subprocess.run(words, input=text, stdout=subprocess.PIPE, stderr=subprocess.PIPE)
    if status is not None and done.returncode != status:
        raise AssertionError(f"{words}: status {done.returncode}, {done.stdout[-300:]!r}, {done.stderr[-2000:].decode()}")
    return done.stdout, done.stderr.decode()


def has_fuse():
    return os.access("/dev/fuse", os.R_OK | os.W_OK) and (os.getuid() == 0 or shutil.which("fusermount3") is not None)


def in_c(name):
    """The source of a program in C that tests compile."""
    return os.path.join(TESTS, "c", name)


def tool(name, *words, status=0):
    return run([sys.executable, os.path.join(TOOLS, name), *words], status=status)


def serve(image, session, *words, status=0):
    """Serves a session, and gives its lines."""
    return run([NOFS, image, *(words or ("run",))], session, status)[0].decode().splitlines()


def write(path, data):
    os.makedirs(os.path.dirname(path), exist_ok=True)
    with open(path, "wb") as file:
        file.write(data)


def read(path):
    with open(path, "rb") as file:
        return file.read()


def tree(folder):
    """Everything below a folder: path and bytes, None for a folder."""
    found = {}
    for at, folders, files in os.walk(folder):
        found.update({os.path.relpath(os.path.join(at, name), folder): None for name in folders})
        found.update({os.path.relpath(os.path.join(at, name), folder): read(os.path.join(at, name)) for name in files})
    return found


class Folders(unittest.TestCase):
    """Cases in a folder of their own."""

    def setUp(self):
        room = tempfile.TemporaryDirectory(prefix="nofs-tools-")
        self.addCleanup(room.cleanup)
        self.room = room.name

    def at(self, *names):
        return os.path.join(self.room, *names)
