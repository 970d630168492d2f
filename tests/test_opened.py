"""Which files of the host are images: one that no other program has open, of a kind that has places; and what it costs to fill one."""
import os
import shutil
import socket
import subprocess

from nofs import client
from tests.common import NOFS, Folders, read, run, serve, tool, write
from tests.test_host import COMMANDS, DEVICE_FAULT


class InUse(Folders):
    """Images that another program has open."""

    def setUp(self):
        super().setUp()
        self.image = self.at("disk.img")
        serve(self.image, b"put @ 0 616263\n", "new", "64", "16")

    def opened(self):
        """A program that serves the image; it has mounted it, and waits for a further frame."""
        wire = client.Wire(NOFS, self.image)
        self.addCleanup(wire.program.kill)
        wire.ask(client.STAT, client.handle((2, 2)))
        return wire

    def refused(self, image, *words):
        """A program is refused the image before it reads or writes a byte of it."""
        before = read(self.image)
        self.assertEqual(run([NOFS, image, *words], b"put @ 0 78\n", 3), (DEVICE_FAULT, ""))
        self.assertEqual(read(self.image), before)

    def test_a_second_program_is_refused_until_the_first_has_ended(self):
        wire = self.opened()
        for words in COMMANDS:
            with self.subTest(words=words):
                self.refused(self.image, *words)
        self.assertEqual(wire.close(), 0)
        self.assertEqual(serve(self.image, b"get @ 0 3\n"), ["got bytes:616263"])

    def test_the_other_program_may_have_it_by_another_name_or_in_a_mirror(self):
        os.link(self.image, self.at("hard.img"))
        os.symlink(self.image, self.at("soft.img"))
        serve(self.at("other.img"), b"", "new", "64", "16")
        other = read(self.at("other.img"))
        wire = self.opened()
        for name in ("hard.img", "soft.img"):
            self.refused(self.at(name), "run")
            self.refused(f"mirror:64:{self.at(name)}:{self.at('other.img')}", "run")
            self.refused(f"mirror:64:{self.at('other.img')}:{self.at(name)}", "run")
        self.assertEqual(wire.close(), 0)
        self.assertEqual(read(self.at("other.img")), other)

    def test_an_image_is_not_both_sides_of_a_mirror(self):
        os.link(self.image, self.at("hard.img"))
        os.symlink(self.image, self.at("soft.img"))
        for other in (self.image, self.at("hard.img"), self.at("soft.img")):
            for words in COMMANDS:
                with self.subTest(other=other, words=words):
                    self.refused(f"mirror:64:{self.image}:{other}", *words)

    def test_a_program_that_was_killed_leaves_no_lock(self):
        wire = self.opened()
        wire.program.kill()
        wire.close()
        self.assertEqual(serve(self.image, b"get @ 0 3\n"), ["got bytes:616263"])

    def test_the_scripts_say_that_an_image_is_in_use(self):
        wire = self.opened()
        said = f"{self.image}: the image is in use\n"
        self.assertEqual(tool("nofs-unpack", self.image, self.at("out"), status=3)[1], f"nofs-unpack: {said}")
        self.assertEqual(tool("nofs-picture", self.image, self.at("page.html"), status=3)[1], f"nofs-picture: {said}")
        self.assertFalse(os.path.exists(self.at("page.html")))
        self.assertEqual(wire.close(), 0)
        tool("nofs-unpack", self.image, self.at("out"))
        tool("nofs-picture", self.image, self.at("page.html"), "--compare", self.image)


class Kinds(Folders):
    """Files that are no images, of whatever bytes."""

    def refused(self, path):
        for words in COMMANDS:
            with self.subTest(path=path, words=words):
                done = subprocess.run([NOFS, path, *words], input=b"stat @\n", stdout=subprocess.PIPE, timeout=60)
                self.assertEqual((done.stdout, done.returncode), (DEVICE_FAULT, 3))

    def test_a_directory_is_refused(self):
        self.refused(self.room)
        self.assertEqual(os.listdir(self.room), [])

    def test_a_pipe_is_refused(self):
        os.mkfifo(self.at("pipe"))
        self.refused(self.at("pipe"))
        self.refused("/dev/stdin")

    def test_a_socket_is_refused(self):
        with socket.socket(socket.AF_UNIX) as it:
            it.bind(self.at("socket"))
            self.refused(self.at("socket"))

    def test_a_device_without_places_is_refused(self):
        for path in ("/dev/full", "/dev/zero", "/dev/null"):
            self.refused(path)

    def test_a_mirror_with_such_a_side_is_refused(self):
        image = self.at("disk.img")
        serve(image, b"", "new", "64", "16")
        before = read(image)
        os.mkfifo(self.at("pipe"))
        for other in (self.room, self.at("pipe"), "/dev/full"):
            self.refused(f"mirror:64:{image}:{other}")
            self.refused(f"mirror:64:{other}:{image}")
        self.assertEqual(read(image), before)

    def test_a_session_may_come_from_a_file_beside_the_image(self):
        write(self.at("session"), b"put @ 0 616263\nget @ 0 3\n")
        with open(self.at("session"), "rb") as session:
            done = subprocess.run([NOFS, self.at("disk.img"), "new", "64", "16"], stdin=session, stdout=subprocess.PIPE, timeout=60)
        self.assertEqual((done.stdout, done.returncode), (b"put 3\ngot bytes:616263\n", 0))


class Calls(Folders):
    """How many calls of its file an image costs: strace counts them."""

    def setUp(self):
        super().setUp()
        if not shutil.which("strace"):
            self.skipTest("no strace")

    def written(self, session, *words):
        """How often the image's file is written in a session."""
        strace = ["strace", "-f", "-qq", "-o", self.at("trace"), "-P", self.at("disk.img"), "-e", "trace=pwrite64"]
        run([*strace, NOFS, self.at("disk.img"), *words], session)
        return read(self.at("trace")).count(b" pwrite64(")

    def test_a_format_of_65536_blocks_makes_at_most_1100_writes(self):
        self.assertLessEqual(self.written(b"", "new", "65536", "1024"), 1100)
