"""tools/nofs-mount: an image as a directory, used by the programs that people use. Left out where there is no /dev/fuse. $NOFS_MOUNT
is another server, as a script that runs tools/nofs/mount/out/nofs-mount under valgrind; $NOFS_SECONDS (60) is how long a case waits
for what must come, which is too short there on a busy machine."""
import errno
import functools
import mmap
import os
import random
import shutil
import signal
import subprocess
import sys
import tempfile
import time
import unittest
from unittest import mock

from tests.common import CLIENTS, NOFS, TOOLS, Folders, has_fuse, in_c, read, run, serve, tree, write

CELL = 1056
SECONDS = int(os.environ.get("NOFS_SECONDS", "60"))
MOUNT = os.environ.get("NOFS_MOUNT") or os.path.join(TOOLS, "nofs-mount")


@functools.cache
def empty_image(blocks, inodes):
    """The bytes of a new image of version 2, made once for all cases."""
    with tempfile.TemporaryDirectory(prefix="nofs-empty-") as room:
        image = os.path.join(room, "disk.img")
        run([MOUNT, "--nofs", NOFS, "--new", image, str(blocks), str(inodes)])
        return read(image)


def lose(image, content):
    """Spoils the tag of each block of an image that holds these 1,024 bytes: the slot that names it is lost then."""
    data, found = bytearray(read(image)), 0
    for at in range(0, len(data), CELL):
        if data[at:at + 1024] == content:
            data[at + 1024 + 8] ^= 1
            found += 1
    write(image, bytes(data))
    return found


@unittest.skipUnless(has_fuse(), "no /dev/fuse: what mounts an image is left out")
class Mounted(Folders):
    """An image of version 2 that is mounted."""

    blocks, inodes = 4096, 256
    nofs = NOFS

    def setUp(self):
        super().setUp()
        self.image, self.top = self.at("disk.img"), self.at("top")
        os.mkdir(self.top)
        write(self.image, empty_image(self.blocks, self.inodes))
        self.mount = None
        self.addCleanup(self.drop)
        self.remount()

    def remount(self, *more, image=None):
        self.unmount()
        words = [MOUNT, "--nofs", self.nofs, *more, image or self.image, self.top]
        self.said = open(self.at("said"), "wb")
        self.mount = subprocess.Popen(words, stderr=self.said)
        limit = time.monotonic() + SECONDS
        while not os.path.ismount(self.top):
            if self.mount.poll() is not None or time.monotonic() > limit:
                raise AssertionError(f"not mounted: {read(self.at('said'))!r}")
            time.sleep(0.02)

    def renew(self):
        """A new image, mounted."""
        self.unmount()
        write(self.image, empty_image(self.blocks, self.inodes))
        self.remount()

    def drop(self):
        """Ends the mount whatever a case left open in it."""
        if self.mount:
            subprocess.run(["umount", "-l", self.top], check=False)
            self.mount.kill()
            self.mount.wait()
            self.said.close()

    def unmount(self, how=None, status=0):
        """Ends the mount, by `umount` or as asked, and asks for its status."""
        if self.mount:
            (how or self.umount)()
            mount, self.mount = self.mount, None
            self.assertEqual(mount.wait(SECONDS), status, read(self.at("said")))
            self.said.close()

    def umount(self):
        """A program that has just ended may be in it for a moment still."""
        limit = time.monotonic() + SECONDS
        while subprocess.run(["umount", self.top], stderr=subprocess.DEVNULL).returncode:
            self.assertLess(time.monotonic(), limit, "busy")
            time.sleep(0.1)

    def path(self, *names):
        return os.path.join(self.top, *names)

    def sh(self, script, status=0):
        """Runs a script in the mounted directory."""
        return run(["sh", "-ec", f"cd {self.top}\n{script}"], status=status)[0].decode()

    def refused(self, number, call, *words):
        with self.assertRaises(OSError) as caught:
            call(*words)
        self.assertEqual(errno.errorcode[caught.exception.errno], errno.errorcode[number])

    def program(self):
        """The process that serves the image."""
        found = run(["pgrep", "-P", str(self.mount.pid)])[0].split()
        return int(found[0])

    def counted(self, what):
        """How many requests the server was asked, or how many steps or batches it sent."""
        size = len(read(self.at("said")))
        self.mount.send_signal(signal.SIGUSR1)
        limit = time.monotonic() + SECONDS
        while len(read(self.at("said"))) == size and time.monotonic() < limit:
            time.sleep(0.02)
        said = read(self.at("said")).decode().split()
        return int(said[len(said) - said[::-1].index(what)])


class Programs(Mounted):
    """Programs that know nothing of NoFS."""

    def folder(self):
        draw = random.Random(3)
        for name, size in (("a", 0), ("b", 3), ("c", 1024), ("sub/d", 5000), ("sub/deep/e", 300000)):
            write(self.at("from", name), draw.randbytes(size))
        os.makedirs(self.at("from", "empty"))
        return self.at("from")

    def test_a_tree_goes_in_and_out_by_cp_and_tar(self):
        folder = self.folder()
        self.sh(f"cp -a {folder} kept; diff -r {folder} kept; tar cf {self.at('one.tar')} kept; mkdir again; tar xf {self.at('one.tar')} -C again")
        self.remount()
        self.assertEqual(tree(self.path("kept")), tree(folder))
        self.assertEqual(tree(self.path("again", "kept")), tree(folder))

    @unittest.skipUnless(shutil.which("rsync"), "no rsync")
    def test_rsync_finds_nothing_left_to_do(self):
        folder = self.folder()
        self.sh(f"rsync -a {folder}/ kept")
        self.assertEqual(self.sh(f"rsync -ani {folder}/ kept | grep -c '^>f' || true").strip(), "0")
        self.assertEqual(tree(self.path("kept")), tree(folder))

    @unittest.skipUnless(shutil.which("sqlite3"), "no sqlite3")
    def test_sqlite_keeps_its_rows_by_both_journals(self):
        for mode in ("delete", "wal"):
            rows = "insert into t select value, hex(randomblob(50)) from generate_series(1, 300);"
            self.sh(f"sqlite3 {mode}.db 'pragma journal_mode={mode}; create table t(a, b); begin; {rows} commit; delete from t where a % 3 = 0'")
            self.remount()
            self.assertEqual(self.sh(f"sqlite3 {mode}.db 'pragma integrity_check; select count(*) from t'").split(), ["ok", "200"])

    def test_git_commits_and_finds_no_fault(self):
        self.sh("git init -q here; cd here; for n in $(seq 30); do echo $n > file$n; done; git add .; git -c user.name=x -c user.email=x@x commit -qm one")
        self.remount()
        self.assertEqual(self.sh("cd here; git -c safe.directory='*' fsck 2>&1; git -c safe.directory='*' status --short"), "")

    def test_a_file_is_mapped_appended_to_and_cut(self):
        script = ("import mmap, os\nf = open('m', 'w+b'); f.truncate(9000); m = mmap.mmap(f.fileno(), 9000)\nm[4090:4100] = b'0123456789'; m.flush(); m.close()\n"
                  "f.seek(0, 2); f.write(b'end'); f.flush(); f.truncate(9002); os.fsync(f.fileno())")
        run(["sh", "-ec", f"cd {self.top}; {sys.executable} -c \"$0\"", script])
        self.remount()
        self.assertEqual(read(self.path("m")), bytes(4090) + b"0123456789" + bytes(4900) + b"en")


class Names(Mounted):
    """Names that go, come and are taken over."""

    def test_a_removed_file_is_served_until_it_is_closed(self):
        write(self.path("f"), b"still here")
        with open(self.path("f"), "r+b") as file:
            os.remove(self.path("f"))
            self.assertEqual(os.listdir(self.top), [])
            file.seek(0, 2)
            file.write(b", and more")
            file.seek(0)
            self.assertEqual(file.read(), b"still here, and more")
        self.remount()
        self.assertEqual(os.listdir(self.top), [])

    def test_a_rename_takes_the_place_of_a_name(self):
        write(self.path("old"), b"old bytes")
        write(self.path("new"), b"new bytes")
        with open(self.path("old"), "rb") as open_file:
            os.replace(self.path("new"), self.path("old"))
            self.assertEqual(open_file.read(), b"old bytes")
        self.remount()
        self.assertEqual(tree(self.top), {"old": b"new bytes"})

    def test_a_file_goes_to_another_directory(self):
        os.mkdir(self.path("d"))
        write(self.path("f"), b"moved")
        os.rename(self.path("f"), self.path("d", "g"))
        os.mkdir(self.path("e"))
        self.refused(errno.EXDEV, os.rename, self.path("d"), self.path("e", "d"))
        self.sh("mv d e/d")                     # a directory goes by a copy
        self.remount()
        self.assertEqual(tree(self.top), {"e": None, "e/d": None, "e/d/g": b"moved"})

    def test_names_behind_many_that_were_removed_are_listed(self):
        os.mkdir(self.path("d"))
        names = [f"name-{number:04}-{'x' * 30}" for number in range(1100)]
        for name in names:
            os.mknod(self.path("d", name))
        with os.scandir(self.path("d")) as lines:
            found = [next(lines).name]
            for name in names[200:1000]:
                os.remove(self.path("d", name))
            found += [line.name for line in lines]
        self.assertLessEqual({*names[:200], *names[1000:]}, {*found})
        self.assertEqual(len(found), len({*found}))

    def test_a_listing_has_the_number_of_each_inode(self):
        os.mkdir(self.path("d"))
        for number in range(800):
            os.mknod(self.path("d", f"n{number}"))
        self.remount()
        with os.scandir(self.path("d")) as lines:
            told = {line.name: line.inode() for line in lines}
        self.assertEqual(told, {name: os.stat(self.path("d", name)).st_ino for name in told})
        self.assertEqual(len(told), 800)

    def test_1152_names_are_listed_and_the_next_is_refused(self):
        os.mkdir(self.path("d"))
        for number in range(1152):
            os.mknod(self.path("d", f"n{number}"))
        self.refused(errno.ENOSPC, os.mknod, self.path("d", "one-more"))
        self.remount()
        self.assertEqual(sorted(os.listdir(self.path("d"))), sorted(f"n{number}" for number in range(1152)))

    blocks, inodes = 4096, 1200


class Refusals(Mounted):
    """Each line of the table of errors that a caller can meet."""

    def test_names(self):
        write(self.path("f"), b"x")
        os.makedirs(self.path("d", "sub"))
        self.refused(errno.ENOENT, os.stat, self.path("none"))
        self.refused(errno.EEXIST, os.mkdir, self.path("f"))
        self.refused(errno.ENOTDIR, os.listdir, self.path("f", "x"))
        self.refused(errno.ENOTDIR, os.rmdir, self.path("f"))
        self.refused(errno.EISDIR, os.unlink, self.path("d"))
        self.refused(errno.ENOTEMPTY, os.rmdir, self.path("d"))
        self.refused(errno.EINVAL, os.mkdir, self.path("a b"))
        self.refused(errno.ENAMETOOLONG, os.mkdir, self.path("n" * 49))
        self.refused(errno.EPERM, os.symlink, "f", self.path("link"))
        self.refused(errno.EPERM, os.mkfifo, self.path("pipe"))

    def test_links(self):
        write(self.path("f"), b"x")
        for number in range(3):
            os.link(self.path("f"), self.path(f"g{number}"))
        self.refused(errno.EMLINK, os.link, self.path("f"), self.path("g3"))
        os.mkdir(self.path("d"))
        self.refused(errno.EXDEV, os.rename, self.path("f"), self.path("d", "f"))
        self.assertEqual(os.stat(self.path("f")).st_nlink, 4)

    def test_sizes(self):
        write(self.path("f"), b"x")
        self.refused(errno.EFBIG, os.truncate, self.path("f"), 4268033)
        with open(self.path("f"), "wb") as file:
            self.refused(errno.EFBIG, os.pwrite, file.fileno(), b"x", 4268032)
        self.assertEqual(os.stat(self.path("f")).st_size, 0)

    def test_a_file_that_is_gone_is_stale(self):
        write(self.path("f"), b"x")
        file = os.open(self.path(), os.O_RDONLY)
        os.remove(self.path("f"))
        self.addCleanup(os.close, file)
        self.refused(errno.ENOENT, lambda: os.stat("f", dir_fd=file))


class Full(Mounted):
    """An image without room."""

    blocks, inodes = 64, 16

    def test_a_full_image_is_no_space_and_what_was_written_stays(self):
        draw = random.Random(5)
        kept = draw.randbytes(20000)
        write(self.path("kept"), kept)
        with open(self.path("more"), "wb", buffering=0) as file:
            self.refused(errno.ENOSPC, lambda: [file.write(draw.randbytes(1024)) for _ in range(64)])
        self.assertEqual(read(self.path("kept")), kept)
        os.remove(self.path("more"))
        write(self.path("again"), kept[:10000])
        self.refused(errno.ENOSPC, lambda: [os.mknod(self.path(f"n{number}")) for number in range(16)])
        self.remount()
        self.assertEqual(read(self.path("kept")), kept)
        self.assertEqual(read(self.path("again")), kept[:10000])


    def test_a_file_is_as_long_as_it_was_told_in_a_full_image(self):
        """By writes of many slots, of which some are stored, and by renames, which need no room."""
        write(self.path("old"), b"old")
        data, stored = random.Random(6).randbytes(65536), b""
        with open(self.path("f"), "wb", buffering=0) as file:
            with self.assertRaises(OSError) as caught:
                while True:
                    stored += data[:file.write(data)]
            self.assertEqual(caught.exception.errno, errno.ENOSPC)
            self.assertEqual(os.fstat(file.fileno()).st_size, len(stored))
            os.ftruncate(file.fileno(), len(stored) + 5000)
            self.refused(errno.ENOSPC, os.pwrite, file.fileno(), data[:4096], len(stored) + 900)
            self.assertEqual(os.stat(self.path("f")).st_size, len(stored) + 5000)
        self.assertEqual(read(self.path("f")), stored + bytes(5000))
        os.rename(self.path("f"), self.path("g"))
        os.replace(self.path("g"), self.path("old"))
        self.assertEqual(tree(self.top), {"old": stored + bytes(5000)})
        self.remount()
        self.assertEqual(tree(self.top), {"old": stored + bytes(5000)})


class Losses(Mounted):
    """Images that were damaged, and programs that were killed."""

    def test_a_file_that_was_cut_to_nothing_has_lost_nothing(self):
        self.remount()
        data = random.Random(9).randbytes(4096)
        write(self.path("f"), data)
        self.unmount()
        self.assertEqual(lose(self.image, data[1024:2048]), 1)
        self.remount()
        self.refused(errno.EIO, read, self.path("f"))
        with open(self.path("f"), "w+b", buffering=0) as file:
            file.write(data)
        with open(self.path("f"), "r+b", buffering=0) as file, mmap.mmap(file.fileno(), 4096) as mapped:
            self.assertEqual(mapped[:], data)

    def test_a_lost_slot_is_never_a_short_file(self):
        data = random.Random(7).randbytes(13893)
        write(self.path("f"), data)
        self.unmount()
        self.assertEqual(lose(self.image, data[2048:3072]), 1)
        self.remount()
        for _ in range(2):
            done = subprocess.run(["cat", self.path("f")], capture_output=True)
            self.assertEqual((done.stdout, done.returncode), (data[:2048], 1))
        self.assertEqual(os.stat(self.path("f")).st_size, len(data))
        with open(self.path("f"), "rb") as file:
            self.refused(errno.EIO, os.pread, file.fileno(), 1, 2048)
            self.assertEqual(os.pread(file.fileno(), 20000, 3072), data[3072:])
            self.assertEqual(os.pread(file.fileno(), 100, 1000), data[1000:1100])
        with open(self.path("f"), "r+b") as file:
            os.pwrite(file.fileno(), data[2048:3072], 2048)
        self.assertEqual(read(self.path("f")), data)
        self.assertIn(b"slot 2 of inode", read(self.at("said")))

    def test_a_large_file_is_read_up_to_the_page_first_and_up_to_the_slot_then(self):
        data = random.Random(8).randbytes(200000)
        write(self.path("f"), data)
        self.unmount()
        self.assertEqual(lose(self.image, data[103 * 1024:104 * 1024]), 1)
        self.remount()
        for end in (100 * 1024, 103 * 1024):
            done = subprocess.run(["cat", self.path("f")], capture_output=True)
            self.assertEqual((len(done.stdout), done.returncode), (end, 1))
            self.assertEqual(done.stdout, data[:end])

    def test_what_was_synced_outlives_a_killed_program_and_open_files_hear_of_it(self):
        for number in range(20):
            with open(self.path(f"kept{number}"), "wb", buffering=0) as file:
                file.write(b"%d" % number * 100)
                os.fsync(file.fileno())
        write(self.path("unsynced"), b"never flushed")
        file = os.open(self.path("open"), os.O_RDWR | os.O_CREAT)
        os.write(file, b"lost, maybe")
        os.kill(self.program(), signal.SIGKILL)
        self.refused(errno.EIO, os.fsync, file)
        self.refused(errno.EIO, os.write, file, b"x")
        self.refused(errno.EIO, os.pread, file, 1, 0)
        self.refused(errno.EIO, os.close, file)
        for number in range(20):
            self.assertEqual(read(self.path(f"kept{number}")), b"%d" % number * 100)
        sizes = self.sizes()
        write(self.path("later"), b"goes on")
        self.remount()
        self.assertEqual({**sizes, "later": 7}, self.sizes())
        self.assertEqual(read(self.path("later")), b"goes on")
        self.unmount()
        self.assertEqual(serve(self.image, b"", "salvage"), [])

    def test_who_asks_while_the_program_dies_hears_no_error(self):
        for number in range(20):
            write(self.path(f"d{number}", "f"), b"x")
        folder = os.open(self.top, os.O_RDONLY)
        os.fsync(folder)
        os.close(folder)
        for number in range(20):
            os.kill(self.program(), signal.SIGKILL)
            self.assertEqual(len(os.listdir(self.top)), 20)
            self.assertEqual(os.stat(self.path(f"d{number}", "f")).st_size, 1)

    def sizes(self):
        return {entry.name: entry.stat().st_size for entry in os.scandir(self.top)}

    def test_a_signal_ends_the_mount_with_all_of_it_durable(self):
        write(self.path("f"), b"kept")
        self.unmount(lambda: self.mount.send_signal(signal.SIGTERM))
        self.assertEqual(serve(self.image, b"get /f 0 4"), ["got bytes:6b657074"])

    def test_an_image_that_is_mounted_is_in_use(self):
        other = self.at("other")
        os.mkdir(other)
        done = subprocess.run([MOUNT, "--nofs", NOFS, self.image, other], capture_output=True)
        self.assertEqual(done.returncode, 1)
        self.assertIn(b"in use", done.stderr)
        self.assertFalse(os.path.ismount(other))


class Arguments(Mounted):
    """What the mount is given."""

    def test_an_image_of_two_files_is_mounted_by_its_word(self):
        word = f"mirror:{self.blocks}:{self.at('a.img')}:{self.at('b.img')}"
        run([MOUNT, "--nofs", NOFS, "--new", word, str(self.blocks), str(self.inodes)])
        self.remount(image=word)
        write(self.path("f"), b"in both")
        other = subprocess.run([MOUNT, "--nofs", NOFS, word, self.top], capture_output=True)
        self.assertEqual((other.returncode, b"in use" in other.stderr), (1, True))
        self.unmount()
        for image in ("a.img", "b.img"):
            self.assertEqual(serve(self.at(image), b"get /f 0 9"), ["got bytes:" + b"in both".hex()])

    def test_an_image_in_pages_or_twin_pages_is_made_and_mounted_by_its_word(self):
        for word in (f"paged:{self.at('pages.img')}", f"twin:{self.at('twins.img')}"):
            run([MOUNT, "--nofs", NOFS, "--new", word, str(self.blocks), str(self.inodes)])
            for image in (word, word.partition(":")[2], word):
                self.remount(image=image)
                data = random.Random(7).randbytes(300000)
                write(self.path("f"), data)
                os.chmod(self.path("f"), 0o640)
                os.replace(self.path("f"), self.path("g"))
                self.remount(image=image)
                self.assertEqual(tree(self.top), {"g": data})
                self.assertEqual(os.stat(self.path("g")).st_mode & 0o7777, 0o640)
            self.unmount()
            self.assertEqual(serve(word, b"", "salvage"), [])

    @unittest.skipUnless(os.getuid() == 0 and all(map(shutil.which, ("unshare", "setpriv", "fusermount3"))), "not root, or no unshare or setpriv")
    def test_a_user_who_is_not_root_mounts_an_image_of_theirs(self):
        """Where all may open /dev/fuse, as on most machines; here in a world of mounts of its own."""
        self.unmount()
        user = "--reuid=65534 --regid=65534 --clear-groups"
        for path in (self.room, self.top, self.image):
            os.chown(path, 65534, 65534)
        script = f"""cd {self.room}; "$0" --nofs "$1" disk.img top 2>told & server=$!; trap 'kill $server 2>/dev/null || true' 0
            until mountpoint -q top; do kill -0 $server || {{ cat told; exit 1; }}; sleep 0.1; done
            echo one > top/a; mkdir top/d; cp top/a top/d/b; mv top/d/b top/d/c; chmod 640 top/a; stat -c '%u %g %a' top/a top/d
            ! chown 0 top/a 2>/dev/null
            if test $2; then kill -TERM $server; else fusermount3 -u top; fi; wait $server; echo status $?"""
        root = f"""mknod -m 666 {self.at('fuse')} c 10 229; mount --bind {self.at('fuse')} /dev/fuse
            setpriv {user} sh -ec "$0" "$@"; mkdir other; "$1" --nofs "$2" disk.img other & server=$!
            until mountpoint -q other; do kill -0 $server; sleep 0.1; done; cat other/a other/d/c; rm -r other/a other/d
            umount other; wait $server"""
        for end in ("", "by-signal"):
            said = run(["unshare", "--mount", "--propagation=private", "sh", "-ec", f"cd {self.room}; {root}", script, MOUNT, NOFS, end])[0].decode()
            self.assertEqual(said.splitlines(), ["65534 65534 640", "65534 65534 755", "status 0", "one", "one"])
            os.rmdir(self.at("other"))
            os.remove(self.at("fuse"))

    def test_an_image_of_version_1_is_mounted_with_its_smaller_files(self):
        self.unmount()
        os.remove(self.image)
        serve(self.image, b"", "new", "4096", "256")
        self.remount()
        write(self.path("f"), b"x" * 73728)
        os.chmod(self.path("f"), 0o600)
        self.refused(errno.EFBIG, os.truncate, self.path("f"), 73729)
        self.remount()
        self.assertEqual((os.stat(self.path("f")).st_size, os.stat(self.path("f")).st_mode & 0o777), (73728, 0o600))

    def test_an_image_without_room_for_the_folder_of_the_mount_is_mounted_without_it(self):
        self.unmount()
        os.remove(self.image)
        serve(self.image, b"make /a\nmake /b\n", "new", "64", "4")
        self.remount()
        self.assertIn(b"no hidden folder", read(self.at("said")))
        write(self.path("a"), b"kept")
        os.replace(self.path("a"), self.path("b"))
        self.remount()
        self.assertEqual(tree(self.top), {"b": b"kept"})

    def test_a_mount_that_cannot_be_says_why(self):
        write(self.at("none.img"), bytes(5000))
        for words, status in (((self.at("none.img"), self.at("top2")), 1), ((self.at("missing"), self.at("top2")), 1), ((self.image,), 2), (("--new", "x"), 2),
                              (("--flush", "x", self.image, self.top), 2), (("--other", self.image, self.top), 2)):
            done = subprocess.run([MOUNT, "--nofs", NOFS, *words], capture_output=True)
            self.assertEqual((done.returncode, done.stderr[:12]), (status, b"nofs-mount: "), words)

    def test_help_has_lines_of_120_columns(self):
        said = run([MOUNT, "--help"])[0].decode()
        self.assertIn("What is durable when", said)
        self.assertLessEqual(max(map(len, said.split("\n"))), 120)

    @unittest.skipIf(os.environ.get("NOFS_MOUNT"), "the server is given")
    def test_where_none_is_named_the_program_is_the_one_above_the_scripts(self):
        for folder in (TOOLS, CLIENTS):
            shutil.copytree(folder, self.at(os.path.basename(folder)))
        write(self.at("nofs"), b"#!/bin/sh\necho $0 $*\n")
        os.chmod(self.at("nofs"), 0o755)
        said = run([self.at("tools", "nofs-mount"), "--new", "new.img", "64", "16"])[0].decode()
        self.assertEqual(said, f"{os.path.realpath(self.at('nofs'))} new.img new 64 16\n")

    @unittest.skipIf(os.environ.get("NOFS_MOUNT"), "the server is given")
    def test_where_no_compiler_is_the_script_says_so(self):
        shutil.copytree(TOOLS, self.at("tools"), ignore=shutil.ignore_patterns("out", "__pycache__"))
        os.mkdir(self.at("bin"))
        for name in ("sh", "dirname", "find", "head"):
            os.symlink(shutil.which(name), self.at("bin", name))
        done = subprocess.run(["/bin/sh", self.at("tools", "nofs-mount"), "--help"], env={"PATH": self.at("bin")}, capture_output=True)
        self.assertEqual((done.returncode, b"a C compiler is missing" in done.stderr), (7, True), done.stderr)


class Where(Mounted):
    """Where server and program run, and by what they speak."""

    @unittest.skipUnless(len(os.sched_getaffinity(0)) > 1, "one processor")
    def test_server_and_program_keep_to_one_processor(self):
        write(self.path("f"), b"x")
        places = [os.sched_getaffinity(pid) for pid in (self.mount.pid, self.program())]
        self.assertEqual([len(place) for place in places], [1, 1])
        self.assertEqual(*places)

    def test_who_begins_a_program_closes_files(self):
        """The kernel holds a lock of the task then, for which who looks at the task in /proc waits: a server that did would wait for itself."""
        file = os.open(self.path("f"), os.O_CREAT | os.O_WRONLY | os.O_CLOEXEC)
        os.write(file, b"x")
        self.assertEqual([os.spawnv(os.P_WAIT, shutil.which("true"), ["true"]) for _ in range(20)], [0] * 20)
        os.close(file)

    def test_what_is_listed_together_is_asked_for_together(self):
        for number in range(40):
            os.makedirs(self.path(f"d{number}", "sub"))
        self.remount()
        before = self.counted("batches")
        links = {line.name: os.stat(line.path).st_nlink for line in os.scandir(self.top)}
        self.assertEqual(links, {f"d{number}": 3 for number in range(40)})
        self.assertLess(self.counted("batches") - before, 12)

    def test_what_was_listed_to_be_counted_stands_until_a_name_changes(self):
        """Then each name costs two steps, and the list eight more."""
        for name in ("a/0", "a/1", "a/2", "b/0", "c/0"):
            write(self.path(name), b"")
        self.remount()
        self.assertEqual({line.name: os.stat(line.path).st_nlink for line in os.scandir(self.top)}, dict.fromkeys("abc", 2))
        before = self.counted("steps")
        self.assertEqual(sorted(os.listdir(self.path("a"))), ["0", "1", "2"])
        self.assertEqual(self.counted("steps") - before, 6)
        os.remove(self.path("b/0"))
        os.rename(self.path("c/0"), self.path("c/moved"))
        self.assertEqual([os.listdir(self.path(name)) for name in "bc"], [[], ["moved"]])

    def test_a_large_write_is_several_requests(self):
        """Between which others are served."""
        data = os.urandom(1 << 20)
        with open(self.path("f"), "wb", buffering=0) as file:
            before = self.counted("requests")
            file.write(data)
            self.assertIn(self.counted("requests") - before, range(16, 40))

    @unittest.skipUnless(shutil.which("cc"), "no C compiler")
    def test_pipes_that_cannot_grow_do_as_well(self):
        run(["cc", "-shared", "-fPIC", "-o", self.at("no_growth.so"), in_c("no_growth.c"), "-ldl"])
        data = random.Random(12).randbytes(4 << 20)
        with mock.patch.dict(os.environ, LD_PRELOAD=self.at("no_growth.so")):
            self.remount()
        with open(self.path("f"), "wb", buffering=0) as file:
            for at in range(0, len(data), 1 << 20):
                self.assertEqual(os.pwrite(file.fileno(), data[at:at + (1 << 20)], at), 1 << 20)
        self.remount()
        with mock.patch.dict(os.environ, LD_PRELOAD=self.at("no_growth.so")):
            self.remount()
        self.assertEqual(read(self.path("f")), data)

    blocks = 16384


class Long(Mounted):
    """More than one session takes."""

    def test_a_new_session_begins_before_a_stream_is_used_up(self):
        data = random.Random(11).randbytes(1 << 20)
        with open(self.path("f"), "wb", buffering=0) as file:
            for _ in range(18):                 # 18 MiB of frames and more
                os.pwrite(file.fileno(), data, 0)
        self.assertEqual(read(self.path("f")), data)
        self.remount()
        self.assertEqual(read(self.path("f")), data)
