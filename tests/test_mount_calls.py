"""What calls answer in a mounted directory: as a local file system answers, but for what the format has not."""
import errno
import mmap
import os
import signal
import subprocess
import sys
import threading
import time

from tests.common import TESTS, read, run, serve, write
from tests.test_mount import SECONDS, Mounted

# The cases of mounted_calls.py that answer otherwise, and why.
MISSING = {
    "acl": "no extended attributes",
    "device_node": "files and directories alone",
    "efbig_is_not_at_4MiB": "4,268,032 bytes a file",
    "fifo": "files and directories alone",
    "ioctl_flags": "no flags",
    "links_5": "four names a file",
    "name_255": "48 bytes a name",
    "name_bytes": "no byte 10, 13 or 32 in a name",
    "name_space": "no byte 32 in a name",
    "names_1200_in_dir": "1,152 names a directory",
    "o_tmpfile": "no file that never had a name",
    "rename_dir_other_parent": "directories stay in their directory",
    "rename_file_4_links_other_dir": "a rename into another directory takes a fifth name for a moment",
    "rename_noreplace_exchange": "no step exchanges two names",
    "sparse_blocks": "no step tells how many slots are holes",
    "statfs_free_shrinks": "no step tells how much is free",
    "statfs_inodes": "no step tells how much is free",
    "symlink_": "files and directories alone",
    "unix_socket": "files and directories alone",
    "xattr": "no extended attributes",
}


class Table(Mounted):
    blocks, inodes = 16384, 2048

    def test_calls_answer_as_a_local_file_system_does(self):
        os.chmod(self.room, 0o755)              # some cases are another user's
        lines = run([sys.executable, os.path.join(TESTS, "mounted_calls.py"), self.top])[0].decode().splitlines()
        differ = {line.split(":")[0]: line for line in lines[1:]}
        self.assertEqual([line for name, line in differ.items() if name not in MISSING], [])
        self.assertGreaterEqual(int(lines[0].split()[0]), 90, lines)


class Durable(Mounted):
    """What outlives the program's death, by what was asked for."""

    def write(self, name, flags=0):
        file = os.open(self.path(name), os.O_CREAT | os.O_RDWR | flags)
        self.addCleanup(self.close, file)
        os.write(file, b"x" * 5000)

    def close(self, file):
        """A file that was open when the program died tells so when it is closed."""
        try:
            os.close(file)
        except OSError:
            pass

    def names_after_death(self):
        os.kill(self.program(), signal.SIGKILL)
        limit = time.monotonic() + SECONDS
        while b"a new one begins" not in read(self.at("said")) and time.monotonic() < limit:
            time.sleep(0.02)
        return os.listdir(self.top)

    def test_writes_by_o_sync_and_an_fsync_of_the_folder_last(self):
        for name, flags in (("a", os.O_SYNC), ("b", os.O_DSYNC)):
            self.write(name, flags)
        self.write("c")
        folder = os.open(self.top, os.O_RDONLY)
        self.addCleanup(os.close, folder)
        os.fsync(folder)
        self.assertEqual(sorted(self.names_after_death()), ["a", "b", "c"])

    def test_sync_makes_nothing_durable_and_who_syncs_the_folder_later_hears_of_it(self):
        folder = os.open(self.top, os.O_RDONLY)
        self.addCleanup(os.close, folder)
        self.write("a")
        os.sync()
        self.assertEqual(self.names_after_death(), [])
        self.refused(5, os.fsync, folder)

    def test_a_change_is_durable_after_the_seconds_that_were_asked_for(self):
        self.remount("--flush", "1")
        self.write("a")
        time.sleep(3.5)
        self.assertEqual(self.names_after_death(), ["a"])


class Attributes(Mounted):
    def test_groups_links_and_times_go_on_as_names_do(self):
        os.mkdir(self.path("d"))
        os.chown(self.path("d"), 0, 1234)
        os.chmod(self.path("d"), 0o2775)
        write(self.path("d", "f"), b"x")
        os.mkdir(self.path("d", "e"))
        self.assertEqual(os.stat(self.path("d", "f")).st_gid, 1234)
        self.assertEqual((os.stat(self.path("d", "e")).st_gid, os.stat(self.path("d", "e")).st_mode & 0o2000), (1234, 0o2000))
        self.assertEqual(os.stat(self.path("d")).st_nlink, 3)
        before = os.stat(self.path("d", "f")).st_ctime_ns
        time.sleep(0.02)
        os.link(self.path("d", "f"), self.path("d", "g"))
        self.assertGreater(os.stat(self.path("d", "f")).st_ctime_ns, before)

    def test_a_write_across_the_limit_stores_what_fits_and_says_so(self):
        data = b"x" * 10000
        with open(self.path("f"), "wb", buffering=0) as file:
            self.assertEqual(os.pwrite(file.fileno(), data, 4268032 - 3000), 3000)
            self.assertEqual(os.fstat(file.fileno()).st_size, 4268032)
        self.remount()
        self.assertEqual(os.stat(self.path("f")).st_size, 4268032)

    def test_permissions_owners_and_times_last(self):
        write(self.path("f"), b"x")
        os.chown(self.path("f"), 1000, 1001)
        os.chmod(self.path("f"), 0o4751)
        os.utime(self.path("f"), ns=(-5 * 10**9, 987654321987654321))
        os.mkdir(self.path("d"), 0o700)
        self.remount()
        kept = os.stat(self.path("f"))
        self.assertEqual((kept.st_mode & 0o7777, kept.st_uid, kept.st_gid), (0o4751, 1000, 1001))
        self.assertEqual((kept.st_atime_ns, kept.st_mtime_ns), (-5 * 10**9, 987654321987654321))
        self.assertEqual(os.stat(self.path("d")).st_mode & 0o7777, 0o700)

    def test_a_new_file_never_has_those_of_the_one_before_in_its_inode(self):
        write(self.path("old"), b"x")
        os.chmod(self.path("old"), 0o777)
        inode = os.stat(self.path("old")).st_ino
        os.remove(self.path("old"))
        self.unmount()
        run([self.nofs, self.image, "run"], b"make /new\n")
        self.remount()
        self.assertEqual(os.stat(self.path("new")).st_ino, inode)
        self.assertEqual(os.stat(self.path("new")).st_mode & 0o7777, 0o644)

    def test_the_folder_of_the_mount_is_not_shown_and_not_made(self):
        self.assertEqual(os.listdir(self.top), [])
        self.assertFalse(os.path.exists(self.path(".nofs")))
        self.refused(1, os.mkdir, self.path(".nofs"))


class Opened(Mounted):
    """Files and folders that are open while others remove or replace them."""

    blocks, inodes = 8192, 1200

    def test_a_folder_of_a_removed_open_file_can_be_removed(self):
        os.mkdir(self.path("d"))
        with open(self.path("d", "f"), "w+b") as file:
            os.remove(self.path("d", "f"))
            os.rmdir(self.path("d"))
            file.write(b"still here")
            file.seek(0)
            self.assertEqual(file.read(), b"still here")

    def test_cut_off_bytes_do_not_come_back(self):
        for opened_between in (True, False):
            with open(self.path("f"), "wb") as file:
                file.write(b"S" * 2477)
            with open(self.path("f"), "r+b" if opened_between else "rb"):
                os.truncate(self.path("f"), 1710)
                os.truncate(self.path("f"), 3000)
                self.assertEqual(read(self.path("f")), b"S" * 1710 + bytes(1290))

    def test_cut_off_bytes_do_not_come_back_by_a_page_that_is_mapped(self):
        with open(self.path("f"), "wb") as file:
            file.write(b"S" * 2477)
        os.truncate(self.path("f"), 1710)
        with open(self.path("f"), "r+b", buffering=0) as file:
            os.ftruncate(file.fileno(), 3000)
            with mmap.mmap(file.fileno(), 3000) as mapped:
                mapped[2900:2901] = b"x"
                mapped.flush()
        expected = b"S" * 1710 + bytes(1190) + b"x" + bytes(99)
        self.assertEqual(read(self.path("f")), expected)
        self.remount()
        self.assertEqual(read(self.path("f")), expected)

    def test_a_removed_open_file_leaves_no_name_and_no_block_after_a_crash_or_a_signal(self):
        for how in (self.crash, lambda: self.mount.send_signal(signal.SIGTERM)):
            file = os.open(self.path("f"), os.O_RDWR | os.O_CREAT)
            os.write(file, b"x" * 4000000)
            os.fsync(file)
            os.remove(self.path("f"))
            folder = os.open(self.top, os.O_RDONLY)
            os.fsync(folder)
            os.close(folder)
            if how == self.crash:
                self.crash()
                self.close(file)
            else:
                how()
                os.close(file)
                self.unmount(lambda: None)
            for _ in range(3):                  # of which the image has room for one
                self.remount()
                self.assertEqual(os.listdir(self.top), [])
                write(self.path("g"), b"y" * 4000000)
                os.remove(self.path("g"))
            self.unmount()
            self.assertEqual(serve(self.image, b"", "salvage"), [])
            self.assertEqual([line for line in serve(self.image, b"list /.nofs", "run") if " o" in line], [])
            self.remount()

    def crash(self):
        """The server and its program are killed."""
        program = self.program()
        for number, process in ((signal.SIGSTOP, self.mount.pid), (signal.SIGKILL, program), (signal.SIGKILL, self.mount.pid)):
            os.kill(process, number)
        self.drop()
        self.mount = None

    def close(self, file):
        try:
            os.close(file)
        except OSError:
            pass

    def test_a_name_is_replaced_in_a_folder_that_is_full(self):
        os.mkdir(self.path("d"))
        for number in range(1151):
            os.mknod(self.path("d", f"n{number}"))
        write(self.path("d", "target"), b"old")
        write(self.path("new"), b"new")
        self.refused(errno.ENOSPC, os.link, self.path("new"), self.path("d", "one-more"))
        with open(self.path("d", "target"), "rb") as file:
            os.replace(self.path("new"), self.path("d", "target"))
            self.assertEqual(file.read(), b"old")
        self.remount()
        self.assertEqual(read(self.path("d", "target")), b"new")
        self.assertEqual(len(os.listdir(self.path("d"))), 1152)

    def test_a_refused_rename_keeps_its_target(self):
        write(self.path("a"), b"a")
        os.mkdir(self.path("d"))
        for number in range(3):
            os.link(self.path("a"), self.path(f"l{number}"))
        write(self.path("d", "t"), b"target")
        with open(self.path("d", "t"), "rb") as file:
            self.refused(18, os.rename, self.path("a"), self.path("d", "t"))
            self.assertEqual(file.read(), b"target")
        self.assertEqual(read(self.path("d", "t")), b"target")

    def test_a_read_of_one_byte_fetches_no_whole_file(self):
        write(self.path("f"), bytes(4000000))
        self.remount()
        before = self.counted("steps")
        with open(self.path("f"), "rb", buffering=0) as file:
            file.read(1)
        self.assertLess(self.counted("steps") - before, 400)

    def test_calls_of_many_end_while_the_program_dies_again_and_again(self):
        stop, errors = threading.Event(), []
        callers = [threading.Thread(target=self.call, args=(number, stop, errors)) for number in range(4)]
        for caller in callers:
            caller.start()
        for _ in range(5):
            time.sleep(0.3)
            subprocess.run(["pkill", "-KILL", "-P", str(self.mount.pid)], check=False)
        time.sleep(0.5)
        stop.set()
        for caller in callers:
            caller.join(SECONDS)
        self.assertFalse(any(caller.is_alive() for caller in callers))
        write(self.path("after"), b"works")
        self.assertEqual(read(self.path("after")), b"works")

    def call(self, number, stop, errors):
        while not stop.is_set():
            try:
                write(self.path(f"h{number}"), b"z" * 20000)
                read(self.path(f"h{number}"))
                os.listdir(self.top)
                os.rename(self.path(f"h{number}"), self.path(f"i{number}"))
            except OSError as caught:
                errors.append(caught)
