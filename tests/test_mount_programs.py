"""Programs that people use, in a mounted directory, also over a remount. One that is not there is left out by name."""
import os
import pwd
import shutil
import subprocess
import sys
import unittest

from tests.common import write
from tests.test_mount import Mounted

POSTGRES = next((os.path.join("/usr/lib/postgresql", version, "bin") for version in sorted(os.listdir("/usr/lib/postgresql"))),
                None) if os.path.isdir("/usr/lib/postgresql") else None
VERIFIED = {
    "sync": "--ioengine=sync --verify=crc32c", "mmap": "--ioengine=mmap --verify=crc32c", "direct": "--ioengine=sync --direct=1 --verify=md5",
    "libaio": "--ioengine=libaio --iodepth=8 --verify=sha1", "io_uring": "--ioengine=io_uring --iodepth=8 --verify=crc32c",
    "four jobs": "--ioengine=sync --numjobs=4 --verify=md5", "small blocks": "--ioengine=sync --bs=1k --verify=crc32c",
    "mixed blocks": "--ioengine=sync --bsrange=1k-16k --verify=md5",
}


def needs(name):
    return unittest.skipUnless(shutil.which(name), f"no {name}")


class Large(Mounted):
    blocks, inodes = 65536, 4096


class Verified(Large):
    @needs("fio")
    def test_what_fio_writes_it_reads(self):
        for name, words in VERIFIED.items():
            with self.subTest(way=name):
                bs = "" if "--bs" in words else "--bs=4k"
                self.sh(f"fio --name=x --directory=. --size=1M --rw=randwrite {bs} --do_verify=1 --verify_fatal=1 {words} >/dev/null; rm -f x.*")

    def test_the_tests_of_python_pass(self):
        if subprocess.run([sys.executable, "-m", "test", "test_tempfile", "--list-cases"], capture_output=True).returncode:
            self.skipTest("no tests of Python")
        os.mkdir(self.path("tmp"))
        # One class begins with a file of 10 MB. What needs links is left out by the tests themselves.
        words = ["-i", "*TestZeroCopySendfile*"]
        done = subprocess.run([sys.executable, "-m", "test", *words, "test_os", "test_shutil", "test_tempfile"], cwd=self.path("tmp"),
                              env={**os.environ, "TMPDIR": self.path("tmp")}, capture_output=True, text=True)
        self.assertEqual(done.returncode, 0, done.stdout[-3000:])


class Kept(Large):
    """What a program kept is the same after a remount, and it has nothing to do then."""

    @needs("sqlite3")
    def test_sqlite_in_four_journal_modes(self):
        rows = "insert into t select value, hex(randomblob(50)) from generate_series(1, 300);"
        for mode in ("delete", "truncate", "persist", "wal"):
            self.sh(f"sqlite3 {mode}.db 'pragma journal_mode={mode}; create table t(a, b); begin; {rows} commit; delete from t where a % 3 = 0'")
        self.remount()
        for mode in ("delete", "truncate", "persist", "wal"):
            self.assertEqual(self.sh(f"sqlite3 {mode}.db 'pragma integrity_check; select count(*) from t'").split(), ["ok", "200"])

    @needs("git")
    def test_git_commits_finds_no_fault_and_has_no_change(self):
        user = "-c user.name=x -c user.email=x@x"
        self.sh(f"git init -q here; cd here; for n in $(seq 30); do echo $n > file$n; done; chmod +x file1; git add .; git {user} commit -qm one; "
                f"git branch other; echo more >> file2; git {user} commit -qam two; git {user} merge -q other")
        self.remount()
        self.assertEqual(self.sh("cd here; git fsck --full --strict 2>&1; git status --short"), "")

    @needs("rsync")
    def test_rsync_has_nothing_left_to_do(self):
        for number in range(40):
            write(self.at("from", f"d{number % 4}", f"f{number}"), b"%d" % number * 999)
        os.chmod(self.at("from", "d1", "f1"), 0o751)
        self.sh(f"rsync -a {self.at('from')}/ kept")
        for _ in range(2):
            self.remount()
            self.assertEqual(self.sh(f"rsync -ani --checksum {self.at('from')}/ kept"), "")

    @needs("make")
    def test_make_has_nothing_left_to_do(self):
        write(self.path("Makefile"), b"out: in\n\tcp in out\n")
        write(self.path("in"), b"x")
        self.sh("make -s")
        self.remount()
        self.assertIn("up to date", self.sh("make"))


@unittest.skipUnless(POSTGRES and os.getuid() == 0, "no PostgreSQL, or not root")
class Database(Large):
    """PostgreSQL, as the user postgres."""

    def as_postgres(self, script):
        user = pwd.getpwnam("postgres")
        words = ["setpriv", f"--reuid={user.pw_uid}", f"--regid={user.pw_gid}", "--clear-groups", "sh", "-ec", f"cd {self.top}; PATH={POSTGRES}:$PATH; {script}"]
        done = subprocess.run(words, capture_output=True, text=True, timeout=300)
        self.assertEqual(done.returncode, 0, done.stdout[-1000:] + done.stderr[-1000:])
        return done.stdout

    def start(self):
        self.as_postgres(f"pg_ctl -w -D data -l log -o '-k {self.at('sockets')} -c listen_addresses= -c shared_buffers=1MB' start >/dev/null")

    def query(self, text):
        return self.as_postgres(f"psql -qtA -h {self.at('sockets')} postgres -c \"{text}\"").split()

    def test_a_database_starts_again_after_a_remount(self):
        os.chmod(self.room, 0o755)
        os.makedirs(self.at("sockets"))
        os.chmod(self.at("sockets"), 0o777)
        os.chmod(self.top, 0o777)
        self.as_postgres("initdb -A trust --wal-segsize=1 -D data >/dev/null")
        self.start()
        self.query("create table t(a int primary key, b text); insert into t select n, repeat('x', 40) from generate_series(1, 2000) n")
        self.as_postgres("pg_ctl -w -D data -m fast stop >/dev/null")
        self.remount()
        self.start()
        self.assertEqual(self.query("select count(*), sum(length(b)) from t"), ["2000|80000"])
        self.as_postgres("pg_ctl -w -D data -m fast stop >/dev/null")
