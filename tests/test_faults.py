"""Calls of an image's file that fail: strace makes them."""
import shutil
import subprocess

from tests.common import NOFS, Folders, read, run, serve, write


class Plain:
    """Two levels of directories as plain lists of names: what the lines of a session have to be."""

    def __init__(self):
        self.folders = {"": []}

    def line(self, command):
        verb, *words = command.split()
        folder, _, name = words[0].rpartition("/")
        return getattr(self, verb)(folder, name, *words)

    def put(self, *_words):
        return "put 1"

    def fsync(self, _folder, _name, path):
        return "synced" if path in ("@", *self.folders) else "refused 1 missing"

    def new(self, folder, name):
        if folder not in self.folders:
            return "refused 1 missing"
        if name in self.folders[folder]:
            return "refused 4 exists"
        places = self.folders[folder]
        if None not in places:
            places.append(None)
        places[places.index(None)] = name
        return "made"

    def make(self, folder, name, *_):
        return self.new(folder, name)

    def mkdir(self, folder, name, path):
        line = self.new(folder, name)
        if line == "made":
            self.folders[path] = []
        return line

    def found(self, folder, name):
        return name in self.folders.get(folder, [])

    def rename(self, folder, name, _path, new):
        if not self.found(folder, name):
            return "refused 1 missing"
        self.folders[folder][self.folders[folder].index(name)] = new
        return "renamed"

    def drop(self, folder, name, path):
        if not self.found(folder, name):
            return "refused 1 missing"
        if any(self.folders.get(path, [])):
            return "refused 7 not empty"
        self.folders.pop(path, None)
        self.folders[folder][self.folders[folder].index(name)] = None
        return "dropped"

    def list(self, folder, name, path):
        path = path.rstrip("/")
        if path not in self.folders:
            return "refused 1 missing"
        return "".join(["names", *(f" {name}" + "/" * (f"{path}/{name}" in self.folders) for name in self.folders[path] if name)])


class FailingCalls(Folders):
    """A session of directories on an image in a file, of which each call fails once: strace counts the calls of each thread."""

    PRELUDE = ["put @ 0 61", "fsync @"]                     # the first calls of the user's thread, which share their numbers with the mount's
    BEFORE = ["mkdir /d", "make /d/a", "make /d/b", "fsync /d"]
    AFTER = ["rename /d/a c", "list /d", "list /", "drop /d", "drop /d/b", "make /d/x", "list /d"]
    COMMANDS = [*PRELUDE, *BEFORE, *AFTER]
    SYNCED = len(PRELUDE + BEFORE)

    def setUp(self):
        super().setUp()
        if not shutil.which("strace"):
            self.skipTest("no strace")
        self.image, self.before = self.at("disk.img"), self.at("before.img")
        serve(self.before, b"put @ 0 60\n", "new", "256", "16")

    def failing(self, call, threads, number):
        """Runs the session while a call fails, and tells what was failed, the lines and the status."""
        shutil.copy(self.before, self.image)
        strace = ["strace", *threads, "-qq", "-o", self.at("trace"), "-P", self.image, "-e", f"inject={call}:error=EIO:when={number}"]
        session = "".join(f"{command}\n" for command in self.COMMANDS)
        done = subprocess.run([*strace, NOFS, self.image, "run"], input=session.encode(), stdout=subprocess.PIPE, stderr=subprocess.DEVNULL)
        return read(self.at("trace")).count(b"(INJECTED)"), done.stdout.decode().splitlines(), done.returncode

    def test_each_call_of_the_file_fails_once(self):
        ended = set()
        for call in ("pwrite64", "pread64", "fdatasync"):
            for threads, first in (([], 1), (["-f"], 2)):      # the main thread alone, which mounts and closes; every thread
                for number in range(first, 40):
                    with self.subTest(call=call, threads=threads, number=number):
                        failed, lines, status = self.failing(call, threads, number)
                        self.checked(lines, status)
                        ended.add((failed > 0, status))
                    if not failed:
                        break
                self.assertGreater(number, first, "no call was failed")
        self.assertEqual({status for failed, status in ended if not failed}, {0})
        self.assertIn((True, 3), ended)

    def test_a_read_that_fails_is_told_and_stops_nothing(self):
        names = range(12)                   # each takes about as many blocks as the program keeps of one read
        spread = b"".join(b"make /%d\nput /%d 0 %b\n" % (name, name, b"%02x" % name * 61440) for name in names)
        self.assertEqual(serve(self.image, spread, "new", "1024", "16"), ["made", "put 61440"] * len(names))
        session = b"".join(b"get /%d 30000 1\n" % name for name in names) * 2
        # A thread's first two reads are left: the main thread's are of the layout and of the superblock.
        strace = ["strace", "-f", "-qq", "-o", self.at("trace"), "-P", self.image, "-e", "inject=pread64:error=EIO:when=3+"]
        done = subprocess.run([*strace, NOFS, self.image, "run"], input=session, stdout=subprocess.PIPE, stderr=subprocess.DEVNULL)
        lines = done.stdout.decode().splitlines()
        self.assertEqual(done.returncode, 3)
        for line, name in zip(lines, [*names, *names], strict=True):
            self.assertIn(line, (f"got bytes:{name:02x}", "refused 18 read fault"))
        self.assertIn("refused 18 read fault", lines)
        self.assertEqual(serve(self.image, session), [f"got bytes:{name:02x}" for name in names] * 2)

    def checked(self, lines, status):
        self.assertIn(status, (0, 3))
        self.assertEqual(read(self.image)[:16], read(self.before)[:16])
        if lines == ["device fault"]:
            self.assertEqual(status, 3)
            self.assertEqual(self.later(), ["names", "refused 1 missing", "refused 1 missing"])
        else:
            self.compared(lines, status)

    def compared(self, lines, status):
        """Each line is that of plain lists of names, or a refusal of the device, and then the status is 3."""
        plain, stopped, was = Plain(), False, None
        self.assertEqual(len(lines), len(self.COMMANDS))
        for number, (command, line) in enumerate(zip(self.COMMANDS, lines)):
            if stopped or line == "refused 19 write fault":
                self.assertEqual(line, "refused 20 stopped" if stopped else "refused 19 write fault")
                self.assertTrue(stopped or command.startswith("fsync"), command)
                stopped = True
            elif not line.startswith("refused 18 read fault"):
                self.assertEqual(line, plain.line(command))
            if number + 1 == self.SYNCED and line == "synced":
                was = {name: list(places) for name, places in plain.folders.items()}
        if any(line.startswith(("refused 18", "refused 19")) for line in lines):
            self.assertEqual(status, 3)
        self.stood(plain, was, status)

    def later(self):
        return serve(self.image, b"list /\nlist /d\nstat /d/x\n")

    def stood(self, plain, was, status):
        """A later session shows nothing that no step gave, and all that was synced and not taken away since."""
        root, inside, stat = self.later()
        if status == 0:
            self.assertEqual([root, inside], [plain.line("list /"), plain.line("list /d")])
        self.assertRegex(root, "^names( d/| /dead:d| /lost:0)?$")
        self.assertRegex(inside, r"^(names( (/dead:)?[abcx]\b)*( /lost:0)?|refused [123] .*)$")
        self.assertRegex(stat, "^(stat file 0 1|refused 1 missing|refused 2 lost entry [0-9]+|refused 3 lost slot 0)$")
        if was and was.get("/d") == ["a", "b"]:
            self.assertEqual(root, "names d/")
            first, second, *rest = inside.split()[1:] + [""]
            self.assertIn(first, ("a", "c"))
            self.assertIn(second, ("b", "", "x", "/dead:b", "/dead:x"))
            self.assertLessEqual(set(rest), {""})
        if stat.startswith("stat"):
            self.assertIn(" x", inside)


class Mirrors(Folders):
    """Mirrors of two files, of which the host takes writes no more: strace makes the calls fail."""

    SIZE = 40 * 1024

    def setUp(self):
        super().setUp()
        if not shutil.which("strace"):
            self.skipTest("no strace")
        self.lead, self.other = self.at("lead.img"), self.at("other.img")
        session = b"make /f\nput /f 0 %b\nfsync /f\n" % (b"00" * self.SIZE)
        serve(self.word(self.lead, self.other), session, "new", "64", "16")
        self.assertEqual(read(self.lead), read(self.other))

    def word(self, lead, other):
        return f"mirror:64:{lead}:{other}"

    def rewrites(self):
        """Puts into blocks that the file has, each synced: no block is claimed, so that the cells do not depend on the sweeps."""
        for number in range(200):
            yield b"put /f %d %b\nfsync /f\n" % (number % 40 * 1024, b"%02x" % (number + 1) * 1024)

    def rewritten(self, *failing, status=0):
        """Runs the rewrites; the 90th write of a thread to one of these files fails, and all later ones. A mount writes its copy before."""
        paths = [word for path in failing for word in ("-P", path)]
        strace = ["strace", "-f", "-qq", "-o", self.at("trace"), *paths, "-e", "inject=pwrite64:error=ENOSPC:when=90+"]
        words = [*(strace if failing else []), NOFS, self.word(self.lead, self.other), "run"]
        return run(words, b"".join(self.rewrites()), status)[0].decode().splitlines()

    def whole(self):
        """The image that the rewrites leave where nothing fails; both files are put back."""
        before = read(self.lead)
        lines = self.rewritten()
        self.assertEqual(lines, ["put 1024", "synced"] * 200)
        image = read(self.lead)
        self.assertEqual(read(self.other), image)
        write(self.lead, before)
        write(self.other, before)
        return image

    def test_one_file_goes_on_where_the_other_takes_no_more_writes(self):
        whole = self.whole()
        before = read(self.lead)
        for out, stays in ((self.other, self.lead), (self.lead, self.other)):
            write(self.lead, before)
            write(self.other, before)
            self.assertEqual(self.rewritten(out), ["put 1024", "synced"] * 200)
            self.assertEqual(read(stays), whole)
            self.assertNotEqual(read(out), whole)
            lines = serve(self.word(stays, out), b"get /f 40959 1\n")
            self.assertEqual(lines, ["got bytes:c8"])
            self.assertEqual(read(out), read(stays))

    def test_where_both_fail_the_lead_keeps_what_was_synced(self):
        lines = self.rewritten(self.lead, self.other, status=3)
        synced = lines.count("synced")
        self.assertTrue(0 < synced < 200)
        self.assertEqual(lines[:2 * synced], ["put 1024", "synced"] * synced)
        self.assertEqual(lines[-1], "refused 20 stopped")
        for number in range(max(0, synced - 40), synced):
            line, = serve(self.lead, b"get /f %d 1\n" % (number % 40 * 1024))
            may_stand = [number] if synced - number < 40 else [number, synced]
            self.assertIn(line, [f"got bytes:{put + 1:02x}" for put in may_stand])
