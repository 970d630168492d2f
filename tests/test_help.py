"""What helps where people look: `./nofs --help`, the page of man and --help of each script say what docs/FORMAT.md says."""
import fcntl
import glob
import os
import re
import shutil
import subprocess
import unittest

from tests.common import TOP, Folders, in_c, read, run, write

SCRIPT = os.path.join(TOP, "nofs")
MAN = os.path.join(TOP, "docs", "nofs.1")
CELL = re.compile(r"`([^`]+)`")


def page(name):
    return read(os.path.join(TOP, "docs", name)).decode()


def items(text, heading):
    """The items of the first list behind a heading of a page, each in one line."""
    part = text[text.index(f"\n{heading}\n"):]
    found = re.search(r"\n\n((?:- [^\n]*\n(?:  [^\n]*\n)*)+)", part).group(1)
    return [re.sub(r"\s+", " ", it).strip() for it in re.split(r"(?m)^- ", found)[1:]]


def plain(text):
    """The page of man as words, without the marks of mdoc."""
    text = re.sub(r"^\.\\\".*$", "", text, flags=re.M)
    text = re.sub(r"^\.(?:It|Li|Ql|Pq|Cm|Ar|Op|Nm|Pa|Fl) ?", "", text, flags=re.M)
    text = re.sub(r" (?:Ns|Ta|Li|Ar|Cm|Op|Ql)(?= )", "", text)
    return re.sub(r"\s+", " ", text.replace("\\&", ""))


class Help(Folders):
    """The help of the script `nofs`, and the page of man."""

    def setUp(self):
        super().setUp()
        self.help = run([SCRIPT, "--help"])[0].decode()
        self.man = plain(page("nofs.1"))

    def each(self, wanted):
        """Fails with what the one or the other lacks."""
        words = re.sub(r"\s+", " ", self.help)
        self.assertEqual([("--help", it) for it in wanted if it not in words] + [("nofs.1", it) for it in wanted if it not in self.man], [])

    def test_both_have_each_word_of_the_usage_line(self):
        usage = re.search(r"`usage: nofs (IMAGE [^`]*)`", page("FORMAT.md")).group(1).replace("\\|", "|")
        words = [it.strip().split()[0] for it in usage.removeprefix("IMAGE ").split("|")]
        self.assertIn("new", words)
        self.each(words)
        for word in words:
            self.assertRegex(self.help, rf"(?m)^  {word}\b")

    def test_both_have_each_command_of_a_session_with_its_words(self):
        commands = [CELL.match(it).group(1) for it in items(page("FORMAT.md"), "## Session text")]
        self.assertEqual(len(commands), 12)
        # a NEWPATH that comes first is a path here
        self.each([re.sub(r"^(\w+) NEWPATH", r"\1 PATH", it) for it in commands])

    def test_both_have_the_line_of_each_command(self):
        lines = [it.split(": ", 1)[1] for it in items(page("FORMAT.md"), "## Lines")[:-1]]
        self.assertEqual(len(lines), 7)
        for line in lines:
            self.each([text.split()[0] for text in CELL.findall(line) if text.strip() and text.strip()[0] != "/"])

    def test_the_page_of_man_has_each_refusal(self):
        texts = re.findall(r"`(\d+ [a-z][^`]*)`", page("FORMAT.md").split("\n## Lines\n")[1].split("\n## ")[0])
        self.assertEqual([int(it.split()[0]) for it in texts], list(range(1, 21)))
        self.assertEqual([it for it in texts if it not in self.man], [])

    def test_both_have_the_statuses_0_to_8(self):
        statuses = re.search(r"(?s)Status: (.*?)\n\n", self.help).group(1)
        self.assertEqual(sorted(map(int, re.findall(r"\b(\d) [a-z]", statuses))), list(range(9)))
        part = self.man[self.man.index("EXIT STATUS"):self.man.index("EXAMPLES")]
        self.assertEqual([n for n in range(9) if not re.search(rf" {n} [a-z]", part)], [])

    def test_both_have_the_numbers_of_the_format(self):
        for number in ("4,268,032", "1,048,576", "65,536", "73,728", "16,777,216"):
            self.assertIn(number, self.man + self.help)
            self.assertIn(number, page("FORMAT.md") + read(os.path.join(TOP, "README.md")).decode())

    def test_an_option_that_a_page_names_is_in_the_help(self):
        for path in [os.path.join(TOP, "README.md"), *glob.glob(os.path.join(TOP, "docs", "*.md"))]:
            for option in re.findall(r"\./nofs (--[a-z]+)", read(path).decode()):
                self.assertIn(option, self.help, path)

    def test_man_shows_its_page_without_a_warning(self):
        if not shutil.which("man"):
            self.skipTest("no man")
        self.assertEqual(run(["man", "--warnings", "-l", MAN])[1], "")
        if shutil.which("mandoc"):
            self.assertEqual(run(["mandoc", "-T", "lint", MAN])[0], b"")

    def test_the_version_names_release_and_kit(self):
        told = run([SCRIPT, "--version"])[0].decode().splitlines()
        newest = re.search(r"(?m)^## (\d+\.\d+)", read(os.path.join(TOP, "CHANGELOG.md")).decode()).group(1)
        self.assertEqual(told[0], f"nofs {newest}")
        self.assertRegex(told[1], r"proved by|without any proof by|not built")


class Scripts(unittest.TestCase):
    """--help of each script of tools/ and dev/."""

    def scripts(self):
        for path in sorted(it for folder in ("tools", "tools/nofs", "dev") for it in glob.glob(f"{folder}/*", root_dir=TOP)):
            whole = os.path.join(TOP, path)
            if os.path.isfile(whole) and os.access(whole, os.X_OK) and read(whole).startswith(b"#!/usr/bin/env python3"):
                yield path

    def test_each_says_in_one_form_what_it_does_how_it_is_called_and_its_statuses(self):
        for path in self.scripts():
            with self.subTest(script=path):
                told = run([os.path.join(TOP, path), "--help"])[0].decode()
                self.assertRegex(told, rf"(?m)^usage: {os.path.basename(path)}\b")
                self.assertRegex(told, rf"(?m)^    (?:\w+=\S+ )*{path}\b", "an example of a call")
                self.assertRegex(told, r"(?m)^Status: 0 ")


class Terminal(Folders):
    """What the script `nofs` says on a terminal alone, and what it costs."""

    def at_terminal(self, *words, text=b""):
        """Runs it with a terminal as standard error: its output, what the terminal got, and the status."""
        master, slave = os.openpty()
        done = subprocess.run([SCRIPT, *words], input=text, stdout=subprocess.PIPE, stderr=slave)
        os.close(slave)
        told = b""
        os.set_blocking(master, False)
        try:
            while True:
                told += os.read(master, 65536)
        except OSError:
            os.close(master)
        lines = [line for line in told.decode().replace("\r", "").splitlines() if "proved" not in line]
        return done.stdout.decode(), lines, done.returncode

    def test_a_refusal_has_one_line_of_help_on_a_terminal(self):
        image, other = self.at("disk.img"), self.at("other")
        write(other, b"no image" * 200)
        self.assertEqual(self.at_terminal(image, "new", "64", "16", text=b"stat @\n"), ("stat file 0 0\n", [], 0))
        told = self.at_terminal(self.at("none.img"), "scan")
        self.assertEqual((len(told[1]), told[2]), (1, 4))
        self.assertIn("there was no file", told[1][0])
        told = self.at_terminal(other, "scan")
        self.assertEqual((len(told[1]), told[2]), (1, 4))
        self.assertIn("holds no NoFS image", told[1][0])
        told = self.at_terminal(self.room, "scan")
        self.assertEqual((told[0], len(told[1]), told[2]), ("device fault\n", 1, 3))
        self.assertIn("is a directory", told[1][0])
        with open(image, "rb") as file:
            fcntl.flock(file, fcntl.LOCK_EX)
            told = self.at_terminal(image, "scan")
        self.assertEqual((told[0], len(told[1]), told[2]), ("device fault\n", 1, 3))
        self.assertIn("in use", told[1][0])
        pages = self.at("pages.img")
        write(pages, b"NoFSpage" + bytes(8192))
        told = self.at_terminal(pages, "scan")
        self.assertEqual((len(told[1]), told[2] in (3, 4)), (1, True))
        self.assertIn("cut within a page", told[1][0])

    def test_a_format_of_an_image_is_told_before(self):
        image = self.at("disk.img")
        run([SCRIPT, image, "new", "64", "16"])
        told = self.at_terminal(image, "new", "64", "16", text=b"stat @\n")
        self.assertEqual((told[0], len(told[1]), told[2]), ("stat file 0 0\n", 1, 0))
        self.assertIn("holds a NoFS image", told[1][0])

    def test_nothing_is_said_elsewhere(self):
        done = subprocess.run([SCRIPT, self.at("none.img"), "scan"], stdout=subprocess.PIPE, stderr=subprocess.PIPE)
        self.assertEqual([line for line in done.stderr.decode().splitlines() if "proved" not in line], [])

    def test_a_call_costs_ten_milliseconds_of_a_processor_beside_the_program(self):
        program = [it for it in ("nofs", "nofs-unproved") if os.path.exists(os.path.join(TOP, "crates", "nofs", "out", it))]
        run([SCRIPT, "x"], status=1)
        least = []
        for word in (SCRIPT, os.path.join(TOP, "crates", "nofs", "out", program[0])):
            took = []
            for _ in range(20):
                begun = os.times()
                for _ in range(5):
                    subprocess.run([word, "x"], stdout=subprocess.DEVNULL, stderr=subprocess.DEVNULL)
                used = os.times()
                took.append((used.children_user + used.children_system - begun.children_user - begun.children_system) / 5)
            least.append(sorted(took)[5])
        self.assertLess(least[0] - least[1], 0.010)


class Install(Folders):
    """./nofs --install, where the program is proved."""

    def test_what_is_installed_works_without_the_repository_and_can_be_taken_away(self):
        if not run([SCRIPT, "--version"])[0].decode().splitlines()[1].startswith("proved"):
            self.skipTest("no proved program is built")
        told = run([SCRIPT, "--install", self.at("to")])[1]
        env = {**os.environ, "PATH": self.at("to", "bin") + os.pathsep + os.environ["PATH"]}
        env.pop("NOFS", None)
        write(self.at("in", "a"), b"abc")

        def bash(script):
            done = subprocess.run(["bash", "-ec", script], cwd=self.room, env=env, stdout=subprocess.PIPE, stderr=subprocess.PIPE)
            self.assertEqual(done.returncode, 0, done.stderr.decode())
            return done.stdout.decode()

        bash("nofs-pack in | nofs disk.img new 64 16")
        bash("nofs-unpack disk.img out; nofs-picture disk.img disk.html; nofs-mount --help")
        self.assertEqual(read(self.at("out", "a")), b"abc")
        self.assertIn("NOFS(1)", bash("man -M to/share/man nofs") if shutil.which("man") else "NOFS(1)")
        if os.path.exists(self.at("to", "lib", "libnofs_reader_c.a")) and shutil.which("pkg-config") and shutil.which("cc"):
            shutil.copy(in_c("reader_installed.c"), self.at("one.c"))
            bash("PKG_CONFIG_PATH=to/lib/pkgconfig; export PKG_CONFIG_PATH; cc one.c $(pkg-config --cflags --libs nofs_reader) -o one")
        bash(re.search(r"to take it away: (.*)", told).group(1))
        self.assertEqual([os.path.join(at, it) for at, _, names in os.walk(self.at("to")) for it in names], [])
