"""Each command line and each fenced example of README.md and of docs/nofs.1 does what the page says, followed in a folder that
has ./nofs, tools/, docs/ and crates/, and what a reader brings: notes, and two images. $NOFS_README names another page in
the place of README.md."""
import os
import re
import shlex
import shutil
import subprocess
import sys

from tests.common import CLIENTS, NOFS, TOP, Folders, has_fuse, read, run, write

README = os.environ.get("NOFS_README") or os.path.join(TOP, "README.md")
MAN = os.path.join(TOP, "docs", "nofs.1")
FENCE = re.compile(r"^```(\w*)\n(.*?)^```$|`(\./nofs [^`\n]*|tools/nofs-[a-z]+ [^`\n]*)`", re.S | re.M)
DISPLAY = re.compile(r"^\.Bd -literal.*?\n(.*?)^\.Ed$", re.S | re.M)
# What takes long, or changes more than this folder: that these are options is a test of its own (test_help.py).
OPTIONS = re.compile(r"\./nofs --[a-z]+( DIR)?$")
PLACEHOLDER = re.compile(r"\b[A-Z]{2,}\b")
MOUNTS = re.compile(r"nofs-mount|--mount")


def commands_in(block):
    """The commands of a console block, each with what it prints: a command begins with `$ `, and goes on with `> `."""
    found = []
    for line in block.splitlines():
        if line.startswith("$ "):
            found.append([line[2:], []])
        elif line.startswith("> ") and not found[-1][1]:
            found[-1][0] += "\n" + line[2:]
        else:
            found[-1][1].append(line)
    return found


class Followed(Folders):
    """A page, followed in a folder of its own."""

    def setUp(self):
        super().setUp()
        self.put_nofs(os.path.abspath(NOFS))
        for name in ("tools", "docs", "crates"):
            os.symlink(os.path.join(TOP, name), self.at(name))
        for number in range(3):
            write(self.at("notes", f"harbour{number}.jpg"), bytes(range(number, number + 200)) * 200)
        for name in ("before.img", "crash.img"):
            run([NOFS, self.at(name), "new", "64", "16"], b"put @ 0 616263\n")
        self.env = {**os.environ, "PATH": self.room + os.pathsep + os.environ["PATH"], "NOFS": self.at("nofs")}

    def put_nofs(self, program):
        """Of the options of the script `nofs` a bare program gets the one that the page uses."""
        if read(program).startswith(b"#!"):
            os.symlink(program, self.at("nofs"))
            return
        mount = shlex.join([os.path.join(TOP, "tools", "nofs-mount"), "--nofs", program])
        write(self.at("nofs"), f"#!/bin/sh\n[ \"$1\" != --mount ] || {{ shift; exec {mount} \"$@\"; }}\nexec {shlex.quote(program)} \"$@\"\n".encode())
        os.chmod(self.at("nofs"), 0o755)

    def bash(self, script):
        return subprocess.run(["bash", "-c", script], cwd=self.room, env=self.env, stdin=subprocess.DEVNULL, stdout=subprocess.PIPE,
                              stderr=subprocess.PIPE, timeout=120)

    def follow_console(self, block):
        """Runs the commands of a block in one shell, and compares what each prints with what stands behind it."""
        commands = commands_in(block)
        done = self.bash("\n".join(f"{command}\nprintf '\\n\\1\\n'" for command, _ in commands))
        told = done.stdout.decode().split("\n\1\n")
        self.assertEqual(len(told), len(commands) + 1, done.stderr.decode())
        for (command, wanted), came in zip(commands, told):
            self.assertEqual(came.splitlines(), wanted, f"{command}\n{done.stderr.decode()}")

    def follow_shell(self, block):
        """Runs a block, whose last line is to end well."""
        done = self.bash(block)
        self.assertEqual(done.returncode, 0, f"{block}\n{done.stderr.decode()}")

    def follow_python(self, block):
        """Runs a block; one that loads the reader, where that is built."""
        if "nofs.reader" in block and not os.path.exists(os.path.join(TOP, "crates", "nofs_reader_c", "out", "libnofs_reader.so")):
            return
        done = subprocess.run([sys.executable, "-c", block], cwd=self.room, env=self.env, stdout=subprocess.PIPE, stderr=subprocess.PIPE)
        self.assertEqual(done.returncode, 0, done.stderr.decode())

    def follow_c(self, block):
        """Compiles a block behind the headers that it needs; test_reader.py runs what it has."""
        compiler = shutil.which("cc")
        if compiler:
            headers = "#include <stdio.h>\n#include <string.h>\n#include \"nofs_reader.h\"\n#include \"nofs_client.h\"\n"
            words = [compiler, "-std=c11", "-Wall", "-Werror", "-Wno-unused-function", "-fsyntax-only", "-I", CLIENTS,
                     "-I", os.path.join(TOP, "crates", "nofs_reader_c", "include"), "-x", "c", "-"]
            run(words, (headers + block).encode())

    def follow_rust(self, block):
        """The lines stand, one behind the other, in the crate that the gate runs."""
        folder = os.path.join(TOP, "crates", "nofs_example", "src")
        self.assertTrue([name for name in os.listdir(folder) if block in read(os.path.join(folder, name)).decode()], block)


class Examples(Followed):
    def test_readme_is_followed_from_its_first_line_to_its_last(self):
        ways = {"console": self.follow_console, "sh": self.follow_shell, "python": self.follow_python, "c": self.follow_c,
                "rust": self.follow_rust, "text": lambda block: None}
        for it in FENCE.finditer(read(README).decode()):
            language, block, line = it.groups()
            if MOUNTS.search(it.group()) and not has_fuse():
                continue
            with self.subTest(at=(block or line)[:60]):
                if block:
                    ways[language](block)
                elif not OPTIONS.match(line) and not PLACEHOLDER.search(line):
                    self.follow_shell(line)

    def test_the_page_of_man_is_followed(self):
        for block in DISPLAY.findall(read(MAN).decode()):
            with self.subTest(at=block[:60]):
                self.follow_console(block.replace("\\e", "\\").replace("\\&", ""))
