"""Tests of README.md and docs/: what they name is there."""
import glob
import os
import re
import subprocess
import sys
import tempfile
import unittest

from tests.common import DEV, TOP

PAGES = ["README.md", *sorted(glob.glob("docs/*.md", root_dir=TOP))]
CODE = re.compile(r"```.*?```|`([^`\n]+)`", re.S)
CRATE = re.compile(r"\bnofs_[a-z_]+")
ITEM = re.compile(r"\b(nofs_[a-z_]+)::((?:\w+::)*)(\w+)")
PATH = re.compile(r"(?<![\w/])(?:crates|docs|tools|clients|dev|tests|bench)/[\w./-]*\w|nofs_\w+/[\w./-]*\w")
LINK = re.compile(r"\]\(([^)#\s]*)(?:#([^)\s]*))?\)")
# What is no crate though its name looks so: a file of clients/, calls of the reader in C.
OTHERS = {"nofs_client_h", "nofs_example", "nofs_reader_look", "nofs_reader_next"}


def read(path):
    with open(os.path.join(TOP, path), encoding="utf-8") as page:
        return page.read()


def crates():
    return {line.split(":")[0].split()[0] for line in read("crates.txt").splitlines() if ":" in line and line[0] != "#"}


def sources(crate):
    """The text of a crate's code and specs."""
    files = [it for part, end in (("src", "rt"), ("specs", "antt")) for it in
             glob.glob(f"crates/{crate}/{part}/**/*.{end}", root_dir=TOP, recursive=True)]
    return "\n".join(read(it) for it in files)


def names_in(page):
    """The names in `..` on a page, each as it stands."""
    return [it.group(1) for it in CODE.finditer(page) if it.group(1)]


def anchor(heading):
    """What a link to this heading ends with."""
    return re.sub(r"[^\w\- ]", "", heading.strip().lower()).replace(" ", "-")


class Pages(unittest.TestCase):
    """Whatever a page names by crate, path or link is in the repository."""

    def each(self, found):
        """Fails with what was found, page by page."""
        lost = [f"{path}: {it}" for path in PAGES for it in found(path, read(path))]
        self.assertEqual(lost, [])

    def test_a_crate_that_is_named_is_there(self):
        known = crates() | OTHERS
        self.each(lambda path, page: sorted({
            crate for name in names_in(page) for crate in CRATE.findall(name)
            if crate not in known and not glob.glob(f"clients/{crate}*", root_dir=TOP) and not name.startswith("clients/")
            and not crate.endswith("_")}))

    def test_an_item_that_is_named_stands_in_its_crate(self):
        texts = {crate: sources(crate) for crate in crates()}

        def lost(path, page):
            for name in names_in(page):
                for crate, way, item in ITEM.findall(name):
                    words = [it for it in [*way.split("::"), item] if it]
                    if crate in texts and not all(re.search(rf"\b{word}\b", texts[crate]) or os.path.isdir(
                            os.path.join(TOP, "crates", crate, "src", word)) for word in words):
                        yield f"{crate}::{way}{item}"

        self.each(lost)

    def test_a_call_of_the_list_of_promises_can_be_called(self):
        """A function stands in the crate's lib.rt, and so does the type of a method; a trait in that of its own crate."""
        traits = "\n".join(read(f"crates/{it}/src/lib.rt") for it in ("nofs_filedisk", "nofs_turn"))
        calls = re.findall(r"(?ms)^- \*\*(`nofs_.*?)\*\*", read("docs/PROMISES.md").split("\n## The calls\n")[1])
        lost, seen = [], 0
        for entry in calls:
            for part in re.split(r";\s(?=`nofs_)", entry):
                crate, item = re.search(r"`(nofs_[a-z]+)(?:::(\w+))?", part).groups()
                exported, text = read(f"crates/{crate}/src/lib.rt") + traits, sources(crate)
                words = [item] if item else []
                words += [name.split("::")[0] for name in re.findall(r"`([a-zA-Z_:]+)`", part) if not name.startswith("nofs_")]
                for word in filter(None, words):
                    seen += 1
                    if not re.search(rf"\b{word}\b", exported) and not re.search(rf"^ +(?:pub )?fn {word}\b", text, re.M):
                        lost.append(f"{crate}: {word}")
        self.assertEqual(lost, [])
        self.assertGreater(seen, 100)

    def test_a_path_that_is_named_is_there(self):
        def lost(path, page):
            for name in names_in(page):
                for it in PATH.findall(name):
                    at = it if it.split("/")[0] in ("crates", "docs", "tools", "clients", "dev", "tests", "bench") else f"crates/{it}"
                    if "out/" not in at + "/" and not glob.glob(at, root_dir=TOP) and not at[-1] == "/":
                        yield it

        self.each(lost)

    def test_a_link_leads_to_a_page_and_a_heading(self):
        def lost(path, page):
            for to, part in LINK.findall(page):
                if to.startswith("http"):
                    continue
                at = os.path.normpath(os.path.join(os.path.dirname(path), to)) if to else path
                if not os.path.exists(os.path.join(TOP, at)):
                    yield to
                elif part and part not in {anchor(it) for it in re.findall(r"^#+ (.*)$", read(at), re.M)}:
                    yield f"{to}#{part}"

        self.each(lost)

    def test_a_picture_is_what_its_script_draws(self):
        with tempfile.TemporaryDirectory(prefix="nofs-pictures-") as room:
            subprocess.run([sys.executable, os.path.join(DEV, "pictures"), room], check=True)
            drawn = {name: read(os.path.join(room, name)) for name in os.listdir(room)}
        self.assertEqual(sorted(drawn), ["layers.svg", "pair.svg"])
        for name, text in drawn.items():
            self.assertEqual(text, read(os.path.join("docs", name)), "run dev/pictures")

    def test_no_cell_of_a_table_is_long(self):
        def long(path, page):
            for line in re.sub(r"```.*?```", "", page, flags=re.S).splitlines():
                if line.startswith("|"):
                    yield from (f"{len(cell.strip())}: {cell.strip()[:60]}" for cell in re.split(r"(?<!\\)\|", line) if len(cell.strip()) > 200)

        self.each(long)

    def test_no_table_is_cut_in_two(self):
        """Behind a blank line the first row has a row of dashes below it."""
        self.each(lambda path, page: [row for row in re.findall(r"\n\n(\|[^\n]*)\n(?!\|-[-|]*\n)", re.sub(r"```.*?```", "", page, flags=re.S))])

    def test_long_pages_begin_with_their_contents(self):
        for path in ("docs/PROMISES.md", "docs/FORMAT.md", "docs/PROOFS.md", "docs/DECISIONS.md"):
            page = read(path)
            first = page[:page.index("\n## ")]
            wanted = [anchor(it) for it in re.findall(r"^## (.*)$", page, re.M)]
            self.assertEqual([part for to, part in LINK.findall(first) if not to], wanted, path)
