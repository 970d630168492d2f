"""Tests of dev/width: on a small crate of its own, which has a wide line of each kind."""
import os
import re
import subprocess
import sys
import tempfile
import unittest

from tests.common import DEV

WIDTH_TOOL = os.path.join(DEV, "width")
NAMES = [f"a_long_name_of_number_{number}" for number in range(8)]
SPEC = f"""-- A comment that is {"much " * 24}too wide.
use Rattle.std.specs.Prelude.{{{", ".join(NAMES)}}}

-- a law
pub law : {" → ".join(f"(n{at} : ℕ)" for at in range(16))} → n0 + n1 ≡ n1 + n0
law {" ".join(f"n{at}" for at in range(16))} = first_step n0 n1 (λ j. {NAMES[0]} j ∙ {NAMES[1]} j) ∙ sym ({NAMES[2]} n1)
"""
CODE = f"""//! A comment that is {"much " * 24}too wide.
#![tactic(auto)]

/// A function.
pub fn one(a: u32) -> u32
    ensures {{ OnOk result ({NAMES[0]} a (record {{ first = {NAMES[1]}; second = {NAMES[2]}; third = {NAMES[3]} }})) }}
{{
    text("{"made" + chr(92) + "n"}{"stored" + chr(92) + "n" * 1}{("refused 1 missing" + chr(92) + "n") * 7}")
}}
"""
EDIT = f"""file: specs/Words.antt
old: (λ j. {NAMES[0]} j ∙ {NAMES[1]} j) ∙ sym ({NAMES[2]} n1)
new: (λ j. {NAMES[0]} j ∙ {NAMES[1]} j) ∙ sym ({NAMES[2]} n0)
"""


def read(path):
    with open(path, encoding="utf-8") as it:
        return it.read()


def words_of(text):
    """The text with no white space, separators, comments and imports, and with texts in one piece."""
    text = re.sub(r"^ *(//|--).*\n", "", re.sub(r"\\\n *", "", text), flags=re.M)
    return re.sub(r"[\s,;]", "", re.sub(r"^use .*\n", "", text, flags=re.M))


class Width(unittest.TestCase):
    def setUp(self):
        self.room = tempfile.TemporaryDirectory()
        self.addCleanup(self.room.cleanup)
        self.files = {"src/lib.rt": CODE, "specs/Words.antt": SPEC, "must-fail/other.edit": EDIT}
        for name, text in self.files.items():
            path = self.path(name)
            os.makedirs(os.path.dirname(path), exist_ok=True)
            with open(path, "w", encoding="utf-8") as it:
                it.write(text)

    def path(self, name):
        return os.path.join(self.room.name, "crates", "sample", name)

    def run_tool(self, *words):
        return subprocess.run([sys.executable, WIDTH_TOOL, *words, self.room.name], capture_output=True, text=True)

    def test_wide_lines_are_listed_and_stay(self):
        done = self.run_tool("--check")
        self.assertEqual(done.returncode, 1)
        self.assertIn("specs/Words.antt:1: ", done.stdout)
        self.assertEqual({name: read(self.path(name)) for name in self.files}, self.files)

    def test_wide_lines_are_cut_once_and_keep_their_words(self):
        done = self.run_tool()
        self.assertEqual(done.returncode, 0, done.stdout + done.stderr)
        cut = {name: read(self.path(name)) for name in self.files}
        for name in ("src/lib.rt", "specs/Words.antt"):
            self.assertLessEqual(max(map(len, cut[name].split("\n"))), 120)
            self.assertEqual(words_of(cut[name]), words_of(self.files[name]))
        for name in NAMES:
            self.assertEqual(len(re.findall(rf"^use .*\b{name}\b", cut["specs/Words.antt"], re.M)), 1)
        self.assertEqual(self.run_tool("--check").returncode, 0)
        self.run_tool()
        self.assertEqual({name: read(self.path(name)) for name in self.files}, cut)

    def test_an_edit_follows_its_line(self):
        self.run_tool()
        lines = read(self.path("must-fail/other.edit")).split("\n")
        old, new = lines[1].removeprefix("old: "), lines[2].removeprefix("new: ")
        cut = read(self.path("specs/Words.antt"))
        self.assertEqual(cut.count(old), 1)
        asked = SPEC.replace(*(it.split(": ", 1)[1] for it in EDIT.split("\n")[1:3]))
        self.assertEqual(words_of(cut.replace(old, new)), words_of(asked))
