"""Sessions at the edges of the grammar (docs/FORMAT.md, "Session text"), and words at the edges of a command."""
import os

from tests.common import NOFS, Folders, run

MOST_TEXT = 16777216
MOST_NUMBER = 2**64 - 1
LONG, TOO_LONG = b"n" * 48, b"n" * 49
AWRY = b"\xff\x00\xc3\x80\x7f"              # bytes that are no UTF-8, and a zero
MEMORY = 4096                               # the blocks of the disk `-`

# A text that is a session, and its lines, on a new image of 64 blocks and 16 inodes. Each is served on its own.
SERVED = [
    # Texts, lines and words.
    (b"", []),
    (b"\n\n\n", []),
    (b"   \n  \r\n\r\n", []),
    (b"# no command\n#stat\n#\n", []),
    (b"stat @", ["stat file 0 0"]),
    (b"stat @\nstat /", ["stat file 0 0", "stat dir 0 0"]),
    (b"stat @\r\nstat @\r\n", ["stat file 0 0"] * 2),
    (b"   stat    @   \n", ["stat file 0 0"]),
    (b" \r\nstat @ \r\n", ["stat file 0 0"]),
    # Users, of which some have no commands.
    (b"user\nuser\nuser\nuser\nuser\nuser\nuser\n", []),
    (b"user\nuser\nstat @\nuser\nuser\nuser\nstat /\nuser\nuser\n", ["stat file 0 0", "stat dir 0 0"]),
    (b"stat @\nuser\nstat @\nuser\nstat @\nuser\nstat @\nuser\nstat @\nuser\nstat @\nuser\nstat @\nuser\nstat /", ["stat file 0 0"] * 7 + ["stat dir 0 0"]),
    (b" user \r\nstat @", ["stat file 0 0"]),
    # A line for each command, at the edges of its words.
    (b"make /a\nmake /a\nmake /a/b\nmake /b/a\n", ["made", "refused 4 exists", "refused 5 not a directory", "refused 1 missing"]),
    (b"make /@\nmake /@x\nmake /#\nlist /\n", ["made", "made", "made", "names @ @x #"]),
    (b"make /%b\nmake /%b\nlist /\n" % (LONG, TOO_LONG), ["made", "refused 8 bad name", "names " + "n" * 48]),
    (b"make /.\nmake /..\nmake /...\nmkdir /.\nmkdir /..\nlist /\n",
     ["refused 8 bad name", "refused 8 bad name", "made", "refused 8 bad name", "refused 8 bad name", "names ..."]),
    (b"make /a\rb\nmake /a\0b\nlist /\n", ["refused 8 bad name", "refused 8 bad name", "names"]),
    (b"mkdir /d\nmkdir /d\nmkdir /d/e\nlist /\nlist /d\n", ["made", "refused 4 exists", "made", "names d/", "names e/"]),
    (b"put @ 0 Aa\nput @ 1 fF\nput @ 0 00\nget @ 0 2\n", ["put 1", "put 1", "put 1", "got bytes:00ff"]),
    (b"put @ %d 00\nput / 0 00\nput /a 0 00\n" % MOST_NUMBER,
     ["refused 12 too large, stored 0", "refused 6 is a directory, stored 0", "refused 1 missing, stored 0"]),
    (b"put @ 1024 00\nput @ 1 00\nput @ 1024 00\nsize @ 1024\nput @ 1023 0000\n",
     ["refused 13 past end, stored 0", "put 1", "refused 13 past end, stored 0", "sized 1024", "put 2"]),
    (b"get @ 0 0\nget @ %d 1\nget @ %d 67108863\nget / 0 0\n" % (MOST_NUMBER, MOST_NUMBER), ["got", "got", "got", "refused 6 is a directory"]),
    (b"get @ 0 67108864\n", ["got"]),
    (b"size @ 0\nsize @ 73728\nsize @ 73729\nsize @ %d\nstat @\n" % MOST_NUMBER,
     ["sized 0", "sized 73728", "refused 12 too large", "refused 12 too large", "stat file 73728 0"]),
    (b"size / 0\n", ["refused 6 is a directory"]),
    (b"stat /\nstat @\nstat /a\n", ["stat dir 0 0", "stat file 0 0", "refused 1 missing"]),
    (b"list /\nlist @\nlist /a\n", ["names", "refused 5 not a directory", "refused 1 missing"]),
    (b"make /a\nlink /a /b\nlink /a /c\nlink /a /d\nlink /a /e\nlink @ /l\nlink / /x\nlink /y /z\nlink /a /.\nlink /a /a\n",
     ["made", "linked", "linked", "linked", "refused 10 too many links", "refused 10 too many links", "refused 6 is a directory", "refused 1 missing",
      "refused 8 bad name", "refused 4 exists"]),
    (b"drop /a\nmake /a\ndrop /a\ndrop /a\n", ["refused 1 missing", "made", "dropped", "refused 1 missing"]),
    (b"make /a\nrename /a %b\nrename /%b %b\nrename /%b a/b\nrename /%b ..\nlist /\n" % (LONG, LONG, TOO_LONG, LONG, LONG),
     ["made", "renamed", "refused 8 bad name", "refused 8 bad name", "refused 8 bad name", "names " + "n" * 48]),
    (b"make /a\nrename /a @\nrename /@ /\n", ["made", "renamed", "refused 8 bad name"]),
    (b"fsync /\nfsync @\nfsync /a\n", ["synced", "synced", "refused 1 missing"]),
    (b"make /a\nmove /a /b\nmove /a /c\nmove /b /b\nmove /b /%b\nlist /\n" % TOO_LONG,
     ["made", "moved", "refused 1 missing", "refused 4 exists", "refused 8 bad name", "names b"]),
]

# A text whose line of this number is the first bad one, and what is said of it.
BAD = [
    # The first word.
    (b"frob", 1, "unknown command"),
    (b"Make /a", 1, "unknown command"),
    (b"stat @\n stat@\n", 2, "unknown command"),
    (b"  # not in front\n", 1, "unknown command"),
    (b"\xff\xfe\n", 1, "unknown command"),
    (AWRY + b" @", 1, "unknown command"),
    (b"stat\0 @", 1, "unknown command"),
    (b"stat\t@", 1, "unknown command"),
    (b"\nuser\n\rstat @", 3, "unknown command"),
    (b"stat @\n\n#\nusers\n", 4, "unknown command"),
    # The number of words.
    *((b"stat @\n" + verb, 2, "wrong number of words")
      for verb in (b"make", b"mkdir", b"put", b"get", b"size", b"stat", b"list", b"link", b"drop", b"rename", b"fsync", b"move")),
    *((line, 1, "wrong number of words")
      for line in (b"make /a /b", b"mkdir /a /b", b"put @ 0 00 00", b"get @ 0 1 2", b"size @ 0 0", b"stat @ @", b"list / /", b"link @ /a /b",
                   b"drop /a /b", b"rename /a b c", b"fsync @ @", b"move /a /b /c", b"user 1", b"get a 01", b"put @ 0", b"size @")),
    # Paths: whatever is none, where any is asked, and where one with a name is asked.
    *((b"stat " + path, 1, "bad path") for path in (b"a", b"@x", b"@/a", b"//", b"/a/", b"//a", b"/a//b", b".", b"\xff", b"@\r")),
    *((b"%b %b%b" % (verb, path, rest), 1, "bad path")
      for verb, rest in ((b"make", b""), (b"mkdir", b""), (b"drop", b""), (b"rename", b" a"), (b"move", b" /a")) for path in (b"@", b"/", b"a")),
    *((b"%b a%b" % (verb, rest), 1, "bad path")
      for verb, rest in ((b"put", b" 0 00"), (b"get", b" 0 0"), (b"size", b" 0"), (b"list", b""), (b"fsync", b""), (b"link", b" /a"))),
    *((b"%b /a %b" % (verb, path), 1, "bad path") for verb in (b"link", b"move") for path in (b"@", b"/", b"b", b"/b/")),
    # Numbers, at each place where one is asked.
    *((line % number, 1, "bad number")
      for line in (b"size @ %b", b"put @ %b 00", b"get @ %b 0", b"get @ 0 %b")
      for number in (b"00", b"18446744073709551616", b"1" * 21)),
    *((b"size @ " + number, 1, "bad number") for number in (b"01", b"0" * 21, b"99999999999999999999", b"-1", b"+1", b"1.0", b"0x1", b"1e3", b"\xb2", b"1\r")),
    # Hexadecimal digits.
    *((b"put @ 0 " + digits, 1, "bad hex") for digits in (b"0", b"616", b"6g", b"0x61", b"-1", b"\xff\xff", b"61\r")),
    # Which of several comes first: words from left to right, and the sums behind them.
    (b"put a 01 0", 1, "bad path"),
    (b"put @ 01 0", 1, "bad number"),
    (b"get a 01 1", 1, "bad path"),
    (b"move @ b", 1, "bad path"),
    (b"frob\nstat", 1, "unknown command"),
    (b"get @ 0 67108864\nget @ 01 1", 2, "bad number"),
    # Users, lengths and commands.
    (b"user\n" * 8, 8, "too many users"),
    (b"user\nstat @\n" * 9, 15, "too many users"),
    (b"get @ 0 67108865", 1, "too much asked"),
    (b"get @ 0 %d" % MOST_NUMBER, 1, "too much asked"),
    (b"get @ 0 67108864\nuser\nget @ 0 1\n", 3, "too much asked"),
    (b"get @ 0 60000000\nget @ 0 %d\n" % MOST_NUMBER, 2, "too much asked"),
    (b"stat @\n" * 65536 + b"stat @", 65537, "too many commands"),
    (b"stat @\n" * 65536 + b"frob", 65537, "unknown command"),
    (b"get @ 0 67108864\n" + b"stat @\n" * 65535 + b"get @ 0 1", 65537, "too much asked"),
]


class Sessions(Folders):
    """Each text, with its lines and its status."""

    def served(self, text, status=0):
        return run([NOFS, "-", "new", "64", "16"], text, status)[0]

    def test_a_text_that_is_a_session_is_served(self):
        for text, lines in SERVED:
            with self.subTest(text=text[:200]):
                self.assertEqual(self.served(text).decode().splitlines(), lines)

    def test_the_first_bad_line_is_named(self):
        for text, number, what in BAD:
            with self.subTest(text=text[:200]):
                self.assertEqual(self.served(text, 2), f"line {number}: {what}\n".encode())

    def test_a_name_is_any_bytes(self):
        name = bytes(byte for byte in range(1, 256) if byte not in b"\n\r /")
        for part in (name[at:at + 48] for at in range(0, len(name), 48)):
            text = b"make /%b\nrename /%b x\nrename /x %b\nlist /\nstat /%b\n" % (part, part, part, part)
            self.assertEqual(self.served(text), b"made\nrenamed\nrenamed\nnames %b\nstat file 0 1\n" % part)

    def test_a_session_has_65536_commands(self):
        lines = self.served(b"user\n# one\n".join([b"stat @\n" * 16384] * 4))
        self.assertEqual(lines, b"stat file 0 0\n" * 65536)

    def test_a_line_may_fill_the_longest_text(self):
        begin = b"put @ 0 "
        long = begin + b"61" * ((MOST_TEXT - len(begin)) // 2)
        self.assertEqual(len(long), MOST_TEXT)
        line, = self.served(long).splitlines()
        self.assertRegex(line, b"^refused 15 full, needed [0-9]+, free 0, unchecked 0, stored [0-9]+$")
        self.assertEqual(self.served(b"#" * MOST_TEXT + b"\n", 8), b"session longer than 16777216 bytes\n")

    def test_a_text_that_is_no_session_leaves_no_image(self):
        self.assertEqual(run([NOFS, self.at("disk.img"), "new", "64", "16"], b"frob", 2)[0], b"line 1: unknown command\n")
        self.assertEqual(os.stat(self.at("disk.img")).st_size, 0)


class Words(Folders):
    """Words at the edges of a command."""

    USAGE = b"usage: nofs IMAGE new BLOCKS INODES | run | scan | drill START STEPS | upgrade | salvage [PREFIX] | wire\n"

    def test_words_that_are_no_command_are_told_the_usage(self):
        for words in (
                [], ["-"], ["-", ""], ["-", "Run"], ["-", "run", ""], ["-", "run", "run"], ["-", "scan", "1"], ["-", "wire", "1"], ["-", "upgrade", "1"],
                ["-", "new"], ["-", "new", "64"], ["-", "new", "64", "16", "1"], ["-", "new", "064", "16"], ["-", "new", "64", "016"],
                ["-", "new", "18446744073709551616", "16"], ["-", "new", "64", "1" * 21],
                ["-", "new", "-64", "16"], ["-", "new", "64 16"], ["-", "new", "", "16"],
                ["-", "drill"], ["-", "drill", "1"], ["-", "drill", "1", "4001"], ["-", "drill", "01", "1"], ["-", "drill", "1", "1", "1"],
                ["-", "salvage", ""], ["-", "salvage", "n" * 49], ["-", "salvage", "a", "b"], ["-", b"\xff"], [b"\xff\xfe", "run"],
                ["mirror:15:a:b", "run"], ["mirror:1048577:a:b", "run"], ["mirror:064:a:b", "run"], ["mirror:64:a", "run"], ["mirror:64:a:", "run"],
                ["mirror:64::b", "run"], ["mirror:64:-:b", "run"], ["mirror:64:a:b:c", "run"], ["mirror:", "run"]):
            with self.subTest(words=words):
                self.assertEqual(run([NOFS, *words], b"stat @\n", 1)[0], self.USAGE)

    def test_numbers_that_no_image_has_are_refused(self):
        most = str(MOST_NUMBER)
        for blocks, inodes, line in (
                ("64", "0", "format: bad inodes 0"), ("64", "3", "format: bad inodes 3"), ("64", "65540", "format: bad inodes 65540"),
                (most, most, f"format: bad inodes {most}"), ("15", "4", "format: too small, least 16"), ("0", "4", "format: too small, least 16"),
                ("66", "260", "format: too small, least 67"), ("4097", "4", f"format: too large, most {MEMORY}"),
                (most, "4", f"format: too large, most {MEMORY}")):
            with self.subTest(blocks=blocks, inodes=inodes):
                self.assertEqual(run([NOFS, "-", "new", blocks, inodes], b"stat @\n", 4)[0].decode(), line + "\n")

    def test_the_least_and_the_greatest_image_in_memory_are_served(self):
        for blocks, inodes in (("16", "4"), ("4096", "4"), ("4096", "16376")):
            with self.subTest(blocks=blocks, inodes=inodes):
                self.assertEqual(run([NOFS, "-", "new", blocks, inodes], b"stat @\n")[0], b"stat file 0 0\n")
