"""Frames (docs/FORMAT.md) over the program `$NOFS IMAGE wire`: the client, and streams by hand."""
import os
import random
import shutil
import struct
import subprocess
import sys
import threading
import unittest

from nofs import client
from tests.common import CLIENTS, NOFS, Folders, in_c, read, run, serve, tool, write

LABEL = (2, 2)
MOST_STREAM = 16777216
TIME = 120                              # seconds after which a program that does not answer has failed


def frame(kind, rest):
    return client.frame(bytes([kind]) + rest)


def put(at, data):
    """A Put of bytes at a place of slot 0 of the label file."""
    return frame(client.PUT, client.handle(LABEL) + struct.pack("<QI", 0, at) + data)


# Frames and replies of the list of docs/FORMAT.md, "Frames", over an image whose label file is empty.
STAT = bytes.fromhex("0d000000 0a 02000000 0200000000000000")
STATTED = bytes.fromhex("0e000000 00 01 0000000000000000 00000000")
GET_HOLE = bytes.fromhex("15000000 07 02000000 0200000000000000 0000000000000000")
HOLE = bytes.fromhex("02000000 00 02")
GET_PAST = bytes.fromhex("15000000 07 02000000 0200000000000000 4800000000000000")
PAST = bytes.fromhex("01000000 0c")
DONE = bytes.fromhex("01000000 00")
BAD_RANGE = bytes.fromhex("01000000 09")


class Images(Folders):
    """An image for each case."""

    def setUp(self):
        super().setUp()
        self.image = self.at("disk.img")
        run([NOFS, self.image, "new", "512", "64"])

    def watched(self, program):
        """Ends a program that does not answer, so that whoever reads its replies fails and does not wait."""
        watch = threading.Timer(TIME, program.kill)
        watch.daemon = True
        watch.start()
        self.addCleanup(watch.cancel)
        return program

    def wire(self):
        wire = client.Wire(NOFS, self.image)
        self.watched(wire.program)
        return wire


@unittest.skipUnless(shutil.which("cc"), "no C compiler")
class FromC(Images):
    """The client in C: its example, and each of its calls."""

    def built(self, source):
        program, client_in_c = self.at("program"), os.path.join(CLIENTS, "nofs_client.c")
        run(["cc", "-std=c99", "-D_POSIX_C_SOURCE=200809L", "-Wall", "-Wextra", "-Werror", "-I", CLIENTS, "-o", program, source, client_in_c])
        return program

    def test_the_example_keeps_a_line_and_lists_the_root(self):
        example = self.built(os.path.join(CLIENTS, "nofs_example.c"))
        for line in ("a line", "another"):
            self.assertEqual(run([example, NOFS, self.image, line])[0], b"notes\n")
        self.assertEqual(serve(self.image, b"get /notes 0 20"), ["got bytes:" + b"another".hex()])

    def test_each_call_answers_as_a_session_does(self):
        calls = self.built(in_c("client_calls.c"))
        said = run([calls, NOFS, self.image])[0].decode().splitlines()
        self.assertEqual(said, ["make 0", "exists 4", "link 0", "put 0", "get 0 1 78797a", "hole 0 2", "stat 0 1 2051 2", "rename 0",
                                "missing 1", "look 0 2", "not empty 7", "list d l ", "drop 0", "bad name 8", "past 13", "flush 0", "status 0"])
        self.assertEqual(serve(self.image, b"get /d/m 2048 3\nstat /l"), ["got bytes:78797a", "refused 1 missing"])

    def test_a_program_that_is_not_there_has_ended(self):
        example = self.built(os.path.join(CLIENTS, "nofs_example.c"))
        self.assertEqual(run([example, "/none", self.image, "x"], status=1), (b"", "answer -1\n"))

    def test_a_program_that_is_killed_is_an_answer_and_no_signal(self):
        script = ("import signal, subprocess, sys\n"            # Python itself ignores SIGPIPE
                  "sys.exit(subprocess.run(sys.argv[1:], preexec_fn=lambda: signal.signal(signal.SIGPIPE, signal.SIG_DFL)).returncode)")
        self.assertEqual(run([sys.executable, "-c", script, self.built(in_c("client_killed.c")), NOFS, self.image])[0], b"stat 0\n")


class Client(Images):
    """The client of frames."""

    def client(self, *words, status=0):
        return tool("nofs/client.py", NOFS, self.image, *words, status=status)

    def test_files_are_put_listed_and_got(self):
        draw = random.Random(19)
        files = {name: draw.randbytes(size) for name, size in (("a", 0), ("b", 3), ("c", 1024), ("d", 5000), ("ä", 70000))}
        for name, data in files.items():
            write(self.at(name), data)
            self.client("put", f"/{name}", self.at(name))
        self.assertEqual(sorted(self.client("list", "/")[0].decode().split()), sorted(files))
        for name, data in files.items():
            self.assertEqual(self.client("get", f"/{name}")[0], data)

    def test_what_the_client_put_is_what_a_session_reads_and_the_reverse(self):
        data = random.Random(20).randbytes(5000)
        serve(self.image, b"mkdir /d\nmake /d/s\nput /d/s 1000 00\nsize /d/s 1000\nput /d/s 1000 %b\n" % data.hex().encode())
        write(self.at("f"), data)
        self.client("put", "/d/f", self.at("f"))
        self.assertEqual(self.client("list", "/d")[0].decode().split(), ["s", "f"])
        self.assertEqual(self.client("list", "/")[0].decode(), "d/\n")
        self.assertEqual(self.client("get", "/d/s")[0], bytes(1000) + data)
        line, = serve(self.image, b"get /d/f 0 73728\n")
        parts = [part.split(":") for part in line.split()[1:]]
        self.assertEqual([kind for kind, _ in parts], ["bytes"] * 5)
        self.assertEqual(bytes.fromhex("".join(digits for _, digits in parts)), data)

    def test_a_file_that_is_put_again_is_replaced(self):
        write(self.at("long"), b"x" * 3000)
        write(self.at("short"), b"y" * 10)
        self.client("put", "/f", self.at("long"))
        self.client("put", "/f", self.at("short"))
        self.assertEqual(self.client("get", "/f")[0], b"y" * 10)

    def test_a_refusal_is_told_by_its_number(self):
        self.assertEqual(self.client("get", "/none", status=1), (b"", "refused 1\n"))
        write(self.at("f"), b"x")
        self.assertEqual(self.client("put", "/", self.at("f"), status=1), (b"", "refused 6\n"))
        self.client("list", status=2)

    def test_a_program_that_ends_is_told(self):
        tool("nofs/client.py", "/bin/false", self.image, "list", "/", status=3)
        write(self.image, b"")
        self.assertEqual(self.client("list", "/", status=3), (b"", "the program ended\n"))

    def test_one_stream_has_many_frames(self):
        wire = self.wire()
        client.put(wire, "/f", b"z" * 2000)
        at, kind = client.look(wire, "/f")
        for _ in range(2000):
            self.assertEqual(wire.ask(client.STAT, client.handle(at)), b"\1" + (2000).to_bytes(8, "little") + b"\1\0\0\0")
        self.assertEqual(client.get(wire, "/f"), (b"z" * 2000, []))
        self.assertEqual((kind, wire.close()), (client.FILE, 0))


class Frames(Images):
    """Streams of frames, and what each of them is answered and ends with."""

    def served(self, stream, status=0):
        return run([NOFS, self.image, "wire"], stream, status)[0]

    def test_the_table_of_the_format_is_answered(self):
        stream = STAT + GET_HOLE + GET_PAST
        self.assertEqual(self.served(stream), STATTED + HOLE + PAST)
        self.assertEqual(self.served(b""), b"")

    def test_a_stream_that_is_cut_has_status_2(self):
        for kept in (1, 3, 4, 5, len(STAT) - 1):
            with self.subTest(kept=kept):
                self.assertEqual(self.served(3 * STAT + STAT[:kept], 2), 3 * STATTED)

    def test_a_bad_frame_has_status_2_and_ends_the_stream(self):
        bad = {
            "of length 0": bytes(4),
            "of length 1,101": struct.pack("<I", 1101) + put(0, bytes(1024))[4:29] + bytes(1076),
            "of the greatest length": b"\xff" * 4,
            "that is no step": frame(14, b""),
            "of step 0": frame(0, b""),
            "with a byte too many": frame(client.STAT, client.handle(LABEL) + b"\0"),
            "with a byte too few": frame(client.STAT, client.handle(LABEL)[:-1]),
            "with a cut name": frame(client.LOOK, client.handle((1, 1)) + b"\3ab"),
            "of a kind that is none": frame(client.MAKE, client.handle((1, 1)) + b"\1a\3"),
        }
        for what, bytes_of_it in bad.items():
            with self.subTest(what):
                self.assertEqual(self.served(GET_HOLE + bytes_of_it + 2 * STAT, 2), HOLE)

    def test_the_longest_frame_is_a_step(self):
        stream = put(0, bytes(1075)) + STAT
        self.assertEqual(stream[:4], struct.pack("<I", 1100))
        self.assertEqual(self.served(stream), BAD_RANGE + STATTED)

    def test_what_was_answered_before_a_bad_frame_stands(self):
        wire = self.wire()
        client.put(wire, "/f", b"abc")
        wire.program.stdin.write(frame(14, b""))
        self.assertEqual(wire.close(), 2)
        self.assertEqual(serve(self.image, b"get /f 0 9\n"), ["got bytes:616263"])

    def test_a_stream_has_16777216_bytes_at_most(self):
        count, rest = divmod(MOST_STREAM, 1104)
        most = count * put(0, bytes(1075)) + put(1023, bytes(rest - 29))        # each of them past the end of the slot
        self.assertEqual(len(most), MOST_STREAM)
        for what, stream, status in (("just so many", most, 0), ("a byte more", most + STAT[:1], 8), ("a frame more", most + STAT, 8)):
            with self.subTest(what):
                self.assertEqual(self.long(stream, status), (count + 1) * BAD_RANGE)

    def long(self, stream, status):
        """What a stream in a file is answered into a file."""
        write(self.at("stream"), stream)
        with open(self.at("stream"), "rb") as source, open(self.at("replies"), "wb") as sink:
            done = subprocess.run([NOFS, self.image, "wire"], stdin=source, stdout=sink, timeout=TIME)
        self.assertEqual(done.returncode, status)
        return read(self.at("replies"))

    def test_a_source_that_fails_has_status_6(self):
        for words, said in ((["wire"], b""), (["run"], b"source fault\n")):
            folder = os.open(self.room, os.O_RDONLY)
            self.addCleanup(os.close, folder)
            done = subprocess.run([NOFS, self.image, *words], stdin=folder, stdout=subprocess.PIPE)
            self.assertEqual((done.returncode, done.stdout), (6, said))


class Streams(Images):
    """Streams over pipes, of which the client reads while it sends, or stops reading."""

    def begin(self, **how):
        program = subprocess.Popen([NOFS, self.image, "wire"], stdin=subprocess.PIPE, stdout=subprocess.PIPE, **how)
        self.addCleanup(self.end, program)
        return self.watched(program)

    def end(self, program):
        program.kill()
        program.wait()
        for pipe in (program.stdin, program.stdout):
            try:
                pipe.close()
            except BrokenPipeError:
                pass

    def read_by_thread(self, program, half):
        """A thread that reads replies to their end, and an event that comes with the first `half` bytes."""
        replies, come = bytearray(), threading.Event()

        def read_all():
            while piece := program.stdout.read1(65536):
                replies.extend(piece)
                if len(replies) >= half:
                    come.set()

        reader = threading.Thread(target=read_all, daemon=True)
        reader.start()
        return replies, come, reader

    def test_10000_frames_are_answered_in_order_while_they_are_sent(self):
        frames, answers = (STAT, GET_HOLE, GET_PAST, GET_HOLE), (STATTED, HOLE, PAST, HOLE)
        half = 1250 * sum(map(len, answers))
        program = self.begin()
        replies, come, reader = self.read_by_thread(program, half)
        program.stdin.write(1250 * b"".join(frames))
        program.stdin.flush()
        self.assertTrue(come.wait(TIME), "5,000 frames were sent, and their replies do not come before the next one")
        self.assertEqual(len(replies), half)
        program.stdin.write(1250 * b"".join(frames))
        program.stdin.close()
        reader.join(TIME)
        self.assertEqual((program.wait(TIME), bytes(replies)), (0, 2500 * b"".join(answers)))

    def test_each_frame_is_answered_before_the_next_is_sent(self):
        program = self.begin()
        for _ in range(100):
            for sent, answer in ((STAT, STATTED), (GET_HOLE, HOLE), (GET_PAST, PAST)):
                os.write(program.stdin.fileno(), sent)
                self.assertEqual(program.stdout.read(len(answer)), answer)
        program.stdin.close()
        self.assertEqual((program.wait(TIME), program.stdout.read()), (0, b""))

    def test_300_frames_in_one_write_are_answered_before_more_is_sent(self):
        program = self.begin()
        os.write(program.stdin.fileno(), 300 * GET_PAST)
        self.assertEqual(program.stdout.read(300 * len(PAST)), 300 * PAST)
        os.write(program.stdin.fileno(), 299 * GET_PAST + GET_PAST[:-1])     # the last one is cut, and the others are answered
        self.assertEqual(program.stdout.read(299 * len(PAST)), 299 * PAST)
        os.write(program.stdin.fileno(), GET_PAST[-1:])
        self.assertEqual(program.stdout.read(len(PAST)), PAST)
        program.stdin.close()
        self.assertEqual(program.wait(TIME), 0)

    def test_frames_in_small_pieces_are_the_same_frames(self):
        program = self.begin()
        replies, _, reader = self.read_by_thread(program, 1)
        for byte in 20 * (STAT + GET_PAST):
            os.write(program.stdin.fileno(), bytes([byte]))
        program.stdin.close()
        reader.join(TIME)
        self.assertEqual((program.wait(TIME), bytes(replies)), (0, 20 * (STATTED + PAST)))

    def test_a_client_that_reads_no_more_ends_the_program_with_status_5(self):
        for restore in (True, False):           # whether a write to a closed pipe would end a program that does not care
            with self.subTest(restore=restore):
                program = self.begin(restore_signals=restore)
                program.stdin.write(GET_PAST)
                program.stdin.flush()
                self.assertEqual(program.stdout.read(len(PAST)), PAST)
                program.stdout.close()
                program.stdin.write(10 * STAT)
                program.stdin.flush()
                self.assertEqual(program.wait(TIME), 5)

    def test_what_was_answered_before_the_client_read_no_more_stands(self):
        wire = self.wire()
        at = struct.unpack("<IQ", wire.claim(client.MAKE, client.handle(client.ROOT) + b"\1f\1"))
        wire.claim(client.PUT, client.handle(at) + struct.pack("<QI", 0, 0) + b"abc")
        wire.program.stdout.close()
        wire.program.stdin.write(STAT)
        self.assertEqual(wire.close(), 5)
        self.assertEqual(serve(self.image, b"get /f 0 9\n"), ["got bytes:616263"])

    def test_a_client_that_never_reads_stops_the_program_until_it_leaves(self):
        program = self.begin()
        sent = threading.Thread(target=self.send, args=(program, put(0, bytes(1024)) + 20000 * GET_HOLE), daemon=True)
        sent.start()
        sent.join(2)
        self.assertIsNone(program.poll())
        program.stdout.close()
        self.assertEqual(program.wait(TIME), 5)
        sent.join(TIME)

    def send(self, program, stream):
        try:
            program.stdin.write(stream)
            program.stdin.flush()
        except BrokenPipeError:
            pass

    def test_a_session_nobody_reads_has_status_5_and_is_served(self):
        program = subprocess.Popen([NOFS, self.image, "run"], stdin=subprocess.PIPE, stdout=subprocess.PIPE)
        program.stdout.close()
        program.stdin.write(b"make /f\nput /f 0 616263\n")
        program.stdin.close()
        self.assertEqual(program.wait(TIME), 5)
        self.assertEqual(serve(self.image, b"get /f 0 9\n"), ["got bytes:616263"])

    def test_what_was_flushed_stands_where_the_program_is_killed(self):
        wire = self.wire()
        client.put(wire, "/f", b"abc")
        at, _ = client.look(wire, "/f")
        wire.claim(client.PUT, client.handle(at) + struct.pack("<QI", 0, 0) + b"xyz")
        wire.program.kill()
        self.assertLess(wire.close(), 0)
        line, = serve(self.image, b"get /f 0 9\n")
        self.assertIn(line, ("got bytes:616263", "got bytes:78797a"))
