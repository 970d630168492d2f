"""Images in files of the host that cannot be opened, take no more bytes or get shorter."""
import os
import resource
import shutil
import signal
import struct
import subprocess
import time

from nofs import client
from nofs import format as nofs
from tests.common import NOFS, Folders, read, run, serve, write

DEVICE_FAULT = b"device fault\n"
READ_FAULT, WRITE_FAULT = 18, 19            # numbers of refusals
COMMANDS = (["new", "64", "16"], ["run"], ["scan"], ["upgrade"], ["salvage"], ["wire"], ["drill", "1", "1"])


class Files(Folders):
    """Files that cannot be opened, and files that are cut."""

    def setUp(self):
        super().setUp()
        self.image = self.at("disk.img")

    def test_a_file_that_cannot_be_opened_is_a_device_fault(self):
        for words in COMMANDS:
            with self.subTest(words=words):
                self.assertEqual(run([NOFS, self.at("missing", "disk.img"), *words], b"stat @\n", 3)[0], DEVICE_FAULT)
        for path in (self.room, self.at("n" * 256), f"mirror:64:{self.image}:{self.at('missing', 'disk.img')}"):
            with self.subTest(path=path):
                self.assertEqual(run([NOFS, path, "run"], b"stat @\n", 3)[0], DEVICE_FAULT)
        self.assertFalse(os.path.exists(self.at("missing")))

    def test_a_file_has_as_many_blocks_as_a_file_system_may_have(self):
        self.assertEqual(run([NOFS, self.image, "new", "1048577", "4"], b"", 4)[0], b"format: too large, most 1048576\n")

    def test_a_file_that_is_for_reading_only_is_a_device_fault(self):
        serve(self.image, b"put @ 0 616263\n", "new", "64", "16")
        os.chmod(self.image, 0o444)
        before, words = read(self.image), [NOFS]
        if os.geteuid() == 0:               # whom no mode stops, but without the capability to pass over modes
            if not shutil.which("setpriv"):
                self.skipTest("root, and no setpriv")
            words = ["setpriv", "--inh-caps=-all", "--bounding-set=-dac_override", NOFS]
        for command in (["run"], ["scan"]):
            self.assertEqual(run([*words, self.image, *command], b"put @ 0 78\n", 3)[0], DEVICE_FAULT)
        self.assertEqual(read(self.image), before)

    # A file that is opened gets the number of a stream that the caller closed, so the program takes these numbers first.
    def test_a_program_without_standard_output_leaves_the_image(self):
        serve(self.image, b"put @ 0 616263\n", "new", "64", "16")
        subprocess.run([NOFS, self.image, "run"], input=b"stat @\n", preexec_fn=lambda: os.close(1))
        self.assertEqual(serve(self.image, b"get @ 0 3\n"), ["got bytes:616263"])

    def test_a_program_without_standard_input_reads_no_session_from_the_image(self):
        serve(self.image, b"put @ 0 616263\n", "new", "64", "16")
        done = subprocess.run([NOFS, self.image, "run"], stdout=subprocess.PIPE, preexec_fn=lambda: os.close(0))
        self.assertIn((done.stdout, done.returncode), ((b"", 0), (b"source fault\n", 6)))

    def test_a_mistyped_command_line_makes_no_file(self):
        for words in (["rum"], ["new", "064", "16"], ["new", "64"], ["drill", "1", "4001"], ["salvage", "n" * 49], ["scan", "1"], []):
            with self.subTest(words=words):
                self.assertIn(b"usage: nofs IMAGE ", run([NOFS, self.image, *words], b"", 1)[0])
        self.assertFalse(os.path.exists(self.image))

    def blocks_of_label(self):
        """The blocks of slots 0 to 7 of the label file."""
        return [pointer.block for pointer in nofs.Image(self.image).record(nofs.LABEL).direct]

    def label(self, byte):
        """Writes all of slots 0 to 7, durably."""
        return b"put @ 0 %b\nfsync @\n" % (b"%02x" % byte * 8192)

    def slots(self, image):
        """What slots 0 to 7 read as in a further session: their byte, or None for a lost one."""
        lines = serve(image, b"".join(b"get @ %d 1024\n" % (1024 * slot) for slot in range(8)))
        kinds = {f"got bytes:{byte:02x}" + f"{byte:02x}" * 1023: byte for byte in range(256)} | {"got lost:1024": None}
        return [kinds[line] for line in lines]

    def test_what_lies_below_the_cut_of_a_file_stands(self):
        serve(self.image, self.label(0x41), "new", "64", "16")
        whole, blocks = read(self.image), self.blocks_of_label()
        for cut in (block * nofs.CELL + more for block in blocks[::3] for more in (0, 500, nofs.CELL - 8, nofs.CELL)):
            with self.subTest(cut=cut):
                write(self.image, whole[:cut])
                self.assertEqual(self.slots(self.image), [0x41 if (block + 1) * nofs.CELL <= cut else None for block in blocks])

    def test_a_file_without_its_table_or_superblock_is_refused(self):
        serve(self.image, self.label(0x41), "new", "64", "16")
        whole = read(self.image)
        write(self.image, whole[:nofs.CELL])
        self.assertEqual(serve(self.image, b"stat @\nlist /\nmake /a\n"), ["refused 14 stale"] * 3)
        write(self.image, whole[:4])
        self.assertEqual(serve(self.image, b"stat @\n", status=4), ["mount: bad magic 4e6f465300000000"])
        write(self.image, b"")
        self.assertEqual(serve(self.image, b"stat @\n", status=4), ["mount: bad magic 0000000000000000"])

    def test_a_file_that_is_cut_while_frames_are_served_is_a_fault(self):
        serve(self.image, self.label(0x41), "new", "64", "16")
        blocks = self.blocks_of_label()
        for kept in (2, 7):
            with self.subTest(kept=kept):
                cut = sorted(blocks)[kept] * nofs.CELL
                wire = client.Wire(NOFS, self.image)
                self.rewrite(wire, range(8), 0x42)
                os.truncate(self.image, cut)
                self.assertLessEqual({self.slot_or_fault(wire, slot) for slot in range(8)}, {0x42, READ_FAULT})
                with self.assertRaises(client.Refused) as refused:
                    self.rewrite(wire, [7], 0x43)
                self.assertEqual(refused.exception.number, WRITE_FAULT)
                self.assertEqual(wire.close(), 3)
                below = [0x42 if block * nofs.CELL < cut else None for block in blocks]
                self.assertEqual(len(read(self.image)), cut)
                self.assertEqual(self.slots(self.image), below)
                serve(self.image, self.label(0x41))
                blocks = self.blocks_of_label()

    def slot_or_fault(self, wire, slot):
        """The byte of a slot, or the number of the refusal."""
        try:
            field = wire.ask(client.GET, client.handle((2, 2)) + struct.pack("<Q", slot))
        except client.Refused as refused:
            return refused.number
        self.assertEqual(field, b"\1" + field[1:2] * 1024)
        return field[1]

    def rewrite(self, wire, slots, byte):
        for slot in slots:
            wire.claim(client.PUT, client.handle((2, 2)) + struct.pack("<QI", slot, 0) + bytes([byte]) * 1024)
        wire.ask(client.FLUSH, client.handle((2, 2)))

    def test_a_file_that_is_cut_in_the_middle_of_a_session_is_a_fault_and_keeps_what_was_synced(self):
        serve(self.image, self.label(0), "new", "64", "16")
        lowest, blocks = sorted(self.blocks_of_label())[1], self.blocks_of_label()
        puts = [(number % 8, number % 256) for number in range(800)]
        session = b"".join(b"put @ %d %b\nfsync @\nget @ %d 1\n" % (1024 * slot, b"%02x" % byte * 1024, 1024 * slot) for slot, byte in puts)
        lines = self.served_with_cut(session, lowest * nofs.CELL)
        synced = lines.count("synced")
        whole = [line for _, byte in puts[:synced] for line in ("put 1024", "synced", f"got bytes:{byte:02x}")]
        self.assertEqual(lines[:3 * synced], whole)
        self.assertEqual(lines[3 * synced:][:2], ["put 1024", "refused 19 write fault"])
        self.assertEqual({line.partition(",")[0] for line in lines[3 * synced:][2:]}, {"refused 20 stopped"})
        last = {slot: 0 for slot in range(8)} | dict(puts[:synced])
        cut_in = {slot: byte for slot, byte in puts[synced:synced + 1]}
        for slot, byte in enumerate(self.slots(self.image)):
            self.assertIn(byte, (None,) if blocks[slot] >= lowest else (last[slot], cut_in.get(slot, last[slot])))

    def served_with_cut(self, session, cut):
        """The lines of a session in whose middle the file is cut."""
        before = read(self.image)[:nofs.CELL]
        with open(self.at("lines"), "wb") as sink:
            program = subprocess.Popen([NOFS, self.image, "run"], stdin=subprocess.PIPE, stdout=sink)
            program.stdin.write(session)
            program.stdin.close()
            self.stop_while_served(program, before)
            os.truncate(self.image, cut)
            program.send_signal(signal.SIGCONT)
            self.assertEqual(program.wait(120), 3)
        return read(self.at("lines")).decode().splitlines()

    def stop_while_served(self, program, before):
        """Stops a program once its session has begun, which the mount number in block 0 tells."""
        until = time.time() + 60
        while read(self.image)[:nofs.CELL] == before and time.time() < until:
            time.sleep(0.001)
        time.sleep(0.002)
        program.send_signal(signal.SIGSTOP)
        self.assertIsNone(program.poll(), "the session has ended before the cut")


class Standing(Folders):
    """Files that take no more bytes: what was synced stands."""

    SESSION = b"put @ 0 %b\nfsync @\nput @ 0 %b\nfsync @\nget @ 0 1\nstat @\n" % (b"42" * 1024, b"43" * 40000)
    LINES = ["put 1024", "synced", "put 40000", "refused 19 write fault", "refused 20 stopped", "refused 20 stopped"]

    def setUp(self):
        super().setUp()
        self.image = self.at("disk.img")
        serve(self.image, b"put @ 0 %b\n" % (b"41" * 1024), "new", "64", "16")

    def slot_0_is(self, *bytes_):
        """Slot 0 is what was synced last, or what was written to it since, and the session is served."""
        line, = serve(self.image, b"get @ 0 1024\n")
        self.assertIn(line, [f"got bytes:{byte:02x}" + f"{byte:02x}" * 1023 for byte in bytes_])

    def limited(self, session, limit, **how):
        """Runs a session where no file may have more bytes than the limit."""
        def set_limit():
            resource.setrlimit(resource.RLIMIT_FSIZE, (limit, limit))
        return subprocess.run([NOFS, self.image, "run"], input=session, stdout=subprocess.PIPE, preexec_fn=set_limit, **how)

    def test_a_file_that_may_not_grow_keeps_what_was_synced(self):
        os.truncate(self.image, 12 * nofs.CELL)
        done = self.limited(self.SESSION, 12 * nofs.CELL, restore_signals=False)
        self.assertEqual((done.stdout.decode().splitlines(), done.returncode), (self.LINES, 3))
        self.slot_0_is(0x42, 0x43)

    def test_a_file_that_takes_no_byte_at_all_is_a_device_fault(self):
        done = self.limited(self.SESSION, 0, restore_signals=False)
        self.assertEqual((done.stdout, done.returncode), (DEVICE_FAULT, 3))
        self.slot_0_is(0x41)

    def test_what_was_synced_stands_where_the_signal_of_the_limit_ends_the_program(self):
        os.truncate(self.image, 12 * nofs.CELL)
        done = self.limited(self.SESSION, 12 * nofs.CELL)
        self.assertIn(done.returncode, (3, -signal.SIGXFSZ))
        self.slot_0_is(0x42, 0x43)

    def test_a_full_file_system_keeps_what_was_synced(self):
        folder = self.at("small")
        os.mkdir(folder)
        mounted = os.geteuid() == 0 and subprocess.run(["mount", "-t", "tmpfs", "-o", "size=96k", "none", folder], stderr=subprocess.PIPE)
        if not mounted or mounted.returncode:
            self.skipTest("no file system can be mounted here")
        self.addCleanup(subprocess.run, ["umount", "-l", folder])
        data, self.image = read(self.image), os.path.join(folder, "disk.img")
        with open(self.image, "wb") as file:        # nothing but the blocks in use, the others are holes
            file.write(data[:12 * nofs.CELL])
            file.truncate(len(data))
        self.fill(os.path.join(folder, "filler"))
        self.assertEqual(serve(self.image, self.SESSION, status=3), self.LINES)
        self.slot_0_is(0x42, 0x43)
        self.assertEqual(run([NOFS, os.path.join(folder, "other.img"), "new", "64", "16"], b"", 3)[0], DEVICE_FAULT)
        os.remove(os.path.join(folder, "filler"))
        lines = serve(self.image, b"size @ 0\nput @ 0 %b\nfsync @\nget @ 39999 1\n" % (b"44" * 40000))
        self.assertEqual(lines, ["sized 0", "put 40000", "synced", "got bytes:44"])

    def fill(self, path):
        with open(path, "wb", buffering=0) as file:
            try:
                while file.write(bytes(4096)):
                    pass
            except OSError:
                pass
        self.assertGreater(os.stat(path).st_size, 0)
