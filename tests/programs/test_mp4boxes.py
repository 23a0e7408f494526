"""Runs the built program mp4boxes as a user does, and compares its status, its standard output and its standard error.
It gives the program no, too many and wrong arguments, and one that is not text. The input has each fault, and headers
and names of each form. Input and output fail."""

import contextlib
import os
import subprocess
import tempfile
import time
import unittest

from tests.built import TOP, built

USAGE = "usage: mp4boxes normal|list\n"
COMMANDS = ["normal", "list"]
# The seconds within which a run has to end.
PATIENCE = 120


def stored(name):
    with open(os.path.join(TOP, "crates", "mp4_boxes", name), "rb") as file:
        return file.read()


# The stored stream, in its normal form, as a list, and its three boxes.
STREAM, NORMAL, LIST = stored("stdin"), stored("stdout"), b"0 24 ftyp\n24 8 free\n32 20 stco\n"


class Runs(unittest.TestCase):
    def expect(self, done, status, error, out=b""):
        """Compares the results of the run `done` with the other arguments. `error` is a line without the program's
        name."""
        said = f"mp4boxes: {error}\n" if error else ""
        self.assertEqual((done.returncode, done.stderr.decode(), done.stdout), (status, said, out))

    def run_over(self, given, *arguments, status=0, error="", out=b""):
        """Runs the program over the bytes `given`, and compares its results with the other arguments."""
        words = [built("mp4_boxes"), *arguments]
        done = subprocess.run(words, input=given, capture_output=True, timeout=PATIENCE, check=False)
        self.expect(done, status, error, out)

    def both(self, given, status=0, error=""):
        """Runs each command over the bytes `given`, and expects no output."""
        for command in COMMANDS:
            with self.subTest(command=command):
                self.run_over(given, command, status=status, error=error)


class Arguments(Runs):
    def misused(self, *arguments):
        done = subprocess.run([built("mp4_boxes"), *arguments], input=b"", capture_output=True, timeout=PATIENCE,
                              check=False)
        self.assertEqual((done.returncode, done.stderr.decode(), done.stdout), (2, USAGE, b""))

    def test_none(self):
        self.misused()

    def test_two(self):
        self.misused("normal", "normal")

    def test_two_commands(self):
        self.misused("list", "normal")

    def test_a_capital_letter(self):
        self.misused("Normal")

    def test_a_space_at_the_end(self):
        self.misused("normal ")

    def test_an_empty_one(self):
        self.misused("")

    def test_a_command_and_an_empty_one(self):
        self.misused("list", "")

    def test_no_text(self):
        self.run_over(b"", b"\xff", status=1, error="read failed")


class Inputs(Runs):
    def test_no_input(self):
        self.both(b"")

    def test_end_within_a_box(self):
        self.both(b"\0\0\0\x10mfhd" + bytes(7), 1, "end of input")

    def test_box_of_2_bytes(self):
        self.both(b"\0\0\0\2free", 1, "invalid data")

    def test_box_that_is_kept(self):
        self.run_over(b"\0\0\0\x08free", "normal", out=b"\0\0\0\x08free")

    def test_dinf_without_a_dref(self):
        self.run_over(b"\0\0\0\x08dinf", "normal", status=1, error="dref not found")

    def test_fault_after_a_box(self):
        self.run_over(b"\0\0\0\x08free\0\0\0\x08dinf", "normal", status=1, error="dref not found")

    def test_contents_are_not_read_for_a_list(self):
        self.run_over(b"\0\0\0\x08free\0\0\0\x08dinf", "list", out=b"0 8 free\n8 8 dinf\n")

    def test_names(self):
        # The first name is not printable, and the second box goes to the end.
        self.run_over(b"\0\0\0\x08\xa9nam\0\0\0\0url ", "list", out=b"0 8 0xa96e616d\n8 8 url \n")

    def test_names_from_the_space_to_the_tilde(self):
        given = b"\0\0\0\x08ab~c\0\0\0\x08 ~ !\0\0\0\x08ab\x7fc\0\0\0\x08\x1fbcd"
        self.run_over(given, "list", out=b"0 8 ab~c\n8 8  ~ !\n16 8 0x61627f63\n24 8 0x1f626364\n")

    def test_name_with_bytes_of_0_and_255(self):
        self.run_over(b"\0\0\0\x08A\x1f\0\xff", "list", out=b"0 8 0x411f00ff\n")

    def test_headers_of_16_bytes(self):
        given = b"\0\0\0\1free" + bytes(7) + b"\x11a" + b"\0\0\0\1udta" + bytes(7) + b"\x10" + b"\0\0\0\0mdatabc"
        wanted = b"0 17 free\n17 16 udta\n33 11 mdat\n"
        self.run_over(given, "list", out=wanted)
        self.expect(byte_by_byte(given, "list"), 0, "", wanted)

    def test_header_of_16_bytes_that_is_cut(self):
        self.both(b"\0\0\0\x08free\0\0\0\1udta" + bytes(7), 1, "end of input")

    def test_header_of_16_bytes_that_says_15(self):
        self.both(b"\0\0\0\x08free\0\0\0\1udta" + bytes(7) + b"\x0f", 1, "invalid data")

    def test_list_stops_at_the_first_fault(self):
        # The input after the fault never ends.
        with subprocess.Popen([built("mp4_boxes"), "list"], stdin=subprocess.PIPE, stdout=subprocess.PIPE,
                              stderr=subprocess.PIPE) as run:
            end = time.monotonic() + 20
            with contextlib.suppress(BrokenPipeError):
                run.stdin.write(b"\0\0\0\x08free\0\0\0\2free")
                while time.monotonic() < end:
                    run.stdin.write(b"y\n" * 4096)
            self.assertLess(time.monotonic(), end, "the program reads on")
            with contextlib.suppress(BrokenPipeError):
                run.stdin.close()
            self.assertEqual((run.stdout.read(), run.stderr.read()), (b"", b"mp4boxes: invalid data\n"))
            self.assertEqual(run.wait(), 1)

    def test_size_of_0(self):
        # The box goes to the end, in both forms of a header. The written header has 8 bytes, with the size.
        wanted = b"\0\0\0\x10mfhd" + bytes(7) + b"\1"
        self.run_over(b"\0\0\0\0mfhd" + bytes(7) + b"\1", "normal", out=wanted)
        large = b"\0\0\0\1mfhd" + bytes(8) + bytes(7) + b"\1"
        self.run_over(large, "normal", out=wanted)
        self.run_over(large, "list", out=b"0 24 mfhd\n")
        self.run_over(b"\0\0\0\0mdat\1\2\3", "normal", out=b"\0\0\0\x0bmdat\1\2\3")

    def test_boxes_that_change_their_lengths(self):
        # A box whose fields are read past its size grows, and a header of 16 bytes becomes shorter.
        given = b"\0\0\0\x08mfhd\0\0\0\x08mfhd\0\0\0\1mdat" + bytes(7) + b"\x14abcd\0\0\0\x08free"
        wanted = b"\0\0\0\x10mfhd\0\0\0\x08mfhd\0\0\0\x10mfhd\0\0\0\1mdat\0\0\0\x0cmdatabcd\0\0\0\x08free"
        self.run_over(given, "normal", out=wanted)

    def test_ftyp_whose_last_brand_is_cut(self):
        given = b"\0\0\0\x12ftypisom\0\0\2\0is"
        self.run_over(given, "normal", status=1, error="invalid data")
        self.run_over(given, "list", out=b"0 18 ftyp\n")


class StoredStream(Runs):
    def test_two_boxes_of_three(self):
        self.run_over(STREAM[:32], "normal", out=STREAM[:32])
        self.run_over(STREAM[:32], "list", out=b"0 24 ftyp\n24 8 free\n")

    def test_third_box_that_is_cut(self):
        self.both(STREAM[:51], 1, "end of input")

    def test_third_box_of_2_bytes(self):
        self.both(STREAM[:32] + b"\0\0\0\2" + STREAM[36:], 1, "invalid data")

    def test_through_pipes(self):
        for command, wanted in zip(COMMANDS, (NORMAL, LIST)):
            self.run_over(STREAM, command, out=wanted)

    def test_from_a_file(self):
        for command, wanted in zip(COMMANDS, (NORMAL, LIST)):
            with open(os.path.join(TOP, "crates", "mp4_boxes", "stdin"), "rb") as given, \
                    tempfile.TemporaryFile() as out:
                done = subprocess.run([built("mp4_boxes"), command], stdin=given, stdout=out, stderr=subprocess.PIPE,
                                      timeout=PATIENCE, check=False)
                out.seek(0)
                self.assertEqual((done.returncode, done.stderr, out.read()), (0, b"", wanted))

    def test_byte_by_byte(self):
        for command, wanted in zip(COMMANDS, (NORMAL, LIST)):
            self.expect(byte_by_byte(STREAM, command), 0, "", wanted)

    def failing(self, error, **ends):
        """Runs each command with `ends`, the arguments of `subprocess.run` for input and output. Expects status 1, only
        the message `error`, and no output."""
        for command in COMMANDS:
            with self.subTest(command=command):
                done = subprocess.run([built("mp4_boxes"), command], stderr=subprocess.PIPE, timeout=PATIENCE,
                                      check=False, **ends)
                self.assertEqual((done.returncode, done.stderr.decode()), (1, f"mp4boxes: {error}\n"))
                self.assertFalse(done.stdout)

    def test_output_on_a_full_device(self):
        with open("/dev/full", "wb") as full:
            self.failing("write failed", input=STREAM, stdout=full)

    def test_closed_output(self):
        self.failing("write failed", input=STREAM, preexec_fn=lambda: os.close(1))

    def test_closed_pipe_as_output(self):
        read, write = os.pipe()
        os.close(read)
        self.addCleanup(os.close, write)
        self.failing("write failed", input=STREAM, stdout=write)

    def test_closed_input(self):
        self.failing("read failed", stdout=subprocess.PIPE, preexec_fn=lambda: os.close(0))

    def test_folder_as_input(self):
        folder = os.open(TOP, os.O_RDONLY)
        self.addCleanup(os.close, folder)
        self.failing("read failed", stdin=folder, stdout=subprocess.PIPE)


def byte_by_byte(given, command):
    """Runs `command` over the bytes `given`, each of which is written into the pipe by a separate call. Returns the
    finished run."""
    with subprocess.Popen([built("mp4_boxes"), command], stdin=subprocess.PIPE, stdout=subprocess.PIPE,
                          stderr=subprocess.PIPE, bufsize=0) as run:
        for at in range(len(given)):
            run.stdin.write(given[at:at + 1])
        out, error = run.communicate()
        return subprocess.CompletedProcess(run.args, run.returncode, out, error)


if __name__ == "__main__":
    unittest.main()
