"""Runs the program end to end: what proofs of its parts can't see is fetching its arguments and its input, printing, and its status.

The program is that of dist/, or the one that the variable X509_TOOL names.
"""

import contextlib
import os
import platform
import pty
import resource
import subprocess
import tempfile
import termios
import threading
import time
import unittest

import program_rows as rows
from cimaroly_program import IS_EMULATED, NEEDS_CC, with_shim

HERE = os.path.dirname(os.path.abspath(__file__))
ROOT = os.path.dirname(os.path.dirname(HERE))
SHIPPED = f"{ROOT}/dist/{platform.machine()}-linux/x509_tool"
PROGRAM = os.path.abspath(os.environ.get("X509_TOOL") or SHIPPED)
LINES = {1: "refused", 2: "usage: x509_tool TYPE", 3: "out of memory", 5: "input or output failed"}
SECONDS = 20


class ProgramTest(unittest.TestCase):
    """What the program prints, on which stream, and with which status it ends."""

    # The words that run it.
    program = (PROGRAM,)
    # Whether it is a script, which needs more memory to start and can't start over a folder.
    is_script = IS_EMULATED

    @classmethod
    def setUpClass(cls):
        if not os.access(cls.program[0], os.X_OK):
            raise unittest.SkipTest(f"there is no program {cls.program[0]}")
        # (what is of other sources, or was changed, isn't run)
        words = [f"{ROOT}/tools/dist.sh", "--sums"]
        if cls.program[0] == SHIPPED and subprocess.run(words, stdout=subprocess.DEVNULL, check=False).returncode:
            raise unittest.SkipTest("dist/ isn't of the sources that stand here: tools/dist.sh --sums says why")

    def run_on(self, arguments, given=b"", **how):
        """What a run with these arguments and this standard input gives."""
        how = {"input": given, "stdout": subprocess.PIPE, **how}
        if "stdin" in how:
            del how["input"]
        return self.ended([*self.program, *arguments], **how)

    def ended(self, words, seconds=SECONDS, **how):
        try:
            ran = subprocess.run(words, stderr=subprocess.PIPE, timeout=seconds, check=False, **how)
        except subprocess.TimeoutExpired:
            self.fail(f"it had not ended after {seconds} seconds")
        return ran.returncode, ran.stdout, ran.stderr

    def answers(self, ran, lines):
        """Its answer is these lines, and nothing else."""
        # (the whole of a long output isn't to be printed)
        self.assertEqual((ran[0], ran[2]), (0, b""))
        self.assertEqual(len(ran[1]), len(lines))
        self.assertTrue(ran[1] == lines.encode(), "the output differs")

    def stops(self, ran, status, output=b""):
        """It ends with this status and the line of it on standard error, and has written nothing to standard output."""
        self.assertEqual(ran, (status, output, LINES[status].encode() + b"\n"))

    def test_accepted(self):
        for name, text, encoding, counts in rows.ACCEPTED:
            with self.subTest(name, text=text):
                self.answers(self.run_on([name], text.encode()), f"{encoding}\n{counts}\n")

    def test_refused(self):
        for name, text in rows.REFUSED:
            with self.subTest(name, text=text):
                self.stops(self.run_on([name], text.encode()), 1)

    def test_usage(self):
        for arguments, text in rows.USAGE:
            with self.subTest(arguments=arguments, text=text):
                self.stops(self.run_on(arguments, text.encode()), 2)

    def test_long_inputs(self):
        """1 MB and 16 MB of text, at once, and in pieces that have no regular place in it."""
        for size in (500_000, 8_000_000):
            text, lines = rows.long_row(size)
            with self.subTest(size=size, way="a file"), tempfile.TemporaryFile() as file:
                file.write(text.encode())
                file.seek(0)
                self.answers(self.run_on(["extensions"], stdin=file), lines)
            with self.subTest(size=size, way="a pipe"):
                self.answers(self.run_on(["extensions"], text.encode()), lines)
            with self.subTest(size=size, way="pieces"):
                self.answers(self.run_on_pieces(["extensions"], pieces(text.encode() + b"\n", size // 500 + 9), 0), lines)

    def test_long_input_that_is_refused(self):
        text, _ = rows.long_row(500_000)
        self.stops(self.run_on(["extensions"], text[:-2].encode()), 1)
        self.stops(self.run_on(["extensions"], text[:-1].encode()), 2)

    def test_lengths_around_a_read(self):
        """Texts of 4,095 to 4,098 bytes, and of about twice and sixteen times as many."""
        for size in (4096, 8192, 65536):
            for more in (-2, 0, 2):
                text = rows.list_of_length(size + more)
                for end in ("", "\n"):
                    with self.subTest(length=len(text + end)):
                        self.answers(self.run_on(["extensions"], (text + end).encode()), f"{text}\n{rows.NONE}\n")

    def test_pauses(self):
        """A read that gives a part of the input isn't its end."""
        name, text, encoding, counts = rows.ACCEPTED[1]
        for size in (1, 7):
            with self.subTest(size=size):
                self.answers(self.run_on_pieces([name], pieces(text.encode(), size), 0.01), f"{encoding}\n{counts}\n")

    def run_on_pieces(self, arguments, given, pause):
        """What a run gives whose standard input comes in pieces."""
        words = [*self.program, *arguments]
        with subprocess.Popen(words, bufsize=0, stdin=subprocess.PIPE, stdout=subprocess.PIPE, stderr=subprocess.PIPE) as it:
            limit = threading.Timer(SECONDS, it.kill)
            limit.start()
            feeder = threading.Thread(target=feed, args=(it.stdin, given, pause))
            feeder.start()
            output = it.stdout.read()
            error = it.stderr.read()
            feeder.join()
            limit.cancel()
        return it.returncode, output, error

    def test_output_to_a_full_device(self):
        if not os.path.exists("/dev/full"):
            self.skipTest("this system has no /dev/full")
        for text, _ in ((rows.ACCEPTED[0][1], ""), rows.long_row(500_000)):
            with self.subTest(length=len(text)), open("/dev/full", "wb") as full:
                name = "extensions" if len(text) > 1000 else rows.ACCEPTED[0][0]
                self.stops(self.run_on([name], text.encode(), stdout=full), 5, None)

    def test_output_to_a_closed_pipe(self):
        # (Python has the program meet SIGPIPE as a shell does)
        for text in (rows.ACCEPTED[0][1], rows.long_row(500_000)[0]):
            front, back = os.pipe()
            os.close(front)
            with self.subTest(length=len(text)), open(back, "wb") as closed:
                name = "extensions" if len(text) > 1000 else rows.ACCEPTED[0][0]
                self.stops(self.run_on([name], text.encode(), stdout=closed), 5, None)

    def test_output_closed(self):
        words = 'exec "$@" >&-'
        name, text = rows.ACCEPTED[0][:2]
        self.stops(self.run_by_shell(words, [name], text.encode()), 5)

    def run_by_shell(self, words, arguments, given):
        """What a run gives that a shell starts with these words."""
        return self.ended(["sh", "-c", words, "sh", *self.program, *arguments], input=given, stdout=subprocess.PIPE)

    def test_input_closed(self):
        self.stops(self.run_by_shell('exec "$@" <&-', ["name"], b""), 5)

    def test_input_is_a_folder(self):
        if self.is_script:
            self.skipTest("its interpreter can't start so")
        folder = os.open("/", os.O_RDONLY)
        try:
            self.stops(self.run_on(["name"], stdin=folder), 5)
        finally:
            os.close(folder)

    def test_no_argument_reads_nothing(self):
        """Without one argument the answer comes though the input doesn't end."""
        for arguments in ([], ["name", "name"]):
            with self.subTest(arguments=arguments):
                front, back = os.pipe()
                try:
                    self.stops(self.run_on(arguments, stdin=front, seconds=5), 2)
                finally:
                    os.close(front)
                    os.close(back)

    def test_error_closed(self):
        """Where standard error fails too, the status alone tells."""
        self.assertEqual(self.run_by_shell('exec "$@" 2>&-', ["name"], b"3100"), (1, b"", b""))

    def test_little_memory(self):
        """An input that takes more memory than there is."""
        if self.is_script:
            self.skipTest("its interpreter needs more memory to start")
        text, _ = rows.long_row(8_000_000)
        self.stops(self.run_on(["extensions"], text.encode(), preexec_fn=limit_memory), 3)


@NEEDS_CC
class RefusedMemoryTest(unittest.TestCase):
    """Each request for memory refused in turn."""

    def test_each_request(self):
        if not os.access(PROGRAM, os.X_OK):
            self.skipTest(f"there is no program {PROGRAM}")
        with tempfile.TemporaryDirectory() as room:
            environment = with_shim(room)
            for name, text, encoding, counts in (rows.ACCEPTED[0], rows.ACCEPTED[-1]):
                whole = (0, f"{encoding}\n{counts}\n".encode(), b"")
                found = [ended_without(environment, number, name, text.encode()) for number in range(1, 40)]
                count = found.index(whole)
                with self.subTest(name):
                    self.assertGreater(count, 8)
                    self.assertEqual(found[:count], count * [(3, b"", b"out of memory\n")])
                    self.assertEqual(found[count:], (39 - count) * [whole])


def ended_without(environment, number, name, given):
    """What a run gives to which one request for memory is refused."""
    environment = {**environment, "REFUSED_REQUEST": str(number)}
    ran = subprocess.run([PROGRAM, name], input=given, env=environment, capture_output=True, check=False)
    return ran.returncode, ran.stdout, ran.stderr


MOST_READS = 1 << 24


@unittest.skipUnless(os.environ.get("X509_LONG_TESTS"), "it takes a minute: X509_LONG_TESTS=1 runs it")
class ManyReadsTest(unittest.TestCase):
    """An input that doesn't end is given up after 2^24 reads: a terminal gives a line a read."""

    def status_of(self, count):
        """The status where the input has this many empty lines."""
        if not os.access(PROGRAM, os.X_OK):
            self.skipTest(f"there is no program {PROGRAM}")
        front, back = pty.openpty()
        how = termios.tcgetattr(back)
        how[3] &= ~termios.ECHO
        termios.tcsetattr(back, termios.TCSANOW, how)
        with subprocess.Popen([PROGRAM, "name"], stdin=back, stdout=subprocess.DEVNULL, stderr=subprocess.DEVNULL) as it:
            os.close(back)
            # (once the program has ended, writing fails)
            with contextlib.suppress(OSError):
                while count:
                    count -= os.write(front, b"\n" * min(count, 2048))
                os.write(front, b"\x04")
            try:
                status = it.wait(timeout=600)
            except subprocess.TimeoutExpired:
                it.kill()
                self.fail("it had not ended after ten minutes")
            finally:
                os.close(front)
        return status

    def test_the_last_read_that_may_be(self):
        # (the end of the input takes a read too)
        self.assertEqual(self.status_of(MOST_READS - 1), 2)
        self.assertEqual(self.status_of(MOST_READS), 5)


def limit_memory():
    resource.setrlimit(resource.RLIMIT_AS, (24 << 20, 24 << 20))


def pieces(text, size):
    return [text[at : at + size] for at in range(0, len(text), size)]


def feed(pipe, given, pause):
    """Writes pieces to a pipe, and closes it."""
    with contextlib.suppress(BrokenPipeError), pipe:
        for it in given:
            pipe.write(it)
            if pause:
                time.sleep(pause)


if __name__ == "__main__":
    unittest.main()
