"""Tests how the program cimaroly is used: its commands, what it reads and writes, its statuses, and what it escapes."""

import json
import os
import re
import resource
import shutil
import subprocess
import tempfile
import time
import unittest

from cimaroly_program import DATA, NEEDS_CC, NEEDS_MEMORY, NEEDS_PROGRAM, PROGRAM
from cimaroly_program import name_of, openssl, read, run, shown, with_shim

# The kinds of deviations by the numbers of README's table, each with the field that it stands over.
DEVIATIONS = {
    1: ("RSA parameters absent", "tbsCertificate.signature"),
    2: ("algorithm parameters absent", ""),
    3: ("hash parameters absent", "tbsCertificate.signature.parameters.hashAlgorithm"),
    4: ("salt length too large", "tbsCertificate.signature.parameters"),
    5: ("default version encoded", "tbsCertificate"),
    6: ("empty extensions encoded", "tbsCertificate"),
    7: ("default criticality encoded", "tbsCertificate.extensions.id-ce-basicConstraints"),
    8: ("authority key fields repeated or out of order", "tbsCertificate.extensions.id-ce-authorityKeyIdentifier"),
    9: (
        "general name under the other kind of tag",
        "tbsCertificate.extensions.id-ce-subjectAltName.dNSName",
    ),
    10: ("element skipped behind a private key", ""),
}


@NEEDS_PROGRAM
class Program(unittest.TestCase):
    """What the program prints, and how it ends."""

    maxDiff = None

    def file(self, number):
        (found,) = [it for it in os.listdir(DATA) if it.startswith(f"deviation_{number}_")]
        return f"{DATA}/{found}"

    def test_deviations(self):
        for number, (name, field) in DEVIATIONS.items():
            with self.subTest(number):
                out, _, status = run("check", "--json", *type_of(self.file(number)), self.file(number))
                told = json.loads(out)
                self.assertEqual((told["result"], status), ("deviations", 3))
                self.assertEqual({it["name"] for it in told["deviations"]}, {name})
                self.assertEqual(told["deviations"][0]["field"], field)

    def test_deviations_as_text(self):
        out, error, status = run("check", self.file(1))
        self.assertEqual(
            out.decode(),
            f"{self.file(1)}:1: certificate: 2 deviations: RSA parameters absent at 13..26, RSA parameters absent at 106..119\n",
        )
        self.assertEqual(error, b"1 structure: 0 in DER, 1 with deviations, 0 refused\n")
        self.assertEqual(status, 3)

    def test_der_encodings(self):
        for number in DEVIATIONS:
            with self.subTest(number):
                words = type_of(self.file(number))
                out, _, status = run("der", *words, self.file(number))
                self.assertEqual(status, 3)
                again, _, status = run("der", *words, "-", data=out)
                self.assertEqual((again, status), (out, 0))

    def test_der_that_is_refused(self):
        """What is refused or passed over is told on standard error, and the rest is written."""
        bad, good = read("refused_month_13.pem"), read("certificate_rsa.pem")
        other = b"-----BEGIN DH PARAMETERS-----\nMAA=\n-----END DH PARAMETERS-----\n"
        out, error, status = run("der", "--pem", "-", data=bad + other + good)
        self.assertEqual((out, status), (good, 1))
        first, second = error.decode().splitlines()
        self.assertRegex(first, r"^cimaroly: -:1: certificate: refused: malformed time at byte \d+ \(in tbsCertificate, validity,")
        self.assertRegex(second, r"^cimaroly: -:\d+: DH PARAMETERS: passed over: ")
        for data, why, status in (
            (b"no certificate\n", b"refused: no PEM, DER, hexadecimal or base64", 1),
            (b"-----BEGIN CERTIFICATE-----\nMAA=\n", b"refused: the block has no END line", 1),
            (bad, b"refused: malformed time", 1),
            (read("algorithm.hex"), b"could be algorithm or raw-algorithm: choose with --type", 2),
        ):
            with self.subTest(why):
                out, error, ended = run("der", data=data)
                self.assertEqual((out, ended), (b"", status))
                self.assertIn(why, error)

    def test_der_of_several(self):
        out, error, status = run("der", "-", data=2 * read("certificate_rsa.pem"))
        self.assertEqual((out, status), (b"", 2))
        self.assertIn(b"more than one structure", error)

    def test_pem(self):
        path = f"{DATA}/certificate_rsa.pem"
        out, _, status = run("der", "--pem", path)
        with open(path, "rb") as file:
            self.assertEqual((out, status), (file.read(), 0))

    def test_refused(self):
        path = f"{DATA}/refused_month_13.pem"
        out, _, status = run("check", path)
        self.assertRegex(out.decode(), r": refused: malformed time at byte \d+ \(in tbsCertificate, validity, notBefore\)\n$")
        self.assertEqual(status, 1)
        told = json.loads(run("check", "--json", path)[0])
        self.assertEqual((told["result"], told["reason"]), ("refused", "malformed time"))
        self.assertEqual(told["field"], "tbsCertificate.validity.notBefore")

    def test_labels(self):
        for name, label, kind in LABELS:
            with self.subTest(label):
                data = re.sub(rb"(BEGIN|END) [^-]*-", lambda it: it[1] + b" " + label.encode() + b"-", read(f"{name}.pem"))
                out, _, status = run("check", "--json", data=data)
                told = json.loads(out)
                self.assertEqual((told["label"], told["type"], told["result"], status), (label, kind, "ok", 0))

    def test_other_labels(self):
        data = b"-----BEGIN DH PARAMETERS-----\nMAA=\n-----END DH PARAMETERS-----\n" + read("certificate_rsa.pem")
        out, error, status = run("check", data=data)
        self.assertEqual(
            out.decode().splitlines(),
            ["-:1: DH PARAMETERS: passed over: unknown label", "-:4: certificate: ok"],
        )
        self.assertEqual(error, b"1 structure: 1 in DER, 0 with deviations, 0 refused; 1 passed over\n")
        self.assertEqual(status, 0)
        told = [json.loads(line) for line in run("check", "--json", data=data)[0].splitlines()]
        self.assertEqual([it["result"] for it in told], ["passed over", "ok"])

    def test_text_around_blocks(self):
        """RFC 7468, 2: text before, between and behind blocks, and line ends of every kind."""
        block = read("certificate_rsa.pem")
        lines = block.count(b"\n")
        data = b"Subject: CN=x\n-- no block\n" + block + b"\nmore\n" + block + b"behind"
        for end in (b"\n", b"\r\n"):
            out, _, status = run("check", data=data.replace(b"\n", end))
            self.assertEqual(out.decode(), f"-:3: certificate: ok\n-:{5 + lines}: certificate: ok\n")
            self.assertEqual(status, 0)

    def test_faults_of_blocks(self):
        """Each is told with its line, and what stands behind is read."""
        good = read("certificate_rsa.pem")
        begin, end = b"-----BEGIN CERTIFICATE-----\n", b"-----END CERTIFICATE-----\n"
        for block, why in (
            (begin + b"MAA\n" + end, "invalid base64"),
            (begin + b"MAA=\n", "the block has no END line"),
            (begin + b"MAA=\n-----END X509 CERTIFICATE-----\n", "the END line has another label than the BEGIN line"),
            (begin + b"Proc-Type: 4,ENCRYPTED\n\nMAA=\n" + end, "the block has headers, as encrypted keys do"),
        ):
            with self.subTest(why):
                out, _, status = run("check", data=block + good)
                first, second = out.decode().splitlines()
                self.assertRegex(first, rf"^-:\d: CERTIFICATE: refused: {why}$")
                self.assertTrue(second.endswith(": certificate: ok"))
                self.assertEqual(status, 1)

    def test_the_worst_status_counts(self):
        files = {0: "certificate_rsa.pem", 1: "refused_month_13.pem", 2: "algorithm.hex", 3: "deviation_4_salt.pem", 4: "none"}
        order = [0, 3, 1, 2, 4]
        for first in order:
            for second in order:
                with self.subTest(f"{first} and {second}"):
                    status = run("check", "-q", f"{DATA}/{files[first]}", f"{DATA}/{files[second]}")[2]
                    self.assertEqual(status, max(first, second, key=order.index))

    def test_names_that_are_no_text(self):
        """A file name that is no UTF-8 is told, and the rest of the folder is gone through."""
        with tempfile.TemporaryDirectory() as room:
            for name in (b"a.pem", b"b\xff.pem", b"c.pem"):
                with open(os.path.join(room.encode(), name), "wb") as file:
                    file.write(read("certificate_rsa.pem"))
            out, error, status = run("check", room)
            self.assertEqual(out.decode(), f"{room}/a.pem:1: certificate: ok\n{room}/c.pem:1: certificate: ok\n")
            self.assertIn(f"cimaroly: {room}: file names that aren't valid UTF-8 and can't be opened: 1\n".encode(), error)
            self.assertEqual(status, 4)
            self.assertEqual(run("check", os.path.join(room.encode(), b"b\xff.pem"))[2], 4)

    def test_words_that_are_no_text(self):
        """A file that is named in other bytes than UTF-8 is told, escaped, and the other files are checked."""
        good = f"{DATA}/certificate_rsa.pem"
        out, error, status = run("check", good, b"bad\xff\x1b.pem", good)
        self.assertEqual((out.decode(), status), (2 * f"{good}:1: certificate: ok\n", 4))
        told = r"bad\xff\u{1b}.pem"
        self.assertIn(f"cimaroly: {told}: a file name that isn't valid UTF-8 can't be opened\n", error.decode())
        out, _, status = run("check", "--json", b"bad\xff\x1b.pem", good)
        first, second = map(json.loads, out.splitlines())
        self.assertEqual((first["file"], first["result"], second["result"], status), (told, "failed", "ok", 4))
        self.assertEqual(run("show", "--type", b"\xff", good)[2], 2)

    def test_files_that_fail_as_json(self):
        out, error, status = run("check", "--json", f"{DATA}/none", f"{DATA}/certificate_rsa.pem")
        first, second = map(json.loads, out.splitlines())
        self.assertEqual((first["file"], first["result"]), (f"{DATA}/none", "failed"))
        self.assertIn("No such file or directory", first["reason"])
        self.assertEqual((second["result"], status), ("ok", 4))
        self.assertIn(b"none: No such file or directory", error)

    def test_folders(self):
        """Folders within, and no folder by a link, so that nothing goes in a circle; pipes and broken links are told or left."""
        with tempfile.TemporaryDirectory() as room:
            os.makedirs(f"{room}/deep/er")
            shutil.copy(f"{DATA}/certificate_rsa.pem", f"{room}/deep/er/a.pem")
            shutil.copy(f"{DATA}/extensions.hex", f"{room}/name")
            os.symlink("..", f"{room}/deep/loop")
            os.symlink("deep/er/a.pem", f"{room}/link.pem")
            os.mkfifo(f"{room}/pipe")
            out, _, status = run("check", room)
            found = ["deep/er/a.pem:1: certificate: ok", "link.pem:1: certificate: ok", "name: extensions: ok"]
            found = [f"{room}/{it}" for it in found]
            self.assertEqual((out.decode().splitlines(), status), (found, 0))
            os.symlink("nowhere", f"{room}/broken")
            out, error, status = run("check", room)
            self.assertEqual((out.decode().splitlines(), status), (found, 4))
            self.assertIn(f"cimaroly: {room}/broken: ".encode(), error)

    def test_too_long(self):
        """An input that is no PEM has fewer than 64 MiB."""
        with tempfile.NamedTemporaryFile() as file:
            file.write(b"\x30\x84\x04\x00\x00\x00")
            file.truncate(6 + (64 << 20))
            out, _, status = run("check", file.name)
        self.assertEqual((out.decode(), status), (f"{file.name}: refused: input other than PEM must be under 64 MiB\n", 1))

    def test_progress(self):
        """A line each second on standard error, and none where it isn't asked for."""
        block = read("certificate_rsa.pem")
        for words in (["--progress"], []):
            how = {"stdin": subprocess.PIPE, "stdout": subprocess.PIPE, "stderr": subprocess.PIPE, "bufsize": 0}
            start = time.monotonic()
            with self.subTest(words), subprocess.Popen([PROGRAM, "check", *words], **how) as it:
                # (the first block is read once there are 64 KiB)
                it.stdin.write(50 * block)
                for _ in range(7):
                    time.sleep(0.4)
                    it.stdin.write(50 * block)
                it.stdin.close()
                lines = it.stderr.read().decode().splitlines()
                it.stdout.read()
                self.assertEqual(lines.pop(), "400 structures: 400 in DER, 0 with deviations, 0 refused")
                for line in lines:
                    self.assertRegex(line, r"^\d+ structures?: \d+ in DER, 0 with deviations, 0 refused$")
                if words:
                    self.assertGreaterEqual(len(lines), 2)
                    self.assertLessEqual(len(lines), time.monotonic() - start)
                else:
                    self.assertEqual(lines, [])

    @NEEDS_MEMORY
    def test_little_memory(self):
        """A structure that takes more memory than there is."""
        with tempfile.NamedTemporaryFile() as file:
            # a list of one extension that isn't known, of 20,000,000 bytes
            value = bytes(20_000_000)
            for tag, front in ((4, b""), (0x30, b"\x06\x03\x2a\x03\x04"), (0x30, b"")):
                value = front + value
                value = bytes([tag, 0x84]) + len(value).to_bytes(4, "big") + value
            file.write(value)
            file.flush()
            for words in (["check"], ["show"], ["show", "--json"], ["der"], ["tree"]):
                with self.subTest(words):
                    out, error, status = run(*words, file.name, preexec_fn=limit_memory)
                    self.assertEqual((out, error, status), (b"", b"cimaroly: out of memory\n", 5))

    @NEEDS_CC
    def test_each_request_for_memory_refused(self):
        """The answer is status 5, or it is the same where the program can do without."""
        with tempfile.TemporaryDirectory() as room:
            environment = with_shim(room)
            for words in (
                ["check", f"{DATA}/certificate_rsa.pem"],
                ["check", "--json", f"{DATA}/deviation_3_hash_parameters.pem"],
                ["check", f"{DATA}/algorithm.hex"],
                ["der", "--pem", "-o", f"{room}/out.pem", f"{DATA}/certificate_ec.pem"],
                [f"{DATA}/name.hex"],
                ["show", f"{DATA}/certificate_ec.pem", f"{DATA}/refused_month_13.pem"],
                ["show", "--json", f"{DATA}/request_rsa.pem"],
                ["der", "--pem", f"{DATA}/deviation_1_rsa_parameters.pem"],
                ["tree", f"{DATA}/private_key_ed25519.pem"],
                ["--help"],
                ["show", "--type", "cert"],
            ):
                with self.subTest(words):
                    self.each_refused(words, environment)

    def each_refused(self, words, environment):
        whole = run(*words, env=environment)
        number = same = 0
        # (once there are fewer requests all is as ever)
        while same < 30:
            number += 1
            ended = run(*words, env={**environment, "REFUSED_REQUEST": str(number)})
            same = same + 1 if ended == whole else 0
            if ended != whole:
                self.assertEqual((ended[1][-24:], ended[2]), (b"cimaroly: out of memory\n", 5), f"request {number}")
        self.assertGreater(number, 40)

    @NEEDS_MEMORY
    def test_memory_does_not_grow(self):
        """Ten times as many certificates take no more memory."""
        took = []
        for count in (2000, 20000):
            with tempfile.NamedTemporaryFile() as file:
                for _ in range(count):
                    file.write(read("certificate_rsa.pem"))
                file.flush()
                where = [(os.POSIX_SPAWN_OPEN, 1, os.devnull, os.O_WRONLY, 0), (os.POSIX_SPAWN_OPEN, 2, os.devnull, os.O_WRONLY, 0)]
                child = os.posix_spawn(PROGRAM, [PROGRAM, "check", file.name], os.environ, file_actions=where)
                _, status, usage = os.wait4(child, 0)
            self.assertEqual(status, 0)
            took.append(usage.ru_maxrss)
        self.assertLess(took[1], took[0] + 1024)

    def test_hexadecimal(self):
        for it in ("name", "extensions"):
            text = read(f"{it}.hex")
            for data in (text, text.upper(), bytes.fromhex(text.decode()), text[:40] + b" \n" + text[40:]):
                with self.subTest(it):
                    self.assertEqual(run("check", "-q", "--type", it, data=data)[2], 0)
        # (as bytes this would be a SEQUENCE, whose length is that of the rest)
        for data in (b"0419" + 25 * b"00", b"0419" + 25 * b"00" + b"\n"):
            self.assertRegex(run("tree", data=data)[0], rb"^ +0\.\.27 +OCTET STRING (00:){24}00\n$")
        out, _, status = run("check", data=b"300")
        self.assertEqual((out, status), (b"-: refused: an odd number of hexadecimal digits\n", 1))

    def test_several_types(self):
        """A type that other structures are read as too is taken only where it is asked for."""
        for name, kinds in (
            ("algorithm", "algorithm or raw-algorithm"),
            ("deviation_2_raw_algorithm", "raw-algorithm"),
            ("name", "name"),
        ):
            with self.subTest(name):
                kind, _, others = kinds.partition(" or ")
                choice = "choose with --type, as in" if others else "to read it as that, use"
                out, _, status = run("check", f"{DATA}/{name}.hex")
                self.assertIn(f"could be {kinds}: {choice} --type {kind}\n", out.decode())
                self.assertEqual(status, 2)
                self.assertIn(run("check", "--type", kind, f"{DATA}/{name}.hex")[2], (0, 3))

    def test_secrets(self):
        path = f"{DATA}/private_key_ed25519.pem"
        text = "".join(openssl("pkey", "-in", path, "-noout", "-text").split("priv:")[1].split("pub:")[0].split())
        self.assertNotIn(text, run("show", path)[0].decode())
        self.assertNotIn(text, run("show", "--json", path)[0].decode())
        self.assertIn(text, run("show", "--secrets", path)[0].decode())
        self.assertIn(text, run("show", "--json", "--secrets", path)[0].decode())

    def test_usage(self):
        for words in ([], ["sow"], ["show", "--type", "cert"], ["check", "--json", "--quiet", "x"], ["show", "--nothing"]):
            with self.subTest(words):
                out, error, status = run(*words)
                self.assertEqual((out, status), (b"", 2))
                self.assertIn(b"cimaroly show cert.pem", error)

    def test_missing_file(self):
        out, error, status = run("check", f"{DATA}/none", f"{DATA}/certificate_rsa.pem")
        self.assertIn(b"none: ", error)
        self.assertTrue(out.endswith(b": certificate: ok\n"))
        self.assertEqual(status, 4)

    def test_help_and_version(self):
        self.assertEqual(run("--help")[2], 0)
        self.assertEqual(run("--version")[2], 0)

    def test_closed_pipe(self):
        ended = subprocess.run(
            ["sh", "-c", f'"$0" show "$1" "$1" "$1" "$1" "$1" "$1" "$1" "$1" | head -n 1', PROGRAM, f"{DATA}/certificate_rsa.pem"],
            capture_output=True,
            check=False,
        )
        self.assertEqual(ended.stderr, b"")

    def test_full_device(self):
        ended = subprocess.run(
            ["sh", "-c", '"$0" show "$1" >/dev/full', PROGRAM, f"{DATA}/certificate_rsa.pem"], capture_output=True, check=False
        )
        self.assertEqual(ended.returncode, 4)
        self.assertTrue(ended.stderr.startswith(b"cimaroly: "))

    def test_all_json(self):
        out, _, _ = run("show", "--json", DATA)
        for line in out.splitlines():
            told = json.loads(line)
            self.assertIn(told["result"], ("ok", "deviations", "refused", "passed over"))


def type_of(path):
    """The option that a file without a label is read by."""
    if "raw_algorithm" in path:
        return ["--type", "raw-algorithm"]
    return ["--type", "private-key"] if "private_key" in path else ["--type", "certificate"]


def limit_memory():
    resource.setrlimit(resource.RLIMIT_AS, (24 << 20, 24 << 20))


# Files with a PEM block, a label that it may have, and the type that the label says: RFC 7468, 5 to 13, and OpenSSL's for keys.
LABELS = [
    ("certificate_rsa", "CERTIFICATE", "certificate"),
    ("certificate_rsa", "X509 CERTIFICATE", "certificate"),
    ("request_rsa", "CERTIFICATE REQUEST", "request"),
    ("request_rsa", "NEW CERTIFICATE REQUEST", "request"),
    ("private_key_rsa", "PRIVATE KEY", "private-key"),
    ("rsa_private_key", "RSA PRIVATE KEY", "rsa-private-key"),
    ("ec_private_key", "EC PRIVATE KEY", "ec-private-key"),
    ("public_key_rsa", "PUBLIC KEY", "public-key"),
    ("rsa_public_key", "RSA PUBLIC KEY", "rsa-public-key"),
]


# What a terminal obeys or hides: controls, marks of direction, characters without a width, and bytes that are no UTF-8.
UNSEEN = re.compile("[\x00-\x09\x0b-\x1f\x7f-\x9f\u00ad\u061c\u200b-\u200f\u2028-\u202e\u2060-\u206f\ufeff\U000e0000-\U000e0fff]")


@NEEDS_PROGRAM
class Escapes(unittest.TestCase):
    """Nothing of the input does anything to a terminal."""

    def test_text(self):
        for it in ("hostile_names", "hostile_others"):
            for command in ("show", "tree", "check"):
                with self.subTest(f"{command} {it}"):
                    out, error, _ = run(command, f"{DATA}/{it}.pem")
                    self.assertIsNone(UNSEEN.search(out.decode("utf-8")))
                    self.assertIsNone(UNSEEN.search(error.decode("utf-8")))

    def test_json(self):
        for it in ("hostile_names", "hostile_others"):
            out, _, _ = run("show", "--json", f"{DATA}/{it}.pem")
            self.assertIsNone(UNSEEN.search(out.decode("utf-8")))

    def test_values(self):
        out = run("show", f"{DATA}/hostile_names.pem")[0].decode()
        for text in (
            r'"\u{1b}[31mred\u{1b}[0m"',
            r'"line\u{a}C=forged"',
            r'"abc\u{202e}gnp.exe"',
            r'"zero\u{200b}width\u{feff}\u{e0041}"',
            r'"quote\" and \\ and, comma"',
            '"Gründe 中文 😀"',
            r'"bmp\u{202e}\u{7}"',
        ):
            self.assertIn(text, out)
        (told,) = shown(f"{DATA}/hostile_names.pem")
        values = [value for ((_, value),) in name_of(told["Certificate"]["tbsCertificate"]["subject"])]
        self.assertEqual(values[:3], ["\x1b[31mred\x1b[0m", "line\nC=forged", "abc\u202egnp.exe"])

    def test_paths_and_labels(self):
        with tempfile.TemporaryDirectory() as room:
            path = f"{room}/a\x1b[31m\u202eb.pem"
            with open(path, "wb") as file:
                file.write(b"-----BEGIN X\x1b[31m\xff-----\nAAAA\n-----END X\x1b[31m\xff-----\n")
            for words in (["check", path], ["check", room], ["show", path], ["check", "--json", path]):
                out, error, _ = run(*words)
                self.assertIsNone(UNSEEN.search(out.decode("utf-8")))
                self.assertIsNone(UNSEEN.search(error.decode("utf-8")))


if __name__ == "__main__":
    unittest.main()
