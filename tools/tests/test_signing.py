"""Tests cimaroly signed and cimaroly assemble, end to end with OpenSSL, and with a token of SoftHSM as the signer."""

import hashlib
import os
import shutil
import subprocess
import tempfile
import unittest

from cimaroly_program import CERTIFICATES, DATA, NEEDS_OPENSSL, NEEDS_PROGRAM, openssl, run, run_on_terminal
from der import element, split

MODULES = ("/usr/lib/softhsm/libsofthsm2.so", "/usr/lib64/softhsm/libsofthsm.so")
MODULE = next((it for it in MODULES if os.path.isfile(it)), None)
NEEDS_TOKEN = unittest.skipUnless(
    MODULE and shutil.which("pkcs11-tool") and shutil.which("softhsm2-util"), "there is no opensc or no softhsm2"
)
# Kinds of keys: how OpenSSL makes one, and the algorithm of its signatures.
KEYS = {
    "rsa": (["-algorithm", "RSA", "-pkeyopt", "rsa_keygen_bits:2048"], "sha256WithRSAEncryption"),
    "ec": (["-algorithm", "EC", "-pkeyopt", "ec_paramgen_curve:P-256"], "ecdsa-with-SHA256"),
    "ed25519": (["-algorithm", "ED25519"], "id-Ed25519"),
}


def raw_of(signature, size):
    """r and s of a signature of ECDSA, one behind the other."""
    numbers = [int.from_bytes(it[2:], "big") for it in split(signature)]
    return b"".join(it.to_bytes(size, "big") for it in numbers)


def signature_of(bits):
    """The bytes in a BIT STRING, of whose last no bit is unused."""
    header = 2 if bits[1] < 128 else 2 + bits[1] - 128
    return bits[header + 1 :]


class Room(unittest.TestCase):
    """Tests with files in a folder of their own."""

    def setUp(self):
        self.room = tempfile.mkdtemp()
        self.addCleanup(shutil.rmtree, self.room)

    def path(self, name, data=None):
        path = f"{self.room}/{name}"
        if data is not None:
            with open(path, "wb") as file:
                file.write(data)
        return path

    def data(self, name):
        with open(self.path(name), "rb") as file:
            return file.read()

    def key(self, name):
        openssl("genpkey", *KEYS[name][0], "-out", self.path("key"))
        openssl("pkey", "-in", self.path("key"), "-pubout", "-out", self.path("pub"))

    def sign(self, name, part):
        """The signature of a file by OpenSSL, in a file beside it."""
        signature = f"{part}.sig"
        if name == "ed25519":
            openssl("pkeyutl", "-sign", "-rawin", "-inkey", self.path("key"), "-in", part, "-out", signature)
        else:
            openssl("dgst", "-sha256", "-sign", self.path("key"), "-out", signature, part)
        return signature

    def verify(self, name, part, signature):
        if name == "ed25519":
            words = ["pkeyutl", "-verify", "-rawin", "-pubin", "-inkey", self.path("pub"), "-in", part, "-sigfile", signature]
        else:
            words = ["dgst", "-sha256", "-verify", self.path("pub"), "-signature", signature, part]
        openssl(*words)

    def certificate(self):
        """A certificate of the key, by OpenSSL, in DER."""
        words = ["-key", self.path("key"), "-subj", "/CN=Example Root", "-days", "100", "-outform", "DER"]
        openssl("req", "-x509", *words, "-out", self.path("old.der"))
        return self.data("old.der")

    def request(self):
        words = ["-key", self.path("key"), "-subj", "/CN=example.org", "-outform", "DER"]
        openssl("req", "-new", *words, "-addext", "subjectAltName=DNS:example.org", "-out", self.path("old.csr"))
        return self.data("old.csr")

    def makes(self, *words, **how):
        out, error, status = run(*words, **how)
        self.assertEqual((error, status), (b"", 0))
        return out


@NEEDS_PROGRAM
@NEEDS_OPENSSL
class BesideOpenSSL(Room):
    def test_certificates(self):
        for name in KEYS:
            with self.subTest(name):
                self.key(name)
                whole = self.certificate()
                part = self.path("tbs", split(whole)[0])
                signature = self.sign(name, part)
                pem = self.makes("assemble", part, signature, "--pem")
                made = self.path("made.pem", pem)
                openssl("verify", "-check_ss_sig", "-CAfile", made, made)
                self.assertEqual(pem.decode(), openssl("x509", "-in", made))
                self.assertEqual(self.makes("signed", made), self.data("tbs"))
                self.verify(name, self.path("again", self.makes("signed", made)), signature)

    def test_requests(self):
        for name, (_, algorithm) in KEYS.items():
            with self.subTest(name):
                self.key(name)
                whole = self.request()
                part = self.path("info", split(whole)[0])
                signature = self.sign(name, part)
                pem = self.makes("assemble", part, signature, "--algorithm", algorithm, "--pem")
                made = self.path("made.pem", pem)
                openssl("req", "-verify", "-noout", "-in", made)
                self.assertEqual(pem.decode(), openssl("req", "-in", made))
                self.assertEqual(self.makes("signed", made), self.data("info"))
                named = self.path("algorithm", split(whole)[1])
                self.assertEqual(self.makes("assemble", part, signature, "--algorithm", named, "--pem"), pem)

    def test_the_same_bytes_again(self):
        """What is taken apart is put together again, from standard input too, and to a file."""
        for name in KEYS:
            with self.subTest(name):
                self.key(name)
                whole = self.certificate()
                part, _, bits = split(whole)
                signature = self.path("sig", signature_of(bits))
                self.assertEqual(self.makes("assemble", "-", signature, data=part), whole)
                tbs = self.path("tbs", part)
                self.assertEqual(self.makes("assemble", tbs, "-", data=self.data("sig")), whole)
                self.assertEqual(self.makes("assemble", tbs, signature, "-o", self.path("made")), b"")
                self.assertEqual(self.data("made"), whole)
                self.assertEqual(self.makes("signed", "-", data=whole), part)
                self.assertEqual(self.makes("signed", self.path("made"), "-o", self.path("part")), b"")
                self.assertEqual(self.data("part"), part)

    def test_raw_signatures(self):
        self.key("ec")
        part = self.path("tbs", split(self.certificate())[0])
        for _ in range(8):
            signature = self.sign("ec", part)
            raw = self.path("raw", raw_of(self.data("tbs.sig"), 32))
            whole = self.makes("assemble", part, signature)
            self.assertEqual(self.makes("assemble", part, raw, "--raw-ecdsa"), whole)
            self.assertEqual(self.makes("assemble", part, self.path("long", raw_of(self.data("tbs.sig"), 66)), "--raw-ecdsa"), whole)


@NEEDS_PROGRAM
@NEEDS_OPENSSL
@NEEDS_TOKEN
class BesideToken(Room):
    """A key that never leaves its token signs."""

    def tool(self, *words, data=None):
        words = ["pkcs11-tool", "--module", MODULE, "--token-label", "t", "--login", "--pin", "1234", *words]
        return subprocess.run(words, env=self.environment, input=data, capture_output=True, check=True).stdout

    def test_request(self):
        settings = self.path("softhsm2.conf", f"directories.tokendir = {self.room}\n".encode())
        self.environment = {**os.environ, "SOFTHSM2_CONF": settings}
        words = ["softhsm2-util", "--init-token", "--free", "--label", "t", "--so-pin", "1234", "--pin", "1234"]
        subprocess.run(words, env=self.environment, capture_output=True, check=True)
        self.tool("--keypairgen", "--key-type", "EC:prime256v1", "--id", "01", "--label", "k")
        self.tool("--read-object", "--type", "pubkey", "--id", "01", "--output-file", self.path("spki"))
        # CertificationRequestInfo: version 0, CN=token, the key, no attributes
        name = element(48, element(49, element(48, element(6, b"\x55\x04\x03"), element(12, b"token"))))
        part = element(48, element(2, b"\0"), name, self.data("spki"), element(160))
        info = self.path("info", part)
        digest = self.path("digest", hashlib.sha256(part).digest())
        self.tool("--sign", "--mechanism", "ECDSA", "--id", "01", "--input-file", digest, "--output-file", self.path("raw"))
        self.assertEqual(len(self.data("raw")), 64)
        words = ["assemble", info, self.path("raw"), "--algorithm", "ecdsa-with-SHA256", "--raw-ecdsa", "--pem"]
        openssl("req", "-verify", "-noout", "-in", self.path("made", self.makes(*words)))


@NEEDS_PROGRAM
class Refusals(Room):
    """What doesn't fit is named, with the place in it."""

    def pieces(self, name):
        whole = run("der", f"{DATA}/{name}.pem")[0]
        part, algorithm, bits = split(whole)
        return part, algorithm, signature_of(bits)

    def refuses(self, line, status, *words, **how):
        out, error, code = run("assemble", *words, cwd=self.room, **how)
        self.assertEqual((out, error.decode(), code), (b"", f"cimaroly: {line}\n", status))

    def test_pieces(self):
        part, algorithm, signature = self.pieces("certificate_ed25519")
        self.path("tbs", part)
        self.path("sig", signature)
        self.path("alg", algorithm)
        self.path("cut", part[:-1])
        self.path("not", b"no part")
        self.path("whole", run("der", f"{DATA}/certificate_ed25519.pem")[0])
        self.refuses("not: neither a TBSCertificate nor a CertificationRequestInfo in DER", 1, "not", "sig")
        self.refuses("whole: signed already; cimaroly signed writes the part that was signed", 1, "whole", "sig")
        self.refuses("tbs: a certificate's signed part names the algorithm: leave out --algorithm", 2, "tbs", "sig", "--algorithm", "alg")
        self.refuses("only one of PART and SIGNATURE can be standard input", 2, "-", "-")
        self.refuses("tbs: --raw-ecdsa is for ECDSA alone", 2, "tbs", "sig", "--raw-ecdsa")
        out, error, status = run("assemble", "cut", "sig", cwd=self.room)
        self.assertEqual((out, status), (b"", 1))
        self.assertTrue(error.startswith(b"cimaroly: cut: "), error)

    def test_files_that_fail(self):
        self.path("tbs", self.pieces("certificate_ed25519")[0])
        out, error, status = run("assemble", "tbs", "none", cwd=self.room)
        self.assertEqual((out, status), (b"", 4))
        self.assertTrue(error.startswith(b"cimaroly: none: "), error)
        path = "/".join([self.room, *["folder"] * 40])
        out, error, status = run("assemble", "tbs", path, cwd=self.room)
        self.assertEqual((out, status), (b"", 4))
        self.assertRegex(error.decode(), f"^cimaroly: {self.room}/.*: No such file or directory")

    def test_requests(self):
        part, _, signature = self.pieces("request_ec")
        self.path("info", part)
        self.path("sig", signature)
        self.path("raw", bytes(63))
        lacks = "info: a request's signed part names no algorithm: give it, such as --algorithm ecdsa-with-SHA256"
        self.refuses(lacks, 2, "info", "sig")
        what = "no signature algorithm whose parameters are known: give its AlgorithmIdentifier as a file"
        for name in ("id-RSASSA-PSS", "rsaEncryption", "commonName"):
            self.refuses(f"--algorithm {name}: {what}", 2, "info", "sig", "--algorithm", name)
        neither = "neither a known algorithm, such as ecdsa-with-SHA256, nor a file with one in DER"
        self.refuses(f"--algorithm ecdsa-with-sha256: {neither}", 2, "info", "sig", "--algorithm", "ecdsa-with-sha256")
        self.refuses("raw: not two numbers of equal length: 63 bytes", 1, "info", "raw", "--algorithm", "ecdsa-with-SHA256", "--raw-ecdsa")
        form = "not a SEQUENCE of two INTEGERs, as ECDSA signatures are (r and s alone need --raw-ecdsa)"
        self.refuses(f"raw: {form}: wrong tag at byte 0", 1, "info", "raw", "--algorithm", "ecdsa-with-SHA256")

    def test_signed(self):
        for name in CERTIFICATES:
            whole = run("der", f"{DATA}/{name}.pem")[0]
            self.assertEqual(self.makes("signed", f"{DATA}/{name}.pem"), split(whole)[0])
        out, error, status = run("signed", f"{DATA}/certificate_rsa.pem", f"{DATA}/certificate_ec.pem")
        self.assertEqual((out, status), (b"", 2))
        self.assertIn(b"unexpected argument", error)
        with open(f"{DATA}/certificate_rsa.pem", "rb") as file:
            twice = file.read() * 2
        out, error, status = run("signed", data=twice)
        self.assertEqual((out, status), (b"", 2))
        self.assertIn(b"more than one structure", error)
        out, error, status = run("signed", f"{DATA}/public_key_ec.pem")
        self.assertEqual((out, status), (b"", 1))
        self.assertIn(b"not signed: give a certificate, a request or a CRL", error)
        text, status = run_on_terminal("signed", f"{DATA}/certificate_rsa.pem")
        self.assertEqual((text, status), ("cimaroly: what is signed isn't written to a terminal: use -o FILE\n", 2))


if __name__ == "__main__":
    unittest.main()
