"""Tests cimaroly make, request and certificate, end to end: what docs/MAKE.md shows, and against OpenSSL."""

import base64
import json
import os
import re
import shutil
import subprocess
import unittest

from cimaroly_program import NEEDS_OPENSSL, NEEDS_PROGRAM, PROGRAM, ROOT, openssl, run, run_on_terminal
from test_signing import Room

HAS_JQ = shutil.which("jq") is not None
BLOCK = re.compile(r"^```(\w+)\n(.*?)^```$", re.MULTILINE | re.DOTALL)
# The extensions of a leaf, as options and as OpenSSL has them in a configuration.
OPTIONS = [
    *["--dns", "a.example", "--dns", "b.example", "--ip", "192.0.2.7", "--ip", "2001:db8::7", "--email", "a@b.example"],
    *["--uri", "https://example.org/x", "--usage", "digitalSignature", "--usage", "keyAgreement", "--purpose", "serverAuth"],
    *["--purpose", "1.2.3.4"],
]
CONFIGURATION = """[req]
distinguished_name = name
prompt = no
utf8 = yes
string_mask = utf8only
req_extensions = extensions
[name]
C = DE
O = Example Gründe GmbH
CN = a.example
[extensions]
keyUsage = critical, digitalSignature, keyAgreement
extendedKeyUsage = serverAuth, 1.2.3.4
subjectAltName = DNS:a.example, DNS:b.example, IP:192.0.2.7, IP:2001:db8::7, email:a@b.example, URI:https://example.org/x
"""
SUBJECT = "/C=DE/O=Example Gründe GmbH/CN=a.example"
TERMS = ["--serial", "1a2b", "--algorithm", "Ed25519", "--from", "2026-12-01T00:00:00Z", "--until", "2036-12-01T00:00:00Z"]


class Made(Room):
    """Tests with a key in files."""

    def setUp(self):
        super().setUp()
        self.key("ed25519")

    def told(self, *words, data=b""):
        """What a run says that ends with status 1 or 2, and writes nothing."""
        out, err, code = run(*words, data=data)
        self.assertEqual(out, b"")
        return code, err.decode()

    def written(self, *words, data=b""):
        out, err, code = run(*words, data=data)
        self.assertEqual((code, err), (0, b""))
        return out


@NEEDS_PROGRAM
@NEEDS_OPENSSL
class Page(Room):
    """What docs/MAKE.md shows."""

    def test_commands_and_messages(self):
        with open(f"{ROOT}/docs/MAKE.md", encoding="utf-8") as file:
            blocks = BLOCK.findall(file.read())
        environment = {**os.environ, "PATH": f"{os.path.dirname(PROGRAM)}:{os.environ['PATH']}"}
        for language, text in blocks:
            if language == "sh" and (HAS_JQ or "jq" not in text):
                subprocess.run(["sh", "-euc", text], cwd=self.room, env=environment, check=True, stdout=subprocess.PIPE)
        if HAS_JQ:
            code = run("check", "-q", "--type", "tbs-certificate", self.path("other.tbs"))[2]
            self.assertEqual(code, 0)
            told = json.loads(run("show", "--json", "--type", "tbs-certificate", self.path("other.tbs"))[0])["TBSCertificate"]
            names = [it["name"] for it in told["extensions"]["items"]]
            self.assertEqual(len(names), 4)
            self.assertNotIn("id-ce-extKeyUsage", names)
        out, err, code = run("make", "--pem", data=run("show", "--json", self.path("cert.pem"))[0])
        self.assertEqual((out, err, code), (self.data("cert.pem"), b"", 0))
        openssl("verify", "-x509_strict", "-no_check_time", "-CAfile", self.path("ca.pem"), self.path("cert.pem"))
        openssl("req", "-verify", "-noout", "-in", self.path("leaf.csr"))
        part = self.path("described.json", next(text for it, text in blocks if it == "json").encode())
        words = ["--key", self.path("leaf.csr"), "--issuer", self.path("ca.pem")]
        out, err, code = run("make", part, *words)
        self.assertEqual((code, err), (0, b""))
        self.assertEqual(run("check", "--type", "tbs-certificate", "-", data=out)[2], 0)


@NEEDS_PROGRAM
@NEEDS_OPENSSL
class Request(Made):
    """cimaroly request."""

    def test_as_openssl(self):
        configuration = self.path("cnf", CONFIGURATION.encode())
        openssl("req", "-new", "-config", configuration, "-key", self.path("key"), "-outform", "DER", "-out", self.path("req"))
        theirs = self.written("signed", self.path("req"))
        ours = self.written("request", "--subject", SUBJECT, "--key", self.path("pub"), *OPTIONS)
        self.assertEqual(ours, theirs)

    def test_a_key_in_der_and_of_a_request(self):
        openssl("pkey", "-pubin", "-in", self.path("pub"), "-outform", "DER", "-out", self.path("pub.der"))
        words = ["request", "--subject", SUBJECT, "--key"]
        expected = self.written(*words, self.path("pub"))
        self.assertEqual(self.written(*words, self.path("pub.der")), expected)
        with open(self.path("pub.der"), "rb") as file:
            self.assertEqual(self.written(*words, "-", data=file.read()), expected)
        for form in ("PEM", "DER"):
            it = self.path(f"req.{form}")
            openssl("req", "-new", "-subj", "/CN=other", "-key", self.path("key"), "-outform", form, "-out", it)
            self.assertEqual(self.written(*words, it), expected)
        text = b"some text\n" + self.data("pub")
        self.assertEqual(self.written(*words, self.path("text", text)), expected)

    def test_what_is_wrong(self):
        words = ["request", "--subject", SUBJECT, "--key", self.path("pub")]
        self.assertEqual(self.told(*words, "--ip", "300.1.2.3"), (1, 'cimaroly: request: names[0]: not an address: "IP:300.1.2.3"\n'))
        self.assertEqual(self.told(*words, "--ca", "--path-length", "-1x")[0], 2)
        self.assertEqual(self.told(*words, "--path-length", "1")[0], 2)
        self.assertEqual(self.told("request", "--subject", SUBJECT)[0], 2)
        code, text = self.told("request", "--subject", SUBJECT, "--key", self.path("key"))
        self.assertEqual(code, 1)
        self.assertRegex(text, r"^cimaroly: request: key: not a public key in PEM")
        self.assertNotIn("MC4C", text)
        code, text = self.told("request", "--subject", SUBJECT, "--key", self.path("missing"))
        self.assertEqual(code, 4)
        self.assertIn("missing", text)

    def test_a_terminal(self):
        words = ["request", "--subject", SUBJECT, "--key", self.path("pub")]
        text, status = run_on_terminal(*words)
        self.assertEqual(status, 2)
        self.assertIn("use -o FILE", text)
        text, status = run_on_terminal(*words, "--json")
        self.assertEqual(status, 0)
        self.assertEqual(json.loads(text)["type"], "request-info")


@NEEDS_PROGRAM
@NEEDS_OPENSSL
class Certificate(Made):
    """cimaroly certificate."""

    def authority(self):
        words = ["--subject", "CN=Example Root", "--key", self.path("pub"), "--self-issued", "--ca", *TERMS]
        part = self.path("ca.tbs")
        self.written("certificate", *words, "-o", part)
        self.written("assemble", part, self.sign("ed25519", part), "--pem", "-o", self.path("ca.pem"))

    def test_a_chain(self):
        self.authority()
        openssl("req", "-new", "-subj", "/CN=leaf", "-key", self.path("key"), "-out", self.path("csr"))
        part = self.path("leaf.tbs")
        issuer = ["--issuer", self.path("ca.pem")]
        self.written("certificate", "--request", self.path("csr"), *issuer, *TERMS, *OPTIONS, "-o", part)
        self.written("assemble", part, self.sign("ed25519", part), "--pem", "-o", self.path("leaf.pem"))
        openssl("verify", "-x509_strict", "-no_check_time", "-CAfile", self.path("ca.pem"), self.path("leaf.pem"))
        for name in ("ca.pem", "leaf.pem"):
            self.assertEqual(run("check", "-q", self.path(name))[2], 0)
            self.assertEqual(run("lint", self.path(name))[0], b"")

    def test_another_subject(self):
        openssl("req", "-new", "-subj", "/CN=leaf", "-key", self.path("key"), "-out", self.path("csr"))
        words = ["certificate", "--request", self.path("csr"), "--self-issued", *TERMS]
        told = json.loads(self.written(*words, "--subject", "CN=other", "--json"))
        self.assertEqual(told["subject"], "CN=other")
        self.assertEqual(told["key"], self.data("csr").decode())
        self.assertEqual(told["issuer"], "subject")

    def test_usage(self):
        words = ["certificate", "--subject", "CN=a", "--key", self.path("pub")]
        for more in (TERMS, ["--self-issued"], ["--self-issued", "--issuer", self.path("pub"), *TERMS]):
            self.assertEqual(self.told(*words, *more)[0], 2)
        code, text = self.told(*words, "--issuer", self.path("pub"), *TERMS)
        self.assertEqual(code, 1)
        self.assertRegex(text, r"^cimaroly: certificate: issuer: not a certificate")


# Each extension that can be described in short, and one that can't, as OpenSSL has them in a configuration.
EXTENSIONS = """[req]
distinguished_name = name
prompt = no
x509_extensions = extensions
[name]
CN = Example Root
[extensions]
basicConstraints = critical, CA:TRUE, pathlen:1
keyUsage = critical, keyCertSign, cRLSign
extendedKeyUsage = OCSPSigning
subjectKeyIdentifier = hash
authorityKeyIdentifier = keyid:always
subjectAltName = DNS:a.example, dirName:name
issuerAltName = email:ca@b.example, URI:https://example.org/, RID:1.2.3
1.3.6.1.4.1.99999.7 = critical, ASN1:UTF8String:x
"""
DESCRIPTION = {
    "type": "tbs-certificate",
    "serialNumber": "1a2b",
    "signature": "Ed25519",
    "issuer": "subject",
    "subject": "CN=Example Root",
    "basicConstraints": {"ca": True, "pathLen": 1},
    "keyUsage": ["keyCertSign", "cRLSign"],
    "extendedKeyUsage": ["OCSPSigning"],
    "subjectKeyIdentifier": "hash",
    "authorityKeyIdentifier": "keyid",
    "names": ["DNS:a.example", "dirName:CN=Example Root"],
    "issuerNames": ["email:ca@b.example", "URI:https://example.org/", "RID:1.2.3"],
    "extensions": [{"id": "1.3.6.1.4.1.99999.7", "critical": True, "value": "0c0178"}],
}


@NEEDS_PROGRAM
@NEEDS_OPENSSL
class Descriptions(Made):
    """cimaroly make."""

    def test_every_extension(self):
        configuration = self.path("cnf", EXTENSIONS.encode())
        words = ["-set_serial", "0x1a2b", "-days", "30", "-config", configuration, "-key", self.path("key")]
        openssl("req", "-x509", *words, "-out", self.path("cert"))
        told = json.loads(run("show", "--json", self.path("cert"))[0])["Certificate"]["tbsCertificate"]["validity"]
        times = {name: told[name]["value"] for name in ("notBefore", "notAfter")}
        description = {**DESCRIPTION, **times, "key": self.data("pub").decode()}
        self.assertEqual(self.written("make", data=json.dumps(description).encode()), self.written("signed", self.path("cert")))

    def test_json_is_what_is_made(self):
        words = ["request", "--subject", SUBJECT, "--key", self.path("pub"), *OPTIONS]
        self.assertEqual(self.written("make", data=self.written(*words, "--json")), self.written(*words))

    def test_lines(self):
        made = self.written("request", "--subject", "CN=a", "--key", self.path("pub"))
        good = b'{"type":"request-info","subject":"CN=a"}\n'
        bad = b'{"type":"request-info","subject":"XX=a"}\n'
        out, err, code = run("make", "--lines", "--key", self.path("pub"), data=good + bad + b"x\n" + good)
        self.assertEqual(code, 1)
        line = base64.b64encode(made) + b"\n"
        self.assertEqual(out, line + b"\n\n" + line)
        self.assertRegex(err.decode(), r"\A-:2: subject: .*\n-:3: not JSON\n\Z")

    def test_what_is_wrong(self):
        path = self.path("it.json", b'{"type": "request-info", "subject": "", "key": "x"}')
        code, text = self.told("make", path, "--key", self.path("pub"))
        self.assertEqual(code, 1)
        self.assertIn("key: given twice", text)
        self.assertEqual(self.told("make", self.path("no", b"\xff")), (1, f"cimaroly: {self.room}/no: not JSON: invalid UTF-8\n"))
        self.assertEqual(self.told("make", "-", "--key", "-")[0], 2)
        part = self.path("part", b'{"type": "request-info", "subject": ""}')
        code, text = self.told("make", part, "--key", self.path("pub"), "--pem")
        self.assertEqual(code, 2)
        self.assertIn("no label", text)


if __name__ == "__main__":
    unittest.main()
