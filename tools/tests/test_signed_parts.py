"""Tests the types request-info and tbs-certificate: what a signature covers, by itself, against the whole and OpenSSL."""

import base64
import json
import unittest

from cimaroly_program import CERTIFICATES, DATA, NEEDS_OPENSSL, NEEDS_PROGRAM, openssl, run

REQUESTS = ["request_ec", "request_rsa"]


def report(*words, data=None):
    return json.loads(run("show", "--json", *words, data=data)[0])


def der_of(path):
    return run("der", path)[0]


def moved(node, count):
    """The same report of a field, with the places of an input that begins so many bytes later."""
    if isinstance(node, list):
        return [moved(it, count) for it in node]
    if not isinstance(node, dict):
        return node
    return {key: [it - count for it in value] if key == "at" else moved(value, count) for key, value in node.items()}


@NEEDS_PROGRAM
class SignedParts(unittest.TestCase):
    def compare(self, name, kind, whole, field, alone):
        """What is signed is told as it is inside of the whole, also if no type is named."""
        path = f"{DATA}/{name}.pem"
        told = report(path)
        start, end = told["signed"]
        part = der_of(path)[start:end]
        for words in ([], ["--type", kind]):
            found = report(*words, data=part)
            self.assertEqual((found["type"], found["length"], found["result"]), (kind, len(part), "ok"))
            self.assertEqual(found["pin"], told["pin"])
            self.assertNotIn("signed", found)
            self.assertEqual(found[alone], moved(told[whole][field], start))

    def test_certificates(self):
        for it in CERTIFICATES:
            with self.subTest(it):
                self.compare(it, "tbs-certificate", "Certificate", "tbsCertificate", "TBSCertificate")

    def test_requests(self):
        whole, field, alone = "CertificationRequest", "certificationRequestInfo", "CertificationRequestInfo"
        for it in REQUESTS:
            with self.subTest(it):
                self.compare(it, "request-info", whole, field, alone)

    def test_summary(self):
        """The summary is that of the whole, less what is signed and the digests of the whole."""
        for name, title in (
            ("certificate_ec", "To-be-signed certificate"),
            ("request_ec", "Certification request information"),
        ):
            path = f"{DATA}/{name}.pem"
            start, end = report(path)["signed"]
            part = der_of(path)[start:end]
            lines = run("show", data=part)[0].decode().partition("\n\n")[0].splitlines()
            others = run("show", path)[0].decode().partition("\n\n")[0].splitlines()
            self.assertEqual(lines[0], f"{title}, {end - start} bytes, DER")
            kept = [it for it in others[1:] if it.split()[0] not in ("signed", "SHA-256", "SHA-1")]
            self.assertEqual([it for it in lines[1:] if it.split()[0] not in ("SHA-256", "SHA-1")], kept)

    def test_refused(self):
        """What is refused is told with its field, as inside of the whole."""
        path = f"{DATA}/refused_month_13.pem"
        told = report(path)
        self.assertEqual((told["at"], told["field"]), (26, "tbsCertificate.validity.notBefore"))
        with open(path, "rb") as file:
            whole = base64.b64decode(b"".join(file.read().split(b"-----")[2].split()))
        # (the header of the whole has three bytes, that of the part two)
        found = report("--type", "tbs-certificate", data=whole[3 : 5 + whole[4]])
        self.assertEqual((found["reason"], found["at"], found["field"]), (told["reason"], 23, "validity.notBefore"))


@NEEDS_PROGRAM
@NEEDS_OPENSSL
class BesideOpenSSL(unittest.TestCase):
    def test_a_signed_part_has_the_fields_that_openssl_prints(self):
        path = f"{DATA}/certificate_rsa.pem"
        start, end = report(path)["signed"]
        fields = run("show", "--fields", "serialNumber,signatureAlgorithm", data=der_of(path)[start:end])[0].decode()
        serial = openssl("x509", "-in", path, "-noout", "-serial").strip().partition("=")[2]
        number, algorithm = fields.rstrip("\n").split("\t")
        self.assertEqual(number.replace(":", "").upper().lstrip("0"), serial.lstrip("0"))
        self.assertEqual(algorithm, "sha256WithRSAEncryption")


if __name__ == "__main__":
    unittest.main()
