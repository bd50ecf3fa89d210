"""Tests fingerprints, pins, serial numbers, lines and tables of cimaroly, against OpenSSL and Python's hashes."""

import base64
import hashlib
import json
import re
import tempfile
import unittest

from cimaroly_program import CERTIFICATES, DATA, NEEDS_OPENSSL, NEEDS_PROGRAM, openssl, read, run

GOOD = f"{DATA}/certificate_rsa.pem"
REFUSED = f"{DATA}/refused_month_13.pem"


def der_of(pem):
    """The bytes of the one block of a PEM file."""
    return base64.b64decode(b"".join(pem.split(b"-----")[2].split()))


def summary(*words, data=None):
    """What the summary says, by its labels."""
    text, _, _ = run("show", *words, data=data)
    return dict(re.findall(r"^  ([\w-]+(?: DN)?) +(.*)$", text.decode().partition("\n\n")[0], re.MULTILINE))


def pin_of(public):
    """The pin of a public key in PEM."""
    return base64.b64encode(hashlib.sha256(der_of(public.encode())).digest()).decode()


def public_key(*words, data=None):
    """The public key that OpenSSL finds, in PEM."""
    return openssl(*words, data=data)


@NEEDS_PROGRAM
@NEEDS_OPENSSL
class Digests(unittest.TestCase):
    def test_certificates(self):
        for it in CERTIFICATES:
            with self.subTest(it):
                path = f"{DATA}/{it}.pem"
                der = der_of(read(f"{it}.pem"))
                pin = pin_of(public_key("x509", "-in", path, "-noout", "-pubkey"))
                said = summary(path)
                self.assertEqual(said["SHA-256"], hashlib.sha256(der).hexdigest())
                self.assertEqual(said["SHA-1"], hashlib.sha1(der).hexdigest())
                self.assertEqual(said["pin"], pin)
                told = json.loads(run("show", "--json", path)[0])
                digests = (said["SHA-256"], said["SHA-1"], pin)
                self.assertEqual((told["sha256"], told["sha1"], told["pin"]), digests)
                serial = openssl("x509", "-in", path, "-noout", "-serial").strip().partition("=")[2]
                spelled, decimal = re.fullmatch(r"([0-9a-f:]+) \((-?\d+)\)", said["serial"]).groups()
                self.assertEqual(int(spelled.replace(":", ""), 16), int(serial, 16))
                self.assertEqual(int(decimal), int(serial, 16))

    def test_deviating_keys(self):
        """A pin is that of the key in DER, also where the input isn't."""
        path = f"{DATA}/deviation_1_rsa_parameters.pem"
        fixed, _, _ = run("der", "--pem", path)
        self.assertEqual(summary(path)["pin"], summary("-", data=fixed)["pin"])
        self.assertNotEqual(summary(path)["SHA-256"], summary("-", data=fixed)["SHA-256"])

    def test_requests(self):
        with tempfile.TemporaryDirectory() as room:
            asked = ["req", "-new", "-newkey", "rsa:2048", "-nodes", "-keyout", f"{room}/key", "-subj", "/CN=x"]
            pem = openssl(*asked, "-addext", "subjectAltName=DNS:a.example,IP:192.0.2.7")
            said = summary("-", data=pem.encode())
            self.assertEqual(said["names"], "DNS a.example, IP 192.0.2.7")
            self.assertEqual(said["pin"], pin_of(public_key("req", "-noout", "-pubkey", data=pem.encode())))
            self.assertEqual(said["SHA-256"], hashlib.sha256(der_of(pem.encode())).hexdigest())

    def test_keys(self):
        """Keys in each form have the pin of their public key, where they hold it."""
        for how in (["RSA", "-pkeyopt", "rsa_keygen_bits:2048"], ["EC", "-pkeyopt", "ec_paramgen_curve:P-256"]):
            pem = openssl("genpkey", "-algorithm", *how)
            public = public_key("pkey", "-pubout", data=pem.encode())
            forms = [pem, public, openssl("pkey", "-traditional", data=pem.encode())]
            if how[0] == "RSA":
                forms.append(openssl("rsa", "-pubin", "-RSAPublicKey_out", data=public.encode()))
            for it in forms:
                with self.subTest(it.split("-----")[1]):
                    self.assertEqual(summary("-", data=it.encode())["pin"], pin_of(public))
        self.assertNotIn("pin", summary(f"{DATA}/private_key_ed25519.pem"))
        self.assertNotIn("pin", json.loads(run("show", "--json", f"{DATA}/private_key_ed25519.pem")[0]))


@NEEDS_PROGRAM
class Lines(unittest.TestCase):
    def test_brief(self):
        out, _, status = run("show", "--brief", GOOD)
        said = summary(GOOD)
        until = said["valid"].split(" to ")[1]
        self.assertEqual(out.decode(), f"{GOOD}:1: certificate: {said['subject']}; until {until}; {said['key']}\n")
        self.assertEqual(status, 0)
        out, _, status = run("show", "--brief", f"{DATA}/deviation_1_rsa_parameters.pem")
        self.assertRegex(out.decode(), r"; 2 deviations\n$")
        self.assertEqual(status, 3)
        out, error, status = run("show", "--brief", REFUSED)
        self.assertRegex(out.decode(), r"^[^\n]*: certificate: refused: malformed time [^\n]*\n$")
        self.assertEqual((error, status), (b"", 1))

    def test_fields(self):
        said = summary(GOOD)
        names = "file,line,type,length,deviations,subject,notBefore,notAfter,key,sha256,sha1,pin"
        out, _, status = run("show", "--fields", names, GOOD)
        first, last = said["valid"].split(" to ")
        wanted = [GOOD, "1", "certificate", str(len(der_of(read("certificate_rsa.pem")))), "0", said["subject"], first, last]
        wanted += [said["key"], said["SHA-256"], said["SHA-1"], said["pin"]]
        self.assertEqual((out.decode(), status), ("\t".join(wanted) + "\n", 0))
        out, _, _ = run("show", "--fields", "serialNumber,signatureAlgorithm,issuer", GOOD)
        self.assertEqual(out.decode().split("\t")[:2], [said["serial"].split(" ")[0], "sha256WithRSAEncryption"])
        # what isn't there is empty, and what is refused stands on standard error
        out, _, _ = run("show", "--fields", "subject,key,notAfter", f"{DATA}/private_key_ed25519.pem")
        self.assertEqual(out, b"\tEd25519, 256 bits\t\n")
        out, error, status = run("show", "--fields", "type", REFUSED, GOOD)
        self.assertEqual((out, status), (b"certificate\n", 1))
        self.assertRegex(error.decode(), r"^cimaroly: [^\n]*: certificate: refused: malformed time ")

    def test_paths(self):
        """A path ends with the names of nodes in each other, wherever the first of them stands."""
        said, path = summary(GOOD), "Certificate.tbsCertificate.validity.notAfter"
        for names in ("validity.notAfter", "tbsCertificate.validity.notAfter", path):
            self.assertEqual(run("show", "--fields", names, GOOD)[0].decode(), said["valid"].split(" to ")[1] + "\n")
        report = json.loads(run("show", "--json", GOOD)[0])["Certificate"]["tbsCertificate"]
        items = {it["name"]: it for it in report["extensions"]["items"]}
        algorithm = report["subjectPublicKeyInfo"]["algorithm"]["algorithm"]
        dns_names = [it["value"] for it in items["id-ce-subjectAltName"]["items"] if it.get("field") == "dNSName"]
        wanted = {
            "subject.commonName": ["example.org"],
            "subject.organizationalUnitName": ["Dept A", "Dept B"],
            "id-ce-subjectAltName.dNSName": dns_names,
            "subjectPublicKeyInfo.algorithm.algorithm": [algorithm["value"]["name"]],
            "extensions.id-ce-subjectKeyIdentifier": [items["id-ce-subjectKeyIdentifier"]["value"]],
        }
        out, _, status = run("show", "--fields", ",".join(wanted), GOOD)
        self.assertEqual((out.decode(), status), ("\t".join("; ".join(it) for it in wanted.values()) + "\n", 0))
        # of a node with nodes in it the values of those stand in the cell
        first, last = said["valid"].split(" to ")
        out, _, _ = run("show", "--fields", "tbsCertificate.validity", GOOD)
        self.assertEqual(out.decode(), f"notBefore {first}, notAfter {last}\n")

    def test_secret_paths(self):
        key = f"{DATA}/private_key_ed25519.pem"
        hidden = run("show", "--fields", "PrivateKeyInfo.privateKey", key)[0].decode()
        self.assertRegex(hidden, r"^\d+ bytes, not shown\n$")
        shown = run("show", "--secrets", "--fields", "PrivateKeyInfo.privateKey", key)[0].decode()
        self.assertIn(shown.strip().replace(":", ""), der_of(read("private_key_ed25519.pem")).hex())

    def test_rfc4514(self):
        """The subject's and the issuer's names are as OpenSSL's by RFC 2253, which turns sets of attributes round too."""

        def sets_of(text):
            return [sorted(it.split("+")) for it in text.split(",")]

        count = 0
        for name in CERTIFICATES:
            path = f"{DATA}/{name}.pem"
            said = summary("--rfc4514", path)
            for label in ("subject", "issuer"):
                form = "rfc2253,-esc_msb,utf8"
                wanted = openssl("x509", "-in", path, "-noout", f"-{label}", "-nameopt", form).strip().partition("=")[2]
                # an attribute without a name in RFC 4514, 3, is in hexadecimal there
                if re.search(r"(^|[,+])(?!(CN|L|ST|O|OU|C|STREET|DC|UID)=)[A-Za-z]+=", wanted):
                    continue
                self.assertEqual(sets_of(said[f"{label} DN"]), sets_of(wanted), path)
                cell = run("show", "--rfc4514", "--fields", label, path)[0].decode()
                self.assertEqual(cell, f"{said[f'{label} DN']}\n")
                count += 1
        self.assertGreater(count, 1)

    def test_usage(self):
        out, error, status = run("show", "--fields", "subject,colour", GOOD)
        self.assertEqual((out, status), (b"", 2))
        self.assertIn(b"no field is named 'colour'", error)
        self.assertEqual(run("show", "--fields", ",".join(33 * ["type"]), GOOD)[2], 2)
        for path in ("subject.", ".notAfter", "a..b"):
            self.assertEqual(run("show", "--fields", path, GOOD)[2], 2)
        pairs = [["--json", "--brief"], ["--fields", "key", "--brief"], ["--fields", "key", "--json"]]
        for words in (*pairs, ["--rfc4514", "--json"], ["--rfc4514", "--brief"]):
            self.assertEqual(run("show", *words, GOOD)[2], 2)


@NEEDS_PROGRAM
class Times(unittest.TestCase):
    """check --at: both the first and the last second are valid (RFC 5280, 4.1.2.5)."""

    def test_standings(self):
        first, last = summary(GOOD)["valid"].split(" to ")
        before = first[:-1].replace(first[:4], str(int(first[:4]) - 1), 1) + "Z"
        after = last[:-1].replace(last[:4], str(int(last[:4]) + 1), 1) + "Z"
        for at, said, status in (
            (first, "valid", 0),
            (last, "valid", 0),
            (before, "not yet valid", 3),
            (after, "expired", 3),
        ):
            with self.subTest(at):
                out, error, ended = run("check", "--at", at, GOOD)
                line = "ok" if said == "valid" else f"{said}; ok"
                self.assertEqual((out.decode(), ended), (f"{GOOD}:1: certificate: {line}\n", status))
                self.assertEqual(b"1 expired or not yet valid" in error, status == 3)
                out, _, ended = run("check", "--json", "--at", at, GOOD)
                told = json.loads(out)
                self.assertEqual((told["validity"], told["result"], ended), (said, "ok", status))
                self.assertEqual(run("check", "-q", "--at", at, GOOD)[2], status)
        self.assertNotIn("validity", json.loads(run("check", "--json", GOOD)[0]))

    def test_what_has_no_validity(self):
        key = f"{DATA}/private_key_ed25519.pem"
        out, _, status = run("check", "--at", "9999-12-31T23:59:59Z", key)
        self.assertEqual((out.decode(), status), (f"{key}:1: private-key: ok\n", 0))
        self.assertEqual(run("check", "--at", "2000-01-01T00:00:00Z", REFUSED)[2], 1)

    def test_times(self):
        for at in ("2026-02-29T00:00:00Z", "2026-13-01T00:00:00Z", "2026-01-01T24:00:00Z", "2026-01-01T00:00:00", "now", ""):
            with self.subTest(at):
                out, error, status = run("check", "--at", at, GOOD)
                self.assertEqual((out, status), (b"", 2))
                self.assertIn(b"isn't a time", error)
        for at in ("2024-02-29T00:00:00Z", "2000-02-29T23:59:59Z"):
            self.assertIn(run("check", "-q", "--at", at, GOOD)[2], (0, 3))


@NEEDS_PROGRAM
@NEEDS_OPENSSL
class Matches(unittest.TestCase):
    def test_keys_and_certificates(self):
        with tempfile.TemporaryDirectory() as room:
            for it in "ab":
                made = ["req", "-x509", "-newkey", "rsa:2048", "-nodes", "-subj", f"/CN={it}"]
                openssl(*made, "-keyout", f"{room}/{it}.key", "-out", f"{room}/{it}.pem")
            out, _, status = run("match", f"{room}/a.pem", f"{room}/a.key")
            pin = summary(f"{room}/a.pem")["pin"]
            lines = [f"{room}/a.pem:1: certificate: {pin}", f"{room}/a.key:1: private-key: {pin}"]
            self.assertEqual(out.decode().splitlines(), [*lines, "the public keys are the same"])
            self.assertEqual(status, 0)
            out, _, status = run("match", f"{room}/a.pem", f"{room}/b.key")
            self.assertEqual((out.decode().splitlines()[-1], status), ("the public keys differ", 1))
            self.assertEqual(run("match", "-q", f"{room}/a.pem", f"{room}/b.pem"), (b"", b"", 1))
            self.assertEqual(run("match", "-q", f"{room}/a.pem", f"{room}/a.key"), (b"", b"", 0))

    def test_what_cannot_be_compared(self):
        key = f"{DATA}/private_key_ed25519.pem"
        for files, said in (
            ([GOOD, key], "not every structure holds its public key"),
            ([GOOD], "fewer than two structures: nothing to compare"),
        ):
            out, _, status = run("match", *files)
            self.assertEqual((out.decode().splitlines()[-1], status), (said, 1))


if __name__ == "__main__":
    unittest.main()
