"""Tests what cimaroly tells of structures that the library doesn't read, whose outlines it does, and of revocation lists,
against what OpenSSL and the package `cryptography` tell of them."""

import base64
import datetime
import hashlib
import json
import re
import subprocess
import tempfile
import time
import unittest

from cimaroly_program import NEEDS_OPENSSL, NEEDS_PROGRAM, name_of, openssl, run, shown

try:
    from cryptography import x509
    from cryptography.hazmat.primitives import hashes, serialization
    from cryptography.hazmat.primitives.asymmetric import ec
except ImportError:
    x509 = None

NEEDS_CRYPTOGRAPHY = unittest.skipUnless(x509, "there is no package cryptography")
SUBJECT = "/C=DE/O=Example Ltd/CN=leaf.example.org"


def made(room):
    """Certificates and keys of what isn't read, by name, and the algorithm that isn't."""
    new = ["req", "-x509", "-subj", SUBJECT, "-days", "900", "-set_serial", "0x8f3a01"]
    names = ["-addext", "subjectAltName=DNS:leaf.example.org,IP:192.0.2.7"]

    def path(name):
        return f"{room}/{name}.pem"

    openssl(*new, *names, "-newkey", "rsa:2048", "-nodes", "-keyout", path("rsa_key"), "-md5", "-out", path("md5"))
    openssl("dsaparam", "-out", path("dsa_parameters"), "1024")
    openssl("gendsa", "-out", path("dsa_old_key"), path("dsa_parameters"))
    openssl("pkcs8", "-topk8", "-nocrypt", "-in", path("dsa_old_key"), "-out", path("dsa_key"))
    openssl("pkey", "-in", path("dsa_key"), "-pubout", "-out", path("dsa_public"))
    openssl(*new, "-key", path("dsa_key"), "-sha256", "-out", path("dsa"))
    openssl("req", "-new", "-subj", SUBJECT, *names, "-key", path("dsa_key"), "-sha256", "-out", path("dsa_request"))
    openssl("ecparam", "-name", "prime256v1", "-param_enc", "explicit", "-genkey", "-noout", "-out", path("explicit_key"))
    openssl(*new, "-key", path("explicit_key"), "-sha256", "-out", path("explicit"))
    openssl("genpkey", "-algorithm", "SM2", "-out", path("sm2_key"))
    openssl(*new, "-key", path("sm2_key"), "-sm3", "-sigopt", "distid:1234567812345678", "-out", path("sm2"))
    return path


def told(path, *asked):
    """What OpenSSL tells of a certificate, a line each."""
    return openssl("x509", "-in", path, "-noout", *asked).strip()


def der_of(path, command):
    return subprocess.run(["openssl", command, "-in", path, "-outform", "DER"], capture_output=True, check=True).stdout


def signed_by_openssl(der):
    """Where the first field of a SEQUENCE stands, as OpenSSL tells it."""
    line = openssl("asn1parse", "-inform", "DER", data=der).splitlines()[1]
    start, header, length = (int(it) for it in re.match(r"\s*(\d+):d=1\s+hl=(\d+)\s+l=\s*(\d+)", line).groups())
    return [start, start + header + length]


def stamp(text):
    """A time as RFC 3339 writes it, of OpenSSL's `Nov 26 10:06:40 2026 GMT`."""
    return datetime.datetime.strptime(text, "%b %d %H:%M:%S %Y GMT").strftime("%Y-%m-%dT%H:%M:%SZ")


@NEEDS_PROGRAM
@NEEDS_OPENSSL
class Outlines(unittest.TestCase):
    """What isn't read is refused, and its outline shown."""

    @classmethod
    def setUpClass(cls):
        cls.room = tempfile.TemporaryDirectory()
        cls.path = staticmethod(made(cls.room.name))

    @classmethod
    def tearDownClass(cls):
        cls.room.cleanup()

    def test_certificates(self):
        for name in ("md5", "dsa", "explicit", "sm2"):
            with self.subTest(name):
                path = self.path(name)
                [it] = shown(path)
                self.assertEqual(it["result"], "refused")
                self.assertIn("reason", it)
                outline = it["outline"]
                self.assertEqual((outline["type"], outline["result"]), ("certificate-outline", "ok"))
                self.is_as_openssl_says(path, outline)

    def is_as_openssl_says(self, path, outline):
        der = der_of(path, "x509")
        self.assertEqual(outline["signed"], signed_by_openssl(der))
        fields = outline["Certificate"]["tbsCertificate"]
        self.assertEqual(f"serial={fields['serialNumber']['value']}", "serial=00:8f:3a:01")
        self.assertEqual(told(path, "-serial"), "serial=8F3A01")
        self.assertEqual(
            name_of(fields["subject"]),
            [[("countryName", "DE")], [("organizationName", "Example Ltd")], [("commonName", "leaf.example.org")]],
        )
        self.assertEqual(fields["issuer"]["items"][0]["items"][0]["value"], "DE")
        for member, asked in (("notBefore", "-startdate"), ("notAfter", "-enddate")):
            self.assertEqual(fields["validity"][member]["value"], stamp(told(path, asked).partition("=")[2]))
        for member, asked in (("sha256", "-sha256"), ("sha1", "-sha1")):
            print_of = told(path, "-fingerprint", asked).partition("=")[2]
            self.assertEqual(outline[member], print_of.replace(":", "").lower())

    def test_what_is_marked(self):
        for name, member, expected in (
            ("md5", "signature", "1.2.840.113549.1.1.4"),
            ("dsa", "subjectPublicKeyInfo", "1.2.840.10040.4.1"),
            ("explicit", "subjectPublicKeyInfo", "1.2.840.10045.2.1"),
            ("sm2", "signature", "1.2.156.10197.1.501"),
        ):
            with self.subTest(name):
                [it] = shown(self.path(name))
                node = it["outline"]["Certificate"]["tbsCertificate"][member]["algorithm"]
                algorithm = node if "value" in node else node["algorithm"]
                self.assertFalse(algorithm["read"])
                self.assertEqual(algorithm["value"]["id"], expected)

    def test_what_is_read_of_the_rest(self):
        """An RSA key in a certificate signed with MD5, and extensions, are told as of any certificate."""
        [it] = shown(self.path("md5"))
        fields = it["outline"]["Certificate"]["tbsCertificate"]
        self.assertEqual(fields["subjectPublicKeyInfo"]["subjectPublicKey"]["modulus"]["bits"], 2048)
        [names] = [it for it in fields["extensions"]["items"] if it["id"] == "2.5.29.17"]
        told_names = [(it["field"], it["value"]) for it in names["items"]]
        self.assertEqual(told_names, [("dNSName", "leaf.example.org"), ("iPAddress", "192.0.2.7")])
        pem = openssl("x509", "-in", self.path("md5"), "-noout", "-pubkey").encode()
        key = subprocess.run(["openssl", "pkey", "-pubin", "-outform", "DER"], input=pem, capture_output=True, check=True).stdout
        self.assertEqual(it["outline"]["pin"], base64.b64encode(hashlib.sha256(key).digest()).decode())

    def test_text(self):
        out, _, status = run("show", self.path("dsa"))
        first, *lines = out.decode().splitlines()
        self.assertEqual(status, 1)
        self.assertIn(": certificate: refused: unsupported algorithm", first)
        self.assertRegex(lines[0], r"^Certificate outline, \d+ bytes, DER$")
        self.assertIn("  subject     C=DE, O=Example Ltd, CN=leaf.example.org", lines)
        self.assertIn("  key         1.2.840.10040.4.1 (id-dsa), not read by this library", lines)
        self.assertTrue(any(re.match(r"    subjectPublicKeyInfo ", it) for it in lines))

    def test_other_types(self):
        """Requests, private and public keys."""
        for name, kind, member in (
            ("dsa_request", "request-outline", "CertificationRequest"),
            ("dsa_key", "private-key-outline", "PrivateKeyInfo"),
            ("dsa_public", "public-key-outline", "SubjectPublicKeyInfo"),
        ):
            with self.subTest(name):
                [it] = shown(self.path(name))
                self.assertEqual(it["result"], "refused")
                self.assertEqual(it["outline"]["type"], kind)
                self.assertIn(member, it["outline"])
                out, _, status = run("check", self.path(name))
                self.assertEqual(status, 1)
                self.assertIn("; its outline is DER", out.decode())
        secret = shown(self.path("dsa_key"))[0]["outline"]["PrivateKeyInfo"]["privateKey"]
        self.assertIn("hidden", secret)
        self.assertNotIn("value", secret)

    def test_der_without_a_label(self):
        for name, command, words in (("dsa", "x509", []), ("dsa_request", "req", []), ("dsa_public", "pkey", ["-pubin"])):
            with self.subTest(name):
                der = subprocess.run(
                    ["openssl", command, *words, "-in", self.path(name), "-outform", "DER"], capture_output=True, check=True
                ).stdout
                out, _, status = run("check", "-", data=der)
                self.assertEqual(status, 1)
                self.assertIn("; its outline is DER", out.decode())

    def test_lines(self):
        start, end = signed_by_openssl(der_of(self.path("dsa"), "x509"))
        out, error, status = run("check", self.path("dsa"))
        self.assertEqual(status, 1)
        self.assertTrue(out.decode().endswith(f"; its outline is DER, bytes {start}..{end} are signed\n"))
        self.assertEqual(error, b"1 structure: 0 in DER, 0 with deviations, 1 refused\n")
        out, error, status = run("check", "--outline", self.path("dsa"))
        self.assertEqual((out.decode(), status), (f"{self.path('dsa')}:1: certificate-outline: ok\n", 0))
        self.assertEqual(error, b"1 structure: 1 in DER, 0 with deviations, 0 refused\n")

    def test_deviations(self):
        """A critical that is false, which DER leaves out (X.690, 11.5)."""
        der = der_of(self.path("md5"), "x509")
        at = der.index(bytes.fromhex("0603551d130101ff"))
        changed = der[: at + 7] + b"\0" + der[at + 8 :]
        out, _, status = run("check", "-", data=changed)
        self.assertEqual(status, 1)
        self.assertRegex(out.decode(), r"; its outline has 1 deviation: .* at \d+\.\.\d+; bytes 4\.\.\d+ are signed\n$")
        self.assertEqual(run("check", "-q", "--outline", "-", data=changed)[2], 3)
        [it] = [json.loads(line) for line in run("check", "--json", "-", data=changed)[0].splitlines()]
        self.assertEqual((it["result"], it["outline"]["result"], len(it["outline"]["deviations"])), ("refused", "deviations", 1))
        written, _, status = run("der", "--outline", "-", data=changed)
        self.assertEqual(status, 3)
        self.assertEqual(run("check", "-q", "--outline", "-", data=written)[2], 0)

    def test_accepted(self):
        path = self.path("sm2")
        out, _, status = run("show", "--outline", path)
        self.assertTrue(out.startswith(b"Certificate outline, "))
        self.assertEqual(status, 0)
        out, _, status = run("der", "--outline", path)
        self.assertEqual((out, status), (der_of(path, "x509"), 0))
        out, _, status = run("der", "--outline", "--pem", path)
        self.assertTrue(out.startswith(b"-----BEGIN CERTIFICATE-----\n"))
        [it] = [json.loads(line) for line in run("show", "--outline", "--json", path)[0].splitlines()]
        self.assertEqual((it["type"], it["result"]), ("certificate-outline", "ok"))
        # what is read is told as ever
        out, _, status = run("check", "--outline", self.path("rsa_key"))
        self.assertEqual((out.decode(), status), (f"{self.path('rsa_key')}:1: private-key: ok\n", 0))

    def test_what_is_no_outline(self):
        der = der_of(self.path("dsa"), "x509")[:-1]
        for words in (["check"], ["check", "--outline"], ["show", "--outline"]):
            out, _, status = run(*words, "--type", "certificate", "-", data=der)
            self.assertEqual(status, 1)
            self.assertNotIn("outline is", out.decode())

    def test_names(self):
        """Strings of every type: TeletexString as ISO 8859-1, UniversalString as UTF-32."""
        config = f"{self.room.name}/names.cnf"
        with open(config, "w", encoding="utf-8") as file:
            file.write("[req]\ndistinguished_name=dn\nprompt=no\nstring_mask=MASK:4\nutf8=yes\n[dn]\nO=Müller\nCN=x\n")
        out = f"{self.room.name}/names.pem"
        openssl("req", "-x509", "-config", config, "-key", self.path("dsa_key"), "-sha256", "-out", out)
        [it] = shown(out)
        value = it["outline"]["Certificate"]["tbsCertificate"]["subject"]["items"][0]["items"][0]
        self.assertEqual((value["asn1"], value["value"]), ("TeletexString", "Müller"))
        self.assertIn("O=Müller, CN=x", run("show", out)[0].decode())
        # the same, with a UniversalString
        der = der_of(out, "x509")
        old = bytes.fromhex("1406") + "Müller".encode("latin-1")
        wide = "Mü€".encode("utf-32-be")[:6]
        self.assertEqual(der.count(old), 2)
        changed = der.replace(old, bytes.fromhex("1c06") + wide)
        [it] = [json.loads(line) for line in run("show", "--json", "-", data=changed)[0].splitlines()]
        value = it["outline"]["Certificate"]["tbsCertificate"]["subject"]["items"][0]["items"][0]
        self.assertNotIn("asn1", value)
        self.assertEqual(value["der"], (bytes.fromhex("1c06") + wide).hex(":"))


CONFIGURATION = """
[ca]
default_ca = d
[d]
database = index
crlnumber = number
default_md = sha256
default_crl_days = 30
crl_extensions = extensions
[extensions]
authorityKeyIdentifier = keyid
issuingDistributionPoint = critical,@point
[point]
fullname = URI:http://crl.example.org/a.crl
"""
INDEX = """
R\t300101000000Z\t250102030405Z,keyCompromise\t01E2\tunknown\t/CN=a
R\t300101000000Z\t250202030405Z\t8F3A\tunknown\t/CN=b
R\t300101000000Z\t250302030405Z,holdInstruction,holdInstructionReject\t05\tunknown\t/CN=c
R\t300101000000Z\t250402030405Z,keyTime,20250101000000Z\t06\tunknown\t/CN=d
"""


def make_list(room, index):
    """A revocation list by OpenSSL of what an index says, as `crl.pem` in a folder."""
    for name, text in (("ca.cnf", CONFIGURATION), ("index", index), ("number", "1F\n")):
        with open(f"{room}/{name}", "w", encoding="utf-8") as file:
            file.write(text)
    here = {"cwd": room, "check": True, "capture_output": True}
    new = ["-newkey", "rsa:2048", "-nodes", "-keyout", "key.pem", "-subj", "/O=Example/CN=CRL issuer"]
    subprocess.run(["openssl", "req", "-x509", *new, "-out", "ca.pem"], **here)
    made_of = ["-config", "ca.cnf", "-keyfile", "key.pem", "-cert", "ca.pem"]
    subprocess.run(["openssl", "ca", "-gencrl", *made_of, "-out", "crl.pem"], **here)


MANY, FIRST = 100_000, 0x1234567890ABCDEF_FEDCBA9876543210


@NEEDS_PROGRAM
@NEEDS_OPENSSL
class LargeList(unittest.TestCase):
    """A list of 100,000 entries as authorities have them: checked, shown by its count or whole, and searched."""

    def test_it(self):
        rows = (f"R\t300101000000Z\t250102030405Z,superseded\t{FIRST + 2 * it:X}\tunknown\t/CN={it}\n" for it in range(MANY))
        with tempfile.TemporaryDirectory() as room:
            make_list(room, "".join(rows))
            path = f"{room}/crl.pem"
            out, _, status = run("check", path)
            self.assertEqual((out.decode(), status), (f"{path}:1: crl: ok\n", 0))
            self.assertIn(f"  revoked     {MANY} entries\n", run("show", path)[0].decode())
            self.assertEqual(run("show", "--full", path)[0].count(b" userCertificate "), MANY)
            last = FIRST + 2 * (MANY - 1)
            self.assertIn("revoked 2025-01-02T03:04:05Z, superseded\n", run("show", "--serial", f"{last:x}", path)[0].decode())
            self.assertIn("  entry       none for", run("show", "--serial", f"{last - 1:x}", path)[0].decode())
            self.assertGreater(self.speed_beside_certificates(room), 1 / 3)

    def speed_beside_certificates(self, room):
        """How fast a byte of it is checked, by the speed of a byte of certificates, whose elements are longer."""
        sizes, times = {}, {"crl": [], "x509": []}
        for command, file, many in (("crl", "crl.pem", 1), ("x509", "ca.pem", 4000)):
            sizes[command] = len(der_of(f"{room}/{file}", command)) * many
            with open(f"{room}/{file}", "rb") as it:
                block = it.read()
            with open(f"{room}/{command}", "wb") as it:
                it.write(block * many)
        # (in turns and often, since other work on the machine slows down most of them)
        for _ in range(25):
            for command, taken in times.items():
                start = time.perf_counter()
                self.assertEqual(run("check", "--quiet", f"{room}/{command}")[2], 0)
                taken.append(time.perf_counter() - start)
        speeds = {it: size / min(times[it]) for it, size in sizes.items()}
        return speeds["crl"] / speeds["x509"]


@NEEDS_PROGRAM
@NEEDS_OPENSSL
class RevocationLists(unittest.TestCase):
    @classmethod
    def setUpClass(cls):
        cls.folder = tempfile.TemporaryDirectory()
        cls.room = cls.folder.name
        cls.crl = f"{cls.room}/crl.pem"
        make_list(cls.room, INDEX.lstrip())

    @classmethod
    def tearDownClass(cls):
        cls.folder.cleanup()

    def by_openssl(self, asked):
        return openssl("crl", "-in", self.crl, "-noout", asked).strip().partition("=")[2]

    def test_fields(self):
        [it] = shown(self.crl)
        self.assertEqual((it["type"], it["result"], it["label"]), ("crl", "ok", "X509 CRL"))
        self.assertEqual(it["signed"], signed_by_openssl(der_of(self.crl, "crl")))
        fields = it["CertificateList"]["tbsCertList"]
        self.assertEqual(fields["version"]["value"], "v2")
        self.assertEqual(name_of(fields["issuer"]), [[("organizationName", "Example")], [("commonName", "CRL issuer")]])
        self.assertEqual(fields["thisUpdate"]["value"], stamp(self.by_openssl("-lastupdate")))
        self.assertEqual(fields["nextUpdate"]["value"], stamp(self.by_openssl("-nextupdate")))
        extensions = {it["id"]: it for it in fields["crlExtensions"]["items"]}
        self.assertEqual(set(extensions), {"2.5.29.35", "2.5.29.28", "2.5.29.20"})
        self.assertEqual(extensions["2.5.29.20"]["value"], "1f")
        self.assertEqual(int(self.by_openssl("-crlnumber"), 16), 0x1F)

    def test_entries(self):
        """The serial numbers, dates and reasons that `openssl crl -text` tells."""
        text = openssl("crl", "-in", self.crl, "-noout", "-text")
        told = re.findall(r"Serial Number: ([0-9A-F]+)\n\s+Revocation Date: (.*)\n", text)
        [it] = shown(self.crl)
        items = it["CertificateList"]["tbsCertList"]["revokedCertificates"]["items"]
        found = [(it["userCertificate"]["value"].replace(":", ""), it["revocationDate"]["value"]) for it in items]
        self.assertEqual([(int(serial, 16), date) for serial, date in found], [(int(serial, 16), stamp(date)) for serial, date in told])
        reasons = {
            it["userCertificate"]["value"]: it["crlEntryExtensions"]["items"][0] for it in items if "crlEntryExtensions" in it
        }
        words = {"01:e2": "keyCompromise", "05": "certificateHold", "06": "keyCompromise"}
        self.assertEqual({serial: it["value"] for serial, it in reasons.items()}, words)
        self.assertEqual({(it["id"], it["name"], it["asn1"]) for it in reasons.values()}, {("2.5.29.21", "id-ce-cRLReasons", "ENUMERATED")})
        [since] = [it["crlEntryExtensions"]["items"][1] for it in items if it["userCertificate"]["value"] == "06"]
        self.assertEqual((since["id"], since["value"]), ("2.5.29.24", "2025-01-01T00:00:00Z"))

    def test_text(self):
        out, _, status = run("show", self.crl)
        lines = out.decode().splitlines()
        self.assertEqual(status, 0)
        self.assertRegex(lines[0], r"^Certificate revocation list, \d+ bytes, DER$")
        self.assertIn("  issuer      O=Example, CN=CRL issuer", lines)
        self.assertIn("  revoked     4 entries", lines)
        self.assertNotIn("userCertificate", out.decode())
        full = run("show", "--full", self.crl)[0].decode()
        self.assertEqual(full.count("userCertificate"), 4)
        self.assertRegex(full, r"revokedCertificate +userCertificate 00:8f:3a, revocationDate 2025-02-02T03:04:05Z +\d+\.\.\d+\n")
        self.assertRegex(full, r"id-ce-cRLReasons +certificateHold +\d+\.\.\d+\n")

    def test_one_entry(self):
        for asked in ("01E2", "1e2", "00:01:e2"):
            out, _, status = run("show", "--serial", asked, self.crl)
            self.assertEqual(status, 0)
            self.assertIn("  entry       01:e2 (482), revoked 2025-01-02T03:04:05Z, keyCompromise\n", out.decode())
            self.assertEqual(out.decode().count("userCertificate"), 1)
        out, _, status = run("show", "--serial", "8f3b", self.crl)
        self.assertIn("  entry       none for 8f:3b\n", out.decode())
        [it] = [json.loads(line) for line in run("show", "--json", "--serial", "8F3A", self.crl)[0].splitlines()]
        [entry] = it["CertificateList"]["tbsCertList"]["revokedCertificates"]["items"]
        self.assertEqual(entry["userCertificate"]["value"], "00:8f:3a")
        for wrong in ("", "x", "01e2g", "ff" * 65):
            self.assertEqual(run("show", "--serial", wrong, self.crl)[2], 2)

    def test_lines(self):
        der = der_of(self.crl, "crl")
        self.assertEqual(run("check", self.crl)[0].decode(), f"{self.crl}:1: crl: ok\n")
        out, _, status = run("check", "-", data=der)
        self.assertEqual((out, status), (b"-: crl: ok\n", 0))
        out, _, status = run("check", "-", data=der[:-1])
        self.assertRegex(out.decode(), r"^-: crl: refused: .* at byte \d+\n$")
        self.assertEqual(status, 1)
        out, _, status = run("check", "--at", "2100-01-01T00:00:00Z", self.crl)
        self.assertEqual((out.decode(), status), (f"{self.crl}:1: crl: expired; ok\n", 3))
        out, _, status = run("der", self.crl)
        self.assertEqual((out, status), (der, 0))
        self.assertTrue(run("der", "--pem", self.crl)[0].startswith(b"-----BEGIN X509 CRL-----\n"))
        out, _, _ = run("show", "--fields", "type,issuer,notAfter", self.crl)
        self.assertEqual(out.decode(), f"crl\tO=Example, CN=CRL issuer\t{stamp(self.by_openssl('-nextupdate'))}\n")
        # (it holds no key)
        self.assertIn("passed over", run("match", self.crl)[0].decode())

    @NEEDS_CRYPTOGRAPHY
    def test_a_delta(self):
        """Extensions that OpenSSL doesn't write: a delta's base, and the issuers of an indirect list's entries."""
        key, now = ec.generate_private_key(ec.SECP256R1()), datetime.datetime(2026, 1, 2, 3, 4, 5)
        name = x509.Name([x509.NameAttribute(x509.NameOID.COMMON_NAME, "delta")])
        entry = x509.RevokedCertificateBuilder().serial_number(77).revocation_date(now)
        entry = entry.add_extension(x509.CertificateIssuer([x509.DNSName("other.example")]), True)
        built = x509.CertificateRevocationListBuilder().issuer_name(name).last_update(now)
        built = built.next_update(now + datetime.timedelta(days=1)).add_revoked_certificate(entry.build())
        built = built.add_extension(x509.DeltaCRLIndicator(18), True).add_extension(x509.CRLNumber(19), False)
        path = f"{self.room}/delta.pem"
        with open(path, "wb") as file:
            file.write(built.sign(key, hashes.SHA256()).public_bytes(serialization.Encoding.PEM))
        [it] = shown(path)
        fields = it["CertificateList"]["tbsCertList"]
        told_of = {it["name"]: (it["critical"], it["value"]) for it in fields["crlExtensions"]["items"]}
        self.assertEqual(told_of, {"id-ce-deltaCRLIndicator": (True, "12"), "id-ce-cRLNumber": (False, "13")})
        [entry] = fields["revokedCertificates"]["items"]
        [issuer] = entry["crlEntryExtensions"]["items"]
        self.assertEqual((issuer["name"], issuer["critical"]), ("id-ce-certificateIssuer", True))
        self.assertEqual([(it["field"], it["value"]) for it in issuer["items"]], [("dNSName", "other.example")])
        self.assertEqual(fields["thisUpdate"]["value"], "2026-01-02T03:04:05Z")

    def test_octets_of_extensions(self):
        """An entry's extension whose octets don't encode what they should."""
        der = der_of(self.crl, "crl")
        old = bytes.fromhex("0603551d1804111 80f".replace(" ", ""))
        self.assertEqual(der.count(old), 1)
        changed = der.replace(old, bytes.fromhex("0603551d180411050f"))
        out, _, status = run("check", "--deep", "-", data=changed)
        self.assertRegex(out.decode(), r"^-: crl: ok; id-ce-invalidityDate, malformed: .* at byte \d+\n$")
        self.assertEqual(status, 1)


if __name__ == "__main__":
    unittest.main()
