"""Tests what cimaroly tells of extensions whose octets are read further, of a certificate that OpenSSL makes of a
configuration."""

import json
import os
import subprocess
import tempfile
import unittest

from cimaroly_program import NEEDS_CC, NEEDS_OPENSSL, NEEDS_PROGRAM, run, shown, with_shim

CONFIGURATION = """
[req]
distinguished_name = dn
prompt = no
x509_extensions = extensions
[dn]
CN = example.org
[extensions]
authorityInfoAccess = OCSP;URI:http://ocsp.example.org/,caIssuers;URI:http://ca.example.org/ca.crt
subjectInfoAccess = caRepository;dirName:dn
crlDistributionPoints = point,URI:http://crl.example.org/b.crl
certificatePolicies = 1.2.3.4,@policy,2.23.140.1.2.1
policyMappings = 1.2.3:1.5.6.7
policyConstraints = requireExplicitPolicy:3,inhibitPolicyMapping:0
inhibitAnyPolicy = 2
nameConstraints = critical,permitted;DNS:example.org,excluded;email:example.com
tlsfeature = status_request
noCheck = ignored
1.2.3.4.5 = DER:0500
2.5.29.46 = DER:30033001
[point]
fullname = URI:http://crl.example.org/a.crl
CRLissuer = dirName:dn
reasons = keyCompromise,CACompromise
[policy]
policyIdentifier = 1.3.5.8
CPS.1 = http://cps.example.org/
userNotice.1 = @notice
[notice]
explicitText = UTF8:Gründe
"""

# Extensions that are seldom in certificates.
SELDOM = """
[req]
distinguished_name = dn
prompt = no
x509_extensions = extensions
[dn]
CN = example.org
[extensions]
crlDistributionPoints = point
issuingDistributionPoint = critical,@covered
nsCertType = client,email,sslCA
nsComment = A comment
1.3.6.1.5.5.7.1.3 = ASN1:SEQUENCE:statements
2.5.29.9 = ASN1:SEQUENCE:attributes
1.3.6.1.4.1.311.20.2 = ASN1:FORMAT:UTF8,BMP:Gründe
1.3.6.1.4.1.311.21.7 = ASN1:SEQUENCE:template
# an address under an explicit tag in the place of an implicit one
2.5.29.46 = DER:300b3009a007a005a603160161
[point]
relativename = relative
CRLissuer = dirName:dn
[relative]
CN = list
+OU = unit
[covered]
fullname = URI:http://crl.example.org/a.crl
onlyuser = TRUE
onlysomereasons = keyCompromise,superseded
indirectCRL = TRUE
[statements]
one = SEQUENCE:compliance
two = SEQUENCE:types
three = SEQUENCE:retention
[compliance]
id = OID:0.4.0.1862.1.1
[types]
id = OID:0.4.0.1862.1.6
info = SEQUENCE:type
[type]
web = OID:0.4.0.1862.1.6.3
[retention]
id = OID:0.4.0.1862.1.3
info = INTEGER:10
[attributes]
one = SEQUENCE:citizenship
[citizenship]
id = OID:1.3.6.1.5.5.7.9.4
values = SET:countries
[countries]
one = PRINTABLESTRING:DE
two = PRINTABLESTRING:FR
[template]
id = OID:1.3.6.1.4.1.311.21.8.1.2
major = INTEGER:100
minor = INTEGER:3
"""

# As RFC 5280 names the methods (4.2.2).
OCSP, ISSUERS, REPOSITORY = "id-ad-ocsp", "id-ad-caIssuers", "id-ad-caRepository"


def texts(node):
    """The values of the nodes in a list, by their fields or the names of their identifiers."""
    return [(it.get("field") or it.get("name") or it["id"], it.get("value")) for it in node["items"]]


def made(room, configuration):
    """The path of a certificate in DER that OpenSSL makes of a configuration."""
    path = f"{room}/certificate.der"
    with open(f"{room}/openssl.cnf", "w", encoding="utf-8") as it:
        it.write(configuration)
    words = ["openssl", "req", "-x509", "-new", "-newkey", "ed25519", "-nodes", "-keyout", os.devnull, "-utf8", "-days", "30"]
    words += ["-config", f"{room}/openssl.cnf", "-outform", "DER", "-out", path]
    subprocess.run(words, check=True, capture_output=True)
    return path


def extensions_of(path):
    """What is told of the extensions of a certificate, by their identifiers."""
    (told,) = shown(path)
    return {it["id"]: it for it in told["Certificate"]["tbsCertificate"]["extensions"]["items"]}


@NEEDS_PROGRAM
@NEEDS_OPENSSL
class FurtherExtensions(unittest.TestCase):
    @classmethod
    def setUpClass(cls):
        cls.room = tempfile.TemporaryDirectory()
        cls.addClassCleanup(cls.room.cleanup)
        cls.pem = made(cls.room.name, CONFIGURATION)
        cls.found = extensions_of(cls.pem)

    def test_access(self):
        services = self.found["1.3.6.1.5.5.7.1.1"]["items"]
        told = [(it["name"], it["uniformResourceIdentifier"]["value"]) for it in services]
        self.assertEqual(told, [(OCSP, "http://ocsp.example.org/"), (ISSUERS, "http://ca.example.org/ca.crt")])
        (repository,) = self.found["1.3.6.1.5.5.7.1.11"]["items"]
        self.assertEqual(repository["name"], REPOSITORY)
        self.assertEqual(repository["directoryName"]["items"][0]["items"][0]["value"], "example.org")

    def test_distribution_points(self):
        first, second = self.found["2.5.29.31"]["items"]
        self.assertEqual(texts(first["fullName"]), [("uniformResourceIdentifier", "http://crl.example.org/a.crl")])
        self.assertEqual(first["reasons"]["value"], ["keyCompromise", "cACompromise"])
        self.assertEqual(first["cRLIssuer"]["items"][0]["field"], "directoryName")
        self.assertEqual(texts(second["fullName"]), [("uniformResourceIdentifier", "http://crl.example.org/b.crl")])

    def test_policies(self):
        bare, qualified, known = self.found["2.5.29.32"]["items"]
        self.assertEqual(bare["value"], {"id": "1.2.3.4"})
        self.assertEqual(qualified["id"], "1.3.5.8")
        said = [("id-qt-cps", "http://cps.example.org/"), ("id-qt-unotice", "Gründe")]
        self.assertEqual(texts(qualified), said)
        self.assertEqual(known["value"], {"id": "2.23.140.1.2.1", "name": "domain-validated"})
        (mapping,) = self.found["2.5.29.33"]["items"]
        pair = (mapping["issuerDomainPolicy"]["value"]["id"], mapping["subjectDomainPolicy"]["value"]["id"])
        self.assertEqual(pair, ("1.2.3", "1.5.6.7"))

    def test_constraints(self):
        constraints = self.found["2.5.29.36"]
        counts = (constraints["requireExplicitPolicy"]["value"], constraints["inhibitPolicyMapping"]["value"])
        self.assertEqual(counts, (3, 0))
        self.assertEqual(self.found["2.5.29.54"]["value"], 2)
        names = self.found["2.5.29.30"]
        self.assertTrue(names["critical"])
        self.assertEqual(names["permittedSubtrees"]["items"][0]["dNSName"]["value"], "example.org")
        self.assertEqual(names["excludedSubtrees"]["items"][0]["rfc822Name"]["value"], "example.com")

    def test_others(self):
        self.assertEqual(texts(self.found["1.3.6.1.5.5.7.1.24"]), [("feature", 5)])
        self.assertIsNone(self.found["1.3.6.1.5.5.7.48.1.5"]["value"])

    def test_octets_that_are_kept(self):
        """Those of an unknown extension, and of one whose octets encode something else, with their number."""
        unknown = self.found["1.2.3.4.5"]
        self.assertEqual((unknown["length"], unknown["value"]), (2, "05:00"))
        malformed = self.found["2.5.29.46"]
        self.assertEqual((malformed["length"], malformed["value"]), (4, "30:03:30:01"))
        # (the SEQUENCE ends behind the octets)
        at = malformed["at"][1] - 4
        self.assertEqual(malformed["malformed"], {"reason": "truncated element", "at": at})
        text = run("show", self.pem)[0].decode()
        start, end = unknown["at"]
        self.assertRegex(text, rf"\n +1\.2\.3\.4\.5 +2 bytes, 05:00 +{start}\.\.{end}\n")
        self.assertIn('uniformResourceIdentifier "http://ocsp.example.org/"', text)

    def test_summary(self):
        head = run("show", self.pem)[0].decode().split("\n\n")[0].splitlines()
        told = [(line[2:14].rstrip(), line[14:]) for line in head[1:]]
        wanted = [
            ("OCSP", "http://ocsp.example.org/"),
            ("CA issuers", "http://ca.example.org/ca.crt"),
            ("CRL", "http://crl.example.org/a.crl, http://crl.example.org/b.crl"),
            ("policies", "1.2.3.4, 1.3.5.8, domain-validated"),
        ]
        self.assertEqual([it for it in told if it[0] in dict(wanted)], wanted)


@NEEDS_PROGRAM
@NEEDS_OPENSSL
class SeldomExtensions(unittest.TestCase):
    @classmethod
    def setUpClass(cls):
        cls.room = tempfile.TemporaryDirectory()
        cls.addClassCleanup(cls.room.cleanup)
        cls.path = made(cls.room.name, SELDOM)
        cls.found = extensions_of(cls.path)

    def test_points(self):
        (point,) = self.found["2.5.29.31"]["items"]
        told = [("commonName", "list"), ("organizationalUnitName", "unit")]
        self.assertEqual(texts(point["nameRelativeToCRLIssuer"]), told)
        covered = self.found["2.5.29.28"]
        self.assertEqual((covered["name"], covered["critical"]), ("id-ce-issuingDistributionPoint", True))
        self.assertEqual(texts(covered["fullName"]), [("uniformResourceIdentifier", "http://crl.example.org/a.crl")])
        flags = {name: it["value"] for name, it in covered.items() if isinstance(it, dict) and "value" in it}
        reasons = ["keyCompromise", "superseded"]
        self.assertEqual(flags, {"onlyContainsUserCerts": True, "onlySomeReasons": reasons, "indirectCRL": True})

    def test_statements(self):
        bare, types, retention = self.found["1.3.6.1.5.5.7.1.3"]["items"]
        self.assertEqual(bare["value"], {"id": "0.4.0.1862.1.1", "name": "id-etsi-qcs-QcCompliance"})
        self.assertEqual((types["name"], types["value"]), ("id-etsi-qcs-QcType", "30:09:06:07:04:00:8e:46:01:06:03"))
        self.assertEqual((retention["name"], retention["value"]), ("id-etsi-qcs-QcRetentionPeriod", "02:01:0a"))

    def test_attributes(self):
        (attribute,) = self.found["2.5.29.9"]["items"]
        self.assertEqual(attribute["name"], "id-pda-countryOfCitizenship")
        self.assertEqual(texts(attribute), [("AttributeValue", "DE"), ("AttributeValue", "FR")])

    def test_vendors(self):
        self.assertEqual(self.found["2.16.840.1.113730.1.1"]["value"], ["sslClient", "smime", "sslCA"])
        self.assertEqual(self.found["2.16.840.1.113730.1.13"]["value"], "A comment")
        self.assertEqual(self.found["1.3.6.1.4.1.311.20.2"]["value"], "Gründe")
        template = self.found["1.3.6.1.4.1.311.21.7"]
        self.assertEqual(template["templateID"]["value"], {"id": "1.3.6.1.4.1.311.21.8.1.2"})
        self.assertEqual((template["templateMajorVersion"]["value"], template["templateMinorVersion"]["value"]), (100, 3))
        text = run("show", self.path)[0].decode()
        self.assertIn("1.3.6.1.4.1.311.21.8.1.2, templateMajorVersion 100, templateMinorVersion 3", text)

    def test_deviations_inside(self):
        """They aren't those of the certificate, whose encoding keeps the octets as they are."""
        out, error, status = run("check", self.path)
        self.assertEqual((out.decode(), status), (f"{self.path}: certificate: ok\n", 0))
        out, error, status = run("check", "--deep", self.path)
        line = f"{self.path}: certificate: ok; 1 deviation in extensions kept as octets\n"
        self.assertEqual((out.decode(), status), (line, 3))
        total = "1 structure: 1 in DER, 0 with deviations, 0 refused; 1 with deviations inside of extensions\n"
        self.assertEqual(error.decode(), total)
        told = json.loads(run("check", "--deep", "--json", self.path)[0])
        self.assertEqual((told["result"], told["octets"]), ("ok", {"malformed": [], "deviations": 1}))


# The contents of identifiers.
ACCESS, POLICIES = bytes.fromhex("06082b06010505070101"), bytes.fromhex("0603551d20")


@NEEDS_PROGRAM
@NEEDS_OPENSSL
class Malformed(unittest.TestCase):
    """Certificates that are damaged inside of an extension."""

    @classmethod
    def setUpClass(cls):
        cls.room = tempfile.TemporaryDirectory()
        cls.addClassCleanup(cls.room.cleanup)
        with open(made(cls.room.name, CONFIGURATION.replace("2.5.29.46 = DER:30033001\n", "")), "rb") as file:
            cls.der = file.read()

    def damaged(self, behind, old, new):
        """The path of the certificate with other bytes in the place of the first such ones behind some, and where they stand."""
        at = self.der.index(old, self.der.index(behind) + len(behind))
        path = f"{self.room.name}/damaged.der"
        with open(path, "wb") as file:
            file.write(self.der[:at] + new + self.der[at + len(old):])
        return path, at

    def told(self, path, name, reason, at, inside=None):
        """Asks what is told of a node that is malformed: by its name, in the extension of a name."""
        (report,) = shown(path)
        items = report["Certificate"]["tbsCertificate"]["extensions"]["items"]
        (node,) = [it for it in items if it.get("name") == (inside or name)]
        while "malformed" not in node:
            node = next(it for it in node["items"] if "malformed" in it or "items" in it)
        self.assertEqual((node["name"], node["malformed"]), (name, {"reason": reason, "at": at}))
        self.assertEqual(len(bytes.fromhex(node["value"].replace(":", ""))), node["length"])
        text = run("show", path)[0].decode()
        start, end = node["at"]
        self.assertRegex(text, rf"\n +{name} +malformed: {reason} at byte {at}, {node['length']} bytes, .* {start}\.\.{end}\n")
        self.deep(path, name, reason, at)

    def deep(self, path, name, reason, at):
        """Asks what `check --deep` tells of it."""
        fault = f"{name}, malformed: {reason} at byte {at}"
        out, error, status = run("check", "--deep", path)
        self.assertEqual((out.decode(), status), (f"{path}: certificate: ok; {fault}\n", 1))
        total = "1 structure: 1 in DER, 0 with deviations, 0 refused; 1 with malformed extensions\n"
        self.assertEqual(error.decode(), total)
        out, error, status = run("check", "--deep", "--at", "2040-01-01T00:00:00Z", path)
        self.assertEqual((out.decode(), status), (f"{path}: certificate: expired; ok; {fault}\n", 1))
        self.assertEqual(run("check", "--deep", "--quiet", path), (b"", b"", 1))
        out, _, status = run("check", "--deep", "--json", "--at", "2040-01-01T00:00:00Z", path)
        told = json.loads(out)
        self.assertEqual((told["result"], told["validity"], status), ("ok", "expired", 1))
        self.assertEqual(told["octets"], {"malformed": [{"name": name, "reason": reason, "at": at}], "deviations": 0})

    def test_well(self):
        path, _ = self.damaged(b"", b"", b"")
        self.assertEqual(run("check", "--deep", path)[0].decode(), f"{path}: certificate: ok\n")
        self.assertNotIn("octets", json.loads(run("check", "--json", path)[0]))

    def test_tag_of_the_extension(self):
        path, at = self.damaged(ACCESS, b"\x30", b"\x31")
        self.told(path, "id-pe-authorityInfoAccess", "wrong tag", at)
        head = run("show", path)[0].decode().split("\n\n")[0]
        self.assertNotIn("OCSP", head)
        self.assertIn("CRL", head)

    def test_tag_of_an_address(self):
        """That of the first: another than those of general names."""
        path, at = self.damaged(ACCESS, b"\x86", b"\x89")
        self.told(path, "id-pe-authorityInfoAccess", "wrong tag", at)

    def test_qualifier(self):
        """The address of a statement, which is another string."""
        path, at = self.damaged(POLICIES, b"\x16", b"\x0c")
        self.told(path, "id-qt-cps", "wrong tag", at, "id-ce-certificatePolicies")

    def test_two(self):
        path, first = self.damaged(ACCESS, b"\x30", b"\x31")
        with open(path, "rb") as file:
            der = file.read()
        second = der.index(b"\x30", der.index(POLICIES) + len(POLICIES))
        with open(path, "wb") as file:
            file.write(der[:second] + b"\x31" + der[second + 1:])
        told = json.loads(run("check", "--deep", "--json", path)[0])["octets"]["malformed"]
        self.assertEqual([it["at"] for it in told], sorted((first, second)))

    @NEEDS_CC
    def test_each_request_for_memory_refused(self):
        """The answer is status 5, or it is the same where the program can do without."""
        path, _ = self.damaged(ACCESS, b"\x86", b"\x89")
        environment = with_shim(self.room.name)
        for words in (["show"], ["show", "--json"], ["check", "--deep"], ["check", "--deep", "--json"]):
            with self.subTest(words):
                whole = run(*words, path, env=environment)
                number = same = 0
                while same < 30:
                    number += 1
                    ended = run(*words, path, env={**environment, "REFUSED_REQUEST": str(number)})
                    same = same + 1 if ended == whole else 0
                    if ended != whole:
                        self.assertEqual((ended[1][-24:], ended[2]), (b"cimaroly: out of memory\n", 5), f"request {number}")
                self.assertGreater(number, 40)


if __name__ == "__main__":
    unittest.main()
