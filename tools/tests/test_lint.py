"""Tests `cimaroly lint`: which rules certificates break, and where; what it prints, and how it ends."""

import base64
import json
import os
import re
import subprocess
import sys
import tempfile
import unittest

from cimaroly_program import DATA, NEEDS_PROGRAM, PROGRAM, ROOT, STORE, run
from faulty_certificates import BOTH, BROKEN, KEPT, UNSORTED, algorithm, certificate, ed25519_key, extension, name_of_sets, place_of, signed
from faulty_requests import BROKEN_BY_REQUEST, KEPT_BY_REQUEST, PLACES, asking, request
from faulty_requests import place_of as place_in_request

sys.path.insert(0, f"{ROOT}/tools")
from generate import tables  # noqa: E402

RULES = {it.name: it for it in tables.rows_of("rules")}


def found(*words, data):
    """The findings of a certificate: the name of the rule and the place of each; and the status."""
    out, error, status = run("lint", "--json", *words, "-", data=data)
    (line,) = out.splitlines()
    told = json.loads(line)
    for it in told["findings"]:
        if it["rule"] in RULES:
            rule = RULES[it["rule"]]
            assert (it["severity"], it["text"], it["clause"]) == (rule.severity, rule.text, rule.clause), it
    return [(it["rule"], tuple(it["at"])) for it in told["findings"]], status


@NEEDS_PROGRAM
class Rules(unittest.TestCase):
    """Certificates that are encoded byte by byte, and break one rule."""

    def broken(self):
        yield from (((name,), changes) for name, listed in BROKEN.items() for changes in listed)
        yield from BOTH.items()

    def test_each_rule_is_broken_once(self):
        self.assertEqual({*BROKEN, *(name for names in BOTH for name in names)}, set(RULES))
        for names, changes in self.broken():
            with self.subTest(names, changes=changes):
                wanted = [(it, place_of(RULES[it].where, **changes)) for it in names]
                self.assertEqual(found(data=certificate(**changes)), (wanted, 3))

    def test_what_comes_close(self):
        for changes in KEPT:
            with self.subTest(changes):
                self.assertEqual(found(data=certificate(**changes)), ([], 0))

    def test_one_rule_alone(self):
        for names, changes in BOTH.items():
            data = certificate(**changes)
            found_in_all = [(it, place_of(RULES[it].where, **changes)) for it in names]
            for name in names:
                with self.subTest(name):
                    others = [it for it in found_in_all if it[0] != name]
                    self.assertEqual(found("--rule", name, data=data), ([it for it in found_in_all if it[0] == name], 3))
                    self.assertEqual(found("--rule", ",".join(names), "--ignore", name, data=data)[0], others)
                    self.assertEqual(found("--ignore", ",".join(names), data=data), ([], 0))


@NEEDS_PROGRAM
class Many(unittest.TestCase):
    """Hostile certificates, which must not take time by pairs."""

    def told(self, **changes):
        out, _, status = run("lint", "--json", "-", data=certificate(**changes), timeout=60)
        return [it["rule"] for it in json.loads(out)["findings"]], status

    def test_extensions(self):
        others = [extension(f"1.2.3.{it}", b"\x05\x00") for it in range(1, 100_000)]
        self.assertEqual(self.told(**signed(*others)), ([], 0))
        self.assertEqual(self.told(**signed(*others, others[0])), (["extension-repeated"], 3))

    def test_names(self):
        rows = [b"%06d" % it for it in range(100_000)]
        self.assertEqual(self.told(issuer=name_of_sets(*([it] for it in rows))), ([], 0))
        self.assertEqual(self.told(subject=name_of_sets(rows)), ([], 0))
        self.assertEqual(self.told(subject=name_of_sets([*rows, rows[0]])), (["subject-set-order"], 3))


def of_requests(rule):
    """Whether requests may break a rule: by their subject, key or algorithm, or an extension that is there."""
    form, _, what = rule.condition.partition(" ")
    return form in ("Subject", "Has") or what in ("EmptySubjectSet", "UnsortedSubject", "RepeatedExtension") or rule.name in BROKEN_BY_REQUEST


@NEEDS_PROGRAM
class Requests(unittest.TestCase):
    """Requests that are encoded byte by byte, and break one rule."""

    def broken(self):
        for name, rule in RULES.items():
            if of_requests(rule):
                yield from ((name, changes) for changes in BROKEN_BY_REQUEST.get(name) or asking(BROKEN[name]))

    def test_each_rule_is_broken_once(self):
        for name, changes in self.broken():
            with self.subTest(name, changes=changes):
                where = RULES[name].where
                wanted = [(name, place_in_request(PLACES.get(where, where), **changes))]
                self.assertEqual(found(data=request(**changes)), (wanted, 3))

    def test_what_is_kept(self):
        for changes in KEPT_BY_REQUEST:
            with self.subTest(changes):
                self.assertEqual(found(data=request(**changes)), ([], 0))

    def test_what_an_authority_adds(self):
        others = [it for it in RULES.values() if it.name in BROKEN and it.where == "extensions" and not of_requests(it)]
        self.assertGreater(len(others), 5)
        for rule in others:
            for changes in asking(BROKEN[rule.name]):
                with self.subTest(rule.name):
                    self.assertEqual(found(data=request(**changes)), ([], 0))

    def test_times_say_nothing_of_requests(self):
        self.assertEqual(found("--at", "1970-01-01T00:00:00Z", data=request()), ([], 0))

    def test_files(self):
        out, error, status = run("lint", f"{DATA}/request_rsa.pem")
        self.assertRegex(out.decode(), r"^\S+:1: warning: RSA modulus .* \[modulus-short\]\n\S+:1: warning: .* \[key-usage-not-critical\]\n$")
        self.assertEqual((error, status), (b"1 structure: 0 without findings, 1 with findings, 0 refused\n", 3))
        out, _, _ = run("lint", "--json", f"{DATA}/request_rsa.pem")
        told = json.loads(out)
        self.assertEqual((told["type"], told["label"], len(told["findings"])), ("request", "CERTIFICATE REQUEST", 2))


# The rules that tell whether something is in DER.
OF_DER = {name for name, rule in RULES.items() if rule.clause.startswith("X.690")}


def damaged(der, at):
    """The same bytes with another one at a place."""
    return der[:at] + bytes([der[at] ^ 1 << at % 8]) + der[at + 1 :]


@NEEDS_PROGRAM
class Check(unittest.TestCase):
    """`check` tells of certificates and requests which rules of X.690 they break, exactly as `lint` does."""

    def agree(self, structures):
        with tempfile.TemporaryDirectory(prefix="check-") as room:
            for number, der in enumerate(structures):
                with open(f"{room}/{number:06}.der", "wb") as file:
                    file.write(der)
            checked = [json.loads(it) for it in run("check", "--json", room)[0].splitlines()]
            linted = [json.loads(it) for it in run("lint", "--json", "--rule", ",".join(sorted(OF_DER)), room)[0].splitlines()]
        told = {it["file"]: it.get("findings", []) for it in checked if it["result"] in ("ok", "deviations")}
        self.assertEqual(told, {it["file"]: it["findings"] for it in linted if "findings" in it})
        return [it for it in told.values() if it]

    def test_whole(self):
        certificates = [changes for listed in BROKEN.values() for changes in listed] + [*BOTH.values(), *KEPT]
        requests = [changes for _, changes in Requests().broken()] + KEPT_BY_REQUEST
        found = self.agree([certificate(**it) for it in certificates] + [request(**it) for it in requests])
        self.assertEqual({it["rule"] for told in found for it in told}, OF_DER)

    def test_damaged(self):
        ders = [certificate(**changes) for name in sorted(OF_DER) for changes in BROKEN[name]] + [certificate(), request()]
        found = self.agree([damaged(der, at) for der in ders for at in range(len(der))])
        self.assertGreater(len(found), 500)

    def test_text(self):
        for changes, status, wanted in (
            ({}, 0, "ok"),
            ({"subject": UNSORTED[0]}, 3, "not in DER: subject has a set whose attributes aren't in order at {}..{} (X.690, 11.6)"),
        ):
            out, error, ended = run("check", "-", data=certificate(**changes))
            self.assertEqual(out.decode(), f"-: certificate: {wanted.format(*place_of('subject', **changes))}\n")
            self.assertEqual(ended, status)
            self.assertEqual(error.decode(), f"1 structure: {int(not status)} in DER, {int(bool(status))} with deviations, 0 refused\n")
        told = run("check", "--deep", "--at", "2020-06-01T00:00:00Z", "-", data=certificate(**changes))
        self.assertEqual((told[0], told[2]), (out, 3))

    def test_with_deviations(self):
        without_null = algorithm("1.2.840.113549.1.1.11")
        fields = {"subject": UNSORTED[0], "signature": without_null, "signatureAlgorithm": without_null}
        out, _, status = run("check", "-", data=certificate(**fields))
        wanted = r"^-: certificate: 2 deviations: RSA parameters absent at .*; not in DER: subject has a set .* \(X.690, 11.6\)\n$"
        self.assertRegex(out.decode(), wanted)
        self.assertEqual(status, 3)


@NEEDS_PROGRAM
class Program(unittest.TestCase):
    """What is printed, and the status."""

    def test_text(self):
        data = certificate(serialNumber=b"\x02\x01\x00")
        text = base64.encodebytes(data).decode()
        pem = f"before\n-----BEGIN CERTIFICATE-----\n{text}-----END CERTIFICATE-----\n".encode()
        out, error, status = run("lint", "-", data=pem)
        self.assertEqual(out.decode(), "-:2: error: serial number isn't positive at 12..15 (RFC 5280, 4.1.2.2) [serial-not-positive]\n")
        self.assertEqual(error, b"1 structure: 0 without findings, 1 with findings, 0 refused\n")
        self.assertEqual(status, 3)

    def test_colours(self):
        data = certificate(serialNumber=b"\x02\x01\x00")
        out, _, _ = run("lint", "--color", "always", "-", data=data)
        self.assertRegex(out.decode(), "^-: \x1b\\[[0-9;]+merror\x1b\\[0?m: serial number isn't positive at")

    def test_times(self):
        for time, name in (("2019-12-31T23:59:59Z", "not-yet-valid"), ("2049-01-01T00:00:01Z", "expired")):
            with self.subTest(name):
                self.assertEqual(found("--at", time, data=certificate()), ([(name, place_of("validity"))], 3))
        self.assertEqual(found("--at", "2020-01-01T00:00:00Z", data=certificate()), ([], 0))
        _, error, status = run("lint", "--at", "2050-01-01T00:00:00Z", "-", data=certificate())
        self.assertEqual(error, b"1 structure: 0 without findings, 1 with findings, 0 refused; 1 expired or not yet valid\n")
        _, error, status = run("lint", "--at", "yesterday", "-", data=certificate())
        self.assertEqual(status, 2)

    def test_others(self):
        der = ed25519_key()
        text = base64.encodebytes(der).decode()
        pem = f"-----BEGIN PUBLIC KEY-----\n{text}-----END PUBLIC KEY-----\n".encode()
        out, error, status = run("lint", "-", data=pem)
        self.assertEqual(out, b"-:1: PUBLIC KEY: passed over: only certificates and requests are looked at\n")
        self.assertEqual((error, status), (b"0 structures: 0 without findings, 0 with findings, 0 refused; 1 passed over\n", 1))
        out, error, status = run("lint", "-", data=der)
        self.assertEqual((out, status), (b"-: passed over: only certificates and requests are looked at\n", 1))
        broken = certificate(version=b"")
        out, error, status = run("lint", "-", data=broken)
        self.assertRegex(out.decode(), "^-: certificate: refused: extensions without version 3 ")
        self.assertEqual(status, 1)
        out, error, status = run("lint", f"{DATA}/refused_month_13.pem")
        self.assertRegex(out.decode(), r":1: certificate: refused: malformed time at byte \d+ ")
        self.assertEqual(status, 1)
        out, _, status = run("lint", "--json", f"{DATA}/refused_month_13.pem")
        self.assertEqual((json.loads(out)["result"], status), ("refused", 1))

    def test_list(self):
        out, error, status = run("lint", "--list")
        self.assertEqual((error, status), (b"", 0))
        wanted = [line for it in RULES.values() for line in (f"{it.name} ({it.severity}, {it.clause}): {it.text}", f"    {it.reason}.")]
        self.assertEqual(out.decode().splitlines(), wanted)

    def test_list_as_json(self):
        out, error, status = run("lint", "--list", "--json")
        self.assertEqual((error, status), (b"", 0))
        members = ("rule", "severity", "text", "clause", "reason")
        rows = ((it.name, it.severity, it.text, it.clause, f"{it.reason}.") for it in RULES.values())
        self.assertEqual([json.loads(line) for line in out.splitlines()], [dict(zip(members, row)) for row in rows])

    def test_wrong_names(self):
        for option in ("--rule", "--ignore"):
            out, error, status = run("lint", option, "serial-too-long,serial\x1b", "-", data=certificate())
            self.assertEqual((out, status), (b"", 2))
            self.assertIn(b"no rule is named 'serial\\u{1b}': see cimaroly lint --list", error)


# The rules on whether an extension is critical, by OpenSSL's names.
BY_CRITICALITY = [
    ("subject-names-critical", "X509v3 Subject Alternative Name", True),
    ("issuer-names-critical", "X509v3 Issuer Alternative Name", True),
    ("authority-key-critical", "X509v3 Authority Key Identifier", True),
    ("subject-key-critical", "X509v3 Subject Key Identifier", True),
    ("revocation-points-critical", "X509v3 CRL Distribution Points", True),
    ("authority-access-critical", "Authority Information Access", True),
    ("subject-access-critical", "Subject Information Access", True),
    ("name-constraints-not-critical", "X509v3 Name Constraints", False),
    ("policy-mappings-not-critical", "X509v3 Policy Mappings", False),
    ("policy-constraints-not-critical", "X509v3 Policy Constraints", False),
    ("any-policy-not-critical", "X509v3 Inhibit Any Policy", False),
]


def openssl(*words, data):
    return subprocess.run(["openssl", *words], input=data, capture_output=True, check=True).stdout.decode()


# How many characters an attribute has at most, by OpenSSL's names (RFC 5280, A.1).
MOST = {
    "commonName": 64,
    "emailAddress": 255,
    "givenName": 32768,
    "localityName": 128,
    "organizationName": 64,
    "organizationalUnitName": 64,
    "serialNumber": 64,
    "stateOrProvinceName": 128,
    "surname": 32768,
}


def seen_in_name(pem, name):
    """The rules about texts that the issuer or the subject of a certificate breaks, by OpenSSL's types and texts."""
    printed = openssl("x509", "-noout", f"-{name}", "-nameopt", "sep_multiline,show_type,lname,utf8,-esc_msb", data=pem)
    rows = re.findall(r"(?m)^ +(\w+)=(\w+):(.*)$", printed)
    return {
        f"{name}-text-empty": any(not text for _, _, text in rows),
        f"{name}-text-long": any(len(text) > MOST.get(attribute, len(text)) for attribute, _, text in rows),
        f"{name}-country": any(
            it == "countryName" and not (kind == "PRINTABLESTRING" and re.fullmatch("[A-Za-z]{2}", text)) for it, kind, text in rows
        ),
        f"{name}-string-type": any(
            kind != "PRINTABLESTRING" if it == "serialNumber" else kind not in ("PRINTABLESTRING", "UTF8STRING", "IA5STRING")
            for it, kind, _ in rows
        ),
    }


def seen_by_openssl(pem):
    """The rules that a root certificate breaks, by what OpenSSL prints of it."""
    text = openssl("x509", "-noout", "-text", data=pem)
    parsed = openssl("asn1parse", data=pem)
    serial = re.search(r"Serial Number:\s*(\S+)", text).group(1)
    size = re.search(r"RSA Public-Key: \((\d+) bit\)|rsaEncryption\s+Public-Key: \((\d+) bit\)", text)
    constraints = re.search(r"X509v3 Basic Constraints: *(critical)?\s+CA:TRUE", text)
    usage = re.search(r"X509v3 Key Usage: *(?:critical)?\s+(.*)", text)
    written = re.search(r"X509v3 Key Usage(?:\n.*BOOLEAN.*)?\n.*\[HEX DUMP\]:(\w+)", parsed)
    times = re.findall(r"(UTCTIME|GENERALIZEDTIME) *:(\d+)Z", parsed)[:2]
    early = [form == "GENERALIZEDTIME" and digits < "2050" for form, digits in times]
    signs = usage and "Certificate Sign" in usage.group(1)
    authority = re.search(r"X509v3 Authority Key Identifier:.*((?:\n {16}.*)*)", text)
    parts = [part in authority.group(1) for part in ("DirName:", "serial:")] if authority else [False, False]
    names = [re.search(rf"{it}: *(.*)", text).group(1) for it in ("Issuer", "Subject")]
    broken = {
        "serial-not-positive": serial == "0" or serial.startswith(("-", "(Negative)")),
        "not-before-form": early[0],
        "not-after-form": early[1],
        "modulus-short": size and int(size.group(1) or size.group(2)) < 2048,
        "subject-key-missing": constraints and "X509v3 Subject Key Identifier" not in text,
        "authority-without-signing": constraints and not signs,
        "key-usage-not-critical": re.search(r"X509v3 Key Usage: *\n", text),
        "authority-key-missing": names[0] != names[1] and not authority,
        "authority-key-partial": parts[0] != parts[1],
        "authority-not-critical": constraints and not constraints.group(1) and (signs or not usage),
    }
    broken |= seen_in_name(pem, "issuer") | seen_in_name(pem, "subject")
    broken["subject-mailbox-unnamed"] = "emailAddress" in names[1] and not re.search(r"\bemail:", text)
    for rule, extension, critical in BY_CRITICALITY:
        broken[rule] = re.search(rf"{extension}: *{'critical' if critical else ''} *\n", text)
    if written:
        # (an OCTET STRING's content: tag, length, the number of unused bits, and the bits)
        unused, last = bytes.fromhex(written.group(1))[2], bytes.fromhex(written.group(1))[-1]
        broken["key-usage-padded"] = not last >> unused & 1
    return {rule for rule, it in broken.items() if it}


@NEEDS_PROGRAM
@unittest.skipUnless(os.path.isfile(f"{STORE}/ca-certificates.crt"), f"there is no {STORE}/ca-certificates.crt")
class RootCertificates(unittest.TestCase):
    """The certificates that this system trusts: what is found in them, OpenSSL sees too, and nothing else."""

    def test_findings(self):
        path = f"{STORE}/ca-certificates.crt"
        with open(path, "rb") as file:
            lines = file.read().splitlines(keepends=True)
        out, error, status = run("lint", "--json", path)
        self.assertRegex(error.decode(), r"^\d+ structures?: \d+ without findings, \d+ with findings, \d+ refused")
        self.assertIn(status, (0, 1, 3))
        told = [json.loads(it) for it in out.splitlines()]
        self.assertGreater(len(told), 100)
        # (a TeletexString in a name is refused)
        for it in [it for it in told if "findings" in it]:
            with self.subTest(line=it["line"]):
                pem = b"".join(lines[it["line"] - 1 :])
                self.assertEqual({finding["rule"] for finding in it["findings"]}, seen_by_openssl(pem))


if __name__ == "__main__":
    unittest.main()
