#!/usr/bin/env python3
"""Compares what `cimaroly lint` finds with what other programs say of the same certificates.

usage: tools/tests/compare_findings.py

First a table, for docs/FINDINGS.md: of a certificate that breaks one rule, who refuses it or warns. Each is issued by an authority
that is trusted, and is read and verified by openssl verify -x509_strict, certtool --verify, a program
in Go, and the Python package `cryptography`, of which every property is asked for. Then which rules the certificates break that this
system trusts. The program is $CIMAROLY, or that of dist/. openssl, certtool (of Debian's package gnutls-bin), go (of golang-go) and
cryptography are needed.
"""

import base64
import collections
import json
import re
import subprocess
import sys
import tempfile
import warnings

from cryptography import x509
from cryptography.hazmat.primitives.asymmetric.ed25519 import Ed25519PrivateKey
from cryptography.hazmat.primitives.serialization import Encoding, PublicFormat

from cimaroly_program import STORE, run
from faulty_certificates import BOTH, BROKEN, FIELDS, KEPT, bits, parts_of, sequence

KEY = Ed25519PrivateKey.from_private_bytes(bytes(range(32)))
PUBLIC = KEY.public_key().public_bytes(Encoding.DER, PublicFormat.SubjectPublicKeyInfo)
# A time at which all of them are valid, but for those whose validity is the fault.
TIME = "1767225600"
GO = """package main

import (
	"crypto/x509"
	"fmt"
	"os"
	"time"
)

func main() {
	read := func(path string) *x509.Certificate {
		data, _ := os.ReadFile(path)
		read, err := x509.ParseCertificate(data)
		if err != nil {
			fmt.Println(err)
			os.Exit(1)
		}
		return read
	}
	roots := x509.NewCertPool()
	roots.AddCert(read(os.Args[1]))
	at := time.Unix(1767225600, 0)
	any := []x509.ExtKeyUsage{x509.ExtKeyUsageAny}
	_, err := read(os.Args[2]).Verify(x509.VerifyOptions{Roots: roots, CurrentTime: at, KeyUsages: any})
	if err != nil {
		fmt.Println(err)
		os.Exit(1)
	}
}
"""


def signed(**changes):
    """The certificate with these fields, which the authority has signed."""
    fields, outer = parts_of(changes)
    part = sequence(*fields.values())
    return sequence(part, outer, bits(KEY.sign(part)))


def said_by(command, pattern, text=None):
    """What a program says of a certificate that it refuses: all that the pattern finds."""
    done = subprocess.run(command, input=text, capture_output=True, text=True, check=False)
    said = done.stdout + done.stderr
    found = "; ".join(dict.fromkeys(re.findall(pattern, said)))
    return (found or said.strip()) if done.returncode else ""


def openssl(room):
    pattern = "error [0-9]+ at 0 depth lookup: (.*)"
    return said_by(["openssl", "verify", "-x509_strict", "-attime", TIME, "-CAfile", f"{room}/ca.pem", f"{room}/c.pem"], pattern)


def certtool(room):
    words = ["certtool", "--verify", "--verify-profile=medium", "--load-ca-certificate", f"{room}/ca.pem", "--infile", f"{room}/c.pem"]
    return said_by(words, r"(?:NOT trusted\.|rror:|file:) *(.*)")


def cryptography(data):
    """What is raised, or warned of, where each property is asked for."""
    with warnings.catch_warnings(record=True) as warned:
        warnings.simplefilter("always")
        try:
            it = x509.load_der_x509_certificate(data)
            for property in ("version", "serial_number", "issuer", "subject", "extensions", "signature_hash_algorithm", "not_valid_after"):
                getattr(it, property)
            it.public_key()
        except Exception as error:  # (whatever it raises is its answer)
            return f"{type(error).__name__}: {error}"
    told = [str(it.message) for it in warned if "not_valid_after" not in str(it.message)]
    return f"warning: {told[0]}" if told else ""


def write(path, data):
    with open(f"{path}.der", "wb") as out:
        out.write(data)
    with open(f"{path}.pem", "w", encoding="ascii") as out:
        text = base64.encodebytes(data).decode()
        out.write(f"-----BEGIN CERTIFICATE-----\n{text}-----END CERTIFICATE-----\n")


def answers_of(room, data):
    write(f"{room}/c", data)
    return {
        "OpenSSL": openssl(room),
        "GnuTLS": certtool(room),
        "Go": said_by([f"{room}/verify", f"{room}/ca.der", f"{room}/c.der"], "(.*)\n"),
        "cryptography": cryptography(data),
    }


def main():
    cases = [((rule,), changes) for rule, listed in BROKEN.items() for changes in listed] + list(BOTH.items())
    with tempfile.TemporaryDirectory() as room:
        with open(f"{room}/verify.go", "w", encoding="utf-8") as out:
            out.write(GO)
        subprocess.run(["go", "build", "-o", "verify", "verify.go"], cwd=room, check=True)
        write(f"{room}/ca", signed(subject=FIELDS["issuer"], subjectPublicKeyInfo=PUBLIC))
        for rules, changes in cases + [(("none",), it) for it in KEPT]:
            answers = answers_of(room, signed(**changes))
            print("|", ", ".join(rules), "|", " | ".join(" ".join(it.split())[:100] for it in answers.values()), "|")
    out, _, _ = run("lint", "--json", f"{STORE}/ca-certificates.crt")
    told = [json.loads(it) for it in out.splitlines()]
    counts = collections.Counter(it["rule"] for each in told for it in each.get("findings", []))
    print(len(told), "trusted certificates:", ", ".join(f"{rule} {count}" for rule, count in counts.most_common()))


if __name__ == "__main__":
    sys.exit(main())
