#!/usr/bin/env python3
"""Measures the calls of bindings/ from C and Python, beside OpenSSL and the package cryptography, all in one run.

usage: tools/measure/bindings.py [COUNT]

Over each of three certificates of tools/tests/data every call is done COUNT times (20,000 where none is given; slower ones a
quarter of that, and from Python a tenth), in five rounds, of which the fastest counts. It prints a Markdown table of microseconds
of a processor. It wants gcc, OpenSSL's headers (Debian: libssl-dev) and cryptography. The library is that of dist/, or of the
folder that CIMAROLY_LIB_DIR names.
"""

import os
import platform
import subprocess
import sys
import tempfile
import time

ROOT = os.path.dirname(os.path.dirname(os.path.dirname(os.path.abspath(__file__))))
DATA = f"{ROOT}/tools/tests/data"
LIBRARY = os.environ.get("CIMAROLY_LIB_DIR") or f"{ROOT}/dist/{platform.machine()}-linux"
CERTIFICATES = ("certificate_rsa", "certificate_ec", "certificate_ed25519")
ROUNDS = 5

sys.path.insert(0, f"{ROOT}/bindings/python")

import cryptography  # noqa: E402
from cryptography import x509  # noqa: E402
from cryptography.hazmat.backends.openssl import backend  # noqa: E402

import cimaroly  # noqa: E402


def with_extensions(der):
    """Loads a certificate and reads its names, its extensions and its key, which loading leaves unread."""
    read = x509.load_der_x509_certificate(der)
    return read.subject.rdns, read.issuer.rdns, list(read.extensions), read.public_key()


def row(der):
    """What people ask of a certificate first: its subject, dates, names of the DNS and key."""
    it = cimaroly.read(der)
    key = it.public_key
    dates = it.not_before, it.not_after
    return it.subject.rfc4514(), it.subject.common_name, *dates, it.alternative_names.dns_names, key.algorithm, key.bits


def row_by_cryptography(der):
    """The same."""
    it = x509.load_der_x509_certificate(der)
    common = it.subject.get_attributes_for_oid(x509.NameOID.COMMON_NAME)[-1].value
    names = it.extensions.get_extension_for_class(x509.SubjectAlternativeName).value
    key = it.public_key()
    dates = it.not_valid_before_utc, it.not_valid_after_utc
    hosts = names.get_values_for_type(x509.DNSName)
    return it.subject.rfc4514_string(), common, *dates, hosts, type(key).__name__, getattr(key, "key_size", 256)


CALLS = {
    "Python `cimaroly.check`": cimaroly.check,
    "Python `cimaroly.read(..).fields`": lambda der: cimaroly.read(der).fields,
    "Python `cimaroly.read(..).report()`": lambda der: cimaroly.read(der).report(),
    "Python: subject, dates, DNS names and key": row,
    "`cryptography`: the same": row_by_cryptography,
    "`cryptography`: `load_der_x509_certificate`": x509.load_der_x509_certificate,
    "`cryptography`: that, and names, extensions and key": with_extensions,
}


def driver(folder):
    """The program that measures the calls from C."""
    path = f"{folder}/bindings"
    words = ["gcc", "-O2", f"-I{ROOT}/bindings/c", f"{ROOT}/tools/measure/bindings.c", f"{LIBRARY}/libcimaroly.a", "-lcrypto"]
    subprocess.run([*words, "-o", path], check=True)
    return path


def from_c(program, path, count):
    printed = subprocess.run([program, path, str(count)], check=True, stdout=subprocess.PIPE, encoding="utf-8").stdout
    return {name: float(time) for name, time in (line.split("\t") for line in printed.splitlines())}


def from_python(der, count):
    least = {}
    for _ in range(ROUNDS):
        for name, call in CALLS.items():
            start = time.process_time()
            for _ in range(count):
                call(der)
            each = (time.process_time() - start) / count * 1e6
            least[name] = min(least.get(name, each), each)
    return least


def main():
    count = int(sys.argv[1]) if len(sys.argv) > 1 else 20000
    columns, sizes = [], []
    with tempfile.TemporaryDirectory() as folder:
        program = driver(folder)
        for it in CERTIFICATES:
            with open(f"{DATA}/{it}.pem", "rb") as file:
                (block,) = cimaroly.pem_blocks(file.read())
            with open(f"{folder}/{it}", "wb") as file:
                file.write(block.der)
            sizes.append(len(block.der))
            columns.append(from_c(program, f"{folder}/{it}", count) | from_python(block.der, max(count // 10, 1)))
    print(f"(cryptography {cryptography.__version__}, its OpenSSL {backend.openssl_version_text()})\n")
    heads = [f"{it.removeprefix('certificate_')}, {size:,} bytes" for it, size in zip(CERTIFICATES, sizes)]
    print("| Call | " + " | ".join(heads) + " |")
    print("|---|" + "--:|" * len(sizes))
    for name in columns[0]:
        print(f"| {name} | " + " | ".join(f"{it[name]:.1f}" for it in columns) + " |")


if __name__ == "__main__":
    main()
