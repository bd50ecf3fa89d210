"""The program cimaroly, as its tests run it, and what OpenSSL tells of files."""

import contextlib
import json
import os
import platform
import pty
import shutil
import subprocess
import unittest

HERE = os.path.dirname(os.path.abspath(__file__))
ROOT = os.path.dirname(os.path.dirname(HERE))
DATA = f"{HERE}/data"
PROGRAM = os.environ.get("CIMAROLY") or f"{ROOT}/dist/{platform.machine()}-linux/cimaroly"
STORE = "/etc/ssl/certs"
# The compiler for the machine of the programs, and whether they run under qemu, which takes memory of its own.
CC = os.environ.get("CC") or "cc"
IS_EMULATED = "EMULATED" in os.environ

NEEDS_PROGRAM = unittest.skipUnless(os.path.isfile(PROGRAM), f"there is no {PROGRAM}")
NEEDS_CC = unittest.skipUnless(shutil.which(CC), "there is no C compiler")
NEEDS_MEMORY = unittest.skipIf(IS_EMULATED, "qemu takes memory of its own")
NEEDS_OPENSSL = unittest.skipUnless(shutil.which("openssl"), "there is no openssl")

CERTIFICATES = ["certificate_rsa", "certificate_pss", "certificate_ec", "certificate_ed25519", "set_of_two"]


def run(*words, data=None, **how):
    """What the program prints and its status."""
    ended = subprocess.run([PROGRAM, *words], input=data, capture_output=True, check=False, **how)
    return ended.stdout, ended.stderr, ended.returncode


def with_shim(folder):
    """The environment in which a program has refuse_memory.c in front of the C library; it is compiled to this folder."""
    shim = f"{folder}/refuse_memory.so"
    subprocess.run([CC, "-shared", "-fPIC", "-o", shim, f"{HERE}/refuse_memory.c"], check=True)
    name, value = ("QEMU_SET_ENV", f"LD_PRELOAD={shim}") if IS_EMULATED else ("LD_PRELOAD", shim)
    return {**os.environ, name: value}


def run_on_terminal(*words, only_errors=False, **variables):
    """What the program prints to a terminal, on standard output too or only on standard error, and its status."""
    ours, theirs = pty.openpty()
    how = {"stdin": subprocess.DEVNULL, "stdout": subprocess.DEVNULL if only_errors else theirs, "stderr": theirs}
    environment = {key: it for key, it in os.environ.items() if key not in ("NO_COLOR", "COLUMNS")}
    with subprocess.Popen([PROGRAM, *words], env={**environment, **variables}, **how) as child:
        os.close(theirs)
        printed = b""
        # (Linux answers with an error once the other end is closed)
        with contextlib.suppress(OSError):
            while some := os.read(ours, 65536):
                printed += some
    os.close(ours)
    return printed.decode().replace("\r\n", "\n"), child.returncode


def read(name):
    """A file of data/."""
    with open(f"{DATA}/{name}", "rb") as file:
        return file.read()


def openssl(*words, data=None):
    return subprocess.run(["openssl", *words], input=data, capture_output=True, check=True).stdout.decode("utf-8", "replace")


def shown(path):
    """The object of the one structure of a file."""
    out, _, _ = run("show", "--json", path)
    return [json.loads(line) for line in out.splitlines()]


def name_of(node):
    """A name as pairs of an attribute and its value, with its own list for each set."""
    return [[(it.get("name", it["id"]), it["value"]) for it in rdn["items"]] for rdn in node["items"]]
