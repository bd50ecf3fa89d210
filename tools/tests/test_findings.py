"""Tests that each language tells the findings that `cimaroly lint` does, of certificates and requests that break rules and of data/.

The library is that of dist/ for this machine, or of the folder that the variable CIMAROLY_LIB_DIR names.
"""

import base64
import glob
import json
import os
import re
import shutil
import subprocess
import sys
import tempfile
import unittest

from cimaroly_program import CC, DATA, NEEDS_PROGRAM, ROOT, read, run
from faulty_certificates import BOTH, BROKEN, KEPT, certificate
from faulty_requests import BROKEN_BY_REQUEST, KEPT_BY_REQUEST, asking, request
from test_bindings import ARCHIVE, LIBRARY, NEEDS_LIBRARY, SHARED

BLOCK = re.compile(rb"-----BEGIN CERTIFICATE-----\n(.*?)-----END", re.DOTALL)
# How the names of files begin that have requests.
REQUEST = "request"

# Each prints a line for each file that it is given: a list of its findings, each with rule, severity, text, clause and
# place, and in Python and JavaScript the reason. What is behind the folder in a path says which call is meant.
IN_C = r"""
#include "cimaroly.h"
#include <stdio.h>
#include <string.h>

int main(int count, char **paths)
{
    for (int i = 1; i < count; i++) {
        static uint8_t der[65536];
        struct cimaroly_finding found[32];
        size_t number = 0;
        FILE *file = fopen(paths[i], "rb");
        size_t size = fread(der, 1, sizeof der, file);
        fclose(file);
        uint32_t status = strstr(paths[i], "/request") != NULL
            ? cimaroly_request_findings_malloc(der, size, found, 32, &number)
            : cimaroly_findings_malloc(der, size, found, 32, &number);
        if (status != CIMAROLY_OK)
            return 1;
        printf("[");
        for (size_t j = 0; j < number; j++) {
            size_t rule = found[j].rule;
            printf("%s[\"%s\", \"%s\", \"%s\", \"%s\", %zu, %zu]", j > 0 ? ", " : "", cimaroly_rule_name(rule),
                   cimaroly_rule_is_warning(rule) ? "warning" : "error", cimaroly_rule_text(rule),
                   cimaroly_rule_clause(rule), found[j].at.start, found[j].at.end);
        }
        printf("]\n");
    }
    return 0;
}
"""
IN_PYTHON = """
import json, sys
import cimaroly
for path in sys.argv[1:]:
    kind = "request" if "/request" in path else "certificate"
    with open(path, "rb") as file:
        found = cimaroly.read(file.read(), kind).findings
    print(json.dumps([[it.rule, it.severity, it.text, it.clause, it.start, it.end, it.reason] for it in found]))
"""
IN_JAVASCRIPT = """
import { readFileSync } from "node:fs";
import { read } from "./web/cimaroly.mjs";
for (const path of process.argv.slice(2)) {
  const { findings } = read(readFileSync(path), path.includes("/request") ? "request" : "certificate");
  const told = findings.map((it) => [it.rule, it.severity, it.text, it.clause, it.start, it.end, it.reason]);
  console.log(JSON.stringify(told));
}
"""
IN_RUST = r"""
fn main() {
    for path in std::env::args().skip(1) {
        let der = std::fs::read(&path).unwrap();
        let told = if path.contains("/request") { cimaroly::request_findings(&der) } else { cimaroly::findings(&der) };
        let found = told.unwrap();
        let told = found.iter().map(|it| {
            let rule = it.rule().unwrap();
            let severity = if rule.is_warning() { "warning" } else { "error" };
            let (name, text, clause) = (rule.name(), rule.text(), rule.clause());
            format!("[{name:?}, {severity:?}, {text:?}, {clause:?}, {}, {}]", it.start, it.end)
        });
        println!("[{}]", told.collect::<Vec<_>>().join(", "));
    }
}
"""
MANIFEST = f'[package]\nname = "findings"\nedition = "2021"\n[dependencies]\ncimaroly.path = "{ROOT}/bindings/rust"\n'


def certificates():
    """Certificates in DER: such as break rules, such as keep them, and those of data/."""
    yield from (certificate(**changes) for listed in BROKEN.values() for changes in listed)
    yield from (certificate(**changes) for changes in [*BOTH.values(), *KEPT])
    for path in sorted(glob.glob("*.pem", root_dir=DATA)):
        for symbols in BLOCK.findall(read(path)):
            der = base64.b64decode(symbols)
            # (some are refused)
            if run("check", "--type", "certificate", "-", data=der)[2] in (0, 3):
                yield der


def requests():
    """Requests in DER: such as break rules, such as keep them, and one of OpenSSL's."""
    listed = [changes for name, rows in BROKEN.items() if "extensions" in rows[0] for changes in asking(rows[:2])]
    for changes in [*listed, *(it for rows in BROKEN_BY_REQUEST.values() for it in rows), *KEPT_BY_REQUEST]:
        yield request(**changes)
    yield run("der", f"{DATA}/request_rsa.pem")[0]


@NEEDS_PROGRAM
@NEEDS_LIBRARY
class Findings(unittest.TestCase):
    @classmethod
    def setUpClass(cls):
        room = tempfile.TemporaryDirectory(prefix="findings-")
        cls.addClassCleanup(room.cleanup)
        cls.folder, cls.paths = room.name, []
        named = [(f"{number}.der", der) for number, der in enumerate(certificates())]
        named += [(f"{REQUEST}{number}.der", der) for number, der in enumerate(requests())]
        for name, der in named:
            cls.write(name, der)
            cls.paths.append(f"{room.name}/{name}")
        out, _, _ = run("lint", "--json", "--list")
        cls.reasons = {it["rule"]: it["reason"] for it in map(json.loads, out.splitlines())}
        out, _, _ = run("lint", "--json", *cls.paths)
        members = ("rule", "severity", "text", "clause")
        found = [json.loads(line)["findings"] for line in out.splitlines()]
        cls.stated = [[[it[key] for key in members] + it["at"] for it in one] for one in found]

    @classmethod
    def write(cls, name, content):
        os.makedirs(os.path.dirname(f"{cls.folder}/{name}"), exist_ok=True)
        with open(f"{cls.folder}/{name}", "wb") as file:
            file.write(content)

    def ran(self, *words, **variables):
        how = {"cwd": self.folder, "env": {**os.environ, "CIMAROLY_LIB_DIR": LIBRARY, **variables}}
        ended = subprocess.run(words, capture_output=True, encoding="utf-8", check=False, **how)
        self.assertEqual(ended.returncode, 0, ended.stderr)
        return ended.stdout

    def agrees(self, printed, has_reasons=False):
        found = [json.loads(line) for line in printed.splitlines()]
        reasons = self.reasons if has_reasons else {}
        stated = [[it + ([reasons[it[0]]] if reasons else []) for it in one] for one in self.stated]
        self.assertEqual(found, stated)

    def test_each_rule_is_broken(self):
        self.assertEqual(len(self.stated), len(self.paths))
        self.assertEqual({it[0] for one in self.stated for it in one}, set(self.reasons))
        self.assertIn([], self.stated)

    @unittest.skipUnless(shutil.which(CC), "there is no C compiler")
    def test_c(self):
        self.write("main.c", IN_C.encode())
        self.ran(CC, "-std=c99", "-Wall", "-Wextra", "-Werror", f"-I{ROOT}/bindings/c", "main.c", ARCHIVE, "-o", "main")
        self.agrees(self.ran("./main", *self.paths))

    def test_python(self):
        self.assertTrue(os.path.isfile(SHARED), f"there is no {SHARED}")
        self.write("main.py", IN_PYTHON.encode())
        printed = self.ran(sys.executable, "main.py", *self.paths, PYTHONPATH=f"{ROOT}/bindings/python")
        self.agrees(printed, has_reasons=True)

    @unittest.skipUnless(shutil.which("node"), "node isn't installed")
    @unittest.skipUnless(os.path.isfile(f"{ROOT}/web/cimaroly.wasm"), "there is no web/cimaroly.wasm")
    def test_javascript(self):
        os.symlink(f"{ROOT}/web", f"{self.folder}/web")
        self.write("main.mjs", IN_JAVASCRIPT.encode())
        self.agrees(self.ran("node", "main.mjs", *self.paths), has_reasons=True)

    @unittest.skipUnless(shutil.which("cargo") and shutil.which("cc"), "there is no cargo, or no cc")
    def test_rust(self):
        self.write("src/main.rs", IN_RUST.encode())
        self.write("Cargo.toml", MANIFEST.encode())
        self.agrees(self.ran("cargo", "run", "--offline", "--quiet", "--", *self.paths))


if __name__ == "__main__":
    unittest.main()
