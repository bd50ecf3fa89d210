"""Tests web/: the module for Node and browsers, over the table of all bindings, and the page, in Chromium where it is installed."""

import os
import re
import shutil
import subprocess
import tempfile
import unittest

HERE = os.path.dirname(os.path.abspath(__file__))
ROOT = os.path.dirname(os.path.dirname(HERE))
WEB = f"{ROOT}/web"

# How many seconds the tests may take: browsers are slow on machines with much else to do.
PATIENCE = 2400


def text_of(path):
    with open(path, encoding="utf-8") as file:
        return file.read()


def sources():
    """The scripts that the page loads."""
    for folder in (WEB, f"{WEB}/page"):
        yield from (f"{folder}/{it}" for it in sorted(os.listdir(folder)) if it.endswith(".mjs"))


def run(*words):
    ended = subprocess.run(
        words, stdout=subprocess.PIPE, stderr=subprocess.STDOUT, text=True, check=False, cwd=ROOT, timeout=PATIENCE
    )
    return ended.stdout, ended.returncode


def engines():
    """How node is started: as it is, and with 64-bit memories where it has them behind an option."""
    yield ["node"]
    with_memories = ["node", "--experimental-wasm-memory64"]
    if run(*with_memories, "-e", "0")[1] == 0:
        yield with_memories


class Files(unittest.TestCase):
    """What lies in web/ agrees with the rest of the repository."""

    def test_samples(self):
        names = re.findall(r'\["([^"]+)", "', text_of(f"{WEB}/page/samples.mjs"))
        self.assertEqual(sorted(names), sorted(os.listdir(f"{WEB}/samples")))
        for name in names:
            self.assertEqual(text_of(f"{WEB}/samples/{name}"), text_of(f"{HERE}/data/{name}"), name)

    def test_policy(self):
        # nothing is loaded from elsewhere, and nothing of an input becomes markup
        page = text_of(f"{WEB}/index.html")
        self.assertIn("default-src 'none'; script-src 'self' 'wasm-unsafe-eval'; style-src 'self'", page)
        self.assertNotRegex(page, r"<script(?![^>]* src=)|<style|\son\w+=|\sstyle=|https?://")
        for path in sources():
            code = text_of(path)
            self.assertNotRegex(code, r"innerHTML|outerHTML|insertAdjacentHTML|document\.write|\beval\(|new Function", path)
            self.assertNotRegex(code, r"https?://", path)

    def test_styles(self):
        linked = re.findall(r'<link rel="stylesheet" href="(style/[^"]+)">', text_of(f"{WEB}/index.html"))
        self.assertEqual(sorted(linked), sorted(f"style/{it}" for it in os.listdir(f"{WEB}/style")))
        for name in linked:
            self.assertNotRegex(text_of(f"{WEB}/{name}"), r"url\(|@import|https?://", name)

    def test_sizes(self):
        self.assertLessEqual(os.path.getsize(f"{ROOT}/docs/page.png"), 200_000)
        styles = [f"{WEB}/style/{it}" for it in os.listdir(f"{WEB}/style")]
        for path in (*sources(), *styles, *(f"{WEB}/node/{it}" for it in os.listdir(f"{WEB}/node"))):
            self.assertLess(text_of(path).count("\n"), 500, path)


@unittest.skipUnless(os.path.isfile(f"{WEB}/cimaroly.wasm"), "tools/dist.sh makes web/cimaroly.wasm, which is missing")
class Runs(unittest.TestCase):
    """The module in Node, and the page in Chromium."""

    @unittest.skipUnless(shutil.which("node"), "node isn't installed")
    def test_node(self):
        tests = [f"{WEB}/test/{it}" for it in sorted(os.listdir(f"{WEB}/test")) if it.endswith(".test.mjs")]
        for engine in engines():
            with self.subTest(" ".join(engine)):
                out, status = run(*engine, "--test", *tests)
                self.assertEqual(status, 0, out)
                self.assertNotIn("# pass 0\n", out)

    @unittest.skipUnless(shutil.which("tsc"), "tsc isn't installed")
    def test_types(self):
        with tempfile.TemporaryDirectory() as room:
            os.mkdir(f"{room}/node_modules")
            os.symlink(WEB, f"{room}/node_modules/cimaroly")
            with open(f"{room}/package.json", "w", encoding="utf-8") as file:
                file.write('{"type": "module"}')
            words = ["--noEmit", "--strict", "--module", "nodenext", "--moduleResolution", "nodenext", "--target", "es2022"]
            for name in ("types.ts", "types.cts"):
                shutil.copy(f"{WEB}/test/{name}", room)
                out, status = run("tsc", *words, f"{room}/{name}")
                self.assertEqual((out, status), ("", 0), name)

    @unittest.skipUnless(os.environ.get("X509_LONG_TESTS"), "it takes a minute or two: X509_LONG_TESTS=1 runs it")
    def test_page(self):
        out, status = run(f"{WEB}/test.sh")
        if status == 77:
            self.skipTest(out.strip())
        self.assertEqual(status, 0, out)
        self.assertRegex(out, r"\n[1-9]\d* passed, 0 failed\n$")


if __name__ == "__main__":
    unittest.main()
