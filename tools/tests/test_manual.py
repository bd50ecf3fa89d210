"""Tests the manual pages and completions of packaging/share/, against what the program says of itself."""

import os
import re
import shutil
import subprocess
import sys
import tempfile
import unittest

from cimaroly_program import NEEDS_PROGRAM, PROGRAM, ROOT

SHARE = f"{ROOT}/packaging/share"
sys.path.insert(0, f"{ROOT}/packaging")
import make_manual  # noqa: E402

ROWS = [it for it in make_manual.table() if it["program"] == "cimaroly"]
COMMANDS = [it["command"] for it in ROWS if it["command"] and not it["long"]]
OPTION = re.compile(r"^ +(?:(-\w), )?(--[\w-]+)(?: <(\w+)>)? +(.*?)(?: \[possible values: (.*)\])?$", re.MULTILINE)
TYPES = next(it["values"] for it in ROWS if it["value"] == "TYPE").split(",")


def told(*words):
    return subprocess.run([PROGRAM, *words], capture_output=True, encoding="utf-8", check=True).stdout


def options_of(command):
    """What the table has of a command's options, as the help shows them: values that the text doesn't name are listed."""
    rows = [it for it in ROWS if it["command"] == command and it["long"]]
    listed = [[] if all(word in it["text"] for word in it["values"].split(",")) else it["values"].split(",") for it in rows]
    return [(it["short"], it["long"], it["value"], it["text"], ", ".join(words)) for it, words in zip(rows, listed)]


@NEEDS_PROGRAM
class Table(unittest.TestCase):
    """The program's help is what commands.tsv says."""

    def test_commands(self):
        text = told("--help")
        stated = {it["command"]: it["text"] for it in ROWS if not it["long"]}
        self.assertEqual(text.splitlines()[0], stated.pop(""))
        listed = re.search(r"^Commands:\n(.*?)\n\n", text, re.DOTALL | re.MULTILINE).group(1)
        self.assertEqual(dict(re.findall(r"^  (\w+) +(.*)$", listed, re.MULTILINE)), stated)
        self.assertEqual(OPTION.findall(text), options_of(""))

    def test_options(self):
        for command in COMMANDS:
            with self.subTest(command):
                text = told("help", command)
                self.assertEqual(text, text if command == "help" else told(command, "--help"))
                self.assertEqual(OPTION.findall(text), options_of(command))
                usage = make_manual.usage(ROWS, command)
                self.assertIn(f"\nUsage: cimaroly {usage}\n", text)

    def test_what_the_help_ends_with(self):
        end = re.sub(r"\s+", " ", told("--help").partition("\nExit status: ")[2])
        stated = "; ".join(f"{number} {text[0].lower()}{text[1:-1]}" for number, text in make_manual.STATUS.items())
        self.assertEqual(end, f"{stated}. Examples: {' '.join(make_manual.EXAMPLES)} ")

    def test_types_of_the_tool(self):
        (row,) = (it for it in make_manual.table() if it["program"] == "x509_tool")
        with open(f"{ROOT}/docs/PROGRAMS.md", encoding="utf-8") as file:
            stated = re.search(r"`TYPE` is one of (.*?)\. It", file.read(), re.DOTALL).group(1)
        self.assertEqual(row["values"].split(","), re.findall(r"`([\w-]+)`", stated))


class Pages(unittest.TestCase):
    def test_they_are_up_to_date(self):
        words = [sys.executable, "-B", f"{ROOT}/packaging/make_manual.py", "--check"]
        ran = subprocess.run(words, stdout=subprocess.PIPE, stderr=subprocess.STDOUT, encoding="utf-8", check=False)
        self.assertEqual((ran.stdout, ran.returncode), ("", 0))

    @unittest.skipUnless(shutil.which("man") and shutil.which("groff"), "there is no man or no groff")
    def test_they_can_be_shown(self):
        for section, name, words in (
            (1, "cimaroly", ["--progress", "ec-private-key", "Exit status".upper()]),
            (1, "x509_tool", ["raw-algorithm", "10", "salt length too large"]),
            (3, "cimaroly", ["cimaroly_check(uint32_t kind,", "cimaroly_report_malloc("]),
        ):
            with self.subTest(name):
                environment = {**os.environ, "LC_ALL": "C.UTF-8", "MANWIDTH": "100"}
                how = {"env": environment, "capture_output": True, "encoding": "utf-8", "check": False}
                ran = subprocess.run(["man", "--warnings", "-l", f"{SHARE}/man/man{section}/{name}.{section}"], **how)
                self.assertEqual((ran.returncode, ran.stderr), (0, ""))
                for word in words:
                    self.assertIn(word, ran.stdout)
                self.assertNotIn("@", ran.stdout)

    def test_each_call_is_there(self):
        with open(f"{ROOT}/bindings/c/cimaroly.h", encoding="utf-8") as file:
            calls = set(re.findall(r"^(?:static inline .*?|uint32_t )(cimaroly_\w+)\(", file.read(), re.MULTILINE))
        with open(f"{SHARE}/man/man3/cimaroly.3", encoding="utf-8") as file:
            self.assertEqual(set(re.findall(r"^.*\\fB(cimaroly_\w+)\\fR\(", file.read(), re.MULTILINE)), calls)
        self.assertGreater(len(calls), 15)


FILES = ["cert.pem", "certs/"]
SHOW = [it[1] for it in options_of("show")]
# Offers what is completed, a line each, between angle brackets: a shell with a terminal of its own does so.
ZSH = r"""
zmodload zsh/zpty
zpty shell zsh -f -i
zpty -w shell "fpath=($1 \$fpath); autoload -U compinit; compinit -u; PS1="
zpty -w shell "compadd() {
    if [[ \${@[1,(i)(-|--)]} != *-(O|A|D)\ * ]]; then
        local -a hits
        builtin compadd -A hits \"\$@\"
        print -rl -- '<'\${^hits}'>'
    fi
    builtin compadd \"\$@\"
}"
zpty -w shell "offer() { _main_complete; print '<<en''d>>' }; zle -C offer list-choices offer; bindkey '^I' offer; print '<<read''y>>'"
zpty -r shell text '*<<ready>>*'
zpty -w -n shell "$2"$'\t'
zpty -r shell text '*<<end>>*'
print -r -- "${text##*<<ready>>}"
"""


class Completions(unittest.TestCase):
    """What each shell offers, in a folder with a file and a folder."""

    # What is typed, what is offered of words, and what of files.
    CASES = {
        ("",): (COMMANDS, FILES),
        ("sh",): (["show"], []),
        ("--v",): (["--version"], []),
        ("show", "--"): (SHOW, []),
        ("--json", "--"): (SHOW, []),
        ("--json", ""): ([], FILES),
        ("show", "c"): ([], FILES),
        ("check", "--q"): (["--quiet"], []),
        ("check", "--json", "--type", ""): (TYPES, []),
        ("tree", "--color", ""): (["auto", "always", "never"], []),
        ("check", "--color", "al"): (["always"], []),
        ("der", "--type", "rsa"): (["rsa-private-key", "rsa-public-key"], []),
        ("der", "-o", ""): ([], FILES),
        ("der", "--output", "cert."): ([], ["cert.pem"]),
        ("help", "t"): (["tree"], []),
    }

    def setUp(self):
        room = tempfile.TemporaryDirectory()
        self.addCleanup(room.cleanup)
        self.folder = room.name
        os.mkdir(f"{self.folder}/certs")
        with open(f"{self.folder}/cert.pem", "w", encoding="utf-8"):
            pass

    def ran(self, *words):
        environment = {"PATH": os.environ["PATH"], "HOME": self.folder, "LC_ALL": "C.UTF-8", "TERM": "dumb"}
        how = {"capture_output": True, "encoding": "utf-8", "check": False, "timeout": 600}
        ran = subprocess.run(words, cwd=self.folder, env=environment, **how)
        self.assertEqual(ran.stderr, "")
        return ran.stdout

    @unittest.skipUnless(shutil.which("bash"), "there is no bash")
    def test_bash(self):
        """Files are the shell's own offer, where this is none."""
        script = """source "$0"; COMP_WORDS=("$@"); COMP_CWORD=$(($# - 1)); _cimaroly; printf '%s\\n' "${COMPREPLY[@]}" """
        for words, (stated, _) in self.CASES.items():
            with self.subTest(words):
                found = self.ran("bash", "-c", script, f"{SHARE}/bash-completion/completions/cimaroly", "cimaroly", *words)
                self.assertEqual({it for it in found.split() if words[-1] or not it.startswith("-")}, set(stated))

    @unittest.skipUnless(shutil.which("fish"), "there is no fish")
    def test_fish(self):
        script = "source $argv[1]; complete -C (string join ' ' -- $argv[2..])"
        for words, (stated, files) in self.CASES.items():
            with self.subTest(words):
                found = self.ran("fish", "-c", script, f"{SHARE}/fish/vendor_completions.d/cimaroly.fish", "cimaroly", *words)
                self.assertEqual({it.split("\t")[0] for it in found.splitlines()}, {*stated, *files})

    @unittest.skipUnless(shutil.which("zsh"), "there is no zsh")
    def test_zsh(self):
        """No option is offered a second time."""
        for words, (stated, files) in self.CASES.items():
            with self.subTest(words):
                found = self.ran("zsh", "-f", "-c", ZSH, "zsh", f"{SHARE}/zsh/site-functions", " ".join(["cimaroly", *words]))
                offered = {it for it in re.findall("<([^<>]+)>\r?\n", found) if it.startswith(words[-1])}
                self.assertEqual(offered, {*stated, *(it.rstrip("/") for it in files)} - set(words))

    @unittest.skipUnless(shutil.which("zsh"), "there is no zsh")
    def test_zsh_of_the_tool(self):
        found = self.ran("zsh", "-f", "-c", ZSH, "zsh", f"{SHARE}/zsh/site-functions", "x509_tool pr")
        self.assertIn("<private-key>", found)


if __name__ == "__main__":
    unittest.main()
