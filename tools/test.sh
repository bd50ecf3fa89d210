#!/bin/sh
# Tests what needs no prover: that what dist/ has are builds of these sources, by their checksums; the program, end to end; and
# the scripts of tools/. Standard error tells which test is running and how many are left. What can't be run here is named, with
# the reason. The last line is 'N passed, M failed'.
# usage: tools/test.sh [PROGRAM]   PROGRAM in the place of dist/x509_tool, which then isn't compared
set -eu
root=$(cd "$(dirname "$0")/.." && pwd)
export PYTHONDONTWRITEBYTECODE=1 PYTHONUTF8=1
if [ $# -gt 0 ]; then
    X509_TOOL=$(realpath "$1")
    export X509_TOOL
fi
exec python3 "$root/tools/tests/run.py"
