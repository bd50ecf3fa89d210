#!/usr/bin/env bash
# Tries a folder of edits, several in one check: each plants a fault that the prover must refuse.
# usage: tools/plant.sh CRATE [FOLDER] [--only WORD] [--one] [--log FILE]
# FOLDER is crates/CRATE/planted where it is left out. tools/plant.py says more.
exec python3 "$(dirname "$0")/plant.py" "$@"
