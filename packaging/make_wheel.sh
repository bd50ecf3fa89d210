#!/bin/sh
# Makes the wheels for Python, one for each machine, with its shared object of dist/ in it, by the package's own backend: without
# pip and a network.
# usage: packaging/make_wheel.sh FOLDER
set -eu
unset CDPATH
mkdir -p "$1"
folder=$(cd "$1" && pwd)
cd "$(dirname "$0")/../bindings/python/build_backend"
python3 -B -c 'import sys, wheels; [print(wheels.build_for(it, sys.argv[1])) for it in wheels.PROCESSORS]' "$folder"
