#!/bin/sh
# Fuzzes the C library for so many seconds, by libFuzzer (clang, and on Debian libclang-rt-14-dev).
# usage: bindings/c/fuzz.sh SECONDS [FOLDER]   FOLDER keeps what was found, in the place of out/fuzz
# It begins with the inputs of bindings/tests/table.tsv. CIMAROLY_LIB_DIR names the library's folder, where it isn't that of dist/.
set -eu
seconds=${1:?usage: bindings/c/fuzz.sh SECONDS [FOLDER]}
cd "$(dirname "$0")"
folder=$(realpath -m "${2:-out/fuzz}")
library=${CIMAROLY_LIB_DIR:-../../dist/$(uname -m)-linux}
mkdir -p "$folder/corpus"
clang -std=gnu99 -I. -Wall -Wextra -O1 -g -fsanitize=fuzzer,address,undefined -fno-sanitize-recover=all \
    fuzz.c "$library/libcimaroly.a" -o "$folder/fuzz"
python3 fuzz_seeds.py "$folder/corpus"
cd "$folder"
exec ./fuzz -max_total_time="$seconds" -max_len=4096 -timeout=20 -rss_limit_mb=2048 -print_final_stats=1 corpus
