#!/bin/bash
# Measures the library: instructions of each call by callgrind, and its requests for memory.
# run.sh                  measures this repository
# run.sh CHECKOUT         also measures that checkout of an earlier state, and compares; one without certificates is measured without them
# UNCLEARED=1 run.sh      takes the clearing of functions' own places out of the LLVM text first, to see what it costs
# It needs rt, rattle, gcc, valgrind and python3, and with cargo it compares with hand-written Rust too (plain/). It builds in
# $MEASURE_FOLDER (else /tmp/measure), and nothing else of the repository is written.
set -euo pipefail
here=$(cd "$(dirname "$0")" && pwd)
top=$(cd "$here/../.." && pwd)
folder=${MEASURE_FOLDER:-/tmp/measure}
kit=$(dirname "$(dirname "$(readlink -f "$(command -v rt)")")")
# Of these an earlier state may lack some.
crates="x509_der_parts x509_der x509_oids_algorithms x509_keys_parts x509_keys"
# And these, where there are certificates.
upper="x509_prim_parts x509_prim x509_oids_objects x509_names_parts x509_names picky_asn1_x509_parts picky_asn1_x509"

# Builds the calls as a static library over a checkout's libraries: those that .ci/run or rt check left there, or else
# those of a copy, which are proved first.
build() {
  local from=$1 to=$2 list="" uses="x509_der x509_keys" of_kit=""
  mkdir -p "$to/crates/measured/src" "$to/crates/measured/specs" "$to/crates/measured/proofs"
  for crate in $crates; do [ ! -d "$from/crates/$crate" ] || list="$list $crate"; done
  cp "$here/calls.rt.in" "$to/crates/measured/src/lib.rt"

  if [ -d "$from/crates/picky_asn1_x509" ]; then
    list="$list $upper"
    uses="$uses picky_asn1_x509"
    of_kit="bumpalo"
    cat "$here/certificates.rt.in" >> "$to/crates/measured/src/lib.rt"
  fi
  touch "$to/crates/measured/specs/Lib.antt" "$to/crates/measured/proofs/Lib.antt"
  for crate in $list; do grep "^$crate:" "$from/crates.txt"; done > "$to/crates.txt"
  echo "measured staticlib: $uses $of_kit" >> "$to/crates.txt"
  if is_built "$from" $list; then build_over "$from" "$to"; else build_copy "$from" "$to"; fi
}

is_built() {
  local from=$1 crate
  shift
  for crate in "$@"; do [ -d "$from/crates/$crate/out/rlib/$crate.rlib" ] || return 1; done
}

# Builds the calls over libraries that stand in the checkout.
build_over() {
  local from=$1 to=$2 crate words
  words=(--crate-name measured --crate-type staticlib src/lib.rt --jobs 1)
  if [ -n "${UNCLEARED:-}" ]; then uncleared; words+=(--toolchain "$folder/uncleared"); else words+=(--toolchain "$kit/toolchain"); fi
  words+=(--antt-project "$kit/rattle/logic/antt-project.json" --logic-built "$kit/logic_built")
  for crate in std $of_kit; do words+=(--extern "$crate=$kit/rlibs/$crate.rlib"); done
  words+=(-L "dependency=$kit/rlibs")
  for crate in $list; do words+=(-L "dependency=$from/crates/$crate/out/rlib"); done
  for crate in $uses; do words+=(--extern "$crate=$from/crates/$crate/out/rlib/$crate.rlib"); done
  mkdir -p "$to/crates/measured/out"
  (cd "$to/crates/measured" && rattle build "${words[@]}" -o out/libmeasured.a) > "$to/measured.log" 2>&1 ||
    { tail "$to/measured.log" >&2; exit 1; }
}

# A toolchain whose clang compiles a module without those clearings: for measuring alone.
uncleared() {
  mkdir -p "$folder/uncleared/bin"
  ln -sfn "$kit/toolchain/lib" "$folder/uncleared/lib"
  ln -sf "$kit"/toolchain/bin/* "$folder/uncleared/bin/"
  rm "$folder/uncleared/bin/clang"
  cat > "$folder/uncleared/bin/clang" << END
#!/bin/bash
set -e
"$kit/toolchain/bin/clang" -S -emit-llvm -Xclang -disable-llvm-passes -x ir module.bc -o whole.ll
grep -v 'call void @llvm.memset.p0.i64(ptr %r[0-9]*, i8 0, i64 [0-9]*, i1 false)' whole.ll > module.ll
exec "$kit/toolchain/bin/clang" "\${@/module.bc/module.ll}"
END
  chmod +x "$folder/uncleared/bin/clang"
}

# Copies the crates of a checkout, proves them, and builds the calls over them.
build_copy() {
  local from=$1 to=$2 crate part
  [ -z "${UNCLEARED:-}" ] || { echo "UNCLEARED=1 takes the libraries that .ci/run leaves, and there are none" >&2; exit 1; }
  [ -d "$to/.git" ] || git init -q "$to"
  for crate in $list; do
    mkdir -p "$to/crates/$crate"
    rm -rf "$to/crates/$crate/src" "$to/crates/$crate/specs" "$to/crates/$crate/proofs"
    for part in src specs proofs; do cp -a "$from/crates/$crate/$part" "$to/crates/$crate/"; done
  done
  cp "$from/HANDLES" "$to/"
  for crate in $list measured; do
    (cd "$to/crates/$crate" && rt lib --jobs 1) > "$to/$crate.log" 2>&1 || { tail "$to/$crate.log" >&2; exit 1; }
  done
}

# The inputs that are files, as arrays of C.
arrays() {
  local input name
  for input in "$here"/inputs/*.hex; do
    name=$(basename "$input" .hex)
    echo "static const uint8_t input_${name//-/_}[] = {"
    sed 's/../0x&,/g' "$input"
    echo "};"
  done
}

# Runs the drivers over the library, and writes the counts to counts.tsv.
count() {
  local to=$1 flags="-O2 -I$folder"
  ! grep -q "^picky_asn1_x509:" "$to/crates.txt" || flags="$flags -DCERTIFICATES"
  local library="$to/crates/measured/out/libmeasured.a $kit/c/liblibc_c.a"
  if [ -f "$folder/plain/release/libplain.a" ] && grep -q "^picky_asn1_x509:" "$to/crates.txt"; then
    flags="$flags -DCOMPARED"
    library="$library $folder/plain/release/libplain.a"
  fi
  gcc $flags "$here/drive.c" $library -o "$to/instructions"
  gcc $flags -DARENA "$here/drive.c" $library -Wl,--wrap=malloc,--wrap=realloc,--wrap=free -o "$to/arena"
  gcc $flags -DMEMORY "$here/drive.c" $library -Wl,--wrap=malloc,--wrap=realloc,--wrap=free -o "$to/memory"
  "$to/memory" > "$to/counts.tsv"
  for driver in instructions arena; do
    rm -rf "$to/$driver.dumps"
    mkdir "$to/$driver.dumps"
    valgrind --tool=callgrind --collect-atstart=no --callgrind-out-file="$to/$driver.dumps/out" "$to/$driver" >> "$to/counts.tsv" 2> "$to/$driver.log"
    python3 "$here/table.py" dumps "$driver" "$to/$driver.dumps" >> "$to/counts.tsv"
  done
}

mkdir -p "$folder"
arrays > "$folder/inputs.h"
! command -v cargo > /dev/null || CARGO_TARGET_DIR="$folder/plain" cargo build --quiet --release --offline --manifest-path "$here/plain/Cargo.toml"
build "$top" "$folder/new"
count "$folder/new"
if [ $# = 1 ]; then
  build "$(cd "$1" && pwd)" "$folder/old"
  count "$folder/old"
  python3 "$here/table.py" tables "$folder/new/counts.tsv" "$folder/old/counts.tsv"
else
  python3 "$here/table.py" tables "$folder/new/counts.tsv"
fi
