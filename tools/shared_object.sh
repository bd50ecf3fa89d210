#!/bin/sh
# Links the C archive into a shared object, by the toolchain's own linker and C library, or for another processor by what stands
# in for that (tools/aarch64/link.sh --libc), so that the same archive gives the same bytes on each machine. Its SONAME has the
# major number of VERSION.
# usage: tools/shared_object.sh ARCHIVE OUT [LIBC]
set -eu
export LC_ALL=C
archive=$1 out=$2
major=$(cut -d . -f 1 "$(dirname "$0")/../VERSION")
command=$(command -v rt) || {
    echo "the toolchain's command rt isn't on the PATH: README says what is needed" >&2
    exit 1
}
toolchain=$(dirname "$(dirname "$(readlink -f "$command")")")/toolchain
if [ ! -x "$toolchain/bin/ld.lld" ]; then
    echo "$toolchain/bin/ld.lld is missing" >&2
    exit 1
fi
exports=$(mktemp)
trap 'rm -f "$exports"' EXIT
echo '{ global: cimaroly_*; local: *; };' >"$exports"
"$toolchain/bin/ld.lld" -shared -soname "libcimaroly.so.$major" --version-script "$exports" --gc-sections --strip-all \
    --build-id=none -z now -z relro -z noexecstack -o "$out" \
    --whole-archive "$archive" --no-whole-archive --no-undefined "${3:-$toolchain/lib/libc.so.6}"
