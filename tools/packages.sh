#!/bin/sh
# Installs Debian's packages that the gate uses beside the toolchain, where they are missing and can be installed: binaryen, whose
# wasm-opt makes the web page's module of 32 bits, chromium, in which the page is tested, lintian, which checks the packages for
# Debian, node-typescript, whose tsc checks the types for JavaScript, fish and zsh, whose completions are tested, opensc and softhsm2, a
# signer for `cimaroly assemble`, jq, which edits what `cimaroly make` takes, and for what dist/ has for aarch64 qemu, a compiler and the
# C library. What stays missing is said.
set -eu
missing=
for it in wasm-opt:binaryen chromium:chromium lintian:lintian tsc:node-typescript fish:fish zsh:zsh pkcs11-tool:opensc softhsm2-util:softhsm2 jq:jq; do
    command -v "${it%:*}" >/dev/null || missing="$missing ${it#*:}"
done
for it in qemu-aarch64-static:qemu-user-static aarch64-linux-gnu-gcc:gcc-aarch64-linux-gnu; do
    command -v "${it%:*}" >/dev/null || missing="$missing ${it#*:}"
done
[ -e /usr/aarch64-linux-gnu/lib/crt1.o ] || missing="$missing libc6-dev-arm64-cross"
[ -n "$missing" ] || exit 0
if [ "$(id -u)" = 0 ] && command -v apt-get >/dev/null; then
    # shellcheck disable=SC2086
    if apt-get -qq update >&2 && DEBIAN_FRONTEND=noninteractive apt-get -qq install -y --no-install-recommends $missing >&2; then
        exit 0
    fi
fi
echo "missing:$missing. Install with: apt-get install$missing" >&2
