#!/bin/sh
# Makes the crate for Rust, with each machine's archive of dist/ in it, which cargo then unpacks and builds.
# usage: packaging/make_crate.sh FOLDER
set -eu
unset CDPATH
root=$(cd "$(dirname "$0")/.." && pwd)
room=$(mktemp -d)
trap 'rm -rf "$room"' EXIT
mkdir -p "$1" "$room/crate"
cd "$root"
cp -R bindings/rust/src bindings/rust/examples bindings/rust/build.rs bindings/rust/Cargo.toml bindings/rust/README.md \
    LICENSE-APACHE LICENSE-MIT NOTICE "$room/crate"
for machine in x86_64-linux aarch64-linux; do
    mkdir -p "$room/crate/lib/$machine"
    cp "dist/$machine/libcimaroly.a" "$room/crate/lib/$machine"
done
cd - > /dev/null
cargo package --quiet --offline --allow-dirty --manifest-path "$room/crate/Cargo.toml" --target-dir "$room/target"
mv "$room/target/package/cimaroly-$(cat "$root/VERSION").crate" "$1"
