#!/bin/sh
# Installs the shared object under the names that linkers look for: the file itself as SONAME, or, where that is libcimaroly.so
# with a number, as libcimaroly.so with the whole version, and links to it from the other two names.
# usage: packaging/install_shared.sh FILE FOLDER VERSION
set -eu
export LC_ALL=C
file=$1 folder=$2 version=$3 name=libcimaroly.so
if ! command -v readelf >/dev/null; then
    echo "readelf is missing, which tells the SONAME of $file: it is in Debian's package binutils" >&2
    exit 1
fi
soname=$(readelf -d "$file" | sed -n 's/.*(SONAME).*\[\(.*\)\]$/\1/p')
case $soname in
"$name" | '')
    install -m 644 "$file" "$folder/$name"
    ;;
"$name".[0-9]*)
    install -m 644 "$file" "$folder/$name.$version"
    ln -sf "$name.$version" "$folder/$soname"
    ln -sf "$soname" "$folder/$name"
    ;;
*)
    echo "$file has the SONAME $soname, which isn't of this library" >&2
    exit 1
    ;;
esac
