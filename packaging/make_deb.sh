#!/bin/sh
# Makes the Debian packages of what dist/ has, one for each machine: the programs, the library, its header, manual pages and
# completions.
# usage: packaging/make_deb.sh FOLDER
# Their maintainer is whoever makes them: as the variables DEBFULLNAME and DEBEMAIL say, or git, or else the user on this machine.
set -eu
export LC_ALL=C
unset CDPATH
umask 022
root=$(cd "$(dirname "$0")/.." && pwd)
mkdir -p "$1"
folder=$(cd "$1" && pwd)
version=$(cat "$root/VERSION")
name=${DEBFULLNAME:-$(git config user.name 2>/dev/null || id -un)}
address=${DEBEMAIL:-$(git config user.email 2>/dev/null || echo "$(id -un)@$(hostname)")}
maintainer="$name <$address>"
room=$(mktemp -d)
trap 'rm -rf "$room"' EXIT

# Writes the documents as Debian wants them.
write_documents() {
    rm "$1/LICENSE-APACHE" "$1/LICENSE-MIT"
    mv "$1/CHANGELOG.md" "$1/changelog"
    {
        printf 'Format: https://www.debian.org/doc/packaging-manuals/copyright-format/1.0/\n\n'
        printf 'Files: *\nCopyright: 2026 The Cimaroly authors\nLicense: MIT or Apache-2.0\n\nLicense: MIT\n'
        sed -n '5,$s/^$/./; 5,$s/^/ /p' "$root/LICENSE-MIT"
        printf '\nLicense: Apache-2.0\n On Debian systems the text is in /usr/share/common-licenses/Apache-2.0.\n'
    } >"$1/copyright"
    date=$(date -R -u -d "@${SOURCE_DATE_EPOCH:-$(stat -c %Y "$root/VERSION")}")
    printf 'cimaroly (%s-1) unstable; urgency=medium\n\n  * Version %s.\n\n -- %s  %s\n' \
        "$version" "$version" "$maintainer" "$date" >"$1/changelog.Debian"
}

# Writes what is told of the package, for one of Debian's architectures.
write_control() {
    mkdir "$stage/DEBIAN"
    (cd "$stage" && find usr -type f -print0 | sort -z | xargs -0 md5sum) >"$stage/DEBIAN/md5sums"
    echo 'activate-noawait ldconfig' >"$stage/DEBIAN/triggers"
    for it in "$stage"/usr/lib/*/libcimaroly.so.[0-9]; do
        [ ! -e "$it" ] || echo "libcimaroly ${it##*.} cimaroly (>= $version)" >"$stage/DEBIAN/shlibs"
    done
    cat >"$stage/DEBIAN/control" <<END
Package: cimaroly
Version: $version-1
Architecture: $1
Maintainer: $maintainer
Installed-Size: $(du -sk "$stage/usr" | cut -f 1)
Depends: libc6 (>= 2.34)
Section: utils
Priority: optional
Description: show and check X.509 certificates, requests and keys
 Cimaroly reads and writes X.509 structures in DER: certificates, certification
 requests, names, keys, algorithm identifiers and extensions. It tells what they
 contain, whether they are in DER, how and where they deviate from it, or why
 they are refused. Its promises are machine-checked.
 .
 This package has the programs cimaroly and x509_tool, and the C library with
 its header.
END
}

# Makes the package for a processor, as dist/ calls it and as Debian does.
make_package() {
    stage=$room/$2
    documents=$stage/usr/share/doc/cimaroly
    mkdir -m 755 "$stage"
    make -s --no-print-directory -C "$root" install MACHINE="$1-linux" DESTDIR="$stage" PREFIX=/usr \
        LIBDIR="/usr/lib/$1-linux-gnu" ZSHDIR=/usr/share/zsh/vendor-completions
    write_documents "$documents"
    # (what is installed has the checksums of dist/SHA256SUMS, so that anyone can compare it with a build of the sources)
    install -d "$stage/usr/share/lintian/overrides"
    printf 'cimaroly: unstripped-binary-or-object [usr/bin/%s]\n' cimaroly x509_tool >"$stage/usr/share/lintian/overrides/cimaroly"
    find "$stage/usr/share/man" "$documents"/changelog* -type f -exec gzip -9n {} +
    write_control "$2"
    dpkg-deb --root-owner-group --build "$stage" "$folder/cimaroly_$version-1_$2.deb"
}

make_package x86_64 amd64
make_package aarch64 arm64
