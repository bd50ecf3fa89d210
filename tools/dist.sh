#!/bin/sh
# Makes dist/ anew, from what the gate has proved and built, or compares it. tools/artifacts.txt says what it holds.
# usage: tools/dist.sh                  makes each artifact, SHA256SUMS and SOURCES. What isn't built of the sources that
#                                       stand here is proved and built first
#        tools/dist.sh --check          compares dist/ with what is built, and says which file differs
#        tools/dist.sh --sums           compares checksums alone, for which no toolchain is needed
#        tools/dist.sh --after-ci SUMS  --check right after rt ci, which has built anew the programs in out/, and the
#                                       libraries that aren't among SUMS (tools/plant.py --before-ci)
#        tools/dist.sh --build NAME ..  proves and builds artifacts, such as x86_64-linux/cimaroly, where that isn't done, and
#                                       prints their paths
# SOURCES has the line of the toolchain that built it, and the checksum of each artifact's sources (tools/sources.sh). Where another
# toolchain builds other bytes of the same sources, that is said, and is no fault. What is built has a record beside it,
# FILE.sources: the checksum of its sources and its own. The last line of a comparison is 'N passed, M failed'.
set -eu
export LC_ALL=C
unset CDPATH
cd "$(dirname "$0")/.."

sum() { sha256sum <"$1" | cut -d ' ' -f 1; }

# The artifacts, a line each: the name from dist/, the crate, and the file that its build leaves; or a hyphen and a file to copy.
artifacts() { sed 's/#.*//; /^ *$/d; / - /!s/^\([^ ]*\) \([^ ]*\) /\1 \2 crates\/\2\//' tools/artifacts.txt; }

# The record of a file that is built of the sources of a crate as they stand here.
record() { printf '%s %s\n' "$(tools/sources.sh "$1" "$2")" "$(sum "$2")"; }

is_built() { [ -f "$2" ] && [ -f "$2.sources" ] && [ "$(cat "$2.sources")" = "$(record "$1" "$2")" ]; }

# Links the shared object of an archive that stands beside it.
link_shared() {
    libc=
    case $2 in
    */aarch64/*)
        libc=${2%/*}/libc.so.6
        tools/aarch64/link.sh --libc "$libc" || return
        ;;
    esac
    tools/shared_object.sh "$1" "$2" "$libc" >&2
}

# Proves and builds the file of a crate: a program by its stored run, a static library, or what is made of that.
make_file() {
    case $2 in
    *.so)
        archive=${2%/*}/lib$1.a
        (build "$1" "$archive") && link_shared "$archive" "$2"
        ;;
    */aarch64/*) python3 tools/build_aarch64.py ${stood+--stood "$stood"} "$1" "$2" >&2 ;;
    *.a) python3 tools/build_library.py "$1" ${stood+--stood "$stood"} >&2 ;;
    *.wasm) python3 tools/build_wasm.py ${stood+--stood "$stood"} "$2" >&2 ;;
    *)
        # shellcheck disable=SC2046
        (cd "crates/$1" && cat stdin 2>/dev/null | rt run -- $(cat args 2>/dev/null) >&2)
        ;;
    esac
}

# Builds the file of a crate where that isn't done.
build() {
    if [ "$1" = - ] || is_built "$1" "$2"; then return; fi
    if ! command -v rt >/dev/null; then
        echo "the toolchain's command rt isn't on the PATH: README says what is needed" >&2
        return 1
    fi
    before=$(tools/sources.sh "$1" "$2")
    if ! make_file "$1" "$2"; then
        echo "$2 was not proved and built" >&2
        return 1
    elif [ "$(tools/sources.sh "$1" "$2")" != "$before" ]; then
        echo "a source of $2 changed while it was built" >&2
        return 1
    fi
    record "$1" "$2" >"$2.sources"
}

make_dist() {
    artifacts | while read -r _name crate file; do build "$crate" "$file" </dev/null; done
    rm -rf dist
    mkdir dist
    rt version >dist/SOURCES
    artifacts | while read -r name crate file; do
        mkdir -p "$(dirname "dist/$name")"
        cp "$file" "dist/$name"
        if [ "$crate" != - ]; then printf '%s  %s\n' "$(tools/sources.sh "$crate" "$file")" "$name" >>dist/SOURCES; fi
        (cd dist && sha256sum "$name") >>dist/SHA256SUMS
    done
}

# What is wrong with an artifact in dist/, if anything.
fault_of() {
    if [ ! -f "dist/$1" ]; then
        echo "dist/$1 is missing"
    elif ! grep -qxF "$(sum "dist/$1")  $1" dist/SHA256SUMS; then
        echo "dist/$1: its checksum isn't the one in dist/SHA256SUMS"
    elif [ "$2" = - ]; then
        cmp -s "dist/$1" "$3" || echo "dist/$1 has other bytes than $3"
    elif ! grep -qxF "$(tools/sources.sh "$2" "$3")  $1" dist/SOURCES; then
        echo "dist/SOURCES: $1 was built of other sources than stand here"
    elif [ "$4" = --sums ]; then
        return
    elif ! build "$2" "$3" </dev/null; then
        echo "$3 can't be built, so dist/$1 wasn't compared with it"
    elif cmp -s "dist/$1" "$3"; then
        return
    elif is_same_toolchain; then
        echo "dist/$1 has other bytes than $3, which was built here"
    else
        echo "dist/$1 can't be compared with $3: $(rt version) builds other bytes than $(head -n 1 dist/SOURCES)" >&2
    fi
}

# Whether the toolchain here is the one that dist/ was built with. Another may build other bytes of the same sources.
is_same_toolchain() { [ "$(rt version)" = "$(head -n 1 dist/SOURCES)" ]; }

# What dist/ holds beside the artifacts, and a want of the toolchain.
strays() {
    find dist -type f | sort | while read -r file; do
        name=${file#dist/}
        case $name in
        SOURCES | SHA256SUMS) ;;
        *) artifacts | cut -d ' ' -f 1 | grep -qxF "$name" || echo "$file is no artifact" ;;
        esac
    done
    if [ "$1" = --sums ]; then
        return
    elif ! command -v rt >/dev/null; then
        echo "dist/ wasn't compared with a build: the toolchain's command rt isn't on the PATH"
    fi
}

compare() {
    if [ ! -f dist/SOURCES ] || [ ! -f dist/SHA256SUMS ]; then
        found="dist/SOURCES or dist/SHA256SUMS is missing"
    else
        found=$(
            artifacts | while read -r name crate file; do fault_of "$name" "$crate" "$file" "$1"; done
            strays "$1"
        )
    fi
    total=$(artifacts | grep -c '')
    if [ -z "$found" ]; then
        echo "$total passed, 0 failed"
        return
    fi
    failed=$(printf '%s\n' "$found" | grep -c '')
    printf '%s\n' "$found" "tools/dist.sh makes dist/ anew"
    echo "$((total > failed ? total - failed : 0)) passed, $failed failed"
    return 1
}

# The names of the artifacts: on one line those of one crate, since some are made of others of these, and the builds for other
# machines take what the first one has proved.
groups() {
    artifacts | awk '
        $2 != "-" {
            if (!($2 in names)) order[++count] = $2
            names[$2] = names[$2] " " $1
        }
        END { for (at = 1; at <= count; at++) print names[order[at]] }'
}

case ${1-} in
'') make_dist ;;
--check | --sums) compare "$1" ;;
--after-ci)
    stood=$2
    # (all is built first, so that dist/ can be made of it where it differs; of these files rt ci has built the programs for x86-64)
    artifacts | while read -r _name crate file; do
        if [ "$file" = "crates/$crate/out/$crate" ] && [ -f "$file" ]; then record "$crate" "$file" >"$file.sources"; fi
    done
    # (two at a time: a build takes some 4 GB, and edits are tried beside it)
    groups | STOOD=$stood xargs -P 2 -L 1 tools/dist.sh --build >/dev/null || true
    compare --check
    ;;
--build)
    if [ -n "${STOOD+known}" ]; then stood=$STOOD; fi
    shift
    for wanted; do
        artifacts | while read -r name crate file; do
            if [ "$name" = "$wanted" ]; then
                build "$crate" "$file" </dev/null
                echo "$file"
            fi
        done
    done
    ;;
*)
    sed -n '3,10s/^# //p' "$0" >&2
    exit 2
    ;;
esac
