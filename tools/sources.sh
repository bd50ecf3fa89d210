#!/bin/sh
# Prints one checksum over all that the program or library of a crate is built from: the lines of crates.txt that name the
# crate and those below it, and the names and contents of the files in their src/ and specs/. A change of a proof, or of a
# crate of tests, changes no program. What is built for aarch64, as a FILE in a folder of that name, is also built from
# tools/aarch64/.
# usage: tools/sources.sh CRATE [FILE]
set -eu
export LC_ALL=C
unset CDPATH
cd "$(dirname "$0")/.."

# The lines of the crate and of those below it, as 'NAME: DEP DEP ..' without comments.
lines() {
    awk -v top="$1" '
        { sub(/#.*/, ""); $1 = $1; at = index($0, ":") }
        at { split(substr($0, 1, at - 1), words, " "); below[words[1]] = substr($0, at + 1); line[words[1]] = $0 }
        END {
            crates[1] = top
            is_found[top] = 1
            for (count = 1; at = crates[count]; count++) {
                if (!(at in line)) { print "crates.txt lists no crate " at > "/dev/stderr"; exit 1 }
                print line[at]
                number = split(below[at], deps, " ")
                for (i = 1; i <= number; i++)
                    if (deps[i] in line && !(deps[i] in is_found)) { is_found[deps[i]] = 1; crates[++last + 1] = deps[i] }
            }
        }' crates.txt
}

listed=$(lines "$1" | sort)
[ -n "$listed" ]
# (each crate has a src/, and most a specs/)
folders=$(printf '%s\n' "$listed" | sed 's/[ :].*//; s/.*/crates\/&\/src crates\/&\/specs/')
case ${2-} in
*/aarch64/*) folders="$folders tools/aarch64" ;;
esac
# shellcheck disable=SC2086
{
    printf '%s\n' "$listed"
    find $folders -type f 2>/dev/null | sort | xargs sha256sum
} | sha256sum | cut -d ' ' -f 1
