#!/bin/sh
# Runs a program of the repository: the one in dist/ for this machine, where that is of the sources that stand here and has its
# checksum, or else one that was built here of them. Else it is proved and built first, which is said before.
#
# Checksums that were found right are taken again only after a file has changed: a record in the user's cache has the names,
# inodes, sizes and times of all files that they depend on. The time of a file's last change (ctime) can't be set, so it shows a
# change even where the size and the time of modification are as they were.
# usage: tools/launch.sh NAME ARGUMENT..
set -eu
unset CDPATH
root=$(cd -P "${0%/*}/.." && pwd)
name=$1
shift

# Another machine may share the files and not run the same program, so a record is of one system since its start.
boot=
{ read -r boot </proc/sys/kernel/random/boot_id; } 2>/dev/null || true
cache=${XDG_CACHE_HOME:-${HOME:+$HOME/.cache}}
case $boot:$cache in
?*:/*) record=$cache/cimaroly/launch$root/$name ;;
*) record= ;;
esac

# How all that the checksums depend on stands now: behind the system, a line for each file and folder. For a subshell alone.
stamp() {
    printf '%s\n' "$boot"
    cd "$root" && exec find -H /lib64/ld-linux-x86-64.so.2 /lib/ld-linux-aarch64.so.1 crates.txt crates/*/src crates/*/specs \
        crates/*/out/"$name" crates/*/out/"$name.sources" crates/*/out/aarch64/"$name" crates/*/out/aarch64/"$name.sources" \
        dist/*/"$name" dist/SOURCES dist/SHA256SUMS tools/launch.sh tools/sources.sh tools/artifacts.txt tools/aarch64 \
        -printf '%C@ %T@ %s %i %D %m %y %p\n' 2>/dev/null
}

# A record is the program, and how all stood when it was found right.
if [ -f "$record" ] && [ -O "$record" ]; then
    program=
    read -r program <"$record" || true
    if { printf '%s\n' "$program" && stamp; } | cmp -s - "$record"; then exec "$root/$program" "$@"; fi
fi

start=$(date +%s)
before=$(stamp) || true

case $(uname -sm) in
"Linux x86_64") shipped=x86_64-linux/$name ;;
"Linux aarch64") shipped=aarch64-linux/$name ;;
*)
    echo "$name: there are programs for Linux on x86-64 and on aarch64, and this is $(uname -sm). The page reads certificates on" \
        "any machine: python3 -m http.server -d web, then open http://localhost:8000" >&2
    exit 126
    ;;
esac

# Records a program that was found right, unless something changed a second or two before it was looked for: what changes twice
# within a tick of the clock may have one time for both.
keep() {
    newest=$(printf '%s\n' "$before" | awk 'NR > 1 && $1 > newest { newest = $1 } END { printf "%.0f", int(newest) }')
    folder=${record%/*}
    if [ -n "$record" ] && [ "$newest" -gt 0 ] && [ "$newest" -le $((start - 2)) ] && (umask 077 && mkdir -p "$folder") &&
        [ -O "$folder" ] && new=$(mktemp "$record.XXXXXX"); then
        { printf '%s\n' "$1" "$before" >"$new" && mv -f "$new" "$record"; } || rm -f "$new"
    fi
} 2>/dev/null

sum() { sha256sum <"$1" | cut -d ' ' -f 1; }

# Whether a file has a line.
has() { [ -f "$1" ] && grep -qxF "$2" "$1"; }

# Without an argument each program only says how it is used.
runs() {
    case $("$1" 2>&1 </dev/null || true) in
    *[Uu]sage:\ "$name"*) return 0 ;;
    *) return 1 ;;
    esac
}

# shellcheck disable=SC2046
set -- $(sed -n "s,^$shipped \([^ ]*\) \(.*\),\1 \2,p" "$root/tools/artifacts.txt") "$@"
built=crates/$1/$2
sources=$("$root/tools/sources.sh" "$1" "$built")
shift 2
program=dist/$shipped

if ! has "$root/dist/SOURCES" "$sources  $shipped"; then
    why="dist/ has none of the sources that stand here"
elif ! { [ -f "$root/$program" ] && has "$root/dist/SHA256SUMS" "$(sum "$root/$program")  $shipped"; }; then
    why="$program doesn't have the checksum in dist/SHA256SUMS"
elif [ ! -x "$root/$program" ]; then
    why="$program isn't executable: chmod +x $program mends that"
elif ! runs "$root/$program"; then
    why="$program doesn't run on this machine, which may have an older processor or C library"
else
    keep "$program"
    exec "$root/$program" "$@"
fi
if ! { [ -f "$root/$built" ] && has "$root/$built.sources" "$sources $(sum "$root/$built")"; }; then
    echo "$name: $why. So it is proved and built first, from these sources, which can take an hour: a program is built only" \
        "of what is proved, and all libraries below it are proved anew. Later runs start at once." >&2
    "$root/tools/dist.sh" --build "$shipped" </dev/null >/dev/null || exit 126
fi
keep "$built"
exec "$root/$built" "$@"
