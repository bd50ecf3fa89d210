#!/bin/sh
# Runs the page in Chromium without a window, and keeps screenshots in web/out/. Where Chromium or node isn't installed, it says
# so and ends with 77, as what isn't run does.
# usage: web/test.sh [--install]   --install installs Debian's chromium where it is missing
set -eu
unset CDPATH
cd "$(dirname "$0")/.."

if [ "${1-}" = --install ] && ! command -v chromium >/dev/null; then
    apt-get update >&2
    DEBIAN_FRONTEND=noninteractive apt-get install -y --no-install-recommends chromium fonts-noto-core fonts-noto-mono >&2
elif [ $# -gt 0 ] && [ "$1" != --install ]; then
    sed -n 's/^# usage: /usage: /p' "$0" >&2
    exit 2
fi
for program in node "${CHROMIUM:-chromium}"; do
    if ! command -v "$program" >/dev/null; then
        echo "$program isn't installed; web/test.sh --install installs chromium where it is missing"
        exit 77
    fi
done
exec node web/test/browser.mjs
