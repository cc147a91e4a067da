#!/bin/sh
# Sees to the tools that the C side needs beside gcc and make. What is missing is installed if that can be done, or named.
# Usage: tools.sh [bench]
set -eu

missing=
need() { # a command or file that must be there, and the Debian package that has it
    command -v "$1" >/dev/null || [ -e "$1" ] || missing="$missing $2"
}

need xz xz-utils
need pkg-config pkg-config
if [ "$(uname -m)" = x86_64 ]; then
    need g++ g++
    [ "${1:-}" != bench ] || need qemu-x86_64 qemu-user # counting is done under it everywhere
else
    need x86_64-linux-gnu-gcc gcc-x86-64-linux-gnu
    need x86_64-linux-gnu-g++ g++-x86-64-linux-gnu
    need /usr/x86_64-linux-gnu/lib/libc.a libc6-dev-amd64-cross
    need qemu-x86_64 qemu-user
fi
[ -n "$missing" ] || exit 0

if [ "$(id -u)" != 0 ] || ! command -v apt-get >/dev/null; then
    echo "missing, to be installed first (names of Debian packages):$missing" >&2
    exit 1
fi
echo "installing:$missing"
export DEBIAN_FRONTEND=noninteractive
# shellcheck disable=SC2086 # the list is split into names on purpose
apt-get install -y --no-install-recommends $missing >/dev/null 2>&1 ||
    { apt-get update >/dev/null && apt-get install -y --no-install-recommends $missing >/dev/null; } ||
    { echo "could not be installed:$missing" >&2; exit 1; }
