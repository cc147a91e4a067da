#!/bin/sh
# Has rt prove a crate and the crates below it, and build it: a static library, or a program, which is run on no input. Its proof is said in one line; if rt fails,
# everything that it has written is shown. What is built runs on every x86-64 processor; rt left to itself would build for x86-64-v2,
# which a static library doesn't check as it runs.
# Usage: prove.sh lib|run CRATE WHAT-IT-BUILDS WHERE-TO
set -u

mkdir -p target "$(dirname "$4")"
log=target/rt-$2.log
if (cd "crates/$2" && rt "$1" --cpu=x86-64 </dev/null 2>&1) >"$log" && cp "crates/$2/out/$3" "$4"; then
    echo "$2: $(grep '^logic=proved ' "$log" | tail -n 1)"
else
    cat "$log" >&2
    exit 1
fi
