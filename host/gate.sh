#!/bin/sh
# Proves every crate, tries the edits that must be refused, and runs every program; fails where rt does, and where an edit could not be tried.
# rt's last line, 'N passed, M failed', comes last.
set -u

mkdir -p target
{ rt ci 2>&1; echo "$?" >target/gate.status; } | tee target/gate.log
[ "$(cat target/gate.status)" = 0 ] || exit 1
if grep '^rt: ok' target/gate.log | grep -Eq '[1-9][0-9]* bad'; then
    echo "an edit in must-fail/ could not be tried" >&2
    exit 1
fi
