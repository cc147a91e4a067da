#!/bin/sh
# Runs the program replay over traces, and leaves what it prints of NAME.trace in DIRECTORY/NAME.printed. This is held, byte
# for byte, to what its twin prints; and if NAME.out stands beside the trace, both to that, and replay once more over a pipe
# that takes seven bytes at a time.
# Usage: replay.sh DIRECTORY REPLAY TWIN TRACE..; each program is given with the words that run it
set -eu
directory=$1
replay=$2
twin=$3
shift 3

all=
for trace; do
    name=$directory/$(basename "$trace" .trace)
    expected=${trace%.trace}.out
    $replay <"$trace" >"$name.printed"
    $twin <"$trace" | cmp - "$name.printed"
    if [ -e "$expected" ]; then
        cmp "$expected" "$name.printed"
        dd bs=7 status=none <"$trace" | $replay | cmp "$expected" -
    fi
    all="$all $name.printed"
done

# shellcheck disable=SC2086 # the list is split into names on purpose
cat $all | awk -v traces=$# -F '\t' '
    $1 == "total" { next }
    { count[$2]++ }
    $2 == "address" && $4 != "0" && $5 == "0" { hits++ }
    END {
        printf "traces: %d of them, %d lines agree: %d addresses, %d of them hits, %d faults, %d refused, %d done, %d bad\n",
            traces, NR - traces, count["address"], hits, count["fault"], count["refused"], count["done"], count["bad"]
        exit !(hits > 0 && count["fault"] > 0 && count["refused"] > 0 && count["done"] > 0 && count["bad"] > 0)
    }'
