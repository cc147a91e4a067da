#!/bin/sh
# Executed instructions of each operation: the archive's, plain C's, and their ratio; of a batch also by the number of its
# pairs. Then those of a line of a trace: of the program replay, and of its twin over the plain C.
# Usage: run.sh DIRECTORY-OF-PROGRAMS REPLAY
# Counted: a loop of 2000 less one of 1000, by a thousand, less the same with calls that only return (two instructions,
# added again). So a number is what the call executes from its first instruction to its return, memset included. From some
# length on the C library's memset would be one repeated instruction, which counts once a byte: it is told to go on by stores.
# Of a line: a trace with 10,000 such lines less the trace without them, by ten thousand: reading, the call and printing.
set -eu
programs=$1
replay=$2

total() { # program, its words
    INSTRUCTIONS="$programs/instructions" qemu-x86_64 -L /usr/x86_64-linux-gnu \
        -E GLIBC_TUNABLES=glibc.cpu.x86_rep_stosb_threshold=0x100000 -plugin "$programs/libcount.so" "$@" \
        >"$programs/printed" || { cat "$programs/printed" >&2; exit 1; }
    cat "$programs/instructions"
}

count() { # program, operation
    program=$programs/$1
    call=$(($(total "$program" "$2" 2000 call) - $(total "$program" "$2" 1000 call)))
    empty=$(($(total "$program" "$2" 2000 empty) - $(total "$program" "$2" 1000 empty)))
    echo $(((call - empty) / 1000 + 2))
}

count_line() { # program
    before=$(total "$1" <"$programs/before.trace")
    all=$(total "$1" <"$programs/all.trace")
    echo $(((all - before) / 10000))
}

row() { # title, archive, plain C, pairs
    echo "$2 $3 $4" | awk -v title="$1" '{
        printf "%-34s %9d %8d %6.2f", title, $1, $2, $1 / $2
        if ($3 > 0) printf " %9.1f %8.1f", $1 / $3, $2 / $3
        print ""
    }'
}

# A guest with sixteen pages of 4 KiB, all of them held.
trace_before() {
    printf 'S\t28\nP\t1888\t2003\nP\t2000\t3003\nP\t3000\t4003\n'
    for page in 0 1 2 3 4 5 6 7 8 9 a b c d e f; do
        printf 'P\t%x\t3f00%s063\n' $((0x4000 + 8 * 0x$page)) $page
    done
    printf 'C\t1000\nM\t17\n'
    for page in 0 1 2 3 4 5 6 7 8 9 a b c d e f; do
        printf 'T\t0\tffff88800000%s000\n' $page
    done
}

trace_row() { # title, the line's number among 10,000 to the line, in awk; addresses and hits in all, in hex
    trace_before >"$programs/before.trace"
    { cat "$programs/before.trace"; awk "BEGIN { for (i = 0; i < 10000; i++) $2 }"; } >"$programs/all.trace"
    of_replay=$(count_line "$replay")
    mv "$programs/printed" "$programs/replayed"
    of_twin=$(count_line "$programs/twin-baseline")
    cmp "$programs/replayed" "$programs/printed"
    tail -n 1 "$programs/printed" | grep -q "^total.$3.$4.0.0$"
    row "$1" "$of_replay" "$of_twin" 0
}

echo "instructions                         archive  plain C  ratio   archive  plain C a pair"
number=0
qemu-x86_64 "$programs/bench-archive" | while read -r pairs title; do
    archive=$(count bench-archive $number)
    plain=$(count bench-baseline $number)
    row "$title" "$archive" "$plain" "$pairs"
    number=$((number + 1))
done

echo "instructions of a line                replay  plain C  ratio"
trace_row "trace: a hit, 4 KiB" 'printf "T\t0\tffff88800000%x%03x\n", i % 16, i * 37 % 4096' 2720 2710
trace_row "trace: a store" 'printf "P\t%x\t80000000%05x063\n", 32768 + i * 8 % 16384, i' 10 0
trace_row "trace: a bad line" 'printf "T\t0 ffff88800000%x%03x\n", i % 16, i * 37 % 4096' 10 0
