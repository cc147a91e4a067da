# What `replay` prints of the recorded sequences, held to what is recorded: awk -f sequences.awk sequences.txt PRINTED
# A recorded translation has its result after "=", the entries read left out; every other line is done.
BEGIN { FS = "\t" }

function wrong(line) {
    if (failed++ == 0)
        print "line " line ": expected " expected[line] ", came " $0
}

/^#/ { next }

NR == FNR && $(NF - 1) != "=" {
    expected[++lines] = "done\t0\t0"
    next
}

NR == FNR {
    split($NF, result, " ")
    expected[++lines] = result[1] "\t" result[2] "\t" (result[1] == "address" ? result[3] : 0)
    words[result[1]]++
    next
}

FNR <= lines {
    if ($1 "\t" $2 "\t" $3 "\t" $4 != sprintf("%x\t", FNR) expected[FNR])
        wrong(FNR)
    hits += $2 == "address" && $4 != "0" && $5 == "0"
    next
}

{
    expected[FNR] = sprintf("total\t%x\t%x\t%x\t%x", words["address"], hits, words["fault"], words["refused"])
    if (FNR != lines + 1 || $0 != expected[FNR])
        wrong(FNR)
    totals++
}

END {
    if (totals != 1)
        failed++
    printf "replayed sequences: %d lines, %d addresses, %d of them hits, %d faults; %d failed\n", lines, words["address"], hits,
        words["fault"], failed
    exit failed != 0 || hits == 0
}
