# Lays out what bench.c, checks.c, pairs.c and BouncyCastle.java printed.
function row(what, ours, plain, unit) { printf "%-48s %8.2f %8.2f %-2s %7.2f\n", what, ours, plain, unit, ours / plain }
function work_row(what, work) { row(what, time[work, "ours"] / 1e6, time[work, plain] / 1e6, "ms") }

# A time of 0 says that the machine lacks the instructions.
function check_row(who) {
    if (time["check", who] == 0) { printf "%-48s not on this machine\n", who; return }
    printf "%-48s %8.2f %13d %10.2f %8.2f\n", who, time["check", who] / 1e6, \
        ratio("check", who, plain) * needed["check"] + 0.5, ratio("check", who, plain), ratio("check", who, "ours")
}
function pair_row(who) {
    if (time["make", who] == 0) { printf "%-34s not on this machine\n", who; return }
    printf "%-34s %7.0f %10.2f %7.2f   %7.0f %10.2f %7.2f\n", who, time["make", who] / 1e6, ratio("make", who, plain), \
        ratio("make", who, "ours"), time["sign", who] / 1e6, ratio("sign", who, plain), ratio("sign", who, "ours")
}
function ratio(work, who, other) { return time[work, who] / time[work, other] }

BEGIN {
    plain = "plain C, those compressions alone"
    printf "%-48s %8s %8s    %7s\n", "least of many runs", "ours", "plain C", "ratio"
}
$1 == "block" { row("a 64-byte block of SHA-256", $2 / 1025, $3 / 1025, "ns") }
$1 == "leaf" { row("a leaf, 4,486 compressions", $2 / 1e6, $3 / 1e6, "ms") }
$1 == "needed" { needed[$2] = $3 }
$1 ~ /^(check|make|sign)$/ {
    who = substr($0, length($1 $2) + 3)
    if ($1 == "check") names[++contenders] = who
    time[$1, who] = $2
}
$1 == "note" { notes = notes substr($0, 6) "\n" }
END {
    work_row(sprintf("making a key pair, %.2f million compressions", needed["make"] / 1e6), "make")
    work_row(sprintf("signing, %.2f million compressions", needed["sign"] / 1e6), "sign")
    work_row(sprintf("a check of type 1, %d compressions", needed["check"] + 0.5), "check")
    printf "\n%-48s %8s %13s %10s %8s\n", "", "", "compressions", "ratio", "ratio"
    printf "%-48s %8s %13s %10s %8s\n", "a check of type 1, mean of 16 signatures", "ms", "of plain C", "to plain C", "to ours"
    for (i = 1; i <= contenders; i++) check_row(names[i])
    printf "\n%-34s %7s %10s %7s   %7s %10s %7s\n", "", "making", "ratio", "ratio", "signing", "ratio", "ratio"
    printf "%-34s %7s %10s %7s   %7s %10s %7s\n", "a key pair of type 1", "ms", "to plain C", "to ours", "ms", "to plain C", "to ours"
    for (i = 1; i <= contenders; i++) pair_row(names[i])
    printf "\n%sopenssl speed, %s SHA instructions: %.1f ns a block\n", notes, instructions, 64e9 / rate
}
