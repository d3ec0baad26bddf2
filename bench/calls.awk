# Makes a table of what bench/run has of every call, lines "now" or "before", the call and its microseconds: the least of each, and that over a check.
# With both=1 it has both archives side by side.
!($1 FS $2 in least) || $3 < least[$1 FS $2] { least[$1 FS $2] = $3 }
$1 == "now" && !($2 in met) { met[$2]; order[++kinds] = $2 }

function cells(when, call) {
    if (!(when FS call in least)) return " | |"
    return sprintf(" %.2f | %.2f |", least[when FS call], least[when FS call] - least[when FS "check"])
}

function ratio(call) {
    if (!("before" FS call in least)) return " |"
    return sprintf(" %.2f |", least["now" FS call] / least["before" FS call])
}

END {
    print both ? "| call | before | over | now | over | now / before |" : "| call | now | over |"
    print both ? "|---|--:|--:|--:|--:|--:|" : "|---|--:|--:|"
    for (i = 1; i <= kinds; i++)
        print "| " order[i] " |" (both ? cells("before", order[i]) : "") cells("now", order[i]) (both ? ratio(order[i]) : "")
}
