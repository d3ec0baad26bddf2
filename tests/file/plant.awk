# plant.awk: prints a file of the layer with one fault of planted.txt in it.
# Usage: awk -v FAULT=NUMBER -f plant.awk planted.txt FILE; with -v LIST=yes and planted.txt alone it prints `NUMBER FILE NAME` of each.
function bad(why) {
    print "plant.awk: fault " FAULT ": " why > "/dev/stderr"
    broken = 1
    exit 1
}

function added(text, line) {
    return text line "\n"
}

FNR == NR {
    if (sub(/^fault: /, "")) { count++; if (LIST == "yes") name = $0 }
    else if (sub(/^file: /, "") && LIST == "yes") print count, $0, name
    else if (count != FAULT) next
    else if ($0 == "new:") next
    else if (sub(/^old: /, "")) old = added(old, $0)
    else if (sub(/^new: /, "")) new = added(new, $0)
    next
}

{ source = added(source, $0) }

END {
    if (broken || LIST == "yes") exit broken
    if (old == "") bad("it has no old text")
    at = index(source, old)
    if (!at) bad("its old text does not stand there")
    rest = substr(source, at + length(old))
    if (index(rest, old)) bad("its old text stands there twice")
    printf "%s%s%s", substr(source, 1, at - 1), new, rest
}
