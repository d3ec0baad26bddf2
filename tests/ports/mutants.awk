# mutants.awk: writes the C form of shim.awk again, with single faults in it that a number `mutant` chooses while it runs; 0 is none. Each argument that is
# handed on, each field of an answer and each call has some. For each fault a line `NUMBER CALL WHAT` goes to the file LIST.
# Usage: awk -f declared.awk bulgefs.h >DECLARED; awk -f shim.awk DECLARED >SHIM; awk -v LIST=FILE -f mutants.awk DECLARED SHIM
function fault(what) {
    count++
    print count, name, what > LIST
    return count
}

# The faults of a whole number: it is another one.
function other(expression, what) {
    return "(mutant == " fault(what " and 1") " ? (" expression ") + 1 : mutant == " fault(what " is 0") " ? 0 : " expression ")"
}

# And of one that is handed on: it is cut. Only a length of more than 4 GiB is seen to be cut to 32 bits, so that is left out.
function cut(type, expression, what, line) {
    line = other(expression, what)
    if (type == "uint8_t") return "(mutant == " fault(what " without its highest bit") " ? (" expression ") & 127 : " line ")"
    line = "mutant == " fault(what " cut to 8 bits") " ? (uint8_t)(" expression ") : " line
    if (type == "uint64_t") line = "mutant == " fault(what " cut to 32 bits") " ? (uint32_t)(" expression ") : " line
    return "(" line ")"
}

function moved(expression, what) {
    return "(mutant == " fault(what " at the next address") " ? " expression " + 1 : " expression ")"
}

# The arguments of the flat call, each with its faults, and each two of one type exchanged that are neighbours or have one between them.
function call(text, i, n, types, parts, line, out, swapped) {
    n = split(text, parts, /, /)
    split(flat_types, types, /, /)
    line = parts[1]
    for (i = 2; i <= n; i++) {
        out[i] = types[i] ~ /\*$/ ? moved(parts[i], parts[i]) : cut(types[i] == "uint64_t" && parts[i] ~ /_len$/ ? "size" : types[i], parts[i], parts[i])
    }
    for (i = 2; i < n; i++) if (types[i] == types[i + 1]) {
        swapped = fault(parts[i] " and " parts[i + 1] " exchanged")
        out[i] = "(mutant == " swapped " ? " parts[i + 1] " : " out[i] ")"
        out[i + 1] = "(mutant == " swapped " ? " parts[i] " : " out[i + 1] ")"
    }
    for (i = 2; i < n - 1; i++) if (types[i] == types[i + 2]) {
        swapped = fault(parts[i] " and " parts[i + 2] " exchanged")
        out[i] = "(mutant == " swapped " ? " parts[i + 2] " : " out[i] ")"
        out[i + 2] = "(mutant == " swapped " ? " parts[i] " : " out[i + 2] ")"
    }
    for (i = 2; i <= n; i++) line = line ", " out[i]
    return line
}

# The faults of an answer.
function answer(i, value, last) {
    if (result in fields) {
        value = split(fields[result], names, " ")
        split(kinds[result], types, " ")
        for (i = 1; i <= value; i++) {
            print "    answer.value." names[i] " = (" types[i] ")" other("answer.value." names[i], "answer." names[i]) ";"
            if (i > 1 && types[i] == types[i - 1]) print "    if (mutant == " fault("answer." names[i - 1] " and answer." names[i] " exchanged") ") { " types[i] \
                " kept = answer.value." names[i] "; answer.value." names[i] " = answer.value." names[i - 1] "; answer.value." names[i - 1] " = kept; }"
        }
    } else print "    answer.value = (" result ")" other("answer.value", "the answer") ";"
}

FNR == NR {
    n = split($0, part, "\t")
    if (part[1] == "struct") for (i = 3; i < n; i += 2) if (part[i + 1] !~ /\[/) {
        fields[part[2]] = fields[part[2]] part[i + 1] " "
        kinds[part[2]] = kinds[part[2]] part[i] " "
    }
    next
}

/^#include "bulgefs.h"/ { print; print "extern int mutant;"; next }

/^__attribute__/ {
    name = $0
    sub(/^.*bulgefs_flat_/, "", name)
    sub(/\(.*/, "", name)
    flat_types = $0
    sub(/^[^;]*bulgefs_flat_[a-z_]*\(/, "", flat_types)
    sub(/\);$/, "", flat_types)
    print
    next
}

/^    union \{ .* value; uint8_t room/ {
    result = $3
    print
    print "    for (unsigned i = 0; i < sizeof answer.room; i++) answer.room[i] = 0;"
    next
}

/^    bulgefs_flat_/ {
    text = $0
    sub(/^[^(]*\(/, "", text)
    sub(/\);$/, "", text)
    print "    if (mutant != " fault("not called") ") bulgefs_flat_" name "(" call(text) ");"
    answer()
    next
}

{ print }
