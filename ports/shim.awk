# shim.awk: writes the C form of the calls for a machine other than x86-64 Linux, from what declared.awk prints.
#
# The proved code has a flat function for each call (flat.awk): the answer goes through a pointer, and all else is pointers and whole numbers. Every C
# convention hands these over alike, so that no rule about structures is met. Each function written here hands its arguments on as they are and gives
# the answer back; it decides nothing.
#
# -v CALLS='NAME NAME' writes these calls alone. -v SIGNATURES=yes writes no C but a line `NAME RESULT ARGUMENT...` for each call, in the words of LLVM
# on x86-64, to be held against the module's own.
# Usage: awk -f declared.awk bulgefs.h | awk [-v CALLS=...] [-v SIGNATURES=yes] -f shim.awk
function bad(why) {
    print "shim.awk: " why > "/dev/stderr"
    broken = 1
    exit 1
}

BEGIN {
    FS = "\t"
    size["uint8_t"] = 1
    size["uint32_t"] = 4
    size["uint64_t"] = 8
    for (i = split(CALLS, chosen, " "); i > 0; i--) wanted[chosen[i]] = 1
    if (SIGNATURES != "yes") {
        print "/* Written by ports/shim.awk from include/bulgefs.h: the C form of the proved functions of this archive. */"
        print "#include \"bulgefs.h\"\n"
        print "/* The proved code writes structures as x86-64 lays them out, and so does the compiler of this file, or it stops here. */"
        print "#define HOLDS(name, what) typedef char name##_is_laid_out_alike[(what) ? 1 : -1]"
        print "#if defined(BULGEFS_UNSERVED)\n#define SIZE(type, size) (sizeof(type) <= size)\n#else\n#define SIZE(type, size) (sizeof(type) == size)\n#endif"
        print "HOLDS(size, sizeof(size_t) <= sizeof(uint64_t));"
    }
}

# Where x86-64 puts each field: at the next multiple of its size.
$1 == "struct" {
    at = 0
    most = 1
    holds = ""
    for (i = 3; i < NF; i += 2) {
        field = $(i + 1)
        count = 1
        if (match(field, /\[[0-9]+\]/)) {
            count = substr(field, RSTART + 1, RLENGTH - 2)
            field = substr(field, 1, RSTART - 1)
        }
        one = size[$i]
        if (!one) bad("the field " field " of " $2 " is of another type: " $i)
        if (one > most) most = one
        at = one * int((at + one - 1) / one)
        holds = holds "\n    && offsetof(" $2 ", " field ") == " at
        at += one * count
    }
    size[$2] = most * int((at + most - 1) / most)
    if (SIGNATURES != "yes") print "HOLDS(" $2 ", SIZE(" $2 ", " size[$2] ")" holds ");"
    next
}

# The result as x86-64 returns it: in one register, in two, or through a pointer.
function returned(bytes) {
    if (bytes == 4) return "i32"
    if (bytes == 8) return "i64"
    if (bytes == 12) return "{i64,i32}"
    if (bytes == 16) return "{i64,i64}"
    return "ptr"
}

function signature(i, line) {
    line = $2 " " returned(size[$3])
    if (returned(size[$3]) == "ptr") line = line " ptr"
    for (i = 4; i < NF; i += 2) {
        if ($i ~ /\*$/) line = line " ptr"
        else if ($i == "size_t") line = line " i64"
        else if ($i == "bulgefs_uuid") line = line " i64 i64"
        else line = line " i" 8 * size[$i]
    }
    return line
}

$1 == "call" {
    name = $2
    sub(/^bulgefs_/, "", name)
    if (CALLS != "" && !(name in wanted)) next
    delete wanted[name]
    if (!size[$3]) bad($2 " gives back another type: " $3)
    asked = flat = given = before = ""
    for (i = 4; i < NF; i += 2) {
        space = $i ~ /\*$/ ? "" : " "
        asked = asked (i > 4 ? ", " : "") $i space $(i + 1)
        if ($i == "bulgefs_uuid") {
            flat = flat ", uint64_t, uint64_t"
            given = given ", halves.as[0], halves.as[1]"
            before = before "    union { bulgefs_uuid bytes; uint64_t as[2]; } halves;\n    halves.bytes = " $(i + 1) ";\n"
        } else if ($i == "size_t") {
            flat = flat ", uint64_t"
            given = given ", " $(i + 1)
        } else if ($i ~ /^(const )?uint(8|32|64)_t( \*)?$/) {
            flat = flat ", " $i
            given = given ", " $(i + 1)
        } else bad($2 " takes another type: " $i)
    }
    if (SIGNATURES == "yes") { print signature(); next }
    print ""
    print "__attribute__((visibility(\"hidden\"))) void bulgefs_flat_" name "(" $3 " *" flat ");"
    print $3 " " $2 "(" (asked == "" ? "void" : asked) ")\n{"
    print "    union { " $3 " value; uint8_t room[" size[$3] "]; } answer;"
    printf "%s", before
    print "    bulgefs_flat_" name "(&answer.value" given ");"
    print "    return answer.value;\n}"
    next
}

END {
    if (broken) exit 1
    for (name in wanted) bad("the header has no call " name)
}
