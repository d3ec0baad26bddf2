# flat.awk: takes x86-64 out of the module of the proved archive. It reads the module as text and writes it with these changes, and no other:
#
#   - the layout and the name of the machine are left out, and so is the name of the processor in the functions' attributes
#   - a structure of two numbers or pointers is loaded in two parts, which stand where x86-64 has them: other machines may lay it out otherwise
#   - the C functions become internal, and a flat function is added for each:
#
#         void bulgefs_flat_NAME(RESULT *answer, ...)
#
#     Its other arguments are pointers and whole numbers, which every C convention hands over alike. shim.awk writes the C form above it.
#
# For each C function it also writes a comment `; call NAME RESULT ARGUMENT...`, to be held against the header.
# It stops at anything that could mean something else on another machine and that nobody has looked at.
#
# -v CALLS='NAME NAME' gives flat functions to these calls alone; the compiler then drops what they do not need.
# -v ADD='WORDS' adds attributes to every function; -v PROBES=no takes the stack probes out, for a machine that has its own.
# Usage: awk [-v CALLS=...] [-v ADD=...] [-v PROBES=no] -f flat.awk module.ll
function bad(why) {
    print "flat.awk: " why > "/dev/stderr"
    broken = 1
    exit 1
}

BEGIN {
    bytes["i8"] = 1
    bytes["i32"] = 4
    bytes["i64"] = bytes["ptr"] = 8
    for (i = split(CALLS, chosen, " "); i > 0; i--) wanted[chosen[i]] = 1
}

/^target (datalayout|triple) = / { next }

/^attributes #[0-9]+ = / {
    ours = sub(/ "target-cpu"="x86-64"/, "")
    if (/"target-|"tune-cpu"/) bad("another attribute of a machine: " $0)
    if (ours && ADD != "" && !sub(/ nounwind/, " nounwind " ADD)) bad("attributes of another form: " $0)
    if (ours && PROBES == "no" && !sub(/ "probe-stack"="inline-asm"/, "")) bad("attributes of another form: " $0)
    attributed += ours
    print
    next
}

# The arguments of a function without their names and attributes: "ptr i64".
function types(arguments, i, n, parts, line) {
    n = split(arguments, parts, /, /)
    for (i = 1; i <= n; i++) {
        sub(/ .*/, "", parts[i])
        line = line " " parts[i]
    }
    return line
}

function flat(type, name, arguments, short, given, comma) {
    short = name
    sub(/^bulgefs_/, "", short)
    given = arguments
    gsub(/ (noundef|noalias|nonnull|zeroext|writable|nocapture|readonly|align [0-9]+|dereferenceable\([0-9]+\))/, "", given)
    packed = type
    gsub(/ /, "", packed)
    print "; call " name " " packed types(arguments)
    if (CALLS != "" && !(short in wanted)) return
    delete wanted[short]
    comma = arguments == "" ? "" : ", "
    if (type == "ptr")
        added = added "\ndefine hidden void @bulgefs_flat_" short "(" arguments ") #0 {\n" \
            "  %r = call ptr @" name "(" given ")\n  ret void\n}\n"
    else
        added = added "\ndefine hidden void @bulgefs_flat_" short "(ptr noundef %answer" comma arguments ") #0 {\n" \
            "  %r = call " type " @" name "(" given ")\n  store " type " %r, ptr %answer, align 4\n  ret void\n}\n"
}

/^define / && !/^define internal / {
    line = substr($0, length("define ") + 1)
    at = index(line, " @")
    open = index(line, "(")
    shut = index(line, ") #")
    if (!at || !open || !shut) bad("a function of another form: " $0)
    type = substr(line, 1, at - 1)
    sub(/^noundef /, "", type)
    name = substr(line, at + 2, open - at - 2)
    arguments = substr(line, open + 1, shut - open - 1)
    if (name !~ /^bulgefs_[a-z_]+$/) bad("a function of another name: " name)
    if (arguments ~ /[{\[<]|byval|sret|float|double/) bad("an argument that is not flat: " $0)
    if (type !~ /^(i32|i64|ptr|\{ i64, i32 \}|\{ i64, i64 \})$/) bad("another result: " $0)
    flat(type, name, arguments)
    count++
    print "define internal " line
    next
}

/^define internal / { print; next }

# "  %r = load { T, U }, ptr %p, align A", word by word.
/^  %[a-z0-9.]+ = load \{ [a-z0-9]+, [a-z0-9]+ \}, ptr %[a-z0-9.]+, align [0-9]+$/ {
    type = "{ " $5 " " $6 " }"
    sub(/,$/, "", $5)
    sub(/,$/, "", $9)
    if (!($5 in bytes) || !($6 in bytes)) bad("a structure of other parts: " $0)
    at = bytes[$6] > bytes[$5] ? bytes[$6] : bytes[$5]
    print "  " $1 ".first = load " $5 ", ptr " $9 ", align " $11
    print "  " $1 ".place = getelementptr i8, ptr " $9 ", i64 " at
    print "  " $1 ".second = load " $6 ", ptr " $1 ".place, align " ($11 < at ? $11 : at)
    print "  " $1 ".half = insertvalue " type " poison, " $5 " " $1 ".first, 0"
    print "  " $1 " = insertvalue " type " " $1 ".half, " $6 " " $1 ".second, 1"
    next
}

# A constant of single bytes is the same on every machine.
/^@static\.[0-9]+ = private unnamed_addr constant \[[0-9]+ x i8\] (c"[^"]*"|zeroinitializer), align 1$/ { print; next }

/^(@|%|module asm)/ || /ptrtoint|ptrtoaddr|inttoptr|addrspace| asm |thread_local|byval|sret|(load|store|alloca|getelementptr) [^,]*\{/ { bad("nobody has looked at this on another machine: " $0) }

{ print }

END {
    if (broken) exit 1
    if (!attributed || !count) bad("this is not the module of the archive")
    for (name in wanted) bad("the module has no call " name)
    if (!broken) printf "%s", added
}
