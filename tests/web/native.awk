# Writes a C program from what ports/declared.awk says of the header. The program reads calls from standard input, makes them, and writes for each the
# fields of its answer and then every buffer that the call may change.
#
# A call is its number among the calls of the header (4 bytes) and its arguments in order: a number as 8 bytes, a buffer as its length in bytes (4 bytes) and
# its bytes, a UUID and a position as their bytes. A field of an answer is 8 bytes. All numbers have the lowest byte first.
BEGIN {
    FS = "\t"
    print "#include \"bulgefs.h\"\n#include <stdio.h>\n#include <stdlib.h>\n#include <string.h>\n"
    print "typedef struct { uint8_t *at; size_t length; } run;"
    print "static void take(void *to, size_t n) { if (n && fread(to, 1, n, stdin) != n) exit(2); }"
    print "static void give(const void *from, size_t n) { if (n && fwrite(from, 1, n, stdout) != n) exit(2); }"
    print "static uint64_t take_number(void) { uint64_t v; take(&v, sizeof v); return v; }"
    print "static void give_number(uint64_t v) { give(&v, sizeof v); }"
    print "static run take_run(void) { run r; uint32_t n; take(&n, sizeof n); r.length = n; r.at = malloc(n + 1u); if (!r.at) exit(2); take(r.at, n); return r; }\n"
}

$1 == "struct" {
    name = $2
    fields[name] = ""
    for (i = 3; i < NF; i += 2) if ($(i + 1) !~ /\[/) fields[name] = fields[name] " give_number(r." $(i + 1) ");"
    next
}

$1 == "call" {
    takes = ""; words = ""; gives = ""; frees = ""
    for (i = 4; i < NF; i += 2) {
        type = $i
        name = "a_" $(i + 1)
        if (type ~ /^(const )?uint(8|32)_t \*$/) {
            element = type
            sub(/^const /, "", element)
            sub(/ \*$/, "", element)
            takes = takes " run " name " = take_run();"
            words = words sep(words) "(" element " *)" name ".at, " name ".length / sizeof(" element ")"
            if (type !~ /^const/) gives = gives " give(" name ".at, " name ".length);"
            frees = frees " free(" name ".at);"
            i += 2
        } else if (type == "uint64_t *") {
            takes = takes " uint64_t " name " = take_number();"
            words = words sep(words) "&" name
            gives = gives " give_number(" name ");"
        } else if (type == "bulgefs_uuid") {
            takes = takes " bulgefs_uuid " name "; take(&" name ", sizeof " name ");"
            words = words sep(words) name
        } else {
            takes = takes " uint64_t " name " = take_number();"
            words = words sep(words) "(" type ")" name
        }
    }
    answer = ($3 in fields) ? fields[$3] : " give_number(r);"
    printf "static void call_%d(void) {%s %s r = %s(%s);%s%s%s }\n", calls++, takes, $3, $2, words, answer, gives, frees
    next
}

function sep(text) { return text == "" ? "" : ", " }

END {
    printf "\nint main(void)\n{\n    static void (*const calls[])(void) = {"
    for (i = 0; i < calls; i++) printf "%scall_%d", i ? ", " : "", i
    print "};\n    uint32_t n;"
    print "    while (fread(&n, 1, sizeof n, stdin) == sizeof n) {\n        if (n >= sizeof calls / sizeof *calls) return 2;\n        calls[n]();\n    }"
    print "    return fflush(stdout) == 0 ? 0 : 2;\n}"
}
