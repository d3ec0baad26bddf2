# declared.awk: prints what bulgefs.h declares, one line for each structure and each call, in the header's order. The parts of a line are separated by
# tabs:
#
#   struct  NAME  TYPE  FIELD  TYPE  FIELD ...     a field that is an array has its length as FIELD[LENGTH]
#   call    NAME  RESULT  TYPE  PARAMETER  TYPE  PARAMETER ...
#
# With -v NAMES=yes it prints the names of the calls alone. Every list of calls that the ports and packages need is made from this one.
# Usage: awk [-v NAMES=yes] -f declared.awk bulgefs.h
function bad(why) {
    print "declared.awk: " why > "/dev/stderr"
    broken = 1
    exit 1
}

# The type of a declaration: all words but the last, with a `*` after them where there is one.
function type_of(words, type) {
    type = words
    sub(/[A-Za-z_0-9]+(\[[0-9]+\])?$/, "", type)
    sub(/ +$/, "", type)
    return type
}

function name_of(words, name) {
    name = words
    sub(/^.*[ *]/, "", name)
    return name
}

# "uint32_t number, slot; uint64_t time;" as "TYPE FIELD" pairs.
function fields(body, i, j, n, k, parts, names, type, line) {
    n = split(body, parts, ";")
    for (i = 1; i <= n; i++) {
        gsub(/^ +| +$/, "", parts[i])
        if (parts[i] == "") continue
        k = split(parts[i], names, / *, */)
        type = type_of(names[1])
        for (j = 1; j <= k; j++) line = line "\t" type "\t" name_of(names[j])
    }
    return line
}

function parameters(list, i, n, parts, line) {
    if (list == "void") return ""
    n = split(list, parts, / *, */)
    for (i = 1; i <= n; i++) line = line "\t" type_of(parts[i]) "\t" name_of(parts[i])
    return line
}

# One declaration without its semicolon, or a structure with its fields between braces.
function declaration(text, open, shut) {
    gsub(/[ \t\n]+/, " ", text)
    gsub(/^ | $/, "", text)
    sub(/^BULGEFS_CHECKED /, "", text)
    if (text ~ /^typedef struct \{.*\} bulgefs_[a-z_]+$/) {
        open = index(text, "{")
        shut = index(text, "}")
        if (NAMES != "yes") print "struct\t" name_of(text) fields(substr(text, open + 1, shut - open - 1))
    } else if (text ~ /^[a-z_0-9]+ bulgefs_[a-z_]+ ?\([^()]*\)$/) {
        open = index(text, "(")
        shut = substr(text, 1, open - 1)
        sub(/ $/, "", shut)
        calls++
        if (NAMES == "yes") print name_of(shut)
        else print "call\t" name_of(shut) "\t" type_of(shut) parameters(substr(text, open + 1, length(text) - open - 1))
    } else if (text != "" && text !~ /^enum [a-z_]+ \{/) bad("a declaration of another form: " text)
}

# The header without comments and without the preprocessor's lines.
{
    line = $0
    while (1) {
        if (inside) {
            at = index(line, "*/")
            if (!at) { line = ""; break }
            line = substr(line, at + 2)
            inside = 0
        }
        at = index(line, "/*")
        if (!at) break
        rest = substr(line, at + 2)
        shut = index(rest, "*/")
        if (shut) line = substr(line, 1, at - 1) " " substr(rest, shut + 2)
        else { line = substr(line, 1, at - 1); inside = 1; break }
    }
    if (goes_on || line ~ /^[ \t]*#/) { goes_on = line ~ /\\$/; next }
    text = text line "\n"
}

END {
    if (broken) exit 1
    sub(/extern "C" \{/, "", text)
    depth = 0
    for (i = 1; i <= length(text); i++) {
        c = substr(text, i, 1)
        if (c == "{") depth++
        if (c == "}" && depth > 0) depth--
        else if (c == "}") continue
        if (c == ";" && depth == 0) { declaration(one); one = "" }
        else one = one c
        # The function that has a body in the header is no call.
        if (c == "}" && depth == 0 && one ~ /BULGEFS_INLINE/) one = ""
    }
    if (!calls) bad("no call is declared")
}
