# The contract of each function that a crate's files have as `pub fn`, one to a line: its name, behind that of its type,
# a tab, and all from `pub` to its body, with where the names in it are from.
#
#   awk -f tests/contract.awk crates/NAME/src/*.rt
#
# With `-v program=1` that of each function with an `ensures`, public or not: a program has none that a library has.

# `ghost use PATH.{NAMES};`: where each name is from, in this file
function taken(line,    path, list, n, i, part) {
    sub(/^ghost use /, "", line)
    path = line
    sub(/\.\{.*/, "", path)
    sub(/.*\.\{/, "", line)
    sub(/\};.*/, "", line)
    n = split(line, list, /, */)
    for (i = 1; i <= n; i++)
        if (split(list[i], part, / as /) == 2) from[FILENAME, part[2]] = path "." part[1]
        else from[FILENAME, list[i]] = path "." list[i]
}

# where the names of a text are from; an operator's has a `◌` at each place of an argument
function sources(words,    list, n, i, forms, f, told, all) {
    gsub(/[(){},.]/, " ", words)
    n = split(words, list, / +/)
    for (i = 1; i <= n; i++) {
        if (list[i] in told) continue
        told[list[i]] = 1
        forms[1] = list[i]
        forms[2] = "◌" list[i] "◌"
        for (f = 1; f <= 2; f++)
            if ((FILENAME, forms[f]) in from) all = all " | " forms[f] " of " from[FILENAME, forms[f]]
    }
    return all
}

FNR == 1 { type = ""; text = "" }
/^ghost use / { taken($0); next }
{ sub(/^[ \t]*\/\/.*/, "") }
/^impl[ <]/ {
    type = $0
    sub(/^impl *(<[^>]*>)? */, "", type)
    sub(/[^A-Za-z0-9_].*/, "::", type)
}
/^impl[ <].*[{][}]/ { type = "" }
/^}/ { type = "" }
/^ *pub (extern "C" )?fn / || (program && /^ *(pub\(crate\) )?fn /) {
    name = $0
    sub(/^.*fn /, "", name)
    sub(/[^A-Za-z0-9_].*/, "", name)
    text = " "
}
text != "" {
    line = $0
    body = line ~ /(^| )\{$/
    gsub(/[ \t]+/, " ", line)
    text = text line
    if (body) {
        if (!program || text ~ / ensures /) print type name "\t" text sources(text)
        text = ""
    }
}
