# The statement of the declaration `name`, on one line: of a theorem its type, of a record or a data type all of it;
# before it the headers of the modules that it stands in, since their parameters are its premises; behind it what its
# names mean, so that none of them can be made to mean something else: where the file takes them from, and of those
# that the file defines itself the definitions, with the names in these. Only what is public is found, and only where
# declarations stand: a record's field of that name is no theorem. In a file with a block comment nothing is found.

function indent(line) { match(line, /^ */); return RLENGTH }

# a line without its comment, and with single blanks
function plain(line) {
    sub(/(^| )-- .*/, "", line)
    gsub(/[ \t]+/, " ", line)
    sub(/^ /, "", line)
    sub(/ $/, "", line)
    return line
}

# a `use`, whole on its line: the names that it brings, each with where it is from
function taken(line,    path, list, n, i, part) {
    sub(/^(pub )?use /, "", line)
    path = line
    if (line !~ /\{.*\}$/) {
        n = split(line, part, / as /)
        if (n == 2) from[part[2]] = part[1]
        else wholesale = wholesale " " line
        return
    }
    sub(/\.\{.*/, "", path)
    sub(/.*\.\{/, "", line)
    sub(/\}$/, "", line)
    n = split(line, list, /, */)
    for (i = 1; i <= n; i++)
        if (split(list[i], part, / as /) == 2) from[part[2]] = path "." part[1]
        else from[list[i]] = path "." list[i]
}

# the name that a line declares, or nothing
function declares(line) {
    sub(/^(abbrev|unfoldable) /, "", line)
    sub(/^pub /, "", line)
    if (line ~ /^(record|data) /) { sub(/^(record|data) /, "", line); sub(/ .*/, "", line); return line }
    if (line !~ /^[^ ]+ : /) return ""
    sub(/ .*/, "", line)
    return line
}

# what a name means; an operator's has a blank, `◌`, at each place of an argument
function meaning(word) {
    if (word == name) return ""
    return (word in from ? " | " word " of " from[word] : "") \
        (word in defined ? " | " defined[word] meanings(defined[word]) : "")
}

# what the names in a text mean
function meanings(words,    list, n, i, word, head, all) {
    gsub(/[(){};,]/, " ", words)
    n = split(words, list, / +/)
    for (i = 1; i <= n; i++) {
        word = list[i]
        if (word == "" || word in told) continue
        told[word] = 1
        head = word
        sub(/\..*/, "", head)
        if (head != word && head in from) all = all " | " word " of " from[head]
        all = all meaning(word) meaning("◌" word "◌") meaning("◌" word) meaning(word "◌")
    }
    return all
}

/\{-/ { found = 0; exit }
{ bare = plain($0) }
/^ *$/ { block = "" }
bare == "" { next }

# a module's header goes on until its `where`, and the module until a line that is not indented further
heading {
    headers[depth] = headers[depth] " " bare
    heading = bare !~ /where$/
    next
}
{ while (depth > 0 && indent($0) <= header_at[depth]) depth-- }

# a type goes on as long as its lines are indented further; a theorem ends where its proof begins
found && indent($0) > at { text = text " " bare; next }
found { exit }

bare ~ /^(pub )?use / { taken(bare); next }
bare ~ /^module / {
    headers[++depth] = bare
    header_at[depth] = indent($0)
    heading = bare !~ /where$/
    next
}
# a definition goes on to the next blank line
block != "" { defined[block] = defined[block] " " bare; next }
indent($0) != 2 * depth { next }
{
    declared = bare
    sub(/^(abbrev|unfoldable) /, "", declared)
    sub(/^pub (record|data) /, "pub ", declared)
    if (index(declared, "pub " name " ") != 1) {
        block = declares(bare)
        if (block != "") defined[block] = defined[block] " " bare
        next
    }
    found = 1
    at = indent($0)
    for (i = 1; i <= depth; i++) text = text headers[i] " "
    text = text bare
}
END { if (found) print text meanings(text) wholesale }
