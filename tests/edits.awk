# Judges the first lines of the edits, what rt said when it tried them, and the logs of their checks, for tests/edits.
# Each line that it reads has a kind, and then for `phrase` a kind of edit and a phrase, else a crate and what it has: a
# public function, a declaration, one that is part of a function's proof, an edit with its first line, a file that an
# edit changes, why an edit cannot be made, what rt said of it, that its log is to be read.

$1 == "phrase" { phrases[++phrase_count] = $3; phrase_kind[phrase_count] = $2 }
$1 == "function" { functions[++function_count] = $3; function_crate[function_count] = $2 }
$1 == "private" { private[$2, $3] = 1 }
$1 == "declaration" { declared[$2, $3] = 1 }
$1 == "answer" { answer[$2, $3] = 1 }
$1 == "said" { said[$2 "/" $3] = $4 }
$1 == "open" { open[$2 "/" $3] = 1 }
$1 == "file" { files[$2 "/" $3] = files[$2 "/" $3] " " $4 }
$1 == "bad" { bad[$2 "/" $3] = $4 }
$1 == "edit" { read_edit($2, $3, $4) }

# One of the two forms, taken apart: a kind, what stands behind it, and the sentence. No kind: it has neither form.
function read_edit(crate, label, line,    behind) {
    edits[++edit_count] = crate "/" label
    crates[edit_count] = crate
    labels[edit_count] = label
    if (line !~ /^# (code of|(rule|misreading|dead unit|claim), refused by) [^ ]+: ./) return
    sub(/^# /, "", line)
    kinds[edit_count] = line ~ /^code of / ? "code" : substr(line, 1, index(line, ",") - 1)
    sub(/^(code of|[a-z ]*, refused by) /, "", line)
    behind = index(line, ": ")
    named[edit_count] = substr(line, 1, behind - 1)
    sentences[edit_count] = substr(line, behind + 2)
}

function ok(what) { print "ok " what }
function failed(what, why) { print "FAILED " what ": " why }

# the place of the public function that a name means: 0 where there is none, -1 where there are several
function meant(crate, name,    i, path, at) {
    for (i = 1; i <= function_count; i++) {
        path = "::" functions[i]
        if (function_crate[i] != crate || substr(path, length(path) - length(name) - 1) != "::" name) continue
        if (at) return -1
        at = i
    }
    return at + 0
}

# what is wrong with the functions and files that an edit of code names
function wrong_code(e,    at) {
    at = (crates[e], named[e]) in private ? "private" : meant(crates[e], named[e])
    if (at == 0) return crates[e] " has no public function " named[e]
    if (at == -1) return crates[e] " has several public functions " named[e] "; say more of the path"
    of_function[at]++
    return files[edits[e]] ~ / specs\// ? "an edit of code changes src/ alone, and this one" files[edits[e]] : ""
}

# marks the phrases of document 01 that a sentence has in quotation marks, and says how many there are
function quoted(e,    i, count) {
    for (i = 1; i <= phrase_count; i++)
        if (phrase_kind[i] == kinds[e] && index(sentences[e], "\"" phrases[i] "\"")) {
            of_phrase[i] = 1
            count++
        }
    return count + 0
}

# what is wrong with an edit of a definition or a statement
function wrong_rule(e) {
    if (named[e] ~ /-spec$/ || !((crates[e], named[e]) in declared) && (crates[e], named[e]) in answer)
        return "the proof of a function is neither a theorem nor a computed check"
    if (!((crates[e], named[e]) in declared)) return crates[e] " declares no " named[e]
    if (files[edits[e]] ~ / specs\/(Cases|Stories)\.antt/) return "it changes what is computed, and no rule"
    # a claim may also be made in the contract of a function, which stands in src/
    if (kinds[e] != "claim" && files[edits[e]] !~ / specs\//) return "it changes no definition"
    if (kinds[e] ~ /^(misreading|dead unit)$/ && !quoted(e))
        return "it has no phrase of document 01 for a " kinds[e] ", in quotation marks"
    return ""
}

function judge_edit(e,    why) {
    if (edits[e] in bad) why = bad[edits[e]]
    else if (kinds[e] == "") why = "its first line has none of the forms"
    else if (files[edits[e]] ~ / proofs\//) why = "it changes a proof"
    else if (kinds[e] == "code") why = wrong_code(e)
    else why = wrong_rule(e)
    if (why == "") ok(edits[e])
    else failed(edits[e], why)
}

function judge_lines(    i) {
    for (i = 1; i <= edit_count; i++) judge_edit(i)
    for (i = 1; i <= function_count; i++)
        if (of_function[i] == 2) ok(functions[i])
        else failed(function_crate[i] "::" functions[i], "two edits of its code, and not " of_function[i] + 0)
    for (i = 1; i <= phrase_count; i++)
        if (of_phrase[i]) ok(phrases[i])
        else failed("\"" phrases[i] "\"", "no edit is this " phrase_kind[i])
}

# What rt says of an edit that it has tried: 'refused, as it must be', a note in brackets where that shows little, and
# the first line that is about a fact, as in a log, cut off behind 160 letters. That is enough where it is of the
# function or the declaration that the edit names; else its log is asked.

# the function, as its path behind the crate's name, whose proof or whose text an error's first line is in
function place(e, line,    file, number, path) {
    if (match(line, /proofs\/[^:]*\/(Answers|Invariants|Proof)\.antt:/)) {
        path = substr(line, RSTART + 7, RLENGTH - 8)
        sub(/\/[A-Za-z]*\.antt$/, "", path)
        gsub(/\//, "::", path)
        return path
    }
    if (!match(line, /src\/[^:]*:[0-9]+:/)) return ""
    file = number = substr(line, RSTART, RLENGTH - 1)
    sub(/:.*/, "", file)
    sub(/.*:/, "", number)
    return written_at(crates[e], file, number + 0)
}

# the function that stands at a line of a file, with the attributes before it; an edit has one line for one line
function written_at(crate, file, number,    at, line, name, type, path) {
    name = type = line = ""
    while ((at++ < number || line ~ /^ *#\[/) && (getline line < ("crates/" crate "/" file)) > 0) {
        if (line ~ /^impl[ <]/)
            type = type_of(line)
        else if (line ~ /^[}]/)
            type = ""
        else if (line ~ /^[^\/]*(^| )fn [A-Za-z_]/) {
            name = line
            sub(/^.*(^| )fn /, "", name)
            sub(/[^A-Za-z0-9_].*/, "", name)
            if (type != "") name = type "::" name
        }
    }
    close("crates/" crate "/" file)
    path = file
    sub(/^src\//, "", path)
    sub(/\.rt$/, "", path)
    gsub(/\//, "::", path)
    return name == "" || path ~ /^(lib|main)$/ ? name : path "::" name
}

# the type that an `impl` is of
function type_of(line) {
    sub(/^impl *(<[^>]*>)? */, "", line)
    sub(/^.* for /, "", line)
    sub(/[^A-Za-z0-9_].*/, "", line)
    return line
}

function is_named(e, path) {
    return substr("::" path, length(path) - length(named[e]) + 1) == "::" named[e]
}

# what is wrong with what rt said, nothing where all is well, or 'open'
function wrong_said(e,    text) {
    if (!(edits[e] in said)) return "rt has said nothing of it"
    text = said[edits[e]]
    if (text !~ /^refused, as it must be/) return substr(text, 1, 300)
    if (text ~ /^refused, as it must be \(only by a limit/) return "the prover gave up, and refused nothing: " text
    if (text ~ /^refused, as it must be \(/)
        return kinds[e] == "code" ? "a proof that no longer fits: " substr(text, 1, 300) : "open"
    sub(/^refused, as it must be(: )?/, "", text)
    if (kinds[e] == "code") return text !~ misfit && is_named(e, place(e, text)) ? "" : "open"
    if (in_own_file(e, text) || text ~ /was not admitted/) return "open"
    return index(text, ": error: `" named[e] "`: ") ? "" : "open"
}

function judge_said(    e, why) {
    for (e = 1; e <= edit_count; e++) {
        why = kinds[e] == "" ? "its first line has none of the forms" : wrong_said(e)
        if (why == "") ok(edits[e])
        else if (why == "open") print "open " edits[e]
        else failed(edits[e], why)
    }
}

# Where an edit was refused. Of a declaration NAME in specs/ or proofs/ an error is 'FILE:L:C: error: `NAME`: text'. Of
# a function that needs no proof file it is 'note: FILE:L:C: it is not proved that ..'. A function whose contract was
# not shown, and each that calls it, has a line 'fn PATH: not proved' or 'no proof'. Lines that go on are indented.
# An error that only says that another declaration 'was not admitted' follows from that one's. That is enough for a
# theorem, which may rest on what fails; a computed check has to come out wrong itself. A definition that is changed has
# to be one still: an error in the file that the edit changes shows nothing. Nor does a proof that names a part of the
# code or of the goal that is no longer there, where it fails first: it does not fit any more, and nothing was asked of
# the code. An edit of code has to leave the function that it names unproved.
BEGIN { misfit = "has no field `|that can be named from here|is not in scope|is a declared record, built with" }

# whether an error is in a file of definitions that the edit itself changes
function in_own_file(e, line,    file) {
    if (!match(line, /specs\/[^:]*:[0-9]+:[0-9]+: error: /)) return 0
    file = substr(line, RSTART, RLENGTH)
    sub(/:.*/, "", file)
    return index(files[edits[e]] " ", " " file " ") > 0
}

# whether a line says that a declaration waits for one that was refused: it stands in the line's list, or others wait for
# it
function waits(line, name,    parts, count, i) {
    if (index(line, "depends on `" name "`, ") || index(line, "depend on `" name "`, ")) return 1
    if (!sub(/.*(was|were) not checked: /, "", line)) return 0
    gsub(/ \(via [^)]*\)/, "", line)
    sub(/ and [0-9]+ more.*/, "", line)
    count = split(line, parts, ", ")
    for (i = 1; i <= count; i++)
        if (parts[i] == name) return 1
    return 0
}

function read_error(e, line,    follows, name, broken) {
    broken = in_own_file(e, line)
    sub(/^[^`]*[0-9]: error: /, "", line)
    follows = line ~ /was not admitted|(was|were) not checked: /
    if (broken && !follows) malformed = line
    if (index(line, "`" named[e] "`: ") == 1 && !(follows && named[e] ~ /[-_]cases$/)) own = line
    if (follows && named[e] !~ /[-_]cases$/ && waits(line, named[e])) own = line
    if (follows) return 0
    name = line ~ /^`/ ? substr(line, 1, index(line, "`: ")) : ""
    if (first == "") { first = line; first_name = name }
    return name == first_name
}

# whether a line says that the function named is not proved
function unproved(e, line,    path) {
    if (line !~ /^fn [^ ]*: (not proved|no proof)/) return 0
    path = substr(line, 4, index(line, ": ") - 4)
    return index(path, crates[e] "::") == 1 && is_named(e, path)
}

# sets `first`, the first error that follows from no other, `own`, one of the declaration that should refuse the edit,
# `unfit`, a line on what is no longer there, `malformed`, one on a definition that is none any more, `unbuilt`, one
# that says that the crate could not be checked, and `hit`, whether the function named is not proved
function read_log(e,    log_file, line, status, inside) {
    first = own = unfit = malformed = unbuilt = ""
    hit = 0
    log_file = "target/must-fail/" edits[e] ".log"
    while ((status = (getline line < log_file)) > 0) {
        if (line !~ /^  /)
            inside = line ~ /^[^`]*:[0-9]+:[0-9]+: (error: |it is not proved that )/ && read_error(e, line)
        if (inside && line ~ misfit) unfit = line
        if (line ~ /^rt: the library .* did not build/) unbuilt = line
        if (unproved(e, line)) hit = 1
    }
    close(log_file)
    return status
}

function wrong_log(e) {
    if (read_log(e) < 0) return "it has no log"
    if (unbuilt != "") return "it was not checked: " unbuilt
    if (first == "") return "its log has no error"
    if (malformed != "") return "what it makes of a definition is none: " substr(malformed, 1, 300)
    if (kinds[e] == "code" && unfit != "") return "a proof that no longer fits: " substr(unfit, 1, 300)
    if (kinds[e] == "code") return hit ? "" : named[e] " is proved all the same"
    return own == "" ? "not refused by " named[e] ", but: " substr(first, 1, 300) : ""
}

function judge_logs(    e, why) {
    for (e = 1; e <= edit_count; e++) {
        if (!(edits[e] in open)) continue
        why = wrong_log(e)
        if (why == "") ok(edits[e])
        else failed(edits[e], why)
    }
}

# A row of the table, in lines under 120 characters: what does not fit goes on in a row without a name.
function row(name, text, by,    words, count, i, line, end) {
    count = split(text, words, " ")
    line = "| " name " |"
    end = " | " by " |"
    for (i = 1; i <= count; i++) {
        if (length(line) + 1 + length(words[i]) + length(end) > 119) {
            print line end
            line = "| |"
            end = " | |"
        }
        line = line " " words[i]
    }
    print line end
}

function table(    e) {
    for (e = 1; e <= edit_count; e++) {
        if (e == 1 || crates[e] != crates[e - 1])
            print (e == 1 ? "" : "\n") "Of `" crates[e] "`:\n\n| Edit | Stands for | Refused by |\n|---|---|---|"
        gsub(/[|]/, "\\|", sentences[e])
        if (kinds[e] == "") row("`" labels[e] "`", "not said", "")
        else if (kinds[e] == "code") row("`" labels[e] "`", "code of `" named[e] "`: " sentences[e], "a proof")
        else row("`" labels[e] "`", kinds[e] ": " sentences[e], "`" named[e] "`")
    }
}

END {
    if (task == "lines") judge_lines()
    else if (task == "said") judge_said()
    else if (task == "logs") judge_logs()
    else table()
}
