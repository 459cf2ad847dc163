# Which edits of a crate can not be made, so that this is seen at once and not when `rt` comes to them:
#
#   awk -v crate=NAME -f tests/applies.awk crates/NAME/must-fail/*.edit
#
# prints 'bad', the crate, the edit and why, with tabs between them. As for `rt`, a line `file: ` holds for the pairs
# of `old: ` and `new:` after it, and each old text has to be in its file once, with the pairs before it made. With
# `-v to=FOLDER` an edit that can be made is made there, in a copy of the crate.
BEGIN { OFS = "\t" }
FNR == 1 { finish(); start() }
sub(/^file: /, "") { file = $0; next }
sub(/^old: /, "") { old = $0; next }
sub(/^new: ?/, "") { pairs++; replace($0) }
END { finish() }

function start() {
    label = FILENAME
    sub(/.*\//, "", label)
    sub(/\.edit$/, "", label)
    split("", texts)
    file = old = why = ""
    pairs = 0
}

function finish() {
    if (label == "") return
    if (!pairs) why = "it has no pair of `old:` and `new:`"
    if (why != "") print "bad", crate, label, why
    else if (to != "") make()
}

function make(    name) {
    for (name in texts) {
        printf "%s", texts[name] > (to "/" name)
        close(to "/" name)
    }
}

# reads a file once for each edit; false where it cannot be read
function have(name,    line, status) {
    if (name in texts) return 1
    while ((status = (getline line < ("crates/" crate "/" name))) > 0) texts[name] = texts[name] line "\n"
    if (status == 0) close("crates/" crate "/" name)
    return status == 0
}

function replace(new,    at, rest) {
    if (why != "") return
    if (!have(file)) { why = "the crate has no file " file; return }
    at = old == "" ? 0 : index(texts[file], old)
    if (!at) { why = "an old text is not in " file; return }
    rest = substr(texts[file], at + length(old))
    if (index(rest, old)) { why = "an old text is in " file " more than once"; return }
    texts[file] = substr(texts[file], 1, at - 1) new rest
    old = ""
}
