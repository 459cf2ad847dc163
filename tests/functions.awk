# The public functions of a library, one to a line, each as its path behind the crate's name:
#
#   awk -v src=crates/NAME/src -f tests/functions.awk
#
# A function is public where every module down to it is `pub mod`, or where a public module has it by `pub use`; a
# method where its type is public, whatever the module. The layout is that of `rt fmt`. What could hide a function from
# this reading is an error, status 2.

function give_up(file, text) {
    print "functions: " file ": " text > "/dev/stderr"
    bad = 1
    exit 2
}

# path and name joined; the root of a crate has no name
function below(path, name) { return path == "" ? name : path "::" name }

# the word behind the first match of `before` in a line
function word_behind(line, before) {
    match(line, before)
    line = substr(line, RSTART + RLENGTH)
    match(line, /^[A-Za-z0-9_]+/)
    return substr(line, 1, RLENGTH)
}

# one name, or several in braces, that a public module passes on
function pass_on(path, line,    head, names, count, i, name) {
    sub(/^[ \t]*pub use /, "", line)
    sub(/;.*/, "", line)
    sub(/^(crate|self)::/, "", line)
    head = line
    sub(/(::)?(\{[^}]*\}|[A-Za-z0-9_]+)$/, "", head)
    names = substr(line, length(head) + 1)
    gsub(/[:{} \t]/, "", names)
    count = split(names, name, ",")
    for (i = 1; i <= count; i++) {
        passed[below(head, name[i])] = below(path, name[i])
        # a path may also be meant from the module that has the line
        if (path != "") passed[below(below(path, head), name[i])] = below(path, name[i])
        uses[++use_count] = line
        use_of[use_count] = below(head, name[i])
        use_in[use_count] = below(below(path, head), name[i])
        use_name[use_count] = name[i]
    }
}

# a name that is passed on is that of a function or a type which was read; a module, say, would hide what it has
function judge_uses(    i, j) {
    for (i = 1; i <= use_count; i++) {
        if (use_name[i] in types) continue
        for (j = 1; j <= count && found[j] != use_of[i] && found[j] != use_in[i]; j++);
        if (j > count) give_up(src, "`pub use` of something else than a function or a type: " uses[i])
    }
}

function item(path, dir, open, line,    name) {
    if (line ~ /^[ \t]*(pub(\([a-z]+\))? )?mod [A-Za-z0-9_]+;/) {
        name = word_behind(line, "mod ")
        module(below(path, name), dir "/" name ".rt", dir "/" name, open && line ~ /^[ \t]*pub mod/)
    } else if (line ~ /^[ \t]*(pub(\([a-z]+\))? )?mod [A-Za-z0-9_]+/)
        give_up(dir, "a module in its parent's file: " line)
    else if (line ~ /^[ \t]*pub use /) {
        if (!open) give_up(dir, "`pub use` in a module that is not public: " line)
        if (line !~ /;/ || line ~ /\*| as /) give_up(dir, "another `pub use` than of names: " line)
        pass_on(path, line)
    } else if (line ~ /^pub (struct|enum) /)
        types[word_behind(line, "(struct|enum) ")] = 1
}

function module(path, file, dir, open,    line, type, name, status) {
    while ((status = (getline line < file)) > 0) {
        sub(/\/\/.*/, "", line)
        sub(/^[ \t]*#\[[^]]*\][ \t]*/, "", line)
        if (line ~ /^impl[ <].*[{][}]/)
            type = ""
        else if (line ~ /^impl[ <]/) {
            sub(/^impl *(<[^>]*>)? */, "", line)
            type = word_behind(line, "^")
        } else if (line ~ /^[}]/)
            type = ""
        else if (line ~ /^[ \t]*pub ((const|unsafe|extern|"C") )*fn [A-Za-z_]/) {
            name = word_behind(line, "fn ")
            found[++count] = type == "" ? below(path, name) : below(below(path, type), name)
            of[count] = type
            seen[count] = open
        } else
            item(path, dir, open, line)
    }
    if (status < 0) give_up(file, "no such file")
    close(file)
}

BEGIN {
    module("", src "/lib.rt", src, 1)
    judge_uses()
    for (i = 1; i <= count; i++) {
        if (of[i] != "") { if (of[i] in types) print found[i] }
        else if (seen[i]) print found[i]
        else if (found[i] in passed) print passed[found[i]]
    }
}
END { if (bad) exit 2 }
