# What the scripts know of the toolchain's `rt` and of the repository in the current folder, read from crates.txt and
# the folders below crates/, so that no list of crates stands anywhere else.

# rt_jobs: how many checks `rt ci` runs at a time: RT_JOBS, or as many as there are processors
rt_jobs() {
    echo "${RT_JOBS:-$(nproc 2>/dev/null || echo 1)}"
}

# crates_with below|above NAME..: these crates and all that they rest on, or all that rest on them, in the order of
# crates.txt; without a name, all crates
crates_with() {
    rt_way=$1
    shift
    awk -v way="$rt_way" -v names="$*" '
        { sub(/#.*/, ""); sub(/ +staticlib *:/, ":"); sub(/:/, " ") }
        NF { crates[++count] = $1; for (i = 2; i <= NF; i++) on[$1, $i] = 1 }
        function rests(upper, lower) { return (upper SUBSEP lower) in on }
        function spread(    found, i, k) {
            for (i = 1; i <= count; i++)
                for (k = 1; k <= count; k++)
                    if (!wanted[crates[k]] && wanted[crates[i]] &&
                        (way == "below" ? rests(crates[i], crates[k]) : rests(crates[k], crates[i])))
                        found = wanted[crates[k]] = 1
            return found
        }
        END {
            split(names, given, " ")
            for (i in given) wanted[given[i]] = 1
            while (spread()) { }
            for (i = 1; i <= count; i++) if (names == "" || wanted[crates[i]]) print crates[i]
        }' crates.txt
}

# lowest_first NAME..: these crates, each after those of them that it rests on
lowest_first() {
    for rt_name in "$@"; do
        # shellcheck disable=SC2046
        set -- $(crates_with below "$rt_name")
        echo "$# $rt_name"
    done | sort -s -n -k 1,1 | cut -d ' ' -f 2
}

# static_libraries: the crates that are made for C; all others are libraries or programs
static_libraries() {
    sed -n 's/^[[:space:]]*\([a-z0-9_]*\) \{1,\}staticlib *:.*/\1/p' crates.txt
}

# edits_of NAME: how many edits the crate has
edits_of() {
    set -- "crates/$1/must-fail"/*.edit
    if [ -f "$1" ]; then echo $#; else echo 0; fi
}

# seconds_of NAME: what its check took when it was last proved, nothing where that is not known
seconds_of() {
    awk -v name="$1" '$1 == name { print $2 }' target/seconds 2>/dev/null
}
