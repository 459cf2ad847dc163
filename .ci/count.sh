# Counting for the gate: `suite` runs one suite of tests, under a heading, and adds up what its last line says.
passed=0
failed=0
beside_count=0

# suite NAME COMMAND..: a suite ends with the line 'N passed, M failed'. Where it has no such line, counts nothing at
# all, or ends with another status than 0 although it counts no failure, that is a failure itself.
suite() {
    suite_name=$1
    shift
    echo "-- $suite_name"
    suite_log=$(mktemp) || exit 2
    { "$@"; echo $? >"$suite_log.status"; } 2>&1 | tee "$suite_log"
    suite_counts=$(tail -n 1 "$suite_log" | sed -n 's/^\([0-9][0-9]*\) passed, \([0-9][0-9]*\) failed$/\1 \2/p')
    suite_status=$(cat "$suite_log.status" 2>/dev/null)
    rm -f "$suite_log" "$suite_log.status"
    suite_passed=${suite_counts% *}
    suite_failed=${suite_counts#* }
    if [ -z "$suite_counts" ]; then
        echo "gate: $suite_name: its last line has no counts"
        suite_passed=0 suite_failed=1
    elif [ "$suite_passed" = 0 ] && [ "$suite_failed" = 0 ]; then
        echo "gate: $suite_name: it counted nothing"
        suite_failed=1
    elif [ "$suite_status" != 0 ] && [ "$suite_failed" = 0 ]; then
        echo "gate: $suite_name: status $suite_status, and no failure counted"
        suite_failed=1
    fi
    passed=$((passed + suite_passed))
    failed=$((failed + suite_failed))
}

# beside NAME COMMAND..: starts a suite that what follows need not wait for, with what that leaves of the processors;
# `joined` waits for all of them, and for whatever they started, and counts them. Where the gate is interrupted they run
# to their end.
beside() {
    beside_log=$(mktemp) || exit 2
    beside_count=$((beside_count + 1))
    eval "beside_log_$beside_count=\$beside_log beside_name_$beside_count=\$1"
    shift
    { nice -n 19 "$@"; echo $? >"$beside_log.status"; } 2>&1 | cat >"$beside_log" &
    eval "beside_job_$beside_count=\$!"
}

joined() {
    beside_at=1
    while [ "$beside_at" -le "$beside_count" ]; do
        eval "beside_log=\$beside_log_$beside_at beside_name=\$beside_name_$beside_at; wait \$beside_job_$beside_at"
        suite "$beside_name" told_beside
        rm -f "$beside_log" "$beside_log.status"
        beside_at=$((beside_at + 1))
    done
    beside_count=0
}

# all_joined: no suite is left beside that nobody has counted
all_joined() {
    [ "$beside_count" = 0 ] || one 'a suite beside that was not joined' false
}

# what the suite beside has said, and its status; one that was cut off has none, and fails
told_beside() {
    cat "$beside_log"
    return "$(cat "$beside_log.status" 2>/dev/null || echo 1)"
}

# one NAME COMMAND..: a single test, which passes where the command's status is 0
one() {
    one_name=$1
    shift
    echo "-- $one_name"
    if "$@"; then
        passed=$((passed + 1))
    else
        echo "gate: $one_name failed"
        failed=$((failed + 1))
    fi
}
