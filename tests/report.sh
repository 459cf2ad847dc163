# Counting for the suites on the host's side: `check` runs one test, `finish` prints the line that the gate adds up.
# A suite sets `out`, the folder that it works in.
passed=0
failed=0

# check NAME COMMAND..: passes where the command's status is 0; else what it printed is shown
check() {
    name=$1
    shift
    if "$@" >"$out/log" 2>&1; then
        echo "ok $name"
        passed=$((passed + 1))
    else
        echo "FAILED $name"
        sed 's/^/    /' "$out/log"
        failed=$((failed + 1))
    fi
}

finish() {
    echo "$passed passed, $failed failed"
    [ "$failed" = 0 ]
}

# prepare NAME COMMAND..: what all tests of the suite need; where it fails there is nothing to try
prepare() {
    check "$@"
    if [ "$failed" != 0 ]; then
        finish
        exit 1
    fi
}
