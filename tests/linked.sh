# For the suites that link proved functions into a C program, beside the second model's.

give_up() {
    tail -n 5 "$out/build"
    echo '0 passed, 1 failed'
    exit 1
}

# linked NAME FILE..: builds tests/NAME.c with these files and the static library, runs it and adds up its lines
# "ok .." and "FAILED .."; the last line is 'N passed, M failed'
linked() {
    name=$1
    shift
    out=target/tests/$name
    mkdir -p "$out"
    tests/archive >"$out/build" 2>&1 || give_up
    gcc -std=c11 -O2 -Wall -Wextra -Werror -Iinclude -Imodel "tests/$name.c" "$@" target/staticlib/libiebus.a \
        -o "$out/$name" >"$out/build" 2>&1 || give_up
    "$out/$name" >"$out/lines"
    status=$?
    cat "$out/lines"
    passed=$(grep -c '^ok ' "$out/lines")
    failed=$(grep -c '^FAILED ' "$out/lines")
    # a program that breaks off has failed, whatever it counted
    [ "$status" -le 1 ] || failed=$((failed + 1))
    echo "$passed passed, $failed failed"
    [ "$failed" -eq 0 ]
}
