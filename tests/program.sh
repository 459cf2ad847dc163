# For the suites of programs that read words and write both outputs. A suite sets `out`, the folder that it works in,
# `program`, and `opinion`, the program whose command `print` is the second opinion on what the other one writes.

# runs FILE [ARGUMENT..]: status 0 with this input; a program that hangs has 20 seconds
runs() {
    input=$1
    shift
    timeout 20 "$program" "$@" <"$input" >"$out/written" 2>"$out/errors"
}

# writes FILE [ARGUMENT..]: both outputs are those of the second opinion
writes() {
    runs "$@" || return
    shift
    "$opinion" print "$@" <"$input" >"$out/awaited" 2>"$out/awaited-errors" &&
        cmp "$out/awaited" "$out/written" && cmp "$out/awaited-errors" "$out/errors"
}

# says LINE FILE [ARGUMENT..]: it writes that line, or nothing, to standard error, and nothing else besides a line that
# is not 'more' or 'short'
says() {
    line=$1
    shift
    writes "$@" && [ "$(cat "$out/errors")" = "$line" ] || return
    case $line in
    '' | more | short) ;;
    *) [ ! -s "$out/written" ] ;;
    esac
}

# closes_early FILE ARGUMENTS READER..: the program ends by SIGPIPE, or with status 0 where that signal is ignored; the
# reader is there before the first byte is
closes_early() {
    input=$1
    arguments=$2
    shift 2
    { sleep 0.2; timeout 20 "$program" $arguments <"$input"; echo $? >"$out/status"; } 2>/dev/null | "$@" >/dev/null
    case $(cat "$out/status") in
    141 | 0) ;;
    *) return 1 ;;
    esac
}
