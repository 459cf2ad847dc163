# Where the checks work. rt copies a crate for each edit into TMPDIR, with what was proved of it, in thousands of files,
# and removes them; on a disk that takes seconds, in memory next to nothing. Needs rt.sh.
memory=/dev/shm
# our folder there, once it is made: what is removed at the end is nothing that the environment names
scratch=''
# what a check may need there, in KiB, with as much again for what grows; `rt ci` wants 3 GB in all
memory_each=$((1024 * 1024))

# roomy FOLDER: it has room for the checks that run at a time, and so has the memory that it takes its room from
roomy() {
    roomy_needed=$(($(rt_jobs) * memory_each))
    df -Pk "$1" 2>/dev/null | awk -v needed="$roomy_needed" 'NR == 2 { room = $4 } END { exit !(room >= needed) }' &&
        { [ ! -r /proc/meminfo ] || awk -v needed="$roomy_needed" '
            $1 == "MemAvailable:" && $2 < needed { short = 1 } END { exit short }' /proc/meminfo; }
}

# runs_programs FOLDER: rt runs the proved programs in TMPDIR, and as nobody where it is root. A memory file system may
# be mounted so that nothing on it can be run.
runs_programs() {
    cp /bin/sh "$1/sh" || return
    if [ "$(id -u)" = 0 ]; then
        # by a shell that is nobody already: setpriv itself still reaches every file
        # shellcheck disable=SC2016
        setpriv --reuid=65534 --regid=65534 --clear-groups --no-new-privs sh -c '"$1" -c :' sh "$1/sh" 2>/dev/null
    else
        "$1/sh" -c : 2>/dev/null
    fi
    runs_status=$?
    rm -f "$1/sh"
    return "$runs_status"
}

# work_in_memory: makes a folder of our own the TMPDIR, and has it removed when the script ends, with what interrupted
# checks left there. Where memory cannot be used TMPDIR stays as it was.
work_in_memory() {
    [ -d "$memory" ] && [ -w "$memory" ] && roomy "$memory" || return 0
    scratch=$(mktemp -d "$memory/iebus.XXXXXX" 2>/dev/null) || return 0
    trap 'rm -rf "$scratch"' EXIT
    trap 'exit 1' HUP INT TERM
    # nobody passes through it to the programs, and sees no more of it
    chmod 711 "$scratch"
    runs_programs "$scratch" || return 0
    TMPDIR=$scratch
    export TMPDIR
}
