# What the scripts here share, read by each from the top folder. The programs are built and the traffic is recorded
# once, so that all rows of a table are of the same words.
out=target/bench
flags='-O2 -std=c11 -D_POSIX_C_SOURCE=200809L -Wall -Wextra -Werror'
model='unit frame judgement ending registers'
traffic='traffic/traffic traffic/host traffic/draw traffic/line'
reader='reader traffic/logs'
pulses='pulses traffic/pulses traffic/logs'
load='load traffic/loads traffic/logs'
roll='roll contest'
# as many as contest.c draws
lists=1000

give_up() {
    echo "bench: $1" >&2
    exit 1
}

# build PROGRAM SOURCES OBJECTS: the objects are the model's, as its own Makefile compiles them
build() {
    gcc $flags -Iinclude -Imodel $(printf 'bench/%s.c ' $2) $(printf 'target/model/%s.o ' $3) target/libiebus.a \
        -o "$out/$1" || give_up "$1 is not built"
}

# try_plain SOURCE NAMES LISTS: plain C is no measure where it gives something else than the model: under each
# NAME=EXPORTED it takes the place of the exported function in the model's own comparison over random lists
try_plain() {
    gcc $flags -Imodel $(printf -- '-D%s ' $2) "target/model/$3-parts.o" "bench/$1.c" -o "$out/$1" ||
        give_up "$1 is not built"
    "$out/$1" >"$out/log" 2>&1 || give_up "$1.c differs from the model, see $out/log"
}

# prepare WORDS: builds everything, and records so many words of each traffic
prepare() {
    mkdir -p "$out" || give_up "no folder $out"
    make >"$out/log" 2>&1 || give_up "no library, see $out/log"
    make -s -C model $(printf '../target/model/%s.o ' $model $traffic contest $reader pulses traffic/pulses load \
        traffic/loads roll logs-parts pulses-parts loads-parts rolls-parts) || give_up 'no model'
    build record record "$traffic $model"
    build measure 'measure quick' "$model"
    build contest contest contest
    try_plain plain_log plain_read_log=iebus_read_log logs
    build logs 'logs plain_log' "$reader"
    try_plain plain_pulses plain_slots=iebus_slots pulses
    build pulses 'pulses plain_pulses' "$pulses"
    try_plain plain_load plain_load=iebus_load loads
    build loads 'loads plain_load' "$load"
    try_plain plain_roll "$(printf 'plain_roll_%s=iebus_roll_%s ' begin begin join join leave leave shown shown)" rolls
    build rolls 'rolls plain_roll' "$roll"
    for kind in slots mixed; do
        "$out/record" "$kind" "$1" >"$out/$kind" || give_up "$kind traffic is not recorded"
    done
}

# collect FUNCTIONS COMMAND..: what the command spends inside the functions goes to $out/callgrind, with plain names
# and addresses
collect() {
    functions=$1
    shift
    valgrind --tool=callgrind --callgrind-out-file="$out/callgrind" --compress-strings=no --compress-pos=no \
        --dump-instr=yes $(printf -- '--toggle-collect=%s ' $functions) "$@" >"$out/log" 2>&1 ||
        give_up "$* failed, see $out/log"
}
