# What the scripts of this folder measure by; they read it with `.`, and have set `runs`. A command that fails ends them.
shopt -s inherit_errexit

# sets `bench` to the program of the loops: the one that BENCH names, or the proved one, which is built in this folder first
set_bench() {
    bench=${BENCH:-out/bench}
    if [ -z "${BENCH:-}" ]; then
        rt run >/dev/null
    fi
}

# the least nanoseconds of `runs` runs of a command
least() {
    local best="" start taken
    for _ in $(seq "$runs"); do
        start=$(date +%s%N)
        "$@" >/dev/null
        taken=$(($(date +%s%N) - start))
        if [ -z "$best" ] || [ "$taken" -lt "$best" ]; then
            best=$taken
        fi
    done
    echo "$best"
}

# the instructions of a run of a command
instructions() {
    valgrind --tool=callgrind --callgrind-out-file=/dev/null "$@" 2>&1 >/dev/null | awk '/Collected/ { print $4 }'
}

# so many runs of a command, all at once
at_once() {
    local copies=$1 started=() one
    shift
    for _ in $(seq "$copies"); do
        "$@" &
        started+=($!)
    done
    for one in "${started[@]}"; do
        wait "$one"
    done
}
