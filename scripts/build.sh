# Proves and builds the program and its crates by `rt`, which keeps what is proved; scripts/sources.sh reads this file. How far
# it is goes to standard error, all that rt says to a file. RT_JOBS says how many proofs go on at once.

said=$out/build.log
memory_of_proof=4500000 # kB

fail() {
    say "$*"
    rm -f -- "$start"
    exit 125
}

# Waits until no other launcher builds here, by the lock of an open folder. (For an rt at work in the crates rt waits.)
lock() {
    flock -n "$1" && return
    say "another rvfence is at work here; waiting for it"
    flock "$1" &
    wait $!
} 2>/dev/null

# How many proofs go on at once: one a processor, where each has its memory, by the limit of the control group too.
jobs_at_once() {
    local free limit='' jobs
    jobs=$(nproc)
    free=$(sed -n 's/^MemAvailable: *\([0-9]*\) kB/\1/p' /proc/meminfo)
    read -r limit </sys/fs/cgroup/memory.max
    [[ $limit =~ ^[0-9]+$ ]] && ((limit >> 10 < free)) && free=$((limit >> 10))
    ((free / memory_of_proof >= jobs)) || jobs=$((free / memory_of_proof))
    [[ ! ${RT_JOBS:-} =~ ^[1-9][0-9]*$ ]] || jobs=$RT_JOBS
    echo $((jobs > 1 ? jobs : 1))
} 2>/dev/null

# Runs rt with these words in the program's folder, and says which crates are done. Ends here where it fails.
run_rt() {
    local rt
    : >"$said"
    (cd -- "$top/crates/rvfence" && exec rt "$@") </dev/null >>"$said" 2>&1 {held}<&- &
    rt=$!
    tail -f -s 0.1 -n +1 --pid="$rt" -- "$said" 2>/dev/null |
        sed -un '/^== summary/d; s/^== \(.*\)/rvfence: \1 is done/p' >&2 2>/dev/null &
    wait "$rt" && wait && return
    grep -vE '^== |: ok$' -- "$said" | tail -n 20 >&2
    fail "the program could not be built; $said has all that rt said"
}

build() {
    local held jobs sum
    command -v rt >/dev/null || fail "the program must be built, and there is no rt on the PATH"
    trap 'kill $(jobs -p) 2>/dev/null; wait; rm -f -- "$start"' EXIT
    trap 'exit 129' HUP
    trap 'exit 130' INT
    trap 'exit 143' TERM
    trap '' PIPE
    mkdir -p -- "$out" && exec {held}<"$out" || fail "the program must be built, and $out can't be made"
    lock "$held"
    if is_stale; then
        jobs=$(jobs_at_once)
        sum=$(sum_sources) # of what is built: what is edited meanwhile counts as changed
        rm -f -- "$own_sum"
        : >"$unfinished" || fail "no room to build in $out"
        say "proving and building the program and all that it stands on, ${#order[@]} crates, $jobs at once"
        run_rt all check --jobs "$jobs"
        run_rt run --jobs "$jobs" -- --help
        # as old as the start of the build, so that an edit made meanwhile counts as newer
        touch -r "$unfinished" -- "$own"
        [[ -z $sum ]] || echo "$sum" >"$own_sum"
        rm -f -- "$unfinished"
    fi
    exec {held}<&-
    trap - EXIT HUP INT TERM PIPE
}
