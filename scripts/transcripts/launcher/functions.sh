# What the transcript beside this file calls, in a folder of its own, which has a small repository.
set -o pipefail
here=${BASH_SOURCE[0]%/*}
top=${here%/scripts/*}
repo="$PWD/a folder"
released="$repo/bin/rvfence-x86_64-linux"
export LOG=$PWD/log HOLD=$PWD/hold RT_JOBS=4 HOSTTYPE=x86_64 OSTYPE=linux-gnu

# Makes the repository, the stand-in for rt, and a folder of few programs.
prepare() {
    local name
    mkdir -p "$repo/scripts/transcripts" "$repo/bin" bin few elsewhere
    cp "$top/rvfence" "$repo/"
    cp "$here/crates.table" "$repo/crates.txt"
    cp "$top"/scripts/{build.sh,sources.sh} "$repo/scripts/"
    cp -r "$top/scripts/transcripts/help" "$repo/scripts/transcripts/"
    ln -s "$here/rt" bin/
    for name in left right both rvfence law; do
        mkdir -p "$repo/crates/$name"/{src/tests,specs,proofs,must-fail}
        echo "fn f() {}" >"$repo/crates/$name/src/lib.rt"
    done
    for name in bash dirname readlink find; do
        ln -s "$(command -v "$name")" few/
    done
    : >"$LOG"
}

# What was built is gone, and nothing is noted.
forget() {
    rm -rf -- "$repo/crates"/*/out
    : >"$LOG"
}

# What was asked of rt since this was called last.
asked() { cat "$LOG" && : >"$LOG"; }

# A run of the launcher; and that, with what it asks of rt.
run() { "$repo/rvfence" "$@" 2>err; }
built() {
    local status
    run "$@"
    status=$?
    asked
    return $status
}

# A file of crates/ that is newer than all that was built.
edit() {
    sleep 0.02
    mkdir -p "$repo/crates/${1%/*}"
    echo "// $RANDOM" >>"$repo/crates/$1"
}

# What is left of a build that didn't end.
left_over() { find "$repo/crates" \( -name '*.unfinished' -o -name 'start.*' \) -printf '%f\n'; }

# soon COMMAND..: waits until the command succeeds, for a minute or so.
soon() {
    local at
    for ((at = 0; at < 1000; at++)); do
        "$@" 2>/dev/null && return
        sleep 0.05
    done
}

# Is no process of the stand-in left?
is_at_rest() { ! grep -qze "$PWD/bin/[r]t" /proc/[0-9]*/cmdline; }

# stopped SIGNAL WORD: the status of a run that gets the signal while rt, which is held, does what this word says, and
# whether it has ended.
stopped() {
    local status
    : >"$LOG"
    : >"$HOLD.$2"
    set -m
    env --default-signal "$repo/rvfence" place x >out 2>err &
    set +m
    soon grep -q "^rvfence: $2 " "$LOG"
    kill "-$1" $!
    wait $!
    status=$?
    [[ $1 == KILL ]] || soon is_at_rest
    echo "$status $(is_at_rest && echo at rest)"
    rm "$HOLD.$2"
} 2>/dev/null

# Two runs at once, of which the second waits.
two_at_once() {
    : >"$HOLD.all"
    "$repo/rvfence" place x >first 2>err &
    soon test -s "$LOG"
    "$repo/rvfence" place x >second 2>waiting &
    soon grep -q "waiting for it" waiting
    rm "$HOLD.all"
    wait
    cat first second
    asked
}

# A program that comes with the repository, with the sum of the sources that stand there, and the note of the sums.
# (The stand-in builds one with another answer.)
release() {
    printf '#!/bin/sh\n[ "$1" != --version ] || { echo rvfence 9; exit; }\necho "released $*"\nexit 5\n' >"$released"
    chmod +x "$released"
    note
}
note() (
    top=$repo
    . "$top/scripts/sources.sh"
    read_crates
    printf 'sources %s\nprogram %s\ntoolchain\n' "$(sum_sources)" "$(sum_bytes "$released")" >"$released.txt"
)
