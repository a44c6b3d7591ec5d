# What the program is built from, and which built program is made of it. Whoever reads this file has set `top` to the repository's folder.

out=$top/crates/rvfence/out
own=$out/rvfence # the program that was built here, by the launcher or the gate
unfinished=$own.unfinished # stands from the start of a build until it has ended well
own_sum=$own.sum # the sum of the sources that it was built from, where that is known
released=$top/bin/rvfence-x86_64-linux # comes with the repository
release_note=$released.txt # the sum of the sources that it was built from, its own, and the toolchain's line
current=$out/current.$HOSTNAME # names the program that the sources call for, as they were when this file was as old as it is, and its crates
start=$out/start.$$ # as old as the moment when the choice of a program began

declare -A needs=()
order=()

say() { echo "rvfence: $*" >&2 2>/dev/null; }

# The crates of crates.txt with what each stands on, and in `order` those that the program is made of.
read_crates() {
    local line name
    while IFS= read -r line; do
        line=${line%%#*}
        [[ $line == *:* ]] || continue
        read -r name _ <<<"${line%%:*}"
        needs[$name]=${line#*:}
    done <"$top/crates.txt"
    visit rvfence
}

# Appends the crate to `order`, after all that it stands on.
visit() {
    local name=$1 lower
    [[ " ${order[*]} " != *" $name "* ]] || return 0
    for lower in ${needs[$name]}; do
        [[ -z ${needs[$lower]+listed} ]] || visit "$lower"
    done
    order+=("$name")
}

# sources WORD..: what `find` says with these words of the files that the program is built from; tests are none of them.
sources() (
    local name folder folders=()
    cd -- "$top" || exit
    for name in "${order[@]}"; do
        for folder in crates/"$name"/{src,specs,proofs}; do
            [[ ! -d $folder ]] || folders+=("$folder")
        done
    done
    find -L "${folders[@]}" -type f ! -path '*/src/tests/*' ! -name tests.rt "$@"
)

# Is the program that was built here missing, half built, or not of the sources as they are? By their sum, where that of
# its own is known; else by dates, where what can't be seen counts as newer.
is_stale() {
    [[ -x $own && ! -e $unfinished ]] || return 0
    if [[ -f $own_sum && ! $own -nt $own_sum ]]; then
        [[ $(sum_sources) != "$(<"$own_sum")" ]]
    else
        [[ $top/crates.txt -nt $own || -n $(sources -newer "$own" -print -quit 2>&1) ]]
    fi
}

# The sum of all that the program is built from: the lines of its crates in crates.txt, and their files. Nothing where
# there is no sha256sum.
sum_sources() (
    local name folder folders=()
    cd -- "$top" || exit
    set -o pipefail
    {
        for name in "${order[@]}"; do
            echo "$name:" ${needs[$name]}
        done
        sources -print0 | LC_ALL=C sort -z | xargs -0 sha256sum --
    } | sha256sum | cut -d ' ' -f 1
) 2>/dev/null

# The sum of the sources that the released program was built from, and its own.
released_sum() { sed -n 's/^sources //p' "$release_note"; } 2>/dev/null
released_bytes() { sed -n 's/^program //p' "$release_note"; } 2>/dev/null

# sum_bytes FILE: the sum of a file.
sum_bytes() { sha256sum <"$1" | cut -d ' ' -f 1; } 2>/dev/null

# Was the released program built from the sources as they are, and can this machine run it? (An older C library makes it end with
# status 1, which would mean `none`.)
is_released() {
    local sum
    [[ $HOSTTYPE-$OSTYPE == x86_64-linux* && -x $released ]] || return 1
    sum=$(sum_sources)
    [[ -n $sum && $sum == "$(released_sum)" && $(sum_bytes "$released") == "$(released_bytes)" &&
        $("$released" --version) == 'rvfence '* ]]
} 2>/dev/null

# Notes that the sources call for this program, as they were when the choice began.
remember() {
    local program=$1
    printf '%s\n' "${program#"$top/"}" "${order[*]}" >"$current.$$" && touch -r "$start" -- "$current.$$" && mv -f -- "$current.$$" "$current"
    rm -f -- "$out"/start.* "$current.$$" # with those that a killed run left
} 2>/dev/null

# Sets `program` to the one that the sources call for: the released one, or the one that was built here; the latter is built first where it
# has to be, unless `find_only` is given. Status 1: there is none. A build that fails or is stopped ends the shell.
choose() {
    { mkdir -p -- "$out" && : >"$start"; } 2>/dev/null
    read_crates
    if is_released; then
        program=$released
    elif is_stale && [[ ${1:-} == find_only ]]; then
        rm -f -- "$start"
        return 1
    else
        program=$own
        ! is_stale || { . "$top/scripts/build.sh" && build; }
    fi
    remember "$program"
}
