# What the transcripts of this folder call beside `rvfence`, in a folder that has examples/ and the files of files/.
top=${BASH_SOURCE[0]%/scripts/*}

# The test of so many harts with these rows, the first of which is line 4.
rows() {
    local columns='P0 | P1 | P2'
    printf 'RISCV T\n{ }\n%s ;\n%s\nexists true\n' "${columns:0:$((5 * $1 - 3))}" "$2"
}

# How an instruction is printed.
cell() { rvfence place <(rows 1 "$1 ;") 2>&1 | sed -n 5p; }
cells() { for it; do cell "$it"; done; }

# The same of branches to the label L, which stands behind each.
branches() { for it; do cell "$it ; L:"; done; }

# How a condition with its quantifier is printed; a test that is printed is printed again as it is.
conditions() {
    for it; do
        rvfence place <(printf 'RISCV T\n{ }\nP0 ;\n%s\n' "$it") >$own/printed
        tail -n 1 $own/printed
        rvfence place $own/printed | cmp - $own/printed
    done
}

# A witness of these choices and this order.
witness() { echo "{\"choices\":$1,\"order\":$2}"; }

# The kinds that a price list offers, each with the cost of one fence.
offered() {
    local kind
    for kind in r,r r,w r,rw w,r w,w w,rw rw,r rw,w rw,rw tso; do
        rvfence place examples/SB.litmus "P0:2=$kind" --prices "$1" 2>&1 | sed -n "s/^(\* cost \(.*\) \*)$/$kind \1/p"
    done | paste -sd ' '
}

# Message passing with a line below the first that fills it up to this many bytes.
filled() {
    sed -n 1p examples/MP.litmus
    head -c $(($1 - $(wc -c <examples/MP.litmus) - 1)) /dev/zero | tr '\0' d
    echo
    sed 1d examples/MP.litmus
}

# The test of harts with these cells, an argument for each of at most three, and of the condition behind them, with its
# quantifier. Each hart has the addresses of x in x6 and of y in x8, and 1 in x10.
test_of() {
    local hart columns='P0 | P1 | P2' init='H:x6=x; H:x8=y; H:x10=1; ' inits=''
    local -a cells=()
    for ((hart = 0; hart < $# - 1; hart++)); do
        inits+=${init//H/$hart}
        cells+=("$own/cells.$hart")
        tr ';' '\n' <<<"${@:hart+1:1}" >"$own/cells.$hart"
    done
    printf 'RISCV said\n{ %s}\n%s ;\n' "$inits" "${columns:0:$((5 * $# - 8))}"
    paste -d '|' "${cells[@]}" | sed 's/$/ ;/'
    echo "${!#}"
}

# What `solve` prints first for such a test of two harts, an init block and a condition. Each hart has the address of z
# in x11, too.
grounded() {
    test_of "$1" "$2" "exists ($4)" | sed "2s|}|0:x11=z; 1:x11=z; $3 }|" |
        rvfence solve - examples/prices.json -q 2>&1 | head -n 1
}

# What `test` says of that test, without the name of the file.
said() { test_of "$@" | rvfence test - | sed -n '1s/^- *//p'; }

# What `test` prints, with N for each number of contradictions, which no contract says.
contradictions() { rvfence test "$@" | sed -E 's/[0-9]+ contradictions?$/N contradictions/'; }

# What `audit` prints for the test of two harts with these cells and this condition, at the prices in $prices or else in
# examples/prices.json, with further words. Each hart has the addresses of x in x6, of y in x8 and of z in x11, and 1 in
# x10; the first row is line 6.
audited() {
    local -a first second
    local at init='x6=x; H:x8=y; H:x11=z; H:x10=1;'
    IFS=';' read -r -a first <<<"$1"
    IFS=';' read -r -a second <<<"$2"
    {
        printf 'RISCV audited\n{\n0:%s\n1:%s }\nP0 | P1 ;\n' "${init//H/0}" "${init//H/1}"
        for at in 0 1 2 3 4 5; do
            echo "${first[at]} | ${second[at]} ;"
        done
        echo "exists ($3)"
    } | rvfence audit - "${prices:-examples/prices.json}" "${@:4}"
}

# What `place -v` says of a test of these lines.
explained() { printf '%s\n' "$@" | rvfence place -v -; }

# What `states` prints, and its status, with (blank) for a blank line.
states() (
    set -o pipefail
    rvfence states "$@" | sed 's/^$/(blank)/'
)

# The same of store buffering with these lines behind its rows, the first of which is line 13, and with further words.
asked() { states <(sed -e '1s/SB/asked/' -e '$d' examples/SB.litmus && echo "$1") "${@:2}"; }

# What `solve` answers, and what `check` says of the certificate that it writes.
certified() {
    rvfence solve "$1" "$2" -q --cert "$own/certificate.json" && rvfence check "$1" "$2" "$own/certificate.json"
}

# What `solve` says of a test, prices in a file or here, and further words, but for an execution; and where it says
# something else by so many workers, that.
by_workers() {
    local prices=$2 workers said first=''
    [[ $prices != {* ]] || { echo "$prices" >"$own/prices.json" && prices=$own/prices.json; }
    for workers in '' '--workers 1' '--workers 2' '--workers 4' '--workers 16'; do
        said=$(rvfence solve -q "$1" "$prices" "${@:3}" $workers 2>&1; echo "status $?")
        [[ -n $first ]] || { first=$said && sed '/^{/d' <<<"$said"; }
        [[ $said == "$first" ]] || echo "with $workers: $said"
    done
}

# A test in the printed form without its documentation.
printed() { sed '1n; /^{/,$!d' "$1"; }

# A file with blanks behind it, up to so many bytes.
padded() { cat "$2" && head -c $(($1 - $(wc -c <"$2"))) /dev/zero | tr '\0' ' '; }

# The commands, and the options of one, as help has them.
commands() { rvfence --help | sed -n '/^Commands:/,/^$/s/^  \([a-z]*\) .*/\1/p'; }
options_of() { rvfence "$1" --help | sed '1,/^Options:/d' | grep -oP '^ +(-\w, )?\K--[a-z-]+' | sort -u; }

# What bash completes behind these words, of which the last is begun, a line each.
completed() {
    source <(rvfence completions bash)
    COMP_WORDS=(rvfence "$@")
    COMP_CWORD=$#
    _rvfence
    printf '%s\n' "${COMPREPLY[@]}" | sed '/^$/d' | sort
}

# What scripts/install says that puts the program into the folder $own.
installed() {
    RVFENCE_PROGRAM=$(readlink -f "$(command -v rvfence)") DESTDIR=$own "$top/scripts/install" "$@" 2>&1 |
        sed "s|$own||"
}
