# shellcheck shell=sh
# Builds a proved program where it is not built or a source below it is newer, and runs it. For the scripts beside it:
#     . "$bin/program.sh"
#     make_ready NAME TRIAL [-- WORD..]     builds it where it has to be, and sets `program` to its file; where it is not
#                                           built yet, words that it would not take are refused at once
#     run_program NAME TRIAL -- WORD..      the same, and runs it; with words for help or the version nothing is built
# TRIAL is words, parted by blanks, that stand before texts with no name, so that the program ends with 6, a read fault,
# which no failed build ends with. The one word --build builds the program and runs nothing.
# bin/run_program.py tells on standard error what an end means; where there is no python3 the program runs alone.

# shellcheck disable=SC2154 # the script beside this file sets it
top=$(CDPATH='' cd -- "$bin/.." && pwd) || exit 1

# The crates of this repository that a program stands on, itself among them.
crates_of() {
    awk -F: -v program="$1" '
        function visit(name, parts, count, place) {
            if (seen[name]++ || !(name in below)) return
            count = split(below[name], parts, " ")
            for (place = 1; place <= count; place++) visit(parts[place])
            print name
        }
        { sub(/#.*/, "") }
        NF == 2 { split($1, words, " "); below[words[1]] = $2 }
        END { visit(program) }' "$top/crates.txt"
}

is_fresh() {
    [ -x "$program" ] && [ -f "$stamp" ] && [ -z "$(find "$top/crates.txt" -newer "$stamp")" ] || return 1
    for each in $crates; do
        [ -z "$(find "$top/crates/$each" -name out -prune -o -type f \( -name '*.rt' -o -name '*.antt' \) \
            -newer "$stamp" -print -quit)" ] || return 1
    done
}

# The crates of which no library stands here, and those alone cost a proof.
unproved() {
    for each in $crates; do
        [ -f "$top/crates/$each/out/rlib/stamp" ] || [ "$each" = "$name" ] || echo "$each"
    done
}

# How many minutes the proofs of these crates take, by the table of the gate, where as many run at once as there are processors.
minutes_of() {
    processors=$(getconf _NPROCESSORS_ONLN 2>/dev/null || echo 1)
    echo "$@" | tr ' ' '\n' | awk -F'|' -v processors="$processors" '
        FNR == NR { gsub(/ /, "", $2); minutes[$2] = $3; next }
        { sum += ($1 in minutes) ? minutes[$1] : 1 }
        END { printf "%d", sum / processors + 1 }' "$top/docs/gate-table.txt" -
}

# Tells each crate as its library is put in place, by the file's change after this one was made.
tell_crates() {
    told=' '
    count=0
    while sleep 1; do
        for each in $crates; do
            case $told in *" $each "*) continue ;; esac
            if [ -n "$(find "$top/crates/$each/out/rlib/stamp" -cnewer "$1" 2>/dev/null)" ]; then
                told="$told$each "
                count=$((count + 1))
                echo "$name: $count of $2 proved: $each" >&2
            fi
        done
    done
}

stop_build() {
    kill "$teller" 2>/dev/null
    rm -f "$started" "$said"
    echo "$name: interrupted; what was proved is kept, and the next call goes on from there" >&2
    trap - INT TERM
    kill -s "$1" $$
}

build() {
    started=$(mktemp) && said=$(mktemp) || return 1
    rt version 2>/dev/null | sed 's/^/proved with /' >"$started"
    wanted=$(unproved)
    total=$(echo "$wanted" | grep -c .)
    echo "$name: builds the program first: $total of the $(echo "$crates" | grep -c .) crates of it are to be proved, which takes some" >&2
    # The names are parted at their blanks.
    # shellcheck disable=SC2086
    echo "$name: $(minutes_of $wanted) minutes or more; Ctrl-C keeps what was proved.${hint:+ $hint}" >&2
    tell_crates "$started" "$total" &
    teller=$!
    trap 'stop_build INT' INT
    trap 'stop_build TERM' TERM
    # The trial's words are parted at their blanks.
    # shellcheck disable=SC2086
    (cd "$crate" && rt run -- $trial '' '' >"$said" 2>&1)
    status=$?
    trap - INT TERM
    kill "$teller" 2>/dev/null
    wait "$teller" 2>/dev/null
    if [ "$status" -ne 6 ] || [ ! -x "$program" ]; then
        cat "$said" >&2
        rm -f "$started" "$said"
        return 1
    fi
    rm -f "$said"
    mv -f "$started" "$stamp"
}

place_of() {
    name=$1
    crate=$top/crates/$name
    program=$crate/out/$name
    stamp=$crate/out/$name.built
}

make_ready() {
    place_of "$1"
    trial=$2
    hint=
    [ "$name" != sndplan ] || hint='bin/try runs it in a minute or two, unproved.'
    crates=$(crates_of "$name")
    if is_fresh; then return; fi
    # Words that no program takes need no program.
    if [ $# -gt 3 ] && [ "$4" != --build ] && command -v python3 >/dev/null; then
        shift 3
        python3 "$bin/run_program.py" "$name" -- "$@" || exit
    fi
    if ! build; then
        echo "$name: the program was not built" >&2
        exit 1
    fi
}

# Whether words ask for help or the version.
asks_help() {
    case ${1-help} in help | version | --version) return 0 ;; esac
    for each in "$@"; do
        case $each in --) return 1 ;; --help | -h) return 0 ;; esac
    done
    return 1
}

run_program() {
    place_of "$1"
    its_trial=$2
    shift 3
    has_words=$(command -v python3)
    if ! { [ "$has_words" ] && asks_help "$@"; }; then
        make_ready "$name" "$its_trial" -- "$@"
        [ "${1-}" != --build ] || exit 0
        [ "$has_words" ] || exec "$program" "$@"
    fi
    exec python3 "$bin/run_program.py" "$name" "$program" -- "$@"
}
