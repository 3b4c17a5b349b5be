#!/usr/bin/env bash
# Runs the program on all of examples/ and compares what it says with examples/expected.
#
#   tools/run-examples.sh [PROGRAM]
#       runs PROGRAM, else what `rt ci`, or `rt run` in crates/fltstack, made, and pipes each journal that `run` prints into `replay`,
#       which must call it legal. Each accepted filter is also driven by scripts in which operations of each kind arrive, with a
#       cancel, a detach or a refused choice at each place, and by several workers with some of these in the midst. Each journal of
#       examples/verdicts/ must have the verdict that stands above it. `tools/run-cases` runs those of examples/cases/. Each text is its own
#       layout. Each report of a broken filter has a run, and `replay` says the same of the journal that `explain --journal` writes of it;
#       of an accepted filter there is none. Ends with status 1 at any difference: another exit status, another output, a byte on the standard
#       error, a journal that isn't legal, or a file of examples/ that no line of `expected` names and no compiler reads by
#       `tools/compile-examples`. It works on as many processors as there are.
set -euo pipefail

top=$(cd "$(dirname "$0")/.." && pwd)
program=$(realpath -m "${1:-$top/crates/fltstack/out/fltstack}")
shares=$(nproc)
works=$(mktemp -d)
trap 'kill $(jobs -p) 2>/dev/null || true; rm -rf "$works"' EXIT
cd "$top/examples"

[ -x "$program" ] || {
    echo "there is no $program: `rt run` in crates/fltstack makes it" >&2
    exit 1
}

# Of one share of the work, in a process of its own: its folder, its number, how many pieces there were, and what it counted.
work=
share=0
pieces=0
runs=0
differences=0
# The filters that have a certificate.
mapfile -t accepted < <(sed -n 's/^analyse \([^ ]*\) = 0 .*/\1/p' expected)

# is_mine: whether the next piece of the work belongs to this share.
is_mine() {
    pieces=$((pieces + 1))
    [ $((pieces % shares)) = "$share" ]
}

differs() {
    echo "$1" >&2
    differences=$((differences + 1))
}

# wants WORDS STATUS ANSWER: the program says so.
wants() {
    local words=$1 wanted=$2 answer=$3 status=0
    local -a each
    read -ra each <<<"$words"
    case $answer in
    @*) cp "${answer#@}" "$work/wanted" ;;
    *) printf '%s\n' "$answer" >"$work/wanted" ;;
    esac
    "$program" "${each[@]}" </dev/null >"$work/out" 2>"$work/err" || status=$?
    runs=$((runs + 1))
    if [ "$status" != "$wanted" ]; then
        differs "$words: status $status in place of $wanted"
    fi
    if [ -s "$work/err" ] || ! cmp -s "$work/out" "$work/wanted"; then
        differs "$words: another output, < as expected and > as printed, and the standard error:"
        diff "$work/wanted" "$work/out" | sed 's/^/    /' >&2 || true
        sed 's/^/    /' "$work/err" >&2
    fi
}

# is_legal WORDS: `replay` calls the journal that was just printed legal, on the filters of these words of `run`.
is_legal() {
    local -a each
    read -ra each <<<"$1"
    each=("${each[@]:1}")
    while [[ ${each[0]} == --* ]]; do
        [ "${each[0]}" != --workers ] || each=("${each[@]:1}")
        each=("${each[@]:1}")
    done
    runs=$((runs + 1))
    [ "$("$program" replay - "${each[@]:1}" <"$work/out" 2>&1)" = legal ] || differs "$1: replay doesn't call its journal legal"
}

# has_journal WORDS: the report that was just printed has a run, `explain --journal` writes it, `replay` says the same of it on these
# files, and it is no longer than the journal beside a single file.
has_journal() {
    local said beside
    local -a each asked=()
    read -ra each <<<"$1"
    each=("${each[@]:1}")
    if [ "${each[0]}" = --stack ]; then
        asked=(--stack)
        each=("${each[@]:1}")
    fi
    beside=${each[0]%.flt}.journal
    said=$(sed -n '/^   = journal: breaks/{s/^   = journal: \(breaks V[1-8] at [0-9]*\), .*/\1/p;q}' "$work/out")
    rm -f "$work/found"
    "$program" explain "${asked[@]}" --journal "$work/found" "${each[@]}" >/dev/null 2>&1 || true
    runs=$((runs + 1))
    [ -n "$said" ] && [ "$("$program" replay "$work/found" "${each[@]}" 2>&1)" = "$said" ] ||
        differs "$1: replay doesn't say of its journal that it '$said'"
    [ ${#each[@]} -gt 1 ] || [ "$(wc -l <"$work/found")" -le "$(wc -l <"$beside")" ] || differs "$1: its journal is longer than $beside"
}

# has_no_journal FILE: `explain` finds nothing wrong with a filter, writes no journal, and says so.
has_no_journal() {
    local status=0
    rm -f "$work/found"
    "$program" explain --journal "$work/found" "$1" >"$work/out" 2>"$work/err" || status=$?
    runs=$((runs + 1))
    [ "$status" = 0 ] && [ "$(tail -1 "$work/out")" = 'nothing found' ] && [ ! -e "$work/found" ] &&
        [ "$(cat "$work/err")" = "no run is found: $work/found is as it was" ] ||
        differs "explain --journal $1: status $status, or a journal"
}

# What arrives in each script of the sweep, with an operation of each kind that LANGUAGE has.
arrivals=('create irp 0' 'read irp 0' 'read fast 0' 'write irp 0' 'write fast 1' 'read irp 1' 'read irp 0' 'cleanup irp 0')
for operation in $(sed -n 's/^| `\([a-z_]*\)` | `IRP_MJ_[A-Z_]*` | .* |$/\1/p' "$top/docs/LANGUAGE.md"); do
    [[ " ${arrivals[*]}" == *" $operation "* ]] || arrivals+=("$operation irp 0")
done

# script_with PLACE LINE..: all arrivals, with these lines before the one of this place (from 0), or behind the last.
script_with() {
    local place=$1 number=0 arrival
    shift
    for arrival in "${arrivals[@]}"; do
        [ "$number" != "$place" ] || printf '%s\n' "$@"
        printf 'arrive %s\n' "$arrival"
        number=$((number + 1))
    done
    [ "$number" != "$place" ] || printf '%s\n' "$@"
}

# drives WHAT WORKERS FILE..: `run` takes the script in $work/script on these files, by so many workers, prints a journal, and `replay`
# calls it legal.
drives() {
    local what="$1 by $2 workers" workers=$2 status=0
    shift 2
    "$program" run --workers "$workers" "$work/script" "$@" </dev/null >"$work/out" 2>"$work/err" || status=$?
    runs=$((runs + 1))
    if [ "$status" != 0 ] || [ -s "$work/err" ]; then
        differs "run of $*, with $what: status $status"
        return
    fi
    [ "$("$program" replay "$work/out" "$@" 2>&1)" = legal ] || differs "run of $*, with $what: replay doesn't call its journal legal"
}

# sweep FILE..: scripts with a cancel, a detach or a refusal at each place, on these files together; by one worker, and in the midst by
# several.
sweep() {
    local place file altitude serial workers
    for ((place = 0; place <= ${#arrivals[@]}; place++)); do
        for ((serial = 0; serial < place; serial++)); do
            script_with "$place" "cancel $serial" >"$work/script"
            drives "cancel $serial at place $place" 1 "$@"
        done
        for file in "$@"; do
            altitude=$(sed -n 's/^filter .* altitude \([0-9]*\).*/\1/p' "$file")
            script_with "$place" "detach $altitude" >"$work/script"
            drives "detach $altitude at place $place" 1 "$@"
        done
        script_with 0 "refuse $place" >"$work/script"
        drives "refuse $place" 1 "$@"
    done
    for file in "$@"; do
        altitude=$(sed -n 's/^filter .* altitude \([0-9]*\).*/\1/p' "$file")
        for workers in 2 4 8 16; do
            script_with 5 'cancel 2' 'refuse 3' "detach $altitude" 'cancel 6' >"$work/script"
            drives "cancels and detach $altitude in the midst" "$workers" "$@"
        done
    done
}

# all_lowered WORKERS COUNT FILE..: so many reads arrive, by so many workers; the journal is legal, and each read arrives and is lowered.
all_lowered() {
    local workers=$1 count=$2 entry
    shift 2
    yes 'arrive read irp 0' | head -n "$count" >"$work/script" || true
    drives "$count reads" "$workers" "$@"
    for entry in arrive lower; do
        [ "$(grep -c "^$entry " "$work/out")" = "$count" ] || differs "$count reads on $* by $workers workers: another number of $entry"
    done
}

# has_verdict WHAT VERDICT FILE..: `replay` says so of the journal in $work/journal, and nothing else.
has_verdict() {
    local what=$1 verdict=$2 status=0 wanted=1
    shift 2
    [ "$verdict" != legal ] || wanted=0
    "$program" replay "$work/journal" "$@" </dev/null >"$work/out" 2>"$work/err" || status=$?
    runs=$((runs + 1))
    [ "$status" = "$wanted" ] && [ ! -s "$work/err" ] && [ "$(cat "$work/out")" = "$verdict" ] ||
        differs "$what: $(cat "$work/out" "$work/err") (status $status) in place of $verdict"
}

# judge WHAT VERDICT FILE..: has this verdict the journal, with these files in either order?
judge() {
    local what=$1 verdict=$2 file
    local -a turned=()
    shift 2
    echo end >>"$work/journal"
    has_verdict "$what" "$verdict" "$@"
    [ $# -gt 1 ] || return 0
    for file in "$@"; do
        turned=("$file" "${turned[@]}")
    done
    has_verdict "$what, files in turned order" "$verdict" "${turned[@]}"
}

# judges FILE: all journals of a file. It has the texts of one filter or more, each from its word `filter` on, and then journals: the
# verdict behind `==`, and the entries. The next text begins the filters of the journals behind it.
judges() {
    local line number=0 at=0 verdict='' target=''
    local -a filters=()
    while IFS= read -r line; do
        number=$((number + 1))
        case $line in
        '' | '#'*) ;;
        '== '*)
            [ -z "$verdict" ] || judge "$1:$at" "$verdict" "${filters[@]}"
            verdict=${line#== }
            at=$number
            target=$work/journal
            echo 'fltjournal 1' >"$target"
            ;;
        'filter '*)
            if [ -n "$verdict" ]; then
                judge "$1:$at" "$verdict" "${filters[@]}"
                filters=()
                verdict=
            fi
            target=$work/${#filters[@]}.flt
            filters+=("$target")
            printf '%s\n' "$line" >"$target"
            ;;
        *) printf '%s\n' "$line" >>"$target" ;;
        esac
    done <"$1"
    [ -n "$verdict" ] && judge "$1:$at" "$verdict" "${filters[@]}" || differs "$1: no journal at its end"
}

# answers LINE: the program does what a line of `expected` says, and what else holds of such a run.
answers() {
    local line=$1 words rest
    words=${line%% = *}
    rest=${line#* = }
    wants "$words" "${rest%% *}" "${rest#* }"
    case $words' '${rest%% *} in
    'run '*' 0') is_legal "$words" ;;
    'explain --stack '*.flt' 1') has_journal "$words" ;;
    'explain --'*) ;;
    'explain '*.flt' 1') has_journal "$words" ;;
    'analyse '*' 0')
        has_no_journal "${words#analyse }"
        sweep "${words#analyse }"
        ;;
    esac
}

# work_on SHARE: does the pieces of this share, and keeps what it counted.
work_on() {
    local line number workers file laid
    share=$1
    work=$works/$1
    mkdir "$work"
    while IFS= read -r line; do
        case $line in
        '' | '#'*) ;;
        *' = '[012]' '*) ! is_mine || answers "$line" ;;
        *) ! is_mine || differs "expected has a line that can't be read: $line" ;;
        esac
    done <expected
    # Each accepted filter above the next one.
    for ((number = 0; number + 1 < ${#accepted[@]}; number += 2)); do
        ! is_mine || sweep "${accepted[number]}" "${accepted[number + 1]}"
    done
    for workers in 1 2 4 8 16; do
        ! is_mine || all_lowered "$workers" 200 stream_context.flt
    done
    for file in verdicts/*; do
        ! is_mine || judges "$file"
    done
    # Each text has its own layout.
    if is_mine; then
        runs=$((runs + 1))
        laid=$("$program" format --check ./*.flt samples/*.flt warnings/*.flt 2>&1) || true
        [ -z "$laid" ] || differs "format --check: $laid"
    fi
    echo "$runs $differences" >"$work/counted"
}

for ((number = 0; number < shares; number++)); do
    work_on "$number" &
done
wait
for ((number = 0; number < shares; number++)); do
    read -r counted failed <"$works/$number/counted"
    runs=$((runs + counted))
    differences=$((differences + failed))
done

# The words and the answers' files of each line.
sed -n 's/^\([^#].*\) = [012] @\{0,1\}\(.*\)/ \1 \2 /p' expected >"$works/named"
for file in * c/* c/drivers/* samples/*; do
    case $file in
    README.md | expected | verdicts | cases | serve | c | c/kit.h | c/drivers | c/drivers/fltKernel.h | samples/*.c) ;;
    *) grep -qF " $file " "$works/named" || differs "$file: no line of expected has it" ;;
    esac
done

status=0
if [ "$differences" = 0 ]; then
    echo "$runs runs as expected"
else
    echo "$differences differences in $runs runs" >&2
    status=1
fi
"$top/tools/run-cases" ${1:+"$program"} || status=1
exit "$status"
