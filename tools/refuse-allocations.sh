#!/usr/bin/env bash
# Refuses each request for memory in turn, one a run, and looks for an answer that takes the place of want of memory.
#
#   tools/refuse-allocations.sh program [WORD..] < INPUT
#       runs the program on these words, or another one that $PROGRAM names. Where a request was refused it must end with status 2, with the line
#       `out of memory` and nothing else; where none was, as it ends with all memory that it asks for. `explain` of several files has then
#       printed what it tells of the first of them, whole, or nothing; at some requests it must have printed some, unless `--journal`, `--runs`
#       or a document holds all back. `serve` has sent the answers to the first messages, whole.
#   tools/refuse-allocations.sh tests CRATE [WORD]
#       runs each test of a crate that has WORD in its name. Where a request was refused it must end with the error that
#       says so, which it carries out by `?`; where none was, it must pass. A failed assertion is a wrong answer.
#   tools/refuse-allocations.sh all
#       does so to the program on its stored run and on runs of each command on files of examples/, and to all tests that have
#       `memory` in their names, side by side. Tests are there for what no command reaches.
#
# A refused request of which nothing comes is a wrong answer too, save where one of a few functions of the library was asking, whose names
# stand below. Then the program must end as with all memory, and the test must pass; these are counted.
#
# It runs what `rt run` and `rt test` built, with the help of a C compiler ($CC, else cc) and of addr2line, which comes with it: malloc and
# realloc of tools/refuse_allocation.c stand before those of the C library. A program is run once for each request. A test is run once,
# and each request is refused in a copy of its process, so it must have one thread. The same without a C compiler, but with a build for
# each request: `rt try --fail-alloc N` and `rt try --test --fail-alloc N`.
set -euo pipefail

top=$(cd "$(dirname "$0")/.." && pwd)
work=$(mktemp -d)
trap 'rm -rf "$work"' EXIT
"${CC:-cc}" -O2 -Wall -shared -fPIC -o "$work/refuse.so" "$top/tools/refuse_allocation.c"

# The most requests that one run may make before this gives up.
most=100000

# The functions of the library that do with less, or without, where memory is refused. `collect` first asks for as much as its iterator may
# need, and where that is refused, for less. A proved program shows what grows alone, without who called it: a list of characters, which
# `strsim` alone makes.
do_with_less=(
    strsim::chars_of
    'std_alloc::vec::Vec::grow_amortized::<#28e7361b5d4ae39d>'
)

fail() {
    echo "$1" >&2
    sed 's/^/    /' "$work/out" "$work/err" >&2
    exit 1
}

# run N PROGRAM WORD..: with the N-th request refused, or none if N is 0. Leaves status, out, err and, if one was refused, mark.
run() {
    local number=$1
    shift
    rm -f "$work/mark"
    status=0
    REFUSE_ALLOCATION=$number REFUSE_MARK="$work/mark" LD_PRELOAD="$work/refuse.so" \
        "$@" <"$work/in" >"$work/out" 2>"$work/err" || status=$?
}

# ended_as_wanted STATUS: whether the program ended so, with the output that it has with all memory.
ended_as_wanted() {
    [ "$status" = "$1" ] && cmp -s "$work/out" "$work/wanted-out" && cmp -s "$work/err" "$work/wanted-err"
}

# does_with_less PROGRAM PLACES: whether a function of the list was asking at these places of the program, the innermost first.
does_with_less() {
    local each
    asking=$(xargs -r addr2line -f -e "$1" <<<"$2" | sed -n 'p;n' | grep -vxE -m 1 'rattle_(re)?alloc' || echo "an unknown place")
    for each in "${do_with_less[@]}"; do
        [ "$asking" != "$each" ] && [ "${asking%%::<*}" != "$each" ] || return 0
    done
    return 1
}

# said_of NUMBER: of how many refusals nothing came.
said_of() {
    [ "$1" = 0 ] || echo " but $1, of which nothing came"
}

# How a report for people ends, behind which another one follows.
closing='^(nothing found|refused .*|syntax .*|(certificate|journal|script) line .*)$'

# file_of: the file of a line of a form for programs.
file_of() {
    sed -E 's/^\{"version":2,"kind":"[a-z]*","file":"([^"]*)".*/\1/; s/^([^:{]*):.*/\1/'
}

# has_first_parts WORD..: whether what was printed is what is told of the first files, whole, and others follow.
has_first_parts() {
    local size
    size=$(stat -c %s "$work/out")
    if [ "${1:-}" = serve ]; then
        cmp -s -n "$size" "$work/out" "$work/wanted-out" &&
            [[ "$(tail -c "+$((size + 1))" "$work/wanted-out" | head -c 14)" =~ ^(Content-Length)?$ ]]
        return
    fi
    [ "${1:-}" = explain ] && cmp -s -n "$size" "$work/out" "$work/wanted-out" || return 1
    if [ "$size" = "$(stat -c %s "$work/wanted-out")" ]; then
        # (the drifts of C files are put before the lines once more, after all is printed)
        [[ " $* " =~ ' --form short '.*'.c ' ]]
        return
    fi
    case " $* " in
    *" --journal "* | *" --runs "* | *" sarif "* | *" html "*) return 1 ;;
    *" --form lines "* | *" --form short "*)
        [ "$(tail -n 1 "$work/out" | file_of)" != "$(tail -c "+$((size + 1))" "$work/wanted-out" | head -n 1 | file_of)" ] ;;
    *)
        # (an empty line comes after each report on a file, and after the drifts of C files, which stand before these)
        [ -z "$(tail -n 1 "$work/out")" ] || return 1
        tail -n 2 "$work/out" | head -n 1 | grep -qE "$closing" || ! grep -E '^[a-z]+\[' "$work/out" | grep -qvE '^(warning|note)\[C[0-9]'
        ;;
    esac
}

# has_several_parts WORD..: whether something is told of several files, one behind the other.
has_several_parts() {
    [ "${1:-}" != serve ] || return 0
    [ "${1:-}" = explain ] || return 1
    case " $* " in
    *" --journal "* | *" --runs "* | *" sarif "* | *" html "*) return 1 ;;
    *" --form lines "* | *" --form short "*) [ "$(file_of <"$work/wanted-out" | uniq | wc -l)" -gt 1 ] ;;
    *) tail -n 1 "$work/wanted-out" | grep -qE ' (in|of) [0-9]+ files$' ;;
    esac
}

try_program() {
    local program=${PROGRAM:-$top/crates/fltstack/out/fltstack}
    [ -x "$program" ] || fail "there is no $program: \`rt run\` in crates/fltstack makes it"
    run 0 "$program" "$@"
    local wanted=$status spared=0 begun=0
    cp "$work/out" "$work/wanted-out"
    cp "$work/err" "$work/wanted-err"
    for ((number = 1; number <= most; number++)); do
        run "$number" "$program" "$@"
        if [ ! -e "$work/mark" ]; then
            ended_as_wanted "$wanted" ||
                fail "no request refused: status $status in place of $wanted, or another output"
            [ "$begun" -gt 0 ] || ! has_several_parts "$@" || fail "no first part is printed where a later request is refused"
            echo "fltstack $*: $((number - 1)) requests refused in turn: out of memory each time$(said_of "$spared"), else status $wanted" \
                "$([ "$begun" = 0 ] || echo "($begun behind first parts)")"
            return
        elif ended_as_wanted "$wanted"; then
            does_with_less "$program" "$(cat "$work/mark")" || fail "request $number refused in $asking: nothing came of it"
            spared=$((spared + 1))
        else
            [ "$status" = 2 ] && [ "$(cat "$work/err")" = "out of memory" ] ||
                fail "request $number refused: status $status, and not \`out of memory\`"
            if [ -s "$work/out" ]; then
                has_first_parts "$@" || fail "request $number refused: something else stands there than whole first parts"
                begun=$((begun + 1))
            fi
        fi
    done
    fail "$most requests were refused, and there are more"
}

try_test() {
    local program=$1 name=$2 spared=0 status=0 number ended places said
    rm -rf "$work/copies"
    mkdir "$work/copies"
    REFUSE_EACH=$work/copies LD_PRELOAD="$work/refuse.so" "$program" "$name" <"$work/in" >"$work/out" 2>"$work/err" || status=$?
    [ "$status" = 0 ] || fail "$name, no request refused: status $status"
    # All but those that were carried out.
    while read -r number ended places; do
        said=${places#*: } places=${places%%: *}
        [ "$ended" = 0 ] || fail "$name, request $number refused: status $ended, and not running out of memory: $said"
        does_with_less "$program" "$places" || fail "$name, request $number refused in $asking: nothing came of it"
        spared=$((spared + 1))
    done < <(grep -vE '^[0-9]+ 101 [0-9a-f ]*: error: (OutOfMemory|AllocError|AllocFailed)' "$work/copies/log")
    echo "$name: $(wc -l <"$work/copies/log") requests refused in turn$(said_of "$spared")"
}

try_tests() {
    local crate=$1 word=${2:-} names name
    local program=$top/crates/$crate/out/${crate}_tests
    [ -x "$program" ] || fail "there is no $program: \`rt test\` in crates/$crate makes it"
    names=$("$program" --list | sed -n 's/: test$//p' | grep -F -- "$word") || fail "no test has $word in its name"
    for name in $names; do
        try_test "$program" "$name"
    done
}

# Runs of the program in examples/, of each command. A search for runs asks for memory thousands of times: two short ones are enough.
runs=(
    "check deferred_writes.flt deferred_writes.cert"
    "check two_locks.flt two_locks.cert"
    "check pending_reads.flt pending_reads_full.cert"
    "thin pending_reads.flt pending_reads_full.cert"
    "thin two_locks.flt two_locks.cert"
    "extract c/counts_opens.c"
    "extract --map c/counts_opens.c"
    "format two_locks.flt"
    "format --check stream_context_broken.flt pending_reads.script gone.flt"
    "analyse reads_wait_for_a_write.flt"
    "analyse stream_context_broken.flt"
    "run pending_reads_detached.script pending_reads.flt"
    "run stream_context.script stream_context.flt"
    "replay reads_wait_for_a_write.journal reads_wait_for_a_write.flt"
    "replay post_create_policy.journal post_create_policy.flt"
    "replay deferred_writes.journal deferred_writes.flt"
    "replay two_filters.journal no_fast_io.flt deferred_writes.flt"
    "replay --timeline --svg /dev/null background_scan.journal background_scan.flt"
    "explain leaked_context.flt"
    "explain no_fast_io_broken.flt pass_through.flt"
    "explain --states 1 two_locks_broken.flt"
    "explain --states 1 completion_context_broken.flt"
    "explain --stack stream_context_broken.flt pending_reads.flt"
    "explain no_fast_io_broken.flt gone.flt"
    "explain --form sarif gone.flt no_fast_io_broken.flt"
    "explain --form lines readers_and_a_writer_broken.flt"
    "explain --form lines no_fast_io_broken.flt stream_context_broken.flt"
    "explain --form short no_fast_io_broken.flt stream_context_broken.flt"
    "explain --journal /dev/null no_fast_io_broken.flt pass_through.flt"
    "explain --form sarif stream_context_broken.flt"
    "explain --form html stream_context_broken.flt pass_through.flt"
    "explain --form lines --runs no_fast_io_broken.flt pass_through.flt"
    "explain --form sarif --runs leaked_context.flt gone.flt"
    "explain warnings/w01_three_locks.flt"
    "explain --states 1 warnings/w01_turned_locks.flt"
    "explain c/ctx_broken.c c/kit.h"
    "explain --states 1 c/ctx_drifted.c leaked_context.flt"
    "explain --strict --form short c/ctx_drifted.c leaked_context.flt"
    "explain --strict warnings/w02_inserted_under_a_lock.flt warnings/w04_changed_without_the_lock.flt"
    "explain --form lines warnings/w05_goes_on_with_its_own.flt warnings/w06_never_queued.flt"
    "compare c/ctx_drifted.c c/ctx.c"
    "draft --functions --define NULL=0 --undef FlagOn --include c/drivers c/drivers/scanner.c c/ctx.c"
    "emit pending_reads.flt"
    "emit --part user pending_reads.flt pending_reads.cert"
    "emit --part inf deny_writes.flt"
    "emit --into /dev/null pending_reads.flt"
    "explain leaked_context.timeline"
    "explain pending_reads_detached.script pending_reads.flt"
    "explain R02"
)

# Nothing sets the context that this gets, so that it is looked at once more with a callback that does.
never_set='filter never_set altitude 370020
pre read {
  if FltGetInstanceContext c0 { }
  return NO_CALLBACK
}'

# The crates with tests that are there for memory.
crates_of_tests=(flt_tests flt_c_tests flt_stack_tests)

try_all() {
    local -a started=() words=()
    local each status=0
    "$0" program <"$top/crates/fltstack/stdin" &
    started+=($!)
    for each in "${runs[@]}"; do
        read -ra words <<<"$each"
        (cd "$top/examples" && "$top/tools/refuse-allocations.sh" program "${words[@]}" </dev/null) &
        started+=($!)
    done
    "$0" program explain - <<<"$never_set" &
    started+=($!)
    # The header and the INF file are there from the start, so that each run says the same.
    mkdir "$work/driver"
    : >"$work/driver/pending_reads_user.h"
    : >"$work/driver/pending_reads.inf"
    (cd "$top/examples" && "$top/tools/refuse-allocations.sh" program emit --into "$work/driver" pending_reads.flt pending_reads.cert </dev/null) &
    started+=($!)
    "$top/tools/try-serve" --frames "$top/examples/serve/short.session" | "$0" program serve &
    started+=($!)
    for each in "${crates_of_tests[@]}"; do
        "$0" tests "$each" memory &
        started+=($!)
    done
    for each in "${started[@]}"; do
        wait "$each" || status=1
    done
    return $status
}

: >"$work/in"
: >"$work/out"
: >"$work/err"
case ${1:-} in
program)
    shift
    cat >"$work/in"
    try_program "$@"
    ;;
tests)
    [ $# -ge 2 ] || fail "usage: tools/refuse-allocations.sh tests CRATE [WORD]"
    shift
    try_tests "$@"
    ;;
all)
    [ $# -eq 1 ] || fail "usage: tools/refuse-allocations.sh all"
    try_all
    ;;
*)
    fail "usage: tools/refuse-allocations.sh program [WORD..] | tests CRATE [WORD] | all"
    ;;
esac
