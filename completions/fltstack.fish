# What fish offers after `fltstack`. `tools/write-completions` writes this file.

# The operands of a command before the cursor; the status is 1 after another command.
function __fltstack_operands --argument-names command
    set -l words (commandline -opc)
    test "$words[2]" = "$command"; or return 1
    set -l is_value no
    set -l is_operand no
    for word in $words[3..]
        if test $is_value = yes
            set is_value no
        else if test $is_operand = yes; or not string match -qr -- '^-.' $word
            echo -- $word
        else if test $word = --
            set is_operand yes
        else if contains -- $word --form --color --states --journal --allow --workers --svg --part --into --define --undef --include
            set is_value yes
        end
    end
end

# Whether an operand of a command is at the cursor, with so many before it, or at least so many where a `+` follows.
function __fltstack_at --argument-names command number
    set -l operands (__fltstack_operands $command); or return 1
    if string match -q '*+' -- $number
        test (count $operands) -ge (string trim --chars=+ -- $number)
    else
        test (count $operands) -eq $number
    end
end

# Whether a command is given, and none of some options.
function __fltstack_after --argument-names command
    set -l words (string replace -r -- '=.*' '' (commandline -opc))
    test "$words[2]" = "$command"; or return 1
    # The value of the last word may be at the cursor.
    contains -- $words[-1] --form --color --states --journal --allow --workers --svg --part --into --define --undef --include; and set -e words[-1]
    for option in $argv[2..]
        contains -- $option $words; and return 1
    end
    return 0
end

# Whether no command is given.
function __fltstack_first
    test (count (commandline -opc)) -eq 1
end

# The folders, and the files whose names end so.
function __fltstack_files
    set -l endings (string join '|' -- (string escape --style=regex -- $argv))
    complete -C "__fish_command_without_completions "(commandline -ct | string escape -n) | string match -r -- "^.*(?:/|$endings)\$"
end

# The names of pages, each with its title.
function __fltstack_pages
    printf '%s\t%s\n' \
        R01 'context not held where used' \
        R02 'context held at end' \
        R03 'held variable overwritten' \
        R04 'operation not held where used' \
        R05 'operation held at end' \
        R06 'status not legal' \
        R07 'call above its level' \
        R08 'call not legal at this place' \
        R09 'lock not the latest taken' \
        R10 'lock kept at end' \
        R11 'lock taken twice' \
        R12 'lock lists differ where paths meet' \
        R13 'hand-over of a variable not held' \
        R14 'certificate does not cover' \
        R15 'end without status' \
        W00 'a comment that allows nothing' \
        W01 'locks that no order allows' \
        W02 'given away under a lock' \
        W03 'pended and left' \
        W04 'a value changed without a lock' \
        W05 'the context that lost is used' \
        W06 'never used or reached' \
        W07 'needed after the last operation' \
        V1 'stale use' \
        V2 'a leak' \
        V3 'settled twice' \
        V4 'not one owner' \
        V5 'a status that isn\'t legal' \
        V6 'above its level' \
        V7 'lock discipline' \
        V8 'not at this place' \
        E01 'a byte that begins no token' \
        E02 'no word and no number' \
        E03 'an unexpected token' \
        E04 'an unknown name' \
        E05 'declared twice' \
        E06 'a limit is exceeded' \
        E07 'a callback is missing' \
        E08 'a variable twice in a call' \
        FltAllocateContext 'a call' \
        FltGetStreamContext 'a call' \
        FltGetInstanceContext 'a call' \
        FltSetStreamContext 'a call' \
        FltSetInstanceContext 'a call' \
        FltDeleteStreamContext 'a call' \
        FltDeleteInstanceContext 'a call' \
        FltDeleteContext 'a call' \
        FltReferenceContext 'a call' \
        FltReleaseContext 'a call' \
        FltCbdqInsertIo 'a call' \
        FltCbdqRemoveNextIo 'a call' \
        FltQueueDeferredIoWorkItem 'a call' \
        FltQueueGenericWorkItem 'a call' \
        FltCompletePendedPreOperation 'a call' \
        FltCompletePendedPostOperation 'a call' \
        KeAcquireSpinLock 'a call' \
        KeReleaseSpinLock 'a call' \
        ExAcquireFastMutex 'a call' \
        ExReleaseFastMutex 'a call' \
        FltAcquirePushLockExclusive 'a call' \
        FltAcquirePushLockShared 'a call' \
        FltReleasePushLock 'a call' \
        WITH_CALLBACK 'a status' \
        SYNCHRONIZE 'a status' \
        NO_CALLBACK 'a status' \
        COMPLETE 'a status' \
        PENDING 'a status' \
        DISALLOW_FASTIO 'a status' \
        FINISHED_PROCESSING 'a status' \
        MORE_PROCESSING_REQUIRED 'a status'
end

# Whether `explain` takes names of pages, unless a file is given before, or files, unless a name of a page is.
function __fltstack_takes --argument-names what
    set -l operands (__fltstack_operands explain); or return 1
    for operand in $operands
        set -l name (string replace -r '^[rwve]' (string upper -- (string sub -l 1 -- $operand)) -- $operand)
        if string match -q -- $name\t'*' (__fltstack_pages)
            test $what = names; or return 1
        else
            test $what = files; or return 1
        end
    end
    return 0
end

complete -c fltstack -f
complete -c fltstack -n '__fltstack_first' -a check -d 'Says whether a certificate covers a filter\'s text'
complete -c fltstack -n '__fltstack_first' -a analyse -d 'Finds the least certificate that covers a filter\'s text'
complete -c fltstack -n '__fltstack_first' -a thin \
    -d 'Leaves of a certificate that covers a filter\'s text only the states that don\'t follow from others'
complete -c fltstack -n '__fltstack_first' -a explain \
    -d 'Says all that is wrong with filters\' texts, where it comes from, how to get there and how to fix it'
complete -c fltstack -n '__fltstack_first' -a run -d 'Drives filters by a script and prints the journal of what happened'
complete -c fltstack -n '__fltstack_first' -a replay -d 'Says whether a journal is a run of the machine on some filters that breaks nothing'
complete -c fltstack -n '__fltstack_first' -a extract -d 'Prints the text that the annotations of C files make'
complete -c fltstack -n '__fltstack_first' -a format -d 'Lays out filters\' texts, with their comments and blank lines'
complete -c fltstack -n '__fltstack_first' -a emit \
    -d 'Prints the C source of the driver that a filter\'s text is, its user\'s header or its INF file'
complete -c fltstack -n '__fltstack_first' -a compare -d 'Reports where the code of C files and their annotations differ'
complete -c fltstack -n '__fltstack_first' -a draft -d 'Lists the functions and the tables of registrations that it can read in plain C'
complete -c fltstack -n '__fltstack_first' -a serve -d 'Serves an editor'
complete -c fltstack -n '__fltstack_first' -a help -d 'Print this message or the help of the given subcommand(s)'
complete -c fltstack -n '__fltstack_first' -s h -l help -d 'Print help'
complete -c fltstack -n '__fltstack_first' -s V -l version -d 'Print version'

# check
complete -c fltstack -n '__fltstack_after check --help' -s h -l help -d 'Print help'
complete -c fltstack -n '__fltstack_at check 0' -a '(__fltstack_files .flt)'
complete -c fltstack -n '__fltstack_at check 1' -a '(__fltstack_files .cert)'

# analyse
complete -c fltstack -n '__fltstack_after analyse --help' -s h -l help -d 'Print help'
complete -c fltstack -n '__fltstack_at analyse 0' -a '(__fltstack_files .flt)'

# thin
complete -c fltstack -n '__fltstack_after thin --help' -s h -l help -d 'Print help'
complete -c fltstack -n '__fltstack_at thin 0' -a '(__fltstack_files .flt)'
complete -c fltstack -n '__fltstack_at thin 1' -a '(__fltstack_files .cert)'

# explain
complete -c fltstack -n '__fltstack_after explain --form' -l form -x -a 'html human lines sarif short' -d 'How it is reported'
complete -c fltstack -n '__fltstack_after explain --color' -l color -x -a 'auto always never' -d 'When reports have colours'
complete -c fltstack -n '__fltstack_after explain --states' -l states -x \
    -d 'How many states the search for runs of a FILE continues from at most'
complete -c fltstack -n '__fltstack_after explain --stack' -l stack -d 'Take the FILEs for the filters of one stack'
complete -c fltstack -n '__fltstack_after explain --journal' -l journal -x -a '(__fltstack_files .journal)' \
    -d 'Write the journal of the first finding that has one into this file'
complete -c fltstack -n '__fltstack_after explain --runs' -l runs \
    -d 'Add to the forms `lines` and `sarif` a run that breaks something because of each finding, where one is found'
complete -c fltstack -n '__fltstack_after explain --strict' -l strict -d 'Exit with 1 where warnings are shown, as where something is found'
complete -c fltstack -n '__fltstack_after explain' -l allow -x -a 'W00 W01 W02 W03 W04 W05 W06 W07 C00 C01 C02 C03 C04 C05' \
    -d 'Leave a kind of warning out, as `W03` or `C02`'
complete -c fltstack -n '__fltstack_after explain --c' -l c -d 'Take each FILE for C, whatever its name ends with'
complete -c fltstack -n '__fltstack_after explain --help' -s h -l help -d 'Print help'
complete -c fltstack -n '__fltstack_takes files' -a '(__fltstack_files .flt .c .h .cc .cpp .cert .journal .script)'
complete -c fltstack -n '__fltstack_takes names' -a '(__fltstack_pages)'

# run
complete -c fltstack -n '__fltstack_after run --workers' -l workers -x -a '1 2 3 4 5 6 7 8 9 10 11 12 13 14 15 16' \
    -d 'How many workers drive them, each in a thread of its own'
complete -c fltstack -n '__fltstack_after run --quiet' -l quiet -d 'Don\'t report the run\'s progress on a terminal'
complete -c fltstack -n '__fltstack_after run --help' -s h -l help -d 'Print help'
complete -c fltstack -n '__fltstack_at run 0' -a '(__fltstack_files .script)'
complete -c fltstack -n '__fltstack_at run 1+' -a '(__fltstack_files .flt)'

# replay
complete -c fltstack -n '__fltstack_after replay --timeline' -l timeline \
    -d 'Show the journal as rows, one for each stretch in which one activation is on'
complete -c fltstack -n '__fltstack_after replay --svg' -l svg -x -a '(__fltstack_files .svg)' -d 'Draw the journal into this file'
complete -c fltstack -n '__fltstack_after replay --help' -s h -l help -d 'Print help'
complete -c fltstack -n '__fltstack_at replay 0' -a '(__fltstack_files .journal)'
complete -c fltstack -n '__fltstack_at replay 1+' -a '(__fltstack_files .flt)'

# extract
complete -c fltstack -n '__fltstack_after extract --map' -l map -d 'Print where each line of the text begins in its file, as `driver.c:12:8'
complete -c fltstack -n '__fltstack_after extract --help' -s h -l help -d 'Print help'
complete -c fltstack -n '__fltstack_at extract 0+' -a '(__fltstack_files .c .h .cc .cpp)'

# format
complete -c fltstack -n '__fltstack_after format --check --write' -l check -d 'Say which files differ from their layout, and change none'
complete -c fltstack -n '__fltstack_after format --check --write' -l write -d 'Write the layouts into the files that differ from them'
complete -c fltstack -n '__fltstack_after format --help' -s h -l help -d 'Print help'
complete -c fltstack -n '__fltstack_at format 0+' -a '(__fltstack_files .flt)'

# emit
complete -c fltstack -n '__fltstack_after emit --part --into --force' -l part -x -a 'source user inf' -d 'The part that is printed'
complete -c fltstack -n '__fltstack_after emit --part --into --force' -l into -x -a '(__fltstack_files /)' \
    -d 'Write all three parts into this folder'
complete -c fltstack -n '__fltstack_after emit --part --into --force' -l force -d 'Replace a source that is there, whoever wrote it'
complete -c fltstack -n '__fltstack_after emit --help' -s h -l help -d 'Print help'
complete -c fltstack -n '__fltstack_at emit 0' -a '(__fltstack_files .flt)'
complete -c fltstack -n '__fltstack_at emit 1' -a '(__fltstack_files .cert)'

# compare
complete -c fltstack -n '__fltstack_after compare --help' -s h -l help -d 'Print help'
complete -c fltstack -n '__fltstack_at compare 0+' -a '(__fltstack_files .c .h .cc .cpp)'

# draft
complete -c fltstack -n '__fltstack_after draft --functions' -l functions -d 'Say of each function whether it can be read'
complete -c fltstack -n '__fltstack_after draft' -l define -x -d 'Define a macro before each FILE, as 1 without VALUE'
complete -c fltstack -n '__fltstack_after draft' -l undef -x \
    -d 'Take a name for no macro at the beginning of each FILE, whatever `--define` says'
complete -c fltstack -n '__fltstack_after draft' -l include -x -a '(__fltstack_files /)' -d 'Look for headers in this folder'
complete -c fltstack -n '__fltstack_after draft --help' -s h -l help -d 'Print help'
complete -c fltstack -n '__fltstack_at draft 0+' -a '(__fltstack_files .c .h .cc .cpp)'

# serve
complete -c fltstack -n '__fltstack_after serve --help' -s h -l help -d 'Print help'

# help
complete -c fltstack -n '__fltstack_at help 0' -a 'check analyse thin explain run replay extract format emit compare draft serve help'
