# What bash offers after `fltstack`. `tools/write-completions` writes this file. It needs bash 4, and nothing else.

# _fltstack_words WORD..: offers those that begin with the word at the cursor.
_fltstack_words() {
    mapfile -t -O "${#COMPREPLY[@]}" COMPREPLY < <(compgen -W "$*" -- "$word")
}

# _fltstack_files ENDING..: offers the folders, and the files whose names end so.
_fltstack_files() {
    local ending
    compopt -o filenames 2> /dev/null
    mapfile -t -O "${#COMPREPLY[@]}" COMPREPLY < <(
        compgen -d -- "$word"
        for ending; do compgen -f -X "!*$ending" -- "$word"; done
    )
}

# Offers the options that aren't given yet or may be given again, and none that excludes one that is given.
_fltstack_options() {
    local option other
    for option in $options; do
        [[ " $given " != *" $option "* || " $repeated " == *" $option "* ]] || continue
        if [[ " $exclusive " == *" $option "* ]]; then
            for other in $exclusive; do [[ " $given " != *" $other "* ]] || continue 2; done
        fi
        _fltstack_words "$option"
    done
}

# What `explain` takes: names of pages unless a file is given before, files unless a name of a page is.
_fltstack_pages_or_files() {
    local operand files=yes names=yes
    for operand in "${operands[@]}"; do
        if [[ " $pages " == *" ${operand^[rwve]} "* ]]; then files=; else names=; fi
    done
    [[ -z $files ]] || _fltstack_files "$@"
    [[ -z $names ]] || _fltstack_words "$pages"
}

_fltstack() {
    local word=${COMP_WORDS[COMP_CWORD]} command=${COMP_WORDS[1]} given= at=2 is_operand= it=
    local options= valued= repeated= exclusive= pages= operands=()
    COMPREPLY=()
    if ((COMP_CWORD == 1)); then
        if [[ $word == -* ]]; then
            _fltstack_words --help --version
        else
            _fltstack_words check analyse thin explain run replay extract format emit compare draft serve help
        fi
        return
    fi
    case $command in
    check)
        options='--help'
        ;;
    analyse)
        options='--help'
        ;;
    thin)
        options='--help'
        ;;
    explain)
        options='--form --color --states --stack --journal --runs --strict --allow --c --help'
        valued='--form --color --states --journal --allow'
        repeated='--allow'
        pages='
            R01 R02 R03 R04 R05 R06 R07 R08 R09 R10 R11 R12 R13 R14 R15 W00 W01 W02 W03 W04 W05 W06 W07 V1 V2 V3 V4 V5
            V6 V7 V8 E01 E02 E03 E04 E05 E06 E07 E08 FltAllocateContext FltGetStreamContext FltGetInstanceContext
            FltSetStreamContext FltSetInstanceContext FltDeleteStreamContext FltDeleteInstanceContext FltDeleteContext
            FltReferenceContext FltReleaseContext FltCbdqInsertIo FltCbdqRemoveNextIo FltQueueDeferredIoWorkItem
            FltQueueGenericWorkItem FltCompletePendedPreOperation FltCompletePendedPostOperation KeAcquireSpinLock
            KeReleaseSpinLock ExAcquireFastMutex ExReleaseFastMutex FltAcquirePushLockExclusive FltAcquirePushLockShared
            FltReleasePushLock WITH_CALLBACK SYNCHRONIZE NO_CALLBACK COMPLETE PENDING DISALLOW_FASTIO
            FINISHED_PROCESSING MORE_PROCESSING_REQUIRED
        '
        # names are looked for between blanks
        pages=${pages//$'\n'/ }
        ;;
    run)
        options='--workers --quiet --help'
        valued='--workers'
        ;;
    replay)
        options='--timeline --svg --help'
        valued='--svg'
        ;;
    extract)
        options='--map --help'
        ;;
    format)
        options='--check --write --help'
        exclusive='--check --write'
        ;;
    emit)
        options='--part --into --force --help'
        valued='--part --into'
        exclusive='--part --into --force'
        ;;
    compare)
        options='--help'
        ;;
    draft)
        options='--functions --define --undef --include --help'
        valued='--define --undef --include'
        repeated='--define --undef --include'
        ;;
    serve)
        options='--help'
        ;;
    esac
    # bash takes `--form=short` for three words
    while ((at < COMP_CWORD)); do
        it=${COMP_WORDS[at++]}
        if [[ -n $is_operand || $it != -?* ]]; then
            operands+=("$it")
        elif [[ $it == -- ]]; then
            is_operand=yes
        else
            given+=" $it"
            if [[ " $valued " == *" $it "* ]]; then
                [[ ${COMP_WORDS[at]} != = ]] || ((at++))
                ((at++))
            fi
        fi
    done
    if ((at > COMP_CWORD)); then
        [[ $word != = ]] || word=
        case "$command $it" in
        'explain --form') _fltstack_words html human lines sarif short ;;
        'explain --color') _fltstack_words auto always never ;;
        'explain --journal') _fltstack_files .journal ;;
        'explain --allow') _fltstack_words W00 W01 W02 W03 W04 W05 W06 W07 C00 C01 C02 C03 C04 C05 ;;
        'run --workers') _fltstack_words 1 2 3 4 5 6 7 8 9 10 11 12 13 14 15 16 ;;
        'replay --svg') _fltstack_files .svg ;;
        'emit --part') _fltstack_words source user inf ;;
        'emit --into') _fltstack_files / ;;
        'draft --include') _fltstack_files / ;;
        esac
    elif [[ -z $is_operand && $word == -* ]]; then
        _fltstack_options
    else
        case "$command ${#operands[@]}" in
        'check 0') _fltstack_files .flt ;;
        'check 1') _fltstack_files .cert ;;
        'analyse 0') _fltstack_files .flt ;;
        'thin 0') _fltstack_files .flt ;;
        'thin 1') _fltstack_files .cert ;;
        'explain '*) _fltstack_pages_or_files .flt .c .h .cc .cpp .cert .journal .script ;;
        'run 0') _fltstack_files .script ;;
        'run '*) _fltstack_files .flt ;;
        'replay 0') _fltstack_files .journal ;;
        'replay '*) _fltstack_files .flt ;;
        'extract '*) _fltstack_files .c .h .cc .cpp ;;
        'format '*) _fltstack_files .flt ;;
        'emit 0') _fltstack_files .flt ;;
        'emit 1') _fltstack_files .cert ;;
        'compare '*) _fltstack_files .c .h .cc .cpp ;;
        'draft '*) _fltstack_files .c .h .cc .cpp ;;
        'help 0') _fltstack_words check analyse thin explain run replay extract format emit compare draft serve help ;;
        esac
    fi
}

complete -F _fltstack fltstack
