# Completion of farmdawn and git farmdawn for bash.

_farmdawn_options() {
    case $1 in
    simulate | run) echo --workers --leg --trace --first-parent --term-new --term-old --skip --replay --lenient-exit ;;
    next) echo --first-parent --term-new --term-old --skip --replay ;;
    replay) echo --replay ;;
    sample) echo --workers ;;
    certify)
        case $2 in
        simulate | run) echo --workers --first-parent --term-new --term-old --skip --replay --lenient-exit ;;
        esac
        ;;
    checkout | journal) [ "$2" = run ] && _farmdawn_options run ;;
    check | serve) echo --original-names ;;
    esac
}

# The words that may stand behind a command which stands before another one.
_farmdawn_behind() {
    case $1 in
    certify) echo simulate run ;;
    checkout | journal) echo run ;;
    esac
}

_farmdawn() {
    local word=${COMP_WORDS[COMP_CWORD]} before=${COMP_WORDS[COMP_CWORD - 1]} index
    COMPREPLY=()
    if [ "$COMP_CWORD" -eq 1 ]; then
        mapfile -t COMPREPLY < <(compgen -W 'simulate run next replay gen sample certify check checkout journal many serve --help --version' -- "$word")
        return
    fi
    if [ "$COMP_CWORD" -eq 2 ] && [ -n "$(_farmdawn_behind "${COMP_WORDS[1]}")" ]; then
        mapfile -t COMPREPLY < <(compgen -W "$(_farmdawn_behind "${COMP_WORDS[1]}")" -- "$word")
        return
    fi
    case ${COMP_WORDS[1]}$COMP_CWORD in
    check2 | check3 | many3)
        compopt -o default
        [ "${COMP_WORDS[1]}$COMP_CWORD" != check2 ] || [ "${word#-}" = "$word" ] ||
            mapfile -t COMPREPLY < <(compgen -W "$(_farmdawn_options check)" -- "$word")
        return
        ;;
    serve2)
        mapfile -t COMPREPLY < <(compgen -W "$(_farmdawn_options serve)" -- "$word")
        return
        ;;
    check[0-9]* | many* | serve*) return ;;
    esac
    for ((index = 2; index < COMP_CWORD; index++)); do
        if [ "${COMP_WORDS[index]}" = -- ]; then
            compopt -o default
            return
        fi
    done
    case $before in
    --replay) compopt -o default ;;
    --workers | --leg | --term-new | --term-old) ;;
    *)
        case $word in
        -*) mapfile -t COMPREPLY < <(compgen -W "$(_farmdawn_options "${COMP_WORDS[1]}" "${COMP_WORDS[2]}") --" -- "$word") ;;
        *) mapfile -t COMPREPLY < <(compgen -W "$(git for-each-ref --format='%(refname:short)' 2>/dev/null)" -- "$word") ;;
        esac
        ;;
    esac
}

# git's own completion calls this, with the words in `words`, and the one at hand in `cur`.
_git_farmdawn() {
    local index
    for ((index = 1; index < cword; index++)); do
        if [ "${words[index]}" = -- ]; then
            # the first word behind it is a command, the others may be files
            if [ $((index + 1)) -eq "$cword" ]; then mapfile -t COMPREPLY < <(compgen -c -- "$cur"); fi
            return
        fi
    done
    case ${cur%%=*}:$cur:$prev in
    --check:*=* | --retest:*=* | --path:*=* | --copy:*=* | --link:*=* | --with:*=* | --certificate:*=* | --tests:*=* | --tests-from:*=* | --replay:*=*) ;;
    *:--check | *:--retest | *:--path | *:--copy | *:--link | *:--with | *:--certificate | *:--tests | *:--tests-from | *:--replay) ;; # files, as no word is offered
    *:--report | *:--log-dir | *:--state | *:--pool) mapfile -t COMPREPLY < <(compgen -d -- "$cur") ;;
    *:--workers | *:-j | *:--term-new | *:--term-old | *:--retry | *:--repeat | *:--noise | *:--sure | *:--timeout | *:--deadline | *:--log-limit | *:--build | *:--build-timeout | *:--ended | *:--missing | *:--keep | *:--test)
        compopt +o default +o bashdefault
        ;;
    *:--skip | *:--apply) __git_complete_refs ;;
    -*) __gitcomp '--help --version --workers --first-parent --term-new --term-old --skip --path --check-ends --trust-ends --confirm --retry --repeat --measure --noise --sure --timeout --deadline --copy --link --with --apply --submodules --build --build-timeout --ended --test --tests --tests-from --missing --together --private --pool --keep --clean --state --log-dir --log-limit --fixed --replay --quiet --report --open --certificate --check --retest --fresh --prune' ;;
    *) __git_complete_refs ;;
    esac
}

complete -F _farmdawn farmdawn
