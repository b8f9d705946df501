#!/bin/sh
# The program with real commands: how many run at once, and how what they end with is read.
. "$(dirname "$0")/helpers.sh"

# A stream of so many commits in a line.
line_of() {
    awk -v n="$1" 'BEGIN { for (i = 1; i <= n; i++) printf "commit refs/heads/main\nmark :%d\ncommitter a <a@b> %d +0000\ndata 0\n", i, i }'
}

# What a test does that counts how many run: the first so many wait for each other, and a moment longer for one too many.
# One that is ended, since nobody needs it any more, counts no longer.
# shellcheck disable=SC2016
count_running='
    trap "rm -f running/$$; exit 255" TERM
    : >running/$$
    turns=0
    until [ -e met ] || { set -- running/* && [ $# -ge "$0" ]; }; do turns=$((turns + 1)) && [ $turns -lt 6000 ] && sleep 0.1 || exit 255; done
    [ -e met ] || sleep 0.3
    set -- running/*
    echo $# >>counts
    : >met
    rm running/$$'

# Exactly as many tests run at once as there are workers.
needs_workers() { has_program; }
test_workers() {
    line_of 300 >stream
    for workers in 1 2 3 8 64; do
        rm -rf running met counts && mkdir running
        "$farmdawn" run --workers $workers main main~299 -- sh -c "$count_running" $workers <stream >log 2>told
        expect "a search with $workers workers" [ $? -eq 0 ]
        expect "so many tests at once: $workers" [ "$(sort -n counts | tail -n 1)" -eq $workers ]
    done
}

# As many threads test as there are workers: the one that calls, and those that it starts.
needs_threads() { has_program && has strace && strace -o /dev/null true; }
test_threads() {
    "$farmdawn" sample 1 300 >alone
    for workers in 1 2 8 64; do
        strace -f -o calls -e trace=clone,clone3 "$farmdawn" sample --workers $workers 1 300 >log
        expect "a sample with $workers workers" [ $? -eq 0 ]
        expect "what one worker tells: $workers" cmp -s alone log
        expect "so many threads: $workers" [ "$(grep -c CLONE_THREAD calls)" -eq $((workers - 1)) ]
    done
}

# What a command ends with, the option, and the status and last line that are due.
ways='exit 0||0|*is the first bad commit
exit 1||0|*is the first bad commit
exit 125||2|*
exit 126||6|bisect aborted: exit 126 on *
exit 127||6|bisect aborted: exit 127 on *
exit 128|--lenient-exit|6|bisect aborted: exit 128 on *
exit 126|--lenient-exit|0|*is the first bad commit
exit 127|--lenient-exit|0|*is the first bad commit
kill -9 $$||6|bisect aborted: killed on *
kill -9 $$|--lenient-exit|6|bisect aborted: killed on *'

ends_so() {
    "$farmdawn" run $option main main~3 -- sh -c "$command" <stream >log 2>told
    expect "the status of $option $command" [ $? -eq "$status" ]
    # shellcheck disable=SC2254 # it is a pattern
    case $(tail -n 1 log) in $last) ;; *) expect "the last line of $option $command: $last" false ;; esac
}

needs_ways() { has_program; }
test_ways() {
    line_of 4 >stream
    printf '%s\n' "$ways" | while IFS='|' read -r command option status last; do row ends_so; done
}

# An option of other commands is at fault, by its index.
needs_options() { has_program; }
test_options() {
    line_of 4 >stream
    for words in 'next main main~3 --lenient-exit' 'next --trace main main~3' 'next --workers 2 main main~3' 'sample --trace 1 5' \
        'sample --leg 2 1 5' 'gen --workers 2 1 5' 'replay --skip main'; do
        # shellcheck disable=SC2086
        "$farmdawn" $words <stream >log 2>told
        row expect "$words is refused" [ $? -eq 1 ]
        # shellcheck disable=SC2086
        row expect 'by the index of the option' [ "$(cat log)" = "usage fault at word $(printf '%s\n' $words | grep -n -e '^--[a-z]' | head -n 1 | awk -F: '{ print $1 - 1 }')" ]
    done
}

run_test "$@"
