#!/bin/sh
# Tests of what git farmdawn does with tests that nobody asks for any more: it ends them in the middle of a search.
. "$(dirname "$0")/helpers.sh"
FARMDAWN=$farmdawn
export FARMDAWN

needs_all() { has git python3 pgrep && has_program; }

# Waits until something holds, ten minutes at most; a search that runs then is ended.
until_so() {
    text=$1 turns=0
    shift
    until "$@"; do
        turns=$((turns + 1))
        [ $turns -lt 6000 ] || { kill "$search"; wait "$search"; expect "$text" false; }
        sleep 0.1
    done
}

told_of() { grep -q "^no longer needed  [0-9a-f]\{12\}  change $1  ([0-9]* s)$" ../told; }

# A test that is ended frees its worker: here the next ones wait until none of those sleeps that the third shows to be needless.
needs_freed() { needs_all && has timeout; }
test_freed() {
    make_line 8 2
    # shellcheck disable=SC2016
    echo 'case $(cat content) in
    [4-6]) exec $long_sleep ;;
    3) until pgrep -f "$long_sleep"; do sleep 0.1; done && exit 1 ;;
    *) while pgrep -f "$long_sleep"; do sleep 0.1; done; test ! -e bug ;;
    esac' >../test.sh
    export long_sleep FARMDAWN_NEEDED=1
    for workers in 3 6; do
        timeout 600 git farmdawn --fresh --report ../report --workers $workers main main~7 -- sh ../test.sh >../log 2>../told
        expect 'the search ends before what sleeps' [ $? -eq 0 ]
        expect 'with the answer' [ "$(tail -n 1 ../log)" = "$(first_bad main~5)" ]
        expect 'it is told' told_of '[4-6]'
        expect 'of no other one' [ "$(grep -c '^no longer needed' ../told)" -eq "$(grep -c '^no longer needed.*change [4-6]' ../told)" ]
        expect 'no outcome is kept of these' [ "$(cat .git/farmdawn/results-*/*.outcome | wc -l)" -eq "$(grep '^\(good\|bad\)  ' ../told | cut -c 7-18 | sort -u | wc -l)" ]
        expect 'the report is whole' python3 "$top/tests/report.py" ../report ../log
        expect 'and has them' grep -q '"status": null, "outcome": "ended",.*"run": 1,.*"kept": false, "used": false' ../report/result.json
        nothing_left
        nothing_sleeps
    done
    FARMDAWN_NEEDED=never timeout 10 git farmdawn --fresh --workers 3 main main~7 -- sh ../test.sh >../log 2>../told
    expect 'where it is never done, all wait' [ $? -eq 124 ]
    expect 'and none is ended' sh -c '! grep -q "^no longer needed" ../told'
    for word in 05 -1 x 1.5; do
        FARMDAWN_NEEDED=$word git farmdawn main main~7 -- true >../log 2>../told
        row expect 'what is no number is refused' [ "$? $(grep -c "FARMDAWN_NEEDED wants seconds.*'$word'" ../told)" = '1 1' ]
    done
    nothing_sleeps
}

# The smallest case in which a commit is asked for again: of a line of eight the second stands behind the first, which would stop
# the search, and then the third is skipped. Tests wait until they are let go, and note that they have begun.
needs_again() { needs_all; }
test_again() {
    make_line 8 8
    # shellcheck disable=SC2016
    echo 'number=$(cat content)
    echo began >>"$1/began-$number"
    while [ ! -e "$1/go-$number" ]; do sleep 0.05; done
    exit $(cat "$1/go-$number")' >../test.sh
    begin() {
        git farmdawn --trust-ends "$@" main main~7 -- sh ../test.sh "$(cd .. && pwd)" >../log 2>../told &
        search=$!
    }
    began() { [ "$(cat ../began-[1-6] 2>/dev/null | wc -l)" -eq "$1" ]; }
    let_go() { echo "$2" >"../go-$1.new" && mv "../go-$1.new" "../go-$1"; }
    for last in 0 1; do
        rm -f ../began-* ../go-*
        FARMDAWN_NEEDED=0 begin --fresh --report ../report --workers 6
        until_so 'six at once' began 6
        let_go 1 128
        until_so 'the second is needless' told_of 2
        let_go 3 125
        [ $last = 0 ] || sleep 3 # its test has ended by then
        let_go 4 1
        until_so 'it is made again' began 7
        expect 'the others go on' [ "$(cat ../began-[4-6] | wc -l)" -eq 3 ]
        let_go 2 $last
        let_go 5 1
        let_go 6 1
        wait $search
        ended=$?
        expect 'the report is whole' python3 "$top/tests/report.py" ../report ../log
        expect 'and has both' [ "$(grep -c "\"commit\": \"$(git rev-parse main~5)\"" ../report/result.json)" -eq 2 ]
        expect 'its subject is told again' grep -q '^\(good\|bad \)  [0-9a-f]*  change 2  (' ../told
        mv ../log ../got
        begin --fresh --workers 1
        wait $search
        expect 'the status is that of one at a time' [ $? -eq $ended ]
        expect 'and so is the log' cmp ../got ../log
        nothing_left
    done
}

# Searches in which tests are ended at each turn, stopped at many moments: nothing of them is left, and the same line goes on.
needs_interrupts() { needs_all; }
test_interrupts() {
    make_line 40 25
    # shellcheck disable=SC2016
    echo '$long_sleep &
    case $FARMDAWN_COMMIT in *[0-5]) sleep 0.1 ;; *[6-a]) sleep 0.6 ;; *) sleep 1.2 && exit 125 ;; esac
    test ! -e bug' >../test.sh
    export long_sleep FARMDAWN_NEEDED=0
    count=0
    for pause in 0.4 0.8 1.2 1.7 2.3 3; do
        git farmdawn --fresh --workers 8 main main~39 -- sh ../test.sh >../log 2>../told &
        sleep $pause
        case $((count % 2)) in 0) kill -TERM $! ;; *) kill -HUP $! ;; esac 2>/dev/null # it may have ended
        wait $!
        count=$((count + 1))
        expect 'nothing else is told' sh -c '! grep "rror\|annot\|No such" ../told'
        soon_nothing_left
        nothing_sleeps
    done
    git farmdawn --workers 8 main main~39 -- sh ../test.sh >../got 2>../told
    ended=$?
    git farmdawn --workers 1 main main~39 -- sh ../test.sh >../log 2>../told
    expect 'the same line goes on' [ "$? $(cmp ../got ../log)" = "$ended " ]
    nothing_left
    nothing_sleeps
}

needs_random() { needs_all; }
test_random() {
    expect 'random searches' python3 "$top/tests/needed.py" --count 8
}

long='random'
run_test "$@"
