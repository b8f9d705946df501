#!/bin/sh
# Ends the built program in the middle, and takes its input and output away: at many moments, with one worker and with
# eight. No test outlasts its own time, what was written is a front of the text that was due, and the status is that of
# the manual.
. "$(dirname "$0")/helpers.sh"

needs_all() { has git pgrep && has_program; }

# A history of forty commits with a branch, and what is due over it, in the file `due`. By the commits' names the tests
# are good, bad or skipped, each a seventh of a second long; the words of a test have the name of this run.
prepare() {
    awk 'BEGIN { for (i = 1; i <= 40; i++) {
        printf "commit refs/heads/main\nmark :%d\ncommitter gen <gen> %d +0000\ndata 2\nc\n", i, i
        if (i > 1) printf "from :%d\n", i - 1
        if (i % 7 == 0) printf "merge :%d\n", i - 3 } }' >stream
    name=farmdawn-kill-$$-$test
    test_words='sleep 0.15; case $1 in *[0-5]) exit 0 ;; *[6-d]) exit 1 ;; *) exit 125 ;; esac'
    (search 1 <stream >due) || [ $? -eq 2 ] || exit 1
}

# Becomes the program over its standard input; the words are the number of workers and further words of the search.
search() {
    workers=$1
    shift
    exec "$farmdawn" run --workers "$workers" "$@" main main~39 -- sh -c "$test_words" "$name"
}

# Behind the program's end no test is left once its own time is over.
tests_end() { wait_until 'no test is left' none_runs "$name"; }

# Sends a signal at many moments; the words of the search follow it.
end_by() {
    signal=$1 ended=$2 hits=0
    shift 2
    for pause in 0.02 0.06 0.1 0.15 0.22 0.3 0.45 0.6; do
        search "$@" <stream >got &
        sleep $pause
        kill -"$signal" $! 2>/dev/null
        wait $!
        status=$?
        case $status in
        0 | 2) expect 'all was written' cmp got due ;;
        *) expect 'ended by the signal' [ $status -eq "$ended" ] && hits=$((hits + 1)) ;;
        esac
        is_front
        tests_end
    done
    expect 'a signal came in the middle' [ $hits -ge 1 ]
}

needs_kill() { needs_all; }
test_kill() {
    prepare
    for workers in 1 8; do end_by KILL 137 $workers && end_by KILL 137 $workers --leg 1; done
}

needs_term() { needs_all; }
test_term() {
    prepare
    for workers in 1 8; do end_by TERM 143 $workers && end_by TERM 143 $workers --leg 1; done
}

# The reader goes away after so many bytes. Where the system ends the program by SIGPIPE there is no status.
needs_pipe() { needs_all && has head; }
test_pipe() {
    prepare
    for workers in 1 8; do
        for leg in '' '--leg 1' '--leg 3'; do
            for bytes in 0 1 100 300 1000; do
                # shellcheck disable=SC2086
                { (search $workers $leg <stream); echo $? >status; } | head -c $bytes >got
                row expect 'what was read' cmp -n $bytes got due
                case $(cat status) in
                13 | 141) ;;
                0 | 2) expect 'a write fault, where nothing was read' [ "$bytes" -gt 0 ] ;;
                *) expect "a write fault, or all fitted, and not $(cat status)" false ;;
                esac
                tests_end
            done
            # shellcheck disable=SC2086
            { (trap '' PIPE && search $workers $leg <stream); echo $? >status; } | true
            row expect 'a write fault where SIGPIPE is ignored' [ "$(cat status)" = 13 ]
            tests_end
        done
    done
}

needs_full() { needs_all && missing=/dev/full && [ -c /dev/full ]; }
test_full() {
    prepare
    for workers in 1 8; do
        for leg in '' '--leg 1'; do
            # shellcheck disable=SC2086
            (search $workers $leg <stream >/dev/full)
            row expect 'a write fault' [ $? -eq 13 ]
            tests_end
        done
    done
    "$farmdawn" --version >/dev/full
    expect 'of the version, too' [ $? -eq 13 ]
}

# Standard input that is no stream: closed, a folder, a file for writing alone; and one that ends too early.
needs_input() { needs_all; }
test_input() {
    prepare
    for workers in 1 8; do
        (search $workers <&- >got)
        status=$?
        case $status in
        12) expect 'the line of a read fault' [ "$(cat got)" = 'read fault' ] ;;
        *) expect 'or an empty stream' [ "$status $(cat got)" = '8 name refused at word 3: unknown' ] ;;
        esac
        (search $workers </ >got)
        expect 'a folder is a read fault' [ "$? $(cat got)" = '12 read fault' ]
        (search $workers 0>new >got)
        expect 'and so is a file for writing' [ "$? $(cat got)" = '12 read fault' ]
        head -n 4 stream | search $workers >got
        expect 'a stream that is cut is refused' [ "$? $(sed 's/[0-9][0-9]*/N/' got)" = '7 stream refused at line N: truncated' ]
        expect 'no test was run' none_runs "$name"
    done
}

# A word that is no text is told by its number. A row has the status, what is told in the first line, and the words.
needs_said() { needs_all; }
# shellcheck disable=SC2034
test_said() {
    prepare
    broken=$(printf 'x\377')
    while IFS='|' read -r due_status said words; do
        eval "\"\$farmdawn\" $words" <stream >got 2>told
        status=$?
        row expect "the status of $words" [ "$status" = "$due_status" ]
        row expect "what is told of $words" [ "$(head -n 1 told)" = "$said" ]
    done <<'END'
1|farmdawn: word 0 is not UTF-8, and each word must be|"$broken"
1|farmdawn: word 2 is not UTF-8, and each word must be|next main "$broken" "$broken"
16||replay --replay missing
0||next main main~2
END
}

# Where a stream comes slowly, a signal ends the program while it reads.
needs_slow_input() { needs_all; }
test_slow_input() {
    prepare
    for signal in KILL TERM; do
        for pause in 0.05 0.2 0.4; do
            mkfifo slow
            exec 3<>slow # so that nobody waits for another to open it, and it does not end
            head -c 500 stream >&3
            search 8 <slow >got 3<&- &
            sleep $pause
            kill -$signal $!
            wait $!
            expect 'it ended by the signal' [ $? -gt 128 ]
            expect 'nothing was written' [ ! -s got ]
            exec 3<&-
            rm slow
        done
    done
}

# None of the tests of a search runs, and none of its programs, which have a lock.
tests_have_ended() {
    none_runs "$long_sleep" && { flock -n .git/farmdawn/run.*/lock true 2>/dev/null || [ ! -e .git/farmdawn/run.*/lock ]; }
}

four_run() { [ "$(pgrep -f "$long_sleep" | wc -l)" -ge 4 ]; }

# The tests of git farmdawn end with it, however it ends; and it ends with `git`.
needs_driver_killed() { needs_all && has python3 flock; }
test_driver_killed() {
    export FARMDAWN="$farmdawn"
    make_line 40 20
    for tool in git-farmdawn 'git farmdawn'; do
        $tool --workers 4 main main~39 -- sh -c "$long_sleep" >log 2>told &
        wait_beside $! four_run
        kill -KILL $!
        wait $!
        wait_until "the tests of $tool end with it" tests_have_ended
        row expect 'the next search is right' [ "$(git farmdawn main main~39 -- test ! -e bug 2>told | tail -n 1)" = "$(git rev-parse main~19) is the first bad commit" ]
        nothing_left
    done
    nothing_sleeps
}

long='kill term pipe'
run_test "$@"
