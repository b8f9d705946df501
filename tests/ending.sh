#!/bin/sh
# farmdawn run ends the tests that nobody asks for any more: the run is over once its answer is known, and its text is that of
# one worker. What a command has started is its own to end; the scripts around a test do so.
. "$(dirname "$0")/helpers.sh"

needs_all() { has git pgrep pkill timeout && has_program; }

# A line of sixteen commits, of which the fifth is the first bad one: a run asks for the eighth, the fourth, the sixth and the
# fifth. What is due is in the file `due`. Tests of the ninth and later ones, which it never asks for, are slow: the words. The
# commit is the last word of each test. Where there is a file `waits`, the others wait until a slow one has made `began`.
prepare() {
    awk 'BEGIN { for (i = 1; i <= 16; i++) {
        printf "commit refs/heads/main\nmark :%d\ncommitter gen <gen> %d +0000\ndata 2\nc\n", i, i
        if (i > 1) printf "from :%d\n", i - 1 } }' >stream
    git init -q --bare names && git -C names fast-import --quiet <stream || exit 1
    git -C names rev-list --reverse main >list || exit 1
    name=farmdawn-ending-$$-$test
    # shellcheck disable=SC2016
    words='for commit; do :; done; n=$(grep -n "$commit" list) n=${n%%:*}; if [ "$n" -gt 8 ]; then '"$1"'; fi; while [ -e waits ] && [ ! -e began ]; do sleep 0.05; done; [ "$n" -lt 5 ]'
    rm -f waits began
    search run --workers 1 >due
    expect 'the answer' [ "$(tail -n 1 due)" = "$(sed -n 5p list) is the first bad commit" ]
}

# A search by the words, with this command and these options.
search() { timeout 600 "$farmdawn" "$@" main main~15 -- sh -c "$words" "$name" <stream; }

# Such a search ends before what sleeps, with the same text, and leaves no test.
ends() {
    expect "it does not wait: $*" search "$@" >got
    expect 'the same text' cmp got due
    # what `timeout` or a shell has started may end a moment behind it
    wait_until 'no test is left' none_runs "$name|$long_sleep"
}

needs_needless() { needs_all; }
test_needless() {
    prepare "exec $long_sleep"
    ends run --workers 8
    ends run --workers 8 --leg 1
    ends journal run --workers 8
    ends checkout run --workers 8
}

# One that does not end when it is asked to is killed after ten seconds.
needs_stubborn() { needs_all; }
test_stubborn() {
    prepare 'trap "" TERM; while true; do sleep 0.2; done'
    ends run --workers 4
}

# Where it is asked for, no test is ended.
needs_patient() { needs_all && has timeout; }
test_patient() {
    prepare "exec $long_sleep"
    FARMDAWN_PATIENT=1 timeout 5 "$farmdawn" run --workers 4 main main~15 -- sh -c "$words" "$name" <stream >got
    expect 'it waits' [ $? -eq 124 ]
    nothing_sleeps # timeout ends all that it started
}

# A shell ends alone, and what it has started runs on; timeout hands the signal on to all that it started.
needs_children() { needs_all && has timeout; }
test_children() {
    prepare "$long_sleep & touch began; wait"
    touch waits
    search run --workers 4 >got 2>/dev/null
    expect 'the same text' cmp got due
    expect 'what the shell has started runs on' pgrep -f "$long_sleep" >children
    # a shell that was just ended may still have started one
    all_ended() { ! pkill -f "$long_sleep"; }
    wait_until 'what the shells started has ended' all_ended
    prepare "exec timeout 0 sh -c '$long_sleep; true'"
    left=yes
    for _ in 1 2 3 4 5; do
        expect 'it does not wait' search run --workers 4 >got
        expect 'the same text' cmp got due
        for _ in 1 2 3 4 5 6 7 8 9 10; do
            none_runs "$long_sleep" && left=no && break 2
            sleep 0.5
        done
        # a timeout that is ended before it knows its child leaves it
        pkill -f "$long_sleep"
    done
    expect 'no test is left' [ $left = no ]
}

# Where the program alone is ended its tests run on, unless the system ends them with it.
needs_orphans() { needs_all && has setpriv; }
test_orphans() {
    two_run() { [ "$(pgrep -fc "^$long_sleep")" -eq 2 ]; }
    prepare "exec $long_sleep"
    echo "exec $long_sleep" >slow # a script, so that no words but those of the test have the sleep
    for by in '' 'setpriv --pdeathsig TERM'; do
        # shellcheck disable=SC2086 # words without blanks
        "$farmdawn" run --workers 2 main main~15 -- $by sh slow <stream >got 2>/dev/null &
        wait_until 'two tests run' two_run
        kill -TERM $!
        wait $!
        [ -n "$by" ] || { expect 'the tests run on' two_run && pkill -f "$long_sleep"; }
        nothing_sleeps
    done
}

long='needless stubborn'
run_test "$@"
