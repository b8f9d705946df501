#!/bin/sh
# Tests of farmdawn-srun, with the Slurm that SLURM_CONF names, or one of their own.
. "$(dirname "$0")/helpers.sh"

status_of() {
    farmdawn-srun --tries 1 "$@" >>output 2>&1
    echo $?
}

needs_words() { :; }
test_words() {
    for number in 0 x -1 '' 9999999999; do
        farmdawn-srun --tries "$number" -- true name 2>err
        row expect "a fault: --tries $number" [ $? -eq 255 ]
        row expect 'which is told' grep -q 'wants a number above 0' err
    done
}

needs_verdicts() { has_slurm; }
test_verdicts() {
    expect 'good' [ "$(status_of -- true name)" = 0 ]
    expect 'bad' [ "$(status_of -- sh -c 'exit 7' name)" = 7 ]
    expect 'skip' [ "$(status_of -- sh -c 'exit 125' name)" = 125 ]
    expect 'killed' [ "$(status_of -- sh -c 'kill -9 $$' name)" = 137 ]
    expect 'a missing command' [ "$(status_of -- ./no-such-command name)" = 127 ]
    expect 'the name is the last word' [ "$(status_of -- sh -c 'test "$1 $2" = "a b name"' sh 'a b' name)" = 0 ]
    expect 'output goes to standard error' [ -z "$(farmdawn-srun -- sh -c 'echo farmdawn-status' name 2>/dev/null)" ]
}

needs_lost_tests() { has_slurm; }
test_lost_tests() {
    expect 'no such partition is no verdict' [ "$(status_of -p nowhere -- true name)" = 255 ]
    expect 'or a skip' [ "$(status_of --skip-lost -p nowhere -- true name)" = 125 ]
    expect 'a job that Slurm ends is no verdict' [ "$(status_of -- sh -c 'scancel $SLURM_JOB_ID; sleep 20' name)" = 255 ]
    mkdir gone && cd gone && rm -r ../gone || exit 1
    farmdawn-srun --tries 1 -- true name
    expect 'a missing folder is no verdict' [ $? = 255 ]
}

# Where srun ends at once, so does what watches it, whatever comes first.
needs_ended_at_once() { has timeout; }
test_ended_at_once() {
    mkdir bin
    for tool in srun squeue scancel; do printf '#!/bin/sh\nexit 1\n' >bin/$tool && chmod +x bin/$tool; done
    number=0
    while [ $number -lt 60 ]; do
        (PATH=$PWD/bin:$PATH timeout 300 farmdawn-srun --tries 1 -- true name 2>/dev/null; echo $? >>ended) &
        number=$((number + 1))
    done
    wait
    expect 'each ends, without a verdict' [ "$(sort ended | uniq -c | tr -s ' ')" = ' 60 255' ]
}

# What watches srun ends when the test has begun. Its number may be that of another process then, which is left alone.
needs_numbers() {
    missing='root, and a kernel that lets the next number of a process be chosen'
    has timeout unshare pgrep && unshare --pid --fork --mount-proc sh -c 'echo 40 >/proc/sys/kernel/ns_last_pid' 2>/dev/null
}
test_numbers() {
    mkdir bin
    for tool in squeue scancel; do printf '#!/bin/sh\nexit 1\n' >bin/$tool && chmod +x bin/$tool; done
    printf '#!/bin/sh\nuntil [ -e go ]; do sleep 0.1; done\nwhile [ "$1" != sh ]; do shift; done\nexec "$@"\n' >bin/srun && chmod +x bin/srun
    # shellcheck disable=SC2016 # the words are those of the inner shell
    PATH=$PWD/bin:$PATH timeout 300 unshare --pid --fork --mount-proc sh -c '
        farmdawn-srun --tries 1 -- sh -c "while [ ! -e on ]; do sleep 0.1; done; exit 3" name 2>told &
        test=$!
        until watch=$(ps -o ppid= -p "$(pgrep -f "^sleep [0-9]+$")" 2>/dev/null); do sleep 0.1; done
        touch go
        while [ -e /proc/$((watch)) ]; do sleep 0.1; done
        other=0
        until [ "$other" -eq "$watch" ]; do
            echo $((watch - 1)) >/proc/sys/kernel/ns_last_pid
            sleep 100 &
            other=$!
        done
        touch on
        wait $test
        echo $? >status
        ps -o comm= -p $other >other'
    expect 'its status' [ "$(cat status)" = 3 ]
    expect 'another process that has the number lives on' [ "$(cat other)" = sleep ]
}

needs_interrupts() { has_slurm && has squeue pgrep; }
test_interrupts() {
    job=farmdawn-test-$$
    for pause in 0.1 0.5 1; do
        # shellcheck disable=SC2086
        farmdawn-srun --job-name=$job -- $long_sleep name &
        sleep $pause
        kill -TERM $!
        wait $!
    done
    sleep 1
    expect 'no job is left' [ -z "$(squeue -h --me -n $job -t running -o %i)" ]
    nothing_sleeps
}

# However git farmdawn ends a test, the job is given back; here a shell that ends at once has started it.
search_jobs() {
    env --default-signal=INT "$driver/git-farmdawn" --fresh "$@" main main~15 -- sh -c 'farmdawn-srun "$0" -- sh -c "$1"; exit $?' --job-name=$job "$on_node" >log 2>told </dev/null
}
three_run() { [ "$(squeue -h --me -n $job -t running -o %i | wc -l)" -eq 3 ]; }
three_began() { [ "$(cat ../began 2>/dev/null | wc -l)" -eq 3 ]; }
no_job() { [ -z "$(squeue -h --me -n $job -o %i)" ]; }
is_over() { [ -z "$(ls -d .git/farmdawn/run.* 2>/dev/null)" ]; }

needs_ends() { has_slurm && has git squeue && has_program; }
test_ends() {
    make_line 16 5
    export FARMDAWN="$farmdawn"
    job=farmdawn-test-$$ on_node='exec sleep 600'
    for signal in INT TERM KILL; do
        search_jobs --workers 3 &
        wait_beside $! three_run
        kill -s $signal "$(pgrep -f -o -- "--job-name=$job")"
        wait $!
        wait_until 'the run has ended' is_over
        wait_until "no job is left behind $signal" no_job
    done
    search_jobs --workers 3 --deadline 8s
    expect 'the deadline' [ $? -eq 25 ]
    wait_until 'no job is left behind the deadline' no_job
    on_node='case $(cat content) in 1[0-5] | [89]) exec sleep 600 ;; *) test ! -e bug ;; esac'
    for words in '--workers 6' '--workers 1 --timeout 5s'; do
        # shellcheck disable=SC2086
        FARMDAWN_NEEDED=1 search_jobs --trust-ends $words
        row expect 'the answer' [ "$(tail -n 1 log)" = "$(first_bad main~10)" ]
        wait_until "no job is left of a search with $words" no_job
    done
}

# What is killed with all that would give its job back leaves it to the next search.
needs_left() { needs_ends && has pgrep; }
test_left() {
    make_line 16 5
    export FARMDAWN="$farmdawn"
    job=farmdawn-test-$$ on_node="echo >>'$PWD/../began'; exec sleep 600"
    search_jobs --workers 3 &
    # before that Slurm gives up a job whose srun is killed
    wait_beside $! three_began
    # stopped until none of them begins another one
    killed=
    while found=$(pgrep -f -- "--job-name=$job") && [ "$found" != "$killed" ]; do
        killed=$found
        # shellcheck disable=SC2086
        kill -s STOP $killed 2>/dev/null
    done
    # shellcheck disable=SC2086
    kill -s KILL $killed 2>/dev/null
    wait $!
    wait_until 'the jobs are left' three_run
    on_node='test ! -e bug'
    search_jobs --workers 2
    expect 'the answer' [ "$(tail -n 1 log)" = "$(first_bad main~10)" ]
    expect 'which a test tells' grep -q 'ends what was left' .git/farmdawn/results-*/*.log
    wait_until 'no job is left' no_job
}

# The time in Slurm's queue is none of the limit: what waits for its node is not skipped.
needs_queue() { needs_ends && has head; }
test_queue() {
    make_line 16 5
    export FARMDAWN="$farmdawn"
    node=$(sinfo -h -N -t idle,mixed -o %N | head -n 1)
    git farmdawn --trust-ends --workers 4 --timeout 8s main main~15 -- farmdawn-srun -w "$node" --exclusive -- sh -c 'sleep 4; test ! -e bug' >log 2>told
    expect 'the answer' [ "$? $(tail -n 1 log)" = "0 $(first_bad main~10)" ]
    expect 'none was skipped' sh -c '! grep -q "^skip" "$0"' told
}

# A job that its limit of time ends is no second try, and the line names the limit.
needs_limit() { has_slurm && has grep; }
test_limit() {
    farmdawn-srun --time 1 -- sh -c 'echo once >>ran; exec sleep 300' name 2>err
    expect 'no verdict' [ $? -eq 255 ]
    expect 'it ran once' [ "$(cat ran)" = once ]
    expect 'which is told' grep -q 'the test of name was ended by Slurm.s limit of time; --time says another$' err
}

# Sixty-four tests give the verdicts of one machine.
many_tests() {
    number=0
    while [ $number -lt 64 ]; do
        (
            farmdawn-srun -- sh -c 'sleep 0.3; exit $(($1 % 3))' sh "$number" 2>>errors
            [ $? -eq $((number % 3)) ] || echo "$number" >>wrong
        ) &
        number=$((number + 1))
    done
}

needs_many() { has_slurm; }
test_many() {
    many_tests
    wait
    expect 'each verdict is right' [ ! -e wrong ]
}

# In a Slurm of its own: what else runs must not lose a node.
needs_a_lost_node() {
    missing='slurmctld, slurmd and munged'
    has srun sinfo && (PATH=$PATH:/usr/sbin:/sbin && has slurmctld slurmd munged)
}
test_a_lost_node() {
    slurm=$(start_slurm 4 8) || exit 1
    trap 'sh "$top/tests/slurm" stop "$slurm"' EXIT
    export SLURM_CONF="$slurm/slurm.conf"
    many_tests
    sleep 1
    kill -KILL "$(cat "$slurm/n1.pid")"
    wait
    expect 'each verdict is right' [ ! -e wrong ]
}

# A stand-in for srun that runs the test here, or says what the file TOLD has as what the node told.
stand_in() {
    mkdir bin tmp
    cat >bin/srun <<'END'
#!/bin/sh
if [ -n "${TOLD-}" ]; then
    token=$(printf '%s\n' "$*" | grep -o 'farmdawn-status-[A-Za-z0-9]*' | head -n 1)
    sed "s/TOKEN/$token/" <"$TOLD"
    exit 0
fi
printf '%s|' "$@" >words
while [ "$1" != sh ]; do shift; done
exec "$@"
END
    chmod +x bin/srun
    PATH=$PWD/bin:$PATH
    export TMPDIR="$PWD/tmp"
}

# A job that can never start is told at once, and is no second try; one that waits goes on.
needs_never() { has grep timeout; }
test_never() {
    stand_in
    cat >bin/squeue <<'END'
#!/bin/sh
[ ! -e tries ] || echo "search $(cat mark) $REASON"
END
    cat >bin/srun <<'END'
#!/bin/sh
echo try >>tries
printf '%s\n' "$@" | sed -n 's/^--comment=//p' >mark
exec sleep 600
END
    chmod +x bin/squeue
    REASON=PartitionTimeLimit farmdawn-srun -- true name 2>err
    expect 'no verdict' [ $? -eq 255 ]
    expect 'of one try' [ "$(cat tries)" = try ]
    expect 'and why' grep -q 'the test of name can never start: Slurm says PartitionTimeLimit$' err
    rm tries
    REASON=Resources timeout 8 farmdawn-srun -- true name 2>err
    expect 'it waits' [ $? -eq 124 ]
    printf '#!/bin/sh\necho try >>tries\n[ "$1" != --test-only ] || echo "allocation failure: Invalid node name specified" >&2\nexit 1\n' >bin/srun
    rm tries
    farmdawn-srun -- true name 2>err
    expect 'nor of one that Slurm refuses' [ "$? $(grep -c try tries)" = '255 2' ]
    expect 'and why' grep -q 'can never start: Slurm says Invalid node name specified$' err
}

# A status is one whole line; whatever else came is a lost test.
needs_answers() { has grep; }
test_answers() {
    stand_in
    while IFS= read -r told; do
        printf '%b' "$told" >told
        TOLD=$PWD/told farmdawn-srun --tries 1 -- true name 2>err
        row expect "no verdict of what was told: $told" [ $? -eq 255 ]
        row expect 'which is told' grep -q 'was lost 1 times' err
    done <<'END'

TOKEN 0
TOKEN 0 ended
TOKEN 7 ended\nTOKEN 7 ended\n
TOKEN 7\nTOKEN 7\n
TOKEN  ended\n
TOKEN 1x ended\n
TOKEN 256 ended\n
TOKEN 256\n
0: TOKEN 0 ended\n
END
    printf 'hello\nTOKEN 9 ended\n' >told
    TOLD=$PWD/told farmdawn-srun --tries 1 -- true name
    expect 'a whole line is a verdict' [ $? -eq 9 ]
    expect 'nothing is left' [ -z "$(ls tmp)" ]
}

needs_environment() { :; }
test_environment() {
    stand_in
    echo 'exit 3' >startup
    mkdir -p elsewhere/here here
    for setting in "ENV=$PWD/startup" "BASH_ENV=$PWD/startup" IFS=7 POSIXLY_CORRECT=1 LC_ALL=C.UTF-8 "CDPATH=$PWD/elsewhere" "FARMDAWN_PARENT=1 1"; do
        # shellcheck disable=SC2016
        env "$setting" farmdawn-srun --tries 1 -- sh -c 'cd here && [ "$PWD" = "$1/here" ] && exit 77' sh "$PWD" name
        row expect "$setting" [ $? -eq 77 ]
    done
    for variable in status tries verdict me token answer limit options folder; do
        # shellcheck disable=SC2016
        env "$variable=it's
mine " farmdawn-srun --tries 1 -- sh -c 'eval "[ \"\$$1\" = \"$2\" ]" && exit 77' sh "$variable" "it's
mine " name
        row expect "the user's own $variable" [ $? -eq 77 ]
    done
    farmdawn-srun --comment='a * b' -- true name
    expect 'an option with blanks and a star' grep -q '|--comment=a \* b|' words
    for option in '' 'a
b'; do
        farmdawn-srun "$option" -- true name 2>err
        expect 'an option that cannot be handed on is refused' [ "$? $(grep -c 'an option of srun is one line' err)" = '255 1' ]
    done
}

# A function that bash exports under the name of a command is none of ours.
needs_functions() { has bash timeout; }
test_functions() {
    stand_in
    { echo "#!$(command -v bash)" && sed 1d "$top/tools/farmdawn-srun"; } >bin/farmdawn-srun
    chmod +x bin/farmdawn-srun
    # shellcheck disable=SC2016
    timeout 60 bash -c 'for name in kill printf read mktemp sleep test cd rm wait true exit set unset trap eval exec export; do
            eval "$name() { return 3; }"; export -f "$name"
        done; builtin exec bin/farmdawn-srun --tries 1 -- sh -c "exit 77" name' 2>err
    expect 'the verdict' [ $? -eq 77 ]
}

needs_missing() { has ln; }
test_missing() {
    mkdir bin
    for tool in cat env mkdir mktemp readlink rm scancel sh sleep squeue timeout; do ln -s "$(command -v $tool)" bin/$tool; done
    PATH=$PWD/bin "$top/tools/farmdawn-srun" -- true name 2>err
    expect 'no verdict without srun' [ "$? $(cat err)" = "255 $(grep 'srun is not installed' err)" ]
}

# Several tasks are several tests, of which none is the commit's verdict.
needs_tasks() { has_slurm; }
test_tasks() {
    expect 'no verdict of two tasks' [ "$(status_of -n2 -- sh -c 'exit 7' name)" = 255 ]
    expect 'nor of marked lines' [ "$(SLURM_LABELIO=1 status_of -- sh -c 'exit 7' name)" = 255 ]
}

# Where what started the script is killed, its job ends.
needs_parents() { has_slurm && has squeue pgrep setpriv; }
test_parents() {
    job=farmdawn-test-$$
    sh -c "farmdawn-srun --job-name=$job -- sh -c 'touch began; $long_sleep' name & wait" &
    until [ -e began ]; do expect 'the test runs' kill -0 $! && sleep 0.1; done
    kill -KILL $!
    wait $! 2>/dev/null
    nothing_sleeps
}

run_test "$@"
