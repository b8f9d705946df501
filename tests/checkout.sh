#!/bin/sh
# `farmdawn checkout run` in the folders of the system: two at once, a folder that is not ours, what a test leaves there.
. "$(dirname "$0")/helpers.sh"

# A stream of sixteen commits whose file has their number.
numbers() {
    awk 'BEGIN { for (i = 1; i <= 16; i++) printf "commit refs/heads/m\nmark :%d\ncommitter T <t@e> %d +0000\ndata 3\nc%02d\nM 100644 inline n\ndata 3\n%02d\n\n", i, i, i, i }'
}

# What a test does that takes a moment: a commit is good where the file of its folder says at most 7.
# shellcheck disable=SC2016
at_most_7='sleep "0.0$(($$ % 10))"; n=$(cat "$1/n") || exit 255; [ "$n" -le 7 ]'

# Of two runs at once in a folder one is refused and says why, and the other one's answer is right.
needs_together() { has_program; }
test_together() {
    numbers >stream
    FARMDAWN_QUIET=1 "$farmdawn" checkout run m m~15 -- sh -c "$at_most_7" sh <stream >due 2>told
    expect 'a run alone ends well' [ $? -eq 0 ]
    for _ in 1 2 3 4 5; do
        for run in 1 2; do
            (FARMDAWN_QUIET=1 "$farmdawn" checkout run --workers 2 m m~15 -- sh -c "$at_most_7" sh <stream >"log$run" 2>"told$run"; echo $? >"status$run") &
        done
        wait
        for run in 1 2; do
            case $(cat "status$run") in
                0) expect 'the answer of a run alone' cmp due "log$run" ;;
                11) expect 'the other one is told of' grep -q 'bisect-trees is not used: another run works in it' "told$run" ;;
                *) expect 'a run ends with 0 or 11' false ;;
            esac
        done
        expect 'one of them tests' [ "$(cat status1 status2 | tr -d '\n')" != 1111 ]
    done
}

# While a run has the folder another one leaves it alone; the next one takes it where the first was killed.
needs_killed() { has_program; }
test_killed() {
    numbers >stream
    # shellcheck disable=SC2016 # the words are those of the inner shell
    "$farmdawn" checkout run m m~15 -- sh -c 'echo $$ >"$PWD/pid.new" && mv "$PWD/pid.new" "$PWD/pid" && exec sleep 60' sh <stream >log1 2>told1 &
    first=$!
    wait_until 'the first run tests' [ -e pid ]
    find bisect-trees | sort >before
    "$farmdawn" checkout run m m~15 -- true <stream >log2 2>told2
    expect 'the second run is refused' [ $? -eq 11 ]
    expect 'by a line' grep -q '^test fault on ' log2
    find bisect-trees | sort >after
    expect 'nothing of the first one is touched' cmp before after
    kill -KILL $first && wait $first 2>/dev/null
    kill -KILL "$(cat pid)"
    FARMDAWN_QUIET=1 "$farmdawn" checkout run m m~15 -- sh -c "$at_most_7" sh <stream >log3 2>told3
    expect 'the next run takes what the killed one had' [ $? -eq 0 ]
}

# A folder, file or link of that name that no run has made is left alone.
needs_foreign() { has_program; }
test_foreign() {
    numbers >stream
    mkdir elsewhere && echo mine >elsewhere/file
    for make in 'mkdir -p bisect-trees/0 && echo mine >bisect-trees/0/mine' 'echo mine >bisect-trees' 'ln -s elsewhere bisect-trees'; do
        eval "$make"
        "$farmdawn" checkout run m m~15 -- true <stream >log 2>told
        expect "it is refused: $make" [ $? -eq 11 ]
        expect 'and told' grep -q 'bisect-trees is not used: it is not one that a run made' told
        expect "nothing is touched: $make" [ "$(cat bisect-trees/0/mine bisect-trees bisect-trees/file 2>/dev/null)" = mine ]
        rm -rf bisect-trees
    done
    mkdir bisect-trees
    "$farmdawn" checkout run m m~15 -- false <stream >log 2>told
    expect 'an empty folder is taken' [ $? -eq 0 ]
}

# What a test may leave to a process that runs on, as the test is ended or ends by itself, and that writes into its folder.
# shellcheck disable=SC2016 # the words are those of the inner shell
kinds='a child:sh build.sh "$1";
one that is named in full:sh build.sh "$PWD/$1";
in a session of its own:setsid -w sh build.sh "$1";
where TERM is ignored:trap "" TERM; sh build.sh "$1";
behind the end of the test:sh build.sh "$1"; (sleep 0.1; echo 99 >"$1/n"; echo 99 >"$1/e.o") &'

# A stream of 64 commits whose file has their number, and a build as make does it: what is there is not built again.
builds() {
    awk 'BEGIN { for (i = 1; i <= 64; i++) printf "commit refs/heads/m\nmark :%d\ncommitter T <t@e> %d +0000\ndata 3\nc%02d\nM 100644 inline n\ndata 3\n%02d\n\n", i, i, i, i }' >stream
    # shellcheck disable=SC2016 # the words are those of the inner shell
    echo 'n=$(cat "$1/n"); for f in a b c d e; do sleep "0.0$((1 + $$ % 9))"; [ -e "$1/$f.o" ] || echo "$n" >"$1/$f.o"; done' >build.sh
}

# No test finds in its folder what another one has left running.
needs_running_on() { has_program && has setsid; }
test_running_on() {
    builds
    echo "$kinds" | while IFS=: read -r name build; do
        for workers in 1 4 16; do
            # shellcheck disable=SC2016 # the words are those of the inner shell
            FARMDAWN_QUIET=1 "$farmdawn" checkout run --workers $workers m m~63 -- sh -c "$build"' [ "$(cat "$1/e.o")" -le 40 ]' sh <stream >log 2>told
            row expect "a run ends well ($name, $workers workers)" [ $? -eq 0 ]
            row expect "its answer ($name, $workers workers): $(tail -n 1 log)" grep -q '^# first bad commit: .* c41$' log
        done || exit 1
    done || exit 1
}

# The tests of a run that was killed run on, and the next run does not meet them, also where all folders were removed.
needs_killed_writes() { has_program; }
test_killed_writes() {
    builds
    # shellcheck disable=SC2016 # the words are those of the inner shell
    build='n=$(cat "$1/n"); : >>begun; for f in a b c d e; do sleep 0.2; [ -e "$1/$f.o" ] || echo "$n" >"$1/$f.o"; done; [ "$(cat "$1/e.o")" -le 40 ]'
    for between in true true 'rm -rf bisect-trees'; do
        rm -f begun
        FARMDAWN_QUIET=1 "$farmdawn" checkout run --workers 2 m m~63 -- sh -c "$build" sh <stream >log1 2>told1 &
        first=$!
        wait_until 'the first run tests' [ -e begun ]
        sleep 0.1
        kill -KILL $first && wait $first 2>/dev/null
        $between
        FARMDAWN_QUIET=1 "$farmdawn" checkout run --workers 2 m m~63 -- sh -c "$build" sh <stream >log2 2>told2
        expect 'the next run ends well' [ $? -eq 0 ]
        expect "its answer: $(tail -n 1 log2)" grep -q '^# first bad commit: .* c41$' log2
    done
}

# The folders of the last tests stay until the next run; all others are removed.
needs_folders_stay() { has_program; }
test_folders_stay() {
    numbers >stream
    for _ in 1 2; do
        FARMDAWN_QUIET=1 "$farmdawn" checkout run --workers 2 m m~15 -- sh -c "$at_most_7" sh <stream >log 2>told
        expect 'a run ends well' [ $? -eq 0 ]
        expect "nothing is told: $(cat told)" [ ! -s told ]
        ls bisect-trees >left
        expect "no more than two folders, and the lock: $(cat left)" [ "$(grep -c '^[0-9]*$' left)" -le 2 -a "$(grep -cv '^[0-9]*$' left)" -eq 1 ]
    done
}

# A folder that a process writes to all the time is left in the end, and told of. On a busy machine it writes now and then.
needs_left() { has_program && has python3; }
test_left() {
    numbers >stream
    cat >writer.py <<'X'
import os, sys
number = 0
while os.path.exists("go"):
    number += 1
    try:
        os.makedirs("%s/x/%d" % (sys.argv[1], number % 50))
    except OSError:
        pass
X
    # shellcheck disable=SC2016 # the words are those of the inner shell
    writes='[ "$(cat "$1/n")" -le 7 ]; status=$?; mkdir begun && { python3 writer.py "$1" & while [ ! -e "$1/x" ]; do sleep 0.01; done; }; exit $status'
    for _ in 1 2 3 4 5 6 7 8 9 10; do
        : >go
        FARMDAWN_QUIET=1 "$farmdawn" checkout run m m~15 -- sh -c "$writes" sh <stream >log 2>told
        expect 'a run ends well' [ $? -eq 0 ]
        rm -r go begun
        ! grep -q '^farmdawn: the folder' told || break
    done
    expect "its answer: $(tail -n 1 log)" grep -q '^# first bad commit: .* c08$' log
    expect "a folder is told of: $(cat told)" grep -q '^farmdawn: the folder bisect-trees/[0-9]* is left: ' told
}

# Of many that begin at once each one that is refused says that another one is at work.
needs_at_once() { has_program; }
test_at_once() {
    numbers >stream
    for _ in 1 2 3 4 5 6 7 8 9 10; do
        rm -rf bisect-trees
        for _ in 1 2 3 4 5 6; do
            FARMDAWN_QUIET=1 "$farmdawn" checkout run m m~2 -- sh -c "sleep 0.1" sh <stream >/dev/null 2>>told &
        done
        wait
    done
    expect 'some are refused' grep -q 'another run works in it' told
    expect 'for this reason alone' [ "$(grep 'is not used' told | grep -cv 'another run works in it')" -eq 0 ]
}

# To empty a folder takes as many calls of the system for each level, however deep it is.
needs_deep() { has_program && has strace python3 && strace -o /dev/null true; }
test_deep() {
    numbers >stream
    # shellcheck disable=SC2016 # the words are those of the inner shell
    leave='cd "$2" && python3 -c "
import os
for _ in range($1): os.mkdir(\"d\" * 100); os.chdir(\"d\" * 100)"'
    for levels in 400 1600; do
        "$farmdawn" checkout run m m~1 -- sh -c "$leave" sh $levels <stream >log 2>told
        strace -o calls "$farmdawn" checkout run m m~1 -- true <stream >log 2>told
        wc -l <calls >"calls$levels"
    done
    expect 'four times the levels take at most five times the calls' [ "$(cat calls1600)" -le $(($(cat calls400) * 5)) ]
}

run_test "$@"
