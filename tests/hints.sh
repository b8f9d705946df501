#!/bin/sh
# What the program says on the standard error of a command that the system would not start: which one, and why; and what
# it says of streams that it refuses, those of other exporters among them.
. "$(dirname "$0")/helpers.sh"

# What a command becomes, and what the system says of it then. What cannot be started is the file `./tst.sh`.
cases='missing:rm tst.sh:No such file or directory
not executable:chmod -x tst.sh:Permission denied
a folder:rm tst.sh && mkdir tst.sh:Permission denied
a wrong interpreter:echo "#!/none/sh" >tst.sh:No such file or directory'

# Each way of testing tells it alike, and nothing else is told where tests are silent.
is_told() {
    "$farmdawn" "$@" ./tst.sh <stream >got 2>told
    expect "the test is a fault ($*)" [ $? -eq 11 ]
    expect "the log ends with it ($*)" grep -q '^test fault on ' got
    expect "one line ($*): $(cat told)" [ "$(sed 's/ (os error [0-9]*)$//' told)" = "farmdawn: the command ./tst.sh cannot be started: $reason" ]
}

needs_unstarted() { has_program; }
test_unstarted() {
    export FARMDAWN_QUIET=1
    "$farmdawn" gen 1 20 >stream
    echo "$cases" | while IFS=: read -r name change reason; do
        rm -rf tst.sh bisect.journal
        printf '#!/bin/sh\nexit 1\n' >tst.sh
        chmod +x tst.sh
        eval "$change"
        echo "-- $name"
        is_told run main main~5 --
        is_told run --workers 4 main main~5 --
        is_told certify run main main~5 --
        is_told checkout run main main~5 --
        is_told journal run main main~5 --
    done || exit 1
}

needs_started() { has_program; }
test_started() {
    export FARMDAWN_QUIET=1
    "$farmdawn" gen 1 20 >stream
    "$farmdawn" run main main~5 -- false <stream >got 2>told
    expect 'the first bad commit' [ $? -eq 0 ]
    expect "nothing is told: $(cat told)" [ ! -s told ]
}

# A stream with a command that is not taken goes through git, which a hint says; another refusal has none.
needs_stream() { has_program; }
test_stream() {
    printf 'checkpoint\n' >stream
    "$farmdawn" next main main~1 <stream >got 2>told
    expect 'the stream is refused' [ $? -eq 7 ]
    expect "how it goes through git: $(cat told)" grep -q 'git -C through.git fast-import <STREAM && git -C through.git fast-export --all' told
    printf 'what\n' >stream
    "$farmdawn" next main main~1 <stream >got 2>told
    expect 'another refusal says nothing more' [ $? -eq 7 -a ! -s told ]
}

# A stream without `done` may have broken off: that is said where no test was bad, and not where one was, or where the
# stream has its `done`.
needs_open() { has_program; }
test_open() {
    export FARMDAWN_QUIET=1
    "$farmdawn" gen 1 20 >stream
    (echo 'feature done' && cat stream && echo done) >whole
    for command in run 'run --workers 4' 'certify run' 'checkout run' 'journal run'; do
        for row in 'stream true told' 'stream false silent' 'whole true silent' 'whole false silent'; do
            # shellcheck disable=SC2086 # the words of the row
            set -- $row
            rm -f bisect.journal
            # shellcheck disable=SC2086 # the words of the command
            "$farmdawn" $command main main~5 -- "$2" <"$1" >got 2>told
            row expect "the first bad commit ($command, $row)" [ $? -eq 0 ]
            case $3 in
                told) expect "it is said ($command, $row)" grep -q '^farmdawn: no test was bad, and the stream had no done at its end' told ;;
                *) expect "nothing is said ($command, $row): $(cat told)" [ ! -s told ] ;;
            esac
        done || exit 1
    done || exit 1
    "$farmdawn" simulate main main~5 gggggggggggggggggggg <stream >got 2>told
    expect 'nothing is said of a plan' [ $? -eq 0 -a ! -s told ]
}

# A stream with a tag that names no commit is refused, and the hint says how git leaves it out.
needs_tags() { has_program && has git; }
test_tags() {
    git init -q -b main r && cd r || exit 1
    for i in 1 2 3; do echo $i >n && git add n && git commit -q -m "c$i"; done
    git tag -a -m x v1.0 main~2
    git tag -a -m key key "$(echo key | git hash-object -w --stdin)"
    git fast-export --all | "$farmdawn" simulate main v1.0 ggb >got 2>told
    expect 'a tag of a blob is refused' grep -q '^stream refused at line [0-9]*: unsupported$' got
    expect "what to write: $(cat told)" grep -q -e '--tag-of-filtered-object=drop' told
    drop='--use-done-feature --reencode=no --signed-tags=strip --tag-of-filtered-object=drop'
    for refs in '--all --no-data' '--branches --tags=v*'; do
        # shellcheck disable=SC2086 # the words of the options
        git fast-export $refs $drop | "$farmdawn" simulate main v1.0 ggb >got 2>told
        row expect "it is left out ($refs): $(cat got told)" grep -q '^# first bad commit: .* c3$' got
    done
}

# What other exporters write: by whom, the lines of a stream, its refusal, and whether git takes it. COMMIT is one of five lines.
exported='svn-all-fast-export;COMMIT|checkpoint;6: unsupported;taken
git-remote-hg, as it begins;feature done|feature force|COMMIT|done;2: unsupported;taken
git-remote-hg, a note;COMMIT|commit refs/notes/n|committer a <a@a> 1 +0000|data 1|x|N inline :1|data 1|n;10: unsupported;taken
brz, a file that is renamed;COMMIT|M 644 inline a|data 1|x|R a b;9: unsupported;taken
cvs-fast-export and brz, a property;COMMIT|property p 1 v;6: syntax;refused
hg and brz, a committer without a name;commit refs/heads/m|committer <a@a> 1 +0000|data 1|x;none;taken'

# Each is refused at its line, with its kind; and where git takes it, it is taken as git writes it, and has git's name.
needs_exported() { has_program && has git; }
test_exported() {
    commit='commit refs/heads/m|mark :1|committer a <a@a> 1 +0000|data 1|x'
    echo "$exported" | while IFS=';' read -r by lines refusal git; do
        echo "$lines" | sed "s#COMMIT#$commit#" | tr '|' '\n' >stream
        "$farmdawn" next m m <stream >got 2>/dev/null
        status=$?
        if [ "$refusal" = none ]; then
            row expect "taken ($by)" [ $status -eq 5 ]
        else
            row expect "refused ($by)" [ $status -eq 7 ]
            row expect "at its line ($by: $(cat got))" [ "$(cat got)" = "stream refused at line $refusal" ]
        fi
        rm -rf through.git && git init -q --bare through.git
        if [ "$git" = refused ]; then
            row expect "git refuses it ($by)" sh -c '! git -C through.git fast-import --quiet <stream 2>/dev/null'
            continue
        fi
        row expect "git takes it ($by)" git -C through.git fast-import --quiet <stream
        name=$(git -C through.git rev-parse m)
        row expect "by another name, where it was taken ($by)" sh -c '! grep -q "$0" got' "$name"
        git -C through.git fast-export --all >exported && "$farmdawn" next m m <exported >got
        row expect "taken as git writes it, by git's name ($by: $(cat got))" [ "$(tail -n 1 got)" = "$name was both good and bad" ]
    done || exit 1
}

run_test "$@"
